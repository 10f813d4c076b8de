//! Where the original does otherwise than document 01 asks: each with the smallest input. docs/DIFFERENCES.md lists them.
use std::cmp::Ordering::*;

use air::challenge_id::ChallengeId;
use air::table::u32::U32Table;
use ndarray::Array2;
use triton_vm::reach;
use triton_vm::table::TraceTable;
use twenty_first::prelude::*;

use crate::document::{PLAIN, made, verdict};
use oracle::*;

fn panics<T>(call: impl FnOnce() -> T) -> bool {
    caught(call).is_err()
}

/// Document 01: refused with 4. The original fills -1, and breaks its own constraint 1:13.
#[test]
fn log_2_floor_of_zero() {
    for rhs in [0, 1, 5] {
        let rows = made(&[entry(12, 0, rhs, 1)], 0);
        assert_eq!(P - 1, rows[0][8]);
        let found = ConstraintValue { group: 1, row: 0, index: 13, value: [18446744069414556673, 0, 0] };
        assert_eq!(Some(found), verdict(&rows));
    }
}

/// Document 01: refused with 3. The original answers a height, records it, and panics when it is filled.
#[test]
fn wide_operands() {
    let wide = 1 << 32;
    for opcode in OPCODES {
        let is_pow = opcode == 30;
        assert!(!panics(|| filled(&[entry(opcode, 1, wide - 1, 1)])));
        assert!(panics(|| filled(&[entry(opcode, 1, wide, 1)])));
        assert_eq!(is_pow, !panics(|| filled(&[entry(opcode, wide, 0, 1)])));
        assert_eq!(is_pow, !panics(|| filled(&[entry(opcode, P - 1, 0, 1)])));
        assert_eq!(34, height([opcode, 1, wide]));
        assert_eq!(vec![entry(opcode, 1, wide, 1)], record(&[], &[[opcode, 1, wide]]));
    }
}

/// Document 01: refused with 2. In the original, other instructions are recorded, and panic when they are filled; a number that is
/// no instruction's opcode cannot be an entry.
#[test]
fn other_opcodes() {
    let [halt, xor, none] = [0, 22, 5];
    for opcode in [halt, xor] {
        assert_eq!(vec![entry(opcode, 0, 0, 1)], record(&[], &[[opcode, 0, 0]]));
        assert!(panics(|| filled(&[entry(opcode, 0, 0, 1)])));
    }
    assert!(panics(|| record(&[], &[[none, 0, 0]])));
    assert!((0..100).all(|opcode| OPCODES.contains(&opcode) != panics(|| filled(&[entry(opcode, 0, 0, 1)]))));
}

/// No difference, since request 7: a base of pow is taken modulo p, and two words of one base are one key.
#[test]
fn bases_of_p_or_more() {
    for base in [0, 5, (1 << 32) - 2] {
        assert_eq!(filled(&[entry(30, base, 3, 7)]), filled(&[entry(30, base + P, 3, 7)]));
        assert_eq!(height([30, base, 3]), height([30, base + P, 3]));
        assert_eq!(vec![entry(30, base, 3, 2)], record(&[], &[[30, base + P, 3], [30, base, 3]]));
        assert_eq!(vec![entry(30, base, 3, 8)], record(&[entry(30, base + P, 3, 7)], &[[30, base, 3]]));
    }
}

/// Document 01: refused with 3 or 8, but for bases of pow, and compared as they are. The original's elements are reduced.
#[test]
fn words_of_p_or_more() {
    assert_eq!(filled(&[entry(14, 3, 1, 2)]), filled(&[entry(14, P + 3, P + 1, P + 2)]));
    assert_eq!(vec![entry(30, 0, 1, 2)], record(&[], &[[30, 0, 1], [30, P, 1]]));
    assert_eq!(Equal, order([30, 0, 0], [30, P, 0]));
    assert_eq!(Less, order([30, P, 0], [30, 1, 0]));
    let rows = made(&[entry(14, 3, 1, 2)], 1);
    let above = rows.iter().map(|row| row.map(|word| word.checked_add(P).unwrap_or(word))).collect::<Vec<_>>();
    assert_ne!(rows, above);
    assert_eq!(extend(&rows, &PLAIN), extend(&above, &PLAIN));
    assert_eq!(None, verdict(&above));
}

/// Up to p - 1 no difference any more, since request 9: the original counts in 64 bits, and so do we. At p we refuse with 5. The original
/// counts on (past 64 bits from 0 again, without overflow checks), and its table has the count modulo p.
#[test]
fn multiplicities_past_32_bits() {
    let counted = |multiplicity| entry(14, 3, 1, multiplicity);
    for most in [(1 << 32) - 1, 1 << 32, P - 2, P - 1, P] {
        assert_eq!(vec![counted(most + 1)], record(&[counted(most)], &[[14, 3, 1]]));
    }
    for count in [(1 << 32) - 1, 1 << 32, P - 1] {
        let rows = made(&[counted(count)], 1);
        assert_eq!((count, None), (rows[0][9], verdict(&rows)));
        assert_eq!(Some(&[count, 0, 0]), extend(&rows, &PLAIN).last());
    }
    assert_eq!(made(&[counted(0)], 1), made(&[counted(P)], 1));
    if !cfg!(debug_assertions) {
        assert_eq!(vec![counted(0)], record(&[counted(u64::MAX)], &[[14, 3, 1]]));
    }
}

/// Document 01: refused with 6, or 1. The original's list has no capacity.
#[test]
fn lists_past_2048_places() {
    let keys: Vec<Key> = (0..2049).map(|lhs| [14, lhs, 0]).collect();
    assert_eq!(2049, record(&[], &keys).len());
}

/// Document 01: refused with 7, nothing changed. The original panics with the sections before already written.
#[test]
fn a_table_below_the_height() {
    let list = [entry(14, 0, 0, 1), entry(14, 1, 0, 1)];
    assert!(!panics(|| fill(&list, &mut [[0; 10]; 3])));
    assert!(panics(|| fill(&list, &mut [[0; 10]; 2])));

    let mut trace = reach::empty_trace();
    list.iter().for_each(|entry| reach::record(&mut trace, original(entry.key)));
    let mut table = Array2::zeros([2, 10]);
    assert!(panics(|| U32Table::fill(table.view_mut(), &trace, ())));
    assert_eq!(bfe!(1), table[[0, 0]], "the first section's CopyFlag");
}

fn original([opcode, lhs, rhs]: Key) -> triton_vm::table::u32::U32TableEntry {
    triton_vm::table::u32::U32TableEntry::new(opcode.try_into().unwrap(), lhs, rhs)
}

/// Document 01: refused with 7.
#[test]
fn a_filled_count_above_the_rows() {
    assert!(!panics(|| pad(&mut [[0; 10]; 2], 2)));
    assert!(panics(|| pad(&mut [[0; 10]; 2], 3)));
    assert!(panics(|| pad(&mut [], 1)));
}

/// Document 01: refused with 9. The original panics, also where the multiplicity is 0; a CopyFlag other than 1 is not looked at.
#[test]
fn flat_denominators() {
    let flat = [0; 15];
    for multiplicity in [0, 1] {
        let mut rows = made(&[entry(14, 0, 0, multiplicity)], 0);
        assert!(panics(|| extend(&rows, &flat)));
        rows[0][0] = 2;
        assert_eq!(vec![[0; 3]], extend(&rows, &flat));
    }
}

/// Document 01: on a refusal nothing is changed. The original panics with the sums before already written.
#[test]
fn a_flat_denominator_after_another() {
    let mut challenges = triton_vm::challenges::Challenges { challenges: [xfe!(0); triton_vm::challenges::Challenges::COUNT] };
    challenges.challenges[ChallengeId::U32Indeterminate.index()] = xfe!(14);
    challenges.challenges[ChallengeId::U32CiWeight.index()] = xfe!(1);
    let mut table = Array2::zeros([2, 10]);
    for (i, opcode) in [6, 14].into_iter().enumerate() {
        (table[[i, 0]], table[[i, 3]], table[[i, 9]]) = (bfe!(1), bfe!(opcode), bfe!(8));
    }
    let mut aux = Array2::<XFieldElement>::zeros([2, 1]);
    assert!(panics(|| U32Table::extend(table.view(), aux.view_mut(), &challenges)));
    assert_eq!([xfe!(1), xfe!(0)], [aux[[0, 0]], aux[[1, 0]]]);
}

/// Document 01: refused with 1. The original asserts it.
#[test]
fn an_aux_table_of_another_height() {
    let challenges = triton_vm::challenges::Challenges { challenges: [xfe!(1); triton_vm::challenges::Challenges::COUNT] };
    let mut aux = Array2::<XFieldElement>::zeros([3, 1]);
    assert!(panics(|| U32Table::extend(Array2::zeros([2, 10]).view(), aux.view_mut(), &challenges)));
}

/// No difference any more, since request 4: the original's padded height is the largest table's, and the byte lookup has 256 rows.
#[test]
fn padded_heights() {
    let list = |n: u64| (0..n).map(|lhs| entry(14, 1 << 31 | lhs, 0, 1)).collect::<Vec<_>>();
    for (n, height, padded) in [(0, 0, 256), (7, 231, 256), (8, 264, 512)] {
        assert_eq!(height, list_height(&list(n)));
        assert_eq!(padded, original_padded_height(&list(n)));
        assert_eq!(padded, height.next_power_of_two().max(256));
    }
}
