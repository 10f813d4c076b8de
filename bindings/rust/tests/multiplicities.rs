//! Multiplicities up to p − 1, and stored lists of both lengths.
mod common;

use common::{height, lent, list_of, Random};
use u32_table::opcodes::{AND, LOG_2_FLOOR, LT, POW};
use u32_table::{check, column, extend, fill, pad, plan, stored_bytes, write};
use u32_table::{Entry, List, Plan, Refusal, Sizes, Verdict, AUX_COLUMNS, COLUMNS, MAX_PLACES, P};
use Refusal::*;

const ONE: Sizes = Sizes { capacity: 1, used: 1 };
const AND_3_1: [u64; 3] = [AND, 3, 1];

/// The bytes of a stored list with multiplicities of so many bytes.
fn stored(entries: &[(Entry, u64)], width: usize) -> Vec<u8> {
    let sum: usize = entries.iter().map(|(e, _)| height(*e)).sum();
    let mut bytes = [(entries.len() as u32).to_le_bytes(), (sum as u32).to_le_bytes()].concat();
    for (e, _) in entries {
        bytes.push(e.opcode as u8);
        bytes.extend(e.left_operand.to_le_bytes());
        bytes.extend(e.right_operand.to_le_bytes());
    }
    entries.iter().for_each(|(_, count)| bytes.extend(&count.to_le_bytes()[..width]));
    bytes
}

/// Reads onto so many places: the list, or the reason, with nothing changed.
fn list_read(bytes: &[u8], capacity: usize) -> Result<Vec<(Entry, u64)>, Refusal> {
    let mut list = lent(capacity, &[]);
    let answer = list.read(bytes);
    let n = answer.unwrap_or(0);
    let entries: Vec<_> = list.keys.chunks(3).zip(&list.multiplicities).take(n).map(|(k, n)| (k[0], k[1], k[2], *n)).collect();
    assert_eq!(list, lent(capacity, &entries));
    answer.map(|_| entries.into_iter().map(|(opcode, left, right, n)| (Entry::new(opcode, left, right), n)).collect())
}

#[test]
fn recordings_count_to_the_limit() {
    for (count, due) in [
        ((1 << 32) - 1, Ok(1 << 32)),
        (1 << 32, Ok((1 << 32) + 1)),
        (P - 2, Ok(P - 1)),
        (P - 1, Err(CountFull)),
        (P, Err(CountFull)),
        (u64::MAX, Err(CountFull)),
    ] {
        let mut list = lent(1, &[(AND, 3, 1, count)]);
        assert_eq!(list.record(Entry::new(AND, 3, 1)), due.map(|_| 0), "{count}");
        assert_eq!(list, lent(1, &[(AND, 3, 1, due.unwrap_or(count))]));
    }
}

#[test]
fn the_other_calls_have_the_same_limit() {
    for (count, fine) in [(1 << 32, true), (P - 1, true), (P, false), (u64::MAX, false)] {
        let (mut table, mut out) = ([9; 3 * COLUMNS], [9; 33]);
        let due = |answer: usize| if fine { Ok(answer) } else { Err(CountFull) };
        assert_eq!(plan(ONE, &AND_3_1, &[count], &[0]), due(3).map(|height| Plan { height, padded_height: 256 }));
        assert_eq!(fill(ONE, &AND_3_1, &[count], &[0], &mut table), due(3));
        assert_eq!(write(ONE, &AND_3_1, &[count], &[0], &mut out), due(33));
        assert_eq!((table[column::LOOKUP_MULTIPLICITY], table[0]), if fine { (count, 1) } else { (9, 9) });
        assert_eq!(out[25..], if fine { count.to_le_bytes() } else { [9; 8] });
        assert_eq!(list_read(&stored(&[(Entry::new(AND, 3, 1), count)], 8), 1).map(|list| list[0].1), due(0).map(|_| count));
    }
}

/// and 3, 1 counted p − 1 times, Indeterminate 1: each inverse is 1, and the sum is p − 1.
#[test]
fn a_table_with_the_largest_count() {
    let mut challenges = [0; 15];
    challenges[0] = 1;
    let (mut table, mut aux) = ([0; 256 * COLUMNS], [0; 256 * AUX_COLUMNS]);
    assert_eq!(fill(ONE, &AND_3_1, &[P - 1], &[0], &mut table), Ok(3));
    assert_eq!(pad(&mut table, 3), Ok(()));
    assert_eq!(extend(&table, &mut aux, &challenges), Ok([P - 1, 0, 0]));
    assert_eq!(check(&table, &aux, &challenges), Ok(Verdict::Zero));
}

#[test]
fn the_length_tells_the_form() {
    let list = [(Entry::new(AND, 3, 1), 2)];
    let (old, new) = (stored(&list, 4), stored(&list, 8));
    assert_eq!((old.len(), new.len()), (29, 33));
    assert_eq!(list_read(&old, 1), Ok(list.to_vec()));
    assert_eq!(list_read(&new, 1), Ok(list.to_vec()));
    let longer = [new, vec![0]].concat();
    for length in [0, 7, 8, 24, 25, 28, 30, 31, 32, 34] {
        assert_eq!(list_read(&longer[..length], 1), Err(Torn), "{length}");
    }
    assert_eq!(list_read(&[0; 8], 0), Ok(vec![]));
    assert_eq!(List::new(0).unwrap().to_bytes(), Ok(vec![0; 8]));
}

/// Both forms give the same list, and both are written in the new one.
#[test]
fn old_lists_are_read_and_written_anew() {
    let mut random = Random(9);
    for n in [1, 2, 17, 300, MAX_PLACES] {
        let entries: Vec<Entry> = (0..n).map(|i| Entry::new(LT, i as u64, random.operand())).collect();
        let list: Vec<(Entry, u64)> = entries.iter().map(|e| (*e, random.operand().max(1))).collect();
        let (old, new) = (stored(&list, 4), stored(&list, 8));
        assert_eq!((old.len(), new.len()), (8 + 21 * n, stored_bytes(n)));
        let [from_old, from_new] = [&old, &new].map(|bytes| List::from_bytes(bytes, MAX_PLACES).unwrap());
        assert_eq!(from_old, from_new);
        assert_eq!(from_old.entries().collect::<Vec<_>>(), list);
        assert_eq!(from_old.to_bytes(), Ok(new.clone()));
        assert_eq!(from_new.to_bytes(), Ok(new));
        // as many bytes as the old list had are too few
        let mut out = old.clone();
        assert_eq!(from_old.write(&mut out), Err(Short));
        assert_eq!(out, old);
    }
}

#[test]
fn large_counts_read_back() {
    let mut random = Random(10);
    for _ in 0..200 {
        let n = 1 + random.below(6);
        let list: Vec<(Entry, u64)> = (0..n).map(|i| (Entry::new(POW, random.below(P), i), 1 + random.below(P - 1))).collect();
        let bytes = stored(&list, 8);
        assert_eq!(list_read(&bytes, n as usize), Ok(list));
        assert_eq!(List::from_bytes(&bytes, MAX_PLACES).unwrap().to_bytes(), Ok(bytes));
    }
}

/// "Reading meets 5 after 4, entry by entry".
#[test]
fn order_of_reading() {
    let (fine, other) = (Entry::new(AND, 3, 1), Entry::new(LT, 2, 3));
    let (stranger, wide) = (Entry::new(5, 0, 0), Entry::new(LT, 1 << 32, 0));
    let bare = Entry::new(LOG_2_FLOOR, 0, 0);
    for (list, due) in [
        ([(fine, P), (stranger, 1)], CountFull),
        ([(stranger, 1), (fine, P)], Stranger),
        ([(fine, P), (wide, 1)], CountFull),
        ([(wide, P), (fine, P)], Wide),
        ([(bare, P), (fine, 1)], BareLog),
        ([(fine, P), (bare, 1)], CountFull),
        ([(fine, 1), (fine, P)], CountFull),
        ([(fine, 1), (fine, P - 1)], Repeat),
        ([(fine, 1), (other, u64::MAX)], CountFull),
    ] {
        assert_eq!(list_read(&stored(&list, 8), 2), Err(due), "{list:?}");
        assert_eq!(list_read(&stored(&list, 8), 1), Err(ListFull));
    }
    let mut bytes = stored(&[(fine, P)], 8);
    bytes[4] ^= 1;
    assert_eq!(list_read(&bytes, 1), Err(CountFull));
    bytes[25..].copy_from_slice(&(P - 1).to_le_bytes());
    assert_eq!(list_read(&bytes, 1), Err(Tally));
}

/// What no refusal tells: a list of the new length, cut by 4 N bytes, is one of the old length.
#[test]
fn a_cut_list_is_an_old_list() {
    let one = stored(&[(Entry::new(AND, 3, 1), (1 << 32) + 2)], 8);
    assert_eq!(list_read(&one[..29], 1), Ok(vec![(Entry::new(AND, 3, 1), 2)]));
    let two = stored(&[(Entry::new(AND, 3, 1), (7 << 32) + 2), (Entry::new(LT, 2, 3), 5)], 8);
    assert_eq!(list_read(&two[..50], 2), Ok(vec![(Entry::new(AND, 3, 1), 2), (Entry::new(LT, 2, 3), 7)]));
    let mut random = Random(11);
    let list = list_of(&(0..300).map(|_| random.entry()).collect::<Vec<_>>());
    let bytes = list.to_bytes().unwrap();
    let cut = List::from_bytes(&bytes[..8 + 21 * list.len()], MAX_PLACES).unwrap();
    assert!(cut.entries().map(|(e, _)| e).eq(list.entries().map(|(e, _)| e)));
    let halves = bytes[8 + 17 * list.len()..].chunks(4).map(|half| u64::from(u32::from_le_bytes(half.try_into().unwrap())));
    assert!(cut.entries().map(|(_, count)| count).eq(halves.take(list.len())));
}
