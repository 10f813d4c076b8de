//! What document 01 prints, works out or warns of.
use crate::model::{assert_sound, inverse_or_zero, mul, sub};
use oracle::*;

/// Indeterminate (1, 0, 0), weights zero.
pub const PLAIN: Challenges = [1, 0, 0, 0, 0, 0, 0, 0, 0, 0, 0, 0, 0, 0, 0];

/// Filled and padded, with at least this many rows of padding, and at least one row.
pub fn made(list: &[Entry], padding: usize) -> Vec<Row> {
    let mut rows = filled(list);
    let height = rows.len();
    rows.resize((height + padding).max(1), [0; 10]);
    pad(&mut rows, height);
    rows
}

pub fn verdict(rows: &[Row]) -> Option<ConstraintValue> {
    Constraints::new().verdict(rows, &extend(rows, &PLAIN), &PLAIN)
}

#[test]
fn counts_of_the_groups() {
    assert_eq!([1, 15, 22, 2], Constraints::new().counts());
}

#[test]
fn the_printed_session() {
    let opening = "\
entries 1 rows 3 padded 256
1 0 15651782846776010939 14 3 12297829379609722881 1 1 1 2
0 1 576460752169205760 14 1 1 0 0 0 0
0 2 7140675123644355221 14 0 0 0 0 0 0
";
    let padding = "0 0 15651782846776010939 14 0 0 0 0 0 0\n".repeat(253);
    let expected = format!("{opening}{padding}sum 2 0 0\nzero\n");
    assert_eq!(expected, text::session(&[entry(14, 3, 1, 2)], &PLAIN));
}

#[test]
fn the_proved_examples() {
    let most = (1 << 32) - 1;
    assert_eq!(1, height([14, 0, 0]));
    assert_eq!(2, height([14, 1, 0]));
    assert_eq!(33, height([6, most, 0]));
    assert_eq!(1, height([30, P - 1, 0]));

    let result = |opcode, lhs, rhs| filled(&[entry(opcode, lhs, rhs, 1)])[0][8];
    assert_eq!(0, result(6, 0, 0));
    assert_eq!(2, made(&[entry(6, 0, 0, 1)], 1)[1][8]);
    assert_eq!(0, result(6, 3, 3));
    assert_eq!(1, result(6, 2, 3));
    assert_eq!(1, result(30, 0, 0));
    assert_eq!(4294967295, result(30, 2, 64));
    assert_eq!(0, result(12, 1, 0));
    assert_eq!(32, result(28, most, 0));

    use twenty_first::prelude::*;
    let x = xfe!([bfe!(0), bfe!(1), bfe!(0)]);
    assert_eq!(xfe!([bfe!(P - 1), bfe!(1), bfe!(0)]), x * x * x);
}

#[test]
fn no_entries() {
    let padding = "0 0 15651782846776010939 4 0 0 0 0 0 0\n".repeat(256);
    let expected = format!("entries 0 rows 0 padded 256\n{padding}sum 0 0 0\nzero\n");
    assert_eq!(expected, text::session(&[], &PLAIN));
}

/// A key counted zero times is an entry of the stored list and has no section.
#[test]
fn a_key_counted_zero_times() {
    let alone = text::session(&[entry(14, 3, 1, 2)], &PLAIN);
    let session = text::session(&[entry(14, 1, 1, 0), entry(14, 3, 1, 2)], &PLAIN);
    assert_eq!(alone.replace("entries 1", "entries 2"), session);
    let none = text::session(&[], &PLAIN).replace("entries 0", "entries 1");
    assert_eq!(none, text::session(&[entry(14, 1, 1, 0)], &PLAIN));
}

/// "Copying Result into the padding after lt on 0 and 0."
#[test]
fn padding_after_lt_on_zeros() {
    let mut rows = made(&[entry(6, 0, 0, 1)], 2);
    assert_eq!(None, verdict(&rows));
    rows[1][8] = 0;
    assert!(verdict(&rows).is_some());
}

/// "Halving LHS in pow."
#[test]
fn pow_with_lhs_halved() {
    let mut rows = made(&[entry(30, 6, 2, 1)], 0);
    assert_eq!(None, verdict(&rows));
    for (i, row) in rows.iter_mut().enumerate() {
        row[4] = 6 >> i;
        row[5] = inverse_or_zero(row[4]);
    }
    assert!(verdict(&rows).is_some());
}

/// "Asking the lower row's CI whether the upper row is pow."
#[test]
fn pow_followed_by_lt() {
    let rows = made(&[entry(30, 7, 0, 1), entry(6, 2, 3, 1)], 1);
    assert_eq!(None, verdict(&rows));
    assert_ne!(0, mul(rows[0][4], sub(rows[1][3], 30)), "with the lower CI it would not be zero");
}

/// "Taking any nonzero CopyFlag for 1 in extension."
#[test]
fn copy_flag_two() {
    let mut rows = made(&[], 1);
    (rows[0][0], rows[0][9]) = (2, 5);
    assert_eq!(vec![[0; 3]], extend(&rows, &PLAIN));
    assert_eq!(Some(0), verdict(&rows).map(|value| value.group));
}

/// "Believing a section ends at its first all-zero row": below it, LHS walks along the bits of p, from 0 = p down to 0 again.
#[test]
fn a_section_that_goes_on() {
    let mut rows = filled(&[entry(4, 5, 3, 1)]);
    let mut lhs = 0;
    for k in 0..64 {
        lhs = mul(sub(lhs, P >> k & 1), inverse_or_zero(2));
        let bits = 34 + k;
        rows.push([0, bits, inverse_or_zero(sub(bits, 33)), 4, lhs, inverse_or_zero(lhs), 0, 0, 0, 0]);
    }
    assert_eq!(0, lhs);
    assert_eq!(None, verdict(&rows));
    assert_sound(&rows, &extend(&rows, &PLAIN), &PLAIN);
}

/// One false Result in an honest table.
#[test]
fn a_forged_comparison() {
    let mut rows = made(&[entry(6, 2, 3, 1), entry(14, 3, 1, 2)], 1);
    assert_eq!(None, verdict(&rows));
    rows[0][8] = 0;
    assert!(verdict(&rows).is_some());
}

#[test]
fn the_opcodes() {
    use isa::instruction::Instruction;
    let names = OPCODES.map(|opcode| Instruction::try_from(opcode).unwrap().name());
    assert_eq!(["split", "lt", "log_2_floor", "and", "pop_count", "pow"], names);
}
