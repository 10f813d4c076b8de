//! The left operand of pow is any word and is taken modulo p, but in stored bytes, where it is below p.
mod common;

use common::{lent, list_of, plain_result, tables_of, Random};
use u32_table::opcodes::{AND, LOG_2_FLOOR, LT, POW};
use u32_table::{check, compare, fill, plan, stored_bytes, write, Verdict};
use u32_table::{Entry, Plan, Refusal, Sizes, COLUMNS, P};
use Refusal::*;

const WIDE: u64 = 1 << 32;

/// A key of pow.
fn pow(base: u64, exponent: u64) -> Entry {
    Entry::new(POW, base, exponent)
}

/// An entry recorded onto a fresh list: its words there, or the reason.
fn recorded(entry: Entry) -> Result<Vec<u64>, Refusal> {
    let mut list = lent(1, &[]);
    list.record(entry).map(|_| list.keys)
}

#[test]
fn bases_are_reduced() {
    for (base, exponent, due) in
        [(P - 1, 3, P - 1), (P, 3, 0), (P + 5, 2, 5), (u64::MAX, 0, WIDE - 2), (u64::MAX - 1, WIDE - 1, WIDE - 3), (0, 0, 0)]
    {
        assert_eq!(recorded(pow(base, exponent)), Ok(vec![POW, due, exponent]), "{base}");
    }
    for entry in
        [pow(u64::MAX, WIDE), pow(P, WIDE), pow(0, P), Entry::new(LT, 0, P), Entry::new(LT, P, 0), Entry::new(LOG_2_FLOOR, P, 0)]
    {
        assert_eq!(recorded(entry), Err(Wide), "{entry:?}");
    }
    assert_eq!(recorded(Entry::new(5, P, 0)), Err(Stranger));
}

#[test]
fn two_words_of_one_base_are_one_key() {
    let mut list = lent(3, &[]);
    for (entry, place) in [(pow(P + 5, 2), 0), (pow(5, 2), 0), (pow(u64::MAX, 0), 1), (pow(WIDE - 2, 0), 1), (pow(P + 5, 3), 2)] {
        assert_eq!(list.record(entry), Ok(place), "{entry:?}");
    }
    assert_eq!(list, lent(3, &[(POW, 5, 2, 2), (POW, WIDE - 2, 0, 2), (POW, 5, 3, 1)]));
    // comparing looks at the words
    assert!(compare(pow(P + 5, 2), pow(5, 2)).is_gt());
}

/// A word of p or more among the keys, put there by the caller.
#[test]
fn a_raw_key_counts_as_its_reduced_form() {
    let mut raw = lent(1, &[(POW, P + 5, 2, 7)]);
    assert_eq!(raw.record(pow(5, 2)), Ok(0));
    assert_eq!(raw, lent(1, &[(POW, P + 5, 2, 8)]));

    let mut out = [9; 34];
    assert_eq!(raw.write(&mut out), Ok(33));
    assert_eq!(out[8..17], [30, 5, 0, 0, 0, 0, 0, 0, 0]);
    let mut read = lent(1, &[]);
    assert_eq!((read.read(&out[..33]), read), (Ok(1), lent(1, &[(POW, 5, 2, 8)])));

    let (two, both) = (Sizes { capacity: 2, used: 2 }, [POW, P + 5, 2, POW, 5, 2]);
    let mut table = [9; 6 * COLUMNS];
    assert_eq!(plan(two, &both, &[7, 1], &[0; 2]), Ok(Plan { height: 6, padded_height: 256 }));
    assert_eq!(fill(two, &both, &[7, 1], &[0; 2], &mut table), Ok(6));
    for (row, count) in [(0, 7), (3, 1)] {
        let row = &table[row * COLUMNS..][..COLUMNS];
        assert_eq!((row[4], row[6], row[8], row[9]), (5, 2, 25, count));
    }
    assert_eq!(write(two, &both, &[7, 1], &[0; 2], &mut [0; 58]), Err(Repeat));
    assert_eq!(lent(1, &[(POW, u64::MAX, WIDE - 1, 1)]).plan(), Ok((33, 256)));
}

/// In stored bytes the base is taken as it stands, entry by entry.
#[test]
fn stored_bases_are_below_p() {
    let stored = |entries: &[(u8, u64, u64)], height: u8| {
        let mut bytes = [[entries.len() as u8, 0, 0, 0], [height, 0, 0, 0]].concat();
        for (opcode, left, right) in entries {
            bytes.push(*opcode);
            bytes.extend(left.to_le_bytes());
            bytes.extend(right.to_le_bytes());
        }
        entries.iter().for_each(|_| bytes.extend(1u64.to_le_bytes()));
        assert_eq!(bytes.len(), stored_bytes(entries.len()));
        bytes
    };
    for (entries, due) in [
        (&[(30, P - 1, 0)][..], Ok(1)),
        (&[(30, P, 0)], Err(Wide)),
        (&[(30, P + 5, 2)], Err(Wide)),
        (&[(30, u64::MAX, 0)], Err(Wide)),
        (&[(30, P, 0), (5, 0, 0)], Err(Wide)),
        (&[(5, 0, 0), (30, P, 0)], Err(Stranger)),
        (&[(30, 0, 0), (30, P, 0)], Err(Wide)),
    ] {
        let mut list = lent(2, &[]);
        assert_eq!(list.read(&stored(entries, 1)), due, "{entries:?}");
        assert!(due.is_ok() || list == lent(2, &[]));
    }
}

/// Recorded raw or reduced: the same list, table, sum and bytes, and the table is honest.
#[test]
fn lists_of_raw_bases() {
    let mut random = Random(7);
    for _ in 0..20 {
        let reduced: Vec<Entry> = (0..60)
            .map(|i| match i % 3 {
                0 => Entry::new(AND, random.operand(), random.operand()),
                1 => pow(random.below(P), random.operand()),
                _ => pow(random.below(WIDE - 1), random.operand()),
            })
            .collect();
        let raw: Vec<Entry> = reduced
            .iter()
            .map(|e| match e.left_operand.checked_add(P) {
                Some(word) if e.opcode == POW => pow(word, e.right_operand),
                _ => *e,
            })
            .collect();
        assert!(raw.iter().zip(&reduced).any(|(a, b)| a != b));
        let (a, b) = (list_of(&raw), list_of(&reduced));
        assert_eq!(a.to_bytes(), b.to_bytes());
        let challenges = random.challenges();
        let (made, plain) = (tables_of(&a, &challenges), tables_of(&b, &challenges));
        assert_eq!((&made.table, &made.aux, made.sum), (&plain.table, &plain.aux, plain.sum));
        assert_eq!(check(&made.table, &made.aux, &challenges), Ok(Verdict::Zero));
        let first = made.table.chunks(COLUMNS).find(|row| row[0] == 1 && row[3] == POW).unwrap();
        assert_eq!(first[8], plain_result(pow(first[4], first[6])));
    }
}
