//! Every reason to decline, in its order, and that a refused call has changed nothing it was lent.
mod common;

use common::{lent, list_of, tables_of, Lent, Random};
use std::collections::BTreeSet;
use u32_table::opcodes::{AND, LOG_2_FLOOR, LT, POW, SPLIT};
use u32_table::{
    check, column, extend, fill, pad, plan, refused_entry, Entry, List, Refusal, Sizes, Verdict, COLUMNS, MAX_ROWS, P,
};
use Refusal::*;

const WIDE: u64 = 1 << 32;
const MOST_COUNT: u64 = P - 1;

#[test]
fn numbers_and_words() {
    let numbers = 1..=17;
    assert_eq!(Refusal::all().len(), numbers.clone().count());
    for (number, reason) in numbers.zip(Refusal::all()) {
        assert_eq!(reason.number(), number);
        assert_eq!(Refusal::from_number(number), Some(reason));
        assert_eq!(reason.to_string(), format!("refused {number} ({})", reason.word()));
    }
    assert_eq!(Refusal::all().len(), 17);
    // a number without a name is kept
    for number in [18, 99, u64::MAX] {
        let other = Refusal::from_number(number).unwrap();
        assert_eq!((other, other.number()), (Other(number), number));
        assert_eq!(other.to_string(), format!("refused {number} (without a name)"));
    }
    assert_eq!(Refusal::from_number(0), None);
    let error: Box<dyn std::error::Error> = Box::new(Tally);
    assert_eq!(error.to_string(), "refused 12 (tally)");
}

#[test]
fn record_refuses() {
    let fine = lent(2, &[(AND, 3, 1, 2)]);
    let full = lent(1, &[(AND, 3, 1, MOST_COUNT)]);
    let shapes = {
        let mut bad = [(); 7].map(|()| fine.clone());
        bad[0].sizes.used = 3;
        bad[1].keys.pop();
        bad[2].multiplicities.push(0);
        bad[3].holds.pop();
        bad[4].other_multiplicities.pop();
        bad[5].other_holds.push(0);
        bad[6] = lent(2049, &[]);
        bad
    };
    let mut cases: Vec<(Lent, Entry, Refusal)> = shapes.into_iter().map(|l| (l, Entry::new(99, WIDE, WIDE), Shape)).collect();
    cases.extend([
        (fine.clone(), Entry::new(5, WIDE, 0), Stranger),
        (fine.clone(), Entry::new(LOG_2_FLOOR, 0, WIDE), Wide),
        (fine.clone(), Entry::new(POW, P, WIDE), Wide),
        (fine.clone(), Entry::new(LT, 0, P), Wide),
        (fine.clone(), Entry::new(LT, WIDE, 0), Wide),
        (fine.clone(), Entry::new(LOG_2_FLOOR, 0, 0), BareLog),
        (full.clone(), Entry::new(AND, 3, 1), CountFull),
        (full.clone(), Entry::new(AND, 3, 2), ListFull),
    ]);
    for (list, entry, reason) in cases {
        let mut after = list.clone();
        assert_eq!(after.record(entry), Err(reason), "{entry:?}");
        assert_eq!(after, list, "{entry:?}");
    }
    assert_eq!(List::new(2049).err(), Some(Shape));
    assert_eq!(fine.clone().record(Entry::new(POW, P - 1, WIDE - 1)), Ok(1));
}

/// Lists that plan, fill and write refuse alike.
fn refused_lists() -> Vec<(Lent, Refusal)> {
    let fine = (AND, 3, 1, 1);
    let mut list = vec![
        (lent(4, &[fine, (5, WIDE, 0, P)]), Stranger),
        (lent(4, &[fine, (SPLIT, WIDE, 0, P)]), Wide),
        (lent(4, &[fine, (LOG_2_FLOOR, 0, 0, P)]), BareLog),
        (lent(4, &[fine, (LT, 1, 1, P), (5, 0, 0, 1)]), CountFull),
        (lent(4, &[fine, (LT, 1, 1, u64::MAX), (5, 0, 0, 1)]), CountFull),
    ];
    // 15 before 2 to 5, of whichever place; 1 before it
    let mut held = lent(4, &[(5, WIDE, 0, P), fine]);
    held.holds[1] = 1;
    list.push((held.clone(), OpenHold));
    held.holds.push(0);
    list.push((held, Shape));
    let mut shape = lent(4, &[(5, 0, 0, 1)]);
    shape.keys.push(0);
    list.push((shape, Shape));
    list
}

#[test]
fn plan_fill_and_write_refuse() {
    for (list, reason) in refused_lists() {
        let (mut table, mut out) = (vec![3; 10 * COLUMNS], [5; 200]);
        assert_eq!(list.plan(), Err(reason));
        assert_eq!(list.fill(&mut table), Err(reason));
        assert_eq!(list.write(&mut out), Err(reason));
        let entry = refused_entry(list.sizes, &list.keys, &list.multiplicities, &list.holds);
        assert_eq!(entry, if reason == Shape { None } else { Some((1, reason)) });
        assert!(table.iter().all(|w| *w == 3) && out.iter().all(|b| *b == 5));
    }
    // repeated keys are filled; only writing refuses the repeat, before the room
    let repeated = lent(4, &[(AND, 3, 1, 2), (LT, 0, 0, 1), (AND, 3, 1, 9), (5, WIDE, WIDE, 0)]);
    let mut table = vec![3; 7 * COLUMNS];
    assert_eq!(repeated.plan(), Ok((7, 256)));
    assert_eq!(repeated.fill(&mut table[..6 * COLUMNS]), Err(Short));
    assert!(table.iter().all(|w| *w == 3));
    assert_eq!(repeated.fill(&mut table), Ok(7));
    assert_eq!(repeated.write(&mut []), Err(Repeat));
    let mut out = [5; 58];
    assert_eq!(lent(2, &[(AND, 3, 1, 1), (LT, 0, 0, 1)]).write(&mut out[..57]), Err(Short));
    assert_eq!(out, [5; 58]);
    // a key with multiplicity 0 is left out: it takes no row and no byte, repeats no other, and nothing is asked of it
    let left_out = lent(4, &[(AND, 3, 1, 0), (LT, 0, 0, 1), (AND, 3, 1, 9), (5, WIDE, WIDE, 0)]);
    assert_eq!((left_out.plan(), left_out.fill(&mut table[..3 * COLUMNS])), (Ok((4, 256)), Err(Short)));
    assert_eq!((left_out.fill(&mut table[..4 * COLUMNS]), left_out.write(&mut out[..57])), (Ok(4), Err(Short)));
    assert_eq!(refused_entry(left_out.sizes, &left_out.keys, &left_out.multiplicities, &left_out.holds), None);
    assert_eq!(out, [5; 58]);
    assert_eq!(left_out.write(&mut out), Ok(58));
    assert_eq!((out[0], out[4], out[8], out[25], out[42], out[50]), (2, 4, LT as u8, AND as u8, 1, 9));
    // a table of no whole rows, and one of too many; before the entries
    let mut table = vec![3; (MAX_ROWS + 1) * COLUMNS];
    for words in [11, table.len()] {
        assert_eq!(lent(1, &[(5, 0, 0, 1)]).fill(&mut table[..words]), Err(Shape));
    }
    assert_eq!(lent(1, &[(AND, 0, 0, 1)]).fill(&mut table[..MAX_ROWS * COLUMNS]), Ok(1));
}

#[test]
fn read_refuses() {
    let bytes = list_of(&[Entry::new(AND, 3, 1), Entry::new(LT, 2, 3)]).to_bytes().unwrap();
    let with = |changes: &[(usize, u8)]| {
        let mut b = bytes.clone();
        changes.iter().for_each(|(i, v)| b[*i] = *v);
        b
    };
    let many = |width: usize| [&2049u32.to_le_bytes()[..], &vec![0; 4 + width * 2049]].concat();
    let to = lent(2, &[]);
    let cases = [
        (lent(1, &[]), bytes[..49].to_vec(), Torn),
        (lent(1, &[]), bytes[..51].to_vec(), Torn),
        (lent(1, &[]), bytes[..57].to_vec(), Torn),
        (to.clone(), bytes[..7].to_vec(), Torn),
        (to.clone(), [bytes.clone(), vec![0]].concat(), Torn),
        (lent(2048, &[]), many(21), Torn),
        (lent(2048, &[]), many(25), Torn),
        (lent(1, &[]), with(&[(8, 5)]), ListFull),
        (lent(3, &[(LT, 1, 1, 1)]), bytes[..57].to_vec(), Torn),
        (lent(3, &[(LT, 1, 1, 1)]), with(&[(8, 5)]), ListFull),
        (lent(3, &[(LT, 1, 1, 0)]), bytes.clone(), ListFull),
        (lent(3, &[(LT, 1, 1, 0)]), vec![0; 8], ListFull),
        (to.clone(), with(&[(8, 5), (4, 0)]), Stranger),
        (to.clone(), with(&[(13, 1), (4, 0)]), Wide),
        (to.clone(), with(&[(8, 12), (9, 0), (4, 0)]), BareLog),
        (to.clone(), with(&[(49, 255), (48, 255), (47, 255), (46, 255), (4, 0)]), CountFull),
        (to.clone(), with(&[(25, 14), (26, 3), (34, 1), (4, 0)]), Repeat),
        (to.clone(), with(&[(4, 7)]), Tally),
    ];
    for (list, stored, reason) in cases {
        let mut after = list.clone();
        assert_eq!(after.read(&stored), Err(reason));
        assert_eq!(after, list);
    }
    let mut shapes = [(); 4].map(|()| to.clone());
    shapes[0].multiplicities.pop();
    shapes[1].holds.push(0);
    shapes[2].other_multiplicities.push(0);
    shapes[3].other_holds.pop();
    for mut shape in shapes {
        let before = shape.clone();
        assert_eq!((shape.read(&[]), shape.read(&bytes), shape), (Err(Shape), Err(Shape), before));
    }
    assert_eq!(to.clone().read(&bytes), Ok(2));
}

#[test]
fn pad_refuses() {
    let mut table = vec![1; 4 * COLUMNS];
    table[COLUMNS] = P;
    let before = table.clone();
    assert_eq!(pad(&mut table[..39], 9), Err(Shape));
    assert_eq!(pad(&mut table, 5), Err(Short));
    assert_eq!(pad(&mut table, 2), Err(Unreduced));
    assert_eq!(table, before);
    // only the last filled row is looked at
    assert_eq!(pad(&mut table, 3), Ok(()));
    assert_eq!(table[..3 * COLUMNS], before[..3 * COLUMNS]);
}

#[test]
fn extend_and_check_refuse() {
    let challenges = Random(6).challenges();
    let made = tables_of(&list_of(&[Entry::new(AND, 3, 1), Entry::new(LT, 2, 3)]), &challenges);
    let (table, aux) = (made.table, made.aux);
    let unreduced = |words: &[u64], i: usize| {
        let mut w = words.to_vec();
        w[i] = P;
        w
    };
    let flat = [0; 15];
    let cases: Vec<(Vec<u64>, usize, Vec<u64>, Refusal)> = vec![
        (unreduced(&table, 0)[..table.len() - 1].to_vec(), aux.len(), challenges.to_vec(), Shape),
        (table.clone(), aux.len() - 1, challenges.to_vec(), Shape),
        (unreduced(&table, 0), aux.len(), vec![P; 14], Shape),
        (table.clone(), aux.len(), vec![0; 16], Shape),
        (unreduced(&table, 79), aux.len(), flat.to_vec(), Unreduced),
        (table.clone(), aux.len(), unreduced(&challenges, 14), Unreduced),
        (table.clone(), aux.len(), flat.to_vec(), Flat),
    ];
    for (t, aux_words, c, reason) in cases {
        let mut a = vec![P; aux_words];
        assert_eq!(extend(&t, &mut a, &c), Err(reason));
        assert!(a.iter().all(|w| *w == P));
        if reason != Flat {
            assert_eq!(check(&t, &a, &c), Err(reason));
        }
    }
    assert_eq!(check(&[], &[], &unreduced(&challenges, 0)), Err(Short));
    assert_eq!(check(&table, &unreduced(&aux, 5), &challenges), Err(Unreduced));
    assert_eq!(check(&vec![0; (MAX_ROWS + 1) * COLUMNS], &[], &challenges), Err(Shape));
}

/// Challenges with some of their words set, the others 0.
fn challenges_with(words: &[(usize, u64)]) -> [u64; 15] {
    let mut challenges = [0; 15];
    for (i, word) in words {
        challenges[*i] = *word;
    }
    challenges
}

#[test]
fn flat_is_a_zero_denominator_and_nothing_else() {
    const LHS: usize = 3;
    const CI: usize = 9;
    let and_3_1 = Entry { opcode: AND, left_operand: 3, right_operand: 1 };
    let and_0_0 = Entry { opcode: AND, left_operand: 0, right_operand: 0 };
    let lt_2_3 = Entry { opcode: LT, left_operand: 2, right_operand: 3 };
    /// Entries with their multiplicities, words of the challenges, and what is due.
    type Case<'a> = (&'a [(Entry, u64)], &'a [(usize, u64)], Result<[u64; 3], Refusal>);
    let cases: [Case; 13] = [
        (&[(and_3_1, 2)], &[(0, 1)], Ok([2, 0, 0])),
        (&[(and_3_1, 2)], &[(1, 1)], Ok([2, 0, P - 2])),
        (&[(and_3_1, 2)], &[(2, 1)], Ok([2, P - 2, P - 2])),
        (&[(and_3_1, 2)], &[], Err(Flat)),
        (&[(and_0_0, 1)], &[], Err(Flat)),
        (&[(and_3_1, 2)], &[(LHS, 1), (0, 3)], Err(Flat)),
        (&[(and_3_1, 2)], &[(LHS + 1, 1), (1, 3)], Err(Flat)),
        (&[(and_3_1, 2)], &[(LHS + 1, 1), (0, 1), (1, 3)], Ok([2, 0, 0])),
        (&[(and_3_1, 2)], &[(CI, 1), (0, AND)], Err(Flat)),
        (&[(and_3_1, 2), (lt_2_3, 1)], &[(LHS, 1), (0, 2)], Err(Flat)),
        (&[(and_3_1, 2), (lt_2_3, 1)], &[(0, P)], Err(Unreduced)),
        (&[], &[], Ok([0, 0, 0])),
        (&[], &[(0, P)], Err(Unreduced)),
    ];
    for (entries, words, due) in cases {
        let keys: Vec<u64> = entries.iter().flat_map(|(e, _)| [e.opcode, e.left_operand, e.right_operand]).collect();
        let multiplicities: Vec<u64> = entries.iter().map(|(_, multiplicity)| *multiplicity).collect();
        let sizes = Sizes { capacity: entries.len(), used: entries.len() };
        let holds = vec![0; entries.len()];
        let rows = plan(sizes, &keys, &multiplicities, &holds).unwrap().height;
        let (mut table, mut aux) = (vec![0; rows * COLUMNS], vec![P; rows * 3]);
        fill(sizes, &keys, &multiplicities, &holds, &mut table).unwrap();
        assert_eq!(extend(&table, &mut aux, &challenges_with(words)), due);
        assert!(due.is_ok() || aux.iter().all(|word| *word == P));
        if entries.len() == 1 && words.is_empty() {
            // a row with CopyFlag 1 is judged whatever its multiplicity, as no list makes it; one that does not count is not
            table[column::LOOKUP_MULTIPLICITY] = 0;
            assert_eq!(extend(&table, &mut aux, &[0; 15]), Err(Flat));
            table[0] = 2;
            assert_eq!(extend(&table, &mut aux, &[0; 15]), Ok([0, 0, 0]));
        }
    }

    // why the clause on the last sum asks that no denominator is zero: with all challenges 0 any sum passes
    let table = [1, 0, 15651782846776010939, AND, 0, 0, 0, 0, 0, 0];
    assert_eq!(check(&table, &[7, 0, 0], &[0; 15]), Ok(Verdict::Zero));
}

#[test]
fn every_reason_is_reached() {
    let mut reached: BTreeSet<u64> = BTreeSet::new();
    let mut note = |r: Refusal| reached.insert(r.number());
    for (list, _) in refused_lists() {
        note(list.plan().unwrap_err());
    }
    note(lent(0, &[]).record(Entry::new(AND, 0, 0)).unwrap_err());
    note(lent(1, &[(AND, 3, 1, 1)]).fill(&mut []).unwrap_err());
    note(extend(&[P; 10], &mut [0; 3], &[0; 15]).unwrap_err());
    note(extend(&[1; 10], &mut [0; 3], &[0; 15]).unwrap_err());
    note(lent(1, &[]).read(&[0; 9]).unwrap_err());
    note(lent(2, &[(AND, 3, 1, 1), (AND, 3, 1, 1)]).write(&mut [0; 50]).unwrap_err());
    note(lent(1, &[]).read(&[0, 0, 0, 0, 1, 0, 0, 0]).unwrap_err());
    assert_eq!(reached.into_iter().collect::<Vec<_>>(), (1..=12).chain([15]).collect::<Vec<_>>());
}
