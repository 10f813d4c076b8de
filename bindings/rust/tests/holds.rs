//! Recordings in two parts: answers and refusals that were worked out by hand, and random calls on lists with any words, against a plain model and the law:
//! a key's multiplicity is the number of its accepted confirms and recordings.
mod common;

use common::{lent, make, tables_of, Lent, Model, Random};
use std::collections::BTreeMap;
use u32_table::opcodes::{AND, LOG_2_FLOOR, LT, POW, SPLIT};
use u32_table::{check, client_sum, refused_entry, stored_bytes, Entry, List, Refusal, Stopped, Table, Verdict, COLUMNS, P};
use Refusal::*;

const WIDE: u64 = 1 << 32;
const MOST: u64 = P - 1;
const AND_3_1: Entry = Entry::new(AND, 3, 1);
const LT_2_3: Entry = Entry::new(LT, 2, 3);

/// A list of one place with `and 3, 1`, so many counts and so many holds.
fn one(count: u64, holds: u64) -> Lent {
    let mut list = lent(1, &[(AND, 3, 1, count)]);
    list.holds[0] = holds;
    list
}

fn counts_and_holds(list: &Lent) -> (&[u64], &[u64]) {
    (&list.multiplicities[..list.sizes.used], &list.holds[..list.sizes.used])
}

#[test]
fn a_hold_is_confirmed_or_dropped() {
    let mut list = lent(2, &[]);
    assert_eq!((list.hold(AND_3_1), list.hold(AND_3_1)), (Ok(0), Ok(0)));
    assert_eq!(counts_and_holds(&list), (&[0][..], &[2][..]));
    assert_eq!((list.confirm(0), list.drop_hold(0)), (Ok(()), Ok(())));
    assert_eq!(list, lent(2, &[(AND, 3, 1, 1)]));
    assert_eq!((list.drop_hold(0), list.confirm(0)), (Err(NoHold), Err(NoHold)));
    // a recording before, a hold after
    assert_eq!((list.record(AND_3_1), list.hold(AND_3_1), list.confirm(0)), (Ok(0), Ok(0), Ok(())));
    assert_eq!(list, lent(2, &[(AND, 3, 1, 3)]));
    // a full list holds what it knows
    let mut full = one(1, 0);
    assert_eq!((full.hold(LT_2_3), full.hold(AND_3_1)), (Err(ListFull), Ok(0)));
    assert_eq!(full, one(1, 1));
}

#[test]
fn positions_are_any_numbers() {
    let mut list = lent(2, &[]);
    assert_eq!(list.hold(AND_3_1), Ok(0));
    let before = list.clone();
    for position in [1, 2, 3, 1 << 32, 1 << 63, usize::MAX - 1, usize::MAX] {
        assert_eq!((list.confirm(position), list.drop_hold(position)), (Err(NoHold), Err(NoHold)), "{position}");
    }
    assert_eq!(list, before);
    // an unused place with holds in it
    let mut fresh = lent(2, &[]);
    assert_eq!((fresh.confirm(0), fresh.drop_hold(1), fresh.plan()), (Err(NoHold), Err(NoHold), Ok((0, 256))));
    assert_eq!(fresh.record(AND_3_1), Ok(0));
    assert_eq!(fresh, lent(2, &[(AND, 3, 1, 1)]));
}

/// Count full looks at count plus holds, whose sum may pass 2^64; confirm looks at the count alone, after the hold.
#[test]
fn count_plus_holds() {
    for (count, holds) in [
        (MOST, 0),
        (MOST - 1, 1),
        (0, MOST),
        (1, MOST - 1),
        (WIDE, MOST),
        (MOST, WIDE),
        (1, u64::MAX),
        (u64::MAX, 1),
        (u64::MAX, u64::MAX),
        (P, 0),
        (1 << 63, 1 << 63),
    ] {
        let mut list = one(count, holds);
        assert_eq!((list.record(AND_3_1), list.hold(AND_3_1)), (Err(CountFull), Err(CountFull)), "{count} {holds}");
        assert_eq!(list.replay(&[AND, 3, 1]), Err(Stopped { refusal: CountFull, done: 0 }), "{count} {holds}");
        assert_eq!(list, one(count, holds));
    }
    for (count, holds) in [(MOST - 1, 0), (MOST - 2, 1), (0, MOST - 1), (1 << 63, MOST - 1 - (1 << 63))] {
        let [mut recorded, mut held] = [one(count, holds), one(count, holds)];
        assert_eq!((recorded.record(AND_3_1), held.hold(AND_3_1)), (Ok(0), Ok(0)));
        assert_eq!((recorded, held), (one(count + 1, holds), one(count, holds + 1)));
    }
    let mut list = one(MOST - 1, 0);
    assert_eq!((list.hold(AND_3_1), list.record(AND_3_1), list.hold(AND_3_1)), (Ok(0), Err(CountFull), Err(CountFull)));
    assert_eq!((list.confirm(0), list.hold(AND_3_1)), (Ok(()), Err(CountFull)));
    assert_eq!(list, one(MOST, 0));
    for (count, holds) in [(MOST, 3), (P, 1), (u64::MAX, u64::MAX)] {
        let mut list = one(count, holds);
        assert_eq!((list.confirm(0), &list), (Err(CountFull), &one(count, holds)));
        assert_eq!((list.drop_hold(0), list), (Ok(()), one(count, holds - 1)));
    }
    assert_eq!(one(u64::MAX, 0).confirm(0), Err(NoHold));
    let mut most = one(MOST - 1, u64::MAX);
    assert_eq!((most.confirm(0), most), (Ok(()), one(MOST, u64::MAX - 1)));
}

#[test]
fn order_of_refusals() {
    // 15 directly after 1, before 2 to 5, 11 and 7, of any used place; unused places do not count
    let mut list = lent(4, &[(5, WIDE, 0, P), (LOG_2_FLOOR, 0, 0, P), (AND, 3, 1, 1), (AND, 3, 1, 1)]);
    for place in 0..4 {
        list.holds = vec![0; 4];
        list.holds[place] = 1;
        assert_eq!((list.plan(), list.write(&mut []), list.fill(&mut [])), (Err(OpenHold), Err(OpenHold), Err(OpenHold)));
        assert_eq!(refused_entry(list.sizes, &list.keys, &list.multiplicities, &list.holds), Some((place, OpenHold)));
        assert_eq!(list.fill(&mut [3; 7]), Err(Shape));
    }
    list.sizes.used = 3;
    assert_eq!((list.plan(), list.fill(&mut [])), (Err(Stranger), Err(Stranger)));
    assert_eq!(refused_entry(list.sizes, &list.keys, &list.multiplicities, &list.holds), Some((0, Stranger)));
    list.holds.push(0);
    assert_eq!((list.plan(), list.write(&mut []), list.fill(&mut [])), (Err(Shape), Err(Shape), Err(Shape)));
    assert_eq!(refused_entry(list.sizes, &list.keys, &list.multiplicities, &list.holds), None);
    // a stranger with a hold, as another program may leave it: the hold can be dropped
    let mut strange = lent(1, &[(5, 1, 1, 1)]);
    strange.holds[0] = 1;
    assert_eq!((strange.plan(), strange.drop_hold(0), strange.plan()), (Err(OpenHold), Ok(()), Err(Stranger)));
    // hold: 1, 2, 3, 4, then 5 or 6
    let mut none = lent(0, &[]);
    for (entry, due) in [
        (Entry::new(5, WIDE, WIDE), Stranger),
        (Entry::new(LOG_2_FLOOR, 0, WIDE), Wide),
        (Entry::new(AND, WIDE, 0), Wide),
        (Entry::new(LOG_2_FLOOR, 0, 0), BareLog),
        (AND_3_1, ListFull),
    ] {
        assert_eq!(none.hold(entry), Err(due), "{entry:?}");
    }
    // 1 in every call that is lent a list, before all else
    let shape = |change: fn(&mut Lent)| {
        let mut list = lent(2, &[(5, 0, 0, 0)]);
        list.holds[0] = 1;
        change(&mut list);
        list
    };
    for list in [
        shape(|list| list.sizes.used = 3),
        shape(|list| list.sizes.capacity = 1),
        shape(|list| list.keys.push(0)),
        shape(|list| list.multiplicities.truncate(1)),
        shape(|list| list.holds.push(0)),
        shape(|list| list.holds.truncate(1)),
        shape(|list| list.holds.clear()),
        lent(2049, &[]),
    ] {
        let mut after = list.clone();
        assert_eq!((after.record(Entry::new(5, 0, 0)), after.hold(Entry::new(5, 0, 0))), (Err(Shape), Err(Shape)));
        assert_eq!((after.confirm(usize::MAX), after.drop_hold(usize::MAX)), (Err(Shape), Err(Shape)));
        assert_eq!((after.confirm(0), after.drop_hold(0)), (Err(Shape), Err(Shape)));
        assert_eq!(after.replay(&[5]), Err(Stopped { refusal: Shape, done: 0 }));
        assert_eq!(
            (after.plan(), after.read(&[]), after.write(&mut []), after.fill(&mut [])),
            (Err(Shape), Err(Shape), Err(Shape), Err(Shape))
        );
        assert_eq!(after, list);
    }
}

/// Two words of one base are one key.
#[test]
fn held_bases_are_reduced() {
    let mut list = lent(2, &[]);
    assert_eq!(
        (list.hold(Entry::new(POW, P + 5, 3)), list.record(Entry::new(POW, 5, 3)), list.confirm(0)),
        (Ok(0), Ok(0), Ok(()))
    );
    assert_eq!(list, lent(2, &[(POW, 5, 3, 2)]));
    let mut raw = lent(1, &[(POW, P + 5, 3, 0)]);
    assert_eq!((raw.hold(Entry::new(POW, 5, 3)), raw.confirm(0), raw), (Ok(0), Ok(()), lent(1, &[(POW, P + 5, 3, 1)])));
}

#[test]
fn reading_clears_the_holds_of_its_places() {
    let bytes = [AND_3_1, LT_2_3].map(|entry| {
        let mut list = List::new(1).unwrap();
        list.record(entry).unwrap();
        list.to_bytes().unwrap()
    });
    let mut list = lent(3, &[]);
    assert_eq!((list.read(&bytes[0]), &list.holds[..]), (Ok(1), &[0, 5, 5][..]));
    assert_eq!(list, lent(3, &[(AND, 3, 1, 1)]));
    // onto a list with keys nothing is read, held or not; refused, it clears no hold
    for holds in [0, 1] {
        let mut list = one(1, holds);
        assert_eq!((list.read(&bytes[1][..32]), list.read(&bytes[1])), (Err(Torn), Err(ListFull)));
        assert_eq!(list, one(1, holds));
    }
    let mut none = lent(2, &[]);
    assert_eq!((none.read(&bytes[0][..32]), &none), (Err(Torn), &lent(2, &[])));
    assert_eq!((none.read(&[0; 8]), none), (Ok(0), lent(2, &[])));
}

/// "A key dropped to 0 has no section any more", and keeps its place.
#[test]
fn a_dropped_key_has_no_section() {
    let mut list = lent(2, &[]);
    assert_eq!((list.hold(AND_3_1), list.drop_hold(0), list.plan()), (Ok(0), Ok(()), Ok((0, 256))));
    assert_eq!(list, lent(2, &[(AND, 3, 1, 0)]));
    let mut table = [9; COLUMNS];
    assert_eq!((list.fill(&mut []), list.fill(&mut table), table), (Ok(0), Ok(0), [9; COLUMNS]));
    // it counts nothing between two that count
    let mut list = List::new(3).unwrap();
    assert_eq!((list.record(LT_2_3), list.hold(AND_3_1), list.record(Entry::new(AND, 0, 0))), (Ok(0), Ok(1), Ok(2)));
    assert_eq!(list.drop_hold(1), Ok(()));
    let challenges = Random(3).challenges();
    let made = tables_of(&list, &challenges);
    assert_eq!((made.height, made.table[3], made.table[3 * COLUMNS + 3], made.table[3 * COLUMNS]), (4, LT, AND, 1));
    assert_eq!(client_sum(&[LT, 2, 3, AND, 0, 0], &challenges), Ok(made.sum));
    assert_eq!(check(&made.table, &made.aux, &challenges), Ok(Verdict::Zero));
    // it is not stored; its place is kept here, and another one is found when it is read back
    let bytes = list.to_bytes().unwrap();
    assert_eq!(bytes.len(), stored_bytes(2));
    let mut back = List::from_bytes(&bytes, 3).unwrap();
    assert_eq!((list.record(AND_3_1), back.record(AND_3_1), back.len()), (Ok(1), Ok(2), 3));
    // nor does it matter that its denominator is zero: the client asked for nothing
    let mut list = List::new(1).unwrap();
    assert_eq!((list.hold(Entry::new(AND, 0, 0)), list.drop_hold(0)), (Ok(0), Ok(())));
    let mut table = Table::new();
    assert_eq!((table.fill(&list), table.pad()), (Ok(0), Ok(())));
    assert_eq!((client_sum(&[], &[0; 15]), table.extend(&[0; 15])), (Ok([0; 3]), Ok([0; 3])));
    assert_eq!(list.record(Entry::new(AND, 0, 0)), Ok(0));
    assert_eq!((table.fill(&list), table.pad(), table.extend(&[0; 15])), (Ok(1), Ok(()), Err(Flat)));
}

#[test]
fn a_list_owns_its_holds() {
    let mut list = List::new(3).unwrap();
    assert_eq!((list.hold(AND_3_1), list.hold(LT_2_3), list.hold(LT_2_3)), (Ok(0), Ok(1), Ok(1)));
    assert_eq!((list.holds(), list.multiplicities(), list.len()), (&[1, 2, 0][..], &[0, 0, 0][..], 2));
    assert_eq!((list.plan(), list.to_bytes()), (Err(OpenHold), Err(OpenHold)));
    assert_eq!((Table::new().fill(&list), list.fill(&mut [0; 10 * COLUMNS])), (Err(OpenHold), Err(OpenHold)));
    // lists that differ in open holds are not equal
    let mut other = list.clone();
    assert_eq!((list.drop_hold(1), list == other, other.drop_hold(1), list == other), (Ok(()), false, Ok(()), true));
    assert_eq!((list.confirm(0), list.confirm(1), list.confirm(1), list.confirm(7)), (Ok(()), Ok(()), Err(NoHold), Err(NoHold)));
    assert_eq!(list.entries().collect::<Vec<_>>(), [(AND_3_1, 1), (LT_2_3, 1)]);
    assert_eq!(List::from_bytes(&list.to_bytes().unwrap(), 3).unwrap(), list);
    assert_eq!(
        (OpenHold.to_string(), NoHold.to_string()),
        ("refused 15 (open hold)".to_string(), "refused 16 (no hold)".to_string())
    );
}

// ---- random calls

/// From a fresh list, with any words in its arrays: every answer and every word, and the law after each call.
#[test]
fn a_keys_multiplicity_is_the_number_of_its_accepted_confirms_and_recordings() {
    let mut random = Random(6);
    let mut met = [0; 18];
    for _ in 0..3000 {
        let capacity = random.below(6) as usize;
        let mut list = lent(capacity, &[]);
        let words = list.keys.iter_mut().chain(&mut list.multiplicities).chain(&mut list.holds);
        words.chain(&mut list.other_multiplicities).chain(&mut list.other_holds).for_each(|word| *word = random.word());
        let fresh = list.clone();
        let mut model = Model::new(capacity, vec![]);
        for _ in 0..random.below(40) {
            let call = random.call(capacity);
            let answers = [make!(list, &call), make!(model, &call)];
            assert_eq!((answers[0], &list), (answers[1], &model.laid(fresh.clone())), "{call:?}");
            met[answers[0].0 as usize] += 1;
            let mut times = BTreeMap::new();
            model.counted[0].iter().for_each(|e| *times.entry(*e).or_insert(0) += 1);
            for (i, key) in list.keys.chunks(3).take(list.sizes.used).enumerate() {
                let times = times.remove(&Entry::new(key[0], key[1], key[2])).unwrap_or(0);
                assert_eq!(list.multiplicities[i], times);
            }
            assert!(times.is_empty(), "counted and at no used place: {times:?}");
            let is_open = list.holds[..list.sizes.used].iter().any(|holds| *holds > 0);
            assert_eq!(list.plan().err(), is_open.then_some(OpenHold));
        }
        // where no hold is open: the client's sum over what was counted is the last sum, and the check is zero
        while let Some(i) = list.holds[..list.sizes.used].iter().position(|holds| *holds > 0) {
            assert_eq!((list.drop_hold(i), model.drop_hold(i)), (Ok(()), Ok(())));
        }
        let counted = list.multiplicities[..list.sizes.used].iter().filter(|count| **count > 0).count();
        let mut out = vec![0; stored_bytes(counted)];
        assert_eq!(list.write(&mut out), Ok(out.len()));
        let stored = List::from_bytes(&out, counted).unwrap();
        let challenges = random.challenges();
        let made = tables_of(&stored, &challenges);
        let requests: Vec<u64> = model.counted[0].iter().flat_map(|e| [e.opcode, e.left_operand, e.right_operand]).collect();
        assert_eq!(client_sum(&requests, &challenges), Ok(made.sum));
        assert_eq!(check(&made.table, &made.aux, &challenges), Ok(Verdict::Zero));
    }
    assert!([0, 2, 3, 4, 6, 13, 16].iter().all(|number| met[*number] > 20), "{met:?}");
    assert_eq!(met[5], 0);
}

/// On lists with large counts and holds, repeated and foreign keys.
#[test]
fn any_list() {
    let mut random = Random(7);
    let mut met = [0; 18];
    for _ in 0..6000 {
        let used = random.below(4);
        let capacity = (used + random.below(3)) as usize;
        let mut count = || match random.below(4) {
            0 => random.below(3),
            1 => MOST - random.below(3),
            2 => u64::MAX - random.below(3),
            _ => random.word(),
        };
        let counts: Vec<[u64; 2]> = (0..used).map(|_| [count(), count()]).collect();
        let entries: Vec<_> = counts
            .iter()
            .map(|[count, _]| {
                let opcode = [AND, LT, SPLIT, POW, 5][random.below(5) as usize];
                (opcode, random.below(3) + if opcode == POW { P } else { 0 }, 1 + random.below(2), *count)
            })
            .collect();
        let mut list = lent(capacity, &entries);
        counts.iter().enumerate().for_each(|(i, [_, holds])| list.holds[i] = *holds);
        let before = list.clone();
        let places =
            entries.iter().zip(&counts).map(|(e, [count, holds])| (Entry::new(e.0, e.1, e.2), [(*count, *holds), (0, 0)]));
        let mut model = Model::new(capacity, places.collect());
        for _ in 0..6 {
            let call = random.call(capacity);
            let answers = [make!(list, &call), make!(model, &call)];
            assert_eq!((answers[0], &list), (answers[1], &model.laid(before.clone())), "{call:?}");
            met[answers[0].0 as usize] += 1;
        }
    }
    assert!([0, 2, 3, 4, 5, 6, 13, 16].iter().all(|number| met[*number] > 20), "{met:?}");
}
