//! Two recorders on one list of keys: answers that were worked out by a model of the request's sentences, every word of the arrays after them; what is
//! left out by plan, fill and write; reading; random calls by both, on slices and on a `List`; and that sharing does not show.
mod common;

use common::{height, lent, make, plain_result, tables_of, Answer, Call, Lent, Model, Random};
use std::collections::BTreeMap;
use u32_table::opcodes::{AND, LOG_2_FLOOR, LT, POW, SPLIT};
use u32_table::steps::{DIV_MOD, XOR};
use u32_table::Recorder::{self, First, Second};
use u32_table::{check, column, extend, pad, refused_entry, stored_bytes};
use u32_table::{Entry, List, Plan, Refusal, Stopped, Table, Verdict, AUX_COLUMNS, COLUMNS, P};
use Refusal::*;

const WIDE: u64 = 1 << 32;
const A: Entry = Entry::new(AND, 3, 1);
const B: Entry = Entry::new(LT, 2, 3);

/// Height and padded height.
const ROWS_0: Result<(usize, usize), Refusal> = Ok((0, 256));
const ROWS_2: Result<(usize, usize), Refusal> = Ok((2, 256));
const ROWS_3: Result<(usize, usize), Refusal> = Ok((3, 256));
const ROWS_6: Result<(usize, usize), Refusal> = Ok((6, 256));

/// A key with count and holds of the first recorder, and of the second.
type Place = (Entry, [u64; 2], [u64; 2]);

/// The list with these places used, and the marks of `lent` in the others: 9 in keys, 7 and 8 in multiplicities, 5 and 6 in holds.
fn shared(capacity: usize, places: &[Place]) -> Lent {
    let keys: Vec<_> = places.iter().map(|(e, [count, _], _)| (e.opcode, e.left_operand, e.right_operand, *count)).collect();
    let mut list = lent(capacity, &keys);
    for (i, (_, [_, holds], [other_count, other_holds])) in places.iter().enumerate() {
        (list.holds[i], list.other_multiplicities[i], list.other_holds[i]) = (*holds, *other_count, *other_holds);
    }
    list
}

/// Stored bytes of these entries, in the new form, with this height.
fn stored(height: u32, entries: &[(Entry, u64)]) -> Vec<u8> {
    let mut bytes = [(entries.len() as u32).to_le_bytes(), height.to_le_bytes()].concat();
    for (e, _) in entries {
        bytes.push(e.opcode as u8);
        bytes.extend(e.left_operand.to_le_bytes());
        bytes.extend(e.right_operand.to_le_bytes());
    }
    entries.iter().for_each(|(_, count)| bytes.extend(count.to_le_bytes()));
    bytes
}

fn plans(list: &mut Lent) -> [Result<(usize, usize), Refusal>; 2] {
    Recorder::BOTH.map(|recorder| list.by(recorder, |list| list.plan()))
}

// ---- what each call does to both

#[test]
fn an_appended_key_counts_for_who_recorded_it() {
    // the marks of unused places are other words in each array, and stay
    let mut list = lent(2, &[]);
    assert_eq!((list.record(A), &list), (Ok(0), &shared(2, &[(A, [1, 0], [0, 0])])));
    assert_eq!((&list.keys[..], &list.multiplicities[..]), (&[AND, 3, 1, 9, 9, 9][..], &[1, 7][..]));
    assert_eq!((&list.other_multiplicities[..], &list.holds[..], &list.other_holds[..]), (&[0, 8][..], &[0, 5][..], &[0, 6][..]));
    // and by the second
    let mut list = lent(2, &[]);
    assert_eq!(list.by(Second, |list| list.record(A)), Ok(0));
    assert_eq!(list, shared(2, &[(A, [0, 0], [1, 0])]));
    for (recorder, due) in [(First, (A, [0, 1], [0, 0])), (Second, (A, [0, 0], [0, 1]))] {
        let mut list = lent(2, &[]);
        assert_eq!((list.by(recorder, |list| list.hold(A)), list), (Ok(0), shared(2, &[due])));
    }
}

#[test]
fn a_known_key_gains_for_one_and_keeps_the_words_of_the_other() {
    let mut list = lent(3, &[]);
    assert_eq!(list.record(A), Ok(0));
    assert_eq!((list.by(Second, |list| list.record(A)), list.by(Second, |list| list.record(A))), (Ok(0), Ok(0)));
    assert_eq!(list, shared(3, &[(A, [1, 0], [2, 0])]));
    assert_eq!(plans(&mut list), [ROWS_3, ROWS_3]);
    // whatever the words are
    let places = [(A, [11, 12], [13, 14]), (B, [21, 22], [u64::MAX, u64::MAX])];
    let mut list = shared(3, &places);
    assert_eq!((list.record(A), list.hold(B), list.replay(&[XOR, 3, 1])), (Ok(0), Ok(1), Ok(1)));
    assert_eq!((list.confirm(1), list.drop_hold(0)), (Ok(()), Ok(())));
    assert_eq!(list, shared(3, &[(A, [13, 11], [13, 14]), (B, [22, 22], [u64::MAX, u64::MAX])]));
    // count full looks at the own count and holds
    assert_eq!((list.record(B), list.hold(B)), (Ok(1), Ok(1)));
    assert_eq!(list.by(Second, |list| (list.record(B), list.hold(B))), (Err(CountFull), Err(CountFull)));
    assert_eq!(list.by(Second, |list| list.replay(&[LT, 2, 3])), Err(Stopped { refusal: CountFull, done: 0 }));
    assert_eq!(list.by(Second, |list| list.record(A)), Ok(0));
    assert_eq!(list, shared(3, &[(A, [13, 11], [14, 14]), (B, [23, 23], [u64::MAX, u64::MAX])]));
}

#[test]
fn a_key_of_the_other_has_no_rows() {
    let mut list = lent(3, &[]);
    assert_eq!((list.record(A), list.by(Second, |list| list.plan())), (Ok(0), ROWS_0));
    assert_eq!(list, shared(3, &[(A, [1, 0], [0, 0])]));
}

#[test]
fn a_key_dropped_to_0_has_no_rows() {
    let mut list = lent(3, &[]);
    assert_eq!((list.hold(A), list.drop_hold(0), list.plan()), (Ok(0), Ok(()), ROWS_0));
    assert_eq!(list, shared(3, &[(A, [0, 0], [0, 0])]));
}

#[test]
fn an_open_hold_is_refused_to_its_own_recorder() {
    let mut list = lent(3, &[]);
    assert_eq!((list.hold(A), list.by(Second, |list| list.record(A))), (Ok(0), Ok(0)));
    assert_eq!(plans(&mut list), [Err(OpenHold), ROWS_3]);
    assert_eq!(list, shared(3, &[(A, [0, 1], [1, 0])]));
    // also where the held key is left out, and the one before it counts
    let mut list = lent(3, &[]);
    assert_eq!((list.record(A), list.hold(B)), (Ok(0), Ok(1)));
    assert_eq!(plans(&mut list), [Err(OpenHold), ROWS_0]);
    for recorder in Recorder::BOTH {
        let answers = list.by(recorder, |list| (list.fill(&mut []), list.write(&mut [0; 8])));
        assert_eq!(answers, if recorder == First { (Err(OpenHold), Err(OpenHold)) } else { (Ok(0), Ok(8)) });
    }
    assert_eq!(refused_entry(list.sizes, &list.keys, &list.multiplicities, &list.holds), Some((1, OpenHold)));
    assert_eq!(list, shared(3, &[(A, [1, 0], [0, 0]), (B, [0, 1], [0, 0])]));
}

#[test]
fn nobody_settles_the_holds_of_another() {
    let mut list = lent(3, &[]);
    assert_eq!(list.hold(A), Ok(0));
    assert_eq!(list.by(Second, |list| (list.confirm(0), list.drop_hold(0))), (Err(NoHold), Err(NoHold)));
    assert_eq!(list, shared(3, &[(A, [0, 1], [0, 0])]));
}

#[test]
fn positions_are_those_of_the_shared_keys() {
    let mut list = lent(3, &[]);
    assert_eq!(list.record(A), Ok(0));
    assert_eq!(list.by(Second, |list| (list.hold(B), list.confirm(1))), (Ok(1), Ok(())));
    assert_eq!(list, shared(3, &[(A, [1, 0], [0, 0]), (B, [0, 0], [1, 0])]));
    let mut alone = lent(3, &[]);
    assert_eq!(alone.by(Second, |list| (list.hold(B), list.confirm(0))), (Ok(0), Ok(())));
    assert_eq!(alone, shared(3, &[(B, [0, 0], [1, 0])]));
}

#[test]
fn the_order_of_keys_is_that_of_first_use_by_either() {
    let mut list = lent(3, &[]);
    assert_eq!(list.record(A), Ok(0));
    assert_eq!(list.by(Second, |list| (list.record(B), list.record(A), list.plan())), (Ok(1), Ok(0), ROWS_6));
    assert_eq!(list, shared(3, &[(A, [1, 0], [1, 0]), (B, [0, 0], [1, 0])]));
    let mut alone = lent(3, &[]);
    assert_eq!(alone.by(Second, |list| (list.record(B), list.record(A), list.plan())), (Ok(0), Ok(1), ROWS_6));
    assert_eq!(alone, shared(3, &[(B, [0, 0], [1, 0]), (A, [0, 0], [1, 0])]));
}

#[test]
fn places_are_common() {
    let mut list = lent(1, &[]);
    assert_eq!(list.record(A), Ok(0));
    assert_eq!(list.by(Second, |list| (list.record(B), list.hold(B))), (Err(ListFull), Err(ListFull)));
    assert_eq!(list, shared(1, &[(A, [1, 0], [0, 0])]));
    assert_eq!(list.by(Second, |list| list.record(A)), Ok(0));
    assert_eq!(list, shared(1, &[(A, [1, 0], [1, 0])]));
}

// ---- replay

#[test]
fn a_replay_counts_for_who_replays() {
    let (lt, split) = (Entry::new(LT, 1, 2), Entry::new(SPLIT, 7, 3));
    let mut list = lent(3, &[]);
    assert_eq!(list.record(lt), Ok(0));
    assert_eq!(list.by(Second, |list| list.replay(&[DIV_MOD, 7, 2])), Ok(1));
    assert_eq!(list, shared(3, &[(lt, [1, 0], [1, 0]), (split, [0, 0], [1, 0])]));
    assert_eq!(list.replay(&[DIV_MOD, 7, 2]), Ok(1));
    assert_eq!(list, shared(3, &[(lt, [2, 0], [1, 0]), (split, [1, 0], [1, 0])]));
    // two places come into use in one step, three in a trace
    let mut list = lent(4, &[]);
    assert_eq!(list.replay(&[DIV_MOD, 7, 2, AND, 3, 1]), Ok(2));
    assert_eq!(list, shared(4, &[(lt, [1, 0], [0, 0]), (split, [1, 0], [0, 0]), (A, [1, 0], [0, 0])]));
}

/// What a replay appended before it stopped is cleared for the other, and not a place more.
#[test]
fn a_stopped_replay_clears_what_it_appended() {
    let (lt, split) = (Entry::new(LT, 1, 2), Entry::new(SPLIT, 7, 3));
    for (trace, refusal) in
        [([5, 0, 0], Stranger), ([AND, WIDE, 0], Wide), ([LOG_2_FLOOR, 0, 0], BareLog), ([DIV_MOD, 1, 0], ZeroDivisor)]
    {
        for recorder in Recorder::BOTH {
            let mut list = shared(5, &[(A, [1, 2], [3, 4])]);
            let trace = [&[AND, 3, 1, DIV_MOD, 7, 2], &trace[..]].concat();
            assert_eq!(list.by(recorder, |list| list.replay(&trace)), Err(Stopped { refusal, done: 2 }));
            let (known, own, other) = ([2, 2], [1, 0], [0, 0]);
            let due = match recorder {
                First => shared(5, &[(A, known, [3, 4]), (lt, own, other), (split, own, other)]),
                Second => shared(5, &[(A, [1, 2], [4, 4]), (lt, other, own), (split, other, own)]),
            };
            assert_eq!(list, due, "{trace:?}");
        }
    }
    // 6 after one step; then 6 inside the first step, and 5 of split after room for lt: nothing is appended, nothing cleared
    let mut list = lent(2, &[]);
    assert_eq!(list.replay(&[AND, 3, 1, DIV_MOD, 7, 2]), Err(Stopped { refusal: ListFull, done: 1 }));
    assert_eq!(list, shared(2, &[(A, [1, 0], [0, 0])]));
    let mut list = lent(1, &[]);
    assert_eq!((list.replay(&[DIV_MOD, 7, 2]), list), (Err(Stopped { refusal: ListFull, done: 0 }), lent(1, &[])));
    let full = [(split, [P - 1, 0], [0, 0])];
    let mut list = shared(3, &full);
    assert_eq!(list.replay(&[DIV_MOD, 7, 2]), Err(Stopped { refusal: CountFull, done: 0 }));
    assert_eq!(list, shared(3, &full));
    // the other's count of split is not full
    assert_eq!(list.by(Second, |list| list.replay(&[DIV_MOD, 7, 2])), Ok(1));
    assert_eq!(list, shared(3, &[(split, [P - 1, 0], [1, 0]), (lt, [0, 0], [1, 0])]));
}

// ---- what is left out

#[test]
fn left_out_keys_are_not_examined() {
    let (stranger, and_1_1) = (Entry::new(5, u64::MAX, 0), Entry::new(AND, 1, 1));
    let places = [(stranger, [0, 0], [0, 0]), (and_1_1, [2, 0], [0, 0]), (and_1_1, [0, 0], [0, 0])];
    let mut list = shared(3, &places);
    assert_eq!(plans(&mut list), [ROWS_2, ROWS_0]);
    let mut out = [0xee; 34];
    assert_eq!((list.write(&mut out[..32]), out), (Err(Short), [0xee; 34]));
    assert_eq!(list.write(&mut out), Ok(33));
    let due =
        [&[1, 0, 0, 0, 2, 0, 0, 0, 14, 1, 0, 0, 0, 0, 0, 0, 0, 1, 0, 0, 0, 0, 0, 0, 0][..], &[2, 0, 0, 0, 0, 0, 0, 0], &[0xee]];
    assert_eq!(out[..], due.concat());
    let mut none = [0xee; 9];
    assert_eq!(list.by(Second, |list| (list.write(&mut none[..7]), list.write(&mut none))), (Err(Short), Ok(8)));
    assert_eq!(none, [0, 0, 0, 0, 0, 0, 0, 0, 0xee]);
    // the one section there is, and no other row
    let mut table = [9; 3 * COLUMNS];
    assert_eq!((list.fill(&mut table[..COLUMNS]), table), (Err(Short), [9; 3 * COLUMNS]));
    assert_eq!(list.fill(&mut table), Ok(2));
    assert_eq!((table[column::CI], table[column::LHS], table[column::RESULT], table[9]), (AND, 1, 1, 2));
    assert_eq!(table[2 * COLUMNS..], [9; COLUMNS]);
    let mut table = [9; COLUMNS];
    assert_eq!((list.by(Second, |list| list.fill(&mut table)), table), (Ok(0), [9; COLUMNS]));
    assert_eq!(list, shared(3, &places));
    // the refused entry is the first that counts
    let mut list =
        shared(3, &[(stranger, [0, 0], [1, 0]), (Entry::new(AND, WIDE, 0), [1, 0], [0, 0]), (stranger, [1, 0], [0, 0])]);
    assert_eq!(plans(&mut list), [Err(Wide), Err(Stranger)]);
    assert_eq!(refused_entry(list.sizes, &list.keys, &list.multiplicities, &list.holds), Some((1, Wide)));
    assert_eq!(refused_entry(list.sizes, &list.keys, &list.other_multiplicities, &list.other_holds), Some((0, Stranger)));
}

/// 2 to 5 of each kind: refused where it counts, passed over where it does not; a count above the limit always counts.
#[test]
fn what_counts_is_examined() {
    let mut list = shared(2, &[(Entry::new(AND, 1, 1), [P, 0], [1, 0]), (Entry::new(5, 0, 0), [0, 0], [0, 0])]);
    assert_eq!(plans(&mut list), [Err(CountFull), ROWS_2]);
    for (entry, refusal) in
        [(Entry::new(5, 0, 0), Stranger), (Entry::new(AND, 0, WIDE), Wide), (Entry::new(LOG_2_FLOOR, 0, 0), BareLog)]
    {
        for (count, due) in [(0, None), (1, Some(refusal)), (P, Some(refusal))] {
            let list = shared(2, &[(A, [1, 0], [0, 0]), (entry, [count, 0], [0, 0])]);
            let answers = [list.plan().err(), list.fill(&mut [0; 3 * COLUMNS]).err(), list.write(&mut [0; 33]).err()];
            assert_eq!(answers, [due; 3], "{entry:?} {count}");
        }
    }
}

#[test]
fn only_counted_keys_repeat_in_writing() {
    let both = |counts: [u64; 2], keys: [Entry; 2]| {
        let list = shared(3, &[(keys[0], [counts[0], 0], [1, 0]), (B, [4, 0], [0, 0]), (keys[1], [counts[1], 0], [1, 0])]);
        let mut out = [0xee; 83];
        let answer = list.write(&mut out);
        assert!(answer.is_ok() || out == [0xee; 83]);
        (answer, out.to_vec())
    };
    // also two words of one base, by which the key that is written is reduced
    for (keys, written, height) in
        [([A; 2], A, 6), ([Entry::new(POW, P + 5, 2), Entry::new(POW, 5, 2)], Entry::new(POW, 5, 2), 6)]
    {
        assert_eq!(both([1, 1], keys).0, Err(Repeat));
        for (counts, entries) in [([0, 7], [(B, 4), (written, 7)]), ([7, 0], [(written, 7), (B, 4)])] {
            let (answer, out) = both(counts, keys);
            assert_eq!((answer, &out[..58]), (Ok(58), &stored(height, &entries)[..]));
        }
        assert_eq!(both([0, 0], keys), (Ok(33), [stored(3, &[(B, 4)]), vec![0xee; 50]].concat()));
    }
    // for the other recorder both count, and its list of 58 bytes repeats: 11 before 7
    let mut list = shared(2, &[(A, [1, 0], [1, 0]), (A, [0, 0], [1, 0])]);
    assert_eq!((list.write(&mut [0; 33]), list.by(Second, |list| list.write(&mut []))), (Ok(33), Err(Repeat)));
    // 11 after 2 to 5 of any counted key
    let list = shared(3, &[(A, [1, 0], [0, 0]), (A, [1, 0], [0, 0]), (B, [P, 0], [0, 0])]);
    assert_eq!(list.write(&mut []), Err(CountFull));
}

// ---- reading

#[test]
fn reading_takes_all_stored_keys() {
    let bytes = stored(5, &[(Entry::new(AND, 1, 1), 0), (A, 2)]);
    assert_eq!(bytes.len(), 58);
    let mut list = lent(3, &[]);
    assert_eq!(list.by(Second, |list| list.read(&bytes)), Ok(2));
    assert_eq!(list, shared(3, &[(Entry::new(AND, 1, 1), [0, 0], [0, 0]), (A, [0, 0], [2, 0])]));
    assert_eq!((&list.multiplicities[..], &list.other_multiplicities[..]), (&[0, 0, 7][..], &[0, 2, 8][..]));
    assert_eq!((&list.holds[..], &list.other_holds[..]), (&[0, 0, 5][..], &[0, 0, 6][..]));
    assert_eq!(plans(&mut list), [ROWS_0, ROWS_3]);
    let mut out = [0; 58];
    assert_eq!(list.by(Second, |list| list.write(&mut out)), Ok(33));
    assert_eq!(out[..33], stored(3, &[(A, 2)]));
}

#[test]
fn reading_judges_all_stored_keys() {
    let and_1_1 = Entry::new(AND, 1, 1);
    for (bytes, refusal) in [
        // the sum of all heights is 5
        (stored(3, &[(and_1_1, 0), (A, 2)]), Tally),
        (stored(5, &[(Entry::new(5, 1, 1), 0), (A, 2)]), Stranger),
        (stored(5, &[(Entry::new(AND, WIDE, 1), 0), (A, 2)]), Wide),
        (stored(5, &[(Entry::new(LOG_2_FLOOR, 0, 3), 0), (A, 2)]), BareLog),
        (stored(5, &[(and_1_1, 0), (A, P)]), CountFull),
        (stored(4, &[(and_1_1, 0), (and_1_1, 2)]), Repeat),
        (stored(4, &[(and_1_1, 2), (and_1_1, 0)]), Repeat),
        (stored(4, &[(and_1_1, 0), (and_1_1, 0)]), Repeat),
        // 11 before 12, and after 2 to 5 of a later key
        (stored(2, &[(and_1_1, 0), (and_1_1, 2)]), Repeat),
        (stored(0, &[(and_1_1, 0), (and_1_1, 0), (Entry::new(5, 0, 0), 0)]), Stranger),
    ] {
        for recorder in Recorder::BOTH {
            let mut list = lent(3, &[]);
            assert_eq!((list.by(recorder, |list| list.read(&bytes)), list), (Err(refusal), lent(3, &[])), "{bytes:?}");
        }
    }
}

#[test]
fn nothing_is_read_onto_keys() {
    let stranger = stored(1, &[(Entry::new(5, 0, 0), 1)]);
    // whoever has the key, and with any count and holds
    for place in [(A, [1, 0], [0, 0]), (A, [0, 0], [0, 0]), (A, [0, 1], [0, 0]), (A, [0, 0], [3, 4])] {
        let mut list = shared(3, &[place]);
        assert_eq!((list.read(&[0; 8]), list.read(&[0; 7]), list.read(&stranger)), (Err(ListFull), Err(Torn), Err(ListFull)));
        assert_eq!((list.read(&stored(3, &[(B, 1)])), list.read(&[])), (Err(ListFull), Err(Torn)));
        assert_eq!(list, shared(3, &[place]));
    }
    // 6 for too many entries, in the same place
    let mut list = lent(1, &[]);
    assert_eq!(list.read(&stored(1, &[(A, 1), (Entry::new(5, 0, 0), 1)])), Err(ListFull));
    assert_eq!((list.read(&[0; 8]), list), (Ok(0), lent(1, &[])));
}

/// Accepted bytes of the new length without a multiplicity of 0 are written again; what is written reads back as what counted.
#[test]
fn there_and_back() {
    let mut random = Random(11);
    let (mut kept, mut fewer) = (0, 0);
    for _ in 0..500 {
        let n = random.below(6);
        let entries: Vec<(Entry, u64)> = (0..n).map(|i| (Entry::new(AND, random.operand(), i), random.below(3))).collect();
        let sum: usize = entries.iter().map(|(e, _)| height(*e)).sum();
        let bytes = stored(sum as u32, &entries);
        let counted: Vec<(Entry, u64)> = entries.iter().copied().filter(|(_, count)| *count > 0).collect();
        for recorder in Recorder::BOTH {
            let mut list = List::new(n as usize).unwrap();
            assert_eq!(list.by(recorder).read(&bytes), Ok(n as usize));
            assert!(list.of(recorder).entries().eq(entries.iter().copied()));
            assert!(list.of(recorder.other()).entries().all(|(_, count)| count == 0));
            let again = list.of(recorder).to_bytes().unwrap();
            assert_eq!(list.of(recorder.other()).to_bytes(), Ok(vec![0; 8]));
            assert_eq!(again == bytes, counted.len() == entries.len());
            let mut back = List::new(counted.len()).unwrap();
            assert_eq!(back.by(recorder).read(&again), Ok(counted.len()));
            assert!(back.of(recorder).entries().eq(counted.iter().copied()));
            assert_eq!(back.of(recorder).to_bytes(), Ok(again));
        }
        *if counted.len() == entries.len() { &mut kept } else { &mut fewer } += 1;
    }
    assert!(kept > 100 && fewer > 100, "{kept} {fewer}");
}

// ---- the other's arrays

#[test]
fn arrays_of_the_other_have_a_word_a_place() {
    let bytes = stored(3, &[(A, 1)]);
    let change = |change: fn(&mut Lent), used: bool| {
        let mut list = if used { shared(2, &[(A, [1, 1], [1, 1])]) } else { lent(2, &[]) };
        change(&mut list);
        list
    };
    let changes: [fn(&mut Lent); 8] = [
        |list| list.other_multiplicities.clear(),
        |list| list.other_multiplicities.truncate(1),
        |list| list.other_multiplicities.push(8),
        |list| list.other_holds.clear(),
        |list| list.other_holds.truncate(1),
        |list| list.other_holds.push(6),
        |list| (list.other_multiplicities, list.other_holds) = (vec![], vec![]),
        |list| (list.other_multiplicities, list.other_holds) = (vec![8], vec![6; 3]),
    ];
    for list in changes.iter().flat_map(|by| [change(*by, false), change(*by, true)]) {
        let mut after = list.clone();
        let stopped = Err(Stopped { refusal: Shape, done: 0 });
        // 1 before 2 to 6 and 10, for what would be done and what would be refused
        for entry in [A, B, Entry::new(5, WIDE, WIDE)] {
            assert_eq!((after.record(entry), after.hold(entry)), (Err(Shape), Err(Shape)), "{list:?}");
        }
        for trace in [&[][..], &[AND, 3, 1], &[DIV_MOD, 7, 2], &[5, 0, 0], &[5]] {
            assert_eq!(after.replay(trace), stopped, "{list:?}");
        }
        for bytes in [&[][..], &[0; 8], &bytes] {
            assert_eq!(after.read(bytes), Err(Shape), "{list:?}");
        }
        assert_eq!(after, list);
        // the other calls are not lent them: they answer as if all were well
        let used = list.sizes.used == 1;
        assert_eq!(after.plan(), if used { Err(OpenHold) } else { ROWS_0 });
        assert_eq!((after.confirm(0), after.drop_hold(0)), if used { (Ok(()), Err(NoHold)) } else { (Err(NoHold), Err(NoHold)) });
        assert_eq!(after.write(&mut [0; 33]), Ok(if used { 33 } else { 8 }));
    }
    // own arrays that are wrong, with the other's right
    let mut own = lent(2, &[]);
    own.holds.pop();
    assert_eq!((own.record(A), own.read(&bytes)), (Err(Shape), Err(Shape)));
}

// ---- the run of four calls

/// A list is read; then its table is made and checked, with Indeterminate 1 and weights 0.
#[test]
fn a_run_leaves_out_what_does_not_count() {
    let mut challenges = [0; 15];
    challenges[0] = 1;
    let run = |entries: &[(Entry, u64)], sum: u32| {
        let mut list = List::new(2).unwrap();
        let read = list.read(&stored(sum, entries)).unwrap();
        let Plan { height, padded_height } = list.plan().unwrap();
        let (mut table, mut aux) = (vec![9; padded_height * COLUMNS], vec![9; padded_height * AUX_COLUMNS]);
        assert_eq!(list.fill(&mut table), Ok(height));
        assert_eq!(pad(&mut table, height), Ok(()));
        let last = extend(&table, &mut aux, &challenges).unwrap();
        assert_eq!(check(&table, &aux, &challenges), Ok(Verdict::Zero));
        ((read, height, padded_height), last, table)
    };
    let (sizes, sum, table) = run(&[(Entry::new(AND, 1, 1), 0), (A, 2)], 5);
    assert_eq!((sizes, sum), ((2, 3, 256), [2, 0, 0]));
    assert_eq!(table.chunks(COLUMNS).filter(|row| row[column::COPY_FLAG] == 1).count(), 1);
    assert_eq!((table[column::LHS], table[column::RESULT]), (3, plain_result(A)));
    let (sizes, sum, table) = run(&[(Entry::new(AND, 1, 1), 0)], 2);
    assert_eq!((sizes, sum), ((1, 0, 256), [0, 0, 0]));
    assert!(table.chunks(COLUMNS).all(|row| row[column::CI] == SPLIT && row[column::COPY_FLAG] == 0));
}

// ---- random calls by both

/// Every answer and every word, on slices and on a `List`.
#[test]
fn calls_by_both_against_a_model() {
    let mut random = Random(1111);
    let mut met = [[0; 18]; 2];
    for _ in 0..4000 {
        let capacity = random.below(7) as usize;
        let mut fresh = lent(capacity, &[]);
        let words = fresh.keys.iter_mut().chain(&mut fresh.multiplicities).chain(&mut fresh.holds);
        words.chain(&mut fresh.other_multiplicities).chain(&mut fresh.other_holds).for_each(|word| *word = random.word());
        let (mut list, mut owned) = (fresh.clone(), List::new(capacity).unwrap());
        let fresh_owned = lent_of(&owned);
        let mut model = Model::new(capacity, vec![]);
        for _ in 0..random.below(30) {
            let (by, call) = (Recorder::BOTH[random.below(2) as usize], random.call(capacity));
            model.by = by;
            let due = make!(model, &call);
            assert_eq!(list.by(by, |list| make!(list, &call)), due, "{by:?} {call:?}");
            assert_eq!(make!(owned.by(by), &call), due, "{by:?} {call:?}");
            assert_eq!(list, model.laid(fresh.clone()), "{by:?} {call:?}");
            assert_eq!(lent_of(&owned), model.laid(fresh_owned.clone()), "{by:?} {call:?}");
            met[by as usize][due.0 as usize] += 1;
            // each is planned and written by its own counts and holds
            for recorder in Recorder::BOTH {
                let of = |place: &(Entry, [(u64, u64); 2])| place.1[recorder as usize];
                let is_open = model.places.iter().any(|place| of(place).1 > 0);
                let counted: Vec<_> = model.places.iter().map(|place| (place.0, of(place).0)).filter(|(_, n)| *n > 0).collect();
                let rows: usize = counted.iter().map(|(entry, _)| height(*entry)).sum();
                let due = if is_open { Err(OpenHold) } else { Ok((rows, 256)) };
                assert_eq!(list.by(recorder, |list| list.plan()), due);
                assert_eq!(owned.of(recorder).plan().map(|plan| (plan.height, plan.padded_height)), due);
                assert_eq!(owned.of(recorder).to_bytes(), due.map(|_| stored(rows as u32, &counted)));
            }
        }
    }
    for met in met {
        assert!([0, 2, 3, 4, 6, 13, 16].iter().all(|number| met[*number] > 20), "{met:?}");
    }
}

/// The arrays of a list.
fn lent_of(list: &List) -> Lent {
    let (first, second) = (list.of(First), list.of(Second));
    Lent {
        sizes: list.sizes(),
        keys: list.keys().to_vec(),
        multiplicities: first.multiplicities().to_vec(),
        holds: first.holds().to_vec(),
        other_multiplicities: second.multiplicities().to_vec(),
        other_holds: second.holds().to_vec(),
    }
}

/// The methods of a list that name no recorder are the first one's.
#[test]
fn a_list_without_a_name_is_the_first_recorders() {
    let mut random = Random(1112);
    for _ in 0..300 {
        let [mut plain, mut named] = [List::new(4).unwrap(), List::new(4).unwrap()];
        for _ in 0..12 {
            let by = Recorder::BOTH[random.below(2) as usize];
            let call = random.call(4);
            let answers = match by {
                First => [make!(plain, &call), make!(named.by(First), &call)],
                Second => [make!(plain.by(Second), &call), make!(named.by(Second), &call)],
            };
            assert_eq!((answers[0], lent_of(&plain)), (answers[1], lent_of(&named)));
        }
        let first = named.of(First);
        assert_eq!((plain.plan(), plain.to_bytes()), (first.plan(), first.to_bytes()));
        assert!(plain.entries().eq(first.entries()));
        assert_eq!((plain.multiplicities(), plain.holds()), (first.multiplicities(), first.holds()));
        let [mut words, mut other] = [vec![7; 256 * COLUMNS], vec![7; 256 * COLUMNS]];
        assert_eq!((plain.fill(&mut words), words), (first.fill(&mut other), other));
        let [mut bytes, mut others] = [vec![7; stored_bytes(4)], vec![7; stored_bytes(4)]];
        assert_eq!((plain.write(&mut bytes), bytes), (first.write(&mut others), others));
        let [mut table, mut of_first] = [Table::new(), Table::new()];
        assert_eq!((table.fill(&plain), table), (of_first.fill(first), of_first));
    }
    let bytes = stored(3, &[(A, 2)]);
    let mut read = List::new(2).unwrap();
    assert_eq!(
        (read.read(&bytes), read.of(First).multiplicities(), read.of(Second).multiplicities()),
        (Ok(1), &[2, 0][..], &[0, 0][..])
    );
    assert_eq!(List::from_bytes(&bytes, 2), Ok(read));
}

// ---- sharing does not show

/// A call of a recorder, where a confirm or drop takes the position that its own call of this number answered.
#[derive(Clone, Debug)]
enum Made {
    Now(Call),
    Confirm(usize),
    Drop(usize),
}

/// The calls of a recorder with what they answered, and the positions among the answers.
#[derive(Default)]
struct Log {
    calls: Vec<(Made, Answer)>,
    positions: Vec<Option<usize>>,
}

impl Log {
    fn make(&mut self, list: &mut List, by: Recorder, made: Made) -> Answer {
        let position = |k: usize| self.positions[k].expect("a call that answered a position");
        let call = match &made {
            Made::Now(call) => call.clone(),
            Made::Confirm(k) => Call::Confirm(position(*k)),
            Made::Drop(k) => Call::Drop(position(*k)),
        };
        let answer = make!(list.by(by), &call);
        let has_position = answer.0 == 0 && matches!(call, Call::Record(_) | Call::Hold(_));
        self.positions.push(has_position.then_some(answer.1));
        self.calls.push((made, answer));
        answer
    }

    /// The numbers of the calls that answered a position.
    fn with_position(&self) -> Vec<usize> {
        (0..self.positions.len()).filter(|k| self.positions[*k].is_some()).collect()
    }
}

/// The counts that are not 0, by key.
fn counts(list: &List, of: Recorder) -> BTreeMap<Entry, u64> {
    list.of(of).entries().filter(|(_, count)| *count > 0).collect()
}

/// If none of a recorder's calls met list full, its height, its counts by key, its last sum and the verdict are those of its own calls alone.
#[test]
fn sharing_does_not_show() {
    let mut random = Random(1113);
    let [mut held, mut other_order, mut full, mut shows, mut checked] = [0; 5];
    for _ in 0..3000 {
        let capacity = random.below(30) as usize;
        let (mut list, mut logs) = (List::new(capacity).unwrap(), [Log::default(), Log::default()]);
        for _ in 0..random.below(40) {
            let by = Recorder::BOTH[random.below(2) as usize];
            let log = &mut logs[by as usize];
            let earlier = log.with_position();
            let call = match (random.call(capacity), earlier.is_empty()) {
                (Call::Confirm(_) | Call::Drop(_), true) => continue,
                (Call::Confirm(_), _) => Made::Confirm(earlier[random.below(earlier.len() as u64) as usize]),
                (Call::Drop(_), _) => Made::Drop(earlier[random.below(earlier.len() as u64) as usize]),
                (call, _) => Made::Now(call),
            };
            log.make(&mut list, by, call);
        }
        // mostly no hold is left open
        for by in Recorder::BOTH.into_iter().filter(|_| random.below(3) > 0) {
            let log = &mut logs[by as usize];
            for k in log.with_position() {
                log.make(&mut list, by, Made::Drop(k));
            }
        }
        for by in Recorder::BOTH {
            let calls = &logs[by as usize].calls;
            let (mut alone, mut log) = (List::new(capacity).unwrap(), Log::default());
            if let Some(at) = calls.iter().position(|(_, answer)| answer.0 == ListFull.number()) {
                // then it may show: alone there is room
                calls[..at]
                    .iter()
                    .for_each(|(call, _)| assert_ne!(log.make(&mut alone, First, call.clone()).0, ListFull.number()));
                full += 1;
                shows += u32::from(log.make(&mut alone, First, calls[at].0.clone()).0 != ListFull.number());
                continue;
            }
            for (call, answer) in calls {
                let own = log.make(&mut alone, First, call.clone());
                let is_replay = matches!(call, Made::Now(Call::Replay(_)));
                assert_eq!((own.0, is_replay.then_some(own.1)), (answer.0, is_replay.then_some(answer.1)), "{call:?}");
            }
            assert_eq!(list.of(by).plan(), alone.plan());
            assert_eq!(counts(&list, by), counts(&alone, First));
            if alone.plan().is_err() {
                held += 1;
                continue;
            }
            let challenges = random.challenges();
            let [shared, own] = [tables_of(list.of(by), &challenges), tables_of(&alone, &challenges)];
            assert_eq!((shared.height, shared.sum), (own.height, own.sum));
            let verdicts = [&shared, &own].map(|made| check(&made.table, &made.aux, &challenges));
            assert_eq!(verdicts, [Ok(Verdict::Zero), Ok(Verdict::Zero)]);
            other_order += u32::from(shared.table != own.table);
            checked += 1;
        }
    }
    let met = [held, other_order, full, shows, checked];
    assert!(met.iter().all(|times| *times > 300), "{met:?}");
}
