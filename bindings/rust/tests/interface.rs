//! What this crate adds to the calls: opcodes as a type, tables that size themselves, equality, numbers that are too large, small stacks.
mod common;

use common::{list_of, tables_of, Random};
use std::thread;
use u32_table::{opcodes, stored_bytes, Entry, List, Opcode, Recorder, Refusal, Table, Verdict, COLUMNS, MAX_PLACES, MAX_ROWS};

#[test]
fn opcodes_and_words_are_recorded_alike() {
    for (opcode, word) in Opcode::ALL.into_iter().zip(opcodes::ALL) {
        assert_eq!((u64::from(opcode), Opcode::try_from(word)), (word, Ok(opcode)));
        assert_eq!(opcode.entry(1, 2), Entry::new(word, 1, 2));
        assert_eq!(opcode.entry(1, 2).instruction(), Some(opcode));
        let mut list = List::new(1).unwrap();
        assert_eq!((list.record(opcode.entry(1, 2)), list.record(Entry::new(word, 1, 2))), (Ok(0), Ok(0)));
    }
    for word in (0..100).filter(|word| !opcodes::ALL.contains(word)) {
        assert_eq!((Opcode::try_from(word), Entry::new(word, 0, 0).instruction()), (Err(word), None));
    }
    assert_eq!(Opcode::ALL.map(Opcode::name), ["split", "lt", "log_2_floor", "and", "pop_count", "pow"]);
}

#[test]
fn a_table_is_as_large_as_its_list_needs() {
    let mut random = Random(11);
    for entries in [0, 1, 9, 100, 700] {
        let list = list_of(&(0..entries).map(|_| random.entry()).collect::<Vec<_>>());
        let challenges = random.challenges();
        let made = tables_of(&list, &challenges);
        let mut table = Table::new();
        assert_eq!(table.fill(&list), Ok(made.height));
        table.pad().unwrap();
        assert_eq!(table.extend(&challenges), Ok(made.sum));
        assert!(table.words() == made.table && table.aux() == made.aux);
        assert_eq!((table.rows(), table.filled()), (made.table.len() / COLUMNS, made.height));
        assert_eq!(table.row(table.rows() - 1), made.table.chunks(COLUMNS).last());
        assert_eq!((table.row(table.rows()), table.check(&challenges)), (None, Ok(Verdict::Zero)));
    }
    // the largest list, and a table that somebody else made
    let full: Vec<Entry> = (0..MAX_PLACES as u64).map(|i| Opcode::PopCount.entry(u64::from(u32::MAX), i)).collect();
    let mut table = Table::new();
    assert_eq!(table.fill(&list_of(&full)), Ok(33 * MAX_PLACES));
    assert_eq!(table.rows(), MAX_ROWS);
    let words = table.words()[..33 * COLUMNS].to_vec();
    let mut other = Table::from_words(words).unwrap();
    other.pad().unwrap();
    let challenges = random.challenges();
    other.extend(&challenges).unwrap();
    assert_eq!((other.filled(), other.check(&challenges)), (33, Ok(Verdict::Zero)));
    // refusals
    assert_eq!(Table::from_words(vec![0; 11]), Err(Refusal::Shape));
    assert_eq!(Table::from_words(vec![0; (MAX_ROWS + 1) * COLUMNS]), Err(Refusal::Shape));
    assert_eq!(Table::new().check(&challenges), Err(Refusal::Short));
    let before = other.clone();
    assert_eq!((other.extend(&[0; 15]), other.extend(&[0; 14])), (Err(Refusal::Flat), Err(Refusal::Shape)));
    assert_eq!(other, before);
}

#[test]
fn lists_are_equal_by_their_entries() {
    let bytes = list_of(&[Opcode::And.entry(3, 1), Opcode::Lt.entry(2, 3)]).to_bytes().unwrap();
    let [small, mut large] = [2, 2048].map(|capacity| List::from_bytes(&bytes, capacity).unwrap());
    assert_eq!(small, large);
    assert_ne!(small.capacity(), large.capacity());
    large.record(Opcode::And.entry(3, 1)).unwrap();
    assert_ne!(small, large);
    assert_ne!(small, list_of(&[Opcode::Lt.entry(2, 3), Opcode::And.entry(3, 1)]));
    assert_eq!(List::new(0), List::new(7));
    // by those of both recorders, and by their open holds
    for recorder in Recorder::BOTH {
        let [mut recorded, mut held] = [small.clone(), small.clone()];
        recorded.by(recorder).record(Opcode::Lt.entry(2, 3)).unwrap();
        held.by(recorder).hold(Opcode::Lt.entry(2, 3)).unwrap();
        assert!(small != recorded && small != held && recorded != held, "{recorder:?}");
        held.by(recorder).drop_hold(1).unwrap();
        assert_eq!(small, held);
    }
    let mut second = List::new(2).unwrap();
    second.by(Recorder::Second).read(&bytes).unwrap();
    assert_ne!(small, second);
}

#[test]
fn no_number_is_too_large() {
    assert_eq!((stored_bytes(0), stored_bytes(1), stored_bytes(usize::MAX)), (8, 33, usize::MAX));
    assert_eq!(stored_bytes((usize::MAX - 8) / 25), (usize::MAX - 8) / 25 * 25 + 8);
    assert_eq!(List::new(usize::MAX), Err(Refusal::Shape));
    assert_eq!(List::from_bytes(&[], usize::MAX), Err(Refusal::Shape));
    assert_eq!(u32_table::pad(&mut [], usize::MAX), Err(Refusal::Short));
}

/// The need that the documentation states, with a full list.
#[test]
fn a_stack_of_224_kib_is_enough() {
    let full: Vec<Entry> = (0..MAX_PLACES as u64).map(|i| Opcode::PopCount.entry(u64::from(u32::MAX) - i, i)).collect();
    let work = move || {
        let list = list_of(&full);
        let bytes = list.to_bytes().unwrap();
        assert_eq!(List::from_bytes(&bytes, MAX_PLACES).unwrap(), list);
        let mut table = Table::new();
        table.fill(&list).unwrap();
        table.pad().unwrap();
        table.extend(&[1; 15]).unwrap();
        assert_eq!(table.check(&[1; 15]), Ok(Verdict::Zero));
    };
    thread::Builder::new().stack_size(224 * 1024).spawn(work).unwrap().join().unwrap();
}
