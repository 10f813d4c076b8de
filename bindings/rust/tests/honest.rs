//! Honest input: recording, storing, and tables that the check finds zero.
mod common;

use common::{height, lent, list_of, plain_result, tables_of, Random};
use std::cmp::Ordering;
use u32_table::opcodes::{AND, LT, POP_COUNT, POW};
use u32_table::{check, column, compare, stored_bytes, Entry, List, Refusal, Verdict, AUX_COLUMNS, COLUMNS, P};

#[test]
fn the_printed_example() {
    let mut list = List::new(2048).unwrap();
    assert_eq!(list.record(Entry::new(AND, 3, 1)), Ok(0));
    assert_eq!(list.record(Entry::new(AND, 3, 1)), Ok(0));
    let mut challenges = [0; 15];
    challenges[0] = 1;
    let made = tables_of(&list, &challenges);
    let section = [
        [1, 0, 15651782846776010939, 14, 3, 12297829379609722881, 1, 1, 1, 2],
        [0, 1, 576460752169205760, 14, 1, 1, 0, 0, 0, 0],
        [0, 2, 7140675123644355221, 14, 0, 0, 0, 0, 0, 0],
    ];
    let padding = [[0, 0, 15651782846776010939, 14, 0, 0, 0, 0, 0, 0]; 253];
    assert_eq!((made.height, made.sum), (3, [2, 0, 0]));
    assert!(made.table == [section.as_slice(), padding.as_slice()].concat().concat());
    let verdict = check(&made.table, &made.aux, &challenges).unwrap();
    assert_eq!(verdict.to_string(), "zero");
}

#[test]
fn recording_is_a_count_of_keys_in_order_of_first_use() {
    let mut random = Random(1);
    let (mut list, mut model): (List, Vec<(Entry, u64)>) = (List::new(300).unwrap(), Vec::new());
    for _ in 0..2000 {
        let entry = Entry::new(AND, random.below(12), random.below(12));
        let place = model.iter().position(|(e, _)| *e == entry).unwrap_or_else(|| {
            model.push((entry, 0));
            model.len() - 1
        });
        model[place].1 += 1;
        assert_eq!(list.record(entry), Ok(place));
    }
    assert_eq!(list.len(), model.len());
    assert_eq!(list.entries().collect::<Vec<_>>(), model);
}

#[test]
fn order_is_that_of_the_words() {
    let mut random = Random(2);
    for _ in 0..2000 {
        let words: [u64; 6] = std::array::from_fn(|_| if random.below(3) == 0 { random.word() } else { random.below(2) });
        let (a, b) = (Entry::new(words[0], words[1], words[2]), Entry::new(words[3], words[4], words[5]));
        let wanted = words[..3].cmp(&words[3..]);
        assert_eq!(compare(a, b), wanted);
        assert_eq!(a.cmp(&b), wanted);
        assert_eq!(a == b, wanted == Ordering::Equal);
    }
}

#[test]
fn a_stored_list_reads_back_and_writes_the_same_bytes() {
    let mut random = Random(3);
    for n in [0, 1, 2, 17, 300] {
        let list = list_of(&(0..n).map(|_| random.entry()).collect::<Vec<_>>());
        let bytes = list.to_bytes().unwrap();
        assert_eq!(bytes.len(), stored_bytes(list.len()));
        assert_eq!(bytes[..4], (list.len() as u32).to_le_bytes());
        assert_eq!(bytes[4..8], (list.plan().unwrap().height as u32).to_le_bytes());
        let back = List::from_bytes(&bytes, 2048).unwrap();
        assert_eq!(back, list);
        assert_eq!(back.to_bytes().unwrap(), bytes);

        // a longer buffer keeps its other bytes, a list its other places; and onto one with keys nothing is read
        let mut longer = vec![0xaa; bytes.len() + 9];
        assert_eq!(list.write(&mut longer), Ok(bytes.len()));
        assert_eq!(longer[..bytes.len()], bytes);
        assert!(longer[bytes.len()..].iter().all(|b| *b == 0xaa));
        let entries: Vec<_> = list.entries().map(|(e, count)| (e.opcode, e.left_operand, e.right_operand, count)).collect();
        let mut to = lent(list.len() + 3, &[]);
        assert_eq!((to.read(&bytes), to), (Ok(list.len()), lent(list.len() + 3, &entries)));
        let mut other = list_of(&[random.entry()]);
        let before = other.clone();
        assert_eq!((other.read(&bytes), other), (Err(Refusal::ListFull), before));
    }
}

#[test]
fn honest_tables_tell_the_truth_and_check_zero() {
    let mut random = Random(4);
    for n in [1, 2, 5, 40, 200] {
        let entries: Vec<Entry> = (0..n).map(|_| random.entry()).collect();
        let (list, challenges) = (list_of(&entries), random.challenges());
        let made = tables_of(&list, &challenges);
        assert_eq!(made.height, list.entries().map(|(e, _)| height(e)).sum::<usize>());
        assert_eq!(list.plan().unwrap().padded_height, made.height.next_power_of_two().max(256));

        let firsts: Vec<&[u64]> = made.table.chunks(COLUMNS).filter(|row| row[column::COPY_FLAG] == 1).collect();
        assert_eq!(firsts.len(), list.len());
        for (row, (entry, multiplicity)) in firsts.iter().zip(list.entries()) {
            assert_eq!(row[column::CI], entry.opcode);
            assert_eq!(row[column::LHS], entry.left_operand);
            assert_eq!(row[column::RHS], entry.right_operand);
            assert_eq!(row[column::RESULT], plain_result(entry));
            assert_eq!(row[column::LOOKUP_MULTIPLICITY], multiplicity);
        }
        assert_eq!(made.aux[made.aux.len() - AUX_COLUMNS..], made.sum);
        assert_eq!(check(&made.table, &made.aux, &challenges), Ok(Verdict::Zero));
    }
}

#[test]
fn edges() {
    let challenges = Random(5).challenges();
    let most = u64::from(u32::MAX);
    for (entry, rows, result) in [
        (Entry::new(AND, 0, 0), 1, 0),
        (Entry::new(AND, 1, 0), 2, 0),
        (Entry::new(LT, most, 0), 33, 0),
        (Entry::new(LT, 0, 0), 1, 0),
        (Entry::new(LT, 3, 3), 3, 0),
        (Entry::new(LT, 2, 3), 3, 1),
        (Entry::new(POW, P - 1, 0), 1, 1),
        (Entry::new(POW, 0, 0), 1, 1),
        (Entry::new(POW, 2, 64), 8, 4294967295),
        (Entry::new(POP_COUNT, most, 0), 33, 32),
    ] {
        let made = tables_of(&list_of(&[entry]), &challenges);
        assert_eq!((made.height, made.table[column::RESULT]), (rows, result), "{entry:?}");
        assert_eq!(check(&made.table, &made.aux, &challenges), Ok(Verdict::Zero));
    }
    // the padding after lt 0, 0 has Result 2
    let mut list = list_of(&[Entry::new(AND, 1, 0), Entry::new(LT, 0, 0)]);
    let made = tables_of(&list, &challenges);
    assert_eq!((made.height, made.table[3 * COLUMNS + column::RESULT]), (3, 2));
    // 2,048 places
    list = List::new(2048).unwrap();
    for i in 0..2048 {
        assert_eq!(list.record(Entry::new(AND, i, 0)), Ok(i as usize));
    }
    assert_eq!(list.to_bytes().unwrap().len(), 51208);
}

#[test]
fn no_rows() {
    let list = List::new(0).unwrap();
    assert!(list.is_empty());
    assert_eq!((list.plan().unwrap().height, list.plan().unwrap().padded_height), (0, 256));
    assert_eq!(list.fill(&mut []), Ok(0));
    assert_eq!(u32_table::pad(&mut [], 0), Ok(()));
    assert_eq!(u32_table::extend(&[], &mut [], &[1; 15]), Ok([0, 0, 0]));
    let mut row = [9; COLUMNS];
    assert_eq!(u32_table::pad(&mut row, 0), Ok(()));
    assert_eq!(row, [0, 0, 15651782846776010939, 4, 0, 0, 0, 0, 0, 0]);
}
