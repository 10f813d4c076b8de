//! Archives: a transposition of its own gives the same bytes, nothing is lost either way, the check answers alike on what came back, and the refusals come in
//! their order and change nothing.
mod common;

use common::{list_of, tables_of, Random};
use u32_table::Refusal::{self, Shape, Short, Torn, Unreduced};
use u32_table::{archive, archive_bytes, archived_rows, check, column, extend, restore, AUX_COLUMNS, COLUMNS, MAX_ROWS, P};

const MARK: u64 = 7777;
const BYTE: u8 = 0xee;

/// The request's sentence, written anew.
fn transposed(table: &[u64], aux: &[u64]) -> Vec<u8> {
    let mut words = vec![(table.len() / COLUMNS) as u64];
    for (rows, width) in [(table, COLUMNS), (aux, AUX_COLUMNS)] {
        for column in 0..width {
            words.extend(rows.iter().skip(column).step_by(width));
        }
    }
    words.into_iter().flat_map(u64::to_le_bytes).collect()
}

/// Words below p, often at its edge.
fn words(random: &mut Random, n: usize) -> Vec<u64> {
    (0..n).map(|_| if random.below(8) == 0 { P - 1 - random.below(2) } else { random.below(P) }).collect()
}

fn table_of(random: &mut Random, rows: usize) -> (Vec<u64>, Vec<u64>) {
    (words(random, rows * COLUMNS), words(random, rows * AUX_COLUMNS))
}

/// Archives into more bytes than it takes, and restores onto more rows than there are: only those due change.
fn there_and_back(table: &[u64], aux: &[u64], more: usize) -> (Vec<u64>, Vec<u64>) {
    let due = transposed(table, aux);
    assert_eq!((due.len(), archived_rows(&due)), (archive_bytes(table.len() / COLUMNS), Some(table.len() / COLUMNS)));
    let mut out = vec![BYTE; due.len() + 3];
    assert_eq!(archive(table, aux, &mut out), Ok(()));
    assert!(out[..due.len()] == due && out[due.len()..] == [BYTE; 3]);
    let (mut rows, mut sums) = (vec![MARK; table.len() + more * COLUMNS], vec![MARK; aux.len() + more * AUX_COLUMNS]);
    assert_eq!(restore(&due, &mut rows, &mut sums), Ok(()));
    assert!(rows.drain(table.len()..).chain(sums.drain(aux.len()..)).all(|word| word == MARK));
    assert!(rows == table && sums == aux);
    (rows, sums)
}

#[test]
fn both_arrays_come_back() {
    let mut random = Random(10);
    for rows in [0, 1, 2, 3, 4, 17, 256, 1000] {
        for more in [0, 1, 5] {
            let (table, aux) = table_of(&mut random, rows);
            there_and_back(&table, &aux, more);
        }
    }
    let (table, aux) = table_of(&mut random, MAX_ROWS);
    there_and_back(&table, &aux, 0);
}

#[test]
fn an_accepted_archive_keeps_its_bytes() {
    let mut random = Random(110);
    for rows in [0, 1, 2, 5, 64] {
        let columns = words(&mut random, rows * (COLUMNS + AUX_COLUMNS));
        let bytes: Vec<u8> = [rows as u64].into_iter().chain(columns).flat_map(u64::to_le_bytes).collect();
        let (mut table, mut aux) = (vec![MARK; (rows + 2) * COLUMNS], vec![MARK; (rows + 2) * AUX_COLUMNS]);
        assert_eq!(restore(&bytes, &mut table, &mut aux), Ok(()));
        let mut again = vec![BYTE; bytes.len()];
        assert_eq!(archive(&table[..rows * COLUMNS], &aux[..rows * AUX_COLUMNS], &mut again), Ok(()));
        assert_eq!(again, bytes);
    }
}

#[test]
fn the_check_answers_alike() {
    let mut random = Random(1010);
    let (mut zeros, mut nonzeros, mut refused) = (0, 0, 0);
    for turn in 0..60 {
        let challenges = random.challenges();
        let mut entries: Vec<_> = (0..1 + random.below(5)).map(|_| random.entry()).collect();
        entries.truncate(if turn == 0 { 0 } else { 5 });
        let mut made = tables_of(&list_of(&entries), &challenges);
        match turn % 4 {
            // honest
            0 | 1 => {}
            // one Result is wrong, and the sums are made anew
            2 => {
                made.table[column::RESULT] = (made.table[column::RESULT] + 1) % P;
                let _ = extend(&made.table, &mut made.aux, &challenges);
            }
            _ => (made.table, made.aux) = table_of(&mut random, 9),
        }
        let (table, aux) = there_and_back(&made.table, &made.aux, 3);
        let wrong = [P; 15];
        for challenges in [&challenges[..], &random.challenges()[..], &challenges[..14], &wrong[..]] {
            let answer = check(&made.table, &made.aux, challenges);
            assert_eq!(check(&table, &aux, challenges), answer);
            match answer {
                Ok(verdict) if verdict.is_zero() => zeros += 1,
                Ok(_) => nonzeros += 1,
                Err(_) => refused += 1,
            }
        }
    }
    assert!(zeros >= 30 && nonzeros >= 60 && refused == 120, "{zeros} {nonzeros} {refused}");
}

#[test]
fn no_rows_are_short_on_both_sides() {
    let (table, aux) = there_and_back(&[], &[], 1);
    assert_eq!(check(&table, &aux, &[1; 15]), Err(Short));
}

fn not_archived(table: &[u64], aux: &[u64], bytes: usize, reason: Refusal) {
    let mut out = vec![BYTE; bytes];
    assert_eq!(archive(table, aux, &mut out), Err(reason));
    assert!(out.iter().all(|&byte| byte == BYTE), "nothing changes");
}

#[test]
fn archiving_refuses_in_order() {
    let (mut table, mut aux) = (vec![1; 20], vec![2; 6]);
    table[19] = P;
    not_archived(&table[..19], &aux, 216, Shape);
    not_archived(&table, &aux[..5], 216, Shape);
    not_archived(&vec![P; 10 * (MAX_ROWS + 1)], &vec![P; 3 * (MAX_ROWS + 1)], 0, Shape);
    not_archived(&table, &aux, 215, Short);
    not_archived(&table, &aux, 216, Unreduced);
    table[19] = P - 1;
    aux[5] = u64::MAX;
    not_archived(&table, &aux, 217, Unreduced);
    aux[5] = P - 1;
    there_and_back(&table, &aux, 0);
}

fn not_restored(bytes: &[u8], words: usize, aux_words: usize, reason: Refusal) {
    let (mut table, mut aux) = (vec![MARK; words], vec![MARK; aux_words]);
    assert_eq!(restore(bytes, &mut table, &mut aux), Err(reason));
    assert!(table.iter().chain(&aux).all(|&word| word == MARK), "nothing changes");
}

#[test]
fn restoring_refuses_in_order() {
    let good = transposed(&(1..=20).collect::<Vec<_>>(), &[3; 6]);
    let with = |k: usize, word: u64| {
        let mut bytes = good.clone();
        bytes[8 * k..8 * k + 8].copy_from_slice(&word.to_le_bytes());
        bytes
    };
    for bytes in [&[][..], &good] {
        not_restored(bytes, 19, 6, Shape);
        not_restored(bytes, 20, 5, Shape);
        not_restored(bytes, 10 * (MAX_ROWS + 1), 3 * (MAX_ROWS + 1), Shape);
    }
    for length in (0..216).chain([217]) {
        let longer = [&good[..], &[0]].concat();
        not_restored(&longer[..length], 20, 6, Torn);
        assert_eq!(archived_rows(&longer[..length]), None);
    }
    // of the last, times 104 and 8 more modulo 2^64 is the length that is there
    for count in [0, 1, 3, MAX_ROWS as u64 + 1, u64::MAX, (1 << 61) + 2] {
        not_restored(&with(0, count), 0, 0, Torn);
        assert_eq!(archived_rows(&with(0, count)), None);
    }
    assert_eq!(((1u64 << 61) + 2).wrapping_mul(104).wrapping_add(8), good.len() as u64);
    for k in 1..27 {
        for word in [P, u64::MAX] {
            not_restored(&with(k, word), 20, 6, Unreduced);
            not_restored(&with(k, word), 10, 3, Short);
            not_restored(&with(k, word)[..208], 10, 3, Torn);
        }
        let (mut table, mut aux) = ([MARK; 20], [MARK; 6]);
        assert_eq!(restore(&with(k, P - 1), &mut table, &mut aux), Ok(()));
    }
}
