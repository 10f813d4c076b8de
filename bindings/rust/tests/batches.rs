//! Trying a batch size: an independent fold over the jobs gives the same batches, the law of request 12 holds of the answers, and the refusals come in
//! their order and change nothing.
mod common;

use common::Random;
use u32_table::Refusal::{JobAbove, Shape, Short};
use u32_table::{batches, Batch, Batched, Batches, BATCH_WORDS, MAX_JOBS, MAX_ROWS};

const MOST: u64 = MAX_ROWS as u64;
const MARK: u64 = 7;

/// The request's sentences, written anew: the jobs are folded one by one.
fn folded(jobs: &[u64], setting: u64) -> Vec<Batch> {
    jobs.iter().fold(Vec::new(), |mut list: Vec<Batch>, &height| {
        match list.last_mut() {
            Some(open) if open.rows + height <= setting => {
                open.jobs += 1;
                open.rows += height;
            }
            _ => list.push(Batch { jobs: 1, rows: height, padded_height: 0 }),
        }
        list
    })
}

fn padded(rows: u64) -> u64 {
    rows.max(256).next_power_of_two()
}

/// The sentence of the law, of what was answered.
fn lawful(jobs: &[u64], setting: u64, list: &[Batch], padding: u64) {
    let mut left = jobs;
    for (i, batch) in list.iter().enumerate() {
        assert!(1 <= batch.jobs && batch.jobs <= left.len(), "none is empty");
        let (taken, rest) = left.split_at(batch.jobs);
        assert_eq!(batch.rows, taken.iter().sum::<u64>());
        assert!(batch.rows <= setting, "no batch passes the setting");
        assert_eq!(i + 1 < list.len(), !rest.is_empty());
        if let Some(next) = rest.first() {
            assert!(setting < batch.rows + next, "it would pass it with the next one's first job");
        }
        assert_eq!(batch.padded_height, padded(batch.rows));
        left = rest;
    }
    assert!(left.is_empty(), "each job is in one");
    let rows: u64 = list.iter().map(|batch| batch.rows).sum();
    assert_eq!(rows, jobs.iter().sum::<u64>());
    assert_eq!(padding, list.iter().map(|batch| batch.padded_height).sum::<u64>() - rows);
}

/// Lends results with marks in them, and says that exactly the words of the batches changed.
fn tried(jobs: &[u64], setting: u64, places: usize) -> Batched {
    let due = folded(jobs, setting);
    let mut results = vec![MARK; BATCH_WORDS * places];
    let answer = batches(jobs, setting, &mut results).unwrap();
    let words: Vec<u64> = due.iter().flat_map(|b| [b.jobs as u64, b.rows, padded(b.rows)]).collect();
    assert_eq!(results[..words.len()], words);
    assert!(results[words.len()..].iter().all(|&word| word == MARK), "words past the last batch stay");
    assert_eq!(answer.count, due.len());
    let list: Vec<Batch> = due.iter().map(|b| Batch { padded_height: padded(b.rows), ..*b }).collect();
    lawful(jobs, setting, &list, answer.padding);
    let owned = Batches::of(jobs, setting).unwrap();
    assert_eq!((owned.list(), owned.padding()), (&list[..], answer.padding));
    answer
}

fn refused(jobs: &[u64], setting: u64, words: usize) -> u64 {
    let mut results = vec![MARK; words];
    let reason = batches(jobs, setting, &mut results).unwrap_err();
    assert!(results.iter().all(|&word| word == MARK), "a refusal changes nothing");
    reason.number()
}

#[test]
fn worked_cases() {
    for (jobs, setting, places, count, padding) in [
        (&[][..], 5, 0, 0, 0),
        (&[], 5, 2, 0, 0),
        (&[0], 5, 1, 1, 256),
        (&[0, 0, 0], 1, 1, 1, 256),
        (&[3, 3, 3], 6, 3, 2, 503),
        (&[3, 3, 3], 9, 1, 1, 247),
        (&[1, 5, 1], 5, 3, 3, 761),
        (&[5, 0, 0, 5], 5, 3, 2, 502),
        (&[0, 5, 1], 5, 3, 2, 506),
        (&[256], MOST, 1, 1, 0),
        (&[257], MOST, 1, 1, 255),
        (&[255, 2], 256, 2, 2, 255),
        (&[100, 200, 300, 400], 500, 3, 3, 536),
        (&[MOST, 1], MOST, 2, 2, 255),
    ] {
        assert_eq!(tried(jobs, setting, places), Batched { count, padding }, "{jobs:?} {setting}");
    }
}

#[test]
fn refusals_in_order() {
    for setting in [0, MOST + 1, u64::MAX] {
        assert_eq!(refused(&[1], setting, 3), Shape.number());
        assert_eq!(refused(&[u64::MAX], setting, 0), Shape.number());
    }
    // results that are not whole batches come before a job above, and that before too few places
    assert_eq!(refused(&[9], 8, 2), Shape.number());
    assert_eq!(refused(&[9], 8, 3), JobAbove.number());
    assert_eq!(refused(&[1, 9], 8, 0), JobAbove.number());
    assert_eq!(refused(&[u64::MAX], 8, 3), JobAbove.number());
    assert_eq!(refused(&[u64::MAX, u64::MAX], MOST, 6), JobAbove.number());
    assert_eq!(refused(&[1], 8, 0), Short.number());
    assert_eq!(refused(&[3, 3, 3], 6, 3), Short.number());
    assert_eq!(JobAbove.to_string(), "refused 17 (job above)");
}

#[test]
fn the_most_jobs() {
    assert_eq!(tried(&vec![0; MAX_JOBS], 8, 1), Batched { count: 1, padding: 256 });
    assert_eq!(tried(&vec![MOST; MAX_JOBS], MOST, MAX_JOBS), Batched { count: MAX_JOBS, padding: 0 });
    assert_eq!(refused(&vec![9; MAX_JOBS + 1], 8, 3), Shape.number());
    assert_eq!(Batches::of(&vec![0; MAX_JOBS + 1], 8), Err(Shape));
}

#[test]
fn random_jobs_and_settings() {
    let mut random = Random(12);
    for round in 0..2000 {
        let most = [8, 300, 5000, MOST][round % 4];
        let setting = 1 + random.word() % most;
        let height = |random: &mut Random| match random.word() % 6 {
            0 => 0,
            1 => setting,
            2 => setting / 2,
            _ => random.word() % (setting + 1),
        };
        let mut jobs: Vec<u64> = (0..random.word() % 40).map(|_| height(&mut random)).collect();
        let count = folded(&jobs, setting).len();
        tried(&jobs, setting, count);
        tried(&jobs, setting, count + 2);
        if count > 0 {
            assert_eq!(refused(&jobs, setting, BATCH_WORDS * (count - 1)), Short.number());
            assert_eq!(refused(&jobs, setting, BATCH_WORDS * count + 1), Shape.number());
            let place = random.word() as usize % jobs.len();
            jobs[place] = [setting + 1, u64::MAX, 1 << 63][random.word() as usize % 3];
            assert_eq!(refused(&jobs, setting, BATCH_WORDS * (count - 1)), JobAbove.number());
        }
    }
}
