//! The client's sum: given answers, every refusal in its order, request by request, and that it is the last sum of the table made of the recordings.
mod common;

use common::Random;
use u32_table::opcodes::{AND, LOG_2_FLOOR, LT, POP_COUNT, POW, SPLIT};
use u32_table::{client_sum, Entry, List, Refusal, Table, Verdict, P};
use Refusal::*;

const WIDE: u64 = 1 << 32;

/// Indeterminate and weights as base elements.
fn base(words: [u64; 5]) -> [u64; 15] {
    let mut challenges = [0; 15];
    (0..5).for_each(|i| challenges[3 * i] = words[i]);
    challenges
}

const WEIGHTS: [u64; 5] = [7, 1, 2, 3, 5];

fn refused(requests: &[u64], challenges: &[u64], reason: Refusal) {
    assert_eq!(client_sum(requests, challenges), Err(reason), "{requests:?}");
}

#[test]
fn given_answers() {
    let is = |requests: &[u64], challenges: &[u64], sum: [u64; 3]| {
        assert_eq!(client_sum(requests, challenges), Ok(sum), "{requests:?}")
    };
    let (zeros, w) = ([0; 15], base(WEIGHTS));
    let x: Vec<u64> = (1..=15).collect();
    is(&[], &zeros, [0, 0, 0]);
    is(&[AND, 3, 1, AND, 3, 1], &base([1, 0, 0, 0, 0]), [2, 0, 0]);
    is(&[AND, 3, 1], &base([2, 0, 0, 0, 0]), [9223372034707292161, 0, 0]);
    is(&[AND, 3, 1], &w, [6558842335791852203, 0, 0]);
    is(&[LT, 2, 3], &w, [768614336225607680, 0, 0]);
    is(&[SPLIT, 7, 5], &w, [14254302235456724248, 0, 0]);
    is(&[LOG_2_FLOOR, 8, 0], &w, [1773725391289863877, 0, 0]);
    is(&[POP_COUNT, 7, 0], &w, [11366175638730198420, 0, 0]);
    is(&[POW, 2, 64], &w, [14856351598777133472, 0, 0]);
    is(&[POW, 0, 0], &w, [3563575558864181062, 0, 0]);
    is(&[AND, 3, 1, LT, 2, 3, AND, 3, 1], &x, [15126871664615890454, 6821543807432483990, 6462459234003092381]);
}

#[test]
fn pow_takes_any_base() {
    let c = base([5, 1, 0, 0, 0]);
    assert_eq!(client_sum(&[POW, P + 2, 3], &c), Ok([12297829379609722881, 0, 0]));
    assert_eq!(client_sum(&[POW, 2, 3], &c), Ok([12297829379609722881, 0, 0]));
    assert_eq!(client_sum(&[POW, P, 0], &base(WEIGHTS)), client_sum(&[POW, 0, 0], &base(WEIGHTS)));
    // the denominator of the reduced base is zero
    refused(&[POW, P + 2, 3], &base([2, 1, 0, 0, 0]), Flat);
    refused(&[POW, P, WIDE], &c, Wide);
}

#[test]
fn refusals_in_order() {
    let (w, zeros) = (base(WEIGHTS), [0; 15]);
    let flat = base([52, 1, 2, 3, 5]);
    let unreduced = [P; 15];
    // 1 before 8 and before every request
    refused(&[5, 0], &unreduced, Shape);
    refused(&[5, 0, 0], &[P; 14], Shape);
    refused(&[], &[0; 14], Shape);
    refused(&[], &[0; 16], Shape);
    refused(&[5, 0, 0, AND], &zeros, Shape);
    // 8, also with no requests and in the last word; a word of a request is never 8
    refused(&[5, 0, 0], &unreduced, Unreduced);
    let mut last = [0; 15];
    last[14] = P;
    refused(&[], &last, Unreduced);
    refused(&[AND, P, 0], &zeros, Wide);
    refused(&[P, 0, 0], &zeros, Stranger);
    // 2, 3, 4, 9 of one request
    refused(&[5, WIDE, 0], &zeros, Stranger);
    refused(&[LOG_2_FLOOR, 0, WIDE], &zeros, Wide);
    refused(&[AND, WIDE, 0], &zeros, Wide);
    refused(&[LT, 0, u64::MAX], &zeros, Wide);
    refused(&[LOG_2_FLOOR, 0, 0], &zeros, BareLog);
    refused(&[AND, 3, 1], &flat, Flat);
    refused(&[AND, 0, 0], &zeros, Flat);
    // request by request
    refused(&[AND, 3, 1, 5, 0, 0], &flat, Flat);
    refused(&[5, 0, 0, AND, 3, 1], &flat, Stranger);
    refused(&[LT, 2, 3, AND, 3, 1, LOG_2_FLOOR, 0, 0], &flat, Flat);
    refused(&[LT, 2, 3, LOG_2_FLOOR, 0, 0, AND, 3, 1], &flat, BareLog);
    refused(&[LT, 2, 3, LT, WIDE, 3, 5, 0, 0], &w, Wide);
}

/// A request that is admitted, with few operands so that keys are met again.
fn request(random: &mut Random) -> [u64; 3] {
    let opcode = [SPLIT, LT, LOG_2_FLOOR, AND, POP_COUNT, POW][random.below(6) as usize];
    let mut operand = || if random.below(2) == 0 { random.below(5) } else { random.word() % WIDE };
    let (left, right) = (operand(), operand());
    match opcode {
        LOG_2_FLOOR => [opcode, left.max(1), right],
        POW if random.below(3) == 0 => [opcode, P + left % (u64::MAX - P), right],
        _ => [opcode, left, right],
    }
}

#[test]
fn it_is_the_last_sum_of_the_table() {
    let mut random = Random(2);
    for turn in 0..200 {
        let mut challenges = [0; 15];
        if turn % 2 == 0 {
            challenges.iter_mut().for_each(|word| *word = random.word() % P);
        } else {
            challenges = base([0; 5].map(|_| random.word() % P));
        }
        let requests: Vec<[u64; 3]> = (0..random.below(30)).map(|_| request(&mut random)).collect();
        let mut list = List::new(32).unwrap();
        for &[opcode, left, right] in &requests {
            list.record(Entry::new(opcode, left, right)).unwrap();
        }
        let mut table = Table::new();
        table.fill(&list).unwrap();
        table.pad().unwrap();
        let sum = table.extend(&challenges).unwrap();
        assert_eq!(client_sum(requests.as_flattened(), &challenges), Ok(sum), "{requests:?} {challenges:?}");
        assert_eq!(table.check(&challenges), Ok(Verdict::Zero));
    }
}
