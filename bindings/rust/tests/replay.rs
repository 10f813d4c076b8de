//! Replay: what each step records, every refusal in its order with the steps before it done, and random traces against a plain walk over recordings.
mod common;

use common::{lent, step_entries, Lent, Random};
use u32_table::opcodes::{AND, LOG_2_FLOOR, LT, POP_COUNT, POW, SPLIT};
use u32_table::steps::{DIV_MOD, MERKLE_STEP, MERKLE_STEP_MEM, XOR};
use u32_table::{List, Refusal, Stopped, P};
use Refusal::*;

const WIDE: u64 = 1 << 32;

/// A plain walk: each step's recordings one after the other, on a copy that counts where all are done.
fn walk(list: &mut Lent, trace: &[u64]) -> Result<usize, Stopped> {
    for (done, step) in trace.chunks(3).enumerate() {
        let mut next = list.clone();
        let made =
            step_entries([step[0], step[1], step[2]]).and_then(|es| es.into_iter().try_for_each(|e| next.record(e).map(|_| ())));
        made.map_err(|refusal| Stopped { refusal, done })?;
        *list = next;
    }
    Ok(trace.len() / 3)
}

#[test]
fn each_step_records_its_entries() {
    for (trace, due) in [
        (vec![SPLIT, 21474836487, u64::MAX], vec![(SPLIT, 7, 5, 1)]),
        (vec![SPLIT, P - 1, 0], vec![(SPLIT, 0, WIDE - 1, 1)]),
        (vec![LOG_2_FLOOR, 8, u64::MAX, POP_COUNT, 7, 1 << 40], vec![(LOG_2_FLOOR, 8, 0, 1), (POP_COUNT, 7, 0, 1)]),
        (vec![XOR, 3, 1, AND, 3, 1], vec![(AND, 3, 1, 2)]),
        (vec![DIV_MOD, 7, 2], vec![(LT, 1, 2, 1), (SPLIT, 7, 3, 1)]),
        (vec![DIV_MOD, 0, 1], vec![(LT, 0, 1, 1), (SPLIT, 0, 0, 1)]),
        (vec![MERKLE_STEP, 9, P, MERKLE_STEP_MEM, 9, 0], vec![(SPLIT, 9, 4, 2)]),
        (vec![LT, 2, 3, POW, P - 1, 2], vec![(LT, 2, 3, 1), (POW, P - 1, 2, 1)]),
        (vec![], vec![]),
    ] {
        let mut list = lent(2, &[]);
        assert_eq!(list.replay(&trace), Ok(trace.len() / 3));
        assert_eq!(list, lent(2, &due));
    }
    let mut known = lent(2, &[(SPLIT, 7, 3, 1)]);
    assert_eq!(known.replay(&[DIV_MOD, 7, 2]), Ok(1));
    assert_eq!(known, lent(2, &[(SPLIT, 7, 3, 2), (LT, 1, 2, 1)]));
}

#[test]
fn refusals_in_their_order() {
    let full = P - 1;
    for (list, trace, refusal, done, after) in [
        // 1, before all steps
        (lent(2, &[]), vec![AND, 3], Shape, 0, lent(2, &[])),
        // 2, also for words whose low half is an opcode
        (lent(2, &[]), vec![SPLIT + WIDE, 0, 0], Stranger, 0, lent(2, &[])),
        (lent(4, &[]), vec![AND, 3, 1, LT, 2, 3, 0, 1, 1, AND, 3, 1], Stranger, 2, lent(4, &[(AND, 3, 1, 1), (LT, 2, 3, 1)])),
        // 3, of the step and of the entry; before 13 and 4
        (lent(2, &[]), vec![SPLIT, P, 0], Wide, 0, lent(2, &[])),
        (lent(2, &[]), vec![XOR, WIDE, 0], Wide, 0, lent(2, &[])),
        (lent(2, &[]), vec![LOG_2_FLOOR, WIDE, 0], Wide, 0, lent(2, &[])),
        (lent(2, &[]), vec![MERKLE_STEP, WIDE, 0], Wide, 0, lent(2, &[])),
        (lent(0, &[]), vec![DIV_MOD, WIDE, 0], Wide, 0, lent(0, &[])),
        (lent(0, &[]), vec![DIV_MOD, 0, WIDE], Wide, 0, lent(0, &[])),
        // 13 and 4, before 6
        (lent(0, &[]), vec![DIV_MOD, 5, 0], ZeroDivisor, 0, lent(0, &[])),
        (lent(0, &[]), vec![LOG_2_FLOOR, 0, 5], BareLog, 0, lent(0, &[])),
        (lent(1, &[]), vec![AND, 1, 1, LOG_2_FLOOR, 0, 5], BareLog, 1, lent(1, &[(AND, 1, 1, 1)])),
        // 5: of lt, also where split's key has no place; of split alone
        (lent(1, &[(LT, 1, 2, full)]), vec![DIV_MOD, 7, 2], CountFull, 0, lent(1, &[(LT, 1, 2, full)])),
        (lent(2, &[(SPLIT, 7, 3, full)]), vec![DIV_MOD, 7, 2], CountFull, 0, lent(2, &[(SPLIT, 7, 3, full)])),
        (lent(1, &[(AND, 3, 1, full - 1)]), vec![XOR, 3, 1, XOR, 3, 1], CountFull, 1, lent(1, &[(AND, 3, 1, full)])),
        // 6: both keys are new and there is one place; lt's key is known
        (lent(1, &[]), vec![DIV_MOD, 7, 2], ListFull, 0, lent(1, &[])),
        (lent(1, &[(LT, 1, 2, 1)]), vec![DIV_MOD, 7, 2], ListFull, 0, lent(1, &[(LT, 1, 2, 1)])),
        (lent(1, &[]), vec![AND, 1, 1, AND, 2, 2, AND, 1, 1], ListFull, 1, lent(1, &[(AND, 1, 1, 1)])),
    ] {
        let mut replayed = list.clone();
        assert_eq!(replayed.replay(&trace), Err(Stopped { refusal, done }), "{trace:?}");
        assert_eq!(replayed, after, "{trace:?}");
    }
    // 5 by count plus holds, of lt and of split; then nothing of the step is done
    for (opcode, left, right) in [(LT, 1, 2), (SPLIT, 7, 3)] {
        let mut held = lent(3, &[(opcode, left, right, full - 1)]);
        held.holds[0] = 1;
        let before = held.clone();
        assert_eq!(held.replay(&[DIV_MOD, 7, 2]), Err(Stopped { refusal: CountFull, done: 0 }));
        assert_eq!(held, before);
    }
    // a wrong list, also with an empty trace
    let mut wrong = lent(1, &[]);
    wrong.sizes.used = 2;
    let before = wrong.clone();
    assert_eq!(wrong.replay(&[]), Err(Stopped { refusal: Shape, done: 0 }));
    assert_eq!(wrong, before);
}

#[test]
fn a_replay_is_a_plain_walk() {
    let mut random = Random(5);
    let ten = [SPLIT, LT, LOG_2_FLOOR, AND, POP_COUNT, POW, DIV_MOD, XOR, MERKLE_STEP, MERKLE_STEP_MEM];
    let mut stops = [0; 14];
    for _ in 0..20000 {
        let entries: Vec<_> = (0..random.below(3)).map(|i| (LT, i, 1 + i, P - 1 - random.below(3))).collect();
        let mut ours = lent(entries.len() + random.below(6) as usize, &entries);
        let steps = random.below(8);
        let trace: Vec<u64> = (0..steps)
            .flat_map(|_| {
                let opcode = if random.below(40) == 0 { random.below(50) } else { ten[random.below(10) as usize] };
                let mut value = || match random.below(40) {
                    0 => random.word(),
                    1 => WIDE,
                    2 => P,
                    _ => random.below(4),
                };
                [opcode, value(), value()]
            })
            .collect();
        let mut plain = ours.clone();
        let answer = ours.replay(&trace);
        assert_eq!((answer, &ours), (walk(&mut plain, &trace), &plain), "{trace:?}");
        stops[answer.map_or_else(|stopped| stopped.refusal.number(), |_| 0) as usize] += 1;
    }
    // each reason was met
    assert!([0, 2, 3, 4, 5, 6, 13].iter().all(|number| stops[*number] > 20), "{stops:?}");
}

#[test]
fn a_list_says_where_it_stopped() {
    let mut list = List::new(2).unwrap();
    let stopped = list.replay(&[DIV_MOD, 7, 2, DIV_MOD, 7, 2, DIV_MOD, 8, 2]).unwrap_err();
    assert_eq!((stopped, list.len()), (Stopped { refusal: ListFull, done: 2 }, 2));
    assert_eq!(list.multiplicities(), [2, 2]);
    assert_eq!((stopped.to_string(), Refusal::from(stopped)), ("refused 6 (list full) after 2 steps".to_string(), ListFull));
}
