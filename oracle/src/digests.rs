//! Digests of the forty constraints on pseudo-random pairs of rows, for programs that cannot run the original: each evaluates the
//! same pairs and prints the same lines. What is written here is the description that they repeat.
//!
//! **Words.** x starts at 1. Each draw makes x := x * 6364136223846793005 + 1442695040888963407 modulo p, and is x.
//!
//! **Pair k**, for k from 0 to 639. Draw 41 words: the upper row's ten, its aux's three, the lower row's ten, its aux's three, the
//! fifteen challenge words. Then change them, in this order:
//! 1. If k % 3 is 1, each of the 26 words of rows and aux, w, becomes w % 3, and then both Bits 32 more.
//!    If k % 3 is 2, both Results, w, become w % 3; and the upper LHS, w, becomes 2 * (the lower LHS) + w % 2 modulo p, the upper
//!    RHS likewise with the lower RHS.
//! 2. The upper CopyFlag becomes 0, 1, 2 or stays as it is, where k % 4 is 0, 1, 2, 3; the lower one likewise by k / 4 % 4.
//! 3. The upper CI becomes 4, 6, 12, 14, 28, 30, 22 or stays as it is, where k / 16 % 8 is 0, .., 6, 7; the lower one likewise
//!    by (k / 16 + k / 128) % 8.
//!
//! **Values.** On each pair, each initial, consistency and terminal constraint is evaluated on the upper row with its aux, each
//! transition constraint on the upper and the lower row. A base value v is (v, 0, 0).
//!
//! **Digest** of a constraint: d starts at 0; for each of its 640 values (v0, v1, v2), in the order of k, d := d * 31 + v0, then
//! d := d * 31 + v1, then d := d * 31 + v2, modulo p.
//!
//! **Lines**, forty, by group (0 initial, 1 consistency, 2 transition, 3 terminal), then index: group, index, digest, and how many
//! of the 640 values are (0, 0, 0); decimal, with one space between, each line ended by a newline.
use twenty_first::prelude::*;

use crate::*;

pub const PAIRS: u64 = 640;

const BITS: usize = 1;
const CI: usize = 3;
const LHS: usize = 4;
const RHS: usize = 6;
const RESULT: usize = 8;

struct Draws(BFieldElement);

impl Draws {
    fn word(&mut self) -> u64 {
        self.0 = self.0 * bfe!(6364136223846793005_u64) + bfe!(1442695040888963407_u64);
        self.0.value()
    }

    fn words<const N: usize>(&mut self) -> [u64; N] {
        std::array::from_fn(|_| self.word())
    }
}

struct Pair {
    rows: [Row; 2],
    aux: [Ext; 2],
    challenges: Challenges,
}

fn pair(draws: &mut Draws, k: u64) -> Pair {
    let (upper, upper_aux, lower, lower_aux) = (draws.words(), draws.words(), draws.words(), draws.words());
    let (mut rows, mut aux, challenges) = ([upper, lower], [upper_aux, lower_aux], draws.words());
    if k % 3 == 1 {
        rows = rows.map(|row: Row| row.map(|word| word % 3));
        aux = aux.map(|aux: Ext| aux.map(|word| word % 3));
        rows[0][BITS] += 32;
        rows[1][BITS] += 32;
    }
    if k % 3 == 2 {
        rows[0][RESULT] %= 3;
        rows[1][RESULT] %= 3;
        for operand in [LHS, RHS] {
            let doubled = bfe!(2) * bfe!(rows[1][operand]);
            rows[0][operand] = (doubled + bfe!(rows[0][operand] % 2)).value();
        }
    }
    let by_flag = [k % 4, k / 4 % 4];
    let by_opcode = [k / 16 % 8, (k / 16 + k / 128) % 8];
    for (i, row) in rows.iter_mut().enumerate() {
        row[0] = [0, 1, 2, row[0]][by_flag[i] as usize];
        row[CI] = [4, 6, 12, 14, 28, 30, 22, row[CI]][by_opcode[i] as usize];
    }
    Pair { rows, aux, challenges }
}

/// The forty lines.
pub fn digests() -> String {
    let constraints = Constraints::new();
    let counts = constraints.counts();
    let mut digests = counts.map(|count| vec![(bfe!(0), 0); count]);
    let mut draws = Draws(bfe!(1));
    for k in 0..PAIRS {
        let Pair { rows, aux, challenges } = pair(&mut draws, k);
        for (group, digests) in digests.iter_mut().enumerate() {
            let values = constraints.values(group, [&rows[0], &rows[1]], aux, &challenges);
            for ((digest, zeros), value) in digests.iter_mut().zip(values) {
                *digest = value.iter().fold(*digest, |digest, &word| digest * bfe!(31) + bfe!(word));
                *zeros += (value == [0; 3]) as u64;
            }
        }
    }
    let mut text = String::new();
    for (group, digests) in digests.iter().enumerate() {
        for (index, (digest, zeros)) in digests.iter().enumerate() {
            text += &format!("{group} {index} {digest} {zeros}\n");
        }
    }
    text
}
