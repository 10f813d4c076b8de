//! The port's static library against the original: the same inputs to both, every word compared. See ../README.md.
use std::process::ExitCode;
use std::time::{Duration, Instant};

use oracle::inputs::Random;
use oracle::*;
use twenty_first::prelude::*;

mod cases;
mod port;

use cases::*;

const USAGE: &str = "\
compare [--seed N] [--short | --long MINUTES | --faults]

  --seed N         other pseudo-random inputs (default 1)
  --short          fewer inputs: under a minute
  --long MINUTES   pseudo-random inputs until the time is over
  --faults         a test of the comparison itself: one word of what the port hands back is changed, at each place in turn; a short
                   run must find each

Ends with 0 where nothing differs, with 1 on the first difference.";

#[derive(Clone, Copy)]
struct Size {
    /// How many entries at the edges stand in one list.
    edge_list: usize,
    /// Every how many-th edge operand is taken.
    edge_step: usize,
    rounds: u64,
    /// Rounds go on until then.
    until: Option<Duration>,
}

const SHORT: Size = Size { edge_list: 40, edge_step: 2, rounds: 2_000, until: None };
const FULL: Size = Size { edge_list: 1, edge_step: 1, rounds: 60_000, until: None };
const FAULTS: Size = Size { edge_list: 40, edge_step: 12, rounds: 40, until: None };

fn main() -> ExitCode {
    std::panic::set_hook(Box::new(|_| ()));
    let (mut seed, mut size, mut is_self_test) = (1, FULL, false);
    let mut arguments = std::env::args().skip(1);
    while let Some(argument) = arguments.next() {
        let mut number = || arguments.next().and_then(|number| number.parse::<u64>().ok());
        match argument.as_str() {
            "--seed" => match number() {
                Some(number) => seed = number,
                None => return usage(),
            },
            "--short" => size = SHORT,
            "--long" => match number() {
                Some(minutes) => size = Size { rounds: u64::MAX, until: Some(Duration::from_secs(60 * minutes)), ..FULL },
                None => return usage(),
            },
            "--faults" => is_self_test = true,
            _ => return usage(),
        }
    }
    if is_self_test { self_test(seed) } else { compare(seed, size) }
}

fn usage() -> ExitCode {
    eprintln!("{USAGE}");
    ExitCode::from(2)
}

fn compare(seed: u64, size: Size) -> ExitCode {
    let start = Instant::now();
    let mut run = Run { comparison: Comparison::new(), random: Random(seed), start };
    let difference = run.all(size);
    let counts = &run.comparison.counts;
    let seconds = start.elapsed().as_secs();
    print_counts(counts);
    match difference {
        None if counts.passing.contains(&0) => {
            println!("NOT COMPARED (seed {seed}): rows against heights, {:?}", counts.passing);
            ExitCode::FAILURE
        }
        None if counts.large.contains(&0) => {
            println!("NOT COMPARED (seed {seed}): multiplicities past 32 bits, {:?}", counts.large);
            ExitCode::FAILURE
        }
        None if counts.raw.contains(&0) => {
            println!("NOT COMPARED (seed {seed}): bases of pow of p or more, {:?}", counts.raw);
            ExitCode::FAILURE
        }
        None if counts.lookups.contains(&0) || !counts.refusals.contains_key(&14) => {
            println!("NOT COMPARED (seed {seed}): look-ups, {:?}", counts.lookups);
            ExitCode::FAILURE
        }
        None if counts.holds.contains(&0) || !counts.refusals.contains_key(&15) => {
            println!("NOT COMPARED (seed {seed}): recordings in two parts, {:?}", counts.holds);
            ExitCode::FAILURE
        }
        None if counts.shared.contains(&0) => {
            println!("NOT COMPARED (seed {seed}): two recorders, {:?}", counts.shared);
            ExitCode::FAILURE
        }
        None if counts.left_out.contains(&0) => {
            println!("NOT COMPARED (seed {seed}): multiplicities of 0, {:?}", counts.left_out);
            ExitCode::FAILURE
        }
        None if counts.stops.contains(&0) => {
            println!("NOT COMPARED (seed {seed}): steps of div_mod that stop, {:?}", counts.stops);
            ExitCode::FAILURE
        }
        None if counts.clients.contains(&0) => {
            println!("NOT COMPARED (seed {seed}): the client's sums, {:?}", counts.clients);
            ExitCode::FAILURE
        }
        None => {
            println!("seed {seed} seconds {seconds} differences 0");
            ExitCode::SUCCESS
        }
        Some((case, difference)) => {
            println!("DIFFERENCE (seed {seed}): {difference}");
            let (case, difference) = run.smallest(case, difference);
            println!("smallest input found: {case}there: {difference}");
            ExitCode::FAILURE
        }
    }
}

fn print_counts(counts: &Counts) {
    println!("lists {} entries {} rows {}", counts.lists, counts.entries, counts.list_rows);
    println!("changed, foreign and random tables {} rows {}", counts.tables, counts.table_rows);
    println!("words {} constraint values {} of them not zero {}", counts.words, counts.values, counts.nonzero);
    println!("verdicts zero {} nonzero {}", counts.verdicts[0], counts.verdicts[1]);
    println!(
        "rows against heights, of changed and foreign tables that pass {} as many rows as the heights {}",
        counts.passing[0], counts.passing[1]
    );
    let [held, confirmed, dropped, none, full, filled, left_out] = counts.holds;
    println!(
        "held {held} confirmed {confirmed} dropped {dropped} refused with 16 {none} with 5 by the holds {full}; filled then {filled} with a key left out {left_out}"
    );
    let [found, no_room, beside_open, order, alone] = counts.shared;
    println!(
        "two recorders: keys of the other one found {found} no room for them {no_room}; planned beside an open hold {beside_open} keys in another order {order}; own calls alone {alone}"
    );
    let [places, not_admitted, stored, onto_keys] = counts.left_out;
    println!(
        "places left out {places} not admitted {not_admitted} stored lists with such {stored}; readings onto a list with keys {onto_keys}"
    );
    println!(
        "replays {} steps done {}; div_mod stopped at split's 6 {} at lt's 5 with split's 6 {} at 13 {}",
        counts.replays[0], counts.replays[1], counts.stops[0], counts.stops[1], counts.stops[2]
    );
    println!(
        "client's sums {} requests {} rows of their tables {} by compute_terminal {}; zero denominators {} before a request not admitted {}",
        counts.clients[0], counts.clients[1], counts.clients[2], counts.clients[3], counts.clients[4], counts.clients[5]
    );
    println!(
        "values looked up {} of them known {} new with equal bytes {}; sums of the lookup tables {}",
        counts.lookups[0], counts.lookups[1], counts.lookups[2], counts.lookups[3]
    );
    println!("multiplicities past 32 bits, entries {} recordings {}", counts.large[0], counts.large[1]);
    println!("bases of pow of p or more, entries {} on lists {} recordings {}", counts.raw[0], counts.raw[1], counts.raw[2]);
    println!(
        "heights {} recordings {} orders {} written and read {} element operations {}",
        counts.heights, counts.recordings, counts.orders, counts.round_trips, counts.elements
    );
    let refusals: Vec<String> = counts.refusals.iter().map(|(number, count)| format!("{number}: {count}")).collect();
    println!(
        "refusals {} ({}) panics of the original {}",
        counts.refusals.values().sum::<u64>(),
        refusals.join(", "),
        counts.panics
    );
    for (listed, count) in &counts.listed {
        println!("  as docs/DIFFERENCES.md says, {listed}: {count}");
    }
}

/// Each fault must be found.
fn self_test(seed: u64) -> ExitCode {
    let mut missed = 0;
    for fault in port::FAULTS {
        port::set_fault(Some(fault));
        let mut run = Run { comparison: Comparison::new(), random: Random(seed), start: Instant::now() };
        match run.edges(FAULTS).or_else(|| run.rounds(FAULTS)) {
            Some((_, difference)) => println!("{fault:24} found: {}", difference.chars().take(110).collect::<String>()),
            None => {
                missed += 1;
                println!("{fault:24} NOT FOUND");
            }
        }
    }
    port::set_fault(None);
    println!("faults {} found {}", port::FAULTS.len(), port::FAULTS.len() - missed);
    if missed == 0 { ExitCode::SUCCESS } else { ExitCode::FAILURE }
}

type Found = Option<(Case, String)>;

struct Run {
    comparison: Comparison,
    random: Random,
    start: Instant,
}

impl Run {
    fn all(&mut self, size: Size) -> Found {
        self.try_case(Case::Shapes).or_else(|| self.full_lists()).or_else(|| self.edges(size)).or_else(|| self.rounds(size))
    }

    fn try_case(&mut self, case: Case) -> Found {
        let difference = self.comparison.differs(&case)?;
        Some((case, difference))
    }

    /// The smallest case that differs, for at most twenty seconds.
    fn smallest(&mut self, mut case: Case, mut difference: String) -> (Case, String) {
        let end = Instant::now() + Duration::from_secs(20);
        'smaller: loop {
            for way in case.smaller() {
                if Instant::now() > end {
                    return (case, difference);
                }
                if let Some(found) = self.comparison.differs(&way) {
                    (case, difference) = (way, found);
                    continue 'smaller;
                }
            }
            return (case, difference);
        }
    }

    // ---------------------------------------------------------------------------------------------------------- every list shape

    /// 2,048 places, all used, with and without repeats; no entries.
    fn full_lists(&mut self) -> Found {
        for repeats in [false, true] {
            let list = (0..MOST_PLACES as u64).map(|i| {
                let opcode = OPCODES[i as usize % 6];
                let n = if repeats { i / 24 } else { i };
                entry(opcode, n * 2_097_143 + 1, (n * n * 1021) % (1 << 32), i)
            });
            let case = Case::List { list: list.collect(), spare: 0, extra: 9, challenges: self.random.challenges() };
            if let Some(found) = self.try_case(case) {
                return Some(found);
            }
        }
        for (spare, extra) in [(0, 0), (0, 1), (3, 0), (MOST_PLACES, 4)] {
            let case = Case::List { list: vec![], spare, extra, challenges: self.random.challenges() };
            if let Some(found) = self.try_case(case) {
                return Some(found);
            }
        }
        None
    }

    /// Every opcode with every pair of operands at the edges.
    fn edges(&mut self, size: Size) -> Found {
        let around = |k: u32| [(1u64 << k) - 1, 1 << k, (1 << k) + 1];
        let mut operands: Vec<u64> = (1..=32).flat_map(around).chain([0, 1]).filter(|&operand| operand < 1 << 32).collect();
        operands.sort();
        operands.dedup();
        let wide: Vec<u64> = (32..64).flat_map(around).chain([P / 2, P - 2, P - 1]).filter(|&base| base < P).collect();
        let multiplicities: Vec<u64> = operands.iter().chain(&wide).copied().collect();
        let (few, last) = (operands.iter().step_by(size.edge_step).copied(), *operands.last()?);
        let mut operands: Vec<u64> = few.chain([0, 1, last]).collect();
        operands.sort();
        operands.dedup();
        let mut list = vec![];
        let mut i = 0;
        let bases_of_pow = [&wide[..], &[P, P + 1, P + 40, u64::MAX]].concat();
        for opcode in OPCODES {
            let bases: &[u64] = if opcode == 30 { &bases_of_pow } else { &[] };
            for &lhs in operands.iter().chain(bases).filter(|&&lhs| opcode != 12 || lhs != 0) {
                for &rhs in &operands {
                    i += 1;
                    list.push(entry(opcode, lhs, rhs, multiplicities[i % multiplicities.len()]));
                    if list.len() == size.edge_list {
                        let extra = i % 3;
                        let challenges = self.random.challenges();
                        let case = Case::List { list: std::mem::take(&mut list), spare: i % 2, extra, challenges };
                        if let Some(found) = self.try_case(case) {
                            return Some(found);
                        }
                    }
                }
            }
        }
        self.try_case(Case::List { list, spare: 0, extra: 1, challenges: PLAIN })
    }

    // --------------------------------------------------------------------------------------------------------- pseudo-random ones

    fn rounds(&mut self, size: Size) -> Found {
        for round in 0..size.rounds {
            if size.until.is_some_and(|until| self.start.elapsed() > until) {
                return None;
            }
            for case in self.round(round) {
                if let Some(found) = self.try_case(case) {
                    return Some(found);
                }
            }
        }
        None
    }

    fn round(&mut self, round: u64) -> Vec<Case> {
        let random = &mut self.random;
        let most = match round % 100 {
            0 => 400,
            i if i % 10 == 5 => 40,
            _ => 5,
        };
        let mut list = random.list(most);
        list.iter_mut().for_each(|entry| entry.key = now_and_then_raw(random, entry.key));
        leave_out_some(random, &mut list);
        let challenges = challenges(random);
        let (spare, extra) = (random.below(4) as usize, random.below(5) as usize);
        let small: Vec<Entry> = list.iter().take(3).copied().collect();
        let mut cases = vec![
            Case::List { list, spare, extra, challenges },
            damaged_list(random),
            changed_table(random, &small),
            foreign_table(random),
            random_table(random),
            recordings(random),
            shared(random),
            replays(random),
            requests(random, most),
            look_ups(random),
            order(random),
            order(random),
            Case::Elements { words: (0..12).map(|_| any_word(random)).collect() },
        ];
        if round % 4 == 0 {
            cases.push(stretched_table(random, &small));
        }
        cases
    }
}

/// Any word, those of p or more among them.
fn any_word(random: &mut Random) -> u64 {
    match random.below(4) {
        0 => P.wrapping_add(random.below(1 << 32) - 1),
        1 => random.word(),
        _ => random.element(),
    }
}

/// The key, or of pow a raw word in the place of its base: the same element plus p where that is a word, else any word of p or more.
fn now_and_then_raw(random: &mut Random, [opcode, lhs, rhs]: Key) -> Key {
    if opcode != 30 || random.below(3) > 0 {
        return [opcode, lhs, rhs];
    }
    let any = P + random.below(u64::MAX - P + 1);
    [opcode, lhs.checked_add(P).unwrap_or(any), rhs]
}

/// Random ones; now and then small ones, or an opcode as U32Indeterminate with U32CiWeight 1: then a denominator may be zero.
fn challenges(random: &mut Random) -> Challenges {
    match random.below(8) {
        0 => PLAIN,
        1 => std::array::from_fn(|i| if i % 3 == 0 { random.below(3) } else { 0 }),
        2 => {
            let mut challenges = [0; 15];
            (challenges[0], challenges[9]) = (random.one_of(&OPCODES), 1);
            challenges
        }
        _ => random.challenges(),
    }
}

/// In every fourth list, each second multiplicity or so becomes 0.
fn leave_out_some(random: &mut Random, list: &mut [Entry]) {
    if random.below(4) == 0 {
        list.iter_mut().filter(|_| random.below(2) == 0).for_each(|entry| entry.multiplicity = 0);
    }
}

/// A list with an entry or two that document 01 does not admit, whose multiplicity is at the limit, or whose base of pow is p or more; now and then such an
/// entry is left out.
fn damaged_list(random: &mut Random) -> Case {
    let mut list = random.list(4);
    for _ in 0..=random.below(2) {
        let (mut entry, any) = (random.entry(), random.word());
        match random.below(6) {
            0 => entry.key[0] = random.one_of(&[0, 1, 5, 7, 8, 22, 29, 31, 33, 255, 256 + 4, P + 4, any]),
            1 => entry.key[1] = random.one_of(&[1 << 32, (1 << 32) + 1, P - 1, P, P + 1, u64::MAX, any]),
            2 => entry.key[2] = random.one_of(&[1 << 32, (1 << 32) + 1, P - 1, P, P + 1, u64::MAX, any]),
            3 => entry.key = [12, 0, random.operand()],
            4 => entry.multiplicity = random.one_of(&[1 << 32, P - 1, P, P + 1, u64::MAX, any]),
            _ => entry.key = [30, random.one_of(&[P, P + 1, u64::MAX]), random.operand()],
        }
        if random.below(4) == 0 {
            entry.multiplicity = 0;
        }
        let i = random.below(list.len() as u64 + 1) as usize;
        list.insert(i, entry);
    }
    Case::List { list, spare: random.below(3) as usize, extra: random.below(3) as usize, challenges: PLAIN }
}

/// The table of a list, as the original makes it, with one to three words changed; the sums old or made again.
fn changed_table(random: &mut Random, list: &[Entry]) -> Case {
    let challenges = random.challenges();
    let height = list_height(list);
    let mut rows = vec![[0; 10]; (height + random.below(3) as usize).max(1)];
    let made = caught(|| {
        fill(list, &mut rows);
        pad(&mut rows, height);
        let aux = extend(&rows, &challenges);
        (rows, aux)
    });
    let Ok((mut rows, mut aux)) = made else { return foreign_table(random) };
    for _ in 0..=random.below(3) {
        let (row, column) = (random.below(rows.len() as u64) as usize, random.below(13) as usize);
        let word = if column < 10 { &mut rows[row][column] } else { &mut aux[row][column - 10] };
        let choices = [0, 1, 2, P - 1, (*word + 1) % P, *word / 2, random.one_of(&OPCODES), random.below(P)];
        *word = random.one_of(&choices);
    }
    if random.below(2) == 0 {
        aux = caught(|| extend(&rows, &challenges)).unwrap_or(aux);
    }
    let filled = random.below(rows.len() as u64 + 1) as usize;
    Case::Table { rows, aux, challenges, filled }
}

/// Sections as the original fills them and, below their ends, rows that no filler makes: with any Bits, with CopyFlag 1, walks along the bits
/// of p, which is 0. Such a table passes.
fn stretched_table(random: &mut Random, list: &[Entry]) -> Case {
    let challenges = random.challenges();
    let with_bits = |bits: u64| [bits, (BFieldElement::new(bits) - BFieldElement::new(33)).inverse().value()];
    let mut rows: Vec<Row> = vec![];
    for entry in list {
        rows.extend(filled(&[*entry]));
        for _ in 0..random.below(4) {
            let [_, _, _, ci, lhs, lhs_inverse, ..] = rows[rows.len() - 1];
            let result = match ci {
                6 => 2,
                12 => P - 1,
                30 => 1,
                _ => 0,
            };
            let row = |[bits, inverse]: [u64; 2]| [0, bits, inverse, ci, lhs, lhs_inverse, 0, 0, result, 0];
            match random.below(4) {
                0 if ci != 12 => {
                    let mut first = row(with_bits(0));
                    (first[0], first[9]) = (1, random.operand());
                    first[8] = if ci == 6 { 0 } else { result };
                    rows.push(first);
                }
                1 if ci == 14 || ci == 4 => rows.extend((0..64).map(|i| {
                    let lhs = (P >> i) / 2;
                    let mut step = row(with_bits(34 + i));
                    (step[4], step[5]) = (lhs, if lhs == 0 { 0 } else { BFieldElement::new(lhs).inverse().value() });
                    step
                })),
                _ => rows.push(row(with_bits(random.below(33)))),
            }
        }
    }
    let Ok(aux) = caught(|| extend(&rows, &challenges)) else { return foreign_table(random) };
    let filled = random.below(rows.len() as u64 + 1) as usize;
    Case::Table { rows, aux, challenges, filled }
}

/// Rows that no filler made; now and then a word of p or more, a filled count past the end, sums that fit.
fn foreign_table(random: &mut Random) -> Case {
    let n = random.below(9);
    let mut rows: Vec<Row> = (0..n).map(|_| random.foreign_row()).collect();
    let mut aux: Vec<Ext> = (0..n).map(|_| random.ext()).collect();
    let mut challenges = challenges(random);
    if random.below(2) == 0 {
        aux = caught(|| extend(&rows, &challenges)).unwrap_or(aux);
    }
    if n > 0 && random.below(4) == 0 {
        let row = random.below(n) as usize;
        let high = random.one_of(&[P, P + 1, u64::MAX]);
        match random.below(3) {
            0 => rows[row][random.below(10) as usize] = high,
            1 => aux[row][random.below(3) as usize] = high,
            _ => challenges[random.below(15) as usize] = high,
        }
    }
    let filled = random.below(n + 2) as usize;
    Case::Table { rows, aux, challenges, filled }
}

/// Words below p without any shape.
fn random_table(random: &mut Random) -> Case {
    let n = 1 + random.below(4);
    let rows = (0..n).map(|_| std::array::from_fn(|_| random.below(P))).collect();
    let aux = (0..n).map(|_| std::array::from_fn(|_| random.below(P))).collect();
    Case::Table { rows, aux, challenges: random.challenges(), filled: random.below(n + 1) as usize }
}

fn recordings(random: &mut Random) -> Case {
    let mut keys: Vec<Key> = (0..1 + random.below(6)).map(|_| random.key()).collect();
    let mut list: Vec<Entry> = vec![];
    for _ in 0..random.below(4) {
        let key = if random.below(2) == 0 { random.one_of(&keys) } else { random.key() };
        let key = now_and_then_raw(random, key);
        if list.iter().all(|entry| admitted(entry.key) != admitted(key)) {
            let any = random.operand();
            let multiplicity = random.one_of(&[0, 1, (1 << 32) - 2, (1 << 32) - 1, 1 << 32, P - 2, P - 1, P, u64::MAX, any]);
            list.push(Entry { key, multiplicity });
        }
    }
    if random.below(4) == 0 {
        let key = random.one_of(&[[5, 0, 0], [22, 1, 2], [14, 1 << 32, 0], [14, 0, P], [12, 0, 3], [30, P, 0], [30, 0, 1 << 32]]);
        keys.push(key);
    }
    let capacity = list.len() + random.below(6) as usize;
    let raw = |random: &mut Random| {
        let key = random.one_of(&keys);
        now_and_then_raw(random, key)
    };
    let keys = (0..random.below(16)).map(|_| raw(random)).collect();
    Case::Record { list, capacity, keys }
}

/// Holds, confirms, drops, recordings and replays of few keys by two recorders, in a quarter of the cases by one of them alone, onto a fresh list, or onto
/// one whose counts and holds are often at the limit; confirms and drops are now and then not of an earlier call. Half of the cases end with a drop of each hold.
fn shared(random: &mut Random) -> Case {
    let few = few_values(random);
    let steps: Vec<Key> = (0..4).map(|_| step(random, &few)).collect();
    let mut keys: Vec<Key> = (0..1 + random.below(4)).map(|_| random.key()).collect();
    for step in &steps[..random.below(4) as usize] {
        keys.extend(step_entries(*step).unwrap_or_default());
    }
    if random.below(4) == 0 {
        keys.push(random.one_of(&[[5, 0, 0], [14, 1 << 32, 0], [12, 0, 3], [30, 0, 1 << 32]]));
    }
    let mut places: Vec<Place> = vec![];
    if random.below(2) == 0 {
        for key in keys.clone() {
            if is_admitted(key) && places.iter().all(|place| admitted(place.key) != admitted(key)) {
                let count = |random: &mut Random| random.one_of(&[0, 0, 1, 1 << 32, P - 3, P - 2, P - 1, P, u64::MAX]);
                let holds = |random: &mut Random| random.one_of(&[0, 0, 0, 1, 2, 1 << 32, P - 2, P - 1, u64::MAX]);
                places.push(Place {
                    key: now_and_then_raw(random, key),
                    counts: [count(random), count(random)],
                    holds: [holds(random), holds(random)],
                });
            }
        }
    }
    let capacity = places.len() + random.below(7) as usize;
    let only = (random.below(4) == 0).then(|| random.below(2) as usize);
    let mut calls: Vec<(usize, Call)> = vec![];
    let made = |calls: &[(usize, Call)], who: usize| calls.iter().filter(|(whose, _)| *whose == who).count();
    for _ in 0..random.below(16) {
        let who = only.unwrap_or(random.below(2) as usize);
        let key = random.one_of(&keys);
        let key = now_and_then_raw(random, key);
        let earlier = match random.below(8) {
            0 => random.word() as usize,
            1 => random.below(capacity as u64 + 1) as usize,
            _ => random.below(made(&calls, who).max(1) as u64) as usize,
        };
        let call = match random.below(16) {
            0..4 => Call::Record(key),
            4..9 => Call::Hold(key),
            9..12 => Call::Confirm(earlier),
            12..14 => Call::Drop(earlier),
            _ => Call::Replay((0..random.below(4)).map(|_| random.one_of(&steps)).collect()),
        };
        calls.push((who, call));
    }
    if random.below(2) == 0 {
        for who in [0, 1] {
            let own = calls.iter().filter(|(whose, _)| *whose == who).enumerate();
            let held: Vec<usize> = own.filter(|(_, (_, call))| matches!(call, Call::Hold(_))).map(|(i, _)| i).collect();
            calls.extend(held.into_iter().map(|i| (who, Call::Drop(i))));
        }
    }
    Case::Shared { places, capacity, calls, challenges: challenges(random) }
}

/// Values of steps, few of them, so that keys are met again.
fn few_values(random: &mut Random) -> Vec<u64> {
    (0..2).map(|_| random.operand()).chain([0, 1, 2, 3, 4]).collect()
}

/// A step of the ten opcodes with one of these values, often div_mod; now and then another opcode or any words.
fn step(random: &mut Random, few: &[u64]) -> Key {
    let value = |random: &mut Random| match random.below(32) {
        0 => random.one_of(&[1 << 32, (1 << 32) + 1, P - 1, P, P + 1, u64::MAX]),
        1 => any_word(random),
        _ => random.one_of(few),
    };
    let opcode = match random.below(24) {
        0 => random.one_of(&[0, 5, 8, 21, 23, 40, 256 + 4, (1 << 32) + 20, P + 4, u64::MAX]),
        1..8 => 20,
        _ => random.one_of(&[4, 6, 12, 14, 28, 30, 20, 22, 36, 44]),
    };
    let first = if opcode == 4 && random.below(2) == 0 { random.below(P) } else { value(random) };
    [opcode, first, value(random)]
}

/// Steps onto a list with at most eight unused places, some of whose keys a step of the trace records and whose multiplicities are often at the limit.
fn replays(random: &mut Random) -> Case {
    let few = few_values(random);
    let trace: Vec<Key> = (0..random.below(7)).map(|_| step(random, &few)).collect();
    let mut list: Vec<Entry> = vec![];
    for step in &trace {
        for key in step_entries(*step).unwrap_or_default() {
            let is_new = list.iter().all(|entry| entry.key != key) && is_admitted(key) && key[1] < 1 << 32;
            if is_new && random.below(4) == 0 {
                let multiplicity = random.one_of(&[0, 1, 1 << 32, P - 2, P - 1, P - 1, P, u64::MAX]);
                list.push(Entry { key, multiplicity });
            }
        }
    }
    let capacity = list.len() + random.one_of(&[0, 0, 1, 1, 2, 3, 5, 8]);
    Case::Replay { list, capacity, trace }
}

/// Requests of few keys and of others, at most `most` and twenty; base elements as weights in half of the cases, and U32Indeterminate now and then the
/// compressed row of the last one. Now and then a request that is not admitted, or a challenge of p or more.
fn requests(random: &mut Random, most: u64) -> Case {
    let few: Vec<Key> = (0..3).map(|_| random.key()).collect();
    let mut requests: Vec<Key> = (0..random.below(most + 20))
        .map(|_| {
            let key = if random.below(2) == 0 { random.one_of(&few) } else { random.key() };
            now_and_then_raw(random, key)
        })
        .collect();
    let mut challenges = random.challenges();
    if random.below(2) == 0 {
        (3..15).filter(|i| i % 3 > 0).for_each(|i| challenges[i] = 0);
        if random.below(4) == 0 {
            (3..15).for_each(|i| challenges[i] = challenges[i].min(random.below(4)));
            challenges[..3].copy_from_slice(&[random.below(60), 0, 0]);
        }
    }
    if let Some(&key) = requests.last().filter(|_| random.below(8) == 0) {
        let flat = compressed_row(&filled(&[Entry { key, multiplicity: 1 }])[0], &challenges);
        challenges[..3].copy_from_slice(&flat);
    }
    if random.below(8) == 0 {
        let key =
            random.one_of(&[[5, 0, 0], [22, 1, 2], [14, 1 << 32, 0], [14, 0, P], [12, 0, 3], [30, P, 1 << 32], [12, 0, 1 << 32]]);
        let i = random.below(requests.len() as u64 + 1) as usize;
        requests.insert(i, key);
    }
    if random.below(32) == 0 {
        challenges[random.below(15) as usize] = random.one_of(&[P, P + 1, u64::MAX]);
    }
    Case::Client { requests, challenges }
}

/// Elements of few limbs, so that values are met again, equal bytes among them; often with too few places; challenges now and then of p or more, or
/// with a denominator of zero.
fn look_ups(random: &mut Random) -> Case {
    let byte = |random: &mut Random| {
        let any = random.below(256);
        random.one_of(&[0, 1, 2, 7, 255, any])
    };
    let few: Vec<u64> = (0..12).map(|_| 256 * byte(random) + byte(random)).collect();
    let limb = |random: &mut Random| if random.below(3) == 0 { random.below(1 << 16) } else { random.one_of(&few) };
    let element = |random: &mut Random| (0..4).fold(0, |word, i| word | limb(random) << (16 * i)) % P;
    let elements = (0..random.below(3)).map(|_| std::array::from_fn(|_| element(random))).collect();
    let mut challenges: [u64; 9] = std::array::from_fn(|_| random.below(P));
    match random.below(16) {
        0 => challenges[random.below(9) as usize] = random.one_of(&[P, P + 1, u64::MAX]),
        1 => challenges = [1, 0, 0, 0, 0, 0, random.one_of(&few), 0, 0],
        2 => challenges = [0; 9],
        _ => (),
    }
    Case::LookUp { elements, capacity: random.one_of(&[0, 1, 5, 20, 80, 300]), challenges }
}

fn order(random: &mut Random) -> Case {
    let mut key = || match random.below(4) {
        0 => [any_word(random), any_word(random), any_word(random)],
        1 => [random.one_of(&[0, 1, 2, 10, 14, 22, 30]), random.element(), random.element()],
        _ => random.key(),
    };
    let (left, mut right) = (key(), key());
    match random.below(4) {
        0 => right = left,
        1 => right = [left[0], left[1], right[2]],
        2 => right = [left[0], right[1], right[2]],
        _ => (),
    }
    Case::Order { left, right }
}
