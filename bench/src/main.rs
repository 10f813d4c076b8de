//! Times our calls and the original's, in one run, on the same inputs, in one thread. The best of several runs counts. Time is the
//! thread's processor time, so that other work on the machine disturbs less.
use std::cell::RefCell;
use std::hint::black_box;

use air::challenge_id::ChallengeId;
use air::table::u32::U32Table;
use ndarray::Array2;
use oracle::inputs::Random;
use triton_vm::aet::AlgebraicExecutionTrace;
use triton_vm::challenges::Challenges;
use triton_vm::reach;
use triton_vm::table::TraceTable;
use triton_vm::table::u32::U32TableEntry;

mod by_hand;
mod port;

use by_hand::{B, X};
use port::{EARLIER, Library, List, OURS};

const P: u64 = oracle::P;
const MOST_ENTRIES: usize = 2048;

/// The thread's processor time, in seconds.
fn processor_time() -> f64 {
    const CLOCK_THREAD_CPUTIME_ID: i32 = 3;
    unsafe extern "C" {
        fn clock_gettime(clock: i32, time: *mut [i64; 2]) -> i32;
    }
    let mut time = [0; 2];
    assert_eq!(0, unsafe { clock_gettime(CLOCK_THREAD_CPUTIME_ID, &mut time) });
    time[0] as f64 + time[1] as f64 / 1e9
}

/// Seconds of a call.
fn timed<T>(call: impl FnOnce() -> T) -> f64 {
    let start = processor_time();
    black_box(call());
    processor_time() - start
}

/// The best time of each call, the calls taking turns.
fn best<const N: usize>(runs: usize, mut calls: [&mut dyn FnMut(); N]) -> [f64; N] {
    let mut least = [f64::MAX; N];
    for _ in 0..runs {
        for (call, least) in calls.iter_mut().zip(&mut least) {
            *least = least.min(timed(&mut **call));
        }
    }
    least
}

/// Milliseconds: ours, theirs, the ratio; and those of the earlier library and its ratio, where one is linked.
fn line(name: &str, ours: f64, theirs: f64, earlier: Option<f64>) {
    print!("{name} | {:.3} | {:.3} | {:.2}", ours * 1e3, theirs * 1e3, ours / theirs);
    if let Some(earlier) = earlier {
        print!(" | {:.3} | {:.2}", earlier * 1e3, earlier / theirs);
    }
    println!();
}

/// A table and its sums: one memory for all that is timed on them, since the pages alone can cost a tenth of the time.
struct Table {
    main: Array2<B>,
    aux: Array2<X>,
}

/// The elements' memory as words: a base element is a word, an extension element three.
fn words<T>(elements: &mut [T]) -> &mut [u64] {
    const { assert!(align_of::<T>() == 8) };
    // SAFETY: it is called on slices of B and X alone.
    unsafe { std::slice::from_raw_parts_mut(elements.as_mut_ptr().cast(), size_of_val(elements) / 8) }
}

impl Table {
    fn new(rows: usize) -> Self {
        Self { main: Array2::zeros([rows, 10]), aux: Array2::zeros([rows, 1]) }
    }

    fn elements(&mut self) -> (&mut [B], &mut [X]) {
        (self.main.as_slice_memory_order_mut().unwrap(), self.aux.as_slice_memory_order_mut().unwrap())
    }

    fn words(&mut self) -> (&mut [u64], &mut [u64]) {
        let (main, aux) = self.elements();
        (words(main), words(aux))
    }

    fn extend(&mut self, library: &Library, challenges: &[u64]) {
        let (main, aux) = self.words();
        library.extend(main, aux, challenges);
    }

    fn check(&mut self, library: &Library, challenges: &[u64]) -> bool {
        let (main, aux) = self.words();
        library.check(main, aux, challenges)
    }

    /// A table that passes and that `fill` does not make. LHS is p - 1 in all but the last 64 rows: modulo p that is twice itself and 1. In the
    /// last ones it is halved down to 0. Bits counts on from 34, past 33.
    fn foreign(rows: usize) -> Self {
        let mut table = Self::new(rows);
        let inverse = |x: u64| if x == 0 { 0 } else { B::new(x).inverse().value() };
        for (i, row) in table.words().0.as_chunks_mut().0.iter_mut().enumerate() {
            let halvings = (i + 65).saturating_sub(rows) as u32;
            let lhs = (P - 1).checked_shr(halvings).unwrap_or(0);
            *row = [0, 34 + i as u64, inverse(1 + i as u64), 4, lhs, inverse(lhs), 0, 0, 0, 0];
        }
        table
    }
}

// The calls that are timed under names of their own, for `valgrind --tool=callgrind`.

#[inline(never)]
fn original_fill(table: &mut Array2<B>, trace: &AlgebraicExecutionTrace) {
    U32Table::fill(table.view_mut(), trace, ());
}

#[inline(never)]
fn original_pad(table: &mut Array2<B>, filled: usize) {
    U32Table::pad(table.view_mut(), filled);
}

#[inline(never)]
fn original_extend(table: &Array2<B>, aux: &mut Array2<X>, challenges: &Challenges) {
    U32Table::extend(table.view(), aux.view_mut(), challenges);
}

#[inline(never)]
fn extend_by_hand(table: &[B], aux: &mut [X], weights: &by_hand::Weights) {
    by_hand::extend(table, aux, weights);
}

#[inline(never)]
fn extend_judged_by_hand(table: &[B], aux: &mut [X], weights: &by_hand::Weights) {
    assert!(by_hand::extend_judged(table, aux, weights));
}

#[inline(never)]
fn check_by_hand(table: &[B], aux: &[X], weights: &by_hand::Weights) -> bool {
    by_hand::check(table, aux, weights)
}

fn main() {
    let argument = std::env::args().nth(1);
    let inputs = Inputs::new();
    if argument.as_deref() == Some("--once") {
        return inputs.calls(1);
    }
    let runs = argument.and_then(|runs| runs.parse().ok()).unwrap_or(9);
    inputs.elements(runs);
    inputs.calls(runs);
    inputs.growth(runs);
}

struct Inputs {
    keys: Vec<[u64; 3]>,
    multiplicities: Vec<u64>,
    challenges: [u64; 15],
}

impl Inputs {
    /// Mixed opcodes, operands of 32 bits, bases of pow below p; every key counts.
    fn new() -> Self {
        let mut random = Random(7);
        let keys = (0..MOST_ENTRIES).map(|i| match oracle::OPCODES[i % 6] {
            30 => [30, random.below(P), random.word() >> 32],
            opcode => [opcode, random.word() >> 32 | 1, random.word() >> 32],
        });
        let keys = keys.collect();
        Self {
            keys,
            multiplicities: (0..MOST_ENTRIES).map(|_| random.below(1000).max(1)).collect(),
            challenges: random.challenges(),
        }
    }

    fn list(&self, n: usize) -> List {
        List::new(self.keys[..n].concat(), self.multiplicities[..n].to_vec())
    }

    fn trace(&self, n: usize) -> AlgebraicExecutionTrace {
        let mut trace = reach::empty_trace();
        for (&[opcode, lhs, rhs], &multiplicity) in self.keys[..n].iter().zip(&self.multiplicities) {
            let entry = U32TableEntry::new(opcode.try_into().unwrap(), B::new(lhs), B::new(rhs));
            *trace.u32_entries.entry(entry).or_insert(0) += multiplicity;
        }
        trace
    }

    fn original_challenges(&self) -> Challenges {
        let mut challenges = [X::new([B::new(1); 3]); Challenges::COUNT];
        let ids = [
            ChallengeId::U32Indeterminate,
            ChallengeId::U32LhsWeight,
            ChallengeId::U32RhsWeight,
            ChallengeId::U32CiWeight,
            ChallengeId::U32ResultWeight,
        ];
        for (i, id) in ids.into_iter().enumerate() {
            challenges[id.index()] = X::new([0, 1, 2].map(|j| B::new(self.challenges[3 * i + j])));
        }
        Challenges { challenges }
    }

    // ------------------------------------------------------------------------------------------------------------------ elements

    fn elements(&self, runs: usize) {
        const N: usize = 3 * 1024;
        const TIMES: usize = 100;
        let mut random = Random(8);
        let any: Vec<u64> = (0..N).map(|_| random.below(P - 1) + 1).collect();
        let other: Vec<u64> = (0..N).map(|_| random.below(P)).collect();
        let small: Vec<u64> = (0..N).map(|_| (random.word() >> 32).max(1)).collect();
        let of = |words: &[u64]| words.iter().map(|&word| B::new(word)).collect::<Vec<B>>();
        let (any_b, other_b, small_b) = (of(&any), of(&other), of(&small));
        let any_x: Vec<X> = any_b.as_chunks().0.iter().map(|&coefficients| X::new(coefficients)).collect();

        println!("elements, ns an operation | ours | Rust | ratio");
        let line = |name: &str, count: usize, [ours, theirs]: [f64; 2]| {
            let ns = 1e9 / count as f64;
            println!("{name} | {:.2} | {:.2} | {:.2}", ours * ns, theirs * ns, ours / theirs);
        };
        let (mut out, mut out_b) = (vec![0; N], vec![B::new(0); N]);
        let times = best(
            runs,
            [&mut || (0..TIMES).for_each(|_| port::products(black_box(&any), black_box(&other), &mut out)), &mut || {
                (0..TIMES).for_each(|_| {
                    let (left, right) = (black_box(&any_b), black_box(&other_b));
                    out_b.iter_mut().zip(left).zip(right).for_each(|((out, &left), &right)| *out = left * right);
                })
            }],
        );
        assert!(out.iter().zip(&out_b).all(|(&word, element)| word == element.value()));
        line("multiplication, independent", N * TIMES, times);

        let (mut end, mut end_b) = (0, B::new(0));
        let times = best(
            runs,
            [&mut || end = port::chain(black_box(3), black_box(other[0]), (N * TIMES) as u64), &mut || {
                end_b = (0..N * TIMES).fold(black_box(B::new(3)), {
                    let y = black_box(other_b[0]);
                    move |x, _| x * y
                })
            }],
        );
        assert_eq!(end, end_b.value());
        line("multiplication, each on the one before", N * TIMES, times);

        for (name, words, elements) in [("inverse, any element", &any, &any_b), ("inverse, below 2^32", &small, &small_b)] {
            let times = best(
                runs,
                [&mut || port::inverses(black_box(words), &mut out), &mut || {
                    out_b.iter_mut().zip(black_box(elements)).for_each(|(out, x)| *out = x.inverse())
                }],
            );
            assert!(out.iter().zip(&out_b).all(|(&word, element)| word == element.value()));
            line(name, N, times);
        }

        let (mut by_hand, mut stand_in) = (any_x.clone(), any_x.clone());
        let [ours, hand, stand] = best(
            runs,
            [
                &mut || port::ext_inverses(black_box(&any), &mut out),
                &mut || by_hand.iter_mut().zip(black_box(&any_x)).for_each(|(out, &x)| *out = by_hand::ext_inverse(x)),
                &mut || stand_in.iter_mut().zip(black_box(&any_x)).for_each(|(out, x)| *out = x.inverse()),
            ],
        );
        assert!(by_hand == stand_in);
        assert!(out.as_chunks().0.iter().zip(&by_hand).all(|(words, x)| *words == x.coefficients.map(|c| c.value())));
        line("extension inverse, Rust by hand", N / 3, [ours, hand]);
        line("extension inverse, stand-in (elimination)", N / 3, [ours, stand]);
    }

    // --------------------------------------------------------------------------------------------------------------------- calls

    fn calls(&self, runs: usize) {
        let n = MOST_ENTRIES;
        let (list, trace) = (self.list(n), self.trace(n));
        let (challenges, weights) = (self.original_challenges(), by_hand::Weights::new(&self.challenges));
        let height = reach::height(&trace);
        let rows = height.next_power_of_two();
        let columns = if EARLIER.is_some() { " | earlier | ratio" } else { "" };
        println!("\ncalls, {n} entries, height {height}, {rows} rows, ms | ours | Rust | ratio{columns}");

        let table = RefCell::new(Table::new(rows));
        let [ours, theirs] = best(
            runs,
            [&mut || assert_eq!(height, port::fill(&list, table.borrow_mut().words().0)), &mut || {
                original_fill(&mut table.borrow_mut().main, &trace)
            }],
        );
        line("fill, the original", ours, theirs, None);
        let [ours, theirs] = best(
            runs,
            [&mut || port::pad(table.borrow_mut().words().0, height), &mut || original_pad(&mut table.borrow_mut().main, height)],
        );
        line("pad, the original", ours, theirs, None);
        let mut same = vec![0; 10 * rows];
        port::fill(&list, &mut same);
        port::pad(&mut same, height);
        assert!(same == table.borrow_mut().words().0, "the tables differ");

        let [ours, theirs, hand, judged, earlier] = best(
            runs,
            [
                &mut || table.borrow_mut().extend(&OURS, &self.challenges),
                &mut || {
                    let Table { main, aux } = &mut *table.borrow_mut();
                    original_extend(main, aux, &challenges);
                },
                &mut || {
                    let mut table = table.borrow_mut();
                    let (main, aux) = table.elements();
                    extend_by_hand(main, aux, &weights);
                },
                &mut || {
                    let mut table = table.borrow_mut();
                    let (main, aux) = table.elements();
                    extend_judged_by_hand(main, aux, &weights);
                },
                &mut || {
                    if let Some(library) = &EARLIER {
                        table.borrow_mut().extend(library, &self.challenges);
                    }
                },
            ],
        );
        let earlier = EARLIER.map(|_| earlier);
        line("extend, the original with elimination", ours, theirs, earlier);
        line("extend, Rust by hand that judges as the contract demands", ours, judged, earlier);
        line("extend, Rust by hand that judges nothing", ours, hand, earlier);
        let mut table = table.into_inner();
        let sums = |table: &mut Table, call: &dyn Fn(&mut Table)| {
            call(table);
            table.words().1.to_vec()
        };
        let same = sums(&mut table, &|table| original_extend(&table.main, &mut table.aux, &challenges));
        let hand = sums(&mut table, &|table| {
            let (main, aux) = table.elements();
            extend_by_hand(main, aux, &weights);
        });
        assert!(same == hand, "the sums by hand differ");
        let ours = sums(&mut table, &|table| table.extend(&OURS, &self.challenges));
        assert!(same == ours, "the sums differ");

        let ours = self.check("check, an honest table, Rust by hand", &mut table, true, runs);
        let (main, aux) = table.elements();
        let [collected] = best(runs, [&mut || assert!(by_hand::check_collected(black_box(main), aux, &weights))]);
        line("check, an honest table, Rust by hand, values in a vector", ours, collected, None);
        let constraints = oracle::Constraints::new();
        let (main, aux) = table.words();
        let (rows_of, aux_of) = (main.as_chunks().0, aux.as_chunks().0);
        let [tree] = best(1, [&mut || assert!(constraints.verdict(rows_of, aux_of, &self.challenges).is_none())]);
        line("check, an honest table, stand-in (walks a tree)", ours, tree, None);
        // Result of the last row, which is padding after lt: 2 is right.
        table.words().0[10 * rows - 2] -= 1;
        self.check("check, the last row's Result wrong, Rust by hand", &mut table, false, runs);
        self.check("check, a foreign table, every pair evaluated, Rust by hand", &mut Table::foreign(rows), true, runs);

        let mut bytes = vec![0; 8 + 25 * n];
        let mut fresh = list.clone();
        let [write] = best(runs, [&mut || assert_eq!(8 + 25 * n, port::write(&list, &mut bytes))]);
        let [read] = best(runs, [&mut || assert_eq!(n, port::read(&bytes, &mut fresh))]);
        let [plan] = best(runs, [&mut || assert_eq!([height, rows], port::plan(&list))]);
        println!("write | {:.3} | |\nread | {:.3} | |\nplan | {:.4} | |", write * 1e3, read * 1e3, plan * 1e3);

        self.record("record, all entries, a hash map", &self.keys, runs);
        // A loop of six instructions, gone through two million times: it takes twice as long where the linker puts it across a line of 64 bytes.
        let one_lhs: Vec<_> = (0..n as u64).map(|rhs| [30, 2, rhs]).collect();
        self.record("record, as many keys with one LHS, a hash map", &one_lhs, runs);
        self.second_recorder(runs);
        self.two_parts(runs);
        self.replay(runs);
        self.client(runs);
        self.lookups(runs);
        archives(runs);
        batches(runs);
    }

    /// The time of our check of a table that passes or not.
    fn check(&self, name: &str, table: &mut Table, zero: bool, runs: usize) -> f64 {
        let weights = by_hand::Weights::new(&self.challenges);
        let table = RefCell::new(table);
        let [ours, hand, earlier] = best(
            runs,
            [
                &mut || assert_eq!(zero, table.borrow_mut().check(&OURS, &self.challenges)),
                &mut || {
                    let mut table = table.borrow_mut();
                    let (main, aux) = table.elements();
                    assert_eq!(zero, check_by_hand(black_box(main), aux, &weights));
                },
                &mut || {
                    if let Some(library) = &EARLIER {
                        assert_eq!(zero, table.borrow_mut().check(library, &self.challenges));
                    }
                },
            ],
        );
        line(name, ours, hand, EARLIER.map(|_| earlier));
        ours
    }

    /// The keys, one after the other, into an empty list.
    fn record(&self, name: &str, keys: &[[u64; 3]], runs: usize) {
        let places = RefCell::new(List::empty(keys.len()));
        let all = |library: &Library| {
            let used = keys.iter().fold(0, |used, &key| library.record(&mut places.borrow_mut(), used, key));
            assert_eq!(keys.len(), used);
        };
        let [ours, theirs, earlier] = best(
            runs,
            [
                &mut || all(&OURS),
                &mut || {
                    let mut trace = reach::empty_trace();
                    for &[opcode, lhs, rhs] in keys {
                        reach::record(&mut trace, U32TableEntry::new(opcode.try_into().unwrap(), B::new(lhs), B::new(rhs)));
                    }
                    black_box(&trace);
                },
                &mut || {
                    if let Some(library) = &EARLIER {
                        all(library);
                    }
                },
            ],
        );
        line(name, ours, theirs, EARLIER.map(|_| earlier));
    }

    /// All entries again, by the second recorder: each key is known, and counts for it. In the original's hash map they are recorded again.
    fn second_recorder(&self, runs: usize) {
        let n = self.keys.len();
        let mut list = List::empty(n);
        assert_eq!(n, self.keys.iter().fold(0, |used, &key| OURS.record(&mut list, used, key)));
        let mut list = list.of_other();
        let mut trace = reach::empty_trace();
        let mut record_all = || {
            for &[opcode, lhs, rhs] in &self.keys {
                reach::record(&mut trace, U32TableEntry::new(opcode.try_into().unwrap(), B::new(lhs), B::new(rhs)));
            }
        };
        record_all();
        let [ours, theirs] = best(
            runs,
            [&mut || self.keys.iter().for_each(|&key| assert_eq!(n, OURS.record(&mut list, n, key))), &mut record_all],
        );
        assert!(list.multiplicities == vec![runs as u64; n] && list.other_multiplicities == vec![1; n]);
        line("record, all entries by the second recorder, known keys, a hash map", ours, theirs, None);
    }

    /// All entries in two parts, held and then confirmed, against their recordings.
    fn two_parts(&self, runs: usize) {
        let n = self.keys.len();
        let (held, mut recorded) = (RefCell::new(List::empty(n)), List::empty(n));
        let [hold, confirm, record] = best(
            runs,
            [
                &mut || {
                    let used = self.keys.iter().fold(0, |used, &key| port::hold(&mut held.borrow_mut(), used, key));
                    assert_eq!(n, used);
                },
                &mut || (0..n).for_each(|position| port::confirm(&mut held.borrow_mut(), position)),
                &mut || assert_eq!(n, self.keys.iter().fold(0, |used, &key| OURS.record(&mut recorded, used, key))),
            ],
        );
        let held = held.into_inner();
        assert!(held.keys == recorded.keys && held.multiplicities == recorded.multiplicities && held.holds == recorded.holds);
        line("hold, all entries, against recording them", hold, record, None);
        line("confirm, all of them, against recording them", confirm, record, None);
    }

    /// A trace of a million steps of the ten opcodes, a thousand of them different, and the same entries recorded one by one: by our call, and into the
    /// original's hash map.
    fn replay(&self, runs: usize) {
        const STEPS: usize = 1_000_000;
        let mut random = Random(9);
        let different: Vec<[u64; 3]> = (0..1000)
            .map(|i| {
                let (first, second) = (random.word() >> 32 | 1, random.word() >> 32 | 1);
                [[4, 6, 12, 14, 28, 30, 20, 22, 36, 44][i % 10], first, second]
            })
            .collect();
        let steps: Vec<[u64; 3]> = (0..STEPS).map(|_| random.one_of(&different)).collect();
        let entries: Vec<[u64; 3]> = steps
            .iter()
            .flat_map(|&[opcode, first, second]| match opcode {
                4 => vec![[4, first, 0]],
                12 | 28 => vec![[opcode, first, 0]],
                20 => vec![[6, first % second, second], [4, first, first / second]],
                22 => vec![[14, first, second]],
                36 | 44 => vec![[4, first, first / 2]],
                _ => vec![[opcode, first, second]],
            })
            .collect();
        let [mut replayed, mut recorded] = [List::empty(MOST_ENTRIES), List::empty(MOST_ENTRIES)];
        let trace = steps.as_flattened();
        let [replay, record, theirs] = best(
            runs,
            [
                &mut || assert_eq!(STEPS, port::replay(&mut replayed, 0, trace)[0]),
                &mut || {
                    entries.iter().fold(0, |used, &key| OURS.record(&mut recorded, used, key));
                },
                &mut || {
                    let mut trace = reach::empty_trace();
                    for &[opcode, lhs, rhs] in &entries {
                        reach::record(&mut trace, U32TableEntry::new(opcode.try_into().unwrap(), B::new(lhs), B::new(rhs)));
                    }
                    black_box(&trace);
                },
            ],
        );
        assert!(replayed.keys == recorded.keys && replayed.multiplicities == recorded.multiplicities);
        line("replay, a million steps, against its recordings one by one", replay, record, None);
        line("replay, a million steps, a hash map", replay, theirs, None);
        println!("replay, {} recordings: {:.0} ns a step", entries.len(), replay * 1e9 / STEPS as f64);
    }

    /// The client's sum over 131,072 requests of mixed opcodes.
    fn client(&self, runs: usize) {
        let requests: Vec<[u64; 3]> = self.keys.iter().cycle().take(131_072).copied().collect();
        let weights = by_hand::Weights::new(&self.challenges);
        let hand = by_hand::client_sum(&requests, &weights).coefficients.map(|c| c.value());
        assert!(hand == port::client_sum(requests.as_flattened(), &self.challenges), "the client's sums differ");
        let [ours, theirs] = best(
            runs,
            [
                &mut || {
                    black_box(port::client_sum(black_box(requests.as_flattened()), &self.challenges));
                },
                &mut || {
                    black_box(by_hand::client_sum(black_box(&requests), &weights));
                },
            ],
        );
        line("client_sum, 131,072 requests, Rust by hand that judges nothing", ours, theirs, None);
        println!("client_sum: {:.0} ns a request", ours * 1e9 / requests.len() as f64);
    }

    /// A full cascade: all 65,536 values, and 64 of them again, looked up one after the other, by our call and in the original's hash map; then both sums,
    /// beside Rust by hand that judges words and denominators first.
    fn lookups(&self, runs: usize) {
        const PLACES: usize = 65536;
        let values: Vec<u16> = (0..820 * 80u32).map(|i| (40503 * i) as u16).collect();
        let element = |limbs: &[u16]| B::new(limbs.iter().rev().fold(0, |word, &limb| word << 16 | limb as u64));
        let elements: Vec<[B; reach::LOOKED_UP]> =
            values.chunks_exact(80).map(|limbs| std::array::from_fn(|i| element(&limbs[4 * i..4 * i + 4]))).collect();
        let mut tables = port::Lookups::new(PLACES);
        let mut their_bytes = [0; 256];
        let [ours, theirs] = best(
            runs.min(9),
            [
                &mut || {
                    tables.byte_multiplicities.fill(0);
                    assert_eq!(PLACES, values.iter().fold(0, |used, &value| port::look_up(&mut tables, used, value)));
                },
                &mut || {
                    let mut trace = reach::empty_trace();
                    elements.iter().for_each(|elements| reach::look_up(&mut trace, elements));
                    assert_eq!(PLACES, trace.cascade_table_lookup_multiplicities.len());
                    their_bytes = trace.lookup_table_lookup_multiplicities;
                },
            ],
        );
        assert_eq!(tables.byte_multiplicities, their_bytes);
        line("look_up, a full cascade of 65,536 values, a hash map", ours, theirs, None);

        let challenges = &self.challenges[..9];
        let mut aux = vec![0; 3 * PLACES];
        let mut sums = vec![X::new([B::new(0); 3]); PLACES];
        let output = |byte: u64| ((byte + 1).pow(3) - 1) % 257;
        let outputs: Vec<u64> = (0..PLACES as u64).map(|value| 256 * output(value / 256) + output(value % 256)).collect();
        for (name, places) in [("byte_sum", 256), ("cascade_sum, 65,536 places", PLACES)] {
            let [ours, theirs] = best(
                runs,
                [
                    &mut || {
                        let sum = if places == 256 {
                            port::byte_sum(&tables.byte_multiplicities, challenges, &mut aux[..768])
                        } else {
                            port::cascade_sum(&tables, challenges, &mut aux)
                        };
                        black_box(sum);
                    },
                    &mut || {
                        let summand = |i: usize| match places {
                            256 => (i as u64, output(i as u64), tables.byte_multiplicities[i]),
                            _ => (tables.keys[i] as u64, outputs[tables.keys[i] as usize], tables.multiplicities[i]),
                        };
                        assert!(by_hand::lookup_sum(places, summand, challenges, &mut sums));
                    },
                ],
            );
            assert!(
                aux.chunks_exact(3)
                    .zip(&sums)
                    .take(places)
                    .all(|(words, sum)| words == sum.coefficients.map(|word| word.value()))
            );
            line(&format!("{name}, Rust by hand"), ours, theirs, None);
        }
    }

    // -------------------------------------------------------------------------------------------------------------------- growth

    /// One line a size: as many entries as fit into the rows, at most 2,048.
    fn growth(&self, runs: usize) {
        println!("\nours, ms | rows | entries | height | fill | pad | extend | check | read | write | check, ns a row");
        for rows in [1024, 2048, 4096, 8192, 16384, 32768, 65536, 131072] {
            let n = (rows / 33).min(MOST_ENTRIES);
            self.grow(runs, n, rows);
        }
        for n in [128, 256, 512, 1024, 2048] {
            self.grow(runs, n, 131072);
        }
    }

    fn grow(&self, runs: usize, n: usize, rows: usize) {
        let list = self.list(n);
        let (mut table, mut aux) = (vec![0; 10 * rows], vec![0; 3 * rows]);
        let mut bytes = vec![0; 8 + 25 * n];
        let mut height = 0;
        let [fill] = best(runs, [&mut || height = port::fill(&list, &mut table)]);
        let [pad] = best(runs, [&mut || port::pad(&mut table, height)]);
        let [extend] = best(runs, [&mut || OURS.extend(&table, &mut aux, &self.challenges)]);
        let [check] = best(runs, [&mut || assert!(OURS.check(&table, &aux, &self.challenges))]);
        let [write] = best(runs, [&mut || assert_eq!(8 + 25 * n, port::write(&list, &mut bytes))]);
        let mut fresh = list.clone();
        let [read] = best(runs, [&mut || assert_eq!(n, port::read(&bytes, &mut fresh))]);
        let ms = [fill, pad, extend, check, read, write].map(|seconds| format!("{:.3}", seconds * 1e3)).join(" | ");
        println!("| {rows} | {n} | {height} | {ms} | {:.0}", check * 1e9 / rows as f64);
    }
}

/// The most jobs that are taken, of up to 299 rows each, against one pass over them by hand, which judges nothing first.
fn batches(runs: usize) {
    const JOBS: usize = 1 << 20;
    let mut random = Random(12);
    let jobs: Vec<u64> = (0..JOBS).map(|_| random.word() % 300).collect();
    let [mut listed, mut written] = [vec![0; 3 * JOBS], vec![0; 3 * JOBS]];
    for setting in [300, 4096, 131072] {
        let [mut answered, mut counted] = [[0; 2]; 2];
        let [ours, theirs] = best(
            runs,
            [&mut || answered = port::batches(&jobs, setting, &mut listed), &mut || {
                counted = [0; 2];
                let mut open = [0; 2];
                let mut put = |[members, rows]: [u64; 2], counted: &mut [u64; 2]| {
                    let padded = rows.max(256).next_power_of_two();
                    let place = 3 * counted[0] as usize;
                    written[place..place + 3].copy_from_slice(&[members, rows, padded]);
                    *counted = [counted[0] + 1, counted[1] + padded - rows];
                };
                for &height in &jobs {
                    if open[0] > 0 && open[1] + height > setting {
                        put(open, &mut counted);
                        open = [0; 2];
                    }
                    open = [open[0] + 1, open[1] + height];
                }
                put(open, &mut counted);
            }],
        );
        assert_eq!(answered, counted);
        assert!(listed[..3 * answered[0] as usize] == written[..3 * answered[0] as usize]);
        line(&format!("batches, 1,048,576 jobs, setting {setting}, one pass by hand"), ours, theirs, None);
    }
}

/// A table of the most rows and its sums, as bytes with columns side by side and back, beside the same copies by hand, which judge all words first too.
fn archives(runs: usize) {
    const ROWS: usize = 131072;
    let mut random = Random(10);
    let mut words = |n: usize| -> Vec<u64> { (0..n).map(|_| random.word() % P).collect() };
    let (table, aux) = (words(10 * ROWS), words(3 * ROWS));
    let [mut ours_out, mut theirs_out] = [vec![0; 8 + 104 * ROWS], vec![0; 8 + 104 * ROWS]];
    let [ours, theirs] = best(
        runs,
        [&mut || port::archive(&table, &aux, &mut ours_out), &mut || assert!(by_hand::archive(&table, &aux, &mut theirs_out))],
    );
    assert!(ours_out == theirs_out);
    line("archive, 131,072 rows, the same copy by hand", ours, theirs, None);

    let [mut ours_back, mut theirs_back] = [(); 2].map(|_| (vec![0; 10 * ROWS], vec![0; 3 * ROWS]));
    let [ours, theirs] = best(
        runs,
        [&mut || port::restore(&ours_out, &mut ours_back.0, &mut ours_back.1), &mut || {
            assert!(by_hand::restore(&theirs_out, &mut theirs_back.0, &mut theirs_back.1))
        }],
    );
    assert!(ours_back == theirs_back && ours_back == (table, aux));
    line("restore, 131,072 rows, the same copy by hand", ours, theirs, None);
}
