//! What the tests share: random entries, the plain functions written anew, lists that are lent, a plain model of them, and tables made by the crate.
#![allow(dead_code, unused_imports, unused_macros)]
use std::mem::swap;

use u32_table::opcodes::{ALL, AND, LOG_2_FLOOR, LT, POP_COUNT, POW, SPLIT};
use u32_table::steps::{DIV_MOD, MERKLE_STEP, MERKLE_STEP_MEM, XOR};
use u32_table::{confirm, drop_hold, fill, hold, plan, read, record, replay, write};
use u32_table::{extend, pad, Entry, List, ListOf, Recorder, Refusal, Sizes, Stopped, AUX_COLUMNS, CHALLENGE_WORDS, COLUMNS, P};

/// A xorshift generator: the same numbers in every run.
pub struct Random(pub u64);

impl Random {
    pub fn word(&mut self) -> u64 {
        self.0 ^= self.0 << 13;
        self.0 ^= self.0 >> 7;
        self.0 ^= self.0 << 17;
        self.0
    }

    pub fn below(&mut self, n: u64) -> u64 {
        self.word() % n
    }

    /// A number below 2^32, of any length in bits, often next to a power of two.
    pub fn operand(&mut self) -> u64 {
        let bits = self.below(33);
        let n = match self.below(4) {
            0 => (1 << bits) - 1,
            1 => 1 << bits.min(31),
            _ => self.word() & ((1 << bits) - 1),
        };
        n & 0xffff_ffff
    }

    pub fn entry(&mut self) -> Entry {
        let opcode = ALL[self.below(6) as usize];
        let left = match opcode {
            POW => self.below(P),
            LOG_2_FLOOR => self.operand().max(1),
            _ => self.operand(),
        };
        Entry::new(opcode, left, self.operand())
    }

    pub fn challenges(&mut self) -> [u64; CHALLENGE_WORDS] {
        std::array::from_fn(|_| self.below(P))
    }
}

pub fn mul(a: u64, b: u64) -> u64 {
    (u128::from(a) * u128::from(b) % u128::from(P)) as u64
}

/// The inverse modulo p, 0 for 0: the power p - 2.
pub fn inverse(a: u64) -> u64 {
    (0..64).rev().fold(1, |acc, bit| {
        let square = mul(acc, acc);
        if (P - 2) >> bit & 1 == 1 {
            mul(square, a)
        } else {
            square
        }
    })
}

/// The result of an instruction, by its plain function.
pub fn plain_result(entry: Entry) -> u64 {
    let (l, r) = (entry.left_operand, entry.right_operand);
    match entry.opcode {
        SPLIT => 0,
        LT => u64::from(l < r),
        AND => l & r,
        LOG_2_FLOOR => u64::from(63 - l.leading_zeros()),
        POP_COUNT => u64::from(l.count_ones()),
        POW => (0..64).rev().fold(1, |acc, bit| {
            let square = mul(acc, acc);
            if r >> bit & 1 == 1 {
                mul(square, l)
            } else {
                square
            }
        }),
        _ => panic!("no instruction"),
    }
}

/// The rows of an entry's section.
pub fn height(entry: Entry) -> usize {
    let dominant = if entry.opcode == POW { entry.right_operand } else { entry.left_operand.max(entry.right_operand) };
    match dominant {
        0 => 1,
        n => 2 + n.ilog2() as usize,
    }
}

/// A list of these entries, recorded.
pub fn list_of(entries: &[Entry]) -> List {
    let mut list = List::new(u32_table::MAX_PLACES).unwrap();
    for &entry in entries {
        list.record(entry).unwrap();
    }
    list
}

pub struct Tables {
    pub table: Vec<u64>,
    pub aux: Vec<u64>,
    pub sum: [u64; 3],
    pub height: usize,
}

/// The list's table, padded and extended, in arrays that held other words before.
pub fn tables_of<'a>(list: impl Into<ListOf<'a>>, challenges: &[u64]) -> Tables {
    let list = list.into();
    let rows = list.plan().unwrap().padded_height;
    let (mut table, mut aux) = (vec![u64::MAX; rows * COLUMNS], vec![u64::MAX; rows * AUX_COLUMNS]);
    let height = list.fill(&mut table).unwrap();
    pad(&mut table, height).unwrap();
    let sum = extend(&table, &mut aux, challenges).unwrap();
    Tables { table, aux, sum, height }
}

/// A list that is lent, with any words in it: the arrays of who makes the calls, and those of the other recorder.
#[derive(Clone, PartialEq, Debug)]
pub struct Lent {
    pub sizes: Sizes,
    pub keys: Vec<u64>,
    pub multiplicities: Vec<u64>,
    pub holds: Vec<u64>,
    pub other_multiplicities: Vec<u64>,
    pub other_holds: Vec<u64>,
}

/// A list with these keys and multiplicities, no holds at their places, nothing of the other recorder there, and marks in the unused ones.
pub fn lent(capacity: usize, entries: &[(u64, u64, u64, u64)]) -> Lent {
    let sizes = Sizes { capacity, used: entries.len() };
    let [multiplicities, other_multiplicities, holds, other_holds] = [7, 8, 5, 6].map(|mark| vec![mark; capacity]);
    let mut l = Lent { sizes, keys: vec![9; 3 * capacity], multiplicities, holds, other_multiplicities, other_holds };
    for (i, (opcode, left, right, multiplicity)) in entries.iter().enumerate() {
        l.keys[3 * i..3 * i + 3].copy_from_slice(&[*opcode, *left, *right]);
        l.multiplicities[i] = *multiplicity;
        (l.holds[i], l.other_multiplicities[i], l.other_holds[i]) = (0, 0, 0);
    }
    l
}

impl Lent {
    /// A call that a recorder makes: for the second one, own and other are exchanged meanwhile.
    pub fn by<T>(&mut self, recorder: Recorder, call: impl FnOnce(&mut Lent) -> T) -> T {
        let exchange = |list: &mut Lent| {
            if recorder == Recorder::Second {
                swap(&mut list.multiplicities, &mut list.other_multiplicities);
                swap(&mut list.holds, &mut list.other_holds);
            }
        };
        exchange(self);
        let answer = call(self);
        exchange(self);
        answer
    }

    pub fn record(&mut self, entry: Entry) -> Result<usize, Refusal> {
        let Lent { sizes, keys, multiplicities, holds, other_multiplicities, other_holds } = self;
        record(sizes, keys, multiplicities, holds, other_multiplicities, other_holds, entry)
    }

    pub fn hold(&mut self, entry: Entry) -> Result<usize, Refusal> {
        let Lent { sizes, keys, multiplicities, holds, other_multiplicities, other_holds } = self;
        hold(sizes, keys, multiplicities, holds, other_multiplicities, other_holds, entry)
    }

    pub fn confirm(&mut self, position: usize) -> Result<(), Refusal> {
        confirm(self.sizes, &self.keys, &mut self.multiplicities, &mut self.holds, position)
    }

    pub fn drop_hold(&mut self, position: usize) -> Result<(), Refusal> {
        drop_hold(self.sizes, &self.keys, &self.multiplicities, &mut self.holds, position)
    }

    pub fn replay(&mut self, trace: &[u64]) -> Result<usize, Stopped> {
        let Lent { sizes, keys, multiplicities, holds, other_multiplicities, other_holds } = self;
        replay(sizes, keys, multiplicities, holds, other_multiplicities, other_holds, trace)
    }

    pub fn plan(&self) -> Result<(usize, usize), Refusal> {
        plan(self.sizes, &self.keys, &self.multiplicities, &self.holds).map(|p| (p.height, p.padded_height))
    }

    pub fn read(&mut self, bytes: &[u8]) -> Result<usize, Refusal> {
        let Lent { sizes, keys, multiplicities, holds, other_multiplicities, other_holds } = self;
        read(bytes, sizes, keys, multiplicities, holds, other_multiplicities, other_holds)
    }

    pub fn write(&self, out: &mut [u8]) -> Result<usize, Refusal> {
        write(self.sizes, &self.keys, &self.multiplicities, &self.holds, out)
    }

    pub fn fill(&self, table: &mut [u64]) -> Result<usize, Refusal> {
        fill(self.sizes, &self.keys, &self.multiplicities, &self.holds, table)
    }
}

/// A call that may change a list.
#[derive(Clone, Debug)]
pub enum Call {
    Record(Entry),
    Hold(Entry),
    Confirm(usize),
    Drop(usize),
    Replay(Vec<u64>),
}

/// What a call answers: its number, 0 for done, and the position or the steps done.
pub type Answer = (u64, usize);

pub fn answer(answer: Result<usize, Refusal>) -> Answer {
    answer.map_or_else(|refusal| (refusal.number(), 0), |position| (0, position))
}

pub fn replay_answer(answer: Result<usize, Stopped>) -> Answer {
    answer.map_or_else(|stopped| (stopped.refusal.number(), stopped.done), |done| (0, done))
}

/// Makes a call of what has these five methods: a `Lent`, a `ListBy` or a model.
macro_rules! make {
    ($list:expr, $call:expr) => {
        match $call {
            $crate::common::Call::Record(entry) => $crate::common::answer($list.record(*entry)),
            $crate::common::Call::Hold(entry) => $crate::common::answer($list.hold(*entry)),
            $crate::common::Call::Confirm(position) => $crate::common::answer($list.confirm(*position).map(|()| 0)),
            $crate::common::Call::Drop(position) => $crate::common::answer($list.drop_hold(*position).map(|()| 0)),
            $crate::common::Call::Replay(trace) => $crate::common::replay_answer($list.replay(trace)),
        }
    };
}
pub(crate) use make;

impl Random {
    /// Any call, on few keys so that they are met again, with now and then a word that is refused.
    pub fn call(&mut self, capacity: usize) -> Call {
        const FEW: [u64; 3] = [AND, LT, SPLIT];
        let entry = match self.below(12) {
            0 => Entry::new(POW, [5, P + 5, P - 1, u64::MAX][self.below(4) as usize], self.below(2)),
            1 => Entry::new(self.below(40), self.word(), self.below(3)),
            2 => Entry::new(LOG_2_FLOOR, self.below(2), 0),
            _ => Entry::new(FEW[self.below(3) as usize], self.below(3), 1 + self.below(2)),
        };
        let position = match self.below(8) {
            0 => self.word() as usize,
            _ => self.below(capacity as u64 + 2) as usize,
        };
        match self.below(9) {
            0 | 1 => Call::Record(entry),
            2..=4 => Call::Hold(entry),
            5 | 6 => Call::Confirm(position),
            7 => Call::Drop(position),
            _ => Call::Replay(self.trace()),
        }
    }

    pub fn trace(&mut self) -> Vec<u64> {
        let mut trace = vec![];
        for _ in 0..self.below(4) {
            let opcode = [AND, LT, DIV_MOD, DIV_MOD, SPLIT, SPLIT, 99][self.below(7) as usize];
            trace.extend([opcode, self.below(3), self.below(3)]);
        }
        trace
    }
}

/// The entry as it is looked for and stored, or the reason.
pub fn admitted(e: Entry) -> Result<Entry, Refusal> {
    const WIDE: u64 = 1 << 32;
    if !ALL.contains(&e.opcode) {
        return Err(Refusal::Stranger);
    }
    if e.right_operand >= WIDE || (e.opcode != POW && e.left_operand >= WIDE) {
        return Err(Refusal::Wide);
    }
    if e.opcode == LOG_2_FLOOR && e.left_operand == 0 {
        return Err(Refusal::BareLog);
    }
    Ok(if e.opcode == POW { Entry::new(POW, e.left_operand % P, e.right_operand) } else { e })
}

/// A list as a model has it: the entries of its used places, with count and holds of either recorder; and who makes the next call.
#[derive(Clone)]
pub struct Model {
    pub capacity: usize,
    pub places: Vec<(Entry, [(u64, u64); 2])>,
    pub by: Recorder,
    /// What the accepted calls of either recorder counted.
    pub counted: [Vec<Entry>; 2],
}

impl Model {
    pub fn new(capacity: usize, places: Vec<(Entry, [(u64, u64); 2])>) -> Model {
        Model { capacity, places, by: Recorder::First, counted: [vec![], vec![]] }
    }

    fn gain(&mut self, entry: Entry, count: u64, holds: u64) -> Result<usize, Refusal> {
        let key = admitted(entry)?;
        let own = self.by as usize;
        let at = match self.places.iter().position(|(e, _)| admitted(*e) == Ok(key)) {
            Some(at) => {
                let (count, holds) = self.places[at].1[own];
                if u128::from(count) + u128::from(holds) + 1 > u128::from(P - 1) {
                    return Err(Refusal::CountFull);
                }
                at
            }
            None if self.places.len() == self.capacity => return Err(Refusal::ListFull),
            None => {
                self.places.push((key, [(0, 0); 2]));
                self.places.len() - 1
            }
        };
        let of_own = &mut self.places[at].1[own];
        *of_own = (of_own.0 + count, of_own.1 + holds);
        self.counted[own].extend((count == 1).then_some(key));
        Ok(at)
    }

    pub fn record(&mut self, entry: Entry) -> Result<usize, Refusal> {
        self.gain(entry, 1, 0)
    }

    pub fn hold(&mut self, entry: Entry) -> Result<usize, Refusal> {
        self.gain(entry, 0, 1)
    }

    pub fn confirm(&mut self, position: usize) -> Result<(), Refusal> {
        let own = self.by as usize;
        let (key, counts) = self.places.get_mut(position).filter(|place| place.1[own].1 > 0).ok_or(Refusal::NoHold)?;
        let (count, holds) = counts[own];
        if count >= P - 1 {
            return Err(Refusal::CountFull);
        }
        counts[own] = (count + 1, holds - 1);
        self.counted[own].push(admitted(*key).unwrap_or(*key));
        Ok(())
    }

    pub fn drop_hold(&mut self, position: usize) -> Result<(), Refusal> {
        let own = self.by as usize;
        self.places.get_mut(position).filter(|place| place.1[own].1 > 0).ok_or(Refusal::NoHold)?.1[own].1 -= 1;
        Ok(())
    }

    pub fn replay(&mut self, trace: &[u64]) -> Result<usize, Stopped> {
        for (done, step) in trace.chunks(3).enumerate() {
            let mut next = self.clone();
            let entries = step_entries([step[0], step[1], step[2]]);
            let made = entries.and_then(|es| es.into_iter().try_for_each(|e| next.gain(e, 1, 0).map(|_| ())));
            made.map_err(|refusal| Stopped { refusal, done })?;
            *self = next;
        }
        Ok(trace.len() / 3)
    }

    /// The words of these places in the arrays that were lent.
    pub fn laid(&self, mut list: Lent) -> Lent {
        list.sizes.used = self.places.len();
        for (i, (e, [own, other])) in self.places.iter().enumerate() {
            list.keys[3 * i..3 * i + 3].copy_from_slice(&[e.opcode, e.left_operand, e.right_operand]);
            (list.multiplicities[i], list.holds[i]) = *own;
            (list.other_multiplicities[i], list.other_holds[i]) = *other;
        }
        list
    }
}

/// The entries of a step of a trace, or why there are none: the sentences of request 1, written anew.
pub fn step_entries([opcode, first, second]: [u64; 3]) -> Result<Vec<Entry>, Refusal> {
    const WIDE: u64 = 1 << 32;
    let below = |fine: bool, entries: Vec<Entry>| if fine { Ok(entries) } else { Err(Refusal::Wide) };
    match opcode {
        SPLIT => below(first < P, vec![Entry::new(SPLIT, first % WIDE, first / WIDE)]),
        LOG_2_FLOOR | POP_COUNT => Ok(vec![Entry::new(opcode, first, 0)]),
        LT | AND | POW => Ok(vec![Entry::new(opcode, first, second)]),
        XOR => Ok(vec![Entry::new(AND, first, second)]),
        DIV_MOD if first < WIDE && second < WIDE => match second {
            0 => Err(Refusal::ZeroDivisor),
            d => Ok(vec![Entry::new(LT, first % d, d), Entry::new(SPLIT, first, first / d)]),
        },
        DIV_MOD => Err(Refusal::Wide),
        MERKLE_STEP | MERKLE_STEP_MEM => below(first < WIDE, vec![Entry::new(SPLIT, first, first / 2)]),
        _ => Err(Refusal::Stranger),
    }
}
