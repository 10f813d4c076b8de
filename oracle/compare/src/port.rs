//! The port's library: the C functions of crates/u32_table and crates/probes, on slices.
//!
//! Every array that is lent is a copy between guard words. After the call the guards must stand; an array that the call only reads must
//! be as it was; answers must be untouched on a refusal (but of a replay), and so must the words past the stated ones. Otherwise these functions panic with
//! the call's name: a difference.
use std::cell::Cell;

use u32_table_sys as c;
use u32_table_sys::probes;

/// The stated answers, or the number of the refusal.
pub type Answer<const N: usize> = Result<[u64; N], u64>;

// ------------------------------------------------------------------------------------------------------- faults, for the self-test

/// What a call hands back: its number, or one of its arrays. With a fault set, one word of it is changed after every twentieth such call,
/// as a wrong library would: the comparison must find it.
pub const FAULTS: [&str; 69] = [
    "record number",
    "record keys",
    "record multiplicities",
    "record holds",
    "record other multiplicities",
    "record other holds",
    "record answers",
    "hold number",
    "hold keys",
    "hold multiplicities",
    "hold holds",
    "hold other multiplicities",
    "hold other holds",
    "hold answers",
    "confirm number",
    "confirm multiplicities",
    "confirm holds",
    "drop number",
    "drop holds",
    "replay number",
    "replay keys",
    "replay multiplicities",
    "replay holds",
    "replay other multiplicities",
    "replay other holds",
    "replay answers",
    "compare number",
    "compare answers",
    "plan number",
    "plan answers",
    "read number",
    "read keys",
    "read multiplicities",
    "read holds",
    "read other multiplicities",
    "read other holds",
    "read answers",
    "write number",
    "write out",
    "write answers",
    "fill number",
    "fill table",
    "fill answers",
    "pad number",
    "pad table",
    "extend number",
    "extend aux",
    "extend answers",
    "check number",
    "check answers",
    "client_sum number",
    "client_sum answers",
    "look_up number",
    "look_up keys",
    "look_up multiplicities",
    "look_up byte multiplicities",
    "look_up answers",
    "byte_sum number",
    "byte_sum aux",
    "byte_sum answers",
    "cascade_sum number",
    "cascade_sum aux",
    "cascade_sum answers",
    "constraints values",
    "products out",
    "inverses out",
    "ext_sums out",
    "ext_differences out",
    "ext_products out",
];

thread_local! {
    static FAULT: Cell<Option<&'static str>> = const { Cell::new(None) };
    static CALLS: Cell<u64> = const { Cell::new(0) };
}

pub fn set_fault(fault: Option<&'static str>) {
    FAULT.set(fault);
}

/// Whether this is a twentieth time.
fn is_faulty(call: &str, what: &str) -> bool {
    let matches = FAULT.get().is_some_and(|fault| fault.split_once(' ') == Some((call, what)));
    CALLS.set(CALLS.get() + matches as u64);
    matches && CALLS.get() % 20 == 0
}

/// Changes the lowest bit of one word, not always in the same place.
fn spoil<T: Word>(call: &str, what: &str, words: &mut [T]) {
    if !words.is_empty() && is_faulty(call, what) {
        let i = (CALLS.get().wrapping_mul(0x9e37_79b9_7f4a_7c15) >> 20) as usize % words.len();
        words[i] = words[i].spoilt();
    }
}

// ------------------------------------------------------------------------------------------------------------------ lent arrays

trait Word: Copy + PartialEq {
    const GUARD: Self;
    fn spoilt(self) -> Self;
}

impl Word for u64 {
    const GUARD: u64 = 0x5afe_babe_5afe_babe;
    fn spoilt(self) -> u64 {
        self ^ 1
    }
}

impl Word for u8 {
    const GUARD: u8 = 0x5a;
    fn spoilt(self) -> u8 {
        self ^ 1
    }
}

impl Word for u16 {
    const GUARD: u16 = 0x5afe;
    fn spoilt(self) -> u16 {
        self ^ 1
    }
}

const MARGIN: usize = 8;

/// An array between guard words.
struct Lent<T> {
    call: &'static str,
    what: &'static str,
    words: Vec<T>,
}

impl<T: Word> Lent<T> {
    fn new(call: &'static str, what: &'static str, content: &[T]) -> Self {
        let mut words = Vec::with_capacity(content.len() + 2 * MARGIN);
        words.extend([T::GUARD; MARGIN]);
        words.extend(content);
        words.extend([T::GUARD; MARGIN]);
        Self { call, what, words }
    }

    fn len(&self) -> usize {
        self.words.len() - 2 * MARGIN
    }

    fn pointer(&mut self) -> *mut T {
        self.words[MARGIN..].as_mut_ptr()
    }

    /// The array after the call.
    fn content(&mut self) -> &[T] {
        let (call, what, end) = (self.call, self.what, self.words.len() - MARGIN);
        let guards = [&self.words[..MARGIN], &self.words[end..]];
        assert!(guards == [&[T::GUARD; MARGIN]; 2], "the port: {call} wrote beside {what}");
        spoil(call, what, &mut self.words[MARGIN..end]);
        &self.words[MARGIN..end]
    }

    fn back(mut self, to: &mut [T]) {
        to.copy_from_slice(self.content());
    }

    /// For an array that is only read.
    fn unchanged(mut self, from: &[T]) {
        let (call, what) = (self.call, self.what);
        assert!(self.content() == from, "the port: {call} changed {what}");
    }
}

/// Words that stand in `answers` before a call, two more than it states.
const OLD: u64 = 0xa5a5_0000_0000_5a5a;

/// The stated answers. The last words of `answers` from `kept` on must be as before; on a refusal all must.
fn answered<const N: usize>(number: u64, mut answers: Lent<u64>, kept: impl Fn(&[u64]) -> usize) -> Answer<N> {
    let number = if is_faulty(answers.call, "number") { number ^ 1 } else { number };
    let call = answers.call;
    let words = answers.content();
    let kept = if number == 0 { kept(words) } else { 0 };
    assert!(words[kept..].iter().all(|&word| word == OLD), "the port: {call} (answer {number}) wrote to answers from {kept} on");
    if number == 0 { Ok(std::array::from_fn(|i| words[i])) } else { Err(number) }
}

fn answers(call: &'static str, n: usize) -> Lent<u64> {
    Lent::new(call, "answers", &vec![OLD; n + 2])
}

// ------------------------------------------------------------------------------------------------------------------- the calls

/// A list as one of its two recorders sees it: capacity and used, keys (three words a place), its own multiplicities and holds, and those of
/// the other one.
#[derive(Debug, Clone, Eq, PartialEq)]
pub struct List {
    pub capacity: usize,
    pub used: usize,
    pub keys: Vec<u64>,
    pub multiplicities: Vec<u64>,
    pub holds: Vec<u64>,
    pub other_multiplicities: Vec<u64>,
    pub other_holds: Vec<u64>,
}

impl List {
    /// As the other recorder sees it.
    pub fn exchanged(self) -> List {
        List {
            multiplicities: self.other_multiplicities,
            holds: self.other_holds,
            other_multiplicities: self.multiplicities,
            other_holds: self.holds,
            ..self
        }
    }
}

/// Position and used.
pub fn record(list: &mut List, [opcode, lhs, rhs]: [u64; 3]) -> Answer<2> {
    let call = "record";
    let mut keys = Lent::new(call, "keys", &list.keys);
    let mut multiplicities = Lent::new(call, "multiplicities", &list.multiplicities);
    let mut holds = Lent::new(call, "holds", &list.holds);
    let mut other_multiplicities = Lent::new(call, "other multiplicities", &list.other_multiplicities);
    let mut other_holds = Lent::new(call, "other holds", &list.other_holds);
    let mut answers = answers(call, 2);
    let number = unsafe {
        c::u32_table_record(
            list.capacity,
            list.used,
            keys.pointer(),
            keys.len(),
            multiplicities.pointer(),
            multiplicities.len(),
            holds.pointer(),
            holds.len(),
            other_multiplicities.pointer(),
            other_multiplicities.len(),
            other_holds.pointer(),
            other_holds.len(),
            opcode,
            lhs,
            rhs,
            answers.pointer(),
            answers.len(),
        )
    };
    keys.back(&mut list.keys);
    multiplicities.back(&mut list.multiplicities);
    holds.back(&mut list.holds);
    other_multiplicities.back(&mut list.other_multiplicities);
    other_holds.back(&mut list.other_holds);
    answered(number, answers, |_| 2)
}

/// Position and used.
pub fn hold(list: &mut List, [opcode, lhs, rhs]: [u64; 3]) -> Answer<2> {
    let call = "hold";
    let mut keys = Lent::new(call, "keys", &list.keys);
    let mut multiplicities = Lent::new(call, "multiplicities", &list.multiplicities);
    let mut holds = Lent::new(call, "holds", &list.holds);
    let mut other_multiplicities = Lent::new(call, "other multiplicities", &list.other_multiplicities);
    let mut other_holds = Lent::new(call, "other holds", &list.other_holds);
    let mut answers = answers(call, 2);
    let number = unsafe {
        c::u32_table_hold(
            list.capacity,
            list.used,
            keys.pointer(),
            keys.len(),
            multiplicities.pointer(),
            multiplicities.len(),
            holds.pointer(),
            holds.len(),
            other_multiplicities.pointer(),
            other_multiplicities.len(),
            other_holds.pointer(),
            other_holds.len(),
            opcode,
            lhs,
            rhs,
            answers.pointer(),
            answers.len(),
        )
    };
    keys.back(&mut list.keys);
    multiplicities.back(&mut list.multiplicities);
    holds.back(&mut list.holds);
    other_multiplicities.back(&mut list.other_multiplicities);
    other_holds.back(&mut list.other_holds);
    answered(number, answers, |_| 2)
}

pub fn confirm(list: &mut List, position: usize) -> Answer<0> {
    let call = "confirm";
    let mut keys = Lent::new(call, "keys", &list.keys);
    let mut multiplicities = Lent::new(call, "multiplicities", &list.multiplicities);
    let mut holds = Lent::new(call, "holds", &list.holds);
    let number = unsafe {
        c::u32_table_confirm(
            list.capacity,
            list.used,
            keys.pointer(),
            keys.len(),
            multiplicities.pointer(),
            multiplicities.len(),
            holds.pointer(),
            holds.len(),
            position,
        )
    };
    keys.unchanged(&list.keys);
    multiplicities.back(&mut list.multiplicities);
    holds.back(&mut list.holds);
    answered(number, answers(call, 0), |_| 0)
}

pub fn drop(list: &mut List, position: usize) -> Answer<0> {
    let call = "drop";
    let mut keys = Lent::new(call, "keys", &list.keys);
    let mut multiplicities = Lent::new(call, "multiplicities", &list.multiplicities);
    let mut holds = Lent::new(call, "holds", &list.holds);
    let number = unsafe {
        c::u32_table_drop(
            list.capacity,
            list.used,
            keys.pointer(),
            keys.len(),
            multiplicities.pointer(),
            multiplicities.len(),
            holds.pointer(),
            holds.len(),
            position,
        )
    };
    keys.unchanged(&list.keys);
    multiplicities.unchanged(&list.multiplicities);
    holds.back(&mut list.holds);
    answered(number, answers(call, 0), |_| 0)
}

/// The number; and on a refusal too the steps done, and used.
pub fn replay(list: &mut List, trace: &[u64]) -> (u64, [u64; 2]) {
    let call = "replay";
    let mut keys = Lent::new(call, "keys", &list.keys);
    let mut multiplicities = Lent::new(call, "multiplicities", &list.multiplicities);
    let mut holds = Lent::new(call, "holds", &list.holds);
    let mut other_multiplicities = Lent::new(call, "other multiplicities", &list.other_multiplicities);
    let mut other_holds = Lent::new(call, "other holds", &list.other_holds);
    let mut steps = Lent::new(call, "trace", trace);
    let mut answers = answers(call, 2);
    let number = unsafe {
        c::u32_table_replay(
            list.capacity,
            list.used,
            keys.pointer(),
            keys.len(),
            multiplicities.pointer(),
            multiplicities.len(),
            holds.pointer(),
            holds.len(),
            other_multiplicities.pointer(),
            other_multiplicities.len(),
            other_holds.pointer(),
            other_holds.len(),
            steps.pointer(),
            steps.len(),
            answers.pointer(),
            answers.len(),
        )
    };
    keys.back(&mut list.keys);
    multiplicities.back(&mut list.multiplicities);
    holds.back(&mut list.holds);
    other_multiplicities.back(&mut list.other_multiplicities);
    other_holds.back(&mut list.other_holds);
    steps.unchanged(trace);
    let words = answers.content();
    assert!(words[2..] == [OLD; 2], "the port: replay wrote to answers past the second");
    (if is_faulty(call, "number") { number ^ 1 } else { number }, [words[0], words[1]])
}

/// The lookup tables: capacity and used, keys and multiplicities of the cascade, and the multiplicities of the bytes.
#[derive(Debug, Clone, Eq, PartialEq)]
pub struct Lookups {
    pub capacity: usize,
    pub used: usize,
    pub keys: Vec<u16>,
    pub multiplicities: Vec<u64>,
    pub byte_multiplicities: Vec<u64>,
}

/// Used.
pub fn look_up(tables: &mut Lookups, value: u16) -> Answer<1> {
    let call = "look_up";
    let mut keys = Lent::new(call, "keys", &tables.keys);
    let mut multiplicities = Lent::new(call, "multiplicities", &tables.multiplicities);
    let mut byte_multiplicities = Lent::new(call, "byte multiplicities", &tables.byte_multiplicities);
    let mut answers = answers(call, 1);
    let number = unsafe {
        c::u32_table_look_up(
            tables.capacity,
            tables.used,
            keys.pointer(),
            keys.len(),
            multiplicities.pointer(),
            multiplicities.len(),
            byte_multiplicities.pointer(),
            byte_multiplicities.len(),
            value,
            answers.pointer(),
            answers.len(),
        )
    };
    keys.back(&mut tables.keys);
    multiplicities.back(&mut tables.multiplicities);
    byte_multiplicities.back(&mut tables.byte_multiplicities);
    answered(number, answers, |_| 1)
}

/// The last sum.
pub fn byte_sum(byte_multiplicities: &[u64], challenges: &[u64], aux: &mut [u64]) -> Answer<3> {
    let call = "byte_sum";
    let mut bytes = Lent::new(call, "byte multiplicities", byte_multiplicities);
    let mut weights = Lent::new(call, "challenges", challenges);
    let mut sums = Lent::new(call, "aux", aux);
    let mut answers = answers(call, 3);
    let number = unsafe {
        c::u32_table_byte_sum(
            bytes.pointer(),
            bytes.len(),
            weights.pointer(),
            weights.len(),
            sums.pointer(),
            sums.len(),
            answers.pointer(),
            answers.len(),
        )
    };
    bytes.unchanged(byte_multiplicities);
    weights.unchanged(challenges);
    sums.back(aux);
    answered(number, answers, |_| 3)
}

/// The last sum.
pub fn cascade_sum(tables: &Lookups, challenges: &[u64], aux: &mut [u64]) -> Answer<3> {
    let call = "cascade_sum";
    let mut keys = Lent::new(call, "keys", &tables.keys);
    let mut multiplicities = Lent::new(call, "multiplicities", &tables.multiplicities);
    let mut weights = Lent::new(call, "challenges", challenges);
    let mut sums = Lent::new(call, "aux", aux);
    let mut answers = answers(call, 3);
    let number = unsafe {
        c::u32_table_cascade_sum(
            tables.capacity,
            tables.used,
            keys.pointer(),
            keys.len(),
            multiplicities.pointer(),
            multiplicities.len(),
            weights.pointer(),
            weights.len(),
            sums.pointer(),
            sums.len(),
            answers.pointer(),
            answers.len(),
        )
    };
    keys.unchanged(&tables.keys);
    multiplicities.unchanged(&tables.multiplicities);
    weights.unchanged(challenges);
    sums.back(aux);
    answered(number, answers, |_| 3)
}

/// 0 less, 1 equal, 2 greater.
pub fn compare(left: [u64; 3], right: [u64; 3]) -> Answer<1> {
    let mut answers = answers("compare", 1);
    let number = unsafe {
        c::u32_table_compare(left[0], left[1], left[2], right[0], right[1], right[2], answers.pointer(), answers.len())
    };
    answered(number, answers, |_| 1)
}

/// Height and padded height.
pub fn plan(list: &List) -> Answer<2> {
    let call = "plan";
    let mut keys = Lent::new(call, "keys", &list.keys);
    let mut multiplicities = Lent::new(call, "multiplicities", &list.multiplicities);
    let mut holds = Lent::new(call, "holds", &list.holds);
    let mut answers = answers(call, 2);
    let number = unsafe {
        c::u32_table_plan(
            list.capacity,
            list.used,
            keys.pointer(),
            keys.len(),
            multiplicities.pointer(),
            multiplicities.len(),
            holds.pointer(),
            holds.len(),
            answers.pointer(),
            answers.len(),
        )
    };
    keys.unchanged(&list.keys);
    multiplicities.unchanged(&list.multiplicities);
    holds.unchanged(&list.holds);
    answered(number, answers, |_| 2)
}

/// N, which is used afterwards.
pub fn read(bytes: &[u8], list: &mut List) -> Answer<1> {
    let call = "read";
    let mut lent = Lent::new(call, "bytes", bytes);
    let mut keys = Lent::new(call, "keys", &list.keys);
    let mut multiplicities = Lent::new(call, "multiplicities", &list.multiplicities);
    let mut holds = Lent::new(call, "holds", &list.holds);
    let mut other_multiplicities = Lent::new(call, "other multiplicities", &list.other_multiplicities);
    let mut other_holds = Lent::new(call, "other holds", &list.other_holds);
    let mut answers = answers(call, 1);
    let number = unsafe {
        c::u32_table_read(
            lent.pointer(),
            lent.len(),
            list.capacity,
            list.used,
            keys.pointer(),
            keys.len(),
            multiplicities.pointer(),
            multiplicities.len(),
            holds.pointer(),
            holds.len(),
            other_multiplicities.pointer(),
            other_multiplicities.len(),
            other_holds.pointer(),
            other_holds.len(),
            answers.pointer(),
            answers.len(),
        )
    };
    lent.unchanged(bytes);
    keys.back(&mut list.keys);
    multiplicities.back(&mut list.multiplicities);
    holds.back(&mut list.holds);
    other_multiplicities.back(&mut list.other_multiplicities);
    other_holds.back(&mut list.other_holds);
    answered(number, answers, |_| 1)
}

/// The length.
pub fn write(list: &List, out: &mut [u8]) -> Answer<1> {
    let call = "write";
    let mut keys = Lent::new(call, "keys", &list.keys);
    let mut multiplicities = Lent::new(call, "multiplicities", &list.multiplicities);
    let mut holds = Lent::new(call, "holds", &list.holds);
    let mut lent = Lent::new(call, "out", out);
    let mut answers = answers(call, 1);
    let number = unsafe {
        c::u32_table_write(
            list.capacity,
            list.used,
            keys.pointer(),
            keys.len(),
            multiplicities.pointer(),
            multiplicities.len(),
            holds.pointer(),
            holds.len(),
            lent.pointer(),
            lent.len(),
            answers.pointer(),
            answers.len(),
        )
    };
    keys.unchanged(&list.keys);
    multiplicities.unchanged(&list.multiplicities);
    holds.unchanged(&list.holds);
    lent.back(out);
    answered(number, answers, |_| 1)
}

/// The height.
pub fn fill(list: &List, table: &mut [u64]) -> Answer<1> {
    let call = "fill";
    let mut keys = Lent::new(call, "keys", &list.keys);
    let mut multiplicities = Lent::new(call, "multiplicities", &list.multiplicities);
    let mut holds = Lent::new(call, "holds", &list.holds);
    let mut lent = Lent::new(call, "table", table);
    let mut answers = answers(call, 1);
    let number = unsafe {
        c::u32_table_fill(
            list.capacity,
            list.used,
            keys.pointer(),
            keys.len(),
            multiplicities.pointer(),
            multiplicities.len(),
            holds.pointer(),
            holds.len(),
            lent.pointer(),
            lent.len(),
            answers.pointer(),
            answers.len(),
        )
    };
    keys.unchanged(&list.keys);
    multiplicities.unchanged(&list.multiplicities);
    holds.unchanged(&list.holds);
    lent.back(table);
    answered(number, answers, |_| 1)
}

pub fn pad(table: &mut [u64], filled: usize) -> Answer<0> {
    let mut lent = Lent::new("pad", "table", table);
    let number = unsafe { c::u32_table_pad(lent.pointer(), lent.len(), filled) };
    lent.back(table);
    answered(number, answers("pad", 0), |_| 0)
}

/// The last sum.
pub fn extend(table: &[u64], aux: &mut [u64], challenges: &[u64]) -> Answer<3> {
    let call = "extend";
    let mut lent = Lent::new(call, "table", table);
    let mut sums = Lent::new(call, "aux", aux);
    let mut weights = Lent::new(call, "challenges", challenges);
    let mut answers = answers(call, 3);
    let number = unsafe {
        c::u32_table_extend(
            lent.pointer(),
            lent.len(),
            sums.pointer(),
            sums.len(),
            weights.pointer(),
            weights.len(),
            answers.pointer(),
            answers.len(),
        )
    };
    lent.unchanged(table);
    sums.back(aux);
    weights.unchanged(challenges);
    answered(number, answers, |_| 3)
}

/// 0, with the other words as they were; or 1, group, row, index and the value's three words.
pub fn check(table: &[u64], aux: &[u64], challenges: &[u64]) -> Answer<7> {
    let call = "check";
    let mut lent = Lent::new(call, "table", table);
    let mut sums = Lent::new(call, "aux", aux);
    let mut weights = Lent::new(call, "challenges", challenges);
    let mut answers = answers(call, 7);
    let number = unsafe {
        c::u32_table_check(
            lent.pointer(),
            lent.len(),
            sums.pointer(),
            sums.len(),
            weights.pointer(),
            weights.len(),
            answers.pointer(),
            answers.len(),
        )
    };
    lent.unchanged(table);
    sums.unchanged(aux);
    weights.unchanged(challenges);
    answered(number, answers, |words| if words[0] == 0 { 1 } else { 7 })
}

/// The three words of the client's sum.
pub fn client_sum(requests: &[u64], challenges: &[u64]) -> Answer<3> {
    let call = "client_sum";
    let mut lent = Lent::new(call, "requests", requests);
    let mut weights = Lent::new(call, "challenges", challenges);
    let mut answers = answers(call, 3);
    let number = unsafe {
        c::u32_table_client_sum(lent.pointer(), lent.len(), weights.pointer(), weights.len(), answers.pointer(), answers.len())
    };
    lent.unchanged(requests);
    weights.unchanged(challenges);
    answered(number, answers, |_| 3)
}

// ------------------------------------------------------------------------------------------------------------------ the insides

fn done(call: &str, number: u64) {
    assert_eq!(0, number, "the port: {call}");
}

/// The forty constraints on an upper row and a lower one, three words each: initial, consistency, transition, terminal.
pub fn constraints(rows: &[u64], aux: &[u64], challenges: &[u64], values: &mut [u64]) {
    let call = "constraints";
    let mut lent = Lent::new(call, "values", values);
    done(call, unsafe {
        probes::probe_constraints(
            rows.as_ptr(),
            rows.len(),
            aux.as_ptr(),
            aux.len(),
            challenges.as_ptr(),
            challenges.len(),
            lent.pointer(),
            lent.len(),
        )
    });
    lent.back(values);
}

pub fn products(left: &[u64], right: &[u64], out: &mut [u64]) {
    let mut lent = Lent::new("products", "out", out);
    done("products", unsafe {
        probes::probe_products(left.as_ptr(), left.len(), right.as_ptr(), right.len(), lent.pointer(), lent.len())
    });
    lent.back(out);
}

pub fn inverses(words: &[u64], out: &mut [u64]) {
    let mut lent = Lent::new("inverses", "out", out);
    done("inverses", unsafe { probes::probe_inverses(words.as_ptr(), words.len(), lent.pointer(), lent.len()) });
    lent.back(out);
}

pub fn ext_inverses(words: &[u64], out: &mut [u64]) {
    let mut lent = Lent::new("inverses", "out", out);
    done("inverses", unsafe { probes::probe_ext_inverses(words.as_ptr(), words.len(), lent.pointer(), lent.len()) });
    lent.back(out);
}

type Probe = unsafe extern "C" fn(*const u64, usize, *const u64, usize, *mut u64, usize) -> u64;

/// Sums, differences and products of extension elements, three words each.
pub const EXT_OPERATIONS: [(&str, Probe); 3] = [
    ("ext_sums", probes::probe_ext_sums),
    ("ext_differences", probes::probe_ext_differences),
    ("ext_products", probes::probe_ext_products),
];

pub fn ext_operation((call, probe): (&'static str, Probe), left: &[u64], right: &[u64], out: &mut [u64]) {
    let mut lent = Lent::new(call, "out", out);
    done(call, unsafe { probe(left.as_ptr(), left.len(), right.as_ptr(), right.len(), lent.pointer(), lent.len()) });
    lent.back(out);
}
