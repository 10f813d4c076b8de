//! The C functions of crates/u32_table and crates/probes, on slices; and record, extend and check of an earlier library, where one is linked.
use u32_table_sys as c;
use u32_table_sys::probes;

#[cfg(earlier)]
mod earlier {
    mod declared {
        macro_rules! declare {
            ($(fn $name:ident($($argument:ident: $type:ty),* $(,)?);)*) => {
                #[allow(dead_code)]
                unsafe extern "C" {
                    $(
                        #[link_name = concat!("earlier_", stringify!($name))]
                        pub fn $name($($argument: $type),*) -> u64;
                    )*
                }
            };
        }
        u32_table_sys::functions!(declare);
    }
    pub use declared::*;

    /// Of a library whose lists have one recorder, or no holds either: record has fewer arguments there.
    #[cfg(any(one_recorder, without_holds))]
    #[allow(clippy::too_many_arguments, unused_variables)]
    pub unsafe fn u32_table_record(
        capacity: usize,
        used: usize,
        keys: *mut u64,
        key_words: usize,
        multiplicities: *mut u64,
        places: usize,
        holds: *mut u64,
        hold_places: usize,
        other_multiplicities: *mut u64,
        other_places: usize,
        other_holds: *mut u64,
        other_hold_places: usize,
        opcode: u64,
        left_operand: u64,
        right_operand: u64,
        answers: *mut u64,
        answer_words: usize,
    ) -> u64 {
        #[allow(clashing_extern_declarations)]
        unsafe extern "C" {
            #[link_name = "earlier_u32_table_record"]
            fn record(
                capacity: usize,
                used: usize,
                keys: *mut u64,
                key_words: usize,
                multiplicities: *mut u64,
                places: usize,
                #[cfg(one_recorder)] holds: *mut u64,
                #[cfg(one_recorder)] hold_places: usize,
                opcode: u64,
                left_operand: u64,
                right_operand: u64,
                answers: *mut u64,
                answer_words: usize,
            ) -> u64;
        }
        let [a, b, c] = [opcode, left_operand, right_operand];
        unsafe {
            #[cfg(one_recorder)]
            return record(
                capacity,
                used,
                keys,
                key_words,
                multiplicities,
                places,
                holds,
                hold_places,
                a,
                b,
                c,
                answers,
                answer_words,
            );
            #[cfg(without_holds)]
            return record(capacity, used, keys, key_words, multiplicities, places, a, b, c, answers, answer_words);
        }
    }
}

/// The calls that are timed in two libraries.
pub struct Library {
    record: fn(&mut List, usize, [u64; 3]) -> usize,
    extend: fn(&[u64], &mut [u64], &[u64]),
    check: fn(&[u64], &[u64], &[u64]) -> bool,
}

impl Library {
    /// The places used afterwards.
    pub fn record(&self, list: &mut List, used: usize, key: [u64; 3]) -> usize {
        (self.record)(list, used, key)
    }

    pub fn extend(&self, table: &[u64], aux: &mut [u64], challenges: &[u64]) {
        (self.extend)(table, aux, challenges)
    }

    /// Whether all constraints are zero.
    pub fn check(&self, table: &[u64], aux: &[u64], challenges: &[u64]) -> bool {
        (self.check)(table, aux, challenges)
    }
}

/// These calls with the functions of a module.
macro_rules! library {
    ($c:ident) => {
        Library {
            record: |list, used, key| {
                let (mut answers, capacity) = ([0; 2], list.capacity());
                done(unsafe {
                    $c::u32_table_record(
                        capacity,
                        used,
                        list.keys.as_mut_ptr(),
                        list.keys.len(),
                        list.multiplicities.as_mut_ptr(),
                        capacity,
                        list.holds.as_mut_ptr(),
                        capacity,
                        list.other_multiplicities.as_mut_ptr(),
                        capacity,
                        list.other_holds.as_mut_ptr(),
                        capacity,
                        key[0],
                        key[1],
                        key[2],
                        answers.as_mut_ptr(),
                        2,
                    )
                });
                answers[1] as usize
            },
            extend: |table, aux, challenges| {
                let mut answers = [0; 3];
                done(unsafe {
                    $c::u32_table_extend(
                        table.as_ptr(),
                        table.len(),
                        aux.as_mut_ptr(),
                        aux.len(),
                        challenges.as_ptr(),
                        challenges.len(),
                        answers.as_mut_ptr(),
                        3,
                    )
                });
            },
            check: |table, aux, challenges| {
                let mut answers = [0; 7];
                done(unsafe {
                    $c::u32_table_check(
                        table.as_ptr(),
                        table.len(),
                        aux.as_ptr(),
                        aux.len(),
                        challenges.as_ptr(),
                        challenges.len(),
                        answers.as_mut_ptr(),
                        7,
                    )
                });
                answers[0] == 0
            },
        }
    };
}

pub const OURS: Library = library!(c);

#[cfg(earlier)]
pub const EARLIER: Option<Library> = Some(library!(earlier));
#[cfg(not(earlier))]
pub const EARLIER: Option<Library> = None;

/// The keys, the arrays of the recorder who makes the calls, and those of the other one.
#[derive(Clone)]
pub struct List {
    pub keys: Vec<u64>,
    pub multiplicities: Vec<u64>,
    pub holds: Vec<u64>,
    pub other_multiplicities: Vec<u64>,
    pub other_holds: Vec<u64>,
}

impl List {
    /// A list with no hold, and nothing of the other recorder.
    pub fn new(keys: Vec<u64>, multiplicities: Vec<u64>) -> Self {
        let [holds, other_multiplicities, other_holds] = [(); 3].map(|()| vec![0; multiplicities.len()]);
        Self { keys, multiplicities, holds, other_multiplicities, other_holds }
    }

    /// The list of the other recorder.
    pub fn of_other(self) -> Self {
        Self {
            multiplicities: self.other_multiplicities,
            holds: self.other_holds,
            other_multiplicities: self.multiplicities,
            other_holds: self.holds,
            ..self
        }
    }

    pub fn empty(capacity: usize) -> Self {
        Self::new(vec![0; 3 * capacity], vec![0; capacity])
    }

    fn capacity(&self) -> usize {
        self.multiplicities.len()
    }
}

fn done(number: u64) {
    assert_eq!(0, number, "refused");
}

/// The places used afterwards.
pub fn hold(list: &mut List, used: usize, key: [u64; 3]) -> usize {
    let (mut answers, capacity) = ([0; 2], list.capacity());
    done(unsafe {
        c::u32_table_hold(
            capacity,
            used,
            list.keys.as_mut_ptr(),
            list.keys.len(),
            list.multiplicities.as_mut_ptr(),
            capacity,
            list.holds.as_mut_ptr(),
            capacity,
            list.other_multiplicities.as_mut_ptr(),
            capacity,
            list.other_holds.as_mut_ptr(),
            capacity,
            key[0],
            key[1],
            key[2],
            answers.as_mut_ptr(),
            2,
        )
    });
    answers[1] as usize
}

/// Of a full list.
pub fn confirm(list: &mut List, position: usize) {
    let capacity = list.capacity();
    done(unsafe {
        c::u32_table_confirm(
            capacity,
            capacity,
            list.keys.as_ptr(),
            list.keys.len(),
            list.multiplicities.as_mut_ptr(),
            capacity,
            list.holds.as_mut_ptr(),
            capacity,
            position,
        )
    });
}

/// The steps done and the places used afterwards.
pub fn replay(list: &mut List, used: usize, trace: &[u64]) -> [usize; 2] {
    let (mut answers, capacity) = ([0; 2], list.capacity());
    done(unsafe {
        c::u32_table_replay(
            capacity,
            used,
            list.keys.as_mut_ptr(),
            list.keys.len(),
            list.multiplicities.as_mut_ptr(),
            capacity,
            list.holds.as_mut_ptr(),
            capacity,
            list.other_multiplicities.as_mut_ptr(),
            capacity,
            list.other_holds.as_mut_ptr(),
            capacity,
            trace.as_ptr(),
            trace.len(),
            answers.as_mut_ptr(),
            2,
        )
    });
    answers.map(|word| word as usize)
}

/// The three words of the client's sum.
pub fn client_sum(requests: &[u64], challenges: &[u64]) -> [u64; 3] {
    let mut answers = [0; 3];
    done(unsafe {
        c::u32_table_client_sum(requests.as_ptr(), requests.len(), challenges.as_ptr(), challenges.len(), answers.as_mut_ptr(), 3)
    });
    answers
}

/// Height and padded height.
pub fn plan(list: &List) -> [usize; 2] {
    let (mut answers, capacity) = ([0; 2], list.capacity());
    let (keys, multiplicities, holds) = (list.keys.as_ptr(), list.multiplicities.as_ptr(), list.holds.as_ptr());
    let key_words = list.keys.len();
    done(unsafe {
        c::u32_table_plan(capacity, capacity, keys, key_words, multiplicities, capacity, holds, capacity, answers.as_mut_ptr(), 2)
    });
    answers.map(|word| word as usize)
}

pub fn read(bytes: &[u8], list: &mut List) -> usize {
    let (mut answers, capacity) = ([0; 1], list.capacity());
    done(unsafe {
        c::u32_table_read(
            bytes.as_ptr(),
            bytes.len(),
            capacity,
            0,
            list.keys.as_mut_ptr(),
            list.keys.len(),
            list.multiplicities.as_mut_ptr(),
            capacity,
            list.holds.as_mut_ptr(),
            capacity,
            list.other_multiplicities.as_mut_ptr(),
            capacity,
            list.other_holds.as_mut_ptr(),
            capacity,
            answers.as_mut_ptr(),
            1,
        )
    });
    answers[0] as usize
}

pub fn write(list: &List, out: &mut [u8]) -> usize {
    let (mut answers, capacity) = ([0; 1], list.capacity());
    done(unsafe {
        c::u32_table_write(
            capacity,
            capacity,
            list.keys.as_ptr(),
            list.keys.len(),
            list.multiplicities.as_ptr(),
            capacity,
            list.holds.as_ptr(),
            capacity,
            out.as_mut_ptr(),
            out.len(),
            answers.as_mut_ptr(),
            1,
        )
    });
    answers[0] as usize
}

pub fn fill(list: &List, table: &mut [u64]) -> usize {
    let (mut answers, capacity) = ([0; 1], list.capacity());
    done(unsafe {
        c::u32_table_fill(
            capacity,
            capacity,
            list.keys.as_ptr(),
            list.keys.len(),
            list.multiplicities.as_ptr(),
            capacity,
            list.holds.as_ptr(),
            capacity,
            table.as_mut_ptr(),
            table.len(),
            answers.as_mut_ptr(),
            1,
        )
    });
    answers[0] as usize
}

pub fn pad(table: &mut [u64], filled: usize) {
    done(unsafe { c::u32_table_pad(table.as_mut_ptr(), table.len(), filled) });
}

pub fn products(left: &[u64], right: &[u64], out: &mut [u64]) {
    done(unsafe { probes::probe_products(left.as_ptr(), left.len(), right.as_ptr(), right.len(), out.as_mut_ptr(), out.len()) });
}

pub fn chain(start: u64, factor: u64, times: u64) -> u64 {
    unsafe { probes::probe_chain(start, factor, times) }
}

pub fn inverses(words: &[u64], out: &mut [u64]) {
    done(unsafe { probes::probe_inverses(words.as_ptr(), words.len(), out.as_mut_ptr(), out.len()) });
}

pub fn ext_inverses(words: &[u64], out: &mut [u64]) {
    done(unsafe { probes::probe_ext_inverses(words.as_ptr(), words.len(), out.as_mut_ptr(), out.len()) });
}

/// The number of batches and the padding.
pub fn batches(jobs: &[u64], setting: u64, results: &mut [u64]) -> [u64; 2] {
    let mut answers = [0; 2];
    done(unsafe {
        c::u32_table_batches(jobs.as_ptr(), jobs.len(), setting, results.as_mut_ptr(), results.len(), answers.as_mut_ptr(), 2)
    });
    answers
}

/// The lookup tables.
pub struct Lookups {
    pub keys: Vec<u16>,
    pub multiplicities: Vec<u64>,
    pub byte_multiplicities: [u64; 256],
}

impl Lookups {
    pub fn new(capacity: usize) -> Self {
        Self { keys: vec![0; capacity], multiplicities: vec![0; capacity], byte_multiplicities: [0; 256] }
    }
}

/// The places used afterwards.
pub fn look_up(tables: &mut Lookups, used: usize, value: u16) -> usize {
    let (mut answers, capacity) = ([0; 1], tables.keys.len());
    done(unsafe {
        c::u32_table_look_up(
            capacity,
            used,
            tables.keys.as_mut_ptr(),
            capacity,
            tables.multiplicities.as_mut_ptr(),
            capacity,
            tables.byte_multiplicities.as_mut_ptr(),
            256,
            value,
            answers.as_mut_ptr(),
            1,
        )
    });
    answers[0] as usize
}

pub fn byte_sum(byte_multiplicities: &[u64; 256], challenges: &[u64], aux: &mut [u64]) -> [u64; 3] {
    let mut answers = [0; 3];
    done(unsafe {
        c::u32_table_byte_sum(
            byte_multiplicities.as_ptr(),
            256,
            challenges.as_ptr(),
            challenges.len(),
            aux.as_mut_ptr(),
            aux.len(),
            answers.as_mut_ptr(),
            3,
        )
    });
    answers
}

/// Of a full cascade.
pub fn cascade_sum(tables: &Lookups, challenges: &[u64], aux: &mut [u64]) -> [u64; 3] {
    let (mut answers, capacity) = ([0; 3], tables.keys.len());
    done(unsafe {
        c::u32_table_cascade_sum(
            capacity,
            capacity,
            tables.keys.as_ptr(),
            capacity,
            tables.multiplicities.as_ptr(),
            capacity,
            challenges.as_ptr(),
            challenges.len(),
            aux.as_mut_ptr(),
            aux.len(),
            answers.as_mut_ptr(),
            3,
        )
    });
    answers
}

pub fn archive(table: &[u64], aux: &[u64], out: &mut [u8]) {
    done(unsafe { c::u32_table_archive(table.as_ptr(), table.len(), aux.as_ptr(), aux.len(), out.as_mut_ptr(), out.len()) });
}

pub fn restore(bytes: &[u8], table: &mut [u64], aux: &mut [u64]) {
    done(unsafe {
        c::u32_table_restore(bytes.as_ptr(), bytes.len(), table.as_mut_ptr(), table.len(), aux.as_mut_ptr(), aux.len())
    });
}
