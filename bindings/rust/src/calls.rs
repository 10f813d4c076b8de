//! The calls on lists and tables, over slices.
use std::cmp::Ordering;
use std::error::Error;
use std::fmt;

use crate::refusal::done;
use crate::{constraints, sys, Opcode, Refusal, KEY_WORDS};

/// An executed instruction with its operands. Any words may stand in it: recording admits it or refuses it.
///
/// Entries are ordered by opcode, then left operand, then right operand, and equal where these words are. Two words of one base of pow are not
/// equal here, but recording and writing take them for one key.
///
/// ```
/// # fn main() -> Result<(), u32_table::Refusal> {
/// use u32_table::{opcodes::{LT, POW}, Entry, List, Opcode, P};
/// let mut entries = [Entry::new(POW, P + 5, 2), Entry::new(POW, 5, 2), Opcode::Lt.entry(2, 3)];
/// entries.sort();
/// assert_eq!(entries, [Entry::new(LT, 2, 3), Entry::new(POW, 5, 2), Entry::new(POW, P + 5, 2)]);
/// assert_eq!(entries.map(Entry::instruction), [Some(Opcode::Lt), Some(Opcode::Pow), Some(Opcode::Pow)]);
///
/// // the two of pow differ as entries, and are one key of a list
/// let mut list = List::new(3)?;
/// assert_eq!([list.record(entries[0])?, list.record(entries[1])?, list.record(entries[2])?], [0, 1, 1]);
/// # Ok(())
/// # }
/// ```
#[derive(Clone, Copy, Debug, PartialEq, Eq, Hash)]
pub struct Entry {
    /// The word of an [`Opcode`], for an entry that is admitted.
    pub opcode: u64,
    /// Below 2^32; for log_2_floor not 0. For pow any word, taken modulo [`P`](crate::P); in stored bytes it is below it.
    pub left_operand: u64,
    /// Below 2^32.
    pub right_operand: u64,
}

impl Entry {
    /// The entry with these words. [`Opcode::entry`] makes one of an instruction.
    pub const fn new(opcode: u64, left_operand: u64, right_operand: u64) -> Entry {
        Entry { opcode, left_operand, right_operand }
    }

    /// The instruction, if the opcode is one of the six.
    pub fn instruction(self) -> Option<Opcode> {
        Opcode::try_from(self.opcode).ok()
    }

    fn words(self) -> [u64; 3] {
        [self.opcode, self.left_operand, self.right_operand]
    }
}

impl Ord for Entry {
    fn cmp(&self, other: &Entry) -> Ordering {
        compare(*self, *other)
    }
}

impl PartialOrd for Entry {
    fn partial_cmp(&self, other: &Entry) -> Option<Ordering> {
        Some(self.cmp(other))
    }
}

/// How many places a list has, and how many of them have an entry: the first `used`.
#[derive(Clone, Copy, Debug, PartialEq, Eq, Hash)]
pub struct Sizes {
    /// All places.
    pub capacity: usize,
    /// The places in use.
    pub used: usize,
}

impl Sizes {
    pub(crate) fn numbers(self) -> [usize; 2] {
        [self.capacity, self.used]
    }
}

/// Where and why a replay stopped: step number `done`, from 0, is refused. The steps before it are on the list; for the refusal shape there are none.
///
/// ```
/// use u32_table::{steps::DIV_MOD, List, Refusal};
/// let mut list = List::new(2).unwrap();
/// let stopped = list.replay(&[DIV_MOD, 7, 2, DIV_MOD, 7, 0]).unwrap_err();
/// assert_eq!((stopped.done, stopped.refusal), (1, Refusal::ZeroDivisor));
/// assert_eq!(stopped.to_string(), "refused 13 (zero divisor) after 1 steps");
/// ```
#[derive(Clone, Copy, Debug, PartialEq, Eq, Hash)]
pub struct Stopped {
    /// Why the step is refused.
    pub refusal: Refusal,
    /// How many steps were done before it.
    pub done: usize,
}

impl fmt::Display for Stopped {
    fn fmt(&self, f: &mut fmt::Formatter<'_>) -> fmt::Result {
        write!(f, "{} after {} steps", self.refusal, self.done)
    }
}

impl Error for Stopped {
    fn source(&self) -> Option<&(dyn Error + 'static)> {
        Some(&self.refusal)
    }
}

impl From<Stopped> for Refusal {
    fn from(stopped: Stopped) -> Refusal {
        stopped.refusal
    }
}

/// The rows that a list needs.
#[derive(Clone, Copy, Debug, PartialEq, Eq, Hash)]
pub struct Plan {
    /// The sum of the heights of the entries that have a multiplicity: so many rows are filled.
    pub height: usize,
    /// The smallest power of two that is at least the height and at least 256: all tables of one proof share it, and the byte lookup
    /// always has 256 rows.
    pub padded_height: usize,
}

/// A kind of constraint, by where it is asked.
#[derive(Clone, Copy, Debug, PartialEq, Eq, PartialOrd, Ord, Hash)]
pub enum Group {
    /// On row 0.
    Initial,
    /// On each row.
    Consistency,
    /// On each pair of rows.
    Transition,
    /// On the last row.
    Terminal,
}

impl Group {
    /// The group's number, 0 to 3.
    pub fn number(self) -> u64 {
        self as u64
    }

    /// The names of its constraints, those of the original Rust, in the order of their indices. Four of the transition constraints are other than
    /// their names say: docs/DIFFERENCES.md, "Names that mislead".
    pub fn constraints(self) -> &'static [&'static str] {
        match self {
            Group::Initial => &constraints::INITIAL,
            Group::Consistency => &constraints::CONSISTENCY,
            Group::Transition => &constraints::TRANSITION,
            Group::Terminal => &constraints::TERMINAL,
        }
    }
}

impl fmt::Display for Group {
    fn fmt(&self, f: &mut fmt::Formatter<'_>) -> fmt::Result {
        f.write_str(match self {
            Group::Initial => "initial",
            Group::Consistency => "consistency",
            Group::Transition => "transition",
            Group::Terminal => "terminal",
        })
    }
}

/// What a check finds.
///
/// ```
/// # fn main() -> Result<(), u32_table::Refusal> {
/// use u32_table::{check, Group, Opcode, Verdict};
/// // one row: and of 0 and 0, which is 0, and then the same with Result 1
/// let mut row = [1, 0, 15651782846776010939, Opcode::And.word(), 0, 0, 0, 0, 0, 0];
/// let (aux, challenges) = ([0; 3], [1; 15]);
/// assert_eq!(check(&row, &aux, &challenges)?, Verdict::Zero);
/// row[8] = 1;
/// let verdict = check(&row, &aux, &challenges)?;
/// let Verdict::Nonzero { group, row, index, value } = verdict else { panic!() };
/// assert_eq!((group, row, index, value), (Group::Consistency, 0, 9, [35840, 0, 0]));
/// assert_eq!(verdict.constraint(), Some("result_is_initialized_correctly_for_and"));
/// assert_eq!(verdict.to_string(), "nonzero 1 0 9 35840 0 0");
/// # Ok(())
/// # }
/// ```
#[derive(Clone, Copy, Debug, PartialEq, Eq, Hash)]
pub enum Verdict {
    /// Every constraint is zero. Then each row with CopyFlag 1 tells the truth, whoever made the table, and the last sum is the sum over
    /// these rows, if none of their denominators is (0, 0, 0).
    Zero,
    /// The first constraint that is not zero.
    Nonzero {
        /// Where it is asked.
        group: Group,
        /// The row, or the upper one of the pair.
        row: usize,
        /// Which one of its group, from 0.
        index: usize,
        /// Its value, an element of the extension.
        value: [u64; 3],
    },
}

impl Verdict {
    /// Whether every constraint is zero.
    pub fn is_zero(self) -> bool {
        self == Verdict::Zero
    }

    /// The name of the constraint that is not zero; none where every one is zero.
    ///
    /// ```
    /// use u32_table::{check, Opcode};
    /// let flag_of_2 = [2, 0, 15651782846776010939, Opcode::And.word(), 0, 0, 0, 0, 0, 0];
    /// let verdict = check(&flag_of_2, &[0; 3], &[0; 15]).unwrap();
    /// assert_eq!(verdict.constraint(), Some("copy_flag_is_bit"));
    /// ```
    pub fn constraint(self) -> Option<&'static str> {
        match self {
            Verdict::Zero => None,
            Verdict::Nonzero { group, index, .. } => group.constraints().get(index).copied(),
        }
    }
}

/// As `u32list` prints it: `zero`, or `nonzero` with group, row, index and the three words of the value.
impl fmt::Display for Verdict {
    fn fmt(&self, f: &mut fmt::Formatter<'_>) -> fmt::Result {
        match self {
            Verdict::Zero => f.write_str("zero"),
            Verdict::Nonzero { group, row, index, value: [a, b, c] } => {
                write!(f, "nonzero {} {row} {index} {a} {b} {c}", group.number())
            }
        }
    }
}

/// Compares two entries by opcode, then left operand, then right operand, on any words.
///
/// ```
/// use std::cmp::Ordering;
/// use u32_table::{compare, opcodes::{LT, SPLIT}, Entry};
/// assert_eq!(compare(Entry::new(SPLIT, 9, 9), Entry::new(LT, 0, 0)), Ordering::Less);
/// assert_eq!(compare(Entry::new(LT, 2, 3), Entry::new(LT, 2, 3)), Ordering::Equal);
/// ```
pub fn compare(entry: Entry, other: Entry) -> Ordering {
    let mut answers = [0];
    // it refuses only too few words of `answers`
    sys::compare(entry.words(), other.words(), &mut answers);
    match answers[0] {
        0 => Ordering::Less,
        1 => Ordering::Equal,
        _ => Ordering::Greater,
    }
}

/// Records an entry: the first equal key's multiplicity gains one; else the key is appended with multiplicity 1 and no hold, and `sizes.used` is one
/// more. The answer is the key's position, from 0.
///
/// Two recorders may share sizes and keys, each with multiplicities and holds of its own. Who records lends its own first, then the other's: at the
/// place of a key that is appended the other's multiplicity and holds become 0, and else they keep their words and do not count. A program with one
/// recorder lends two more arrays with a word a place, which need no care. [`List`](crate::List) owns the arrays of both.
///
/// The left operand of pow is taken modulo [`P`](crate::P), in the entry and in the keys: two words of one base are one key, what is appended is
/// below [`P`](crate::P), and a key that gains keeps its words.
///
/// Refusals, in this order: shape, stranger, wide, bare log, then count full or list full. Count full looks at the first equal key's count plus holds,
/// those of who records.
///
/// ```
/// use u32_table::{opcodes::{AND, POW}, record, Entry, Sizes, P};
/// let (mut sizes, mut keys) = (Sizes { capacity: 2, used: 0 }, [0; 6]);
/// let (mut multiplicities, mut holds, mut other_multiplicities, mut other_holds) = ([9; 2], [9; 2], [9; 2], [9; 2]);
/// let mut record_it = |entry| {
///     record(&mut sizes, &mut keys, &mut multiplicities, &mut holds, &mut other_multiplicities, &mut other_holds, entry)
/// };
/// assert_eq!(record_it(Entry::new(AND, 3, 1)), Ok(0));
/// assert_eq!(record_it(Entry::new(AND, 3, 1)), Ok(0));
/// assert_eq!(record_it(Entry::new(POW, P + 5, 2)), Ok(1));
/// assert_eq!(record_it(Entry::new(POW, 5, 2)), Ok(1));
/// assert_eq!((sizes.used, keys, multiplicities, holds), (2, [14, 3, 1, 30, 5, 2], [2, 2], [0, 0]));
/// assert_eq!((other_multiplicities, other_holds), ([0, 0], [0, 0]));
///
/// // the other recorder has a list of the same keys
/// let entry = Entry::new(POW, 5, 2);
/// let at = record(&mut sizes, &mut keys, &mut other_multiplicities, &mut other_holds, &mut multiplicities, &mut holds, entry);
/// assert_eq!((at, multiplicities, other_multiplicities), (Ok(1), [2, 2], [0, 1]));
/// ```
pub fn record(
    sizes: &mut Sizes,
    keys: &mut [u64],
    multiplicities: &mut [u64],
    holds: &mut [u64],
    other_multiplicities: &mut [u64],
    other_holds: &mut [u64],
    entry: Entry,
) -> Result<usize, Refusal> {
    let mut answers = [0; 2];
    let other = [other_multiplicities, other_holds];
    done(sys::record(sizes.numbers(), keys, multiplicities, holds, other, entry.words(), &mut answers))?;
    sizes.used = answers[1] as usize;
    Ok(answers[0] as usize)
}

/// Records an entry in two parts: this is the first, and [`confirm`] or [`drop_hold`] at the position that it answers is the second. The first equal
/// key gains one hold; else the key is appended with multiplicity 0 and one hold, and `sizes.used` is one more. The answer is the key's position, from 0.
///
/// While a hold of a recorder is open at a used place, [`plan`], [`fill`] and [`write()`] refuse the list for this recorder. From a list with no entries
/// on, a recorder's multiplicity of a key is the number of its own accepted confirms and recordings of it, those of replays among them.
///
/// The left operand of pow is taken as [`record`] takes it, and so are the other recorder's two arrays.
///
/// Refusals, in this order: shape, stranger, wide, bare log, then count full (count plus holds) or list full.
///
/// ```
/// use u32_table::{confirm, drop_hold, hold, opcodes::AND, plan, Entry, Refusal, Sizes};
/// let (mut sizes, mut keys) = (Sizes { capacity: 2, used: 0 }, [0; 6]);
/// let (mut multiplicities, mut holds, mut others) = ([0; 2], [0; 2], [[0; 2]; 2]);
/// for held in 1..=2 {
///     let [other_multiplicities, other_holds] = &mut others;
///     let entry = Entry::new(AND, 3, 1);
///     let at = hold(&mut sizes, &mut keys, &mut multiplicities, &mut holds, other_multiplicities, other_holds, entry);
///     assert_eq!((at, sizes.used, multiplicities[0], holds[0]), (Ok(0), 1, 0, held));
/// }
/// assert_eq!(plan(sizes, &keys, &multiplicities, &holds), Err(Refusal::OpenHold));
///
/// assert_eq!(confirm(sizes, &keys, &mut multiplicities, &mut holds, 0), Ok(()));
/// assert_eq!(drop_hold(sizes, &keys, &multiplicities, &mut holds, 0), Ok(()));
/// assert_eq!((multiplicities[0], holds[0]), (1, 0));
/// assert_eq!(confirm(sizes, &keys, &mut multiplicities, &mut holds, 0), Err(Refusal::NoHold));
/// assert!(plan(sizes, &keys, &multiplicities, &holds).is_ok());
/// ```
pub fn hold(
    sizes: &mut Sizes,
    keys: &mut [u64],
    multiplicities: &mut [u64],
    holds: &mut [u64],
    other_multiplicities: &mut [u64],
    other_holds: &mut [u64],
    entry: Entry,
) -> Result<usize, Refusal> {
    let mut answers = [0; 2];
    let other = [other_multiplicities, other_holds];
    done(sys::hold(sizes.numbers(), keys, multiplicities, holds, other, entry.words(), &mut answers))?;
    sizes.used = answers[1] as usize;
    Ok(answers[0] as usize)
}

/// One hold at the position becomes one count: the multiplicity there gains one, the holds lose one.
///
/// Refusals, in this order: shape; no hold, where the position is not used or has none; count full, which no list meets whose holds [`hold`] made.
///
/// ```
/// use u32_table::{confirm, opcodes::AND, Refusal, Sizes};
/// let (sizes, keys) = (Sizes { capacity: 2, used: 1 }, [AND, 3, 1, 0, 0, 0]);
/// let (mut multiplicities, mut holds) = ([7, 0], [1, 1]);
/// assert_eq!(confirm(sizes, &keys, &mut multiplicities, &mut holds, 0), Ok(()));
/// assert_eq!((multiplicities, holds), ([8, 0], [0, 1]));
/// for position in [0, 1, 2, usize::MAX] {
///     assert_eq!(confirm(sizes, &keys, &mut multiplicities, &mut holds, position), Err(Refusal::NoHold));
/// }
/// ```
pub fn confirm(
    sizes: Sizes,
    keys: &[u64],
    multiplicities: &mut [u64],
    holds: &mut [u64],
    position: usize,
) -> Result<(), Refusal> {
    done(sys::confirm(sizes.numbers(), keys, multiplicities, holds, position))
}

/// One hold at the position is no more: the holds there lose one. The key keeps its place, also with multiplicity 0: it is then left out by [`plan`],
/// [`fill`] and [`write()`], and can be recorded and held again.
///
/// Refusals, in this order: shape; no hold, where the position is not used or has none.
///
/// ```
/// use u32_table::{drop_hold, opcodes::AND, plan, Plan, Refusal, Sizes};
/// let (sizes, keys, mut holds) = (Sizes { capacity: 1, used: 1 }, [AND, 3, 1], [1]);
/// assert_eq!(drop_hold(sizes, &keys, &[0], &mut holds, 0), Ok(()));
/// assert_eq!(drop_hold(sizes, &keys, &[0], &mut holds, 0), Err(Refusal::NoHold));
/// assert_eq!(plan(sizes, &keys, &[0], &holds), Ok(Plan { height: 0, padded_height: 256 }));
/// ```
pub fn drop_hold(sizes: Sizes, keys: &[u64], multiplicities: &[u64], holds: &mut [u64], position: usize) -> Result<(), Refusal> {
    done(sys::drop_hold(sizes.numbers(), keys, multiplicities, holds, position))
}

/// Replays a trace onto a list: its steps, three words each (opcode, first value, second value), are recorded in order. The answer is how many.
///
/// | step | is recorded as |
/// |---|---|
/// | lt, and, pow | the entry as it is |
/// | log_2_floor, pop_count | the entry with right operand 0 |
/// | split of v below [`P`](crate::P) | split(v mod 2^32, v div 2^32) |
/// | xor of a, b | and(a, b) |
/// | div_mod of n by d, both below 2^32 | lt(n mod d, d) and split(n, n div d), both or neither |
/// | merkle_step, merkle_step_mem of i below 2^32 | split(i, i div 2) |
///
/// The second value of log_2_floor, pop_count, split and the Merkle steps may be any word.
///
/// The first refused step ends the replay. It has changed nothing: the list is as the steps before it made it, and [`Stopped`] says how many these
/// are and why the next one is refused.
///
/// The other recorder's two arrays are taken as [`record`] takes them, also where the replay stops.
///
/// Refusals, in this order: shape (of the list, or the trace is not of whole steps), before all steps and with none done; then step by step stranger;
/// wide; zero divisor or bare log; then count full (count plus holds) or list full. For div_mod a refusal of lt comes before one of split.
///
/// ```
/// use u32_table::{opcodes::{AND, LT, SPLIT}, replay, steps::{DIV_MOD, XOR}, Refusal, Sizes, Stopped};
/// let (mut sizes, mut keys) = (Sizes { capacity: 4, used: 0 }, [0; 12]);
/// let (mut multiplicities, mut holds, mut others) = ([0; 4], [0; 4], [[9; 4]; 2]);
/// let [other_multiplicities, other_holds] = &mut others;
/// let trace = [XOR, 3, 1, DIV_MOD, 7, 2, AND, 3, 1, DIV_MOD, 7, 0, XOR, 3, 1];
/// let stopped = replay(&mut sizes, &mut keys, &mut multiplicities, &mut holds, other_multiplicities, other_holds, &trace);
/// assert_eq!(stopped, Err(Stopped { refusal: Refusal::ZeroDivisor, done: 3 }));
/// assert_eq!((sizes.used, keys), (3, [AND, 3, 1, LT, 1, 2, SPLIT, 7, 3, 0, 0, 0]));
/// assert_eq!((multiplicities, others), ([2, 1, 1, 0], [[0, 0, 0, 9]; 2]));
/// ```
pub fn replay(
    sizes: &mut Sizes,
    keys: &mut [u64],
    multiplicities: &mut [u64],
    holds: &mut [u64],
    other_multiplicities: &mut [u64],
    other_holds: &mut [u64],
    trace: &[u64],
) -> Result<usize, Stopped> {
    let mut answers = [0; 2];
    let other = [other_multiplicities, other_holds];
    let number = sys::replay(sizes.numbers(), keys, multiplicities, holds, other, trace, &mut answers);
    let steps = answers[0] as usize;
    sizes.used = answers[1] as usize;
    done(number).map(|()| steps).map_err(|refusal| Stopped { refusal, done: steps })
}

/// The rows that a list needs for the recorder whose multiplicities and holds are lent.
///
/// Keys with multiplicity 0 are left out: they need no rows, and of them nothing is asked but that no hold is open.
///
/// Refusals, in this order: shape; open hold; then, of keys with a multiplicity, entry by entry stranger, wide, bare log, count full.
///
/// It takes up to 70 KB of stack: see [the crate's page](crate#stack).
///
/// ```
/// use u32_table::{opcodes::{AND, LT}, plan, Plan, Refusal, Sizes};
/// let (sizes, keys) = (Sizes { capacity: 2, used: 2 }, [AND, 3, 1, LT, 9, 9]);
/// assert_eq!(plan(sizes, &keys, &[2, 1], &[0, 0]), Ok(Plan { height: 8, padded_height: 256 }));
/// assert_eq!(plan(sizes, &keys, &[2, 0], &[0, 0]), Ok(Plan { height: 3, padded_height: 256 }));
/// assert_eq!(plan(sizes, &keys, &[2, 0], &[0, 1]), Err(Refusal::OpenHold));
/// // no instruction, and no key that counts
/// assert_eq!(plan(sizes, &[AND, 3, 1, 5, 9, 9], &[2, 0], &[0, 0]), Ok(Plan { height: 3, padded_height: 256 }));
/// assert_eq!(plan(sizes, &[AND, 3, 1, 5, 9, 9], &[2, 1], &[0, 0]), Err(Refusal::Stranger));
/// ```
pub fn plan(sizes: Sizes, keys: &[u64], multiplicities: &[u64], holds: &[u64]) -> Result<Plan, Refusal> {
    let mut answers = [0; 2];
    done(sys::plan(sizes.numbers(), keys, multiplicities, holds, &mut answers))?;
    Ok(Plan { height: answers[0] as usize, padded_height: answers[1] as usize })
}

/// The first entry that [`plan`] declines, and why; [`fill`] and [`write()`] decline it for the same reason. The calls themselves answer the reason
/// alone. None, where no entry by itself is declined: for a list of the wrong shape, and for what only fill and write ask (short), or only write (repeat,
/// where it is two entries that are equal). Which entry of stored bytes [`read`] declines is not told.
///
/// ```
/// use u32_table::{opcodes::AND, plan, refused_entry, Refusal, Sizes};
/// let (sizes, keys) = (Sizes { capacity: 2, used: 2 }, [5, 0, 0, AND, 3, 1]);
/// assert_eq!(plan(sizes, &keys, &[1, 1], &[0, 0]), Err(Refusal::Stranger));
/// assert_eq!(refused_entry(sizes, &keys, &[1, 1], &[0, 0]), Some((0, Refusal::Stranger)));
/// // an open hold comes before the other reasons, wherever it is
/// assert_eq!(refused_entry(sizes, &keys, &[1, 1], &[0, 1]), Some((1, Refusal::OpenHold)));
/// // each of two equal entries is in order, and they are not written
/// let twice = [AND, 3, 1, AND, 3, 1];
/// assert_eq!(u32_table::write(sizes, &twice, &[1, 1], &[0, 0], &mut [0; 58]), Err(Refusal::Repeat));
/// assert_eq!(refused_entry(sizes, &twice, &[1, 1], &[0, 0]), None);
/// ```
pub fn refused_entry(sizes: Sizes, keys: &[u64], multiplicities: &[u64], holds: &[u64]) -> Option<(usize, Refusal)> {
    let reason = plan(sizes, keys, multiplicities, holds).err().filter(|reason| *reason != Refusal::Shape)?;
    // each entry by itself, as a list of one
    let one = Sizes { capacity: 1, used: 1 };
    let mut entries =
        keys.chunks_exact(KEY_WORDS).zip(multiplicities.chunks_exact(1).zip(holds.chunks_exact(1))).take(sizes.used);
    let place = entries.position(|(key, (multiplicity, hold))| plan(one, key, multiplicity, hold) == Err(reason))?;
    Some((place, reason))
}

/// Reads a stored list of N entries onto a list that has no key yet: they become its first N places, `sizes.used` becomes N, and the answer is N. At these
/// places neither recorder has a hold then, and the other recorder's multiplicities are 0. Later places keep their words. A list with keys is refused
/// as list full, and so is one with fewer than N places.
///
/// All entries are judged and take a place, those with multiplicity 0 too; [`write()`] would not write these again.
///
/// The length of `bytes` tells the form: [`stored_bytes`](crate::stored_bytes) of N, as [`write()`] writes it, or the old length 8 + 21 N, with
/// multiplicities of four bytes. A list that was read from the old form is written in the new one.
///
/// ```
/// use u32_table::{opcodes::AND, read, write, Refusal, Sizes};
/// let old = [&[1, 0, 0, 0, 3, 0, 0, 0, 14, 3, 0, 0, 0, 0, 0, 0, 0, 1, 0, 0, 0, 0, 0, 0, 0][..], &[2, 0, 0, 0]].concat();
/// let (mut sizes, mut keys) = (Sizes { capacity: 1, used: 0 }, [0; 3]);
/// let (mut multiplicities, mut holds, mut other_multiplicities, mut other_holds) = ([5], [5], [5], [5]);
/// let mut read_it = |bytes: &[u8]| {
///     read(bytes, &mut sizes, &mut keys, &mut multiplicities, &mut holds, &mut other_multiplicities, &mut other_holds)
/// };
/// assert_eq!((read_it(&old), read_it(&old)), (Ok(1), Err(Refusal::ListFull)));
/// assert_eq!((keys, multiplicities, holds), ([AND, 3, 1], [2], [0]));
/// assert_eq!((other_multiplicities, other_holds), ([0], [0]));
///
/// let mut new = [0; 33];
/// assert_eq!(write(sizes, &keys, &multiplicities, &holds, &mut new), Ok(33));
/// assert_eq!(new[..], [&old[..], &[0; 4]].concat());
/// ```
///
/// # Keep the length
///
/// Whoever stores lists must keep their length too. A list of the new length that is cut by exactly 4 N bytes has the old length and is accepted:
/// its multiplicities are then the first N halves, of four bytes, of those that were stored. No refusal tells: tally looks at the keys alone. For
/// example `and 3, 1` with multiplicity 2^32 + 2, 33 bytes, cut to 29 is read with multiplicity 2. Software that knows the old form alone
/// refuses lists of the new length with torn.
///
/// ```
/// # fn main() -> Result<(), u32_table::Refusal> {
/// # use u32_table::{opcodes::AND, write, List, Sizes};
/// let mut bytes = [0; 33];
/// assert_eq!(write(Sizes { capacity: 1, used: 1 }, &[AND, 3, 1], &[(1 << 32) + 2], &[0], &mut bytes), Ok(33));
/// assert_eq!(List::from_bytes(&bytes, 1)?.multiplicities(), [(1 << 32) + 2]);
/// assert_eq!(List::from_bytes(&bytes[..29], 1)?.multiplicities(), [2]);
/// # Ok(())
/// # }
/// ```
///
/// Each operand is taken as it stands: a left operand of pow that is [`P`](crate::P) or more is refused as wide, so a list has one stored form.
///
/// Refusals, in this order: shape; torn; list full; then entry by entry stranger, wide, bare log, count full; repeat; tally.
///
/// It takes up to 100 KB of stack: see [the crate's page](crate#stack).
pub fn read(
    bytes: &[u8],
    sizes: &mut Sizes,
    keys: &mut [u64],
    multiplicities: &mut [u64],
    holds: &mut [u64],
    other_multiplicities: &mut [u64],
    other_holds: &mut [u64],
) -> Result<usize, Refusal> {
    let mut answers = [0];
    let other = [other_multiplicities, other_holds];
    done(sys::read(bytes, sizes.numbers(), keys, multiplicities, holds, other, &mut answers))?;
    sizes.used = answers[0] as usize;
    Ok(sizes.used)
}

/// Writes what a recorder has counted as bytes from the start of `out`; the answer is how many, [`stored_bytes`](crate::stored_bytes) of the keys with a
/// multiplicity. Later bytes keep their values. The left operand of pow is written modulo [`P`](crate::P), so the list reads back reduced, and two words
/// of one base are equal keys. Keys with multiplicity 0 are left out, as [`plan`] leaves them out. Holds are not written, and a list with an open one is
/// refused.
///
/// Refusals, in this order: shape; open hold; then, of keys with a multiplicity, entry by entry stranger, wide, bare log, count full; repeat, among them;
/// short.
///
/// It takes up to 100 KB of stack: see [the crate's page](crate#stack).
///
/// ```
/// use u32_table::{opcodes::{AND, LT}, stored_bytes, write, Refusal, Sizes};
/// let (sizes, keys) = (Sizes { capacity: 3, used: 3 }, [AND, 3, 1, LT, 2, 3, AND, 3, 1]);
/// let mut out = [0; 58];
/// assert_eq!(write(sizes, &keys, &[0, 4, 7], &[0; 3], &mut out), Ok(stored_bytes(2)));
/// assert_eq!((out[0], out[8], out[25], out[42], out[50]), (2, LT as u8, AND as u8, 4, 7));
/// assert_eq!(write(sizes, &keys, &[1, 4, 7], &[0; 3], &mut out), Err(Refusal::Repeat));
/// ```
pub fn write(sizes: Sizes, keys: &[u64], multiplicities: &[u64], holds: &[u64], out: &mut [u8]) -> Result<usize, Refusal> {
    let mut answers = [0];
    done(sys::write(sizes.numbers(), keys, multiplicities, holds, out, &mut answers))?;
    Ok(answers[0] as usize)
}

/// Fills a table with the sections of what a recorder has counted, in list order; the answer is the height. Rows past it keep their words. Keys with
/// multiplicity 0 have no section, as [`plan`] leaves them out.
///
/// Refusals, in this order: shape; open hold; then, of keys with a multiplicity, entry by entry stranger, wide, bare log, count full; short.
///
/// It takes up to 80 KB of stack: see [the crate's page](crate#stack).
///
/// ```
/// use u32_table::{column, fill, opcodes::{AND, LT}, Sizes, COLUMNS};
/// let mut table = [0; 4 * COLUMNS];
/// assert_eq!(fill(Sizes { capacity: 2, used: 2 }, &[AND, 3, 1, LT, 2, 3], &[0, 1], &[0, 0], &mut table), Ok(3));
/// assert_eq!((table[column::CI], table[column::RESULT]), (LT, 1));
/// ```
pub fn fill(sizes: Sizes, keys: &[u64], multiplicities: &[u64], holds: &[u64], table: &mut [u64]) -> Result<usize, Refusal> {
    let mut answers = [0];
    done(sys::fill(sizes.numbers(), keys, multiplicities, holds, table, &mut answers))?;
    Ok(answers[0] as usize)
}

/// Pads a table: every row from row `filled` on becomes the padding row that belongs to the last filled row.
///
/// Refusals, in this order: shape; short (`filled` is above the number of rows); unreduced (in the last filled row).
///
/// ```
/// use u32_table::{column, fill, opcodes::{LT, SPLIT}, pad, Refusal, Sizes, COLUMNS};
/// let mut table = [7; 5 * COLUMNS];
/// let filled = fill(Sizes { capacity: 1, used: 1 }, &[LT, 2, 3], &[1], &[0], &mut table)?;
/// pad(&mut table, filled)?;
/// // rows 3 and 4: CI of the last filled row, and Result 2, since that is lt
/// let padding = [0, 0, 15651782846776010939, LT, 0, 0, 0, 0, 2, 0];
/// assert_eq!((filled, &table[30..40], &table[40..]), (3, &padding[..], &padding[..]));
///
/// // with no row filled CI is split
/// pad(&mut table, 0)?;
/// assert_eq!((table[column::CI], table[column::RESULT]), (SPLIT, 0));
/// assert_eq!(pad(&mut table, 6), Err(Refusal::Short));
/// # Ok::<(), Refusal>(())
/// ```
pub fn pad(table: &mut [u64], filled: usize) -> Result<(), Refusal> {
    done(sys::pad(table, filled))
}

/// Extends a table: each row's three words of `aux` become the sum so far, over the rows with CopyFlag 1, of multiplicity divided by
/// denominator. The answer is the last sum, zero for no rows. What `aux` held before does not matter.
///
/// The denominator is U32Indeterminate minus the compressed row, the weighted sum of LHS, RHS, CI and Result.
///
/// Refusals, in this order: shape; unreduced (table or challenges); flat, where U32Indeterminate equals the compressed row of some row with
/// CopyFlag 1, whatever its multiplicity. Nothing else is flat: every element but (0, 0, 0) has an inverse.
///
/// ```
/// use u32_table::{Refusal, extend};
///
/// let and_0_0 = [1, 0, 15651782846776010939, 14, 0, 0, 0, 0, 0, 0];
/// let mut aux = [0; 3];
/// assert_eq!(extend(&and_0_0, &mut aux, &[0; 15]), Err(Refusal::Flat));
/// let mut challenges = [0; 15];
/// challenges[1] = 1;
/// assert_eq!(extend(&and_0_0, &mut aux, &challenges), Ok([0, 0, 0]));
/// ```
pub fn extend(table: &[u64], aux: &mut [u64], challenges: &[u64]) -> Result<[u64; 3], Refusal> {
    let mut answers = [0; 3];
    done(sys::extend(table, aux, challenges, &mut answers))?;
    Ok(answers)
}

/// Checks a table: initial constraints on row 0, consistency row by row, transition pair by pair, terminal on the last row, to the first that is
/// not zero. A table that fails is no refusal: the answer is [`Verdict::Nonzero`].
///
/// Refusals, in this order: shape; short (no rows); unreduced (table, challenges or aux).
///
/// ```
/// # fn main() -> Result<(), u32_table::Refusal> {
/// use u32_table::{check, column, extend, fill, opcodes::LT, pad, Group, Sizes, Verdict, AUX_COLUMNS, COLUMNS};
/// let challenges: Vec<u64> = (1..=15).collect();
/// let (mut table, mut aux) = ([0; 4 * COLUMNS], [0; 4 * AUX_COLUMNS]);
/// let height = fill(Sizes { capacity: 1, used: 1 }, &[LT, 2, 3], &[1], &[0], &mut table)?;
/// pad(&mut table, height)?;
/// extend(&table, &mut aux, &challenges)?;
/// assert_eq!(check(&table, &aux, &challenges)?, Verdict::Zero);
///
/// // 2 is not said to be less than 3
/// table[column::RESULT] = 0;
/// extend(&table, &mut aux, &challenges)?;
/// assert!(matches!(check(&table, &aux, &challenges)?, Verdict::Nonzero { group: Group::Transition, row: 0, .. }));
/// # Ok(())
/// # }
/// ```
pub fn check(table: &[u64], aux: &[u64], challenges: &[u64]) -> Result<Verdict, Refusal> {
    let mut answers = [0; 7];
    done(sys::check(table, aux, challenges, &mut answers))?;
    let [found, group, row, index, a, b, c] = answers;
    Ok(match found {
        0 => Verdict::Zero,
        _ => Verdict::Nonzero {
            group: match group {
                0 => Group::Initial,
                1 => Group::Consistency,
                2 => Group::Transition,
                _ => Group::Terminal,
            },
            row: row as usize,
            index: index as usize,
            value: [a, b, c],
        },
    })
}

/// The client's sum, the processor's end of the lookup: from (0, 0, 0), each request adds the inverse of its denominator. Requests are entries, three
/// words each (opcode, left operand, right operand), as many as there are; the left operand of pow is taken modulo [`P`](crate::P). The answer is the
/// sum, zero for no requests.
///
/// The denominator is that of [`extend`], of the row with the request's operands, its opcode as CI and, as Result, what the instruction computes; 0 for
/// split.
///
/// Where a recorder records all requests onto a list with no entries, at once or by [`hold`] and [`confirm`], none is refused, no hold of its own is open
/// at the end and no denominator of a request is (0, 0, 0), this is the last sum that [`fill`], [`pad`] and [`extend`] then make for it under the same
/// challenges, with rows enough; and none of them refuses. Keys that count nothing for it do not matter: those of dropped holds, and the other recorder's.
///
/// Refusals, in this order: shape (requests are not three words each, challenges not fifteen); unreduced (challenges); then request by request
/// stranger, wide, bare log, flat.
///
/// ```
/// # fn main() -> Result<(), u32_table::Refusal> {
/// use u32_table::{client_sum, opcodes::{AND, LT}, Entry, List, Refusal, Table};
/// let requests = [AND, 3, 1, LT, 2, 3, AND, 3, 1];
/// let challenges: Vec<u64> = (1..=15).collect();
///
/// let mut list = List::new(4)?;
/// for request in requests.chunks(3) {
///     list.record(Entry::new(request[0], request[1], request[2]))?;
/// }
/// let mut table = Table::new();
/// table.fill(&list)?;
/// table.pad()?;
/// assert_eq!(table.extend(&challenges)?, client_sum(&requests, &challenges)?);
///
/// // weights 1 and Indeterminate the sum of LHS, RHS, CI and Result: the first request's denominator is zero
/// let mut flat = [0; 15];
/// flat[0] = 3 + 1 + AND + 1;
/// for weight in 1..5 {
///     flat[3 * weight] = 1;
/// }
/// assert_eq!(client_sum(&requests, &flat), Err(Refusal::Flat));
/// # Ok(())
/// # }
/// ```
pub fn client_sum(requests: &[u64], challenges: &[u64]) -> Result<[u64; 3], Refusal> {
    let mut answers = [0; 3];
    done(sys::client_sum(requests, challenges, &mut answers))?;
    Ok(answers)
}
