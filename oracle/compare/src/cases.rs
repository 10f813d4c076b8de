//! What is compared: a case is one input, given to the port and to the original; every word of what the two leave must agree. Where the
//! port refuses, the number must be document 01's, nothing may be changed, and the original must do what docs/DIFFERENCES.md says of
//! such an input.
use std::collections::{BTreeMap, HashSet};

use oracle::*;
use twenty_first::prelude::*;

use crate::port::{self, List};

pub const MOST_PLACES: usize = 2048;
/// Operands, but the base of pow.
const MOST: u64 = (1 << 32) - 1;
/// Multiplicities.
const MOST_COUNT: u64 = P - 1;

/// Document 01's numbers.
const SHAPE: u64 = 1;
const STRANGER: u64 = 2;
const WIDE: u64 = 3;
const BARE_LOG: u64 = 4;
const COUNT_FULL: u64 = 5;
const LIST_FULL: u64 = 6;
const SHORT: u64 = 7;
const UNREDUCED: u64 = 8;
const FLAT: u64 = 9;
const TORN: u64 = 10;
const REPEAT: u64 = 11;
const TALLY: u64 = 12;
/// Request 1's.
const ZERO_DIVISOR: u64 = 13;
/// Request 3's.
const CASCADE_FULL: u64 = 14;
/// Request 6's.
const OPEN_HOLD: u64 = 15;
const NO_HOLD: u64 = 16;

/// Rows of the table in docs/DIFFERENCES.md, by their first cell. A refusal, or a panic of the original, that is none of them is a
/// difference.
mod listed {
    pub const LOG_OF_ZERO: &str = "log_2_floor of 0";
    pub const WIDE: &str = "an operand past its range";
    pub const OPCODE: &str = "an opcode outside the six";
    pub const ORDER: &str = "equality and order of entries";
    pub const MULTIPLICITY: &str = "multiplicities";
    pub const SIZE: &str = "the size of a list";
    pub const WORDS: &str = "words of p or more";
    pub const BELOW: &str = "a table below the height";
    pub const FILLED: &str = "a filled count above the rows";
    pub const FLAT: &str = "a denominator of (0, 0, 0)";
    pub const PLACES: &str = "the places of the cascade";

    const PAGE: &str = include_str!("../../../docs/DIFFERENCES.md");

    pub fn is_listed(name: &str) -> bool {
        PAGE.lines().any(|line| line.starts_with(&format!("| {name} |")))
    }
}

/// How much was compared.
#[derive(Default, Clone)]
pub struct Counts {
    pub lists: u64,
    pub entries: u64,
    pub list_rows: u64,
    pub tables: u64,
    pub table_rows: u64,
    pub words: u64,
    pub values: u64,
    pub nonzero: u64,
    pub verdicts: [u64; 2],
    /// Changed, foreign and random tables that pass; those of them with exactly as many rows as the heights of their CopyFlag 1 rows.
    pub passing: [u64; 2],
    /// Multiplicities past 32 bits: entries of admitted lists, and recordings of keys that have one.
    pub large: [u64; 2],
    /// Bases of pow of p or more: entries of admitted lists, keys on lists that are recorded onto, and recordings.
    pub raw: [u64; 3],
    pub heights: u64,
    pub recordings: u64,
    pub orders: u64,
    /// Entries held, holds confirmed, holds dropped; refused with 16; with 5 where the count alone would do; lists filled after such calls, and of those the
    /// ones in which a key is left out.
    pub holds: [u64; 7],
    /// Keys found at a place where only the other recorder had a count or a hold; refused with 6 where the recorder's own keys had room; lists planned while
    /// the other one has an open hold; lists whose keys stand in another order than the original recorded them; runs compared with the recorder's own calls alone.
    pub shared: [u64; 5],
    /// Places of lists that are left out, their multiplicity being 0, and of them those whose key is not admitted; readings of a stored list with such
    /// keys; readings onto a list with keys.
    pub left_out: [u64; 4],
    /// Replays, and the steps of theirs that were done.
    pub replays: [u64; 2],
    /// div_mod steps that stop at 6 where lt alone had a place, at 5 of lt where split had no place, and at 13.
    pub stops: [u64; 3],
    /// Client's sums, their requests, the rows of the tables made of these; sums that `compute_terminal` made too; a first zero denominator, and one
    /// before a request that is not admitted.
    pub clients: [u64; 6],
    pub round_trips: u64,
    /// Values looked up, those of them that were known, and with equal bytes when new; sums of the two lookup tables.
    pub lookups: [u64; 4],
    pub elements: u64,
    /// By document 01's number.
    pub refusals: BTreeMap<u64, u64>,
    pub panics: u64,
    pub listed: BTreeMap<&'static str, u64>,
}

#[derive(Debug, Clone)]
pub enum Case {
    /// The list with `spare` unused places, into `extra` rows more than its height.
    List {
        list: Vec<Entry>,
        spare: usize,
        extra: usize,
        challenges: Challenges,
    },
    /// A table that need not be filled by anyone.
    Table {
        rows: Vec<Row>,
        aux: Vec<Ext>,
        challenges: Challenges,
        filled: usize,
    },
    /// Recordings, one after the other, onto a list without repeats.
    Record {
        list: Vec<Entry>,
        capacity: usize,
        keys: Vec<Key>,
    },
    /// Calls of two recorders on one list of keys without repeats; each call has the number of its recorder, 0 or 1.
    Shared {
        places: Vec<Place>,
        capacity: usize,
        calls: Vec<(usize, Call)>,
        challenges: Challenges,
    },
    /// A trace replayed onto a list without repeats.
    Replay {
        list: Vec<Entry>,
        capacity: usize,
        trace: Vec<Key>,
    },
    /// Requests of the client, and their sum.
    Client {
        requests: Vec<Key>,
        challenges: Challenges,
    },
    /// The limbs of these elements looked up in fresh tables, one after the other, with so many places; then both sums.
    LookUp {
        elements: Vec<[u64; LOOKED_UP]>,
        capacity: usize,
        challenges: [u64; 9],
    },
    Order {
        left: Key,
        right: Key,
    },
    /// Products of neighbours, inverses of each word, and of each three; sums, differences and products of neighbouring threes.
    Elements {
        words: Vec<u64>,
    },
    /// Arrays of a wrong shape.
    Shapes,
}

/// A used place of a list that two recorders share: the key as it stands there, and the count and the open holds of each.
#[derive(Debug, Clone, Copy, Eq, PartialEq)]
pub struct Place {
    pub key: Key,
    pub counts: [u64; 2],
    pub holds: [u64; 2],
}

/// A recording, one of the parts of one, or a replay. A confirm or a drop has the number of an earlier call of the same recorder, and takes the position
/// that this call answered; where it answered none, or there is no such call, the number itself.
#[derive(Debug, Clone, Eq, PartialEq)]
pub enum Call {
    Record(Key),
    Hold(Key),
    Replay(Vec<Key>),
    Confirm(usize),
    Drop(usize),
}

/// A call of the port on a list, as its recorder sees it: the number and the stated answers, which a replay has on a refusal too.
type Made = (u64, Vec<u64>);

fn make(list: &mut List, call: &Call, answered: &[Option<usize>]) -> Made {
    let stated = |answer: port::Answer<2>| answer.map_or_else(|number| (number, vec![]), |words| (0, words.to_vec()));
    let done = |answer: port::Answer<0>| (answer.err().unwrap_or(0), vec![]);
    let made = match call {
        Call::Record(key) => stated(port::record(list, *key)),
        Call::Hold(key) => stated(port::hold(list, *key)),
        Call::Replay(trace) => {
            let (number, words) = port::replay(list, trace.as_flattened());
            (number, words.to_vec())
        }
        Call::Confirm(call) => done(port::confirm(list, position(*call, answered))),
        Call::Drop(call) => done(port::drop(list, position(*call, answered))),
    };
    if let [_, used] = made.1[..] {
        list.used = used as usize;
    }
    made
}

/// The position that a recorder's earlier call answered, or the number itself.
fn position(call: usize, answered: &[Option<usize>]) -> usize {
    answered.get(call).copied().flatten().unwrap_or(call)
}

/// The position that a call answered.
fn answered_position(call: &Call, (number, words): &Made) -> Option<usize> {
    let is_recording = matches!(call, Call::Record(_) | Call::Hold(_));
    (is_recording && *number == 0).then(|| words[0] as usize)
}

/// What two recorders have made of a list: the original's list of each, in which each records its own accepted entries; and, since the original has
/// neither, the shared places in their order, with the key as it stands there and the open holds of each.
#[derive(Clone)]
struct Shared {
    capacity: usize,
    places: Vec<(Key, [u64; 2])>,
    lists: [Vec<Entry>; 2],
}

impl Shared {
    fn new(places: &[Place], capacity: usize) -> Self {
        let list = |who: usize| {
            let entries: Vec<Entry> =
                places.iter().map(|place| Entry { key: place.key, multiplicity: place.counts[who] }).collect();
            counted(&entries)
        };
        Self { capacity, places: places.iter().map(|place| (place.key, place.holds)).collect(), lists: [list(0), list(1)] }
    }

    /// The multiplicity that the recorder's list of the original has, 0 where it has no such key.
    fn count(&self, who: usize, key: Key) -> u64 {
        let is_equal = |entry: &&Entry| admitted(entry.key) == admitted(key);
        self.lists[who].iter().find(is_equal).map_or(0, |entry| entry.multiplicity)
    }

    fn find(&self, key: Key) -> Option<usize> {
        self.places.iter().position(|(held, _)| admitted(*held) == admitted(key))
    }

    /// An entry recorded, or held: its position, or the first of the reasons 2 to 6.
    fn put(&mut self, who: usize, raw: Key, is_hold: bool) -> Result<usize, u64> {
        key_reason(raw).map_or(Ok(()), Err)?;
        let at = match self.find(raw) {
            Some(at) => {
                let (count, holds) = (self.count(who, raw), self.places[at].1[who]);
                if u128::from(count) + u128::from(holds) >= u128::from(MOST_COUNT) {
                    return Err(COUNT_FULL);
                }
                at
            }
            None if self.places.len() == self.capacity => return Err(LIST_FULL),
            None => {
                self.places.push((admitted(raw), [0; 2]));
                self.places.len() - 1
            }
        };
        if is_hold {
            self.places[at].1[who] += 1;
        } else {
            self.lists[who] = record(&self.lists[who], &[raw]);
        }
        Ok(at)
    }

    /// A hold confirmed, or dropped: done, or 16 or 5.
    fn settle(&mut self, who: usize, position: usize, is_confirm: bool) -> Result<(), u64> {
        let (key, holds) = *self.places.get(position).filter(|(_, holds)| holds[who] > 0).ok_or(NO_HOLD)?;
        if is_confirm {
            if self.count(who, key) >= MOST_COUNT {
                return Err(COUNT_FULL);
            }
            self.lists[who] = record(&self.lists[who], &[key]);
        }
        self.places[position].1[who] = holds[who] - 1;
        Ok(())
    }

    /// The steps up to the first refused one: the number, and how many are done.
    fn replay(&mut self, who: usize, trace: &[Key]) -> (u64, u64) {
        for (done, &step) in trace.iter().enumerate() {
            let before = self.clone();
            let made =
                step_entries(step).and_then(|keys| keys.into_iter().try_for_each(|key| self.put(who, key, false).map(|_| ())));
            if let Err(number) = made {
                *self = before;
                return (number, done as u64);
            }
        }
        (0, trace.len() as u64)
    }

    /// What a call is to answer.
    fn make(&mut self, who: usize, call: &Call, answered: &[Option<usize>]) -> Made {
        let made = match call {
            Call::Record(key) | Call::Hold(key) => {
                let put = self.put(who, *key, matches!(call, Call::Hold(_)));
                put.map(|at| vec![at as u64, self.places.len() as u64])
            }
            Call::Replay(trace) => {
                let (number, done) = self.replay(who, trace);
                return (number, vec![done, self.places.len() as u64]);
            }
            Call::Confirm(call) => self.settle(who, position(*call, answered), true).map(|()| vec![]),
            Call::Drop(call) => self.settle(who, position(*call, answered), false).map(|()| vec![]),
        };
        made.map_or_else(|number| (number, vec![]), |words| (0, words))
    }

    /// All places with the counts of a recorder.
    fn entries(&self, who: usize) -> Vec<Entry> {
        self.places.iter().map(|&(key, _)| Entry { key, multiplicity: self.count(who, key) }).collect()
    }

    /// The arrays as the first recorder sees them; unused places are as in `old`.
    fn arrays(&self, old: &List) -> List {
        let mut list = List { used: self.places.len(), ..old.clone() };
        for (i, &(key, holds)) in self.places.iter().enumerate() {
            list.keys[3 * i..3 * i + 3].copy_from_slice(&key);
            (list.multiplicities[i], list.other_multiplicities[i]) = (self.count(0, key), self.count(1, key));
            [list.holds[i], list.other_holds[i]] = holds;
        }
        list
    }
}

/// The list as a recorder sees it, from how the first one does; and back.
fn seen_by(who: usize, list: List) -> List {
    if who == 0 { list } else { list.exchanged() }
}

/// The port's fill, pad, extend and check of a list into one row more than its height: the height, the last sum and the check's answer, as far as none refuses.
fn whole_run(list: &List, challenges: &Challenges) -> Result<(u64, [u64; 3], bool), u64> {
    let [height, _] = port::plan(list)?;
    let rows = height as usize + 1;
    let (mut table, mut aux) = (vec![7; 10 * rows], vec![7; 3 * rows]);
    let [filled] = port::fill(list, &mut table)?;
    port::pad(&mut table, filled as usize)?;
    let sum = port::extend(&table, &mut aux, challenges)?;
    let verdict = port::check(&table, &aux, challenges)?;
    Ok((filled, sum, verdict[0] == 0))
}

pub type Same = Result<(), String>;

pub struct Comparison {
    pub constraints: Constraints,
    pub counts: Counts,
}

/// What stands in a place before a call.
fn old_words(n: usize) -> Vec<u64> {
    (0..n as u64).map(|i| (i + 1).wrapping_mul(0x9e37_79b9_7f4a_7c15) | 1).collect()
}

/// Whether some CopyFlag 1 row's denominator is (0, 0, 0).
fn has_zero_denominator(rows: &[Row], challenges: &Challenges) -> bool {
    let [indeterminate, lhs, rhs, ci, result] =
        [0, 3, 6, 9, 12].map(|i| XFieldElement::new([i, i + 1, i + 2].map(|word| BFieldElement::new(challenges[word]))));
    let is_zero = |row: &Row| {
        let weighted = |weight, column: usize| weight * BFieldElement::new(row[column]);
        indeterminate == weighted(lhs, 4) + weighted(rhs, 6) + weighted(ci, 3) + weighted(result, 8)
    };
    rows.iter().any(|row| row[0] == 1 && is_zero(row))
}

fn flat<const N: usize>(rows: &[[u64; N]]) -> Vec<u64> {
    rows.as_flattened().to_vec()
}

fn reduced<const N: usize>(rows: &[[u64; N]]) -> Vec<[u64; N]> {
    rows.iter().map(|row| row.map(|word| word % P)).collect()
}

fn is_reduced(words: &[u64]) -> bool {
    words.iter().all(|&word| word < P)
}

/// The key that admission hands back: LHS of pow modulo p.
pub fn admitted([opcode, lhs, rhs]: Key) -> Key {
    [opcode, if opcode == 30 { lhs % P } else { lhs }, rhs]
}

fn admitted_list(list: &[Entry]) -> Vec<Entry> {
    list.iter().map(|entry| Entry { key: admitted(entry.key), ..*entry }).collect()
}

fn is_raw(entry: &Entry) -> bool {
    admitted(entry.key) != entry.key
}

/// The first of the reasons 2 to 4 for a key as it stands: that of stored bytes.
fn stored_key_reason([opcode, lhs, rhs]: Key) -> Option<u64> {
    let most_lhs = if opcode == 30 { P - 1 } else { MOST };
    match () {
        _ if !OPCODES.contains(&opcode) => Some(STRANGER),
        _ if lhs > most_lhs || rhs > MOST => Some(WIDE),
        _ if opcode == 12 && lhs == 0 => Some(BARE_LOG),
        _ => None,
    }
}

/// The same wherever else a key is given: the admitted one is judged.
fn key_reason(key: Key) -> Option<u64> {
    stored_key_reason(admitted(key))
}

pub fn is_admitted(key: Key) -> bool {
    key_reason(key).is_none()
}

/// The first of the reasons 2 to 5 for an entry, and for one in stored bytes.
fn entry_reason(entry: &Entry) -> Option<u64> {
    key_reason(entry.key).or(count_reason(entry))
}

fn stored_entry_reason(entry: &Entry) -> Option<u64> {
    stored_key_reason(entry.key).or(count_reason(entry))
}

fn count_reason(entry: &Entry) -> Option<u64> {
    (entry.multiplicity > MOST_COUNT).then_some(COUNT_FULL)
}

/// Request 1: the entries that a step records, or why it has none.
pub fn step_entries([opcode, first, second]: Key) -> Result<Vec<Key>, u64> {
    let below = |fine: bool, key: Key| if fine { Ok(vec![key]) } else { Err(WIDE) };
    match opcode {
        4 => below(first < P, [4, first & MOST, first >> 32]),
        6 | 14 | 30 => Ok(vec![[opcode, first, second]]),
        12 | 28 => Ok(vec![[opcode, first, 0]]),
        22 => Ok(vec![[14, first, second]]),
        20 if first > MOST || second > MOST => Err(WIDE),
        20 if second == 0 => Err(ZERO_DIVISOR),
        20 => Ok(vec![[6, first % second, second], [4, first, first / second]]),
        36 | 44 => below(first <= MOST, [4, first, first / 2]),
        _ => Err(STRANGER),
    }
}

/// The list after the original recorded a key, or the first of the reasons 2 to 6 against that.
fn recorded(entries: &[Entry], capacity: usize, key: Key) -> Result<Vec<Entry>, u64> {
    key_reason(key).map_or(Ok(()), Err)?;
    let after = record(entries, &[key]);
    let changed = (0..after.len()).find(|&i| entries.get(i) != after.get(i));
    match changed.and_then(|i| entries.get(i)) {
        Some(known) if known.multiplicity >= MOST_COUNT => Err(COUNT_FULL),
        None if after.len() > capacity => Err(LIST_FULL),
        _ => Ok(after),
    }
}

fn has_repeats(list: &[Entry]) -> bool {
    let mut seen = HashSet::new();
    !list.iter().all(|entry| seen.insert(admitted(entry.key)))
}

/// Document 01's stored form, with multiplicities of 8 bytes, or of 4, the lower ones, as they were.
fn stored(list: &[Entry], height: usize, width: usize) -> Vec<u8> {
    let mut bytes = vec![];
    bytes.extend((list.len() as u32).to_le_bytes());
    bytes.extend((height as u32).to_le_bytes());
    for Entry { key: [opcode, lhs, rhs], .. } in list {
        bytes.push(*opcode as u8);
        bytes.extend(lhs.to_le_bytes());
        bytes.extend(rhs.to_le_bytes());
    }
    list.iter().for_each(|entry| bytes.extend(&entry.multiplicity.to_le_bytes()[..width]));
    bytes
}

/// The list in the port's arrays, with no hold at its places; unused places, and all places of the other recorder's arrays, have other words.
fn arrays(list: &[Entry], capacity: usize) -> List {
    let (mut keys, mut multiplicities, mut holds) = (old_words(3 * capacity), old_words(capacity), old_words(capacity));
    for (i, entry) in list.iter().enumerate() {
        keys[3 * i..3 * i + 3].copy_from_slice(&entry.key);
        (multiplicities[i], holds[i]) = (entry.multiplicity, 0);
    }
    let [other_multiplicities, other_holds] = [1, 2].map(|from| old_words(capacity + from)[from..].to_vec());
    List { capacity, used: list.len(), keys, multiplicities, holds, other_multiplicities, other_holds }
}

fn agree(what: &str, ours: impl std::fmt::Debug, theirs: impl std::fmt::Debug, agrees: bool) -> Same {
    if agrees { Ok(()) } else { Err(format!("{what}: the port has {ours:?}, the original {theirs:?}")) }
}

/// A call of the original that must not panic.
fn theirs<T>(what: &str, call: impl FnOnce() -> T) -> Result<T, String> {
    caught(call).map_err(|message| format!("{what}: the original panics: {message}"))
}

impl Comparison {
    pub fn new() -> Self {
        Self { constraints: Constraints::new(), counts: Counts::default() }
    }

    /// The first difference on this case, if there is one.
    pub fn differs(&mut self, case: &Case) -> Option<String> {
        let same = caught(|| match case {
            Case::List { list, spare, extra, challenges } => self.list(list, *spare, *extra, challenges),
            Case::Table { rows, aux, challenges, filled } => self.table(rows, aux, challenges, *filled),
            Case::Record { list, capacity, keys } => self.record(list, *capacity, keys),
            Case::Shared { places, capacity, calls, challenges } => self.shared(places, *capacity, calls, challenges),
            Case::Replay { list, capacity, trace } => self.replay(list, *capacity, trace),
            Case::Client { requests, challenges } => self.client(requests, challenges),
            Case::LookUp { elements, capacity, challenges } => self.look_up(elements, *capacity, challenges),
            Case::Order { left, right } => self.order(*left, *right),
            Case::Elements { words } => self.elements(words),
            Case::Shapes => self.shapes(),
        });
        same.unwrap_or_else(Err).err()
    }

    /// The original does what the page says of such an input.
    fn note(&mut self, listed: &'static str) {
        let count = self.counts.listed.entry(listed).or_insert_with(|| {
            assert!(listed::is_listed(listed), "docs/DIFFERENCES.md has no row '{listed}'");
            0
        });
        *count += 1;
    }

    fn same(&mut self, what: &str, ours: &[u64], theirs: &[u64]) -> Same {
        self.counts.words += theirs.len() as u64;
        if ours == theirs {
            return Ok(());
        }
        if ours.len() != theirs.len() {
            return Err(format!("{what}: the port has {} words, the original {}", ours.len(), theirs.len()));
        }
        let i = (0..ours.len()).find(|&i| ours[i] != theirs[i]).unwrap();
        Err(format!("{what}: word {i} of {}: the port has {}, the original {}", ours.len(), ours[i], theirs[i]))
    }

    /// Words that must be as they were.
    fn untouched(&mut self, what: &str, after: &[u64], before: &[u64]) -> Same {
        self.counts.words += before.len() as u64;
        match (0..before.len()).find(|&i| after[i] != before[i]) {
            None => Ok(()),
            Some(i) => Err(format!("{what}: word {i} is to be {} and is {}", before[i], after[i])),
        }
    }

    /// The other recorder's arrays of a list that was made by `arrays`: 0 at the places from `from` to `to`, which have come into use, and otherwise as they were.
    fn others(&mut self, what: &str, list: &List, from: usize, to: usize) -> Same {
        let mut old = arrays(&[], list.capacity);
        old.other_multiplicities[from..to].fill(0);
        old.other_holds[from..to].fill(0);
        self.untouched(&format!("{what}: other multiplicities"), &list.other_multiplicities, &old.other_multiplicities)?;
        self.untouched(&format!("{what}: other holds"), &list.other_holds, &old.other_holds)
    }

    /// The port must refuse with this number.
    fn refused<const N: usize>(&mut self, what: &str, answer: port::Answer<N>, number: u64) -> Same {
        *self.counts.refusals.entry(number).or_default() += 1;
        match answer {
            Err(found) if found == number => Ok(()),
            _ => Err(format!("{what}: the port has {answer:?}, document 01 refusal {number}")),
        }
    }

    /// The original must panic.
    fn panics<T>(&mut self, what: &str, call: impl FnOnce() -> T) -> Same {
        self.counts.panics += 1;
        match caught(call) {
            Err(_) => Ok(()),
            Ok(_) => Err(format!("{what}: the original is to panic and does not")),
        }
    }

    /// Arrays of a wrong shape: refused with 1, with nothing changed. The original's arrays carry
    /// their shape; what it can be given of these, an aux table of another height, it asserts.
    fn shapes(&mut self) -> Same {
        let old = arrays(&[entry(14, 3, 1, 2)], 2);
        let wrong: [&dyn Fn(&mut List); 9] = [
            &|list| list.keys.truncate(5),
            &|list| list.keys.push(1),
            &|list| list.multiplicities.truncate(1),
            &|list| list.multiplicities.push(1),
            &|list| list.holds.truncate(1),
            &|list| list.holds.push(0),
            &|list| list.used = 3,
            &|list| list.capacity = 1,
            &|list| *list = arrays(&[], MOST_PLACES + 1),
        ];
        for change in wrong {
            let mut list = old.clone();
            change(&mut list);
            let before = list.clone();
            let answer = port::record(&mut list, [14, 3, 1]);
            self.refused("record with a wrong shape", answer, SHAPE)?;
            let answer = port::hold(&mut list, [14, 3, 1]);
            self.refused("hold with a wrong shape", answer, SHAPE)?;
            let answer = port::confirm(&mut list, 0);
            self.refused("confirm with a wrong shape", answer, SHAPE)?;
            let answer = port::drop(&mut list, 0);
            self.refused("drop with a wrong shape", answer, SHAPE)?;
            self.replay_refused(&mut list)?;
            let answer = port::plan(&list);
            self.refused("plan with a wrong shape", answer, SHAPE)?;
            let mut table = old_words(100);
            let answer = port::fill(&list, &mut table);
            self.refused("fill with a wrong shape", answer, SHAPE)?;
            self.untouched("fill, refused: table", &table, &old_words(100))?;
            let mut bytes = vec![7; 100];
            let answer = port::write(&list, &mut bytes);
            self.refused("write with a wrong shape", answer, SHAPE)?;
            agree("write, refused: bytes", &bytes, 7, bytes.iter().all(|&byte| byte == 7))?;
            let answer = port::read(&stored(&[entry(14, 3, 1, 2)], 3, 8), &mut list);
            self.refused("read with a wrong shape", answer, SHAPE)?;
            agree("the list after refusals", &list, &before, list == before)?;
        }
        // the other recorder's arrays, of the four calls that are lent them
        let wrong: [&dyn Fn(&mut List); 4] = [
            &|list| list.other_multiplicities.truncate(1),
            &|list| list.other_multiplicities.push(0),
            &|list| list.other_holds.truncate(1),
            &|list| list.other_holds.push(0),
        ];
        for change in wrong {
            for used in [0, 1] {
                let mut list = arrays(&[entry(14, 3, 1, 2)][..used], 2);
                change(&mut list);
                let before = list.clone();
                for key in [[14, 3, 1], [14, 1, 3], [5, 0, 0]] {
                    let answer = port::record(&mut list, key);
                    self.refused("record with other arrays of a wrong shape", answer, SHAPE)?;
                    let answer = port::hold(&mut list, key);
                    self.refused("hold with other arrays of a wrong shape", answer, SHAPE)?;
                }
                self.replay_refused(&mut list)?;
                for bytes in [stored(&[entry(14, 3, 1, 2)], 3, 8), vec![0; 7]] {
                    let answer = port::read(&bytes, &mut list);
                    self.refused("read with other arrays of a wrong shape", answer, SHAPE)?;
                }
                agree("the list after refusals", &list, &before, list == before)?;
            }
        }
        for words in [1, 9, 11, 29] {
            let mut table = old_words(words);
            let answer = port::fill(&old, &mut table);
            self.refused("fill of no whole rows", answer, SHAPE)?;
            let answer = port::pad(&mut table, 0);
            self.refused("pad of no whole rows", answer, SHAPE)?;
            self.untouched("no whole rows", &table, &old_words(words))?;
        }
        for (request_words, challenge_words) in [(1, 15), (2, 15), (4, 15), (0, 14), (3, 16), (3, 0), (5, 14)] {
            let answer = port::client_sum(&old_words(request_words), &vec![u64::MAX; challenge_words]);
            self.refused("client_sum with a wrong shape", answer, SHAPE)?;
        }
        let table = vec![0; 20];
        for (aux_words, challenge_words) in [(5, 15), (7, 15), (9, 15), (0, 15), (6, 14), (6, 16), (6, 0)] {
            let (mut aux, challenges) = (old_words(aux_words), vec![1; challenge_words]);
            let answer = port::extend(&table, &mut aux, &challenges);
            self.refused("extend with a wrong shape", answer, SHAPE)?;
            self.untouched("extend, refused: aux", &aux, &old_words(aux_words))?;
            let answer = port::check(&table, &aux, &challenges);
            self.refused("check with a wrong shape", answer, SHAPE)?;
        }
        Ok(())
    }

    /// A replay onto a list of a wrong shape: 1, with no step done.
    fn replay_refused(&mut self, list: &mut List) -> Same {
        let answer = port::replay(list, &[14, 3, 1]);
        let due = (SHAPE, [0, list.used as u64]);
        *self.counts.refusals.entry(SHAPE).or_default() += 1;
        agree("replay with a wrong shape", answer, due, answer == due)
    }

    // ------------------------------------------------------------------------------------------------------------------ lists

    fn list(&mut self, list: &[Entry], spare: usize, extra: usize, challenges: &Challenges) -> Same {
        let ours = arrays(list, list.len() + spare);
        // what is left out is not examined, and the original is not given it
        let kept = counted(list);
        if let Some(entry) = kept.iter().find(|entry| entry_reason(entry).is_some()) {
            return self.refused_list(list, &ours, extra, entry);
        }
        self.counts.lists += 1;
        self.counts.entries += kept.len() as u64;
        self.counts.left_out[0] += (list.len() - kept.len()) as u64;
        self.counts.left_out[1] += list.iter().filter(|entry| entry_reason(entry).is_some()).count() as u64;
        self.counts.large[0] += list.iter().filter(|entry| entry.multiplicity > MOST).count() as u64;
        self.counts.raw[0] += kept.iter().filter(|entry| is_raw(entry)).count() as u64;

        let height = theirs("height", || list_height(&kept))?;
        self.heights(&kept, &ours, height)?;
        let table = self.filled(&kept, &ours, height, extra)?;
        self.counts.list_rows += table.len() as u64;
        if !table.is_empty() {
            let aux = self.extended(&table, challenges)?;
            if let Some(aux) = aux {
                let verdict = self.checked(&table, &aux, challenges)?;
                agree("the check of an honest table", verdict, None::<()>, verdict.is_none())?;
            }
        }
        self.round_trip(list, &ours, height)
    }

    /// Plan, each counted entry's height, and the order of neighbours.
    fn heights(&mut self, list: &[Entry], ours: &List, height: usize) -> Same {
        let plan = port::plan(ours);
        let padded = height.next_power_of_two().max(256);
        self.counts.heights += 1 + list.len() as u64;
        agree("plan", plan, [height, padded], plan == Ok([height as u64, padded as u64]))?;
        if !has_repeats(list) {
            let original = theirs("padded height", || original_padded_height(list))?;
            agree("padded height", padded, original, original == padded)?;
        }
        for entry in list {
            let one = port::plan(&arrays(&[*entry], 1)).map(|[height, _]| height);
            let theirs = theirs("height", || oracle::height(entry.key))?;
            agree("height of an entry", one, theirs, one == Ok(theirs))?;
        }
        list.windows(2).try_for_each(|pair| self.order(pair[0].key, pair[1].key))
    }

    /// Filled, then padded, by both.
    fn filled(&mut self, list: &[Entry], ours: &List, height: usize, extra: usize) -> Result<Vec<Row>, String> {
        let n = height + extra;
        let old = old_words(10 * n);
        let mut table = old.clone();
        let answer = port::fill(ours, &mut table);
        agree("fill", answer, height, answer == Ok([height as u64]))?;
        let mut rows: Vec<Row> = reduced(old.as_chunks().0);
        let filled = theirs("fill", || {
            let filled = fill(list, &mut rows);
            (filled, rows)
        })?;
        let (answer, mut rows) = filled;
        agree("fill", height, answer, answer == height)?;
        let end = 10 * height;
        self.same("fill: table", &table[..end], &rows.as_flattened()[..end])?;
        self.untouched("fill: rows past the height", &table[end..], &old[end..])?;

        if height > 0 {
            let mut short = old[..end - 10].to_vec();
            let answer = port::fill(ours, &mut short);
            self.refused("fill, one row fewer", answer, SHORT)?;
            self.untouched("fill, refused: table", &short, &old[..end - 10])?;
            self.panics("fill, one row fewer", || fill(list, &mut reduced(&vec![[0; 10]; height - 1])))?;
            self.note(listed::BELOW);
        }

        let answer = port::pad(&mut table, height);
        agree("pad", answer, "done", answer.is_ok())?;
        rows = theirs("pad", || {
            pad(&mut rows, height);
            rows
        })?;
        self.same("pad: table", &table, rows.as_flattened())?;
        Ok(rows)
    }

    /// The counted entries written, and read back reduced. A stored list is not the original's: the bytes are compared with document 01's form.
    fn round_trip(&mut self, places: &[Entry], ours: &List, height: usize) -> Same {
        self.counts.round_trips += 1;
        let raw = &counted(places);
        let list = &admitted_list(raw);
        let bytes = stored(list, height, 8);
        let old: Vec<u8> = old_words(bytes.len() + 5).iter().map(|&word| (word >> 8) as u8).collect();
        let mut out = old.clone();
        let answer = port::write(ours, &mut out);
        self.onto_keys(&bytes, ours)?;
        if has_repeats(list) {
            self.refused("write", answer, REPEAT)?;
            agree("write, refused: bytes", &out, &old, out == old)?;
            return self.unreadable("read", &bytes, ours.capacity, REPEAT);
        }
        agree("write", answer, bytes.len(), answer == Ok([bytes.len() as u64]))?;
        agree("write: bytes", &out[..bytes.len()], &bytes, out[..bytes.len()] == bytes)?;
        agree("write: bytes past the end", &out[bytes.len()..], &old[bytes.len()..], out[bytes.len()..] == old[bytes.len()..])?;
        let mut short = old[..bytes.len() - 1].to_vec();
        let answer = port::write(ours, &mut short);
        self.refused("write, one byte fewer", answer, SHORT)?;
        agree("write, refused: bytes", &short, &old, short == old[..short.len()])?;

        self.readable("read", &bytes, list, ours.capacity)?;
        self.unreadable("read, one byte fewer", &bytes[..bytes.len() - 1], ours.capacity, TORN)?;
        self.unreadable("read, another height", &stored(list, height + 1, 8), ours.capacity, TALLY)?;
        if !list.is_empty() {
            self.unreadable("read, one place too few", &bytes, list.len() - 1, LIST_FULL)?;
            if raw != list {
                self.unreadable("read of a base of p or more", &stored(raw, height, 8), ours.capacity, WIDE)?;
                self.unreadable("read of a base of p or more, the old form", &stored(raw, height, 4), ours.capacity, WIDE)?;
            }
            self.old_form(list, ours.capacity, height)?;
        }
        if raw.len() < places.len() && places.iter().all(|entry| entry.key[0] < 256) {
            self.with_left_out(places, ours.capacity, &bytes, height)?;
        }
        Ok(())
    }

    /// A list stored with its entries of multiplicity 0, by somebody else: reading judges them and takes their heights, and a writing leaves them out.
    fn with_left_out(&mut self, places: &[Entry], capacity: usize, written: &[u8], height: usize) -> Same {
        let all = &admitted_list(places);
        let what = "read with multiplicities of 0";
        if let Some(reason) = all.iter().find_map(stored_entry_reason) {
            return self.unreadable(what, &stored(all, height, 8), capacity, reason);
        }
        let whole = theirs("height", || list_height(all))?;
        if has_repeats(all) {
            return self.unreadable(what, &stored(all, whole, 8), capacity, REPEAT);
        }
        self.counts.left_out[2] += 1;
        let fresh = self.readable(what, &stored(all, whole, 8), all, capacity)?;
        let mut out = vec![7; written.len()];
        let answer = port::write(&fresh, &mut out);
        agree("write with multiplicities of 0", answer, written.len(), answer == Ok([written.len() as u64]))?;
        agree("write with multiplicities of 0: bytes", &out, written, out == written)?;
        self.unreadable("read with multiplicities of 0, the others' height", &stored(all, height, 8), capacity, TALLY)
    }

    /// Bytes that reading must take as this list; the list then.
    fn readable(&mut self, what: &str, bytes: &[u8], list: &[Entry], capacity: usize) -> Result<List, String> {
        let mut fresh = arrays(&[], capacity);
        let answer = port::read(bytes, &mut fresh);
        agree(what, answer, list.len(), answer == Ok([list.len() as u64]))?;
        fresh.used = list.len();
        let expected = arrays(list, capacity);
        self.same(&format!("{what}: keys"), &fresh.keys, &expected.keys)?;
        self.same(&format!("{what}: multiplicities"), &fresh.multiplicities, &expected.multiplicities)?;
        self.same(&format!("{what}: holds"), &fresh.holds, &expected.holds)?;
        self.others(what, &fresh, 0, list.len())?;
        Ok(fresh)
    }

    /// Read from the old form, and written in the new one. A multiplicity has four bytes there: the lower ones.
    fn old_form(&mut self, list: &[Entry], capacity: usize, height: usize) -> Same {
        let list: Vec<Entry> = list.iter().map(|entry| Entry { multiplicity: entry.multiplicity & MOST, ..*entry }).collect();
        let kept = counted(&list);
        let kept_height = theirs("height", || list_height(&kept))?;
        let (old, new) = (stored(&list, height, 4), stored(&kept, kept_height, 8));
        let fresh = self.readable("read of the old form", &old, &list, capacity)?;
        let mut out = vec![7; new.len()];
        if kept == list {
            let answer = port::write(&fresh, &mut out[..old.len()]);
            self.refused("write, as many bytes as the old form has", answer, SHORT)?;
        }
        let answer = port::write(&fresh, &mut out);
        agree("write after the old form", answer, new.len(), answer == Ok([new.len() as u64]))?;
        agree("write after the old form: bytes", &out, &new, out == new)?;
        self.unreadable("read of the old form, one byte fewer", &old[..old.len() - 1], capacity, TORN)?;
        self.unreadable("read of the old form, one byte more", &stored(&list, height, 8)[..old.len() + 1], capacity, TORN)?;
        self.unreadable("read of the old form, another height", &stored(&list, height + 1, 4), capacity, TALLY)
    }

    /// Reading onto a list with keys: 6, whatever the bytes hold, but that 10 comes first.
    fn onto_keys(&mut self, bytes: &[u8], ours: &List) -> Same {
        if ours.used == 0 {
            return Ok(());
        }
        self.counts.left_out[3] += 1;
        let stranger = stored(&[entry(5, 0, 0, 0)], 0, 8);
        for (bytes, number) in [(bytes, LIST_FULL), (&[0; 8], LIST_FULL), (&stranger, LIST_FULL), (&stranger[1..], TORN)] {
            let mut list = ours.clone();
            let answer = port::read(bytes, &mut list);
            self.refused("read onto keys", answer, number)?;
            agree("read onto keys: the list", &list, ours, list == *ours)?;
        }
        Ok(())
    }

    /// Bytes that reading must refuse with this number, the list being as before.
    fn unreadable(&mut self, what: &str, bytes: &[u8], capacity: usize, number: u64) -> Same {
        let mut list = arrays(&[], capacity);
        let answer = port::read(bytes, &mut list);
        self.refused(what, answer, number)?;
        self.untouched(what, &list.keys, &old_words(3 * capacity))?;
        self.untouched(what, &list.multiplicities, &old_words(capacity))?;
        self.untouched(what, &list.holds, &old_words(capacity))?;
        self.others(what, &list, 0, 0)
    }

    /// A list that document 01 does not admit; `entry` is the first counted entry that it refuses.
    fn refused_list(&mut self, list: &[Entry], ours: &List, extra: usize, entry: &Entry) -> Same {
        let reason = entry_reason(entry).unwrap();
        let plan = port::plan(ours);
        self.refused("plan", plan, reason)?;
        let old = old_words(10 * (34 * list.len() + extra));
        let mut table = old.clone();
        let filled = port::fill(ours, &mut table);
        self.refused("fill", filled, reason)?;
        self.untouched("fill, refused: table", &table, &old)?;
        let mut out = vec![7; 8 + 25 * list.len()];
        let written = port::write(ours, &mut out);
        self.refused("write", written, reason)?;
        agree("write, refused: bytes", &out, 7, out.iter().all(|&byte| byte == 7))?;
        // Stored, an opcode has one byte; in the old form a multiplicity has four, and is never too large.
        if list.iter().all(|entry| entry.key[0] < 256) {
            let reason = list.iter().find_map(stored_entry_reason).unwrap();
            self.unreadable("read", &stored(list, 0, 8), ours.capacity, reason)?;
            if let Some(reason) = list.iter().find_map(|entry| stored_key_reason(entry.key)) {
                self.unreadable("read of the old form", &stored(list, 0, 4), ours.capacity, reason)?;
            }
        }
        self.refused_entry(entry, reason)
    }

    /// The original on an entry that document 01 refuses.
    fn refused_entry(&mut self, entry: &Entry, reason: u64) -> Same {
        let below_p = Entry { key: entry.key.map(|word| word % P), ..*entry };
        match reason {
            STRANGER => {
                self.note(listed::OPCODE);
                self.panics("fill with another opcode", || filled(&[*entry]))
            }
            WIDE if below_p != *entry => {
                self.note(listed::WORDS);
                let both = [caught(|| filled(&[*entry])).ok(), caught(|| filled(&[below_p])).ok()];
                agree("operands of p or more", &both[0], &both[1], both[0] == both[1])
            }
            WIDE => {
                self.note(listed::WIDE);
                self.panics("fill with a wide operand", || filled(&[*entry]))
            }
            BARE_LOG => {
                self.note(listed::LOG_OF_ZERO);
                let rows = theirs("fill with log_2_floor of 0", || filled(&[*entry]))?;
                agree("log_2_floor of 0: Result", P - 1, rows[0][8], rows[0][8] == P - 1)?;
                let one: Challenges = std::array::from_fn(|i| (i == 0) as u64);
                let aux = theirs("extend", || extend(&rows, &one))?;
                let verdict = self.constraints.verdict(&rows, &aux, &one);
                let found = verdict.map(|value| (value.group, value.row, value.index, value.value));
                let listed = Some((1, 0, 13, [18446744069414556673, 0, 0]));
                agree("log_2_floor of 0: the original's own constraint", listed, found, found == listed)
            }
            _ => {
                self.note(listed::MULTIPLICITY);
                let rows = theirs("fill with a large multiplicity", || filled(&[*entry]))?;
                let expected = entry.multiplicity % P;
                agree("a large multiplicity", expected, rows[0][9], rows[0][9] == expected)
            }
        }
    }

    // ----------------------------------------------------------------------------------------------------------------- tables

    fn table(&mut self, rows: &[Row], aux: &[Ext], challenges: &Challenges, filled: usize) -> Same {
        self.counts.tables += 1;
        self.counts.table_rows += rows.len() as u64;
        self.padded(rows, filled)?;
        if is_reduced(rows.as_flattened()) && is_reduced(challenges) {
            self.extended(rows, challenges)?;
        } else {
            let old = old_words(3 * rows.len());
            let mut sums = old.clone();
            let answer = port::extend(rows.as_flattened(), &mut sums, challenges);
            self.refused("extend", answer, UNREDUCED)?;
            self.untouched("extend, refused: aux", &sums, &old)?;
            let both = [(reduced(rows), challenges.map(|word| word % P)), (rows.to_vec(), *challenges)]
                .map(|(rows, challenges)| caught(|| extend(&rows, &challenges)).ok());
            agree("extension of words of p or more", &both[0], &both[1], both[0] == both[1])?;
            self.note(listed::WORDS);
        }
        if rows.is_empty() {
            let answer = port::check(&[], &[], challenges);
            return self.refused("check of no rows", answer, SHORT);
        }
        if is_reduced(rows.as_flattened()) && is_reduced(challenges) && is_reduced(aux.as_flattened()) {
            if self.checked(rows, aux, challenges)?.is_none() {
                self.no_shorter(rows)?;
            }
        } else {
            let answer = port::check(rows.as_flattened(), aux.as_flattened(), challenges);
            self.refused("check", answer, UNREDUCED)?;
            self.note(listed::WORDS);
        }
        Ok(())
    }

    /// A table that passes has at least as many rows as the original's heights of the entries of its CopyFlag 1 rows together; a row
    /// whose CI is none of the six is no entry. The port fills the list of these entries into as many rows as the table has.
    fn no_shorter(&mut self, rows: &[Row]) -> Same {
        let flagged = rows.iter().filter(|row| row[0] == 1 && OPCODES.contains(&row[3]));
        let list: Vec<Entry> = flagged.map(|row| entry(row[3], row[4], row[6], 1)).collect();
        let height = theirs("height", || list.iter().map(|entry| oracle::height(entry.key)).sum::<u64>())?;
        self.counts.passing[0] += 1;
        self.counts.passing[1] += (height == rows.len() as u64) as u64;
        agree("rows of a table that passes, at least the heights", rows.len(), height, height <= rows.len() as u64)?;
        let answer = port::fill(&arrays(&list, list.len()), &mut vec![0; 10 * rows.len()]);
        agree("fill of the entries of a table that passes", answer, height, answer == Ok([height]))
    }

    fn padded(&mut self, rows: &[Row], filled: usize) -> Same {
        let mut table = flat(rows);
        let answer = port::pad(&mut table, filled);
        if filled > rows.len() {
            self.refused("pad", answer, SHORT)?;
            self.untouched("pad, refused: table", &table, rows.as_flattened())?;
            self.note(listed::FILLED);
            return self.panics("pad", || pad(&mut rows.to_vec(), filled));
        }
        if filled > 0 && !is_reduced(&rows[filled - 1]) {
            self.refused("pad", answer, UNREDUCED)?;
            self.note(listed::WORDS);
            return self.untouched("pad, refused: table", &table, rows.as_flattened());
        }
        agree("pad", answer, "done", answer.is_ok())?;
        let mut expected = reduced(rows);
        expected = theirs("pad", || {
            pad(&mut expected, filled);
            expected
        })?;
        self.untouched("pad: filled rows", &table[..10 * filled], &rows.as_flattened()[..10 * filled])?;
        self.same("pad: padding rows", &table[10 * filled..], &expected.as_flattened()[10 * filled..])
    }

    /// The sums by both; none where a denominator is (0, 0, 0), and nowhere else.
    fn extended(&mut self, rows: &[Row], challenges: &Challenges) -> Result<Option<Vec<Ext>>, String> {
        let old = old_words(3 * rows.len());
        let mut aux = old.clone();
        let answer = port::extend(rows.as_flattened(), &mut aux, challenges);
        let original = caught(|| extend(rows, challenges));
        agree(
            "extend: a denominator of (0, 0, 0)",
            answer,
            original.is_err(),
            original.is_err() == has_zero_denominator(rows, challenges),
        )?;
        match original {
            Ok(sums) => {
                let last = sums.last().copied().unwrap_or([0; 3]);
                agree("extend", answer, last, answer == Ok(last))?;
                self.same("extend: aux", &aux, sums.as_flattened())?;
                Ok(Some(sums))
            }
            Err(_) => {
                self.counts.panics += 1;
                self.note(listed::FLAT);
                self.refused("extend", answer, FLAT)?;
                self.untouched("extend, refused: aux", &aux, &old)?;
                Ok(None)
            }
        }
    }

    /// Every constraint on every pair of rows, and the verdict.
    fn checked(&mut self, rows: &[Row], aux: &[Ext], challenges: &Challenges) -> Result<Option<ConstraintValue>, String> {
        let (mut ours, mut difference, mut values, mut nonzero) = ([0; 120], None, 0, 0);
        let (mut pair, mut sums) = ([0; 20], [0; 6]);
        self.constraints.forty(rows, aux, challenges, |row, theirs| {
            let next = (row + 1) % rows.len();
            pair[..10].copy_from_slice(&rows[row]);
            pair[10..].copy_from_slice(&rows[next]);
            sums[..3].copy_from_slice(&aux[row]);
            sums[3..].copy_from_slice(&aux[next]);
            port::constraints(&pair, &sums, challenges, &mut ours);
            values += theirs.len() as u64;
            nonzero += theirs.iter().filter(|&value| *value != [0; 3]).count() as u64;
            if ours != theirs.as_flattened() && difference.is_none() {
                difference = Some(match (0..theirs.len().min(40)).find(|&i| ours[3 * i..3 * i + 3] != theirs[i]) {
                    Some(i) => {
                        let (group, index) = [(0, 0), (1, 1), (2, 16), (3, 38)]
                            .into_iter()
                            .rev()
                            .find_map(|(group, start)| i.checked_sub(start).map(|index| (group, index)))
                            .unwrap();
                        let value = &ours[3 * i..3 * i + 3];
                        format!(
                            "constraint {group}:{index} on rows {row} and {next}: the port has {value:?}, the original {:?}",
                            theirs[i]
                        )
                    }
                    None => format!("the port has 40 constraints, the original {}", theirs.len()),
                });
            }
        });
        self.counts.values += values;
        self.counts.nonzero += nonzero;
        if let Some(difference) = difference {
            return Err(difference);
        }
        let answer = port::check(rows.as_flattened(), aux.as_flattened(), challenges);
        let verdict = self.constraints.verdict(rows, aux, challenges);
        let agrees = match verdict {
            None => matches!(answer, Ok([0, ..])),
            Some(ConstraintValue { group, row, index, value: [a, b, c] }) => {
                answer == Ok([1, group as u64, row as u64, index as u64, a, b, c])
            }
        };
        self.counts.verdicts[verdict.is_some() as usize] += 1;
        agree("check", answer, verdict, agrees)?;
        Ok(verdict)
    }

    // -------------------------------------------------------------------------------------------------- recording, order, elements

    fn record(&mut self, list: &[Entry], capacity: usize, keys: &[Key]) -> Same {
        let mut ours = arrays(list, capacity);
        // The entries as the original has them, and the keys as they stand in the port's arrays: raw ones stay as they are.
        let mut entries = list.to_vec();
        let mut held: Vec<Key> = list.iter().map(|entry| entry.key).collect();
        self.counts.raw[1] += list.iter().filter(|entry| is_raw(entry)).count() as u64;
        for &raw in keys {
            let key = admitted(raw);
            let before = ours.clone();
            let answer = port::record(&mut ours, raw);
            self.counts.recordings += 1;
            self.counts.raw[2] += (raw != key) as u64;
            let reason = key_reason(key).or_else(|| {
                // The original, on a copy of the list so far, with the raw words.
                let after = record(&entries, &[raw]);
                let position = after.iter().position(|entry| entry.key == key)?;
                let count = entries.get(position).map_or(0, |entry| entry.multiplicity);
                self.counts.large[1] += (count >= MOST) as u64;
                assert_eq!(count.wrapping_add(1), after[position].multiplicity, "the original counts in 64 bits");
                match () {
                    _ if count >= MOST_COUNT => Some(COUNT_FULL),
                    _ if after.len() > capacity => Some(LIST_FULL),
                    _ => None,
                }
            });
            if let Some(reason) = reason {
                self.refused("record", answer, reason)?;
                self.untouched("record, refused: keys", &ours.keys, &before.keys)?;
                self.untouched("record, refused: multiplicities", &ours.multiplicities, &before.multiplicities)?;
                self.untouched("record, refused: holds", &ours.holds, &before.holds)?;
                self.others("record, refused", &ours, list.len(), ours.used)?;
                match reason {
                    COUNT_FULL => self.note(listed::MULTIPLICITY),
                    LIST_FULL => self.note(listed::SIZE),
                    _ => self.refused_entry(&Entry { key: raw, multiplicity: 1 }, reason)?,
                }
                continue;
            }
            let after = theirs("record", || record(&entries, &[raw]))?;
            let position = after.iter().position(|entry| entry.key == key).ok_or("record: the original lost the key")?;
            let expected = [position as u64, after.len() as u64];
            agree("record", answer, expected, answer == Ok(expected))?;
            ours.used = after.len();
            held.extend(after[held.len()..].iter().map(|entry| entry.key));
            let shown: Vec<Entry> = after.iter().zip(&held).map(|(entry, &key)| Entry { key, ..*entry }).collect();
            let expected = arrays(&shown, capacity);
            self.same("record: keys", &ours.keys, &expected.keys)?;
            self.same("record: multiplicities", &ours.multiplicities, &expected.multiplicities)?;
            self.same("record: holds", &ours.holds, &expected.holds)?;
            self.others("record", &ours, list.len(), ours.used)?;
            entries = after;
        }
        Ok(())
    }

    /// Two lists of the original, one a recorder: each records the key of each accepted confirm, recording and step of its recorder. Its multiplicity of a key,
    /// 0 where it has no such key, is the port's; positions and holds are worked out here. Then the plan, the table and the stored list of each recorder.
    fn shared(&mut self, places: &[Place], capacity: usize, calls: &[(usize, Call)], challenges: &Challenges) -> Same {
        let old = arrays(&[], capacity);
        let mut both = Shared::new(places, capacity);
        let mut ours = both.arrays(&old);
        let mut answered: [Vec<Option<usize>>; 2] = [vec![], vec![]];
        let mut answers: [Vec<Made>; 2] = [vec![], vec![]];
        let mut is_lawful = [places.is_empty(); 2];
        for (who, call) in calls {
            let who = *who;
            self.count_call(&both, who, call);
            if let Call::Confirm(number) | Call::Drop(number) = call {
                is_lawful[who] &= answered[who].get(*number).is_some_and(Option::is_some);
            }
            let mut seen = seen_by(who, ours);
            let answer = make(&mut seen, call, &answered[who]);
            ours = seen_by(who, seen);
            let due = both.make(who, call, &answered[who]);
            agree("a call on a shared list", &answer, &due, answer == due)?;
            self.count_answer(call, &due);
            is_lawful[who] &= due.0 != LIST_FULL;
            answered[who].push(answered_position(call, &due));
            answers[who].push(due);
            let expected = both.arrays(&old);
            agree("used of a shared list", ours.used, expected.used, ours.used == expected.used)?;
            self.same("keys", &ours.keys, &expected.keys)?;
            self.same("multiplicities of the first", &ours.multiplicities, &expected.multiplicities)?;
            self.same("holds of the first", &ours.holds, &expected.holds)?;
            self.same("multiplicities of the second", &ours.other_multiplicities, &expected.other_multiplicities)?;
            self.same("holds of the second", &ours.other_holds, &expected.other_holds)?;
        }
        for who in [0, 1] {
            let seen = seen_by(who, ours.clone());
            self.shared_run(&both, who, &seen, challenges)?;
            if is_lawful[who] {
                let own: Vec<&Call> = calls.iter().filter(|(whose, _)| *whose == who).map(|(_, call)| call).collect();
                self.alone(&own, &answers[who], &seen, challenges)?;
            }
        }
        Ok(())
    }

    /// What a call is about to meet.
    fn count_call(&mut self, both: &Shared, who: usize, call: &Call) {
        let (Call::Record(key) | Call::Hold(key)) = call else { return };
        self.counts.recordings += matches!(call, Call::Record(_)) as u64;
        let count = both.count(who, *key);
        let own_keys = both.places.iter().filter(|(key, holds)| both.count(who, *key) > 0 || holds[who] > 0).count();
        match both.find(*key) {
            _ if key_reason(*key).is_some() => (),
            Some(at) => {
                let holds = both.places[at].1[who];
                self.counts.shared[0] += (count == 0 && holds == 0) as u64;
                let is_full = u128::from(count) + u128::from(holds) >= u128::from(MOST_COUNT);
                self.counts.holds[4] += (is_full && count < MOST_COUNT) as u64;
            }
            None => self.counts.shared[1] += (both.places.len() == both.capacity && own_keys < both.capacity) as u64,
        }
    }

    fn count_answer(&mut self, call: &Call, (number, _): &Made) {
        let kind = match call {
            Call::Hold(_) => Some(0),
            Call::Confirm(_) => Some(1),
            Call::Drop(_) => Some(2),
            _ => None,
        };
        match (*number, kind) {
            (0, Some(kind)) => self.counts.holds[kind] += 1,
            (0, None) => (),
            (number, _) => {
                *self.counts.refusals.entry(number).or_default() += 1;
                self.counts.holds[3] += (number == NO_HOLD) as u64;
            }
        }
    }

    /// A recorder's plan, table, sum, verdict and stored list: where a hold of its own is open, 15; else those of its own list of the original, but that the
    /// sections stand in the order of the shared list.
    fn shared_run(&mut self, both: &Shared, who: usize, ours: &List, challenges: &Challenges) -> Same {
        let open = |who: usize| both.places.iter().any(|(_, holds)| holds[who] > 0);
        let places = both.entries(who);
        let (kept, list) = (counted(&places), &both.lists[who]);
        if open(who) {
            let answer = port::plan(ours);
            self.refused("plan with an open hold", answer, OPEN_HOLD)?;
            let (mut table, mut out) = (old_words(30), [7; 60]);
            let answer = port::fill(ours, &mut table);
            self.refused("fill with an open hold", answer, OPEN_HOLD)?;
            self.untouched("fill with an open hold: table", &table, &old_words(30))?;
            let answer = port::write(ours, &mut out);
            self.refused("write with an open hold", answer, OPEN_HOLD)?;
            return agree("write with an open hold: bytes", out, 7, out == [7; 60]);
        }
        if let Some(reason) = kept.iter().find_map(entry_reason) {
            let answer = port::plan(ours);
            return self.refused("plan of a shared list", answer, reason);
        }
        self.counts.holds[5] += 1;
        self.counts.holds[6] += (kept.len() < places.len()) as u64;
        self.counts.shared[2] += open(1 - who) as u64;
        let keys = |list: &[Entry]| list.iter().map(|entry| admitted(entry.key)).collect::<Vec<Key>>();
        self.counts.shared[3] += (keys(&kept) != keys(list)) as u64;
        let height = theirs("height", || list_height(list))?;
        self.heights(&kept, ours, height)?;
        let rows = self.filled(&kept, ours, height, 2)?;
        let aux = self.extended(&rows, challenges)?;
        let alone = caught(|| {
            let mut rows = vec![[0; 10]; height + 2];
            fill(list, &mut rows);
            pad(&mut rows, height);
            extend(&rows, challenges)
        });
        let last = |aux: &Vec<Ext>| aux.last().copied();
        let (ours_last, theirs_last) = (aux.as_ref().and_then(last), alone.ok().as_ref().and_then(last));
        agree("the last sum of a recorder", ours_last, theirs_last, ours_last == theirs_last)?;
        if let Some(aux) = aux {
            let verdict = self.checked(&rows, &aux, challenges)?;
            agree("the check of a recorder's table", verdict, None::<()>, verdict.is_none())?;
        }
        self.round_trip(&places, ours, height)
    }

    /// A recorder's own calls alone, on a fresh list of the same capacity: each has the number that it had, a replay as many steps done; plan, counts of keys
    /// and the run of fill, pad, extend and check are those on the shared list. None of the calls met 6 there.
    fn alone(&mut self, calls: &[&Call], answers: &[Made], shared: &List, challenges: &Challenges) -> Same {
        self.counts.shared[4] += 1;
        let mut list = arrays(&[], shared.capacity);
        let mut answered = vec![];
        for (call, (number, words)) in calls.iter().zip(answers) {
            let answer = make(&mut list, call, &answered);
            let is_same = answer.0 == *number && (!matches!(call, Call::Replay(_)) || answer.1[0] == words[0]);
            agree("a call of one recorder, alone and beside the other", &answer, (number, words), is_same)?;
            answered.push(answered_position(call, &answer));
        }
        let of = |list: &List| {
            let places = list.keys.as_chunks().0.iter().zip(&list.multiplicities).take(list.used);
            let counts: BTreeMap<Key, u64> = places.filter(|place| *place.1 > 0).map(|(&key, &count)| (key, count)).collect();
            (counts, port::plan(list), whole_run(list, challenges))
        };
        let (alone, beside) = (of(&list), of(shared));
        agree("one recorder's run, alone and beside the other", &alone, &beside, alone == beside)
    }

    /// The original records the entries of the steps one after the other, up to the first step that is refused.
    fn replay(&mut self, list: &[Entry], capacity: usize, trace: &[Key]) -> Same {
        let mut ours = arrays(list, capacity);
        let answer = port::replay(&mut ours, trace.as_flattened());
        let (mut entries, mut done, mut number) = (list.to_vec(), 0, 0);
        for &step in trace {
            let made = step_entries(step).and_then(|keys| {
                let made = keys.iter().try_fold(entries.clone(), |entries, &key| recorded(&entries, capacity, key));
                if keys.len() == 2 && made.is_err() {
                    let [first, second] = [keys[0], keys[1]].map(|key| recorded(&entries, capacity, key).err());
                    self.counts.stops[0] += ((made.as_ref().err(), first) == (Some(&LIST_FULL), None)) as u64;
                    self.counts.stops[1] += ([first, second] == [Some(COUNT_FULL), Some(LIST_FULL)]) as u64;
                }
                made
            });
            match made {
                Ok(after) => (entries, done) = (after, done + 1),
                Err(reason) => {
                    number = reason;
                    self.counts.stops[2] += (reason == ZERO_DIVISOR) as u64;
                    *self.counts.refusals.entry(reason).or_default() += 1;
                    break;
                }
            }
        }
        self.counts.replays[0] += 1;
        self.counts.replays[1] += done;
        let expected = (number, [done, entries.len() as u64]);
        agree("replay", answer, expected, answer == expected)?;
        let expected = arrays(&entries, capacity);
        self.same("replay: keys", &ours.keys, &expected.keys)?;
        self.same("replay: multiplicities", &ours.multiplicities, &expected.multiplicities)?;
        self.same("replay: holds", &ours.holds, &expected.holds)?;
        self.others("replay", &ours, list.len(), entries.len())
    }

    /// The requests' rows are the first rows of the sections that the original fills. Its fold over them is the sum, its `compute_terminal` too where the
    /// compressed rows are base elements; and so is the last sum of the table that it fills with the recordings, pads and extends.
    fn client(&mut self, requests: &[Key], challenges: &Challenges) -> Same {
        let answer = port::client_sum(requests.as_flattened(), challenges);
        if !is_reduced(challenges) {
            self.note(listed::WORDS);
            return self.refused("client_sum", answer, UNREDUCED);
        }
        let mut rows: Vec<Row> = vec![];
        for (i, &key) in requests.iter().enumerate() {
            if let Some(reason) = key_reason(key) {
                return self.refused("client_sum", answer, reason);
            }
            rows.push(theirs("fill", || filled(&[Entry { key, multiplicity: 1 }]))?[0]);
            if has_zero_denominator(&rows[i..], challenges) {
                self.note(listed::FLAT);
                self.counts.clients[4] += 1;
                self.counts.clients[5] += requests[i + 1..].iter().any(|&key| key_reason(key).is_some()) as u64;
                self.panics("the client's sum", || client_sum(&rows, challenges))?;
                if let Ok(Some(sum)) = caught(|| compute_terminal(&rows, challenges)) {
                    return Err(format!("compute_terminal is to panic and answers {sum:?}"));
                }
                return self.refused("client_sum", answer, FLAT);
            }
        }
        self.counts.clients[0] += 1;
        self.counts.clients[1] += requests.len() as u64;
        let ours = answer.map_err(|number| format!("client_sum: the port refuses with {number}"))?;
        let sum = theirs("the client's sum", || client_sum(&rows, challenges))?;
        self.same("client_sum", &ours, &sum)?;
        if let Some(sum) = theirs("compute_terminal", || compute_terminal(&rows, challenges))? {
            self.counts.clients[3] += 1;
            self.same("client_sum and compute_terminal", &ours, &sum)?;
        }
        let table = theirs("the table of the recordings", || {
            let list = record(&[], requests);
            let height = list_height(&list);
            let mut table = vec![[0; 10]; height.max(1)];
            fill(&list, &mut table);
            pad(&mut table, height);
            table
        })?;
        let sums = theirs("the sums of the recordings", || extend(&table, challenges))?;
        self.counts.clients[2] += table.len() as u64;
        self.same("client_sum and the last sum", &ours, &sums[sums.len() - 1])
    }

    /// The original has no limit of places: where the port refuses for want of one, the value is new to the original then, and what the port keeps is
    /// the beginning of the original's cascade. The sums are made a second time, over the stand-in's elements.
    fn look_up(&mut self, elements: &[[u64; LOOKED_UP]], capacity: usize, challenges: &[u64; 9]) -> Same {
        let (cascade, bytes) = theirs("look_up", || looked_up(elements))?;
        let mut ours = port::Lookups {
            capacity,
            used: 0,
            keys: (0..capacity).map(|i| i as u16 ^ 0x5a5a).collect(),
            multiplicities: old_words(capacity),
            byte_multiplicities: vec![0; 256],
        };
        let before = ours.clone();
        for &element in elements.as_flattened() {
            for value in [0, 16, 32, 48].map(|shift| (element >> shift) as u16) {
                let is_known = ours.keys[..ours.used].contains(&value);
                let held = ours.clone();
                let answer = port::look_up(&mut ours, value);
                if is_known || held.used < capacity {
                    ours.used = held.used + !is_known as usize;
                    agree("look_up", answer, ours.used, answer == Ok([ours.used as u64]))?;
                    self.counts.lookups[0] += 1;
                    self.counts.lookups[1] += is_known as u64;
                    self.counts.lookups[2] += (!is_known && value / 256 == value % 256) as u64;
                } else {
                    self.refused("look_up", answer, CASCADE_FULL)?;
                    agree("look_up, refused", &ours, &held, ours == held)?;
                    self.note(listed::PLACES);
                }
            }
        }
        let kept = cascade.len().min(capacity);
        agree("look_up: used", ours.used, kept, ours.used == kept)?;
        let words = |keys: &[u16]| keys.iter().map(|&key| key as u64).collect::<Vec<_>>();
        let (keys, counts): (Vec<u16>, Vec<u64>) = cascade.iter().copied().unzip();
        self.same("look_up: keys", &words(&ours.keys[..kept]), &words(&keys[..kept]))?;
        self.same("look_up: multiplicities", &ours.multiplicities[..kept], &counts[..kept])?;
        self.untouched("look_up: unused keys", &words(&ours.keys[kept..]), &words(&before.keys[kept..]))?;
        self.untouched("look_up: unused multiplicities", &ours.multiplicities[kept..], &before.multiplicities[kept..])?;
        let left_out = &keys[kept..];
        let count = |byte: usize| {
            let of = |key: &u16| (*key as usize / 256 == byte) as u64 + (*key as usize % 256 == byte) as u64;
            bytes[byte] - left_out.iter().map(of).sum::<u64>()
        };
        self.same("look_up: byte multiplicities", &ours.byte_multiplicities, &(0..256).map(count).collect::<Vec<_>>())?;

        let output = |byte: u64| ((byte + 1).pow(3) - 1) % 257;
        let of_bytes = (0..256).map(|byte| (byte, output(byte), ours.byte_multiplicities[byte as usize]));
        let mut aux = old_words(768);
        let answer = port::byte_sum(&ours.byte_multiplicities, challenges, &mut aux);
        self.lookup_sum("byte_sum", answer, &of_bytes.collect::<Vec<_>>(), challenges, &aux)?;
        let cascade_output = |value: u64| 256 * output(value / 256) + output(value % 256);
        let of_values = (0..kept).map(|i| (keys[i] as u64, cascade_output(keys[i] as u64), counts[i]));
        let mut aux = old_words(3 * capacity);
        let answer = port::cascade_sum(&ours, challenges, &mut aux);
        self.lookup_sum("cascade_sum", answer, &of_values.collect::<Vec<_>>(), challenges, &aux)
    }

    /// A sum over input, output and multiplicity, made here too, and the aux words; or a word of p or more, or a denominator of zero.
    fn lookup_sum(
        &mut self,
        what: &str,
        answer: port::Answer<3>,
        of: &[(u64, u64, u64)],
        challenges: &[u64; 9],
        aux: &[u64],
    ) -> Same {
        let old = old_words(aux.len());
        if !is_reduced(challenges) {
            self.refused(what, answer, UNREDUCED)?;
            return self.untouched(what, aux, &old);
        }
        let [input_weight, output_weight, indeterminate] =
            [0, 3, 6].map(|i| XFieldElement::new([i, i + 1, i + 2].map(|word| BFieldElement::new(challenges[word]))));
        let denominator = |&(input, output, _): &(u64, u64, u64)| {
            indeterminate - (input_weight * BFieldElement::new(input) + output_weight * BFieldElement::new(output))
        };
        let zero = XFieldElement::new([BFieldElement::new(0); 3]);
        if of.iter().any(|summand| denominator(summand) == zero) {
            self.refused(what, answer, FLAT)?;
            return self.untouched(what, aux, &old);
        }
        let (mut sum, mut expected) = (zero, vec![]);
        for summand in of {
            sum = sum + denominator(summand).inverse() * BFieldElement::new(summand.2);
            expected.extend(sum.coefficients.map(|word| word.value()));
        }
        self.counts.lookups[3] += 1;
        let last = sum.coefficients.map(|word| word.value());
        agree(what, answer, last, answer == Ok(last))?;
        self.same(what, &aux[..expected.len()], &expected)?;
        self.untouched(what, &aux[expected.len()..], &old[expected.len()..])
    }

    fn order(&mut self, left: Key, right: Key) -> Same {
        self.counts.orders += 1;
        let ours = port::compare(left, right);
        let number = |order: std::cmp::Ordering| (order as i8 + 1) as u64;
        // Document 01 compares any words as they are.
        let expected = number(left.cmp(&right));
        agree("compare", ours, expected, ours == Ok([expected]))?;
        if !is_reduced(&left) || !is_reduced(&right) {
            self.note(listed::ORDER);
            return Ok(());
        }
        match caught(|| order(left, right)) {
            Ok(order) => agree("compare", ours, order, ours == Ok([number(order)])),
            Err(_) => {
                self.counts.panics += 1;
                self.note(listed::OPCODE);
                let is_opcode = |key: Key| caught(|| height([key[0], 0, 0])).is_ok();
                let listed = !is_opcode(left) || !is_opcode(right);
                agree("compare of entries of instructions", ours, "a panic", listed)
            }
        }
    }

    /// The stand-in's elements: the original imports its own.
    fn elements(&mut self, words: &[u64]) -> Same {
        let n = words.len() / 3 * 3;
        let words = &words[..n];
        self.counts.elements += (2 * n + 4 * (n / 3)) as u64;
        let elements: Vec<BFieldElement> = words.iter().map(|&word| BFieldElement::new(word)).collect();
        let zero = BFieldElement::new(0);
        let mut ours = vec![0; n];
        if n > 0 {
            let right = [&words[1..], &words[..1]].concat();
            port::products(words, &right, &mut ours);
            let products: Vec<u64> = (0..n).map(|i| (elements[i] * elements[(i + 1) % n]).value()).collect();
            self.same("products", &ours, &products)?;
        }
        port::inverses(words, &mut ours);
        let inverse_or_zero = |x: &BFieldElement| if *x == zero { 0 } else { x.inverse().value() };
        let inverses: Vec<u64> = elements.iter().map(inverse_or_zero).collect();
        self.same("inverses", &ours, &inverses)?;
        port::ext_inverses(words, &mut ours);
        let inverses = elements.as_chunks().0.iter().map(|&coefficients: &[BFieldElement; 3]| {
            let inverse = caught(|| XFieldElement::new(coefficients).inverse());
            inverse.map_or([0; 3], |inverse| inverse.coefficients.map(|coefficient| coefficient.value()))
        });
        let inverses: Vec<u64> = inverses.collect::<Vec<[u64; 3]>>().into_flattened();
        self.same("extension inverses", &ours, &inverses)?;
        if n > 0 {
            let right = [&words[3..], &words[..3]].concat();
            let extension: Vec<XFieldElement> = elements.as_chunks().0.iter().map(|&three| XFieldElement::new(three)).collect();
            for operation in port::EXT_OPERATIONS {
                port::ext_operation(operation, words, &right, &mut ours);
                let theirs = (0..n / 3).flat_map(|i| {
                    let (x, y) = (extension[i], extension[(i + 1) % (n / 3)]);
                    let result = match operation.0 {
                        "ext_sums" => x + y,
                        "ext_differences" => x - y,
                        _ => x * y,
                    };
                    result.coefficients.map(|coefficient| coefficient.value())
                });
                self.same(operation.0, &ours, &theirs.collect::<Vec<u64>>())?;
            }
        }
        Ok(())
    }
}

// ------------------------------------------------------------------------------------------------------------------- smaller cases

/// Each way to leave out a part: halves, quarters, down to single ones; of many items only large parts.
fn without<T: Clone>(items: &[T]) -> Vec<Vec<T>> {
    let least = if items.len() > FEW { items.len() / 16 } else { 1 };
    let (mut ways, mut size) = (vec![], items.len());
    while size >= least.max(1) {
        for start in (0..items.len()).step_by(size) {
            let end = items.len().min(start + size);
            ways.push([&items[..start], &items[end..]].concat());
        }
        size /= 2;
    }
    ways
}

/// Of more items than this, single words are not tried.
const FEW: usize = 64;

fn smaller_words(word: u64) -> Vec<u64> {
    let mut ways = vec![0, 1, word / 2, word.saturating_sub(1)];
    ways.retain(|&way| way < word);
    ways.dedup();
    ways
}

/// Each way to make one word smaller.
fn each_smaller(words: &[u64]) -> Vec<Vec<u64>> {
    let mut ways = vec![];
    for i in 0..words.len() {
        for word in smaller_words(words[i]) {
            let mut way = words.to_vec();
            way[i] = word;
            ways.push(way);
        }
    }
    ways
}

fn smaller_lists(list: &[Entry]) -> Vec<Vec<Entry>> {
    let mut ways = without(list);
    for i in (0..list.len()).filter(|_| list.len() <= FEW) {
        let Entry { key: [opcode, lhs, rhs], multiplicity } = list[i];
        let words = [lhs, rhs, multiplicity];
        for way in each_smaller(&words) {
            let mut smaller = list.to_vec();
            smaller[i] = entry(opcode, way[0], way[1], way[2]);
            ways.push(smaller);
        }
    }
    ways
}

fn smaller_keys(keys: &[Key]) -> Vec<Vec<Key>> {
    let mut ways = without(keys);
    for i in 0..keys.len() {
        for way in each_smaller(&keys[i][1..]) {
            let mut smaller = keys.to_vec();
            smaller[i] = [keys[i][0], way[0], way[1]];
            ways.push(smaller);
        }
    }
    ways
}

/// U32Indeterminate 1, all weights 0.
pub const PLAIN: Challenges = [1, 0, 0, 0, 0, 0, 0, 0, 0, 0, 0, 0, 0, 0, 0];

impl Case {
    /// Smaller cases of the same kind, the boldest first.
    pub fn smaller(&self) -> Vec<Case> {
        match self {
            Case::List { list, spare, extra, challenges } => {
                let case =
                    |list: &[Entry], spare, extra, challenges| Case::List { list: list.to_vec(), spare, extra, challenges };
                let mut ways: Vec<Case> =
                    smaller_lists(list).iter().map(|list| case(list, *spare, *extra, *challenges)).collect();
                ways.extend(smaller_words(*spare as u64).iter().map(|&spare| case(list, spare as usize, *extra, *challenges)));
                ways.extend(smaller_words(*extra as u64).iter().map(|&extra| case(list, *spare, extra as usize, *challenges)));
                if *challenges != PLAIN {
                    ways.push(case(list, *spare, *extra, PLAIN));
                }
                ways
            }
            Case::Table { rows, aux, challenges, filled } => {
                let case = |both: &[(Row, Ext)], challenges, filled| {
                    let (rows, aux) = both.iter().copied().unzip();
                    Case::Table { rows, aux, challenges, filled }
                };
                let both: Vec<(Row, Ext)> = rows.iter().copied().zip(aux.iter().copied()).collect();
                let mut ways = vec![];
                for way in without(&both) {
                    ways.push(case(&way, *challenges, *filled));
                    ways.push(case(&way, *challenges, (*filled).min(way.len())));
                }
                if *challenges != PLAIN {
                    ways.push(case(&both, PLAIN, *filled));
                }
                for i in (0..both.len()).filter(|_| both.len() <= FEW) {
                    let words = [&both[i].0[..], &both[i].1[..]].concat();
                    for words in each_smaller(&words) {
                        let mut way = both.clone();
                        way[i] = (*words.first_chunk().unwrap(), *words.last_chunk().unwrap());
                        ways.push(case(&way, *challenges, *filled));
                    }
                }
                ways.extend(smaller_words(*filled as u64).iter().map(|&filled| case(&both, *challenges, filled as usize)));
                ways
            }
            Case::Record { list, capacity, keys } => {
                let case =
                    |list: &[Entry], capacity, keys: &[Key]| Case::Record { list: list.to_vec(), capacity, keys: keys.to_vec() };
                let mut ways: Vec<Case> = smaller_keys(keys).iter().map(|keys| case(list, *capacity, keys)).collect();
                let lists = smaller_lists(list).into_iter().filter(|list| !has_repeats(list));
                ways.extend(lists.map(|list| case(&list, *capacity, keys)));
                let capacities = smaller_words(*capacity as u64).into_iter().filter(|&capacity| capacity >= list.len() as u64);
                ways.extend(capacities.map(|capacity| case(list, capacity as usize, keys)));
                ways
            }
            Case::Shared { places, capacity, calls, challenges } => {
                let case = |places: &[Place], capacity, calls: &[(usize, Call)], challenges| Case::Shared {
                    places: places.to_vec(),
                    capacity,
                    calls: calls.to_vec(),
                    challenges,
                };
                let mut ways: Vec<Case> =
                    without(calls).iter().map(|calls| case(places, *capacity, calls, *challenges)).collect();
                ways.extend(without(places).iter().map(|places| case(places, *capacity, calls, *challenges)));
                for (i, (who, call)) in calls.iter().enumerate() {
                    let Call::Replay(trace) = call else { continue };
                    for trace in smaller_keys(trace) {
                        let mut way = calls.clone();
                        way[i] = (*who, Call::Replay(trace));
                        ways.push(case(places, *capacity, &way, *challenges));
                    }
                }
                for (i, Place { key, counts, holds }) in places.iter().enumerate() {
                    for words in each_smaller(&[*counts, *holds].concat()) {
                        let mut way = places.clone();
                        way[i] = Place { key: *key, counts: [words[0], words[1]], holds: [words[2], words[3]] };
                        ways.push(case(&way, *capacity, calls, *challenges));
                    }
                }
                let capacities = smaller_words(*capacity as u64).into_iter().filter(|&capacity| capacity >= places.len() as u64);
                ways.extend(capacities.map(|capacity| case(places, capacity as usize, calls, *challenges)));
                if *challenges != PLAIN {
                    ways.push(case(places, *capacity, calls, PLAIN));
                }
                ways
            }
            Case::Replay { list, capacity, trace } => {
                let case = |list: &[Entry], capacity, trace: &[Key]| Case::Replay {
                    list: list.to_vec(),
                    capacity,
                    trace: trace.to_vec(),
                };
                let mut ways: Vec<Case> = smaller_keys(trace).iter().map(|trace| case(list, *capacity, trace)).collect();
                let lists = smaller_lists(list).into_iter().filter(|list| !has_repeats(list));
                ways.extend(lists.map(|list| case(&list, *capacity, trace)));
                let capacities = smaller_words(*capacity as u64).into_iter().filter(|&capacity| capacity >= list.len() as u64);
                ways.extend(capacities.map(|capacity| case(list, capacity as usize, trace)));
                ways
            }
            Case::Client { requests, challenges } => {
                let case = |requests: &[Key], challenges| Case::Client { requests: requests.to_vec(), challenges };
                let mut ways: Vec<Case> = smaller_keys(requests).iter().map(|requests| case(requests, *challenges)).collect();
                for i in 0..15 {
                    for word in smaller_words(challenges[i]) {
                        let mut challenges = *challenges;
                        challenges[i] = word;
                        ways.push(case(requests, challenges));
                    }
                }
                ways
            }
            Case::LookUp { elements, capacity, challenges } => {
                let case = |elements: &[[u64; LOOKED_UP]], capacity, challenges| Case::LookUp {
                    elements: elements.to_vec(),
                    capacity,
                    challenges,
                };
                let mut ways = vec![];
                for i in 0..elements.len() {
                    ways.push(case(&[&elements[..i], &elements[i + 1..]].concat(), *capacity, *challenges));
                    for j in 0..LOOKED_UP {
                        for word in smaller_words(elements[i][j]) {
                            let mut fewer = elements.clone();
                            fewer[i][j] = word;
                            ways.push(case(&fewer, *capacity, *challenges));
                        }
                    }
                }
                ways.extend(
                    smaller_words(*capacity as u64).into_iter().map(|capacity| case(elements, capacity as usize, *challenges)),
                );
                ways.extend((0..9).flat_map(|i| smaller_words(challenges[i]).into_iter().map(move |word| (i, word))).map(
                    |(i, word)| {
                        let mut fewer = *challenges;
                        fewer[i] = word;
                        case(elements, *capacity, fewer)
                    },
                ));
                ways
            }
            Case::Order { left, right } => {
                let words = [&left[..], &right[..]].concat();
                let case =
                    |words: Vec<u64>| Case::Order { left: *words.first_chunk().unwrap(), right: *words.last_chunk().unwrap() };
                each_smaller(&words).into_iter().map(case).collect()
            }
            Case::Elements { words } => {
                let threes = words.as_chunks::<3>().0;
                let mut ways: Vec<Vec<u64>> = without(threes).into_iter().map(|threes| threes.into_flattened()).collect();
                ways.extend(each_smaller(words));
                ways.into_iter().map(|words| Case::Elements { words }).collect()
            }
            Case::Shapes => vec![],
        }
    }
}

impl std::fmt::Display for Case {
    fn fmt(&self, f: &mut std::fmt::Formatter<'_>) -> std::fmt::Result {
        let words = |words: &[u64]| words.iter().map(u64::to_string).collect::<Vec<_>>().join(" ");
        let entries = |f: &mut std::fmt::Formatter<'_>, list: &[Entry]| {
            list.iter().try_for_each(|entry| writeln!(f, "  entry {} multiplicity {}", words(&entry.key), entry.multiplicity))
        };
        match self {
            Case::List { list, spare, extra, challenges } => {
                writeln!(f, "list of {}, {spare} unused places, {extra} rows past the height", list.len())?;
                entries(f, list)?;
                writeln!(f, "  challenges {}", words(challenges))
            }
            Case::Table { rows, aux, challenges, filled } => {
                writeln!(f, "table of {}, filled count {filled}", rows.len())?;
                for (row, aux) in rows.iter().zip(aux) {
                    writeln!(f, "  row {} aux {}", words(row), words(aux))?;
                }
                writeln!(f, "  challenges {}", words(challenges))
            }
            Case::Record { list, capacity, keys } => {
                writeln!(f, "recordings onto a list of {}, capacity {capacity}", list.len())?;
                entries(f, list)?;
                keys.iter().try_for_each(|key| writeln!(f, "  record {}", words(key)))
            }
            Case::Shared { places, capacity, calls, challenges } => {
                writeln!(f, "calls of two recorders on a list of {}, capacity {capacity}", places.len())?;
                for Place { key, counts, holds } in places {
                    writeln!(f, "  key {} multiplicities {} holds {}", words(key), words(counts), words(holds))?;
                }
                calls.iter().try_for_each(|(who, call)| writeln!(f, "  recorder {who}: {call:?}"))?;
                writeln!(f, "  challenges {}", words(challenges))
            }
            Case::Replay { list, capacity, trace } => {
                writeln!(f, "a replay onto a list of {}, capacity {capacity}", list.len())?;
                entries(f, list)?;
                trace.iter().try_for_each(|step| writeln!(f, "  step {}", words(step)))
            }
            Case::Client { requests, challenges } => {
                writeln!(f, "the client's sum, challenges {}", words(challenges))?;
                requests.iter().try_for_each(|request| writeln!(f, "  request {}", words(request)))
            }
            Case::LookUp { elements, capacity, challenges } => {
                writeln!(f, "look-ups, capacity {capacity}, challenges {}", words(challenges))?;
                elements.iter().try_for_each(|elements| writeln!(f, "  limbs of {}", words(elements)))
            }
            Case::Order { left, right } => writeln!(f, "order of {} and {}", words(left), words(right)),
            Case::Elements { words: all } => writeln!(f, "elements {}", words(all)),
            Case::Shapes => writeln!(f, "arrays of a wrong shape"),
        }
    }
}
