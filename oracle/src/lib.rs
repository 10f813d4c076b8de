//! The original U32 table behind plain 64-bit words, for comparison. Nothing of the table is written here: heights, order,
//! recording, filling, padding, extension and the forty polynomials are the original's, from the files that `checksums` names.
//!
//! Words go in through the stand-in's `BFieldElement::new`, so a word of p or more is reduced. Where the original panics, these
//! functions do; `caught` turns that into a value.
use std::cmp::Ordering;
use std::collections::HashSet;
use std::panic::{AssertUnwindSafe, catch_unwind};

use air::AIR;
use air::challenge_id::ChallengeId;
use air::cross_table_argument::{CrossTableArg, LookupArg};
use air::table::u32::U32Table;
use air::table::{AUX_U32_TABLE_START, NUM_AUX_COLUMNS, NUM_MAIN_COLUMNS, U32_TABLE_START};
use constraint_circuit::*;
use isa::instruction::Instruction;
use ndarray::Array2;
use triton_vm::aet::AlgebraicExecutionTrace;
use triton_vm::challenges::Challenges as OriginalChallenges;
use triton_vm::reach;
use triton_vm::table::TraceTable;
use triton_vm::table::u32::U32TableEntry;
use twenty_first::prelude::*;

pub mod digests;
pub mod inputs;
pub mod text;

pub const P: u64 = BFieldElement::P;

/// split, lt, log_2_floor, and, pop_count, pow.
pub const OPCODES: [u64; 6] = [4, 6, 12, 14, 28, 30];

/// Opcode, LHS, RHS.
pub type Key = [u64; 3];

/// CopyFlag, Bits, BitsMinus33Inv, CI, LHS, LhsInv, RHS, RhsInv, Result, LookupMultiplicity.
pub type Row = [u64; 10];

/// An extension element; as `aux`, a row of the auxiliary table.
pub type Ext = [u64; 3];

/// Three words each: U32Indeterminate, U32LhsWeight, U32RhsWeight, U32CiWeight, U32ResultWeight.
pub type Challenges = [u64; 15];

#[derive(Debug, Copy, Clone, Eq, PartialEq)]
pub struct Entry {
    pub key: Key,
    pub multiplicity: u64,
}

pub fn entry(opcode: u64, lhs: u64, rhs: u64, multiplicity: u64) -> Entry {
    Entry { key: [opcode, lhs, rhs], multiplicity }
}

/// The entries whose multiplicity is not 0. A recorder's fill, plan and stored list leave out the others: to the original, they are not recorded.
pub fn counted(list: &[Entry]) -> Vec<Entry> {
    list.iter().copied().filter(|entry| entry.multiplicity != 0).collect()
}

/// The answer, or the message with which the original panics.
pub fn caught<T>(call: impl FnOnce() -> T) -> Result<T, String> {
    catch_unwind(AssertUnwindSafe(call)).map_err(|panic| match panic.downcast::<String>() {
        Ok(message) => *message,
        Err(panic) => panic.downcast::<&str>().map_or("panic without a message".into(), |message| message.to_string()),
    })
}

// ------------------------------------------------------------------------------------------------- entries and their lists

fn original_entry([opcode, lhs, rhs]: Key) -> U32TableEntry {
    let instruction = Instruction::try_from(opcode).expect("no instruction has this opcode");
    U32TableEntry::new(instruction, BFieldElement::new(lhs), BFieldElement::new(rhs))
}

/// A trace with the list's entries. The counts of repeated keys add up, since the trace cannot repeat a key.
fn trace_of(list: &[Entry]) -> AlgebraicExecutionTrace {
    let mut trace = reach::empty_trace();
    for entry in list {
        *trace.u32_entries.entry(original_entry(entry.key)).or_insert(0) += entry.multiplicity;
    }
    trace
}

/// `table_height_contribution`.
pub fn height(key: Key) -> u64 {
    reach::table_height_contribution(&original_entry(key)).into()
}

/// The order of entries.
pub fn order(left: Key, right: Key) -> Ordering {
    original_entry(left).cmp(&original_entry(right))
}

/// `record_u32_table_entry` for each key in turn, onto a list without repeats; the list then.
pub fn record(list: &[Entry], keys: &[Key]) -> Vec<Entry> {
    let mut trace = trace_of(list);
    keys.iter().for_each(|&key| reach::record(&mut trace, original_entry(key)));
    let entries = trace.u32_entries.into_iter().map(|(key, &multiplicity)| {
        let opcode = key.instruction.opcode().into();
        entry(opcode, key.left_operand.value(), key.right_operand.value(), multiplicity)
    });
    entries.collect()
}

/// How many elements a call of [`looked_up`] takes at a time.
pub const LOOKED_UP: usize = reach::LOOKED_UP;

/// The original's two lookup tables after the limbs of these elements were looked up: the cascade in its order, and the multiplicities of the bytes.
pub fn looked_up(elements: &[[u64; LOOKED_UP]]) -> (Vec<(u16, u64)>, [u64; 256]) {
    let mut trace = reach::empty_trace();
    elements.iter().for_each(|words| reach::look_up(&mut trace, &words.map(BFieldElement::new)));
    let bytes = trace.lookup_table_lookup_multiplicities;
    let cascade = trace.cascade_table_lookup_multiplicities.into_iter().map(|(&limb, &multiplicity)| (limb, multiplicity));
    (cascade.collect(), bytes)
}

/// The original's padded height of a trace with these entries: that of the largest of all its tables.
pub fn original_padded_height(list: &[Entry]) -> usize {
    trace_of(list).padded_height()
}

/// The list, cut before each key that stands in the part already; at least one part.
fn parts_without_repeats(list: &[Entry]) -> Vec<&[Entry]> {
    let (mut parts, mut start, mut seen) = (vec![], 0, HashSet::new());
    for (i, entry) in list.iter().enumerate() {
        let key = original_entry(entry.key);
        if !seen.insert(key) {
            parts.push(&list[start..i]);
            (start, seen) = (i, HashSet::from([key]));
        }
    }
    parts.push(&list[start..]);
    parts
}

/// The height of the list: the original's, of each part without repeats.
pub fn list_height(list: &[Entry]) -> usize {
    parts_without_repeats(list).into_iter().map(|part| reach::height(&trace_of(part))).sum()
}

// ---------------------------------------------------------------------------------------------------------------- the table

fn array_of(rows: &[Row]) -> Array2<BFieldElement> {
    let words = rows.as_flattened().iter().map(|&word| BFieldElement::new(word)).collect();
    Array2::from_shape_vec([rows.len(), 10], words).unwrap()
}

fn write_back(table: &Array2<BFieldElement>, rows: &mut [Row]) {
    for (i, row) in rows.iter_mut().enumerate() {
        *row = std::array::from_fn(|j| table[[i, j]].value());
    }
}

/// `fill`: into the first rows; answers how many. Sections stand in list order. A list with repeats, which the original cannot
/// hold, is filled in parts without repeats, one below the other.
pub fn fill(list: &[Entry], rows: &mut [Row]) -> usize {
    let parts = parts_without_repeats(list);
    let (last, mut filled) = (parts.len() - 1, 0);
    for (i, part) in parts.into_iter().enumerate() {
        let trace = trace_of(part);
        let height = reach::height(&trace);
        let end = if i == last { rows.len() } else { rows.len().min(filled + height) };
        let mut table = array_of(&rows[filled..end]);
        U32Table::fill(table.view_mut(), &trace, ());
        write_back(&table, &mut rows[filled..end]);
        filled += height;
    }
    filled
}

/// `fill` into as many rows as the list's height.
pub fn filled(list: &[Entry]) -> Vec<Row> {
    let mut rows = vec![[0; 10]; list_height(list)];
    fill(list, &mut rows);
    rows
}

/// `pad`: the rows from the filled count on.
pub fn pad(rows: &mut [Row], filled: usize) {
    let mut table = array_of(rows);
    U32Table::pad(table.view_mut(), filled);
    write_back(&table, rows);
}

/// `extend`: the running sum at each row.
pub fn extend(rows: &[Row], challenges: &Challenges) -> Vec<Ext> {
    let mut aux = Array2::<XFieldElement>::zeros([rows.len(), 1]);
    U32Table::extend(array_of(rows).view(), aux.view_mut(), &original_challenges(challenges));
    (0..rows.len()).map(|i| ext_words(aux[[i, 0]])).collect()
}

/// The weighted sum of a row's LHS, RHS, CI and Result.
pub fn compressed_row(row: &Row, challenges: &Challenges) -> Ext {
    let weighted = |weight: usize, column: usize| ext(challenges.as_chunks().0[weight]) * BFieldElement::new(row[column]);
    ext_words(weighted(1, 4) + weighted(2, 6) + weighted(3, 3) + weighted(4, 8))
}

/// The client's sum over these rows, one a request: the fold of `LookupArg::compute_terminal` over compressed rows, which are extension elements, in
/// place of lifted symbols. It panics where a denominator has no inverse, as that one does.
pub fn client_sum(rows: &[Row], challenges: &Challenges) -> Ext {
    let indeterminate = ext(challenges.as_chunks().0[0]);
    let inverses = rows.iter().map(|row| (indeterminate - ext(compressed_row(row, challenges))).inverse());
    ext_words(inverses.fold(LookupArg::default_initial(), |sum, inverse| sum + inverse))
}

/// `LookupArg::compute_terminal` over the compressed rows; None, where one of these is no base element.
pub fn compute_terminal(rows: &[Row], challenges: &Challenges) -> Option<Ext> {
    let symbol = |row: &Row| match compressed_row(row, challenges) {
        [word, 0, 0] => Some(BFieldElement::new(word)),
        _ => None,
    };
    let symbols: Vec<BFieldElement> = rows.iter().map(symbol).collect::<Option<_>>()?;
    let indeterminate = ext(challenges.as_chunks().0[0]);
    Some(ext_words(LookupArg::compute_terminal(&symbols, LookupArg::default_initial(), indeterminate)))
}

fn ext(words: Ext) -> XFieldElement {
    XFieldElement::new(words.map(BFieldElement::new))
}

fn ext_words(element: XFieldElement) -> Ext {
    element.coefficients.map(|coefficient| coefficient.value())
}

/// What stands in every column and in every challenge that is not the U32 table's, so that a wrong index shows.
const MARKER: u64 = 0xdead_beef_cafe_f00d;

fn original_challenges(words: &Challenges) -> OriginalChallenges {
    let ids = [
        ChallengeId::U32Indeterminate,
        ChallengeId::U32LhsWeight,
        ChallengeId::U32RhsWeight,
        ChallengeId::U32CiWeight,
        ChallengeId::U32ResultWeight,
    ];
    let mut challenges = [ext([MARKER; 3]); OriginalChallenges::COUNT];
    for (id, &words) in ids.into_iter().zip(words.as_chunks().0) {
        challenges[id.index()] = ext(words);
    }
    OriginalChallenges { challenges }
}

// ---------------------------------------------------------------------------------------------------------- the constraints

/// One constraint's value: group 0 initial, 1 consistency, 2 transition, 3 terminal; (upper) row; index in its group; a base
/// value v as (v, 0, 0).
#[derive(Debug, Copy, Clone, Eq, PartialEq)]
pub struct ConstraintValue {
    pub group: usize,
    pub row: usize,
    pub index: usize,
    pub value: Ext,
}

/// The original's constraints, built once.
pub struct Constraints {
    initial: Polynomials<SingleRowIndicator>,
    consistency: Polynomials<SingleRowIndicator>,
    transition: Polynomials<DualRowIndicator>,
    terminal: Polynomials<SingleRowIndicator>,
}

/// Each polynomial, and whether it is one of base elements.
struct Polynomials<II>(Vec<(ConstraintCircuitMonad<II>, bool)>);

impl<II: InputIndicator> Polynomials<II> {
    fn new(build: impl Fn(&ConstraintCircuitBuilder<II>) -> Vec<ConstraintCircuitMonad<II>>) -> Self {
        let polynomials = build(&ConstraintCircuitBuilder::new());
        Self(polynomials.into_iter().map(|polynomial| (polynomial.clone(), polynomial.is_base())).collect())
    }

    fn values(&self, rows: &Rows) -> Vec<Ext> {
        let value = |(polynomial, is_base): &(ConstraintCircuitMonad<II>, bool)| match is_base {
            true => [polynomial.evaluate_base(rows).value(), 0, 0],
            false => ext_words(polynomial.evaluate(rows)),
        };
        self.0.iter().map(value).collect()
    }
}

/// Two rows of the master tables, and the challenges.
struct Window {
    main: [Vec<BFieldElement>; 2],
    aux: [Vec<XFieldElement>; 2],
    challenges: OriginalChallenges,
}

impl Window {
    fn new(challenges: &Challenges) -> Self {
        let main = vec![BFieldElement::new(MARKER); NUM_MAIN_COLUMNS];
        let aux = vec![ext([MARKER; 3]); NUM_AUX_COLUMNS];
        Self { main: [main.clone(), main], aux: [aux.clone(), aux], challenges: original_challenges(challenges) }
    }

    /// Row 0 is the current one, row 1 the next.
    fn set(&mut self, i: usize, row: &Row, aux: Ext) {
        for (column, &word) in row.iter().enumerate() {
            self.main[i][U32_TABLE_START + column] = BFieldElement::new(word);
        }
        self.aux[i][AUX_U32_TABLE_START] = ext(aux);
    }

    fn rows(&self) -> Rows<'_> {
        Rows { main: [&self.main[0], &self.main[1]], aux: [&self.aux[0], &self.aux[1]], challenges: &self.challenges.challenges }
    }
}

impl Default for Constraints {
    fn default() -> Self {
        Self::new()
    }
}

impl Constraints {
    pub fn new() -> Self {
        Self {
            initial: Polynomials::new(U32Table::initial_constraints),
            consistency: Polynomials::new(U32Table::consistency_constraints),
            transition: Polynomials::new(U32Table::transition_constraints),
            terminal: Polynomials::new(U32Table::terminal_constraints),
        }
    }

    /// How many there are in each group.
    pub fn counts(&self) -> [usize; 4] {
        [self.initial.0.len(), self.consistency.0.len(), self.transition.0.len(), self.terminal.0.len()]
    }

    fn group(&self, group: usize, window: &Window) -> Vec<Ext> {
        let rows = &window.rows();
        match group {
            0 => self.initial.values(rows),
            1 => self.consistency.values(rows),
            2 => self.transition.values(rows),
            3 => self.terminal.values(rows),
            _ => panic!("no such group"),
        }
    }

    /// The group's values on given rows: a current and a next one, which only transitions read.
    pub fn values(&self, group: usize, rows: [&Row; 2], aux: [Ext; 2], challenges: &Challenges) -> Vec<Ext> {
        let mut window = Window::new(challenges);
        (0..2).for_each(|i| window.set(i, rows[i], aux[i]));
        self.group(group, &window)
    }

    /// Every value on a table of one row or more, in document 01's order: initial on row 0, consistency row by row, transition
    /// pair by pair, terminal on the last row. Ends when `goes_on` answers no.
    pub fn walk(&self, rows: &[Row], aux: &[Ext], challenges: &Challenges, mut goes_on: impl FnMut(ConstraintValue) -> bool) {
        assert!(!rows.is_empty() && rows.len() == aux.len(), "rows, and an aux row to each");
        let last = rows.len() - 1;
        let places = std::iter::once((0, 0))
            .chain((0..=last).map(|row| (1, row)))
            .chain((0..last).map(|row| (2, row)))
            .chain(std::iter::once((3, last)));
        let mut window = Window::new(challenges);
        for (group, row) in places {
            window.set(0, &rows[row], aux[row]);
            if group == 2 {
                window.set(1, &rows[row + 1], aux[row + 1]);
            }
            for (index, value) in self.group(group, &window).into_iter().enumerate() {
                if !goes_on(ConstraintValue { group, row, index, value }) {
                    return;
                }
            }
        }
    }

    /// All forty values on each row and the one below it (below the last, row 0), by group, then index: `each` gets the row's number
    /// and its values. More than a check evaluates.
    pub fn forty(&self, rows: &[Row], aux: &[Ext], challenges: &Challenges, mut each: impl FnMut(usize, &[Ext])) {
        let mut window = Window::new(challenges);
        let mut values = vec![];
        for row in 0..rows.len() {
            let next = (row + 1) % rows.len();
            window.set(0, &rows[row], aux[row]);
            window.set(1, &rows[next], aux[next]);
            values.clear();
            (0..4).for_each(|group| values.extend(self.group(group, &window)));
            each(row, &values);
        }
    }

    /// All values of `walk`.
    pub fn all(&self, rows: &[Row], aux: &[Ext], challenges: &Challenges) -> Vec<ConstraintValue> {
        let mut all = vec![];
        self.walk(rows, aux, challenges, |value| {
            all.push(value);
            true
        });
        all
    }

    /// The check's verdict: the first value that is not zero, if there is one.
    pub fn verdict(&self, rows: &[Row], aux: &[Ext], challenges: &Challenges) -> Option<ConstraintValue> {
        let mut first = None;
        self.walk(rows, aux, challenges, |value| {
            if value.value != [0; 3] {
                first = Some(value);
            }
            first.is_none()
        });
        first
    }
}
