//! The forty polynomials and the extension inverse written out by hand in Rust, over the stand-in's elements: a fair measure where the
//! stand-ins are none. The stand-in circuit builder walks a tree for each constraint; the original generates code in which equal parts
//! are computed once. Here, too, they are: each row's deselectors, low bits and factors once. The stand-in inverts an extension element
//! by elimination; here it is done with one base inverse.
use twenty_first::prelude::*;

pub type B = BFieldElement;
pub type X = XFieldElement;

pub struct Weights {
    pub indeterminate: X,
    pub lhs: X,
    pub rhs: X,
    pub ci: X,
    pub result: X,
}

impl Weights {
    pub fn new(words: &[u64]) -> Self {
        let x = |i: usize| X::new([words[3 * i], words[3 * i + 1], words[3 * i + 2]].map(B::new));
        Self { indeterminate: x(0), lhs: x(1), rhs: x(2), ci: x(3), result: x(4) }
    }

    #[inline]
    fn denominator(&self, row: &[B]) -> X {
        self.indeterminate - (self.lhs * row[LHS] + self.rhs * row[RHS] + self.ci * row[CI] + self.result * row[RESULT])
    }
}

const FLAG: usize = 0;
const BITS: usize = 1;
const BITS_INV: usize = 2;
const CI: usize = 3;
const LHS: usize = 4;
const LHS_INV: usize = 5;
const RHS: usize = 6;
const RHS_INV: usize = 7;
const RESULT: usize = 8;
const COUNT: usize = 9;

/// The products of all but one of CI - opcode.
struct Deselectors {
    lt: B,
    and: B,
    log: B,
    pow: B,
    pop: B,
}

#[inline]
fn b(n: u64) -> B {
    B::new(n)
}

impl Deselectors {
    #[inline]
    fn new(ci: B) -> Self {
        let [split, lt, and, log, pow, pop] = [4, 6, 14, 12, 30, 28].map(|opcode| ci - b(opcode));
        let (split_lt, pow_pop) = (split * lt, pow * pop);
        let (first, last) = (split_lt * and, log * pow_pop);
        let first_log = first * log;
        Self { lt: split * and * last, and: split_lt * last, log: first * pow_pop, pow: first_log * pop, pop: first_log * pow }
    }
}

pub fn initial(weights: &Weights, row: &[B], sum: X) -> X {
    (sum * weights.denominator(row) - row[COUNT]) * row[FLAG] + sum * (row[FLAG] - b(1))
}

#[inline]
pub fn consistency(row: &[B]) -> [B; 15] {
    let one = b(1);
    let flag_minus_1 = row[FLAG] - one;
    let lhs = one - row[LHS] * row[LHS_INV];
    let rhs = one - row[RHS] * row[RHS_INV];
    let both = lhs * rhs;
    let d = Deselectors::new(row[CI]);
    let (lt, log) = (d.lt * both, d.log * lhs);
    [
        row[FLAG] * (one - row[FLAG]),
        row[FLAG] * row[BITS],
        one - row[BITS_INV] * (row[BITS] - b(33)),
        row[LHS_INV] * lhs,
        row[LHS] * lhs,
        row[RHS_INV] * rhs,
        row[RHS] * rhs,
        lt * flag_minus_1 * (row[RESULT] - b(2)),
        lt * row[FLAG] * row[RESULT],
        d.and * both * row[RESULT],
        d.pow * rhs * (row[RESULT] - one),
        log * flag_minus_1 * (row[RESULT] + one),
        d.pop * lhs * row[RESULT],
        log * row[FLAG],
        flag_minus_1 * row[COUNT],
    ]
}

#[inline]
pub fn transition(row: &[B], next: &[B]) -> [B; 20] {
    let one = b(1);
    let two = b(2);
    let flag = next[FLAG];
    let goes_on = flag - one;
    let not_pow = row[CI] - b(30);
    let lhs_bit = row[LHS] - two * next[LHS];
    let rhs_bit = row[RHS] - two * next[RHS];
    let bits = lhs_bit * rhs_bit;
    let equal = one - lhs_bit - rhs_bit + two * bits;
    let increase = next[BITS] - row[BITS] - one;
    let d = Deselectors::new(next[CI]);
    let [lt, and, log, pow, pop] = [d.lt, d.and, d.log, d.pow, d.pop].map(|deselector| goes_on * deselector);
    let (result, below) = (row[RESULT], next[RESULT]);
    let (result_1, result_2, below_1, below_2) = (result - one, result - two, below - one, below - two);
    let open = lt * below * below_1;
    let open_equal = open * equal;
    let square = below * below;
    [
        flag * row[LHS] * not_pow,
        flag * row[RHS],
        goes_on * (next[CI] - row[CI]),
        goes_on * row[LHS] * not_pow * increase,
        goes_on * row[RHS] * increase,
        goes_on * not_pow * lhs_bit * (lhs_bit - one),
        goes_on * rhs_bit * (rhs_bit - one),
        lt * below_1 * below_2 * result,
        lt * below * below_2 * result_1,
        open * (lhs_bit - one) * rhs_bit * result_1,
        open * lhs_bit * (rhs_bit - one) * result,
        open_equal * (row[FLAG] - one) * result_2,
        open_equal * row[FLAG] * result,
        and * (result - two * below - bits),
        log * (one - next[LHS] * next[LHS_INV]) * row[LHS] * (result - row[BITS]),
        log * next[LHS] * (below - result),
        pow * (next[LHS] - row[LHS]),
        pow * (rhs_bit - one) * (result - square),
        pow * rhs_bit * (result - square * row[LHS]),
        pop * (result - below - lhs_bit),
    ]
}

#[inline]
pub fn running_sum(weights: &Weights, next: &[B], sum: X, sum_next: X) -> [X; 2] {
    let step = sum_next - sum;
    [step * (next[FLAG] - b(1)), (step * weights.denominator(next) - next[COUNT]) * next[FLAG]]
}

pub fn terminal(row: &[B]) -> [B; 2] {
    [row[LHS] * (row[CI] - b(30)), row[RHS]]
}

/// Group by group, row by row, to the first that is not zero: whether there is none.
pub fn check(table: &[B], aux: &[X], weights: &Weights) -> bool {
    let zero = b(0);
    let nothing = X::new([zero; 3]);
    let rows = table.len() / 10;
    let row = |i: usize| &table[10 * i..10 * i + 10];
    let are_zero = |values: &[B]| values.iter().all(|&value| value == zero);
    initial(weights, row(0), aux[0]) == nothing
        && (0..rows).all(|i| are_zero(&consistency(row(i))))
        && (0..rows - 1).all(|i| {
            are_zero(&transition(row(i), row(i + 1)))
                && running_sum(weights, row(i + 1), aux[i], aux[i + 1]).iter().all(|&value| value == nothing)
        })
        && are_zero(&terminal(row(rows - 1)))
}

/// The same, with each row's values handed out as extension elements in a vector before they are looked at.
pub fn check_collected(table: &[B], aux: &[X], weights: &Weights) -> bool {
    let zero = b(0);
    let nothing = X::new([zero; 3]);
    let rows = table.len() / 10;
    let row = |i: usize| &table[10 * i..10 * i + 10];
    let lifted = |values: &[B]| values.iter().map(|value| value.lift()).collect::<Vec<X>>();
    let are_zero = |values: Vec<X>| values.iter().all(|&value| value == nothing);
    initial(weights, row(0), aux[0]) == nothing
        && (0..rows).all(|i| are_zero(lifted(&consistency(row(i)))))
        && (0..rows - 1).all(|i| {
            let mut values = lifted(&transition(row(i), row(i + 1)));
            values.extend(running_sum(weights, row(i + 1), aux[i], aux[i + 1]));
            are_zero(values)
        })
        && are_zero(lifted(&terminal(row(rows - 1))))
}

/// The running sum at each row.
pub fn extend(table: &[B], aux: &mut [X], weights: &Weights) {
    let mut sum = X::new([b(0); 3]);
    for (row, aux) in table.chunks_exact(10).zip(aux) {
        if row[FLAG] == b(1) {
            sum += row[COUNT] * ext_inverse(weights.denominator(row));
        }
        *aux = sum;
    }
}

/// The same with the judging that our contract demands, before the first sum is written: every word is below p, and no CopyFlag 1 row's
/// denominator is zero.
pub fn extend_judged(table: &[B], aux: &mut [X], weights: &Weights) -> bool {
    let nothing = X::new([b(0); 3]);
    if table.iter().any(|word| word.value() >= B::P) {
        return false;
    }
    if table.chunks_exact(10).any(|row| row[FLAG] == b(1) && weights.denominator(row) == nothing) {
        return false;
    }
    extend(table, aux, weights);
    true
}

/// The adjugate over the norm: one inverse of a base element.
pub fn ext_inverse(x: X) -> X {
    let [a, b, c] = x.coefficients;
    let (s, d) = (a + c, b - c);
    let [e, f, g] = [s * s - b * d, c * d - b * s, b * b - c * s];
    let norm = a * e - (b * g + c * f);
    X::new([e, f, g]) * norm.inverse()
}

/// The plain function of an instruction; 0 for split.
#[inline]
fn plain_result([opcode, lhs, rhs]: [u64; 3]) -> B {
    b(match opcode {
        6 => (lhs < rhs) as u64,
        14 => lhs & rhs,
        12 => lhs.ilog2().into(),
        28 => lhs.count_ones().into(),
        30 => {
            let (mut power, mut square, mut rest) = (b(1), b(lhs), rhs);
            while rest != 0 {
                if rest % 2 == 1 {
                    power = power * square;
                }
                square = square * square;
                rest /= 2;
            }
            return power;
        }
        _ => 0,
    })
}

/// The client's sum over requests that are admitted, with no denominator that is zero: it judges nothing.
pub fn client_sum(requests: &[[u64; 3]], weights: &Weights) -> X {
    let inverse = |&[opcode, lhs, rhs]: &[u64; 3]| {
        let row = weights.lhs * b(lhs)
            + weights.rhs * b(rhs)
            + weights.ci * b(opcode)
            + weights.result * plain_result([opcode, lhs, rhs]);
        ext_inverse(weights.indeterminate - row)
    };
    requests.iter().map(inverse).fold(X::new([b(0); 3]), |sum, inverse| sum + inverse)
}

/// The running sum of a lookup table over input, output and multiplicity, with the judging that our contract demands.
pub fn lookup_sum(n: usize, summand: impl Fn(usize) -> (u64, u64, u64), challenges: &[u64], sums: &mut [X]) -> bool {
    let [input_weight, output_weight, indeterminate] =
        [0, 3, 6].map(|i| X::new([i, i + 1, i + 2].map(|word| b(challenges[word]))));
    let denominator = |input, output| indeterminate - (input_weight * b(input) + output_weight * b(output));
    let nothing = X::new([b(0); 3]);
    let is_wrong = |i| {
        let (input, output, multiplicity) = summand(i);
        multiplicity >= B::P || denominator(input, output) == nothing
    };
    if challenges.iter().any(|&word| word >= B::P) || (0..n).any(is_wrong) {
        return false;
    }
    let mut sum = nothing;
    for (i, so_far) in sums[..n].iter_mut().enumerate() {
        let (input, output, multiplicity) = summand(i);
        sum += b(multiplicity) * ext_inverse(denominator(input, output));
        *so_far = sum;
    }
    true
}

/// Rows of so many words, as bytes column by column.
fn put_columns(words: &[u64], width: usize, out: &mut [u8]) {
    for (column, bytes) in out.chunks_exact_mut(8 * (words.len() / width)).enumerate() {
        for (bytes, row) in bytes.as_chunks_mut::<8>().0.iter_mut().zip(words.chunks_exact(width)) {
            *bytes = row[column].to_le_bytes();
        }
    }
}

/// A table of one row or more with its sums, columns side by side, with the judging that our contract demands.
pub fn archive(table: &[u64], aux: &[u64], out: &mut [u8]) -> bool {
    if table.iter().chain(aux).any(|&word| word >= B::P) {
        return false;
    }
    let rows = table.len() / 10;
    let (count, columns) = out.split_at_mut(8);
    count.copy_from_slice(&(rows as u64).to_le_bytes());
    let (main, sums) = columns.split_at_mut(80 * rows);
    put_columns(table, 10, main);
    put_columns(aux, 3, sums);
    true
}

/// Words in columns, row by row.
fn take_rows(words: &[[u8; 8]], width: usize, to: &mut [u64]) {
    let rows = to.len() / width;
    for (i, row) in to.chunks_exact_mut(width).enumerate() {
        for (column, word) in row.iter_mut().enumerate() {
            *word = u64::from_le_bytes(words[rows * column + i]);
        }
    }
}

/// The inverse, onto as many rows, with the judging too.
pub fn restore(bytes: &[u8], table: &mut [u64], aux: &mut [u64]) -> bool {
    let [count, words @ ..] = bytes.as_chunks::<8>().0 else { return false };
    let wrong = words.len() != table.len() + aux.len() || u64::from_le_bytes(*count) != table.len() as u64 / 10;
    if wrong || words.iter().any(|&word| u64::from_le_bytes(word) >= B::P) {
        return false;
    }
    take_rows(&words[..table.len()], 10, table);
    take_rows(&words[table.len()..], 3, aux);
    true
}
