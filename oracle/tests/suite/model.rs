//! Document 01 written down a second time, as plainly as can be, with an arithmetic of its own: it uses neither the original nor a
//! stand-in, so that a fault in either shows as a difference.
use oracle::{Challenges, Entry, Ext, OPCODES, P, Row};

// ----------------------------------------------------------------------------------------------------------------- elements

pub fn add(a: u64, b: u64) -> u64 {
    ((a as u128 + b as u128) % P as u128) as u64
}

pub fn sub(a: u64, b: u64) -> u64 {
    add(a, P - b)
}

pub fn mul(a: u64, b: u64) -> u64 {
    ((a as u128 * b as u128) % P as u128) as u64
}

pub fn power(base: u64, exponent: u64) -> u64 {
    (0..64).rev().fold(1, |x, bit| mul(mul(x, x), if exponent >> bit & 1 == 1 { base } else { 1 }))
}

pub fn inverse_or_zero(a: u64) -> u64 {
    power(a, P - 2)
}

pub fn xadd(a: Ext, b: Ext) -> Ext {
    std::array::from_fn(|i| add(a[i], b[i]))
}

pub fn xsub(a: Ext, b: Ext) -> Ext {
    std::array::from_fn(|i| sub(a[i], b[i]))
}

/// By school, then X^4 and X^3 replaced by X^2 - X and X - 1.
pub fn xmul(a: Ext, b: Ext) -> Ext {
    let mut product = [0; 5];
    for i in 0..3 {
        for j in 0..3 {
            product[i + j] = add(product[i + j], mul(a[i], b[j]));
        }
    }
    for k in [4, 3] {
        product[k - 2] = add(product[k - 2], product[k]);
        product[k - 3] = sub(product[k - 3], product[k]);
    }
    [product[0], product[1], product[2]]
}

pub fn scale(factor: u64, a: Ext) -> Ext {
    a.map(|word| mul(factor, word))
}

/// a^p * a^(p^2), divided by a * a^p * a^(p^2), which is a base element.
pub fn xinverse(a: Ext) -> Ext {
    let to_p = |a: Ext| (0..64).rev().fold([1, 0, 0], |x, bit| xmul(xmul(x, x), if P >> bit & 1 == 1 { a } else { [1, 0, 0] }));
    let others = xmul(to_p(a), to_p(to_p(a)));
    let [norm, 0, 0] = xmul(a, others) else { panic!("the norm is a base element") };
    assert_ne!(0, norm, "an inverse of zero");
    scale(inverse_or_zero(norm), others)
}

// ------------------------------------------------------------------------------------------------------ the table's content

pub fn height([opcode, lhs, rhs]: [u64; 3]) -> u64 {
    match if opcode == 30 { rhs } else { lhs.max(rhs) } {
        0 => 1,
        dominant => 2 + dominant.ilog2() as u64,
    }
}

/// The plain functions; 0 for split.
pub fn plain_result([opcode, lhs, rhs]: [u64; 3]) -> u64 {
    match opcode {
        4 => 0,
        6 => (lhs < rhs) as u64,
        12 => lhs.ilog2() as u64,
        14 => lhs & rhs,
        28 => lhs.count_ones() as u64,
        30 => power(lhs, rhs),
        _ => panic!("not of the six"),
    }
}

pub fn section(entry: &Entry) -> Vec<Row> {
    let [opcode, lhs, rhs] = entry.key;
    rows_from(opcode, 0, lhs, rhs, 1, entry.multiplicity)
}

fn rows_from(opcode: u64, bits: u64, lhs: u64, rhs: u64, copy_flag: u64, multiplicity: u64) -> Vec<Row> {
    let is_pow = opcode == 30;
    let bits_inverse = inverse_or_zero(sub(bits, 33));
    let inverses = [lhs, rhs].map(inverse_or_zero);
    let row = |result| [copy_flag, bits, bits_inverse, opcode, lhs, inverses[0], rhs, inverses[1], result, multiplicity];
    if rhs == 0 && (lhs == 0 || is_pow) {
        let result = match opcode {
            6 if bits == 0 => 0,
            6 => 2,
            12 => P - 1,
            30 => 1,
            _ => 0,
        };
        return vec![row(result)];
    }
    let below = rows_from(opcode, bits + 1, if is_pow { lhs } else { lhs / 2 }, rhs / 2, 0, 0);
    let (lhs_below, result) = (below[0][4], below[0][8]);
    let (lhs_bit, rhs_bit) = (lhs % 2, rhs % 2);
    let carried = match opcode {
        4 => result,
        6 if result != 2 => result,
        6 if lhs_bit != rhs_bit => (lhs_bit < rhs_bit) as u64,
        6 if copy_flag == 1 => 0,
        6 => 2,
        12 if lhs == 0 => P - 1,
        12 if lhs_below != 0 => result,
        12 => bits,
        14 => add(mul(2, result), lhs_bit * rhs_bit),
        28 => add(result, lhs_bit),
        30 if rhs_bit == 0 => mul(result, result),
        30 => mul(mul(result, result), lhs),
        _ => panic!("not of the six"),
    };
    [vec![row(carried)], below].concat()
}

/// The padding row after these filled rows.
pub fn padding(filled: &[Row]) -> Row {
    let mut row = [0, 0, inverse_or_zero(P - 33), 4, 0, 0, 0, 0, 0, 0];
    if let Some(last) = filled.last() {
        for column in [3, 4, 5, 8] {
            row[column] = last[column];
        }
        if last[3] == 6 {
            row[8] = 2;
        }
    }
    row
}

pub fn denominator(row: &Row, challenges: &Challenges) -> Ext {
    let challenge = |i: usize| -> Ext { challenges[3 * i..3 * i + 3].try_into().unwrap() };
    let [_, _, _, ci, lhs, _, rhs, _, result, _] = *row;
    let weighted = [(lhs, 1), (rhs, 2), (ci, 3), (result, 4)];
    weighted.iter().fold(challenge(0), |rest, &(word, i)| xsub(rest, scale(word, challenge(i))))
}

/// The running sums.
pub fn sums(rows: &[Row], challenges: &Challenges) -> Vec<Ext> {
    let mut sum = [0; 3];
    let sum_at = |row: &Row| {
        if row[0] == 1 {
            sum = xadd(sum, scale(row[9], xinverse(denominator(row, challenges))));
        }
        sum
    };
    rows.iter().map(sum_at).collect()
}

// ---------------------------------------------------------------------------------------------------------- the constraints

fn product(factors: &[u64]) -> u64 {
    factors.iter().fold(1, |x, &factor| mul(x, factor))
}

/// The factor that is zero at the other five opcodes.
fn deselector(ci: u64, opcode: u64) -> u64 {
    let others: Vec<u64> = OPCODES.into_iter().filter(|&other| other != opcode).map(|other| sub(ci, other)).collect();
    product(&others)
}

/// A group's values, in the order of source document 001.
pub fn constraints(group: usize, rows: [&Row; 2], aux: [Ext; 2], challenges: &Challenges) -> Vec<Ext> {
    let base = |value: u64| [value, 0, 0];
    let [copy_flag, bits, bits_inverse, ci, lhs, lhs_inv, rhs, rhs_inv, result, multiplicity] = *rows[0];
    let (lhs_is_0, rhs_is_0) = (sub(1, mul(lhs, lhs_inv)), sub(1, mul(rhs, rhs_inv)));
    match group {
        0 => {
            let accumulated = xsub(xmul(aux[0], denominator(rows[0], challenges)), base(multiplicity));
            vec![xadd(scale(sub(copy_flag, 1), aux[0]), scale(copy_flag, accumulated))]
        }
        1 => {
            let values = [
                mul(copy_flag, sub(1, copy_flag)),
                mul(copy_flag, bits),
                sub(1, mul(bits_inverse, sub(bits, 33))),
                mul(lhs_inv, lhs_is_0),
                mul(lhs, lhs_is_0),
                mul(rhs_inv, rhs_is_0),
                mul(rhs, rhs_is_0),
                product(&[deselector(ci, 6), sub(copy_flag, 1), lhs_is_0, rhs_is_0, sub(result, 2)]),
                product(&[deselector(ci, 6), copy_flag, lhs_is_0, rhs_is_0, result]),
                product(&[deselector(ci, 14), lhs_is_0, rhs_is_0, result]),
                product(&[deselector(ci, 30), rhs_is_0, sub(result, 1)]),
                product(&[deselector(ci, 12), sub(copy_flag, 1), lhs_is_0, add(result, 1)]),
                product(&[deselector(ci, 28), lhs_is_0, result]),
                product(&[deselector(ci, 12), copy_flag, lhs_is_0]),
                mul(sub(copy_flag, 1), multiplicity),
            ];
            values.map(base).to_vec()
        }
        2 => {
            let [next_copy_flag, next_bits, _, next_ci, next_lhs, next_lhs_inv, next_rhs, _, next_result, next_multiplicity] =
                *rows[1];
            let stays = sub(next_copy_flag, 1);
            let (lhs_bit, rhs_bit) = (sub(lhs, mul(2, next_lhs)), sub(rhs, mul(2, next_rhs)));
            let is_not_pow = sub(ci, 30);
            let bits_step = sub(sub(next_bits, bits), 1);
            let bits_agree = add(sub(sub(1, lhs_bit), rhs_bit), mul(2, mul(lhs_bit, rhs_bit)));
            let of = |opcode: u64, factors: &[u64]| product(&[stays, deselector(next_ci, opcode), product(factors)]);
            let unknown = mul(next_result, sub(next_result, 1));
            let squared = mul(next_result, next_result);
            let values = [
                product(&[next_copy_flag, lhs, is_not_pow]),
                product(&[next_copy_flag, rhs]),
                product(&[stays, sub(next_ci, ci)]),
                product(&[stays, lhs, is_not_pow, bits_step]),
                product(&[stays, rhs, bits_step]),
                product(&[stays, is_not_pow, lhs_bit, sub(lhs_bit, 1)]),
                product(&[stays, rhs_bit, sub(rhs_bit, 1)]),
                of(6, &[sub(next_result, 1), sub(next_result, 2), result]),
                of(6, &[next_result, sub(next_result, 2), sub(result, 1)]),
                of(6, &[unknown, sub(lhs_bit, 1), rhs_bit, sub(result, 1)]),
                of(6, &[unknown, lhs_bit, sub(rhs_bit, 1), result]),
                of(6, &[unknown, bits_agree, sub(copy_flag, 1), sub(result, 2)]),
                of(6, &[unknown, bits_agree, copy_flag, result]),
                of(14, &[sub(sub(result, mul(2, next_result)), mul(lhs_bit, rhs_bit))]),
                of(12, &[sub(1, mul(next_lhs, next_lhs_inv)), lhs, sub(result, bits)]),
                of(12, &[next_lhs, sub(next_result, result)]),
                of(30, &[sub(next_lhs, lhs)]),
                of(30, &[sub(rhs_bit, 1), sub(result, squared)]),
                of(30, &[rhs_bit, sub(result, mul(squared, lhs))]),
                of(28, &[sub(sub(result, next_result), lhs_bit)]),
            ];
            let difference = xsub(aux[1], aux[0]);
            let added = xsub(xmul(difference, denominator(rows[1], challenges)), base(next_multiplicity));
            [values.map(base).to_vec(), vec![scale(stays, difference), scale(next_copy_flag, added)]].concat()
        }
        3 => vec![base(mul(lhs, sub(ci, 30))), base(rhs)],
        _ => panic!("no such group"),
    }
}

/// Demand 3's first half, on a table that the check found zero: what each CopyFlag 1 row holds, and the last sum.
pub fn assert_sound(rows: &[Row], aux: &[Ext], challenges: &Challenges) {
    for row in rows.iter().filter(|row| row[0] == 1) {
        let [_, _, _, ci, lhs, _, rhs, _, result, _] = *row;
        assert!(rhs < 1 << 32, "{row:?}");
        assert!(lhs < 1 << 32 || ci == 30, "{row:?}");
        assert!(lhs != 0 || ci != 12, "{row:?}");
        if [6, 12, 14, 28, 30].contains(&ci) {
            assert_eq!(plain_result([ci, lhs, rhs]), result, "{row:?}");
        }
    }
    assert_eq!(sums(rows, challenges).last(), aux.last());
}
