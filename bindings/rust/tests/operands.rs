//! A stored operand is the sum of byte i times 256^i over its eight bytes, and no other byte counts.
mod common;

use common::{height, lent, Random};
use u32_table::opcodes::{AND, POW};
use u32_table::{Entry, Refusal, P};
use Refusal::*;

/// The bytes of a stored list of these entries: opcode, LHS and RHS each, all with this multiplicity, of four bytes or of eight.
fn stored(entries: &[(u8, [u8; 8], [u8; 8])], height: usize, multiplicity: &[u8]) -> Vec<u8> {
    let mut bytes = [(entries.len() as u32).to_le_bytes(), (height as u32).to_le_bytes()].concat();
    for (opcode, left, right) in entries {
        bytes.push(*opcode);
        bytes.extend(left);
        bytes.extend(right);
    }
    entries.iter().for_each(|_| bytes.extend(multiplicity));
    bytes
}

/// Reads a list of n entries: the words of its keys, or the reason. The multiplicities are compared.
fn keys_read(bytes: &[u8], n: usize, multiplicity: u64) -> Result<Vec<u64>, Refusal> {
    let mut list = lent(n, &[]);
    let answer = list.read(bytes);
    match answer {
        Ok(used) => assert_eq!((used, list.sizes.used, &list.multiplicities), (n, n, &vec![multiplicity; n])),
        Err(_) => assert_eq!(list, lent(n, &[])),
    }
    answer.map(|_| list.keys)
}

/// The base of pow that is read from these bytes. The opcode stands before them; after them, in RHS and the multiplicity, stand `others`.
fn left_operand(left: [u8; 8], others: u8) -> Result<u64, Refusal> {
    let right = [others, others, others, others, 0, 0, 0, 0];
    let exponent = u64::from(u32::from_le_bytes([others; 4]));
    let read = |multiplicity: &[u8]| {
        let bytes = stored(&[(POW as u8, left, right)], height(Entry::new(POW, 0, exponent)), multiplicity);
        let keys = keys_read(&bytes, 1, exponent)?;
        assert_eq!((keys[0], keys[2]), (POW, exponent));
        Ok(keys[1])
    };
    let (old, new) = (read(&[others; 4]), read(&right));
    assert_eq!(old, new);
    new
}

#[test]
fn left_operands() {
    let cases = [
        ([0, 0, 0, 0, 0, 0, 0, 0], Ok(0)),
        ([1, 0, 0, 0, 0, 0, 0, 0], Ok(1)),
        ([0, 1, 0, 0, 0, 0, 0, 0], Ok(256)),
        ([0, 0, 0, 0, 1, 0, 0, 0], Ok(4294967296)),
        ([0, 0, 0, 0, 0, 0, 0, 1], Ok(72057594037927936)),
        ([1, 2, 3, 4, 5, 6, 7, 8], Ok(578437695752307201)),
        ([8, 7, 6, 5, 4, 3, 2, 1], Ok(72623859790382856)),
        ([255, 255, 255, 255, 0, 0, 0, 0], Ok(4294967295)),
        ([0, 0, 0, 0, 255, 255, 255, 255], Ok(18446744069414584320)),
        // p, and the largest word
        ([1, 0, 0, 0, 255, 255, 255, 255], Err(Wide)),
        ([255, 255, 255, 255, 255, 255, 255, 255], Err(Wide)),
    ];
    for (bytes, due) in cases {
        for others in [0, 0xee, 0xff] {
            assert_eq!(left_operand(bytes, others), due, "{bytes:?} {others}");
        }
    }
}

/// Each byte by itself, with every value.
#[test]
fn one_byte() {
    for (i, place) in
        [1, 256, 65536, 16777216, 4294967296, 1099511627776, 281474976710656, 72057594037927936].into_iter().enumerate()
    {
        for value in 0..=255 {
            let mut bytes = [0; 8];
            bytes[i] = value;
            assert_eq!(left_operand(bytes, 0xee), Ok(u64::from(value) * place), "byte {i}");
        }
    }
}

#[test]
fn right_operands() {
    let cases = [
        ([0, 0, 0, 0, 0, 0, 0, 0], Ok(0)),
        ([1, 0, 0, 0, 0, 0, 0, 0], Ok(1)),
        ([0, 1, 0, 0, 0, 0, 0, 0], Ok(256)),
        ([1, 2, 3, 4, 0, 0, 0, 0], Ok(67305985)),
        ([255, 255, 255, 255, 0, 0, 0, 0], Ok(4294967295)),
        ([0, 0, 0, 0, 1, 0, 0, 0], Err(Wide)),
        ([0, 0, 0, 0, 0, 0, 0, 1], Err(Wide)),
    ];
    for (right, due) in cases {
        // p − 1 stands before it, and the largest multiplicity of each width after it
        let left = (P - 1).to_le_bytes();
        for (count, multiplicity) in [(&[255; 4][..], 4294967295), (&left, P - 1)] {
            let bytes = stored(&[(POW as u8, left, right)], height(Entry::new(POW, 0, due.unwrap_or(0))), count);
            assert_eq!(keys_read(&bytes, 1, multiplicity), due.map(|word| vec![POW, P - 1, word]), "{right:?}");
        }
    }
}

/// A list that fills its places, every word drawn at random.
#[test]
fn at_every_place() {
    let mut random = Random(5);
    let entries: Vec<Entry> = (0..u32_table::MAX_PLACES)
        .map(|i| match i % 2 {
            0 => Entry::new(POW, random.below(P), random.operand()),
            _ => Entry::new(AND, random.below(1 << 32), i as u64),
        })
        .collect();
    let keys: Vec<_> =
        entries.iter().map(|e| (e.opcode as u8, e.left_operand.to_le_bytes(), e.right_operand.to_le_bytes())).collect();
    let due: Vec<u64> = entries.iter().flat_map(|e| [e.opcode, e.left_operand, e.right_operand]).collect();
    for (count, multiplicity) in [(&[4, 3, 2, 1][..], 16909060), (&[8, 7, 6, 5, 4, 3, 2, 1], 72623859790382856)] {
        let bytes = stored(&keys, entries.iter().map(|e| height(*e)).sum(), count);
        assert_eq!(keys_read(&bytes, entries.len(), multiplicity), Ok(due.clone()));
    }
}
