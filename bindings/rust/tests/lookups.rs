//! The byte lookup and the cascade: every output, recordings beside a map, the law on their totals, the refusals in their order, and the sums.
mod common;

use common::Random;
use std::collections::{BTreeMap, BTreeSet};
use u32_table::{byte_lookup, byte_sum, cascade_lookup, cascade_sum, look_up, Lookups, Refusal, Sizes, MAX_CASCADE_PLACES, P};
use Refusal::*;

const MOST: u64 = P - 1;

#[test]
fn every_output() {
    let outputs: Vec<u8> = (0..=255).map(byte_lookup).collect();
    for (i, &output) in outputs.iter().enumerate() {
        assert_eq!(output as usize, ((i + 1).pow(3) - 1) % 257);
    }
    assert_eq!(outputs.iter().collect::<BTreeSet<_>>().len(), 256);
    for value in 0..=u16::MAX {
        let [high, low] = value.to_be_bytes();
        assert_eq!(cascade_lookup(value), u16::from_be_bytes([byte_lookup(high), byte_lookup(low)]));
    }
}

/// All values, and values again, beside a map; then one more place than there are values is refused.
#[test]
fn a_full_cascade() {
    let mut lookups = Lookups::new(MAX_CASCADE_PLACES).unwrap();
    for i in 0..MAX_CASCADE_PLACES as u32 {
        lookups.look_up((40503 * i) as u16).unwrap();
    }
    assert_eq!(lookups.byte_multiplicities(), &[512; 256]);
    lookups.look_up(7).unwrap();
    assert_eq!(lookups.byte_multiplicities(), &[512; 256]);
    assert_eq!(lookups.values().map(|(_, multiplicity)| multiplicity).sum::<u64>(), 65537);
    assert_eq!(Lookups::new(MAX_CASCADE_PLACES + 1), Err(Shape));
}

#[test]
fn lookups_are_equal_by_their_values() {
    let made = |capacity, values: &[u16]| {
        let mut lookups = Lookups::new(capacity).unwrap();
        values.iter().for_each(|&value| lookups.look_up(value).unwrap());
        lookups
    };
    let [small, mut large] = [3, 900].map(|capacity| made(capacity, &[258, 257, 258]));
    assert_eq!((&small, small.sizes() == large.sizes()), (&large, false));
    assert_eq!(small, small.clone());
    // a multiplicity, a value, their order
    large.look_up(257).unwrap();
    assert_ne!(small, large);
    assert_ne!(small, made(3, &[258, 257, 258, 0]));
    assert_ne!(small, made(3, &[257, 258, 258]));
    assert_eq!(Lookups::new(0), Lookups::new(7));
    // 0 was looked up, or nothing
    assert_ne!(made(1, &[0]), made(1, &[]));
}

/// Refused recordings among them: the byte multiplicities total twice the number of distinct accepted values.
#[test]
fn twice_the_distinct_accepted_values() {
    let mut random = Random(3);
    for capacity in [0, 1, 2, 5, 300, 900] {
        let mut lookups = Lookups::new(capacity).unwrap();
        let (mut map, mut refused) = (BTreeMap::<u16, u64>::new(), 0);
        for _ in 0..1000 {
            let value = (random.below(900) * 73) as u16;
            match lookups.look_up(value) {
                Ok(()) => *map.entry(value).or_default() += 1,
                Err(reason) => {
                    assert_eq!((reason, map.len(), map.contains_key(&value)), (CascadeFull, capacity, false));
                    refused += 1;
                }
            }
            assert_eq!(lookups.byte_multiplicities().iter().sum::<u64>(), 2 * map.len() as u64);
        }
        assert_eq!(lookups.values().collect::<BTreeMap<_, _>>(), map);
        assert_eq!(refused > 0, capacity < 900);
    }
}

/// Tables that are lent, with any words in them.
#[derive(Clone, PartialEq, Debug)]
struct Lent {
    sizes: Sizes,
    keys: Vec<u16>,
    multiplicities: Vec<u64>,
    bytes: Vec<u64>,
}

impl Lent {
    fn new(capacity: usize, used: usize, keys: &[u16], multiplicities: &[u64], bytes: &[(usize, u64)]) -> Lent {
        let mut lent = Lent {
            sizes: Sizes { capacity, used },
            keys: keys.to_vec(),
            multiplicities: multiplicities.to_vec(),
            bytes: vec![0; 256],
        };
        bytes.iter().for_each(|&(byte, multiplicity)| lent.bytes[byte] = multiplicity);
        lent
    }
    fn look_up(&mut self, value: u16) -> Result<(), Refusal> {
        look_up(&mut self.sizes, &mut self.keys, &mut self.multiplicities, &mut self.bytes, value)
    }
    fn refuses(&mut self, value: u16, reason: Refusal) {
        let before = self.clone();
        assert_eq!(self.look_up(value), Err(reason));
        assert_eq!(*self, before);
    }
    fn becomes(&mut self, value: u16, used: usize, keys: &[u16], multiplicities: &[u64], bytes: &[(usize, u64)]) {
        assert_eq!(self.look_up(value), Ok(()));
        assert_eq!(*self, Lent::new(self.sizes.capacity, used, keys, multiplicities, bytes));
    }
}

#[test]
fn recordings() {
    let mut lent = Lent::new(3, 0, &[9, 9, 9], &[5, 6, 7], &[]);
    lent.becomes(258, 1, &[258, 9, 9], &[1, 6, 7], &[(1, 1), (2, 1)]);
    lent.becomes(258, 1, &[258, 9, 9], &[2, 6, 7], &[(1, 1), (2, 1)]);
    lent.becomes(257, 2, &[258, 257, 9], &[2, 1, 7], &[(1, 3), (2, 1)]);
    lent.becomes(0, 3, &[258, 257, 0], &[2, 1, 1], &[(0, 2), (1, 3), (2, 1)]);
    lent.refuses(511, CascadeFull);
    // the first equal key gains; an equal key at an unused place is not known
    Lent::new(2, 2, &[4, 4], &[1, 1], &[]).becomes(4, 2, &[4, 4], &[2, 1], &[]);
    Lent::new(2, 1, &[1, 2], &[1, 9], &[]).becomes(2, 2, &[1, 2], &[1, 1], &[(0, 1), (2, 1)]);
    Lent::new(0, 0, &[], &[], &[]).refuses(1, CascadeFull);
}

#[test]
fn shapes_come_first() {
    Lent::new(1, 2, &[1], &[MOST], &[]).refuses(1, Shape);
    Lent::new(1, 1, &[], &[MOST], &[]).refuses(1, Shape);
    Lent::new(1, 1, &[1], &[MOST, 1], &[]).refuses(1, Shape);
    Lent::new(65537, 0, &vec![0; 65537], &vec![0; 65537], &[]).refuses(1, Shape);
    for bytes in [0, 255, 257] {
        let mut lent = Lent::new(1, 1, &[1], &[MOST], &[]);
        lent.bytes.resize(bytes, 0);
        lent.refuses(1, Shape);
    }
}

#[test]
fn the_limit() {
    Lent::new(1, 1, &[4], &[MOST], &[]).refuses(4, CountFull);
    Lent::new(1, 1, &[4], &[u64::MAX], &[]).refuses(4, CountFull);
    Lent::new(1, 1, &[4], &[MOST - 1], &[]).becomes(4, 1, &[4], &[MOST], &[]);
    // equal bytes gain two
    Lent::new(1, 0, &[0], &[0], &[(7, MOST - 1)]).refuses(7 * 257, CountFull);
    Lent::new(1, 0, &[0], &[0], &[(7, MOST - 2)]).becomes(7 * 257, 1, &[1799], &[1], &[(7, MOST)]);
    // a byte is full, the high one and the low one, also with any word, and before 14
    for full in [MOST, P, u64::MAX] {
        for capacity in [0, 1] {
            Lent::new(capacity, 0, &vec![0; capacity], &vec![0; capacity], &[(7, full)]).refuses(7 * 256 + 8, CountFull);
            Lent::new(capacity, 0, &vec![0; capacity], &vec![0; capacity], &[(8, full)]).refuses(7 * 256 + 8, CountFull);
        }
    }
    Lent::new(0, 0, &[], &[], &[(7, MOST - 1)]).refuses(7 * 256 + 8, CascadeFull);
    // a known value does not look at its bytes
    Lent::new(1, 1, &[1799], &[1], &[(7, u64::MAX)]).becomes(1799, 1, &[1799], &[2], &[(7, u64::MAX)]);
}

const ONE: [u64; 9] = [0, 0, 0, 0, 0, 0, 1, 0, 0];

#[test]
fn sums_of_bytes() {
    let mut aux = vec![5; 768];
    let mut bytes = vec![0; 256];
    (bytes[1], bytes[255]) = (2, 3);
    assert_eq!(byte_sum(&bytes, &ONE, &mut aux), Ok([5, 0, 0]));
    for byte in 0..256 {
        let sum = if byte == 0 {
            0
        } else if byte < 255 {
            2
        } else {
            5
        };
        assert_eq!(aux[3 * byte..3 * byte + 3], [sum, 0, 0]);
    }
    let all: Vec<u64> = (0..256).collect();
    let challenges: Vec<u64> = (1..=9).collect();
    let expected = [4279221565757743498, 16646812149726268916, 9572774699153734700];
    assert_eq!(byte_sum(&all, &challenges, &mut aux), Ok(expected));
    assert_eq!(aux[765..], expected);
    // 1, then 8, then 9; whatever the multiplicity is; nothing is written
    let kept = aux.clone();
    let mut refuses = |bytes: &[u64], challenges: &[u64], words, reason| {
        assert_eq!(byte_sum(bytes, challenges, &mut aux[..words]), Err(reason));
        assert_eq!(aux, kept);
    };
    let unreduced = [0, 0, P, 0, 0, 0, 0, 0, 0];
    refuses(&all[..255], &unreduced, 768, Shape);
    refuses(&all, &unreduced[..8], 768, Shape);
    refuses(&all, &unreduced, 767, Shape);
    refuses(&all, &unreduced, 768, Unreduced);
    let mut foreign = all.clone();
    foreign[255] = P;
    refuses(&foreign, &[0; 9], 768, Unreduced);
    refuses(&[0; 256], &[1, 0, 0, 0, 0, 0, 255, 0, 0], 768, Flat);
    refuses(&[0; 256], &[0, 0, 0, 1, 0, 0, 7, 0, 0], 768, Flat);
    refuses(&all, &[0; 9], 768, Flat);
}

#[test]
fn sums_of_cascades() {
    let sizes = Sizes { capacity: 3, used: 2 };
    let (keys, challenges) = ([258, 0, 258], (1..=9).collect::<Vec<u64>>());
    let mut aux = [5; 9];
    let last = [15290194053451644138, 12875512383110712106, 6833187814339853869];
    // what stands at the unused place does not count, and its words stay
    assert_eq!(cascade_sum(sizes, &keys, &[2, 1, u64::MAX], &challenges, &mut aux), Ok(last));
    assert_eq!(aux[..3], [12112456093630427113, 11100738296346288245, 8355130955783088856]);
    assert_eq!(aux[3..], [last[0], last[1], last[2], 5, 5, 5]);
    assert_eq!(cascade_sum(sizes, &keys, &[2, 1, 9], &ONE, &mut aux), Ok([3, 0, 0]));
    assert_eq!(aux, [2, 0, 0, 3, 0, 0, 5, 5, 5]);
    assert_eq!(cascade_sum(Sizes { capacity: 3, used: 0 }, &keys, &[P; 3], &ONE, &mut aux), Ok([0; 3]));
    let mut refuses = |sizes, multiplicities: &[u64], challenges: &[u64], words, reason| {
        assert_eq!(cascade_sum(sizes, &keys, multiplicities, challenges, &mut aux[..words]), Err(reason));
        assert_eq!(aux, [2, 0, 0, 3, 0, 0, 5, 5, 5]);
    };
    refuses(sizes, &[P, 1, 0], &[0; 9], 6, Shape);
    refuses(Sizes { capacity: 3, used: 4 }, &[P, 1, 0], &[0; 9], 9, Shape);
    refuses(sizes, &[P, 1, 0], &[0; 8], 9, Shape);
    refuses(sizes, &[P, 1, 0], &[0; 9], 9, Unreduced);
    refuses(sizes, &[2, 1, 0], &[1, 0, 0, 0, 0, 0, 258, 0, 0], 9, Flat);
    refuses(sizes, &[0, 1, 0], &[1, 0, 0, 0, 0, 0, 258, 0, 0], 9, Flat);
    refuses(sizes, &[0, 0, 0], &[0; 9], 9, Flat);
}
