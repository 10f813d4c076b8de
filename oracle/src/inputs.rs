//! Pseudo-random lists, tables and challenges, with the edges among them often.
use crate::*;

/// SplitMix64: the same inputs for the same seed.
pub struct Random(pub u64);

impl Random {
    pub fn word(&mut self) -> u64 {
        self.0 = self.0.wrapping_add(0x9e37_79b9_7f4a_7c15);
        let z = (self.0 ^ self.0 >> 30).wrapping_mul(0xbf58_476d_1ce4_e5b9);
        let z = (z ^ z >> 27).wrapping_mul(0x94d0_49bb_1331_11eb);
        z ^ z >> 31
    }

    pub fn below(&mut self, n: u64) -> u64 {
        self.word() % n
    }

    pub fn one_of<T: Copy>(&mut self, choices: &[T]) -> T {
        choices[self.below(choices.len() as u64) as usize]
    }

    /// Below 2^32: 0, 1, numbers of any bit length, 2^k - 1, 2^k, 2^k + 1, 2^32 - 1.
    pub fn operand(&mut self) -> u64 {
        let power = 1 << self.below(33);
        match self.below(8) {
            0 => self.below(4),
            1 => power - 1,
            2 => power % (1 << 32),
            3 => (power + 1) % (1 << 32),
            4 => (1 << 32) - 1,
            _ => self.below(power),
        }
    }

    /// Below p: 0, 1, p - 1, small numbers, and any.
    pub fn element(&mut self) -> u64 {
        match self.below(8) {
            0 => 0,
            1 => 1,
            2 => P - 1,
            3 => self.below(40),
            4 => self.operand(),
            _ => self.below(P),
        }
    }

    /// An admitted key.
    pub fn key(&mut self) -> Key {
        let opcode = self.one_of(&OPCODES);
        let lhs = match opcode {
            30 => self.element(),
            12 => self.operand().max(1),
            _ => self.operand(),
        };
        [opcode, lhs, self.operand()]
    }

    /// An admitted entry, with a multiplicity from 0 to p - 1.
    pub fn entry(&mut self) -> Entry {
        let multiplicity = if self.below(2) == 0 { self.operand() } else { self.element() };
        Entry { key: self.key(), multiplicity }
    }

    /// An admitted list of at most `most` entries; in every third or so, keys are repeated.
    pub fn list(&mut self, most: u64) -> Vec<Entry> {
        let n = self.below(most + 1);
        let mut list: Vec<Entry> = (0..n).map(|_| self.entry()).collect();
        if n > 1 && self.below(3) == 0 {
            for _ in 0..=self.below(n) {
                let key = self.one_of(&list).key;
                let i = self.below(n) as usize;
                list[i].key = key;
            }
        }
        list
    }

    pub fn challenges(&mut self) -> Challenges {
        std::array::from_fn(|_| self.below(P))
    }

    pub fn ext(&mut self) -> Ext {
        std::array::from_fn(|_| self.element())
    }

    /// A row that no filler made: flags 0, 1 and others, opcodes of the six and others, any words below p.
    pub fn foreign_row(&mut self) -> Row {
        let mut row: Row = std::array::from_fn(|_| self.element());
        row[0] = self.one_of(&[0, 0, 1, 1, 2, P - 1, row[0]]);
        row[3] = self.one_of(&[4, 6, 12, 14, 28, 30, 20, row[3]]);
        row
    }
}
