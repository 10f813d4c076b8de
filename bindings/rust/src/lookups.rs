//! The byte lookup and the cascade: their outputs, recordings of 16-bit values, and their running sums.
use crate::refusal::done;
use crate::{sys, Refusal, Sizes, AUX_COLUMNS, BYTE_ROWS, MAX_CASCADE_PLACES};

/// The output of a byte: byte i goes to (i + 1)^3 − 1 modulo 257. No two bytes share an output.
///
/// ```
/// use u32_table::byte_lookup;
/// assert_eq!([0, 1, 2, 255].map(byte_lookup), [0, 7, 26, 255]);
/// ```
pub fn byte_lookup(byte: u8) -> u8 {
    let mut answers = [0];
    // it refuses only too few words of `answers`
    sys::byte_lookup(byte, &mut answers);
    answers[0] as u8
}

/// The output of a 16-bit value: 256 h + l goes to 256 S(h) + S(l), S being [`byte_lookup`].
///
/// ```
/// use u32_table::cascade_lookup;
/// assert_eq!([1, 256, 258, 65279].map(cascade_lookup), [7, 1792, 1818, 63743]);
/// ```
pub fn cascade_lookup(value: u16) -> u16 {
    let mut answers = [0];
    // it refuses only too few words of `answers`
    sys::cascade_lookup(value, &mut answers);
    answers[0] as u16
}

/// Records a 16-bit value: the first equal key's multiplicity gains one; else the value is appended with multiplicity 1, `sizes.used` is one more, and
/// the multiplicities of its two bytes gain one each, which is two where the bytes are equal.
///
/// Keys and multiplicities are one a place, at most [`MAX_CASCADE_PLACES`] places, and the byte multiplicities are [`BYTE_ROWS`]. From fresh tables, with
/// nothing used and byte multiplicities 0, the byte multiplicities always total twice the number of distinct values that were accepted.
///
/// Refusals, in this order: shape; count full, for any multiplicity that would be raised past [`P`](crate::P) − 1, which of a known value is its own
/// alone; cascade full.
///
/// ```
/// use u32_table::{look_up, Refusal, Sizes};
/// let (mut sizes, mut keys, mut multiplicities) = (Sizes { capacity: 2, used: 0 }, [0; 2], [0; 2]);
/// let mut bytes = [0; 256];
/// let mut look_up = |value| look_up(&mut sizes, &mut keys, &mut multiplicities, &mut bytes, value);
/// assert_eq!([258, 257, 258, 0].map(&mut look_up), [Ok(()), Ok(()), Ok(()), Err(Refusal::CascadeFull)]);
/// assert_eq!((sizes.used, keys, multiplicities), (2, [258, 257], [2, 1]));
/// assert_eq!(bytes[..3], [0, 3, 1]);
/// ```
pub fn look_up(
    sizes: &mut Sizes,
    keys: &mut [u16],
    multiplicities: &mut [u64],
    byte_multiplicities: &mut [u64],
    value: u16,
) -> Result<(), Refusal> {
    let mut answers = [0];
    done(sys::look_up(sizes.numbers(), keys, multiplicities, byte_multiplicities, value, &mut answers))?;
    sizes.used = answers[0] as usize;
    Ok(())
}

/// The running sum of the byte lookup: each byte's three words of `aux`, from byte 0 up, become the sum so far of multiplicity divided by denominator,
/// also where the multiplicity is 0. The answer is the last sum. What `aux` held before does not matter.
///
/// The denominator is Indeterminate minus InputWeight input + OutputWeight output. The nine challenge words are InputWeight, OutputWeight and Indeterminate,
/// in this order: the indeterminate comes last. They are LookupTableInputWeight, LookupTableOutputWeight and CascadeLookupIndeterminate.
///
/// Refusals, in this order: shape (not 256 multiplicities, nine challenge words, three aux words a byte); unreduced (challenges or multiplicities); flat,
/// where some denominator is (0, 0, 0), and nowhere else.
///
/// ```
/// use u32_table::{byte_sum, Refusal};
/// let (mut multiplicities, mut challenges, mut aux) = ([0; 256], [0; 9], [0; 768]);
/// assert_eq!(byte_sum(&multiplicities, &challenges, &mut aux), Err(Refusal::Flat));
/// (multiplicities[1], multiplicities[255], challenges[6]) = (2, 3, 1);
/// assert_eq!(byte_sum(&multiplicities, &challenges, &mut aux), Ok([5, 0, 0]));
/// assert_eq!((&aux[..6], &aux[765..]), (&[0, 0, 0, 2, 0, 0][..], &[5, 0, 0][..]));
/// ```
pub fn byte_sum(byte_multiplicities: &[u64], challenges: &[u64], aux: &mut [u64]) -> Result<[u64; 3], Refusal> {
    let mut answers = [0; 3];
    done(sys::byte_sum(byte_multiplicities, challenges, aux, &mut answers))?;
    Ok(answers)
}

/// The running sum of a cascade: as [`byte_sum`], over the used places in their order; the challenges are the three HashCascade ones. `aux` has three
/// words a place, used or not. Unused places are not looked at, and their aux words stay. The answer is the last sum, zero for no used place.
///
/// Refusals, in this order: shape (of the cascade, of the challenges, or not three aux words a place); unreduced (challenges, or multiplicities of used
/// places); flat, where the denominator of a used place is (0, 0, 0), and nowhere else.
///
/// ```
/// use u32_table::{cascade_sum, Sizes};
/// let (sizes, mut aux) = (Sizes { capacity: 3, used: 2 }, [5; 9]);
/// assert_eq!(cascade_sum(sizes, &[258, 0, 0], &[2, 1, 0], &[0, 0, 0, 0, 0, 0, 1, 0, 0], &mut aux), Ok([3, 0, 0]));
/// assert_eq!(aux, [2, 0, 0, 3, 0, 0, 5, 5, 5]);
/// ```
pub fn cascade_sum(
    sizes: Sizes,
    keys: &[u16],
    multiplicities: &[u64],
    challenges: &[u64],
    aux: &mut [u64],
) -> Result<[u64; 3], Refusal> {
    let mut answers = [0; 3];
    done(sys::cascade_sum(sizes.numbers(), keys, multiplicities, challenges, aux, &mut answers))?;
    Ok(answers)
}

/// The two lookup tables, that own their arrays: a cascade of 16-bit values and the multiplicities of the bytes.
///
/// ```
/// # fn main() -> Result<(), u32_table::Refusal> {
/// use u32_table::{Lookups, MAX_CASCADE_PLACES};
/// let mut lookups = Lookups::new(MAX_CASCADE_PLACES)?;
/// for value in [258, 257, 258, 0] {
///     lookups.look_up(value)?;
/// }
/// assert_eq!(lookups.values().collect::<Vec<_>>(), [(258, 2), (257, 1), (0, 1)]);
/// assert_eq!(lookups.byte_multiplicities()[..3], [2, 3, 1]);
///
/// // weights zero, indeterminate (1, 0, 0): a sum counts
/// let challenges = [0, 0, 0, 0, 0, 0, 1, 0, 0];
/// assert_eq!(lookups.cascade_sum(&challenges)?.last(), Some(&[4, 0, 0]));
/// assert_eq!(lookups.byte_sum(&challenges)?[255], [6, 0, 0]);
/// # Ok(())
/// # }
/// ```
///
/// Two of them are equal if their values are, in their order, with their multiplicities, and the multiplicities of the bytes. How many places there are
/// does not count.
#[derive(Clone, Debug)]
pub struct Lookups {
    sizes: Sizes,
    keys: Vec<u16>,
    multiplicities: Vec<u64>,
    byte_multiplicities: [u64; BYTE_ROWS],
}

impl Lookups {
    /// Fresh tables, with so many places in the cascade. More than [`MAX_CASCADE_PLACES`] are refused with shape.
    pub fn new(capacity: usize) -> Result<Lookups, Refusal> {
        if capacity > MAX_CASCADE_PLACES {
            return Err(Refusal::Shape);
        }
        Ok(Lookups {
            sizes: Sizes { capacity, used: 0 },
            keys: vec![0; capacity],
            multiplicities: vec![0; capacity],
            byte_multiplicities: [0; BYTE_ROWS],
        })
    }

    /// Records a 16-bit value; see [`look_up`].
    pub fn look_up(&mut self, value: u16) -> Result<(), Refusal> {
        look_up(&mut self.sizes, &mut self.keys, &mut self.multiplicities, &mut self.byte_multiplicities, value)
    }

    /// The sum so far at each byte; see [`byte_sum`]. The last one is the sum.
    pub fn byte_sum(&self, challenges: &[u64]) -> Result<Vec<[u64; 3]>, Refusal> {
        let mut aux = vec![0; AUX_COLUMNS * BYTE_ROWS];
        byte_sum(&self.byte_multiplicities, challenges, &mut aux)?;
        Ok(elements(&aux))
    }

    /// The sum so far at each value of the cascade; see [`cascade_sum`]. The last one is the sum; of no value it is zero, and there is none here.
    pub fn cascade_sum(&self, challenges: &[u64]) -> Result<Vec<[u64; 3]>, Refusal> {
        let mut aux = vec![0; AUX_COLUMNS * self.sizes.capacity];
        cascade_sum(self.sizes, &self.keys, &self.multiplicities, challenges, &mut aux)?;
        Ok(elements(&aux[..AUX_COLUMNS * self.sizes.used]))
    }

    /// The values of the cascade with their multiplicities, in the order in which they came.
    pub fn values(&self) -> impl ExactSizeIterator<Item = (u16, u64)> + '_ {
        self.keys.iter().copied().zip(self.multiplicities.iter().copied()).take(self.sizes.used)
    }

    /// The multiplicity of each byte.
    pub fn byte_multiplicities(&self) -> &[u64; BYTE_ROWS] {
        &self.byte_multiplicities
    }

    /// The places of the cascade: how many there are, and how many are used.
    pub fn sizes(&self) -> Sizes {
        self.sizes
    }
}

impl PartialEq for Lookups {
    fn eq(&self, other: &Lookups) -> bool {
        self.values().eq(other.values()) && self.byte_multiplicities == other.byte_multiplicities
    }
}

impl Eq for Lookups {}

fn elements(words: &[u64]) -> Vec<[u64; 3]> {
    words.chunks_exact(AUX_COLUMNS).map(|element| [element[0], element[1], element[2]]).collect()
}
