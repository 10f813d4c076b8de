//! A table and its sums as bytes, with columns side by side: the two calls over slices.
use crate::refusal::done;
use crate::{sys, Refusal, AUX_COLUMNS, COLUMNS, MAX_ROWS};

/// The bytes that an archive of so many rows takes; `usize::MAX` where a `usize` does not hold the number.
///
/// ```
/// assert_eq!(u32_table::archive_bytes(2), 216);
/// assert_eq!(u32_table::archive_bytes(usize::MAX), usize::MAX);
/// ```
pub const fn archive_bytes(rows: usize) -> usize {
    rows.saturating_mul(8 * (COLUMNS + AUX_COLUMNS)).saturating_add(8)
}

/// The rows that bytes say they hold, where they are an archive by their length: what [`restore`] needs room for. The words of the columns are not looked at.
///
/// ```
/// use u32_table::archived_rows;
/// assert_eq!(archived_rows(&[0; 8]), Some(0));
/// assert_eq!((archived_rows(&[0; 9]), archived_rows(&[255; 8])), (None, None));
/// ```
pub fn archived_rows(bytes: &[u8]) -> Option<usize> {
    let count = u64::from_le_bytes(bytes.get(..8)?.try_into().ok()?);
    let rows = usize::try_from(count).ok()?;
    (rows <= MAX_ROWS && bytes.len() == archive_bytes(rows)).then_some(rows)
}

/// Turns a table and its sums into bytes from the start of `out`: the row count, then the ten main columns, then the three columns of `aux`, each top to
/// bottom, all in little-endian words of 8 bytes: [`archive_bytes`] of the rows. Bytes of `out` past the end keep their values.
///
/// Refusals, in this order: shape (`table` is not whole rows or over [`MAX_ROWS`] rows, or `aux` is not [`AUX_COLUMNS`] words a row); short (fewer bytes
/// than the archive takes); unreduced (a word of `table` or `aux` is [`P`](crate::P) or more).
///
/// ```
/// use u32_table::{archive, archive_bytes, restore, Refusal};
/// let (table, aux): (Vec<u64>, Vec<u64>) = ((1..=20).collect(), (1000..1006).collect());
/// let mut bytes = vec![0; archive_bytes(2)];
/// archive(&table, &aux, &mut bytes)?;
/// let word = |k: usize| u64::from_le_bytes(bytes[8 * k..8 * k + 8].try_into().unwrap());
/// assert_eq!([0, 1, 2, 3, 4, 21, 22].map(word), [2, 1, 11, 2, 12, 1000, 1003]);
///
/// let (mut table_back, mut aux_back) = (vec![9; 30], vec![8; 9]);
/// restore(&bytes, &mut table_back, &mut aux_back)?;
/// assert_eq!((&table_back[..20], &table_back[20..]), (&table[..], &[9; 10][..]));
/// assert_eq!((&aux_back[..6], &aux_back[6..]), (&aux[..], &[8; 3][..]));
/// # Ok::<(), Refusal>(())
/// ```
pub fn archive(table: &[u64], aux: &[u64], out: &mut [u8]) -> Result<(), Refusal> {
    done(sys::archive(table, aux, out))
}

/// Gives a table and its sums back: the rows of the archive replace the first rows of `table` and `aux`, and later rows keep their words. See [`archive`]
/// for the form of the bytes, and [`archived_rows`] for how many rows they are.
///
/// What was archived comes back word for word; an archive that is accepted is archived again to the same bytes; and [`check`](crate::check) answers alike on
/// a table and on the rows that came back.
///
/// Refusals, in this order: shape (of `table` and `aux`, as for [`archive`]); torn (the length is not [`archive_bytes`] of the row count, or that is above
/// [`MAX_ROWS`]); short (`table` has fewer rows than the archive); unreduced (a word of the archive's columns is [`P`](crate::P) or more).
///
/// ```
/// use u32_table::{archive, archive_bytes, archived_rows, restore, Refusal, AUX_COLUMNS, COLUMNS};
/// let mut bytes = vec![0; archive_bytes(1)];
/// archive(&[1, 0, 15651782846776010939, 14, 0, 0, 0, 0, 0, 2], &[2, 0, 0], &mut bytes)?;
///
/// // room as the archive needs it
/// let rows = archived_rows(&bytes).ok_or(Refusal::Torn)?;
/// let (mut table, mut aux) = (vec![0; rows * COLUMNS], vec![0; rows * AUX_COLUMNS]);
/// restore(&bytes, &mut table, &mut aux)?;
/// assert_eq!((&table[..], &aux[..]), (&[1, 0, 15651782846776010939, 14, 0, 0, 0, 0, 0, 2][..], &[2, 0, 0][..]));
///
/// // a byte is missing; no room for the row; a word of p or more
/// assert_eq!(restore(&bytes[1..], &mut table, &mut aux), Err(Refusal::Torn));
/// assert_eq!(restore(&bytes, &mut [], &mut []), Err(Refusal::Short));
/// bytes[8..16].fill(255);
/// assert_eq!(restore(&bytes, &mut table, &mut aux), Err(Refusal::Unreduced));
/// # Ok::<(), Refusal>(())
/// ```
pub fn restore(bytes: &[u8], table: &mut [u64], aux: &mut [u64]) -> Result<(), Refusal> {
    done(sys::restore(bytes, table, aux))
}
