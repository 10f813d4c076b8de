use crate::{calls, ListOf, Refusal, Verdict, AUX_COLUMNS, COLUMNS, MAX_ROWS};

/// A table and its sums, that owns its words and has as many rows as it needs.
///
/// ```
/// # fn main() -> Result<(), u32_table::Refusal> {
/// use u32_table::{column, List, Opcode, Table, Verdict};
/// let mut list = List::new(16)?;
/// list.record(Opcode::Lt.entry(2, 3))?;
///
/// let challenges: Vec<u64> = (1..=15).collect();
/// let mut table = Table::new();
/// assert_eq!(table.fill(&list), Ok(3));
/// table.pad()?;
/// table.extend(&challenges)?;
/// assert_eq!((table.rows(), table.check(&challenges)?), (256, Verdict::Zero));
///
/// // 2 is not said to be less than 3
/// table.words_mut()[column::RESULT] = 0;
/// table.extend(&challenges)?;
/// assert!(!table.check(&challenges)?.is_zero());
/// # Ok(())
/// # }
/// ```
///
/// Two tables are equal if their words, their sums and their filled rows are.
#[derive(Clone, Debug, Default, PartialEq, Eq)]
pub struct Table {
    words: Vec<u64>,
    aux: Vec<u64>,
    filled: usize,
}

impl Table {
    /// A table of no rows.
    pub fn new() -> Table {
        Table::default()
    }

    /// A table of these words, whoever made them, with sums of zero. All its rows count as filled. Shape, where they are not whole rows or are more
    /// than [`MAX_ROWS`].
    ///
    /// ```
    /// # fn main() -> Result<(), u32_table::Refusal> {
    /// use u32_table::{Opcode, Refusal, Table, Verdict};
    /// // one row of somebody else's: 0 to the power 0 is 1, looked up five times
    /// let row = [1, 0, 15651782846776010939, Opcode::Pow.word(), 0, 0, 0, 0, 1, 5];
    /// let mut table = Table::from_words(row.to_vec())?;
    /// let mut challenges = [0; 15];
    /// challenges[0] = 1;
    /// assert_eq!(table.extend(&challenges)?, [5, 0, 0]);
    /// assert_eq!((table.rows(), table.filled(), table.check(&challenges)?), (1, 1, Verdict::Zero));
    ///
    /// assert_eq!(Table::from_words(vec![0; 11]), Err(Refusal::Shape));
    /// # Ok(())
    /// # }
    /// ```
    pub fn from_words(words: Vec<u64>) -> Result<Table, Refusal> {
        let filled = words.len() / COLUMNS;
        if words.len() % COLUMNS != 0 || filled > MAX_ROWS {
            return Err(Refusal::Shape);
        }
        Ok(Table { aux: vec![0; filled * AUX_COLUMNS], words, filled })
    }

    /// Becomes the sections of the list's entries that have a multiplicity, on as many rows as the list's padded height; see [`fill`](crate::fill). Rows past
    /// the sections and all sums are zero words. The answer is the height, the number of filled rows.
    ///
    /// `&list` means the first recorder's entries, [`list.of(recorder)`](crate::List::of) those of either one.
    ///
    /// Refusals: those of [`plan`](crate::plan), of which a [`List`](crate::List) meets open hold alone.
    pub fn fill<'a>(&mut self, list: impl Into<ListOf<'a>>) -> Result<usize, Refusal> {
        let list = list.into();
        let rows = list.plan()?.padded_height;
        let mut words = vec![0; rows * COLUMNS];
        let filled = list.fill(&mut words)?;
        *self = Table { words, aux: vec![0; rows * AUX_COLUMNS], filled };
        Ok(filled)
    }

    /// Every row past the filled ones becomes the padding row that belongs to the last of them; see [`pad`](crate::pad).
    pub fn pad(&mut self) -> Result<(), Refusal> {
        calls::pad(&mut self.words, self.filled)
    }

    /// Each row's three aux words become the sum so far; see [`extend`](crate::extend). The answer is the last sum.
    pub fn extend(&mut self, challenges: &[u64]) -> Result<[u64; 3], Refusal> {
        calls::extend(&self.words, &mut self.aux, challenges)
    }

    /// The verdict on the table and its sums; see [`check`](crate::check).
    pub fn check(&self, challenges: &[u64]) -> Result<Verdict, Refusal> {
        calls::check(&self.words, &self.aux, challenges)
    }

    /// The number of rows.
    pub fn rows(&self) -> usize {
        self.words.len() / COLUMNS
    }

    /// The rows that were filled, before those of padding.
    pub fn filled(&self) -> usize {
        self.filled
    }

    /// The ten words of row i, if there is one.
    pub fn row(&self, i: usize) -> Option<&[u64]> {
        self.words.chunks_exact(COLUMNS).nth(i)
    }

    /// All words, ten a row.
    pub fn words(&self) -> &[u64] {
        &self.words
    }

    /// The same, to be changed.
    pub fn words_mut(&mut self) -> &mut [u64] {
        &mut self.words
    }

    /// The sums, three words a row.
    pub fn aux(&self) -> &[u64] {
        &self.aux
    }

    /// The same, to be changed.
    pub fn aux_mut(&mut self) -> &mut [u64] {
        &mut self.aux
    }
}
