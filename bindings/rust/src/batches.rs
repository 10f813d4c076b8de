//! Trying a batch size: the call over slices, and [`Batches`], which owns its results.
use crate::refusal::done;
use crate::{sys, Refusal, BATCH_WORDS, MAX_JOBS};

/// The number of batches, and their padding.
#[derive(Clone, Copy, Debug, PartialEq, Eq, Hash)]
pub struct Batched {
    /// How many batches there are; the results begin with their words, [`BATCH_WORDS`] each.
    pub count: usize,
    /// All padded heights minus all rows.
    pub padding: u64,
}

/// Gathers jobs, of which these are the heights in order, into batches of at most `setting` rows, and lists the batches in `results`: three words each,
/// its number of jobs, its rows and its padded height by the rule of [`plan`](crate::plan). A job joins the open batch where the sum of their rows stays
/// within the setting, and else opens the next. Words of `results` past the last batch keep their values.
///
/// Refusals, in this order: shape (the setting is 0 or above [`MAX_ROWS`](crate::MAX_ROWS), there are more than [`MAX_JOBS`] jobs, or `results` is not
/// whole batches); job above; short (fewer places in `results` than batches).
///
/// ```
/// use u32_table::{batches, Batched, Refusal};
/// let mut results = [7; 9];
/// assert_eq!(batches(&[3, 3, 3], 6, &mut results), Ok(Batched { count: 2, padding: 503 }));
/// assert_eq!(results, [2, 6, 256, 1, 3, 256, 7, 7, 7]);
/// assert_eq!(batches(&[3, 3, 3], 2, &mut results), Err(Refusal::JobAbove));
/// ```
pub fn batches(jobs: &[u64], setting: u64, results: &mut [u64]) -> Result<Batched, Refusal> {
    let mut answers = [0; 2];
    done(sys::batches(jobs, setting, results, &mut answers))?;
    Ok(Batched { count: answers[0] as usize, padding: answers[1] })
}

/// A batch.
#[derive(Clone, Copy, Debug, PartialEq, Eq, Hash)]
pub struct Batch {
    /// How many jobs it has.
    pub jobs: usize,
    /// The sum of their heights.
    pub rows: u64,
    /// The rows that its table will have.
    pub padded_height: u64,
}

/// What a setting gives: the batches in order, and their padding.
///
/// ```
/// use u32_table::{Batch, Batches, Refusal};
/// let tried = Batches::of(&[100, 200, 300, 400], 500)?;
/// assert_eq!(tried.list()[0], Batch { jobs: 2, rows: 300, padded_height: 512 });
/// assert_eq!((tried.list().len(), tried.padding()), (3, 536));
/// # Ok::<(), Refusal>(())
/// ```
#[derive(Clone, Debug, PartialEq, Eq)]
pub struct Batches {
    list: Vec<Batch>,
    padding: u64,
}

impl Batches {
    /// Tries a setting; see [`batches`]. There is room for as many batches as jobs, so short is not answered.
    pub fn of(jobs: &[u64], setting: u64) -> Result<Batches, Refusal> {
        let places = if jobs.len() > MAX_JOBS { 0 } else { jobs.len() };
        let mut results = vec![0; BATCH_WORDS * places];
        let Batched { count, padding } = batches(jobs, setting, &mut results)?;
        let batch = |words: &[u64]| Batch { jobs: words[0] as usize, rows: words[1], padded_height: words[2] };
        Ok(Batches { list: results.chunks_exact(BATCH_WORDS).take(count).map(batch).collect(), padding })
    }

    /// The batches, in the order of their jobs.
    pub fn list(&self) -> &[Batch] {
        &self.list
    }

    /// All padded heights minus all rows.
    pub fn padding(&self) -> u64 {
        self.padding
    }
}
