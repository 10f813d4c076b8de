use std::error::Error;
use std::fmt;

/// Makes [`Refusal`] and what is said of each reason: a line a reason, with its number and its word.
macro_rules! refusals {
    ($($(#[$said:meta])* $number:literal $name:ident $word:literal,)*) => {
        /// A reason to decline. A call that declines has changed nothing; of [`replay`](crate::replay) this is said of the refused step.
        #[derive(Clone, Copy, Debug, PartialEq, Eq, PartialOrd, Ord, Hash)]
        #[non_exhaustive]
        pub enum Refusal {
            $($(#[$said])* $name,)*
            /// A number that has no name here. No function of this crate's library answers one; it is kept for those of later libraries.
            Other(u64),
        }

        impl Refusal {
            /// The reasons that have a name, in the order of their numbers.
            pub fn all() -> impl ExactSizeIterator<Item = Refusal> {
                [$(Refusal::$name),*].into_iter()
            }

            /// The reason's number.
            ///
            /// ```
            /// assert_eq!(u32_table::Refusal::Torn.number(), 10);
            /// ```
            pub fn number(self) -> u64 {
                match self {
                    $(Refusal::$name => $number,)*
                    Refusal::Other(number) => number,
                }
            }

            /// The reason with a number; none for 0, which is no refusal. A number without a name is kept.
            ///
            /// ```
            /// use u32_table::Refusal;
            /// assert_eq!(Refusal::from_number(10), Some(Refusal::Torn));
            /// assert_eq!(Refusal::from_number(99), Some(Refusal::Other(99)));
            /// assert_eq!(Refusal::from_number(0), None);
            /// ```
            pub fn from_number(number: u64) -> Option<Refusal> {
                match number {
                    0 => None,
                    $($number => Some(Refusal::$name),)*
                    _ => Some(Refusal::Other(number)),
                }
            }

            /// The reason's word.
            pub fn word(self) -> &'static str {
                match self {
                    $(Refusal::$name => $word,)*
                    Refusal::Other(_) => "without a name",
                }
            }
        }
    };
}

refusals! {
    /// An array has the wrong length, or the sizes are out of range: keys are three words a place, multiplicities and holds of either recorder one a
    /// place, used is at most the capacity and that at most [`MAX_PLACES`](crate::MAX_PLACES); a table is whole rows, at most
    /// [`MAX_ROWS`](crate::MAX_ROWS); aux is three words a row; challenges are fifteen words; a trace is three words a step, and requests are three words
    /// each; in [`batches`](crate::batches) the setting is from 1 to [`MAX_ROWS`](crate::MAX_ROWS), jobs are at most [`MAX_JOBS`](crate::MAX_JOBS), and
    /// results are three words a batch. Of the lookup tables see [`look_up`](crate::look_up), [`byte_sum`](crate::byte_sum) and
    /// [`cascade_sum`](crate::cascade_sum).
    1 Shape "shape",
    /// An opcode that is none of the six; in [`replay`](crate::replay), none of the ten.
    2 Stranger "stranger",
    /// An operand outside its range. The left one of pow has none, but in stored bytes it is below [`P`](crate::P).
    3 Wide "wide",
    /// log_2_floor of 0.
    4 BareLog "bare log",
    /// A multiplicity above [`P`](crate::P) − 1; in recording and holding, if the first equal key's count plus holds and one more would pass that; in
    /// [`confirm`](crate::confirm), if the count and one more would. They are those of the recorder who makes the call. In [`look_up`](crate::look_up), if
    /// the multiplicity of a known value, or that of a byte of a new one, would pass it.
    5 CountFull "count full",
    /// A new key and no unused place; in reading, more entries than places, or a list that has keys already.
    6 ListFull "list full",
    /// A table below the height, a filled count above the rows, a check of no rows, too few output bytes, fewer rows than an archive has, or fewer
    /// result places than batches.
    7 Short "short",
    /// A word that is [`P`](crate::P) or more.
    8 Unreduced "unreduced",
    /// A row with CopyFlag 1, or a request, whose denominator is (0, 0, 0): U32Indeterminate equals its compressed row. See [`extend`](crate::extend)
    /// and [`client_sum`](crate::client_sum). In the sums of the lookup tables, any byte or used place with that denominator.
    9 Flat "flat",
    /// Stored bytes of neither of the two lengths, or more than [`MAX_PLACES`](crate::MAX_PLACES) entries in them; see [`read`](crate::read). An archive of
    /// another length than its row count says, or of more than [`MAX_ROWS`](crate::MAX_ROWS) rows; see [`restore`](crate::restore).
    10 Torn "torn",
    /// Equal keys in stored bytes, or among those with a multiplicity in a list to be written.
    11 Repeat "repeat",
    /// The stored height is not the sum of the entries' heights.
    12 Tally "tally",
    /// div_mod by 0, in [`replay`](crate::replay).
    13 ZeroDivisor "zero divisor",
    /// A new value and no unused place in a cascade; see [`look_up`](crate::look_up).
    14 CascadeFull "cascade full",
    /// A hold at a used place, of the recorder for whom it is, in [`plan`](crate::plan), [`write`](crate::write()) and [`fill`](crate::fill); also at the place
    /// of a key with multiplicity 0.
    15 OpenHold "open hold",
    /// A position that is not used, or where the recorder has no hold, in [`confirm`](crate::confirm) and [`drop_hold`](crate::drop_hold).
    16 NoHold "no hold",
    /// A job of more rows than the setting, in [`batches`](crate::batches).
    17 JobAbove "job above",
}

/// As in `refused 10 (torn)`.
impl fmt::Display for Refusal {
    fn fmt(&self, f: &mut fmt::Formatter<'_>) -> fmt::Result {
        write!(f, "refused {} ({})", self.number(), self.word())
    }
}

impl Error for Refusal {}

/// What a C function returned: 0 for done, else a reason's number.
pub(crate) fn done(number: u64) -> Result<(), Refusal> {
    Refusal::from_number(number).map_or(Ok(()), Err)
}

#[test]
fn a_number_without_a_name_is_kept() {
    assert_eq!(done(99), Err(Refusal::Other(99)));
    assert_eq!(Refusal::Other(99).number(), 99);
    assert_eq!(Refusal::Other(99).to_string(), "refused 99 (without a name)");
}
