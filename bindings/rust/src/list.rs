use crate::{calls, stored_bytes, Entry, Plan, Refusal, Sizes, Stopped, KEY_WORDS};

/// One of the two recorders of a [`List`].
#[derive(Clone, Copy, Debug, PartialEq, Eq, PartialOrd, Ord, Hash)]
pub enum Recorder {
    /// The one whom the methods of [`List`] mean that name none.
    First,
    /// The other one.
    Second,
}

impl Recorder {
    /// Both recorders.
    pub const BOTH: [Recorder; 2] = [Recorder::First, Recorder::Second];

    /// The recorder who is not this one.
    ///
    /// ```
    /// use u32_table::Recorder;
    /// assert_eq!(Recorder::BOTH.map(Recorder::other), [Recorder::Second, Recorder::First]);
    /// ```
    pub const fn other(self) -> Recorder {
        match self {
            Recorder::First => Recorder::Second,
            Recorder::Second => Recorder::First,
        }
    }
}

/// What a recorder has at each place.
#[derive(Clone, Debug)]
struct Counts {
    multiplicities: Vec<u64>,
    holds: Vec<u64>,
}

impl Counts {
    fn new(capacity: usize) -> Counts {
        Counts { multiplicities: vec![0; capacity], holds: vec![0; capacity] }
    }

    /// Those of the first places, so many.
    fn up_to(&self, used: usize) -> [&[u64]; 2] {
        [&self.multiplicities[..used], &self.holds[..used]]
    }
}

/// A list of entries with their multiplicities and open holds, that owns its arrays.
///
/// ```
/// # fn main() -> Result<(), u32_table::Refusal> {
/// use u32_table::{opcodes::{AND, LT}, Entry, List};
/// let mut list = List::new(16)?;
/// list.record(Entry::new(AND, 3, 1))?;
/// list.record(Entry::new(LT, 2, 3))?;
/// list.record(Entry::new(AND, 3, 1))?;
/// assert_eq!(list.entries().collect::<Vec<_>>(), [(Entry::new(AND, 3, 1), 2), (Entry::new(LT, 2, 3), 1)]);
///
/// let bytes = list.to_bytes()?;
/// assert_eq!(List::from_bytes(&bytes, 16)?, list);
/// # Ok(())
/// # }
/// ```
///
/// # Two parts
///
/// A recording may be made in two parts: [`hold`](List::hold), then [`confirm`](List::confirm) or [`drop_hold`](List::drop_hold). While a hold is open,
/// the list is not planned, filled or written.
///
/// ```
/// # fn main() -> Result<(), u32_table::Refusal> {
/// use u32_table::{List, Opcode, Refusal};
/// let mut list = List::new(16)?;
/// let [kept, undone] = [list.hold(Opcode::And.entry(3, 1))?, list.hold(Opcode::Lt.entry(9, 9))?];
/// assert_eq!(list.plan(), Err(Refusal::OpenHold));
/// list.confirm(kept)?;
/// list.drop_hold(undone)?;
/// // a key whose hold is dropped keeps its place, and has no rows
/// assert_eq!(list.entries().collect::<Vec<_>>(), [(Opcode::And.entry(3, 1), 1), (Opcode::Lt.entry(9, 9), 0)]);
/// assert_eq!(list.plan()?.height, 3);
/// # Ok(())
/// # }
/// ```
///
/// # Two recorders
///
/// Two recorders may share the keys, each with multiplicities and holds of its own: [`by`](List::by) names who makes a call that may change the list,
/// [`of`](List::of) for whom it is looked at, planned, filled or written. The methods of the list itself are the first recorder's, and a program
/// that has one recorder needs no others.
///
/// ```
/// # fn main() -> Result<(), u32_table::Refusal> {
/// use u32_table::{List, Opcode, Recorder, Table};
/// let mut list = List::new(16)?;
/// let (and, lt) = (Opcode::And.entry(3, 1), Opcode::Lt.entry(9, 9));
/// list.by(Recorder::First).record(and)?;
/// list.by(Recorder::Second).record(lt)?;
/// list.by(Recorder::Second).record(lt)?;
///
/// // the keys are common, the counts are not
/// assert_eq!(list.of(Recorder::First).entries().collect::<Vec<_>>(), [(and, 1), (lt, 0)]);
/// assert_eq!(list.of(Recorder::Second).entries().collect::<Vec<_>>(), [(and, 0), (lt, 2)]);
///
/// // each has the rows, the table and the stored list of what it counted itself
/// let mut table = Table::new();
/// for (recorder, height) in [(Recorder::First, 3), (Recorder::Second, 5)] {
///     assert_eq!(list.of(recorder).plan()?.height, height);
///     assert_eq!(table.fill(list.of(recorder))?, height);
/// }
/// let mut alone = List::new(16)?;
/// for _ in 0..2 {
///     alone.record(lt)?;
/// }
/// assert_eq!(list.of(Recorder::Second).to_bytes()?, alone.to_bytes()?);
///
/// // a hold of one recorder keeps only this one waiting
/// let held = list.by(Recorder::First).hold(lt)?;
/// assert!(list.of(Recorder::First).plan().is_err() && list.of(Recorder::Second).plan().is_ok());
/// assert!(list.by(Recorder::Second).confirm(held).is_err());
/// # Ok(())
/// # }
/// ```
///
/// Sharing does not show. Take a recorder whose calls, from a list with no key on, never met [list full](Refusal::ListFull), and which confirmed and dropped
/// only at positions that its own calls answered: its height, its multiplicity of every key, its last sum and the verdict are those of its own calls
/// on a list of its own with as many places. The order of the keys, and so the positions, may be others.
///
/// # Equality
///
/// Two lists are equal if their keys are, in their order, with the multiplicities and open holds of both recorders. How many places there are, and what
/// stands in unused ones, does not count.
#[derive(Clone, Debug)]
pub struct List {
    sizes: Sizes,
    keys: Vec<u64>,
    first: Counts,
    second: Counts,
}

impl List {
    /// An empty list with so many places. More than [`MAX_PLACES`](crate::MAX_PLACES) are refused with shape.
    pub fn new(capacity: usize) -> Result<List, Refusal> {
        if capacity > crate::MAX_PLACES {
            return Err(Refusal::Shape);
        }
        Ok(List {
            sizes: Sizes { capacity, used: 0 },
            keys: vec![0; KEY_WORDS * capacity],
            first: Counts::new(capacity),
            second: Counts::new(capacity),
        })
    }

    /// A list as it was stored, with so many places, counted by the first recorder; see [`read`](crate::read), also for the stack that it takes.
    pub fn from_bytes(bytes: &[u8], capacity: usize) -> Result<List, Refusal> {
        let mut list = List::new(capacity)?;
        list.read(bytes)?;
        Ok(list)
    }

    /// The list for calls that a recorder makes.
    pub fn by(&mut self, recorder: Recorder) -> ListBy<'_> {
        let List { sizes, keys, first, second } = self;
        let (own, other) = match recorder {
            Recorder::First => (first, second),
            Recorder::Second => (second, first),
        };
        ListBy { sizes, keys, own, other }
    }

    /// The list as a recorder has it.
    pub fn of(&self, recorder: Recorder) -> ListOf<'_> {
        let own = match recorder {
            Recorder::First => &self.first,
            Recorder::Second => &self.second,
        };
        ListOf { sizes: self.sizes, keys: &self.keys, own }
    }

    /// Records an entry; see [`record`](crate::record). The answer is the position of its key.
    pub fn record(&mut self, entry: Entry) -> Result<usize, Refusal> {
        self.by(Recorder::First).record(entry)
    }

    /// The first part of a recording: its key gains a hold; see [`hold`](crate::hold). The answer is the position of its key.
    pub fn hold(&mut self, entry: Entry) -> Result<usize, Refusal> {
        self.by(Recorder::First).hold(entry)
    }

    /// The second part: one hold at the position becomes one count; see [`confirm`](crate::confirm).
    pub fn confirm(&mut self, position: usize) -> Result<(), Refusal> {
        self.by(Recorder::First).confirm(position)
    }

    /// Or: one hold at the position is no more; see [`drop_hold`](crate::drop_hold).
    pub fn drop_hold(&mut self, position: usize) -> Result<(), Refusal> {
        self.by(Recorder::First).drop_hold(position)
    }

    /// Records the steps of a trace, three words each, up to the first that is refused; see [`replay`](crate::replay). The answer is how many; where the
    /// replay stops, how many and why.
    ///
    /// ```
    /// # fn main() -> Result<(), u32_table::Refusal> {
    /// use u32_table::{opcodes::LT, steps::DIV_MOD, List, Refusal, Stopped};
    /// let mut list = List::new(16)?;
    /// assert_eq!(list.replay(&[DIV_MOD, 7, 2, LT, 1, 2])?, 2);
    /// assert_eq!(list.replay(&[LT, 1, 2, DIV_MOD, 7, 0]), Err(Stopped { refusal: Refusal::ZeroDivisor, done: 1 }));
    /// assert_eq!(list.multiplicities()[..2], [3, 1]);
    /// # Ok(())
    /// # }
    /// ```
    pub fn replay(&mut self, trace: &[u64]) -> Result<usize, Stopped> {
        self.by(Recorder::First).replay(trace)
    }

    /// The rows that the list needs; see [`plan`](crate::plan).
    pub fn plan(&self) -> Result<Plan, Refusal> {
        self.of(Recorder::First).plan()
    }

    /// Reads a stored list onto this one, which has no key yet; see [`read`](crate::read). The answer is the number of entries.
    pub fn read(&mut self, bytes: &[u8]) -> Result<usize, Refusal> {
        self.by(Recorder::First).read(bytes)
    }

    /// Writes the list as bytes from the start of `out`; see [`write`](crate::write()). The answer is how many.
    pub fn write(&self, out: &mut [u8]) -> Result<usize, Refusal> {
        self.of(Recorder::First).write(out)
    }

    /// The list as it is stored; holds and keys with multiplicity 0 are not.
    pub fn to_bytes(&self) -> Result<Vec<u8>, Refusal> {
        self.of(Recorder::First).to_bytes()
    }

    /// Fills a table with the sections of the entries that have a multiplicity; see [`fill`](crate::fill). The answer is the height.
    pub fn fill(&self, table: &mut [u64]) -> Result<usize, Refusal> {
        self.of(Recorder::First).fill(table)
    }

    /// The entries with their multiplicities, in list order; also those with multiplicity 0.
    pub fn entries(&self) -> impl ExactSizeIterator<Item = (Entry, u64)> + '_ {
        self.of(Recorder::First).entries()
    }

    /// The number of keys, whoever recorded them.
    pub fn len(&self) -> usize {
        self.sizes.used
    }

    /// Whether there is no key.
    pub fn is_empty(&self) -> bool {
        self.sizes.used == 0
    }

    /// The number of places.
    pub fn capacity(&self) -> usize {
        self.sizes.capacity
    }

    /// The places: how many there are, and how many are used.
    pub fn sizes(&self) -> Sizes {
        self.sizes
    }

    /// The key words of every place, used or not.
    pub fn keys(&self) -> &[u64] {
        &self.keys
    }

    /// The multiplicity of every place, used or not.
    pub fn multiplicities(&self) -> &[u64] {
        self.of(Recorder::First).multiplicities()
    }

    /// The open holds of every place, used or not.
    pub fn holds(&self) -> &[u64] {
        self.of(Recorder::First).holds()
    }
}

impl PartialEq for List {
    fn eq(&self, other: &List) -> bool {
        let [used, other_used] = [self.len(), other.len()];
        self.keys[..KEY_WORDS * used] == other.keys[..KEY_WORDS * other_used]
            && self.first.up_to(used) == other.first.up_to(other_used)
            && self.second.up_to(used) == other.second.up_to(other_used)
    }
}

impl Eq for List {}

/// A [`List`] that is borrowed for calls of one recorder, which may change it: [`List::by`] gives one. They count for this recorder alone; at the places of
/// new keys the other recorder gets no count and no hold.
///
/// ```
/// # fn main() -> Result<(), u32_table::Refusal> {
/// use u32_table::{steps::DIV_MOD, List, Opcode, Recorder};
/// let mut list = List::new(16)?;
/// let mut second = list.by(Recorder::Second);
/// let held = second.hold(Opcode::Pow.entry(2, 10))?;
/// second.replay(&[DIV_MOD, 7, 2])?;
/// second.confirm(held)?;
/// assert_eq!(list.of(Recorder::Second).multiplicities()[..3], [1, 1, 1]);
/// assert_eq!(list.of(Recorder::First).multiplicities()[..3], [0, 0, 0]);
/// # Ok(())
/// # }
/// ```
#[derive(Debug)]
pub struct ListBy<'a> {
    sizes: &'a mut Sizes,
    keys: &'a mut [u64],
    own: &'a mut Counts,
    other: &'a mut Counts,
}

impl ListBy<'_> {
    /// Records an entry; see [`record`](crate::record). The answer is the position of its key.
    pub fn record(&mut self, entry: Entry) -> Result<usize, Refusal> {
        let ListBy { sizes, keys, own, other } = self;
        calls::record(sizes, keys, &mut own.multiplicities, &mut own.holds, &mut other.multiplicities, &mut other.holds, entry)
    }

    /// The first part of a recording: its key gains a hold; see [`hold`](crate::hold). The answer is the position of its key.
    pub fn hold(&mut self, entry: Entry) -> Result<usize, Refusal> {
        let ListBy { sizes, keys, own, other } = self;
        calls::hold(sizes, keys, &mut own.multiplicities, &mut own.holds, &mut other.multiplicities, &mut other.holds, entry)
    }

    /// The second part: one hold at the position becomes one count; see [`confirm`](crate::confirm).
    pub fn confirm(&mut self, position: usize) -> Result<(), Refusal> {
        calls::confirm(*self.sizes, self.keys, &mut self.own.multiplicities, &mut self.own.holds, position)
    }

    /// Or: one hold at the position is no more; see [`drop_hold`](crate::drop_hold).
    pub fn drop_hold(&mut self, position: usize) -> Result<(), Refusal> {
        calls::drop_hold(*self.sizes, self.keys, &self.own.multiplicities, &mut self.own.holds, position)
    }

    /// Records the steps of a trace, three words each, up to the first that is refused; see [`replay`](crate::replay). The answer is how many; where the
    /// replay stops, how many and why.
    pub fn replay(&mut self, trace: &[u64]) -> Result<usize, Stopped> {
        let ListBy { sizes, keys, own, other } = self;
        calls::replay(sizes, keys, &mut own.multiplicities, &mut own.holds, &mut other.multiplicities, &mut other.holds, trace)
    }

    /// Reads a stored list onto this one, which has no key yet; see [`read`](crate::read). The answer is the number of entries.
    pub fn read(&mut self, bytes: &[u8]) -> Result<usize, Refusal> {
        let ListBy { sizes, keys, own, other } = self;
        calls::read(bytes, sizes, keys, &mut own.multiplicities, &mut own.holds, &mut other.multiplicities, &mut other.holds)
    }
}

/// A [`List`] as one recorder has it: [`List::of`] gives one, and `From` makes one of `&List`, for the first recorder. The keys are common, the rest is
/// this recorder's.
///
/// ```
/// # fn main() -> Result<(), u32_table::Refusal> {
/// use u32_table::{List, ListOf, Opcode, Recorder};
/// let (and, lt) = (Opcode::And.entry(3, 1), Opcode::Lt.entry(9, 9));
/// let mut list = List::new(16)?;
/// list.record(and)?;
/// list.by(Recorder::Second).hold(lt)?;
///
/// let first = ListOf::from(&list);
/// assert_eq!(first.entries().collect::<Vec<_>>(), [(and, 1), (lt, 0)]);
/// assert_eq!((first.plan()?.height, first.to_bytes()?.len()), (3, 33));
///
/// let second = list.of(Recorder::Second);
/// assert_eq!((&second.multiplicities()[..2], &second.holds()[..2]), (&[0, 0][..], &[0, 1][..]));
/// assert!(second.plan().is_err());
/// # Ok(())
/// # }
/// ```
#[derive(Clone, Copy, Debug)]
pub struct ListOf<'a> {
    sizes: Sizes,
    keys: &'a [u64],
    own: &'a Counts,
}

impl<'a> ListOf<'a> {
    /// The rows that the list needs; see [`plan`](crate::plan).
    pub fn plan(self) -> Result<Plan, Refusal> {
        calls::plan(self.sizes, self.keys, &self.own.multiplicities, &self.own.holds)
    }

    /// Fills a table with the sections of the entries that have a multiplicity; see [`fill`](crate::fill). The answer is the height.
    pub fn fill(self, table: &mut [u64]) -> Result<usize, Refusal> {
        calls::fill(self.sizes, self.keys, &self.own.multiplicities, &self.own.holds, table)
    }

    /// Writes the list as bytes from the start of `out`; see [`write`](crate::write()). The answer is how many.
    pub fn write(self, out: &mut [u8]) -> Result<usize, Refusal> {
        calls::write(self.sizes, self.keys, &self.own.multiplicities, &self.own.holds, out)
    }

    /// The list as it is stored; holds and keys with multiplicity 0 are not.
    pub fn to_bytes(self) -> Result<Vec<u8>, Refusal> {
        // room for all keys; those that are left out take none
        let mut bytes = vec![0; stored_bytes(self.sizes.used)];
        let length = self.write(&mut bytes)?;
        bytes.truncate(length);
        Ok(bytes)
    }

    /// The entries with their multiplicities, in list order; also those with multiplicity 0.
    pub fn entries(self) -> impl ExactSizeIterator<Item = (Entry, u64)> + 'a {
        let places = self.keys.chunks_exact(KEY_WORDS).zip(&self.own.multiplicities);
        places.take(self.sizes.used).map(|(key, &multiplicity)| (Entry::new(key[0], key[1], key[2]), multiplicity))
    }

    /// The multiplicity of every place, used or not.
    pub fn multiplicities(self) -> &'a [u64] {
        &self.own.multiplicities
    }

    /// The open holds of every place, used or not.
    pub fn holds(self) -> &'a [u64] {
        &self.own.holds
    }
}

impl<'a> From<&'a List> for ListOf<'a> {
    fn from(list: &'a List) -> ListOf<'a> {
        list.of(Recorder::First)
    }
}
