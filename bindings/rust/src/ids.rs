use crate::lent::{ids, ranges};
use crate::{ClientID, Refusal, ID, ROW_LIMIT};
use std::fmt;
use std::ops::Range;

/// An owned table was written by the library, so it is never malformed.
pub(crate) const OURS: &str = "the library's own table";

/// A set of clocks as sorted, disjoint, joined ranges: at most [`ROW_LIMIT`] of them.
///
/// ```
/// use izgarmulf::IdRanges;
/// # fn main() -> Result<(), izgarmulf::Refusal> {
/// let mut t = IdRanges::from_ranges([2..5, 9..10])?;
/// t.insert(5..7)?;
/// assert_eq!(t.iter().collect::<Vec<_>>(), [2..7, 9..10]);
/// t.remove(3..4)?;
/// assert_eq!(format!("{t:?}"), "[2..3, 4..7, 9..10]");
/// assert!(t.contains_clock(4) && !t.contains_clock(3));
/// assert_eq!((t.clock_start(), t.clock_end(), t.len()), (Some(2), Some(10), 3));
/// # Ok(()) }
/// ```
///
/// A refused edit leaves the table as it was:
///
/// ```
/// use izgarmulf::{IdRanges, Refusal};
/// let mut t = IdRanges::from_ranges((0..1024).map(|k| 2 * k..2 * k + 1)).unwrap();
/// let before = t.clone();
/// assert_eq!(t.insert(5000..5001), Err(Refusal::Full));
/// assert_eq!(t, before);
/// ```
#[derive(Default)]
pub struct IdRanges {
    /// start, end, start, end; no element past the last row
    rows: Vec<u32>,
    /// where the next edit writes
    spare: Vec<u32>,
}
impl IdRanges {
    /// The empty table.
    pub fn new() -> Self {
        Self::default()
    }
    /// The table of these ranges, put in one after the other; an empty range adds nothing.
    pub fn from_ranges(list: impl IntoIterator<Item = Range<u32>>) -> Result<Self, Refusal> {
        let flat: Vec<u32> = list.into_iter().flat_map(|r| [r.start, r.end]).collect();
        let n = flat.len() / 2;
        let mut t = Self::new();
        t.edit(n, |_, out| ranges::from_ranges(&flat, n, out))?;
        Ok(t)
    }
    /// A table from its rows start, end, start, end. Refused as malformed where they break the rules.
    ///
    /// ```
    /// use izgarmulf::{IdRanges, Refusal};
    /// assert!(IdRanges::from_rows(vec![2, 5, 7, 9]).is_ok());
    /// assert_eq!(IdRanges::from_rows(vec![2, 5, 5, 9]), Err(Refusal::Malformed));
    /// ```
    pub fn from_rows(rows: Vec<u32>) -> Result<Self, Refusal> {
        if rows.len() % 2 == 1 {
            return Err(Refusal::Malformed);
        }
        ranges::len(&rows, rows.len() / 2)?;
        Ok(IdRanges { rows, spare: Vec::new() })
    }
    /// The rows: start, end, start, end.
    pub fn as_rows(&self) -> &[u32] {
        &self.rows
    }
    fn n(&self) -> usize {
        self.rows.len() / 2
    }
    /// Writes the spare buffer, with room for so many rows, and makes it the table if that was accepted.
    fn edit(&mut self, most: usize, f: impl FnOnce(&[u32], &mut [u32]) -> Result<usize, Refusal>) -> Result<(), Refusal> {
        self.spare.resize(2 * most.min(ROW_LIMIT), 0);
        let k = f(&self.rows, &mut self.spare)?;
        self.spare.truncate(2 * k);
        std::mem::swap(&mut self.rows, &mut self.spare);
        Ok(())
    }
    /// Whether a clock is in the table.
    pub fn contains_clock(&self, clock: u32) -> bool {
        ranges::contains_clock(&self.rows, self.n(), clock).expect(OURS)
    }
    /// The first row whose end exceeds the clock.
    pub fn find_start(&self, clock: u32) -> Option<usize> {
        ranges::find_start(&self.rows, self.n(), clock).expect(OURS)
    }
    /// The first start.
    pub fn clock_start(&self) -> Option<u32> {
        ranges::clock_start(&self.rows, self.n()).expect(OURS)
    }
    /// The last end.
    pub fn clock_end(&self) -> Option<u32> {
        ranges::clock_end(&self.rows, self.n()).expect(OURS)
    }
    /// How many rows.
    pub fn len(&self) -> usize {
        ranges::len(&self.rows, self.n()).expect(OURS)
    }
    /// Whether there is no row.
    pub fn is_empty(&self) -> bool {
        ranges::is_empty(&self.rows, self.n()).expect(OURS)
    }
    /// The row at an index.
    pub fn get(&self, index: usize) -> Option<Range<u32>> {
        ranges::get(&self.rows, self.n(), index).expect(OURS)
    }
    /// The rows in order.
    pub fn iter(&self) -> impl Iterator<Item = Range<u32>> + '_ {
        self.rows.chunks_exact(2).map(|r| r[0]..r[1])
    }
    /// Puts a range in; an empty one changes nothing.
    pub fn insert(&mut self, range: Range<u32>) -> Result<(), Refusal> {
        let n = self.n();
        self.edit(n + 1, |t, out| ranges::insert(t, n, range, out))
    }
    /// Takes a range out.
    pub fn remove(&mut self, range: Range<u32>) -> Result<(), Refusal> {
        let n = self.n();
        self.edit(n + 1, |t, out| ranges::remove(t, n, range, out))
    }
    /// Puts all clocks of another table in.
    pub fn merge(&mut self, other: &IdRanges) -> Result<(), Refusal> {
        let (n, m) = (self.n(), other.n());
        self.edit(n + m, |t, out| ranges::merge(t, n, &other.rows, m, out))
    }
    /// Takes all clocks of another table out.
    pub fn exclude(&mut self, other: &IdRanges) -> Result<(), Refusal> {
        let (n, m) = (self.n(), other.n());
        self.edit(n + m, |t, out| ranges::exclude(t, n, &other.rows, m, out))
    }
    /// Keeps the clocks that another table has too.
    pub fn intersect(&mut self, other: &IdRanges) -> Result<(), Refusal> {
        let (n, m) = (self.n(), other.n());
        self.edit(n + m, |t, out| ranges::intersect(t, n, &other.rows, m, out))
    }
}
impl Clone for IdRanges {
    fn clone(&self) -> Self {
        IdRanges { rows: self.rows.clone(), spare: Vec::new() }
    }
}
impl PartialEq for IdRanges {
    fn eq(&self, other: &Self) -> bool {
        self.rows == other.rows
    }
}
impl Eq for IdRanges {}
impl fmt::Debug for IdRanges {
    fn fmt(&self, f: &mut fmt::Formatter<'_>) -> fmt::Result {
        f.debug_list().entries(self.iter()).finish()
    }
}

/// A set of ids as sorted, disjoint, joined rows (client, range): at most [`ROW_LIMIT`] rows in all.
///
/// ```
/// use izgarmulf::{ClientID, IdTable, ID};
/// # fn main() -> Result<(), izgarmulf::Refusal> {
/// let (ann, bo) = (ClientID::new(1), ClientID::new(2));
/// let mut desk = IdTable::new();
/// desk.insert_range(bo, 0..4)?;
/// desk.insert_range(ann, 0..5)?;
/// let message = desk.capture()?;
/// desk.insert_range(ann, 5..7)?;
/// assert_eq!(format!("{desk:?}"), "[1: 0..7, 2: 0..4]");
/// // an old message adds nothing
/// assert_eq!(desk.merge(&message)?, desk);
/// assert_eq!(format!("{:?}", desk.diff(&message)?), "[1: 5..7]");
/// assert!(desk.contains(&ID::new(ann, 6)) && desk.len() == 2);
/// # Ok(()) }
/// ```
#[derive(Default, Clone, PartialEq, Eq)]
pub struct IdTable {
    clients: Vec<u64>,
    starts: Vec<u32>,
    ends: Vec<u32>,
}
impl IdTable {
    /// The empty table.
    pub fn new() -> Self {
        Self::default()
    }
    /// A table from its rows. Refused as malformed where they break the rules.
    ///
    /// ```
    /// use izgarmulf::{ClientID, IdTable, Refusal};
    /// let (ann, bo) = (ClientID::new(1), ClientID::new(2));
    /// assert!(IdTable::from_rows([(ann, 0..2), (ann, 3..4), (bo, 0..1)]).is_ok());
    /// assert_eq!(IdTable::from_rows([(ann, 0..2), (ann, 2..4)]), Err(Refusal::Malformed));
    /// ```
    pub fn from_rows(rows: impl IntoIterator<Item = (ClientID, Range<u32>)>) -> Result<Self, Refusal> {
        let mut t = Self::new();
        for (c, r) in rows {
            t.clients.push(c.get());
            t.starts.push(r.start);
            t.ends.push(r.end);
        }
        ids::len(t.lent())?;
        Ok(t)
    }
    /// The rows as lent slices, for [`crate::lent::ids`].
    pub fn lent(&self) -> ids::Rows<'_> {
        ids::Rows { clients: &self.clients, starts: &self.starts, ends: &self.ends, count: self.clients.len() }
    }
    /// A new table with room for so many rows, filled by a call.
    fn made(most: usize, f: impl FnOnce(ids::Out) -> Result<usize, Refusal>) -> Result<Self, Refusal> {
        let room = most.min(ROW_LIMIT);
        let mut t = IdTable { clients: vec![0; room], starts: vec![0; room], ends: vec![0; room] };
        let k = f(ids::Out { clients: &mut t.clients, starts: &mut t.starts, ends: &mut t.ends })?;
        t.clients.truncate(k);
        t.starts.truncate(k);
        t.ends.truncate(k);
        Ok(t)
    }
    /// Puts a client's range in; an empty one changes nothing. A refused edit leaves the table as it was.
    pub fn insert_range(&mut self, client: ClientID, range: Range<u32>) -> Result<(), Refusal> {
        *self = Self::made(self.clients.len() + 1, |out| ids::insert_range(self.lent(), client, range, out))?;
        Ok(())
    }
    /// Whether an id is in the table.
    pub fn contains(&self, id: &ID) -> bool {
        ids::contains(self.lent(), id.client, id.clock).expect(OURS)
    }
    /// The ids of either table.
    pub fn merge(&self, other: &IdTable) -> Result<IdTable, Refusal> {
        Self::made(self.clients.len() + other.clients.len(), |out| ids::merge(self.lent(), other.lent(), out))
    }
    /// The ids of this table that are not in the other.
    pub fn diff(&self, other: &IdTable) -> Result<IdTable, Refusal> {
        Self::made(self.clients.len() + other.clients.len(), |out| ids::diff(self.lent(), other.lent(), out))
    }
    /// The ids of both tables.
    pub fn intersect(&self, other: &IdTable) -> Result<IdTable, Refusal> {
        Self::made(self.clients.len() + other.clients.len(), |out| ids::intersect(self.lent(), other.lent(), out))
    }
    /// An unchanged copy: a message to another desk.
    pub fn capture(&self) -> Result<IdTable, Refusal> {
        Self::made(self.clients.len(), |out| ids::capture(self.lent(), out))
    }
    /// Whether there is no row.
    pub fn is_empty(&self) -> bool {
        ids::is_empty(self.lent()).expect(OURS)
    }
    /// How many clients.
    pub fn len(&self) -> usize {
        ids::len(self.lent()).expect(OURS)
    }
    /// The rows in order.
    pub fn iter(&self) -> impl Iterator<Item = (ClientID, Range<u32>)> + '_ {
        (0..self.clients.len()).map(|i| (ClientID::new(self.clients[i]), self.starts[i]..self.ends[i]))
    }
}
impl fmt::Debug for IdTable {
    fn fmt(&self, f: &mut fmt::Formatter<'_>) -> fmt::Result {
        f.debug_list().entries(self.iter().map(|(c, r)| Pair(c, r))).finish()
    }
}
/// A client and what belongs to it, on one line.
pub(crate) struct Pair<T>(pub ClientID, pub T);
impl<T: fmt::Debug> fmt::Debug for Pair<T> {
    fn fmt(&self, f: &mut fmt::Formatter<'_>) -> fmt::Result {
        write!(f, "{}: {:?}", self.0.get(), self.1)
    }
}
