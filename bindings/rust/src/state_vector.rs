use crate::ids::{Pair, OURS};
use crate::lent::vectors;
use crate::{ClientID, Refusal, VECTOR_LIMIT};
use std::cmp::Ordering;
use std::fmt;

/// For each client a clock: at most [`VECTOR_LIMIT`] clients. An absent client reads as 0.
///
/// ```
/// use izgarmulf::{ClientID, StateVector};
/// use std::cmp::Ordering;
/// # fn main() -> Result<(), izgarmulf::Refusal> {
/// let mut v = StateVector::new();
/// v.set_max(ClientID::new(300), 0)?;
/// v.set_max(ClientID::new(1), 4)?;
/// assert_eq!(v.encode(), [0x02, 0x01, 0x04, 0xAC, 0x02, 0x00]);
/// assert_eq!(StateVector::decode(&v.encode())?, v);
/// // a repeated client takes the last clock
/// assert_eq!(format!("{:?}", StateVector::decode(&[0x02, 0x07, 0x01, 0x07, 0x05])?), "[7: 5]");
/// // {1: 4, 300: 0} and {1: 4} are different vectors of the same meaning
/// let w = StateVector::from_rows([(ClientID::new(1), 4)])?;
/// assert!(v != w && v.partial_cmp(&w) == Some(Ordering::Equal));
/// # Ok(()) }
/// ```
#[derive(Default, Clone, PartialEq, Eq)]
pub struct StateVector {
    clients: Vec<u64>,
    clocks: Vec<u32>,
}
impl StateVector {
    /// The empty vector.
    pub fn new() -> Self {
        Self::default()
    }
    /// A vector from its rows, clients strictly rising. Refused as malformed otherwise.
    pub fn from_rows(rows: impl IntoIterator<Item = (ClientID, u32)>) -> Result<Self, Refusal> {
        let (clients, clocks) = rows.into_iter().map(|(c, k)| (c.get(), k)).unzip();
        let v = StateVector { clients, clocks };
        vectors::get(v.lent(), ClientID::new(0))?;
        Ok(v)
    }
    /// The rows as lent slices, for [`crate::lent::vectors`].
    pub fn lent(&self) -> vectors::Rows<'_> {
        vectors::Rows { clients: &self.clients, clocks: &self.clocks, count: self.clients.len() }
    }
    /// A new vector with room for so many rows, filled by a call that also gives something else.
    fn made<T>(most: usize, f: impl FnOnce(vectors::Out) -> Result<(usize, T), Refusal>) -> Result<(Self, T), Refusal> {
        let room = most.min(VECTOR_LIMIT);
        let mut v = StateVector { clients: vec![0; room], clocks: vec![0; room] };
        let (k, more) = f(vectors::Out { clients: &mut v.clients, clocks: &mut v.clocks })?;
        v.clients.truncate(k);
        v.clocks.truncate(k);
        Ok((v, more))
    }
    /// The clock of a client; absent reads as 0.
    pub fn get(&self, client: &ClientID) -> u32 {
        vectors::get(self.lent(), *client).expect(OURS)
    }
    /// Stores the smaller clock; for an absent client the clock itself. A refused edit leaves the vector as it was.
    pub fn set_min(&mut self, client: ClientID, clock: u32) -> Result<(), Refusal> {
        *self = Self::made(self.len() + 1, |out| Ok((vectors::set_min(self.lent(), client, clock, out)?, ())))?.0;
        Ok(())
    }
    /// Stores the larger clock; an absent client gets a row, for clock 0 too.
    pub fn set_max(&mut self, client: ClientID, clock: u32) -> Result<(), Refusal> {
        *self = Self::made(self.len() + 1, |out| Ok((vectors::set_max(self.lent(), client, clock, out)?, ())))?.0;
        Ok(())
    }
    /// Takes every client of another vector in, with the larger clock.
    pub fn merge(&mut self, other: &StateVector) -> Result<(), Refusal> {
        *self = Self::made(self.len() + other.len(), |out| Ok((vectors::merge(self.lent(), other.lent(), out)?, ())))?.0;
        Ok(())
    }
    /// The pointwise order, with absent as 0. This is no `PartialOrd`: vectors that differ can compare as `Equal`.
    pub fn partial_cmp(&self, other: &StateVector) -> Option<Ordering> {
        vectors::partial_cmp(self.lent(), other.lent()).expect(OURS)
    }
    /// The bytes: the count, then client and clock, clients rising.
    pub fn encode(&self) -> Vec<u8> {
        let mut bytes = vec![0; 2 + 15 * self.len()];
        let end = self.encode_at(&mut bytes, 0).expect("room for each row's most bytes");
        bytes.truncate(end);
        bytes
    }
    /// The same at a place of a lent buffer; the place past it.
    pub fn encode_at(&self, buf: &mut [u8], at: usize) -> Result<usize, Refusal> {
        vectors::encode(self.lent(), buf, at)
    }
    /// The vector that bytes begin with; what follows it is not read.
    pub fn decode(bytes: &[u8]) -> Result<StateVector, Refusal> {
        Self::decode_at(bytes, 0).map(|r| r.0)
    }
    /// The vector at a place, and the place past it.
    ///
    /// ```
    /// use izgarmulf::{Refusal, StateVector};
    /// let (v, next) = StateVector::decode_at(&[0xFF, 0x01, 0x07, 0x05, 0x2A], 1).unwrap();
    /// assert_eq!((format!("{v:?}").as_str(), next), ("[7: 5]", 4));
    /// // a declared count is not believed before its pairs are there
    /// assert_eq!(StateVector::decode(&[0xFF, 0xFF, 0xFF, 0xFF, 0x0F]), Err(Refusal::End));
    /// ```
    pub fn decode_at(bytes: &[u8], at: usize) -> Result<(StateVector, usize), Refusal> {
        Self::made(VECTOR_LIMIT, |out| vectors::decode(bytes, at, out))
    }
    /// How many clients.
    pub fn len(&self) -> usize {
        self.clients.len()
    }
    /// Whether there is no client.
    pub fn is_empty(&self) -> bool {
        self.clients.is_empty()
    }
    /// The rows, clients rising.
    pub fn iter(&self) -> impl Iterator<Item = (ClientID, u32)> + '_ {
        (0..self.len()).map(|i| (ClientID::new(self.clients[i]), self.clocks[i]))
    }
}
impl fmt::Debug for StateVector {
    fn fmt(&self, f: &mut fmt::Formatter<'_>) -> fmt::Result {
        f.debug_list().entries(self.iter().map(|(c, k)| Pair(c, k))).finish()
    }
}
