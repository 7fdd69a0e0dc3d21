#![forbid(unsafe_code)]
//! The interrupts of a guest.

use crate::sys;
use std::fmt;

/// The most vectors of a guest: one of each of its completion queues, the admin queue's among them.
pub const VECTORS: usize = 9;

/// How many guests there are at most.
pub(crate) const GUESTS: usize = 16;

/// Vectors of a guest, of its completion queues in ascending order: up to [`VECTORS`] of them. Two queues may have the same vector, which is there twice
/// then. A guest chooses its vectors, from 0 to 65,535: check that there is such a vector before it is used.
#[derive(Clone, Copy, Default)]
pub struct Vectors {
    count: usize,
    values: [u16; VECTORS],
}

impl Vectors {
    /// None.
    pub fn new() -> Self {
        Self::default()
    }

    /// The vectors as a slice.
    pub fn as_slice(&self) -> &[u16] {
        self.values.get(..self.count).unwrap_or(&self.values)
    }

    /// The vectors, one by one.
    pub fn iter(&self) -> impl Iterator<Item = u16> + '_ {
        self.as_slice().iter().copied()
    }

    /// Whether there is none.
    pub fn is_empty(&self) -> bool {
        self.count == 0
    }

    /// How many there are.
    pub fn len(&self) -> usize {
        self.count
    }

    /// Whether this vector is among them.
    pub fn contains(&self, vector: u16) -> bool {
        self.as_slice().contains(&vector)
    }

    /// Adds a vector. There are no more than [`VECTORS`]: one that is too many is left out.
    pub(crate) fn push(&mut self, vector: u16) {
        if let Some(place) = self.values.get_mut(self.count) {
            *place = vector;
            self.count += 1;
        }
    }
}

impl FromIterator<u16> for Vectors {
    /// The first [`VECTORS`] of these.
    fn from_iter<I: IntoIterator<Item = u16>>(all: I) -> Self {
        let mut vectors = Vectors::new();
        all.into_iter().for_each(|vector| vectors.push(vector));
        vectors
    }
}

impl PartialEq for Vectors {
    fn eq(&self, other: &Self) -> bool {
        self.as_slice() == other.as_slice()
    }
}

impl Eq for Vectors {}

impl fmt::Debug for Vectors {
    fn fmt(&self, f: &mut fmt::Formatter<'_>) -> fmt::Result {
        f.debug_list().entries(self.as_slice()).finish()
    }
}

impl<'a> IntoIterator for &'a Vectors {
    type Item = u16;
    type IntoIter = std::iter::Copied<std::slice::Iter<'a, u16>>;

    fn into_iter(self) -> Self::IntoIter {
        self.as_slice().iter().copied()
    }
}

/// What a caller of [`Mediator::posted`](crate::Mediator::posted) has seen of the guests: where their completion queues stood. It is used with one mediator,
/// for one guest or for all.
#[derive(Debug, Clone, Default)]
pub struct Seen {
    guests: [Standings; GUESTS],
}

/// Where the completion queues of a guest stood: all zero at first.
pub(crate) type Standings = [sys::Standing; VECTORS];

impl Seen {
    /// Nothing was seen yet.
    pub fn new() -> Self {
        Self::default()
    }

    /// What was seen of a guest; `None` where there can be no such guest.
    pub(crate) fn of(&mut self, guest: u32) -> Option<&mut Standings> {
        self.guests.get_mut(guest as usize)
    }
}

#[cfg(test)]
mod tests {
    use super::*;

    #[test]
    fn vectors_are_those_that_were_added_and_no_more_than_there_can_be() {
        let mut vectors = Vectors::new();
        assert!(vectors.is_empty() && !vectors.contains(0));
        for vector in [3, 65_535, 3] {
            vectors.push(vector);
        }
        assert_eq!(vectors.as_slice(), [3, 65_535, 3]);
        assert_eq!(vectors.iter().map(u32::from).sum::<u32>(), 65_541);
        assert_eq!((&vectors).into_iter().count(), vectors.len());
        assert!(vectors.contains(65_535) && !vectors.contains(0));
        assert_eq!(format!("{vectors:?}"), "[3, 65535, 3]");
        for vector in 0..20 {
            vectors.push(vector);
        }
        assert_eq!(vectors.len(), VECTORS);
    }

    #[test]
    fn vectors_are_compared_by_what_is_there() {
        let (mut some, mut other) = (Vectors::new(), Vectors::new());
        other.values[4] = 7;
        assert_eq!(some, other);
        some.push(1);
        assert_ne!(some, other);
    }
}
