//! Times, counted by how long they are: fixed buckets, four for each power of two of nanoseconds.

use std::sync::atomic::{AtomicU64, Ordering};
use std::time::Duration;

/// A count that one thread adds to, and others read.
#[derive(Debug, Default)]
pub struct Counter(AtomicU64);

impl Counter {
    /// Adds. One thread alone may, so that it costs no more than a plain sum.
    pub fn add(&self, more: u64) {
        let sum = self.0.load(Ordering::Relaxed).wrapping_add(more);
        self.0.store(sum, Ordering::Relaxed);
    }

    /// Replaces it by a count that is kept elsewhere.
    pub fn set(&self, value: u64) {
        self.0.store(value, Ordering::Relaxed);
    }

    /// What it is now.
    #[must_use]
    pub fn get(&self) -> u64 {
        self.0.load(Ordering::Relaxed)
    }
}

/// The longest time of the first bucket is 2^10 ns.
const FIRST: u32 = 10;
/// From there on to 2^37 ns, which are 137 seconds.
const OCTAVES: u32 = 27;
/// Buckets of an octave, as a power of two.
const PARTS: u32 = 2;
/// Buckets with a longest time, and one for what is longer.
const BUCKETS: usize = 1 + ((OCTAVES as usize) << PARTS) + 1;

/// The bucket of a time. A time that equals a bucket's longest one is in it.
fn bucket(nanos: u64) -> usize {
    let below = nanos.saturating_sub(1);
    if below >> FIRST == 0 {
        return 0;
    }
    let octave = below.ilog2();
    let part = (below >> (octave - PARTS)) as usize & ((1 << PARTS) - 1);
    let place = 1 + (((octave - FIRST) as usize) << PARTS) + part;
    place.min(BUCKETS - 1)
}

/// The longest time of a bucket in nanoseconds, or `None` of the last one, which has no longest.
fn longest(bucket: usize) -> Option<u64> {
    if bucket >= BUCKETS - 1 {
        return None;
    }
    let Some(place) = bucket.checked_sub(1) else {
        return Some(1 << FIRST);
    };
    let octave = FIRST + (place >> PARTS) as u32;
    let part = (place & ((1 << PARTS) - 1)) as u64;
    Some(((1 << PARTS) + part + 1) << (octave - PARTS))
}

/// Times of one kind. It has one writer.
#[derive(Debug)]
pub struct Histogram {
    counts: [Counter; BUCKETS],
    sum: Counter,
}

impl Default for Histogram {
    fn default() -> Self {
        Self {
            counts: [const { Counter(AtomicU64::new(0)) }; BUCKETS],
            sum: Counter::default(),
        }
    }
}

impl Histogram {
    /// Counts a time.
    pub fn note(&self, time: Duration) {
        let nanos = u64::try_from(time.as_nanos()).unwrap_or(u64::MAX);
        if let Some(count) = self.counts.get(bucket(nanos)) {
            count.add(1);
        }
        self.sum.add(nanos);
    }

    /// What was counted until now. The sum may have a time more or less than the buckets.
    #[must_use]
    pub fn read(&self) -> Times {
        let counts = self.counts.iter().enumerate();
        let counts = counts.map(|(place, count)| (longest(place), count.get()));
        Times {
            buckets: counts.filter(|&(_, count)| count != 0).collect(),
            nanos: self.sum.get(),
        }
    }
}

/// What a histogram had at a moment.
#[derive(Clone, Debug, Default, PartialEq, Eq)]
pub struct Times {
    /// Of each bucket that is not empty its longest time in nanoseconds, which the last one has not, and how many times it has; in ascending order.
    pub buckets: Vec<(Option<u64>, u64)>,
    /// The sum of all times, in nanoseconds.
    pub nanos: u64,
}

impl Times {
    /// How many there are.
    #[must_use]
    pub fn count(&self) -> u64 {
        self.buckets.iter().map(|(_, count)| count).sum()
    }

    /// For each power of two that ends a bucket how many times are not longer than that, in nanoseconds.
    pub fn powers(&self) -> impl Iterator<Item = (u64, u64)> + '_ {
        (FIRST..=FIRST + OCTAVES).map(|power| {
            let most = 1 << power;
            let within = self
                .buckets
                .iter()
                .filter(|(end, _)| end.is_some_and(|end| end <= most));
            (most, within.map(|(_, count)| count).sum())
        })
    }
}

#[cfg(test)]
mod tests {
    use super::*;

    #[test]
    fn each_time_is_in_the_bucket_of_its_bounds() {
        let mut times = vec![0, 1, u64::MAX];
        for power in 0..63 {
            for part in 4..8u64 {
                let edge = (part << power) >> 2;
                times.extend([edge.saturating_sub(1), edge, edge + 1]);
            }
        }
        for nanos in times {
            let place = bucket(nanos);
            assert!(longest(place).is_none_or(|end| nanos <= end), "{nanos}");
            let before = place.checked_sub(1).and_then(longest);
            assert!(before.is_none_or(|end| nanos > end), "{nanos}");
        }
        assert_eq!(longest(BUCKETS - 2), Some(1 << 37));
        let ends: Vec<u64> = (0..BUCKETS).filter_map(longest).collect();
        assert!(ends
            .windows(2)
            .all(|pair| pair[0] < pair[1] && pair[1] <= pair[0] * 5 / 4));
    }

    #[test]
    fn times_are_counted() {
        let histogram = Histogram::default();
        for nanos in [0, 1024, 1025, 2048, 2049, 1 << 40] {
            histogram.note(Duration::from_nanos(nanos));
        }
        let times = histogram.read();
        let buckets = [
            (Some(1024), 2),
            (Some(1280), 1),
            (Some(2048), 1),
            (Some(2560), 1),
            (None, 1),
        ];
        assert_eq!((times.buckets.as_slice(), times.count()), (&buckets[..], 6));
        assert_eq!(times.nanos, 1024 + 1025 + 2048 + 2049 + (1 << 40));
        let powers: Vec<_> = times.powers().collect();
        assert_eq!(powers[..3], [(1024, 2), (2048, 4), (4096, 5)]);
        assert_eq!(powers.last(), Some(&(1 << 37, 5)));
    }
}
