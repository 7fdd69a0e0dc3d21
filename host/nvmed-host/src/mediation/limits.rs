//! Limits of a guest: so many commands and so many bytes a second.
//!
//! They are counted from what the guest's work has put into the lanes, by the entries' own lengths. A command that was taken is paid for afterwards, so that a
//! guest may owe something, and has nothing taken until it has paid. A guest that has taken less may take a tenth of a second's worth at once.

#![forbid(unsafe_code)]

use std::time::{Duration, Instant};

/// The most commands a second that a limit may be.
pub const MOST_IOPS: u64 = 10_000_000;
/// The fewest and the most bytes a second: the fewest are those of the longest command.
pub const LEAST_BYTES: u64 = LONGEST;
/// See [`LEAST_BYTES`].
pub const MOST_BYTES: u64 = 1 << 40;

/// Bytes of the longest command: 256 blocks.
const LONGEST: u64 = 131_072;
/// What may be taken at once: as much as in this time.
const BURST: Duration = Duration::from_millis(100);
/// A guest at its limit has nothing taken for at least so long, so that its limit does not keep the thread awake.
const REST: Duration = Duration::from_micros(500);
/// Picoseconds of a nanosecond, and of a second.
const NANO: u128 = 1_000;
const SECOND: u128 = 1_000_000_000_000;

/// The limits of a guest, of each second. `None` is none.
#[derive(Clone, Copy, Debug, Default, PartialEq, Eq)]
pub struct Limit {
    /// Commands: 1 to [`MOST_IOPS`].
    pub iops: Option<u64>,
    /// Bytes that are moved: [`LEAST_BYTES`] to [`MOST_BYTES`].
    pub bytes: Option<u64>,
}

/// What is allowed of one thing: when all that was taken will have been paid for. Times are in picoseconds since the gate's begin.
#[derive(Clone, Copy, Debug)]
struct Meter {
    /// What one costs.
    each: u128,
    paid: u128,
}

impl Meter {
    fn new(rate: u64) -> Self {
        Self {
            each: SECOND / u128::from(rate.max(1)),
            paid: 0,
        }
    }

    /// How many of that size may be taken: at least one where nothing is owed beyond the burst.
    fn room(&self, now: u128, size: u64) -> u64 {
        let burst = BURST.as_nanos() * NANO;
        let Some(left) = (now + burst).checked_sub(self.paid.max(now)) else {
            return 0;
        };
        let more = left / (self.each * u128::from(size)).max(1);
        u64::try_from(more).unwrap_or(u64::MAX).saturating_add(1)
    }

    fn take(&mut self, now: u128, count: u64) {
        self.paid = self.paid.max(now) + self.each * u128::from(count);
    }

    /// For how long nothing may be taken.
    fn wait(&self, now: u128) -> Duration {
        let burst = BURST.as_nanos() * NANO;
        let wait = self.paid.saturating_sub(now + burst);
        Duration::from_nanos(u64::try_from(wait.div_ceil(NANO)).unwrap_or(u64::MAX))
    }
}

/// What a guest with limits may take.
#[derive(Clone, Copy, Debug)]
pub struct Gate {
    began: Instant,
    iops: Option<Meter>,
    bytes: Option<Meter>,
    /// Until then nothing is taken.
    closed: Option<Instant>,
}

impl Gate {
    /// A gate of these limits, or `None` where there are none.
    #[must_use]
    pub fn new(limit: Limit, now: Instant) -> Option<Self> {
        (limit != Limit::default()).then(|| Self {
            began: now,
            iops: limit.iops.map(Meter::new),
            bytes: limit.bytes.map(Meter::new),
            closed: None,
        })
    }

    fn at(&self, now: Instant) -> u128 {
        now.saturating_duration_since(self.began).as_nanos() * NANO
    }

    /// How many commands may be taken, of whatever length: 0 while something is owed.
    pub fn room(&mut self, now: Instant) -> u64 {
        if self.closed.is_some_and(|until| now < until) {
            return 0;
        }
        let at = self.at(now);
        let rooms = [(self.iops, 1), (self.bytes, LONGEST)];
        let rooms = rooms
            .iter()
            .filter_map(|(meter, size)| Some(meter.as_ref()?.room(at, *size)));
        let room = rooms.min().unwrap_or(u64::MAX);
        self.closed = (room == 0).then(|| {
            let meters = [self.iops, self.bytes];
            let waits = meters.iter().flatten().map(|meter| meter.wait(at));
            now + waits.max().unwrap_or_default().max(REST)
        });
        room
    }

    /// So many commands with so many bytes were taken.
    pub fn take(&mut self, now: Instant, commands: u64, bytes: u64) {
        let at = self.at(now);
        if let Some(meter) = &mut self.iops {
            meter.take(at, commands);
        }
        if let Some(meter) = &mut self.bytes {
            meter.take(at, bytes);
        }
    }

    /// Until when nothing is taken, as [`Gate::room`] has found last.
    #[must_use]
    pub fn closed(&self) -> Option<Instant> {
        self.closed
    }
}

#[cfg(test)]
mod tests {
    use super::*;

    /// What a guest that always wants more takes in ten seconds, in commands of so many bytes, of which `at_once` are taken where there is room.
    fn taken(limit: Limit, bytes: u64, at_once: u64) -> (u64, u64) {
        let begin = Instant::now();
        let mut gate = Gate::new(limit, begin).unwrap();
        let (mut commands, mut rests) = (0, 0);
        let mut now = begin;
        let end = begin + Duration::from_secs(10);
        while now < end {
            match gate.room(now).min(at_once) {
                0 => {
                    let until = gate.closed().unwrap();
                    assert!(until >= now + REST);
                    now = until;
                    rests += 1;
                }
                room => {
                    gate.take(now, room, room * bytes);
                    commands += room;
                    now += Duration::from_micros(3);
                }
            }
        }
        assert!(rests <= 20_000);
        (commands, commands * bytes)
    }

    fn near(is: u64, wanted: u64) {
        let (least, most) = (wanted * 98 / 100, wanted * 102 / 100 + 1);
        assert!((least..=most).contains(&is), "{is} of {wanted}");
    }

    #[test]
    fn limits_are_kept() {
        for at_once in [1, 7, 32] {
            for iops in [10, 500, 20_000, 200_000] {
                let limit = Limit {
                    iops: Some(iops),
                    bytes: None,
                };
                near(taken(limit, 131_072, at_once).0, 10 * iops);
            }
            for rate in [1 << 20, 50_000_000, 1 << 30] {
                for bytes in [512, 4096, 131_072] {
                    let limit = Limit {
                        iops: None,
                        bytes: Some(rate),
                    };
                    // no more than one in 3 microseconds is asked for
                    if rate / bytes < 300_000 {
                        near(taken(limit, bytes, at_once).1, 10 * rate);
                    }
                }
            }
            let both = Limit {
                iops: Some(1000),
                bytes: Some(10_000_000),
            };
            near(taken(both, 4096, at_once).0, 10_000);
            near(taken(both, 131_072, at_once).1, 100_000_000);
        }
    }

    /// What was not taken is not kept for ever, and what was taken too much is paid.
    #[test]
    fn bursts_and_debts() {
        let begin = Instant::now();
        let limit = Limit {
            iops: Some(1000),
            bytes: None,
        };
        let mut gate = Gate::new(limit, begin).unwrap();
        let later = begin + Duration::from_secs(100);
        assert_eq!(gate.room(later), 101, "a tenth of a second's, and one");
        gate.take(later, 1101, 0);
        assert_eq!(gate.room(later), 0);
        assert_eq!(gate.closed(), Some(later + Duration::from_millis(1001)));
        assert_eq!(gate.room(later + Duration::from_millis(1000)), 0);
        assert_eq!(gate.room(later + Duration::from_millis(1001)), 1);
        assert!(Gate::new(Limit::default(), begin).is_none());
    }
}
