#![forbid(unsafe_code)]
//! Room that bytes of a file have kept, though they were made zero by a command that gives room back.
//!
//! While a hole is punched into a file nobody can write to it, and that can take long: ext4 without a journal tells the device of all that it has freed
//! (`discard`), and waits for that. To make bytes zero in place is quick. So this comes first, the command is completed, and the hole is punched later, in
//! small pieces, while nobody writes.
//!
//! What is noted here is zero, or a command that makes it zero has not been completed. A write takes its bytes out of the notes before it begins, and again
//! before it is completed, and no hole is punched while one is under way. So no hole takes what was written.

use std::collections::BTreeMap;
use std::sync::{Condvar, Mutex, MutexGuard, PoisonError, TryLockError};

use super::Wait;
use crate::drive::command::Extent;
use crate::drive::prp::PAGE_BYTES;

/// Ranges that are noted at most: less than a MiB of memory. Others keep their room.
const MOST_RANGES: usize = 1 << 14;

/// The notes of a file, and who changes it.
#[derive(Debug, Default)]
pub struct Room {
    state: Mutex<State>,
    changed: Condvar,
}

#[derive(Debug, Default)]
struct State {
    /// The first byte of each range, and the first after it: whole pages. No two meet.
    ranges: BTreeMap<u64, u64>,
    /// Writes that are under way.
    writes: usize,
    /// The hole that is being punched.
    hole: Option<Extent>,
    /// Whether there was a write since a hole was asked for last.
    is_stirred: bool,
}

impl State {
    /// Notes whole pages of a range of which nothing is noted.
    fn insert(&mut self, from: u64, to: u64) {
        let from = from.next_multiple_of(PAGE_BYTES);
        let to = to - to % PAGE_BYTES;
        if from < to && self.ranges.len() < MOST_RANGES {
            self.ranges.insert(from, to);
        }
    }

    fn add(&mut self, range: Extent) {
        let Extent { mut from, mut to } = range;
        self.cut(range);
        if let Some((&begin, _)) = self.ranges.range(..from).next_back().filter(|(_, &end)| end == from) {
            self.ranges.remove(&begin);
            from = begin;
        }
        if let Some(end) = self.ranges.remove(&to) {
            to = end;
        }
        self.insert(from, to);
    }

    fn cut(&mut self, range: Extent) {
        while let Some((&begin, &end)) = self.ranges.range(..range.to).next_back() {
            if end <= range.from {
                return;
            }
            self.ranges.remove(&begin);
            if begin < range.from {
                self.insert(begin, range.from);
            }
            if range.to < end {
                self.insert(range.to, end);
            }
        }
    }

    fn is_in_a_hole(&self, range: Extent) -> bool {
        self.hole
            .is_some_and(|hole| hole.from < range.to && range.from < hole.to)
    }
}

/// A write that is under way, until it is dropped.
#[derive(Debug)]
pub struct Writing<'a> {
    room: &'a Room,
    range: Extent,
    /// Of a write that ends at once: nobody else does anything until then.
    held: Option<MutexGuard<'a, State>>,
}

impl Drop for Writing<'_> {
    fn drop(&mut self) {
        if self.held.is_none() {
            let mut state = self.room.lock();
            state.cut(self.range);
            state.writes -= 1;
            self.room.changed.notify_all();
        }
    }
}

/// A hole that is being punched, until it is dropped.
#[derive(Debug)]
pub struct Hole<'a> {
    room: &'a Room,
    /// Which bytes: whole pages.
    pub range: Extent,
}

impl Drop for Hole<'_> {
    fn drop(&mut self) {
        self.room.lock().hole = None;
        self.room.changed.notify_all();
    }
}

impl Room {
    fn lock(&self) -> MutexGuard<'_, State> {
        self.state.lock().unwrap_or_else(PoisonError::into_inner)
    }

    fn wait<'a>(&self, state: MutexGuard<'a, State>) -> MutexGuard<'a, State> {
        self.changed.wait(state).unwrap_or_else(PoisonError::into_inner)
    }

    /// Whether nothing is noted.
    pub fn is_empty(&self) -> bool {
        self.lock().ranges.is_empty()
    }

    /// Notes bytes that are about to be made zero.
    pub fn add(&self, range: Extent) {
        self.lock().add(range);
    }

    /// They could not be made zero.
    pub fn forget(&self, range: Extent) {
        self.lock().cut(range);
    }

    /// These bytes are about to be written. `None` where that would have to wait, and may not; a write that may not wait ends at once.
    pub fn begin_write(&self, range: Extent, wait: Wait) -> Option<Writing<'_>> {
        let mut state = match (wait, self.state.try_lock()) {
            (_, Ok(state)) => state,
            (_, Err(TryLockError::Poisoned(state))) => state.into_inner(),
            (Wait::Never, Err(TryLockError::WouldBlock)) => return None,
            (Wait::Allowed, Err(TryLockError::WouldBlock)) => self.lock(),
        };
        while state.is_in_a_hole(range) {
            if wait == Wait::Never {
                return None;
            }
            state = self.wait(state);
        }
        state.cut(range);
        state.is_stirred = true;
        state.writes += usize::from(wait == Wait::Allowed);
        Some(Writing {
            room: self,
            range,
            held: (wait == Wait::Never).then_some(state),
        })
    }

    /// The next hole that is to be punched, of `most` bytes at most, or `None` where nothing is noted. Without [`Wait::Allowed`] also where a write is under
    /// way, or has been since the last call.
    pub fn begin_hole(&self, most: u64, wait: Wait) -> Option<Hole<'_>> {
        let mut state = self.lock();
        while state.writes != 0 || state.hole.is_some() {
            if wait == Wait::Never {
                return None;
            }
            state = self.wait(state);
        }
        if std::mem::take(&mut state.is_stirred) && wait == Wait::Never {
            return None;
        }
        let (&from, &end) = state.ranges.first_key_value()?;
        let to = end.min(from.saturating_add(most.max(PAGE_BYTES)) / PAGE_BYTES * PAGE_BYTES);
        state.ranges.remove(&from);
        state.insert(to, end);
        let range = Extent { from, to };
        state.hole = Some(range);
        Some(Hole { room: self, range })
    }
}

#[cfg(test)]
mod tests {
    use super::*;

    const PAGE: u64 = PAGE_BYTES;

    fn pages(from: u64, to: u64) -> Extent {
        Extent {
            from: from * PAGE,
            to: to * PAGE,
        }
    }

    fn noted(room: &Room) -> Vec<(u64, u64)> {
        room.lock().ranges.iter().map(|(&from, &to)| (from, to)).collect()
    }

    /// Each page that is noted, and no two ranges that touch but where a write has cut them: against a row of bits.
    #[test]
    fn ranges_are_those_of_a_row_of_bits() {
        let mut random = crate::drive::testing::Random::new(3);
        let room = Room::default();
        let mut bits = [false; 64];
        for round in 0..20_000 {
            let from = random.below(64 * PAGE);
            let to = from + random.below(64 * PAGE - from + 1);
            let adds = random.below(2) == 0;
            if adds {
                room.add(Extent { from, to });
            } else {
                room.forget(Extent { from, to });
            }
            for (page, bit) in (0..).zip(&mut bits) {
                let (begin, end) = (page * PAGE, (page + 1) * PAGE);
                let is_whole = from <= begin && end <= to;
                let is_met = from < end && begin < to && from < to;
                *bit = if adds {
                    is_whole || *bit && !is_met
                } else {
                    *bit && !is_met
                };
            }
            let ranges = noted(&room);
            assert!(ranges.windows(2).all(|pair| pair[0].1 <= pair[1].0), "round {round}");
            for (page, bit) in (0..).zip(bits) {
                let has = ranges
                    .iter()
                    .any(|&(from, to)| from <= page * PAGE && (page + 1) * PAGE <= to);
                assert_eq!(has, bit, "round {round}, page {page}");
            }
        }
    }

    #[test]
    fn ranges_that_touch_are_one() {
        let room = Room::default();
        for (from, to) in [(0, 1), (2, 3), (1, 2), (5, 6), (4, 5)] {
            room.add(pages(from, to));
        }
        assert_eq!(noted(&room), [(0, 3 * PAGE), (4 * PAGE, 6 * PAGE)]);
    }

    /// However ranges come, they take no more memory than that.
    #[test]
    fn ranges_have_a_limit() {
        let room = Room::default();
        for i in 0..2 * MOST_RANGES as u64 {
            room.add(pages(2 * i, 2 * i + 1));
        }
        assert_eq!(noted(&room).len(), MOST_RANGES);
        room.add(pages(1, 2));
        assert_eq!(noted(&room).len(), MOST_RANGES - 1, "one closes a gap");
        room.add(pages(1 << 40, (1 << 40) + 9));
        room.forget(pages((1 << 40) + 4, (1 << 40) + 5));
        assert_eq!(noted(&room).len(), MOST_RANGES);
    }

    #[test]
    fn holes_are_punched_piece_by_piece() {
        let room = Room::default();
        assert!(room.begin_hole(PAGE, Wait::Allowed).is_none());
        room.add(pages(3, 6));
        room.add(pages(8, 9));
        let mut holes = Vec::new();
        while let Some(hole) = room.begin_hole(2 * PAGE, Wait::Never) {
            holes.push(hole.range);
            assert!(room.begin_hole(PAGE, Wait::Never).is_none(), "one at a time");
        }
        assert_eq!(holes, [pages(3, 5), pages(5, 6), pages(8, 9)]);
        assert!(room.is_empty());
    }

    #[test]
    fn no_hole_is_punched_while_somebody_writes() {
        let room = Room::default();
        room.add(pages(0, 4));
        let writing = room.begin_write(pages(8, 9), Wait::Allowed).expect("a write");
        assert!(room.begin_hole(PAGE, Wait::Never).is_none());
        drop(writing);
        assert!(
            room.begin_hole(PAGE, Wait::Never).is_none(),
            "one has been a moment ago"
        );
        assert!(room.begin_hole(PAGE, Wait::Never).is_some());
        drop(room.begin_write(pages(9, 10), Wait::Never).expect("a write"));
        assert!(room.begin_hole(PAGE, Wait::Never).is_none());
        drop(room.begin_write(pages(9, 10), Wait::Never).expect("a write"));
        assert!(room.begin_hole(PAGE, Wait::Allowed).is_some(), "where room is needed");
    }

    /// Bytes that are noted while a write of them is under way are not noted after it.
    #[test]
    fn what_is_written_is_noted_no_more() {
        let room = Room::default();
        room.add(pages(0, 8));
        let writing = room.begin_write(pages(1, 2), Wait::Allowed).expect("a write");
        assert_eq!(noted(&room), [(0, PAGE), (2 * PAGE, 8 * PAGE)]);
        room.add(pages(0, 8));
        drop(writing);
        assert_eq!(noted(&room), [(0, PAGE), (2 * PAGE, 8 * PAGE)]);
        let written = Extent {
            from: 3 * PAGE + 512,
            to: 3 * PAGE + 1024,
        };
        drop(room.begin_write(written, Wait::Never).expect("a write"));
        assert_eq!(noted(&room), [(0, PAGE), (2 * PAGE, 3 * PAGE), (4 * PAGE, 8 * PAGE)]);
    }

    /// A write of bytes into which a hole is being punched waits for that, or says that it would.
    #[test]
    fn a_write_comes_after_the_hole() {
        let room = Room::default();
        room.add(pages(0, 4));
        let hole = room.begin_hole(2 * PAGE, Wait::Never).expect("a hole");
        assert!(room.begin_write(pages(1, 3), Wait::Never).is_none());
        assert!(room.begin_write(pages(2, 3), Wait::Never).is_some());
        let is_over = std::sync::atomic::AtomicBool::new(false);
        std::thread::scope(|scope| {
            scope.spawn(|| {
                let _writing = room.begin_write(pages(1, 3), Wait::Allowed);
                assert!(is_over.load(std::sync::atomic::Ordering::SeqCst));
            });
            std::thread::sleep(std::time::Duration::from_millis(20));
            is_over.store(true, std::sync::atomic::Ordering::SeqCst);
            drop(hole);
        });
        assert_eq!(noted(&room), [(3 * PAGE, 4 * PAGE)]);
    }
}
