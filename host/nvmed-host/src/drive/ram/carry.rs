#![forbid(unsafe_code)]
//! Carries steps out on a store, as far as a budget goes.

use std::io;

use vm_memory::VolatileSlice;

use super::store::{Store, Wait};
use crate::drive::command::{Clearing, Kind, Step, Transfer};
use crate::drive::entry::Status;
use crate::drive::failure::Failure;
use crate::drive::prp::{SharedMemory, FEW_PLACES, MOST_PLACES, PAGE_BYTES};

/// How far a step came.
#[derive(Clone, Copy, Debug, PartialEq, Eq)]
pub enum Outcome {
    /// It is done, with this status.
    Done(Status),
    /// It goes on another time.
    More,
    /// It cannot go on without waiting.
    WouldWait,
}

/// What steps are carried out on.
pub struct Carrier<'a, M: SharedMemory + ?Sized> {
    /// The memory of rings and data.
    pub memory: &'a M,
    /// The drive's bytes.
    pub store: &'a dyn Store,
    /// Why there are no more writes.
    pub failure: &'a Failure,
}

impl<M: SharedMemory + ?Sized> Carrier<'_, M> {
    /// Goes on with a step, for at most `bytes` bytes, rounded up to whole pages; returns how many were moved or made zero, too. With [`Wait::Never`]
    /// nothing that may wait is begun, where the store can say so.
    pub fn advance(&self, step: &mut Step, bytes: u64, wait: Wait) -> (Outcome, u64) {
        let bytes = bytes.clamp(1, 1 << 40).next_multiple_of(PAGE_BYTES);
        match step {
            Step::Transfer(transfer) => self.transfer(transfer, bytes, wait),
            Step::Clear(clearing) => self.clear(clearing, bytes),
            Step::Sync => (Outcome::Done(self.sync()), 0),
        }
    }

    /// Makes durable what was written. Any error is kept for ever.
    pub fn sync(&self) -> Status {
        if self.failure.reason().is_some() {
            return Status::WRITE_FAULT_FOR_EVER;
        }
        match self.store.sync() {
            Ok(()) => Status::GOOD,
            Err(error) => self.lost(&error),
        }
    }

    /// Writes the rest of a transfer and makes it durable. An error while bytes are taken over is the command's; one while they are made durable is kept.
    pub fn write_durably(&self, transfer: &mut Transfer) -> Status {
        let offset = transfer.offset + u64::from(transfer.done);
        let rest = transfer.places.bytes().saturating_sub(transfer.done);
        match self.transfer(transfer, u64::from(rest), Wait::Allowed) {
            (Outcome::Done(status), _) if status.is_good() => {}
            (Outcome::Done(status), _) => return status,
            _ => return Status::WRITE_FAULT,
        }
        let from = transfer.done.saturating_sub(rest);
        let Some((places, count)) = self.slices::<MOST_PLACES>(transfer, from, rest) else {
            return Status::TRANSFER_ERROR;
        };
        match self
            .store
            .write_durably(offset, places.get(..count).unwrap_or_default())
        {
            Ok(()) => Status::GOOD,
            Err(error) if error.raw_os_error() == Some(libc::EFAULT) => Status::TRANSFER_ERROR,
            Err(error) => self.lost(&error),
        }
    }

    fn lost(&self, error: &io::Error) -> Status {
        self.failure.lost(error, self.store.describe())
    }

    /// Where so many bytes of a transfer are, from `from` on, in `N` places at most.
    fn slices<'m, const N: usize>(
        &'m self,
        transfer: &Transfer,
        from: u32,
        bytes: u32,
    ) -> Option<([VolatileSlice<'m>; N], usize)> {
        let mut parts = transfer.places.part(from, bytes);
        let first = parts.next()?;
        let mut slices = [self.memory.slice(first.host, first.bytes as usize)?; N];
        let mut count = 1;
        for part in parts {
            *slices.get_mut(count)? = self.memory.slice(part.host, part.bytes as usize)?;
            count += 1;
        }
        Some((slices, count))
    }

    fn transfer(&self, transfer: &mut Transfer, bytes: u64, wait: Wait) -> (Outcome, u64) {
        if transfer.kind == Kind::Write && self.failure.reason().is_some() {
            return (Outcome::Done(Status::WRITE_FAULT_FOR_EVER), 0);
        }
        let rest = transfer.places.bytes().saturating_sub(transfer.done);
        let bytes = rest.min(u32::try_from(bytes).unwrap_or(u32::MAX));
        let moved = if transfer.places.are_few() {
            self.move_some::<FEW_PLACES>(transfer, bytes, wait)
        } else {
            self.move_some::<MOST_PLACES>(transfer, bytes, wait)
        };
        let Some(moved) = moved else {
            return (Outcome::Done(Status::TRANSFER_ERROR), 0);
        };
        let outcome = match moved {
            Ok(true) if bytes == rest => Outcome::Done(Status::GOOD),
            Ok(true) => Outcome::More,
            Ok(false) => Outcome::Done(Status::COMPARE_FAILURE),
            Err(error) if error.kind() == io::ErrorKind::WouldBlock && wait == Wait::Never => {
                return (Outcome::WouldWait, 0)
            }
            Err(error) => Outcome::Done(self.status_of(transfer.kind == Kind::Write, &error)),
        };
        transfer.done += bytes;
        (outcome, u64::from(bytes))
    }

    /// Moves the next bytes of a transfer, in `N` places at most; of a Compare, whether they are the same. `None` where they have no memory.
    fn move_some<const N: usize>(&self, transfer: &Transfer, bytes: u32, wait: Wait) -> Option<io::Result<bool>> {
        let (slices, count) = self.slices::<N>(transfer, transfer.done, bytes)?;
        let places = slices.get(..count)?;
        let offset = transfer.offset + u64::from(transfer.done);
        Some(match transfer.kind {
            Kind::Read => self.store.read(offset, places, wait).map(|()| true),
            Kind::Write => self.store.write(offset, places, wait).map(|()| true),
            Kind::Compare => compare(self.store, offset, places, wait),
        })
    }

    fn clear(&self, clearing: &mut Clearing, bytes: u64) -> (Outcome, u64) {
        if self.failure.reason().is_some() {
            return (Outcome::Done(Status::WRITE_FAULT_FOR_EVER), 0);
        }
        let Some(extent) = clearing.left.last().copied() else {
            return (Outcome::Done(Status::GOOD), 0);
        };
        let mut from = extent.from;
        if clearing.data_to <= from {
            from = self.store.next_data(extent.from, extent.to);
            clearing.data_to = if from < extent.to {
                self.store.next_hole(from, extent.to)
            } else {
                from
            };
        }
        let to = extent
            .to
            .min(clearing.data_to)
            .min((from.saturating_add(bytes)) & !(PAGE_BYTES - 1))
            .max(from);
        let zeroed = if from < to {
            self.store.zero(from, to - from, clearing.gives_back)
        } else {
            Ok(())
        };
        let is_over = clearing.advance(to - extent.from);
        let outcome = match zeroed {
            Err(error) => Outcome::Done(self.status_of(true, &error)),
            Ok(()) if is_over => Outcome::Done(Status::GOOD),
            Ok(()) => Outcome::More,
        };
        // Even a look for data that found none is some work.
        (outcome, (to - from).max(PAGE_BYTES))
    }

    fn status_of(&self, changes: bool, error: &io::Error) -> Status {
        self.failure.status_of(changes, error, self.store.describe())
    }
}

/// Whether the store has from `offset` on what `places` have.
fn compare(store: &dyn Store, offset: u64, places: &[VolatileSlice<'_>], wait: Wait) -> io::Result<bool> {
    let mut at = offset;
    let (mut here, mut there) = ([0; PAGE_BYTES as usize], [0; PAGE_BYTES as usize]);
    for place in places {
        let here = here.get_mut(..place.len()).ok_or(io::ErrorKind::InvalidInput)?;
        let there = there.get_mut(..place.len()).ok_or(io::ErrorKind::InvalidInput)?;
        place.copy_to(here);
        store.read(at, &[VolatileSlice::from(&mut *there)], wait)?;
        if here != there {
            return Ok(false);
        }
        at += place.len() as u64;
    }
    Ok(true)
}
