//! The mediator, and its calls.

use crate::error::status;
use crate::event::{Event, Scope, Work, WorkEnd};
use crate::interrupts::{Seen, Standings, Vectors, VECTORS};
use crate::library::Version;
use crate::memory::HostMemory;
use crate::rings::Rings;
use crate::setup::{Lists, SetUp};
use crate::{sys, Error, AREA_BYTES_PER_LANE};
use std::ptr::null_mut;

/// The longest row of host addresses: 2^47 bytes.
const LONGEST: u64 = 1 << 47;

/// A handle of the library, and what is lent to it: the row's first byte and its length, as the memory said when the mediator was made.
struct Lent {
    handle: sys::Handle,
    base: *mut u8,
    bytes: usize,
}

// SAFETY: the library keeps nothing outside the handle and the memory that the handle owns, which comes from `malloc`; it may go from thread to thread
// between two calls. `base` is a pointer into memory that may be accessed from any thread (`HostMemory`).
unsafe impl Send for Lent {}

impl Drop for Lent {
    fn drop(&mut self) {
        // SAFETY: the handle is this value's own, `&mut self` is its one caller, and it is not used afterwards. A handle that holds nothing is reported,
        // which is of no account here.
        let _answer = unsafe { sys::nvmed_raw_free(&mut self.handle) };
    }
}

/// A mediator over the memory and the drive of a host (`nvmed_serve` of `nvmed.h`): a virtual NVMe controller for each guest, and the lanes' queues of the
/// drive that they share.
///
/// Guests read and write their memory by themselves; their accesses of registers and doorbells are calls here. A value has one caller at a time, which
/// `&mut self` sees to, and may go to another thread. Its end frees what the library has, and only then the memory that was lent.
pub struct Mediator<M: HostMemory> {
    // in this order: the library is done with the memory before that goes
    lent: Lent,
    memory: M,
}

impl<M: HostMemory> Mediator<M> {
    /// Makes the mediator of a set-up over this memory. The drive may have any blocks, and the memory any bytes; the lanes' completion rings are cleared,
    /// and no other byte is changed.
    ///
    /// # Errors
    ///
    /// [`Error::OtherVersion`] where another library is linked; [`Error::NotThere`] where a region or the area is a hole of the memory; and as the library
    /// refuses a set-up: [`TooManyGuests`](Error::TooManyGuests), [`RangesMeet`](Error::RangesMeet), [`MapsMeet`](Error::MapsMeet),
    /// [`BadSize`](Error::BadSize), [`Unaligned`](Error::Unaligned), [`Overlap`](Error::Overlap), [`OutsideHost`](Error::OutsideHost),
    /// [`OtherMemory`](Error::OtherMemory), [`NoMemory`](Error::NoMemory). The memory is given back (dropped) then: pass an `Arc` to keep it.
    pub fn serve(memory: M, set_up: &SetUp) -> Result<Self, Error> {
        Version::of_library().checked()?;
        if memory.len() > LONGEST {
            return Err(Error::BadSize);
        }
        let bytes = usize::try_from(memory.len()).map_err(|_| Error::BadSize)?;
        check_pieces(&memory, set_up)?;
        let mut lent = Lent {
            handle: sys::Handle { hosted: null_mut() },
            base: memory.base(),
            bytes,
        };
        if lent.base.is_null() {
            return Err(Error::NotThere {
                host: 0,
                bytes: memory.len(),
            });
        }
        let lists = Lists::of(set_up);
        // SAFETY: the handle is empty and has one caller. The pointers are those of lists and their own lengths, not null. `base` is not null, and from
        // there on the row has `bytes` bytes, of which the library touches those of regions and of the area alone, which are there to be read and
        // written until the end of `memory` (`check_pieces`, `HostMemory`): so until `lent` has been freed. What else would be outside the row, the
        // library refuses before it touches anything.
        let answer = unsafe {
            sys::nvmed_raw_serve(
                &mut lent.handle,
                &lists.sizes,
                lists.limits.as_ptr(),
                lists.limits.len(),
                lists.regions.as_ptr(),
                lists.regions.len(),
                lists.extents.as_ptr(),
                lists.extents.len(),
                lent.base,
                lent.bytes,
            )
        };
        Error::check(answer)?;
        Ok(Mediator { lent, memory })
    }

    /// The memory that was lent.
    pub fn memory(&self) -> &M {
        &self.memory
    }

    /// Ends the mediator, and gives the memory back.
    pub fn end(self) -> M {
        let Mediator { lent, memory } = self;
        drop(lent);
        memory
    }

    /// A guest reads the 32 bits of the register at `offset` bytes, a multiple of 4. Where there is no register they are 0.
    ///
    /// # Errors
    ///
    /// [`Error::Ignored`] where `offset` is no multiple of 4 or there is no such guest, and [`Error::NoSuch`] for a guest above 255.
    pub fn reg_read(&mut self, guest: u32, offset: u32) -> Result<u32, Error> {
        let mut value = 0;
        let lent = &mut self.lent;
        // SAFETY: the handle holds a mediator and has one caller; `value` is a local; the memory that is lent is there (`serve`).
        let answer =
            unsafe { sys::nvmed_raw_reg_read(&mut lent.handle, guest, offset, &mut value, lent.base, lent.bytes) };
        Error::check(answer).map(|()| value)
    }

    /// A guest writes the 32 bits of the register at `offset` bytes, a multiple of 4.
    ///
    /// # Errors
    ///
    /// [`Error::Ignored`] where nothing there can be written, or not now, or there is no such guest, and [`Error::NoSuch`] for a guest above 255.
    pub fn reg_write(&mut self, guest: u32, offset: u32, value: u32) -> Result<(), Error> {
        let lent = &mut self.lent;
        // SAFETY: the handle holds a mediator and has one caller; the memory that is lent is there (`serve`).
        let answer = unsafe { sys::nvmed_raw_reg_write(&mut lent.handle, guest, offset, value, lent.base, lent.bytes) };
        Error::check(answer)
    }

    /// A guest writes the doorbell at `offset` bytes, 4,096 and up.
    ///
    /// # Errors
    ///
    /// [`Error::Ignored`] where there is no such queue or guest, the controller is not ready, or the value is out of range, and [`Error::NoSuch`] for a
    /// guest above 255.
    pub fn doorbell(&mut self, guest: u32, offset: u32, value: u32) -> Result<(), Error> {
        let lent = &mut self.lent;
        // SAFETY: as in `reg_write`.
        let answer = unsafe { sys::nvmed_raw_doorbell(&mut lent.handle, guest, offset, value, lent.base, lent.bytes) };
        Error::check(answer)
    }

    /// Does what is due, `most` events at most. Where the end is [`WorkEnd::Done`] and fewer events were made, nothing of this scope is left to be done;
    /// what a full completion queue holds up, or a share of tags, is not due. Of a guest or lane that is not there nothing is due.
    ///
    /// Afterwards the drive's doorbells are written where [`rings`](Self::rings) has other values, and interrupts are raised
    /// ([`pending`](Self::pending), [`posted`](Self::posted)).
    pub fn work(&mut self, scope: Scope, most: u64) -> Work {
        let (kind, number) = scope.raw();
        let mut done = 0;
        let lent = &mut self.lent;
        // SAFETY: as in `reg_read`.
        let answer =
            unsafe { sys::nvmed_raw_work(&mut lent.handle, kind, number, most, &mut done, lent.base, lent.bytes) };
        let end = match answer {
            status::OK | status::NO_SUCH => WorkEnd::Done,
            status::NO_MEMORY => WorkEnd::OutOfMemory,
            // there is no other answer than Stray; were there one, nothing would be relied on any more
            _ => WorkEnd::Stray,
        };
        Work { done, end }
    }

    /// Makes one event. Hosts that have no order of their own call [`work`](Self::work).
    ///
    /// # Errors
    ///
    /// [`Error::NoSuch`], and as the event has it: [`Idle`](Error::Idle), [`Busy`](Error::Busy), [`Held`](Error::Held), [`Stale`](Error::Stale),
    /// [`Unmapped`](Error::Unmapped), [`Ignored`](Error::Ignored), [`Closed`](Error::Closed), [`Stray`](Error::Stray),
    /// [`NoMemory`](Error::NoMemory).
    pub fn step(&mut self, event: &Event) -> Result<(), Error> {
        let event = event.raw();
        let lent = &mut self.lent;
        // SAFETY: the handle holds a mediator and has one caller; `event` is a local; the memory that is lent is there (`serve`).
        let answer = unsafe { sys::nvmed_raw_step(&mut lent.handle, &event, lent.base, lent.bytes) };
        Error::check(answer)
    }

    /// Whether an event is one of Admin, Take, Reap and Post, and would be done now. Nothing changes.
    ///
    /// # Errors
    ///
    /// [`Error::NoSuch`] where a number is above 255, or of a queue above 65,535.
    pub fn due(&mut self, event: &Event) -> Result<bool, Error> {
        let event = event.raw();
        let mut due = 0;
        let lent = &mut self.lent;
        // SAFETY: the handle holds a mediator and has one caller; `event` and `due` are locals; the memory that is lent is there (`serve`).
        let answer = unsafe { sys::nvmed_raw_due(&mut lent.handle, &event, &mut due, lent.base, lent.bytes) };
        Error::check(answer).map(|()| due != 0)
    }

    /// A lane's rings, what the drive's doorbells are to have, and whether the lane was closed.
    ///
    /// # Errors
    ///
    /// [`Error::NoSuch`] where there is no such lane.
    pub fn rings(&mut self, lane: u32) -> Result<Rings, Error> {
        let mut rings = sys::LaneRings::default();
        // SAFETY: the handle holds a mediator and has one caller; `rings` is a local.
        let answer = unsafe { sys::nvmed_raw_rings(&mut self.lent.handle, lane, &mut rings) };
        Error::check(answer).map(|()| Rings::of(&rings))
    }

    /// The vectors of a guest that are pending: those of completion queues with interrupts and with completions that the guest has not acknowledged. A
    /// level-triggered interrupt follows whether there are any.
    ///
    /// # Errors
    ///
    /// [`Error::Ignored`] where there is no such guest, and [`Error::NoSuch`] for one above 255.
    pub fn pending(&mut self, guest: u32) -> Result<Vectors, Error> {
        let mut vectors = Vectors::new();
        for queue in 0..VECTORS as u32 {
            let mut vector = 0;
            // SAFETY: the handle holds a mediator and has one caller; `vector` is a local.
            let answer = unsafe { sys::nvmed_raw_pending(&mut self.lent.handle, guest, queue, &mut vector) };
            match answer {
                // the library gives vectors of 16 bits
                status::OK => vectors.push(vector as u16),
                status::IDLE => {}
                other => Error::check(other)?,
            }
        }
        Ok(vectors)
    }

    /// The vectors of a guest for which a message is to be sent (MSI-X): those that are pending, of completion queues that stand elsewhere than when this was
    /// asked last with the same `seen`. Completions were posted there since, the guest has acknowledged some and others are left, or the queue was made anew.
    ///
    /// A host calls it for each guest after each [`work`](Self::work) and [`step`](Self::step), and for the guest after its [`doorbell`](Self::doorbell) and
    /// [`reg_write`](Self::reg_write), before the next of these calls. Then no completion is without a message. Without a call between two of them, a queue
    /// that stands as before may have had completions.
    ///
    /// # Errors
    ///
    /// As of [`pending`](Self::pending); `seen` is as it was then.
    pub fn posted(&mut self, guest: u32, seen: &mut Seen) -> Result<Vectors, Error> {
        let mut none = Standings::default();
        let standings = seen.of(guest).unwrap_or(&mut none);
        let mut told = [0; VECTORS];
        let (queues, room) = (standings.as_mut_ptr(), told.as_mut_ptr());
        let handle = &mut self.lent.handle;
        // SAFETY: the handle holds a mediator and has one caller; `standings` and `told` have nine members each, and are the caller's and a local.
        let answer = unsafe { sys::nvmed_raw_posted(handle, guest, queues, VECTORS, room, VECTORS) };
        Error::check(answer)?;
        // a vector counts from 1 here, and 0 is none
        let raised = told.iter().filter_map(|vector| vector.checked_sub(1));
        Ok(raised.map(|vector| vector as u16).collect())
    }

    /// Gives a guest a share of `tags` of each lane's 64 tags. At the start each guest has one tag for each of its extents, and an equal part of those
    /// that are left.
    ///
    /// # Errors
    ///
    /// [`Error::BadSize`] where `tags` are fewer than the guest has extents or all shares together would be above 64, [`Error::Ignored`] where there
    /// is no such guest, and [`Error::NoSuch`] for one above 255.
    pub fn share(&mut self, guest: u32, tags: u32) -> Result<(), Error> {
        // SAFETY: the handle holds a mediator and has one caller.
        Error::check(unsafe { sys::nvmed_raw_share(&mut self.lent.handle, guest, tags) })
    }

    /// Closes a lane, where the drive can't be relied on any more. The host has stopped the drive before. Each command of the lane that is on its way ends
    /// with Internal Error, which the guest may try again, and nothing is taken for the lane from then on. To use the drive again make another mediator.
    ///
    /// # Errors
    ///
    /// [`Error::NoSuch`] where there is no such lane.
    pub fn close_lane(&mut self, lane: u32) -> Result<(), Error> {
        let lent = &mut self.lent;
        // SAFETY: the handle holds a mediator and has one caller; the memory that is lent is there (`serve`).
        let answer = unsafe { sys::nvmed_raw_close(&mut lent.handle, lane, lent.base, lent.bytes) };
        Error::check(answer)
    }

    /// A guest stores bytes from its address `address` on: for hosts that carry out a guest's stores.
    ///
    /// # Errors
    ///
    /// [`Error::Unmapped`] where not all of them lie in its memory: nothing is stored then. [`Error::Ignored`] where there is no such guest, and
    /// [`Error::NoSuch`] for one above 255.
    pub fn store(&mut self, guest: u32, address: u64, bytes: &[u8]) -> Result<(), Error> {
        let lent = &mut self.lent;
        let (from, length) = (bytes.as_ptr(), bytes.len());
        // SAFETY: the handle holds a mediator and has one caller; the memory that is lent is there (`serve`), and no slice lies in it (`HostMemory`).
        let answer =
            unsafe { sys::nvmed_raw_store(&mut lent.handle, guest, address, from, length, lent.base, lent.bytes) };
        Error::check(answer)
    }

    /// A guest loads as many bytes as `room` has from its address `address` on: for hosts that carry out a guest's loads.
    ///
    /// # Errors
    ///
    /// As of [`store`](Self::store); `room` is as it was then.
    pub fn load(&mut self, guest: u32, address: u64, room: &mut [u8]) -> Result<(), Error> {
        let lent = &mut self.lent;
        let (to, length) = (room.as_mut_ptr(), room.len());
        // SAFETY: as in `store`; `room` is borrowed for this call alone.
        let answer =
            unsafe { sys::nvmed_raw_load(&mut lent.handle, guest, address, to, length, lent.base, lent.bytes) };
        Error::check(answer)
    }

    /// What a test says to the stub that is in the place of the library, and sees of it.
    #[cfg(feature = "stub")]
    pub fn stub(&self) -> crate::stub::Control {
        crate::stub::control_of(&self.lent.handle)
    }
}

impl<M: HostMemory> std::fmt::Debug for Mediator<M> {
    fn fmt(&self, f: &mut std::fmt::Formatter<'_>) -> std::fmt::Result {
        f.debug_struct("Mediator")
            .field("bytes", &self.lent.bytes)
            .finish_non_exhaustive()
    }
}

/// Whether the memory has the bytes of each region and of the area, as far as they lie in its row: of others the library says what is wrong with them.
fn check_pieces(memory: &impl HostMemory, set_up: &SetUp) -> Result<(), Error> {
    let area = u64::from(set_up.lanes).saturating_mul(AREA_BYTES_PER_LANE);
    let regions = set_up.guests.iter().flat_map(|guest| &guest.regions);
    let pieces = regions.map(|region| (region.host, region.bytes));
    for (host, bytes) in pieces.chain([(set_up.mediator, area)]) {
        let inside = host.checked_add(bytes).is_some_and(|end| end <= memory.len());
        if inside && !memory.has(host, bytes) {
            return Err(Error::NotThere { host, bytes });
        }
    }
    Ok(())
}

#[cfg(test)]
mod tests {
    use super::*;
    use vm_memory::MmapRegion;

    /// Says by its number of implementations whether a type is `Sync`: of one that is, the name below is ambiguous.
    trait IsNotSync<A> {
        fn is_not_sync() {}
    }
    impl<T: ?Sized> IsNotSync<()> for T {}
    #[allow(dead_code)]
    struct OfSync;
    impl<T: ?Sized + Sync> IsNotSync<OfSync> for T {}

    fn is_send<T: Send>() {}

    #[test]
    fn a_mediator_may_go_to_another_thread_and_has_one_caller() {
        is_send::<Mediator<MmapRegion>>();
        <Mediator<MmapRegion> as IsNotSync<_>>::is_not_sync();
    }
}
