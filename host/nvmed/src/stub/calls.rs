//! The functions that the library exports, of the stub.
//!
//! # Safety
//!
//! What each has to be given is as of the library's function of its name (`sys.rs`): pointers that are not null, to as much as is said.

use super::state::{Shared, State};
use super::{refusals, Call};
use crate::error::status;
use crate::setup::Lists;
use crate::sys::{Event, Extent, Handle, LaneRings, Region, Sizes, Standing};
use crate::{Event as Made, Scope, Version, WorkEnd};
use std::ptr::null_mut;
use std::slice::{from_raw_parts, from_raw_parts_mut};
use std::sync::{Arc, Mutex, PoisonError};

/// The numbers that the library tells from those of guests and lanes that are not there.
const BYTE: u32 = 255;

/// What a handle holds: a mediator of the stub.
pub(super) fn shared(handle: &Handle) -> &Shared {
    // SAFETY: a handle that holds something holds what `nvmed_raw_serve` put there: a box of this type, which is there until `nvmed_raw_free`. Each
    // caller has one that holds something: `Mediator` is made from no other.
    unsafe { &*handle.hosted.cast::<Shared>() }
}

/// Does something to the state of a handle.
fn with<T>(handle: *mut Handle, act: impl FnOnce(&mut State) -> T) -> T {
    // SAFETY: the caller of each function here has a handle of its own.
    let shared = shared(unsafe { &*handle });
    act(&mut shared.lock().unwrap_or_else(PoisonError::into_inner))
}

/// The status of a guest's access.
fn accessed(guest: u32, good: bool) -> u32 {
    match (good, guest > BYTE) {
        (true, _) => status::OK,
        (false, true) => status::NO_SUCH,
        (false, false) => status::IGNORED,
    }
}

pub(super) fn status_of(end: WorkEnd) -> u32 {
    match end {
        WorkEnd::Done => status::OK,
        WorkEnd::OutOfMemory => status::NO_MEMORY,
        WorkEnd::Stray => status::STRAY,
    }
}

// Safety: as of the call of `nvmed.h` in whose place it stands.
pub(crate) unsafe fn nvmed_raw_version() -> u32 {
    Version::WANTED.major << 16 | Version::WANTED.minor
}

#[allow(clippy::too_many_arguments)]
// Safety: as of the call of `nvmed.h` in whose place it stands.
pub(crate) unsafe fn nvmed_raw_serve(
    handle: *mut Handle,
    sizes: *const Sizes,
    limits: *const u32,
    guests: usize,
    regions: *const Region,
    region_count: usize,
    extents: *const Extent,
    extent_count: usize,
    _memory: *mut u8,
    bytes: usize,
) -> u32 {
    // SAFETY: the caller has these lists.
    let lists = unsafe {
        Lists {
            sizes: *sizes,
            limits: from_raw_parts(limits, guests).to_vec(),
            regions: from_raw_parts(regions, region_count).to_vec(),
            extents: from_raw_parts(extents, extent_count).to_vec(),
        }
    };
    let answer = refusals::answer(&lists, bytes as u64);
    if answer == status::OK {
        let shared: Shared = Arc::new(Mutex::new(State::of(&lists)));
        // SAFETY: the caller has the handle.
        unsafe { (*handle).hosted = Box::into_raw(Box::new(shared)).cast() };
    }
    answer
}

// Safety: as of the call of `nvmed.h` in whose place it stands.
pub(crate) unsafe fn nvmed_raw_free(handle: *mut Handle) -> u32 {
    // SAFETY: the caller has the handle.
    let hosted = unsafe { std::mem::replace(&mut (*handle).hosted, null_mut()) };
    if hosted.is_null() {
        return 16;
    }
    // SAFETY: it is the box that `nvmed_raw_serve` put there, and the handle has it no more.
    let shared = unsafe { Box::from_raw(hosted.cast::<Shared>()) };
    shared.lock().unwrap_or_else(PoisonError::into_inner).freed = true;
    status::OK
}

// Safety: as of the call of `nvmed.h` in whose place it stands.
pub(crate) unsafe fn nvmed_raw_store(
    handle: *mut Handle,
    guest: u32,
    address: u64,
    from: *const u8,
    length: usize,
    memory: *mut u8,
    _bytes: usize,
) -> u32 {
    let (answer, host) = with(handle, |state| found(state, guest, address, length as u64, true));
    if let Some(host) = host {
        // SAFETY: the bytes lie in a region, which is there (`HostMemory`), and the caller has the others.
        unsafe { std::ptr::copy(from, memory.add(host as usize), length) };
    }
    answer
}

// Safety: as of the call of `nvmed.h` in whose place it stands.
pub(crate) unsafe fn nvmed_raw_load(
    handle: *mut Handle,
    guest: u32,
    address: u64,
    room: *mut u8,
    length: usize,
    memory: *const u8,
    _bytes: usize,
) -> u32 {
    let (answer, host) = with(handle, |state| found(state, guest, address, length as u64, false));
    if let Some(host) = host {
        // SAFETY: as in `nvmed_raw_store`.
        unsafe { std::ptr::copy(memory.add(host as usize), room, length) };
    }
    answer
}

/// Where these bytes of a guest are.
fn found(state: &mut State, guest: u32, address: u64, bytes: u64, stores: bool) -> (u32, Option<u64>) {
    let host = state.host_of(guest, address, bytes);
    let good = host.is_some();
    state.note(if stores {
        Call::Store {
            guest,
            address,
            bytes,
            good,
        }
    } else {
        Call::Load {
            guest,
            address,
            bytes,
            good,
        }
    });
    let answer = match (guest as usize) < state.guests.len() {
        true if !good => status::UNMAPPED,
        _ => accessed(guest, good),
    };
    (answer, host)
}

// Safety: as of the call of `nvmed.h` in whose place it stands.
pub(crate) unsafe fn nvmed_raw_reg_read(
    handle: *mut Handle,
    guest: u32,
    offset: u32,
    value: *mut u32,
    _memory: *mut u8,
    _bytes: usize,
) -> u32 {
    let read = with(handle, |state| {
        let read = state.register(guest, offset);
        state.note(Call::RegRead {
            guest,
            offset,
            good: read.is_some(),
        });
        read
    });
    // SAFETY: the caller has the value.
    unsafe { *value = read.unwrap_or(0) };
    accessed(guest, read.is_some())
}

// Safety: as of the call of `nvmed.h` in whose place it stands.
pub(crate) unsafe fn nvmed_raw_reg_write(
    handle: *mut Handle,
    guest: u32,
    offset: u32,
    value: u32,
    _memory: *mut u8,
    _bytes: usize,
) -> u32 {
    with(handle, |state| {
        let good = state.write_register(guest, offset, value);
        state.note(Call::RegWrite {
            guest,
            offset,
            value,
            good,
        });
        accessed(guest, good)
    })
}

// Safety: as of the call of `nvmed.h` in whose place it stands.
pub(crate) unsafe fn nvmed_raw_doorbell(
    handle: *mut Handle,
    guest: u32,
    offset: u32,
    value: u32,
    _memory: *mut u8,
    _bytes: usize,
) -> u32 {
    with(handle, |state| {
        let good = state.doorbell(guest, offset);
        state.note(Call::Doorbell {
            guest,
            offset,
            value,
            good,
        });
        accessed(guest, good)
    })
}

// Safety: as of the call of `nvmed.h` in whose place it stands.
pub(crate) unsafe fn nvmed_raw_step(handle: *mut Handle, event: *const Event, _memory: *mut u8, _bytes: usize) -> u32 {
    // SAFETY: the caller has the event.
    let event = made_of(unsafe { &*event });
    with(handle, |state| {
        if let Some(event) = event {
            state.note(Call::Step { event, good: false });
        }
        status::IDLE
    })
}

// Safety: as of the call of `nvmed.h` in whose place it stands.
pub(crate) unsafe fn nvmed_raw_due(
    _handle: *mut Handle,
    event: *const Event,
    due: *mut u32,
    _memory: *const u8,
    _bytes: usize,
) -> u32 {
    // SAFETY: the caller has the event and the answer.
    let (event, due) = unsafe { (&*event, &mut *due) };
    *due = 0;
    match made_of(event) {
        Some(_) => status::OK,
        None => status::NO_SUCH,
    }
}

// Safety: as of the call of `nvmed.h` in whose place it stands.
pub(crate) unsafe fn nvmed_raw_work(
    handle: *mut Handle,
    scope: u32,
    number: u32,
    most: u64,
    done: *mut u64,
    _memory: *mut u8,
    _bytes: usize,
) -> u32 {
    let scope = match scope {
        1 => Scope::Guest(number),
        2 => Scope::Lane(number),
        _ => Scope::All,
    };
    let (made, answer) = with(handle, |state| {
        let (made, answer) = state.work(most);
        state.note(Call::Work {
            scope,
            most,
            done: made,
        });
        (made, answer)
    });
    // SAFETY: the caller has the number.
    unsafe { *done = made };
    answer
}

// Safety: as of the call of `nvmed.h` in whose place it stands.
pub(crate) unsafe fn nvmed_raw_rings(handle: *mut Handle, lane: u32, rings: *mut LaneRings) -> u32 {
    match with(handle, |state| state.lanes.get(lane as usize).copied()) {
        Some(own) => {
            // SAFETY: the caller has the rings.
            unsafe { *rings = own };
            status::OK
        }
        None => status::NO_SUCH,
    }
}

// Safety: as of the call of `nvmed.h` in whose place it stands.
pub(crate) unsafe fn nvmed_raw_pending(handle: *mut Handle, guest: u32, queue: u32, vector: *mut u32) -> u32 {
    let raised = with(handle, |state| {
        let own = state.guests.get(guest as usize)?;
        own.pending.get(queue as usize).copied()
    });
    match raised {
        Some(Some(raised)) => {
            // SAFETY: the caller has the vector.
            unsafe { *vector = u32::from(raised) };
            status::OK
        }
        Some(None) => status::IDLE,
        None => accessed(guest, false),
    }
}

// Safety: as of the call of `nvmed.h` in whose place it stands.
pub(crate) unsafe fn nvmed_raw_posted(
    handle: *mut Handle,
    guest: u32,
    seen: *mut Standing,
    queues: usize,
    vectors: *mut u32,
    count: usize,
) -> u32 {
    // SAFETY: the caller has these lists.
    let (seen, vectors) = unsafe { (from_raw_parts_mut(seen, queues), from_raw_parts_mut(vectors, count)) };
    with(handle, |state| match state.guests.get(guest as usize) {
        Some(own) => {
            own.posted(seen, vectors);
            status::OK
        }
        None => accessed(guest, false),
    })
}

// Safety: as of the call of `nvmed.h` in whose place it stands.
pub(crate) unsafe fn nvmed_raw_share(handle: *mut Handle, guest: u32, tags: u32) -> u32 {
    with(handle, |state| {
        let answer = match guest > BYTE {
            true => status::NO_SUCH,
            false => state.share(guest, tags),
        };
        state.note(Call::Share {
            guest,
            tags,
            good: answer == status::OK,
        });
        answer
    })
}

// Safety: as of the call of `nvmed.h` in whose place it stands.
pub(crate) unsafe fn nvmed_raw_close(handle: *mut Handle, lane: u32, _memory: *mut u8, _bytes: usize) -> u32 {
    with(handle, |state| {
        let good = match state.lanes.get_mut(lane as usize) {
            Some(rings) => {
                rings.closed = 1;
                true
            }
            None => false,
        };
        state.note(Call::CloseLane { lane, good });
        if good {
            status::OK
        } else {
            status::NO_SUCH
        }
    })
}

/// The event of a kind; `None` of one that is the drive's.
fn made_of(raw: &Event) -> Option<Made> {
    let Event {
        guest,
        queue,
        lane,
        tag,
        address,
        bytes,
        ..
    } = *raw;
    Some(match raw.kind {
        1 => Made::Admin { guest },
        2 => Made::Take { guest, queue, lane },
        3 => Made::List {
            lane,
            tag,
            address,
            bytes,
        },
        4 => Made::Submit { lane, tag },
        5 => Made::GiveUp { lane, tag },
        11 => Made::Reap { lane },
        12 => Made::Post { lane, tag },
        _ => return None,
    })
}
