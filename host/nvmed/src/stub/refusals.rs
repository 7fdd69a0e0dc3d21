#![forbid(unsafe_code)]
//! The set-ups that the library refuses.

use crate::error::status;
use crate::setup::Lists;
use crate::sys::{Extent, Region};
use crate::AREA_BYTES_PER_LANE;

const PAGE: u64 = 4096;
const MOST_GUESTS: usize = 16;
const MOST_LANES: u64 = 8;
const MOST_EXTENTS: usize = 8;
const MOST_EXTENTS_OF_ALL: usize = 64;
const MOST_BYTES: u64 = 1 << 47;
const MOST_BLOCKS: u64 = 1 << 48;

/// What a set-up is answered: `OK`, or why not. Of several reasons the library may name another one.
pub(super) fn answer(lists: &Lists, lent: u64) -> u32 {
    if lent != lists.sizes.host_bytes {
        return status::OTHER_MEMORY;
    }
    if lists.limits.len() > MOST_GUESTS {
        return status::TOO_MANY_GUESTS;
    }
    let guests = lists.limits.len() as u64;
    for guest in 0..guests {
        let own: Vec<&Region> = lists.regions.iter().filter(|r| r.guest == guest).collect();
        let answer = map_answer(&own, lists.sizes.host_bytes);
        if answer != status::OK {
            return answer;
        }
    }
    if !sizes_are_good(lists) || !(0..guests).all(|guest| extents_are_good(lists, guest)) {
        return status::BAD_SIZE;
    }
    if lists.extents.len() > MOST_EXTENTS_OF_ALL {
        return status::BAD_SIZE;
    }
    if pairs(&lists.extents).any(|(a, b)| meet((a.base, a.blocks), (b.base, b.blocks))) {
        return status::RANGES_MEET;
    }
    let area = (lists.sizes.mediator, lists.sizes.lanes * AREA_BYTES_PER_LANE);
    let met = pairs(&lists.regions).any(|(a, b)| a.guest != b.guest && meet((a.host, a.bytes), (b.host, b.bytes)));
    if met || lists.regions.iter().any(|r| meet((r.host, r.bytes), area)) {
        return status::MAPS_MEET;
    }
    status::OK
}

fn map_answer(own: &[&Region], host_bytes: u64) -> u32 {
    for region in own {
        let ends = [region.address, region.host].map(|from| from.checked_add(region.bytes));
        if region.bytes == 0 || (region.address | region.host | region.bytes) % PAGE != 0 {
            return status::UNALIGNED;
        }
        if ends.iter().any(Option::is_none) || ends[1].is_none_or(|end| end > host_bytes) {
            return status::OUTSIDE_HOST;
        }
    }
    if pairs(own).any(|(a, b)| meet((a.address, a.bytes), (b.address, b.bytes))) {
        return status::OVERLAP;
    }
    status::OK
}

fn sizes_are_good(lists: &Lists) -> bool {
    let sizes = &lists.sizes;
    let host = sizes.host_bytes % PAGE == 0 && (PAGE..=MOST_BYTES).contains(&sizes.host_bytes);
    let lanes = (1..=MOST_LANES).contains(&sizes.lanes);
    let area = lanes
        .then(|| sizes.mediator.checked_add(sizes.lanes * AREA_BYTES_PER_LANE))
        .flatten();
    host && sizes.mediator % PAGE == 0
        && area.is_some_and(|end| end <= sizes.host_bytes)
        && (1..=MOST_BLOCKS).contains(&sizes.disk_blocks)
        && lists.limits.iter().all(|limit| (1..=4096).contains(limit))
}

fn extents_are_good(lists: &Lists, guest: u64) -> bool {
    let own: Vec<&Extent> = lists.extents.iter().filter(|e| e.guest == guest).collect();
    let fits = |e: &Extent| {
        e.blocks > 0
            && e.base
                .checked_add(e.blocks)
                .is_some_and(|end| end <= lists.sizes.disk_blocks)
    };
    (1..=MOST_EXTENTS).contains(&own.len()) && own.iter().all(|e| fits(e))
}

/// Whether two runs, of a start and a length, have something in common.
fn meet(a: (u64, u64), b: (u64, u64)) -> bool {
    a.0 < b.0.saturating_add(b.1) && b.0 < a.0.saturating_add(a.1)
}

fn pairs<T>(all: &[T]) -> impl Iterator<Item = (&T, &T)> {
    all.iter()
        .enumerate()
        .flat_map(|(i, a)| all.iter().take(i).map(move |b| (b, a)))
}
