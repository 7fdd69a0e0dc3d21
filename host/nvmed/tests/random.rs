//! Random acts of a hostile guest and a drive that writes what it likes, over the library: each call ends, and no byte changes that is neither in the
//! mediator's area nor in a guest's memory; nor one of the other guest's memory, while that does nothing and the drive writes completions alone.
#![cfg(not(feature = "stub"))]
#![allow(clippy::unwrap_used)]

mod common;

use common::*;
use nvmed::{Event, HostMemory, Mediator, Scope, Seen};
use std::sync::Arc;
use vm_memory::{Bytes, MmapRegion, VolatileMemory};

/// How many hosts there are, one after the other, and how many acts in each.
const HOSTS: u64 = 20;
const ROUNDS: u32 = 1_000;

/// A xorshift generator.
struct Random(u64);

impl Random {
    fn next(&mut self) -> u64 {
        self.0 ^= self.0 << 13;
        self.0 ^= self.0 >> 7;
        self.0 ^= self.0 << 17;
        self.0
    }

    fn below(&mut self, end: u64) -> u64 {
        self.next() % end
    }

    /// A small number mostly, and seldom any.
    fn number(&mut self) -> u32 {
        match self.below(16) {
            0 => self.next() as u32,
            1 => 1 << self.below(32),
            _ => self.below(20) as u32,
        }
    }
}

/// Writes entries that are nearly good into the guest's queues.
fn store_entry(random: &mut Random, guest: &Guest) {
    let opcode = [0, 1, 2, 4, 5, 6, 8, 9, 0xa, 0xc, 0x7f, 0x80, random.number()][random.below(13) as usize];
    let words = [random.number(), random.number(), random.number()];
    let mut bytes = entry(opcode, random.below(0x2_2000), words);
    for _ in 0..random.below(3) {
        let at = random.below(64) as usize;
        bytes[at] = random.next() as u8;
    }
    let queue = [0x1_0000, 0x1_3000][random.below(2) as usize];
    guest.put(queue + 64 * random.below(16), &bytes);
}

fn event(random: &mut Random) -> Event {
    let (guest, lane) = (random.below(2) as u32, random.below(2) as u32);
    let (queue, tag) = (random.number(), random.number());
    match random.below(7) {
        0 => Event::Admin { guest: 0 },
        1 => Event::Take { guest: 0, queue, lane },
        2 => Event::List {
            lane,
            tag,
            address: random.below(0x2_1000),
            bytes: random.below(5000),
        },
        3 => Event::Submit { lane, tag },
        4 => Event::GiveUp { lane, tag },
        5 => Event::Reap { lane },
        _ => Event::Post {
            lane: lane + guest,
            tag,
        },
    }
}

/// An act of guest 0, or of the host: how many events the mediator made in it.
fn act(random: &mut Random, m: &mut Mediator<Memory>, guest: &mut Guest, seen: &mut Seen) -> u64 {
    let mut done = 0;
    let (number, value) = (random.number(), random.number());
    match random.below(12) {
        0..=3 => store_entry(random, guest),
        4 | 5 => drop(m.doorbell(0, 0x1000 + 4 * (number % 8), value)),
        6 => drop(m.doorbell(0, 0x1000u32.wrapping_add(number), value)),
        7 if random.below(20) == 0 => drop(m.reg_write(0, number.wrapping_mul(4), value)),
        7 => drop(m.reg_read(number, value)),
        8 => drop(m.step(&event(random))),
        9 => drop(m.due(&event(random))),
        10 => drop((m.pending(0), m.posted(0, seen), m.rings(number))),
        _ => done = m.work(Scope::All, u64::from(number)).done,
    }
    if random.below(600) == 0 {
        let _answer = m.reg_write(0, 0x14, 0);
        let _work = m.work(Scope::All, 1000);
        guest.put(0, &[0; 64]);
        for (offset, value) in [
            (0x24, 0x001f_001f),
            (0x28, 0x1_0000),
            (0x30, 0x1_1000),
            (0x14, 0x0046_0001),
        ] {
            let _answer = m.reg_write(0, offset, value);
        }
    }
    done
}

/// What the drive writes: completions in the ring, of any identifier.
fn complete(random: &mut Random, m: &mut Mediator<Memory>) {
    let rings = m.rings(0).unwrap();
    let words = [0, 0, random.number(), random.number() | (random.below(2) as u32) << 16];
    let at = rings.completion + 16 * random.below(u64::from(rings.entries));
    m.memory()
        .as_volatile_slice()
        .write_slice(&bytes_of(&words), at as usize)
        .unwrap();
}

fn bytes_at(memory: &MmapRegion, from: u64, bytes: u64) -> Vec<u8> {
    let mut room = vec![0; bytes as usize];
    memory.as_volatile_slice().read_slice(&mut room, from as usize).unwrap();
    room
}

/// A host with acts of its own: how many events there were.
fn run_with(seed: u64) -> u64 {
    let memory = memory(HOST_BYTES);
    let mut m = Mediator::serve(Arc::clone(&memory), &set_up()).unwrap();
    let [mut first, mut second] = [0, 1].map(|number| Guest::new(number, Arc::clone(&memory)));
    first.bring_up(&mut m);
    second.bring_up(&mut m);
    let mut drive = Drive::new(Arc::clone(&memory));
    drive.moves = false;
    let (mut random, mut seen) = (Random(seed), Seen::new());
    let others = bytes_at(&memory, GUEST_AT[1], GUEST_BYTES);
    let mut done = 0;
    for _ in 0..ROUNDS {
        done += act(&mut random, &mut m, &mut first, &mut seen);
        if random.below(400) == 0 {
            complete(&mut random, &mut m);
        }
        drive.work(&m.rings(0).unwrap());
    }
    assert_eq!(m.reg_read(1, 0x1c), Ok(1), "the other guest's controller is ready");
    assert!(
        bytes_at(&memory, GUEST_AT[1], GUEST_BYTES) == others,
        "the other guest's memory changed"
    );
    let ends = [
        0,
        GUEST_AT[0],
        GUEST_AT[0] + GUEST_BYTES,
        GUEST_AT[1],
        GUEST_AT[1] + GUEST_BYTES,
        AREA,
    ];
    for gap in ends
        .chunks(2)
        .chain([&[AREA + area_of(1), HostMemory::len(&memory)][..]])
    {
        let bytes = bytes_at(&memory, gap[0], gap[1] - gap[0]);
        assert!(
            bytes.iter().all(|byte| *byte == 0xee),
            "bytes from {:#x} to {:#x} changed",
            gap[0],
            gap[1]
        );
    }
    done
}

#[test]
fn nothing_changes_but_the_guests_memory_and_the_area() {
    let run = |host: u64| run_with(0x9e37_79b9_7f4a_7c15_u64.wrapping_mul(host));
    let done: u64 = (1..=HOSTS).map(run).sum();
    assert!(done > 3_000, "there was hardly anything to do: {done} events");
    println!("{done} events");
}
