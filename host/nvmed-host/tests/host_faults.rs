//! Clients that do what they may not, beside one that does: what they are refused, what they lose, and how long the other one waits.
#![allow(clippy::unwrap_used, clippy::expect_used, clippy::panic)]

mod client;
mod guest;

use std::fs::{File, OpenOptions};
use std::os::fd::AsFd;
use std::sync::atomic::{AtomicBool, Ordering};
use std::sync::Arc;
use std::time::{Duration, Instant};

use client::hostile::{odd_descriptors, Hostile};
use client::{Client, Memory, Range, BAR0, CONFIG};
use guest::{configuration, host, is_real, Bells, Folder, Guest, BYTES, MIB};
use nvmed_host::host::Outcome;

/// The longest read of an honest guest beside others that is no failure: the processors may be shared with much else. What it was is printed.
const LONGEST: Duration = Duration::from_secs(2);

#[test]
fn memory_that_is_not_the_machines_is_refused() {
    let folder = Folder::new("map");
    let host = host(&configuration(&folder, 1, ""));
    let mut client = Client::connect(&folder.path("g0")).unwrap();
    client.version().unwrap();
    let memory = Memory::new(2 * BYTES).unwrap();
    let other = Memory::new(2 * BYTES).unwrap();
    let range = |address, offset, bytes| Range { address, offset, bytes };
    let fd = Some(memory.file.as_fd());
    // at another offset, beyond the guest's memory, and above it
    for wrong in [
        range(0, MIB, MIB),
        range(BYTES, BYTES, MIB),
        range(0, 0, BYTES + MIB),
        range(1 << 32, 0, MIB),
    ] {
        assert_eq!(
            client.map(wrong, fd).unwrap_err().raw_os_error(),
            Some(libc::EINVAL),
            "{wrong:?}"
        );
    }
    client.map(range(0, 0, MIB), fd).unwrap();
    let wrong = client.map(range(MIB, MIB, MIB), Some(other.file.as_fd()));
    assert_eq!(wrong.unwrap_err().raw_os_error(), Some(libc::EINVAL), "another file");
    client.map(range(0xfffc_0000, 0, 0x4_0000), None).unwrap();
    client.map(range(MIB, MIB, BYTES - MIB), fd).unwrap();
    drop(client);
    assert_eq!(host.end(), Outcome::Good);
}

#[test]
fn a_file_that_cannot_be_sealed_is_refused_unless_it_is_trusted() {
    let folder = Folder::new("seal");
    let host = host(&configuration(&folder, 2, "trust 1\n"));
    for (guest, good) in [(0, false), (1, true)] {
        let file = named(&folder, &format!("m{guest}"));
        let mut client = Client::connect(&folder.path(&format!("g{guest}"))).unwrap();
        client.version().unwrap();
        assert_eq!(
            Guest::map_file(&mut client, &file, BYTES).is_ok(),
            good,
            "guest {guest}"
        );
    }
    assert_eq!(host.end(), Outcome::Good);
}

fn named(folder: &Folder, name: &str) -> File {
    let file = OpenOptions::new()
        .read(true)
        .write(true)
        .create(true)
        .truncate(true)
        .open(folder.path(name))
        .unwrap();
    file.set_len(BYTES).unwrap();
    file
}

#[test]
fn memory_that_is_cut_off_costs_its_own_guest_its_connection() {
    if !is_real() {
        return;
    }
    let folder = Folder::new("cut");
    let host = host(&configuration(&folder, 2, "trust 0\n"));
    let memory = Memory {
        file: named(&folder, "memory"),
        bytes: BYTES,
    };
    let mut cut = Guest::connect_with(&folder.path("g0"), memory, Bells::Page).unwrap();
    let mut other = Guest::connect(&folder.path("g1")).unwrap();
    cut.bring_up().unwrap();
    other.bring_up().unwrap();
    cut.write_blocks(0, 1).unwrap();
    cut.put(1, 2, 0xe0_0000, [0, 0, 7]).unwrap();
    cut.memory.file.set_len(0x80_0000).unwrap();
    cut.ring(1, false).unwrap();
    assert!(cut.client.is_closed());
    other.write_blocks(0, 2).unwrap();
    assert_eq!(other.read_blocks(0).unwrap(), [2; 4096]);
    let mut next = Guest::connect(&folder.path("g0")).unwrap();
    next.bring_up().unwrap();
    assert_eq!(next.read_blocks(0).unwrap(), [1; 4096]);
    assert_eq!(host.end(), Outcome::Good);
}

#[test]
fn a_hostile_client_does_not_hold_up_an_honest_one() {
    if !is_real() {
        return;
    }
    let folder = Folder::new("hostile");
    let host = host(&configuration(&folder, 2, ""));
    let mut honest = Guest::connect(&folder.path("g0")).unwrap();
    honest.bring_up().unwrap();
    let alone = honest.longest_read(500).unwrap();
    let ends = Arc::new(AtomicBool::new(false));
    let socket = folder.path("g1");
    let other = std::thread::spawn({
        let ends = Arc::clone(&ends);
        move || {
            let mut hostile = Hostile::new(7);
            let mut rounds = 0;
            while !ends.load(Ordering::SeqCst) {
                let Ok(client) = Client::connect(&socket) else { continue };
                // it ends where the server has had enough
                let _ = hostile.play(&client, &odd_descriptors().unwrap());
                rounds += 1;
            }
            rounds
        }
    });
    let begin = Instant::now();
    let mut beside = Duration::ZERO;
    while begin.elapsed() < Duration::from_secs(3) {
        beside = beside.max(honest.longest_read(100).unwrap());
    }
    ends.store(true, Ordering::SeqCst);
    let rounds: u32 = other.join().unwrap();
    println!("the longest read: {alone:?} alone, {beside:?} beside {rounds} rounds of a hostile client");
    assert!(rounds > 0);
    assert!(beside < LONGEST, "{beside:?}");
    assert_eq!(host.end(), Outcome::Good);
}

/// A guest whose queues and lists are in its own way, and who resets all the time.
#[test]
fn a_hostile_driver_does_not_hold_up_an_honest_one() {
    if !is_real() {
        return;
    }
    let folder = Folder::new("driver");
    let host = host(&configuration(&folder, 2, ""));
    let mut honest = Guest::connect(&folder.path("g0")).unwrap();
    honest.bring_up().unwrap();
    let ends = Arc::new(AtomicBool::new(false));
    let socket = folder.path("g1");
    let other = std::thread::spawn({
        let ends = Arc::clone(&ends);
        move || {
            let mut guest = Guest::connect(&socket).unwrap();
            let mut random = client::hostile::Random::new(11);
            let mut rounds = 0;
            while !ends.load(Ordering::SeqCst) {
                guest.bring_up().unwrap();
                for _ in 0..20 {
                    for _ in 0..40 {
                        let opcode = *random.pick(&[0, 1, 2, 5, 8, 9, 0x7f]);
                        let at = random.next() % (2 * BYTES);
                        let words = [random.next() as u32 % 4096, 0, random.next() as u32 & 0xff];
                        guest.put(1, opcode, at, words).unwrap();
                    }
                    guest.ring(1, false).unwrap();
                    while guest.take(1).unwrap().is_some() {}
                    guest.ring(1, true).unwrap();
                }
                guest.set_cc(0).unwrap();
                guest.await_ready(0).unwrap();
                rounds += 1;
            }
            rounds
        }
    });
    let begin = Instant::now();
    let mut beside = Duration::ZERO;
    while begin.elapsed() < Duration::from_secs(3) {
        beside = beside.max(honest.longest_read(100).unwrap());
    }
    ends.store(true, Ordering::SeqCst);
    let rounds: u32 = other.join().unwrap();
    println!("the longest read: {beside:?} beside {rounds} rounds of a hostile driver");
    assert!(beside < LONGEST, "{beside:?}");
    assert_eq!(host.end(), Outcome::Good);
}

#[test]
fn an_interrupt_that_is_no_eventfd_is_refused() {
    let folder = Folder::new("eventfd");
    let host = host(&configuration(&folder, 1, ""));
    let mut client = Client::connect(&folder.path("g0")).unwrap();
    client.version().unwrap();
    for odd in odd_descriptors().unwrap().into_iter().take(9) {
        assert!(client.set_eventfds(client::MSIX, 0, &[odd.as_fd()]).is_err());
    }
    assert_eq!(client.read(CONFIG, 0, 2).unwrap(), [0x36, 0x1b]);
    let good = client::eventfds(9).unwrap();
    client.enable_msix(&good).unwrap();
    client.act_on_irq(client::MSIX, 4, client::ACTION_TRIGGER).unwrap();
    assert_eq!(client::wait_for(&good[4], Duration::from_secs(5)).unwrap(), 1);
    drop(client);
    assert_eq!(host.end(), Outcome::Good);
}

/// Registers are answered while the mailbox is flooded, and by the guest's own accesses alone is it held up.
#[test]
fn a_flood_of_doorbells() {
    if !is_real() {
        return;
    }
    let folder = Folder::new("flood");
    let host = host(&configuration(&folder, 2, ""));
    let mut honest = Guest::connect(&folder.path("g0")).unwrap();
    honest.bring_up().unwrap();
    let ends = Arc::new(AtomicBool::new(false));
    let socket = folder.path("g1");
    let other = std::thread::spawn({
        let ends = Arc::clone(&ends);
        move || {
            let mut guest = Guest::connect(&socket).unwrap();
            guest.bring_up().unwrap();
            let mut sent = 0u64;
            while !ends.load(Ordering::SeqCst) {
                for value in 0..64 {
                    guest.client.post_u32(BAR0, 0x1008, value).unwrap();
                    sent += 1;
                }
            }
            sent
        }
    });
    let begin = Instant::now();
    let mut beside = Duration::ZERO;
    while begin.elapsed() < Duration::from_secs(2) {
        beside = beside.max(honest.longest_read(100).unwrap());
    }
    ends.store(true, Ordering::SeqCst);
    let sent = other.join().unwrap();
    println!("the longest read: {beside:?} beside {sent} doorbells");
    assert!(beside < LONGEST, "{beside:?}");
    assert_eq!(host.end(), Outcome::Good);
}

/// The longest read of guest 0 while guest 1 makes the drive work as hard as one command can.
#[test]
fn long_commands_of_another_guest_hold_up_nobody() {
    if !is_real() {
        return;
    }
    let folder = Folder::new("long");
    let image = folder.path("image");
    let text = configuration(&folder, 2, "")
        .replace("drive ram 16M", &format!("drive ram 512M {}", image.display()))
        .replace("extent 1 4096 2048", "extent 1 4096 1000000");
    let host = host(&text);
    let mut honest = Guest::connect(&folder.path("g0")).unwrap();
    let mut other = Guest::connect(&folder.path("g1")).unwrap();
    honest.bring_up().unwrap();
    other.bring_up().unwrap();
    println!("the longest read: {:?} alone", honest.longest_read(500).unwrap());

    // dirty blocks, and then a Flush
    for i in 0..32_768u32 {
        other.put(1, 1, 0x10_0000, [8 * (i % 125_000), 0, 7]).unwrap();
        if i % 32 == 31 {
            other.ring(1, false).unwrap();
            for _ in 0..32 {
                assert_eq!(other.await_done(1).unwrap().status, 0);
            }
        }
    }
    other.put(1, 0, 0, [0; 3]).unwrap();
    beside(&mut honest, &mut other, 1, "a Flush of 128 MiB");

    // Dataset Management of 256 ranges, each the whole namespace
    let ranges: Vec<u8> = (0..256)
        .flat_map(|_| {
            let mut range = [0; 16];
            range[4..8].copy_from_slice(&1_000_000u32.to_le_bytes());
            range
        })
        .collect();
    other.memory.write(0x30_0000, &ranges).unwrap();
    other.put(1, 9, 0x30_0000, [255, 4, 0]).unwrap();
    beside(
        &mut honest,
        &mut other,
        1,
        "a Dataset Management of 256 whole namespaces",
    );

    // as many Write Zeroes as a queue takes
    for i in 0..60 {
        other.put(1, 8, 0, [15_000 * i, 0, 0xffff]).unwrap();
    }
    beside(&mut honest, &mut other, 60, "60 Write Zeroes of 32 MiB");
    drop(other);
    assert_eq!(host.end(), Outcome::Good);
}

fn beside(honest: &mut Guest, other: &mut Guest, commands: usize, what: &str) {
    let begin = Instant::now();
    other.ring(1, false).unwrap();
    let mut longest = Duration::ZERO;
    let mut done = 0;
    while done < commands {
        longest = longest.max(honest.longest_read(20).unwrap());
        while let Some(it) = other.take(1).unwrap() {
            assert_eq!(it.status, 0, "{what}");
            done += 1;
        }
        other.ring(1, true).unwrap();
        assert!(begin.elapsed() < Duration::from_secs(60), "{what}");
    }
    println!(
        "the longest read: {longest:?} beside {what}, which took {:?}",
        begin.elapsed()
    );
    assert!(longest < LONGEST, "{what}: {longest:?}");
}
