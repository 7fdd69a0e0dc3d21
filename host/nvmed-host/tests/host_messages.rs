//! What a client may ask for and QEMU seldom does, on the whole program; and what the program says each second of its guests' commands.
#![allow(clippy::unwrap_used, clippy::expect_used, clippy::panic)]

mod client;
mod guest;
mod program;

use std::time::Duration;

use client::{Client, Memory, BAR0, CONFIG};
use guest::{configuration, host, is_real, Bells, Folder, Guest, BYTES, MIB};
use nix::sys::signal::Signal;
use nvmed_host::host::Outcome;
use program::{connect, Program};

/// Doorbells of several queues, and a register of configuration space, by one message.
#[test]
fn several_writes_in_one_message() {
    if !is_real() {
        return;
    }
    let folder = Folder::new("several");
    let host = host(&configuration(&folder, 1, ""));
    let mut guest = Guest::connect_with(&folder.path("g0"), Memory::new(BYTES).unwrap(), Bells::Messages).unwrap();
    guest.bring_up().unwrap();
    guest.create_pair().unwrap();
    for round in 1..5u32 {
        let ids = [1, 2].map(|queue| guest.put(queue, 2, 0x20_0000, [0, 0, 7]).unwrap());
        // memory and bus mastering stay on
        let (command, tail) = (6u16.to_le_bytes(), round.to_le_bytes());
        let writes: [(u32, u64, &[u8]); 3] = [(BAR0, 0x1008, &tail), (CONFIG, 4, &command), (BAR0, 0x1010, &tail)];
        assert_eq!(guest.client.write_multi(&writes).unwrap(), 3);
        for (queue, id) in [1, 2].into_iter().zip(ids) {
            let done = guest.await_done(queue).unwrap();
            assert_eq!((done.id, done.status), (id, 0), "queue {queue}");
        }
    }
    drop(guest);
    assert_eq!(host.end(), Outcome::Good);
}

/// A guest of which a part of its machine's memory is missing has no controller, however its registers are written.
#[test]
fn a_guest_without_all_of_its_memory_has_no_controller() {
    let folder = Folder::new("part");
    let host = host(&configuration(&folder, 1, ""));
    let memory = Memory::new(BYTES).unwrap();
    let mut client = Client::connect(&folder.path("g0")).unwrap();
    client.version().unwrap();
    let part = client::Range {
        address: 0,
        offset: 0,
        bytes: MIB,
    };
    client.map(part, Some(std::os::fd::AsFd::as_fd(&memory.file))).unwrap();
    client.write(CONFIG, 4, &[6, 0]).unwrap();
    let enable = 0x0046_0001u32.to_le_bytes();
    client.write(BAR0, 0x14, &enable).unwrap();
    client.write_multi(&[(BAR0, 0x14, &enable)]).unwrap();
    std::thread::sleep(Duration::from_millis(50));
    let (cc, csts) = (
        client.read_u32(BAR0, 0x14).unwrap(),
        client.read_u32(BAR0, 0x1c).unwrap(),
    );
    assert_eq!((cc & 1, csts & 1), (0, 0));
    drop(client);
    assert_eq!(host.end(), Outcome::Good);
}

/// The counts of all lines together are what the guests did.
#[test]
fn statistics_say_what_the_drive_was_given() {
    if !is_real() {
        return;
    }
    let folder = Folder::new("statistics");
    let mut program = Program::start(&folder, &configuration(&folder, 2, ""), &["--statistics"]);
    let mut guests = ["g0", "g1"].map(|name| connect(&folder, name));
    for guest in &mut guests {
        guest.bring_up().unwrap();
    }
    for _ in 0..3 {
        assert_eq!(guests[0].write_blocks(0, 1).unwrap().status, 0);
    }
    for _ in 0..2 {
        guests[1].read_blocks(8).unwrap();
    }
    // beyond its namespace: the drive is not given it
    assert_ne!(guests[1].command(1, 2, 0x20_0000, [2048, 0, 0]).unwrap().status, 0);
    assert_eq!(guests[1].command(1, 8, 0, [0, 0, 15]).unwrap().status, 0);
    assert_eq!(guests[0].command(1, 0, 0, [0; 3]).unwrap().status, 0);
    std::thread::sleep(Duration::from_millis(2500));
    program.signal(Signal::SIGTERM);
    let said = program.said();
    assert_eq!(program.status(), 0, "{said}");
    let lines: Vec<&str> = said.lines().filter(|line| line.ends_with(" others")).collect();
    assert!(lines.len() >= 2, "a line a second: {said}");
    // in each line the numbers of reads, writes, compares and zeroes of both guests, each with its bytes, and the others
    let mut sums = [0u64; 17];
    for line in lines {
        let counts = line.split_once("guest 0: ").unwrap().1.replace("guest 1: ", "");
        let numbers: Vec<u64> = counts.split(' ').filter_map(|word| word.parse().ok()).collect();
        assert_eq!(numbers.len(), sums.len(), "{line}");
        sums.iter_mut().zip(numbers).for_each(|(sum, number)| *sum += number);
    }
    let zero = [0, 0, 3, 3 * 4096, 0, 0, 0, 0];
    let one = [2, 2 * 4096, 0, 0, 0, 0, 1, 8192];
    assert_eq!((&sums[..8], &sums[8..16], sums[16]), (&zero[..], &one[..], 1), "{said}");
}
