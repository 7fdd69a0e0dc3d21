//! Whole guests on the whole program: commands, interrupts, resets, connections.
#![allow(clippy::unwrap_used, clippy::expect_used, clippy::panic)]

mod client;
mod guest;

use std::time::{Duration, Instant};

use client::{Client, Memory, BAR0, CONFIG};
use guest::{configuration, host, is_real, Bells, Folder, Guest, BYTES};
use nvmed_host::host::Outcome;

fn with_bells(bells: Bells, line: &str) {
    if !is_real() {
        return;
    }
    let folder = Folder::new(&format!("commands-{bells:?}-{}", line.len()));
    let host = host(&configuration(&folder, 1, line));
    let mut guest = Guest::connect_with(&folder.path("g0"), Memory::new(BYTES).unwrap(), bells).unwrap();
    guest.bring_up().unwrap();
    for round in 0..100u32 {
        let byte = round as u8 + 1;
        assert_eq!(guest.write_blocks(8 * round, byte).unwrap().status, 0);
        assert_eq!(guest.read_blocks(8 * round).unwrap(), [byte; 4096]);
    }
    // beyond the namespace
    let done = guest.command(1, 2, 0x20_0000, [2048, 0, 0]).unwrap();
    assert_eq!(done.status & 0x7ff, 0x80);
    // flush, and Write Zeroes
    assert_eq!(guest.command(1, 0, 0, [0; 3]).unwrap().status, 0);
    assert_eq!(guest.command(1, 8, 0, [0, 0, 7]).unwrap().status, 0);
    assert_eq!(guest.read_blocks(0).unwrap(), [0; 4096]);
    drop(guest);
    assert_eq!(host.end(), Outcome::Good);
}

#[test]
fn doorbells_in_a_page() {
    with_bells(Bells::Page, "");
}

#[test]
fn doorbells_by_messages_though_there_is_a_page() {
    with_bells(Bells::Messages, "");
}

#[test]
fn doorbells_by_messages() {
    with_bells(Bells::Messages, "doorbells 0 messages\n");
}

#[test]
fn two_guests_have_blocks_of_their_own() {
    if !is_real() {
        return;
    }
    let folder = Folder::new("two");
    let host = host(&configuration(&folder, 2, "lanes 2\n"));
    let mut guests: Vec<Guest> = (0..2)
        .map(|n| Guest::connect(&folder.path(&format!("g{n}"))).unwrap())
        .collect();
    for (guest, byte) in guests.iter_mut().zip([1, 2]) {
        guest.bring_up().unwrap();
        guest.write_blocks(0, byte).unwrap();
    }
    for (guest, byte) in guests.iter_mut().zip([1, 2]) {
        assert_eq!(guest.read_blocks(0).unwrap(), [byte; 4096]);
    }
    drop(guests);
    assert_eq!(host.end(), Outcome::Good);
}

#[test]
fn many_commands_at_a_time() {
    if !is_real() {
        return;
    }
    let folder = Folder::new("many");
    let host = host(&configuration(&folder, 1, ""));
    let mut guest = Guest::connect(&folder.path("g0")).unwrap();
    guest.bring_up().unwrap();
    for round in 0..50u32 {
        for i in 0..32 {
            let at = 0x20_0000 + 0x1000 * u64::from(i);
            guest.put(1, 2, at, [8 * ((round + i) % 200), 0, 7]).unwrap();
        }
        guest.ring(1, false).unwrap();
        for _ in 0..32 {
            assert_eq!(guest.await_done(1).unwrap().status, 0);
        }
    }
    drop(guest);
    assert_eq!(host.end(), Outcome::Good);
}

#[test]
fn a_client_goes_and_the_next_one_finds_the_blocks() {
    if !is_real() {
        return;
    }
    let folder = Folder::new("again");
    let host = host(&configuration(&folder, 1, ""));
    for round in 0..20u8 {
        let mut guest = Guest::connect(&folder.path("g0")).unwrap();
        guest.bring_up().unwrap();
        if round > 0 {
            assert_eq!(guest.read_blocks(0).unwrap(), [round - 1; 4096]);
        }
        guest.write_blocks(0, round).unwrap();
        // it goes in the middle of commands
        for i in 0..16 {
            guest
                .put(1, 2, 0x20_0000 + 0x1000 * i, [8 * i as u32 + 8, 0, 7])
                .unwrap();
        }
        guest.ring(1, false).unwrap();
    }
    assert_eq!(host.end(), Outcome::Good);
}

#[test]
fn resets_under_load() {
    if !is_real() {
        return;
    }
    let folder = Folder::new("reset");
    let host = host(&configuration(&folder, 1, ""));
    let mut guest = Guest::connect(&folder.path("g0")).unwrap();
    for round in 0..30 {
        guest.bring_up().unwrap();
        for i in 0..32 {
            guest.put(1, 2, 0x20_0000 + 0x1000 * i, [8 * i as u32, 0, 7]).unwrap();
        }
        guest.ring(1, false).unwrap();
        let begin = Instant::now();
        if round % 2 == 0 {
            guest.client.reset().unwrap();
            assert!(
                begin.elapsed() < Duration::from_millis(500),
                "a reset is answered at once"
            );
            guest.client.write(CONFIG, 4, &[6, 0]).unwrap();
            guest.client.write(CONFIG, 0x42, &[8, 0x80]).unwrap();
        } else {
            guest.set_cc(0).unwrap();
        }
        guest.await_ready(0).unwrap();
    }
    guest.bring_up().unwrap();
    guest.write_blocks(0, 9).unwrap();
    assert_eq!(guest.read_blocks(0).unwrap(), [9; 4096]);
    assert_eq!(host.end(), Outcome::Good);
}

#[test]
fn without_bus_master_enable_nothing_is_fetched() {
    if !is_real() {
        return;
    }
    let folder = Folder::new("master");
    let host = host(&configuration(&folder, 1, ""));
    let mut guest = Guest::connect(&folder.path("g0")).unwrap();
    guest.bring_up().unwrap();
    guest.client.write(CONFIG, 4, &[2, 0]).unwrap();
    guest.put(1, 2, 0x20_0000, [0, 0, 7]).unwrap();
    guest.ring(1, false).unwrap();
    std::thread::sleep(Duration::from_millis(50));
    assert_eq!(guest.take(1).unwrap(), None);
    guest.client.write(CONFIG, 4, &[6, 0]).unwrap();
    assert_eq!(guest.await_done(1).unwrap().status, 0);
    assert_eq!(host.end(), Outcome::Good);
}

#[test]
fn a_shutdown_is_told_once_nothing_is_outstanding() {
    if !is_real() {
        return;
    }
    let folder = Folder::new("shutdown");
    let host = host(&configuration(&folder, 1, ""));
    let mut guest = Guest::connect(&folder.path("g0")).unwrap();
    guest.bring_up().unwrap();
    guest.write_blocks(0, 1).unwrap();
    guest.set_cc(0x0046_4001).unwrap();
    let begin = Instant::now();
    while guest.client.read_u32(BAR0, 0x1c).unwrap() >> 2 & 3 != 2 {
        assert!(begin.elapsed() < Duration::from_secs(5));
    }
    assert_eq!(host.end(), Outcome::Good);
}

/// From version 1.3 on Linux asks for descriptors of namespaces, which the mediator refuses, and leaves the namespace out.
#[test]
fn a_controller_is_of_version_1_2_unless_another_is_asked_for() {
    if !is_real() {
        return;
    }
    let folder = Folder::new("version");
    let host = host(&configuration(&folder, 2, "version 1 1.4\n"));
    for (socket, version) in [("g0", 0x1_0200), ("g1", 0x1_0400)] {
        let mut guest = Guest::connect(&folder.path(socket)).unwrap();
        guest.bring_up().unwrap();
        assert_eq!(guest.client.read_u32(BAR0, 8).unwrap(), version, "the version register");
        assert_eq!(
            guest.admin(6, 0x20_0000, [1, 0, 0]).unwrap().status,
            0,
            "Identify Controller"
        );
    }
    assert_eq!(host.end(), Outcome::Good);
}

#[test]
fn the_pin_interrupts() {
    if !is_real() {
        return;
    }
    let folder = Folder::new("pin");
    let host = host(&configuration(&folder, 1, "interrupts 0 pin\n"));
    let memory = Memory::new(BYTES).unwrap();
    let mut guest = Guest::connect_with(&folder.path("g0"), memory, Bells::Messages).unwrap();
    // the pin, and no messages
    guest.client.disable_irqs(client::MSIX).unwrap();
    guest.client.write(CONFIG, 0x42, &[8, 0]).unwrap();
    let pin = client::eventfds(1).unwrap();
    guest
        .client
        .set_eventfds(client::INTX, 0, &[std::os::fd::AsFd::as_fd(&pin[0])])
        .unwrap();
    guest.interrupts = false;
    guest.bring_up().unwrap();
    for _ in 0..20 {
        // what was raised before is acknowledged
        client::wait_for(&pin[0], Duration::from_millis(1)).unwrap();
        guest.client.act_on_irq(client::INTX, 0, client::ACTION_UNMASK).unwrap();
        client::wait_for(&pin[0], Duration::from_millis(1)).unwrap();
        guest.client.act_on_irq(client::INTX, 0, client::ACTION_UNMASK).unwrap();
        guest.put(1, 2, 0x20_0000, [0, 0, 7]).unwrap();
        guest.ring(1, false).unwrap();
        assert_ne!(client::wait_for(&pin[0], Duration::from_secs(5)).unwrap(), 0);
        assert_eq!(guest.await_done(1).unwrap().status, 0);
    }
    assert_eq!(host.end(), Outcome::Good);
}

#[test]
fn what_can_be_seen_without_memory() {
    let folder = Folder::new("seen");
    let host = host(&configuration(&folder, 1, ""));
    let mut client = Client::connect(&folder.path("g0")).unwrap();
    client.version().unwrap();
    assert_eq!(client.read(CONFIG, 0, 4).unwrap(), [0x36, 0x1b, 0x10, 0]);
    assert_eq!(client.read(BAR0, 8, 4).unwrap(), [0xff; 4], "memory accesses are off");
    client.write(CONFIG, 4, &[6, 0]).unwrap();
    assert_eq!(client.read_u32(BAR0, 8).unwrap(), 0x1_0200);
    assert_eq!(client.read(BAR0, 0, 0x4000).unwrap().len(), 0x4000);
    client.post_u32(BAR0, 0x14, 0x0046_0001).unwrap();
    assert_eq!(
        client.read_u32(BAR0, 0x1c).unwrap() & 1,
        0,
        "it is not served before its memory is there"
    );
    drop(client);
    assert_eq!(host.end(), Outcome::Good);
}
