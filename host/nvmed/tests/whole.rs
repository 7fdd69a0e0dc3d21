//! Whole runs over the library: guests' controllers are brought up, and their commands are carried out by a drive of the test.
#![cfg(not(feature = "stub"))]
#![allow(clippy::unwrap_used)]

mod common;

use common::*;
use nvmed::{Error, Event, Mediator, Scope, Seen, WorkEnd};
use std::sync::Arc;

struct Host {
    m: Mediator<Memory>,
    drive: Drive,
    guests: [Guest; 2],
}

fn host() -> Host {
    let memory = memory(HOST_BYTES);
    let mut m = Mediator::serve(Arc::clone(&memory), &set_up()).unwrap();
    let mut guests = [0, 1].map(|number| Guest::new(number, Arc::clone(&memory)));
    for guest in &mut guests {
        guest.bring_up(&mut m);
    }
    Host {
        m,
        drive: Drive::new(memory),
        guests,
    }
}

#[test]
fn what_a_guest_writes_it_reads_and_no_other_sees_it() {
    let Host {
        mut m,
        mut drive,
        guests: [mut first, mut second],
    } = host();
    let secret: Vec<u8> = (0..2048_u32).map(|i| (i * 7) as u8).collect();
    first.put(DATA, &secret);
    first.send(&mut m, 0x01, 4, 4);
    assert_eq!(run(&mut m, &mut drive), WorkEnd::Done);
    assert_eq!(first.status(), Some(0));
    assert_eq!(drive.blocks[4..8].concat(), secret);
    first.acknowledge(&mut m);
    first.put(DATA, &[0xaa; 2048]);
    first.send(&mut m, 0x02, 4, 4);
    second.send(&mut m, 0x02, 4, 4);
    assert_eq!(run(&mut m, &mut drive), WorkEnd::Done);
    assert_eq!((first.status(), second.status()), (Some(0), Some(0)));
    assert_eq!(first.get(DATA, 2048), secret);
    assert_eq!(second.get(DATA, 2048), vec![0; 2048]);
    assert_eq!(second.get(DATA + 2048, 8), vec![0xee; 8]);
}

#[test]
fn a_block_that_a_guest_does_not_have_is_refused() {
    let Host {
        mut m,
        mut drive,
        guests: [_, mut second],
    } = host();
    second.send(&mut m, 0x02, BLOCKS as u32 / 2, 1);
    run(&mut m, &mut drive);
    assert_eq!(second.status(), Some(0x80 | 1 << 14), "LBA Out of Range, do not retry");
}

#[test]
fn many_commands_go_round_the_rings() {
    let Host {
        mut m,
        mut drive,
        guests: [mut first, _],
    } = host();
    for i in 0..200 {
        first.put(DATA, &[i as u8; 512]);
        first.send(&mut m, 0x01, i % 32, 1);
        run(&mut m, &mut drive);
        assert_eq!(first.status(), Some(0), "command {i}");
        first.acknowledge(&mut m);
    }
    assert_eq!(drive.blocks[7], [199; 512]);
    let rings = m.rings(0).unwrap();
    assert_eq!(
        (rings.tail, rings.head, rings.entries, rings.closed),
        (200 % 65, 200 % 65, 65, false)
    );
}

#[test]
fn vectors_are_pending_until_they_are_acknowledged_and_posted_once() {
    let Host {
        mut m,
        mut drive,
        guests: [mut first, _],
    } = host();
    let mut seen = Seen::new();
    m.posted(0, &mut seen).unwrap();
    assert!(m.pending(0).unwrap().is_empty());
    first.send(&mut m, 0x02, 0, 1);
    run(&mut m, &mut drive);
    assert_eq!(m.pending(0).unwrap().as_slice(), [VECTOR]);
    assert!(m.pending(1).unwrap().is_empty());
    assert_eq!(m.posted(0, &mut seen).unwrap().as_slice(), [VECTOR]);
    assert!(m.posted(0, &mut seen).unwrap().is_empty());
    // a second completion ahead of the doorbell is a message, too
    first.send(&mut m, 0x02, 1, 1);
    run(&mut m, &mut drive);
    assert_eq!(m.posted(0, &mut seen).unwrap().as_slice(), [VECTOR]);
    // and so is what is left after the guest has acknowledged some
    m.doorbell(0, 0x100c, 1).unwrap();
    assert_eq!(m.posted(0, &mut seen).unwrap().as_slice(), [VECTOR]);
    first.acknowledge(&mut m);
    assert!(m.pending(0).unwrap().is_empty());
    assert!(m.posted(0, &mut seen).unwrap().is_empty());
    // a queue that was made anew is another one
    m.reg_write(0, 0x14, 0).unwrap();
    first.bring_up(&mut m);
    first.send(&mut m, 0x02, 0, 1);
    run(&mut m, &mut drive);
    assert_eq!(m.posted(0, &mut Seen::new()).unwrap().as_slice(), [VECTOR]);
    assert_eq!(m.posted(0, &mut seen).unwrap().as_slice(), [VECTOR]);
}

#[test]
fn registers_are_those_of_the_controller() {
    let Host { mut m, .. } = host();
    assert_eq!(m.reg_read(0, 0x1c), Ok(1), "CSTS.RDY");
    assert_eq!(m.reg_read(0, 0x14), Ok(0x0046_0001));
    assert_eq!(m.reg_read(0, 0xf00), Ok(0));
    m.reg_write(0, 0x14, 0x0046_0000).unwrap();
    assert_eq!((m.reg_read(0, 0x1c), m.reg_read(1, 0x1c)), (Ok(0), Ok(1)));
    assert_eq!(m.reg_read(0, 0x15), Err(Error::Ignored));
    assert_eq!(m.reg_read(2, 0x14), Err(Error::Ignored));
    assert_eq!(m.reg_read(256, 0x14), Err(Error::NoSuch));
    assert_eq!(m.reg_write(1, 0x1c, 0), Err(Error::Ignored));
    assert_eq!(m.reg_write(256, 0x14, 0), Err(Error::NoSuch));
}

#[test]
fn doorbells_that_do_not_fit_are_refused() {
    let Host { mut m, .. } = host();
    assert_eq!(m.doorbell(0, 0x1008, 16), Err(Error::Ignored), "beyond the queue");
    assert_eq!(m.doorbell(0, 0x1010, 0), Err(Error::Ignored), "no such queue");
    assert_eq!(m.doorbell(9, 0x1008, 0), Err(Error::Ignored));
    assert_eq!(m.doorbell(256, 0x1008, 0), Err(Error::NoSuch));
    m.reg_write(0, 0x14, 0).unwrap();
    assert_eq!(m.doorbell(0, 0x1008, 1), Err(Error::Ignored), "not ready");
}

#[test]
fn numbers_that_name_nothing_are_refused() {
    let Host { mut m, .. } = host();
    assert_eq!(m.rings(1), Err(Error::NoSuch));
    assert_eq!(m.close_lane(1), Err(Error::NoSuch));
    assert_eq!(m.pending(2), Err(Error::Ignored));
    assert_eq!(m.posted(2, &mut Seen::new()), Err(Error::Ignored));
    assert_eq!(m.posted(300, &mut Seen::new()), Err(Error::NoSuch));
    assert_eq!(m.share(2, 4), Err(Error::Ignored));
    assert_eq!(m.share(256, 4), Err(Error::NoSuch));
    assert_eq!(
        (m.share(0, 0), m.share(0, 64)),
        (Err(Error::BadSize), Err(Error::BadSize))
    );
    assert_eq!(m.share(0, 8), Ok(()));
    for scope in [
        Scope::Guest(2),
        Scope::Lane(5),
        Scope::Guest(1000),
        Scope::Lane(u32::MAX),
    ] {
        let work = m.work(scope, 10);
        assert_eq!((work.done, work.end), (0, WorkEnd::Done));
    }
}

#[test]
fn events_can_be_made_one_by_one() {
    let Host {
        mut m,
        mut drive,
        guests: [mut first, _],
    } = host();
    first.send(&mut m, 0x02, 3, 1);
    let take = Event::Take {
        guest: 0,
        queue: 1,
        lane: 0,
    };
    assert_eq!((m.due(&take), m.due(&Event::Admin { guest: 0 })), (Ok(true), Ok(false)));
    m.step(&take).unwrap();
    assert_eq!(m.due(&take), Ok(false));
    assert_eq!(m.step(&take), Err(Error::Idle));
    assert_eq!(m.step(&Event::Submit { lane: 0, tag: 63 }), Err(Error::Stale));
    m.step(&Event::Submit { lane: 0, tag: 0 }).unwrap();
    drive.work(&m.rings(0).unwrap());
    assert_eq!(m.due(&Event::Reap { lane: 0 }), Ok(true));
    m.step(&Event::Reap { lane: 0 }).unwrap();
    m.step(&Event::Post { lane: 0, tag: 0 }).unwrap();
    assert_eq!(first.status(), Some(0));
    assert_eq!(
        m.step(&Event::Take {
            guest: 0,
            queue: 1,
            lane: 300
        }),
        Err(Error::NoSuch)
    );
    assert_eq!(
        m.due(&Event::Take {
            guest: 0,
            queue: 70_000,
            lane: 0
        }),
        Err(Error::NoSuch)
    );
}

#[test]
fn a_command_can_be_given_up_and_lists_are_of_its_own_memory() {
    let Host {
        mut m,
        guests: [mut first, _],
        ..
    } = host();
    first.send(&mut m, 0x02, 3, 1);
    m.step(&Event::Take {
        guest: 0,
        queue: 1,
        lane: 0,
    })
    .unwrap();
    let list = |address| Event::List {
        lane: 0,
        tag: 0,
        address,
        bytes: 16,
    };
    assert_eq!(m.step(&list(GUEST_BYTES)), Err(Error::Unmapped));
    m.step(&Event::GiveUp { lane: 0, tag: 0 }).unwrap();
    m.step(&Event::Post { lane: 0, tag: 0 }).unwrap();
    assert_eq!(first.status().map(|status| status & 0x7ff), Some(6), "Internal Error");
}

#[test]
fn a_drive_that_completes_what_it_does_not_have_is_given_up() {
    let Host {
        mut m,
        mut drive,
        guests: [mut first, mut second],
    } = host();
    drive.lie = 0x1f;
    first.send(&mut m, 0x02, 3, 1);
    assert_eq!(run(&mut m, &mut drive), WorkEnd::Stray);
    assert_eq!(m.step(&Event::Reap { lane: 0 }), Err(Error::Stray));
    m.close_lane(0).unwrap();
    assert!(m.rings(0).unwrap().closed);
    assert_eq!(run(&mut m, &mut drive), WorkEnd::Done);
    assert_eq!(first.status().map(|status| status & 0x7ff), Some(6), "Internal Error");
    // nothing is taken for the lane any more
    second.send(&mut m, 0x02, 3, 1);
    assert_eq!(
        m.step(&Event::Take {
            guest: 1,
            queue: 1,
            lane: 0
        }),
        Err(Error::Closed)
    );
    assert_eq!(m.close_lane(0), Ok(()), "a second time it changes nothing");
}

#[test]
fn stores_and_loads_are_of_the_guests_memory() {
    let Host {
        mut m,
        guests: [first, _],
        ..
    } = host();
    m.store(0, 0x5000, b"by a call").unwrap();
    assert_eq!(first.get(0x5000, 9), b"by a call");
    let mut room = [0; 9];
    m.load(0, 0x5000, &mut room).unwrap();
    assert_eq!(&room, b"by a call");
    assert_eq!(m.store(0, GUEST_BYTES - 4, b"too long"), Err(Error::Unmapped));
    assert_eq!(m.load(0, GUEST_BYTES, &mut room), Err(Error::Unmapped));
    assert_eq!(&room, b"by a call");
    assert_eq!(m.load(2, 0, &mut room), Err(Error::Ignored));
    assert_eq!(m.store(256, 0, b"none"), Err(Error::NoSuch));
    assert_eq!((m.store(0, 0, &[]), m.load(0, 0, &mut [])), (Ok(()), Ok(())));
}

#[test]
fn a_mediator_goes_to_another_thread_with_its_commands() {
    let Host {
        mut m,
        mut drive,
        guests: [mut first, _],
    } = host();
    first.send(&mut m, 0x01, 9, 1);
    let (m, drive, first) = std::thread::spawn(move || {
        run(&mut m, &mut drive);
        (m, drive, first)
    })
    .join()
    .unwrap();
    assert_eq!(first.status(), Some(0));
    assert_eq!(drive.blocks[9], [0xee; 512]);
    let memory = m.end();
    assert_eq!(Arc::strong_count(&memory), 3, "the drive and the guest have it, too");
}

#[test]
fn a_guest_comes_back_after_a_reset() {
    let Host {
        mut m,
        mut drive,
        guests: [mut first, _],
    } = host();
    first.send(&mut m, 0x02, 3, 1);
    let _work = m.work(Scope::All, 64);
    m.reg_write(0, 0x14, 0).unwrap();
    assert_eq!(m.reg_read(0, 0x1c), Ok(1), "its command runs out first");
    run(&mut m, &mut drive);
    assert_eq!(m.reg_read(0, 0x1c), Ok(0));
    first.bring_up(&mut m);
    first.send(&mut m, 0x01, 3, 1);
    run(&mut m, &mut drive);
    assert_eq!(first.status(), Some(0));
}
