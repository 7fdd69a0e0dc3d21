use super::*;
use crate::{Error, Extent, GuestSetUp, Mediator, Region, Seen, SetUp, AREA_BYTES_PER_LANE};
use vm_memory::MmapRegion;

const AREA: u64 = 0x10_0000;

fn mediator() -> Mediator<MmapRegion> {
    let guest = |number: u64| GuestSetUp {
        regions: vec![Region {
            address: 0x8000,
            host: number * 0x2000,
            bytes: 0x2000,
        }],
        extents: vec![Extent {
            base: number * 10,
            blocks: 10,
        }],
        ..GuestSetUp::default()
    };
    let set_up = SetUp {
        host_bytes: AREA + 2 * AREA_BYTES_PER_LANE,
        mediator: AREA,
        disk_blocks: 20,
        lanes: 2,
        guests: vec![guest(0), guest(1)],
    };
    Mediator::serve(MmapRegion::new(set_up.host_bytes as usize).unwrap(), &set_up).unwrap()
}

#[test]
fn ready_follows_enabled_unless_it_is_held() {
    let mut m = mediator();
    let stub = m.stub();
    assert_eq!(
        (m.reg_read(0, 0x1c), m.doorbell(0, 0x1000, 1)),
        (Ok(0), Err(Error::Ignored))
    );
    m.reg_write(0, 0x14, 1).unwrap();
    assert_eq!((m.reg_read(0, 0x1c), m.reg_read(1, 0x1c)), (Ok(1), Ok(0)));
    m.doorbell(0, 0x1000, 1).unwrap();
    stub.hold_ready(0, true);
    m.reg_write(0, 0x14, 0).unwrap();
    assert_eq!(m.reg_read(0, 0x1c), Ok(1));
    stub.plan(Turn {
        run_out: vec![0],
        ..Turn::default()
    });
    assert_eq!(
        m.work(Scope::All, 10),
        crate::Work {
            done: 1,
            end: WorkEnd::Done
        }
    );
    assert_eq!(m.reg_read(0, 0x1c), Ok(0));
}

#[test]
fn work_does_what_was_planned() {
    let mut m = mediator();
    let stub = m.stub();
    let post = Post {
        guest: 1,
        queue: 2,
        vector: 7,
    };
    stub.plan(Turn {
        done: 9,
        tails: vec![(1, 66)],
        heads: vec![(0, 4), (9, 1)],
        posts: vec![post],
        ..Turn::default()
    });
    stub.plan(Turn {
        end: WorkEnd::Stray,
        ..Turn::default()
    });
    stub.plan(Turn {
        end: WorkEnd::OutOfMemory,
        done: 0,
        ..Turn::default()
    });
    assert_eq!(stub.planned(), 3);
    assert_eq!(m.work(Scope::Guest(1), 5).done, 5);
    assert_eq!(m.work(Scope::All, 5).end, WorkEnd::Stray);
    assert_eq!(m.work(Scope::Lane(1), 5).end, WorkEnd::OutOfMemory);
    assert_eq!(
        m.work(Scope::All, 5),
        crate::Work {
            done: 0,
            end: WorkEnd::Done
        }
    );
    let (first, second) = (m.rings(0).unwrap(), m.rings(1).unwrap());
    assert_eq!((first.head, first.tail, second.head, second.tail), (4, 0, 0, 1));
    assert_eq!(second.submission - first.submission, AREA_BYTES_PER_LANE);
    assert_eq!(first.completion - first.submission, 8192);
    assert_eq!(
        (m.pending(0).unwrap().len(), m.pending(1).unwrap().as_slice()),
        (0, &[7_u16][..])
    );
    assert_eq!(
        stub.take_calls()[0],
        Call::Work {
            scope: Scope::Guest(1),
            most: 5,
            done: 5
        }
    );
    assert!(stub.take_calls().is_empty());
}

#[test]
fn a_vector_is_posted_again_with_each_completion() {
    let mut m = mediator();
    let (stub, mut seen) = (m.stub(), Seen::new());
    m.reg_write(0, 0x14, 1).unwrap();
    let posted = |m: &mut Mediator<MmapRegion>, seen: &mut Seen| m.posted(0, seen).unwrap().as_slice().to_vec();
    assert_eq!(posted(&mut m, &mut seen), [0_u16; 0]);
    for _ in 0..2 {
        stub.post(Post {
            guest: 0,
            queue: 1,
            vector: 3,
        });
        assert_eq!(posted(&mut m, &mut seen), [3]);
        assert_eq!(posted(&mut m, &mut seen), [0_u16; 0]);
    }
    stub.post(Post {
        guest: 0,
        queue: 0,
        vector: 0,
    });
    assert_eq!(posted(&mut m, &mut seen), [0]);
    m.doorbell(0, 0x100c, 1).unwrap();
    assert_eq!(
        (posted(&mut m, &mut seen), m.pending(0).unwrap().as_slice()),
        (vec![], &[0_u16][..])
    );
    m.reg_write(0, 0x14, 0).unwrap();
    assert!(m.pending(0).unwrap().is_empty());
    assert_eq!(m.posted(300, &mut seen), Err(Error::NoSuch));
}

#[test]
fn calls_are_recorded_with_their_answers() {
    let mut m = mediator();
    let stub = m.stub();
    stub.set_register(1, 0, 0x77);
    assert_eq!(
        (m.reg_read(1, 0), m.reg_read(1, 2), m.reg_read(2, 0)),
        (Ok(0x77), Err(Error::Ignored), Err(Error::Ignored))
    );
    assert_eq!(
        (m.reg_write(1, 0x1c, 0), m.reg_write(999, 0x14, 0)),
        (Err(Error::Ignored), Err(Error::NoSuch))
    );
    assert_eq!(m.step(&Event::Reap { lane: 1 }), Err(Error::Idle));
    assert_eq!(m.due(&Event::Reap { lane: 1 }), Ok(false));
    assert_eq!(
        (m.share(0, 40), m.share(1, 20), m.share(1, 0)),
        (Err(Error::BadSize), Ok(()), Err(Error::BadSize))
    );
    assert_eq!(
        (m.share(2, 1), m.share(256, 1)),
        (Err(Error::Ignored), Err(Error::NoSuch))
    );
    assert_eq!(stub.shares(), [32, 20]);
    assert_eq!((m.close_lane(1), m.close_lane(2)), (Ok(()), Err(Error::NoSuch)));
    assert!(m.rings(1).unwrap().closed && m.rings(2).is_err());
    let calls = stub.take_calls();
    assert_eq!(
        calls[0],
        Call::RegRead {
            guest: 1,
            offset: 0,
            good: true
        }
    );
    assert_eq!(
        calls[4],
        Call::RegWrite {
            guest: 999,
            offset: 0x14,
            value: 0,
            good: false
        }
    );
    assert_eq!(
        calls[5],
        Call::Step {
            event: Event::Reap { lane: 1 },
            good: false
        }
    );
    assert_eq!(calls.last(), Some(&Call::CloseLane { lane: 2, good: false }));
}

#[test]
fn stores_and_loads_are_of_the_guests_memory() {
    let mut m = mediator();
    m.store(1, 0x8010, b"bytes").unwrap();
    let mut room = [0; 5];
    m.load(1, 0x8010, &mut room).unwrap();
    assert_eq!(&room, b"bytes");
    assert_eq!(m.store(1, 0x9fff, b"bytes"), Err(Error::Unmapped));
    assert_eq!(m.load(1, 0x7fff, &mut room), Err(Error::Unmapped));
    assert_eq!(
        (m.load(2, 0, &mut room), m.store(256, 0, b"")),
        (Err(Error::Ignored), Err(Error::NoSuch))
    );
    assert_eq!(m.stub().take_calls().len(), 6);
}

#[test]
fn no_more_than_so_many_calls_are_kept() {
    let mut m = mediator();
    for offset in 0..70_000 {
        let _answer = m.reg_read(0, offset);
    }
    let calls = m.stub().take_calls();
    assert_eq!(calls.len(), 65_536);
    assert_eq!(
        calls.last(),
        Some(&Call::RegRead {
            guest: 0,
            offset: 69_999,
            good: false
        })
    );
}

#[test]
fn the_end_of_a_mediator_is_seen() {
    let m = mediator();
    let stub = m.stub();
    assert!(!stub.is_freed());
    drop(m);
    assert!(stub.is_freed());
}
