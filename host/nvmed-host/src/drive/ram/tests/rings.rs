//! Rings, lanes, and the order of work.

use super::*;

const FLUSH: Entry = Entry {
    opcode: 0,
    flags: 0,
    namespace: 1,
    prp1: 0,
    prp2: 0,
    first: 0,
    d12: 0,
};

fn few(commands: u32) -> Budget {
    Budget {
        commands,
        bytes: 1 << 30,
    }
}

#[test]
fn rings_go_round() {
    let mut rig = Rig::usual();
    assert_eq!(rig.memory.get(CQ - 1, 1), [0xee]);
    assert!(rig.memory.get(CQ, 65 * 16).iter().all(|byte| *byte == 0));
    assert_eq!(rig.memory.get(CQ + 65 * 16, 1), [0xee]);
    for i in 0..200u32 {
        let command = rig.put(&FLUSH);
        rig.ring();
        assert_eq!(
            rig.drive.work(few(1)).expect("work"),
            Progress {
                completed: 1,
                more: false
            }
        );
        assert_eq!(
            rig.memory.get32(CQ + 16 * u64::from(i % 65) + 8),
            1 << 16 | ((i + 1) % 65)
        );
        assert_eq!(rig.reap(), Some((command, 0)));
    }
    assert_eq!(rig.drive.work(AMPLE).expect("work"), Progress::default());
}

#[test]
fn a_full_completion_ring_is_waited_for() {
    let mut rig = Rig::usual();
    (0..64).for_each(|_| {
        rig.put(&FLUSH);
    });
    rig.ring();
    assert_eq!(rig.drive.work(AMPLE).expect("work").completed, 64);
    (0..10).for_each(|_| {
        rig.put(&FLUSH);
    });
    rig.ring();
    assert_eq!(rig.drive.work(AMPLE).expect("work"), Progress::default());
    let reap = |rig: &mut RamRig, count| (0..count).filter_map(|_| rig.reap()).count();
    assert_eq!(reap(&mut rig, 3), 3);
    assert_eq!(
        rig.drive.work(AMPLE).expect("work"),
        Progress {
            completed: 3,
            more: false
        }
    );
    assert_eq!(reap(&mut rig, 60), 60);
    assert_eq!(
        rig.drive.work(few(4)).expect("work"),
        Progress {
            completed: 4,
            more: true
        }
    );
    assert_eq!(
        rig.drive.work(AMPLE).expect("work"),
        Progress {
            completed: 3,
            more: false
        }
    );
}

#[test]
fn doorbells_are_checked() {
    let mut rig = Rig::usual();
    assert!(rig.drive.ring_submission(0, 65).is_err());
    assert!(rig.drive.ring_submission(1, 0).is_err());
    assert!(rig.drive.ring_completion(0, 65).is_err());
    assert!(rig.drive.ring_completion(1, 0).is_err());
    let error = rig.drive.ring_completion(0, 1).expect_err("nothing was completed");
    assert_eq!(error.to_string(), "the completion doorbell of queue 1 cannot say 1");
    assert!(rig.drive.ring_completion(0, 0).is_ok());
    assert_eq!(rig.drive.work(AMPLE).expect("work"), Progress::default());
}

#[test]
fn bad_rings_are_refused() {
    let memory = Memory::new(1 << 26, &[(LOW, 0x80000), (0x100_0000, 0x80_0000)]);
    let mut drive = RamDrive::in_memory(memory, 1).expect("a drive");
    let ring = |submission, completion, entries| LaneRings {
        submission,
        completion,
        entries,
    };
    assert_eq!(drive.work(AMPLE).expect("no lanes"), Progress::default());
    for (i, bad) in [
        ring(SQ, CQ, 1),
        ring(SQ, CQ, 0),
        ring(0x100_0000, 0x100_0000, 65537),
        ring(SQ + 64, CQ, 65),
        ring(SQ, CQ + 16, 65),
        ring(0, CQ, 65),
        ring(SQ, 0x90000, 65),
        ring(0x8f000, CQ, 65),
        ring(u64::MAX - 4095, CQ, 65),
        ring(SQ, u64::MAX - 4095, 65),
    ]
    .into_iter()
    .enumerate()
    {
        let error = drive.create_lanes(&[ring(SQ, CQ, 65), bad]).expect_err("bad rings");
        assert_eq!(
            error.to_string(),
            "the rings of lane 1 are not of 2 to 65536 entries in whole pages of the window",
            "rings {i}"
        );
    }
    assert!(drive.create_lanes(&[]).is_err());
    assert!(drive.create_lanes(&[ring(SQ, CQ, 65); 65536]).is_err());
    assert!(drive.create_lanes(&[ring(SQ, CQ, 65)]).is_ok());
    let error = drive.create_lanes(&[ring(SQ, CQ, 65)]).expect_err("lanes");
    assert_eq!(error.to_string(), "the drive has its lanes already");
}

#[test]
fn a_drive_has_blocks() {
    for blocks in [0, (1 << 37) + 1, u64::MAX] {
        let error = RamDrive::in_memory(Memory::usual(), blocks).err().expect("refused");
        assert_eq!(
            error.to_string(),
            format!("a drive has 1 to 2^37 blocks of 512 bytes, not {blocks}")
        );
    }
}

#[test]
fn lanes_are_served_in_turn() {
    let memory = Memory::usual();
    memory.fill(SQ, 0x8000, 0);
    let mut drive = RamDrive::in_memory(Arc::clone(&memory), BLOCKS).expect("a drive");
    let second = LaneRings {
        submission: 0x14000,
        completion: 0x16000,
        entries: 3,
    };
    drive.create_lanes(&[RINGS, second]).expect("lanes");
    // Entries of zeros are Flushes of namespace 0: refused, which is an answer, too.
    drive.ring_submission(0, 10).expect("a doorbell");
    drive.ring_submission(1, 2).expect("a doorbell");
    assert_eq!(
        drive.work(few(2)).expect("work"),
        Progress {
            completed: 2,
            more: true
        }
    );
    assert_eq!(
        (memory.get32(CQ + 8), memory.get32(0x16008)),
        (0x0001_0001, 0x0002_0001)
    );
    assert_eq!(
        drive.work(few(2)).expect("work"),
        Progress {
            completed: 2,
            more: true
        }
    );
    assert_eq!(
        (memory.get32(CQ + 24), memory.get32(0x16018)),
        (0x0001_0002, 0x0002_0002)
    );
    // The second lane's completion ring is full.
    drive.ring_submission(1, 0).expect("a doorbell");
    assert_eq!(
        drive.work(AMPLE).expect("work"),
        Progress {
            completed: 8,
            more: false
        }
    );
}

/// A command that takes long leaves the others their turn, also in its own lane.
#[test]
fn nobody_waits_for_a_long_command() {
    let memory = Memory::usual();
    let blocks = 1 << 21;
    let drive = RamDrive::in_memory(Arc::clone(&memory), blocks).expect("a drive");
    let mut rig = Rig::new(memory, drive);
    rig.memory.fill(DATA, 512, 1);
    // A block in each chunk of memory, so that there is something to clear.
    for block in (0..blocks).step_by(4096) {
        assert_eq!(rig.run(entry(1, DATA, 0, block, 0)), 0);
    }
    for i in 0..256 {
        rig.memory.put32(HIGH + 16 * i + 4, blocks as u32 - i as u32);
        rig.memory.put64(HIGH + 16 * i + 8, i);
    }
    let long = rig.put(&entry(9, HIGH, 0, (4 << 32) | 255, 0));
    rig.ring();
    let turn = Budget {
        commands: 16,
        bytes: 1 << 20,
    };
    assert_eq!(
        rig.drive.work(turn).expect("work"),
        Progress {
            completed: 0,
            more: true
        }
    );
    let mut turns = 1;
    loop {
        let command = rig.put(&entry(2, DATA, 0, 5, 0));
        rig.ring();
        let progress = rig.drive.work(turn).expect("work");
        turns += 1;
        assert_eq!(
            rig.reap(),
            Some((command, 0)),
            "a Read is carried out in the turn in which it came"
        );
        if progress.completed == 2 {
            assert_eq!(rig.reap(), Some((long, 0)));
            break;
        }
    }
    assert!(
        (1000..1100).contains(&turns),
        "1 GiB by 1 MiB a turn, once and not 256 times: {turns} turns"
    );
}

/// Many transfers of 128 KiB do not hold up a small one that comes after them.
#[test]
fn small_transfers_overtake_large_ones() {
    let mut rig = Rig::usual();
    for i in 0..31 {
        rig.memory.put64(LIST + 8 * i, DATA + 0x1000 * (i + 1));
    }
    let large = (0..30)
        .map(|_| rig.put(&entry(1, DATA, LIST, 0, 255)))
        .collect::<Vec<_>>();
    let small = rig.put(&entry(2, HIGH, 0, 900, 0));
    rig.ring();
    let turn = Budget {
        commands: 64,
        bytes: 1 << 18,
    };
    let progress = rig.drive.work(turn).expect("work");
    assert!(progress.more && progress.completed <= 3);
    assert_eq!(rig.reap(), Some((small, 0)));
    let mut seen = Vec::new();
    while seen.len() < large.len() {
        rig.drive.work(turn).expect("work");
        while let Some((command, status)) = rig.reap() {
            assert_eq!(status, 0);
            seen.push(command);
        }
    }
    assert_eq!(seen, large);
}

/// Parts of transfers end at pages, whatever the budget is, and a turn goes at most a page beyond it.
#[test]
fn a_small_budget_is_kept() {
    let mut rig = Rig::usual();
    for i in 0..31 {
        rig.memory.put64(LIST + 8 * i, DATA + 0x1000 * (i + 1));
    }
    for (i, value) in (0..0x20000u32).step_by(4).enumerate() {
        rig.memory.put32(DATA + 4 * i as u64, value);
    }
    rig.put(&entry(1, DATA, LIST, 0, 255));
    rig.ring();
    let mut turns = 0;
    while rig
        .drive
        .work(Budget {
            commands: 1,
            bytes: 5000,
        })
        .expect("work")
        .more
    {
        turns += 1;
    }
    assert_eq!(turns, 15);
    assert!(rig.reap().is_some());
    assert_eq!(
        rig.drive.work(Budget { commands: 0, bytes: 0 }).expect("work"),
        Progress::default()
    );
    assert_eq!(rig.run(entry(5, DATA, LIST, 0, 255)), 0);
}
