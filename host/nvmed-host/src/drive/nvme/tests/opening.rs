#![forbid(unsafe_code)]

use super::*;
use crate::drive::nvme::bytes::put;
use crate::drive::nvme::fake::Queue;
use crate::drive::nvme::ADMIN_WAIT;

#[test]
fn a_good_controller_is_opened_used_and_closed() {
    let bench = Bench::with(|f| {
        (f.cc, f.csts, f.asq, f.acq) = (1, 1, u64::MAX, u64::MAX); // it was left enabled by another driver
    });
    let mut n = bench.open();
    {
        let f = bench.fake();
        assert_eq!((f.aqa, f.asq, f.acq), (0x000f_000f, ADMIN, ADMIN + 4096));
        assert_eq!((f.cc, f.masks, f.asked), (0x0046_0001, u32::MAX, 0x0001_0001));
        assert_eq!(f.event_configuration, Some(0x11f));
    }
    assert_eq!((n.found().namespace.blocks, n.found().version), (4096, 0x1_0400));
    assert_eq!(
        n.found().to_string(),
        "A fake controller, serial SN 1, firmware 1.0?, NVMe 1.4, 4096 blocks, Compare, Dataset Management, Write Zeroes, write cache"
    );
    assert!(words(n.ring_submission(0, 0)).contains("there is no lane 0"));
    let lanes = [rings(0), rings(1)];
    n.create_lanes(&lanes).unwrap();
    for (lane, pair) in lanes.iter().zip(1u32..) {
        let (s, c): (Queue, Queue) = (
            bench.seen().submission[pair as usize],
            bench.seen().completion[pair as usize],
        );
        assert_eq!((s.address, s.slots, s.flags), (lane.submission, 65, pair << 16 | 1));
        assert_eq!((c.address, c.slots, c.flags), (lane.completion, 65, 1));
        assert!(bench.memory.get(lane.completion, 65 * 16).iter().all(|byte| *byte == 0));
        assert_eq!(bench.memory.get(lane.completion + 65 * 16, 1), [0xa5]);
        assert_eq!(bench.memory.get(lane.submission, 1), [0xa5]);
    }
    assert!(words(n.create_lanes(&lanes)).contains("has its lanes already"));
    n.close().unwrap();
    {
        let f = bench.fake();
        assert_eq!((f.deleted, f.shutdowns, f.cc, f.csts, f.violations), (4, 1, 0, 0, 0));
    }
    n.close().unwrap();
    assert_eq!(bench.seen().shutdowns, 1);
    assert!(words(n.check()).contains("not enabled"));
}

#[test]
fn it_is_opened_many_times_and_the_admin_queue_goes_round() {
    let mut bench = Bench::with(|f| f.cap |= 3 << 32);
    bench.needs.lanes = 8;
    for _ in 0..3 {
        let mut n = bench.running();
        n.close().unwrap();
    }
    assert_eq!((bench.seen().violations, bench.seen().deleted), (0, 48));
}

#[test]
fn properties_are_checked() {
    bad("there is no controller: its registers read as all ones", |f| {
        f.gone = true
    });
    bad("does not have the NVM command set", |f| f.cap &= !(1 << 37));
    bad("needs memory pages larger than 4 KiB (CAP.MPSMIN is 1)", |f| {
        f.cap |= 1 << 48
    });
    bad("needs memory pages larger than 4 KiB (CAP.MPSMIN is 8)", |f| {
        f.cap |= 8 << 48
    });
    bad("queues of one slot only", |f| f.cap &= !0xffff);
    bad(
        "the doorbells of 2 lanes end at 0xc1000, beyond the 0x2000 bytes of BAR0",
        |f| f.cap |= 15 << 32,
    );
    bad("did not become ready within 1000 ms", |f| f.fault = Fault::NeverReady);
    bad("did not become ready within 500 ms", |f| {
        (f.cap, f.fault) = (f.cap & !(0xff << 24), Fault::NeverReady)
    });
    bad("did not become disabled within 1000 ms", |f| {
        (f.cc, f.csts, f.fault) = (1, 1, Fault::NeverDisabled)
    });
    bad("shows a fatal status (CSTS.CFS) while it should become ready", |f| {
        f.fault = Fault::FatalOnEnable
    });
    bad("is gone: its status register reads as all ones", |f| {
        f.fault = Fault::GoneOnEnable
    });
    bad("an access failed", |f| f.fault = Fault::Access);
    let mut bench = Bench::new();
    for lanes in [0, 9] {
        bench.needs.lanes = lanes;
        refused(&bench, "lanes, not 1 to 8");
    }
    bench.needs.lanes = 2;
    bench.bar_bytes = 0xfff;
    refused(&bench, "BAR0 has only 0xfff bytes");
    for bytes in [0x1017, 0x1018] {
        bench.bar_bytes = bytes;
        assert_eq!(bench.controller().open().is_ok(), bytes == 0x1018);
    }
    let mut bench = Bench::new();
    for admin in [0xf000, ADMIN + 8, MEMORY - 8192, MEMORY, u64::MAX - 4095] {
        bench.needs.admin = admin;
        refused(&bench, "the pages of the admin queue are not in the window");
    }
}

#[test]
fn a_slow_controller_has_the_time_that_crto_says() {
    let slow = |f: &mut Fake| {
        f.fault = Fault::SlowReady(20_000);
        f.crto = 60;
    };
    bad("did not become ready within 1000 ms", slow);
    let bench = Bench::with(|f| {
        slow(f);
        f.cap |= 1 << 59;
    });
    bench.open();
    assert!(bench.seen().time >= 20_000);
    bad("did not become ready within 30000 ms", |f| {
        slow(f);
        (f.fault, f.cap) = (Fault::SlowReady(31_000), f.cap | 1 << 59);
    });
    // a timeout that is shorter than CAP.TO does not count
    bad("did not become ready within 1000 ms", |f| {
        (f.crto, f.cap, f.fault) = (0, f.cap | 1 << 59, Fault::NeverReady)
    });
}

#[test]
fn polls_that_are_answered_later_are_good_enough() {
    let bench = Bench::with(|f| (f.slow_polls, f.fault) = (true, Fault::SlowReady(500)));
    let mut n = bench.running();
    n.check().unwrap();
    n.check().unwrap();
    bench.fake().csts |= 2;
    n.check().unwrap();
    n.check().unwrap();
    assert!(n.is_recovering());
    let bench = Bench::with(|f| f.slow_polls = true);
    bench.open().close().unwrap();
}

#[test]
fn identify_is_checked() {
    bad("transfers at most 64 KiB (MDTS is 4), and 128 are needed", |f| {
        f.controller[77] = 4
    });
    bad("transfers at most 8 KiB", |f| f.controller[77] = 1);
    bad("is no I/O controller (CNTRLTYPE is 2)", |f| f.controller[111] = 2);
    bad("SQES is 0x55", |f| f.controller[512] = 0x55);
    bad("SQES is 0x77", |f| f.controller[512] = 0x77);
    bad("SQES is 0x06", |f| f.controller[512] = 0x06);
    bad("CQES is 0x33", |f| f.controller[513] = 0x33);
    bad("CQES is 0x55", |f| f.controller[513] = 0x55);
    bad("has no namespace", |f| f.controller[516] = 0);
    bad("namespace 1 is not active", |f| f.namespace[..8].fill(0));
    bad("namespace 1 has 4095 blocks, and the extents end at block 4096", |f| {
        f.namespace[0..2].copy_from_slice(&[255, 15])
    });
    bad("blocks of 2^12 bytes, not 512", |f| f.namespace[130] = 12);
    bad("blocks of 2^0 bytes, not 512", |f| f.namespace[130] = 0);
    bad("8 bytes of metadata a block", |f| f.namespace[128] = 8);
    bad("256 bytes of metadata a block", |f| f.namespace[129] = 1);
    bad("protection information", |f| f.namespace[29] = 1);
    bad("protection information", |f| f.namespace[29] = 2);
    bad("write protected", |f| f.namespace[99] = 1);
    bad("namespace 1 has format 1 of 1", |f| f.namespace[26] = 1);
    bad("namespace 1 has blocks of 2^0 bytes, not 512", |f| {
        (f.namespace[26], f.namespace[25]) = (0x6f, 255)
    });
    bad(
        "has 1 submission and 2 completion queues, and 2 lanes are needed",
        |f| f.granted = 1 << 16,
    );
    bad("has 2 submission and 1 completion queues", |f| f.granted = 1);
}

#[test]
fn unusual_controllers_are_taken() {
    let bench = Bench::with(|f| {
        (f.controller[77], f.controller[111], f.granted) = (0, 0, 1 << 16 | 1);
        (f.namespace[25], f.namespace[26], f.namespace[134], f.namespace[130]) = (1, 1, 9, 12);
    });
    assert_eq!(bench.open().found().controller.most_transfer, None);
    // entries of other sizes, too; more than 255 namespaces; more than 2^32 blocks; texts that are cut or strange
    let bench = Bench::with(|f| {
        (
            f.controller[512],
            f.controller[513],
            f.controller[516],
            f.controller[517],
        ) = (0x75, 0x53, 0, 1);
        put(&mut f.namespace, 0, &(1u64 << 32).to_le_bytes());
        f.controller[64..72].copy_from_slice(b"a\x02\0\0\0\0\0\0");
    });
    let n = bench.open();
    assert_eq!(
        (n.found().namespace.blocks, n.found().controller.firmware.as_str()),
        (1 << 32, "a?")
    );
    // format 16, whose number has a bit in the upper part of FLBAS
    let bench = Bench::with(|f| {
        (f.namespace[25], f.namespace[26], f.namespace[194], f.namespace[130]) = (16, 0x20, 9, 12);
    });
    bench.open();
    // each optional command by itself
    for bit in 0..16u32 {
        let bench = Bench::with(|f| {
            put(&mut f.controller, 520, &(1u16 << bit).to_le_bytes());
            f.controller[525] = u8::from(bit == 1);
        });
        let n = bench.open();
        let c = &n.found().controller;
        assert_eq!(
            (c.compare, c.deallocate, c.write_zeroes, c.write_cache),
            (bit == 0, bit == 2, bit == 3, bit == 1)
        );
    }
}

#[test]
fn limits_of_the_command_set_are_looked_at() {
    let bench = Bench::with(|f| {
        f.limits[1] = 4;
        f.limits[3] = 16;
        put(&mut f.limits, 4, &1000u32.to_le_bytes());
        put(&mut f.limits, 8, &5000u64.to_le_bytes());
    });
    let n = bench.open();
    let l = n.found().limits;
    assert_eq!(
        (l.write_zeroes_blocks, l.range_blocks, l.ranges, l.dataset_blocks),
        (Some(128), Some(1000), Some(16), Some(5000))
    );
    assert!(n
        .found()
        .to_string()
        .ends_with("Write Zeroes of at most 128 blocks, ranges of at most 1000 blocks"));
    // an old controller isn't asked, and one that refuses is taken
    let bench = Bench::with(|f| (f.vs, f.limits[1]) = (0x1_0300, 4));
    assert_eq!(bench.open().found().limits.write_zeroes_blocks, None);
    let bench = Bench::with(|f| f.limits[1] = 255);
    assert_eq!(bench.open().found().limits.write_zeroes_blocks, None);
}

#[test]
fn each_admin_completion_is_checked() {
    let faults = [
        (Fault::Silent, "did not answer "),
        (Fault::Fatal, "shows a fatal status (CSTS.CFS) during "),
        (Fault::Gone, "is gone"),
        (Fault::Phase, "did not answer "),
        (Fault::CommandId, "the controller completed admin command "),
        (Fault::QueueId, "for queue 1, not for the admin queue"),
        (Fault::Head, " of the admin queue, not "),
        (Fault::Refuses(0x4002), "status code type 0, status code 0x02"),
        (Fault::Refuses(0x100), "status code type 1, status code 0x00"),
    ];
    let commands = [
        (0x06, "Identify Controller"),
        (0x09, "Set Features, Number of Queues"),
        (0x05, "Create I/O Completion Queue"),
        (0x01, "Create I/O Submission Queue"),
    ];
    for (opcode, name) in commands {
        for (fault, part) in faults {
            let bench = Bench::with(|f| (f.fault, f.fault_opcode) = (fault, Some(opcode)));
            if opcode >= 6 {
                refused(&bench, part);
            }
            let bench = Bench::with(|f| (f.fault, f.fault_opcode) = (fault, Some(opcode)));
            let mut n = bench.controller();
            let said = words(n.open().and_then(|()| n.create_lanes(&[rings(0), rings(1)])));
            assert!(said.contains(part), "{said} has no {part}");
            assert!(bench.seen().gone || bench.seen().cc == 0);
            if !matches!(fault, Fault::Gone | Fault::CommandId) && opcode < 9 {
                assert!(said.contains(name), "{said}");
            }
            if matches!(fault, Fault::Silent | Fault::Phase) && opcode < 6 {
                assert!((ADMIN_WAIT..ADMIN_WAIT + 200).contains(&bench.seen().time));
            }
        }
    }
}

#[test]
fn rings_are_checked() {
    let ring = |submission, completion, entries| LaneRings {
        submission,
        completion,
        entries,
    };
    let bad = [
        (
            ring(RINGS, RINGS + 0x2000, 1),
            "the rings of lane 0 have 1 slots, and the controller takes 2 to 1024",
        ),
        (ring(RINGS, RINGS + 0x2000, 1025), "the rings of lane 0 have 1025 slots"),
        (
            ring(RINGS, RINGS + 0x2000, u32::MAX),
            "the rings of lane 0 have 4294967295 slots",
        ),
        (
            ring(RINGS + 64, RINGS + 0x2000, 65),
            "the submission ring of lane 0 is not in whole pages of the window",
        ),
        (
            ring(RINGS, RINGS + 0x2010, 65),
            "the completion ring of lane 0 is not in whole pages of the window",
        ),
        (
            ring(MEMORY - 4096, RINGS, 65),
            "the submission ring of lane 0 is not in whole pages of the window",
        ),
        (
            ring(RINGS, MEMORY, 65),
            "the completion ring of lane 0 is not in whole pages of the window",
        ),
        (
            ring(0, RINGS, 65),
            "the submission ring of lane 0 is not in whole pages of the window",
        ),
        (
            ring(u64::MAX - 4095, RINGS, 65),
            "the submission ring of lane 0 is not in whole pages of the window",
        ),
    ];
    for (rings, part) in bad {
        let mut bench = Bench::new();
        bench.needs.lanes = 1;
        let mut n = bench.open();
        let said = words(n.create_lanes(&[rings]));
        assert!(said.contains(part), "{said}");
        assert_eq!((bench.seen().cc, bench.seen().violations), (0, 0));
    }
    let bench = Bench::new();
    let mut n = bench.open();
    assert!(
        words(n.create_lanes(&[rings(0), rings(1), rings(2)])).contains("2 lanes were needed, and 3 are to be created")
    );
    assert_eq!(bench.seen().cc & 1, 1);
}

#[test]
fn interrupts_are_asked_for_where_they_are_wanted() {
    let mut bench = Bench::new();
    bench.needs.interrupts = true;
    let mut n = bench.running();
    assert_eq!((bench.seen().completion[1].flags, bench.seen().masks), (3, 0));
    n.close().unwrap();
}
