//! What the kernel is given for each command.

use super::*;

fn asked(opcode: u8, dwords: [u32; 6], bytes: u64, from: From) -> Asked {
    Asked {
        opcode,
        dwords,
        bytes,
        from,
    }
}

/// Each command of a lane is one command of the drive's, with its dwords, on the command's own memory.
#[test]
fn each_command_is_the_drives_own() {
    let (mut rig, control) = fake();
    for i in 0..31 {
        rig.memory.put64(LIST + 8 * i, DATA + 0x2000 * (i + 1));
    }
    let high = 1 << 32 | 5;
    let data = [
        // opcode, PRP entries, dwords 10 and 11, dword 12; what is expected
        (WRITE, DATA, 0, 5, 7, 4096, From::Own(1)),
        (WRITE, DATA + 0x200, DATA + 0x3000, 5, 7 | FORCED, 4096, From::Own(2)),
        (WRITE, DATA, DATA + 0x1000, 0, 15, 8192, From::Own(1)),
        (READ, DATA + 0xe04, DATA + 0x3000, 1, 0, 512, From::Own(2)),
        (READ, DATA, LIST, 700, 255 | FORCED, 131_072, From::Own(32)),
        (READ, HIGH, 0, 0, 0, 512, From::Own(1)),
        (COMPARE, HIGH, 0, 0, 0, 512, From::Own(1)),
        (ZEROES, 0, 0, 16, 999, 0, From::Nowhere),
        (ZEROES, 0, 0, 16, 9 | DEALLOCATE | FORCED, 0, From::Nowhere),
        (RANGES, HIGH, 0, AD | 1, 0, 32, From::Own(1)),
        (RANGES, HIGH, 0, 3 << 32, 0, 16, From::Own(1)),
    ];
    for (opcode, prp1, prp2, first, d12, bytes, from) in data {
        rig.memory.put64(LIST + 8 * 31, DATA + 0x1000);
        if opcode == RANGES {
            put_range(&rig, 0, 3, 5);
            put_range(&rig, 1, 900, 100);
        }
        let status = rig.run(entry(opcode, prp1, prp2, first, d12));
        assert_eq!(status, 0, "opcode {opcode}");
        let dwords = [first as u32, (first >> 32) as u32, d12, 0, 0, 0];
        assert_eq!(control.asked(), [asked(opcode, dwords, bytes, from)]);
    }
    // a Flush of all namespaces is one of the drive's own
    for namespace in [1, u32::MAX] {
        let mut flush = entry(FLUSH, DATA, DATA, high, 77);
        flush.namespace = namespace;
        assert_eq!(rig.run(flush), 0);
        assert_eq!(control.asked(), [asked(FLUSH, [0; 6], 0, From::Nowhere)]);
    }
    rig.close().expect("a clean end");
    assert_eq!(
        control.asked(),
        [asked(FLUSH, [0; 6], 0, From::Nowhere)],
        "the last Flush"
    );
}

/// What is wrong is refused, and nobody is asked.
#[test]
fn what_is_refused_reaches_nobody() {
    let (mut rig, control) = fake();
    put_range(&rig, 0, BLOCKS - 1, 2);
    let mut others = entry(READ, DATA, 0, 0, 0);
    others.namespace = 7;
    let mut scattered = entry(READ, DATA, 0, 0, 0);
    scattered.flags = 0x40;
    for (wrong, status) in [
        (entry(0x0c, DATA, 0, 0, 0), 0x4001),
        (entry(READ, DATA, 0, 0, 256), 0x4002),
        (scattered, 0x4002),
        (entry(READ, 0x1000, 0, 0, 0), 0x4004),
        (entry(WRITE, HIGH + 0x1e00, 0x9a000, 0, 1), 0x4004),
        (entry(READ, u64::MAX - 3, 0, 0, 0), 0x4004),
        (others, 0x400b),
        (entry(READ, DATA + 2, 0, 0, 0), 0x4013),
        (entry(READ, DATA, 0, BLOCKS, 0), 0x4080),
        (entry(ZEROES, 0, 0, 1, 1023), 0x4080),
        (entry(READ, DATA, 0, u64::MAX, 0), 0x4080),
        (entry(RANGES, HIGH, 0, AD, 0), 0x4080),
        (entry(RANGES, HIGH + 0x1ff8, DATA + 0x800, AD | 1, 0), 0x4013),
    ] {
        assert_eq!(rig.run(wrong), status, "{wrong:?}");
        assert_eq!(control.asked(), []);
    }
}

/// Without a Compare the blocks are read into pages of the program's own, and nothing of the guest's is written.
#[test]
fn compare_by_read() {
    let (mut controller, namespace, limits) = all();
    controller.compare = false;
    let (mut rig, control) = fake_with((controller, namespace, limits));
    let content: Vec<u8> = (0..8192u32).map(|i| (i / 7) as u8).collect();
    rig.memory.put(DATA + 0x204, &content[..0xdfc]);
    rig.memory.put(DATA + 0x3000, &content[0xdfc..]);
    rig.memory.put64(LIST, DATA + 0x3000);
    rig.memory.put64(LIST + 8, DATA + 0x4000);
    let compare = entry(COMPARE, DATA + 0x204, LIST, 8, 15 | FORCED);
    assert_eq!(rig.run(compare), 0x285);
    assert_eq!(rig.run(entry(WRITE, DATA + 0x204, LIST, 8, 15)), 0);
    control.asked();
    assert_eq!(rig.run(compare), 0);
    assert_eq!(
        control.asked(),
        [asked(READ, [8, 0, 15 | FORCED, 0, 0, 0], 8192, From::Pages)]
    );
    for (place, byte) in [(DATA + 0x204, 0), (DATA + 0x3fff, 0x1fff - 0x204)] {
        rig.memory.fill(place, 1, !content[byte]);
        assert_eq!(rig.run(compare), 0x285, "{place:#x}");
        assert_eq!(rig.memory.get(place, 1), [!content[byte]]);
        rig.memory.fill(place, 1, content[byte]);
    }
    // the drive's status is that of the Compare
    control.fail(READ, Fault::Number(0x281));
    assert_eq!(rig.run(compare), 0x281);
    rig.memory.keep(&[(LOW, 0x10000), (LIST, 0x1000)]);
    assert_eq!(rig.run(compare), 0x4004);
    rig.close().expect("a clean end");
}

/// Blocks that are made zero, by which commands: the opcode, the first block, dword 12, and from where the zeros come.
fn made_zero(control: &Control) -> Vec<(u8, u32, u32, From)> {
    let asked = control.asked();
    asked
        .iter()
        .map(|it| (it.opcode, it.dwords[0], it.dwords[2], it.from))
        .collect()
}

#[test]
fn zeros_without_write_zeroes_are_written() {
    let (mut controller, namespace, limits) = all();
    controller.write_zeroes = false;
    let (mut rig, control) = fake_with((controller, namespace, limits));
    rig.memory.fill(DATA, 0x20000, 0x55);
    (0..32).for_each(|i| rig.memory.put64(LIST + 8 * i, DATA + 0x1000 * (i + 1)));
    for block in [0, 256, 512] {
        assert_eq!(rig.run(entry(WRITE, DATA, LIST, block, 255)), 0);
    }
    control.asked();
    assert_eq!(rig.run(entry(ZEROES, 0, 0, 1, 299 | FORCED | DEALLOCATE)), 0);
    let zeros = From::Zeros;
    let expected = [
        (WRITE, 1, 127 | FORCED, zeros),
        (WRITE, 129, 127 | FORCED, zeros),
        (WRITE, 257, 43 | FORCED, zeros),
    ];
    assert_eq!(made_zero(&control), expected);
    assert_eq!(control.disk(0, 512), [0x55; 512]);
    assert_eq!(control.disk(512, 300 * 512), vec![0; 300 * 512]);
    assert_eq!(control.disk(301 * 512, 512), [0x55; 512]);
    // an error ends it, and is the command's
    control.fail(WRITE, Fault::Lie(0));
    control.fail(WRITE, Fault::Number(0x4280));
    assert_eq!(rig.run(entry(ZEROES, 0, 0, 0, 299)), 0x4280);
    assert_eq!(made_zero(&control), [(WRITE, 0, 127, zeros), (WRITE, 128, 127, zeros)]);
    rig.close().expect("a clean end");
}

#[test]
fn a_write_zeroes_that_is_too_large_is_split() {
    let (controller, namespace, mut limits) = all();
    limits.write_zeroes_blocks = Some(128);
    let (mut rig, control) = fake_with((controller, namespace, limits));
    assert_eq!(rig.run(entry(ZEROES, 0, 0, 5, 127 | DEALLOCATE)), 0);
    let none = From::Nowhere;
    assert_eq!(made_zero(&control), [(ZEROES, 5, 127 | DEALLOCATE, none)]);
    assert_eq!(rig.run(entry(ZEROES, 0, 0, 5, 128 | DEALLOCATE)), 0);
    let expected = [(ZEROES, 5, 127 | DEALLOCATE, none), (ZEROES, 133, DEALLOCATE, none)];
    assert_eq!(made_zero(&control), expected);
    rig.close().expect("a clean end");
}

/// A drive whose deallocated blocks need not read as zeros makes them zero; ranges that meet or touch are one.
#[test]
fn deallocation_is_zeros() {
    for (deallocated_are_zeros, has_command, deallocates) in
        [(false, true, false), (false, true, true), (true, false, true)]
    {
        let (mut controller, mut namespace, limits) = all();
        namespace.deallocated_are_zeros = deallocated_are_zeros;
        namespace.zeroes_deallocate = deallocates;
        controller.deallocate = has_command;
        let (mut rig, control) = fake_with((controller, namespace, limits));
        for (i, (first, blocks)) in [(50, 10), (0, 8), (8, 8), (55, 20), (700, 0)].into_iter().enumerate() {
            put_range(&rig, i as u64, first, blocks);
        }
        assert_eq!(rig.run(entry(RANGES, HIGH, 0, AD | 4, 0)), 0);
        let bit = if deallocates { DEALLOCATE } else { 0 };
        let none = From::Nowhere;
        assert_eq!(
            made_zero(&control),
            [(ZEROES, 0, 15 | bit, none), (ZEROES, 50, 24 | bit, none)]
        );
        // what only advises does nothing
        assert_eq!(rig.run(entry(RANGES, HIGH, 0, 3 << 32, 0)), 0);
        assert_eq!(made_zero(&control), []);
        rig.close().expect("a clean end");
    }
}

/// A Write Zeroes does not ask for a deallocation that the drive does not have.
#[test]
fn zeroes_without_deallocation() {
    let (controller, mut namespace, limits) = all();
    namespace.zeroes_deallocate = false;
    let (mut rig, control) = fake_with((controller, namespace, limits));
    assert_eq!(rig.run(entry(ZEROES, 0, 0, 5, 7 | DEALLOCATE | FORCED)), 0);
    assert_eq!(made_zero(&control), [(ZEROES, 5, 7 | FORCED, From::Nowhere)]);
}

/// A Dataset Management beyond the drive's limits goes by Write Zeroes.
#[test]
fn limits_of_dataset_management() {
    for (ranges, range_blocks, blocks, is_own) in [
        (None, None, None, true),
        (Some(2), Some(30), Some(50), true),
        (Some(1), None, None, false),
        (None, Some(29), None, false),
        (None, None, Some(49), false),
    ] {
        let (controller, namespace, mut limits) = all();
        (limits.ranges, limits.range_blocks, limits.dataset_blocks) = (ranges, range_blocks, blocks);
        let (mut rig, control) = fake_with((controller, namespace, limits));
        put_range(&rig, 0, 100, 20);
        put_range(&rig, 1, 200, 30);
        assert_eq!(rig.run(entry(RANGES, HIGH, 0, AD | 1, 0)), 0);
        let opcodes: Vec<u8> = control.asked().iter().map(|it| it.opcode).collect();
        let expected = if is_own { vec![RANGES] } else { vec![ZEROES, ZEROES] };
        assert_eq!(opcodes, expected, "{ranges:?} {range_blocks:?} {blocks:?}");
    }
}

/// Whatever the drive lacks, commands do what they do on any drive.
#[test]
fn random_commands_do_what_a_plain_model_does() {
    for (seed, pages) in (1..).zip(lacking()) {
        let (rig, _) = fake_with(pages);
        does_what_a_plain_model_does(rig, &mut Random::new(seed), 200, 4);
    }
}

/// What is made zero piece by piece has its turn with others of its kind, and holds up nobody else.
#[test]
fn one_piece_at_a_time() {
    let (mut controller, namespace, limits) = all();
    controller.write_zeroes = false;
    let (mut rig, control) = fake_with((controller, namespace, limits));
    control.fail(WRITE, Fault::Held);
    let long = rig.put(&entry(ZEROES, 0, 0, 0, 399));
    let short = rig.put(&entry(ZEROES, 0, 0, 500, 7));
    rig.ring();
    for _ in 0..3 {
        rig.drive.work(AMPLE).expect("work");
    }
    assert_eq!(made_zero(&control), [(WRITE, 0, 127, From::Zeros)]);
    for opcode in [READ, FLUSH, COMPARE, WRITE] {
        let status = rig.run(entry(opcode, DATA, 0, 900, 7));
        assert!(status == 0 || opcode == COMPARE && status == 0x285);
    }
    control.asked();
    control.release();
    assert_eq!(rig.wait(), (short, 0));
    assert_eq!(rig.wait(), (long, 0));
    let places: Vec<u32> = made_zero(&control).iter().map(|it| it.1).collect();
    assert_eq!(places, [500, 128, 256, 384]);
}

/// Where there is no room commands wait in their rings, and each is carried out.
#[test]
fn all_are_carried_out_where_there_is_little_room() {
    for room in [1, 2, 7] {
        let (mut rig, control) = fake_with(lacking().remove(31));
        control.room(room);
        control.fail(WRITE, Fault::Held);
        let mut commands: Vec<u16> = (0..40u64)
            .map(|i| match i % 4 {
                0 => rig.put(&entry(WRITE, DATA, 0, 8 * i, 7)),
                1 => rig.put(&entry(COMPARE, HIGH, 0, 900, 0)),
                2 => rig.put(&entry(ZEROES, 0, 0, 8 * i, 7 | FORCED)),
                _ => rig.put(&entry(FLUSH, 0, 0, 0, 0)),
            })
            .collect();
        rig.ring();
        rig.drive.work(AMPLE).expect("work");
        control.release();
        while !commands.is_empty() {
            let (command, status) = rig.wait();
            assert!(status == 0 || status == 0x285);
            let before = commands.len();
            commands.retain(|other| *other != command);
            assert_eq!(commands.len(), before - 1);
        }
        rig.close().expect("a clean end");
    }
}

/// A turn begins no more than its budget, and says that there is more.
#[test]
fn a_turn_keeps_to_its_budget() {
    let (mut rig, control) = fake();
    (0..10).for_each(|i| {
        rig.put(&entry(READ, DATA, DATA + 0x1000, 16 * i, 15));
    });
    rig.ring();
    let budget = |commands| Budget {
        commands,
        bytes: 1 << 20,
    };
    assert!(rig.drive.work(budget(2)).expect("work").more);
    assert_eq!(control.asked().len(), 2);
    while rig.drive.work(budget(3)).expect("work").more {}
    assert_eq!(control.asked().len(), 8);
}
