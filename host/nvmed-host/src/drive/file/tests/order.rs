//! In which order operations are asked for, which of them wait for others, and what is durable when.

use super::*;

/// Kinds of operations that were asked for.
fn calls(control: &Control) -> Vec<Call> {
    control.asked().iter().map(|it| it.call).collect()
}

/// What the device can reach goes by the command's own pages, all else by pages of the program's own.
#[test]
fn nothing_is_copied_that_the_device_can_reach() {
    let scattered = |rig: &FakeRig| (0..31).for_each(|i| rig.memory.put64(LIST + 8 * i, DATA + 0x2000 * (i + 1)));
    // alignment, PRP entry 1, blocks less 1, whether pages of the program's own are needed
    for (alignment, prp1, blocks, by_pages) in [
        (4, DATA, 255, false),
        (4, DATA + 0x200, 15, false),
        (4, DATA + 4, 0, false),
        (4, DATA + 0x204, 15, true),
        (4, DATA + 0xe04, 0, true),
        (512, DATA, 255, false),
        (512, DATA + 0x200, 15, false),
        (512, DATA + 4, 0, true),
        (4096, DATA, 255, false),
        (4096, DATA + 0x200, 0, true),
    ] {
        let (mut rig, control) = fake_aligned(alignment);
        scattered(&rig);
        rig.memory.put64(LIST + 8 * 31, DATA);
        let is_long = (prp1 & 0xfff) + 512 * (u64::from(blocks) + 1) > 0x2000;
        let prp2 = if is_long { LIST } else { DATA + 0x3000 };
        for (opcode, call) in [(WRITE, Call::Write), (READ, Call::Read)] {
            assert_eq!(rig.run(entry(opcode, prp1, prp2, 0, blocks)), 0);
            let asked = control.asked();
            assert_eq!((asked.len(), asked[0].call), (1, call));
            assert_eq!(asked[0].by_pages, by_pages, "{alignment} {prp1:#x} {blocks}");
        }
        assert_eq!(rig.run(entry(COMPARE, prp1, prp2, 0, blocks)), 0);
        assert!(control.asked()[0].by_pages);
    }
}

/// A Flush comes after what was completed; those that come while one is under way share the next.
#[test]
fn flushes_share_a_sync() {
    let (mut rig, control) = fake();
    assert_eq!(rig.run(entry(WRITE, DATA, 0, 0, 0)), 0);
    control.fail(Call::Sync, Fault::Held);
    let first = rig.put(&entry(FLUSH, 0, 0, 0, 0));
    rig.ring();
    rig.drive.work(AMPLE).expect("work");
    assert_eq!(calls(&control), [Call::Write, Call::Sync]);
    // Nobody else waits for it, and what is completed meanwhile is not the first Flush's.
    for opcode in [WRITE, COMPARE, READ, ZEROES] {
        assert_eq!(rig.run(entry(opcode, DATA, 0, 8, 7)), 0);
    }
    let more = [rig.put(&entry(FLUSH, 0, 0, 0, 0)), rig.put(&entry(FLUSH, 0, 0, 0, 0))];
    rig.ring();
    rig.drive.work(AMPLE).expect("work");
    assert_eq!(rig.reap(), None);
    assert_eq!(calls(&control), [Call::Write, Call::Read, Call::Read, Call::Zero]);
    control.release();
    assert_eq!(rig.wait(), (first, 0));
    let mut seen = [rig.wait(), rig.wait()];
    seen.sort_unstable();
    assert_eq!(seen, [(more[0], 0), (more[1], 0)]);
    assert_eq!(calls(&control), [Call::Sync]);
    rig.close().expect("a clean end");
}

/// A forced Read, or Compare, makes its blocks durable first; a forced Write is one operation.
#[test]
fn forced_commands_are_durable() {
    let (mut rig, control) = fake();
    rig.memory.fill(DATA, 4096, 0x5a);
    assert_eq!(rig.run(entry(WRITE, DATA, 0, 0, 7)), 0);
    assert_eq!(control.durable(0, 4096), [0; 4096]);
    assert_eq!(rig.run(entry(READ, DATA, 0, 0, 7 | FORCED)), 0);
    assert_eq!(control.durable(0, 4096), [0x5a; 4096]);
    assert_eq!(rig.run(entry(COMPARE, DATA, 0, 0, 7 | FORCED)), 0);
    assert_eq!(rig.run(entry(WRITE, DATA, 0, 8, 7 | FORCED)), 0);
    assert_eq!(control.durable(4096, 4096), [0x5a; 4096]);
    let asked = [Call::Write, Call::Sync, Call::Read, Call::Sync, Call::Read, Call::Write];
    assert_eq!(calls(&control), asked);
    assert_eq!(rig.run(entry(ZEROES, 0, 0, 0, 15 | FORCED)), 0);
    assert_eq!(control.durable(0, 8192), [0; 8192]);
    assert_eq!(calls(&control), [Call::Zero, Call::Sync]);
    rig.close().expect("a clean end");
}

/// Ranges that meet or touch are one; one piece is under way at a time, and nobody else waits for it.
#[test]
fn ranges_are_merged_and_made_zero_one_after_another() {
    let (mut rig, control) = fake();
    for (i, (first, blocks)) in [(50, 10), (0, 8), (8, 8), (55, 20), (700, 0)].into_iter().enumerate() {
        put_range(&rig, i as u64, first, blocks);
    }
    control.fail(Call::Zero, Fault::Held);
    let ranges = rig.put(&entry(9, HIGH, 0, 4 << 32 | 4, 0));
    let zeros = rig.put(&entry(ZEROES, 0, 0, 500, 7));
    rig.ring();
    for _ in 0..3 {
        rig.drive.work(AMPLE).expect("work");
    }
    assert_eq!(control.asked().len(), 1);
    for opcode in [WRITE, READ, FLUSH, COMPARE] {
        assert_eq!(rig.run(entry(opcode, DATA, 0, 8, 7)), 0);
    }
    control.asked();
    control.release();
    let mut seen = [rig.wait(), rig.wait()];
    seen.sort_unstable();
    assert_eq!(seen, [(ranges, 0), (zeros, 0)]);
    let asked: Vec<(u64, u64)> = control
        .asked()
        .iter()
        .map(|it| (it.from / 512, it.bytes / 512))
        .collect();
    // The first range was held; the other command has its turn before the next one.
    assert_eq!(asked, [(500, 8), (50, 25)]);
    rig.close().expect("a clean end");
}

/// What only advises does nothing.
#[test]
fn advice_is_no_operation() {
    let (mut rig, control) = fake();
    put_range(&rig, 0, 0, 8);
    assert_eq!(rig.run(entry(9, HIGH, 0, 0, 0)), 0);
    assert_eq!(calls(&control), []);
}

/// Where there is no room commands wait in their rings, and each is carried out.
#[test]
fn all_are_carried_out_where_there_is_little_room() {
    for room in [1, 2, 7] {
        let (mut rig, control) = fake();
        control.room(room);
        control.fail(Call::Write, Fault::Held);
        let mut commands: Vec<u16> = (0..40u64)
            .map(|i| match i % 4 {
                0 => rig.put(&entry(WRITE, DATA, 0, 8 * i, 7)),
                1 => rig.put(&entry(READ, DATA + 0x1000, 0, 8 * i, 7 | FORCED)),
                2 => rig.put(&entry(ZEROES, 0, 0, 8 * i, 7 | FORCED)),
                _ => rig.put(&entry(FLUSH, 0, 0, 0, 0)),
            })
            .collect();
        rig.ring();
        rig.drive.work(AMPLE).expect("work");
        control.release();
        while !commands.is_empty() {
            let (command, status) = rig.wait();
            assert_eq!(status, 0);
            let before = commands.len();
            commands.retain(|other| *other != command);
            assert_eq!(commands.len(), before - 1);
        }
        rig.close().expect("a clean end");
    }
}

/// A turn begins no more than its budget, and says that there is more.
#[test]
fn a_turn_keeps_to_its_budget() {
    let (mut rig, control) = fake();
    for i in 0..10 {
        rig.put(&entry(READ, DATA, DATA + 0x1000, 16 * i, 15));
    }
    rig.ring();
    let budget = |commands, bytes| Budget { commands, bytes };
    assert!(rig.drive.work(budget(2, 1 << 20)).expect("work").more);
    assert_eq!(calls(&control).len(), 2);
    assert!(rig.drive.work(budget(9, 8193)).expect("work").more);
    assert_eq!(calls(&control).len(), 2);
    while rig.drive.work(budget(3, 1 << 20)).expect("work").more {}
    assert_eq!(calls(&control).len(), 6);
}

/// Commands that are outstanding together on the same blocks end in any order; what is left is what one of them wrote.
#[test]
fn overlapping_commands_leave_what_one_of_them_wrote() {
    let mut random = Random::new(8);
    let (mut rig, control) = fake();
    for round in 0..500u64 {
        let count = 2 + random.below(6);
        for i in 0..count {
            rig.memory.fill(DATA + 0x1000 * i, 4096, (round * 8 + i) as u8);
            if random.below(3) == 0 {
                control.fail(Call::Write, Fault::Short(512 * (1 + random.below(7) as u32)));
            }
            let forced = if random.below(2) == 0 { FORCED } else { 0 };
            rig.put(&entry(WRITE, DATA + 0x1000 * i, 0, 40, 7 | forced));
        }
        rig.ring();
        (0..count).for_each(|_| assert_eq!(rig.wait().1, 0));
        let content = control.current(40 * 512, 4096);
        for block in content.chunks(512) {
            let written = (0..count).any(|i| block == [(round * 8 + i) as u8; 512]);
            assert!(written, "round {round}");
        }
        control.heal();
    }
    rig.close().expect("a clean end");
}

/// Whatever is outstanding: what was completed before a Flush came, and what was forced, is durable once that is completed.
#[test]
fn what_was_flushed_or_forced_is_durable() {
    const PLACES: u64 = 64;
    let mut random = Random::new(3);
    let (mut rig, control) = fake();
    // Of each place: the version that was completed last, and that which is durable at least.
    let (mut completed, mut floor) = ([0u8; PLACES as usize], [0u8; PLACES as usize]);
    let mut outstanding: Vec<(u16, Entry, [u8; PLACES as usize])> = Vec::new();
    for round in 0..4000u32 {
        let place = random.below(PLACES);
        let is_busy = outstanding
            .iter()
            .any(|(_, it, _)| it.opcode == WRITE && it.first == place);
        let new = match random.below(10) {
            0 => Some(entry(FLUSH, 0, 0, 0, 0)),
            1..=6 if !is_busy => {
                let forced = if random.below(4) == 0 { FORCED } else { 0 };
                rig.memory
                    .fill(DATA + 0x1000 * place, 512, completed[place as usize].wrapping_add(1));
                Some(entry(WRITE, DATA + 0x1000 * place, 0, place, forced))
            }
            _ => None,
        };
        if let Some(new) = new.filter(|_| outstanding.len() < 50) {
            match random.below(20) {
                0 => control.fail(Call::Write, Fault::Held),
                1 => control.fail(Call::Sync, Fault::Held),
                _ => {}
            }
            outstanding.push((rig.put(&new), new, completed));
            rig.ring();
        }
        if random.below(10) == 0 || outstanding.len() > 45 {
            control.release();
        }
        rig.drive.work(AMPLE).expect("work");
        while let Some((command, status)) = rig.reap() {
            assert_eq!(status, 0);
            let at = outstanding.iter().position(|(other, _, _)| *other == command);
            let (_, ended, before) = outstanding.swap_remove(at.expect("a command that is outstanding"));
            if ended.opcode == WRITE {
                let place = ended.first as usize;
                completed[place] = completed[place].wrapping_add(1);
                if ended.d12 & FORCED != 0 {
                    floor[place] = completed[place];
                }
            } else {
                for (place, version) in before.into_iter().enumerate() {
                    if completed[place].wrapping_sub(version) < completed[place].wrapping_sub(floor[place]) {
                        floor[place] = version;
                    }
                }
            }
        }
        for place in 0..PLACES as usize {
            let there = control.durable(512 * place, 1)[0];
            // It may be newer: up to one version that is not completed.
            let newest = completed[place].wrapping_add(1);
            let is_durable = newest.wrapping_sub(there) <= newest.wrapping_sub(floor[place]);
            assert!(
                is_durable,
                "round {round}: place {place} has {there} and {} was durable",
                floor[place]
            );
        }
    }
}
