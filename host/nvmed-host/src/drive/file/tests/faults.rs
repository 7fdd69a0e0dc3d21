//! What the kernel says, and what guests are told.

use super::*;

#[test]
fn errors_have_statuses() {
    use libc::{EDQUOT, EFAULT, EFBIG, EINVAL, EIO, ENOMEM, ENOSPC};
    let (mut rig, control) = fake();
    for forced in [0, FORCED] {
        for (opcode, call, error, status) in [
            (READ, Call::Read, EIO, 0x281),
            (READ, Call::Read, ENOMEM, 0x281),
            (READ, Call::Read, EINVAL, 0x281),
            (READ, Call::Read, EFAULT, 0x4004),
            (READ, Call::Read, ENOSPC, 0x281),
            (COMPARE, Call::Read, EIO, 0x281),
            (WRITE, Call::Write, EFAULT, 0x4004),
            (WRITE, Call::Write, ENOSPC, 0x81),
            (WRITE, Call::Write, EDQUOT, 0x81),
            (WRITE, Call::Write, EFBIG, 0x81),
            (ZEROES, Call::Zero, EIO, 0x280),
            (ZEROES, Call::Zero, ENOSPC, 0x81),
        ] {
            control.fail(call, Fault::Error(error));
            let says = format!("opcode {opcode}, error {error}, {forced:#x}");
            assert_eq!(rig.run(entry(opcode, DATA, 0, 5, 7 | forced)), status, "{says}");
            let next = if opcode == COMPARE { READ } else { opcode };
            assert_eq!(
                rig.run(entry(next, DATA, 0, 5, 7 | forced)),
                0,
                "{says}: the next is good"
            );
        }
    }
    control.fail(Call::Write, Fault::Error(EIO));
    assert_eq!(rig.run(entry(WRITE, DATA, 0, 5, 7)), 0x280);
    assert_eq!(rig.run(entry(WRITE, DATA, 0, 5, 7)), 0);
    rig.close().expect("nothing was lost");
}

/// A command of 8 KiB that comes so far and no further goes on from there: where it goes on, and with how much.
#[test]
fn short_reads_and_writes_go_on() {
    for (alignment, short, rest) in [
        (4, 512, 512),
        (4, 4096, 4096),
        (4, 4608, 4608),
        (4, 1000, 512),
        (4, 511, 0),
        (512, 1024, 1024),
        (4096, 4608, 4096),
        (4096, 512, 0),
        (4, 8191, 7680),
    ] {
        for (opcode, call) in [(WRITE, Call::Write), (READ, Call::Read)] {
            for forced in [0, FORCED] {
                let (mut rig, control) = fake_aligned(alignment);
                let content: Vec<u8> = (0..8192u32).map(|i| (i / 13) as u8).collect();
                rig.memory.put(DATA, &content);
                if opcode == READ {
                    assert_eq!(rig.run(entry(WRITE, DATA, DATA + 0x1000, 3, 15)), 0);
                    rig.memory.fill(DATA, 8192, 0);
                }
                control.asked();
                control.fail(call, Fault::Short(short));
                assert_eq!(rig.run(entry(opcode, DATA, DATA + 0x1000, 3, 15 | forced)), 0);
                assert!(rig.memory.get(DATA, 8192) == content && control.current(1536, 8192) == content);
                let asked = control.asked();
                let moves: Vec<(u64, u64)> = asked
                    .iter()
                    .filter(|it| it.call == call)
                    .map(|it| (it.from - 1536, it.bytes))
                    .collect();
                assert_eq!(moves, [(0, 8192), (rest, 8192 - rest)], "{alignment} {short} {asked:?}");
                if opcode == WRITE && forced != 0 {
                    assert!(control.durable(1536, 8192) == content);
                    assert!(asked.iter().all(|it| it.durable));
                }
            }
        }
    }
}

/// It ends where nothing moves any more: a Read tells that the file was cut off.
#[test]
fn what_comes_no_further_fails() {
    for (short, times) in [(0, 1), (100, 9)] {
        let (mut rig, control) = fake();
        (0..times).for_each(|_| control.fail(Call::Write, Fault::Short(short)));
        assert_eq!(rig.run(entry(WRITE, DATA, 0, 5, 7)), 0x280);
        assert_eq!(rig.run(entry(WRITE, DATA, 0, 5, 7)), 0);
        (0..times).for_each(|_| control.fail(Call::Read, Fault::Short(short)));
        assert_eq!(rig.run(entry(READ, DATA, 0, 5, 7)), 0x281);
        assert_eq!(rig.run(entry(WRITE, DATA, 0, 5, 7)), FOR_EVER);
        let said = rig.close().expect_err("cut off").to_string();
        assert!(said.contains("a ring for tests: the image was cut off"), "{said}");
    }
}

#[test]
fn what_was_interrupted_is_made_again_some_times() {
    for error in [libc::EINTR, libc::EAGAIN] {
        for (opcode, call, failed) in [
            (WRITE, Call::Write, 0x280),
            (READ, Call::Read, 0x281),
            (ZEROES, Call::Zero, 0x280),
            (FLUSH, Call::Sync, FOR_EVER),
        ] {
            let (mut rig, control) = fake();
            let fail = |times| (0..times).for_each(|_| control.fail(call, Fault::Error(error)));
            fail(8);
            assert_eq!(rig.run(entry(opcode, DATA, 0, 5, 7)), 0, "opcode {opcode}");
            assert_eq!(control.asked().len(), 9);
            fail(9);
            assert_eq!(rig.run(entry(opcode, DATA, 0, 5, 7)), failed, "opcode {opcode}");
            assert_eq!(control.asked().len(), 9);
        }
    }
}

#[test]
fn a_flush_that_fails_ends_writes_and_not_reads() {
    for error in [libc::EIO, libc::ENOSPC] {
        let (mut rig, control) = fake();
        assert_eq!(rig.run(entry(WRITE, DATA, 0, 0, 0)), 0);
        control.fail(Call::Sync, Fault::Error(error));
        for _ in 0..2 {
            assert_eq!(rig.run(entry(FLUSH, 0, 0, 0, 0)), FOR_EVER);
            assert_eq!(rig.run(entry(WRITE, DATA, 0, 3, FORCED)), FOR_EVER);
            assert_eq!(rig.run(entry(WRITE, DATA, 0, 3, 0)), FOR_EVER);
            assert_eq!(rig.run(entry(ZEROES, DATA, 0, 3, 0)), FOR_EVER);
            assert_eq!(rig.run(entry(READ, DATA, 0, 0, 0)), 0);
            assert_eq!(rig.run(entry(READ, DATA, 0, 0, FORCED)), 0);
            assert_eq!(rig.run(entry(COMPARE, DATA, 0, 0, 0)), 0);
        }
        assert!(rig.drive.check().is_ok());
        let words = rig.drive.describe();
        assert_eq!(words, "1024 blocks in a ring for tests; it takes no more writes");
        let said = rig.close().expect_err("writes were lost").to_string();
        let begin = "the drive has lost writes, look at its image: a ring for tests: ";
        assert!(said.starts_with(begin), "{said}");
    }
}

/// By the error of a forced write nobody knows what was lost, and zeros that cannot be made durable are not said to be.
#[test]
fn forced_writes_that_fail_end_writes() {
    let (mut rig, control) = fake();
    control.fail(Call::Write, Fault::Error(libc::EIO));
    assert_eq!(rig.run(entry(WRITE, DATA, 0, 1, FORCED)), FOR_EVER);
    assert_eq!(rig.run(entry(WRITE, DATA, 0, 1, 0)), FOR_EVER);
    let (mut rig, control) = fake();
    control.fail(Call::Sync, Fault::Error(libc::EIO));
    assert_eq!(rig.run(entry(ZEROES, DATA, 0, 1, FORCED)), FOR_EVER);
    // one that is under way when something else was lost
    let (mut rig, control) = fake();
    control.fail(Call::Write, Fault::Held);
    let write = rig.put(&entry(WRITE, DATA, 0, 1, FORCED));
    control.fail(Call::Sync, Fault::Held);
    let flush = rig.put(&entry(FLUSH, 0, 0, 0, 0));
    rig.ring();
    rig.drive.work(AMPLE).expect("work");
    control.fail(Call::Write, Fault::Error(libc::EIO));
    assert_eq!(rig.run(entry(WRITE, DATA, 0, 9, FORCED)), FOR_EVER);
    control.release();
    let mut seen = [rig.wait(), rig.wait()];
    seen.sort_unstable();
    assert_eq!(seen, [(write, FOR_EVER), (flush, FOR_EVER)]);
}

#[test]
fn a_device_that_is_gone_is_not_ready_and_takes_no_more_writes() {
    for error in [libc::ENODEV, libc::ENXIO, libc::ESHUTDOWN] {
        for (opcode, call, forced) in [
            (READ, Call::Read, 0),
            (COMPARE, Call::Read, 0),
            (WRITE, Call::Write, 0),
            (WRITE, Call::Write, FORCED),
            (ZEROES, Call::Zero, 0),
        ] {
            let (mut rig, control) = fake();
            control.fail(call, Fault::Error(error));
            assert_eq!(rig.run(entry(opcode, DATA, 0, 1, forced)), 0x4082, "opcode {opcode}");
            for opcode in [WRITE, ZEROES, FLUSH] {
                assert_eq!(rig.run(entry(opcode, DATA, 0, 1, 0)), FOR_EVER);
            }
            control.fail(Call::Read, Fault::Error(error));
            assert_eq!(rig.run(entry(READ, DATA, 0, 1, 0)), 0x4082);
            let said = rig.close().expect_err("writes were lost").to_string();
            assert!(said.contains("the device is gone"), "{said}");
        }
    }
}

/// What a file system lacks is done in another way, which is remembered.
#[test]
fn zeros_are_made_as_the_file_system_can() {
    use Zeroing::{GivingBack, InPlace, Writing};
    for (deallocate, refusals, ways) in [
        (DEALLOCATE, 0, vec![GivingBack]),
        (DEALLOCATE, 1, vec![GivingBack, InPlace]),
        (DEALLOCATE, 2, vec![GivingBack, InPlace, Writing, Writing]),
        (0, 0, vec![InPlace]),
        (0, 1, vec![InPlace, Writing, Writing]),
    ] {
        let (mut rig, control) = fake();
        rig.memory.fill(DATA, 0x2000, 0x77);
        for block in [0, 100, 200] {
            assert_eq!(rig.run(entry(WRITE, DATA, DATA + 0x1000, block, 15)), 0);
        }
        control.asked();
        (0..refusals).for_each(|_| control.fail(Call::Zero, Fault::Error(libc::EOPNOTSUPP)));
        assert_eq!(rig.run(entry(ZEROES, 0, 0, 1, 198 | deallocate)), 0);
        let said = |asked: Vec<Asked>| asked.iter().filter_map(|it| it.by).collect::<Vec<_>>();
        assert_eq!(said(control.asked()), ways, "{deallocate:#x} {refusals}");
        let all = control.current(0, 216 * 512);
        assert!(all[..512] == [0x77; 512] && all[512..200 * 512].iter().all(|byte| *byte == 0));
        assert!(all[200 * 512..] == [0x77; 16 * 512]);
        // The next one begins with the way that was found.
        assert_eq!(rig.run(entry(ZEROES, 0, 0, 200, deallocate)), 0);
        assert_eq!(said(control.asked()), [*ways.last().expect("a way")]);
        rig.close().expect("a clean end");
    }
}

/// Zeros that are written may come only so far, too; and a file system that takes none at all fails.
#[test]
fn zeros_that_are_written_go_on() {
    let (mut rig, control) = fake();
    control.fail(Call::Zero, Fault::Error(libc::EOPNOTSUPP));
    control.fail(Call::Zero, Fault::Short(1000));
    control.fail(Call::Zero, Fault::Short(100));
    rig.memory.fill(DATA, 0x2000, 0x77);
    assert_eq!(rig.run(entry(WRITE, DATA, DATA + 0x1000, 8, 15)), 0);
    control.asked();
    assert_eq!(rig.run(entry(ZEROES, 0, 0, 8, 15)), 0);
    let asked: Vec<(u64, u64)> = control.asked().iter().map(|it| (it.from - 4096, it.bytes)).collect();
    assert_eq!(asked, [(0, 8192), (0, 8192), (512, 7680), (512, 7680)]);
    assert_eq!(control.current(4096, 8192), [0; 8192]);
    control.fail(Call::Zero, Fault::Short(0));
    assert_eq!(rig.run(entry(ZEROES, 0, 0, 8, 15)), 0x280);
    (0..9).for_each(|_| control.fail(Call::Zero, Fault::Short(1)));
    assert_eq!(rig.run(entry(ZEROES, 0, 0, 8, 15)), 0x280);
    rig.close().expect("nothing was lost");
}

/// Memory that goes while a command waits is an error of that command, and of no other.
#[test]
fn memory_that_is_gone_is_an_error() {
    let (mut rig, control) = fake();
    rig.memory.fill(HIGH, 0x2000, 0x55);
    control.fail(Call::Write, Fault::Short(512));
    control.fail(Call::Write, Fault::Held);
    let write = rig.put(&entry(WRITE, HIGH, 0, 0, 7));
    let read = rig.put(&entry(READ, HIGH + 0x100, HIGH + 0x1000, 8, 7));
    control.fail(Call::Read, Fault::Held);
    rig.ring();
    for _ in 0..3 {
        rig.drive.work(AMPLE).expect("work");
    }
    rig.memory.keep(&[(LOW, 0x80000)]);
    control.release();
    let mut seen = [rig.wait(), rig.wait()];
    seen.sort_unstable();
    assert_eq!(seen, [(write, 0x4004), (read, 0x4004)]);
    assert_eq!(rig.run(entry(WRITE, DATA, 0, 0, 7)), 0);
    rig.close().expect("nothing was lost");
}

#[test]
fn a_kernel_that_takes_nothing_is_asked_again_and_one_that_fails_ends_the_drive() {
    let (mut rig, control) = fake();
    control.busy(true);
    control.fail(Call::Read, Fault::Held);
    rig.put(&entry(READ, DATA, 0, 0, 0));
    rig.ring();
    for _ in 0..3 {
        assert!(rig.drive.work(AMPLE).expect("work").more);
    }
    control.busy(false);
    assert!(!rig.drive.work(AMPLE).expect("work").more);
    control.break_it();
    let error = rig.drive.work(AMPLE).expect_err("it is broken").to_string();
    assert!(error.contains("the kernel takes no more operations"), "{error}");
}

#[test]
fn a_file_that_was_cut_off_is_found_once_a_second() {
    let (mut rig, control) = fake();
    control.cut(BLOCKS * 512);
    rig.drive.check().expect("it answers");
    assert_eq!(rig.run(entry(WRITE, DATA, 0, 0, 7)), 0);
    control.cut(BLOCKS * 512 - 1);
    rig.drive.check().expect("it still answers");
    assert_eq!(rig.run(entry(WRITE, DATA, 0, 0, 7)), FOR_EVER);
    assert_eq!(rig.run(entry(READ, DATA, 0, 0, 7)), 0);
    let said = rig.close().expect_err("cut off").to_string();
    assert!(said.contains("it has 524287 bytes of the drive's 524288"), "{said}");
}

#[test]
fn an_end_without_all_operations_or_without_a_sync_says_so() {
    let (mut rig, control) = fake();
    control.fail(Call::Write, Fault::Held);
    rig.put(&entry(WRITE, DATA, 0, 0, 7));
    rig.ring();
    rig.drive.work(AMPLE).expect("work");
    let said = rig.close().expect_err("something is under way").to_string();
    assert!(said.contains("operations have not ended within 30s"), "{said}");
    let (rig, control) = fake();
    control.fail(Call::Sync, Fault::Error(libc::EIO));
    assert!(rig.close().is_err());
}

/// Whatever entries and lists say and the kernel answers, each command is completed once.
#[test]
fn random_commands_with_random_faults() {
    let mut random = Random::new(21);
    for alignment in [4, 512, 4096] {
        let (mut rig, control) = fake_aligned(alignment);
        survives_random_commands(&mut rig, &mut random, 10_000, |random| match random.below(120) {
            0 => control.fail(Call::Read, Fault::Error(libc::EIO)),
            1 => control.fail(Call::Write, Fault::Error(libc::ENOSPC)),
            2 => control.fail(Call::Zero, Fault::Error(libc::EIO)),
            3 => control.fail(Call::Write, Fault::Error(libc::EFAULT)),
            4 => control.fail(Call::Write, Fault::Short(random.below(9000) as u32 + 512)),
            5 => control.fail(Call::Read, Fault::Short(random.below(9000) as u32 + 512)),
            6 => control.fail(Call::Sync, Fault::Error(libc::EINTR)),
            7 => control.fail(Call::Zero, Fault::Error(libc::EAGAIN)),
            8 => control.room(1 + random.below(20) as usize),
            _ => {}
        });
        control.heal();
        rig.close().expect("a clean end");
    }
}
