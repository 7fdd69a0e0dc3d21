//! What the kernel and the drive say, and what guests are told.

use super::*;

const ALL: [u8; 6] = [READ, WRITE, COMPARE, ZEROES, RANGES, FLUSH];

/// A command that is good on any drive. Its blocks are zeros, and so is what it compares with.
fn good(rig: &FakeRig, opcode: u8) -> Entry {
    rig.memory.fill(DATA, 4096, 0);
    put_range(rig, 0, 5, 8);
    match opcode {
        RANGES => entry(opcode, HIGH, 0, AD, 0),
        FLUSH => entry(opcode, 0, 0, 0, 0),
        _ => entry(opcode, DATA, 0, 5, 7),
    }
}

#[test]
fn errors_of_the_kernel_have_statuses() {
    use libc::{EACCES, EFAULT, EINTR, EINVAL, EIO, ENOMEM, EPERM};
    let (mut rig, control) = fake();
    for opcode in ALL {
        for (error, status) in [
            (EFAULT, 0x4004),
            (EINTR, 6),
            (EIO, 6),
            (ENOMEM, 6),
            (EINVAL, 6),
            (EACCES, 0x4015),
            (EPERM, 0x4015),
        ] {
            control.fail(opcode, Fault::Error(error));
            let command = good(&rig, opcode);
            assert_eq!(rig.run(command), status, "opcode {opcode}, error {error}");
            assert_eq!(control.asked().len(), 1, "it is made once");
            assert_eq!(rig.run(command), 0, "opcode {opcode}, error {error}: the next is good");
            control.asked();
        }
    }
    rig.drive.check().expect("it works");
    rig.close().expect("nothing was lost");
}

/// The drive's status is the guest's, and the next command is made as before.
#[test]
fn statuses_are_the_drives() {
    let (mut rig, control) = fake();
    for opcode in ALL {
        for (said, status) in [
            (0x281, 0x281),
            (0x4280, 0x4280),
            (0x08, 6),
            (0x2083, 0x83),
            (0x371, 6),
            (0xffff, 6),
            (u32::MAX, 6),
        ] {
            control.fail(opcode, Fault::Number(said));
            let command = good(&rig, opcode);
            assert_eq!(rig.run(command), status, "opcode {opcode}, {said:#x}");
            assert_eq!(rig.run(command), 0);
        }
    }
    rig.close().expect("nothing was lost");
}

#[test]
fn what_was_not_made_is_made_again_some_times() {
    for pages in [all(), lacking().remove(31)] {
        let (mut rig, control) = fake_with(pages);
        for opcode in ALL {
            let command = good(&rig, opcode);
            rig.run(command);
            // the command of the drive's that it begins with
            let made = control.asked()[0].opcode;
            let fail = |times| (0..times).for_each(|_| control.fail(made, Fault::Error(libc::EAGAIN)));
            fail(8);
            assert_eq!(rig.run(command), 0, "opcode {opcode}");
            assert_eq!(control.asked().len(), 9);
            fail(9);
            assert_eq!(rig.run(command), 6, "opcode {opcode}");
            assert_eq!(control.asked().len(), 9);
        }
        rig.close().expect("nothing was lost");
    }
}

#[test]
fn a_device_that_is_gone_is_not_ready_and_takes_no_more_writes() {
    for error in [libc::ENODEV, libc::ENXIO, libc::ESHUTDOWN] {
        for opcode in ALL {
            let (mut rig, control) = fake();
            let command = good(&rig, opcode);
            control.fail(opcode, Fault::Error(error));
            assert_eq!(rig.run(command), 0x4082, "opcode {opcode}");
            for opcode in [WRITE, ZEROES, RANGES, FLUSH] {
                let command = good(&rig, opcode);
                assert_eq!(rig.run(command), FOR_EVER);
            }
            control.fail(READ, Fault::Error(error));
            let command = good(&rig, READ);
            assert_eq!(rig.run(command), 0x4082);
            rig.drive.check().expect("it still answers");
            let words = rig.drive.describe();
            assert_eq!(words, "a namespace for tests; it takes no more writes");
            let said = rig.close().expect_err("writes were lost").to_string();
            assert!(said.contains("a namespace for tests: the device is gone: "), "{said}");
        }
    }
}

/// Zeros that are made piece by piece, or wait for their turn, when the device goes.
#[test]
fn a_device_that_goes_ends_what_waits() {
    let (mut rig, control) = fake_with(lacking().remove(2));
    control.fail(WRITE, Fault::Held);
    control.fail(WRITE, Fault::Error(libc::ENODEV));
    rig.put(&entry(ZEROES, 0, 0, 0, 255));
    rig.put(&entry(ZEROES, 0, 0, 300, 255));
    rig.put(&entry(ZEROES, 0, 0, 600, 255));
    rig.ring();
    rig.drive.work(AMPLE).expect("work");
    control.release();
    let mut statuses = [rig.wait().1, rig.wait().1, rig.wait().1];
    statuses.sort_unstable();
    assert_eq!(statuses, [0x4082, FOR_EVER, FOR_EVER]);
}

/// Memory that goes while a command waits is an error of that command, and of no other.
#[test]
fn memory_that_is_gone_is_an_error() {
    let (mut rig, control) = fake();
    control.fail(WRITE, Fault::Error(libc::EAGAIN));
    let write = rig.put(&entry(WRITE, HIGH, 0, 0, 7));
    rig.ring();
    rig.drive.work(AMPLE).expect("work");
    rig.memory.keep(&[(LOW, 0x80000)]);
    assert_eq!(rig.wait(), (write, 0x4004));
    assert_eq!(rig.run(entry(WRITE, DATA, 0, 0, 7)), 0);
    rig.close().expect("nothing was lost");
}

#[test]
fn a_kernel_that_takes_nothing_is_asked_again_and_one_that_fails_ends_the_drive() {
    let (mut rig, control) = fake();
    control.busy(true);
    control.fail(READ, Fault::Held);
    rig.put(&entry(READ, DATA, 0, 0, 0));
    rig.ring();
    for _ in 0..3 {
        assert!(rig.drive.work(AMPLE).expect("work").more);
    }
    control.busy(false);
    assert!(!rig.drive.work(AMPLE).expect("work").more);
    control.break_it();
    let error = rig.drive.work(AMPLE).expect_err("it is broken").to_string();
    assert!(error.contains("the kernel takes no more commands"), "{error}");
}

#[test]
fn a_namespace_that_changes_is_found_once_a_second() {
    for (blocks, words) in [
        (0, "the device is gone"),
        (BLOCKS - 1, "it has 1023 blocks of the drive's 1024"),
        (u64::MAX, "it cannot be looked at"),
    ] {
        let (mut rig, control) = fake();
        control.resize(BLOCKS);
        rig.drive.check().expect("it answers");
        control.resize(BLOCKS + 1);
        rig.drive.check().expect("it answers");
        assert_eq!(rig.run(entry(WRITE, DATA, 0, 0, 7)), 0);
        control.resize(blocks);
        rig.drive.check().expect("it still answers");
        assert_eq!(rig.run(entry(WRITE, DATA, 0, 0, 7)), FOR_EVER);
        assert_eq!(rig.run(entry(READ, DATA, 0, 0, 7)), 0);
        // an error of a device that is gone is nothing that may be tried again
        control.fail(READ, Fault::Error(libc::EINVAL));
        let expected = if blocks == 0 { 0x4082 } else { 6 };
        assert_eq!(rig.run(entry(READ, DATA, 0, 0, 7)), expected);
        let said = rig.close().expect_err("it changed").to_string();
        assert!(said.contains(words), "{said}");
    }
}

#[test]
fn an_end_without_all_commands_or_without_a_flush_says_so() {
    let (mut rig, control) = fake();
    control.fail(WRITE, Fault::Held);
    rig.put(&entry(WRITE, DATA, 0, 0, 7));
    rig.ring();
    rig.drive.work(AMPLE).expect("work");
    let said = rig.close().expect_err("something is under way").to_string();
    assert!(said.contains("commands have not ended within 30s"), "{said}");
    for (fault, words) in [
        (Fault::Error(libc::EIO), "a Flush failed: Input/output error"),
        (Fault::Number(0x4280), "a Flush ended with status 0x4280"),
    ] {
        let (rig, control) = fake();
        control.fail(FLUSH, fault);
        let said = rig.close().expect_err("it is not durable").to_string();
        assert!(said.contains(words), "{said}");
    }
    // a Flush that is only to be made again
    let (rig, control) = fake();
    (0..8).for_each(|_| control.fail(FLUSH, Fault::Error(libc::EAGAIN)));
    rig.close().expect("a clean end");
    let (rig, control) = fake();
    (0..9).for_each(|_| control.fail(FLUSH, Fault::Error(libc::EAGAIN)));
    assert!(rig.close().is_err());
}

/// A Read and a Flush are tried before there is a drive.
#[test]
fn a_kernel_that_lets_nothing_through_is_found_at_once() {
    let (_, mut drive, control) = drive_with(all());
    drive.try_out().expect("a drive");
    let opcodes: Vec<u8> = control.asked().iter().map(|it| it.opcode).collect();
    assert_eq!(opcodes, [READ, FLUSH]);
    // what the drive says of its first block is nobody's business
    control.fail(READ, Fault::Number(0x281));
    drive.try_out().expect("a drive");
    for (opcode, name) in [(READ, "Read"), (FLUSH, "Flush")] {
        for (error, words) in [
            (
                libc::EACCES,
                "without the right CAP_SYS_ADMIN it lets them through from Linux 6.2 on",
            ),
            (libc::EOPNOTSUPP, "it has passthrough commands from Linux 5.19 on"),
            (libc::ENODEV, "look at the kernel's log"),
        ] {
            control.fail(opcode, Fault::Error(error));
            let said = drive.try_out().expect_err("refused").to_string();
            let begin = format!("a namespace for tests: the kernel refuses a {name}: ");
            assert!(said.starts_with(&begin) && said.contains(words), "{said}");
        }
    }
    let late = drive.make_alone(Request::flush(), Duration::ZERO);
    assert!(matches!(late, Ok(Answer::Completed(Status::GOOD))));
    control.fail(FLUSH, Fault::Held);
    let late = drive.make_alone(Request::flush(), Duration::from_millis(1));
    assert_eq!(late.expect_err("nothing came").kind(), io::ErrorKind::TimedOut);
}
