//! What the store says, and what guests are told.

use super::super::store::faulty::{Call, Fault, FaultyStore};
use super::*;
use crate::log::tests::said_by;

const READ: u8 = 2;
const WRITE: u8 = 1;
const COMPARE: u8 = 5;
const ZEROES: u8 = 8;
const FLUSH: u8 = 0;
/// Write Fault, do not retry: what a drive says that takes no more writes.
const FOR_EVER: u16 = 0x4280;

fn rigs() -> Vec<(Arc<FaultyStore>, RamRig)> {
    let one = |waits| {
        let store = Arc::new(FaultyStore::new(waits, BLOCKS));
        (Arc::clone(&store), Rig::over(store, BLOCKS))
    };
    vec![one(false), one(true)]
}

#[test]
fn errors_have_statuses() {
    use libc::{EDQUOT, EFAULT, EFBIG, EIO, ENOMEM, ENOSPC};
    for (store, mut rig) in rigs() {
        for forced in [0, FORCED] {
            for (opcode, call, error, status) in [
                (READ, Call::Read, EIO, 0x281),
                (READ, Call::Read, ENOMEM, 0x281),
                (READ, Call::Read, EFAULT, 0x4004),
                (READ, Call::Read, ENOSPC, 0x281),
                (COMPARE, Call::Read, EIO, 0x281),
                (COMPARE, Call::Read, EFAULT, 0x4004),
                (WRITE, Call::Write, EIO, 0x280),
                (WRITE, Call::Write, EFAULT, 0x4004),
                (WRITE, Call::Write, ENOSPC, 0x81),
                (WRITE, Call::Write, EDQUOT, 0x81),
                (WRITE, Call::Write, EFBIG, 0x81),
                (ZEROES, Call::Zero, EIO, 0x280),
                (ZEROES, Call::Zero, ENOSPC, 0x81),
            ] {
                store.fail(call, Fault::Error(error));
                assert_eq!(
                    rig.run(entry(opcode, DATA, 0, 5, 7 | forced)),
                    status,
                    "opcode {opcode}, error {error}, {forced:#x}"
                );
                let next = rig.run(entry(
                    if opcode == COMPARE { READ } else { opcode },
                    DATA,
                    0,
                    5,
                    7 | forced,
                ));
                assert_eq!(next, 0, "the next one is good");
            }
        }
        rig.close().expect("nothing was lost");
    }
}

/// Of each kind of error the first one is said, with the kernel's reason, and not what further ones may be.
#[test]
fn an_error_is_said_once() {
    let (store, mut rig) = rigs().remove(0);
    let said = said_by(|| {
        for _ in 0..3 {
            for (opcode, call, error) in [
                (READ, Call::Read, libc::EIO),
                (WRITE, Call::Write, libc::ENOSPC),
                (ZEROES, Call::Zero, libc::EIO),
                (WRITE, Call::Write, libc::EFAULT),
            ] {
                store.fail(call, Fault::Error(error));
                assert_ne!(rig.run(entry(opcode, DATA, 0, 5, 7)), 0);
            }
        }
    });
    let line = |what, why| {
        format!("ERROR the drive cannot {what}: {why}; further errors of this kind are answered and not reported")
    };
    let (io, room) = (
        "Input/output error (os error 5)",
        "No space left on device (os error 28)",
    );
    assert_eq!(
        said,
        [
            line("read its image", io),
            line("write its image, which has no room to grow", room),
            line("write its image", io),
        ]
    );
    rig.close().expect("nothing was lost");
}

/// What the finding on the old program was: an error was reported once, to whoever flushed first, and then forgotten.
#[test]
fn a_lost_write_is_never_forgotten() {
    for (store, mut rig) in rigs() {
        assert_eq!(rig.run(entry(WRITE, DATA, 0, 0, 0)), 0);
        store.fail(Call::Write, Fault::Forgotten);
        assert_eq!(rig.run(entry(WRITE, DATA, 0, 1, 0)), 0);
        assert_eq!(rig.run(entry(WRITE, DATA, 0, 2, 0)), 0);
        for _ in 0..3 {
            assert_eq!(rig.run(entry(FLUSH, 0, 0, 0, 0)), FOR_EVER);
        }
        assert_eq!(rig.run(entry(WRITE, DATA, 0, 3, 0)), FOR_EVER);
        assert_eq!(rig.run(entry(WRITE, DATA, 0, 3, FORCED)), FOR_EVER);
        assert_eq!(rig.run(entry(ZEROES, DATA, 0, 3, 0)), FOR_EVER);
        assert_eq!(rig.run(entry(ZEROES, DATA, 0, 3, FORCED)), FOR_EVER);
        assert_eq!(rig.run(entry(READ, DATA, 0, 1, 0)), 0);
        assert_eq!(rig.run(entry(READ, DATA, 0, 1, FORCED)), 0);
        assert_eq!(rig.run(entry(COMPARE, DATA, 0, 1, 0)), 0);
        assert!(rig.drive.check().is_ok());
        assert!(rig.drive.describe().ends_with("; it takes no more writes"));
        let error = rig.close().expect_err("writes were lost").to_string();
        assert!(
            error.starts_with("the drive has lost writes, look at its image: in a store for tests: "),
            "{error}"
        );
    }
}

#[test]
fn a_lost_write_that_nobody_flushed_is_found_at_the_end() {
    for (store, mut rig) in rigs() {
        store.fail(Call::Zero, Fault::Forgotten);
        assert_eq!(rig.run(entry(ZEROES, DATA, 0, 1, 0)), 0);
        assert!(rig.close().is_err());
    }
}

#[test]
fn a_forced_write_that_is_lost_ends_writes() {
    for (store, mut rig) in rigs() {
        let call = if store.waits() { Call::WriteDurably } else { Call::Sync };
        store.fail(call, Fault::Error(libc::ENOSPC));
        assert_eq!(rig.run(entry(WRITE, DATA, 0, 1, FORCED)), FOR_EVER);
        assert_eq!(rig.run(entry(WRITE, DATA, 0, 1, 0)), FOR_EVER);
    }
    for (store, mut rig) in rigs() {
        store.fail(Call::Sync, Fault::Error(libc::EIO));
        assert_eq!(rig.run(entry(ZEROES, 0, 0, 1, FORCED)), FOR_EVER);
        assert_eq!(rig.run(entry(READ, DATA, 0, 1, FORCED)), 0);
    }
    // The guest's memory is gone between the two: nothing is lost but this command.
    let (store, mut rig) = rigs().remove(1);
    store.fail(Call::WriteDurably, Fault::Error(libc::EFAULT));
    assert_eq!(rig.run(entry(WRITE, DATA, 0, 1, FORCED)), 0x4004);
    assert_eq!(rig.run(entry(WRITE, DATA, 0, 1, FORCED)), 0);
    rig.close().expect("nothing was lost");
}

#[test]
fn a_store_that_ends_too_early_takes_no_more_writes() {
    for (store, mut rig) in rigs() {
        store.fail(Call::Read, Fault::CutOff);
        assert_eq!(rig.run(entry(READ, DATA, 0, 1, 0)), 0x281);
        assert_eq!(rig.run(entry(WRITE, DATA, 0, 1, 0)), FOR_EVER);
    }
}

#[test]
fn a_store_whose_device_is_gone_takes_no_more_writes() {
    for error in [libc::ENODEV, libc::ENXIO, libc::ESHUTDOWN] {
        for (store, mut rig) in rigs() {
            store.fail(Call::Read, Fault::Error(error));
            assert_eq!(rig.run(entry(READ, DATA, 0, 1, 0)), 0x4082);
            assert_eq!(rig.run(entry(WRITE, DATA, 0, 1, 0)), FOR_EVER);
            let said = rig.close().expect_err("writes were lost").to_string();
            assert!(said.contains("the device is gone"), "{said}");
        }
    }
}

/// A Flush that does not end holds up nothing but Flushes and forced writes.
#[test]
fn nobody_waits_for_a_flush() {
    let (store, mut rig) = rigs().remove(1);
    store.fail(Call::Sync, Fault::Held);
    let flush = rig.put(&entry(FLUSH, 0, 0, 0, 0));
    rig.ring();
    rig.drive.work(AMPLE).expect("work");
    store.wait_until_held();
    for _ in 0..100 {
        for opcode in [WRITE, COMPARE, READ, ZEROES] {
            assert_eq!(rig.run(entry(opcode, DATA, 0, 8, 7)), 0);
        }
        store.cool();
    }
    let second = rig.put(&entry(FLUSH, 0, 0, 0, 0));
    let forced = rig.put(&entry(WRITE, DATA, 0, 9, FORCED));
    rig.ring();
    rig.drive.work(AMPLE).expect("work");
    assert_eq!(rig.reap(), None);
    let before = store.calls();
    store.release();
    let mut seen = [rig.wait(), rig.wait(), rig.wait()];
    seen.sort_unstable_by_key(|(command, _)| command.wrapping_sub(flush));
    assert_eq!(seen, [(flush, 0), (second, 0), (forced, 0)]);
    assert_eq!(
        store.calls() - before,
        2,
        "one write, and one sync for both that waited"
    );
    rig.close().expect("a clean end");
}

/// A Read that has to wait for its blocks holds up no other.
#[test]
fn nobody_waits_for_a_slow_read() {
    let (store, mut rig) = rigs().remove(1);
    assert_eq!(rig.run(entry(WRITE, DATA, 0, 0, 7)), 0);
    store.cool();
    store.fail(Call::Read, Fault::Held);
    let slow = rig.put(&entry(READ, DATA, 0, 0, 7));
    rig.ring();
    rig.drive.work(AMPLE).expect("work");
    store.wait_until_held();
    for _ in 0..20 {
        assert_eq!(rig.run(entry(READ, HIGH, 0, 0, 7)), 0);
    }
    store.release();
    assert_eq!(rig.wait(), (slow, 0));
}

/// The end of a drive waits for what its threads are at, and for no more.
#[test]
fn the_end_does_not_wait_for_what_has_not_begun() {
    let (store, mut rig) = rigs().remove(1);
    store.fail(Call::Sync, Fault::Held);
    for _ in 0..20 {
        rig.put(&entry(FLUSH, 0, 0, 0, 0));
        rig.put(&entry(ZEROES, 0, 0, 0, BLOCKS as u32 - 1));
    }
    rig.ring();
    rig.drive.work(AMPLE).expect("work");
    store.wait_until_held();
    let releaser = Arc::clone(&store);
    let thread = std::thread::spawn(move || {
        std::thread::sleep(Duration::from_millis(20));
        releaser.release();
    });
    rig.close().expect("a clean end");
    thread.join().expect("the thread");
}
