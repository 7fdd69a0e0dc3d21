//! Clients that come before the drive is there: they are served, and what they ask of the drive waits for it.
#![allow(clippy::unwrap_used, clippy::expect_used, clippy::panic)]

mod client;
mod guest;

use std::path::Path;
use std::sync::mpsc::channel;
use std::time::{Duration, Instant};

use guest::{configuration, is_real, Folder, Guest};
use nvmed_host::config::{Config, BLOCK};
use nvmed_host::drive::ram::RamDrive;
use nvmed_host::drive::DriveError;
use nvmed_host::host::{Host, HostError, Outcome};

/// Longer than a client waits for a reply.
const SLOW: Duration = Duration::from_secs(7);

/// The program over a drive in memory, for which `ready` waits.
fn begin(text: &str, ready: impl FnOnce() -> Result<(), DriveError> + Send + 'static) -> Host {
    let config = Config::parse(text.as_bytes()).unwrap();
    Host::begin_over(&config, false, |_layout, window| {
        let memory = window.clone();
        Ok(Box::new(move || {
            ready()?;
            Ok(Box::new(RamDrive::in_memory(memory, (16 << 20) / BLOCK)?))
        }))
    })
    .unwrap()
}

/// What it comes to: the error, or that it goes on for ever.
fn outcome_of(host: &mut Host) -> Option<HostError> {
    let begin = Instant::now();
    while begin.elapsed() < Duration::from_secs(10) {
        match host.is_over() {
            Ok(false) => std::thread::sleep(Duration::from_millis(5)),
            Ok(true) => return None,
            Err(error) => return Some(error),
        }
    }
    None
}

#[test]
fn a_client_is_served_while_the_drive_is_opened() {
    let folder = Folder::new("opening");
    let begun = Instant::now();
    let mut host = begin(&configuration(&folder, 2, ""), || {
        std::thread::sleep(SLOW);
        Ok(())
    });
    // all of a client's start, with replies to each message in less than five seconds; its controller becomes ready, too
    let mut guest = Guest::connect(&folder.path("g0")).unwrap();
    if is_real() {
        guest.bring_up().unwrap();
        assert!(begun.elapsed() < SLOW, "it came too late to show anything");
        // more than a queue of the drive's takes at once, and a controller that is reset meanwhile
        let mut other = Guest::connect(&folder.path("g1")).unwrap();
        other.bring_up().unwrap();
        other.put(1, 2, 0x20_0000, [0, 0, 7]).unwrap();
        other.ring(1, false).unwrap();
        other.set_cc(0).unwrap();
        guest.memory.write(0x10_0000, &[7; 4096]).unwrap();
        for block in 0..60 {
            guest.put(1, 1, 0x10_0000, [8 * block, 0, 7]).unwrap();
        }
        guest.ring(1, false).unwrap();
        std::thread::sleep(Duration::from_millis(200));
        assert!(begun.elapsed() > SLOW || guest.take(1).unwrap().is_none());
        for _ in 0..60 {
            assert_eq!(guest.await_done(1).unwrap().status, 0);
        }
        assert!(begun.elapsed() >= SLOW);
        assert_eq!(guest.read_blocks(8 * 59).unwrap(), [7; 4096]);
        other.await_ready(0).unwrap();
        other.bring_up().unwrap();
        other.write_blocks(0, 9).unwrap();
        assert_eq!(other.read_blocks(0).unwrap(), [9; 4096]);
    }
    assert!(!host.is_over().unwrap());
    assert_eq!(host.end(), Outcome::Good);
}

fn nobody_listens(at: &Path) {
    assert!(!at.exists(), "a socket is left behind");
}

#[test]
fn a_drive_that_cannot_be_opened_ends_it_with_its_error() {
    let folder = Folder::new("unopened");
    let (fail, failed) = channel::<()>();
    let mut host = begin(&configuration(&folder, 1, ""), move || {
        failed.recv().unwrap();
        Err(DriveError::Unusable("it has 3 blocks".to_owned()))
    });
    let mut guest = Guest::connect(&folder.path("g0")).unwrap();
    if is_real() {
        guest.bring_up().unwrap();
        guest.put(1, 2, 0x20_0000, [0, 0, 7]).unwrap();
        guest.ring(1, false).unwrap();
        // it is on its way to a drive that never comes
        std::thread::sleep(Duration::from_millis(200));
    }
    assert!(!host.is_over().unwrap());
    fail.send(()).unwrap();
    let error = outcome_of(&mut host).expect("an error");
    assert!(matches!(error, HostError::Drive { line: 1, .. }), "{error}");
    assert_eq!(error.to_string(), "line 1: the drive: it has 3 blocks");
    let begin = Instant::now();
    assert_eq!(host.end(), Outcome::Good, "there is nothing to be closed");
    assert!(begin.elapsed() < Duration::from_secs(2), "it waited for the command");
    nobody_listens(&folder.path("g0"));
    assert!(guest.client.is_closed());
}

/// A QEMU is started once there is a drive for it.
#[test]
fn a_guest_is_started_once_the_drive_is_there() {
    let folder = Folder::new("started");
    let mark = folder.path("mark");
    let text = format!(
        "drive ram 16M\nguest 0 memory 1M\nextent 0 0 8\nstart 0 sh -c \"touch {}\"\n",
        mark.display()
    );
    let (go, gone) = channel::<()>();
    let mut host = begin(&text, move || {
        gone.recv().unwrap();
        Ok(())
    });
    std::thread::sleep(Duration::from_millis(300));
    assert!(!host.is_over().unwrap() && !mark.exists());
    go.send(()).unwrap();
    assert!(outcome_of(&mut host).is_none());
    assert!(host.is_over().unwrap() && mark.exists());
    assert_eq!(host.end(), Outcome::Good);
}

/// The end comes while the drive is being opened.
#[test]
fn an_end_before_the_drive_is_there() {
    let folder = Folder::new("early");
    let host = begin(&configuration(&folder, 1, ""), || {
        std::thread::sleep(Duration::from_millis(500));
        Ok(())
    });
    let _guest = Guest::connect(&folder.path("g0")).unwrap();
    assert_eq!(host.end(), Outcome::Good);
    nobody_listens(&folder.path("g0"));
}
