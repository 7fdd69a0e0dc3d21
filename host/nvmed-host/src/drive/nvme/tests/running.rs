#![forbid(unsafe_code)]

use super::*;
use crate::drive::nvme::Event;
use crate::log::tests::said_by;

#[test]
fn doorbells_reach_their_registers() {
    let bench = Bench::new();
    let mut n = bench.running();
    bench.memory.put(RINGS, &[0; 0x8000]);
    n.ring_submission(1, 64).unwrap();
    assert_eq!(
        (bench.seen().submission[2].doorbell, bench.seen().submission[1].doorbell),
        (64, 0)
    );
    n.ring_completion(1, 64).unwrap();
    assert_eq!(
        (bench.seen().completion[2].doorbell, bench.seen().completion[1].doorbell),
        (64, 0)
    );
    assert!(words(n.ring_submission(1, 65)).contains("the submission doorbell of lane 1 cannot say 65 of 65 slots"));
    assert!(words(n.ring_completion(0, u32::MAX)).contains("the completion doorbell of lane 0 cannot say"));
    assert!(words(n.ring_completion(2, 0)).contains("there is no lane 2"));
    assert!(words(n.ring_submission(2, 0)).contains("there is no lane 2"));
    n.check().unwrap();
    let mut bench = Bench::with(|f| f.cap |= 3 << 32);
    bench.needs.lanes = 8;
    let mut n = bench.running();
    n.ring_submission(7, 9).unwrap();
    assert_eq!(bench.seen().submission[8].doorbell, 9);
    n.ring_completion(7, 8).unwrap();
    assert_eq!((bench.seen().completion[8].doorbell, bench.seen().violations), (8, 0));
}

#[test]
fn a_controller_that_is_gone_fails_for_ever() {
    let bench = Bench::new();
    let mut n = bench.running();
    bench.fake().gone = true;
    assert!(words(n.check()).contains("is gone"));
    bench.fake().gone = false;
    for said in [
        words(n.check()),
        words(n.work()),
        words(n.ring_submission(0, 1)),
        words(n.ring_completion(0, 1)),
        words(n.abort(0)),
    ] {
        assert!(said.contains("is gone"), "{said}");
    }
    bench.fake().gone = true;
    assert!(words(n.close()).contains("is gone"));
}

#[test]
fn a_shutdown_has_the_time_that_the_drive_says() {
    let bench = Bench::with(|f| f.fault = Fault::NoShutdown);
    let mut n = bench.running();
    assert!(words(n.close()).contains("did not shut down within 10000 ms"));
    assert_eq!((bench.seen().cc, bench.seen().csts), (0, 0));
    // RTD3E: 60 s
    let bench = Bench::with(|f| {
        f.fault = Fault::SlowShutdown(50_000);
        f.controller[88..92].copy_from_slice(&60_000_000u32.to_le_bytes());
    });
    let mut n = bench.running();
    n.close().unwrap();
    assert!(bench.seen().time >= 50_000);
    let bench = Bench::with(|f| f.fault = Fault::SlowShutdown(50_000));
    assert!(words(bench.running().close()).contains("did not shut down within 10000 ms"));
}

#[test]
fn a_silent_controller_is_shut_down_all_the_same() {
    let bench = Bench::new();
    let mut n = bench.running();
    bench.fake().fault = Fault::Silent;
    assert!(words(n.close()).contains("did not answer Delete I/O Submission Queue within 10000 ms"));
    assert!(words(n.ring_submission(0, 1)).contains("there is no lane 0"));
    assert_eq!((bench.seen().shutdowns, bench.seen().cc), (1, 0));
}

#[test]
fn events_are_asked_for_reported_and_read() {
    let bench = Bench::with(|f| f.log[..6].copy_from_slice(&[2, 0x40, 1, 90, 10, 3]));
    let mut n = bench.running();
    assert_eq!(bench.seen().events_asked, 3); // AERL says three
    assert!(bench.fake().raise(0x02_01_01));
    for _ in 0..4 {
        n.work().unwrap();
    }
    assert_eq!(
        (bench.seen().logs_read.clone(), bench.seen().events_asked),
        (vec![2], 4)
    );
    // one without a log page; one of each other, at once, and more than there are requests
    assert!(bench.fake().raise(0x00_00_04));
    n.work().unwrap();
    assert_eq!(bench.seen().events_asked, 5);
    let raised = (0..5).filter(|_| bench.fake().raise(0x01_04_00)).count();
    assert_eq!(raised, 3);
    for _ in 0..12 {
        n.work().unwrap();
    }
    assert_eq!(
        (bench.seen().logs_read.clone(), bench.seen().events_asked),
        (vec![2, 1, 1, 1], 8)
    );
    n.check().unwrap();
    n.close().unwrap();
    assert_eq!(bench.seen().violations, 0);
}

/// The page "SMART / Health Information": byte 0 is the critical warning, bytes 1 and 2 are the temperature in kelvins, 3 the spare and 5 the percentage used.
#[test]
fn the_drives_health_is_said() {
    let bench = Bench::with(|f| f.log[..6].copy_from_slice(&[2, 0x57, 1, 90, 10, 3]));
    let mut n = bench.running();
    let said = said_by(|| {
        assert!(bench.fake().raise(0x02_01_01));
        for _ in 0..4 {
            n.work().unwrap();
        }
    });
    assert_eq!(
        said,
        [
            "WARN  the drive reports the temperature is beyond a threshold (event type 1, information 0x01, log page 0x02)",
            "WARN  the drive's health: critical warning 0x02, 343 K, spare 90 %, used 3 %",
        ]
    );
}

#[test]
fn a_persistent_internal_error_fails_the_drive() {
    let bench = Bench::new();
    let mut n = bench.running();
    assert!(bench.fake().raise(0x01_03_00));
    assert!(words(n.work()).contains("the drive reports a persistent internal error"));
    assert!(words(n.check()).contains("a persistent internal error"));
    n.close().unwrap();
}

#[test]
fn a_namespace_that_changes_is_looked_at_again() {
    let bench = Bench::new();
    let mut n = bench.running();
    assert!(bench.fake().raise(0x04_00_02));
    for _ in 0..6 {
        n.work().unwrap();
    }
    assert_eq!(bench.seen().logs_read, [4]);
    bench.fake().namespace[0..2].copy_from_slice(&[255, 15]);
    assert!(bench.fake().raise(0x04_00_02));
    let said: Vec<String> = (0..6).map(|_| words(n.work())).collect();
    assert!(
        said.last()
            .unwrap()
            .contains("namespace 1 has 4095 blocks, and the extents end at block 4096"),
        "{said:?}"
    );
}

#[test]
fn an_event_request_that_is_refused_is_not_asked_for_again() {
    let bench = Bench::with(|f| (f.fault, f.fault_opcode) = (Fault::Refuses(0x105), Some(0x0c)));
    let mut n = bench.running();
    for _ in 0..20 {
        n.work().unwrap();
    }
    assert_eq!(bench.seen().events_asked, 3);
    // a controller without the feature, or without the log page
    let bench = Bench::with(|f| (f.fault, f.fault_opcode) = (Fault::Refuses(2), Some(0x02)));
    let mut n = bench.running();
    assert!(bench.fake().raise(0x02_01_01));
    for _ in 0..4 {
        n.work().unwrap();
    }
    assert_eq!(bench.seen().events_asked, 4);
}

#[test]
fn a_stray_admin_completion_fails_the_drive() {
    let bench = Bench::new();
    let mut n = bench.running();
    bench.fake().stray(0x7777);
    assert!(words(n.work()).contains("completed admin command 30583, which it does not have"));
    // twice the same
    let bench = Bench::new();
    let mut n = bench.running();
    let id = u16::try_from(bench.fake().commands).unwrap();
    bench.fake().stray(id);
    bench.fake().stray(id);
    assert!(words(n.work()).contains("which it does not have"));
}

#[test]
fn events_have_words() {
    for (dword0, part) in [
        (0x01_00_00, "a write of an invalid doorbell register"),
        (0x01_01_00, "an invalid value was written to a doorbell"),
        (0x01_02_00, "a diagnostic failure"),
        (0x01_03_00, "a persistent internal error"),
        (0x01_04_00, "a transient internal error"),
        (0x01_05_00, "a firmware image"),
        (0x02_00_01, "the reliability of the drive is degraded"),
        (0x02_01_01, "the temperature is beyond a threshold"),
        (0x02_02_01, "the spare capacity"),
        (0x04_00_02, "the attributes of a namespace have changed"),
        (0x03_01_02, "firmware is about to be activated"),
        (0x07_02_02, "the telemetry log"),
        (0xaa_bb_07, "event type 7, information 0xbb, log page 0xaa"),
    ] {
        assert!(Event::of(dword0).to_string().contains(part));
    }
}
