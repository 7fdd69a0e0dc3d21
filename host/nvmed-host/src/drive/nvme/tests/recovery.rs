#![forbid(unsafe_code)]
//! A mediator of this file goes round in the rings while the controller is mute, aborted and reset.

use super::*;
use crate::drive::nvme::{ABORT_AFTER, RESETS, RESET_AFTER};

/// The mediator's side of a lane: what it put, and what it took.
pub(super) struct Side {
    lane: usize,
    rings: LaneRings,
    tail: u32,
    head: u32,
    phase: bool,
    next_id: u16,
    pub(super) outstanding: Vec<u16>,
    /// Identifier and status of each completion.
    pub(super) taken: Vec<(u16, u16)>,
}

impl Side {
    pub(super) fn new(lane: usize) -> Self {
        let rings = rings(lane as u32);
        Self {
            lane,
            rings,
            tail: 0,
            head: 0,
            phase: true,
            next_id: 0,
            outstanding: Vec::new(),
            taken: Vec::new(),
        }
    }

    /// Puts Reads of identifiers below 64.
    pub(super) fn put(&mut self, bench: &Bench, n: &mut Controller<FakeAccess>, count: usize) {
        for _ in 0..count.min(64 - self.outstanding.len()) {
            while self.outstanding.contains(&self.next_id) {
                self.next_id = (self.next_id + 1) % 64;
            }
            let mut entry = [0u8; 64];
            entry[0] = 2;
            entry[2..4].copy_from_slice(&self.next_id.to_le_bytes());
            bench
                .memory
                .put(self.rings.submission + 64 * u64::from(self.tail), &entry);
            self.tail = (self.tail + 1) % self.rings.entries;
            self.outstanding.push(self.next_id);
            self.next_id = (self.next_id + 1) % 64;
        }
        n.ring_submission(self.lane, self.tail).unwrap();
    }

    /// Takes what is there, as a mediator does; each completion has to name a command that is outstanding.
    pub(super) fn take(&mut self, bench: &Bench, n: &mut Controller<FakeAccess>, most: usize) -> usize {
        let mut count = 0;
        while count < most {
            let entry = bench.memory.get(self.rings.completion + 16 * u64::from(self.head), 16);
            if (entry[14] & 1 == 1) != self.phase {
                break;
            }
            let id = u16::from_le_bytes([entry[12], entry[13]]);
            let at = self
                .outstanding
                .iter()
                .position(|o| *o == id)
                .expect("a stray completion");
            self.outstanding.remove(at);
            self.taken.push((id, u16::from_le_bytes([entry[14], entry[15]]) >> 1));
            self.head = (self.head + 1) % self.rings.entries;
            self.phase ^= self.head == 0;
            count += 1;
        }
        n.ring_completion(self.lane, self.head).unwrap();
        count
    }

    /// So many commands go through.
    fn go_round(&mut self, bench: &Bench, n: &mut Controller<FakeAccess>, count: usize) {
        for _ in 0..count {
            self.put(bench, n, 1);
            assert_eq!(self.take(bench, n, 64), 1);
        }
    }
}

fn one_lane() -> Bench {
    let mut bench = Bench::new();
    bench.needs.lanes = 1;
    bench
}

fn seconds(bench: &Bench, n: &mut Controller<FakeAccess>, count: u64) {
    for _ in 0..count {
        bench.fake().time += 1000;
        n.check().unwrap();
    }
}

#[test]
fn a_silent_command_is_aborted_and_the_others_go_on() {
    let bench = one_lane();
    let mut n = bench.running();
    let mut side = Side::new(0);
    bench.fake().mute = Some(2);
    side.put(&bench, &mut n, 3);
    bench.fake().mute = None;
    seconds(&bench, &mut n, ABORT_AFTER / 1000);
    assert_eq!((bench.seen().aborts, n.oldest(0)), (0, Some(ABORT_AFTER)));
    seconds(&bench, &mut n, 1);
    for _ in 0..6 {
        n.work().unwrap();
    }
    assert_eq!(bench.seen().aborts, 3);
    side.take(&bench, &mut n, 64);
    assert_eq!(side.taken, [(0, 7), (1, 7), (2, 7)]);
    assert_eq!((n.oldest(0), n.is_recovering()), (None, false));
    seconds(&bench, &mut n, 60);
    side.go_round(&bench, &mut n, 200);
    assert_eq!(
        (bench.seen().aborts, bench.seen().enables, bench.seen().violations),
        (3, 1, 0)
    );
}

#[test]
fn aborts_by_hand() {
    let bench = one_lane();
    let mut n = bench.running();
    let mut side = Side::new(0);
    bench.fake().mute = Some(2);
    side.put(&bench, &mut n, 2);
    n.abort(0).unwrap();
    n.abort(0).unwrap();
    assert!(words(n.abort(1)).contains("there is no lane 1"));
    for _ in 0..6 {
        n.work().unwrap();
    }
    assert_eq!((bench.seen().aborts, side.take(&bench, &mut n, 64)), (2, 2));
}

/// At each place of the ring and in both phases, with each count of commands that were lost, and while the mediator goes on.
#[test]
fn a_reset_answers_what_was_lost_and_the_lanes_go_on() {
    for place in [0, 1, 2, 30, 63, 64, 65, 66, 100, 129, 130, 131, 200] {
        for lost in [0, 1, 5, 64] {
            for meanwhile in [0, 1, 40, 64] {
                let bench = one_lane();
                let mut n = bench.running();
                let mut side = Side::new(0);
                side.go_round(&bench, &mut n, place);
                side.taken.clear();
                bench.fake().mute = Some(2);
                side.put(&bench, &mut n, lost);
                bench.fake().mute = None;
                n.reset().unwrap();
                n.reset().unwrap();
                assert!(n.is_recovering());
                side.put(&bench, &mut n, meanwhile / 2);
                n.work().unwrap();
                side.take(&bench, &mut n, 3);
                side.put(&bench, &mut n, meanwhile - meanwhile / 2);
                for _ in 0..200 {
                    n.work().unwrap();
                    n.check().unwrap();
                    side.take(&bench, &mut n, 7);
                    side.put(&bench, &mut n, 0);
                }
                assert!(!n.is_recovering(), "place {place}, lost {lost}, meanwhile {meanwhile}");
                side.take(&bench, &mut n, 64);
                assert!(side.outstanding.is_empty());
                let failures: Vec<_> = side.taken.iter().filter(|t| t.1 != 0).collect();
                assert!(failures.len() == lost && failures.iter().all(|t| t.1 == 6));
                side.go_round(&bench, &mut n, 200);
                assert_eq!((bench.seen().enables, bench.seen().violations), (2, 0));
                n.close().unwrap();
            }
        }
    }
}

#[test]
fn a_hung_controller_is_reset_before_thirty_seconds() {
    let mut bench = Bench::new();
    bench.needs.lanes = 2;
    let mut n = bench.running();
    let (mut first, mut second) = (Side::new(0), Side::new(1));
    first.go_round(&bench, &mut n, 70);
    second.go_round(&bench, &mut n, 3);
    bench.fake().mute = Some(2);
    bench.fake().abort_works = false;
    first.put(&bench, &mut n, 9);
    second.put(&bench, &mut n, 2);
    seconds(&bench, &mut n, RESET_AFTER / 1000);
    assert_eq!((n.is_recovering(), bench.seen().enables), (false, 1));
    assert!(bench.seen().aborts > 0);
    bench.fake().mute = None;
    seconds(&bench, &mut n, 1);
    assert!(n.is_recovering());
    for _ in 0..100 {
        n.work().unwrap();
        first.take(&bench, &mut n, 64);
        second.take(&bench, &mut n, 64);
    }
    assert!(!n.is_recovering());
    assert_eq!(second.taken[3..], [(3, 6), (4, 6)]);
    first.go_round(&bench, &mut n, 100);
    second.go_round(&bench, &mut n, 100);
    // events are asked for again
    assert_eq!(bench.seen().events_asked, 6);
    assert_eq!(bench.seen().violations, 0);
}

#[test]
fn a_fatal_status_and_a_controller_that_is_no_longer_ready_lead_to_a_reset() {
    for csts in [3, 0] {
        let bench = one_lane();
        let mut n = bench.running();
        let mut side = Side::new(0);
        side.go_round(&bench, &mut n, 10);
        bench.fake().csts = csts;
        n.check().unwrap();
        for _ in 0..50 {
            n.work().unwrap();
        }
        assert!(!n.is_recovering());
        side.go_round(&bench, &mut n, 10);
    }
}

#[test]
fn completions_that_came_before_the_reset_count() {
    let bench = one_lane();
    let mut n = bench.running();
    let mut side = Side::new(0);
    side.go_round(&bench, &mut n, 63);
    side.put(&bench, &mut n, 4); // completed, and not taken yet
    bench.fake().mute = Some(2);
    side.put(&bench, &mut n, 2);
    bench.fake().mute = None;
    side.taken.clear();
    n.reset().unwrap();
    for _ in 0..50 {
        n.work().unwrap();
        side.take(&bench, &mut n, 1);
    }
    let status: Vec<u16> = side.taken.iter().map(|t| t.1).collect();
    assert_eq!((status, n.is_recovering()), (vec![0, 0, 0, 0, 6, 6], false));
    side.go_round(&bench, &mut n, 70);
}

#[test]
fn a_drive_that_hangs_again_and_again_is_given_up() {
    let bench = one_lane();
    let mut n = bench.running();
    let mut side = Side::new(0);
    for _ in 0..RESETS {
        bench.fake().csts |= 2;
        n.check().unwrap();
        for _ in 0..50 {
            n.work().unwrap();
        }
        assert!(!n.is_recovering());
        side.go_round(&bench, &mut n, 3);
    }
    bench.fake().csts |= 2;
    assert!(words(n.check()).contains("shows a fatal status (CSTS.CFS), after 3 resets within 10 minutes"));
    // after ten minutes without one it may be reset again
    let bench = one_lane();
    let mut n = bench.running();
    for _ in 0..2 * RESETS {
        bench.fake().csts |= 2;
        n.check().unwrap();
        for _ in 0..50 {
            n.work().unwrap();
        }
        bench.fake().time += 300_000;
    }
    assert!(!n.is_recovering());
}

/// What goes wrong during the reset fails the drive, and nothing waits meanwhile.
#[test]
fn a_reset_that_fails_fails_the_drive() {
    let faults = [
        (Fault::NeverReady, None, "did not become ready within 1000 ms"),
        (Fault::NeverDisabled, None, "did not become disabled within 1000 ms"),
        (Fault::FatalOnEnable, None, "while it should become ready"),
        (Fault::GoneOnEnable, None, "is gone"),
        (
            Fault::Silent,
            None,
            "did not answer Identify Controller within 10000 ms",
        ),
        (Fault::Fatal, Some(6), "a fatal status"),
        (Fault::Gone, Some(6), "is gone"),
        (Fault::CommandId, Some(6), "which it does not have"),
        (Fault::Refuses(2), Some(5), "refused Create I/O Completion Queue"),
        (Fault::Access, None, "an access failed"),
    ];
    for (fault, opcode, part) in faults {
        let bench = one_lane();
        let mut n = bench.running();
        let mut side = Side::new(0);
        side.go_round(&bench, &mut n, 10);
        n.reset().unwrap();
        bench.fake().fault = fault;
        bench.fake().fault_opcode = opcode;
        let mut said = String::new();
        for _ in 0..40 {
            bench.fake().time += 1000;
            let before = bench.fake().time;
            said = words(n.work().and_then(|()| n.check()));
            assert_eq!(bench.seen().time, before); // nothing waits
        }
        assert!(said.contains(part), "{said} has no {part}");
        let _ = n.close();
        assert!(bench.seen().gone || matches!(fault, Fault::Access) || bench.seen().cc & 1 == 0);
    }
}

#[test]
fn another_controller_after_a_reset_is_refused() {
    let bench = one_lane();
    let mut n = bench.running();
    n.reset().unwrap();
    bench.fake().controller[4] = b'X';
    let said: Vec<String> = (0..10).map(|_| words(n.work())).collect();
    assert!(said.last().unwrap().contains("another one after its reset"), "{said:?}");
}

#[test]
fn a_controller_that_does_not_flush_after_a_reset_fails() {
    let bench = one_lane();
    let mut n = bench.running();
    let mut side = Side::new(0);
    side.go_round(&bench, &mut n, 5);
    bench.fake().mute = Some(0);
    n.reset().unwrap();
    let mut said = String::new();
    for _ in 0..80 {
        bench.fake().time += 1000;
        said = words(n.check());
    }
    assert!(
        said.contains("did not answer Flush on lane 0 within 60000 ms after a reset"),
        "{said}"
    );
}

#[test]
fn an_admin_command_that_is_not_answered_leads_to_a_reset() {
    let bench = one_lane();
    let mut n = bench.running();
    bench.fake().fault = Fault::Silent;
    bench.fake().fault_opcode = Some(2);
    assert!(bench.fake().raise(0x02_01_01));
    n.work().unwrap();
    seconds(&bench, &mut n, 9);
    assert!(!n.is_recovering());
    seconds(&bench, &mut n, 3);
    for _ in 0..50 {
        n.work().unwrap();
    }
    assert_eq!((n.is_recovering(), bench.seen().enables), (false, 2));
}
