//! What an operator asks for and sees: figures, states, drains, limits.

use super::*;
use crate::board::GuestState;
use crate::figures::Group;

#[test]
fn figures_are_of_what_the_drive_has_answered() {
    let mut rig = Rig::new(Manner::Silent, 2);
    rig.enable(1);
    rig.send(1, &[RING, RING]);
    let begin = Instant::now();
    rig.turn(begin);
    let figures = |rig: &Rig| {
        let read = rig.board.guests[1].figures.of(Kind::Read);
        (read.commands.get(), read.errors.get(), read.bytes.get())
    };
    assert_eq!((figures(&rig), rig.board.guests[1].flying()), ((0, 0, 0), 2));
    // the first one has a status, and the second one none
    let completions = [(0u32, 0x0281u32 << 17 | 1 << 16), (1, 1 << 16)];
    for (slot, (identifier, status)) in (0..).zip(completions) {
        let at = AT.completion + 16 * slot + 12;
        let dword = (status | identifier).to_le_bytes();
        rig.fake.window.slice(at, 4).unwrap().write_slice(&dword, 0).unwrap();
    }
    rig.fake.state().completed = 2;
    let later = begin + Duration::from_secs(2);
    rig.turn(later);
    assert_eq!((figures(&rig), rig.board.guests[1].flying()), ((2, 1, 512), 0));
    let times = rig.board.guests[1].figures.times(Group::Read).read();
    assert_eq!(times.count(), 2);
    assert!(
        times.nanos >= 4_000_000_000 && times.nanos < 5_000_000_000,
        "{}",
        times.nanos
    );
    assert_eq!(rig.board.lanes[0].commands.get(), 2);
    assert_eq!(rig.board.guests[0].figures.of(Kind::Read).commands.get(), 0);
}

/// What was taken runs out, and what waits is taken after the end of the drain. Admin commands go on.
#[test]
fn a_drain_takes_nothing_more() {
    let mut rig = Rig::new(Manner::Silent, 2);
    rig.enable(0);
    rig.enable(1);
    rig.send(0, &[RING]);
    rig.turn(Instant::now());
    assert_eq!((rig.board.phase(), rig.board.lanes[0].flying()), (Phase::Running, 1));
    assert_eq!(rig.board.guests[0].flying(), 1);
    rig.orders.drain(true);
    rig.send(0, &[RING, ADMIN]);
    rig.send(1, &[RING]);
    rig.turn(Instant::now());
    assert_eq!(rig.board.phase(), Phase::Draining);
    assert_eq!((rig.waiting(0), rig.waiting(1)), (1, 1), "nothing is taken");
    assert_eq!(rig.admin(0), 0);
    rig.fake.state().completed = 1;
    rig.turn(Instant::now());
    assert_eq!(rig.board.phase(), Phase::Drained);
    // a controller that is enabled anew is drained, too
    rig.send(1, &[write_cc(0), write_cc(1), RING, ADMIN]);
    rig.turn(Instant::now());
    assert_eq!((rig.waiting(1), rig.admin(1)), (1, 0));
    assert_eq!(rig.board.phase(), Phase::Drained);
    rig.orders.drain(false);
    rig.turn(Instant::now());
    assert_eq!(rig.board.phase(), Phase::Running);
    assert_eq!((rig.waiting(0), rig.waiting(1)), (0, 0));
    assert_eq!(rig.board.lanes[0].flying(), 2);
}

/// Where the work on a guest was cut off, commands may be taken and not with the drive yet: these come to it first.
#[test]
fn a_drain_in_the_middle_of_a_guests_work() {
    let mut rig = Rig::new(Manner::Silent, 1);
    rig.enable(0);
    rig.send(0, &[RING]);
    let mediation = rig.mediation.as_mut().unwrap();
    mediation.listen();
    rig.fake.state().waiting.insert(0, EVENTS as u32);
    assert!(mediation.work_guests(Instant::now()).unwrap());
    assert_eq!(rig.waiting(0), 0);
    rig.orders.drain(true);
    let mediation = rig.mediation.as_mut().unwrap();
    mediation.heed(Instant::now());
    assert!(mediation.clients[0].is_finishing());
    rig.turn(Instant::now());
    assert_eq!(rig.board.phase(), Phase::Draining);
    rig.send(0, &[RING]);
    rig.turn(Instant::now());
    assert_eq!(rig.waiting(0), 1);
    rig.fake.state().completed = EVENTS as u32;
    rig.turn(Instant::now());
    assert_eq!(rig.board.phase(), Phase::Drained);
}

/// A guest at its limit has nothing taken, but its admin commands; it is looked at again when it has paid, and the others go on meanwhile.
#[test]
fn a_guest_at_its_limit_waits() {
    let mut rig = Rig::new(Manner::Answers, 2);
    rig.enable(0);
    rig.enable(1);
    let begin = Instant::now();
    rig.turn(begin);
    rig.orders.set_limit(
        0,
        Limit {
            iops: Some(10),
            bytes: None,
        },
    );
    // there is room for the burst, which is one command and the next one
    rig.send(0, &[RING, RING, RING, RING, RING, RING]);
    rig.turn(begin);
    assert!((2..4).contains(&rig.waiting(0)), "{}", rig.waiting(0));
    let waiting = rig.waiting(0);
    rig.send(0, &[ADMIN]);
    rig.send(1, &[RING, RING, RING]);
    rig.turn(begin);
    assert_eq!((rig.waiting(0), rig.waiting(1)), (waiting, 0));
    assert_eq!(rig.admin(0), 0);
    let mediation = rig.mediation.as_mut().unwrap();
    let pause = mediation.pause(begin);
    // none where the thread goes on without a pause for a moment
    assert!(pause <= Duration::from_millis(500), "{pause:?}");
    let later = begin + Duration::from_millis(500);
    rig.turn(later);
    assert!(rig.waiting(0) < waiting);
    // without limits all of it is taken
    rig.orders.set_limit(0, Limit::default());
    rig.turn(later);
    assert_eq!(rig.waiting(0), 0);
}

/// Tails that are rung while commands wait are kept back, and given on before an admin command and a write of CC, and once the others were taken.
#[test]
fn tails_of_a_guest_at_its_limit_are_kept_back() {
    const TAIL_2: Access = Access::Doorbell {
        offset: 0x1010,
        value: 9,
    };
    let mut rig = Rig::new(Manner::Silent, 1);
    rig.enable(0);
    rig.orders.set_limit(
        0,
        Limit {
            iops: Some(10),
            bytes: None,
        },
    );
    let begin = Instant::now();
    rig.send(0, &[RING; 20]);
    rig.turn(begin);
    rig.log();
    rig.send(0, &[TAIL_2]);
    rig.turn(begin);
    assert_eq!(rig.log(), [""; 0], "it is kept back");
    rig.send(0, &[ADMIN]);
    rig.turn(begin);
    assert_eq!(rig.log(), ["doorbell 0 0x1010 9", "doorbell 0 0x1000 1"]);
    rig.send(0, &[TAIL_2, write_cc(1)]);
    rig.turn(begin);
    assert_eq!(rig.log(), ["doorbell 0 0x1010 9", "write 0 0x14 0x1"]);
    // heads are not
    let head = Access::Doorbell {
        offset: 0x100c,
        value: 3,
    };
    rig.send(0, &[TAIL_2, head]);
    rig.turn(begin);
    assert_eq!(rig.log(), ["doorbell 0 0x100c 3"]);
    // nothing waits any more
    rig.fake.state().waiting.insert(0, 0);
    let later = begin + Duration::from_secs(10);
    rig.turn(later);
    assert_eq!(rig.log().last().unwrap(), "doorbell 0 0x1010 9");
}

/// A guest without Bus Master Enable whose work was cut off may have commands that are taken and not with the drive: they would come to it after a reset.
#[test]
fn a_drain_waits_for_a_guest_that_was_cut_off() {
    let mut rig = Rig::new(Manner::Answers, 1);
    rig.enable(0);
    rig.send(0, &[RING]);
    let mediation = rig.mediation.as_mut().unwrap();
    mediation.listen();
    rig.fake.state().waiting.insert(0, EVENTS as u32);
    assert!(mediation.work_guests(Instant::now()).unwrap());
    rig.send(0, &[Access::Master(false)]);
    rig.orders.drain(true);
    for _ in 0..3 {
        rig.turn(Instant::now());
    }
    assert_eq!((rig.board.phase(), rig.board.lanes[0].flying()), (Phase::Draining, 0));
    rig.send(0, &[Access::Master(true)]);
    rig.turn(Instant::now());
    assert_eq!(rig.board.phase(), Phase::Drained);
}

/// A drain wakes a thread that sleeps.
#[test]
fn a_drain_is_heard() {
    let mut rig = Rig::new(Manner::Answers, 1);
    let thread = rig.start();
    thread::sleep(Duration::from_millis(30));
    for (on, phase) in [(true, Phase::Drained), (false, Phase::Running)] {
        let begin = Instant::now();
        rig.orders.drain(on);
        while rig.board.phase() != phase {
            assert!(begin.elapsed() < Duration::from_millis(900), "it waited for its round");
            thread::sleep(Duration::from_millis(1));
        }
    }
    rig.stop.ask();
    thread.join().unwrap();
}

#[test]
fn each_state_of_a_guest_is_shown() {
    let mut rig = Rig::new(Manner::Silent, 1);
    let after = |rig: &mut Rig, accesses: &[Access]| {
        rig.send(0, accesses);
        rig.turn(Instant::now());
        rig.board.guests[0].state()
    };
    assert_eq!(after(&mut rig, &[]), GuestState::Waiting);
    rig.guests[0].connect(None).unwrap();
    assert_eq!(after(&mut rig, &[Access::Master(true)]), GuestState::Connected);
    assert_eq!(after(&mut rig, &[write_cc(1), RING]), GuestState::Enabled);
    assert_eq!(after(&mut rig, &[Access::Disconnect]), GuestState::Ending);
    rig.fake.state().completed = 1;
    assert_eq!(after(&mut rig, &[]), GuestState::Waiting);
    rig.guests[0].connect(None).unwrap();
    rig.fake.state().fatal = true;
    assert_eq!(after(&mut rig, &[write_cc(1)]), GuestState::Failed);
    rig.fake.state().fatal = false;
    assert_eq!(after(&mut rig, &[write_cc(0)]), GuestState::Connected);
}
