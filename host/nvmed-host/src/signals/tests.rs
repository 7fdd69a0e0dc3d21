use super::*;
use nix::poll::{poll, PollFd, PollFlags, PollTimeout};
use nix::sys::signal::raise;
use std::process::Command;

const CHILD: &str = "NVMED_HOST_TEST_CHILD";

/// Runs a test of this program in a process of its own, with signals as a careless parent may have left them.
fn run_alone(test: &str) {
    let program = std::env::current_exe().unwrap();
    let words = "trap '' HUP PIPE TERM INT CHLD; exec \"$0\" --exact --nocapture \"$1\"";
    let output = Command::new("/bin/sh")
        .args(["-c", words])
        .arg(program)
        .arg(test)
        .env(CHILD, "1")
        .output()
        .unwrap();
    assert!(output.status.success(), "{}", String::from_utf8_lossy(&output.stderr));
}

fn is_child() -> bool {
    std::env::var_os(CHILD).is_some()
}

fn action(which: Signal) -> libc::sighandler_t {
    // SAFETY: a sigaction of zeros is a valid value, and the call only fills it in.
    unsafe {
        let mut action: libc::sigaction = std::mem::zeroed();
        assert_eq!(libc::sigaction(which as i32, std::ptr::null(), &mut action), 0);
        action.sa_sigaction
    }
}

fn is_ready(signals: &Signals) -> bool {
    poll(&mut [PollFd::new(signals.wake(), PollFlags::POLLIN)], PollTimeout::ZERO) == Ok(1)
}

#[test]
fn signals_are_taken_over_whatever_the_parent_did() {
    if !is_child() {
        return run_alone("signals::tests::signals_are_taken_over_whatever_the_parent_did");
    }
    SigSet::all().thread_set_mask().unwrap();
    assert_eq!(action(Signal::SIGHUP), libc::SIG_IGN);
    let signals = Signals::take_over().unwrap();
    assert_eq!(SigSet::thread_get_mask().unwrap(), SigSet::from_iter(ENDING));
    for which in [Signal::SIGHUP, Signal::SIGTERM, Signal::SIGINT, Signal::SIGCHLD] {
        assert_eq!(action(which), libc::SIG_DFL);
    }
    assert_eq!(action(Signal::SIGPIPE), libc::SIG_IGN);
    // each one that ends the program is taken once
    assert!(!is_ready(&signals) && signals.take() == Ok(None));
    for which in ENDING {
        raise(which).unwrap(); // to this thread
        assert!(is_ready(&signals));
        assert_eq!(signals.take(), Ok(Some(which)));
        assert_eq!(signals.take(), Ok(None));
    }
    // threads have the mask
    let mask = std::thread::spawn(|| SigSet::thread_get_mask().unwrap())
        .join()
        .unwrap();
    assert_eq!(mask, SigSet::from_iter(ENDING));
    // children have a status, no mask, and no action of this program's
    let output = Command::new("/bin/sh")
        .args(["-c", "grep -E '^Sig(Blk|Ign)' /proc/self/status; exit 3"])
        .output()
        .unwrap();
    assert_eq!(output.status.code(), Some(3));
    let text = String::from_utf8(output.stdout).unwrap();
    let set = |name: &str| {
        let line = text.lines().find(|line| line.starts_with(name)).unwrap();
        u64::from_str_radix(line.split_once('\t').unwrap().1, 16).unwrap()
    };
    assert_eq!(set("SigBlk"), 0, "{text}");
    // others may have been ignored by whoever started the tests, as a shell does with SIGQUIT of what it starts beside itself
    let ours = ENDING.into_iter().chain([Signal::SIGPIPE, Signal::SIGCHLD]);
    let ours = ours.fold(0, |set, which| set | 1 << (which as i32 - 1));
    assert_eq!(set("SigIgn") & ours, 0, "{text}");
}
