//! Machines that the program starts, and how they end with it. What plays QEMU is a shell, or the test here that is ignored.
#![allow(clippy::unwrap_used, clippy::expect_used, clippy::panic)]

mod client;
mod guest;
mod program;

use std::fs::OpenOptions;
use std::path::Path;
use std::time::{Duration, Instant};

use client::{Client, Memory};
use guest::{is_real, Bells, Folder, Guest, BYTES};
use nix::sys::signal::{kill, Signal};
use nix::unistd::Pid;
use program::Program;

/// How long a test waits for what has to come.
const PATIENCE: Duration = Duration::from_secs(20);
/// The variables by which the machine gets its words, and the file into which it writes what it has done.
const WORDS: &str = "NVMED_TEST_WORDS";
const NOTES: &str = "NVMED_TEST_NOTES";

/// The configuration of a machine that is these words.
fn started(words: &str) -> String {
    format!("drive ram 16M\nguest 0 memory {BYTES}\nextent 0 0 2048\nstart 0 {words}\n")
}

/// Waits until a file has a line, and gives it.
fn line_of(path: &Path, beginning: &str) -> String {
    let begin = Instant::now();
    loop {
        let text = std::fs::read_to_string(path).unwrap_or_default();
        let whole = text.rsplit_once('\n').map_or("", |(whole, _)| whole);
        if let Some(line) = whole.lines().find(|line| line.starts_with(beginning)) {
            return line.to_owned();
        }
        assert!(begin.elapsed() < PATIENCE, "no line {beginning}: {text:?}");
        std::thread::sleep(Duration::from_millis(10));
    }
}

fn is_there(process: &str) -> bool {
    let process = process.parse().unwrap();
    kill(Pid::from_raw(process), None).is_ok()
}

/// Nobody connects: the machine ends with the program all the same.
#[test]
fn a_machine_that_never_connects() {
    let folder = Folder::new("silent-machine");
    let notes = folder.path("notes");
    let words = format!("sh -c \"echo $$ > {}; exec sleep 1000\"", notes.display());
    let mut program = Program::start(&folder, &started(&words), &[]);
    let process = line_of(&notes, "");
    assert!(is_there(&process));
    program.signal(Signal::SIGTERM);
    let said = program.said();
    assert_eq!(program.status(), 0, "{said}");
    assert!(!is_there(&process), "{said}");
}

/// A machine whose connection has ended goes on without its drive, until the program ends; then it ends, too.
#[test]
fn a_machine_that_goes_on_without_its_drive() {
    let folder = Folder::new("other-machine");
    let notes = folder.path("notes");
    let test = std::env::current_exe().unwrap();
    // its words come after those of the shell, which passes them on by a variable
    let script = format!(
        "{WORDS}=$* {NOTES}={} exec {} --ignored --exact machine",
        notes.display(),
        test.display()
    );
    let mut program = Program::start(&folder, &started(&format!("sh -c \"{script}\" sh")), &[]);
    let process = line_of(&notes, "gone ").split_off("gone ".len());
    // longer than it takes until a process is found to have ended
    std::thread::sleep(Duration::from_millis(300));
    assert!(!program.has_ended() && is_there(&process));
    program.signal(Signal::SIGTERM);
    let said = program.said();
    assert_eq!(program.status(), 0, "{said}");
    assert!(said.contains("guest 0: the client closed the connection"), "{said}");
    assert!(!is_there(&process), "{said}");
}

/// Plays QEMU: takes its memory and the socket from its words, works as a guest does, closes its connection, and goes on.
#[test]
#[ignore = "a_machine_that_goes_on_without_its_drive starts it"]
fn machine() {
    let words = std::env::var(WORDS).unwrap();
    let between = |before: &str, after: &str| {
        let rest = words.split_once(before).unwrap().1;
        rest.split_once(after).unwrap().0.to_owned()
    };
    let memory = Memory {
        file: OpenOptions::new()
            .read(true)
            .write(true)
            .open(between("mem-path=", " "))
            .unwrap(),
        bytes: BYTES,
    };
    let client = Client::connect(Path::new(&between("\"path\":\"", "\""))).unwrap();
    let mut guest = Guest::on(client, memory, Bells::Page).unwrap();
    if is_real() {
        guest.bring_up().unwrap();
        guest.write_blocks(0, 7).unwrap();
        assert_eq!(guest.read_blocks(0).unwrap(), [7; 4096]);
    }
    drop(guest);
    let line = format!("gone {}\n", std::process::id());
    std::fs::write(std::env::var(NOTES).unwrap(), line).unwrap();
    std::thread::sleep(Duration::from_secs(100));
}
