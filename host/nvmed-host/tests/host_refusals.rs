//! What the program does where the system refuses it something: what it says, what it leaves, and its status.
#![allow(clippy::unwrap_used, clippy::expect_used, clippy::panic)]

mod client;
mod guest;
mod program;

use std::fs::{File, OpenOptions};
use std::io;
use std::os::unix::net::{UnixListener, UnixStream};
use std::process::Command;
use std::time::{Duration, Instant};

use client::{Client, Memory};
use guest::{configuration, is_real, Bells, Folder, Guest, BYTES};
use nix::sys::signal::Signal;
use program::{connect, Program, PROGRAM};

/// How long a test waits for what has to come.
const PATIENCE: Duration = Duration::from_secs(20);

fn wait_for<T>(what: &str, mut look: impl FnMut() -> Option<T>) -> T {
    let begin = Instant::now();
    loop {
        if let Some(found) = look() {
            return found;
        }
        assert!(begin.elapsed() < PATIENCE, "{what} does not come");
        std::thread::sleep(Duration::from_millis(10));
    }
}

/// A configuration of one guest, with these words in place of the usual ones for the drive, the guest's memory, and its connection.
fn lines(drive: &str, memory: &str, connection: &str) -> String {
    format!("drive {drive}\nguest 0 memory {memory}\nextent 0 0 2048\n{connection}\n")
}

#[test]
fn what_cannot_be_used_is_named() {
    let folder = Folder::new("unusable");
    let socket = folder.path("g0");
    let file = folder.path("file");
    File::create(&file).unwrap().set_len(64 << 20).unwrap();
    let (listens, file) = (format!("listen 0 {}", socket.display()), file.display());
    let memory = format!("16M {}", folder.path("memory").display());
    for (text, parts) in [
        (
            lines("qemu /no/socket /no/file", &memory, &listens),
            ["line 1: ", "/no/file: "],
        ),
        (
            lines(&format!("qemu /no/socket {file}"), &memory, &listens),
            [
                "line 1: the drive: QEMU's qtest socket /no/socket: cannot connect: ",
                "-qtest",
            ],
        ),
        (
            lines("vfio 0000:ff:1f.7", &memory, &listens),
            ["line 1: the drive: ", "0000:ff:1f.7"],
        ),
        (
            lines("ram 16M /no/folder/image", "16M", &listens),
            ["line 1: the drive: /no/folder/image: ", "cannot be opened or created"],
        ),
        (
            lines("ram 16M", "16M /no/folder/memory", &listens),
            ["guest 0 (line 2): ", "/no/folder/memory"],
        ),
        (
            lines("ram 16M", "16M", &format!("listen 0 {}", folder.0.display())),
            ["guest 0 (line 4): ", ": is there, and no socket"],
        ),
        (
            lines("ram 16M", "16M", &format!("listen 0 {file}/socket")),
            ["guest 0 (line 4): ", ": cannot be listened on: Not a directory"],
        ),
    ] {
        let mut program = Program::start(&folder, &text, &[]);
        let said = program.said();
        assert_eq!(program.status(), 1, "{text}{said}");
        assert!(parts.iter().all(|part| said.contains(part)), "{text}{said}");
        assert!(!socket.exists(), "{text}");
    }
}

/// A machine that is started has its socket in a folder of its own, which has to be made somewhere.
#[test]
fn a_folder_that_cannot_be_made_is_named() {
    let folder = Folder::new("no-folder");
    let started = folder.path("started");
    let text = lines("ram 16M", "16M", &format!("start 0 touch {}", started.display()));
    let mut command = Command::new(PROGRAM);
    command.env("TMPDIR", "/no/such/folder");
    let mut program = Program::start_by(command, &folder, &text, &[]);
    let said = program.said();
    assert_eq!(program.status(), 1, "{said}");
    let words = "guest 0 (line 4): /no/such/folder: no folder for a socket can be made there: ";
    assert!(said.contains(words), "{said}");
    assert!(!started.exists());
}

/// The sockets of another program, and of one that is gone.
#[test]
fn a_socket_that_another_program_listens_on_is_left_to_it() {
    let folder = Folder::new("taken");
    let path = folder.path("g0");
    let other = UnixListener::bind(&path).unwrap();
    let mut program = Program::start(&folder, &configuration(&folder, 1, ""), &[]);
    let said = program.said();
    assert_eq!(program.status(), 1, "{said}");
    assert!(said.contains(": another process listens there"), "{said}");
    assert!(path.exists());
    drop(other);
    // a child of another test has it, too, until it begins its program
    while UnixStream::connect(&path).is_ok() {
        std::thread::sleep(Duration::from_millis(5));
    }
    let mut program = Program::start(&folder, &configuration(&folder, 1, ""), &[]);
    let _guest = connect(&folder, "g0");
    program.signal(Signal::SIGTERM);
    assert_eq!(program.status(), 0);
}

/// The program with so many descriptors at most: what began it, and what it has said when it has ended.
fn with_descriptors(folder: &Folder, most: u32) -> Program {
    let mut limited = Command::new("sh");
    limited.args(["-c", &format!("ulimit -n {most} && exec \"$0\" \"$@\""), PROGRAM]);
    Program::start_by(limited, folder, &configuration(folder, 2, ""), &[])
}

/// A whole guest on a connection; over the stub as far as that goes.
fn bring_up(client: Client) -> io::Result<Guest> {
    let mut guest = Guest::on(client, Memory::new(BYTES)?, Bells::Page)?;
    if is_real() {
        guest.bring_up()?;
        guest.write_blocks(0, 1)?;
    }
    Ok(guest)
}

/// With each number of descriptors it either says what it could not have, and leaves no socket, or serves a guest, or ends that guest's connection alone.
#[test]
fn each_descriptor_refused_in_turn() {
    // a slow machine may be too late for the few that wait
    assert!((0..3).any(|_| meets_all_ends()));
}

/// Tries one number of descriptors after another, until some are enough. Whether all ends were met.
fn meets_all_ends() -> bool {
    let folder = Folder::new("descriptors");
    let (mut refused, mut lost, mut served, mut waiting) = (0, 0, 0, 0);
    for most in 4.. {
        let mut program = with_descriptors(&folder, most);
        // the last guest's socket is made last, and a connection waits until it is taken
        let client = wait_for("the program's socket, or its end", || {
            let ended = program.has_ended().then_some(None);
            ended.or_else(|| Client::connect(&folder.path("g1")).ok().map(Some))
        });
        let good = client.is_some_and(|client| {
            let wait = Some(Duration::from_millis(500));
            client.socket.set_read_timeout(wait).unwrap();
            let up = bring_up(client);
            if up
                .as_ref()
                .is_err_and(|error| error.kind() == io::ErrorKind::WouldBlock)
            {
                // there is no descriptor for it: it is looked for again, but not all the time
                let before = program.ticks();
                std::thread::sleep(Duration::from_millis(500));
                let spent = program.ticks() - before;
                assert!(spent <= 5, "{most} descriptors: {spent} hundredths of a second");
                waiting += 1;
            }
            up.is_ok()
        });
        if !program.has_ended() {
            program.signal(Signal::SIGTERM);
        }
        let (said, status) = (program.said(), program.status());
        assert!(!said.contains("panicked"), "{most} descriptors: {said}");
        assert!(
            !folder.path("g0").exists() && !folder.path("g1").exists(),
            "{most} descriptors"
        );
        match status {
            0 if good => served += 1,
            0 => lost += 1,
            1 => {
                assert!(
                    !good && said.contains("Too many open files"),
                    "{most} descriptors: {said}"
                );
                refused += 1;
            }
            _ => panic!("{most} descriptors: status {status}: {said}"),
        }
        if served == 3 {
            break;
        }
    }
    println!("{refused} refused, {lost} without a guest, {waiting} of which wait, {served} with one");
    refused > 5 && lost > 2 && waiting > 0
}

/// What guests write into an image that somebody cuts off fails, and the status says so.
#[test]
fn an_image_that_is_cut_off_is_told_by_the_status() {
    if !is_real() {
        return;
    }
    let folder = Folder::new("cut-image");
    let image = folder.path("image");
    let text = configuration(&folder, 1, "").replace("drive ram 16M", &format!("drive ram 16M {}", image.display()));
    let mut program = Program::start(&folder, &text, &[]);
    let mut guest = connect(&folder, "g0");
    guest.bring_up().unwrap();
    assert_eq!(guest.write_blocks(0, 7).unwrap().status, 0);
    OpenOptions::new().write(true).open(&image).unwrap().set_len(0).unwrap();
    // once it was seen no write is taken any more, with Write Fault
    let begin = Instant::now();
    while guest.write_blocks(8, 8).unwrap().status & 0x7ff != 0x280 {
        assert!(begin.elapsed() < PATIENCE);
        std::thread::sleep(Duration::from_millis(50));
    }
    assert_eq!(guest.command(1, 0, 0, [0; 3]).unwrap().status & 0x7ff, 0x280, "a Flush");
    program.signal(Signal::SIGTERM);
    let (said, status) = (program.said(), program.status());
    assert_eq!(status, 3, "{said}");
    assert!(
        said.contains("the drive takes no more writes") && said.contains("was cut off"),
        "{said}"
    );
}
