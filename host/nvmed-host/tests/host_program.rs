//! The program itself: its words, its statuses, its end, and what it costs while nothing happens.
#![allow(clippy::unwrap_used, clippy::expect_used, clippy::panic)]

mod client;
mod guest;
mod program;

use std::io::Read;
use std::time::{Duration, Instant};

use client::hostile::{odd_descriptors, Hostile};
use client::Client;
use guest::{configuration, drive_file, is_real, Folder};
use nix::sys::signal::Signal;
use program::{connect, run, Program};

#[test]
fn words_and_statuses() {
    let (status, said, _) = run(&["--help"]);
    assert_eq!(status, 0);
    for line in [
        "drive ram SIZE [FILE]",
        "drive file PATH",
        "drive nvme /dev/ng0n1",
        "drive qemu",
        "drive vfio",
        "lanes N",
        "spin N",
        "control PATH",
        "guest G memory SIZE [FILE]",
        "extent G BASE BLOCKS",
        "share G TAGS",
        "limit G iops N",
        "limit G bytes SIZE",
        "descriptors G N",
        "version G",
        "machine G",
        "trust G",
        "doorbells G",
        "interrupts G",
        "listen G PATH",
        "start G WORD..",
        "user G NAME",
    ] {
        assert!(said.contains(line), "{line}");
    }
    let (status, said, _) = run(&["--version"]);
    assert_eq!(status, 0);
    assert!(said.starts_with("nvmed-host ") && said.contains("library"), "{said}");
    for wrong in [&[][..], &["--what"], &["a", "b"], &["check"]] {
        assert_eq!(run(wrong).0, 2, "{wrong:?}");
    }
}

#[test]
fn a_configuration_is_checked() {
    let folder = Folder::new("check");
    let path = folder.path("file");
    let name = path.to_str().unwrap();
    std::fs::write(&path, configuration(&folder, 2, "")).unwrap();
    assert_eq!(run(&["check", name]).0, 0);
    assert!(!folder.path("g0").exists(), "nothing is started");
    std::fs::write(&path, "drive ram 1M\nlanes 9\n").unwrap();
    for words in [&["check", name][..], &[name]] {
        let (status, _, said) = run(words);
        assert_eq!(status, 1);
        assert!(said.contains("line 2"), "{said}");
    }
    assert_eq!(run(&["check", "/no/such/file"]).0, 1);
}

#[test]
fn a_signal_ends_it_cleanly() {
    for signal in [Signal::SIGTERM, Signal::SIGINT, Signal::SIGHUP] {
        let folder = Folder::new(&format!("signal-{signal}"));
        let image = folder.path("image");
        let text =
            configuration(&folder, 1, "").replace("drive ram 16M", &format!("drive ram 16M {}", image.display()));
        let mut program = Program::start(&folder, &text, &[]);
        let mut guest = connect(&folder, "g0");
        if is_real() {
            guest.bring_up().unwrap();
            guest.write_blocks(0, 7).unwrap();
        }
        program.signal(signal);
        assert_eq!(program.status(), 0, "{signal}");
        assert!(!folder.path("g0").exists(), "its socket's path is gone");
        if is_real() {
            let mut file = std::fs::File::open(&image).unwrap();
            let mut bytes = [0; 4096];
            file.read_exact(&mut bytes).unwrap();
            assert_eq!(bytes, [7; 4096]);
        }
    }
}

/// A drive by the kernel's passthrough commands is an NVMe namespace, and nothing else.
#[test]
fn a_device_that_is_no_namespace_is_refused() {
    let folder = Folder::new("no-namespace");
    let text = configuration(&folder, 1, "").replace("drive ram 16M", "drive nvme /dev/null");
    let mut program = Program::start(&folder, &text, &[]);
    assert_eq!(program.status(), 1);
    let said = program.said();
    let words = "line 1: the drive: /dev/null: is no generic NVMe device such as /dev/ng0n1";
    assert!(said.contains(words), "{said}");
}

/// A file that is there is the drive: it is opened, locked, written directly, and keeps its length.
#[test]
fn a_file_is_the_drive() {
    let folder = Folder::new("file-drive");
    let Some(path) = drive_file(&folder) else { return };
    let drive = format!("drive file {}", path.display());
    let text = configuration(&folder, 1, "").replace("drive ram 16M", &drive);
    let mut program = Program::start(&folder, &text, &[]);
    let mut guest = connect(&folder, "g0");
    if is_real() {
        guest.bring_up().unwrap();
        assert_eq!(guest.write_blocks(8, 7).unwrap().status, 0);
        assert_eq!(guest.command(1, 0, 0, [0; 3]).unwrap().status, 0, "a Flush");
        assert_eq!(guest.read_blocks(8).unwrap(), [7; 4096]);
    }
    program.signal(Signal::SIGTERM);
    assert_eq!(program.status(), 0);
    let said = program.said();
    if is_real() {
        // else nothing has waited for the drive to be there
        let line = format!("the drive: 32768 blocks in the file {}", path.display());
        assert!(said.contains(&line), "{said}");
    }
    let bytes = std::fs::read(&path).unwrap();
    assert_eq!(bytes.len(), 16 << 20);
    assert!(bytes[..4096].iter().all(|byte| *byte == 0));
    if is_real() {
        assert_eq!(bytes[4096..8192], [7; 4096]);
    }
    // the extents do not fit into one that is shorter
    std::fs::File::options()
        .write(true)
        .open(&path)
        .unwrap()
        .set_len(4096)
        .unwrap();
    let mut program = Program::start(&folder, &text, &[]);
    assert_eq!(program.status(), 1);
    let said = program.said();
    let words = "has 8 blocks of 512 bytes, and the extents need 2048";
    assert!(said.contains("line 1: the drive: ") && said.contains(words), "{said}");
}

#[test]
fn it_ends_with_the_guests_that_it_started() {
    let folder = Folder::new("start");
    let text = "drive ram 1M\nguest 0 memory 1M\nextent 0 0 8\nstart 0 sh -c \"exit 5\"\n";
    let mut program = Program::start(&folder, text, &[]);
    assert_eq!(program.status(), 0);
    let said = program.said();
    assert!(said.contains("guest 0: its process ended with status 5"), "{said}");
    let text = "drive ram 1M\nguest 0 memory 1M\nextent 0 0 8\nstart 0 /no/such/program\n";
    let mut program = Program::start(&folder, text, &[]);
    assert_eq!(program.status(), 1);
    let said = program.said();
    assert!(said.contains("line 4") && said.contains("/no/such/program"), "{said}");
}

/// Where a user is named, the processes of others are refused, and the socket goes on.
#[test]
fn a_client_of_another_user_is_refused() {
    let folder = Folder::new("user");
    let own = nix::unistd::Uid::effective().as_raw();
    let text = configuration(&folder, 2, &format!("user 0 {}\nuser 1 {own}\n", own + 1));
    let mut program = Program::start(&folder, &text, &[]);
    drop(connect(&folder, "g1"));
    for _ in 0..3 {
        let answer = Client::connect(&folder.path("g0")).and_then(|mut client| client.version());
        assert!(answer.is_err(), "it is taken: {answer:?}");
    }
    program.signal(Signal::SIGTERM);
    assert_eq!(program.status(), 0);
    let said = program.said();
    assert!(
        said.contains(&format!("guest 0: a connection is refused: it is of user {own}")),
        "{said}"
    );
}

#[test]
fn a_user_that_is_not_there_is_refused() {
    let folder = Folder::new("no-user");
    let path = folder.path("file");
    std::fs::write(&path, configuration(&folder, 1, "user 0 no-such-user\n")).unwrap();
    let (status, _, said) = run(&[path.to_str().unwrap()]);
    assert_eq!(status, 1);
    assert!(said.contains("there is no user no-such-user"), "{said}");
    assert!(!folder.path("g0").exists());
}

/// What the mediator refuses leaves no image behind, nor a crash.
#[test]
fn a_set_up_that_is_refused_makes_nothing() {
    let folder = Folder::new("refused");
    let image = folder.path("image");
    let text = format!(
        "drive ram 2200G {}\nguest 0 memory 1M\nextent 0 0 4294967296\nlisten 0 {}\n",
        image.display(),
        folder.path("g0").display()
    );
    let mut program = Program::start(&folder, &text, &[]);
    assert_eq!(program.status(), 1);
    assert!(!image.exists());
}

/// Clients can connect before the drive is there: their sockets go with it.
#[test]
fn a_drive_that_cannot_be_opened_leaves_no_socket_behind() {
    let folder = Folder::new("no-drive");
    let image = folder.path("no/such/image");
    let text = configuration(&folder, 2, "").replace("drive ram 16M", &format!("drive ram 16M {}", image.display()));
    let mut program = Program::start(&folder, &text, &[]);
    assert_eq!(program.status(), 1);
    let said = program.said();
    assert!(
        said.contains("line 1: the drive: ") && said.contains("no/such/image"),
        "{said}"
    );
    for guest in ["g0", "g1"] {
        assert!(!folder.path(guest).exists(), "{guest}");
    }
}

/// Nobody reads what it says, of which there is much.
#[test]
fn lines_that_nobody_reads() {
    let folder = Folder::new("unread");
    let mut program = Program::start(&folder, &configuration(&folder, 2, ""), &["--statistics"]);
    let mut honest = connect(&folder, "g0");
    if !is_real() {
        return;
    }
    honest.bring_up().unwrap();
    let mut hostile = Hostile::new(3);
    for _ in 0..2000 {
        if let Ok(client) = Client::connect(&folder.path("g1")) {
            let _ = hostile.play(&client, &odd_descriptors().unwrap());
        }
    }
    let longest = honest.longest_read(300).unwrap();
    assert!(longest < Duration::from_secs(2), "{longest:?}");
    program.signal(Signal::SIGTERM);
    let begin = Instant::now();
    assert_eq!(program.status(), 0);
    assert!(begin.elapsed() < Duration::from_secs(8), "nobody has to read it");
}

/// With a guest whose controller is enabled and does nothing, and a doorbell page that is looked at.
#[test]
fn an_idle_program_costs_little() {
    if !is_real() {
        return;
    }
    let folder = Folder::new("idle");
    let program = Program::start(&folder, &configuration(&folder, 1, ""), &[]);
    let mut guest = connect(&folder, "g0");
    guest.bring_up().unwrap();
    guest.write_blocks(0, 7).unwrap();
    std::thread::sleep(Duration::from_millis(200));
    // beside other work each look takes more time: what is so once is enough
    let spent = least_of_three(|| spent_in(&program, Duration::from_secs(4)));
    println!("an idle program: {spent} hundredths of a second in 4 seconds");
    // this build is not optimized, and the machine may be slow; a program that goes on without a pause spends 400
    assert!(spent <= 30, "{spent} hundredths of a second in 4 seconds");
    guest.set_cc(0).unwrap();
    guest.await_ready(0).unwrap();
    let spent = least_of_three(|| spent_in(&program, Duration::from_secs(2)));
    assert!(spent <= 1, "a page of a disabled controller is not looked at");
}

/// Hundredths of a second of processor time that the program spends in such a span.
fn spent_in(program: &Program, span: Duration) -> u64 {
    let before = program.ticks();
    std::thread::sleep(span);
    program.ticks() - before
}

/// The least of up to three measurements; the first that is no more than 1 ends them.
fn least_of_three(mut measure: impl FnMut() -> u64) -> u64 {
    let mut least = u64::MAX;
    for _ in 0..3 {
        least = least.min(measure());
        if least <= 1 {
            break;
        }
    }
    least
}

/// What the program may need beside guests' memory and the drive's blocks: the mediator's area counts.
const OWN: u64 = 16 << 20;

/// Bytes of memory that no other process has, but for the files that are guests' memory.
fn own_memory(maps: &str) -> u64 {
    let mut own = 0;
    let mut counts = true;
    for line in maps.lines() {
        let words: Vec<&str> = line.split_whitespace().collect();
        match words[..] {
            // the head of a mapping: its places, how it may be used, and its file if it has one
            [places, mode, _, _, inode, ..] if places.contains('-') => counts = !(mode.ends_with('s') && inode != "0"),
            ["Private_Clean:" | "Private_Dirty:" | "Swap:", kilobytes, "kB"] if counts => {
                own += kilobytes.parse::<u64>().unwrap() << 10;
            }
            _ => {}
        }
    }
    own
}

/// The drive is in a file, so that its blocks are no memory of the program's.
#[test]
fn its_own_memory_is_small() {
    const GUESTS: usize = 16;
    let folder = Folder::new("memory");
    let image = folder.path("image");
    let text =
        configuration(&folder, GUESTS, "").replace("drive ram 16M", &format!("drive ram 64M {}", image.display()));
    let program = Program::start(&folder, &text, &["--statistics"]);
    let mut guests: Vec<_> = (0..GUESTS)
        .map(|guest| connect(&folder, &format!("g{guest}")))
        .collect();
    if is_real() {
        for guest in &mut guests {
            guest.bring_up().unwrap();
            for block in 0..60 {
                guest.put(1, 1, 0x20_0000, [8 * block, 0, 7]).unwrap();
            }
            guest.ring(1, false).unwrap();
            for _ in 0..60 {
                assert_eq!(guest.await_done(1).unwrap().status, 0);
            }
        }
    }
    let own = own_memory(&program.about("smaps"));
    println!("its own memory, with {GUESTS} guests: {} KiB", own >> 10);
    assert!(own > 1 << 20, "nothing was counted");
    assert!(own < OWN, "{own} bytes");
}
