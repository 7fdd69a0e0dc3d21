#![forbid(unsafe_code)]
//! A server in a thread plays QEMU: PCI configuration space, a controller in memory, and faults.

use std::io::{BufRead, BufReader, Read, Write};
use std::os::unix::net::{UnixListener, UnixStream};
use std::sync::{Arc, Mutex, MutexGuard};
use std::thread::JoinHandle;
use std::time::{Duration, Instant};

use super::*;
use crate::drive::nvme::fake::{Fake, Fault, TestMemory};
use crate::drive::{Budget, Drive, LaneRings, Progress};
use crate::memory::Piece;

const FROM: u64 = 0x10_0000;
const MEMORY: u64 = 3 << 20;
const NEEDS: Needs = Needs {
    admin: FROM,
    blocks: 4096,
    lanes: 2,
    interrupts: false,
};

/// What the server does; at the command number `at` it sends something else, or closes.
#[derive(Clone)]
struct State {
    nvme: Fake,
    config: [u32; 64],
    select: u32,
    bar_bits: u32,
    functions: u32,
    device: u32,
    function: u32,
    deaf: u32,
    stuck: bool,
    ram: u64,
    at: Option<usize>,
    instead: Option<Vec<u8>>,
    commands: usize,
    /// No answers are sent, from the command with this number on.
    silent_from: usize,
    /// It closes in the place of the answer that bus mastering is off.
    closes_at_silence: bool,
    doorbells: Vec<(u64, u32)>,
}

struct Bench {
    memory: Arc<TestMemory>,
    state: Arc<Mutex<State>>,
}

impl State {
    fn config_read(&self) -> u32 {
        let (device, function, offset) = (self.select >> 11 & 31, self.select >> 8 & 7, self.select & 0xff);
        assert!(self.select >> 31 == 1 && self.select >> 16 & 0xff == 0 && offset % 4 == 0);
        let other = device == 0 || (self.function != 0 && device == self.device);
        if other && function == 0 {
            return [0x29c0_8086, 0, 0x0600_0000][(offset as usize / 4).min(2)];
        }
        if device < self.device || device >= self.device + self.functions || function != self.function {
            return u32::MAX;
        }
        self.config[offset as usize / 4]
    }

    fn config_write(&mut self, value: u32) {
        match self.select & 0xff {
            0x10 => {
                self.nvme.violations += u32::from(self.config[1] & 2 != 0); // it is not to answer while it is sized
                if !self.stuck || value == u32::MAX {
                    self.config[4] = value & self.bar_bits | self.config[4] & 15;
                }
            }
            0x14 => self.config[5] = value,
            4 => self.config[1] = value & 0xffff & !self.deaf,
            _ => panic!("a write of configuration space"),
        }
    }

    fn in_bar(&self, address: u64) -> Option<u32> {
        let (base, bytes) = (
            u64::from(self.config[4] & !15),
            u64::from((!self.bar_bits).wrapping_add(1)),
        );
        (self.config[1] & 2 != 0 && address >= base && address - base < bytes).then(|| (address - base) as u32)
    }

    fn line(&mut self, memory: &TestMemory, line: &str) -> String {
        let number = |word: &str| u64::from_str_radix(word.trim_start_matches("0x"), 16).unwrap();
        let words: Vec<&str> = line.split(' ').collect();
        let value = match words[..] {
            ["outl", port, value] => {
                match number(port) {
                    0xcf8 => self.select = number(value) as u32,
                    0xcfc => self.config_write(number(value) as u32),
                    _ => panic!("a port"),
                }
                return "OK\n".into();
            }
            ["inl", "0xcfc"] => self.config_read(),
            ["readl", address] => match self.in_bar(number(address)) {
                Some(offset) => self.nvme.read(offset),
                None if number(address) < self.ram.min(MEMORY) => {
                    u32::from_le_bytes(memory.get(number(address), 4).try_into().unwrap())
                }
                None => 0,
            },
            ["writel", address, value] => {
                if let Some(offset) = self.in_bar(number(address)) {
                    if offset >= 0x1000 {
                        self.doorbells.push((number(address), number(value) as u32));
                    }
                    self.nvme.write(offset, number(value) as u32);
                }
                return "OK\n".into();
            }
            _ => panic!("a command: {line}"),
        };
        format!("OK {value:#018x}\n")
    }
}

impl Bench {
    fn new(change: impl FnOnce(&mut State)) -> Self {
        let memory = TestMemory::new(FROM, MEMORY);
        let mut config = [0u32; 64];
        (config[0], config[2], config[4], config[5]) = (0x0010_1b36, 0x0108_0202, 4, 0x1234_5678);
        let mut state = State {
            nvme: Fake::new(memory.clone()),
            config,
            select: 0,
            bar_bits: 0xffff_c000,
            functions: 1,
            device: 3,
            function: 0,
            deaf: 0,
            stuck: false,
            ram: MEMORY,
            at: None,
            instead: None,
            commands: 0,
            silent_from: usize::MAX,
            closes_at_silence: false,
            doorbells: Vec::new(),
        };
        change(&mut state);
        Self {
            memory,
            state: Arc::new(Mutex::new(state)),
        }
    }

    fn state(&self) -> MutexGuard<'_, State> {
        self.state.lock().unwrap()
    }

    fn seen(&self) -> State {
        self.state().clone()
    }

    /// A connection to a server.
    fn serve(&self) -> (UnixStream, JoinHandle<()>) {
        let (ours, theirs) = UnixStream::pair().unwrap();
        let (memory, state) = (self.memory.clone(), self.state.clone());
        let thread = std::thread::spawn(move || {
            let mut reader = BufReader::new(theirs.try_clone().unwrap());
            let mut writer = theirs;
            loop {
                let mut line = String::new();
                if reader.read_line(&mut line).unwrap_or(0) == 0 {
                    return;
                }
                let mut s = state.lock().unwrap();
                let number = s.commands;
                s.commands += 1;
                let is_silence = s.select & 0xff == 4 && line.starts_with("outl 0xcfc 0x400");
                if s.closes_at_silence && is_silence {
                    return;
                }
                let answer = if s.at == Some(number) {
                    match s.instead.clone() {
                        Some(bytes) => bytes,
                        None => return,
                    }
                } else {
                    let answer = s.line(&memory, line.trim_end()).into_bytes();
                    if number >= s.silent_from {
                        continue;
                    }
                    answer
                };
                drop(s);
                if writer.write_all(&answer).is_err() {
                    return;
                }
            }
        });
        (ours, thread)
    }

    fn open_as(&self, needs: Needs) -> (Result<Box<QtestDrive>, DriveError>, JoinHandle<()>) {
        let (stream, thread) = self.serve();
        (QtestDrive::on(stream, self.memory.clone(), needs).map(Box::new), thread)
    }

    fn open(&self) -> (Box<QtestDrive>, JoinHandle<()>) {
        let (drive, thread) = self.open_as(NEEDS);
        (drive.unwrap(), thread)
    }

    fn refused_with(&self, part: &str) {
        let begin = Instant::now();
        let (drive, thread) = self.open_as(NEEDS);
        let said = drive.err().unwrap().to_string();
        assert!(said.contains(part), "{said:?} has no {part:?}");
        thread.join().unwrap();
        assert!(begin.elapsed() < Duration::from_secs(9));
        assert_eq!(self.seen().config[1] & 4, 0, "{part}"); // without bus mastering
    }
}

fn refused(part: &str, change: impl FnOnce(&mut State)) {
    Bench::new(change).refused_with(part);
}

fn rings(lane: u64) -> LaneRings {
    let at = 0x11_0000 + 0x4000 * lane;
    LaneRings {
        submission: at,
        completion: at + 0x2000,
        entries: 65,
    }
}

/// Looks until it is so, for ten seconds.
fn soon(what: impl Fn() -> bool) {
    let begin = Instant::now();
    while !what() {
        assert!(begin.elapsed() < Duration::from_secs(10));
        std::thread::sleep(Duration::from_millis(1));
    }
}

const BUDGET: Budget = Budget {
    commands: 64,
    bytes: 1 << 20,
};

#[test]
fn a_good_drive_is_opened_used_and_closed() {
    let bench = Bench::new(|s| {
        s.config[1] = 0x406; // left on
        (s.at, s.instead) = (Some(8), Some(b"IRQ raise 3\nIRQ lower 3\nOK\n".to_vec()));
        // a write of a port
    });
    bench.memory.put(MEMORY - 4, &0xabcd_ef01u32.to_le_bytes());
    let (mut drive, thread) = bench.open();
    assert!(
        drive
            .describe()
            .starts_with("of QEMU at 00:03.0: A fake controller, serial SN 1"),
        "{}",
        drive.describe()
    );
    drive.create_lanes(&[rings(0), rings(1)]).unwrap();
    let s = bench.seen();
    assert_eq!((s.config[4], s.config[5], s.config[1]), (0xfe00_0004, 0, 0x406));
    drive.ring_submission(1, 3).unwrap();
    drive.ring_completion(1, 3).unwrap();
    soon(|| bench.seen().nvme.submission[2].doorbell == 3 && bench.seen().nvme.completion[2].doorbell == 3);
    for _ in 0..20 {
        drive.check().unwrap();
        assert_eq!(drive.work(BUDGET).unwrap(), Progress::default());
        std::thread::sleep(Duration::from_millis(1));
    }
    assert!(drive.wake().is_none() && !drive.recover().unwrap().is_recovering());
    drive.close().unwrap();
    thread.join().unwrap();
    let s = bench.seen();
    assert_eq!(
        (s.config[1], s.nvme.violations, s.nvme.shutdowns, s.nvme.deleted),
        (0x400, 0, 1, 4)
    );
    assert_eq!(bench.memory.get(MEMORY - 4, 4), 0xabcd_ef01u32.to_le_bytes());
}

#[test]
fn a_fatal_status_leads_to_a_reset() {
    let bench = Bench::new(|_| {});
    let (mut drive, thread) = bench.open();
    drive.create_lanes(&[rings(0), rings(1)]).unwrap();
    bench.state().nvme.csts |= 2;
    let begin = Instant::now();
    while bench.seen().nvme.enables < 2 || drive.recover().unwrap().is_recovering() {
        drive.check().unwrap();
        drive.work(BUDGET).unwrap();
        assert!(begin.elapsed() < Duration::from_secs(10));
        std::thread::sleep(Duration::from_micros(200));
    }
    assert_eq!(
        (bench.seen().nvme.submission[2].slots, bench.seen().nvme.violations),
        (65, 0)
    );
    drive.recover().unwrap().reset().unwrap();
    while drive.recover().unwrap().is_recovering() {
        drive.work(BUDGET).unwrap();
        std::thread::sleep(Duration::from_micros(200));
    }
    assert_eq!(drive.recover().unwrap().oldest(0), None);
    drive.recover().unwrap().abort(0).unwrap();
    drive.close().unwrap();
    thread.join().unwrap();
}

#[test]
fn places() {
    // the last function of a bus; a BAR of 4 MiB; one of 32 bits, whose neighbor is another. Then the last command of all is not answered.
    for answers in [true, false] {
        let bench = Bench::new(|s| (s.device, s.function, s.bar_bits, s.config[4]) = (31, 7, 0xffc0_0000, 0));
        let (drive, thread) = bench.open();
        assert!(drive.describe().contains("of QEMU at 00:1f.7: "));
        assert_eq!(
            (bench.seen().config[4], bench.seen().config[5]),
            (0xfe00_0000, 0x1234_5678)
        );
        bench.state().closes_at_silence = !answers;
        let closed = drive.close();
        assert_eq!(closed.is_ok(), answers);
        if let Err(why) = closed {
            assert!(why.to_string().contains("QEMU has closed it"), "{why}");
        }
        thread.join().unwrap();
    }
}

#[test]
fn the_function_is_checked() {
    refused("there is no NVMe function on bus 0", |s| s.functions = 0);
    refused("there are two NVMe functions on bus 0: 00:03.0 and 00:04.0", |s| {
        s.functions = 2
    });
    refused("there is no NVMe function on bus 0", |s| s.config[2] = 0x0108_0102);
    refused("BAR0 is no memory of 32 or 64 bits: 0x0", |s| {
        (s.bar_bits, s.config[4]) = (0, 0)
    });
    refused("BAR0 is no memory of 32 or 64 bits", |s| s.config[4] = 1);
    refused("BAR0 is no memory of 32 or 64 bits", |s| s.config[4] = 2);
    refused("BAR0 has 0x10 bytes, not 4 KiB to 4 MiB", |s| s.bar_bits = 0xffff_fff0);
    refused("BAR0 has 0x1000000 bytes, not 4 KiB to 4 MiB", |s| {
        s.bar_bits = 0xff00_0000
    });
    refused("BAR0 has 0xfff4000 bytes, not 4 KiB to 4 MiB", |s| {
        s.bar_bits = 0xf000_c000
    });
    refused("not 4 KiB to 4 MiB", |s| s.bar_bits = 0xf0ff_c000);
    refused("cannot be switched on: the command register is 0x404", |s| s.deaf = 2);
    refused("cannot be switched on: the command register is 0x402", |s| s.deaf = 4);
    refused("BAR0 cannot be put at 0xfe000000: it reads as 0xffffc004", |s| {
        s.stuck = true
    });
    refused("QEMU's RAM at 0x100000 is not the window's memory", |s| s.ram = 0);
    refused("QEMU's RAM at 0x2ffffc is not the window's memory", |s| {
        s.ram = MEMORY - 4
    });
    refused("transfers at most 8 KiB", |s| s.nvme.controller[77] = 1);
    refused(
        "the doorbells of 2 lanes end at 0x1018, beyond the 0x1000 bytes of BAR0",
        |s| s.bar_bits = 0xffff_f000,
    );
    refused("did not become ready within 500 ms", |s| {
        (s.nvme.fault, s.nvme.cap) = (Fault::NeverReady, s.nvme.cap & !(0xff << 24) | 1 << 24);
    });
}

#[test]
fn the_window_has_to_lie_where_qemu_has_memory() {
    let with = |pieces: &[(u64, u64)], part: &str, ram: u64| {
        let mut bench = Bench::new(|s| s.ram = ram);
        let pieces: Vec<Piece> = pieces
            .iter()
            .map(|(host, bytes)| Piece {
                host: *host,
                bytes: *bytes,
            })
            .collect();
        let end = pieces.iter().map(|p| p.host + p.bytes).max().unwrap();
        bench.memory = TestMemory::with(end, pieces);
        bench.refused_with(part);
    };
    with(
        &[(0xff000, 0x2000)],
        "a piece of the window, 0xff000 and 0x2000 bytes, is not in 0x100000 to 0xb0000000",
        MEMORY,
    );
    with(&[(0xafff_f000, 0x2000)], "is not in 0x100000 to 0xb0000000", MEMORY);
    with(
        &[(0xafff_f000, 0x1000)],
        "QEMU's RAM at 0xaffff000 is not the window's memory",
        MEMORY,
    );
    with(&[(0xb000_0000, 0x2000)], "is not in 0x100000 to 0xb0000000", MEMORY);
    with(
        &[(FROM, 0x10_0000), (0x20_0000, 0x1000)],
        "QEMU's RAM at 0x200000 is not the window's memory",
        0x20_0000,
    );
}

/// Each kind of bad answer, to each of the first commands, among which are reads and writes.
#[test]
fn answers_are_checked() {
    let bad: [(&[u8], &str); 13] = [
        (b"\n", "an answer is not understood"),
        (b"OK 0x\n", "an answer is not understood"),
        (b"OK 0xg\n", "an answer is not understood"),
        (b"OK  \n", "an answer is not understood"),
        (b"OK 0x1 \n", "an answer is not understood"),
        (b"ok\n", "an answer is not understood: ok"),
        (b"FAIL Unknown\n", "an answer is not understood: FAIL Unknown"),
        (b"OK 0x100000000\n", "an answer is not understood"),
        (b"OK 0x00000000000000001\n", "an answer is not understood"),
        (b"OK\r\n", "an answer is not understood: OK?"),
        (b"OKAY\n", "an answer is not understood"),
        (b"OK\0\n", "an answer is not understood: OK?"),
        (b"OK 0x+1\n", "an answer is not understood"),
    ];
    for at in 0..12 {
        for (bytes, part) in bad {
            refused(part, |s| (s.at, s.instead) = (Some(at), Some(bytes.to_vec())));
        }
        refused("QEMU has closed it", |s| s.at = Some(at));
    }
    refused("an answer is too long", |s| {
        (s.at, s.instead) = (Some(3), Some(vec![b'x'; 129]))
    });
    refused("qtest socket: an answer", |s| {
        (s.at, s.instead) = (Some(3), Some(b"OK\nOK\n".to_vec()))
    });
}

fn pair() -> (Socket, UnixStream) {
    let (ours, theirs) = UnixStream::pair().unwrap();
    let mut socket = Socket::on(ours).unwrap();
    socket.set_wait(Duration::from_millis(100));
    (socket, theirs)
}

#[test]
fn silence_is_given_up_in_time() {
    for sent in ["", "OK 0x00", "IRQ raise 1\n"] {
        let (mut socket, mut theirs) = pair();
        theirs.write_all(sent.as_bytes()).unwrap();
        let begin = Instant::now();
        assert!(socket
            .read(0)
            .unwrap_err()
            .to_string()
            .contains("QEMU does not answer in time"));
        assert!((100..9000).contains(&begin.elapsed().as_millis()));
        assert!(socket.read(0).unwrap_err().to_string().contains("has failed before"));
        assert!(socket.work().unwrap_err().to_string().contains("has failed before"));
    }
    // interrupts without end
    let (mut socket, mut theirs) = pair();
    let thread = std::thread::spawn(move || while theirs.write_all(b"IRQ raise 1\n").is_ok() {});
    assert!(socket
        .read(0)
        .unwrap_err()
        .to_string()
        .contains("QEMU does not answer in time"));
    drop(socket);
    thread.join().unwrap();
    // an answer to no command
    let (mut socket, mut theirs) = pair();
    theirs.write_all(b"OK 0x1\nOK\n").unwrap();
    assert!(socket
        .read(0)
        .unwrap_err()
        .to_string()
        .contains("an answer came to no command: OK"));
}

#[test]
fn posted_writes_wait_for_nothing() {
    let (mut socket, _theirs) = pair();
    let begin = Instant::now();
    for value in 0..MOST_POSTED as u32 {
        socket.post(0x1000, value).unwrap();
    }
    assert!(socket.is_busy());
    assert!(socket
        .post(0, 0)
        .unwrap_err()
        .to_string()
        .contains("QEMU has not answered 4096 commands"));
    assert!(begin.elapsed() < Duration::from_secs(5));
    // QEMU takes nothing more from its socket: the rest is kept and sent later
    let (mut socket, theirs) = pair();
    for value in 0..4000 {
        socket.post(0x1000, value).unwrap();
    }
    let reader = std::thread::spawn(move || {
        let mut writer = theirs.try_clone().unwrap();
        let mut reader = BufReader::new(theirs);
        let mut line = String::new();
        for value in 0..4000 {
            line.clear();
            reader.read_line(&mut line).unwrap();
            assert_eq!(line, format!("writel 0x1000 {value:#x}\n"));
            writer.write_all(b"OK\n").unwrap();
        }
        line.clear();
        reader.read_line(&mut line).unwrap();
        writer.write_all(b"OK 0x7\n").unwrap();
        let mut rest = Vec::new();
        let _ = reader.read_to_end(&mut rest);
    });
    socket.set_wait(Duration::from_secs(20));
    while socket.is_busy() {
        socket.work().unwrap();
    }
    assert_eq!(socket.read(0).unwrap(), 7);
    drop(socket);
    reader.join().unwrap();
    // late answers to posted writes
    let (mut socket, mut theirs) = pair();
    socket.post(0, 0).unwrap();
    socket.work().unwrap();
    std::thread::sleep(Duration::from_millis(120));
    theirs.write_all(b"OK\n").unwrap();
    socket.work().unwrap();
    socket.post(0, 0).unwrap();
    std::thread::sleep(Duration::from_millis(120));
    assert!(socket
        .work()
        .unwrap_err()
        .to_string()
        .contains("QEMU does not answer in time"));
}

#[test]
fn values_that_nobody_waits_for_are_taken_all_the_same() {
    let (mut socket, mut theirs) = pair();
    socket.want(0).unwrap();
    socket.forget_value();
    socket.want(4).unwrap();
    theirs.write_all(b"OK 0x1\n").unwrap();
    socket.work().unwrap();
    assert_eq!(socket.take_value(), None);
    theirs.write_all(b"OK 0x2\n").unwrap();
    socket.work().unwrap();
    assert_eq!((socket.take_value(), socket.is_busy()), (Some(2), false));
    socket.want(4).unwrap();
    socket.forget_value();
    theirs.write_all(b"OK\n").unwrap();
    assert!(socket
        .work()
        .unwrap_err()
        .to_string()
        .contains("an answer is not understood: OK"));
}

#[test]
fn connecting() {
    let path = std::env::temp_dir().join(format!("nvmed-qtest-{}", std::process::id()));
    let said = |path: &Path| Socket::connect(path).unwrap_err().to_string();
    assert!(said(&path).contains("cannot connect: No such file or directory"));
    let listener = UnixListener::bind(&path).unwrap();
    Socket::connect(&path).unwrap();
    drop(listener);
    assert!(said(&path).contains("Connection refused"));
    std::fs::remove_file(&path).unwrap();
    assert!(said(Path::new(&"a".repeat(200))).contains("cannot connect"));
    assert!(QtestDrive::open(&path, TestMemory::new(FROM, MEMORY), NEEDS).is_err());
}

/// QEMU dies, or stops, while the drive is in use.
#[test]
fn qemu_ends() {
    let bench = Bench::new(|_| {});
    let (mut drive, thread) = bench.open();
    drive.create_lanes(&[rings(0), rings(1)]).unwrap();
    drive.work(BUDGET).unwrap();
    while drive.controller.access_mut().socket.is_busy() {
        drive.work(BUDGET).unwrap();
    }
    let commands = bench.seen().commands;
    bench.state().at = Some(commands);
    drive.ring_submission(0, 1).unwrap(); // it isn't known yet
    thread.join().unwrap();
    assert!(drive
        .work(BUDGET)
        .unwrap_err()
        .to_string()
        .contains("QEMU has closed it"));
    assert!(drive.check().is_err());
    assert!(drive.ring_submission(0, 2).is_err());
    assert!(drive.close().is_err());
}

/// No access of QEMU's memory is made by way of a register that is none.
#[test]
fn what_is_no_dword_of_the_bar_is_refused() {
    let bench = Bench::new(|_| {});
    let (mut drive, thread) = bench.open();
    let bar = drive.controller.access_mut();
    let end = bar.bytes();
    // what was posted before is counted once it was read there
    let before = loop {
        let seen = bench.seen().commands;
        std::thread::sleep(Duration::from_millis(100));
        if bench.seen().commands == seen {
            break seen;
        }
    };
    for offset in [1, 2, end - 2, end, u32::MAX - 3, u32::MAX] {
        let words = format!("BAR0 has no dword at {offset:#x}");
        assert_eq!(bar.read(offset).unwrap_err().to_string(), words);
        assert_eq!(bar.poll(offset).unwrap_err().to_string(), words);
        assert_eq!(bar.write(offset, 0).unwrap_err().to_string(), words);
    }
    assert_eq!(bench.seen().commands, before);
    assert!(bar.read(end - 4).is_ok());
    drop(drive);
    thread.join().unwrap();
}

/// A QEMU that stops answering holds nobody up, and is found.
#[test]
fn qemu_stops() {
    let bench = Bench::new(|_| {});
    let (mut drive, thread) = bench.open();
    drive.create_lanes(&[rings(0), rings(1)]).unwrap();
    drive
        .controller
        .access_mut()
        .socket
        .set_wait(Duration::from_millis(300));
    bench.state().silent_from = 0;
    let begin = Instant::now();
    let mut longest = Duration::ZERO;
    let mut tail = 0;
    let why = loop {
        let before = Instant::now();
        tail = (tail + 1) % 65;
        let done = drive
            .ring_submission(0, tail)
            .and_then(|()| drive.ring_completion(0, tail))
            .and_then(|()| drive.work(BUDGET))
            .and_then(|_| drive.check());
        longest = longest.max(before.elapsed());
        if let Err(why) = done {
            break why.to_string();
        }
        std::thread::sleep(Duration::from_millis(5));
        assert!(begin.elapsed() < Duration::from_secs(10));
    };
    assert!(why.contains("QEMU does not answer in time"), "{why}");
    assert!(longest < Duration::from_millis(200), "{longest:?}");
    drop(drive);
    thread.join().unwrap();
}

/// Random bytes instead of an answer: never more than an error.
#[test]
fn random_answers() {
    let mut random = 0x9e37_79b9_7f4a_7c15u64;
    let mut next = move || {
        random ^= random << 13;
        random ^= random >> 7;
        random ^= random << 17;
        random
    };
    let words: [&[u8]; 10] = [
        b"OK",
        b"OK 0x",
        b"IRQ ",
        b"\n",
        b"0",
        b"ffffffff",
        b"FAIL",
        b"\xff\xfe",
        b" ",
        b"OK\n",
    ];
    let (mut good, mut rounds) = (0, 0);
    while rounds < 20_000 {
        let (mut socket, mut theirs) = pair();
        for _ in 0..50 {
            rounds += 1;
            let mut bytes = Vec::new();
            for _ in 0..next() % 5 {
                bytes.extend_from_slice(words[(next() % 10) as usize]);
            }
            let wanted = next() % 2 == 0;
            if next() % 8 != 0 {
                bytes = if wanted {
                    b"OK 0xffffffff\n".to_vec()
                } else {
                    b"OK\n".to_vec()
                };
            }
            let posted = if wanted { socket.want(0) } else { socket.post(0, 1) };
            if posted.is_err() || theirs.write_all(&bytes).is_err() || socket.work().is_err() {
                break;
            }
            good += u32::from(socket.take_value().is_some());
        }
    }
    assert!(good > 10);
}

/// Good answers in any pieces, with lines on interrupts between them: each value comes as it was sent, and once all of its line is there.
#[test]
fn good_answers_in_pieces() {
    let mut random = 0x2468_79b9_7f4a_7c15u64;
    let mut next = move || {
        random ^= random << 13;
        random ^= random >> 7;
        random ^= random << 17;
        random
    };
    let (mut socket, mut theirs) = pair();
    for round in 0..3000 {
        if round % 50 == 0 {
            (socket, theirs) = pair();
            socket.set_wait(ANSWER_WAIT);
        }
        let mut bytes = Vec::new();
        for _ in 0..next() % 4 {
            socket.post(next(), next() as u32).unwrap();
            bytes.extend_from_slice([&b"OK\n"[..], b"IRQ raise 9\nOK\n"][(next() % 2) as usize]);
        }
        let value = next() as u32;
        socket.want(next()).unwrap();
        bytes.extend_from_slice(format!("OK {value:#018x}\n").as_bytes());
        let mut rest = &bytes[..];
        while !rest.is_empty() {
            assert_eq!(socket.take_value(), None);
            let (piece, left) = rest.split_at(1 + (next() % rest.len() as u64) as usize);
            theirs.write_all(piece).unwrap();
            socket.work().unwrap();
            rest = left;
        }
        assert_eq!((socket.take_value(), socket.is_busy()), (Some(value), false));
    }
}
