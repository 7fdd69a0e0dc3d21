//! The whole program beside a client's process that makes each call on its descriptors slow: what that costs another guest.
//!
//! The times are of another guest's Reads of 4 KiB. This machine may be busy with much else, so what counts is the program's own wait: of each Read the time
//! is taken away for which the threads that serve it were ready to run and had no processor, as the kernel counts it (`/proc/PID/task/TID/schedstat`). What
//! a call of one of these threads makes slow is no such time, and counts.
#![allow(clippy::unwrap_used, clippy::expect_used, clippy::panic)]

mod client;
mod guest;
mod program;

use std::io::{self, Write};
use std::net::{TcpListener, TcpStream};
use std::os::fd::{AsFd, BorrowedFd, OwnedFd};
use std::os::unix::net::UnixStream;
use std::process::Command;
use std::sync::atomic::{AtomicBool, AtomicU32, Ordering};
use std::sync::{Arc, Mutex, PoisonError};
use std::time::{Duration, Instant};

use client::{command, map_payload, Client, MSIX};
use guest::{configuration, is_real, Folder, Guest, MIB};
use nix::sched::{sched_getaffinity, sched_setaffinity, CpuSet};
use nix::sys::epoll::{Epoll, EpollCreateFlags, EpollEvent, EpollFlags};
use nix::sys::eventfd::EventFd;
use nix::sys::resource::{getrlimit, setrlimit, Resource};
use nix::sys::signal::Signal;
use nix::sys::socket::{setsockopt, sockopt};
use nix::unistd::Pid;
use program::{connect, Program};

/// How long another guest's command may wait for the program.
const LIMIT: Duration = Duration::from_millis(5);
/// How long each measurement goes on.
const SPAN: Duration = Duration::from_secs(3);
/// They measure one after the other.
static ONE: Mutex<()> = Mutex::new(());
/// Waits on one eventfd: copies of its descriptor, by epolls.
const COPIES: usize = 1_000;
const EPOLLS: usize = 540;

/// How long threads have waited for a processor.
struct Delays(Vec<String>);

impl Delays {
    /// Of the threads that serve guest 0, and of this one.
    fn of(program: &Program) -> Self {
        let serves = |name: &str| ["mediator", "guest-0"].contains(&name);
        let threads = program.threads().into_iter().filter(|(_, name)| serves(name));
        let files = threads.map(|(number, _)| format!("/proc/{}/task/{number}/schedstat", program.number()));
        let mut files: Vec<String> = files.collect();
        assert_eq!(files.len(), 2, "{files:?}");
        files.push("/proc/thread-self/schedstat".to_owned());
        Self(files)
    }

    fn now(&self) -> Duration {
        let each = self.0.iter().map(|file| {
            let text = std::fs::read_to_string(file).unwrap();
            text.split_whitespace().nth(1).unwrap().parse::<u64>().unwrap()
        });
        Duration::from_nanos(each.sum())
    }
}

/// What Reads have waited.
struct Waits {
    all: Vec<Duration>,
    own: Vec<Duration>,
}

impl Waits {
    /// Reads one after the other, for a while.
    fn measure(guest: &mut Guest, program: &Program) -> Self {
        let delays = Delays::of(program);
        let begin = Instant::now();
        let (mut all, mut own) = (Vec::new(), Vec::new());
        while begin.elapsed() < SPAN {
            let before = delays.now();
            let wait = guest.longest_read(1).unwrap();
            let delayed = delays.now() - before;
            all.push(wait);
            own.push(wait.saturating_sub(delayed));
        }
        all.sort_unstable();
        own.sort_unstable();
        Self { all, own }
    }

    fn say(&self, what: &str) {
        let (all, own) = (&self.all, &self.own);
        let at = |waits: &[Duration], hundredth: usize| waits[waits.len() * hundredth / 100];
        println!(
            "{what}, {} Reads: the program's wait {:?} as the median, {:?} for 99 of 100, {:?} at most; with the machine's {:?}, {:?}, {:?}",
            own.len(),
            at(own, 50),
            at(own, 99),
            own.last().unwrap(),
            at(all, 50),
            at(all, 99),
            all.last().unwrap(),
        );
    }

    /// Whether they are: some that were made longer by what the kernel does with interrupts off are left out.
    fn are_short(&self) -> bool {
        let long: Vec<_> = self.own.iter().filter(|&&wait| wait >= LIMIT).collect();
        let time: Duration = long.iter().copied().sum();
        println!(
            "{} of {} were {LIMIT:?} or longer, and took {time:?}",
            long.len(),
            self.own.len()
        );
        time * 20 < SPAN
    }
}

/// Whether the processors have other work, too: then a guest gets what it can, and how long something takes says little.
fn is_crowded() -> bool {
    let load = std::fs::read_to_string("/proc/loadavg").unwrap_or_default();
    let load = load.split(' ').next().and_then(|word| word.parse::<f64>().ok());
    let processors = std::thread::available_parallelism().map_or(1, usize::from);
    load.is_none_or(|load| load * 2.0 > processors as f64)
}

/// Keeps the thread of guest 1 on a processor of its own: while the kernel writes a slow eventfd it takes no interrupt there, so that another thread's timer
/// or wake-up on that processor would be late, whatever the program does.
fn keep_apart(program: &Program) {
    let allowed = sched_getaffinity(Pid::from_raw(0)).unwrap();
    let mut processors = (0..CpuSet::count()).filter(|&cpu| allowed.is_set(cpu).unwrap());
    let (mut one, mut others) = (CpuSet::new(), CpuSet::new());
    one.set(processors.next().unwrap()).unwrap();
    let mut more = 0;
    for processor in processors {
        others.set(processor).unwrap();
        more += 1;
    }
    if more == 0 {
        println!("there is one processor: the kernel's work for guest 1 holds up all");
        return;
    }
    for (number, name) in program.threads() {
        sched_setaffinity(number, if name == "guest-1" { &one } else { &others }).unwrap();
    }
    sched_setaffinity(Pid::from_raw(0), &others).unwrap();
}

/// An eventfd on which a client waits so often that each write of it takes long.
struct SlowEvent {
    event: EventFd,
    _copies: Vec<OwnedFd>,
    _epolls: Vec<Epoll>,
}

impl SlowEvent {
    fn new() -> io::Result<Self> {
        let (_soft, hard) = getrlimit(Resource::RLIMIT_NOFILE)?;
        setrlimit(Resource::RLIMIT_NOFILE, hard, hard)?;
        let event = client::eventfds(1)?.remove(0);
        let copies = (0..COPIES)
            .map(|_| event.as_fd().try_clone_to_owned())
            .collect::<io::Result<Vec<_>>>()?;
        let mut epolls = Vec::new();
        for _ in 0..EPOLLS {
            let epoll = Epoll::new(EpollCreateFlags::EPOLL_CLOEXEC)?;
            for copy in &copies {
                epoll.add(copy, EpollEvent::new(EpollFlags::EPOLLIN, 0))?;
            }
            epolls.push(epoll);
        }
        Ok(Self {
            event,
            _copies: copies,
            _epolls: epolls,
        })
    }

    /// How long a write takes.
    fn time(&self) -> Duration {
        let begin = Instant::now();
        self.event.write(1).unwrap();
        begin.elapsed()
    }
}

#[test]
fn an_eventfd_whose_writes_are_slow_holds_up_its_own_guest_alone() {
    if !is_real() {
        return;
    }
    let _one = ONE.lock().unwrap_or_else(PoisonError::into_inner);
    let folder = Folder::new("slow-event");
    let mut program = Program::start(&folder, &configuration(&folder, 2, ""), &[]);
    let mut honest = connect(&folder, "g0");
    honest.bring_up().unwrap();
    keep_apart(&program);
    Waits::measure(&mut honest, &program).say("alone");

    let slow = SlowEvent::new().unwrap();
    let each = (0..5).map(|_| slow.time()).min().unwrap();
    println!("{} waits on an eventfd: a write takes {each:?}", COPIES * EPOLLS);
    assert!(each > LIMIT, "it is not slow enough to show anything");
    let ends = Arc::new(AtomicBool::new(false));
    let rounds = Arc::new(AtomicU32::new(0));
    let hostile = std::thread::spawn({
        let (ends, rounds, socket) = (Arc::clone(&ends), Arc::clone(&rounds), folder.path("g1"));
        move || {
            let mut guest = Guest::connect(&socket).unwrap();
            guest.bring_up().unwrap();
            guest.client.set_eventfds(MSIX, 0, &[slow.event.as_fd(); 9]).unwrap();
            guest.interrupts = false;
            while !ends.load(Ordering::SeqCst) {
                guest.longest_read(1).unwrap();
                rounds.fetch_add(1, Ordering::SeqCst);
            }
            drop(guest);
            slow
        }
    });
    let beside = Waits::measure(&mut honest, &program);
    ends.store(true, Ordering::SeqCst);
    let _slow = hostile.join().unwrap();
    let rounds = rounds.load(Ordering::SeqCst);
    beside.say(&format!("beside {rounds} commands whose interrupts are slow"));
    assert!(rounds > 10, "the other guest did not come to its interrupts");
    assert!(beside.are_short() || is_crowded());
    program.signal(Signal::SIGTERM);
    assert_eq!(program.status(), 0);
}

/// A descriptor whose last close is slow, unless it is this process's.
struct SlowClose(Option<OwnedFd>);

impl SlowClose {
    /// Closes it, after it was sent: whoever has it now closes it slowly.
    fn leave(mut self) {
        self.0 = None;
    }
}

impl Drop for SlowClose {
    fn drop(&mut self) {
        if let Some(it) = &self.0 {
            // other kinds have no such option, and are closed at once
            let _none = linger(it, 0);
        }
    }
}

fn linger(socket: &OwnedFd, seconds: i32) -> nix::Result<()> {
    let linger = nix::libc::linger {
        l_onoff: i32::from(seconds != 0),
        l_linger: seconds,
    };
    setsockopt(socket, sockopt::Linger, &linger)
}

/// A socket whose last close takes as long as it may: what was sent is not taken by the other end, which is kept.
fn lingering() -> io::Result<(SlowClose, TcpStream)> {
    let listener = TcpListener::bind("127.0.0.1:0")?;
    setsockopt(&listener, sockopt::RcvBuf, &4096)?;
    let mut near = TcpStream::connect(listener.local_addr()?)?;
    let (far, _) = listener.accept()?;
    setsockopt(&near, sockopt::SndBuf, &4096)?;
    near.set_nonblocking(true)?;
    loop {
        match near.write(&[0; 4096]) {
            Ok(_) => {}
            Err(error) if error.kind() == io::ErrorKind::WouldBlock => break,
            Err(error) => return Err(error),
        }
    }
    let near = OwnedFd::from(near);
    linger(&near, 60)?;
    Ok((SlowClose(Some(near)), far))
}

/// A socket with descriptors in its queue.
fn full_of_descriptors() -> io::Result<(SlowClose, UnixStream)> {
    let (one, other) = UnixStream::pair()?;
    let client = Client::on(one)?;
    let events = client::eventfds(16)?;
    let fds: Vec<BorrowedFd<'_>> = events.iter().map(AsFd::as_fd).collect();
    for _ in 0..8 {
        client.send_some(&[0], &fds)?;
    }
    Ok((SlowClose(Some(other.into())), client.socket))
}

/// Sends them, 16 with each message, as long as the other end takes them. How many were sent: this process has none of them any more.
fn send_all(client: &mut Client, mut descriptors: Vec<SlowClose>) -> usize {
    let mut sent = 0;
    client
        .socket
        .set_write_timeout(Some(Duration::from_millis(500)))
        .unwrap();
    while !descriptors.is_empty() {
        let some: Vec<SlowClose> = descriptors.drain(..descriptors.len().min(16)).collect();
        let fds: Vec<BorrowedFd<'_>> = some.iter().flat_map(|it| &it.0).map(AsFd::as_fd).collect();
        let payload = map_payload(3, 0, 0, MIB);
        if client.send(command::DMA_MAP, 0, &payload, &fds).is_err() {
            break;
        }
        sent += some.len();
        some.into_iter().for_each(SlowClose::leave);
    }
    sent
}

/// The program has 1,024 descriptors at most, and the client sends 1,000 of which each takes a minute to be closed.
#[test]
fn descriptors_whose_close_is_slow_hold_up_their_own_guest_alone() {
    let _one = ONE.lock().unwrap_or_else(PoisonError::into_inner);
    let folder = Folder::new("linger");
    let mut limited = Command::new("sh");
    limited.args([
        "-c",
        "ulimit -n 1024 && exec \"$@\"",
        "sh",
        env!("CARGO_BIN_EXE_nvmed-host"),
    ]);
    let mut program = Program::start_by(limited, &folder, &configuration(&folder, 3, ""), &[]);
    let mut honest = connect(&folder, "g0");
    if is_real() {
        honest.bring_up().unwrap();
        Waits::measure(&mut honest, &program).say("alone");
    }
    let before = program.descriptors();

    let (mut descriptors, mut others, mut queues) = (Vec::new(), Vec::new(), Vec::new());
    for i in 0..1_000 {
        if i % 5 == 4 {
            let (near, far) = full_of_descriptors().unwrap();
            descriptors.push(near);
            queues.push(far);
        } else {
            let (near, far) = lingering().unwrap();
            descriptors.push(near);
            others.push(far);
        }
    }
    let mut client = Client::connect(&folder.path("g1")).unwrap();
    client.version().unwrap();
    let sent = send_all(&mut client, descriptors);
    std::thread::sleep(Duration::from_millis(300));
    let pinned = program.descriptors().saturating_sub(before);
    println!("{sent} descriptors were sent, of which the program has {pinned}");
    assert!(sent >= 100, "too few to show anything");
    assert!(pinned <= 64, "{pinned} descriptors are pinned");
    if is_real() {
        let beside = Waits::measure(&mut honest, &program);
        beside.say("beside descriptors whose close is slow");
        assert!(beside.are_short() || is_crowded());
    }
    // its thread waits for the first of them
    assert!(client.device_info().is_err(), "no close was slow");
    // others come and go
    for _ in 0..3 {
        let mut third = connect(&folder, "g2");
        if is_real() {
            third.bring_up().unwrap();
            third.write_blocks(0, 7).unwrap();
        }
    }
    let begin = Instant::now();
    program.signal(Signal::SIGTERM);
    assert_eq!(program.status(), 0);
    assert!(begin.elapsed() < Duration::from_secs(8), "the end waited for it");
}
