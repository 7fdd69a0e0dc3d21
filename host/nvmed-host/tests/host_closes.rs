//! Descriptors whose close waits, as that of a socket does that has bytes left to send: they hold up the thread of the guest that gave them, and no other one.
#![allow(clippy::unwrap_used, clippy::expect_used, clippy::panic)]

mod client;
mod guest;

use std::io::{ErrorKind, Write};
use std::net::{TcpListener, TcpStream};
use std::os::fd::AsFd;
use std::time::{Duration, Instant};

use client::{
    command, map_payload, message, set_irqs_payload, Client, ACTION_TRIGGER, DATA_EVENTFD, MAP_READ, MAP_WRITE, MSIX,
};
use guest::{configuration, host, is_real, Folder, Guest, BYTES};
use nix::sys::socket::{setsockopt, sockopt};
use nvmed_host::host::Outcome;

/// How long a close waits.
const LINGER: Duration = Duration::from_secs(2);
/// A read of the other guest that takes as long has waited for it.
const WAITED: Duration = Duration::from_secs(1);

/// A socket whose close waits, since what it has sent is not read, and its other end. `None` where there is no network.
fn slow_socket() -> Option<(TcpStream, TcpStream)> {
    let listener = TcpListener::bind("127.0.0.1:0").ok()?;
    let mut own = TcpStream::connect(listener.local_addr().unwrap()).ok()?;
    let (other, _) = listener.accept().unwrap();
    let linger = libc::linger {
        l_onoff: 1,
        l_linger: LINGER.as_secs() as i32,
    };
    setsockopt(&own, sockopt::Linger, &linger).unwrap();
    own.set_nonblocking(true).unwrap();
    loop {
        match own.write(&[0; 65536]) {
            Ok(_) => {}
            Err(error) if error.kind() == ErrorKind::WouldBlock => break,
            Err(error) => panic!("{error}"),
        }
    }
    own.set_nonblocking(false).unwrap();
    Some((own, other))
}

/// Messages that give the program a descriptor: as memory, as an interrupt, and one that is no message.
fn messages() -> [(&'static str, Vec<u8>); 3] {
    let memory = map_payload(MAP_READ | MAP_WRITE, 0, 0, BYTES);
    let interrupt = set_irqs_payload(DATA_EVENTFD | ACTION_TRIGGER, MSIX, 0, 1, &[]);
    [
        ("as memory", message(9, command::DMA_MAP, 0, &memory)),
        ("as an interrupt", message(9, command::SET_IRQS, 0, &interrupt)),
        ("with nonsense", message(9, 0xffff, 0, &[])),
    ]
}

/// Whether the processors have other work, too: then a guest gets what it can, and how long something takes says little.
fn is_crowded() -> bool {
    let load = std::fs::read_to_string("/proc/loadavg").unwrap_or_default();
    let load = load.split(' ').next().and_then(|word| word.parse::<f64>().ok());
    let processors = std::thread::available_parallelism().map_or(1, usize::from);
    load.is_none_or(|load| load * 2.0 > processors as f64)
}

#[test]
fn a_descriptor_whose_close_waits_holds_up_its_own_guest_alone() {
    if !is_real() {
        return;
    }
    if slow_socket().is_none() {
        return eprintln!("left out: there is no network");
    }
    let folder = Folder::new("closes");
    let host = host(&configuration(&folder, 2, ""));
    let mut other = Guest::connect(&folder.path("g0")).unwrap();
    other.bring_up().unwrap();
    for (way, bytes) in messages() {
        let (slow, end) = slow_socket().unwrap();
        let mut client = Client::connect(&folder.path("g1")).unwrap();
        client.version().unwrap();
        // the program has the only one when the message is whole
        client.send_bytes(&bytes[..8], &[slow.as_fd()]).unwrap();
        drop(slow);
        client.send_bytes(&bytes[8..], &[]).unwrap();
        let begin = Instant::now();
        let mut longest = Duration::ZERO;
        while begin.elapsed() < LINGER / 2 {
            longest = longest.max(other.longest_read(20).unwrap());
        }
        assert!(longest < WAITED || is_crowded(), "{way}: {longest:?}");
        // its own guest waits until it is closed: for its answer, or for that to the next question
        let answer = client.receive().unwrap();
        client.device_info().unwrap();
        let waited = begin.elapsed();
        assert!(answer.failure().is_some(), "{way}: {answer:?}");
        assert!(waited >= LINGER * 9 / 10, "{way}: {waited:?}");
        drop((client, end));
    }
    drop(other);
    let mut next = Guest::connect(&folder.path("g1")).unwrap();
    next.bring_up().unwrap();
    drop(next);
    assert_eq!(host.end(), Outcome::Good);
}
