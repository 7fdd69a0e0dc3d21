//! The socket alone, and a peer that reads nothing, ends, or answers late.

use std::thread;

use nix::sys::socket::{setsockopt, sockopt};

use super::*;

const LIMIT: Duration = Duration::from_millis(300);

fn pair() -> (Socket, UnixStream) {
    let (own, other) = UnixStream::pair().unwrap();
    // the kernel takes a few thousand bytes more than that
    setsockopt(&own, sockopt::SndBuf, &1).unwrap();
    let mut socket = Socket::on(own).unwrap();
    socket.set_wait(LIMIT);
    (socket, other)
}

fn words<T: std::fmt::Debug>(done: Result<T, DriveError>) -> String {
    done.unwrap_err().to_string()
}

/// Posts until the socket takes no more: what is left waits in this process.
fn fill(socket: &mut Socket) -> usize {
    for posted in 1..MOST_POSTED {
        socket.post(0x1000, 7).unwrap();
        if !socket.unsent.is_empty() {
            return posted;
        }
    }
    panic!("the socket takes all that is posted");
}

/// A QEMU that takes nothing from its socket is given up in time, whether somebody waits or not.
#[test]
fn a_socket_that_is_full_is_given_up_in_time() {
    let (mut socket, _other) = pair();
    fill(&mut socket);
    socket.work().unwrap();
    let begin = Instant::now();
    assert!(words(socket.read(0x1000)).contains("QEMU does not answer in time"));
    assert!(begin.elapsed() >= LIMIT && begin.elapsed() < 20 * LIMIT);
    assert!(words(socket.post(0, 0)).contains("it has failed before"));
    assert!(words(socket.work()).contains("it has failed before"));

    let (mut socket, _other) = pair();
    fill(&mut socket);
    thread::sleep(2 * LIMIT);
    assert!(words(socket.work()).contains("QEMU does not answer in time"));
}

/// One that reads late gets all of it, in order, and each answer is taken.
#[test]
fn a_socket_that_is_full_goes_on_when_it_is_read() {
    let (mut socket, mut other) = pair();
    socket.set_wait(Duration::from_secs(20));
    let posted = fill(&mut socket);
    let peer = thread::spawn(move || {
        let (mut text, mut bytes) = (Vec::new(), [0; 4096]);
        thread::sleep(Duration::from_millis(50));
        while text.iter().filter(|c| **c == b'\n').count() <= posted {
            let count = other.read(&mut bytes).unwrap();
            text.extend_from_slice(&bytes[..count]);
        }
        let text = String::from_utf8(text).unwrap();
        let lines: Vec<_> = text.lines().collect();
        assert_eq!(lines.len(), posted + 1);
        assert!(lines[..posted].iter().all(|line| *line == "writel 0x1000 0x7"));
        assert_eq!(lines[posted], "readl 0x2000");
        other.write_all("OK\n".repeat(posted).as_bytes()).unwrap();
        other.write_all(b"OK 0x0000000000000009\n").unwrap();
        other
    });
    assert_eq!(socket.read(0x2000).unwrap(), 9);
    assert!(!socket.is_busy() && socket.unsent.is_empty());
    drop(peer.join().unwrap());
}

/// A QEMU that has ended, before and after it was written to, with and without bytes that it has not read.
#[test]
fn a_qemu_that_has_ended_is_reported() {
    let closed = "QEMU has closed it";
    let (mut socket, other) = pair();
    drop(other);
    assert!(words(socket.post(0, 0)).contains(closed));

    let (mut socket, other) = pair();
    socket.post(0, 0).unwrap();
    drop(other);
    assert!(words(socket.work()).contains(closed), "with an unread line");

    let (mut socket, mut other) = pair();
    socket.post(0, 0).unwrap();
    let mut line = [0; 64];
    let _read = other.read(&mut line).unwrap();
    drop(other);
    assert!(words(socket.work()).contains(closed), "with nothing unread");
    assert!(words(socket.work()).contains("it has failed before"));
}

/// More than so many commands are not posted ahead of their answers.
#[test]
fn what_is_posted_has_a_bound() {
    let (own, other) = UnixStream::pair().unwrap();
    let mut socket = Socket::on(own).unwrap();
    let peer = thread::spawn(move || {
        let mut bytes = [0; 65536];
        let mut other = other;
        while other.read(&mut bytes).unwrap() != 0 {}
    });
    for _ in 0..MOST_POSTED {
        socket.post(0x1000, 1).unwrap();
    }
    assert!(words(socket.post(0x1000, 1)).contains(&format!("QEMU has not answered {MOST_POSTED} commands")));
    assert!(words(socket.work()).contains("it has failed before"));
    drop(socket);
    peer.join().unwrap();
}
