//! How many descriptors a client can have opened here, and signals. There is one test alone, since limits, counts and signals are the process's.
#![allow(clippy::unwrap_used, clippy::expect_used, clippy::panic)]

mod client;
mod vfio_user;

use std::os::fd::{AsFd, AsRawFd, BorrowedFd};

use client::*;
use nix::poll::{PollFlags, PollTimeout};
use nix::sys::resource::{getrlimit, setrlimit, Resource};
use nix::sys::signal::{signal, SigHandler, Signal};
use nvmed_host::vfio_user::wire::FramingError;
use nvmed_host::vfio_user::{Connection, Error};
use vfio_user::*;

fn open_descriptors() -> usize {
    std::fs::read_dir("/proc/self/fd").unwrap().count()
}

fn begun() -> (Client, Connection, State) {
    let (mut client, socket) = Client::pair().unwrap();
    let device = device();
    let mut state = State::new(&device);
    let mut connection = Connection::new(socket, device).unwrap();
    client.send(command::VERSION, 0, &qemu_version_payload(), &[]).unwrap();
    turn(&mut connection, &mut state, PollTimeout::ZERO).unwrap();
    (client, connection, state)
}

/// The number of the lowest descriptor that is free, and a limit by which it is the last one that can be opened.
fn one_more(like: BorrowedFd<'_>) -> u64 {
    like.try_clone_to_owned().unwrap().as_raw_fd() as u64 + 1
}

/// Some of a message's descriptors can be taken and the others not: the connection is over, and those that were taken are closed.
fn lost() {
    let (mut client, mut connection, mut state) = begun();
    let vector = eventfds(1).unwrap().remove(0);
    let payload = set_irqs_payload(DATA_EVENTFD | ACTION_TRIGGER, MSIX, 0, 3, &[]);
    client
        .send(command::SET_IRQS, 0, &payload, &[vector.as_fd(); 3])
        .unwrap();
    let before = open_descriptors();
    let (soft, hard) = getrlimit(Resource::RLIMIT_NOFILE).unwrap();
    setrlimit(Resource::RLIMIT_NOFILE, one_more(vector.as_fd()), hard).unwrap();
    let ended = turn(&mut connection, &mut state, PollTimeout::ZERO);
    setrlimit(Resource::RLIMIT_NOFILE, soft, hard).unwrap();
    assert_eq!(ended, Err(Error::Framing(FramingError::Descriptors)));
    assert_eq!(open_descriptors(), before);
}

/// While a request waits for its answer, a client sends message after message with descriptors: few are taken.
fn hoarded() {
    let (mut client, mut connection, mut state) = begun();
    client.socket.set_nonblocking(true).unwrap();
    let vector = eventfds(1).unwrap().remove(0);
    let payload = set_irqs_payload(DATA_EVENTFD | ACTION_TRIGGER, MSIX, 0, 9, &[]);
    let before = open_descriptors();
    client.send(command::RESET, 0, &[], &[]).unwrap();
    connection.ready(PollFlags::POLLIN).unwrap();
    let (_, _ticket) = connection.next_request().unwrap().unwrap();
    for _ in 0..20 {
        client
            .send(command::SET_IRQS, 0, &payload, &[vector.as_fd(); 9])
            .unwrap();
        turn(&mut connection, &mut state, PollTimeout::ZERO).unwrap();
    }
    assert!((9..=32).contains(&(open_descriptors() - before)));
    // the socket and the device's page go, too
    drop(connection);
    assert_eq!(open_descriptors(), before - 2);
}

/// Vectors that are set again and again, or taken away: those that there were are closed.
fn replaced() {
    let (mut client, mut connection, mut state) = begun();
    let vector = eventfds(1).unwrap().remove(0);
    let payload = set_irqs_payload(DATA_EVENTFD | ACTION_TRIGGER, MSIX, 0, 9, &[]);
    let before = open_descriptors();
    for _ in 0..100 {
        client
            .send(command::SET_IRQS, NO_REPLY, &payload, &[vector.as_fd(); 9])
            .unwrap();
        turn(&mut connection, &mut state, PollTimeout::ZERO).unwrap();
        assert_eq!(open_descriptors(), before + 9);
    }
    client.send(command::SET_IRQS, NO_REPLY, &payload, &[]).unwrap();
    turn(&mut connection, &mut state, PollTimeout::ZERO).unwrap();
    assert_eq!(open_descriptors(), before);
}

/// A client that is gone when its reply is written ends its connection, not the program.
fn no_signal() {
    let (mut client, mut connection, mut state) = begun();
    // SAFETY: no handler is set: it is the action that a program has which says nothing of it.
    unsafe { signal(Signal::SIGPIPE, SigHandler::SigDfl) }.unwrap();
    client.send(command::RESET, 0, &[], &[]).unwrap();
    connection.ready(PollFlags::POLLIN).unwrap();
    let (request, ticket) = connection.next_request().unwrap().unwrap();
    drop(client);
    assert_eq!(state.answer(&mut connection, request, ticket), Err(Error::Closed));
    // SAFETY: as above.
    unsafe { signal(Signal::SIGPIPE, SigHandler::SigIgn) }.unwrap();
}

#[test]
fn open_here() {
    no_signal();
    lost();
    hoarded();
    replaced();
}
