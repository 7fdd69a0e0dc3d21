//! A client's connection: a stream socket, and the protocol on it. No call waits for the client.

#![forbid(unsafe_code)]

use std::os::fd::{AsFd, BorrowedFd, OwnedFd};
use std::sync::Arc;
use std::time::Instant;

use nix::errno::Errno;
use nix::fcntl::{fcntl, FcntlArg, OFlag};
use nix::poll::PollFlags;
use std::os::fd::AsRawFd;

use super::ancillary::{receive, send};
use super::device::Device;
use super::request::{Answer, Request, Ticket};
use super::session::{Error, Session};

/// A client's connection. Dropping it closes the socket and all descriptors that no request has, which may take as long as the client wants.
#[derive(Debug)]
pub struct Connection {
    socket: OwnedFd,
    session: Session,
}

impl Connection {
    /// Begins a connection on a connected stream socket of the family Unix, which is made non-blocking.
    pub fn new(socket: OwnedFd, device: Arc<Device>) -> Result<Connection, Error> {
        let flags = fcntl(socket.as_raw_fd(), FcntlArg::F_GETFL).map_err(Error::Socket)?;
        let flags = OFlag::from_bits_retain(flags) | OFlag::O_NONBLOCK;
        fcntl(socket.as_raw_fd(), FcntlArg::F_SETFL(flags)).map_err(Error::Socket)?;
        Ok(Connection {
            socket,
            session: Session::new(device),
        })
    }

    /// The protocol's state: what was agreed on, refusals, the error.
    pub fn session(&self) -> &Session {
        &self.session
    }

    /// What the socket is to be polled for now. An end is always reported.
    pub fn events(&self) -> PollFlags {
        let mut events = PollFlags::empty();
        events.set(PollFlags::POLLIN, self.session.has_room());
        events.set(PollFlags::POLLOUT, self.session.unsent().is_some());
        events
    }

    /// Does what a poll of the socket has found to be possible. Then [`Connection::next_request`] is to be asked until there is no more.
    pub fn ready(&mut self, found: PollFlags) -> Result<(), Error> {
        if found.contains(PollFlags::POLLOUT) {
            self.flush()?;
        }
        let ends = PollFlags::POLLHUP | PollFlags::POLLERR;
        if found.intersects(PollFlags::POLLIN | ends) {
            let room = self.session.has_room();
            self.receive()?;
            if !room && found.intersects(ends) {
                // The peer is gone, and what it has sent can't be answered.
                return self.session.ended();
            }
        }
        Ok(())
    }

    /// One `recvmsg`. Where nothing is there, or there is no room, nothing happens.
    pub fn receive(&mut self) -> Result<(), Error> {
        if let Some(error) = self.session.error() {
            return Err(error);
        }
        let room = self.session.room();
        if room.is_empty() {
            return Ok(());
        }
        match receive(self.socket.as_fd(), room) {
            Ok(received) if received.bytes == 0 => self.session.ended(),
            Ok(received) => self.session.fed(received.bytes, received.descriptors, received.lost),
            Err(Errno::EAGAIN | Errno::EINTR) => Ok(()),
            Err(Errno::ECONNRESET) => self.session.ended(),
            Err(errno) => self.session.fail(Error::Socket(errno)),
        }
    }

    /// The next request, if all of it is there and the one before was answered.
    pub fn next_request(&mut self) -> Result<Option<(Request, Ticket)>, Error> {
        let next = self.session.next_request();
        let flushed = self.flush();
        let next = next?;
        match (next, flushed) {
            (Some(request), _) => Ok(Some(request)),
            (None, flushed) => flushed.map(|()| None),
        }
    }

    /// Answers a request, and sends as much of the reply as the socket takes now.
    pub fn answer(&mut self, ticket: Ticket, answer: Answer<'_>) -> Result<(), Error> {
        self.session.answer(ticket, answer)?;
        self.flush()
    }

    /// Sends as much of the replies as the socket takes now.
    pub fn flush(&mut self) -> Result<(), Error> {
        while let Some((bytes, descriptor)) = self.session.unsent() {
            match send(self.socket.as_fd(), bytes, descriptor) {
                Ok(count) => self.session.sent(count),
                Err(Errno::EINTR) => {}
                Err(Errno::EAGAIN) => break,
                Err(Errno::EPIPE | Errno::ECONNRESET) => return self.session.fail(Error::Closed),
                Err(errno) => return self.session.fail(Error::Socket(errno)),
            }
        }
        self.session.error().map_or(Ok(()), Err)
    }

    /// When [`Connection::check`] is to be called at the latest.
    pub fn deadline(&self) -> Option<Instant> {
        self.session.deadline()
    }

    /// Ends the connection where the rest of a message did not come in time.
    pub fn check(&mut self, now: Instant) -> Result<(), Error> {
        self.session.check(now)
    }
}

impl AsFd for Connection {
    fn as_fd(&self) -> BorrowedFd<'_> {
        self.socket.as_fd()
    }
}
