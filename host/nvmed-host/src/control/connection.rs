//! A connection of an operator: lines in, replies out, neither without bounds.
//!
//! A request is read once the reply to the one before was written, so that a client which never reads costs one reply, and one that sends all the time is
//! served so many times a second. What is late is closed, so that its place is another's.

#![forbid(unsafe_code)]

use std::io::{self, ErrorKind, Read, Write};
use std::os::fd::{AsFd, BorrowedFd, OwnedFd};
use std::os::unix::net::UnixStream;
use std::time::{Duration, Instant};

use nix::poll::PollFlags;

use super::request::{Request, RequestError, MOST_LINE};

/// Requests of a client in a second.
pub const MOST_REQUESTS: u32 = 50;
/// How long a client may take for half a line, or for reading a reply.
pub const HALF: Duration = Duration::from_secs(10);
/// How long a client may ask for nothing.
pub const IDLE: Duration = Duration::from_secs(60);
const SECOND: Duration = Duration::from_secs(1);
/// Bytes that are read at once.
const PIECE: usize = 4096;

/// What is to be done with a connection.
#[derive(Debug, PartialEq, Eq)]
pub enum Asked {
    /// Nothing.
    Nothing,
    /// This request is to be answered.
    For(Request),
    /// What is wrong with the line. It goes on after it.
    Wrong(RequestError),
}

/// A client's connection.
#[derive(Debug)]
pub struct Connection {
    socket: UnixStream,
    /// Bytes that were read and are no request's yet: a line and its line feed at most, and what came with them.
    inbox: Vec<u8>,
    /// What of the last reply was not written yet.
    outbox: Vec<u8>,
    /// The answer to the last request comes later.
    waits: bool,
    /// It will send no more.
    ended: bool,
    /// It is closed once its last reply was written.
    closing: bool,
    /// When the half line began that is there, or the last reply, or else something last came or went.
    moved: Instant,
    /// The second in which requests are counted, and how many there were.
    second: Instant,
    requests: u32,
}

impl Connection {
    /// A connection that was accepted just now.
    ///
    /// # Errors
    ///
    /// The kernel refuses to make it one that blocks nobody.
    pub fn new(socket: OwnedFd, now: Instant) -> io::Result<Self> {
        let socket = UnixStream::from(socket);
        socket.set_nonblocking(true)?;
        Ok(Self {
            socket,
            inbox: Vec::new(),
            outbox: Vec::new(),
            waits: false,
            ended: false,
            closing: false,
            moved: now,
            second: now,
            requests: 0,
        })
    }

    /// Whether the next request may be looked at.
    fn is_ready(&self) -> bool {
        self.outbox.is_empty() && !self.waits && !self.closing
    }

    fn has_line(&self) -> bool {
        self.inbox.contains(&b'\n') || self.inbox.len() > MOST_LINE
    }

    fn is_over_its_rate(&self, now: Instant) -> bool {
        self.requests >= MOST_REQUESTS && now.saturating_duration_since(self.second) < SECOND
    }

    /// What the socket is to be polled for.
    #[must_use]
    pub fn events(&self) -> PollFlags {
        let mut events = PollFlags::empty();
        if !self.outbox.is_empty() {
            events |= PollFlags::POLLOUT;
        }
        if self.is_ready() && !self.ended && !self.has_line() {
            events |= PollFlags::POLLIN;
        }
        events
    }

    /// When it is to be looked at again at the latest. What a connection waits for has an end of its own.
    #[must_use]
    pub fn deadline(&self) -> Option<Instant> {
        if self.waits {
            None
        } else if !(self.is_ready() && self.has_line()) {
            Some(self.moved + self.patience())
        } else if self.requests >= MOST_REQUESTS {
            Some(self.second + SECOND)
        } else {
            Some(self.moved)
        }
    }

    /// How long nothing may come or go.
    fn patience(&self) -> Duration {
        if self.inbox.is_empty() && self.outbox.is_empty() {
            IDLE
        } else {
            HALF
        }
    }

    /// Reads and writes what the socket has room for. Whether the connection goes on.
    pub fn ready(&mut self, found: PollFlags, now: Instant) -> bool {
        let gone = PollFlags::POLLHUP | PollFlags::POLLERR | PollFlags::POLLNVAL;
        // a client that has sent something and is gone has asked for it
        if found.intersects(gone) && !found.contains(PollFlags::POLLIN) {
            return false;
        }
        let read = !found.contains(PollFlags::POLLIN) || self.read(now).is_ok();
        read && self.write(now).is_ok() && self.goes_on(now)
    }

    /// Whether it goes on: not where its last reply was written, or where it is late.
    pub fn goes_on(&mut self, now: Instant) -> bool {
        let written = self.outbox.is_empty();
        let over = self.closing || self.ended && self.inbox.is_empty() && !self.waits;
        // what it waits for here has an end of its own
        let served = self.waits || self.is_ready() && self.has_line();
        !(written && over || !served && now.saturating_duration_since(self.moved) >= self.patience())
    }

    fn read(&mut self, now: Instant) -> io::Result<()> {
        let mut piece = [0; PIECE];
        match self.socket.read(&mut piece) {
            Ok(0) => self.ended = true,
            Ok(count) => {
                // half a line has its time from its first byte on
                if self.inbox.is_empty() {
                    self.moved = now;
                }
                self.inbox.extend(piece.iter().take(count));
            }
            Err(error) if matches!(error.kind(), ErrorKind::WouldBlock | ErrorKind::Interrupted) => {}
            Err(error) => return Err(error),
        }
        Ok(())
    }

    fn write(&mut self, now: Instant) -> io::Result<()> {
        while !self.outbox.is_empty() {
            match self.socket.write(&self.outbox) {
                Ok(count) => {
                    self.outbox.drain(..count);
                    if self.outbox.is_empty() {
                        self.moved = now;
                    }
                }
                Err(error) if error.kind() == ErrorKind::WouldBlock => break,
                Err(error) if error.kind() == ErrorKind::Interrupted => {}
                Err(error) => return Err(error),
            }
        }
        Ok(())
    }

    /// The next request, where the reply to the one before was written, and the client was not served too often in this second.
    pub fn next_request(&mut self, now: Instant) -> Asked {
        if !self.is_ready() || self.is_over_its_rate(now) {
            return Asked::Nothing;
        }
        let end = self.inbox.iter().position(|&byte| byte == b'\n');
        let asked = match end {
            Some(end) if end <= MOST_LINE => {
                let line: Vec<u8> = self.inbox.drain(..=end).collect();
                let line = line.strip_suffix(b"\n").unwrap_or(&line);
                Request::parse(line).map_or_else(Asked::Wrong, Asked::For)
            }
            // where the next line would begin is not known
            _ if self.inbox.len() > MOST_LINE => self.last(RequestError::TooLong),
            None if self.ended && !self.inbox.is_empty() => self.last(RequestError::Half),
            _ => return Asked::Nothing,
        };
        self.moved = now;
        if now.saturating_duration_since(self.second) >= SECOND {
            self.second = now;
            self.requests = 0;
        }
        self.requests += 1;
        asked
    }

    fn last(&mut self, error: RequestError) -> Asked {
        self.inbox.clear();
        self.closing = true;
        Asked::Wrong(error)
    }

    /// Sends a reply: one line. What the socket has no room for is kept. Whether the connection goes on.
    pub fn reply(&mut self, line: &str, now: Instant) -> bool {
        self.waits = false;
        self.outbox.extend_from_slice(line.as_bytes());
        self.outbox.push(b'\n');
        self.moved = now;
        self.write(now).is_ok() && self.goes_on(now)
    }

    /// The reply to the last request comes later.
    pub fn wait(&mut self) {
        self.waits = true;
    }

    /// Its next reply is the last one.
    pub fn close(&mut self) {
        self.closing = true;
    }
}

impl AsFd for Connection {
    fn as_fd(&self) -> BorrowedFd<'_> {
        self.socket.as_fd()
    }
}
