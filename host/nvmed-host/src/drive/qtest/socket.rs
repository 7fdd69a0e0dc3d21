#![forbid(unsafe_code)]
//! QEMU's qtest protocol: lines on a socket. A command is a line, and its answer is a line that begins with OK, in the order of the commands; lines that
//! begin with IRQ may come between. After an error the connection can only be closed.
//!
//! Commands can be asked, with a wait for the answer, or posted: then their answers are looked at when they have come. What is posted and not answered is
//! bounded, in count and in time.

use std::collections::VecDeque;
use std::io::{ErrorKind, Read, Write};
use std::os::fd::AsFd;
use std::os::unix::net::UnixStream;
use std::path::Path;
use std::time::{Duration, Instant};

use nix::errno::Errno;
use nix::poll::{poll, PollFd, PollFlags, PollTimeout};

use crate::drive::DriveError;

/// How long QEMU may take for an answer.
pub const ANSWER_WAIT: Duration = Duration::from_secs(10);
/// Commands that are posted and not answered, at most.
pub const MOST_POSTED: usize = 4096;
/// Bytes of an answer, at most.
const LONGEST_LINE: usize = 128;
/// Bytes that are taken from the socket at once, at most.
const READ_BYTES: usize = 4096;

/// What an answer is expected to be.
#[derive(Clone, Copy, Debug, PartialEq, Eq)]
enum Expected {
    /// `OK`.
    Done,
    /// `OK 0x..`, a value that is wanted.
    Value,
    /// The same, where nobody waits for it any more.
    Stale,
}

/// A connection.
#[derive(Debug)]
pub struct Socket {
    stream: UnixStream,
    broken: bool,
    /// Bytes that could not be written yet.
    unsent: Vec<u8>,
    /// Bytes that came and were not looked at yet.
    received: Vec<u8>,
    expected: VecDeque<(Expected, Instant)>,
    /// The last value that was wanted.
    value: Option<u32>,
    wait: Duration,
}

fn failed<T>(words: impl AsRef<str>) -> Result<T, DriveError> {
    Err(DriveError::Failed(format!("QEMU's qtest socket: {}", words.as_ref())))
}

/// The value of `OK 0x..`, with 1 to 16 digits and nothing after them, that 32 bits have.
fn value_of(answer: &str) -> Option<u32> {
    let digits = answer.strip_prefix("OK 0x")?;
    if digits.is_empty() || digits.len() > 16 || !digits.bytes().all(|c| c.is_ascii_hexdigit()) {
        return None;
    }
    u64::from_str_radix(digits, 16)
        .ok()
        .and_then(|value| u32::try_from(value).ok())
}

impl Socket {
    /// Connects to the socket at `path`: at once or not at all.
    pub fn connect(path: &Path) -> Result<Self, DriveError> {
        match UnixStream::connect(path) {
            Ok(stream) => Self::on(stream),
            Err(why) => Err(DriveError::Unusable(format!(
                "QEMU's qtest socket {}: cannot connect: {why} (is QEMU started with -qtest unix:{0},server=on,wait=off?)",
                path.display()
            ))),
        }
    }

    /// Begins on a connected socket.
    pub fn on(stream: UnixStream) -> Result<Self, DriveError> {
        if let Err(why) = stream.set_nonblocking(true) {
            return failed(format!("cannot be used: {why}"));
        }
        Ok(Self {
            stream,
            broken: false,
            unsent: Vec::new(),
            received: Vec::new(),
            expected: VecDeque::new(),
            value: None,
            wait: ANSWER_WAIT,
        })
    }

    /// Another limit for answers than [`ANSWER_WAIT`], for tests.
    #[cfg(test)]
    pub fn set_wait(&mut self, wait: Duration) {
        self.wait = wait;
    }

    fn guard<T>(&mut self, done: Result<T, DriveError>) -> Result<T, DriveError> {
        self.broken |= done.is_err();
        done
    }

    fn put(&mut self, line: &str, expected: Expected) -> Result<(), DriveError> {
        if self.broken {
            return failed("it has failed before");
        }
        if self.expected.len() >= MOST_POSTED {
            self.broken = true;
            return failed(format!("QEMU has not answered {MOST_POSTED} commands"));
        }
        self.unsent.extend_from_slice(line.as_bytes());
        self.unsent.push(b'\n');
        self.expected.push_back((expected, Instant::now()));
        let sent = self.send();
        self.guard(sent)
    }

    /// Writes what can be written without waiting.
    fn send(&mut self) -> Result<(), DriveError> {
        while !self.unsent.is_empty() {
            match self.stream.write(&self.unsent) {
                Ok(0) => return failed("cannot be written"),
                Ok(count) => drop(self.unsent.drain(..count)),
                Err(why) if why.kind() == ErrorKind::WouldBlock => return Ok(()),
                Err(why) if why.kind() == ErrorKind::Interrupted => {}
                Err(why) if why.kind() == ErrorKind::BrokenPipe => return failed("QEMU has closed it"),
                Err(why) => return failed(format!("cannot be written: {why}")),
            }
        }
        Ok(())
    }

    /// Takes what has come, once; whether there was something.
    fn receive(&mut self) -> Result<bool, DriveError> {
        let mut bytes = [0u8; READ_BYTES];
        match self.stream.read(&mut bytes) {
            Ok(0) => return failed("QEMU has closed it"),
            Ok(count) => self.received.extend_from_slice(bytes.get(..count).unwrap_or(&bytes)),
            Err(why) if why.kind() == ErrorKind::WouldBlock || why.kind() == ErrorKind::Interrupted => {
                return Ok(false)
            }
            Err(why) if why.kind() == ErrorKind::ConnectionReset => return failed("QEMU has closed it"),
            Err(why) => return failed(format!("cannot be read: {why}")),
        }
        let mut from = 0;
        while let Some(length) = self.received.iter().skip(from).position(|c| *c == b'\n') {
            let line = self.received.get(from..from + length).unwrap_or_default().to_vec();
            self.line(&line)?;
            from += length + 1;
        }
        self.received.drain(..from);
        if self.received.len() > LONGEST_LINE {
            return failed("an answer is too long");
        }
        Ok(true)
    }

    /// Looks at a line.
    fn line(&mut self, line: &[u8]) -> Result<(), DriveError> {
        let text = String::from_utf8_lossy(line);
        if text.starts_with("IRQ ") {
            return Ok(());
        }
        let shown: String = text
            .chars()
            .take(100)
            .map(|c| if c.is_control() { '?' } else { c })
            .collect();
        let Some((expected, _)) = self.expected.pop_front() else {
            return failed(format!("an answer came to no command: {shown}"));
        };
        let good = match expected {
            Expected::Done => text == "OK",
            Expected::Value => {
                self.value = value_of(&text);
                self.value.is_some()
            }
            Expected::Stale => value_of(&text).is_some(),
        };
        if good {
            return Ok(());
        }
        failed(format!("an answer is not understood: {shown}"))
    }

    /// Goes on without waiting: writes what could not be written before, and takes answers that have come. An error, too, where an answer is late.
    pub fn work(&mut self) -> Result<(), DriveError> {
        if self.broken {
            return failed("it has failed before");
        }
        if self.expected.is_empty() {
            return Ok(());
        }
        let done = self.work_once();
        self.guard(done)
    }

    fn work_once(&mut self) -> Result<(), DriveError> {
        self.send()?;
        self.receive()?;
        match self.expected.front() {
            Some((_, since)) if since.elapsed() > self.wait => failed("QEMU does not answer in time"),
            _ => Ok(()),
        }
    }

    /// Whether something was sent and not answered.
    pub fn is_busy(&self) -> bool {
        !self.expected.is_empty()
    }

    /// Waits until all that was sent is answered.
    fn settle(&mut self) -> Result<(), DriveError> {
        let end = Instant::now() + self.wait;
        while self.is_busy() {
            self.send()?;
            if self.receive()? {
                if Instant::now() > end && self.is_busy() {
                    return failed("QEMU does not answer in time");
                }
                continue;
            }
            let left = end.saturating_duration_since(Instant::now());
            let events = if self.unsent.is_empty() {
                PollFlags::POLLIN
            } else {
                PollFlags::POLLIN | PollFlags::POLLOUT
            };
            if left.is_zero() {
                return failed("QEMU does not answer in time");
            }
            let timeout = PollTimeout::try_from(left + Duration::from_millis(1)).unwrap_or(PollTimeout::MAX);
            match poll(&mut [PollFd::new(self.stream.as_fd(), events)], timeout) {
                Ok(_) | Err(Errno::EINTR) => {}
                Err(why) => return failed(format!("cannot be waited for: {why}")),
            }
        }
        Ok(())
    }

    fn ask(&mut self, line: &str, expected: Expected) -> Result<u32, DriveError> {
        self.value = None;
        self.put(line, expected)?;
        let settled = self.settle();
        self.guard(settled)?;
        Ok(self.value.take().unwrap_or(0))
    }

    /// Reads 32 bits of the machine's memory, and waits for them.
    pub fn read(&mut self, address: u64) -> Result<u32, DriveError> {
        self.ask(&format!("readl {address:#x}"), Expected::Value)
    }

    /// Writes 32 bits of the machine's memory, and does not wait for the answer.
    pub fn post(&mut self, address: u64, value: u32) -> Result<(), DriveError> {
        self.put(&format!("writel {address:#x} {value:#x}"), Expected::Done)
    }

    /// Asks for 32 bits of the machine's memory, and does not wait for them: [`Socket::take_value`] gives them.
    pub fn want(&mut self, address: u64) -> Result<(), DriveError> {
        self.value = None;
        self.put(&format!("readl {address:#x}"), Expected::Value)
    }

    /// The value that was asked for, where it has come.
    pub fn take_value(&mut self) -> Option<u32> {
        self.value.take()
    }

    /// Nobody waits for the value any more that was asked for.
    pub fn forget_value(&mut self) {
        self.value = None;
        for (expected, _) in &mut self.expected {
            if *expected == Expected::Value {
                *expected = Expected::Stale;
            }
        }
    }

    /// PCI configuration mechanism #1, bus 0: bit 31 enables, then bus, device, function and offset.
    fn select(&mut self, place: Place, offset: u8) -> Result<(), DriveError> {
        let address = 1 << 31 | u32::from(place.device & 31) << 11 | u32::from(place.function & 7) << 8;
        self.ask(
            &format!("outl 0xcf8 {:#x}", address | u32::from(offset & 0xfc)),
            Expected::Done,
        )
        .map(drop)
    }

    /// Reads a dword of configuration space, and waits for it.
    pub fn config_read(&mut self, place: Place, offset: u8) -> Result<u32, DriveError> {
        self.select(place, offset)?;
        self.ask("inl 0xcfc", Expected::Value)
    }

    /// Writes a dword of configuration space, and waits for its end.
    pub fn config_write(&mut self, place: Place, offset: u8, value: u32) -> Result<(), DriveError> {
        self.select(place, offset)?;
        self.ask(&format!("outl 0xcfc {value:#x}"), Expected::Done).map(drop)
    }
}

/// A function on PCI bus 0.
#[derive(Clone, Copy, Debug, Default, PartialEq, Eq)]
pub struct Place {
    /// 0 to 31.
    pub device: u8,
    /// 0 to 7.
    pub function: u8,
}

#[cfg(test)]
mod tests;
