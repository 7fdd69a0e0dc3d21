//! A client of vfio-user for tests: it speaks as QEMU 11.1.3 does, maps memory, reads and writes regions, sets up interrupts, and can break each rule.
//!
//! It shares no code with the server. An integration test says `mod client;`; the library's own tests have it as `crate::vfio_user::client`.
#![allow(dead_code)]

pub mod broken;
pub mod hostile;
mod messages;

use std::fs::File;
use std::io::{self, IoSlice, IoSliceMut};
use std::os::fd::{AsFd, AsRawFd, BorrowedFd, FromRawFd, OwnedFd, RawFd};
use std::os::unix::fs::FileExt;
use std::os::unix::net::UnixStream;
use std::path::Path;
use std::time::Duration;

pub use messages::*;
use nix::errno::Errno;
use nix::poll::{poll, PollFd, PollFlags, PollTimeout};
use nix::sys::eventfd::{EfdFlags, EventFd};
use nix::sys::memfd::{memfd_create, MemFdCreateFlag};
use nix::sys::socket::{recvmsg, sendmsg, ControlMessage, ControlMessageOwned, MsgFlags};

/// How long an answer is waited for: as long as QEMU waits.
pub const PATIENCE: Duration = Duration::from_secs(5);

/// A file in memory that the client shares: a guest's memory. It is read and written as a file.
#[derive(Debug)]
pub struct Memory {
    pub file: File,
    pub bytes: u64,
}

impl Memory {
    /// A file of so many zeros, as QEMU's `memory-backend-memfd` makes it.
    pub fn new(bytes: u64) -> io::Result<Memory> {
        let flags = MemFdCreateFlag::MFD_CLOEXEC | MemFdCreateFlag::MFD_ALLOW_SEALING;
        let file = File::from(memfd_create(c"memory-backend-memfd", flags)?);
        file.set_len(bytes)?;
        Ok(Memory { file, bytes })
    }

    pub fn write(&self, at: u64, bytes: &[u8]) -> io::Result<()> {
        self.file.write_all_at(bytes, at)
    }

    pub fn read(&self, at: u64, count: usize) -> io::Result<Vec<u8>> {
        let mut bytes = vec![0; count];
        self.file.read_exact_at(&mut bytes, at)?;
        Ok(bytes)
    }
}

/// A part of the guest's memory as QEMU maps it.
#[derive(Clone, Copy, Debug, PartialEq, Eq)]
pub struct Range {
    pub address: u64,
    pub offset: u64,
    pub bytes: u64,
}

/// A change of what is mapped.
#[derive(Clone, Copy, Debug)]
pub enum Remap<'a> {
    /// A range is mapped.
    Map {
        flags: u32,
        range: Range,
        file: Option<BorrowedFd<'a>>,
    },
    /// A range is unmapped.
    Unmap { address: u64, bytes: u64 },
}

impl<'a> Remap<'a> {
    /// Memory of a file, readable and writable.
    pub fn ram(range: Range, file: BorrowedFd<'a>) -> Remap<'a> {
        Remap::Map {
            flags: MAP_READ | MAP_WRITE,
            range,
            file: Some(file),
        }
    }
}

/// A reply.
#[derive(Debug)]
pub struct Reply {
    pub id: u16,
    pub command: u16,
    pub flags: u32,
    pub error: u32,
    pub payload: Vec<u8>,
    pub descriptors: Vec<OwnedFd>,
}

impl Reply {
    /// The number of so many bytes at a place of the payload; 0 where there is none.
    pub fn number(&self, at: usize, width: usize) -> u64 {
        let bytes = self.payload.get(at..at + width).unwrap_or_default();
        bytes.iter().rev().fold(0, |value, byte| value << 8 | u64::from(*byte))
    }

    pub fn u32(&self, at: usize) -> u32 {
        self.number(at, 4) as u32
    }

    pub fn u64(&self, at: usize) -> u64 {
        self.number(at, 8)
    }

    /// The error that it says, if it does.
    pub fn failure(&self) -> Option<io::Error> {
        (self.flags & ERROR != 0).then(|| io::Error::from_raw_os_error(self.error as i32))
    }
}

/// What the server says of a region.
#[derive(Debug)]
pub struct RegionInfo {
    pub flags: u32,
    pub bytes: u64,
    pub offset: u64,
    pub areas: Vec<(u64, u64)>,
    pub descriptor: Option<OwnedFd>,
}

/// What the server says of a kind of interrupts.
#[derive(Clone, Copy, Debug, PartialEq, Eq)]
pub struct IrqInfo {
    pub flags: u32,
    pub count: u32,
}

/// What a start as QEMU's has found.
#[derive(Debug)]
pub struct Found {
    pub capabilities: String,
    pub regions: Vec<RegionInfo>,
    pub msix: IrqInfo,
    pub config: Vec<u8>,
}

fn wrong<T>(what: impl Into<String>) -> io::Result<T> {
    Err(io::Error::new(io::ErrorKind::InvalidData, what.into()))
}

/// A client.
#[derive(Debug)]
pub struct Client {
    pub socket: UnixStream,
    next_id: u16,
}

impl Client {
    /// A client on a connected socket.
    pub fn on(socket: UnixStream) -> io::Result<Client> {
        socket.set_nonblocking(false)?;
        socket.set_read_timeout(Some(PATIENCE))?;
        socket.set_write_timeout(Some(PATIENCE))?;
        Ok(Client { socket, next_id: 0 })
    }

    /// A client that connects at a path.
    pub fn connect(path: &Path) -> io::Result<Client> {
        Client::on(UnixStream::connect(path)?)
    }

    /// A client and the server's end of its connection.
    pub fn pair() -> io::Result<(Client, OwnedFd)> {
        let (own, other) = UnixStream::pair()?;
        Ok((Client::on(own)?, OwnedFd::from(other)))
    }

    /// Any bytes with descriptors, in one `sendmsg`. It may send less, where the server doesn't read.
    pub fn send_some(&self, bytes: &[u8], descriptors: &[BorrowedFd<'_>]) -> io::Result<usize> {
        let raw: Vec<RawFd> = descriptors.iter().map(|descriptor| descriptor.as_raw_fd()).collect();
        let rights = [ControlMessage::ScmRights(&raw)];
        let control = if raw.is_empty() { &rights[..0] } else { &rights[..] };
        let part = [IoSlice::new(bytes)];
        let flags = MsgFlags::MSG_NOSIGNAL;
        loop {
            match sendmsg::<()>(self.socket.as_raw_fd(), &part, control, flags, None) {
                Err(Errno::EINTR) => {}
                sent => return Ok(sent?),
            }
        }
    }

    /// Any bytes; the descriptors go with the first of them.
    pub fn send_bytes(&self, bytes: &[u8], descriptors: &[BorrowedFd<'_>]) -> io::Result<()> {
        let mut sent = self.send_some(bytes, descriptors)?;
        while sent < bytes.len() {
            sent += self.send_some(&bytes[sent..], &[])?;
        }
        Ok(())
    }

    /// A command. Says which number it has.
    pub fn send(&mut self, command: u16, flags: u32, payload: &[u8], fds: &[BorrowedFd<'_>]) -> io::Result<u16> {
        self.next_id = self.next_id.wrapping_add(1);
        self.send_bytes(&message(self.next_id, command, flags, payload), fds)?;
        Ok(self.next_id)
    }

    fn receive_exact(&self, bytes: &mut [u8], descriptors: &mut Vec<OwnedFd>) -> io::Result<()> {
        let mut at = 0;
        while at < bytes.len() {
            let mut control = nix::cmsg_space!([RawFd; 16]);
            let mut parts = [IoSliceMut::new(&mut bytes[at..])];
            let flags = MsgFlags::MSG_CMSG_CLOEXEC;
            let got = match recvmsg::<()>(self.socket.as_raw_fd(), &mut parts, Some(&mut control), flags) {
                Err(Errno::EINTR) => continue,
                got => got?,
            };
            for message in got.cmsgs()? {
                if let ControlMessageOwned::ScmRights(raw) = message {
                    // SAFETY: the kernel has opened them for this process just now, and nobody else has them.
                    descriptors.extend(raw.into_iter().map(|raw| unsafe { OwnedFd::from_raw_fd(raw) }));
                }
            }
            if got.bytes == 0 {
                return Err(io::ErrorKind::UnexpectedEof.into());
            }
            at += got.bytes;
        }
        Ok(())
    }

    /// The next reply; an error after [`PATIENCE`], or where the server has closed the connection.
    pub fn receive(&self) -> io::Result<Reply> {
        let mut header = [0; 16];
        let mut descriptors = Vec::new();
        self.receive_exact(&mut header, &mut descriptors)?;
        let head = Reply {
            id: 0,
            command: 0,
            flags: 0,
            error: 0,
            payload: header.to_vec(),
            descriptors: Vec::new(),
        };
        let size = head.u32(4) as usize;
        if !(16..=2 << 20).contains(&size) {
            return wrong(format!("a reply of {size} bytes"));
        }
        let mut payload = vec![0; size - 16];
        self.receive_exact(&mut payload, &mut descriptors)?;
        let (id, command) = (head.number(0, 2) as u16, head.number(2, 2) as u16);
        Ok(Reply {
            id,
            command,
            flags: head.u32(8),
            error: head.u32(12),
            payload,
            descriptors,
        })
    }

    /// The reply of a command, which has its number. An error is the reply's, or that of the connection.
    pub fn receive_for(&self, id: u16, command: u16) -> io::Result<Reply> {
        let reply = self.receive()?;
        if (reply.id, reply.command, reply.flags & 0x1f) != (id, command, REPLY) {
            return wrong(format!("no reply to {id} of command {command}: {reply:?}"));
        }
        match reply.failure() {
            Some(error) if reply.payload.is_empty() => Err(error),
            Some(_) => wrong("an error with data"),
            None => Ok(reply),
        }
    }

    /// Sends a command and waits for its reply.
    pub fn ask(&mut self, command: u16, payload: &[u8], fds: &[BorrowedFd<'_>]) -> io::Result<Reply> {
        let id = self.send(command, 0, payload, fds)?;
        self.receive_for(id, command)
    }

    fn ask_empty(&mut self, command: u16, payload: &[u8], fds: &[BorrowedFd<'_>]) -> io::Result<()> {
        let reply = self.ask(command, payload, fds)?;
        if reply.payload.is_empty() {
            Ok(())
        } else {
            wrong("a reply with data that it should not have")
        }
    }

    /// Whether the server closes the connection within [`PATIENCE`]; what it sends before is thrown away.
    pub fn is_closed(&self) -> bool {
        loop {
            match self.receive() {
                Ok(_) => {}
                Err(error) => return !matches!(error.kind(), io::ErrorKind::WouldBlock | io::ErrorKind::TimedOut),
            }
        }
    }

    /// Agrees on the version as QEMU does; gives the server's capabilities.
    pub fn version(&mut self) -> io::Result<String> {
        let reply = self.ask(command::VERSION, &qemu_version_payload(), &[])?;
        if reply.number(0, 2) != 0 || reply.number(2, 2) != 0 {
            return wrong("a version that QEMU refuses");
        }
        match reply.payload.get(4..).and_then(|text| text.strip_suffix(&[0])) {
            Some(text) => Ok(String::from_utf8_lossy(text).into_owned()),
            None => wrong("the capabilities do not end with NUL"),
        }
    }

    /// Maps memory, readable and writable, with the file or without.
    pub fn map(&mut self, range: Range, file: Option<BorrowedFd<'_>>) -> io::Result<()> {
        let payload = map_payload(MAP_READ | MAP_WRITE, range.offset, range.address, range.bytes);
        self.ask_empty(command::DMA_MAP, &payload, file.as_slice())
    }

    /// Maps and unmaps without waiting in between, as QEMU does; then waits for all replies.
    pub fn remap(&mut self, steps: &[Remap<'_>]) -> io::Result<()> {
        let mut ids = Vec::new();
        for step in steps {
            let (command, payload, file) = match step {
                Remap::Map { flags, range, file } => (
                    command::DMA_MAP,
                    map_payload(*flags, range.offset, range.address, range.bytes),
                    *file,
                ),
                Remap::Unmap { address, bytes } => (command::DMA_UNMAP, unmap_payload(0, *address, *bytes), None),
            };
            ids.push((self.send(command, 0, &payload, file.as_slice())?, command));
        }
        ids.into_iter()
            .try_for_each(|(id, command)| self.receive_for(id, command).map(|_| ()))
    }

    /// Maps several ranges of a file, readable and writable, without waiting in between.
    pub fn map_pipelined(&mut self, ranges: &[Range], file: BorrowedFd<'_>) -> io::Result<()> {
        let steps: Vec<_> = ranges.iter().map(|range| Remap::ram(*range, file)).collect();
        self.remap(&steps)
    }

    /// What QEMU sends while SeaBIOS runs and leaves behind (PAM): memory below 1 MiB in pieces, some of them read-only, ROM and the VGA's memory without a file.
    /// `low` is the range from 0 on, of at least 2 MiB, as [`Client::start_as_qemu`] has mapped it with its hole at a0000h.
    pub fn remap_as_firmware(&mut self, memory: &Memory, low: Range) -> io::Result<()> {
        let file = memory.file.as_fd();
        let part = |from: u64, to: u64| Range {
            address: from,
            offset: low.offset + from,
            bytes: to - from,
        };
        let read_only = |from, to| Remap::Map {
            flags: MAP_READ,
            range: part(from, to),
            file: Some(file),
        };
        let rom = |from: u64, to: u64| {
            let range = Range {
                address: from,
                offset: 0,
                bytes: to - from,
            };
            Remap::Map {
                flags: MAP_READ,
                range,
                file: None,
            }
        };
        let ram = |from, to| Remap::ram(part(from, to), file);
        let gone = |from: u64, to: u64| Remap::Unmap {
            address: from,
            bytes: to - from,
        };
        let vga = Range {
            address: 0xfd00_0000,
            offset: 0,
            bytes: 0x100_0000,
        };
        self.remap(&[
            gone(0xc0000, low.bytes),
            rom(0xc0000, 0xe0000),
            rom(0xe0000, 0x10_0000),
            ram(0x10_0000, low.bytes),
        ])?;
        self.remap(&[
            gone(0xc0000, 0xe0000),
            gone(0xe0000, 0x10_0000),
            gone(0x10_0000, low.bytes),
            ram(0xc0000, low.bytes),
        ])?;
        self.remap(&[Remap::Map {
            flags: MAP_READ | MAP_WRITE,
            range: vga,
            file: None,
        }])?;
        self.remap(&[gone(0, 0xa0000), gone(0xc0000, low.bytes), ram(0, low.bytes)])?;
        self.remap(&[gone(0, low.bytes), ram(0, 0xa0000), ram(0xc0000, low.bytes)])?;
        self.remap(&[
            gone(0xc0000, low.bytes),
            read_only(0xc0000, 0xca000),
            ram(0xca000, 0xcd000),
            read_only(0xcd000, 0xe8000),
            ram(0xe8000, 0xf0000),
            read_only(0xf0000, 0x10_0000),
            ram(0x10_0000, low.bytes),
        ])
    }

    pub fn unmap(&mut self, address: u64, bytes: u64) -> io::Result<()> {
        let reply = self.ask(command::DMA_UNMAP, &unmap_payload(0, address, bytes), &[])?;
        if reply.payload == unmap_payload(0, address, bytes) {
            Ok(())
        } else {
            wrong("an unmapping that is another's")
        }
    }

    pub fn unmap_all(&mut self) -> io::Result<()> {
        self.ask(command::DMA_UNMAP, &unmap_payload(2, 0, 0), &[]).map(|_| ())
    }

    /// Flags, regions, kinds of interrupts.
    pub fn device_info(&mut self) -> io::Result<(u32, u32, u32)> {
        let reply = self.ask(command::GET_INFO, &info_payload(), &[])?;
        Ok((reply.u32(4), reply.u32(8), reply.u32(12)))
    }

    /// What the server says of a region, asked twice where it needs more room, as QEMU does.
    pub fn region_info(&mut self, index: u32) -> io::Result<RegionInfo> {
        let mut room = 32;
        loop {
            let reply = self.ask(command::GET_REGION_INFO, &region_info_payload(room, index), &[])?;
            let (needed, flags, caps) = (reply.u32(0), reply.u32(4), reply.u32(12));
            if flags & 8 != 0 && (caps < 32 || caps > needed) {
                return wrong("capabilities at a place that QEMU refuses");
            }
            if needed > room {
                if !reply.descriptors.is_empty() {
                    return wrong("a descriptor with half a reply");
                }
                room = needed;
                continue;
            }
            let count = if flags & 8 != 0 {
                reply.u32(caps as usize + 8) as usize
            } else {
                0
            };
            let at = |area: usize| caps as usize + 16 + 16 * area;
            let areas = (0..count)
                .map(|area| (reply.u64(at(area)), reply.u64(at(area) + 8)))
                .collect();
            let (bytes, offset) = (reply.u64(16), reply.u64(24));
            return Ok(RegionInfo {
                flags,
                bytes,
                offset,
                areas,
                descriptor: reply.descriptors.into_iter().next(),
            });
        }
    }

    pub fn irq_info(&mut self, index: u32) -> io::Result<IrqInfo> {
        let reply = self.ask(command::GET_IRQ_INFO, &irq_info_payload(index), &[])?;
        Ok(IrqInfo {
            flags: reply.u32(4),
            count: reply.u32(12),
        })
    }

    /// Gives eventfds to the interrupts of a kind from `start` on, as many as there are; with none, one is taken away.
    pub fn set_eventfds(&mut self, index: u32, start: u32, eventfds: &[BorrowedFd<'_>]) -> io::Result<()> {
        let count = (eventfds.len() as u32).max(1);
        let payload = set_irqs_payload(DATA_EVENTFD | ACTION_TRIGGER, index, start, count, &[]);
        self.ask_empty(command::SET_IRQS, &payload, eventfds)
    }

    /// Takes all interrupts of a kind away.
    pub fn disable_irqs(&mut self, index: u32) -> io::Result<()> {
        self.ask_empty(
            command::SET_IRQS,
            &set_irqs_payload(DATA_NONE | ACTION_TRIGGER, index, 0, 0, &[]),
            &[],
        )
    }

    /// An action without data on one interrupt: [`ACTION_MASK`], [`ACTION_UNMASK`] or [`ACTION_TRIGGER`].
    pub fn act_on_irq(&mut self, index: u32, number: u32, action: u32) -> io::Result<()> {
        self.ask_empty(
            command::SET_IRQS,
            &set_irqs_payload(DATA_NONE | action, index, number, 1, &[]),
            &[],
        )
    }

    pub fn read(&mut self, region: u32, offset: u64, count: u32) -> io::Result<Vec<u8>> {
        let reply = self.ask(command::REGION_READ, &access_payload(region, offset, count), &[])?;
        match reply.payload.split_at_checked(16) {
            Some((head, data)) if head == access_payload(region, offset, count) && data.len() == count as usize => {
                Ok(data.to_vec())
            }
            _ => wrong("a read that is another's"),
        }
    }

    pub fn read_u32(&mut self, region: u32, offset: u64) -> io::Result<u32> {
        let bytes = self.read(region, offset, 4)?;
        Ok(bytes.iter().rev().fold(0, |value, byte| value << 8 | u32::from(*byte)))
    }

    pub fn write(&mut self, region: u32, offset: u64, data: &[u8]) -> io::Result<()> {
        let reply = self.ask(command::REGION_WRITE, &write_payload(region, offset, data), &[])?;
        let expected = access_payload(region, offset, data.len() as u32);
        if reply.payload == expected {
            Ok(())
        } else {
            wrong("a write that is another's")
        }
    }

    /// A write that nobody waits for, as QEMU writes to BAR0.
    pub fn post(&mut self, region: u32, offset: u64, data: &[u8]) -> io::Result<()> {
        self.send(
            command::REGION_WRITE,
            NO_REPLY,
            &write_payload(region, offset, data),
            &[],
        )
        .map(|_| ())
    }

    pub fn post_u32(&mut self, region: u32, offset: u64, value: u32) -> io::Result<()> {
        self.post(region, offset, &value.to_le_bytes())
    }

    pub fn write_multi(&mut self, writes: &[(u32, u64, &[u8])]) -> io::Result<u64> {
        Ok(self
            .ask(command::WRITE_MULTI, &write_multi_payload(writes), &[])?
            .u64(0))
    }

    pub fn reset(&mut self) -> io::Result<()> {
        self.ask_empty(command::RESET, &[], &[])
    }

    /// All that QEMU 11.1.3 sends until the guest's firmware runs: version, memory, what the device is, its configuration space, a reset. Of a range from 0 on the
    /// VGA's window at a0000h is left out, as QEMU does it.
    pub fn start_as_qemu(&mut self, memory: &Memory, ranges: &[Range]) -> io::Result<Found> {
        let capabilities = self.version()?;
        let mut parts = Vec::new();
        for range in ranges {
            if range.address == 0 && range.bytes > 0xc0000 {
                parts.push(Range {
                    bytes: 0xa0000,
                    ..*range
                });
                parts.push(Range {
                    address: 0xc0000,
                    offset: range.offset + 0xc0000,
                    bytes: range.bytes - 0xc0000,
                });
            } else {
                parts.push(*range);
            }
        }
        let firmware = Range {
            address: 0xfffc_0000,
            offset: 0,
            bytes: 0x40000,
        };
        let mut steps: Vec<_> = parts
            .iter()
            .map(|range| Remap::ram(*range, memory.file.as_fd()))
            .collect();
        steps.push(Remap::Map {
            flags: MAP_READ,
            range: firmware,
            file: None,
        });
        self.remap(&steps)?;
        let (flags, regions, irqs) = self.device_info()?;
        if flags != 3 || regions < 9 || irqs < 3 {
            return wrong(format!(
                "no PCI device with a reset: {flags:#x}, {regions} regions, {irqs} interrupts"
            ));
        }
        let indexes = [0, 1, 2, 3, 4, 5, 7];
        let regions = indexes
            .iter()
            .map(|index| self.region_info(*index))
            .collect::<io::Result<Vec<_>>>()?;
        // QEMU looks at the interrupt of errors, and goes on where there is none: of one it sets up the eventfd, once the device is there.
        let errors = self.irq_info(ERR).map_or(0, |info| info.count);
        let config = self.read(CONFIG, 0, 256)?;
        for (offset, count) in [(0x30, 4), (0x10, 4), (0x18, 4)] {
            self.read(CONFIG, offset, count)?;
        }
        let msix = self.irq_info(MSIX)?;
        self.read(CONFIG, 0x3d, 1)?;
        if errors == 1 {
            self.set_eventfds(ERR, 0, &[eventfds(1)?.remove(0).as_fd()])?;
        }
        self.reset()?;
        Ok(Found {
            capabilities,
            regions,
            msix,
            config,
        })
    }

    /// Enables MSI-X as QEMU does: first with one vector and no descriptor, then each change takes all away and sets them anew.
    pub fn enable_msix(&mut self, eventfds: &[EventFd]) -> io::Result<()> {
        self.set_eventfds(MSIX, 0, &[])?;
        self.disable_irqs(MSIX)?;
        let all: Vec<BorrowedFd<'_>> = eventfds.iter().map(|eventfd| eventfd.as_fd()).collect();
        self.set_eventfds(MSIX, 0, &all)
    }
}

/// So many eventfds.
pub fn eventfds(count: usize) -> io::Result<Vec<EventFd>> {
    (0..count)
        .map(|_| {
            Ok(EventFd::from_value_and_flags(
                0,
                EfdFlags::EFD_CLOEXEC | EfdFlags::EFD_NONBLOCK,
            )?)
        })
        .collect()
}

/// Waits until an eventfd was signalled, and takes the signals: how many. 0 after the time.
pub fn wait_for(eventfd: &EventFd, wait: Duration) -> io::Result<u64> {
    let mut one = [PollFd::new(eventfd.as_fd(), PollFlags::POLLIN)];
    let wait = PollTimeout::try_from(wait).unwrap_or(PollTimeout::MAX);
    if poll(&mut one, wait)? == 0 {
        return Ok(0);
    }
    Ok(eventfd.read()?)
}
