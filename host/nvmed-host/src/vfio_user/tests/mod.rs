//! Tests of the protocol without its socket, and of its parts.

mod devices;
mod requests;
mod stream;
mod version;

use std::fs::File;
use std::os::fd::{AsFd, AsRawFd, OwnedFd};
use std::sync::Arc;
use std::time::{Duration, Instant};

use nix::errno::Errno;

use super::client::broken::{self, Due};
use super::client::*;
use super::version::negotiate;
use super::wire::{FramingError, Refusal, VersionRequest, DATA_MAX, MESSAGE_MAX};
use super::*;

/// A file that can be told from others.
fn file() -> OwnedFd {
    OwnedFd::from(Memory::new(8192).unwrap().file)
}

fn identity(fd: &OwnedFd) -> u64 {
    nix::sys::stat::fstat(fd.as_raw_fd()).unwrap().st_ino
}

/// A device as an NVMe controller's: BAR0 with a page that can be mapped, configuration space, MSI-X, a pin.
fn device() -> Arc<Device> {
    let page = Mapping {
        file: Arc::new(file()),
        offset: 0,
        areas: vec![Area {
            offset: 0x1000,
            bytes: 0x1000,
        }],
    };
    let mut regions = vec![Region::none(); pci_region::COUNT];
    regions[0] = Region::mapped(0x4000, page);
    regions[2] = Region::of(4 << 20);
    regions[3] = Region {
        writable: false,
        ..Region::of(4096)
    };
    regions[7] = Region::of(256);
    let mut irqs = vec![Irq::NONE; pci_irq::COUNT];
    irqs[0] = Irq {
        count: 1,
        eventfd: true,
        maskable: true,
        automasked: true,
        noresize: false,
    };
    irqs[2] = Irq {
        count: 9,
        eventfd: true,
        noresize: true,
        ..Irq::NONE
    };
    irqs[4] = Irq { count: 1, ..Irq::NONE };
    Arc::new(Device::new(regions, irqs).unwrap())
}

/// All bytes that wait to be sent, as replies: id, command, errno, payload.
fn replies(session: &mut Session) -> Vec<(u16, u16, u32, Vec<u8>)> {
    let mut bytes = Vec::new();
    while let Some((part, _)) = session.unsent() {
        let count = part.len().min(1000);
        bytes.extend_from_slice(&part[..count]);
        session.sent(count);
    }
    let mut replies = Vec::new();
    let mut rest = &bytes[..];
    while !rest.is_empty() {
        let field = |at: usize, width: usize| {
            rest[at..at + width]
                .iter()
                .rev()
                .fold(0u32, |value, byte| value << 8 | u32::from(*byte))
        };
        let (size, flags, error) = (field(4, 4) as usize, field(8, 4), field(12, 4));
        assert_eq!(flags, if error == 0 { REPLY } else { REPLY | ERROR });
        assert!(error == 0 || size == 16);
        replies.push((field(0, 2) as u16, field(2, 2) as u16, error, rest[16..size].to_vec()));
        rest = &rest[size..];
    }
    replies
}

/// A session after VERSION.
fn begun() -> Session {
    begun_with(device())
}

fn begun_with(device: Arc<Device>) -> Session {
    let mut session = Session::new(device);
    let version = message(1, command::VERSION, 0, &qemu_version_payload());
    assert_eq!(session.feed(&version, vec![]), Ok(version.len()));
    assert!(session.next_request().unwrap().is_none());
    let replies = replies(&mut session);
    assert_eq!(
        (replies.len(), replies[0].0, replies[0].1, replies[0].2),
        (1, 1, command::VERSION, 0)
    );
    session
}

fn feed(session: &mut Session, bytes: &[u8], descriptors: Vec<OwnedFd>) {
    assert_eq!(session.feed(bytes, descriptors), Ok(bytes.len()));
}

/// Feeds a message and takes its request.
fn ask(session: &mut Session, command: u16, payload: &[u8], fds: Vec<OwnedFd>) -> (Request, Ticket) {
    feed(session, &message(9, command, 0, payload), fds);
    session.next_request().unwrap().unwrap()
}

/// Asks, answers `Done`, and gives the reply's payload.
fn done(session: &mut Session, command: u16, payload: &[u8], fds: Vec<OwnedFd>) -> (Request, Vec<u8>) {
    let (request, ticket) = ask(session, command, payload, fds);
    session.answer(ticket, Answer::Done).unwrap();
    let mut replies = replies(session);
    assert_eq!(replies.len(), 1);
    let (id, of, error, payload) = replies.remove(0);
    assert_eq!((id, of, error), (9, command, 0));
    (request, payload)
}

/// Feeds a message that is answered without the caller; gives errno and payload of the reply.
fn answered(session: &mut Session, command: u16, payload: &[u8], fds: Vec<OwnedFd>) -> (u32, Vec<u8>) {
    feed(session, &message(9, command, 0, payload), fds);
    assert!(session.next_request().unwrap().is_none());
    let mut replies = replies(session);
    assert_eq!(replies.len(), 1);
    let (id, of, error, payload) = replies.remove(0);
    assert_eq!((id, of), (9, command));
    (error, payload)
}
