//! Mutated sequences of good messages, in any pieces and with any descriptors: there are requests within their limits or an error that stays, each reply is whole,
//! and no descriptor is left open. There is one test alone here, since it counts the descriptors of the process.
#![allow(clippy::unwrap_used, clippy::expect_used, clippy::panic)]

mod client;
mod vfio_user;

use std::io::Read;
use std::os::fd::{AsFd, OwnedFd};
use std::sync::Arc;
use std::time::Instant;

use client::hostile::{odd_descriptors, Hostile, Random};
use client::*;
use nix::errno::Errno;
use nvmed_host::vfio_user::wire::DATA_MAX;
use nvmed_host::vfio_user::*;

const ROUNDS: u64 = 20_000;
const SOCKET_ROUNDS: u64 = 5_000;

/// Answers a request, nearly always well; checks that it is within the limits first.
fn answer(
    random: &mut Random,
    device: &Device,
    request: Request,
    ticket: Ticket,
    to: &mut dyn FnMut(Ticket, Answer<'_>),
) {
    let within = |region: u32, offset: u64, count: usize| {
        let region = &device.regions()[region as usize];
        assert!(count > 0 && count <= DATA_MAX as usize && offset + count as u64 <= region.bytes);
    };
    let mut read = None;
    match &request {
        Request::DmaMap(map) => {
            assert!(map.bytes > 0 && map.bytes % 4096 == 0 && map.address % 4096 == 0 && map.offset % 4096 == 0);
            assert!(map.address.checked_add(map.bytes).is_some() && map.offset + map.bytes <= i64::MAX as u64);
            assert!(map.readable || map.writable);
        }
        Request::DmaUnmap(unmap) => assert!(unmap.all == (unmap.bytes == 0)),
        Request::RegionRead(access) => {
            within(access.region, access.offset, access.count as usize);
            read = Some(vec![1; access.count as usize]);
        }
        Request::RegionWrite(write) => within(write.region, write.offset, write.data.len()),
        Request::WriteMulti(writes) => {
            assert!(!writes.is_empty());
            writes
                .iter()
                .for_each(|write| within(write.region, write.offset, write.data().len()));
        }
        Request::SetIrqs(irqs) => {
            let most = device.irqs()[irqs.index as usize].count;
            assert!(irqs.start + irqs.count <= most && (irqs.count > 0 || irqs.disables_all()));
            match &irqs.data {
                IrqData::None => {}
                IrqData::Bools(which) => assert_eq!(which.len(), irqs.count as usize),
                IrqData::Eventfds(fds) => assert!(fds.is_empty() || fds.len() == irqs.count as usize),
            }
        }
        Request::Reset => {}
    }
    if random.chance(5) {
        return to(ticket, Answer::Refused(Errno::EIO));
    }
    match &read {
        Some(data) => to(ticket, Answer::Data(data)),
        None => to(ticket, Answer::Done),
    }
}

/// Reads replies from bytes: each is whole and is one. Gives how many.
fn count_replies(bytes: &[u8]) -> usize {
    let mut at = 0;
    let mut count = 0;
    while at < bytes.len() {
        let field = |from: usize| u32::from_ne_bytes(bytes[at + from..at + from + 4].try_into().unwrap());
        let (size, flags, error) = (field(4) as usize, field(8), field(12));
        assert!(flags == REPLY && error == 0 || flags == (REPLY | ERROR) && error != 0 && size == 16);
        assert!(size >= 16 && at + size <= bytes.len());
        at += size;
        count += 1;
    }
    count
}

#[derive(Debug, Default)]
struct Seen {
    requests: u64,
    replies: u64,
    errors: u64,
}

/// The protocol alone, fed in pieces. Some requests are answered when more has come, and some never.
fn without_socket(hostile: &mut Hostile, device: &Arc<Device>, odd: &[OwnedFd], seen: &mut Seen) {
    let mut session = Session::new(Arc::clone(device));
    let mut out = Vec::new();
    let mut late = None;
    'all: for (bytes, descriptors) in hostile.sequence() {
        let mut rest = &bytes[..];
        let mut descriptors = descriptors;
        while !rest.is_empty() {
            let piece = hostile.piece(rest.len());
            let random = &mut hostile.random;
            let fds = if session.has_room() { descriptors } else { 0 };
            descriptors -= fds;
            let fds = (0..fds).map(|_| random.pick(odd).try_clone().unwrap()).collect();
            let fed = session.feed(&rest[..piece], fds);
            if random.chance(80) || fed == Ok(0) {
                if let Some((request, ticket)) = late.take() {
                    answer(random, device, request, ticket, &mut |ticket, answer| {
                        _ = session.answer(ticket, answer)
                    });
                }
                while let Ok(Some((request, ticket))) = session.next_request() {
                    seen.requests += 1;
                    if random.chance(5) {
                        late = Some((request, ticket));
                        break;
                    }
                    answer(random, device, request, ticket, &mut |ticket, answer| {
                        _ = session.answer(ticket, answer)
                    });
                }
            }
            match fed {
                Ok(count) => rest = &rest[count..],
                Err(error) => {
                    assert_eq!(session.error(), Some(error));
                    break 'all;
                }
            }
            assert!(session.maps() <= 16 && session.deadline().is_none_or(|end| end <= Instant::now() + STALL));
        }
    }
    seen.errors += u64::from(session.error().is_some());
    assert_ne!(session.error(), Some(Error::Misanswered));
    while let Some((bytes, _)) = session.unsent() {
        let count = 1 + hostile.random.below(bytes.len());
        out.extend_from_slice(&bytes[..count]);
        session.sent(count);
    }
    seen.replies += count_replies(&out) as u64;
}

/// The same over a pair of sockets. The client sends in pieces, and reads at the end.
fn over_sockets(hostile: &mut Hostile, device: &Arc<Device>, odd: &[OwnedFd], seen: &mut Seen) {
    let (mut client, socket) = Client::pair().unwrap();
    client.socket.set_nonblocking(true).unwrap();
    let mut connection = Connection::new(socket, Arc::clone(device)).unwrap();
    let mut over = None;
    'all: for (bytes, mut descriptors) in hostile.sequence() {
        let mut rest = &bytes[..];
        while !rest.is_empty() {
            let piece = hostile.piece(rest.len());
            let random = &mut hostile.random;
            let fds: Vec<_> = (0..descriptors).map(|_| random.pick(odd).as_fd()).collect();
            match client.send_some(&rest[..piece], &fds) {
                Ok(count) => (rest, descriptors) = (&rest[count..], 0),
                Err(error) => assert_eq!(error.kind(), std::io::ErrorKind::WouldBlock),
            }
            if random.chance(60) {
                if let Err(error) = serve_once(random, &mut connection, device, seen) {
                    over = Some(error);
                    break 'all;
                }
            }
        }
    }
    if over.is_none() && hostile.random.chance(80) {
        let _ = serve_once(&mut hostile.random, &mut connection, device, seen);
    }
    seen.errors += u64::from(connection.session().error().is_some());
    drop(connection);
    let mut out = Vec::new();
    let _ = client.socket.read_to_end(&mut out);
    seen.replies += count_replies(&out) as u64;
}

fn serve_once(random: &mut Random, connection: &mut Connection, device: &Device, seen: &mut Seen) -> Result<(), Error> {
    connection.ready(connection.events())?;
    while let Some((request, ticket)) = connection.next_request()? {
        seen.requests += 1;
        let mut result = Ok(());
        answer(random, device, request, ticket, &mut |ticket, answer| {
            result = connection.answer(ticket, answer)
        });
        result?;
    }
    Ok(())
}

fn open_descriptors() -> usize {
    std::fs::read_dir("/proc/self/fd").unwrap().count()
}

#[test]
fn mutated_sequences() {
    let device = vfio_user::device();
    let odd = odd_descriptors().unwrap();
    let mut hostile = Hostile::new(0x9e37_79b9_7f4a_7c15);
    let (mut alone, mut sockets) = (Seen::default(), Seen::default());
    let before = open_descriptors();
    let begin = Instant::now();
    for _ in 0..ROUNDS {
        without_socket(&mut hostile, &device, &odd, &mut alone);
    }
    assert_eq!(open_descriptors(), before);
    let between = begin.elapsed();
    for _ in 0..SOCKET_ROUNDS {
        over_sockets(&mut hostile, &device, &odd, &mut sockets);
    }
    assert_eq!(open_descriptors(), before);
    println!(
        "{alone:?} in {between:?}, {sockets:?} in {:?}",
        begin.elapsed() - between
    );
    assert!(alone.requests > ROUNDS / 2 && sockets.requests > SOCKET_ROUNDS / 2);
    assert!(alone.errors < ROUNDS * 9 / 10 && alone.errors > ROUNDS / 20 && alone.replies > ROUNDS);
}
