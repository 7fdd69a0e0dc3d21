//! vfio-user over real sockets: a client that speaks as QEMU does, and one that breaks each rule.
#![allow(clippy::unwrap_used, clippy::expect_used, clippy::panic)]

mod client;
mod vfio_user;

use std::io::Write;
use std::os::fd::{AsFd, AsRawFd, OwnedFd};
use std::os::unix::net::UnixListener;
use std::time::{Duration, Instant};

use client::broken::{self, Due};
use client::*;
use nix::fcntl::{fcntl, FcntlArg, FdFlag, OFlag};
use nix::poll::{PollFlags, PollTimeout};
use nvmed_host::vfio_user::wire::{FramingError, MESSAGE_MAX};
use nvmed_host::vfio_user::{Answer, Connection, Error, IrqAction, Request, STALL, UNSENT_MAX};
use vfio_user::*;

/// A client after VERSION, and its server without a thread.
fn begun() -> (Client, Connection, State) {
    let (mut client, socket) = Client::pair().unwrap();
    let device = device();
    let mut state = State::new(&device);
    let mut connection = Connection::new(socket, device).unwrap();
    let id = client.send(command::VERSION, 0, &qemu_version_payload(), &[]).unwrap();
    turn(&mut connection, &mut state, PollTimeout::ZERO).unwrap();
    client.receive_for(id, command::VERSION).unwrap();
    (client, connection, state)
}

/// Turns without waiting, until nothing more comes or the connection is over.
fn turns(connection: &mut Connection, state: &mut State) -> Result<(), Error> {
    (0..20).try_for_each(|_| turn(connection, state, PollTimeout::ZERO))
}

#[test]
fn as_qemu() {
    let (mut client, socket) = Client::pair().unwrap();
    let device = device();
    let page = identity(&*device.regions()[0].mapping.as_ref().unwrap().file);
    let server = start(socket, device);
    let memory = Memory::new(64 << 20).unwrap();
    let split = 32 << 20;
    let low = Range {
        address: 0,
        offset: 0,
        bytes: split,
    };
    let high = Range {
        address: 1 << 32,
        offset: split,
        bytes: split,
    };
    let found = client.start_as_qemu(&memory, &[low, high]).unwrap();
    assert!(found.capabilities.contains(r#""max_msg_fds":16"#) && found.capabilities.contains("1048576"));
    assert_eq!(found.msix, IrqInfo { flags: 9, count: 9 });
    assert_eq!((found.regions[0].flags, found.regions[0].bytes), (15, 0x4000));
    assert_eq!(found.regions[0].areas, [(0x1000, 0x1000)]);
    assert_eq!(identity(found.regions[0].descriptor.as_ref().unwrap()), page);
    assert_eq!(
        (found.regions[1].bytes, found.regions[6].bytes, found.config.len()),
        (0, 256, 256)
    );
    // the firmware maps memory anew; then Linux sets the controller up
    client.remap_as_firmware(&memory, low).unwrap();
    client.write(CONFIG, 4, &[6, 4]).unwrap();
    client.post_u32(BAR0, 0x14, 0x0046_0001).unwrap();
    assert_eq!(client.read_u32(BAR0, 0x14).unwrap(), 0x0046_0001);
    assert_eq!(
        client
            .write_multi(&[(BAR0, 0x24, &[31, 0, 31, 0]), (BAR0, 0x28, &[0, 0, 1, 0, 0, 0, 0, 0])])
            .unwrap(),
        2
    );
    assert_eq!(
        client.read(BAR0, 0x24, 12).unwrap(),
        [31, 0, 31, 0, 0, 0, 1, 0, 0, 0, 0, 0]
    );
    // interrupts
    let vectors = eventfds(9).unwrap();
    client.enable_msix(&vectors).unwrap();
    client.post_u32(BAR0, 0x3000, 5).unwrap();
    assert_eq!(wait_for(&vectors[5], PATIENCE).unwrap(), 1);
    client.set_eventfds(MSIX, 5, &[]).unwrap();
    assert_eq!(
        client.write(BAR0, 0x3000, &[5, 0, 0, 0]).unwrap_err().raw_os_error(),
        Some(libc::ENXIO)
    );
    client.disable_irqs(MSIX).unwrap();
    let pin = eventfds(1).unwrap();
    client.set_eventfds(INTX, 0, &[pin[0].as_fd()]).unwrap();
    client.act_on_irq(INTX, 0, ACTION_UNMASK).unwrap();
    // a large access each way
    let large: Vec<u8> = (0..1u32 << 20).map(|i| (i / 3) as u8).collect();
    client.write(2, 0, &large).unwrap();
    assert_eq!(client.read(2, 0, 1 << 20).unwrap(), large);
    client.reset().unwrap();
    client.unmap(1 << 32, split).unwrap();
    drop(client);
    let (error, state) = server.join().unwrap();
    assert_eq!((error, state.resets, state.refused), (Error::Closed, 2, 0));
    let file = Some(identity(&memory.file));
    let ram = |address, bytes| (address, (bytes, address, file));
    let expected = [
        ram(0, 0xa0000),
        ram(0xc0000, 0xa000),
        ram(0xca000, 0x3000),
        ram(0xcd000, 0x1b000),
        ram(0xe8000, 0x8000),
        ram(0xf0000, 0x10000),
        ram(0x10_0000, split - 0x10_0000),
        (0xfd00_0000, (0x100_0000, 0, None)),
        (0xfffc_0000, (0x40000, 0, None)),
    ];
    assert_eq!(state.maps.into_iter().collect::<Vec<_>>(), expected);
    assert_eq!(state.irqs.into_keys().collect::<Vec<_>>(), [(INTX, 0)]);
    assert_eq!(state.actions, [(IrqAction::Unmask, INTX, 0)]);
}

/// Each of several maps that were sent without waiting has the descriptor that it came with, also between messages without one.
#[test]
fn attribution() {
    let (mut client, mut connection, mut state) = begun();
    let files: Vec<Memory> = (0..40).map(|_| Memory::new(4096).unwrap()).collect();
    for (page, file) in files.iter().enumerate() {
        let payload = map_payload(3, 0, page as u64 * 4096, 4096);
        if page % 3 == 0 {
            client.post_u32(BAR0, 0x1000, page as u32).unwrap();
            client.send(command::GET_INFO, NO_REPLY, &info_payload(), &[]).unwrap();
        }
        let with = page % 5 != 4;
        let descriptors = [file.file.as_fd()];
        client
            .send(command::DMA_MAP, 0, &payload, &descriptors[..usize::from(with)])
            .unwrap();
    }
    for _ in 0..100 {
        turn(&mut connection, &mut state, PollTimeout::ZERO).unwrap();
    }
    assert_eq!(state.maps.len(), files.len());
    for (page, file) in files.iter().enumerate() {
        let expected = (page % 5 != 4).then(|| identity(&file.file));
        assert_eq!(state.maps[&(page as u64 * 4096)].2, expected, "page {page}");
    }
}

/// A message in pieces, and several in one piece.
#[test]
fn pieces() {
    let (client, mut connection, mut state) = begun();
    let shared = Memory::new(4096).unwrap();
    for size in [1, 2, 3, 7, 15, 16, 17, 47] {
        let map = message(
            size as u16,
            command::DMA_MAP,
            0,
            &map_payload(3, 0, size as u64 * 4096, 4096),
        );
        for (index, piece) in map.chunks(size).enumerate() {
            let descriptors = [shared.file.as_fd()];
            client
                .send_bytes(piece, &descriptors[..usize::from(index == 0)])
                .unwrap();
            turn(&mut connection, &mut state, PollTimeout::ZERO).unwrap();
        }
        client.receive_for(size as u16, command::DMA_MAP).unwrap();
        assert_eq!(state.maps[&(size as u64 * 4096)].2, Some(identity(&shared.file)));
    }
    let many: Vec<u8> = (0..500)
        .flat_map(|id| message(id, command::GET_IRQ_INFO, 0, &irq_info_payload(2)))
        .collect();
    client.send_bytes(&many, &[]).unwrap();
    for id in 0..500 {
        turn(&mut connection, &mut state, PollTimeout::ZERO).unwrap();
        assert_eq!(client.receive_for(id, command::GET_IRQ_INFO).unwrap().u32(12), 9);
    }
}

#[test]
fn broken_rules() {
    let (mut client, mut connection, mut state) = begun();
    let files: Vec<Memory> = (0..9).map(|_| Memory::new(4096).unwrap()).collect();
    for broken in broken::refused() {
        let descriptors: Vec<_> = files
            .iter()
            .take(broken.descriptors)
            .map(|memory| memory.file.as_fd())
            .collect();
        client.send_bytes(&broken.bytes, &descriptors).unwrap();
        turns(&mut connection, &mut state).unwrap();
        let reply = client.receive().unwrap();
        assert_eq!((reply.id, reply.payload.len()), (broken::ID, 0));
        assert_eq!(Due::Errno(reply.error as i32), broken.due, "{}", broken.rule);
    }
    assert_eq!(state.refused, broken::refused().len() as u64);
    let id = client.send(command::RESET, 0, &[], &[]).unwrap();
    turns(&mut connection, &mut state).unwrap();
    client.receive_for(id, command::RESET).unwrap();
    assert_eq!(state.resets, 1);
}

#[test]
fn broken_streams() {
    let shared = Memory::new(4096).unwrap();
    for broken in broken::fatal() {
        let (client, mut connection, mut state) = begun();
        let descriptors = vec![shared.file.as_fd(); broken.descriptors];
        client.send_bytes(&broken.bytes, &descriptors).unwrap();
        let error = turns(&mut connection, &mut state).unwrap_err();
        assert!(
            matches!(error, Error::Framing(_) | Error::VersionAgain),
            "{}: {error}",
            broken.rule
        );
        if broken.descriptors > 16 {
            assert_eq!(error, Error::Framing(FramingError::Descriptors));
        }
        assert_eq!(connection.receive(), Err(error));
        assert_eq!(connection.flush(), Err(error));
        drop(connection);
        assert!(client.is_closed(), "{}", broken.rule);
    }
}

/// A client of another version hears why it is left.
#[test]
fn another_version() {
    let (mut client, socket) = Client::pair().unwrap();
    let server = start(socket, device());
    let refused = client
        .ask(command::VERSION, &version_payload(1, 0, &[]), &[])
        .unwrap_err();
    assert_eq!(refused.raw_os_error(), Some(libc::EINVAL));
    assert!(client.is_closed());
    assert!(matches!(server.join().unwrap().0, Error::Version(_)));
}

/// The socket does not block, and is not left to other programs; nor are descriptors that came.
#[test]
fn descriptors() {
    let (client, mut connection, mut state) = begun();
    let flags = OFlag::from_bits_retain(fcntl(connection.as_fd().as_raw_fd(), FcntlArg::F_GETFL).unwrap());
    assert!(flags.contains(OFlag::O_NONBLOCK));
    let vectors = eventfds(3).unwrap();
    let all: Vec<_> = vectors.iter().map(|vector| vector.as_fd()).collect();
    let payload = set_irqs_payload(DATA_EVENTFD | ACTION_TRIGGER, MSIX, 0, 3, &[]);
    client
        .send_bytes(&message(1, command::SET_IRQS, 0, &payload), &all)
        .unwrap();
    turns(&mut connection, &mut state).unwrap();
    assert_eq!(state.irqs.len(), 3);
    for fd in state.irqs.values() {
        assert_eq!(
            fcntl(fd.as_raw_fd(), FcntlArg::F_GETFD).unwrap(),
            FdFlag::FD_CLOEXEC.bits()
        );
    }
}

#[test]
fn ends() {
    // between messages, in the middle of one, and with a reply that was not read
    let (client, mut connection, mut state) = begun();
    drop(client);
    assert_eq!(turns(&mut connection, &mut state), Err(Error::Closed));
    for cut in 1..48 {
        let (client, mut connection, mut state) = begun();
        let map = message(1, command::DMA_MAP, 0, &map_payload(3, 0, 0, 4096));
        client.send_bytes(&map[..cut], &[]).unwrap();
        turns(&mut connection, &mut state).unwrap();
        drop(client);
        assert_eq!(turns(&mut connection, &mut state), Err(Error::Cut), "{cut}");
    }
    let (mut client, mut connection, mut state) = begun();
    client.send(command::RESET, 0, &[], &[]).unwrap();
    turns(&mut connection, &mut state).unwrap();
    drop(client);
    assert_eq!(turns(&mut connection, &mut state), Err(Error::Closed));
    // its last message was whole; the reply finds nobody
    let (mut client, mut connection, mut state) = begun();
    client.send(command::RESET, 0, &[], &[]).unwrap();
    drop(client);
    assert_eq!(turns(&mut connection, &mut state), Err(Error::Closed));
    assert_eq!(state.resets, 1);
    // it sends no more, and still reads
    let (client, mut connection, mut state) = begun();
    client.socket.shutdown(std::net::Shutdown::Write).unwrap();
    assert_eq!(turns(&mut connection, &mut state), Err(Error::Closed));
}

#[test]
fn stalls() {
    let (client, mut connection, mut state) = begun();
    assert_eq!(connection.deadline(), None);
    client
        .send_bytes(&message(1, command::RESET, 0, &[])[..9], &[])
        .unwrap();
    turns(&mut connection, &mut state).unwrap();
    let deadline = connection.deadline().unwrap();
    assert!(deadline <= Instant::now() + STALL);
    assert_eq!(connection.check(deadline - Duration::from_millis(1)), Ok(()));
    assert_eq!(connection.check(deadline), Err(Error::Stalled));
}

/// While a request waits for its answer, the end is noticed, also where the client has filled all room before.
#[test]
fn end_while_waiting() {
    for fill in [false, true] {
        let (mut client, mut connection, mut state) = begun();
        client.send(command::RESET, 0, &[], &[]).unwrap();
        connection.ready(PollFlags::POLLIN).unwrap();
        let (request, _ticket) = connection.next_request().unwrap().unwrap();
        assert!(matches!(request, Request::Reset));
        if fill {
            client.socket.set_nonblocking(true).unwrap();
            let many = message(1, command::GET_INFO, NO_REPLY, &info_payload()).repeat(100);
            while connection.events().contains(PollFlags::POLLIN) {
                let _ = client.socket.write(&many);
                turn(&mut connection, &mut state, PollTimeout::ZERO).unwrap();
            }
            assert!(connection.events().is_empty());
        }
        turns(&mut connection, &mut state).unwrap();
        drop(client);
        let error = turns(&mut connection, &mut state).unwrap_err();
        assert!(error == Error::Closed || (fill && error == Error::Cut), "{error}");
    }
}

/// A client that does not read its replies loses its connection; nothing waits for it.
#[test]
fn unread() {
    let (client, mut connection, mut state) = begun();
    client.socket.set_nonblocking(true).unwrap();
    let read = message(1, command::REGION_READ, 0, &access_payload(2, 0, 1 << 16));
    let begin = Instant::now();
    let mut asked = 0;
    let error = loop {
        if client.send_some(&read, &[]).is_ok_and(|sent| sent == read.len()) {
            asked += 1;
        }
        if let Err(error) = turn(&mut connection, &mut state, PollTimeout::ZERO) {
            break error;
        }
        assert!(begin.elapsed() < PATIENCE);
    };
    assert_eq!(error, Error::Unread);
    assert!(asked >= UNSENT_MAX >> 16);
}

/// One that reads late gets all replies, in order, with its descriptor.
#[test]
fn late_reader() {
    let (mut client, mut connection, mut state) = begun();
    let mut ids = Vec::new();
    for _ in 0..20 {
        let id = client
            .send(command::REGION_READ, 0, &access_payload(2, 0, 1 << 16), &[])
            .unwrap();
        let info = client
            .send(command::GET_REGION_INFO, 0, &region_info_payload(64, 0), &[])
            .unwrap();
        ids.extend([(id, command::REGION_READ), (info, command::GET_REGION_INFO)]);
        turns(&mut connection, &mut state).unwrap();
    }
    assert!(connection.events().contains(PollFlags::POLLOUT));
    let reader = std::thread::spawn(move || {
        for (id, of) in ids {
            let reply = client.receive_for(id, of).unwrap();
            assert_eq!(reply.descriptors.len(), usize::from(of == command::GET_REGION_INFO));
        }
    });
    while connection.events().contains(PollFlags::POLLOUT) {
        turn(&mut connection, &mut state, PollTimeout::from(100u8)).unwrap();
    }
    reader.join().unwrap();
}

/// The largest messages in both directions, over a socket that takes them in pieces.
#[test]
fn largest() {
    let (client, mut connection, mut state) = begun();
    let data = vec![9; 1 << 20];
    let write = message(5, command::REGION_WRITE, 0, &write_payload(2, 0, &data));
    assert_eq!(write.len(), MESSAGE_MAX);
    let writer = std::thread::spawn(move || {
        client.send_bytes(&write, &[]).unwrap();
        client.receive_for(5, command::REGION_WRITE).unwrap();
        client
    });
    while !writer.is_finished() {
        turn(&mut connection, &mut state, PollTimeout::from(10u8)).unwrap();
    }
    writer.join().unwrap();
    assert!(state.regions[2] == data);
}

/// A request that is answered late, as a reset that waits for a drive.
#[test]
fn a_late_answer() {
    let (mut client, mut connection, mut state) = begun();
    let reset = client.send(command::RESET, 0, &[], &[]).unwrap();
    let read = client
        .send(command::REGION_READ, 0, &access_payload(CONFIG, 0, 4), &[])
        .unwrap();
    connection.ready(PollFlags::POLLIN).unwrap();
    let (_, ticket) = connection.next_request().unwrap().unwrap();
    turns(&mut connection, &mut state).unwrap();
    client.socket.set_nonblocking(true).unwrap();
    assert_eq!(client.receive().unwrap_err().kind(), std::io::ErrorKind::WouldBlock);
    connection.answer(ticket, Answer::Done).unwrap();
    client.receive_for(reset, command::RESET).unwrap();
    let (request, ticket) = connection.next_request().unwrap().unwrap();
    state.answer(&mut connection, request, ticket).unwrap();
    client.receive_for(read, command::REGION_READ).unwrap();
}

/// Hostile clients, one after the other, each with a server in a thread of its own: each is served or left, and the next is.
#[test]
fn hostile_clients() {
    let odd = hostile::odd_descriptors().unwrap();
    let mut hostile = hostile::Hostile::new(7);
    let device = device();
    for _ in 0..200 {
        let (client, socket) = Client::pair().unwrap();
        let server = start(socket, device.clone());
        hostile.play(&client, &odd).unwrap();
        drop(client);
        assert_ne!(server.join().unwrap().0, Error::Misanswered);
    }
}

/// The next client begins anew.
#[test]
fn by_a_path() {
    let folder = std::env::temp_dir().join(format!("vfio-user-{}", std::process::id()));
    std::fs::create_dir_all(&folder).unwrap();
    let path = folder.join("socket");
    let listener = UnixListener::bind(&path).unwrap();
    let device = device();
    for round in 0..3 {
        let mut client = Client::connect(&path).unwrap();
        let server = start(OwnedFd::from(listener.accept().unwrap().0), device.clone());
        let memory = Memory::new(1 << 20).unwrap();
        client
            .start_as_qemu(
                &memory,
                &[Range {
                    address: 0,
                    offset: 0,
                    bytes: 1 << 20,
                }],
            )
            .unwrap();
        drop(client);
        let (error, state) = server.join().unwrap();
        assert_eq!((error, state.maps.len()), (Error::Closed, 3), "round {round}");
    }
    std::fs::remove_dir_all(&folder).unwrap();
}
