//! Tests of requests and answers.

use super::*;

#[test]
fn memory() {
    let mut session = begun();
    let shared = file();
    let number = identity(&shared);
    let (request, payload) = done(
        &mut session,
        command::DMA_MAP,
        &map_payload(3, 0x2000, 0x10000, 0x3000),
        vec![shared],
    );
    let Request::DmaMap(map) = request else {
        panic!("{request:?}")
    };
    assert_eq!(
        (map.address, map.bytes, map.offset, map.readable, map.writable),
        (0x10000, 0x3000, 0x2000, true, true)
    );
    assert_eq!(
        (identity(&map.fd.unwrap()), payload.len(), session.maps()),
        (number, 0, 1)
    );
    let (request, _) = done(
        &mut session,
        command::DMA_MAP,
        &map_payload(1, 0, 0xc0000, 0x1000),
        vec![],
    );
    assert!(matches!(
        request,
        Request::DmaMap(DmaMap {
            fd: None,
            writable: false,
            ..
        })
    ));
    let (request, payload) = done(
        &mut session,
        command::DMA_UNMAP,
        &unmap_payload(0, 0x10000, 0x3000),
        vec![],
    );
    assert!(matches!(
        request,
        Request::DmaUnmap(DmaUnmap {
            address: 0x10000,
            bytes: 0x3000,
            all: false
        })
    ));
    assert_eq!((payload, session.maps()), (unmap_payload(0, 0x10000, 0x3000), 1));
    let (request, payload) = done(&mut session, command::DMA_UNMAP, &unmap_payload(2, 0, 0), vec![]);
    assert!(matches!(request, Request::DmaUnmap(DmaUnmap { all: true, .. })));
    assert_eq!((payload, session.maps()), (unmap_payload(2, 0, 0), 0));
}

#[test]
fn memory_that_meets() {
    let mut session = begun();
    done(
        &mut session,
        command::DMA_MAP,
        &map_payload(3, 0, 0x10000, 0x3000),
        vec![],
    );
    done(
        &mut session,
        command::DMA_MAP,
        &map_payload(3, 0, 0x14000, 0x1000),
        vec![],
    );
    for (address, bytes) in [
        (0x10000, 0x3000),
        (0x12000, 0x1000),
        (0xf000, 0x2000),
        (0, 0x100000),
        (0x13000, 0x2000),
    ] {
        let refused = answered(
            &mut session,
            command::DMA_MAP,
            &map_payload(3, 0, address, bytes),
            vec![file()],
        );
        assert_eq!(refused, (Errno::EEXIST as u32, vec![]), "{address:#x}");
    }
    done(
        &mut session,
        command::DMA_MAP,
        &map_payload(3, 0, 0x13000, 0x1000),
        vec![],
    );
    done(&mut session, command::DMA_MAP, &map_payload(3, 0, 0, 0x10000), vec![]);
    for (address, bytes) in [
        (0x10000, 0x1000),
        (0x11000, 0x2000),
        (0x10000, 0x4000),
        (0x20000, 0x1000),
        (0, 0x14000),
    ] {
        let refused = answered(
            &mut session,
            command::DMA_UNMAP,
            &unmap_payload(0, address, bytes),
            vec![],
        );
        assert_eq!(refused, (Errno::ENOENT as u32, vec![]), "{address:#x}");
    }
    assert_eq!((session.maps(), session.refusals().0), (4, 10));
    assert_eq!(session.refusals().1.map(|refusal| refusal.errno), Some(Errno::ENOENT));
}

/// A mapping that the caller refuses is none; the same range may come again.
#[test]
fn memory_refused() {
    let mut session = begun();
    for _ in 0..2 {
        let (_, ticket) = ask(
            &mut session,
            command::DMA_MAP,
            &map_payload(3, 0, 0, 4096),
            vec![file()],
        );
        session.answer(ticket, Answer::Refused(Errno::EACCES)).unwrap();
        assert_eq!(
            replies(&mut session),
            [(9, command::DMA_MAP, Errno::EACCES as u32, vec![])]
        );
    }
    assert_eq!(session.maps(), 0);
    done(
        &mut session,
        command::DMA_MAP,
        &map_payload(3, 0, 0, 4096),
        vec![file()],
    );
    let (_, ticket) = ask(&mut session, command::DMA_UNMAP, &unmap_payload(0, 0, 4096), vec![]);
    session.answer(ticket, Answer::Refused(Errno::EBUSY)).unwrap();
    assert_eq!(session.maps(), 1);
}

#[test]
fn too_many_mappings() {
    let mut maps = maps::Maps::default();
    for page in 0..MAPS_MAX as u64 {
        assert_eq!(maps.check_new(page * 8192, 4096), Ok(()));
        maps.add(page * 8192, 4096);
    }
    let refusal: Refusal = maps.check_new(1 << 60, 4096).unwrap_err();
    assert_eq!((refusal.errno, maps.len()), (Errno::ENOSPC, MAPS_MAX));
    maps.remove(8192);
    assert_eq!(maps.check_new(1 << 60, 4096), Ok(()));
}

#[test]
fn reads_and_writes() {
    let mut session = begun();
    let (request, ticket) = ask(&mut session, command::REGION_READ, &access_payload(7, 252, 4), vec![]);
    assert!(matches!(
        request,
        Request::RegionRead(RegionRead {
            region: 7,
            offset: 252,
            count: 4
        })
    ));
    assert!(!ticket.is_posted());
    session.answer(ticket, Answer::Data(&[1, 2, 3, 4])).unwrap();
    let expected = [access_payload(7, 252, 4), vec![1, 2, 3, 4]].concat();
    assert_eq!(replies(&mut session), [(9, command::REGION_READ, 0, expected)]);
    let (request, payload) = done(
        &mut session,
        command::REGION_WRITE,
        &write_payload(0, 0x14, &[5, 6]),
        vec![],
    );
    let Request::RegionWrite(write) = request else {
        panic!("{request:?}")
    };
    assert_eq!((write.region, write.offset, write.data), (0, 0x14, vec![5, 6]));
    assert_eq!(payload, access_payload(0, 0x14, 2));
    let several = write_multi_payload(&[(0, 0x1000, &[1; 4]), (7, 4, &[6, 4])]);
    let (request, payload) = done(&mut session, command::WRITE_MULTI, &several, vec![]);
    assert!(matches!(request, Request::WriteMulti(writes) if writes.len() == 2 && writes[1].data() == [6, 4]));
    assert_eq!(payload, 2u64.to_ne_bytes());
    let (request, ticket) = ask(&mut session, command::REGION_WRITE, &write_payload(0, 0, &[1]), vec![]);
    assert!(matches!(request, Request::RegionWrite(_)));
    session.answer(ticket, Answer::Refused(Errno::EIO)).unwrap();
    assert_eq!(
        replies(&mut session),
        [(9, command::REGION_WRITE, Errno::EIO as u32, vec![])]
    );
    let long: Vec<u8> = (0..DATA_MAX).map(|i| i as u8).collect();
    let mut rest = &message(9, command::REGION_WRITE, 0, &write_payload(2, 0, &long))[..];
    while !rest.is_empty() {
        let took = session.feed(rest, vec![]).unwrap();
        assert!(
            took > 0
                && session
                    .next_request()
                    .map(|next| next.is_none() || took == rest.len())
                    .unwrap()
        );
        rest = &rest[took..];
    }
}

#[test]
fn longest_read_and_write() {
    let mut session = begun();
    let long: Vec<u8> = (0..DATA_MAX).map(|i| (i / 7) as u8).collect();
    let whole = message(9, command::REGION_WRITE, 0, &write_payload(2, 4096, &long));
    assert_eq!(whole.len(), MESSAGE_MAX);
    let mut at = 0;
    while at < whole.len() {
        assert!(session.next_request().unwrap().is_none() && session.has_room());
        at += session.feed(&whole[at..], vec![]).unwrap();
    }
    let (request, ticket) = session.next_request().unwrap().unwrap();
    assert!(matches!(request, Request::RegionWrite(write) if write.data == long));
    session.answer(ticket, Answer::Done).unwrap();
    assert_eq!(replies(&mut session).len(), 1);
    let (_, ticket) = ask(
        &mut session,
        command::REGION_READ,
        &access_payload(2, 0, DATA_MAX),
        vec![],
    );
    session.answer(ticket, Answer::Data(&long)).unwrap();
    assert_eq!(replies(&mut session)[0].3[16..], long);
}

/// A region that can only be read, one that is not there, and a region's end.
#[test]
fn permissions() {
    let mut session = begun();
    let refused = answered(&mut session, command::REGION_WRITE, &write_payload(3, 0, &[1]), vec![]);
    assert_eq!(refused.0, Errno::EPERM as u32);
    let several = write_multi_payload(&[(0, 0, &[1]), (3, 0, &[1])]);
    assert_eq!(
        answered(&mut session, command::WRITE_MULTI, &several, vec![]).0,
        Errno::EPERM as u32
    );
    let (_, ticket) = ask(&mut session, command::REGION_READ, &access_payload(3, 4095, 1), vec![]);
    session.answer(ticket, Answer::Data(&[0])).unwrap();
}

#[test]
fn posted_requests() {
    let mut session = begun();
    for (command, payload) in [
        (command::REGION_WRITE, write_payload(0, 0x1000, &[1, 0, 0, 0])),
        (command::WRITE_MULTI, write_multi_payload(&[(0, 0, &[1])])),
        (command::DMA_MAP, map_payload(3, 0, 0, 4096)),
        (command::DMA_UNMAP, unmap_payload(0, 0, 4096)),
        (command::SET_IRQS, set_irqs_payload(33, 2, 0, 0, &[])),
        (command::RESET, Vec::new()),
    ] {
        feed(&mut session, &message(1, command, NO_REPLY, &payload), vec![]);
        let (_, ticket) = session.next_request().unwrap().unwrap();
        assert!(ticket.is_posted());
        session.answer(ticket, Answer::Done).unwrap();
        assert!(session.unsent().is_none());
    }
    feed(
        &mut session,
        &message(1, command::REGION_WRITE, NO_REPLY, &write_payload(0, 0, &[1])),
        vec![],
    );
    let (_, ticket) = session.next_request().unwrap().unwrap();
    session.answer(ticket, Answer::Refused(Errno::EIO)).unwrap();
    // what is wrong is not answered either, nor are questions and reads of which nobody wants the reply
    for (command, payload) in [
        (command::REGION_WRITE, write_payload(9, 0, &[1])),
        (command::REGION_READ, access_payload(7, 0, 4)),
        (command::GET_INFO, info_payload()),
        (command::GET_REGION_INFO, region_info_payload(64, 0)),
        (command::GET_IRQ_INFO, irq_info_payload(0)),
        (19, Vec::new()),
    ] {
        feed(&mut session, &message(1, command, NO_REPLY, &payload), vec![]);
        assert!(session.next_request().unwrap().is_none() && session.unsent().is_none());
    }
    assert_eq!(session.refusals().0, 3);
}

#[test]
fn interrupts() {
    let mut session = begun();
    let fds: Vec<OwnedFd> = (0..9).map(|_| file()).collect();
    let numbers: Vec<u64> = fds.iter().map(identity).collect();
    let all = set_irqs_payload(DATA_EVENTFD | ACTION_TRIGGER, MSIX, 0, 9, &[]);
    let (request, _) = done(&mut session, command::SET_IRQS, &all, fds);
    let Request::SetIrqs(irqs) = request else {
        panic!("{request:?}")
    };
    assert_eq!(
        (irqs.index, irqs.start, irqs.count, irqs.action),
        (MSIX, 0, 9, IrqAction::Trigger)
    );
    let IrqData::Eventfds(fds) = &irqs.data else {
        panic!("{irqs:?}")
    };
    assert_eq!(fds.iter().map(identity).collect::<Vec<_>>(), numbers);
    assert!(!irqs.disables_all());
    let one = set_irqs_payload(DATA_EVENTFD | ACTION_TRIGGER, MSIX, 8, 1, &[]);
    let (request, _) = done(&mut session, command::SET_IRQS, &one, vec![]);
    assert!(
        matches!(request, Request::SetIrqs(SetIrqs { start: 8, data: IrqData::Eventfds(fds), .. }) if fds.is_empty())
    );
    let chosen = set_irqs_payload(DATA_BOOL | ACTION_TRIGGER, MSIX, 1, 2, &[0, 1]);
    let (request, _) = done(&mut session, command::SET_IRQS, &chosen, vec![]);
    assert!(matches!(request, Request::SetIrqs(SetIrqs { data: IrqData::Bools(which), .. }) if which == [false, true]));
    let none = set_irqs_payload(DATA_NONE | ACTION_TRIGGER, MSIX, 0, 0, &[]);
    let (request, _) = done(&mut session, command::SET_IRQS, &none, vec![]);
    assert!(matches!(request, Request::SetIrqs(irqs) if irqs.disables_all()));
    for action in [ACTION_MASK, ACTION_UNMASK] {
        let pin = set_irqs_payload(DATA_NONE | action, INTX, 0, 1, &[]);
        let (request, _) = done(&mut session, command::SET_IRQS, &pin, vec![]);
        let expected = if action == ACTION_MASK {
            IrqAction::Mask
        } else {
            IrqAction::Unmask
        };
        assert!(matches!(request, Request::SetIrqs(irqs) if irqs.action == expected && irqs.count == 1));
    }
    let no_eventfds = set_irqs_payload(DATA_EVENTFD | ACTION_TRIGGER, 4, 0, 1, &[]);
    assert_eq!(
        answered(&mut session, command::SET_IRQS, &no_eventfds, vec![file()]).0,
        Errno::EINVAL as u32
    );
    // all of a kind of which there are none may be taken away
    let none = set_irqs_payload(DATA_NONE | ACTION_TRIGGER, 1, 0, 0, &[]);
    done(&mut session, command::SET_IRQS, &none, vec![]);
}

#[test]
fn questions() {
    let device = device();
    let page = device.regions()[0].mapping.as_ref().unwrap().file.as_raw_fd();
    let mut session = begun_with(device);
    let of = |values: &[u32]| values.iter().flat_map(|value| value.to_ne_bytes()).collect::<Vec<u8>>();
    assert_eq!(
        answered(&mut session, command::GET_INFO, &info_payload(), vec![]),
        (0, of(&[16, 3, 9, 5]))
    );
    for (index, expected) in [
        (0, [64, 15, 0, 32, 0x4000, 0, 0, 0]),
        (1, [32, 0, 1, 0, 0, 0, 0, 0]),
        (3, [32, 1, 3, 0, 4096, 0, 0, 0]),
        (7, [32, 3, 7, 0, 256, 0, 0, 0]),
    ] {
        let info = answered(
            &mut session,
            command::GET_REGION_INFO,
            &region_info_payload(32, index),
            vec![],
        );
        assert_eq!(info, (0, of(&expected)), "region {index}");
    }
    for (index, flags, count) in [(0, 7, 1), (1, 0, 0), (2, 9, 9), (3, 0, 0), (4, 0, 1)] {
        let info = answered(&mut session, command::GET_IRQ_INFO, &irq_info_payload(index), vec![]);
        assert_eq!(info, (0, of(&[16, flags, index, count])), "interrupt {index}");
    }
    feed(
        &mut session,
        &message(9, command::GET_REGION_INFO, 0, &region_info_payload(4096, 0)),
        vec![],
    );
    assert!(session.next_request().unwrap().is_none());
    let (_, descriptor) = session.unsent().unwrap();
    assert_eq!(descriptor.unwrap().as_raw_fd(), page);
    session.sent(1);
    assert!(
        session.unsent().unwrap().1.is_none(),
        "a descriptor goes with the first byte alone"
    );
    let rest = session.unsent().unwrap().0.len();
    session.sent(rest);
    assert!(session.unsent().is_none());
}

/// A client that takes no descriptors is offered nothing to map.
#[test]
fn no_descriptors() {
    let mut session = Session::new(device());
    let text = b"{\"capabilities\":{\"max_msg_fds\":0}}\0";
    feed(
        &mut session,
        &message(1, command::VERSION, 0, &version_payload(0, 0, text)),
        vec![],
    );
    assert!(session.next_request().unwrap().is_none());
    replies(&mut session);
    let (error, payload) = answered(
        &mut session,
        command::GET_REGION_INFO,
        &region_info_payload(64, 0),
        vec![],
    );
    assert_eq!((error, payload.len(), payload[0], payload[4]), (0, 32, 32, 3));
}

/// Each rule, broken alone: an error reply, and the connection goes on.
#[test]
fn broken_rules() {
    let mut session = begun();
    for (count, broken) in broken::refused().into_iter().enumerate() {
        let fds = (0..broken.descriptors).map(|_| file()).collect();
        feed(&mut session, &broken.bytes, fds);
        assert!(session.next_request().unwrap().is_none(), "{}", broken.rule);
        let replies = replies(&mut session);
        let [(id, _, errno, payload)] = &replies[..] else {
            panic!("{}: {replies:?}", broken.rule)
        };
        assert_eq!((*id, payload.len()), (broken::ID, 0));
        assert_eq!(Due::Errno(*errno as i32), broken.due, "{}", broken.rule);
        assert_eq!(session.refusals().0, count as u64 + 1);
    }
    done(&mut session, command::RESET, &[], vec![]);
}

/// Each rule of the stream, broken alone: the connection is over, and stays so.
#[test]
fn broken_streams() {
    for broken in broken::fatal().into_iter().filter(|broken| broken.descriptors < 17) {
        let mut session = begun();
        feed(&mut session, &broken.bytes, vec![]);
        let error = session.next_request().unwrap_err();
        assert!(
            matches!(error, Error::Framing(_) | Error::VersionAgain),
            "{}",
            broken.rule
        );
        assert_eq!(session.error(), Some(error));
        assert_eq!(session.next_request().unwrap_err(), error);
        assert_eq!(session.feed(&[0], vec![]), Err(error));
        assert_eq!(session.check(Instant::now()), Err(error));
        assert!(!session.has_room() && session.room().is_empty() && session.deadline().is_none());
    }
    let mut session = begun();
    assert_eq!(
        session.fed(0, vec![], true),
        Err(Error::Framing(FramingError::Descriptors))
    );
}
