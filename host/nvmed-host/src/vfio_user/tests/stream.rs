//! Tests of order, pieces and limits.

use super::*;

/// There is one request at a time. The others wait, and the answer goes to the one that was asked.
#[test]
fn one_at_a_time() {
    let mut session = begun();
    let both = [
        message(1, command::RESET, 0, &[]),
        message(2, command::REGION_READ, 0, &access_payload(7, 0, 1)),
    ];
    feed(&mut session, &both.concat(), vec![]);
    let (request, ticket) = session.next_request().unwrap().unwrap();
    assert!(matches!(request, Request::Reset));
    assert!(session.next_request().unwrap().is_none());
    assert!(session.has_room());
    session.answer(ticket, Answer::Done).unwrap();
    let (_, ticket) = session.next_request().unwrap().unwrap();
    session.answer(ticket, Answer::Data(&[7])).unwrap();
    let replies = replies(&mut session);
    assert_eq!(
        replies.iter().map(|reply| (reply.0, reply.1)).collect::<Vec<_>>(),
        [(1, 13), (2, 9)]
    );
}

/// An answer that doesn't fit is a fault of this program: it ends the connection and nothing else.
#[test]
fn misanswered() {
    for (answer, command, payload) in [
        (Answer::Data(&[1, 2]), command::REGION_READ, access_payload(7, 0, 4)),
        (Answer::Data(&[]), command::REGION_READ, access_payload(7, 0, 4)),
        (Answer::Done, command::REGION_READ, access_payload(7, 0, 4)),
        (Answer::Data(&[1]), command::REGION_WRITE, write_payload(7, 0, &[1])),
        (Answer::Data(&[]), command::RESET, Vec::new()),
    ] {
        let mut session = begun();
        let (_, ticket) = ask(&mut session, command, &payload, vec![]);
        assert_eq!(session.answer(ticket, answer), Err(Error::Misanswered));
        assert_eq!(session.error(), Some(Error::Misanswered));
    }
    // a ticket of another connection
    let (mut one, mut other) = (begun(), begun());
    done(&mut one, command::RESET, &[], vec![]);
    let (_, ticket) = ask(&mut one, command::RESET, &[], vec![]);
    let (_, _kept) = ask(&mut other, command::RESET, &[], vec![]);
    assert_eq!(other.answer(ticket, Answer::Done), Err(Error::Misanswered));
}

/// Each message, a byte at a time; each cut of it is waited for, and for no longer than the time.
#[test]
fn bytewise() {
    for (command, payload, descriptors) in [
        (command::DMA_MAP, map_payload(3, 0, 0, 4096), 1),
        (
            command::SET_IRQS,
            set_irqs_payload(DATA_EVENTFD | ACTION_TRIGGER, MSIX, 0, 3, &[]),
            3,
        ),
        (command::REGION_WRITE, write_payload(0, 0x14, &[1, 2, 3, 4]), 0),
        (command::RESET, Vec::new(), 0),
    ] {
        let whole = message(5, command, 0, &payload);
        let mut session = begun();
        let before = Instant::now();
        for (at, byte) in whole.iter().enumerate() {
            assert!(session.next_request().unwrap().is_none());
            let fds = if at == 0 {
                (0..descriptors).map(|_| file()).collect()
            } else {
                vec![]
            };
            feed(&mut session, &[*byte], fds);
            let end = at + 1 == whole.len();
            assert_eq!(session.deadline().is_none(), end);
            if let Some(deadline) = session.deadline() {
                assert!(deadline >= before + STALL && session.check(before + STALL - Duration::from_millis(1)).is_ok());
            }
        }
        let (request, ticket) = session.next_request().unwrap().unwrap();
        let count = match request {
            Request::DmaMap(map) => usize::from(map.fd.is_some()),
            Request::SetIrqs(SetIrqs {
                data: IrqData::Eventfds(fds),
                ..
            }) => fds.len(),
            _ => 0,
        };
        assert_eq!(count, descriptors);
        session.answer(ticket, Answer::Done).unwrap();
    }
}

#[test]
fn stalled() {
    let mut session = begun();
    assert_eq!(session.check(Instant::now() + STALL), Ok(()));
    let two = [message(1, command::RESET, 0, &[]), message(2, command::RESET, 0, &[])].concat();
    feed(&mut session, &two[..31], vec![]);
    // the first is whole: the clock of the second begins when the first is taken
    assert_eq!(
        (session.deadline(), session.check(Instant::now() + STALL)),
        (None, Ok(()))
    );
    let (_, ticket) = session.next_request().unwrap().unwrap();
    session.answer(ticket, Answer::Done).unwrap();
    let deadline = session.deadline().unwrap();
    assert_eq!(session.check(deadline - Duration::from_millis(1)), Ok(()));
    assert_eq!(session.check(deadline), Err(Error::Stalled));
}

/// Descriptors belong to the last message of which bytes came with them.
#[test]
fn attribution() {
    let mut session = begun();
    let (first, second, third) = (file(), file(), file());
    let numbers = [identity(&first), identity(&second), identity(&third)];
    let map = |id, address| message(id, command::DMA_MAP, 0, &map_payload(3, 0, address, 4096));
    // a read without descriptors and a map with one came together
    let read = message(1, command::REGION_READ, 0, &access_payload(7, 0, 1));
    feed(&mut session, &[read, map(2, 0x1000)].concat(), vec![first]);
    assert!(
        !session.has_room(),
        "a message with descriptors waits: no others may come"
    );
    assert_eq!(session.feed(&map(3, 0), vec![]), Ok(0));
    let (request, ticket) = session.next_request().unwrap().unwrap();
    assert!(matches!(request, Request::RegionRead(_)));
    session.answer(ticket, Answer::Data(&[0])).unwrap();
    let next = |session: &mut Session| {
        let (request, ticket) = session.next_request().unwrap().unwrap();
        session.answer(ticket, Answer::Done).unwrap();
        let Request::DmaMap(map) = request else {
            panic!("{request:?}")
        };
        (map.address, map.fd.as_ref().map(identity))
    };
    assert_eq!(next(&mut session), (0x1000, Some(numbers[0])));
    // the end of one and the begin of the next, with which its descriptor came
    let whole = map(3, 0x2000);
    feed(&mut session, &whole[..20], vec![second]);
    let rest = [&whole[20..], &map(4, 0x3000)[..5]].concat();
    feed(&mut session, &rest, vec![third]);
    assert_eq!(next(&mut session), (0x2000, Some(numbers[1])));
    assert!(session.next_request().unwrap().is_none());
    feed(&mut session, &map(4, 0x3000)[5..], vec![]);
    assert_eq!(next(&mut session), (0x3000, Some(numbers[2])));
    // of the next there is but one byte, with which its descriptor came
    let (fourth, fifth) = (file(), file());
    let numbers = [identity(&fourth), identity(&fifth)];
    feed(&mut session, &map(6, 0x5000)[..47], vec![fourth]);
    feed(
        &mut session,
        &[&map(6, 0x5000)[47..], &map(7, 0x6000)[..1]].concat(),
        vec![fifth],
    );
    assert_eq!(next(&mut session), (0x5000, Some(numbers[0])));
    feed(&mut session, &map(7, 0x6000)[1..], vec![]);
    assert_eq!(next(&mut session), (0x6000, Some(numbers[1])));
    // a map without one after it has none
    feed(&mut session, &map(5, 0x4000), vec![]);
    assert_eq!(next(&mut session), (0x4000, None));
}

/// A message has at most 16, in however many pieces; and 32 are the most that wait.
#[test]
fn too_many_descriptors() {
    const MANY: Error = Error::Framing(FramingError::Descriptors);
    let files = |count: usize| (0..count).map(|_| file()).collect::<Vec<_>>();
    let whole = message(
        1,
        command::SET_IRQS,
        0,
        &set_irqs_payload(DATA_EVENTFD | ACTION_TRIGGER, MSIX, 0, 9, &[]),
    );
    let mut session = begun();
    feed(&mut session, &whole[..3], files(8));
    feed(&mut session, &whole[3..6], files(8));
    assert_eq!(session.feed(&whole[6..9], files(1)), Err(MANY));
    assert_eq!(begun().feed(&whole, files(17)), Err(MANY));
    assert_eq!(begun().feed(&[], files(1)), Err(MANY));
    let mut session = begun();
    feed(&mut session, &whole[..3], files(16));
    feed(&mut session, &[&whole[3..], &whole[..4]].concat(), files(16));
    assert!(!session.has_room());
    assert!(session.next_request().unwrap().is_none());
    assert_eq!(replies(&mut session)[0].2, Errno::EINVAL as u32);
    // the 17th may come with the last bytes of its message; it is refused where it is taken
    feed(&mut session, &whole[4..], files(1));
    assert_eq!(session.next_request().unwrap_err(), MANY);
}

/// Requests that are not taken fill the room; nothing more is held.
#[test]
fn room_is_bounded() {
    let mut session = begun();
    let (_, ticket) = ask(&mut session, command::RESET, &[], vec![]);
    let one = message(2, command::REGION_WRITE, NO_REPLY, &write_payload(0, 0, &[1]));
    let mut held = 0;
    while session.has_room() {
        held += session.feed(&one[held % one.len()..], vec![]).unwrap();
        assert!(held <= 16 << 10);
    }
    assert_eq!((held, session.feed(&one, vec![])), (16 << 10, Ok(0)));
    session.answer(ticket, Answer::Done).unwrap();
    let mut taken = 0;
    while let Some((_, ticket)) = session.next_request().unwrap() {
        session.answer(ticket, Answer::Done).unwrap();
        taken += 1;
    }
    assert_eq!(taken, held / one.len());
    assert!(session.has_room());
}

/// Replies that nobody reads are kept up to a bound; then the connection ends.
#[test]
fn unread_replies() {
    let mut session = begun();
    let data = vec![0; DATA_MAX as usize];
    for round in 0.. {
        feed(
            &mut session,
            &message(2, command::REGION_READ, 0, &access_payload(2, 0, DATA_MAX)),
            vec![],
        );
        let (_, ticket) = session.next_request().unwrap().unwrap();
        match session.answer(ticket, Answer::Data(&data)) {
            Ok(()) => assert!(round < 2),
            Err(error) => {
                assert_eq!((round, error, session.error()), (2, Error::Unread, Some(Error::Unread)));
                break;
            }
        }
    }
    // the protocol's own replies count as well
    let mut session = begun();
    let many = message(2, command::GET_INFO, 0, &info_payload()).repeat(400);
    let error = loop {
        feed(&mut session, &many, vec![]);
        if let Err(error) = session.next_request() {
            break error;
        }
    };
    assert_eq!(error, Error::Unread);
    assert!(replies(&mut session).len() * 32 <= UNSENT_MAX);
}
