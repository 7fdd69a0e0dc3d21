//! Tests of the wire format: messages are built by the test client, which shares no code with it.

use nix::errno::Errno;

use super::*;
use crate::vfio_user::client::broken::{self, Due};
use crate::vfio_user::client::*;
use crate::vfio_user::device::Area;
use crate::vfio_user::request::{IrqAction, RegionRead, RegionWrite, SmallWrite};

/// The body of a good message, with so many descriptors.
fn body(command: u16, payload: &[u8], descriptors: usize) -> Body {
    let message = decode(&message(7, command, 0, payload), descriptors).unwrap();
    assert_eq!((message.id, message.command, message.reply_wanted), (7, command, true));
    message.body.unwrap()
}

#[test]
fn good_messages() {
    let text = [QEMU_CAPABILITIES.as_bytes(), &[0]].concat();
    assert_eq!(
        body(1, &qemu_version_payload(), 0),
        Body::Version(VersionRequest {
            major: 0,
            minor: 0,
            text
        })
    );
    assert_eq!(
        body(1, &version_payload(3, 9, &[]), 0),
        Body::Version(VersionRequest {
            major: 3,
            minor: 9,
            text: vec![]
        })
    );
    let map = MapRequest {
        readable: true,
        writable: false,
        offset: 0x3000,
        address: 0x1_0000_0000,
        bytes: 0x2000,
        descriptor: true,
    };
    assert_eq!(
        body(2, &map_payload(1, 0x3000, 0x1_0000_0000, 0x2000), 1),
        Body::DmaMap(map)
    );
    let without = MapRequest {
        readable: false,
        writable: true,
        descriptor: false,
        ..map
    };
    assert_eq!(
        body(2, &map_payload(2, 0x3000, 0x1_0000_0000, 0x2000), 0),
        Body::DmaMap(without)
    );
    let unmap = UnmapRequest {
        argsz: 24,
        all: false,
        address: 0x1000,
        bytes: 0x2000,
    };
    assert_eq!(body(3, &unmap_payload(0, 0x1000, 0x2000), 0), Body::DmaUnmap(unmap));
    let all = UnmapRequest {
        argsz: 24,
        all: true,
        address: 0,
        bytes: 0,
    };
    assert_eq!(body(3, &unmap_payload(2, 0, 0), 0), Body::DmaUnmap(all));
    assert_eq!(body(4, &info_payload(), 0), Body::GetInfo);
    assert_eq!(
        body(5, &region_info_payload(64, 7), 0),
        Body::GetRegionInfo { argsz: 64, index: 7 }
    );
    assert_eq!(body(7, &irq_info_payload(2), 0), Body::GetIrqInfo { index: 2 });
    assert_eq!(
        body(9, &access_payload(7, 4, 2), 0),
        Body::RegionRead(RegionRead {
            region: 7,
            offset: 4,
            count: 2
        })
    );
    let write = RegionWrite {
        region: 0,
        offset: 0x14,
        data: vec![1, 2, 3, 4],
    };
    assert_eq!(
        body(10, &write_payload(0, 0x14, &[1, 2, 3, 4]), 0),
        Body::RegionWrite(write)
    );
    assert_eq!(body(13, &[], 0), Body::Reset);
}

#[test]
fn good_interrupts() {
    let set = |flags, start, count, data: &[u8], descriptors| {
        body(8, &set_irqs_payload(flags, 2, start, count, data), descriptors)
    };
    let request = |start, count, action, data| {
        Body::SetIrqs(SetIrqsRequest {
            index: 2,
            start,
            count,
            action,
            data,
        })
    };
    assert_eq!(
        set(33, 0, 0, &[], 0),
        request(0, 0, IrqAction::Trigger, IrqSelection::Each)
    );
    assert_eq!(
        set(17, 3, 1, &[], 0),
        request(3, 1, IrqAction::Unmask, IrqSelection::Each)
    );
    assert_eq!(set(9, 0, 9, &[], 0), request(0, 9, IrqAction::Mask, IrqSelection::Each));
    let chosen = IrqSelection::Chosen(vec![true, false, true]);
    assert_eq!(
        set(34, 1, 3, &[1, 0, 255], 0),
        request(1, 3, IrqAction::Trigger, chosen)
    );
    assert_eq!(
        set(36, 0, 9, &[], 9),
        request(0, 9, IrqAction::Trigger, IrqSelection::Eventfds)
    );
    assert_eq!(
        set(36, 0, 1, &[], 0),
        request(0, 1, IrqAction::Trigger, IrqSelection::Eventfds)
    );
    assert_eq!(
        set(20, 0, 16, &[], 16),
        request(0, 16, IrqAction::Unmask, IrqSelection::Eventfds)
    );
}

#[test]
fn good_several_writes() {
    let payload = write_multi_payload(&[(0, 0x1000, &[1, 0, 0, 0]), (7, 4, &[9]), (0, 8, &[8; 8])]);
    let Body::WriteMulti(writes) = body(15, &payload, 0) else {
        panic!("another body")
    };
    assert_eq!(writes.len(), 3);
    assert_eq!(
        (writes[0].region, writes[0].offset, writes[0].data()),
        (0, 0x1000, &[1, 0, 0, 0][..])
    );
    assert_eq!((writes[1].region, writes[1].offset, writes[1].data()), (7, 4, &[9][..]));
    assert_eq!(writes[2].data(), [8; 8]);
    assert_eq!(SmallWrite::new(0, 0, [0; 8], 0), None);
    assert_eq!(SmallWrite::new(0, 0, [0; 8], 9), None);
}

/// Other clients send the room for the reply with some requests. What follows the fixed part isn't looked at; of writes it is.
#[test]
fn longer_messages() {
    for (command, payload, descriptors) in [
        (2, map_payload(3, 0, 0, 4096), 1),
        (3, unmap_payload(0, 0, 4096), 0),
        (4, info_payload(), 0),
        (5, region_info_payload(32, 0), 0),
        (7, irq_info_payload(0), 0),
        (8, set_irqs_payload(33, 2, 0, 0, &[]), 0),
        (9, access_payload(0, 0, 4), 0),
        (13, Vec::new(), 0),
    ] {
        let long = [payload.clone(), vec![0xff; 100]].concat();
        assert_eq!(
            body(command, &payload, descriptors),
            body(command, &long, descriptors),
            "command {command}"
        );
    }
}

#[test]
fn longest_messages() {
    let longest = vec![5; DATA_MAX as usize];
    let Body::RegionWrite(write) = body(10, &write_payload(0, 0, &longest), 0) else {
        panic!("another body")
    };
    assert_eq!(write.data, longest);
    assert_eq!(message(0, 10, 0, &write_payload(0, 0, &longest)).len(), MESSAGE_MAX);
    let longer = message(0, 10, 0, &write_payload(0, 0, &[0; DATA_MAX as usize + 1]));
    assert_eq!(decode(&longer, 0), Err(FramingError::Size(MESSAGE_MAX as u32 + 1)));
    let text = version_payload(0, 0, &[b' '; VERSION_TEXT_MAX]);
    assert!(matches!(body(1, &text, 0), Body::Version(_)));
    let text = version_payload(0, 0, &[b' '; VERSION_TEXT_MAX + 1]);
    assert_eq!(
        decode(&message(0, 1, 0, &text), 0).unwrap().body.unwrap_err().errno,
        Errno::EINVAL
    );
}

#[test]
fn posted() {
    let posted = decode(&message(7, 10, NO_REPLY, &write_payload(0, 0, &[1])), 0).unwrap();
    assert!(!posted.reply_wanted && posted.body.is_ok());
}

/// The header's errno says nothing in a command.
#[test]
fn error_of_a_command() {
    let message = decode(&message_of(7, 13, 16, 0, 99, &[]), 0).unwrap();
    assert_eq!(message.body, Ok(Body::Reset));
}

/// Each rule of a message alone, broken alone. What needs the device is tested with the session.
#[test]
fn broken_rules() {
    for broken in broken::fatal() {
        let size = u32::from_ne_bytes(broken.bytes[4..8].try_into().unwrap()) as usize;
        let decoded = decode(&broken.bytes, broken.descriptors);
        match broken.rule {
            "VERSION again" => assert!(decoded.is_ok()),
            rule => assert!(decoded.is_err(), "{rule}, {size}"),
        }
    }
    let of_device = [
        "what was not mapped",
        "a region that there is not",
        "the last region",
        "interrupts that there are not",
        "a kind that there is not",
        "a kind of which there are none",
        "a vector too many",
        "a vector beyond",
        "all vectors that there could be",
        "a mask of what has none",
        "an unmask of what has none",
        "a read beyond the region",
        "a read far beyond",
        "a read that wraps",
        "a read of no region",
        "a read of an empty region",
        "a write beyond the region",
        "a write that wraps",
        "a write of no region",
        "one of several is beyond",
    ];
    for broken in broken::refused() {
        let message = decode(&broken.bytes, broken.descriptors).unwrap();
        match message.body {
            Ok(_) => assert!(of_device.contains(&broken.rule), "{}", broken.rule),
            Err(refusal) => assert_eq!(broken.due, Due::Errno(refusal.errno as i32), "{}", broken.rule),
        }
    }
}

/// A header by itself, with each size that is just possible, and each that is just not.
#[test]
fn headers() {
    let header = |size: u32| Header::decode(message_of(7, 13, size, NO_REPLY, 5, &[]).first_chunk().unwrap());
    for size in [16, 17, MESSAGE_MAX as u32] {
        let good = Header {
            id: 7,
            command: 13,
            bytes: size,
            flags: NO_REPLY,
            error: 5,
        };
        assert_eq!(header(size), Ok(good));
        assert_eq!(good.encode().to_vec(), message_of(7, 13, size, NO_REPLY, 5, &[]));
    }
    for size in [0, 1, 15, MESSAGE_MAX as u32 + 1, u32::MAX] {
        assert_eq!(header(size), Err(FramingError::Size(size)));
    }
}

/// Bytes that are not as many as the header says are no message.
#[test]
fn other_lengths() {
    let good = message(7, 13, 0, &[]);
    for length in 0..16 {
        assert_eq!(decode(&good[..length], 0), Err(FramingError::Size(length as u32)));
    }
    assert_eq!(decode(&[&good[..], &[0]].concat(), 0), Err(FramingError::Size(16)));
}

/// Every cut of every good message is refused, or is good in itself; nothing panics.
#[test]
fn cuts() {
    for (command, payload) in [
        (1, qemu_version_payload()),
        (2, map_payload(3, 0, 0, 4096)),
        (3, unmap_payload(0, 0, 4096)),
        (4, info_payload()),
        (5, region_info_payload(32, 0)),
        (7, irq_info_payload(0)),
        (8, set_irqs_payload(34, 2, 0, 3, &[1, 1, 1])),
        (9, access_payload(0, 0, 4)),
        (10, write_payload(0, 0, &[1, 2, 3, 4])),
        (15, write_multi_payload(&[(0, 0, &[1])])),
    ] {
        for length in 0..payload.len() {
            let cut = decode(&message(1, command, 0, &payload[..length]), 0).unwrap();
            assert!(cut.body.is_err() || command == 1, "command {command} cut at {length}");
        }
    }
}

#[test]
fn command_names() {
    for (index, command) in Command::ALL.iter().enumerate() {
        assert_eq!(*command as usize, index + 1);
        assert_eq!(Command::of(*command as u16), Some(*command));
    }
    assert_eq!(
        (Command::of(0), Command::of(19), Command::of(u16::MAX)),
        (None, None, None)
    );
}

/// A reply: its header and payload, as numbers of 32 bits.
fn reply(body: &ReplyBody<'_>) -> Vec<u32> {
    let bytes = encode(0x1234, 9, body);
    let expected = message_of(0x1234, 9, bytes.len() as u32, REPLY, 0, &[]);
    assert_eq!(bytes[..16], expected);
    bytes[16..]
        .chunks(4)
        .map(|four| four.iter().rev().fold(0, |value, byte| value << 8 | u32::from(*byte)))
        .collect()
}

#[test]
fn replies() {
    assert!(reply(&ReplyBody::Empty).is_empty());
    let version = encode(
        1,
        1,
        &ReplyBody::Version {
            major: 0,
            minor: 0,
            text: "{}",
        },
    );
    assert_eq!(version[16..], version_payload(0, 0, b"{}\0"));
    let unmap = UnmapRequest {
        argsz: 24,
        all: false,
        address: 0x1000,
        bytes: 0x2000,
    };
    assert_eq!(
        encode(1, 3, &ReplyBody::DmaUnmap(unmap))[16..],
        unmap_payload(0, 0x1000, 0x2000)
    );
    let all = UnmapRequest {
        argsz: 24,
        all: true,
        address: 0,
        bytes: 0,
    };
    assert_eq!(encode(1, 3, &ReplyBody::DmaUnmap(all))[16..], unmap_payload(2, 0, 0));
    assert_eq!(reply(&ReplyBody::Info { regions: 9, irqs: 5 }), [16, 3, 9, 5]);
    assert_eq!(
        reply(&ReplyBody::IrqInfo {
            index: 2,
            flags: 9,
            count: 17
        }),
        [16, 9, 2, 17]
    );
    assert_eq!(
        reply(&ReplyBody::Read {
            region: 7,
            offset: 4,
            data: &[1, 0, 0, 0]
        }),
        [4, 0, 7, 4, 1]
    );
    assert_eq!(
        reply(&ReplyBody::Write {
            region: 7,
            offset: 4,
            count: 2
        }),
        [4, 0, 7, 2]
    );
    assert_eq!(reply(&ReplyBody::WriteMulti { count: 3 }), [3, 0]);
    assert_eq!(
        encode_error(5, 8, Errno::EINVAL),
        message_of(5, 8, 16, REPLY | ERROR, 22, &[])
    );
}

/// As QEMU 11.1.3 wants it: half a reply already says where the capabilities will be.
#[test]
fn region_replies() {
    let areas = [Area {
        offset: 0x1000,
        bytes: 0x1000,
    }];
    let info = RegionInfoReply {
        index: 0,
        flags: 7,
        bytes: 0x4000,
        offset: 0x8000,
        areas: &areas,
        room: 32,
    };
    assert!(!info.is_whole() && info.needed() == 64);
    assert_eq!(
        reply(&ReplyBody::RegionInfo(info)),
        [64, 15, 0, 32, 0x4000, 0, 0x8000, 0]
    );
    let info = RegionInfoReply { room: 63, ..info };
    assert_eq!(reply(&ReplyBody::RegionInfo(info)).len(), 8);
    let info = RegionInfoReply { room: 64, ..info };
    assert!(info.is_whole());
    let whole = [
        64, 15, 0, 32, 0x4000, 0, 0x8000, 0, 0x10001, 0, 1, 0, 0x1000, 0, 0x1000, 0,
    ];
    assert_eq!(reply(&ReplyBody::RegionInfo(info)), whole);
    let info = RegionInfoReply {
        areas: &[],
        room: 32,
        ..info
    };
    assert!(info.is_whole() && info.needed() == 32);
    assert_eq!(reply(&ReplyBody::RegionInfo(info)), [32, 7, 0, 0, 0x4000, 0, 0x8000, 0]);
}
