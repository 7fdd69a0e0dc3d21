//! Tests of the version.

use super::*;

fn proposal(text: &str) -> Result<(Agreed, String), VersionError> {
    let text = if text.is_empty() {
        vec![]
    } else {
        [text.as_bytes(), &[0]].concat()
    };
    negotiate(&VersionRequest {
        major: 0,
        minor: 1,
        text,
    })
}

#[test]
fn version_of_qemu() {
    let (agreed, text) = proposal(QEMU_CAPABILITIES).unwrap();
    assert_eq!(
        agreed,
        Agreed {
            client_descriptors: 16,
            client_data: 1 << 20,
            client_minor: 1
        }
    );
    let expected = r#"{"capabilities":{"max_data_xfer_size":1048576,"max_msg_fds":16,"pgsizes":4096}}"#;
    assert_eq!(text, expected);
}

#[test]
fn version_of_others() {
    let none = Agreed {
        client_descriptors: 1,
        client_data: 1 << 20,
        client_minor: 1,
    };
    for text in [
        "",
        "\0",
        "{}",
        r#"{"capabilities":{}}"#,
        r#"{"capabilities":{"unknown":[1]},"other":null}"#,
    ] {
        let (agreed, reply) = if text == "\0" {
            negotiate(&VersionRequest {
                major: 0,
                minor: 1,
                text: vec![0],
            })
            .unwrap()
        } else {
            proposal(text).unwrap()
        };
        assert_eq!(
            (agreed, reply.as_str()),
            (none.clone(), r#"{"capabilities":{}}"#),
            "{text}"
        );
    }
    let (agreed, text) = proposal(r#"{"capabilities":{"max_msg_fds":0,"twin_socket":{"supported":true}}}"#).unwrap();
    assert_eq!(
        (agreed.client_descriptors, text.as_str()),
        (0, r#"{"capabilities":{"max_msg_fds":16}}"#)
    );
}

#[test]
fn version_nonsense() {
    let of = |major, text: &[u8]| {
        negotiate(&VersionRequest {
            major,
            minor: 0,
            text: text.to_vec(),
        })
        .unwrap_err()
    };
    assert_eq!(of(1, b"{}\0"), VersionError::Major(1));
    assert_eq!(of(u16::MAX, &[]), VersionError::Major(u16::MAX));
    assert_eq!(of(0, b"{}"), VersionError::Nul);
    let deep = [vec![b'['; 4000], vec![0]].concat();
    for text in [
        &b"{\0"[..],
        b"{}}\0",
        b"{}\0\0",
        b"\xff\0",
        b"{\"a\":}\0",
        b"[1,\0",
        &deep,
    ] {
        assert_eq!(of(0, text), VersionError::Json, "{}", String::from_utf8_lossy(text));
    }
    for (text, name) in [
        ("[]", "the whole"),
        ("7", "the whole"),
        (r#"{"capabilities":7}"#, "capabilities"),
        (r#"{"capabilities":null}"#, "capabilities"),
        (r#"{"capabilities":{"max_msg_fds":"16"}}"#, "max_msg_fds"),
        (r#"{"capabilities":{"max_msg_fds":-1}}"#, "max_msg_fds"),
        (r#"{"capabilities":{"max_msg_fds":1.5}}"#, "max_msg_fds"),
        (r#"{"capabilities":{"max_data_xfer_size":true}}"#, "max_data_xfer_size"),
        (r#"{"capabilities":{"max_dma_maps":{}}}"#, "max_dma_maps"),
        (r#"{"capabilities":{"pgsizes":[]}}"#, "pgsizes"),
        (r#"{"capabilities":{"write_multiple":1}}"#, "write_multiple"),
        (r#"{"capabilities":{"twin_socket":true}}"#, "twin_socket"),
        (r#"{"capabilities":{"migration":1}}"#, "migration"),
    ] {
        assert_eq!(proposal(text), Err(VersionError::Capability(name)), "{text}");
    }
}

#[test]
fn version_comes_first_and_once() {
    for broken in broken::refused().into_iter().filter(|broken| broken.descriptors == 0) {
        let mut session = Session::new(device());
        feed(&mut session, &broken.bytes, vec![]);
        assert_eq!(session.next_request().unwrap_err(), Error::NoVersion, "{}", broken.rule);
        assert_eq!(session.error(), Some(Error::NoVersion));
        assert_eq!(replies(&mut session)[0].2, Errno::EINVAL as u32);
    }
    let mut session = begun();
    assert_eq!(session.agreed().unwrap().client_descriptors, 16);
    feed(
        &mut session,
        &message(2, command::VERSION, 0, &qemu_version_payload()),
        vec![],
    );
    assert_eq!(session.next_request().unwrap_err(), Error::VersionAgain);
}

/// Where there is no agreement the client hears so before the connection ends.
#[test]
fn version_refused() {
    let cases: [(Vec<u8>, u32, usize); 5] = [
        (version_payload(1, 0, &[]), 0, 0),
        (version_payload(0, 0, b"nonsense\0"), 0, 0),
        (version_payload(0, 0, &[b' '; 5000]), 0, 0),
        (vec![0; 3], 0, 0),
        (qemu_version_payload(), 0, 1),
    ];
    for (payload, flags, descriptors) in cases {
        let mut session = Session::new(device());
        let descriptors = (0..descriptors).map(|_| file()).collect();
        feed(
            &mut session,
            &message(3, command::VERSION, flags, &payload),
            descriptors,
        );
        assert!(matches!(session.next_request().unwrap_err(), Error::Version(_)));
        assert_eq!(
            replies(&mut session),
            [(3, command::VERSION, Errno::EINVAL as u32, vec![])]
        );
    }
    let mut session = Session::new(device());
    feed(
        &mut session,
        &message(3, command::VERSION, NO_REPLY, &qemu_version_payload()),
        vec![],
    );
    assert!(matches!(
        session.next_request().unwrap_err(),
        Error::Version(VersionError::Message(_))
    ));
    assert!(replies(&mut session).is_empty());
}
