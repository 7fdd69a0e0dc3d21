//! Any bytes are a request, or give one sentence; and so do any bytes of a socket, whose other clients are served meanwhile.

use std::io::{BufRead, BufReader, Write};
use std::os::unix::net::UnixStream;
use std::time::Duration;

use super::socket::{ask, Rig};
use crate::control::request::{Request, MOST_LINE};

struct Random(u64);

impl Random {
    fn next(&mut self) -> u64 {
        self.0 ^= self.0 << 13;
        self.0 ^= self.0 >> 7;
        self.0 ^= self.0 << 17;
        self.0
    }

    fn below(&mut self, most: usize) -> usize {
        (self.next() % most as u64) as usize
    }
}

/// A line that is a request, or nearly one.
fn example(random: &mut Random) -> Vec<u8> {
    const PARTS: [&str; 20] = [
        "\"request\":\"limit\"",
        "\"guest\":1",
        "\"request\":\"figures\"",
        "\"format\":\"prometheus\"",
        "\"version\":1",
        "\"version\":1",
        "\"version\":1",
        "\"request\":\"state\"",
        "\"request\":\"drain\"",
        "\"request\":\"resume\"",
        "\"request\":\"state\"",
        "\"wait\":0",
        "\"wait\":99999999999999999999",
        "\"guest\":{\"a\":[1,2,{}]}",
        "\"version\":1e3",
        "\"wait\":-0",
        "\"\\u0000\":\"\\ud800\"",
        "\"request\":[]",
        "\"iops\":null",
        "\"x\":\"\u{7f}\u{e4}\"",
    ];
    let parts: Vec<&str> = (0..random.below(5)).map(|_| PARTS[random.below(PARTS.len())]).collect();
    format!("{{{}}}", parts.join(",")).into_bytes()
}

fn mutate(bytes: &mut Vec<u8>, random: &mut Random) {
    for _ in 0..random.below(4) {
        let at = random.below(bytes.len().max(1)).min(bytes.len().saturating_sub(1));
        match random.below(4) {
            0 if !bytes.is_empty() => bytes[at] = random.next() as u8,
            1 if !bytes.is_empty() => drop(bytes.remove(at)),
            2 => bytes.insert(at, b"{}[]\",:\\\n\0\xff9"[random.below(12)]),
            _ => bytes.truncate(at),
        }
    }
}

#[test]
fn any_line() {
    let mut random = Random(0x9e37_79b9_7f4a_7c15);
    let mut taken = 0;
    for round in 0..50_000 {
        let mut line = if round % 8 == 0 {
            (0..random.below(64)).map(|_| random.next() as u8).collect()
        } else {
            example(&mut random)
        };
        if round % 2 == 0 {
            mutate(&mut line, &mut random);
        }
        match Request::parse(&line) {
            Ok(Request::Drain { wait }) => {
                assert!(wait <= Duration::from_secs(600));
                taken += 1;
            }
            Ok(_) => taken += 1,
            Err(error) => {
                let text = error.to_string();
                assert!(!text.is_empty() && text.len() < 400 && !text.contains('\n'), "{text:?}");
            }
        }
    }
    assert!(taken > 1000, "{taken} of them are good");
}

/// Each line that a client gets is one object with the version.
#[test]
fn any_bytes_of_a_socket() {
    let rig = Rig::new("bytes");
    let mut random = Random(0x2545_f491_4f6c_dd1d);
    let mut replies = 0;
    for _ in 0..40 {
        let mut socket = UnixStream::connect(&rig.path).unwrap();
        socket.set_read_timeout(Some(Duration::from_secs(10))).unwrap();
        let mut bytes = Vec::new();
        for _ in 0..random.below(8) {
            let mut line = example(&mut random);
            mutate(&mut line, &mut random);
            if random.below(16) == 0 {
                line.resize(MOST_LINE + random.below(3), b' ');
            }
            bytes.extend(line);
            bytes.push(b'\n');
        }
        bytes.truncate(bytes.len() - random.below(bytes.len().min(3) + 1));
        // it may be closed before all was written
        let _some = socket.write_all(&bytes);
        socket.shutdown(std::net::Shutdown::Write).unwrap();
        let mut text = String::new();
        let mut reader = BufReader::new(&mut socket);
        while reader.read_line(&mut text).is_ok_and(|count| count != 0) {
            let value: serde_json::Value = serde_json::from_str(&text).unwrap();
            assert_eq!(value["version"], 1, "{text}");
            assert_eq!(value.as_object().unwrap().len(), 2, "{text}");
            text.clear();
            replies += 1;
        }
        assert_eq!(ask(&rig.path, r#"{"version":1,"request":"state"}"#)["version"], 1);
    }
    assert!(replies > 40, "{replies} replies");
}
