//! An operator at the control socket, for tests.
#![allow(dead_code, clippy::unwrap_used, clippy::expect_used, clippy::panic)]

use std::io::{BufRead, BufReader, Write};
use std::os::unix::net::UnixStream;
use std::path::PathBuf;
use std::time::{Duration, Instant};

use serde_json::Value;

use crate::guest::Folder;

/// The socket in a folder.
pub fn socket(folder: &Folder) -> PathBuf {
    folder.path("control")
}

/// The line of a configuration that makes it.
pub fn line(folder: &Folder) -> String {
    format!("control {}\n", socket(folder).display())
}

/// A connection, once the program listens.
pub fn connect(folder: &Folder) -> UnixStream {
    let begin = Instant::now();
    loop {
        match UnixStream::connect(socket(folder)) {
            Ok(socket) => {
                socket.set_read_timeout(Some(Duration::from_secs(30))).unwrap();
                return socket;
            }
            Err(error) => assert!(begin.elapsed() < Duration::from_secs(20), "{error}"),
        }
        std::thread::sleep(Duration::from_millis(5));
    }
}

/// The reply to a request, whose further fields are `more`, such as `,"wait":1`.
pub fn ask(folder: &Folder, request: &str, more: &str) -> Value {
    let mut socket = connect(folder);
    let text = format!("{{\"version\":1,\"request\":\"{request}\"{more}}}\n");
    socket.write_all(text.as_bytes()).unwrap();
    let mut reply = String::new();
    BufReader::new(socket).read_line(&mut reply).unwrap();
    let mut value: Value = serde_json::from_str(&reply).unwrap();
    assert_eq!(value["version"], 1);
    value[request].take()
}

/// Waits until the state is as wanted.
pub fn await_state(folder: &Folder, wanted: impl Fn(&Value) -> bool) -> Value {
    let begin = Instant::now();
    loop {
        let state = ask(folder, "state", "");
        if wanted(&state) {
            return state;
        }
        assert!(begin.elapsed() < Duration::from_secs(20), "{state}");
        std::thread::sleep(Duration::from_millis(10));
    }
}
