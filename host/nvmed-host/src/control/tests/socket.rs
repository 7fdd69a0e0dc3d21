//! The socket with its thread, over a board that nobody writes but the tests.

use std::io::{BufRead, BufReader, ErrorKind, Read, Write};
use std::os::unix::net::UnixStream;
use std::path::{Path, PathBuf};
use std::sync::Arc;
use std::time::{Duration, Instant};

use serde_json::Value;

use crate::board::{Board, DriveState, GuestState, Phase};
use crate::config::Config;
use crate::control::connection::{HALF, MOST_REQUESTS};
use crate::control::desk::{Desk, Facts};
use crate::control::{Control, MOST_CLIENTS};
use crate::mediation::limits::Limit;
use crate::mediation::orders::Orders;
use crate::mediation::wake::Bell;
use crate::mediation::Stop;
use crate::process::Listener;

const STATE: &str = r#"{"version":1,"request":"state"}"#;

/// A control socket for a configuration of two guests.
pub struct Rig {
    pub path: PathBuf,
    board: Arc<Board>,
    orders: Arc<Orders>,
    end: Stop,
    control: Option<Control>,
}

impl Rig {
    pub fn new(name: &str) -> Self {
        let path = std::env::temp_dir().join(format!("nvmed-control-{}-{name}", std::process::id()));
        let text = "drive ram 1M\nlanes 2\nguest 0 memory 8K\nextent 0 0 8\nlisten 0 a\n\
            guest 1 memory 4K\nextent 1 8 4\nextent 1 16 4\nshare 1 7\nlisten 1 b\n";
        let config = Config::parse(text.as_bytes()).unwrap();
        let board = Arc::new(Board::new(2, 2).unwrap());
        let limits = [Limit::default(); 2];
        let orders = Arc::new(Orders::new(Arc::new(Bell::new().unwrap()), &limits));
        let end = Stop::new(Arc::new(Bell::new().unwrap()));
        let desk = Desk::new(Facts::of(&config), Arc::clone(&board), Arc::clone(&orders), end.clone());
        let listener = Listener::bind_for_operators(&path).unwrap();
        let control = Control::start(listener, desk).unwrap();
        Self {
            path,
            board,
            orders,
            end,
            control: Some(control),
        }
    }

    /// Shows a phase, after all orders.
    fn show(&self, phase: Phase) {
        self.board.show_phase(phase, self.orders.changes());
    }

    fn connect(&self) -> UnixStream {
        let socket = UnixStream::connect(&self.path).unwrap();
        socket.set_read_timeout(Some(Duration::from_secs(20))).unwrap();
        socket
    }
}

impl Drop for Rig {
    fn drop(&mut self) {
        if let Some(control) = self.control.take() {
            control.end();
        }
        assert!(!self.path.exists(), "the socket's path is gone");
    }
}

/// The next line, or `None` at the end.
fn line(socket: &mut BufReader<UnixStream>) -> Option<Value> {
    let mut text = String::new();
    match socket.read_line(&mut text) {
        Ok(0) => None,
        Ok(_) => Some(serde_json::from_str(&text).unwrap()),
        Err(error) if error.kind() == ErrorKind::ConnectionReset => None,
        Err(error) => panic!("{error}"),
    }
}

/// A request on a connection of its own, and its reply.
pub fn ask(path: &Path, request: &str) -> Value {
    let mut socket = UnixStream::connect(path).unwrap();
    socket.set_read_timeout(Some(Duration::from_secs(20))).unwrap();
    socket.write_all(format!("{request}\n").as_bytes()).unwrap();
    line(&mut BufReader::new(socket)).unwrap()
}

#[test]
fn a_state_is_what_is_shown() {
    let rig = Rig::new("state");
    let before = ask(&rig.path, STATE);
    let state = &before["state"];
    assert_eq!((&before["version"], &state["phase"]), (&1.into(), &"running".into()));
    assert_eq!(state["drive"]["state"], "opening");
    assert_eq!(state["drive"]["about"], Value::Null);
    assert_eq!(
        (&state["drive"]["kind"], &state["drive"]["blocks"]),
        (&"ram".into(), &20.into())
    );
    assert_eq!(state["guests"][0]["state"], "waiting");
    rig.board.drive.open("some drive");
    rig.board.drive.show_state(DriveState::Good);
    rig.board.guests[1].show_state(GuestState::Enabled);
    rig.board.guests[1].show_flying(3);
    rig.board.lanes[1].show_flying(3);
    rig.board.lanes[0].close();
    let after = ask(&rig.path, STATE);
    let state = &after["state"];
    assert_eq!(
        (&state["drive"]["state"], &state["drive"]["about"]),
        (&"good".into(), &"some drive".into())
    );
    let guest = serde_json::json!({
        "guest": 1, "state": "enabled", "comes": "listen", "memory": 4096, "blocks": 8, "share": 7, "in_flight": 3,
        "limit": { "iops": null, "bytes": null },
    });
    assert_eq!(state["guests"][1], guest);
    assert_eq!(state["guests"][0]["share"], 57);
    let lanes = serde_json::json!([
        { "lane": 0, "in_flight": 0, "closed": true },
        { "lane": 1, "in_flight": 3, "closed": false },
    ]);
    assert_eq!(state["lanes"], lanes);
}

#[test]
fn several_requests_of_a_connection_are_answered_in_order() {
    let rig = Rig::new("order");
    let mut socket = rig.connect();
    let text = format!("{STATE}\nno\n{STATE}\r\n{{\"version\":1,\"request\":\"resume\"}}\nhalf");
    socket.write_all(text.as_bytes()).unwrap();
    socket.shutdown(std::net::Shutdown::Write).unwrap();
    let mut socket = BufReader::new(socket);
    let fields = ["state", "error", "state", "resume", "error"];
    for field in fields {
        let reply = line(&mut socket).unwrap();
        assert!(reply.get(field).is_some(), "{field}: {reply}");
    }
    assert_eq!(line(&mut socket), None);
}

#[test]
fn a_drain_is_answered_when_commands_have_run_out() {
    let rig = Rig::new("drain");
    rig.board.lanes[0].show_flying(2);
    rig.show(Phase::Draining);
    let begin = Instant::now();
    let given_up = ask(&rig.path, r#"{"version":1,"request":"drain","wait":1}"#);
    assert!(begin.elapsed() >= Duration::from_secs(1));
    assert_eq!(
        given_up["drain"],
        serde_json::json!({ "drained": false, "in_flight": 2 })
    );
    assert!(rig.orders.is_draining());
    let mut socket = rig.connect();
    socket.write_all(b"{\"version\":1,\"request\":\"drain\"}\n").unwrap();
    let mut byte = [0];
    socket.set_read_timeout(Some(Duration::from_millis(200))).unwrap();
    assert!(socket.read(&mut byte).is_err(), "it is not answered yet");
    // others are served meanwhile
    ask(&rig.path, STATE);
    rig.board.lanes[0].show_flying(0);
    // it has not heeded the last order yet
    let orders = rig.orders.changes();
    rig.board.show_phase(Phase::Drained, orders - 1);
    socket.set_read_timeout(Some(Duration::from_millis(200))).unwrap();
    assert!(socket.read(&mut byte).is_err(), "it is of an earlier drain");
    rig.show(Phase::Drained);
    socket.set_read_timeout(Some(Duration::from_secs(20))).unwrap();
    let mut socket = BufReader::new(socket);
    let drained = serde_json::json!({ "drained": true, "in_flight": 0 });
    assert_eq!(line(&mut socket).unwrap()["drain"], drained);
    // one that is waited for ends where commands are taken again
    rig.show(Phase::Draining);
    socket
        .get_mut()
        .write_all(b"{\"version\":1,\"request\":\"drain\"}\n")
        .unwrap();
    std::thread::sleep(Duration::from_millis(100));
    ask(&rig.path, r#"{"version":1,"request":"resume"}"#);
    assert_eq!(line(&mut socket).unwrap()["drain"]["drained"], false);
    assert!(!rig.orders.is_draining());
}

#[test]
fn an_end_is_answered_and_asked_for() {
    let rig = Rig::new("end");
    assert!(!rig.end.is_asked());
    let reply = ask(&rig.path, r#"{"version":1,"request":"end"}"#);
    assert_eq!(reply["end"], serde_json::json!({}));
    let begin = Instant::now();
    while !rig.end.is_asked() {
        assert!(begin.elapsed() < Duration::from_secs(10));
        std::thread::sleep(Duration::from_millis(1));
    }
}

#[test]
fn more_clients_than_there_are_places() {
    let rig = Rig::new("places");
    let mut clients: Vec<_> = (0..MOST_CLIENTS).map(|_| BufReader::new(rig.connect())).collect();
    for client in &mut clients {
        client.get_mut().write_all(format!("{STATE}\n").as_bytes()).unwrap();
        assert!(line(client).unwrap().get("state").is_some());
    }
    let mut late = BufReader::new(rig.connect());
    let refused = line(&mut late).unwrap();
    assert!(
        refused["error"]
            .as_str()
            .unwrap()
            .starts_with("8 clients are connected"),
        "{refused}"
    );
    assert_eq!(line(&mut late), None);
    clients.pop();
    let begin = Instant::now();
    while ask(&rig.path, STATE).get("state").is_none() {
        assert!(begin.elapsed() < Duration::from_secs(10));
    }
}

/// Lines that are too long end the connection, since nobody knows where the next one begins.
#[test]
fn a_line_without_an_end() {
    let rig = Rig::new("long");
    let mut socket = BufReader::new(rig.connect());
    let _some = socket.get_mut().write_all(&[b' '; 100_000]);
    let reply = line(&mut socket).unwrap();
    assert!(
        reply["error"]
            .as_str()
            .unwrap()
            .starts_with("the line is longer than 4096"),
        "{reply}"
    );
    assert_eq!(line(&mut socket), None);
}

/// Clients that never read, or send half a line, lose their places after some seconds; others are served meanwhile.
#[test]
fn clients_that_do_not_read_or_end_their_lines() {
    let rig = Rig::new("slow");
    let mut unread = rig.connect();
    unread.set_nonblocking(true).unwrap();
    let mut half = BufReader::new(rig.connect());
    half.get_mut().write_all(b"{\"version\":1").unwrap();
    let begin = Instant::now();
    let mut sent = 0;
    let mut closed = false;
    // what it may send is bounded: the replies that it does not read fill the socket
    while begin.elapsed() < 2 * HALF && !closed {
        match unread.write(format!("{STATE}\n").as_bytes()) {
            Ok(count) => sent += count,
            Err(error) if error.kind() == ErrorKind::WouldBlock => {}
            Err(_gone) => closed = true,
        }
        let asked = Instant::now();
        assert!(ask(&rig.path, STATE).get("state").is_some());
        assert!(asked.elapsed() < Duration::from_secs(2));
        std::thread::sleep(Duration::from_millis(5));
    }
    assert_eq!(line(&mut half), None, "the half line has lost its place");
    assert!(begin.elapsed() >= HALF);
    println!("a client that does not read has sent {sent} bytes");
    assert!(sent < 4 << 20);
}

/// One that sends all the time is answered so many times a second.
#[test]
fn a_client_that_sends_all_the_time() {
    let rig = Rig::new("busy");
    let mut socket = BufReader::new(rig.connect());
    let mut writer = socket.get_ref().try_clone().unwrap();
    let sender = std::thread::spawn(move || {
        let text = format!("{STATE}\n").repeat(100);
        while writer.write_all(text.as_bytes()).is_ok() {}
    });
    let begin = Instant::now();
    let mut replies = 0;
    while begin.elapsed() < Duration::from_millis(2500) {
        assert!(line(&mut socket).unwrap().get("state").is_some());
        replies += 1;
        if replies % 20 == 0 {
            assert!(ask(&rig.path, STATE).get("state").is_some());
        }
    }
    println!("{replies} replies in 2.5 seconds");
    assert!(replies <= 4 * MOST_REQUESTS, "{replies}");
    drop(rig);
    while line(&mut socket).is_some() {}
    sender.join().unwrap();
}
