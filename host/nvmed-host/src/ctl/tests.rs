use std::io::Write as _;
use std::os::unix::net::UnixListener;
use std::thread;

use super::*;

/// A socket whose program sends these bytes to whoever asks, and closes. What was asked is given back.
fn answered(name: &str, reply: &'static str, words: &Words) -> (Result<Said, CtlError>, String) {
    let path = std::env::temp_dir().join(format!("nvmed-ctl-{}-{name}", std::process::id()));
    let _old = std::fs::remove_file(&path);
    let listener = UnixListener::bind(&path).unwrap();
    let program = thread::spawn(move || {
        let (socket, _) = listener.accept().unwrap();
        let mut socket = BufReader::new(socket);
        let mut line = String::new();
        socket.read_line(&mut line).unwrap();
        socket.get_mut().write_all(reply.as_bytes()).unwrap();
        line
    });
    let said = run(&path, words, false);
    let asked = program.join().unwrap();
    std::fs::remove_file(&path).unwrap();
    (said, asked)
}

#[test]
fn requests_and_their_words() {
    for (words, reply, asked, text, good) in [
        (
            Words::Resume,
            "{\"version\":1,\"resume\":{}}\n",
            json!({"version": 1, "request": "resume"}),
            "commands are taken again\n",
            true,
        ),
        (
            Words::End,
            "{\"version\":1,\"end\":{}}\n",
            json!({"version": 1, "request": "end"}),
            "the program ends\n",
            true,
        ),
        (
            Words::Limit {
                guest: 1,
                of: Limited::Bytes,
                rate: Some(1 << 20),
            },
            "{\"version\":1,\"limit\":{\"guest\":1,\"iops\":null,\"bytes\":1048576}}\n",
            json!({"version": 1, "request": "limit", "guest": 1, "bytes": 1_048_576}),
            "guest 1: as many commands as it likes, 1M bytes a second\n",
            true,
        ),
        (
            Words::Limit {
                guest: 0,
                of: Limited::Iops,
                rate: None,
            },
            "{\"version\":1,\"limit\":{\"guest\":0,\"iops\":null,\"bytes\":null}}\n",
            json!({"version": 1, "request": "limit", "guest": 0, "iops": null}),
            "guest 0: as many commands as it likes, as many bytes as it likes\n",
            true,
        ),
        (
            Words::Drain(None),
            "{\"version\":1,\"drain\":{\"drained\":true,\"in_flight\":0}}\n",
            json!({"version": 1, "request": "drain"}),
            "drained: nothing is taken, and nothing is under way\n",
            true,
        ),
        (
            Words::Drain(Some(7)),
            "{\"version\":1,\"drain\":{\"drained\":false,\"in_flight\":3}}\n",
            json!({"version": 1, "request": "drain", "wait": 7}),
            "nothing is taken any more, and 3 commands are still under way\n",
            false,
        ),
    ] {
        let (said, line) = answered("words", reply, &words);
        let text = text.to_owned();
        assert_eq!(said.unwrap(), Said { text, good });
        assert_eq!(serde_json::from_str::<Value>(&line).unwrap(), asked);
    }
}

#[test]
fn replies_that_are_none() {
    for (reply, words) in [
        ("", "the program closed the connection without a reply"),
        ("what\n", "the reply is not understood"),
        ("{\"version\":1}\n", "the reply is not understood"),
        ("{\"version\":1,\"end\":7}\n", "the reply is not understood"),
        ("{\"version\":1,\"error\":\"no\"}\n", "refused: no"),
    ] {
        let (said, _) = answered("none", reply, &Words::End);
        let said = said.unwrap_err().to_string();
        assert!(said.starts_with(words), "{said}");
    }
    let nobody = run(Path::new("/no/such/socket"), &Words::State, false)
        .unwrap_err()
        .to_string();
    assert!(
        nobody.starts_with("/no/such/socket: cannot be connected to: "),
        "{nobody}"
    );
}

#[test]
fn a_state_as_tables() {
    let state = json!({
        "program": "0.1.0", "library": "2.3", "proved": true, "seconds": 7, "phase": "running",
        "drive": { "kind": "ram", "state": "good", "about": "8 blocks in memory", "blocks": 8 },
        "lanes": [{ "lane": 0, "in_flight": 12, "closed": false }, { "lane": 1, "in_flight": 0, "closed": true }],
        "guests": [
            { "guest": 0, "state": "enabled", "comes": "listen", "memory": 536_870_912, "blocks": 100, "share": 32, "in_flight": 12, "limit": { "iops": 500, "bytes": 10_485_760 } },
            { "guest": 10, "state": "waiting", "comes": "start", "memory": 4097, "blocks": 7 },
        ],
    });
    let wanted = "\
nvmed-host 0.1.0, over library 2.3, proved; for 7 seconds; running
drive ram: good: 8 blocks in memory

lane  state   in flight
   0  open           12
   1  closed          0

guest  state    client  memory  blocks  share  in flight  most iops  most bytes/s
    0  enabled  listen    512M     100     32         12        500           10M
   10  waiting  start     4097       7      -          -          -             -
";
    assert_eq!(Words::State.said(&state).text, wanted);
    // what is not there is no reason to fail
    assert!(Words::State
        .said(&json!({}))
        .text
        .starts_with("nvmed-host -, over library -, not proved;"));
}

/// Figures with so many reads of 4 KiB, of which each tenth took 2 ms, and the others 100 us.
fn figures(seconds: f64, tens: u64) -> Value {
    json!({
        "seconds": seconds,
        "drive": { "state": "good" },
        "guests": [{
            "guest": 0, "state": "enabled", "in_flight": 3, "interrupts": 2 * tens,
            "kinds": { "read": { "commands": 10 * tens, "errors": tens, "bytes": 40960 * tens }, "flush": { "commands": tens } },
            "latency": { "read": { "count": 10 * tens, "sum": 2_900_000 * tens, "buckets": [[114_688, 9 * tens], [2_097_152, tens]] } },
        }],
    })
}

#[test]
fn figures_as_tables() {
    let wanted = "\
guest  reads   bytes  writes  bytes  others  errors  interrupts
    0    100  409600       0      0      10      10          20

guest  kind  commands   mean    50%    99%  99.9%  longest
    0  read       100  290us  115us  2.1ms  2.1ms    2.1ms
";
    assert_eq!(Words::Figures.said(&figures(5.0, 10)).text, wanted);
    assert_eq!(Words::Prometheus.said(&json!({ "text": "a 1\n" })).text, "a 1\n");
    let wanted = "\
drive good
guest  state    in flight  reads/s  MiB/s    50%    99%  writes/s  MiB/s  50%  99%  others/s  errors/s  interrupts/s
    0  enabled          3      500    2.0  115us  2.1ms         0    0.0    -    -        50        50           100
";
    assert_eq!(looks::rates(&figures(7.0, 110), &figures(5.0, 10)), wanted);
    // another program began on the socket meanwhile
    let text = looks::rates(&figures(1.0, 1), &figures(5.0, 10));
    let words: Vec<&str> = text.lines().last().unwrap().split_whitespace().collect();
    assert_eq!(words[3..7], ["0", "0.0", "-", "-"]);
    assert!(looks::rates(&json!({}), &json!({})).starts_with("drive -\n"));
}

#[test]
fn times_to_three_digits() {
    for (nanos, wanted) in [
        (0, "0.0us"),
        (1024, "1.0us"),
        (99_999, "100.0us"),
        (100_000, "100us"),
        (1_234_567, "1.2ms"),
        (99_900_000, "99.9ms"),
        (123_456_789, "123ms"),
        (137_438_953_472, "137.4s"),
        (u64::MAX, "longer"),
    ] {
        assert_eq!(looks::time(nanos), wanted);
    }
}
