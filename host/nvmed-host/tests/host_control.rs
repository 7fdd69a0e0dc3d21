//! The control socket of the whole program: states, a drain, an end, and clients that mean no good.
#![allow(clippy::unwrap_used, clippy::expect_used, clippy::panic)]

mod client;
mod guest;
mod operator;
mod program;

use std::io::{Read, Write};
use std::sync::atomic::{AtomicBool, Ordering};
use std::sync::Arc;
use std::time::{Duration, Instant};

use guest::{configuration, is_real, Folder};
use operator::{ask, await_state, line};
use program::{connect, Program};

#[test]
fn guests_are_shown_as_they_come_and_go() {
    let folder = Folder::new("shown");
    let program = Program::start(&folder, &configuration(&folder, 2, &line(&folder)), &[]);
    let state = await_state(&folder, |state| state["drive"]["state"] == "good");
    assert_eq!(
        (&state["phase"], &state["guests"][0]["state"]),
        (&"running".into(), &"waiting".into())
    );
    assert!(
        state["drive"]["about"].as_str().unwrap().contains("32768 blocks"),
        "{state}"
    );
    let mut guest = connect(&folder, "g1");
    await_state(&folder, |state| state["guests"][1]["state"] == "connected");
    if is_real() {
        guest.bring_up().unwrap();
        await_state(&folder, |state| state["guests"][1]["state"] == "enabled");
        // an admin completion queue of one entry: the controller shows a fatal status
        guest.set_cc(0).unwrap();
        guest.await_ready(0).unwrap();
        guest.client.post_u32(client::BAR0, 0x24, 0).unwrap();
        guest.set_cc(0x46_0001).unwrap();
        await_state(&folder, |state| state["guests"][1]["state"] == "failed");
        guest.set_cc(0).unwrap();
        await_state(&folder, |state| state["guests"][1]["state"] == "connected");
    }
    drop(guest);
    let state = await_state(&folder, |state| state["guests"][1]["state"] == "waiting");
    assert_eq!(state["guests"][0]["state"], "waiting");
    drop(program);
}

/// What was taken runs out, what waits is taken afterwards, and guests' admin commands and shutdowns go on meanwhile.
#[test]
fn a_drain_and_its_end() {
    if !is_real() {
        return;
    }
    let folder = Folder::new("drain");
    let mut program = Program::start(&folder, &configuration(&folder, 2, &line(&folder)), &[]);
    let mut guests = [connect(&folder, "g0"), connect(&folder, "g1")];
    for guest in &mut guests {
        guest.bring_up().unwrap();
        guest.write_blocks(0, 7).unwrap();
    }
    let drained = ask(&folder, "drain", "");
    assert_eq!((&drained["drained"], &drained["in_flight"]), (&true.into(), &0.into()));
    assert_eq!(ask(&folder, "state", "")["phase"], "drained");
    let [first, second] = &mut guests;
    let id = first.put(1, 2, 0x20_0000, [0, 0, 7]).unwrap();
    first.ring(1, false).unwrap();
    // admin commands are answered by the mediator alone
    assert_eq!(first.create_pair().unwrap(), 2);
    std::thread::sleep(Duration::from_millis(200));
    assert_eq!(first.take(1).unwrap(), None, "it is not taken");
    // a shutdown is complete
    second.set_cc(0x46_4001).unwrap();
    let begin = Instant::now();
    while second.client.read_u32(client::BAR0, 0x1c).unwrap() >> 2 & 3 != 2 {
        assert!(begin.elapsed() < Duration::from_secs(5));
    }
    assert_eq!(ask(&folder, "drain", ",\"wait\":0")["drained"], true);
    ask(&folder, "resume", "");
    let done = first.await_done(1).unwrap();
    assert_eq!((done.id, done.status), (id, 0));
    assert_eq!(first.memory.read(0x20_0000, 4096).unwrap(), [7; 4096]);
    await_state(&folder, |state| state["phase"] == "running");
    ask(&folder, "end", "");
    assert_eq!(program.status(), 0);
}

/// Commands are given all the time: none of them is lost, and none comes while the host is drained.
#[test]
fn drains_under_load() {
    if !is_real() {
        return;
    }
    let folder = Folder::new("drain-load");
    let _program = Program::start(&folder, &configuration(&folder, 1, &line(&folder)), &[]);
    let mut guest = connect(&folder, "g0");
    guest.bring_up().unwrap();
    let stop = Arc::new(AtomicBool::new(false));
    let stopped = Arc::clone(&stop);
    let load = std::thread::spawn(move || {
        let mut done = 0;
        while !stopped.load(Ordering::SeqCst) {
            for i in 0..32 {
                guest.put(1, 2, 0x20_0000 + 0x1000 * i, [8 * i as u32, 0, 7]).unwrap();
            }
            guest.ring(1, false).unwrap();
            for _ in 0..32 {
                assert_eq!(guest.await_done(1).unwrap().status, 0);
                done += 1;
            }
        }
        done
    });
    for round in 0..40 {
        let drained = ask(&folder, "drain", "");
        assert_eq!((&drained["drained"], &drained["in_flight"]), (&true.into(), &0.into()));
        let state = ask(&folder, "state", "");
        assert_eq!(
            (&state["phase"], &state["lanes"][0]["in_flight"]),
            (&"drained".into(), &0.into())
        );
        ask(&folder, "resume", "");
        // half of them begin before the end of the one before is heeded
        std::thread::sleep(Duration::from_millis(20 * (round % 2)));
    }
    stop.store(true, Ordering::SeqCst);
    assert!(load.join().unwrap() >= 32);
}

#[test]
fn an_operator_ends_it() {
    let folder = Folder::new("end");
    let image = folder.path("image");
    let text = configuration(&folder, 1, &line(&folder))
        .replace("drive ram 16M", &format!("drive ram 16M {}", image.display()));
    let mut program = Program::start(&folder, &text, &[]);
    let mut guest = connect(&folder, "g0");
    if is_real() {
        guest.bring_up().unwrap();
        guest.write_blocks(0, 9).unwrap();
    }
    ask(&folder, "end", "");
    assert_eq!(program.status(), 0);
    assert!(program.said().contains("ends by the control socket"));
    assert!(!operator::socket(&folder).exists(), "the socket's path is gone");
    if is_real() {
        let mut bytes = [0; 4096];
        std::fs::File::open(&image).unwrap().read_exact(&mut bytes).unwrap();
        assert_eq!(bytes, [9; 4096]);
    }
}

#[test]
fn a_control_socket_that_cannot_be_made() {
    let folder = Folder::new("no-control");
    let text = configuration(
        &folder,
        1,
        &format!("control {}\n", folder.path("no/such/folder").display()),
    );
    let mut program = Program::start(&folder, &text, &[]);
    assert_eq!(program.status(), 1);
    let said = program.said();
    assert!(
        said.contains("the control socket (line 5): ") && said.contains("cannot be listened on"),
        "{said}"
    );
    assert!(!folder.path("g0").exists());
}

/// All places of the socket have clients that ask without end and read nothing: a guest does not see it.
#[test]
fn hostile_operators_hold_up_nobody() {
    if !is_real() {
        return;
    }
    let folder = Folder::new("hostile-control");
    let mut program = Program::start(&folder, &configuration(&folder, 1, &line(&folder)), &[]);
    let mut honest = connect(&folder, "g0");
    honest.bring_up().unwrap();
    honest.longest_read(50).unwrap();
    let stop = Arc::new(AtomicBool::new(false));
    let floods: Vec<_> = (0..9)
        .map(|number| {
            let mut socket = operator::connect(&folder);
            let stop = Arc::clone(&stop);
            std::thread::spawn(move || {
                socket.set_write_timeout(Some(Duration::from_millis(50))).unwrap();
                let text = match number % 3 {
                    0 => "{\"version\":1,\"request\":\"state\"}\n".repeat(100),
                    1 => "[".repeat(4000) + "\n",
                    _ => "\n".repeat(1000),
                };
                while !stop.load(Ordering::SeqCst) {
                    // it may be full, or closed
                    if socket.write_all(text.as_bytes()).is_err() {
                        std::thread::sleep(Duration::from_millis(10));
                    }
                }
            })
        })
        .collect();
    let longest = honest.longest_read(2000).unwrap();
    println!("the longest of 2,000 Reads beside nine clients that flood the control socket: {longest:?}");
    stop.store(true, Ordering::SeqCst);
    for flood in floods {
        flood.join().unwrap();
    }
    assert!(longest < Duration::from_secs(1), "{longest:?}");
    program.signal(nix::sys::signal::Signal::SIGTERM);
    assert_eq!(program.status(), 0);
}

/// What the program prints as `ctl`: its status, standard output and standard error.
fn ctl(folder: &Folder, words: &[&str]) -> (i32, String, String) {
    let socket = operator::socket(folder);
    let mut all = vec!["ctl", socket.to_str().unwrap()];
    all.extend(words);
    program::run(&all)
}

#[test]
fn an_operators_words() {
    let folder = Folder::new("ctl");
    let mut program = Program::start(&folder, &configuration(&folder, 2, &line(&folder)), &[]);
    await_state(&folder, |state| state["drive"]["state"] == "good");
    let (status, said, _) = ctl(&folder, &["state"]);
    assert_eq!(status, 0);
    assert!(
        said.contains("guest  state    client  memory  blocks  share  in flight  most iops"),
        "{said}"
    );
    assert!(said.contains("; running\ndrive ram: good: "), "{said}");
    let path = operator::socket(&folder);
    let (status, said, _) = program::run(&["ctl", "--json", path.to_str().unwrap(), "state"]);
    let state: serde_json::Value = serde_json::from_str(&said).unwrap();
    assert_eq!((status, &state["phase"]), (0, &"running".into()));
    let (status, said, _) = ctl(&folder, &["drain", "5"]);
    assert_eq!(
        (status, said.as_str()),
        (0, "drained: nothing is taken, and nothing is under way\n")
    );
    assert_eq!(ctl(&folder, &["resume"]).0, 0);
    let (status, said, _) = ctl(&folder, &["limit", "1", "bytes", "10M"]);
    let words = "guest 1: as many commands as it likes, 10M bytes a second\n";
    assert_eq!((status, said.as_str()), (0, words));
    assert_eq!(ask(&folder, "state", "")["guests"][1]["limit"]["bytes"], 10 << 20);
    assert_eq!(ctl(&folder, &["limit", "1", "iops", "500"]).0, 0);
    assert_eq!(ctl(&folder, &["limit", "1", "bytes", "none"]).0, 0);
    let limit = serde_json::json!({ "iops": 500, "bytes": null });
    assert_eq!(ask(&folder, "state", "")["guests"][1]["limit"], limit);
    let (status, _, said) = ctl(&folder, &["limit", "2", "iops", "500"]);
    assert_eq!(
        (status, said.as_str()),
        (1, "nvmed-host: refused: there is no guest 2: there are 2\n")
    );
    let (status, _, said) = ctl(&folder, &["limit", "1", "bytes", "1K"]);
    assert!(status == 1 && said.contains("whole number from 131072 to"), "{said}");
    for wrong in [
        &["limit"][..],
        &["limit", "1", "iops"],
        &["limit", "1", "iops", "0"],
        &["limit", "1", "speed", "1"],
    ] {
        assert_eq!(ctl(&folder, wrong).0, 2, "{wrong:?}");
    }
    for wrong in [
        &[][..],
        &["what"],
        &["state", "more"],
        &["drain", "601"],
        &["drain", "-1"],
        &["end", "now"],
    ] {
        assert_eq!(ctl(&folder, wrong).0, 2, "{wrong:?}");
    }
    assert_eq!(program::run(&["ctl"]).0, 2);
    assert_eq!(program::run(&["ctl", "--help"]).0, 0);
    let (status, said, _) = ctl(&folder, &["end"]);
    assert_eq!((status, said.as_str()), (0, "the program ends\n"));
    assert_eq!(program.status(), 0);
    let (status, _, said) = ctl(&folder, &["state"]);
    assert_eq!(status, 1);
    assert!(
        said.starts_with("nvmed-host: ") && said.contains("is the program running"),
        "{said}"
    );
}

/// Counts of a guest's kind of command, as JSON and as Prometheus' text.
#[test]
fn figures_are_those_of_the_commands() {
    if !is_real() {
        return;
    }
    let folder = Folder::new("figures");
    let _program = Program::start(&folder, &configuration(&folder, 2, &line(&folder)), &[]);
    let mut guest = connect(&folder, "g1");
    guest.bring_up().unwrap();
    for round in 0..10 {
        assert_eq!(guest.write_blocks(8 * round, 1).unwrap().status, 0);
        guest.read_blocks(8 * round).unwrap();
    }
    assert_eq!(guest.command(1, 0, 0, [0; 3]).unwrap().status, 0, "a Flush");
    assert_eq!(guest.command(1, 8, 0, [0, 0, 7]).unwrap().status, 0, "Write Zeroes");
    // a Compare that finds another byte, and what the mediator refuses by itself
    guest.memory.write(0x10_0000, &[9; 4096]).unwrap();
    assert_ne!(guest.command(1, 5, 0x10_0000, [8, 0, 7]).unwrap().status, 0);
    assert_ne!(guest.command(1, 2, 0x20_0000, [2048, 0, 0]).unwrap().status, 0);
    let figures = ask(&folder, "figures", "");
    let kinds = &figures["guests"][1]["kinds"];
    for (kind, commands, errors, bytes) in [
        ("read", 10, 0, 40960),
        ("write", 10, 0, 40960),
        ("flush", 1, 0, 0),
        ("write_zeroes", 1, 0, 0),
        ("compare", 1, 1, 0),
        ("dataset_management", 0, 0, 0),
    ] {
        let wanted = serde_json::json!({ "commands": commands, "errors": errors, "bytes": bytes });
        assert_eq!(kinds[kind], wanted, "{kind}: {figures}");
    }
    let latency = &figures["guests"][1]["latency"];
    for (group, count) in [("read", 10), ("write", 10), ("other", 3)] {
        assert_eq!(latency[group]["count"], count);
        let mean = latency[group]["sum"].as_u64().unwrap() / count;
        assert!((500..1_000_000_000).contains(&mean), "{group}: {mean} ns");
    }
    let interrupts = figures["guests"][1]["interrupts"].as_u64().unwrap();
    assert!(interrupts >= 24, "{interrupts}");
    assert_eq!(figures["lanes"][0]["commands"], 23);
    assert_eq!(figures["guests"][0]["kinds"]["read"]["commands"], 0);
    let (status, text, _) = ctl(&folder, &["figures", "prometheus"]);
    assert_eq!(status, 0);
    assert!(
        text.contains("\nnvmed_host_commands_total{guest=\"1\",kind=\"read\"} 10\n"),
        "{text}"
    );
    let (status, text, _) = ctl(&folder, &["figures"]);
    assert_eq!(status, 0);
    assert!(text.starts_with("guest  reads"), "{text}");
    assert_eq!(ctl(&folder, &["figures", "xml"]).0, 2);
    let (status, text, _) = ctl(&folder, &["top", "2"]);
    assert_eq!((status, text.matches("drive good\n").count()), (0, 2), "{text}");
    assert_eq!(ctl(&folder, &["top", "0"]).0, 2);
}
