//! Limits of guests: what they get of them, that the others get what they got before, and what resets and deletions do to commands that wait.
#![allow(clippy::unwrap_used, clippy::expect_used, clippy::panic)]

mod client;
mod guest;
mod operator;
mod program;

use std::io;
use std::time::{Duration, Instant};

use guest::{configuration, is_real, Folder, Guest};
use operator::{ask, line};
use program::{connect, Program};

/// How long it is measured.
const SPAN: Duration = Duration::from_secs(10);
const READ: u8 = 2;
/// Where a guest has the list of a command of 128 KiB, and its buffer.
const LIST: u64 = 0x18_0000;
const BUFFER: u64 = 0x20_0000;

/// A Read of so many blocks, up to 256.
fn put_read(guest: &mut Guest, queue: usize, block: u32, blocks: u32) -> io::Result<u16> {
    let mut entry = [0; 64];
    entry[0] = READ;
    entry[4] = 1;
    entry[24..32].copy_from_slice(&BUFFER.to_le_bytes());
    if blocks > 16 {
        entry[32..40].copy_from_slice(&LIST.to_le_bytes());
    }
    entry[40..44].copy_from_slice(&block.to_le_bytes());
    entry[48..52].copy_from_slice(&(blocks - 1).to_le_bytes());
    guest.put_entry(queue, entry)
}

fn bring_up(folder: &Folder, name: &str) -> Guest {
    let mut guest = connect(folder, name);
    guest.bring_up().unwrap();
    let pages: Vec<u8> = (1..32)
        .flat_map(|page| (BUFFER + 0x1000 * page).to_le_bytes())
        .collect();
    guest.memory.write(LIST, &pages).unwrap();
    guest
}

/// What came in a time: commands and bytes.
#[derive(Clone, Copy, Debug, Default)]
struct Got {
    commands: u64,
    bytes: u64,
}

/// Keeps so many commands on their way for a time, of these sizes by turns. It does not wait for interrupts.
fn load(guest: &mut Guest, span: Duration, depth: usize, sizes: &[u32]) -> Got {
    guest.interrupts = false;
    let mut on_way = std::collections::HashMap::new();
    let mut got = Got::default();
    let mut turn = 0;
    let begin = Instant::now();
    let mut ends = false;
    while !ends || !on_way.is_empty() {
        ends = begin.elapsed() >= span;
        let mut put = false;
        while !ends && on_way.len() < depth {
            let blocks = sizes[turn % sizes.len()];
            turn += 1;
            on_way.insert(put_read(guest, 1, 256 * (turn as u32 % 4), blocks).unwrap(), blocks);
            put = true;
        }
        if put {
            guest.ring(1, false).unwrap();
        }
        let mut taken = false;
        while let Some(done) = guest.take(1).unwrap() {
            assert_eq!(done.status, 0);
            let blocks = on_way.remove(&done.id).unwrap();
            taken = true;
            if !ends {
                got.commands += 1;
                got.bytes += 512 * u64::from(blocks);
            }
        }
        if taken {
            guest.ring(1, true).unwrap();
        } else {
            std::thread::sleep(Duration::from_micros(200));
        }
        assert!(begin.elapsed() < span + Duration::from_secs(30), "commands are lost");
    }
    got
}

/// Whether the processors have other work, too: then a guest gets what it can, and how long something takes says little.
fn is_crowded() -> bool {
    let load = std::fs::read_to_string("/proc/loadavg").unwrap_or_default();
    let load = load.split(' ').next().and_then(|word| word.parse::<f64>().ok());
    let processors = std::thread::available_parallelism().map_or(1, usize::from);
    load.is_none_or(|load| load * 2.0 > processors as f64)
}

/// Within five percent; beside other work a guest may get less.
fn near(what: &str, is: u64, wanted: u64) {
    println!("{what}: {is} of {wanted}");
    assert!(is * 100 <= wanted * 105, "{what}: {is} of {wanted}");
    assert!(is * 100 >= wanted * 95 || is_crowded(), "{what}: {is} of {wanted}");
}

/// Small commands, large ones, and both at once; and a guest without a limit beside them.
#[test]
fn limits_are_kept_within_five_percent() {
    if !is_real() {
        return;
    }
    let folder = Folder::new("limits");
    let limits =
        "limit 0 iops 1000\nlimit 1 bytes 20M\nlimit 2 iops 400\nlimit 2 bytes 24M\nshare 0 8\nshare 1 8\nshare 3 8\n";
    let text = configuration(&folder, 4, &format!("{limits}{}", line(&folder)));
    let _program = Program::start(&folder, &text, &[]);
    let sizes: [&[u32]; 3] = [&[8], &[256], &[8, 256, 8]];
    let limited: Vec<_> = (0..3)
        .zip(sizes)
        .map(|(number, sizes)| {
            let mut guest = bring_up(&folder, &format!("g{number}"));
            std::thread::spawn(move || load(&mut guest, SPAN, 30, sizes))
        })
        .collect();
    let mut free = bring_up(&folder, "g3");
    let longest = free.longest_read(500).unwrap();
    let got: Vec<Got> = limited.into_iter().map(|thread| thread.join().unwrap()).collect();
    println!("the longest of 500 Reads of the guest without a limit: {longest:?}");
    near("commands of 4 KiB", got[0].commands, 10_000);
    near("bytes of commands of 128 KiB", got[1].bytes, 10 * (20 << 20));
    // a third of its commands are large: 400 a second have 17 MiB, which is within 24
    near("commands of both sizes", got[2].commands, 4000);
    assert!(longest < Duration::from_secs(1), "{longest:?}");
}

/// A guest at its limit does not slow another, whose share of tags is its own.
#[test]
fn a_guest_at_its_limit_slows_nobody() {
    if !is_real() {
        return;
    }
    let folder = Folder::new("nobody");
    let text = configuration(&folder, 2, &format!("share 0 60\nshare 1 4\n{}", line(&folder)));
    let _program = Program::start(&folder, &text, &[]);
    let mut limited = bring_up(&folder, "g0");
    let mut free = bring_up(&folder, "g1");
    let set = ask(&folder, "limit", ",\"guest\":0,\"iops\":200");
    assert_eq!(set, serde_json::json!({ "guest": 0, "iops": 200, "bytes": null }));
    // other work on the machine comes and goes: what is so once is enough
    let span = Duration::from_secs(1);
    let mut slowed = true;
    for _ in 0..5 {
        let alone = load(&mut free, span, 4, &[8]);
        let waits = std::thread::spawn(move || (load(&mut limited, span * 3 / 2, 60, &[8]), limited));
        std::thread::sleep(span / 4);
        let beside = load(&mut free, span, 4, &[8]);
        let (got, back) = waits.join().unwrap();
        limited = back;
        println!("a guest alone: {alone:?}; beside one at its limit: {beside:?}; that one: {got:?}");
        assert!(got.commands <= 350, "{got:?}");
        slowed &= beside.commands * 4 < alone.commands * 3;
        if !slowed {
            break;
        }
    }
    assert!(!slowed || is_crowded());
    // without the limit it is as fast as before
    ask(&folder, "limit", ",\"guest\":0,\"iops\":null");
    let got = load(&mut limited, span, 60, &[8]);
    assert!(got.commands > 600 || is_crowded(), "{got:?}");
}

/// One queue of a guest that is always full leaves the other one its part of the limit.
#[test]
fn queues_of_a_guest_at_its_limit_share_it() {
    if !is_real() {
        return;
    }
    let folder = Folder::new("queues");
    let _program = Program::start(&folder, &configuration(&folder, 1, "limit 0 iops 200\n"), &[]);
    let mut guest = bring_up(&folder, "g0");
    assert_eq!(guest.create_pair().unwrap(), 2);
    guest.interrupts = false;
    let begin = Instant::now();
    let mut done = [0; 2];
    let mut on_way = [0; 2];
    while begin.elapsed() < Duration::from_secs(3) {
        for (queue, depth) in [(1, 40), (2, 4)] {
            while on_way[queue - 1] < depth {
                put_read(&mut guest, queue, 0, 8).unwrap();
                on_way[queue - 1] += 1;
            }
            guest.ring(queue, false).unwrap();
            while guest.take(queue).unwrap().is_some() {
                on_way[queue - 1] -= 1;
                done[queue - 1] += 1;
            }
            guest.ring(queue, true).unwrap();
        }
        std::thread::sleep(Duration::from_micros(500));
    }
    println!("in three seconds: {done:?} of the queues");
    assert!(done[0] + done[1] <= 680, "{done:?}");
    assert!(done[0] + done[1] >= 560 || is_crowded(), "{done:?}");
    // by turns of what waits: four of each forty-four
    assert!(done[1] * 20 >= done[0], "{done:?}");
}

/// Commands wait while the controller is reset, or their queue is deleted and created anew: what comes after is carried out, and nothing of before.
#[test]
fn resets_and_deletions_at_the_limit() {
    if !is_real() {
        return;
    }
    let folder = Folder::new("limit-resets");
    let _program = Program::start(&folder, &configuration(&folder, 1, "limit 0 iops 100\n"), &[]);
    let mut guest = bring_up(&folder, "g0");
    guest.interrupts = false;
    for round in 0..6u32 {
        for at in 0..30 {
            put_read(&mut guest, 1, 8 * at, 8).unwrap();
            guest.ring(1, false).unwrap();
            if at == 20 {
                // the others are rung while these wait
                std::thread::sleep(Duration::from_millis(20));
            }
        }
        if round % 2 == 0 {
            guest.set_cc(0).unwrap();
            guest.await_ready(0).unwrap();
            guest.bring_up().unwrap();
        } else {
            let begin = Instant::now();
            guest.create_anew(1).unwrap();
            assert!(begin.elapsed() < Duration::from_secs(5));
        }
        let id = put_read(&mut guest, 1, 8 * round, 8).unwrap();
        guest.ring(1, false).unwrap();
        let done = guest.await_done(1).unwrap();
        assert_eq!((done.id, done.status), (id, 0));
        std::thread::sleep(Duration::from_millis(50));
        assert_eq!(guest.take(1).unwrap(), None, "nothing of before");
    }
}
