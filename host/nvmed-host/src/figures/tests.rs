use std::collections::{BTreeMap, BTreeSet};
use std::time::Duration;

use serde_json::Value;

use super::*;
use crate::board::Board;

/// An entry of this opcode and NLB.
fn entry(opcode: u8, nlb: u16) -> [u8; ENTRY] {
    let mut entry = [0xee; ENTRY];
    entry[0] = opcode;
    entry[48..50].copy_from_slice(&nlb.to_le_bytes());
    entry
}

#[test]
fn commands_of_entries() {
    for (opcode, kind, bytes) in [
        (0, Kind::Flush, 0),
        (1, Kind::Write, 4096),
        (2, Kind::Read, 4096),
        (5, Kind::Compare, 4096),
        (8, Kind::WriteZeroes, 0),
        (9, Kind::DatasetManagement, 0),
        (4, Kind::Other, 0),
        (0xff, Kind::Other, 0),
    ] {
        assert_eq!(Command::of(&entry(opcode, 7)), Command { kind, bytes });
    }
    assert_eq!(Command::of(&entry(2, 0xffff)).bytes, 65_536 * 512);
}

/// A board of two guests, of which the second has had commands.
fn board() -> Board {
    let board = Board::new(1, 2).unwrap();
    board.drive.open("a \"drive\"\\\n");
    let figures = &board.guests[1].figures;
    let read = Command::of(&entry(2, 7));
    for micros in [1, 10, 10, 100, 200_000_000] {
        figures.note(read, false, Some(Duration::from_micros(micros)));
    }
    figures.note(read, true, Some(Duration::from_micros(20)));
    figures.note(Command::of(&entry(0, 0)), false, Some(Duration::from_millis(3)));
    figures.note(Command::of(&entry(1, 0)), true, None);
    figures.interrupts.set(5);
    board.guests[1].show_flying(2);
    board.lanes[0].commands.add(8);
    board
}

#[test]
fn as_json() {
    let json = json(&board(), 1.5);
    assert_eq!(json["seconds"], 1.5);
    assert_eq!(json["lanes"][0]["commands"], 8);
    let guest = &json["guests"][1];
    assert_eq!((&guest["interrupts"], &guest["in_flight"]), (&5.into(), &2.into()));
    let reads = serde_json::json!({ "commands": 6, "errors": 1, "bytes": 5 * 4096 });
    assert_eq!(guest["kinds"]["read"], reads);
    assert_eq!(guest["kinds"]["write"]["errors"], 1);
    assert_eq!(guest["kinds"].as_object().unwrap().len(), Kind::ALL.len());
    let times = serde_json::json!({
        "count": 6,
        "sum": 200_000_141_000u64,
        "buckets": [[1024, 1], [10240, 2], [20480, 1], [114_688, 1], [null, 1]],
    });
    assert_eq!(guest["latency"]["read"], times);
    assert_eq!(guest["latency"]["write"]["count"], 0, "it was never answered");
    assert_eq!(guest["latency"]["other"]["count"], 1);
    assert_eq!(json["guests"][0]["kinds"]["read"]["commands"], 0);
}

/// A sample: its metric's name, its labels, and its value.
type Sample = (String, BTreeMap<String, String>, f64);

fn is_name(name: &str, colon: bool) -> bool {
    let good = |c: char| c.is_ascii_alphanumeric() || c == '_' || colon && c == ':';
    name.chars().all(good) && name.starts_with(|c: char| !c.is_ascii_digit())
}

/// A sample's line, by the format's grammar: name, labels in braces, value. Labels' values have `\\`, `\"` and `\n` escaped.
fn sample(line: &str) -> Sample {
    let (head, value) = line.rsplit_once(' ').unwrap();
    let value = match value {
        "+Inf" => f64::INFINITY,
        other => other.parse().unwrap(),
    };
    let Some((name, rest)) = head.split_once('{') else {
        assert!(is_name(head, true), "{line}");
        return (head.to_owned(), BTreeMap::new(), value);
    };
    assert!(is_name(name, true), "{line}");
    let mut labels = BTreeMap::new();
    let mut rest = rest.strip_suffix('}').unwrap();
    while !rest.is_empty() {
        let (label, after) = rest.split_once("=\"").unwrap();
        assert!(is_name(label, false) && !label.starts_with("__"), "{line}");
        let mut text = String::new();
        let mut chars = after.char_indices();
        let end = loop {
            match chars.next().unwrap() {
                (at, '"') => break at,
                (_, '\\') => match chars.next().unwrap().1 {
                    'n' => text.push('\n'),
                    c @ ('\\' | '"') => text.push(c),
                    c => panic!("\\{c}: {line}"),
                },
                (_, c) => text.push(c),
            }
        };
        assert!(
            labels.insert(label.to_owned(), text).is_none(),
            "a label is there twice: {line}"
        );
        rest = &after[end + 1..];
        rest = rest.strip_prefix(',').unwrap_or(rest);
    }
    (name.to_owned(), labels, value)
}

/// Reads a text by the rules of the exposition format: of each metric one HELP and one TYPE before its samples, which stand together; no sample twice;
/// counters end with `_total`; buckets are cumulative, in ascending order, and the last one is `+Inf` and as the count.
fn check(text: &str) -> Vec<Sample> {
    assert!(text.ends_with('\n') && !text.contains("\n\n"));
    let mut samples = Vec::new();
    let (mut known, mut seen) = (BTreeSet::new(), BTreeSet::new());
    let (mut name, mut kind, mut helped) = (String::new(), String::new(), String::new());
    for line in text.lines() {
        if let Some(help) = line.strip_prefix("# HELP ") {
            let (of, words) = help.split_once(' ').unwrap();
            assert!(!words.is_empty() && known.insert(of.to_owned()), "{line}");
            helped = of.to_owned();
        } else if let Some(typed) = line.strip_prefix("# TYPE ") {
            let (of, is) = typed.split_once(' ').unwrap();
            assert_eq!(of, helped, "HELP and TYPE stand together");
            assert!(
                ["counter", "gauge", "histogram"].contains(&is) && is_name(of, true),
                "{line}"
            );
            assert_eq!(is == "counter", of.ends_with("_total"), "{line}");
            (name, kind) = (of.to_owned(), is.to_owned());
        } else {
            let it = sample(line);
            let suffixes: &[&str] = if kind == "histogram" {
                &["_bucket", "_sum", "_count"]
            } else {
                &[""]
            };
            assert!(
                suffixes.iter().any(|suffix| it.0 == format!("{name}{suffix}")),
                "{line}"
            );
            assert!(seen.insert((it.0.clone(), it.1.clone())), "twice: {line}");
            assert!(it.2 >= 0.0, "{line}");
            samples.push(it);
        }
    }
    check_buckets(&samples);
    samples
}

fn check_buckets(samples: &[Sample]) {
    let mut last: Option<(&str, BTreeMap<String, String>, f64, f64)> = None;
    for (name, labels, value) in samples {
        if let Some(of) = name.strip_suffix("_bucket") {
            let mut labels = labels.clone();
            let most: f64 = match labels.remove("le").unwrap().as_str() {
                "+Inf" => f64::INFINITY,
                other => other.parse().unwrap(),
            };
            if let Some((before, its, end, count)) = &last {
                if *before == of && *its == labels {
                    assert!(*end < most && count <= value, "{name} {labels:?} {most}");
                } else {
                    assert!(end.is_infinite());
                }
            }
            last = Some((of, labels, most, *value));
        } else if let Some(of) = name.strip_suffix("_count") {
            let Some((before, its, end, count)) = &last else {
                panic!("{name}")
            };
            assert_eq!((*before, its, *count), (of, labels, *value));
            assert!(end.is_infinite());
        }
    }
}

fn value(samples: &[Sample], name: &str, wanted: &[(&str, &str)]) -> f64 {
    let wanted: BTreeMap<_, _> = wanted.iter().map(|(a, b)| ((*a).to_owned(), (*b).to_owned())).collect();
    samples
        .iter()
        .find(|(is, labels, _)| is == name && *labels == wanted)
        .unwrap()
        .2
}

#[test]
fn as_prometheus_wants_it() {
    let samples = check(&prometheus(&board(), 1.5));
    let of = |name: &str, labels: &[(&str, &str)]| value(&samples, name, labels);
    let read = [("guest", "1"), ("kind", "read")];
    assert_eq!(of("nvmed_host_uptime_seconds", &[]), 1.5);
    assert_eq!(of("nvmed_host_commands_total", &read), 6.0);
    assert_eq!(of("nvmed_host_command_errors_total", &read), 1.0);
    assert_eq!(of("nvmed_host_command_bytes_total", &read), 5.0 * 4096.0);
    assert_eq!(of("nvmed_host_command_seconds_count", &read), 6.0);
    assert!((of("nvmed_host_command_seconds_sum", &read) - 200.000_141).abs() < 1e-9);
    for (most, count) in [
        ("0.000001024", 1.0),
        ("0.000008192", 1.0),
        ("0.000016384", 3.0),
        ("0.000131072", 5.0),
        ("+Inf", 6.0),
    ] {
        let labels = [read[0], read[1], ("le", most)];
        assert_eq!(of("nvmed_host_command_seconds_bucket", &labels), count, "{most}");
    }
    assert_eq!(of("nvmed_host_interrupts_total", &[("guest", "1")]), 5.0);
    assert_eq!(of("nvmed_host_in_flight_commands", &[("guest", "1")]), 2.0);
    assert_eq!(of("nvmed_host_drive_state", &[("state", "good")]), 1.0);
    assert_eq!(of("nvmed_host_drive_state", &[("state", "failed")]), 0.0);
    assert_eq!(
        of("nvmed_host_guest_state", &[("guest", "0"), ("state", "waiting")]),
        1.0
    );
    assert_eq!(of("nvmed_host_lane_commands_total", &[("lane", "0")]), 8.0);
}

#[test]
#[should_panic(expected = "twice")]
fn a_sample_that_is_there_twice_is_found() {
    check("# HELP a b\n# TYPE a gauge\na 1\na 2\n");
}

#[test]
#[should_panic(expected = "le")]
fn buckets_that_are_not_cumulative_are_found() {
    let buckets = "a_bucket{x=\"le\",le=\"1\"} 2\na_bucket{x=\"le\",le=\"2\"} 1\n";
    check(&format!("# HELP a b\n# TYPE a histogram\n{buckets}"));
}

/// The largest reply is bounded, whatever was counted.
#[test]
fn the_largest_figures() {
    let board = Board::new(8, 16).unwrap();
    for guest in &board.guests {
        for opcode in [0, 1, 2, 5, 8, 9, 4] {
            for shift in 0..64 {
                for part in 4..8 {
                    let time = Duration::from_nanos((part << shift) >> 2);
                    guest
                        .figures
                        .note(Command::of(&entry(opcode, 0xffff)), false, Some(time));
                }
            }
        }
    }
    let json = json(&board, 1.0).to_string();
    let text = prometheus(&board, 1.0);
    check(&text);
    let text = Value::from(text).to_string();
    println!("{} bytes of JSON, {} of text", json.len(), text.len());
    assert!(json.len() < 256 << 10 && text.len() < 512 << 10);
}
