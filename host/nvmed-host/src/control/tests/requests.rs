//! Lines that are requests, and lines that are not.

use std::time::Duration;

use crate::control::request::{Format, Request, MOST_LINE};

fn said(line: &str) -> String {
    match Request::parse(line.as_bytes()) {
        Ok(request) => panic!("{line:?} is {request:?}"),
        Err(error) => error.to_string(),
    }
}

#[test]
fn each_request() {
    let wait = |seconds| Request::Drain {
        wait: Duration::from_secs(seconds),
    };
    for (line, request) in [
        (r#"{"version":1,"request":"state"}"#, Request::State),
        (" {\"request\" : \"state\", \"version\" : 1} \r", Request::State),
        (r#"{"version":1,"request":"figures"}"#, Request::Figures(Format::Json)),
        (
            r#"{"version":1,"request":"figures","format":"json"}"#,
            Request::Figures(Format::Json),
        ),
        (
            r#"{"version":1,"request":"figures","format":"prometheus"}"#,
            Request::Figures(Format::Prometheus),
        ),
        (
            r#"{"version":1,"request":"limit","guest":15,"iops":1,"bytes":null}"#,
            Request::Limit {
                guest: 15,
                iops: Some(Some(1)),
                bytes: Some(None),
            },
        ),
        (
            r#"{"version":1,"request":"limit","guest":0,"bytes":131072}"#,
            Request::Limit {
                guest: 0,
                iops: None,
                bytes: Some(Some(131_072)),
            },
        ),
        (r#"{"version":1,"request":"drain"}"#, wait(30)),
        (r#"{"version":1,"request":"drain","wait":0}"#, wait(0)),
        (r#"{"version":1,"request":"drain","wait":600}"#, wait(600)),
        (r#"{"version":1,"request":"resume"}"#, Request::Resume),
        (r#"{"version":1,"request":"end"}"#, Request::End),
        // the last one counts
        (
            r#"{"version":2,"version":1,"request":"end","request":"state"}"#,
            Request::State,
        ),
    ] {
        assert_eq!(Request::parse(line.as_bytes()), Ok(request), "{line}");
    }
}

#[test]
fn what_is_wrong_is_said() {
    for (line, words) in [
        ("", "the line is no JSON, from its column 0 on"),
        ("{\"version\":1,", "the line is no JSON, from its column 13 on"),
        ("\u{0}", "the line is no JSON, from its column 1 on"),
        (
            "[1]",
            "the line is no object: a request is like {\"version\":1,\"request\":\"state\"}",
        ),
        ("{}", "the field \"version\" is missing"),
        (r#"{"version":1}"#, "the field \"request\" is missing"),
        (
            r#"{"version":2,"request":"state"}"#,
            "the version is 2, and this program speaks version 1",
        ),
        (
            r#"{"version":1.0,"request":"state"}"#,
            "the field \"version\" is no whole number from 0 to 18446744073709551615",
        ),
        (
            r#"{"version":"1","request":"state"}"#,
            "the field \"version\" is no whole number from 0 to 18446744073709551615",
        ),
        (r#"{"version":1,"request":7}"#, "the field \"request\" is no string"),
        (r#"{"version":1,"request":null}"#, "the field \"request\" is no string"),
        (
            r#"{"version":1,"request":"drain","wait":601}"#,
            "the field \"wait\" is no whole number from 0 to 600",
        ),
        (
            r#"{"version":1,"request":"drain","wait":-1}"#,
            "the field \"wait\" is no whole number from 0 to 600",
        ),
        (
            r#"{"version":1,"request":"drain","wait":null}"#,
            "the field \"wait\" is no whole number from 0 to 600",
        ),
        (
            r#"{"version":1,"request":"state","guest":0}"#,
            "the request \"state\" has no field \"guest\"",
        ),
        (
            r#"{"version":1,"request":"end","wait":1}"#,
            "the request \"end\" has no field \"wait\"",
        ),
    ] {
        assert_eq!(said(line), words, "{line}");
    }
    for (fields, words) in [
        ("", "the field \"guest\" is missing"),
        (",\"guest\":16", "the field \"guest\" is no whole number from 0 to 15"),
        (
            ",\"guest\":0,\"iops\":0",
            "the field \"iops\" is no whole number from 1 to 10000000, and not null",
        ),
        (
            ",\"guest\":0,\"iops\":\"7\"",
            "the field \"iops\" is no whole number from 1 to 10000000, and not null",
        ),
        (
            ",\"guest\":0,\"bytes\":131071",
            "the field \"bytes\" is no whole number from 131072 to 1099511627776, and not null",
        ),
    ] {
        assert_eq!(said(&format!("{{\"version\":1,\"request\":\"limit\"{fields}}}")), words);
    }
    let format = "the field \"format\" is no name of a format: there are \"json\" and \"prometheus\"";
    assert_eq!(said(r#"{"version":1,"request":"figures","format":"text"}"#), format);
    assert!(said(r#"{"version":1,"request":"stat"}"#).starts_with("there is no request \"stat\": there are state, "));
    let long = "x".repeat(100);
    let unknown = said(&format!(r#"{{"version":1,"request":"{long}"}}"#));
    assert!(unknown.contains(&format!("\"{}\"", "x".repeat(40))), "{unknown}");
    let field = said(&format!(r#"{{"version":1,"request":"end","{long}":1}}"#));
    assert!(field.ends_with(&format!("\"{}\"", "x".repeat(40))), "{field}");
}

#[test]
fn the_limit_of_a_line() {
    let line = r#"{"version":1,"request":"state"}"#;
    let filled = |bytes: usize| format!("{line}{}", " ".repeat(bytes - line.len()));
    assert_eq!(Request::parse(filled(MOST_LINE).as_bytes()), Ok(Request::State));
    assert_eq!(
        said(&filled(MOST_LINE + 1)),
        "the line is longer than 4096 bytes: a request is one object in one line"
    );
    // what is nested is no request, however deep it is
    let deep = "[".repeat(MOST_LINE);
    assert!(said(&deep).starts_with("the line is no JSON"));
}
