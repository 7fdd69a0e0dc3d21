//! Replies as tables. What a reply lacks is a dash: another version of the program may have sent it.

use std::fmt::Write;

use serde_json::Value;

/// A cell: what stands there, and whether it is a number.
#[derive(Clone, Debug)]
pub(super) struct Cell {
    text: String,
    number: bool,
}

/// A text of a reply.
pub(super) fn text(value: &Value) -> Cell {
    Cell {
        text: value.as_str().map_or_else(|| String::from("-"), String::from),
        number: false,
    }
}

/// A number of a reply.
pub(super) fn number(value: &Value) -> Cell {
    shown(
        value
            .as_u64()
            .map_or_else(|| String::from("-"), |number| number.to_string()),
    )
}

/// A number that is shown in another way.
pub(super) fn shown(text: String) -> Cell {
    Cell { text, number: true }
}

/// Bytes by the largest power of 1,024 that they are a multiple of.
pub(super) fn size(value: &Value) -> Cell {
    let Some(bytes) = value.as_u64() else {
        return number(value);
    };
    let units = [(30, "G"), (20, "M"), (10, "K")];
    let unit = units.iter().find(|(shift, _)| bytes != 0 && bytes % (1 << shift) == 0);
    shown(unit.map_or_else(
        || bytes.to_string(),
        |(shift, name)| format!("{}{name}", bytes >> shift),
    ))
}

/// The members of a list, none where it is none.
pub(super) fn list(value: &Value) -> &[Value] {
    value.as_array().map(Vec::as_slice).unwrap_or_default()
}

/// Rows below their heads. Numbers stand at the right of their columns.
pub(super) fn table(heads: &[&str], rows: &[Vec<Cell>]) -> String {
    let mut out = String::new();
    let width = |column: usize| {
        let cells = rows.iter().filter_map(|row| row.get(column));
        let longest = cells.map(|cell| cell.text.chars().count()).max().unwrap_or(0);
        longest.max(heads.get(column).map_or(0, |head| head.len()))
    };
    let widths: Vec<usize> = (0..heads.len()).map(width).collect();
    let right = |column: usize| rows.iter().filter_map(|row| row.get(column)).all(|cell| cell.number);
    let mut put = |cells: &mut dyn Iterator<Item = &str>| {
        let mut line = String::new();
        for (column, (cell, &width)) in cells.zip(&widths).enumerate() {
            let gap = if column == 0 { "" } else { "  " };
            // a string takes all that is written
            let _written = if right(column) {
                write!(line, "{gap}{cell:>width$}")
            } else {
                write!(line, "{gap}{cell:<width$}")
            };
        }
        out.push_str(line.trim_end());
        out.push('\n');
    };
    put(&mut heads.iter().copied());
    for row in rows {
        put(&mut row.iter().map(|cell| cell.text.as_str()));
    }
    out
}

/// The reply to `limit`.
pub(super) fn limit(limit: &Value) -> String {
    let rate = |cell: Cell, unit: &str| match cell.text.as_str() {
        "-" => format!("as many {unit} as it likes"),
        rate => format!("{rate} {unit} a second"),
    };
    format!(
        "guest {}: {}, {}\n",
        number(&limit["guest"]).text,
        rate(number(&limit["iops"]), "commands"),
        rate(size(&limit["bytes"]), "bytes")
    )
}

/// The reply to `state`.
pub(super) fn state(state: &Value) -> String {
    let word = |value: &Value| text(value).text;
    let drive = &state["drive"];
    let proved = match state["proved"].as_bool() {
        Some(true) => "proved",
        _ => "not proved",
    };
    let mut out = format!(
        "nvmed-host {}, over library {}, {proved}; for {} seconds; {}\n",
        word(&state["program"]),
        word(&state["library"]),
        number(&state["seconds"]).text,
        word(&state["phase"]),
    );
    let about = drive["about"]
        .as_str()
        .map(|about| format!(": {about}"))
        .unwrap_or_default();
    out += &format!("drive {}: {}{about}\n\n", word(&drive["kind"]), word(&drive["state"]));
    let lanes = list(&state["lanes"]).iter().map(|lane| {
        let closed = if lane["closed"] == true { "closed" } else { "open" };
        vec![number(&lane["lane"]), text(&closed.into()), number(&lane["in_flight"])]
    });
    out += &table(&["lane", "state", "in flight"], &lanes.collect::<Vec<_>>());
    out.push('\n');
    let guests = list(&state["guests"]).iter().map(|guest| {
        vec![
            number(&guest["guest"]),
            text(&guest["state"]),
            text(&guest["comes"]),
            size(&guest["memory"]),
            number(&guest["blocks"]),
            number(&guest["share"]),
            number(&guest["in_flight"]),
            number(&guest["limit"]["iops"]),
            size(&guest["limit"]["bytes"]),
        ]
    });
    let heads = [
        "guest",
        "state",
        "client",
        "memory",
        "blocks",
        "share",
        "in flight",
        "most iops",
        "most bytes/s",
    ];
    out += &table(&heads, &guests.collect::<Vec<_>>());
    out
}
