//! Figures as JSON.

use serde_json::{json, Map, Value};

use super::{Group, GuestFigures, Kind, Times};
use crate::board::Board;

fn kinds(figures: &GuestFigures) -> Value {
    let kinds = Kind::ALL.iter().map(|&kind| {
        let counts = figures.of(kind);
        let value = json!({
            "commands": counts.commands.get(),
            "errors": counts.errors.get(),
            "bytes": counts.bytes.get(),
        });
        (kind.name().to_owned(), value)
    });
    Value::Object(kinds.collect::<Map<_, _>>())
}

/// The last bucket, which has no longest time, has null in its place.
fn times(times: &Times) -> Value {
    json!({ "count": times.count(), "sum": times.nanos, "buckets": times.buckets })
}

fn latencies(figures: &GuestFigures) -> Value {
    let groups = Group::ALL.iter().map(|&group| {
        let shown = times(&figures.times(group).read());
        (group.name().to_owned(), shown)
    });
    Value::Object(groups.collect::<Map<_, _>>())
}

/// All figures of a board, so many seconds after the program's begin.
#[must_use]
pub fn json(board: &Board, seconds: f64) -> Value {
    let guests = board.guests.iter().enumerate().map(|(guest, shown)| {
        json!({
            "guest": guest,
            "state": shown.state().name(),
            "in_flight": shown.flying(),
            "interrupts": shown.figures.interrupts.get(),
            "kinds": kinds(&shown.figures),
            "latency": latencies(&shown.figures),
        })
    });
    let lanes =
        board.lanes.iter().enumerate().map(
            |(lane, shown)| json!({ "lane": lane, "in_flight": shown.flying(), "commands": shown.commands.get() }),
        );
    json!({
        "seconds": seconds,
        "drive": { "state": board.drive.state().name() },
        "lanes": lanes.collect::<Vec<_>>(),
        "guests": guests.collect::<Vec<_>>(),
    })
}
