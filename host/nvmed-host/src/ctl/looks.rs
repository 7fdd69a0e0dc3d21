//! Figures as tables: all since the program's begin, or what came between two looks.

use std::collections::BTreeMap;

use serde_json::Value;

use super::tables::{list, number, shown, table, text, Cell};

/// Kinds that are neither reads nor writes.
const OTHERS: [&str; 5] = ["flush", "compare", "write_zeroes", "dataset_management", "other"];
const GROUPS: [&str; 3] = ["read", "write", "other"];

/// Two looks at a guest: what came between them.
struct Between<'a> {
    now: &'a Value,
    before: &'a Value,
}

impl Between<'_> {
    fn of(&self, at: impl Fn(&Value) -> &Value) -> u64 {
        let [now, before] = [self.now, self.before].map(|look| at(look).as_u64().unwrap_or(0));
        // another program may have begun on the socket
        now.saturating_sub(before)
    }

    fn kind(&self, kind: &str, field: &str) -> u64 {
        self.of(|look| &look["kinds"][kind][field])
    }

    fn others(&self, field: &str) -> u64 {
        OTHERS.iter().map(|kind| self.kind(kind, field)).sum()
    }

    fn errors(&self) -> u64 {
        self.kind("read", "errors") + self.kind("write", "errors") + self.others("errors")
    }

    /// How many times each bucket got, by its longest time.
    fn times(&self, group: &str) -> BTreeMap<u64, u64> {
        let mut counts = BTreeMap::new();
        let buckets = |look: &Value| list(&look["latency"][group]["buckets"]).to_vec();
        for bucket in buckets(self.now) {
            *counts.entry(bucket[0].as_u64().unwrap_or(u64::MAX)).or_insert(0) += bucket[1].as_u64().unwrap_or(0);
        }
        for bucket in buckets(self.before) {
            let count = counts.entry(bucket[0].as_u64().unwrap_or(u64::MAX)).or_insert(0);
            *count = count.saturating_sub(bucket[1].as_u64().unwrap_or(0));
        }
        counts
    }
}

/// The time that so many of a thousand are not longer than, as far as buckets tell: a dash where there are none.
fn within(times: &BTreeMap<u64, u64>, of_thousand: u64) -> Cell {
    let all: u64 = times.values().sum();
    let wanted = (all * of_thousand).div_ceil(1000).max(1);
    let mut count = 0;
    let end = times.iter().find(|(_, &more)| {
        count += more;
        count >= wanted
    });
    shown(end.map_or_else(|| String::from("-"), |(&nanos, _)| time(nanos)))
}

/// Nanoseconds, to three digits or so.
pub(super) fn time(nanos: u64) -> String {
    match nanos {
        u64::MAX => String::from("longer"),
        0..100_000 => format!("{:.1}us", nanos as f64 / 1e3),
        100_000..1_000_000 => format!("{:.0}us", nanos as f64 / 1e3),
        1_000_000..100_000_000 => format!("{:.1}ms", nanos as f64 / 1e6),
        100_000_000..1_000_000_000 => format!("{:.0}ms", nanos as f64 / 1e6),
        _ => format!("{:.1}s", nanos as f64 / 1e9),
    }
}

fn plain(count: u64) -> Cell {
    shown(count.to_string())
}

/// All that was counted since the program's begin.
pub(super) fn totals(figures: &Value) -> String {
    let mut counts = Vec::new();
    let mut times = Vec::new();
    for guest in list(&figures["guests"]) {
        let all = Between {
            now: guest,
            before: &Value::Null,
        };
        counts.push(vec![
            number(&guest["guest"]),
            plain(all.kind("read", "commands")),
            plain(all.kind("read", "bytes")),
            plain(all.kind("write", "commands")),
            plain(all.kind("write", "bytes")),
            plain(all.others("commands")),
            plain(all.errors()),
            number(&guest["interrupts"]),
        ]);
        for group in GROUPS {
            let buckets = all.times(group);
            let count: u64 = buckets.values().sum();
            let sum = guest["latency"][group]["sum"].as_u64().unwrap_or(0);
            let Some(mean) = sum.checked_div(count) else { continue };
            times.push(vec![
                number(&guest["guest"]),
                text(&group.into()),
                plain(count),
                shown(time(mean)),
                within(&buckets, 500),
                within(&buckets, 990),
                within(&buckets, 999),
                within(&buckets, 1000),
            ]);
        }
    }
    let heads = [
        "guest",
        "reads",
        "bytes",
        "writes",
        "bytes",
        "others",
        "errors",
        "interrupts",
    ];
    let mut out = table(&heads, &counts);
    out.push('\n');
    let heads = ["guest", "kind", "commands", "mean", "50%", "99%", "99.9%", "longest"];
    out += &table(&heads, &times);
    out
}

/// What came between two looks, of each second.
pub(super) fn rates(now: &Value, before: &Value) -> String {
    let seconds = now["seconds"].as_f64().unwrap_or(0.0) - before["seconds"].as_f64().unwrap_or(0.0);
    let each = |count: u64| shown(format!("{:.0}", count as f64 / seconds.max(1e-3)));
    let mib = |bytes: u64| shown(format!("{:.1}", bytes as f64 / seconds.max(1e-3) / 1_048_576.0));
    let rows = list(&now["guests"])
        .iter()
        .zip(list(&before["guests"]))
        .map(|(now, before)| {
            let between = Between { now, before };
            let [reads, writes] = ["read", "write"].map(|group| between.times(group));
            vec![
                number(&now["guest"]),
                text(&now["state"]),
                number(&now["in_flight"]),
                each(between.kind("read", "commands")),
                mib(between.kind("read", "bytes")),
                within(&reads, 500),
                within(&reads, 990),
                each(between.kind("write", "commands")),
                mib(between.kind("write", "bytes")),
                within(&writes, 500),
                within(&writes, 990),
                each(between.others("commands")),
                each(between.errors()),
                each(between.of(|look| &look["interrupts"])),
            ]
        });
    let heads = [
        "guest",
        "state",
        "in flight",
        "reads/s",
        "MiB/s",
        "50%",
        "99%",
        "writes/s",
        "MiB/s",
        "50%",
        "99%",
        "others/s",
        "errors/s",
        "interrupts/s",
    ];
    let drive = now["drive"]["state"].as_str().unwrap_or("-");
    format!("drive {drive}\n{}", table(&heads, &rows.collect::<Vec<_>>()))
}
