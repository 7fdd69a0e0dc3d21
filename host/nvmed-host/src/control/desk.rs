//! What a request is answered from: what the program's threads show, and what of the configuration stays as it is.

#![forbid(unsafe_code)]

use std::sync::Arc;
use std::time::{Duration, Instant};

use serde_json::{json, Value};

use super::request::{Format, Request, RequestError, VERSION};
use crate::board::{Board, LaneBoard, Phase};
use crate::config::{Config, Connection, DriveConfig};
use crate::figures::{json as figures, prometheus};
use crate::mediation::limits::Limit;
use crate::mediation::orders::Orders;
use crate::mediation::Stop;

/// What is known of a guest before it begins.
#[derive(Clone, Debug)]
struct GuestFacts {
    memory: u64,
    blocks: u64,
    share: u32,
    comes: &'static str,
}

/// What does not change while the program runs.
#[derive(Clone, Debug)]
pub struct Facts {
    began: Instant,
    drive: &'static str,
    blocks: u64,
    guests: Vec<GuestFacts>,
}

impl Facts {
    /// Those of a program that begins now.
    #[must_use]
    pub fn of(config: &Config) -> Self {
        let guests = config.guests.iter().zip(config.shares());
        Self {
            began: Instant::now(),
            drive: match config.drive {
                DriveConfig::Ram { .. } => "ram",
                DriveConfig::File { .. } => "file",
                DriveConfig::Nvme { .. } => "nvme",
                DriveConfig::Qemu { .. } => "qemu",
                DriveConfig::Vfio { .. } => "vfio",
            },
            blocks: config.blocks(),
            guests: guests
                .map(|(guest, share)| GuestFacts {
                    memory: guest.memory,
                    blocks: guest.blocks(),
                    share,
                    comes: match guest.connection {
                        Connection::Listen(_) => "listen",
                        Connection::Start(_) => "start",
                    },
                })
                .collect(),
        }
    }
}

/// How a request is answered.
#[derive(Debug)]
pub enum Answer {
    /// By this line, now.
    Now(String),
    /// By [`Desk::drained`], once commands have run out, but not later than then.
    Drain(Instant),
    /// By this line, and then the program is asked to end.
    End(String),
}

/// Where requests are answered. It waits for nobody.
#[derive(Debug)]
pub struct Desk {
    facts: Facts,
    board: Arc<Board>,
    orders: Arc<Orders>,
    end: Stop,
}

/// A reply: one object with the version, and this field.
fn reply(field: &str, value: Value) -> String {
    json!({ "version": VERSION, field: value }).to_string()
}

/// The reply to what is no request.
#[must_use]
pub fn refusal(error: &RequestError) -> String {
    reply("error", Value::from(error.to_string()))
}

/// The reply to a client for which there is no place.
#[must_use]
pub fn full(most: usize) -> String {
    let words = format!("{most} clients are connected, which is the most: close one of them, or try again in a minute");
    reply("error", Value::from(words))
}

/// Limits, null where there is none.
fn limit(Limit { iops, bytes }: Limit) -> Value {
    json!({ "iops": iops, "bytes": bytes })
}

/// Whole seconds of a time.
fn seconds(time: Duration) -> u64 {
    time.as_secs()
}

impl Desk {
    /// A desk over what is shown on `board`, which gives `orders` to the mediator's thread and asks the program to `end`.
    #[must_use]
    pub fn new(facts: Facts, board: Arc<Board>, orders: Arc<Orders>, end: Stop) -> Self {
        Self {
            facts,
            board,
            orders,
            end,
        }
    }

    /// What is shown.
    #[must_use]
    pub fn board(&self) -> &Board {
        &self.board
    }

    /// Answers a request, or begins to.
    #[must_use]
    pub fn answer(&self, request: Request, now: Instant) -> Answer {
        match request {
            Request::State => Answer::Now(reply("state", self.state(now))),
            Request::Figures(format) => {
                let since = now.saturating_duration_since(self.facts.began).as_secs_f64();
                Answer::Now(reply(
                    "figures",
                    match format {
                        Format::Json => figures(&self.board, since),
                        Format::Prometheus => json!({ "text": prometheus(&self.board, since) }),
                    },
                ))
            }
            Request::Limit { guest, .. } if guest >= self.facts.guests.len() => {
                let words = format!("there is no guest {guest}: there are {}", self.facts.guests.len());
                Answer::Now(reply("error", Value::from(words)))
            }
            Request::Limit { guest, iops, bytes } => {
                let before = self.orders.limit(guest);
                let limit = Limit {
                    iops: iops.unwrap_or(before.iops),
                    bytes: bytes.unwrap_or(before.bytes),
                };
                self.orders.set_limit(guest, limit);
                let Limit { iops, bytes } = limit;
                Answer::Now(reply("limit", json!({ "guest": guest, "iops": iops, "bytes": bytes })))
            }
            Request::Drain { wait } => {
                self.orders.drain(true);
                Answer::Drain(now + wait)
            }
            Request::Resume => {
                self.orders.drain(false);
                Answer::Now(reply("resume", json!({})))
            }
            Request::End => Answer::End(reply("end", json!({}))),
        }
    }

    /// The reply to a drain, where there is one: commands have run out, or are taken again, or it was waited for long enough.
    #[must_use]
    pub fn drained(&self, until: Instant, now: Instant) -> Option<String> {
        // what was shown before the mediator's thread has heeded the request says nothing
        let drained = self.board.phase_after(self.orders.changes()) == Some(Phase::Drained);
        let given_up = !self.orders.is_draining() || now >= until;
        let under_way: u32 = self.board.lanes.iter().map(LaneBoard::flying).sum();
        (drained || given_up).then(|| reply("drain", json!({ "drained": drained, "in_flight": under_way })))
    }

    /// Asks the program to end.
    pub fn end(&self) {
        self.end.ask();
    }

    fn state(&self, now: Instant) -> Value {
        let Facts {
            began,
            drive,
            blocks,
            ref guests,
        } = self.facts;
        let guests = guests.iter().zip(&self.board.guests).enumerate();
        let lanes = self.board.lanes.iter().enumerate();
        json!({
            "program": env!("CARGO_PKG_VERSION"),
            "library": nvmed::Version::of_library().to_string(),
            "proved": nvmed::LIBRARY.warning().is_none(),
            "seconds": seconds(now.saturating_duration_since(began)),
            "phase": self.board.phase().name(),
            "drive": {
                "kind": drive,
                "state": self.board.drive.state().name(),
                "about": self.board.drive.words(),
                "blocks": blocks,
            },
            "lanes": lanes.map(|(lane, shown)| json!({
                "lane": lane,
                "in_flight": shown.flying(),
                "closed": shown.is_closed(),
            })).collect::<Vec<_>>(),
            "guests": guests.map(|(guest, (facts, shown))| json!({
                "guest": guest,
                "state": shown.state().name(),
                "comes": facts.comes,
                "memory": facts.memory,
                "blocks": facts.blocks,
                "share": facts.share,
                "in_flight": shown.flying(),
                "limit": limit(self.orders.limit(guest)),
            })).collect::<Vec<_>>(),
        })
    }
}
