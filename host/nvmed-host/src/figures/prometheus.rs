//! Figures in Prometheus' text exposition format, version 0.0.4. Names and units follow its rules: base units, and `_total` at the end of counters.

use std::fmt::{Display, Write};

use super::{Group, Kind};
use crate::board::{Board, DriveState, GuestBoard, GuestState};

/// Nanoseconds of a second.
const SECOND: u64 = 1_000_000_000;

/// The text as far as it is written.
struct Text(String);

impl Text {
    /// Begins a metric.
    fn metric(&mut self, name: &str, kind: &str, help: &str) {
        // a string takes all that is written
        let _written = write!(self.0, "# HELP {name} {help}\n# TYPE {name} {kind}\n");
    }

    /// A sample, with its labels as they are written between the braces.
    fn sample(&mut self, name: &str, labels: &str, value: impl Display) {
        let _written = if labels.is_empty() {
            writeln!(self.0, "{name} {value}")
        } else {
            writeln!(self.0, "{name}{{{labels}}} {value}")
        };
    }

    /// A metric with a sample of each guest.
    fn of_guests(&mut self, board: &Board, name: &str, kind: &str, help: &str, value: fn(&GuestBoard) -> u64) {
        self.metric(name, kind, help);
        for (guest, shown) in board.guests.iter().enumerate() {
            self.sample(name, &format!("guest=\"{guest}\""), value(shown));
        }
    }

    /// A counter with a sample of each guest and kind of command.
    fn of_kinds(&mut self, board: &Board, name: &str, help: &str, value: fn(&super::KindFigures) -> u64) {
        self.metric(name, "counter", help);
        for (guest, shown) in board.guests.iter().enumerate() {
            for kind in Kind::ALL {
                let labels = format!("guest=\"{guest}\",kind=\"{}\"", kind.name());
                self.sample(name, &labels, value(shown.figures.of(kind)));
            }
        }
    }

    fn latencies(&mut self, board: &Board) {
        let name = "nvmed_host_command_seconds";
        let help = "Time from the taking of a guest's command to the reading of its completion.";
        self.metric(name, "histogram", help);
        for (guest, shown) in board.guests.iter().enumerate() {
            for group in Group::ALL {
                let times = shown.figures.times(group).read();
                let labels = format!("guest=\"{guest}\",kind=\"{}\"", group.name());
                for (most, count) in times.powers() {
                    let labels = format!("{labels},le=\"{}\"", seconds(most));
                    self.sample(&format!("{name}_bucket"), &labels, count);
                }
                let all = times.count();
                self.sample(&format!("{name}_bucket"), &format!("{labels},le=\"+Inf\""), all);
                self.sample(&format!("{name}_sum"), &labels, seconds(times.nanos));
                self.sample(&format!("{name}_count"), &labels, all);
            }
        }
    }
}

/// Nanoseconds as seconds, exactly.
fn seconds(nanos: u64) -> String {
    format!("{}.{:09}", nanos / SECOND, nanos % SECOND)
}

/// All figures of a board, so many seconds after the program's begin.
#[must_use]
pub fn prometheus(board: &Board, since: f64) -> String {
    let mut text = Text(String::new());
    text.metric("nvmed_host_info", "gauge", "The program and its library.");
    let labels = format!(
        "program=\"{}\",library=\"{}\",proved=\"{}\"",
        env!("CARGO_PKG_VERSION"),
        nvmed::Version::of_library(),
        nvmed::LIBRARY.warning().is_none()
    );
    text.sample("nvmed_host_info", &labels, 1);
    text.metric("nvmed_host_uptime_seconds", "gauge", "Time since the program's begin.");
    text.sample("nvmed_host_uptime_seconds", "", format_args!("{since:.3}"));
    let name = "nvmed_host_drive_state";
    text.metric(name, "gauge", "1 of the state in which the drive is, 0 of the others.");
    for state in DriveState::ALL {
        let is = u8::from(board.drive.state() == state);
        text.sample(name, &format!("state=\"{}\"", state.name()), is);
    }
    let name = "nvmed_host_guest_state";
    text.metric(name, "gauge", "1 of the state in which the guest is, 0 of the others.");
    for (guest, shown) in board.guests.iter().enumerate() {
        let is = shown.state();
        for state in GuestState::ALL {
            let labels = format!("guest=\"{guest}\",state=\"{}\"", state.name());
            text.sample(name, &labels, u8::from(is == state));
        }
    }
    let name = "nvmed_host_lane_in_flight_commands";
    text.metric(name, "gauge", "Commands of the lane that the drive has.");
    for (lane, shown) in board.lanes.iter().enumerate() {
        text.sample(name, &format!("lane=\"{lane}\""), shown.flying());
    }
    let name = "nvmed_host_lane_commands_total";
    text.metric(name, "counter", "Commands of the lane that the drive has answered.");
    for (lane, shown) in board.lanes.iter().enumerate() {
        text.sample(name, &format!("lane=\"{lane}\""), shown.commands.get());
    }
    let help = "Commands of the guest that the drive has.";
    text.of_guests(board, "nvmed_host_in_flight_commands", "gauge", help, |shown| {
        shown.flying().into()
    });
    let help = "Eventfds of the guest's client that were written.";
    text.of_guests(board, "nvmed_host_interrupts_total", "counter", help, |shown| {
        shown.figures.interrupts.get()
    });
    let help = "Commands of the guest that have ended.";
    text.of_kinds(board, "nvmed_host_commands_total", help, |counts| counts.commands.get());
    let help = "Commands of the guest that the drive ended with an error.";
    text.of_kinds(board, "nvmed_host_command_errors_total", help, |counts| {
        counts.errors.get()
    });
    let help = "Bytes that the guest's commands without an error moved between the drive and memory.";
    text.of_kinds(board, "nvmed_host_command_bytes_total", help, |counts| {
        counts.bytes.get()
    });
    text.latencies(board);
    text.0
}
