#![forbid(unsafe_code)]
//! What can be seen only once all lines were read. What is wrong is the line of the guest or extent (of what is missing, the last one) and a text.

use std::time::Duration;

use super::lines::{Draft, GuestDraft, Said};
use super::{
    Config, Connection, ControlConfig, Doorbells, DriveConfig, GuestConfig, GuestLines, Interrupts, BLOCK, TAGS,
};
use crate::machine::{Machine, QEMU_MEMORY_STEP};
use crate::process;

type Fault = (u32, String);

/// Descriptors of a scatter gather list, where no line says it.
const DESCRIPTORS: u32 = 1024;

/// What the version register says, where no line says it: 1.2. From 1.3 on Linux wants what the mediator doesn't have, such as a namespace's list of
/// identifiers, and leaves the namespace out.
const VERSION: u32 = 0x1_0200;

/// How long the program goes on without a pause, where no line says it.
const SPIN: Duration = Duration::from_micros(100);

/// Makes a configuration of what was said up to the last line.
pub(super) fn finish(draft: Draft, last: u32) -> Result<Config, Fault> {
    let Some(drive) = draft.drive else {
        return Err((last, String::from("the configuration ends without a line 'drive'")));
    };
    if draft.guests.is_empty() {
        return Err((last, String::from("the configuration ends without a line 'guest'")));
    }
    let mut guests = Vec::new();
    for (number, guest) in draft.guests.into_iter().enumerate() {
        guests.push(finish_guest(number, guest, &drive.value)?);
    }
    shares_fit(&guests)?;
    Ok(Config {
        drive: drive.value,
        drive_line: drive.line,
        lanes: draft.lanes.unwrap_or(1),
        spin: draft.spin.unwrap_or(SPIN),
        control: draft.control.map(|said| ControlConfig {
            path: said.value,
            line: said.line,
        }),
        guests,
    })
}

fn finish_guest(number: usize, guest: GuestDraft, drive: &DriveConfig) -> Result<GuestConfig, Fault> {
    let fault = |what: String| Err((guest.line, what));
    if guest.extents.is_empty() {
        return fault(format!("guest {number} has no line 'extent'"));
    }
    if matches!(drive, DriveConfig::Qemu { .. }) && guest.file.is_none() {
        return fault(format!(
            "guest {number} needs a file of memory, which the drive's QEMU maps, too"
        ));
    }
    let (connection, line) = match (guest.listen, guest.start) {
        (Some(listen), None) => (Connection::Listen(listen.value), listen.line),
        (None, Some(start)) => (Connection::Start(start.value), start.line),
        _ => return fault(format!("guest {number} has no line 'listen' or 'start'")),
    };
    if let (Connection::Start(_), Some(user)) = (&connection, &guest.user) {
        let what = format!("guest {number} is started here, as this program's user, and has no line 'user'");
        return Err((user.line, what));
    }
    if matches!(
        (drive, &connection, &guest.file),
        (DriveConfig::Vfio { .. }, Connection::Listen(_), None)
    ) {
        return fault(format!(
            "guest {number} needs a file of memory, which the drive is given before a client comes"
        ));
    }
    if let DriveConfig::Ram { bytes, .. } = drive {
        let blocks = bytes / BLOCK;
        if let Some(beyond) = guest.extents.iter().find(|e| e.end() > blocks) {
            return Err((
                beyond.line,
                format!("the extent of guest {number} ends beyond the drive's {blocks} blocks"),
            ));
        }
    }
    let interrupts = guest.interrupts.unwrap_or_default();
    Ok(GuestConfig {
        memory: guest.memory,
        file: guest.file,
        machine: machine_of(number, guest.machine, guest.memory, &connection, line)?,
        trust: guest.trust,
        extents: guest.extents,
        share: guest.share.as_ref().map(|share| share.value),
        limit: guest.limit,
        descriptors: guest.descriptors.unwrap_or(DESCRIPTORS),
        version: guest.version.unwrap_or(VERSION),
        doorbells: doorbells_of(number, guest.doorbells, interrupts)?,
        interrupts,
        lines: GuestLines {
            guest: guest.line,
            share: guest.share.map_or(guest.line, |share| share.line),
            connection: line,
            user: guest.user.as_ref().map_or(line, |user| user.line),
        },
        connection,
        user: guest.user.map(|user| user.value),
    })
}

/// The machine of a guest. Where its QEMU is started, its words may name the type, too.
fn machine_of(
    number: usize,
    said: Option<Said<Machine>>,
    memory: u64,
    connection: &Connection,
    line: u32,
) -> Result<Machine, Fault> {
    let Connection::Start(words) = connection else {
        return Ok(said.map_or_else(Machine::default, |said| said.value));
    };
    if memory % QEMU_MEMORY_STEP != 0 {
        return Err((
            line,
            format!("QEMU needs a memory of guest {number} that is a multiple of {QEMU_MEMORY_STEP} bytes"),
        ));
    }
    let Some(name) = process::machine_type(words) else {
        return Ok(said.map_or_else(Machine::default, |said| said.value));
    };
    match (Machine::of_name(&name), said) {
        (None, _) => {
            let what = "its machine is none of q35 and pc, of which it is known where they have their memory";
            Err((line, format!("guest {number}: {what}: {name}")))
        }
        (Some(named), Some(said)) if named != said.value => {
            let what = format!(
                "the machine of guest {number} is {}, and its QEMU is started as {name}",
                said.value
            );
            Err((said.line, what))
        }
        (Some(named), _) => Ok(named),
    }
}

/// A client takes the page away at each interrupt by the pin, and messages could overtake what was stored there.
fn doorbells_of(number: usize, said: Option<Said<Doorbells>>, interrupts: Interrupts) -> Result<Doorbells, Fault> {
    match (said, interrupts) {
        (
            Some(Said {
                value: Doorbells::Page,
                line,
            }),
            Interrupts::Pin,
        ) => {
            let what = "rings by a page, which goes with 'interrupts messages' alone";
            Err((
                line,
                format!("guest {number} {what}: say 'doorbells {number} messages'"),
            ))
        }
        (Some(said), _) => Ok(said.value),
        (None, Interrupts::Pin) => Ok(Doorbells::Messages),
        (None, Interrupts::Messages) => Ok(Doorbells::default()),
    }
}

/// A command may need a tag for each extent of its guest, and a lane has 64 tags.
fn shares_fit(guests: &[GuestConfig]) -> Result<(), Fault> {
    let mut all = 0;
    for (number, guest) in guests.iter().enumerate() {
        let needed = guest.extents.len() as u32;
        let share = guest.share.unwrap_or(needed);
        if share < needed {
            let what =
                format!("the share of guest {number} is less than the {needed} tags that a command of it may need");
            return Err((guest.lines.share, what));
        }
        all += share;
        if all > TAGS {
            let what = format!("the guests up to {number} have shares of {all} tags, and a lane has {TAGS}");
            return Err((guest.lines.share, what));
        }
    }
    Ok(())
}
