//! A guest, as the mediator's thread has it: what it asks for, its doorbell page, and what it is to be told.

#![forbid(unsafe_code)]

use std::sync::Arc;
use std::time::Instant;

use super::lanes::{Lanes, Sent};
use super::limits::{Gate, Limit};
use super::mailbox::{Access, Receiver};
use super::outbox::Outbox;
use super::side::Side;
use super::Post;
use crate::board::{Board, GuestState};
use crate::doorbells::Page;
use crate::interrupts::Signals;
use crate::pci::Registers;

/// Accesses of one guest that are carried out before the next guest's.
const PIECE: u32 = 64;

// NVMe Base, "Controller Properties".
const CC: u32 = 0x14;
const CSTS: u32 = 0x1c;
const CC_ENABLE: u32 = 1;
const CSTS_READY: u32 = 1;
const CSTS_FATAL: u32 = 1 << 1;
/// The first doorbell's offset in BAR0.
const DOORBELLS: u32 = 0x1000;
/// I/O submission queues.
const QUEUES: usize = 8;
/// Events that a command needs at least: it is taken, and comes to the drive.
const OF_COMMAND: u64 = 2;

/// A guest.
pub struct Client {
    number: usize,
    mailbox: Receiver,
    outbox: Arc<Outbox>,
    signals: Arc<Signals>,
    board: Arc<Board>,
    registers: Registers,
    page: Option<Arc<Page>>,
    /// CC.EN.
    enabled: bool,
    /// CSTS.CFS.
    failed: bool,
    /// Bus Master Enable.
    master: bool,
    connected: bool,
    /// The connection is over, and its commands have not run out yet.
    ending: bool,
    /// Something of the guest may be due.
    due: bool,
    /// Something of its admin queue may be due: it is looked at by itself where nothing is taken of the others.
    admin: bool,
    /// Something may have changed of its interrupts.
    stirred: bool,
    /// More accesses wait than were carried out.
    more: bool,
    /// The last work on it was cut off, so that commands may be taken and not with the drive yet.
    cut: bool,
    /// No commands of its I/O queues are to be taken.
    draining: bool,
    /// None are taken, and those that were taken came to the drive.
    held: bool,
    limit: Limit,
    gate: Option<Gate>,
    /// Tails of the I/O submission queues that are kept back until what was rung before has been taken.
    kept: [Option<u32>; QUEUES],
    /// Commands that came to the drive since [`Client::take_sent`].
    sent: u64,
}

impl Client {
    /// Guest `number`, to which nobody is connected.
    pub fn new(number: usize, post: Post, board: Arc<Board>) -> Self {
        Self {
            number,
            mailbox: post.mailbox,
            outbox: post.outbox,
            signals: post.signals,
            board,
            registers: Registers::new(post.version),
            page: None,
            enabled: false,
            failed: false,
            master: false,
            connected: false,
            ending: false,
            due: false,
            admin: false,
            stirred: false,
            more: false,
            cut: false,
            draining: false,
            held: false,
            limit: Limit::default(),
            gate: None,
            kept: [None; QUEUES],
            sent: 0,
        }
    }

    /// Its number.
    pub fn number(&self) -> usize {
        self.number
    }

    /// What its thread is told by.
    pub fn outbox(&self) -> &Outbox {
        &self.outbox
    }

    /// Whether its doorbell page has to be looked at.
    pub fn is_looked_at(&self) -> bool {
        self.page.is_some() && self.enabled
    }

    /// Whether accesses wait.
    pub fn has_mail(&self) -> bool {
        !self.mailbox.is_empty()
    }

    /// Whether what is due of the guest may be done. Without Bus Master Enable nothing is fetched for an enabled controller. A controller that was reset fetches
    /// nothing any more, but what it had runs out.
    pub fn may_work(&self) -> bool {
        self.master || !self.enabled
    }

    /// Whether something of it may be due, and may be done.
    pub fn is_due(&self) -> bool {
        self.due && self.may_work()
    }

    /// Something of it may be due.
    fn stir(&mut self) {
        self.due = true;
        self.admin = true;
    }

    /// What is due was done, or at least a part of it, and this came to the drive. Whether doorbells that were kept back are given on now, by which more may be
    /// due at once.
    pub fn note_worked(&mut self, side: &mut dyn Side, sent: Sent, now: Instant, more: bool) -> bool {
        self.sent += sent.commands;
        if let Some(gate) = &mut self.gate {
            gate.take(now, sent.commands, sent.bytes);
        }
        self.due = more;
        self.cut = more;
        self.held |= self.draining && !more;
        !more && self.give(side)
    }

    /// One of its admin commands was done, or there was none.
    pub fn note_admin(&mut self, done: bool) {
        self.admin = done;
        if self.held {
            self.due = done;
        }
    }

    /// How many events its work may have, `most` at most: none where nothing is to be taken of its I/O queues. Its admin commands, which the mediator answers by
    /// itself, go on then. A controller that was reset takes nothing, but has to run out.
    pub fn events(&mut self, now: Instant, most: u64) -> u64 {
        if !self.enabled || self.is_finishing() {
            return most;
        }
        if self.held {
            return 0;
        }
        let Some(gate) = &mut self.gate else { return most };
        gate.room(now).saturating_mul(OF_COMMAND).min(most)
    }

    /// Whether its admin queue is to be looked at by itself.
    pub fn has_admin(&self) -> bool {
        self.admin
    }

    /// From when on something of it may be due again that its limits hold back.
    pub fn opens(&self) -> Option<Instant> {
        let gate = self.gate.filter(|_| self.is_due() && self.enabled && !self.held)?;
        gate.closed()
    }

    /// Gives it limits.
    pub fn set_limit(&mut self, side: &mut dyn Side, limit: Limit, now: Instant) {
        if limit != self.limit {
            self.limit = limit;
            self.gate = Gate::new(limit, now);
            self.give(side);
            self.stir();
        }
    }

    /// Rings a doorbell. Of a guest with limits the I/O submission queues' are kept back while commands wait that were rung before: else the first queue would
    /// have all that the limits leave.
    fn ring(&mut self, side: &mut dyn Side, offset: u32, value: u32) {
        let queue = tail_of(offset);
        if self.gate.is_some() && self.cut {
            let place = queue
                .and_then(|queue| queue.checked_sub(1))
                .and_then(|at| self.kept.get_mut(at));
            if let Some(place) = place {
                *place = Some(value);
                return;
            }
        }
        if queue == Some(0) {
            // queues are created and deleted by what comes now: they get what was rung before
            self.give(side);
        }
        side.doorbell(self.number, offset, value);
    }

    /// Gives on what was kept back. Whether there was something.
    fn give(&mut self, side: &mut dyn Side) -> bool {
        let mut any = false;
        for (place, queue) in self.kept.iter_mut().zip(1..) {
            if let Some(value) = place.take() {
                side.doorbell(self.number, DOORBELLS + 8 * queue, value);
                any = true;
            }
        }
        self.due |= any;
        any
    }

    /// No commands of it are to be taken any more, or they are to be taken again.
    pub fn set_drain(&mut self, on: bool) {
        if on != self.draining {
            self.draining = on;
            self.held = on && !self.cut;
            self.stir();
        }
    }

    /// Whether commands that were taken are still to be brought to the drive before nothing is taken any more. Their tags are at most its shares of the lanes,
    /// so that this ends where no tag becomes free meanwhile.
    pub fn is_finishing(&self) -> bool {
        self.draining && self.enabled && !self.held
    }

    /// Whether nothing of it will come to the drive as long as it is drained. Of a guest whose work was cut off, and may not go on without Bus Master Enable,
    /// something may.
    pub fn is_quiet(&self) -> bool {
        if self.enabled {
            self.held
        } else {
            !self.due
        }
    }

    /// How many commands came to the drive since this was asked last.
    pub fn take_sent(&mut self) -> u64 {
        std::mem::take(&mut self.sent)
    }

    /// Tags have become free, or a completion queue has room.
    pub fn note_room(&mut self) {
        if self.enabled || self.ending {
            self.stir();
        }
    }

    /// Carries out accesses: the doorbell page's and the mailbox's. Whether there were some.
    pub fn listen(&mut self, side: &mut dyn Side, lanes: &Lanes, busy: bool) -> bool {
        let mut any = self.enabled && self.look(side);
        self.more = false;
        for _ in 0..PIECE {
            let Some(access) = self.mailbox.take() else {
                return any;
            };
            any = true;
            self.carry_out(access, side, lanes, busy);
        }
        self.more = self.has_mail();
        any
    }

    /// Whether [`Client::listen`] left accesses.
    pub fn has_more(&self) -> bool {
        self.more
    }

    /// Takes the values of the doorbell page. Whether there were some.
    fn look(&mut self, side: &mut dyn Side) -> bool {
        let Some(page) = self.page.take() else { return false };
        let mut any = false;
        for (offset, value) in page.take() {
            any = true;
            self.ring(side, offset, value);
        }
        self.page = Some(page);
        if any {
            self.stir();
            self.stirred = true;
        }
        any
    }

    fn carry_out(&mut self, access: Access, side: &mut dyn Side, lanes: &Lanes, busy: bool) {
        match access {
            Access::Connect => self.connect(side),
            Access::Disconnect => {
                self.reset(side);
                self.page = None;
                self.master = false;
                self.connected = false;
                self.ending = true;
                self.show();
            }
            Access::Reset => self.reset(side),
            Access::Master(on) => {
                self.master = on;
                self.stir();
            }
            Access::Write { offset, value } => self.write(side, offset, value),
            Access::Doorbell { offset, value } => {
                // what the page has is older, since a client that sends messages stores nothing meanwhile
                self.look(side);
                self.ring(side, offset, value);
                self.stir();
                self.stirred = true;
            }
            Access::Read { offset } => {
                let value = self.read(side, offset, lanes, busy);
                self.mailbox.answer(value);
            }
        }
    }

    fn connect(&mut self, side: &mut dyn Side) {
        self.page = self.mailbox.page();
        self.registers.reset();
        self.master = false;
        self.connected = true;
        self.ending = false;
        // what was posted for the client before is nothing to this one
        side.posted(self.number);
        self.show();
    }

    /// Shows what it is at.
    fn show(&self) {
        let Some(guest) = self.board.guests.get(self.number) else {
            return;
        };
        guest.show_state(match self {
            Self { ending: true, .. } => GuestState::Ending,
            Self { connected: false, .. } => GuestState::Waiting,
            Self { failed: true, .. } => GuestState::Failed,
            Self { enabled: true, .. } => GuestState::Enabled,
            _ => GuestState::Connected,
        });
    }

    /// The controller is disabled. What it had runs out, and nothing is fetched any more.
    fn reset(&mut self, side: &mut dyn Side) {
        self.write(side, CC, 0);
        self.registers.reset();
    }

    /// A shutdown is complete once nothing of the guest is outstanding, neither in the mediator nor in the drive.
    fn read(&mut self, side: &mut dyn Side, offset: u32, lanes: &Lanes, busy: bool) -> u32 {
        if self.registers.is_shutting() && !(busy || self.is_due() || lanes.have(self.number)) {
            self.registers.note_idle();
        }
        self.registers.shown(offset, side.read(self.number, offset))
    }

    /// A doorbell that was rung before a write of CC is carried out before it.
    fn write(&mut self, side: &mut dyn Side, offset: u32, value: u32) {
        if offset >= DOORBELLS {
            return;
        }
        if offset == CC {
            self.look(side);
            self.give(side);
        }
        self.registers.note_write(offset, value);
        side.write(self.number, offset, value);
        if offset == CC {
            let enabled = side.read(self.number, CC) & CC_ENABLE != 0;
            // a controller that was just enabled has no I/O queue of which something could have been taken
            self.held = self.draining && (self.held || enabled && !self.enabled);
            self.enabled = enabled;
            self.failed = side.read(self.number, CSTS) & CSTS_FATAL != 0;
            self.show();
        }
        self.stir();
    }

    /// Tells its thread which vectors are to be signalled. `all`: completions may have been posted for any guest.
    pub fn tell(&mut self, side: &mut dyn Side, all: bool) {
        if !self.connected || !(all || self.stirred) {
            return;
        }
        self.stirred = false;
        let posted = side.posted(self.number);
        self.signals.publish(posted, side.pending(self.number));
    }

    /// Tells its thread where its connection is over, and its commands have run out. The mediator shows a controller that was reset as ready until then.
    pub fn note_end(&mut self, side: &mut dyn Side) {
        if self.ending && side.read(self.number, CSTS) & CSTS_READY == 0 {
            self.ending = false;
            self.show();
            self.outbox.run_out();
        }
    }

    /// Whether commands of a connection that is over have not run out yet.
    pub fn is_ending(&self) -> bool {
        self.ending
    }
}

/// The submission queue whose tail is rung at this offset in BAR0.
fn tail_of(offset: u32) -> Option<usize> {
    let place = offset.checked_sub(DOORBELLS)?;
    (place % 8 == 0).then_some((place / 8) as usize)
}
