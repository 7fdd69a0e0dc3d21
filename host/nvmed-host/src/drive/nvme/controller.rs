#![forbid(unsafe_code)]
//! A physical controller, driven: see the [module](super).

mod script;

use std::collections::VecDeque;
use std::sync::Arc;

use self::script::Step;
use super::access::{property, status, with_media_timeout, Access, Capabilities, GONE, LONGEST_WAIT};
use super::admin::{AdminQueue, ADMIN_BYTES, ADMIN_WAIT};
use super::command::{Command, ENTRY_BYTES};
use super::found::{Found, Needs};
use super::lane::Lane;
use super::memory::{clear, is_there, DriveMemory, PAGE};
use crate::drive::{DriveError, LaneRings};

/// Lanes that a drive may have.
pub const MOST_LANES: u32 = 8;
/// Bytes that a command of a lane moves at most.
pub const TRANSFER: u64 = 131_072;
/// Milliseconds after which a command that was not completed is reported, and an Abort is asked for it.
pub const ABORT_AFTER: u64 = 10_000;
/// Milliseconds after which a command that was not completed leads to a reset of the controller.
pub const RESET_AFTER: u64 = 25_000;
/// The least and the longest time, in milliseconds, that a shutdown is waited for; RTD3E says which between them.
pub const SHUTDOWN_WAIT: (u64, u64) = (10_000, LONGEST_WAIT);
/// Resets of a running controller within [`RESET_SPAN`], before the drive is given up.
pub const RESETS: usize = 3;
/// Milliseconds.
pub const RESET_SPAN: u64 = 600_000;

#[derive(Clone, Copy, Debug, PartialEq, Eq)]
enum Mode {
    /// Opened or closed at the moment, or not opened at all.
    Idle,
    Running,
    Recovering,
    Failed,
}

/// A physical controller.
pub struct Controller<A: Access> {
    access: A,
    memory: Arc<dyn DriveMemory>,
    needs: Needs,
    capabilities: Option<Capabilities>,
    found: Found,
    admin: AdminQueue,
    lanes: Vec<Lane>,
    mode: Mode,
    failure: String,
    enabled: bool,
    script: VecDeque<Step>,
    /// When the step at the front of the script began.
    begun: Option<u64>,
    /// The controller has a command that is no asynchronous event request.
    busy: bool,
    /// That command is the script's.
    asked: bool,
    tasks: VecDeque<Command>,
    event_requests: u32,
    /// Event requests that are to be asked for.
    events_due: u32,
    /// Log pages that are to be read before an event is asked for again.
    events_read: VecDeque<u8>,
    resets: VecDeque<u64>,
    /// The second in which events were logged last, and how many came in it.
    said: (u64, u32),
}

fn failed<T>(words: impl Into<String>) -> Result<T, DriveError> {
    Err(DriveError::Failed(words.into()))
}

fn unusable<T>(words: impl Into<String>) -> Result<T, DriveError> {
    Err(DriveError::Unusable(words.into()))
}

impl<A: Access> Controller<A> {
    /// A controller that is to be opened: nothing is accessed.
    pub fn new(access: A, memory: Arc<dyn DriveMemory>, needs: Needs) -> Self {
        Self {
            access,
            memory,
            needs,
            capabilities: None,
            found: Found::default(),
            admin: AdminQueue::new(needs.admin, 4),
            lanes: Vec::new(),
            mode: Mode::Idle,
            failure: String::new(),
            enabled: false,
            script: VecDeque::new(),
            begun: None,
            busy: false,
            asked: false,
            tasks: VecDeque::new(),
            event_requests: 0,
            events_due: 0,
            events_read: VecDeque::new(),
            resets: VecDeque::new(),
            said: (0, 0),
        }
    }

    /// The accesses of its properties.
    pub fn access(&self) -> &A {
        &self.access
    }

    /// The accesses of its properties, for what belongs to the same connection.
    pub fn access_mut(&mut self) -> &mut A {
        &mut self.access
    }

    /// What was found out of the drive.
    pub fn found(&self) -> &Found {
        &self.found
    }

    /// Resets and enables the controller, and looks at it. It waits, with limits. It is refused where a property, the controller or namespace 1 is not as
    /// needed, where it does not answer in time, or where it breaks the rules; what had been enabled is disabled again then, as far as it can be.
    pub fn open(&mut self) -> Result<(), DriveError> {
        let lanes = self.needs.lanes;
        if !(1..=MOST_LANES).contains(&lanes) {
            return unusable(format!("{lanes} lanes, not 1 to {MOST_LANES}"));
        }
        if self.access.bytes() < property::DOORBELLS {
            return unusable(format!("BAR0 has only {:#x} bytes", self.access.bytes()));
        }
        if self.needs.admin % PAGE != 0 || !is_there(&*self.memory, self.needs.admin, ADMIN_BYTES) {
            return unusable("the pages of the admin queue are not in the window");
        }
        self.look_at_capabilities()?;
        self.script = [Step::Disable, Step::AwaitDisabled].into();
        self.script.extend(self.start_steps());
        let opened = self.run().map_err(usable_or_not);
        self.kept_or_given_up(opened)?;
        self.warn_of_limits();
        Ok(())
    }

    fn look_at_capabilities(&mut self) -> Result<(), DriveError> {
        let low = self.access.read(property::CAP)?;
        let cap = u64::from(low) | u64::from(self.access.read(property::CAP + 4)?) << 32;
        let version = self.access.read(property::VS)?;
        let crto = if cap != u64::MAX && with_media_timeout(cap) {
            self.access.read(property::CRTO)?
        } else {
            0
        };
        let found = Capabilities::of(cap, crto, version, self.needs.lanes, self.access.bytes())?;
        self.admin = AdminQueue::new(self.needs.admin, found.stride);
        self.found.version = version;
        self.capabilities = Some(found);
        Ok(())
    }

    /// From a disabled controller to one that was looked at.
    fn start_steps(&self) -> Vec<Step> {
        let mut steps = vec![
            Step::Enable,
            Step::AwaitReady,
            Step::Ask(Command::IdentifyController),
            Step::Ask(Command::IdentifyNamespace),
        ];
        if self.found.version >= 0x1_0400 {
            steps.push(Step::Ask(Command::IdentifyLimits));
        }
        steps.push(Step::Ask(Command::QueueCount {
            pairs: self.needs.lanes,
        }));
        steps.push(Step::ConfigureEvents);
        steps
    }

    fn warn_of_limits(&self) {
        let (c, l) = (&self.found.controller, &self.found.limits);
        if let Some(blocks) = l
            .write_zeroes_blocks
            .filter(|blocks| c.write_zeroes && *blocks < 65_536)
        {
            tracing::warn!("the drive refuses a Write Zeroes of more than {blocks} blocks (WZSL)");
        }
        if let Some(blocks) = l.range_blocks.filter(|_| c.deallocate) {
            tracing::info!("the drive refuses a Dataset Management with a range of more than {blocks} blocks (DMRSL)");
        }
    }

    /// Creates the queues of the lanes, once, as many as were needed. It waits, with limits. The completion rings are cleared. After a refusal the
    /// controller was disabled.
    pub fn create_lanes(&mut self, rings: &[LaneRings]) -> Result<(), DriveError> {
        if !self.enabled || !self.lanes.is_empty() || self.mode != Mode::Idle {
            return unusable("the controller is not enabled, or has its lanes already");
        }
        if rings.len() != self.needs.lanes as usize {
            return unusable(format!(
                "{} lanes were needed, and {} are to be created",
                self.needs.lanes,
                rings.len()
            ));
        }
        let created = rings
            .iter()
            .zip(1u16..)
            .try_for_each(|(rings, pair)| self.create_lane(rings, pair));
        self.kept_or_given_up(created)?;
        self.mode = Mode::Running;
        Ok(())
    }

    fn create_lane(&mut self, rings: &LaneRings, pair: u16) -> Result<(), DriveError> {
        let (lane, bytes) = (pair - 1, u64::from(rings.entries));
        let most = self.capabilities.map_or(0, |c| c.most_entries);
        if rings.entries < 2 || rings.entries > most {
            return unusable(format!(
                "the rings of lane {lane} have {} slots, and the controller takes 2 to {most}",
                rings.entries
            ));
        }
        for (what, host, entry) in [
            ("submission", rings.submission, ENTRY_BYTES as u64),
            ("completion", rings.completion, 16),
        ] {
            if host % PAGE != 0 || !is_there(&*self.memory, host, bytes * entry) {
                return unusable(format!(
                    "the {what} ring of lane {lane} is not in whole pages of the window"
                ));
            }
        }
        clear(&*self.memory, rings.completion, bytes * 16)?;
        let lane = Lane::new(*rings, pair);
        self.script = self.create_steps(&lane).into();
        self.run().map_err(usable_or_not)?;
        self.lanes.push(lane);
        Ok(())
    }

    fn create_steps(&self, lane: &Lane) -> [Step; 2] {
        let (pair, entries, interrupts) = (lane.pair, lane.rings.entries, self.needs.interrupts);
        [
            Step::Ask(Command::CreateCompletion {
                pair,
                ring: lane.rings.completion,
                entries,
                interrupts,
            }),
            Step::Ask(Command::CreateSubmission {
                pair,
                ring: lane.rings.submission,
                entries,
            }),
        ]
    }

    /// While the drive is opened or closed: carries out the script to its end, and waits for it.
    fn run(&mut self) -> Result<(), DriveError> {
        self.begun = None;
        loop {
            self.take_answers()?;
            self.advance()?;
            if self.script.is_empty() {
                return Ok(());
            }
            if let Some(command) = self.admin.late(self.access.now()) {
                return failed(format!(
                    "the controller did not answer {} within {ADMIN_WAIT} ms",
                    command.name()
                ));
            }
            self.access.pause();
        }
    }

    /// After a refusal the controller is not to use the window any more. The first reason is kept.
    fn kept_or_given_up(&mut self, done: Result<(), DriveError>) -> Result<(), DriveError> {
        if done.is_err() {
            // The first reason is reported; a second one would say less.
            let _ = self.disable_now();
        }
        done
    }

    fn disable_now(&mut self) -> Result<(), DriveError> {
        self.lanes.clear();
        self.script = [Step::Disable, Step::AwaitDisabled].into();
        self.run_without_answers()
    }

    /// Like [`Controller::run`], for steps without admin commands: the admin queue may be out of order.
    fn run_without_answers(&mut self) -> Result<(), DriveError> {
        self.begun = None;
        loop {
            self.advance()?;
            if self.script.is_empty() {
                return Ok(());
            }
            self.access.pause();
        }
    }

    /// Rings the submission doorbell of a lane.
    pub fn ring_submission(&mut self, lane: usize, tail: u32) -> Result<(), DriveError> {
        self.is_good()?;
        let now = self.access.now();
        let Some(it) = self.lanes.get_mut(lane) else {
            return failed(format!("there is no lane {lane}"));
        };
        if !it.submitted(&*self.memory, tail, now)? {
            return Ok(());
        }
        let place = 2 * u32::from(it.pair);
        self.doorbell(place, tail)
    }

    /// Rings the completion doorbell of a lane.
    pub fn ring_completion(&mut self, lane: usize, head: u32) -> Result<(), DriveError> {
        self.is_good()?;
        let Some(it) = self.lanes.get_mut(lane) else {
            return failed(format!("there is no lane {lane}"));
        };
        if !it.emptied(&*self.memory, head)? {
            return Ok(());
        }
        let place = 2 * u32::from(it.pair) + 1;
        self.doorbell(place, head)
    }

    /// "Doorbell registers": pair y has its tail at place 2y and its head at 2y + 1.
    fn doorbell(&mut self, place: u32, value: u32) -> Result<(), DriveError> {
        let stride = self.capabilities.map_or(4, |c| c.stride);
        self.access.write(property::DOORBELLS + place * stride, value)
    }

    fn is_good(&self) -> Result<(), DriveError> {
        if self.mode == Mode::Failed {
            return failed(self.failure.clone());
        }
        Ok(())
    }

    /// Keeps the first failure, for ever.
    fn guard(&mut self, turn: fn(&mut Self) -> Result<(), DriveError>) -> Result<(), DriveError> {
        self.is_good()?;
        turn(self).map_err(|why| {
            self.mode = Mode::Failed;
            self.failure = why.to_string();
            DriveError::Failed(self.failure.clone())
        })
    }

    /// Takes admin completions that came, and goes on with what is to be done. It never waits.
    pub fn work(&mut self) -> Result<(), DriveError> {
        self.guard(Self::turn)
    }

    /// Looks whether the controller still works, and whether it answers in time; what it must answer is asked for. Once a second. It never waits.
    ///
    /// A command that was not completed for [`ABORT_AFTER`] is reported and aborted; after [`RESET_AFTER`], and where the controller shows a fatal status,
    /// it is reset, and its commands end with Internal Error.
    pub fn check(&mut self) -> Result<(), DriveError> {
        self.guard(|it| {
            it.look_at_status()?;
            it.turn()?;
            it.look_at_time()
        })
    }

    fn turn(&mut self) -> Result<(), DriveError> {
        self.take_answers()?;
        match self.mode {
            Mode::Running => self.begin_task(),
            Mode::Recovering => {
                self.advance()?;
                if self.script.is_empty() {
                    tracing::warn!("the controller works again");
                    self.mode = Mode::Running;
                }
                Ok(())
            }
            Mode::Idle | Mode::Failed => Ok(()),
        }
    }

    fn look_at_status(&mut self) -> Result<(), DriveError> {
        if !self.enabled && self.mode != Mode::Recovering {
            return failed("the controller is not enabled");
        }
        let being_reset = matches!(self.script.front(), Some(Step::AwaitDisabled | Step::AwaitReady));
        if !self.enabled || being_reset {
            return Ok(());
        }
        let Some(value) = self.access.poll(property::CSTS)? else {
            return Ok(());
        };
        if value == GONE {
            return failed("the controller is gone: its status register reads as all ones");
        }
        if value & status::FATAL != 0 {
            return self.begin_reset("the controller shows a fatal status (CSTS.CFS)");
        }
        if value & status::READY == 0 {
            return self.begin_reset("the controller is no longer ready");
        }
        Ok(())
    }

    fn look_at_time(&mut self) -> Result<(), DriveError> {
        let now = self.access.now();
        if let Some(command) = self.admin.late(now) {
            let words = format!(
                "the controller did not answer {} within {ADMIN_WAIT} ms",
                command.name()
            );
            return if self.mode == Mode::Running {
                self.begin_reset(&words)
            } else {
                failed(words)
            };
        }
        if self.mode != Mode::Running {
            return Ok(());
        }
        let oldest = self.lanes.iter().filter_map(|lane| lane.oldest(now)).max().unwrap_or(0);
        if oldest > RESET_AFTER {
            return self.begin_reset(&format!("the controller did not complete a command within {oldest} ms"));
        }
        for lane in &mut self.lanes {
            let overdue = lane.take_overdue(now, ABORT_AFTER);
            if !overdue.is_empty() {
                let (count, number) = (overdue.len(), lane.pair - 1);
                tracing::warn!("the controller did not complete {count} commands of lane {number} within {ABORT_AFTER} ms: they are aborted");
            }
            self.tasks.extend(overdue.into_iter().map(|command| Command::Abort {
                pair: lane.pair,
                command,
            }));
        }
        self.begin_task()
    }

    /// Asks the controller to abort all commands of a lane. It never waits.
    pub fn abort(&mut self, lane: usize) -> Result<(), DriveError> {
        self.is_good()?;
        let now = self.access.now();
        let Some(it) = self.lanes.get_mut(lane) else {
            return failed(format!("there is no lane {lane}"));
        };
        if self.mode == Mode::Running {
            let all = it.take_overdue(now.saturating_add(1), 0);
            self.tasks
                .extend(all.into_iter().map(|command| Command::Abort { pair: it.pair, command }));
        }
        Ok(())
    }

    /// Begins a reset of the controller, as [`Controller::check`] does it by itself. It never waits.
    pub fn reset(&mut self) -> Result<(), DriveError> {
        self.guard(|it| {
            if it.mode == Mode::Running {
                it.begin_reset("a reset was asked for")
            } else {
                Ok(())
            }
        })
    }

    /// Whether a reset goes on. Then the drive is to be polled, by [`Controller::work`].
    pub fn is_recovering(&self) -> bool {
        self.mode == Mode::Recovering
    }

    /// Milliseconds that the oldest command of a lane has waited for its completion.
    pub fn oldest(&self, lane: usize) -> Option<u64> {
        self.lanes.get(lane).and_then(|lane| lane.oldest(self.access.now()))
    }

    fn begin_reset(&mut self, why: &str) -> Result<(), DriveError> {
        let now = self.access.now();
        if self.mode != Mode::Running {
            return failed(why);
        }
        while self
            .resets
            .front()
            .is_some_and(|at| now.saturating_sub(*at) > RESET_SPAN)
        {
            self.resets.pop_front();
        }
        if self.resets.len() >= RESETS {
            return failed(format!(
                "{why}, after {RESETS} resets within {} minutes",
                RESET_SPAN / 60_000
            ));
        }
        self.resets.push_back(now);
        tracing::error!("{why}: it is reset");
        self.mode = Mode::Recovering;
        self.tasks.clear();
        self.lanes.iter_mut().for_each(Lane::hold);
        self.script = [Step::Disable, Step::AwaitDisabled, Step::FailPending].into();
        self.script.extend(self.start_steps());
        for (number, lane) in self.lanes.iter().enumerate() {
            self.script.extend([Step::AwaitDrained(number), Step::Prepare(number)]);
            self.script.extend(self.create_steps(lane));
            self.script.push_back(Step::Lead(number));
        }
        self.begun = None;
        Ok(())
    }

    /// Deletes the queues, shuts the controller down and disables it, each within its limit of time. An error is the first of them; in any case the
    /// controller was asked to stop.
    pub fn close(&mut self) -> Result<(), DriveError> {
        if !self.enabled && self.mode != Mode::Recovering {
            return Ok(());
        }
        let was = std::mem::replace(&mut self.mode, Mode::Idle);
        let deleted = if was == Mode::Running {
            self.delete_lanes()
        } else {
            Ok(())
        };
        self.lanes.clear();
        let stopped = if self.enabled {
            self.script = [Step::Shutdown, Step::AwaitShutdown].into();
            self.run_without_answers()
        } else {
            Ok(())
        };
        let disabled = self.disable_now();
        deleted.and(stopped).and(disabled)
    }

    fn delete_lanes(&mut self) -> Result<(), DriveError> {
        self.tasks.clear();
        let pairs: Vec<u16> = self.lanes.iter().rev().map(|lane| lane.pair).collect();
        let steps = pairs
            .into_iter()
            .flat_map(|pair| [Command::DeleteSubmission { pair }, Command::DeleteCompletion { pair }]);
        self.script = steps.map(Step::Ask).collect();
        self.run()
    }
}

/// While a drive is opened each reason makes it unusable.
fn usable_or_not(why: DriveError) -> DriveError {
    match why {
        DriveError::Failed(words) | DriveError::Unusable(words) => DriveError::Unusable(words),
    }
}
