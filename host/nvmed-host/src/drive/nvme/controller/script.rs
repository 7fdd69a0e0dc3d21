#![forbid(unsafe_code)]
//! What is done with a controller, step by step: none of them waits. Admin commands and what follows from their answers.

use super::super::access::{configuration, property, status, Access, GONE};
use super::super::admin::{Answer, ADMIN_ENTRIES};
use super::super::bytes::{get16, get8};
use super::super::command::Command;
use super::super::event::Event;
use super::super::identify::{ControllerPage, Limits, NamespacePage, PAGE_BYTES};
use super::super::lane::Lane;
use super::super::memory::{load, PAGE};
use super::{failed, Controller, Mode, SHUTDOWN_WAIT, TRANSFER};
use crate::drive::DriveError;

/// Asynchronous event requests that are outstanding, where the controller takes so many.
const EVENT_REQUESTS: u32 = 4;
/// Admin completions that a turn takes at most.
const ANSWERS_A_TURN: usize = 16;
/// The critical warnings of the SMART log that are to be events.
const CRITICAL_WARNINGS: u32 = 0x1f;
/// Namespace Attribute Notices, in OAES and in the feature.
const NAMESPACE_NOTICES: u32 = 1 << 8;
/// The log page SMART / Health Information.
const HEALTH_LOG: u8 = 2;

/// Events that are logged in a second at most.
const LINES_A_SECOND: u32 = 8;

/// A step of what is being done with the controller.
#[derive(Clone, Copy, Debug, PartialEq, Eq)]
pub(super) enum Step {
    Disable,
    AwaitDisabled,
    /// The controller is disabled: what it had is completed with an error.
    FailPending,
    Enable,
    AwaitReady,
    Ask(Command),
    ConfigureEvents,
    AwaitDrained(usize),
    Prepare(usize),
    Lead(usize),
    Shutdown,
    AwaitShutdown,
}

impl<A: Access> Controller<A> {
    /// Gives the controller what is to be done beside the script, where it has nothing of that.
    pub(super) fn begin_task(&mut self) -> Result<(), DriveError> {
        if self.busy {
            return Ok(());
        }
        if let Some(page) = self.events_read.pop_front() {
            return self.ask(Command::Log { page });
        }
        if let Some(command) = self.tasks.pop_front() {
            return self.ask(command);
        }
        self.ask_for_events()
    }

    fn ask(&mut self, command: Command) -> Result<(), DriveError> {
        self.busy = true;
        self.admin.ask(&mut self.access, &*self.memory, command)
    }

    fn ask_for_events(&mut self) -> Result<(), DriveError> {
        while self.events_due > 0 {
            self.events_due -= 1;
            self.admin.ask(&mut self.access, &*self.memory, Command::Event)?;
        }
        Ok(())
    }

    /// Carries out steps of the script until one has to wait.
    pub(super) fn advance(&mut self) -> Result<(), DriveError> {
        while let Some(step) = self.script.front().copied() {
            let begin = self.begun.is_none();
            let since = *self.begun.get_or_insert(self.access.now());
            if !self.step(step, begin, since)? {
                return Ok(());
            }
            self.script.pop_front();
            self.begun = None;
        }
        Ok(())
    }

    /// One step: whether it is done. An admin command of the script is done by its answer, which takes it from the script.
    fn step(&mut self, step: Step, begin: bool, since: u64) -> Result<bool, DriveError> {
        let (ready, disable) = self.capabilities.map_or((500, 500), |c| (c.ready_wait, c.disable_wait));
        match step {
            Step::Disable => self.disable(),
            Step::AwaitDisabled => self.await_status(status::READY, 0, since, disable, "become disabled"),
            Step::FailPending => {
                let memory = &*self.memory;
                self.lanes
                    .iter_mut()
                    .try_for_each(|lane| lane.fail_pending(memory))
                    .map(|()| true)
            }
            Step::Enable => self.enable(),
            Step::AwaitReady => self.await_status(status::READY, status::READY, since, ready, "become ready"),
            Step::Ask(command) => self.ask_of_script(command),
            Step::ConfigureEvents => self.configure_events(),
            Step::AwaitDrained(lane) => Ok(self.lanes.get(lane).is_none_or(Lane::is_drained)),
            Step::Prepare(lane) => match self.lanes.get_mut(lane) {
                Some(lane) => lane.prepare(&*self.memory, since).map(|()| true),
                None => Ok(true),
            },
            Step::Lead(lane) => self.lead(lane),
            Step::Shutdown => self.shut_down(begin),
            Step::AwaitShutdown => {
                let limit = u64::from(self.found.controller.shutdown_microseconds / 1000);
                let limit = limit.clamp(SHUTDOWN_WAIT.0, SHUTDOWN_WAIT.1);
                self.await_status(status::SHUTDOWN, status::SHUT_DOWN, since, limit, "shut down")
            }
        }
    }

    fn disable(&mut self) -> Result<bool, DriveError> {
        self.enabled = false;
        (self.busy, self.asked) = (false, false);
        self.access.write(property::CC, 0).map(|()| true)
    }

    /// "Memory-based Transport Controller Initialization". Where no interrupts are wanted they are masked.
    fn enable(&mut self) -> Result<bool, DriveError> {
        self.admin.clear(&*self.memory)?;
        self.events_due = 0;
        self.events_read.clear();
        let entries = ADMIN_ENTRIES - 1;
        self.access.write(property::AQA, entries << 16 | entries)?;
        for (at, host) in [
            (property::ASQ, self.needs.admin),
            (property::ACQ, self.needs.admin + PAGE),
        ] {
            self.access.write(at, host as u32)?;
            self.access.write(at + 4, (host >> 32) as u32)?;
        }
        self.enabled = true;
        self.access
            .write(property::CC, configuration::ENABLE | configuration::ENTRIES)?;
        Ok(true)
    }

    fn await_status(&mut self, mask: u32, wanted: u32, since: u64, limit: u64, what: &str) -> Result<bool, DriveError> {
        let late = self.access.now().saturating_sub(since) > limit;
        let Some(value) = self.access.poll(property::CSTS)? else {
            return if late {
                failed(format!("the controller did not {what} within {limit} ms"))
            } else {
                Ok(false)
            };
        };
        if value == GONE {
            return failed("the controller is gone: its status register reads as all ones");
        }
        if wanted == status::READY && value & status::FATAL != 0 {
            return failed(format!(
                "the controller shows a fatal status (CSTS.CFS) while it should {what}"
            ));
        }
        if value & mask == wanted {
            if wanted == status::READY && !self.needs.interrupts {
                self.access.write(property::INTMS, u32::MAX)?;
            }
            return Ok(true);
        }
        if late {
            return failed(format!("the controller did not {what} within {limit} ms"));
        }
        Ok(false)
    }

    fn ask_of_script(&mut self, command: Command) -> Result<bool, DriveError> {
        if !self.busy {
            self.ask(command)?;
            self.asked = true;
            return Ok(false);
        }
        if self.mode == Mode::Idle {
            // The controller may show a fatal status instead of an answer; a running one is looked at each second.
            if let Some(value) = self.access.poll(property::CSTS)? {
                if value == GONE {
                    return failed("the controller is gone: its status register reads as all ones");
                }
                if value & status::FATAL != 0 {
                    return failed(format!(
                        "the controller shows a fatal status (CSTS.CFS) during {}",
                        command.name()
                    ));
                }
            }
        }
        Ok(false)
    }

    /// Chooses which events are wanted. They are asked for when the lanes are there.
    fn configure_events(&mut self) -> Result<bool, DriveError> {
        let notices = self.found.controller.optional_events & NAMESPACE_NOTICES;
        self.event_requests = self.found.controller.event_requests.min(EVENT_REQUESTS);
        self.ask_of_script(Command::EventConfiguration {
            events: CRITICAL_WARNINGS | notices,
        })
    }

    fn lead(&mut self, lane: usize) -> Result<bool, DriveError> {
        let now = self.access.now();
        let Some(it) = self.lanes.get_mut(lane) else {
            return Ok(true);
        };
        let place = 2 * u32::from(it.pair);
        let (more, bells) = it.lead(&*self.memory, now)?;
        if let Some(head) = bells.head {
            self.doorbell(place + 1, head)?;
        }
        if let Some(tail) = bells.tail {
            self.doorbell(place, tail)?;
        }
        Ok(more.is_none())
    }

    /// Takes admin completions that came.
    pub(super) fn take_answers(&mut self) -> Result<(), DriveError> {
        if !self.enabled {
            return Ok(());
        }
        for _ in 0..ANSWERS_A_TURN {
            let Some(answer) = self.admin.take(&mut self.access, &*self.memory)? else {
                break;
            };
            self.answered(&answer)?;
        }
        Ok(())
    }

    fn answered(&mut self, answer: &Answer) -> Result<(), DriveError> {
        if answer.command == Command::Event {
            return self.event(answer);
        }
        self.busy = false;
        if answer.status != 0 {
            if !answer.command.may_be_refused() {
                return failed(answer.refusal());
            }
            tracing::info!("{}", answer.refusal());
        } else {
            self.accept(answer)?;
        }
        self.follow(answer);
        if std::mem::take(&mut self.asked) {
            self.script.pop_front();
            self.begun = None;
        }
        Ok(())
    }

    /// What a good answer brings.
    fn accept(&mut self, answer: &Answer) -> Result<(), DriveError> {
        let mut page = [0u8; PAGE_BYTES];
        if answer.command.gives_data() {
            load(&*self.memory, self.admin.data(), &mut page)?;
        }
        match answer.command {
            Command::IdentifyController => {
                let found = ControllerPage::of(&page, TRANSFER)?;
                if !self.lanes.is_empty()
                    && (&found.serial, &found.model) != (&self.found.controller.serial, &self.found.controller.model)
                {
                    return failed("the controller is another one after its reset");
                }
                self.found.controller = found;
            }
            Command::IdentifyNamespace => self.found.namespace = NamespacePage::of(&page, 1, self.needs.blocks)?,
            Command::IdentifyLimits => self.found.limits = Limits::of(&page),
            Command::QueueCount { pairs } => enough_queues(answer.result, pairs)?,
            Command::Log { page: HEALTH_LOG } => tracing::warn!(
                "the drive's health: critical warning {:#04x}, {} K, spare {} %, used {} %",
                get8(&page, 0),
                get16(&page, 1),
                get8(&page, 3),
                get8(&page, 5)
            ),
            Command::Abort { command, .. } if answer.result & 1 != 0 => {
                tracing::warn!("the controller did not abort command {command}");
            }
            _ => {}
        }
        Ok(())
    }

    /// What follows from an answer, good or not.
    fn follow(&mut self, answer: &Answer) {
        match answer.command {
            Command::Log { .. } => self.events_due += 1,
            Command::EventConfiguration { .. } => self.events_due = self.event_requests,
            _ => {}
        }
    }

    /// Whether one more event may be logged in this second.
    fn may_say(&mut self) -> bool {
        let second = self.access.now() / 1000;
        if self.said.0 != second {
            self.said = (second, 0);
        }
        self.said.1 += 1;
        self.said.1 <= LINES_A_SECOND
    }

    fn event(&mut self, answer: &Answer) -> Result<(), DriveError> {
        if answer.status != 0 {
            tracing::info!("{}", answer.refusal());
            return Ok(());
        }
        let event = Event::of(answer.result);
        if event.is_persistent_error() {
            return failed(format!("the drive reports {event}"));
        }
        if self.may_say() {
            tracing::warn!("the drive reports {event}");
        }
        if event.is_namespace_change() && self.tasks.len() < usize::from(u8::MAX) {
            self.tasks.push_back(Command::IdentifyNamespace);
        }
        match event.log {
            0 => self.events_due += 1,
            page => self.events_read.push_back(page),
        }
        Ok(())
    }

    fn shut_down(&mut self, begin: bool) -> Result<bool, DriveError> {
        if begin {
            let value = configuration::ENABLE | configuration::ENTRIES | configuration::SHUTDOWN_NORMAL;
            self.access.write(property::CC, value)?;
        }
        Ok(true)
    }
}

/// "Number of Queues": the counts are one less than meant, submission queues in the lower half.
fn enough_queues(result: u32, pairs: u32) -> Result<(), DriveError> {
    let (submission, completion) = ((result & 0xffff) + 1, (result >> 16) + 1);
    if submission < pairs || completion < pairs {
        return failed(format!(
            "the controller has {submission} submission and {completion} completion queues, and {pairs} lanes are needed"
        ));
    }
    Ok(())
}
