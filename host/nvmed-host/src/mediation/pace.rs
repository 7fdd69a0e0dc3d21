//! How long the mediator's thread waits for something to do.
//!
//! A store into a doorbell page wakes nobody, so pages are looked at, and each look costs as much as some commands. A guest that waits for each command is looked
//! at soon. One that has many on their way loses nothing by a later look, which finds more of them, and has fewer interrupts. Which of the two a guest is shows
//! a late look now and then: it finds one command, or several. How many a look may find, so that guests lose nothing, is tried, too.

#![forbid(unsafe_code)]

use std::time::{Duration, Instant};

/// The drive, and the time that commands take, are looked at so often.
pub const TICK: Duration = Duration::from_secs(1);
/// The slowest look at doorbell pages: of guests that do nothing.
pub const LOOK: Duration = Duration::from_millis(2);
/// The fastest look at doorbell pages, but for a thread that goes on without a pause.
const FIRST: Duration = Duration::from_micros(20);
/// The first look of guests with many commands on their way, and of one that is to show whether they have.
const DEEP: Duration = Duration::from_micros(240);
/// The slowest look of such guests.
const DEEPEST: Duration = Duration::from_millis(1);
/// After so many looks that found commands a late one is tried.
const TRIAL: u32 = 32;
/// The same, where late looks have cost guests commands again and again.
const LATEST_TRIAL: u32 = 1024;
/// After so many looks in a row that found one command guests have no more on their way.
const SINGLE: u32 = 8;
/// What a command takes is the mean of so many.
const SAMPLE: u64 = 64;
/// A drive that has commands and wakes nobody is polled so often.
const NAP: Duration = Duration::from_micros(50);
/// A look may be late by one such part of the time for which nothing has happened.
const PART: u32 = 4;
/// Of a guest with many commands on their way a look is to find fewer than so many, and half of them or more: fewer than a queue has, so that it never runs dry.
const MANY: u64 = 6;
/// The same, of a guest that was found to lose nothing by that.
const MOST: u64 = 12;
/// That is tried after so many samples, and after twice as many each time that it has cost guests commands.
const RAISE: u32 = 4;
const LATEST_RAISE: u32 = 1024;

/// What there is to wait for.
#[derive(Clone, Copy, Debug, Default)]
pub struct Waiting {
    /// More is due at once.
    pub due: bool,
    /// The drive has commands, and nothing says when they end.
    pub polled: bool,
    /// A guest with a doorbell page has an enabled controller, so that the page has to be looked at.
    pub looked: bool,
}

/// What guests seem to do.
#[derive(Clone, Copy, Debug, PartialEq, Eq)]
enum Depth {
    /// They wait for each command, or for the last of a few. So many more looks with commands come before a trial.
    Shallow(u32),
    /// The next look is late, to find out.
    Trial,
    /// They have many on their way. The looks take that long, and so many in a row have found one command.
    Deep(Duration, u32),
}

/// What has been done so far, by which the next pause is chosen.
#[derive(Clone, Copy, Debug)]
pub struct Pace {
    /// After something was done the thread goes on without a pause for so long at most, where that has helped.
    spin: Duration,
    depth: Depth,
    sample: Sample,
    /// What a command takes without late looks.
    shallow: Duration,
    /// So many looks come before a trial.
    trial: u32,
    /// Late looks are to find fewer than that. So many samples come before they are to find more, and would come the next time.
    many: u64,
    raise: u32,
    raises: u32,
    /// The mean time until something is to be done again.
    gap: Duration,
    /// When something was done last.
    moved: Instant,
}

/// What commands take, as a mean.
#[derive(Clone, Copy, Debug)]
struct Sample {
    begin: Instant,
    commands: u64,
}

impl Depth {
    /// After a look that found so many commands of a guest, at least one. After `trial` more looks there may be a trial. Late looks are to find less than `many`,
    /// and are never slower than `slowest`.
    fn after(self, commands: u64, trial: u32, many: u64, slowest: Duration) -> Self {
        let slower = |look: Duration| (look * 5 / 4).min(slowest).max(look.min(DEEPEST));
        match (self, commands) {
            (Self::Shallow(0), _) => Self::Trial,
            (Self::Shallow(more), _) => Self::Shallow(more - 1),
            (Self::Trial, ..=1) => Self::Shallow(trial),
            (Self::Trial, _) => Self::Deep(DEEP, 0),
            (Self::Deep(_, SINGLE..), ..=1) => Self::Shallow(trial),
            (Self::Deep(look, single), ..=1) => Self::Deep(slower(look), single + 1),
            (Self::Deep(look, _), found) if found >= many => Self::Deep((look * 3 / 4).max(FIRST), 0),
            (Self::Deep(look, _), found) if found < many / 2 => Self::Deep(slower(look), 0),
            (Self::Deep(look, _), _) => Self::Deep(look, 0),
        }
    }

    fn is_deep(self) -> bool {
        matches!(self, Self::Deep(..))
    }

    /// The fastest look.
    fn floor(self) -> Duration {
        match self {
            Self::Shallow(_) => FIRST,
            Self::Trial => DEEP,
            Self::Deep(look, _) => look,
        }
    }
}

impl Pace {
    /// A thread that begins.
    #[must_use]
    pub fn new(spin: Duration, now: Instant) -> Self {
        Self {
            spin,
            depth: Depth::Shallow(TRIAL),
            sample: Sample {
                begin: now,
                commands: 0,
            },
            shallow: Duration::MAX,
            trial: TRIAL,
            many: MANY,
            raise: RAISE,
            raises: RAISE,
            gap: Duration::ZERO,
            moved: now,
        }
    }

    /// Something was done from `begin` to `end`: of a guest so many commands at most came to the drive.
    pub fn note(&mut self, begin: Instant, end: Instant, commands: u64) {
        let gap = begin.saturating_duration_since(self.moved).min(LOOK);
        self.gap = (3 * self.gap + gap) / 4;
        self.moved = end;
        if commands == 0 {
            return;
        }
        let before = self.depth;
        let slowest = self
            .shallow
            .saturating_mul(u32::try_from(self.many).unwrap_or(u32::MAX))
            .min(DEEPEST);
        self.depth = before.after(commands, self.trial, self.many, slowest);
        if gap >= LOOK || before.is_deep() != self.depth.is_deep() {
            // what is compared is what guests get while they are at work
            self.begin_sample(end);
            return;
        }
        self.sample.commands += commands;
        if self.sample.commands >= SAMPLE {
            self.compare(end);
        }
    }

    fn begin_sample(&mut self, now: Instant) {
        self.sample = Sample {
            begin: now,
            commands: 0,
        };
    }

    /// Late looks that cost guests an eighth of their commands, or more, end; before that they are to find no more than few. Those that cost less are to find
    /// more after a while.
    fn compare(&mut self, now: Instant) {
        let taken = now.saturating_duration_since(self.sample.begin);
        let each = taken / u32::try_from(self.sample.commands).unwrap_or(u32::MAX);
        if !self.depth.is_deep() {
            self.shallow = each;
        } else if each * 7 / 8 <= self.shallow {
            self.trial = TRIAL;
            self.raise = self.raise.saturating_sub(1);
            if self.raise == 0 {
                self.many = MOST;
            }
        } else if self.many > MANY {
            self.look_sooner();
        } else {
            self.trial = (2 * self.trial).min(LATEST_TRIAL);
            self.depth = Depth::Shallow(self.trial);
        }
        self.begin_sample(now);
    }

    /// Looks that found more commands have cost some: they are to find fewer, and longer than the last time.
    fn look_sooner(&mut self) {
        self.many = MANY;
        self.raises = (2 * self.raises).min(LATEST_RAISE);
        self.raise = self.raises;
        if let Depth::Deep(look, single) = self.depth {
            self.depth = Depth::Deep((look / 2).max(FIRST), single);
        }
    }

    /// The longest pause. Looks at doorbell pages become slower with the time for which nothing has happened: so the first command after a short rest is not
    /// late, and idle guests cost little. Where no guest has a page and an enabled controller nothing is looked at.
    #[must_use]
    pub fn longest(&self, waiting: Waiting, now: Instant) -> Duration {
        let since = now.saturating_duration_since(self.moved);
        let spins = since < self.spin && self.gap < self.spin && matches!(self.depth, Depth::Shallow(_));
        if waiting.due || spins && (waiting.looked || waiting.polled) {
            return Duration::ZERO;
        }
        let mut pause = TICK;
        if waiting.looked {
            pause = (since / PART).clamp(self.depth.floor(), LOOK);
        }
        if waiting.polled {
            pause = pause.min(NAP);
        }
        pause
    }
}

#[cfg(test)]
mod tests {
    use super::*;

    const SPIN: Duration = Duration::from_micros(50);
    const LOOKED: Waiting = Waiting {
        due: false,
        polled: false,
        looked: true,
    };
    const NOTHING: Waiting = Waiting {
        looked: false,
        ..LOOKED
    };

    fn micros(n: u64) -> Duration {
        Duration::from_micros(n)
    }

    /// A pace after as many events of so many commands with so much time between them, and when the last one was.
    fn after(events: u32, gap: Duration, commands: u64) -> (Pace, Instant) {
        let mut now = Instant::now();
        let mut pace = Pace::new(SPIN, now);
        for _ in 0..events {
            now += gap;
            pace.note(now, now, commands);
        }
        (pace, now)
    }

    #[test]
    fn an_idle_host_looks_at_nothing() {
        let (pace, now) = after(1, Duration::ZERO, 1);
        assert_eq!(pace.longest(NOTHING, now), TICK);
        assert_eq!(pace.longest(NOTHING, now + 5 * TICK), TICK);
    }

    #[test]
    fn what_is_due_is_done_at_once() {
        let (pace, now) = after(1, TICK, 1);
        let due = Waiting { due: true, ..NOTHING };
        assert_eq!(pace.longest(due, now + TICK), Duration::ZERO);
    }

    #[test]
    fn it_goes_on_without_a_pause_where_that_helps() {
        let (pace, now) = after(30, micros(10), 1);
        assert_eq!(pace.longest(LOOKED, now + micros(49)), Duration::ZERO);
        assert_eq!(pace.longest(LOOKED, now + micros(50)), FIRST);
        let (pace, now) = after(30, micros(200), 1);
        assert_eq!(pace.longest(LOOKED, now + micros(10)), FIRST);
    }

    #[test]
    fn a_drive_that_wakes_nobody_is_polled() {
        let (pace, now) = after(50, micros(200), 1);
        for looked in [false, true] {
            let polled = Waiting {
                polled: true,
                looked,
                due: false,
            };
            assert_eq!(pace.longest(polled, now + TICK), NAP);
        }
    }

    #[test]
    fn looks_become_slower_with_time() {
        let (pace, now) = after(30, micros(200), 1);
        assert_eq!(pace.longest(LOOKED, now + micros(60)), FIRST);
        assert_eq!(pace.longest(LOOKED, now + micros(400)), micros(100));
        assert_eq!(pace.longest(LOOKED, now + micros(60_000_000)), LOOK);
    }

    #[test]
    fn looks_are_rarer_where_guests_have_many_commands_on_their_way() {
        let (mut pace, now) = after(TRIAL + 1, micros(30), 1);
        assert_eq!(
            pace.longest(LOOKED, now),
            DEEP,
            "a trial, which is no time to go on without a pause"
        );
        pace.note(now, now, 4);
        assert_eq!(pace.longest(LOOKED, now), DEEP);
        for _ in 0..20 {
            pace.note(now, now, 2);
        }
        assert_eq!(pace.longest(LOOKED, now), DEEPEST);
        pace.note(now, now, 20);
        assert!(pace.longest(LOOKED, now) < DEEPEST);
        for _ in 0..=SINGLE {
            assert!(pace.longest(LOOKED, now) >= DEEP);
            pace.note(now, now, 1);
        }
        assert!(pace.longest(LOOKED, now + SPIN) <= FIRST);
    }

    #[test]
    fn late_looks_that_cost_commands_end() {
        let (mut pace, mut now) = after(3 * TRIAL, micros(100), 1);
        while !pace.depth.is_deep() {
            now += micros(100);
            pace.note(now, now, 4);
        }
        // four commands at a time, which took 400 microseconds before and take 800 now
        let mut looks = 0;
        while pace.depth.is_deep() {
            now += micros(800);
            pace.note(now, now, 4);
            looks += 1;
            assert!(looks < 50);
        }
        assert_eq!(pace.depth, Depth::Shallow(2 * TRIAL));
    }

    /// A guest that puts a command each 40 microseconds until `depth` are on their way, for so many looks: what the last one found, and the time for a command.
    fn run(pace: &mut Pace, now: &mut Instant, looks: u32, depth: u64) -> (u64, Duration) {
        let (begin, mut found, mut all) = (*now, 0, 0);
        for _ in 0..looks {
            let pause = pace.longest(LOOKED, *now).max(micros(40));
            found = u64::try_from(pause.as_micros()).unwrap() / 40;
            found = found.clamp(1, depth);
            *now += pause;
            pace.note(*now, *now, found);
            all += found;
        }
        (found, (*now - begin) / u32::try_from(all).unwrap())
    }

    /// Looks find more commands of a guest with sixteen, none of which waits for them. One with four has no more, and loses little by what is tried.
    #[test]
    fn looks_find_as_many_commands_as_cost_nothing() {
        let (mut pace, mut now) = after(3 * TRIAL, micros(40), 1);
        run(&mut pace, &mut now, 200, 16);
        assert_eq!(pace.many, MOST);
        let (found, each) = run(&mut pace, &mut now, 200, 16);
        assert!((MOST / 2..=MOST).contains(&found), "{found}");
        assert!(each < micros(44), "{each:?}");
        run(&mut pace, &mut now, 100, 4);
        assert_eq!(pace.many, MANY);
        let (_, each) = run(&mut pace, &mut now, 4000, 4);
        assert!(each < micros(48), "{each:?}");
    }

    #[test]
    fn late_looks_that_cost_nothing_go_on() {
        let (mut pace, mut now) = after(3 * TRIAL, micros(100), 1);
        for _ in 0..500 {
            now += micros(400);
            pace.note(now, now, 4);
        }
        assert!(pace.depth.is_deep());
    }

    #[test]
    fn a_trial_that_finds_one_command_is_the_last_for_a_while() {
        let (mut pace, now) = after(TRIAL + 1, micros(200), 1);
        pace.note(now, now, 1);
        for _ in 0..TRIAL {
            assert_eq!(pace.longest(LOOKED, now + micros(60)), FIRST);
            pace.note(now, now, 1);
        }
        pace.note(now, now, 1);
        assert_eq!(pace.longest(LOOKED, now + micros(60)), DEEP);
    }
}
