#![forbid(unsafe_code)]
//! Lines for the operator, to standard error: time (UTC), level, guest and message, by `tracing`. Nobody waits for who reads them.
//!
//! A line is put into a bounded queue, and a thread writes it. While the queue is full, lines are dropped, and their number is told when there is room
//! again. An event with a field `guest` counts for that guest, which has 8 lines a second; then it is told how many more there were.

mod line;
mod queue;
#[cfg(test)]
pub(crate) mod tests;

use std::io;
use std::os::fd::{AsFd, OwnedFd};
use std::sync::Arc;
use std::time::{Duration, Instant, SystemTime};

use tracing::level_filters::LevelFilter;
use tracing::{Event, Level, Subscriber};
use tracing_subscriber::layer::{Context, Layer, SubscriberExt};
use tracing_subscriber::registry::LookupSpan;

use line::Line;
use queue::Queue;

/// Lines that the queue has room for. A line has at most [`LINE_BYTES`].
const LINES: usize = 1024;
/// Bytes of a line, without its line feed. A longer one is cut.
const LINE_BYTES: usize = 1024;

/// Why there is no log.
#[derive(Debug, thiserror::Error)]
pub enum LogError {
    /// Standard error cannot be duplicated.
    #[error("standard error cannot be used: {0}")]
    Output(io::Error),
    /// The thread cannot be started.
    #[error("no thread for the log: {0}")]
    Thread(io::Error),
    /// There is one already.
    #[error("the log has been started already")]
    Started,
}

/// The log of this program.
#[derive(Debug)]
pub struct Log {
    queue: Arc<Queue>,
}

impl Log {
    /// Starts the log of the whole program: events of `tracing` up to `level` go to standard error from now on. A panic becomes a line, too.
    pub fn start(level: LevelFilter) -> Result<Self, LogError> {
        let output = io::stderr().as_fd().try_clone_to_owned().map_err(LogError::Output)?;
        let (log, subscriber) = Self::to(output, level)?;
        tracing::subscriber::set_global_default(subscriber).map_err(|_| LogError::Started)?;
        std::panic::set_hook(Box::new(|panic| tracing::error!("the program has a fault: {panic}")));
        Ok(log)
    }

    /// A log whose thread writes to a descriptor, and what gives it lines.
    fn to(output: OwnedFd, level: LevelFilter) -> Result<(Self, impl Subscriber + Send + Sync), LogError> {
        let queue = Arc::new(Queue::new(LINES));
        let writer = Arc::clone(&queue);
        let thread = std::thread::Builder::new().name("log".into());
        thread
            .spawn(move || writer.write_to(&output))
            .map_err(LogError::Thread)?;
        let subscriber = tracing_subscriber::registry()
            .with(level)
            .with(Lines(Arc::clone(&queue)));
        Ok((Self { queue }, subscriber))
    }

    /// Waits until all lines are written, at most for `bound`: whether they are. A reader that doesn't read holds up the end no longer than that.
    pub fn flush(&self, bound: Duration) -> bool {
        self.queue.flush(bound)
    }
}

/// Makes lines of events.
struct Lines(Arc<Queue>);

impl<S: Subscriber + for<'a> LookupSpan<'a>> Layer<S> for Lines {
    fn on_event(&self, event: &Event<'_>, _: Context<'_, S>) {
        let line = Line::of(event);
        self.0.put(line.guest, Instant::now(), || {
            line.text(SystemTime::now(), *event.metadata().level())
        });
    }
}

/// A line of the log's own.
fn own_line(level: Level, guest: Option<u64>, message: std::fmt::Arguments<'_>) -> String {
    Line::new(guest, message).text(SystemTime::now(), level)
}
