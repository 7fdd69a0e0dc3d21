//! `nvmed-host ctl SOCKET WORDS..`: requests to a running program, and its replies as tables for people.
//!
//! `docs/CONTROL.md` has the requests and what is in their replies.

#![forbid(unsafe_code)]

mod looks;
mod tables;
#[cfg(test)]
mod tests;

use std::io::{self, BufRead, BufReader, ErrorKind, Read, Write};
use std::os::unix::net::UnixStream;
use std::path::{Path, PathBuf};
use std::thread;
use std::time::Duration;

use serde_json::{json, Value};

use crate::control::request::VERSION;

/// How long a reply is waited for, beside what the request itself waits for.
const PATIENCE: Duration = Duration::from_secs(10);
/// Between two looks of `top`.
const SECOND: Duration = Duration::from_secs(1);
/// The most bytes of a reply.
const MOST_REPLY: u64 = 16 << 20;

/// What a limit is of.
#[derive(Clone, Copy, Debug, PartialEq, Eq)]
pub enum Limited {
    /// Commands.
    Iops,
    /// Bytes.
    Bytes,
}

impl Limited {
    fn field(self) -> &'static str {
        match self {
            Self::Iops => "iops",
            Self::Bytes => "bytes",
        }
    }
}

/// What is asked for.
#[derive(Clone, Debug, PartialEq, Eq)]
pub enum Words {
    /// `state`
    State,
    /// `figures`
    Figures,
    /// `figures prometheus`
    Prometheus,
    /// `limit G iops|bytes N|none`
    Limit {
        /// The guest.
        guest: u64,
        /// Of what: the request's field.
        of: Limited,
        /// So many a second, or as many as it likes.
        rate: Option<u64>,
    },
    /// `drain [SECONDS]`
    Drain(Option<u64>),
    /// `resume`
    Resume,
    /// `end`
    End,
}

/// Why there is no reply, or what it refuses.
#[derive(Debug, thiserror::Error)]
pub enum CtlError {
    /// Nobody listens there, or this user may not.
    #[error("{}: cannot be connected to: {error}; is the program running, has it a line 'control', and is this its user or root?", path.display())]
    Connect {
        /// The socket.
        path: PathBuf,
        /// What the kernel said.
        error: io::Error,
    },
    /// The connection ended before the reply.
    #[error("the program closed the connection without a reply: only its own user and root may ask it")]
    Closed,
    /// No reply came in time.
    #[error("the program has not replied in time")]
    Late,
    /// The connection failed.
    #[error("the connection failed: {0}")]
    Failed(io::Error),
    /// The reply is none of this version.
    #[error("the reply is not understood: it is of another version, or of another program")]
    Strange,
    /// The program refuses the request.
    #[error("refused: {0}")]
    Refused(String),
}

impl From<io::Error> for CtlError {
    fn from(error: io::Error) -> Self {
        match error.kind() {
            ErrorKind::WouldBlock | ErrorKind::TimedOut => Self::Late,
            ErrorKind::BrokenPipe | ErrorKind::ConnectionReset => Self::Closed,
            _ => Self::Failed(error),
        }
    }
}

/// What there is to print, and whether what was asked for has been done.
#[derive(Clone, Debug, PartialEq, Eq)]
pub struct Said {
    /// The text, with its last line feed.
    pub text: String,
    /// Whether it was done: a drain may go on.
    pub good: bool,
}

impl Words {
    /// The request's name, which is the field of its reply, too.
    fn name(&self) -> &'static str {
        match self {
            Self::State => "state",
            Self::Figures | Self::Prometheus => "figures",
            Self::Limit { .. } => "limit",
            Self::Drain(_) => "drain",
            Self::Resume => "resume",
            Self::End => "end",
        }
    }

    fn request(&self) -> Value {
        let mut request = json!({ "version": VERSION, "request": self.name() });
        match self {
            Self::Drain(Some(seconds)) => request["wait"] = json!(seconds),
            Self::Prometheus => request["format"] = json!("prometheus"),
            Self::Limit { guest, of, rate } => {
                request["guest"] = json!(guest);
                request[of.field()] = json!(rate);
            }
            _ => {}
        }
        request
    }

    /// How long the request itself may take.
    fn wait(&self) -> Duration {
        match self {
            Self::Drain(seconds) => Duration::from_secs(seconds.unwrap_or(30)),
            _ => Duration::ZERO,
        }
    }

    /// What a reply says, for people.
    fn said(&self, reply: &Value) -> Said {
        let said = |text: &str| Said {
            text: text.to_owned(),
            good: true,
        };
        match self {
            Self::State => said(&tables::state(reply)),
            Self::Figures => said(&looks::totals(reply)),
            Self::Prometheus => said(reply["text"].as_str().unwrap_or_default()),
            Self::Limit { .. } => said(&tables::limit(reply)),
            Self::Resume => said("commands are taken again\n"),
            Self::End => said("the program ends\n"),
            Self::Drain(_) => match reply["drained"].as_bool() {
                Some(true) => said("drained: nothing is taken, and nothing is under way\n"),
                _ => Said {
                    text: format!(
                        "nothing is taken any more, and {} commands are still under way\n",
                        reply["in_flight"]
                    ),
                    good: false,
                },
            },
        }
    }
}

/// A connection to a running program.
#[derive(Debug)]
pub struct Asker {
    socket: BufReader<UnixStream>,
}

impl Asker {
    /// Connects to a control socket.
    ///
    /// # Errors
    ///
    /// [`CtlError::Connect`].
    pub fn connect(path: &Path) -> Result<Self, CtlError> {
        let connected = UnixStream::connect(path).and_then(|socket| {
            socket.set_write_timeout(Some(PATIENCE))?;
            Ok(Self {
                socket: BufReader::new(socket),
            })
        });
        connected.map_err(|error| CtlError::Connect {
            path: path.into(),
            error,
        })
    }

    /// Asks, and waits for the reply: what is in the field of the request's name.
    ///
    /// # Errors
    ///
    /// See [`CtlError`].
    pub fn ask(&mut self, words: &Words) -> Result<Value, CtlError> {
        let socket = self.socket.get_mut();
        socket.set_read_timeout(Some(PATIENCE + words.wait()))?;
        // a program that has refused the connection may have said why
        let written = socket.write_all(format!("{}\n", words.request()).as_bytes());
        let mut line = String::new();
        let read = self.socket.by_ref().take(MOST_REPLY).read_line(&mut line);
        if line.is_empty() {
            written?;
        }
        read?;
        if line.is_empty() {
            return Err(CtlError::Closed);
        }
        let mut reply: Value = serde_json::from_str(&line).map_err(|_| CtlError::Strange)?;
        if let Some(error) = reply["error"].as_str() {
            return Err(CtlError::Refused(error.to_owned()));
        }
        match reply.get_mut(words.name()) {
            Some(value) if value.is_object() => Ok(value.take()),
            _ => Err(CtlError::Strange),
        }
    }
}

/// Shows what guests do each second, so many times or until the end, on `out`: with `clear` each time on a cleared terminal.
///
/// # Errors
///
/// See [`CtlError`]. Where `out` can't be written it ends well: its reader is gone.
pub fn top(socket: &Path, times: Option<u64>, clear: bool, out: &mut dyn Write) -> Result<(), CtlError> {
    let mut asker = Asker::connect(socket)?;
    let mut before = asker.ask(&Words::Figures)?;
    let mut left = times;
    while left != Some(0) {
        thread::sleep(SECOND);
        let now = asker.ask(&Words::Figures)?;
        let begin = if clear { "\x1b[H\x1b[2J" } else { "" };
        let text = format!("{begin}{}\n", looks::rates(&now, &before));
        if out.write_all(text.as_bytes()).and_then(|()| out.flush()).is_err() {
            return Ok(());
        }
        before = now;
        left = left.map(|left| left - 1);
    }
    Ok(())
}

/// Asks a running program: what there is to print. With `json` that is what the reply has, as one line.
///
/// # Errors
///
/// See [`CtlError`].
pub fn run(socket: &Path, words: &Words, json: bool) -> Result<Said, CtlError> {
    let reply = Asker::connect(socket)?.ask(words)?;
    let said = words.said(&reply);
    Ok(Said {
        text: if json { format!("{reply}\n") } else { said.text },
        good: said.good,
    })
}
