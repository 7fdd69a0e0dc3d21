//! The control socket: what an operator asks of the program while it runs.
//!
//! A thread of its own serves it, over what the other threads show ([`crate::board`]) and what they look at
//! ([`Orders`](crate::mediation::orders::Orders)). So no client of it can hold up the mediator's thread or a guest's. `docs/CONTROL.md` has the requests.

#![forbid(unsafe_code)]

pub mod connection;
pub mod desk;
pub mod request;
#[cfg(test)]
mod tests;

use std::io;
use std::os::fd::AsFd;
use std::sync::Arc;
use std::thread::{Builder, JoinHandle};
use std::time::{Duration, Instant};

use nix::poll::{poll, PollFd, PollFlags, PollTimeout};

use crate::mediation::wake::Bell;
use crate::mediation::Stop;
use crate::process::Listener;
use connection::{Asked, Connection};
use desk::{Answer, Desk};

/// Clients that may be connected at a time.
pub const MOST_CLIENTS: usize = 8;
/// The thread looks around so often, whether something has happened or not.
const ROUND: Duration = Duration::from_secs(1);
/// After a connection that cannot be taken, such as for want of descriptors, the next one is tried.
const PAUSE: Duration = Duration::from_millis(100);
/// A line on connections that are refused, so often at most.
const LINES: Duration = Duration::from_secs(1);

/// The thread of the control socket.
#[derive(Debug)]
pub struct Control {
    stop: Stop,
    thread: JoinHandle<()>,
}

/// A client, and until when its drain is waited for.
#[derive(Debug)]
struct Client {
    connection: Connection,
    drain: Option<Instant>,
}

/// The thread's own.
struct Server {
    listener: Listener,
    desk: Desk,
    stop: Stop,
    bell: Arc<Bell>,
    clients: Vec<Client>,
    /// Until then no connection is taken.
    paused: Option<Instant>,
    /// When a connection was last said to be refused.
    said: Option<Instant>,
}

impl Control {
    /// Serves a socket from a thread of its own.
    ///
    /// # Errors
    ///
    /// There is no thread to be had.
    pub fn start(listener: Listener, desk: Desk) -> io::Result<Self> {
        let bell = Arc::clone(desk.board().reader());
        let stop = Stop::new(Arc::clone(&bell));
        let server = Server {
            listener,
            desk,
            stop: stop.clone(),
            bell,
            clients: Vec::new(),
            paused: None,
            said: None,
        };
        let thread = Builder::new().name("control".to_owned()).spawn(move || server.run())?;
        Ok(Self { stop, thread })
    }

    /// Ends the thread, its connections, and the socket.
    pub fn end(self) {
        self.stop.ask();
        // it waits for nobody; where it has ended by itself there is nothing more to be done
        let _ended = self.thread.join();
    }
}

impl Server {
    fn run(mut self) {
        while !self.stop.is_asked() {
            let found = self.wait();
            let now = Instant::now();
            self.serve(&found, now);
            if self.paused.is_none_or(|until| now >= until) {
                self.paused = None;
                self.accept(now);
            }
        }
    }

    /// Waits until something has happened. What was found at the clients' sockets, in their order.
    fn wait(&self) -> Vec<PollFlags> {
        let now = Instant::now();
        let deadlines = self
            .clients
            .iter()
            .filter_map(|it| it.connection.deadline().or(it.drain));
        let end = deadlines.chain(self.paused).min().unwrap_or(now + ROUND);
        let most = end.saturating_duration_since(now).min(ROUND);
        let listens = if self.paused.is_none() {
            PollFlags::POLLIN
        } else {
            PollFlags::empty()
        };
        self.bell.lie_down();
        let mut fds = vec![
            PollFd::new(self.bell.fd(), PollFlags::POLLIN),
            PollFd::new(self.listener.as_fd(), listens),
        ];
        let clients = self.clients.iter();
        fds.extend(clients.map(|it| PollFd::new(it.connection.as_fd(), it.connection.events())));
        let is_due = self.stop.is_asked() || self.clients.iter().any(|it| self.is_answered(it, now));
        // whole milliseconds, rounded up
        let timeout = PollTimeout::try_from(most + Duration::from_micros(999)).unwrap_or(PollTimeout::ZERO);
        // an interruption is a round more
        let _found = poll(&mut fds, if is_due { PollTimeout::ZERO } else { timeout });
        let found = fds.iter().skip(2);
        let found = found.map(|fd| fd.revents().unwrap_or(PollFlags::empty())).collect();
        self.bell.get_up();
        found
    }

    /// Whether what a client waits for has come.
    fn is_answered(&self, client: &Client, now: Instant) -> bool {
        client
            .drain
            .is_some_and(|until| self.desk.drained(until, now).is_some())
    }

    /// Each client gets one request.
    fn serve(&mut self, found: &[PollFlags], now: Instant) {
        let clients = std::mem::take(&mut self.clients);
        for (mut client, &found) in clients.into_iter().zip(found) {
            if client.connection.ready(found, now) && self.serve_one(&mut client, now) {
                self.clients.push(client);
            }
        }
    }

    /// Whether the client stays.
    fn serve_one(&self, client: &mut Client, now: Instant) -> bool {
        if let Some(until) = client.drain {
            return match self.desk.drained(until, now) {
                Some(line) => {
                    client.drain = None;
                    client.connection.reply(&line, now)
                }
                None => true,
            };
        }
        let connection = &mut client.connection;
        match connection.next_request(now) {
            Asked::Nothing => connection.goes_on(now),
            Asked::Wrong(error) => connection.reply(&desk::refusal(&error), now),
            Asked::For(request) => match self.desk.answer(request, now) {
                Answer::Now(line) => connection.reply(&line, now),
                Answer::Drain(until) => {
                    connection.wait();
                    client.drain = Some(until);
                    true
                }
                Answer::End(line) => {
                    let stays = connection.reply(&line, now);
                    self.desk.end();
                    stays
                }
            },
        }
    }

    /// Takes a connection, if one waits. A client for which there is no place is told so.
    fn accept(&mut self, now: Instant) {
        match self.listener.accept() {
            Ok(None) => {}
            Ok(Some(socket)) => {
                let Ok(mut connection) = Connection::new(socket, now) else {
                    return;
                };
                if self.clients.len() < MOST_CLIENTS {
                    self.clients.push(Client {
                        connection,
                        drain: None,
                    });
                } else {
                    connection.close();
                    connection.reply(&desk::full(MOST_CLIENTS), now);
                }
            }
            Err(error) if error.kind() == io::ErrorKind::PermissionDenied => {
                self.say(now, format_args!("a connection is refused: {error}"));
            }
            // the socket stays readable, so it is not looked at for a while
            Err(error) => {
                self.paused = Some(now + PAUSE);
                self.say(now, format_args!("a connection cannot be taken: {error}"));
            }
        }
    }

    /// A line now and then: a client can cause as many as it likes.
    fn say(&mut self, now: Instant, words: std::fmt::Arguments<'_>) {
        if self
            .said
            .is_none_or(|said| now.saturating_duration_since(said) >= LINES)
        {
            self.said = Some(now);
            tracing::warn!("the control socket: {words}");
        }
    }
}
