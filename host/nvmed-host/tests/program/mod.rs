//! The program as a process of its own, for tests.
#![allow(dead_code, clippy::unwrap_used, clippy::expect_used, clippy::panic)]

use std::io::Read;
use std::os::unix::net::UnixStream;
use std::process::{Child, Command, Output, Stdio};
use std::time::{Duration, Instant};

use nix::sys::signal::{kill, Signal};
use nix::unistd::Pid;

use crate::client::{Client, Memory};
use crate::guest::{Bells, Folder, Guest, BYTES};

/// Where the program is.
pub const PROGRAM: &str = env!("CARGO_BIN_EXE_nvmed-host");

/// The program, which ends with this value.
pub struct Program(Child);

impl Program {
    /// Starts it with this configuration and words.
    pub fn start(folder: &Folder, text: &str, words: &[&str]) -> Self {
        Self::start_by(Command::new(PROGRAM), folder, text, words)
    }

    /// The same by a command that runs the program with the words that come after its own.
    pub fn start_by(mut command: Command, folder: &Folder, text: &str, words: &[&str]) -> Self {
        let path = folder.path("configuration");
        std::fs::write(&path, text).unwrap();
        let child = command
            .args(words)
            .arg(path)
            .stdin(Stdio::null())
            .stdout(Stdio::null())
            .stderr(Stdio::piped())
            .spawn()
            .unwrap();
        Self(child)
    }

    pub fn signal(&self, signal: Signal) {
        kill(Pid::from_raw(self.0.id() as i32), signal).unwrap();
    }

    /// Whether it has ended. It does not wait.
    pub fn has_ended(&mut self) -> bool {
        self.0.try_wait().unwrap().is_some()
    }

    /// Waits for its end.
    pub fn status(&mut self) -> i32 {
        self.0.wait().unwrap().code().unwrap()
    }

    /// What it has said until its end.
    pub fn said(&mut self) -> String {
        let mut text = String::new();
        self.0.stderr.take().unwrap().read_to_string(&mut text).unwrap();
        text
    }

    /// What a file of its folder in `/proc` says.
    pub fn about(&self, file: &str) -> String {
        std::fs::read_to_string(format!("/proc/{}/{file}", self.0.id())).unwrap()
    }

    /// Ticks of processor time, of all threads.
    pub fn ticks(&self) -> u64 {
        let stat = self.about("stat");
        let fields: Vec<&str> = stat.rsplit_once(')').unwrap().1.split_whitespace().collect();
        fields[11].parse::<u64>().unwrap() + fields[12].parse::<u64>().unwrap()
    }

    /// The number of its process.
    pub fn number(&self) -> u32 {
        self.0.id()
    }

    /// How many descriptors it has.
    pub fn descriptors(&self) -> usize {
        std::fs::read_dir(format!("/proc/{}/fd", self.0.id())).unwrap().count()
    }

    /// The numbers and names of its threads.
    pub fn threads(&self) -> Vec<(Pid, String)> {
        let folder = format!("/proc/{}/task", self.0.id());
        let threads = std::fs::read_dir(folder).unwrap().map(|it| it.unwrap().path());
        threads
            .filter_map(|it| {
                let number = it.file_name()?.to_str()?.parse().ok()?;
                let name = std::fs::read_to_string(it.join("comm")).ok()?;
                Some((Pid::from_raw(number), name.trim().to_owned()))
            })
            .collect()
    }
}

impl Drop for Program {
    fn drop(&mut self) {
        let _ = self.0.kill();
        let _ = self.0.wait();
    }
}

/// Runs it to its end: its status, and what it said on its standard output and error.
pub fn run(words: &[&str]) -> (i32, String, String) {
    let Output { status, stdout, stderr } = Command::new(PROGRAM).args(words).output().unwrap();
    let text = |bytes| String::from_utf8(bytes).unwrap();
    (status.code().unwrap(), text(stdout), text(stderr))
}

/// A guest that connects once the program listens: a socket's path is there a moment before that.
pub fn connect(folder: &Folder, name: &str) -> Guest {
    let begin = Instant::now();
    loop {
        match UnixStream::connect(folder.path(name)) {
            Ok(socket) => {
                let client = Client::on(socket).unwrap();
                return Guest::on(client, Memory::new(BYTES).unwrap(), Bells::Page).unwrap();
            }
            Err(error) => assert!(begin.elapsed() < Duration::from_secs(20), "{error}"),
        }
        std::thread::sleep(Duration::from_millis(5));
    }
}
