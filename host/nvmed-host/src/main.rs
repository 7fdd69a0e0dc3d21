//! `nvmed-host`: virtual machines with unmodified drivers share an NVMe drive through the proved mediator.

#![forbid(unsafe_code)]

use std::io::{self, IsTerminal, Write};
use std::path::{Path, PathBuf};
use std::process::ExitCode;
use std::time::Duration;

use clap::error::ErrorKind;
use clap::{Arg, ArgAction, Command};
use nvmed_host::config::Config;
use nvmed_host::ctl::{self, Limited, Words};
use nvmed_host::host::{Host, Outcome};
use nvmed_host::log::Log;
use nvmed_host::signals::Signals;
use tracing_subscriber::filter::LevelFilter;

/// Statuses of the program.
const ENDED: u8 = 0;
const FAILED: u8 = 1;
const USAGE: u8 = 2;
const DRIVE_FAILED: u8 = 3;

/// How long the end waits for a reader of standard error.
const LAST_LINES: Duration = Duration::from_secs(1);

const LINES: &str = "\
The configuration has plain lines; '#' begins a comment, and a word in quotes may have spaces:

  drive ram SIZE [FILE]       a simulated drive, in memory or in a file
  drive file PATH             a file or a block device, by io_uring and direct I/O
  drive nvme /dev/ng0n1       an NVMe namespace that the kernel drives, by io_uring's passthrough commands
  drive qemu SOCKET FILE      the controller of a QEMU: its qtest socket, and the file that is the first part of its RAM
  drive vfio 0000:01:00.0     a controller that is bound to vfio-pci
  lanes N                     pairs of queues of the drive, 1 to 8 (1)
  control PATH                a socket for operators' requests, of this program's user and root
  spin N                      microseconds that the program goes on without a pause after its last event, 0 to 1000000 (100)
  guest G memory SIZE [FILE]  a guest, numbered from 0 in order, its memory, and the file for it
  extent G BASE BLOCKS        blocks of 512 bytes of the drive that are the guest's: one to eight such lines
  share G TAGS                of the 64 tags of each lane, at most so many (its part of those that are left)
  limit G iops N              commands a second, at most so many, 1 to 10000000 (as many as it likes)
  limit G bytes SIZE          bytes a second that they move, at most so many, 128K to 1024G (as many as it likes)
  descriptors G N             of a scatter gather list, 1 to 4096 (1024)
  version G 1.4               what its version register says, 1.0 to 2.0 (1.2)
  machine G q35|pc            the type of its machine (that of the words of start, or q35)
  trust G                     a file of memory that cannot be sealed is taken
  doorbells G page|messages   how it rings its doorbells (page)
  interrupts G messages|pin   how it is interrupted (messages)
  listen G PATH               its machine connects to this socket by vfio-user, or
  start G WORD..              its QEMU is started with these words; more such lines add words
  user G NAME                 the user whose processes may connect to the socket of listen (the program's own)

'nvmed-host ctl SOCKET WORDS..' asks a running program by the socket of its line 'control': 'nvmed-host ctl --help' has the words.
With --statistics a line a second says what the drive was given: of each guest its reads and writes, and their bytes.
Status: 0 where all guests ended or a signal ended it, 1 where it could not begin, 2 for wrong words, 3 where the drive failed.";

fn words() -> Command {
    Command::new("nvmed-host")
        .about("Virtual machines share an NVMe drive through a proved mediator.")
        .disable_version_flag(true)
        .after_help(LINES)
        .args_conflicts_with_subcommands(true)
        .subcommand_negates_reqs(true)
        .arg(
            Arg::new("statistics")
                .long("statistics")
                .action(ArgAction::SetTrue)
                .help("A line a second of what the drive was given"),
        )
        .arg(
            Arg::new("configuration")
                .value_name("CONFIGURATION")
                .required_unless_present("version")
                .value_parser(clap::value_parser!(PathBuf))
                .help("The file of the configuration"),
        )
        .arg(
            Arg::new("version")
                .long("version")
                .action(ArgAction::SetTrue)
                .help("The version of the program and of its library, and whether that is proved"),
        )
        .subcommand(
            Command::new("check")
                .about("Says what is wrong with a configuration, and starts nothing")
                .arg(
                    Arg::new("file")
                        .value_name("FILE")
                        .required(true)
                        .value_parser(clap::value_parser!(PathBuf))
                        .help("The file of the configuration"),
                ),
        )
        .subcommand(ctl_words())
}

fn ctl_words() -> Command {
    let wait = Arg::new("seconds")
        .value_name("SECONDS")
        .value_parser(clap::value_parser!(u64).range(0..=600))
        .help("How long that is waited for, 0 to 600 (30)");
    Command::new("ctl")
        .about("Asks a running program by its control socket")
        .subcommand_required(true)
        .disable_help_subcommand(true)
        .arg(
            Arg::new("json")
                .long("json")
                .action(ArgAction::SetTrue)
                .help("What the reply has, as it is"),
        )
        .arg(
            Arg::new("socket")
                .value_name("SOCKET")
                .required(true)
                .value_parser(clap::value_parser!(PathBuf))
                .help("That of the configuration's line 'control'"),
        )
        .subcommand(Command::new("state").about("What guests, lanes and the drive are at"))
        .subcommand(
            Command::new("figures")
                .about("How many commands guests had since the program's begin, and how long they took")
                .arg(
                    Arg::new("format")
                        .value_name("FORMAT")
                        .value_parser(["prometheus"])
                        .help("A text in Prometheus' format, and else tables"),
                ),
        )
        .subcommand(
            Command::new("top").about("What guests do, each second").arg(
                Arg::new("times")
                    .value_name("TIMES")
                    .value_parser(clap::value_parser!(u64).range(1..=1_000_000_000))
                    .help("So many times; without it until it is interrupted"),
            ),
        )
        .subcommand(limit_words())
        .subcommand(
            Command::new("drain")
                .about("Takes no commands of guests any more, and waits until those under way have run out")
                .arg(wait),
        )
        .subcommand(Command::new("resume").about("Takes commands again after a drain"))
        .subcommand(Command::new("end").about("Ends the program, as SIGTERM does"))
}

fn limit_words() -> Command {
    Command::new("limit")
        .about("Limits what a guest may have a second")
        .arg(
            Arg::new("guest")
                .value_name("G")
                .required(true)
                .value_parser(clap::value_parser!(u64).range(0..=15))
                .help("The guest's number"),
        )
        .arg(
            Arg::new("of")
                .value_name("OF")
                .required(true)
                .value_parser(["iops", "bytes"])
                .help("Commands, or bytes that they move"),
        )
        .arg(
            Arg::new("rate")
                .value_name("N")
                .required(true)
                .value_parser(rate)
                .help("So many, which may end with K, M or G; or 'none'"),
        )
}

/// A rate: a number that may end with K, M or G (2^10, 2^20, 2^30), or `none`, which is 0.
fn rate(word: &str) -> Result<u64, String> {
    if word == "none" {
        return Ok(0);
    }
    let units = [('K', 10), ('M', 20), ('G', 30)];
    let unit = units
        .iter()
        .find_map(|&(name, shift)| Some((word.strip_suffix(name)?, shift)));
    let (digits, shift) = unit.unwrap_or((word, 0));
    let number = digits.parse::<u64>().ok().filter(|&number| number != 0);
    let rate = number.and_then(|number| number.checked_mul(1 << shift));
    rate.ok_or_else(|| String::from("it is a number from 1 on, such as 500 or 10M, or 'none'"))
}

/// The version of this program, of the library's interface, and which kind of library there is.
fn version() -> String {
    let kind = nvmed::LIBRARY.warning().unwrap_or("its mediator is proved");
    format!(
        "{} (library {}: {kind})",
        env!("CARGO_PKG_VERSION"),
        nvmed::Version::of_library()
    )
}

fn main() -> ExitCode {
    let matches = match words().try_get_matches() {
        Ok(matches) => matches,
        Err(error) => {
            let asked = error.kind() == ErrorKind::DisplayHelp;
            // a reader that is gone has nothing to be told
            let _gone = error.print();
            return ExitCode::from(if asked { ENDED } else { USAGE });
        }
    };
    let path_of = |matches: &clap::ArgMatches, name| matches.get_one::<PathBuf>(name).cloned().unwrap_or_default();
    if let Some(("check", matches)) = matches.subcommand() {
        return ExitCode::from(check(&path_of(matches, "file")));
    }
    if let Some(("ctl", matches)) = matches.subcommand() {
        return ExitCode::from(ask(&path_of(matches, "socket"), matches));
    }
    if matches.get_flag("version") {
        println!("nvmed-host {}", version());
        return ExitCode::from(ENDED);
    }
    ExitCode::from(run(&path_of(&matches, "configuration"), matches.get_flag("statistics")))
}

/// Reads a configuration, and starts nothing.
fn check(path: &Path) -> u8 {
    match Config::read(path) {
        Ok(config) => {
            println!("{}: good, with {} guests", path.display(), config.guests.len());
            ENDED
        }
        Err(error) => {
            eprintln!("nvmed-host: {error}");
            FAILED
        }
    }
}

/// Asks a running program.
fn ask(socket: &Path, matches: &clap::ArgMatches) -> u8 {
    let words = match matches.subcommand() {
        Some(("drain", matches)) => Words::Drain(matches.get_one("seconds").copied()),
        Some(("figures", matches)) if matches.contains_id("format") => Words::Prometheus,
        Some(("figures", _)) => Words::Figures,
        Some(("top", matches)) => return top(socket, matches.get_one("times").copied()),
        Some(("limit", matches)) => Words::Limit {
            guest: matches.get_one("guest").copied().unwrap_or_default(),
            of: match matches.get_one::<String>("of").map(String::as_str) {
                Some("bytes") => Limited::Bytes,
                _ => Limited::Iops,
            },
            rate: matches.get_one("rate").copied().filter(|&rate| rate != 0),
        },
        Some(("resume", _)) => Words::Resume,
        Some(("end", _)) => Words::End,
        _ => Words::State,
    };
    match ctl::run(socket, &words, matches.get_flag("json")) {
        Ok(said) => {
            // a reader that is gone has nothing to be told
            let _gone = io::stdout().write_all(said.text.as_bytes());
            if said.good {
                ENDED
            } else {
                FAILED
            }
        }
        Err(error) => {
            eprintln!("nvmed-host: {error}");
            FAILED
        }
    }
}

/// Shows what guests of a running program do.
fn top(socket: &Path, times: Option<u64>) -> u8 {
    let mut out = io::stdout();
    let clear = out.is_terminal();
    match ctl::top(socket, times, clear, &mut out) {
        Ok(()) => ENDED,
        Err(error) => {
            eprintln!("nvmed-host: {error}");
            FAILED
        }
    }
}

/// Runs until all guests have ended or a signal comes.
fn run(path: &Path, counting: bool) -> u8 {
    // before other threads are there, which have this one's mask
    let signals = match Signals::take_over() {
        Ok(signals) => signals,
        Err(error) => {
            eprintln!("nvmed-host: signals cannot be taken: {error}");
            return FAILED;
        }
    };
    let log = match Log::start(LevelFilter::INFO) {
        Ok(log) => log,
        Err(error) => {
            eprintln!("nvmed-host: {error}");
            return FAILED;
        }
    };
    let status = serve(path, counting, &signals);
    log.flush(LAST_LINES);
    status
}

fn serve(path: &Path, counting: bool, signals: &Signals) -> u8 {
    if let Some(warning) = nvmed::LIBRARY.warning() {
        tracing::warn!("{warning}");
    }
    let config = match Config::read(path) {
        Ok(config) => config,
        Err(error) => {
            tracing::error!("{error}");
            return FAILED;
        }
    };
    let mut host = match Host::begin(&config, counting) {
        Ok(host) => host,
        Err(error) => {
            tracing::error!("{}: {error}", path.display());
            return FAILED;
        }
    };
    let waited = host.wait(signals);
    let outcome = host.end();
    match (waited, outcome) {
        (Err(error), _) => {
            tracing::error!("{}: {error}", path.display());
            FAILED
        }
        (Ok(()), Outcome::Good) => ENDED,
        (Ok(()), Outcome::DriveFailed) => DRIVE_FAILED,
    }
}
