use super::*;
use nix::fcntl::OFlag;
use std::fs::File;
use std::io::{BufRead, BufReader, Read};

const LONG: Duration = Duration::from_secs(20);

fn pipe(level: LevelFilter) -> (File, Log, impl Subscriber + Send + Sync) {
    let (from, to) = nix::unistd::pipe2(OFlag::O_CLOEXEC).unwrap();
    let (log, subscriber) = Log::to(to, level).unwrap();
    (from.into(), log, subscriber)
}

fn line(reader: &mut impl BufRead) -> String {
    let mut line = String::new();
    reader.read_line(&mut line).unwrap();
    line
}

/// What this thread says meanwhile: lines without their times.
pub(crate) fn said_by(run: impl FnOnce()) -> Vec<String> {
    let (from, _log, subscriber) = pipe(LevelFilter::INFO);
    tracing::subscriber::with_default(subscriber, || {
        run();
        tracing::info!("the end");
    });
    let mut from = BufReader::new(from);
    let lines = std::iter::from_fn(|| {
        line(&mut from)
            .trim_end()
            .split_once(' ')
            .map(|(_, rest)| rest.to_owned())
    });
    lines.take_while(|line| line != "INFO  the end").collect()
}

#[test]
fn lines_have_time_level_guest_and_fields() {
    let (from, log, subscriber) = pipe(LevelFilter::INFO);
    tracing::subscriber::with_default(subscriber, || {
        tracing::warn!(guest = 3, bytes = 17u64, name = "x", "it is {}", "odd");
        tracing::info!(guest = -1, "all is well");
        tracing::debug!("not shown");
        tracing::error!(guest = 4u64, flag = true, "a\nb");
    });
    assert!(log.flush(LONG));
    let mut from = BufReader::new(from);
    let lines = [line(&mut from), line(&mut from), line(&mut from)];
    let ends = lines.iter().map(|l| l.split_once(' ').unwrap().1).collect::<Vec<_>>();
    let wanted = [
        "WARN  guest 3: it is odd bytes=17 name=\"x\"\n",
        "INFO  all is well guest=-1\n",
    ];
    assert_eq!(ends[..2], wanted);
    assert_eq!(ends[2], "ERROR guest 4: a\\nb flag=true\n");
    assert!(lines.iter().all(|l| l.as_bytes()[23] == b'Z' && l.starts_with("20")));
}

/// A pipe that nobody reads: neither lines nor the end wait for it. When it is read, the number of those that were dropped comes in their place.
#[test]
fn nobody_reads() {
    let (from, log, subscriber) = pipe(LevelFilter::INFO);
    let begin = Instant::now();
    tracing::subscriber::with_default(subscriber, || {
        for i in 0..20_000 {
            tracing::info!("line {i} {}", "x".repeat(100));
        }
    });
    assert!(begin.elapsed() < Duration::from_secs(5));
    let begin = Instant::now();
    assert!(!log.flush(Duration::from_millis(50)));
    assert!(begin.elapsed() < Duration::from_secs(5));
    let mut from = BufReader::new(from);
    let (mut count, mut next) = (0, 0);
    while next < 20_000 {
        let line = line(&mut from);
        if let Some((_, report)) = line.split_once("WARN  ") {
            let (dropped, end) = report.split_once(' ').unwrap();
            assert_eq!(end, "lines were dropped: nobody read them in time\n");
            next += dropped.parse::<usize>().unwrap();
        } else {
            assert!(line.contains(&format!("line {next} ")));
            (count, next) = (count + 1, next + 1);
        }
    }
    assert_eq!(next, 20_000);
    assert!((LINES..20_000).contains(&count));
    assert!(log.flush(LONG));
}

/// What a guest's limit has left out comes by itself after a second, and at once at the end.
#[test]
fn what_was_left_out_is_told() {
    let (from, log, subscriber) = pipe(LevelFilter::INFO);
    let say = |times| (0..times).for_each(|_| tracing::info!(guest = 5, "again"));
    let mut from = BufReader::new(from);
    let mut nine = || (0..9).map(|_| line(&mut from)).collect::<Vec<_>>();
    tracing::subscriber::with_default(subscriber, || {
        say(30);
        assert!(nine()[8].ends_with("guest 5: 22 lines like these more\n"));
        say(11);
        assert!(log.flush(LONG));
        assert!(nine()[8].ends_with("guest 5: 3 lines like these more\n"));
    });
}

/// A descriptor that somebody made non-blocking: no byte is lost, and the thread doesn't spin.
#[test]
fn a_pipe_that_does_not_block() {
    let (from, to) = nix::unistd::pipe2(OFlag::O_CLOEXEC | OFlag::O_NONBLOCK).unwrap();
    let (log, subscriber) = Log::to(to, LevelFilter::INFO).unwrap();
    tracing::subscriber::with_default(subscriber, || {
        for i in 0..900 {
            tracing::info!("{i} {}", "x".repeat(200));
        }
    });
    assert!(!log.flush(Duration::from_millis(50)));
    let mut from = File::from(from);
    let (mut got, mut bytes) = (Vec::new(), [0; 4096]);
    while got.iter().filter(|&&b| b == b'\n').count() < 900 {
        match from.read(&mut bytes) {
            Ok(n) => got.extend_from_slice(&bytes[..n]),
            Err(_) => std::thread::sleep(Duration::from_millis(1)),
        }
    }
    let text = String::from_utf8(got).unwrap();
    assert!(text
        .lines()
        .enumerate()
        .all(|(i, l)| l.contains(&format!("INFO  {i} xxx"))));
    assert!(log.flush(LONG));
}

/// The reader is gone: lines are lost, and nothing ends or waits.
#[test]
fn the_reader_is_gone() {
    let (from, log, subscriber) = pipe(LevelFilter::INFO);
    drop(from);
    tracing::subscriber::with_default(subscriber, || tracing::info!("to nobody"));
    assert!(log.flush(LONG));
}

/// The whole program's log is started in a process of its own.
#[test]
fn it_is_started_once() {
    const CHILD: &str = "NVMED_HOST_TEST_CHILD";
    if std::env::var_os(CHILD).is_none() {
        let mut child = std::process::Command::new(std::env::current_exe().unwrap());
        child
            .args(["--exact", "--nocapture", "log::tests::it_is_started_once"])
            .env(CHILD, "1");
        let output = child.output().unwrap();
        let text = String::from_utf8(output.stderr).unwrap();
        assert!(output.status.success(), "{text}");
        assert!(
            text.contains("INFO  guest 2: begun\n") && !text.contains("hidden"),
            "{text}"
        );
        assert!(
            text.contains("ERROR the program has a fault: ") && text.contains("on purpose"),
            "{text}"
        );
        return;
    }
    let log = Log::start(LevelFilter::INFO).unwrap();
    assert!(matches!(Log::start(LevelFilter::OFF), Err(LogError::Started)));
    tracing::info!(guest = 2, "begun");
    tracing::debug!("hidden");
    assert!(std::thread::spawn(|| panic!("on purpose")).join().is_err());
    assert!(log.flush(LONG));
}
