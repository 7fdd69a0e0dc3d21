use std::io::{Read, Write};
use std::os::fd::IntoRawFd;
use std::os::unix::fs::{symlink, MetadataExt};

use super::*;

const MIB: u64 = 1 << 20;

/// A folder of this test, removed at its end.
struct Folder(PathBuf);

impl Folder {
    fn new(name: &str) -> Self {
        let path = std::env::temp_dir().join(format!("nvmed-process-{name}-{}", std::process::id()));
        let _ = fs::remove_dir_all(&path);
        fs::create_dir(&path).unwrap();
        Self(path)
    }

    fn path(&self, name: &str) -> PathBuf {
        self.0.join(name)
    }
}

impl Drop for Folder {
    fn drop(&mut self) {
        let _ = fs::remove_dir_all(&self.0);
    }
}

fn words(list: &[&str]) -> Vec<OsString> {
    list.iter().map(OsString::from).collect()
}

/// A process that plays QEMU: a shell with a script, which gets the words that are added as its own.
fn start(script: &str) -> (Process, Listener, GuestFile) {
    let memory = GuestFile::make(MIB).unwrap();
    let (process, listener) = Process::start(&words(&["/bin/sh", "-c", script, "sh"]), Machine::Q35, &memory).unwrap();
    (process, listener, memory)
}

fn wait_for<T>(mut look: impl FnMut() -> Option<T>) -> T {
    let begin = Instant::now();
    loop {
        if let Some(value) = look() {
            return value;
        }
        assert!(begin.elapsed() < Duration::from_secs(20), "it does not come");
        thread::sleep(Duration::from_millis(2));
    }
}

fn accept(listener: &Listener) -> UnixStream {
    UnixStream::from(wait_for(|| listener.accept().unwrap()))
}

#[test]
fn a_socket_that_listens() {
    let folder = Folder::new("listens");
    let path = folder.path("s");
    let listener = Listener::bind(&path, None).unwrap();
    let about = fs::symlink_metadata(&path).unwrap();
    assert!(about.file_type().is_socket() && about.mode() & 0o777 == 0o600);
    assert_eq!(listener.path(), path);
    assert!(listener.accept().unwrap().is_none());
    for _ in 0..3 {
        let e = Listener::bind(&path, None).unwrap_err().to_string();
        assert_eq!(e, format!("{}: another process listens there", path.display()));
    }
    while listener.accept().unwrap().is_some() {}
    let mut client = UnixStream::connect(&path).unwrap();
    let mut taken = accept(&listener);
    client.write_all(b"x").unwrap();
    let mut byte = [0];
    taken.read_exact(&mut byte).unwrap();
    assert_eq!(byte, *b"x");
    drop(listener);
    assert!(!path.exists());
}

/// The kernel says whose process a client is.
#[test]
fn a_socket_for_a_user() {
    let folder = Folder::new("user");
    let path = folder.path("s");
    let own = Uid::effective();
    let listener = Listener::bind(&path, Some(own)).unwrap();
    assert_eq!(fs::symlink_metadata(&path).unwrap().mode() & 0o777, 0o666);
    let mut client = UnixStream::connect(&path).unwrap();
    let mut taken = accept(&listener);
    client.write_all(b"x").unwrap();
    assert_eq!(taken.read(&mut [0]).unwrap(), 1);
    drop(listener);

    let other = Uid::from_raw(own.as_raw() + 1);
    let listener = Listener::bind(&path, Some(other)).unwrap();
    let mut client = UnixStream::connect(&path).unwrap();
    let e = wait_for(|| listener.accept().map_or_else(Some, |_| None));
    assert_eq!(e.kind(), io::ErrorKind::PermissionDenied);
    assert_eq!(
        e.to_string(),
        format!("it is of user {own}, and user {other} is the one that may connect")
    );
    assert_eq!(client.read(&mut [0]).unwrap(), 0, "the connection is closed");
}

#[test]
fn a_socket_for_operators() {
    let folder = Folder::new("operators");
    let path = folder.path("s");
    let listener = Listener::bind_for_operators(&path).unwrap();
    assert_eq!(fs::symlink_metadata(&path).unwrap().mode() & 0o777, 0o600);
    let mut client = UnixStream::connect(&path).unwrap();
    let mut taken = accept(&listener);
    client.write_all(b"x").unwrap();
    assert_eq!(taken.read(&mut [0]).unwrap(), 1);
    drop(listener);

    // as the two users see it who are not this one
    let own = Uid::effective();
    let others = [1, 2].map(|more| Uid::from_raw(own.as_raw() + more));
    let listener = Listener::bind_with(&path, 0o600, Some(others.to_vec())).unwrap();
    let mut client = UnixStream::connect(&path).unwrap();
    let e = wait_for(|| listener.accept().map_or_else(Some, |_| None));
    assert_eq!(e.kind(), io::ErrorKind::PermissionDenied);
    let words = format!("it is of user {own}, and this program's own user and root may connect");
    assert_eq!(e.to_string(), words);
    assert_eq!(client.read(&mut [0]).unwrap(), 0, "the connection is closed");
}

#[test]
fn names_and_numbers_of_users() {
    assert_eq!(user_of("root").unwrap(), Uid::from_raw(0));
    assert_eq!(user_of("0").unwrap(), Uid::from_raw(0));
    assert_eq!(user_of("4294967294").unwrap(), Uid::from_raw(u32::MAX - 1));
    for none in ["no-such-user", "", "-1", "4294967295", "4294967296", "a\0b"] {
        let e = user_of(none).unwrap_err().to_string();
        assert_eq!(e, format!("there is no user {none}"));
    }
}

/// What a program leaves that did not end well is replaced.
#[test]
fn a_socket_that_was_left() {
    let folder = Folder::new("left");
    let path = folder.path("s");
    drop(UnixListener::bind(&path).unwrap());
    assert!(path.exists());
    // a process that another test is just starting has the socket until its program begins
    let listener = wait_for(|| Listener::bind(&path, None).ok());
    UnixStream::connect(&path).unwrap();
    assert!(listener.accept().unwrap().is_some());
}

/// Other things are left alone.
#[test]
fn paths_that_are_refused() {
    let folder = Folder::new("refused");
    let path = folder.path("s");
    let no_socket = |path: &Path| {
        let e = Listener::bind(path, None).unwrap_err().to_string();
        assert_eq!(e, format!("{}: is there, and no socket", path.display()));
        assert!(fs::symlink_metadata(path).is_ok());
    };
    drop(UnixListener::bind(folder.path("socket")).unwrap());
    symlink(folder.path("socket"), folder.path("link")).unwrap();
    fs::write(&path, "").unwrap();
    no_socket(&path);
    no_socket(&folder.path("link"));
    no_socket(&folder.0);
    no_socket(Path::new("/dev/null"));
    let fails = |path: &Path, words: &str| {
        let e = Listener::bind(path, None).unwrap_err().to_string();
        assert!(e.contains(": cannot be listened on: ") && e.contains(words), "{e}");
    };
    fails(&folder.path("none/s"), "No such file or directory");
    fails(&folder.path(&"s".repeat(108)), "");
    fails(Path::new(""), "");
}

/// What QEMU is given stands after the words of the configuration.
#[test]
fn words_that_are_added() {
    let added = added_words(
        &words(&["qemu", "-nographic"]),
        Machine::Pc,
        7,
        5 << 30,
        Path::new("/proc/self/fd/9/socket"),
    );
    assert_eq!(
        added,
        [
            "-m",
            "5368709120B",
            "-object",
            "memory-backend-file,id=nvmed-memory,share=on,size=5368709120,mem-path=/proc/self/fd/7",
            "-machine",
            "type=pc,memory-backend=nvmed-memory",
            "-device",
            r#"{"driver":"vfio-user-pci","id":"nvmed","socket":{"type":"unix","path":"/proc/self/fd/9/socket"}}"#,
        ]
    );
    let added = added_words(
        &words(&["qemu", "-M", "pc-q35-9.2"]),
        Machine::Q35,
        7,
        8192,
        Path::new("s"),
    );
    assert_eq!(added[5], "memory-backend=nvmed-memory");
}

#[test]
fn the_type_of_a_machine() {
    for (list, wanted) in [
        (&["qemu"] as &[&str], None),
        (&["qemu", "-M", "q35"], Some("q35")),
        (&["chroot", "/a", "qemu", "-machine", "pc,usb=on"], Some("pc")),
        (&["qemu", "--machine", "usb=on,type=pc"], Some("pc")),
        (&["qemu", "-M", "pc", "-machine", "usb=on", "--M", "q35"], Some("q35")),
        (&["qemu", "-machine", "usb=on"], None),
        (&["qemu", "-machine", ""], None),
        (&["qemu", "-machine", "usb=on,pc"], None),
        (&["qemu", "-machine"], None),
        (&["-M"], None),
        (&["q35", "-cpu", "q35"], None),
    ] {
        assert_eq!(machine_type(&words(list)).as_deref(), wanted, "{list:?}");
    }
    assert_eq!(machine_type(&[]), None);
}

#[test]
fn programs_that_cannot_be_started() {
    let memory = GuestFile::make(MIB).unwrap();
    let fails = |list: &[&str]| {
        Process::start(&words(list), Machine::Q35, &memory)
            .unwrap_err()
            .to_string()
    };
    assert_eq!(fails(&[]), "there is no program to start");
    assert_eq!(
        fails(&["/no/such/program"]),
        "/no/such/program: cannot be started: No such file or directory (os error 2)"
    );
    assert_eq!(
        fails(&["/dev/null"]),
        "/dev/null: cannot be started: Permission denied (os error 13)"
    );
}

/// The words arrive as they are: no shell takes them apart.
#[test]
fn a_process_gets_its_words() {
    let folder = Folder::new("words");
    let out = folder.path("out");
    let memory = GuestFile::make(MIB).unwrap();
    let script = r#"out=$1; shift; for w in "$@"; do printf '%s\n' "$w"; done > "$out.new"; mv "$out.new" "$out""#;
    let list = words(&[
        "/bin/sh",
        "-c",
        script,
        "sh",
        out.to_str().unwrap(),
        "a b",
        "$HOME; echo 'x'",
        "",
    ]);
    let (mut process, listener) = Process::start(&list, Machine::Q35, &memory).unwrap();
    let ended = wait_for(|| process.ended());
    assert!(ended.is_good() && process.ended() == Some(ended));
    let got = fs::read_to_string(&out).unwrap();
    let added = added_words(&list, Machine::Q35, memory.as_fd().as_raw_fd(), MIB, listener.path());
    let lines: Vec<_> = got.lines().collect();
    assert_eq!(lines[..3], ["a b", "$HOME; echo 'x'", ""]);
    assert_eq!(lines[3..], added);
}

/// The two paths lead to the guest's file and to the socket, in the process that has the descriptors.
#[test]
fn a_process_finds_memory_and_socket() {
    let (process, listener, memory) = start("exec sleep 100");
    let folder = listener.folder.as_ref().unwrap();
    let about = fs::symlink_metadata(&folder.path).unwrap();
    assert_eq!((about.mode() & 0o777, about.is_dir()), (0o700, true));
    let of_child = |path: &str| path.replace("/self/", &format!("/{}/", process.id()));
    let socket = of_child(listener.path().to_str().unwrap());
    wait_for(|| {
        fs::read(format!("/proc/{}/comm", process.id()))
            .ok()
            .filter(|name| name == b"sleep\n")
    });
    let mut client = UnixStream::connect(socket).unwrap();
    let mut taken = accept(&listener);
    client.write_all(b"hello").unwrap();
    let mut room = [0; 5];
    taken.read_exact(&mut room).unwrap();
    assert_eq!(room, *b"hello");
    let file = of_child(&path_of(memory.as_fd().as_raw_fd(), ""));
    let opened = fs::OpenOptions::new().read(true).write(true).open(file).unwrap();
    let identity = crate::memory::Identity::of(opened.as_fd()).unwrap();
    assert_eq!(identity, memory.identity());
    // the folder goes with the listener
    let path = folder.path.clone();
    drop(listener);
    assert!(!path.exists());
}

/// The descriptors that a process has, in order.
fn descriptors_of(process: u32) -> Vec<RawFd> {
    let mut open: Vec<RawFd> = fs::read_dir(format!("/proc/{process}/fd"))
        .unwrap()
        .map(|entry| entry.unwrap().file_name().to_str().unwrap().parse().unwrap())
        .collect();
    open.sort_unstable();
    open
}

/// It has no descriptor of this process but those that it is given, whatever this process was given itself.
#[test]
fn a_process_has_few_descriptors() {
    let leaked = fs::File::open("/dev/null").unwrap();
    let number = leaked.into_raw_fd();
    nix::fcntl::fcntl(number, nix::fcntl::FcntlArg::F_SETFD(nix::fcntl::FdFlag::empty())).unwrap();
    let (process, listener, memory) = start("exec sleep 100");
    wait_for(|| {
        fs::read(format!("/proc/{}/comm", process.id()))
            .ok()
            .filter(|name| name == b"sleep\n")
    });
    let folder = listener.folder.as_ref().unwrap().descriptor.as_raw_fd();
    let mut wanted = vec![0, 1, 2, memory.as_fd().as_raw_fd(), folder];
    wanted.sort_unstable();
    // its loader has one more for a moment
    wait_for(|| (descriptors_of(process.id()) == wanted).then_some(()));
    nix::unistd::close(number).unwrap();
}

/// Signals that this process ignores or blocks are not ignored or blocked there.
#[test]
fn a_process_has_its_signals() {
    let (started, done) = (std::sync::mpsc::channel(), std::sync::mpsc::channel::<()>());
    let thread = thread::spawn(move || {
        let mut set = nix::sys::signal::SigSet::empty();
        for signal in [Signal::SIGTERM, Signal::SIGHUP, Signal::SIGUSR1] {
            set.add(signal);
        }
        set.thread_block().unwrap();
        started.0.send(start("exec sleep 100")).unwrap();
        // the process lives as long as this thread
        let _ = done.1.recv();
    });
    let (mut process, ..) = started.1.recv().unwrap();
    let status = || fs::read_to_string(format!("/proc/{}/status", process.id())).unwrap();
    let status = wait_for(|| Some(status()).filter(|s| s.starts_with("Name:\tsleep\n")));
    for name in ["SigBlk:\t", "SigIgn:\t"] {
        let line = status.lines().find_map(|line| line.strip_prefix(name)).unwrap();
        // the C library keeps signals 32 and 33 for itself, and lets nobody change them
        let signals = u64::from_str_radix(line, 16).unwrap() & !(3 << 31);
        assert_eq!(signals, 0, "{name}");
    }
    drop(done.0);
    thread.join().unwrap();
    let ended = wait_for(|| process.ended());
    assert_eq!(ended.to_string(), "ended by signal 15");
}

#[test]
fn how_a_process_ends() {
    let (mut process, ..) = start("exit 3");
    let ended = wait_for(|| process.ended());
    assert_eq!(
        (ended.to_string().as_str(), ended.is_good()),
        ("ended with status 3", false)
    );
    assert_eq!(process.stop(STOP_WAIT), Some(ended));
    let (mut process, ..) = start("exec sleep 100");
    assert_eq!(process.ended(), None);
    let ended = process.stop(STOP_WAIT).unwrap();
    assert_eq!(ended.to_string(), "ended by signal 15");
    // one that does not listen
    let folder = Folder::new("ends");
    let ready = folder.path("ready");
    let script = format!("trap '' TERM; : > {}; while :; do sleep 0.05; done", ready.display());
    let (mut process, ..) = start(&script);
    wait_for(|| ready.exists().then_some(()));
    let begin = Instant::now();
    let ended = process.stop(Duration::from_millis(100)).unwrap();
    assert_eq!(ended.to_string(), "ended by signal 9");
    assert!(begin.elapsed() >= Duration::from_millis(100));
    // one that is dropped
    let (process, ..) = start("exec sleep 100");
    let id = process.id();
    drop(process);
    assert!(!Path::new(&format!("/proc/{id}")).exists());
}

/// It ends where the thread that started it ends.
#[test]
fn a_process_ends_with_its_thread() {
    let (mut process, ..) = thread::spawn(|| start("exec sleep 100")).join().unwrap();
    assert_eq!(wait_for(|| process.ended()).to_string(), "ended by signal 15");
}
