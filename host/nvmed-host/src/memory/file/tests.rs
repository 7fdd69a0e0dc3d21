use std::fs;
use std::io::Write;
use std::os::unix::fs::symlink;
use std::process::Command;

use nix::sys::stat::Mode;

use super::*;

const MIB: u64 = 1 << 20;

/// A folder of this test, removed at its end.
struct Folder(PathBuf);

impl Folder {
    fn new(name: &str) -> Self {
        let path = std::env::temp_dir().join(format!("nvmed-file-{name}-{}", std::process::id()));
        let _ = fs::remove_dir_all(&path);
        fs::create_dir(&path).unwrap();
        Self(path)
    }

    fn path(&self, name: &str) -> PathBuf {
        self.0.join(name)
    }
}

impl Drop for Folder {
    fn drop(&mut self) {
        let _ = fs::remove_dir_all(&self.0);
    }
}

fn memfd(bytes: u64, seals: SealFlag) -> OwnedFd {
    let flags = MemFdCreateFlag::MFD_CLOEXEC | MemFdCreateFlag::MFD_ALLOW_SEALING;
    let fd = memfd_create(c"client", flags).unwrap();
    ftruncate(&fd, bytes as i64).unwrap();
    fcntl(fd.as_raw_fd(), FcntlArg::F_ADD_SEALS(seals)).unwrap();
    fd
}

fn blocks(path: &Path) -> u64 {
    fs::metadata(path).unwrap().blocks()
}

#[test]
fn a_file_that_is_made_keeps_its_length() {
    let file = GuestFile::make(MIB).unwrap();
    assert_eq!(
        (file.bytes(), status(file.as_fd(), WANTED).unwrap().stx_size),
        (MIB, MIB)
    );
    assert_eq!(status(file.as_fd(), libc::STATX_BLOCKS).unwrap().stx_blocks, 0);
    assert_eq!(file.identity(), Identity::of(file.as_fd()).unwrap());
    for length in [0, 4096, 2 * MIB as i64] {
        assert_eq!(ftruncate(file.as_fd(), length), Err(Errno::EPERM));
    }
    let seals = SealFlag::F_SEAL_WRITE;
    assert_eq!(
        fcntl(file.as_fd().as_raw_fd(), FcntlArg::F_ADD_SEALS(seals)),
        Err(Errno::EPERM)
    );
    assert_ne!(GuestFile::make(MIB).unwrap().identity(), file.identity());
    for bytes in [1 << 63, u64::MAX] {
        let e = GuestFile::make(bytes).unwrap_err().to_string();
        assert!(
            e.starts_with(&format!("a file of memory of {bytes} bytes cannot be made: ")),
            "{e}"
        );
    }
}

/// A file is made or made longer without taking room, and is as it was where it is refused.
#[test]
fn a_named_file() {
    let folder = Folder::new("named");
    let path = folder.path("m");
    let file = GuestFile::named(&path, 1 << 40).unwrap();
    assert_eq!(
        (fs::metadata(&path).unwrap().len(), blocks(&path), file.bytes()),
        (1 << 40, 0, 1 << 40)
    );
    assert_eq!(fs::metadata(&path).unwrap().mode() & 0o777, 0o600);
    drop(file);
    GuestFile::named(&path, 1 << 40).unwrap();
    let e = GuestFile::named(&path, MIB).unwrap_err().to_string();
    let shown = path.display();
    assert_eq!(
        e,
        format!("{shown}: has 1099511627776 bytes, not 1048576: remove it, or say 'memory 1099511627776'")
    );
    assert_eq!(fs::metadata(&path).unwrap().len(), 1 << 40);
    // an empty one is made longer
    fs::File::create(&path).unwrap();
    GuestFile::named(&path, MIB).unwrap();
    assert_eq!((fs::metadata(&path).unwrap().len(), blocks(&path)), (MIB, 0));
    fs::OpenOptions::new()
        .write(true)
        .open(&path)
        .unwrap()
        .write_all(b"abc")
        .unwrap();
    GuestFile::named(&path, MIB).unwrap();
    assert_eq!(fs::read(&path).unwrap()[..4], *b"abc\0");
    fs::remove_file(&path).unwrap();
    let e = GuestFile::named(&path, 1 << 63).unwrap_err().to_string();
    assert!(
        e.starts_with(&format!("{shown}: cannot have 9223372036854775808 bytes: ")),
        "{e}"
    );
}

#[test]
fn names_that_are_no_memory() {
    let folder = Folder::new("names");
    let open = |name: &str| GuestFile::named(&folder.path(name), MIB).unwrap_err().to_string();
    fs::create_dir(folder.path("folder")).unwrap();
    fs::write(folder.path("file"), "").unwrap();
    symlink(folder.path("file"), folder.path("link")).unwrap();
    nix::unistd::mkfifo(&folder.path("pipe"), Mode::S_IRWXU).unwrap();
    assert!(open("folder").ends_with("folder: cannot open: Is a directory (os error 21)"));
    assert!(open("link").contains("link: cannot open: Too many levels of symbolic links"));
    assert!(open("none/file").contains("none/file: cannot open: No such file or directory"));
    assert!(open("pipe").ends_with("pipe: is no regular file"));
    let e = GuestFile::named(Path::new("/dev/null"), MIB).unwrap_err().to_string();
    assert_eq!(e, "/dev/null: is no regular file");
    assert_eq!(fs::metadata(folder.path("file")).unwrap().len(), 0);
}

#[test]
fn a_file_that_has_to_be_there() {
    let folder = Folder::new("existing");
    let path = folder.path("m");
    let e = GuestFile::existing(&path).unwrap_err().to_string();
    assert!(
        e.contains("m: cannot open: No such file or directory") && !path.exists(),
        "{e}"
    );
    fs::write(&path, "").unwrap();
    assert!(matches!(
        GuestFile::existing(&path),
        Err(FileError::Length { has: 0, .. })
    ));
    fs::File::create(&path).unwrap().set_len(3 * MIB).unwrap();
    assert_eq!(GuestFile::existing(&path).unwrap().bytes(), 3 * MIB);
    assert!(matches!(
        GuestFile::existing(&folder.0),
        Err(FileError::NotRegular { .. })
    ));
}

/// Two guests, or a guest and the drive, cannot have one file, by whichever names.
#[test]
fn a_file_is_had_once() {
    let folder = Folder::new("once");
    let [path, other] = [folder.path("a"), folder.path("b")];
    let file = GuestFile::named(&path, MIB).unwrap();
    fs::hard_link(&path, &other).unwrap();
    for name in [&path, &other] {
        let e = GuestFile::named(name, MIB).unwrap_err().to_string();
        assert_eq!(
            e,
            format!("{}: is used already, by this name or another", name.display())
        );
        assert!(matches!(GuestFile::existing(name), Err(FileError::Used { .. })));
    }
    // also by a descriptor that a client sends
    let sent = fs::OpenOptions::new().read(true).write(true).open(&other).unwrap();
    let e = GuestFile::adopt(sent.into(), MIB, Trust::Any).unwrap_err().to_string();
    assert_eq!(e, "the machine's memory: is used already, by this name or another");
    drop(file);
    GuestFile::named(&other, MIB).unwrap();
    // a client's file is one guest's, too
    let fd = memfd(MIB, SealFlag::empty());
    let first = GuestFile::adopt(fd.try_clone().unwrap(), MIB, Trust::Sealed).unwrap();
    assert!(matches!(
        GuestFile::adopt(fd.try_clone().unwrap(), MIB, Trust::Sealed),
        Err(FileError::Used { .. })
    ));
    drop(first);
    GuestFile::adopt(fd, MIB, Trust::Sealed).unwrap();
    let made = GuestFile::make(MIB).unwrap();
    let sent = made.as_fd().try_clone_to_owned().unwrap();
    assert!(matches!(
        GuestFile::adopt(sent, MIB, Trust::Sealed),
        Err(FileError::Used { .. })
    ));
}

/// Nor can two programs: the other one here is `flock` of util-linux.
#[test]
fn another_program_has_the_file() {
    let folder = Folder::new("flock");
    let path = folder.path("m");
    let tried = |path: &str| Command::new("flock").args(["-n", "-x", path, "true"]).status();
    let file = GuestFile::named(&path, MIB).unwrap();
    match tried(path.to_str().unwrap()) {
        Err(_) => return eprintln!("left out: there is no flock here"),
        Ok(status) => assert_eq!(status.code(), Some(1)),
    }
    drop(file);
    assert!(tried(path.to_str().unwrap()).unwrap().success());
    // a client's file is locked, too, whatever locks the client has
    let fd = memfd(MIB, SealFlag::empty());
    let adopted = GuestFile::adopt(fd.try_clone().unwrap(), MIB, Trust::Sealed).unwrap();
    let name = format!("/proc/{}/fd/{}", std::process::id(), fd.as_raw_fd());
    assert_eq!(tried(&name).unwrap().code(), Some(1));
    drop(adopted);
    assert!(tried(&name).unwrap().success());
    let lock = OpenOptions::new().read(true).write(true).open(&path).unwrap();
    let lock = Flock::lock(OwnedFd::from(lock), FlockArg::LockExclusiveNonblock).unwrap();
    assert!(matches!(GuestFile::named(&path, MIB), Err(FileError::Used { .. })));
    let sent = OpenOptions::new().read(true).write(true).open(&path).unwrap();
    assert!(matches!(
        GuestFile::adopt(sent.into(), MIB, Trust::Any),
        Err(FileError::Used { .. })
    ));
    drop(lock);
}

/// A client's memory is sealed by the program: from then on it cannot be cut off.
#[test]
fn a_clients_file_is_sealed() {
    let shrink = SealFlag::F_SEAL_SHRINK;
    for before in [
        SealFlag::empty(),
        shrink,
        shrink | SealFlag::F_SEAL_GROW | SealFlag::F_SEAL_SEAL,
    ] {
        let fd = memfd(2 * MIB, before);
        let file = GuestFile::adopt(fd.try_clone().unwrap(), MIB, Trust::Sealed).unwrap();
        assert_eq!(ftruncate(&fd, MIB as i64), Err(Errno::EPERM), "{before:?}");
        assert_eq!(
            (file.bytes(), file.identity()),
            (MIB, Identity::of(fd.as_fd()).unwrap())
        );
    }
}

#[test]
fn a_clients_file_that_cannot_be_sealed() {
    let folder = Folder::new("unsealed");
    let path = folder.path("m");
    let plain = || {
        let file = OpenOptions::new()
            .read(true)
            .write(true)
            .create(true)
            .truncate(false)
            .open(&path)
            .unwrap();
        file.set_len(MIB).unwrap();
        OwnedFd::from(file)
    };
    let unsealable = || {
        let fd = memfd_create(c"client", MemFdCreateFlag::MFD_CLOEXEC).unwrap();
        ftruncate(&fd, MIB as i64).unwrap();
        fd
    };
    let closed = || memfd(MIB, SealFlag::F_SEAL_SEAL);
    for fd in [&plain as &dyn Fn() -> OwnedFd, &unsealable, &closed] {
        let e = GuestFile::adopt(fd(), MIB, Trust::Sealed).unwrap_err();
        assert!(matches!(e, FileError::Unsealed(_)));
        let text = e.to_string();
        assert!(
            text.ends_with("give it a 'memory-backend-memfd', or say 'trust' of the guest"),
            "{text}"
        );
        assert_eq!(GuestFile::adopt(fd(), MIB, Trust::Any).unwrap().bytes(), MIB);
    }
}

#[test]
fn a_clients_descriptor_that_is_no_memory() {
    let folder = Folder::new("no-memory");
    fs::write(folder.path("f"), vec![0; 4096]).unwrap();
    let read_only = || OwnedFd::from(fs::File::open(folder.path("f")).unwrap());
    let e = GuestFile::adopt(read_only(), 4096, Trust::Any).unwrap_err().to_string();
    assert_eq!(
        e,
        "the machine's memory cannot be written by others: it needs a backend with share=on"
    );
    for seal in [SealFlag::F_SEAL_WRITE, SealFlag::F_SEAL_FUTURE_WRITE] {
        let fd = memfd(MIB, seal);
        assert!(
            matches!(GuestFile::adopt(fd, MIB, Trust::Any), Err(FileError::ReadOnly)),
            "{seal:?}"
        );
    }
    let e = GuestFile::adopt(memfd(MIB - 4096, SealFlag::empty()), MIB, Trust::Sealed)
        .unwrap_err()
        .to_string();
    let advice = "give the machine as much memory as the line 'guest' says";
    assert_eq!(
        e,
        format!("the machine's memory is a file of 1044480 bytes, and the guest has 1048576: {advice}")
    );
    let (ours, theirs) = std::os::unix::net::UnixStream::pair().unwrap();
    assert!(matches!(
        GuestFile::adopt(ours.into(), MIB, Trust::Sealed),
        Err(FileError::Unsealed(_))
    ));
    let e = GuestFile::adopt(theirs.into(), MIB, Trust::Any)
        .unwrap_err()
        .to_string();
    assert_eq!(e, "the machine's memory: is no regular file");
}

#[test]
fn what_a_file_is() {
    let fd = memfd(MIB, SealFlag::empty());
    let other = fd.try_clone().unwrap();
    assert_eq!(Identity::of(fd.as_fd()).unwrap(), Identity::of(other.as_fd()).unwrap());
    let third = memfd(MIB, SealFlag::empty());
    assert_ne!(Identity::of(fd.as_fd()).unwrap(), Identity::of(third.as_fd()).unwrap());
}
