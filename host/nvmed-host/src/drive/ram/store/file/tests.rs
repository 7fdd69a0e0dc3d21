//! What is done on file systems that can do less than others, and with the errors of the kernel.

use std::os::unix::fs::FileExt;

use super::*;
use crate::drive::testing::{Folder, Random};

const BYTES: u64 = 400_000;

/// A file in memory, in a store as for a file on a disk.
fn store(length: u64) -> FileStore {
    let flags = nix::sys::memfd::MemFdCreateFlag::MFD_CLOEXEC | nix::sys::memfd::MemFdCreateFlag::MFD_ALLOW_SEALING;
    let file = File::from(nix::sys::memfd::memfd_create(c"image", flags).expect("a file"));
    file.set_len(length).expect("a length");
    let path = PathBuf::from(format!("/proc/self/fd/{}", file.as_raw_fd()));
    FileStore::open(&path, BYTES).expect("a store")
}

fn bytes(store: &FileStore) -> Vec<u8> {
    let mut bytes = vec![0; BYTES as usize];
    store.file.read_exact_at(&mut bytes, 0).expect("its bytes");
    bytes
}

/// A file system that makes no holes and no zeros, as many have none: zeros are written, and nothing beside them.
#[test]
fn zeros_are_written_where_they_cannot_be_had() {
    let store = store(BYTES);
    store.has_holes.store(false, Ordering::Relaxed);
    store.has_zeros.store(false, Ordering::Relaxed);
    let piece = ZEROS.len() as u64;
    for (offset, length) in [
        (0, 512),
        (512, piece - 512),
        (1024, piece),
        (piece + 512, 2 * piece + 1024),
        (BYTES - 512, 512),
    ] {
        for gives_back in [false, true] {
            store.file.write_all_at(&[0xa5; BYTES as usize], 0).expect("bytes");
            store.zero(offset, length, gives_back).expect("zeros");
            let zeros = offset as usize..(offset + length) as usize;
            for (at, byte) in bytes(&store).iter().enumerate() {
                assert_eq!(
                    *byte,
                    if zeros.contains(&at) { 0 } else { 0xa5 },
                    "{offset} {length}: {at}"
                );
            }
        }
    }
}

/// It is found out once what a file system can't do, and it isn't asked again. tmpfs makes holes, and no zeros.
#[test]
fn a_way_that_there_is_not_is_asked_for_once() {
    let store = store(BYTES);
    let zeros = FallocateFlags::FALLOC_FL_ZERO_RANGE;
    let holes = FallocateFlags::FALLOC_FL_PUNCH_HOLE;
    let able = AtomicBool::new(true);
    assert!(store.allocate(&able, holes, 0, 4096).expect("a hole"));
    assert!(able.load(Ordering::Relaxed));
    assert!(!store.allocate(&able, zeros, 0, 4096).expect("no error"));
    assert!(!able.load(Ordering::Relaxed));
    assert!(
        !store.allocate(&able, holes, 0, 4096).expect("no error"),
        "it is not asked"
    );
}

/// Nothing may be written into the file any more: each way to make zeros says so.
#[test]
fn zeros_that_are_refused_are_errors() {
    let store = store(BYTES);
    let fd = store.fd();
    nix::fcntl::fcntl(
        fd,
        nix::fcntl::FcntlArg::F_ADD_SEALS(nix::fcntl::SealFlag::F_SEAL_WRITE),
    )
    .expect("a seal");
    for has_holes in [true, false] {
        store.has_holes.store(has_holes, Ordering::Relaxed);
        let error = store.zero(0, 4096, true).expect_err("a sealed file");
        assert_eq!(error.raw_os_error(), Some(libc::EPERM));
    }
}

/// Beyond what the kernel can name as an offset.
#[test]
fn offsets_that_are_none() {
    let store = store(BYTES);
    assert!(store.zero(u64::MAX, 512, true).is_err() && store.zero(0, u64::MAX, true).is_err());
    assert_eq!(store.next_data(u64::MAX - 1, u64::MAX), u64::MAX - 1);
    assert_eq!(store.next_hole(u64::MAX - 1, u64::MAX), u64::MAX);
}

fn write(store: &FileStore, offset: u64, byte: u8, bytes: u64, wait: Wait) -> io::Result<()> {
    let mut bytes = vec![byte; bytes as usize];
    store.write(offset, &[VolatileSlice::from(&mut bytes[..])], wait)
}

/// A file system with zeros in place keeps the room until nobody writes; another gives it back at once. Either way all is zero from the first moment on.
#[test]
fn room_is_given_back_when_nobody_writes() {
    const SIZE: u64 = 4 << 20;
    let folder = Folder::new();
    let store = FileStore::open(&folder.file("image"), SIZE).expect("a store");
    let allocated = || store.file.metadata().expect("the image").blocks() * 512;
    write(&store, 0, 0x5a, SIZE, Wait::Allowed).expect("written");
    store.sync().expect("a sync");
    assert!(allocated() >= SIZE);
    store.zero(512, SIZE - 1024, true).expect("zeros");
    let mut seen = vec![0; SIZE as usize];
    store.file.read_exact_at(&mut seen, 0).expect("its bytes");
    let is_right = |(at, byte): (usize, &u8)| {
        *byte
            == if (512..SIZE as usize - 512).contains(&at) {
                0
            } else {
                0x5a
            }
    };
    assert!(seen.iter().enumerate().all(is_right));
    if store.keeps_room() {
        assert!(allocated() >= SIZE);
        write(&store, 1 << 20, 0x5a, 4096, Wait::Allowed).expect("written");
        assert!(store.give_back().is_none(), "somebody has written");
        assert!(store.give_back().is_some());
        write(&store, 3 << 20, 0x5a, 4096, Wait::Allowed).expect("written");
        assert!(store.give_back().is_none());
        while store.give_back().is_some() {}
    }
    assert!(!store.keeps_room());
    store.sync().expect("a sync");
    assert!(allocated() <= 65536);
}

/// Three threads change blocks of their own and look at them, while a fourth one punches holes.
#[test]
fn no_hole_takes_what_was_written() {
    const OWN: u64 = 1 << 20;
    let folder = Folder::new();
    let store = FileStore::open(&folder.file("image"), 3 * OWN).expect("a store");
    let is_over = AtomicBool::new(false);
    let work = |thread: u64| {
        let mut random = Random::new(thread + 1);
        let mut expected = vec![0; OWN as usize];
        for round in 0..1500u32 {
            let from = random.below(OWN / 512) * 512;
            let bytes = 512 * (1 + random.below(64)).min((OWN - from) / 512);
            let place = from as usize..(from + bytes) as usize;
            if random.below(2) == 0 {
                store.zero(thread * OWN + from, bytes, true).expect("zeros");
                expected[place].fill(0);
                continue;
            }
            let byte = 1 + (round % 255) as u8;
            let wait = if random.below(2) == 0 {
                Wait::Never
            } else {
                Wait::Allowed
            };
            match write(&store, thread * OWN + from, byte, bytes, wait) {
                Err(error) if error.kind() == io::ErrorKind::WouldBlock => {
                    write(&store, thread * OWN + from, byte, bytes, Wait::Allowed).expect("written");
                }
                written => written.expect("written"),
            }
            expected[place].fill(byte);
            if random.below(4) == 0 {
                let mut seen = vec![0; OWN as usize];
                store.file.read_exact_at(&mut seen, thread * OWN).expect("its bytes");
                assert!(seen == expected, "thread {thread}, round {round}");
            }
        }
    };
    std::thread::scope(|scope| {
        let puncher = scope.spawn(|| {
            while !is_over.load(Ordering::SeqCst) {
                let _taken = store.give_back();
                store.give_all_back(Duration::from_micros(50));
            }
        });
        let workers: Vec<_> = (0..3).map(|thread| scope.spawn(move || work(thread))).collect();
        let results: Vec<_> = workers.into_iter().map(std::thread::ScopedJoinHandle::join).collect();
        is_over.store(true, Ordering::SeqCst);
        puncher.join().expect("the puncher");
        assert!(results.iter().all(Result::is_ok));
    });
}

/// A write that finds no room gets what zeros have kept, as much as it takes, and fails where that was not enough.
#[test]
fn a_full_file_system_takes_what_zeros_have_kept() {
    let store = store(BYTES);
    let range = Extent { from: 0, to: 4096 };
    for error in [libc::ENOSPC, libc::EDQUOT] {
        let write = |enough: usize| {
            let mut tries = 0;
            let written = store.write_with_room(range, || {
                tries += 1;
                if tries > enough {
                    Ok(())
                } else {
                    Err(io::Error::from_raw_os_error(error))
                }
            });
            (written.map_err(|error| error.raw_os_error()), tries)
        };
        let note = || {
            for at in [1, 3, 5] {
                store.room.add(Extent {
                    from: at << 16,
                    to: (at << 16) + 4096,
                });
            }
        };
        note();
        assert_eq!(write(0), (Ok(()), 1));
        assert_eq!(write(2), (Ok(()), 3));
        assert!(store.keeps_room(), "no more than it takes");
        note();
        assert_eq!(write(3), (Ok(()), 4));
        assert!(!store.keeps_room());
        note();
        assert_eq!(write(usize::MAX), (Err(Some(error)), 4));
    }
    // No other error takes room.
    store.room.add(range);
    let failed = store.write_with_room(range, || Err(io::Error::from_raw_os_error(libc::EIO)));
    assert!(failed.is_err());
}

/// A sync that finds much to write writes it back piece by piece, where the file system does that, and takes each piece once.
#[test]
fn much_is_written_back_before_a_sync() {
    for writes_back in [true, false] {
        let store = FileStore {
            bytes: 8 * CHUNK,
            dirty: Dirty::new(8 * CHUNK),
            writes_back: AtomicBool::new(writes_back),
            ..store(8 * CHUNK)
        };
        store.dirty.mark(0, 8 * CHUNK);
        store.sync().expect("a sync");
        assert!(store.dirty.take().is_empty());
        store.sync().expect("a sync of nothing");
    }
}

#[test]
fn folders_of_names() {
    for (name, folder) in [
        ("image", "."),
        ("a/image", "a"),
        ("/image", "/"),
        ("/a/b/image", "/a/b"),
    ] {
        assert_eq!(folder_of(Path::new(name)), PathBuf::from(folder), "{name}");
    }
    sync_folder(Path::new(".")).expect("a folder");
    // a file system without such a thing
    sync_folder(Path::new("/proc")).expect("a folder");
    assert!(sync_folder(Path::new("/no/such/folder")).is_err());
}
