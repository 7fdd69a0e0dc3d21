use super::*;
use std::os::fd::AsRawFd;
use std::sync::atomic::AtomicBool;

/// As the client has it.
fn map(page: &Page) -> MmapRegion<()> {
    let file = File::from(page.file().unwrap().try_clone_to_owned().unwrap());
    MmapRegion::from_file(FileOffset::new(file, DOORBELLS), PAGE_BYTES as usize).unwrap()
}

fn store(client: &MmapRegion<()>, at: usize, value: u32) {
    client
        .get_atomic_ref::<AtomicU32>(at)
        .unwrap()
        .store(value, Ordering::Release);
}

#[test]
fn values_are_taken_once_in_ascending_order() {
    let page = Page::new().unwrap();
    let client = map(&page);
    assert_eq!(page.take().count(), 0);
    store(&client, 0x44, 7);
    store(&client, 0x00, 0);
    store(&client, 0x08, 1);
    store(&client, 0x08, 2);
    assert_eq!(page.take().collect::<Vec<_>>(), [(0x1000, 0), (0x1008, 2), (0x1044, 7)]);
    assert_eq!(page.take().count(), 0);
    store(&client, 0x08, 2); // an equal value is one
    assert_eq!(page.take().collect::<Vec<_>>(), [(0x1008, 2)]);
    store(&client, 0x48, 3); // no doorbell
    store(&client, 0xffc, 3);
    store(&client, 0x08, u32::MAX); // no value
    assert_eq!(page.take().count(), 0);
    store(&client, 0x04, 9);
    page.clear();
    assert_eq!(page.take().count(), 0);
}

#[test]
fn the_file_has_the_size_of_the_bar_and_is_sealed() {
    let page = Page::new().unwrap();
    let file = File::from(page.file().unwrap().try_clone_to_owned().unwrap());
    assert_eq!(file.metadata().unwrap().len(), BAR_BYTES);
    for size in [0, DOORBELLS, 2 * BAR_BYTES] {
        assert!(file.set_len(size).is_err());
    }
    let fd = file.as_raw_fd();
    assert_eq!(
        fcntl(fd, FcntlArg::F_ADD_SEALS(SealFlag::F_SEAL_WRITE)),
        Err(Errno::EPERM)
    );
    assert_eq!(
        fcntl(fd, FcntlArg::F_GETFD).unwrap() & libc::FD_CLOEXEC,
        libc::FD_CLOEXEC
    );
}

/// A client that punches a hole makes words 0, which are values like others.
#[test]
fn a_hole_is_values() {
    let page = Page::new().unwrap();
    let fd = page.file().unwrap().as_raw_fd();
    let mode = nix::fcntl::FallocateFlags::FALLOC_FL_PUNCH_HOLE | nix::fcntl::FallocateFlags::FALLOC_FL_KEEP_SIZE;
    nix::fcntl::fallocate(fd, mode, 0, BAR_BYTES as i64).unwrap();
    assert_eq!(page.take().filter(|&(_, value)| value == 0).count(), COUNT);
    assert_eq!(page.take().count(), 0);
}

/// Each thread stores rising values into doorbells of its own. The values that are taken rise, and the last one is always seen.
#[test]
fn no_last_value_is_lost() {
    const ROUNDS: u32 = 100_000;
    let page = Page::new().unwrap();
    let stopped = AtomicBool::new(false);
    let mut seen = [None; COUNT];
    let mut note = |(offset, value): (u32, u32)| {
        let place = &mut seen[(offset - 0x1000) as usize / 4];
        assert!(place.is_none_or(|before| before < value));
        *place = Some(value);
    };
    std::thread::scope(|scope| {
        let writers = (0..3).map(|t| {
            let client = map(&page);
            scope.spawn(move || {
                for round in 0..ROUNDS {
                    for doorbell in (t..COUNT).step_by(3) {
                        store(&client, 4 * doorbell, round);
                    }
                }
            })
        });
        let writers = writers.collect::<Vec<_>>();
        let stopped = &stopped;
        scope.spawn(move || {
            writers.into_iter().for_each(|w| w.join().unwrap());
            stopped.store(true, Ordering::SeqCst);
        });
        while !stopped.load(Ordering::SeqCst) {
            page.take().for_each(&mut note);
        }
        page.take().for_each(&mut note);
    });
    assert_eq!(seen, [Some(ROUNDS - 1); COUNT]);
}
