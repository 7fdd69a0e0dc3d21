//! The kernel's ring, on a device that takes any command and does nothing with it: `/dev/null`, from Linux 6.1 on.

use std::fs::File;

use nix::fcntl::{Flock, FlockArg};

use super::*;
use crate::drive::passthrough::kernel::Files;

type NullRig = Rig<PassthroughDrive<Memory, NamespaceUring<Memory>>>;

/// A drive there, and the file that stands for its block device; `None` where the kernel has no such rings, or no such device.
fn null(folder: &Folder) -> Option<(NullRig, File)> {
    let memory = Memory::usual();
    let open = |path: &Path| {
        File::options()
            .read(true)
            .write(true)
            .create(true)
            .truncate(false)
            .open(path)
    };
    let block = open(&folder.file("blocks")).expect("a file");
    block.set_len(BLOCKS * 512).expect("a length");
    let files = Files {
        generic: open(Path::new("/dev/null")).expect("a device"),
        block: Flock::lock(block.try_clone().expect("a file"), FlockArg::LockExclusive).expect("a lock"),
    };
    let left_out = |error: DriveError| {
        let said = error.to_string();
        let known = ["refuses io_uring", "the kernel refuses a Read"];
        assert!(known.iter().any(|words| said.contains(words)), "{said}");
        println!("left out: {said}");
    };
    let ring = NamespaceUring::new(files, 1, Arc::clone(&memory))
        .map_err(left_out)
        .ok()?;
    let (controller, namespace, limits) = all();
    let about = About {
        words: "nothing".to_owned(),
        namespace: 1,
        blocks: BLOCKS,
        abilities: Abilities::of(&controller, &namespace, Some(&limits)),
    };
    let mut drive = PassthroughDrive::over(Arc::clone(&memory), ring, about);
    drive.try_out().map_err(left_out).ok()?;
    Some((Rig::new(memory, drive), block))
}

/// Each command comes back once, however many are under way; where its memory is gone it is not made.
#[test]
fn commands_go_to_the_kernel_and_come_back() {
    let folder = Folder::new();
    let Some((mut rig, _)) = null(&folder) else { return };
    for i in 0..32 {
        rig.memory.put64(LIST + 8 * i, DATA + 0x2000 * i);
    }
    for round in 0..50 {
        let mut commands: Vec<u16> = (0..60u64)
            .map(|i| match (round + i) % 6 {
                0 => rig.put(&entry(FLUSH, 0, 0, 0, 0)),
                1 => rig.put(&entry(WRITE, DATA + 4 * i, DATA + 0x1000, i, 7)),
                2 => rig.put(&entry(READ, DATA, LIST, i, 255)),
                3 => rig.put(&entry(COMPARE, HIGH, 0, i, 0)),
                4 => rig.put(&entry(ZEROES, 0, 0, i, 900 | FORCED)),
                _ => rig.put(&entry(RANGES, HIGH, 0, 0, 0)),
            })
            .collect();
        rig.ring();
        while !commands.is_empty() {
            let (command, status) = rig.wait();
            assert_eq!(status, 0);
            let before = commands.len();
            commands.retain(|other| *other != command);
            assert_eq!(commands.len(), before - 1);
        }
    }
    rig.memory.keep(&[(LOW, 0x10000)]);
    assert_eq!(rig.run(entry(READ, HIGH, 0, 0, 0)), 0x4004);
    rig.close().expect("a clean end");
}

/// The blocks of the block device are looked at once a second.
#[test]
fn a_block_device_that_shrinks_is_found() {
    let folder = Folder::new();
    let Some((mut rig, block)) = null(&folder) else { return };
    rig.drive.check().expect("it answers");
    assert_eq!(rig.run(entry(WRITE, DATA, 0, 0, 7)), 0);
    block.set_len(0).expect("a length");
    rig.drive.check().expect("it still answers");
    assert_eq!(rig.run(entry(WRITE, DATA, 0, 0, 7)), FOR_EVER);
    let said = rig.close().expect_err("it is gone").to_string();
    assert!(
        said.contains("nothing: the device is gone: it has no blocks any more"),
        "{said}"
    );
}
