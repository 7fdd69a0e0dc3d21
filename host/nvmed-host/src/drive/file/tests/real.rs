//! Drives on files of this machine, by its own io_uring.

use std::fs;
use std::os::unix::fs::{FileExt, MetadataExt};
use std::path::PathBuf;

use super::*;

type RealRig = Rig<FileDrive<Memory, FileUring<Memory>>>;

/// A file of so many blocks in a folder.
fn image(folder: &Folder, blocks: u64) -> PathBuf {
    let path = folder.file("image");
    fs::File::create(&path)
        .and_then(|file| file.set_len(blocks * BLOCK_BYTES))
        .expect("a file");
    path
}

fn open(path: &Path) -> Result<RealRig, String> {
    let memory = Memory::usual();
    let drive = FileDrive::open(Arc::clone(&memory), path, BLOCKS).map_err(|error| error.to_string())?;
    Ok(Rig::new(memory, drive))
}

/// The drive, where the kernel has io_uring and the file system direct I/O with sectors of 512 bytes; what it says where one of these is missing.
fn try_open(path: &Path) -> Option<RealRig> {
    match open(path) {
        Ok(rig) => Some(rig),
        Err(said) => {
            let known = ["refuses io_uring", "direct I/O", "has sectors of"];
            assert!(known.iter().any(|words| said.contains(words)), "{said}");
            println!("left out: {said}");
            None
        }
    }
}

#[test]
fn random_commands_do_what_a_plain_model_does() {
    let folder = Folder::new();
    let Some(rig) = try_open(&image(&folder, BLOCKS)) else {
        return;
    };
    does_what_a_plain_model_does(rig, &mut Random::new(31), 1500, 20);
    for alignment in [4, 512, 4096] {
        let (rig, _) = fake_aligned(alignment);
        does_what_a_plain_model_does(rig, &mut Random::new(alignment), 1500, 3);
    }
}

/// A file that was allocated keeps its room, and another one gives it back. Either way deallocated blocks are zeros.
#[test]
fn a_file_that_has_all_its_room_keeps_it() {
    for is_allocated in [true, false] {
        let folder = Folder::new();
        let path = image(&folder, BLOCKS);
        if is_allocated {
            let file = fs::File::options().write(true).open(&path).expect("the image");
            let length = (BLOCKS * BLOCK_BYTES) as i64;
            nix::fcntl::fallocate(
                std::os::fd::AsRawFd::as_raw_fd(&file),
                nix::fcntl::FallocateFlags::empty(),
                0,
                length,
            )
            .expect("room");
        }
        let Some(mut rig) = try_open(&path) else { return };
        rig.memory.fill(DATA, 4096, 7);
        for block in (0..BLOCKS).step_by(8) {
            assert_eq!(rig.run(entry(WRITE, DATA, 0, block, 7)), 0);
        }
        put_range(&rig, 0, 0, BLOCKS as u32 - 8);
        assert_eq!(rig.run(entry(9, HIGH, 0, 4 << 32, 0)), 0);
        assert_eq!(rig.run(entry(FLUSH, 0, 0, 0, 0)), 0);
        let allocated = fs::metadata(&path).expect("the image").blocks() * 512;
        if is_allocated {
            assert!(allocated >= BLOCKS * BLOCK_BYTES);
        } else {
            assert!(allocated <= 65536);
        }
        rig.close().expect("a clean end");
        let expected = [vec![0; (BLOCKS as usize - 8) * 512], vec![7; 4096]].concat();
        assert!(fs::read(&path).expect("the image") == expected);
    }
}

#[test]
fn random_commands_harm_nothing() {
    let folder = Folder::new();
    let Some(mut rig) = try_open(&image(&folder, BLOCKS)) else {
        return;
    };
    survives_random_commands(&mut rig, &mut Random::new(32), 4000, |_| ());
    rig.close().expect("a clean end");
}

/// Many commands at once, on different blocks: each has its own bytes.
#[test]
fn commands_that_are_outstanding_together_have_their_own_bytes() {
    let folder = Folder::new();
    let path = image(&folder, BLOCKS);
    let Some(mut rig) = try_open(&path) else { return };
    let pages: Vec<u64> = (0..60)
        .map(|i| DATA + 0x1000 * i + if i % 3 == 0 { 4 * i } else { 0 })
        .collect();
    for round in 0..20u64 {
        for (i, page) in (0..).zip(&pages) {
            rig.memory.fill(*page & !0xfff, 0x1000, (round + i) as u8);
            rig.put(&entry(WRITE, *page, 0, 16 * i, 1));
        }
        rig.ring();
        (0..60).for_each(|_| assert_eq!(rig.wait().1, 0));
        rig.memory.fill(DATA, 60 * 0x1000, 0xee);
        for (i, page) in (0..).zip(&pages) {
            rig.put(&entry(READ, *page, 0, 16 * i, 1));
        }
        rig.ring();
        (0..60).for_each(|_| assert_eq!(rig.wait().1, 0));
        for (i, page) in (0..).zip(&pages) {
            assert_eq!(rig.memory.get(*page, 1024), [(round + i) as u8; 1024]);
        }
    }
    rig.close().expect("a clean end");
    let mut bytes = [0; 1024];
    let file = fs::File::open(&path).expect("the file");
    file.read_exact_at(&mut bytes, 16 * 512 * 7).expect("its bytes");
    assert_eq!(bytes, [26; 1024]);
}

/// The file's length is the drive's, it is locked, and it stays as long as it was.
#[test]
fn a_file_is_used_by_one_and_keeps_its_length() {
    let folder = Folder::new();
    let path = image(&folder, BLOCKS + 5);
    fs::File::options()
        .write(true)
        .open(&path)
        .and_then(|file| file.set_len((BLOCKS + 5) * 512 + 100))
        .expect("a length");
    let Some(mut rig) = try_open(&path) else { return };
    assert_eq!(
        rig.drive.describe(),
        format!("1029 blocks in the file {}", path.display())
    );
    assert!(open(&path)
        .err()
        .expect("refused")
        .contains("is used already, by this program or another"));
    assert_eq!(rig.run(entry(WRITE, DATA, 0, BLOCKS + 4, 0)), 0);
    assert_eq!(rig.run(entry(WRITE, DATA, 0, BLOCKS + 5, 0)), 0x4080);
    put_range(&rig, 0, 0, (BLOCKS + 5) as u32);
    assert_eq!(rig.run(entry(9, HIGH, 0, 4 << 32, 0)), 0);
    rig.close().expect("a clean end");
    assert_eq!(fs::metadata(&path).expect("the file").len(), (BLOCKS + 5) * 512 + 100);
    open(&path).expect("again").close().expect("a clean end");
}

/// A file that is cut off raises no signal: what is gone cannot be read, and then nothing is written.
#[test]
fn a_file_that_is_cut_off_is_an_error() {
    let folder = Folder::new();
    let path = image(&folder, BLOCKS);
    let Some(mut rig) = try_open(&path) else { return };
    fs::File::options()
        .write(true)
        .open(&path)
        .and_then(|file| file.set_len(4096))
        .expect("cut off");
    assert_eq!(rig.run(entry(READ, DATA, 0, 1000, 7)), 0x281);
    assert_eq!(rig.run(entry(WRITE, DATA, 0, 1000, 7)), FOR_EVER);
    assert_eq!(rig.run(entry(READ, DATA, 0, 0, 7)), 0);
    assert!(rig.close().is_err());
}

#[test]
fn what_cannot_be_a_drive_is_refused() {
    let folder = Folder::new();
    let refused = |path: PathBuf| open(&path).err().expect("refused");
    assert!(refused(folder.file("none")).contains("cannot be looked at"));
    assert!(!folder.file("none").exists());
    for path in ["/dev/null", "/"] {
        assert!(refused(PathBuf::from(path)).contains("is neither a regular file nor a block device"));
    }
    let pipe = folder.file("pipe");
    nix::unistd::mkfifo(&pipe, nix::sys::stat::Mode::S_IRWXU).expect("a pipe");
    assert!(refused(pipe).contains("is neither a regular file nor a block device"));
    let short = image(&folder, BLOCKS - 1);
    if try_open(&image(&folder, BLOCKS)).is_some() {
        image(&folder, BLOCKS - 1);
        let said = refused(short);
        assert!(
            said.contains("has 1023 blocks of 512 bytes, and the extents need 1024"),
            "{said}"
        );
    }
}

/// A loop device over a file, which ends with it.
struct Loop(String);

impl Loop {
    fn new(image: &Path, sector: &str) -> Loop {
        let made = std::process::Command::new("losetup")
            .args(["--find", "--show", "--direct-io=on", "--sector-size", sector])
            .arg(image)
            .output()
            .expect("losetup");
        assert!(made.status.success(), "{made:?}");
        Loop(String::from_utf8(made.stdout).expect("a path").trim().to_owned())
    }
}

impl Drop for Loop {
    fn drop(&mut self) {
        let _ = std::process::Command::new("losetup")
            .args(["--detach", &self.0])
            .status();
    }
}

#[test]
#[ignore = "it needs root, losetup and loop devices"]
fn a_block_device_does_what_a_plain_model_does() {
    let folder = Folder::new();
    let image = image(&folder, BLOCKS);
    let device = Loop::new(&image, "512");
    let rig = open(Path::new(&device.0)).expect("a drive");
    assert_eq!(
        rig.drive.describe(),
        format!("1024 blocks in the block device {}", device.0)
    );
    // Nobody else gets it.
    assert!(open(Path::new(&device.0))
        .err()
        .expect("refused")
        .contains("is used already, as a file system"));
    does_what_a_plain_model_does(rig, &mut Random::new(33), 1500, 20);
    drop(device);
    let device = Loop::new(&image, "4096");
    let said = open(Path::new(&device.0)).err().expect("refused");
    assert!(
        said.contains("has sectors of 4096 bytes, of which guests' blocks of 512 would be parts"),
        "{said}"
    );
}
