//! Drives in files.

use std::fs::{self, File};
use std::os::unix::fs::{FileExt, MetadataExt, PermissionsExt};
use std::path::PathBuf;

use super::*;

pub fn open(image: &std::path::Path) -> Result<RamRig, String> {
    let memory = Memory::usual();
    let drive = RamDrive::in_file(Arc::clone(&memory), BLOCKS, image).map_err(|e| e.to_string())?;
    Ok(Rig::new(memory, drive))
}

#[test]
fn an_image_keeps_what_was_written() {
    let folder = Folder::new();
    let image = folder.file("image");
    let mut rig = open(&image).expect("a drive");
    let about = fs::metadata(&image).expect("the image");
    assert_eq!((about.len(), about.permissions().mode() & 0o777), (BLOCKS * 512, 0o600));
    assert_eq!(
        rig.drive.describe(),
        format!("simulated, 1024 blocks in {}", image.display())
    );
    rig.memory.fill(DATA, 4096, 0x55);
    for (block, forced) in [(0, 0), (500, FORCED), (1016, 0)] {
        assert_eq!(rig.run(entry(1, DATA, 0, block, 7 | forced)), 0);
    }
    assert_eq!(rig.run(entry(8, 0, 0, 502, 1 | FORCED)), 0);
    assert_eq!(rig.run(entry(0, 0, 0, 0, 0)), 0);
    rig.memory.fill(DATA, 4096, 0);
    assert_eq!(rig.run(entry(2, DATA, 0, 500, 7 | FORCED)), 0);
    assert_eq!(
        rig.memory.get(DATA, 4096),
        [vec![0x55; 1024], vec![0; 1024], vec![0x55; 2048]].concat()
    );
    assert_eq!(rig.run(entry(5, DATA, 0, 500, 7)), 0);
    assert_eq!(rig.run(entry(5, DATA, 0, 501, 0)), 0);
    assert_eq!(rig.run(entry(5, DATA, 0, 502, 0)), 0x285);
    rig.close().expect("a clean end");
    let mut block = [0; 512];
    File::open(&image)
        .and_then(|f| f.read_exact_at(&mut block, 1023 * 512))
        .expect("the image");
    assert_eq!(block, [0x55; 512]);
    let mut rig = open(&image).expect("a drive");
    assert_eq!(rig.run(entry(2, DATA, 0, 1016, 7)), 0);
    assert_eq!(rig.memory.get(DATA, 4096), [0x55; 4096]);
}

#[test]
fn a_short_image_becomes_longer_and_a_long_one_stays() {
    let folder = Folder::new();
    let image = folder.file("image");
    fs::write(&image, "abc").expect("a file");
    let mut rig = open(&image).expect("a drive");
    assert_eq!(rig.run(entry(2, DATA, 0, 0, 0)), 0);
    assert_eq!(rig.memory.get(DATA, 512), [&b"abc"[..], &[0; 509]].concat());
    rig.close().expect("a clean end");
    File::options()
        .write(true)
        .open(&image)
        .and_then(|f| f.set_len(BLOCKS * 512 + 5))
        .expect("longer");
    open(&image).expect("a drive").close().expect("a clean end");
    assert_eq!(fs::metadata(&image).expect("the image").len(), BLOCKS * 512 + 5);
}

#[test]
fn nothing_is_allocated_before_it_is_written() {
    let folder = Folder::new();
    let image = folder.file("image");
    // More than any disk of a test machine has: 4 TiB.
    let memory = Memory::usual();
    let drive = RamDrive::in_file(Arc::clone(&memory), 1 << 33, &image).expect("a drive");
    let mut rig = Rig::new(memory, drive);
    let allocated = || fs::metadata(&image).expect("the image").blocks() * 512;
    assert!(allocated() <= 65536);
    rig.memory.fill(DATA, 4096, 7);
    assert_eq!(rig.run(entry(1, DATA, 0, (1 << 33) - 8, 7)), 0);
    assert_eq!(rig.run(entry(0, 0, 0, 0, 0)), 0);
    let written = allocated();
    assert!((4096..=65536).contains(&written));
    // All of it is deallocated at once: holes are skipped.
    rig.memory.fill(HIGH, 4096, 0);
    for i in 0..3u64 {
        rig.memory.put32(HIGH + 16 * i + 4, u32::MAX);
        rig.memory.put64(HIGH + 16 * i + 8, i * u64::from(u32::MAX));
    }
    rig.memory.put32(HIGH + 36, 2);
    assert_eq!(rig.run(entry(9, HIGH, 0, 4 << 32 | 2, 0)), 0);
    assert_eq!(rig.run(entry(2, DATA, 0, (1 << 33) - 8, 7)), 0);
    assert_eq!(rig.memory.get(DATA, 4096), [0; 4096]);
    // Their room is given back once nobody writes.
    let begin = Instant::now();
    while allocated() >= written {
        assert!(begin.elapsed() < Duration::from_secs(20), "the room is kept");
        std::thread::sleep(Duration::from_millis(20));
        assert_eq!(rig.run(entry(0, 0, 0, 0, 0)), 0);
    }
    rig.close().expect("a clean end");
}

#[test]
fn an_image_is_used_by_one() {
    let folder = Folder::new();
    let image = folder.file("image");
    let rig = open(&image).expect("a drive");
    let again = open(&image).err().expect("refused");
    assert!(again.contains("is used already, by this program or another"), "{again}");
    let link = folder.file("link");
    fs::hard_link(&image, &link).expect("a link");
    assert!(open(&link).is_err());
    assert!(image.exists());
    rig.close().expect("a clean end");
    open(&link).expect("a drive").close().expect("a clean end");
}

#[test]
fn what_is_no_image_is_refused() {
    let folder = Folder::new();
    let refused = |path: PathBuf| open(&path).err().expect("refused");
    assert!(refused(folder.file("none/image")).contains("cannot be opened or created"));
    assert!(refused(folder.file("")).contains("cannot be opened or created"));
    assert!(refused(PathBuf::from("/dev/null")).contains("is no regular file"));
    let pipe = folder.file("pipe");
    nix::unistd::mkfifo(&pipe, nix::sys::stat::Mode::S_IRWXU).expect("a pipe");
    assert!(refused(pipe).contains("is no regular file"));
    assert!(refused(PathBuf::from("")).contains("cannot be opened or created"));
}

/// The end of a drive gives back what it has not given back before.
#[test]
fn room_is_given_back_at_the_end() {
    let folder = Folder::new();
    let image = folder.file("image");
    let mut rig = open(&image).expect("a drive");
    rig.memory.fill(DATA, 4096, 7);
    for block in (0..BLOCKS).step_by(8) {
        assert_eq!(rig.run(entry(1, DATA, 0, block, 7)), 0);
    }
    assert_eq!(rig.run(entry(0, 0, 0, 0, 0)), 0);
    let allocated = || fs::metadata(&image).expect("the image").blocks() * 512;
    assert!(allocated() >= BLOCKS * 512);
    rig.memory.put32(HIGH + 4, BLOCKS as u32 - 8);
    rig.memory.put64(HIGH + 8, 0);
    assert_eq!(rig.run(entry(9, HIGH, 0, 4 << 32, 0)), 0);
    rig.close().expect("a clean end");
    assert!(allocated() <= 65536);
    let mut bytes = vec![0xa5; 8192];
    File::open(&image)
        .and_then(|file| file.read_exact_at(&mut bytes, (BLOCKS - 16) * 512))
        .expect("the image");
    assert_eq!(bytes, [[0; 4096], [7; 4096]].concat());
}

/// What was created for a drive that cannot be is removed again; what was there stays.
#[test]
fn a_refused_image_leaves_nothing() {
    let folder = Folder::new();
    let image = folder.file("image");
    // 64 TiB is more than a file of ext4 can have; where the file system takes it, there is nothing to see.
    let memory = Memory::usual();
    match RamDrive::in_file(Arc::clone(&memory), 1 << 37, &image) {
        Err(error) => {
            assert!(
                error.to_string().contains("cannot become 70368744177664 bytes long"),
                "{error}"
            );
            assert!(!image.exists());
            fs::write(&image, "abc").expect("a file");
            assert!(RamDrive::in_file(memory, 1 << 37, &image).is_err());
            assert_eq!(fs::read(&image).expect("the file"), b"abc");
        }
        Ok(drive) => {
            let drive: Box<dyn Drive> = Box::new(drive);
            drive.close().expect("a clean end");
        }
    }
}

/// An image that is cut off raises no signal: what is gone cannot be read, and from then on nothing is written.
#[test]
fn an_image_that_is_cut_off_is_an_error() {
    for by_check in [false, true] {
        let folder = Folder::new();
        let image = folder.file("image");
        let mut rig = open(&image).expect("a drive");
        assert_eq!(rig.run(entry(1, DATA, 0, 1000, 7)), 0);
        File::options()
            .write(true)
            .open(&image)
            .and_then(|f| f.set_len(4096))
            .expect("cut off");
        if by_check {
            rig.drive.check().expect("the drive still answers");
        } else {
            assert_eq!(rig.run(entry(2, DATA, 0, 1000, 7)), 0x281);
        }
        assert_eq!(rig.run(entry(1, DATA, 0, 1000, 7)), 0x4280);
        assert_eq!(rig.run(entry(8, 0, 0, 0, 7)), 0x4280);
        assert_eq!(rig.run(entry(0, 0, 0, 0, 0)), 0x4280);
        assert_eq!(rig.run(entry(2, DATA, 0, 0, 7)), 0);
        assert!(rig.drive.describe().ends_with("; it takes no more writes"));
        let error = rig.close().expect_err("an error");
        assert!(error.to_string().contains("the image was cut off"), "{error}");
    }
}
