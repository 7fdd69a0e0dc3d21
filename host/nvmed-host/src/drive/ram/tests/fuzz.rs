//! Random entries, lists and ranges: whatever they say, each command is completed once, and nothing else is touched.

use super::super::store::faulty::{Call, Fault, FaultyStore};
use super::*;

/// What no command may reach: all but the pieces, and the rings' neighbours.
fn untouched(rig: &RamRig) -> Vec<Vec<u8>> {
    [(0, LOW), (0x90000, HIGH - 0x90000), (0x9a000, 0x66000)]
        .map(|(from, bytes)| rig.memory.get(from, bytes as usize))
        .to_vec()
}

#[test]
fn random_commands_in_memory() {
    let mut random = Random::new(11);
    let mut rig = Rig::usual();
    let before = untouched(&rig);
    // The rings lie in the first piece, too; addresses near it are below.
    survives_random_commands(&mut rig, &mut random, 20_000, |_| ());
    assert!(untouched(&rig) == before);
    rig.close().expect("a clean end");
}

#[test]
fn random_commands_on_a_store_that_waits_and_fails() {
    let mut random = Random::new(12);
    let store = Arc::new(FaultyStore::new(true, BLOCKS));
    let mut rig = Rig::over(Arc::clone(&store) as Arc<dyn Store>, BLOCKS);
    let before = untouched(&rig);
    survives_random_commands(&mut rig, &mut random, 20_000, |random| match random.below(200) {
        0 => store.fail(Call::Read, Fault::Error(libc::EIO)),
        1 => store.fail(Call::Write, Fault::Error(libc::ENOSPC)),
        2 => store.fail(Call::Zero, Fault::Error(libc::EIO)),
        3 => store.fail(Call::Write, Fault::Error(libc::EFAULT)),
        4 => store.cool(),
        _ => (),
    });
    assert!(untouched(&rig) == before);
    // What was left to fail, fails no more than it said.
    rig.close().expect("a clean end");
}

/// Against a plain model: commands one after another, with good data pointers, leave the same bytes in memory and on the drive.
#[test]
fn random_commands_do_what_a_plain_model_does() {
    let mut random = Random::new(13);
    let folder = Folder::new();
    for kind in 0..4 {
        let rig = match kind {
            0 => Rig::usual(),
            1 => Rig::over(Arc::new(FaultyStore::new(true, BLOCKS)), BLOCKS),
            2 => super::image::open(&folder.file("image")).expect("a drive"),
            _ => {
                // A tmpfs, where there is one.
                let image = std::path::PathBuf::from(format!("/dev/shm/nvmed-ram-{}", std::process::id()));
                let Ok(rig) = super::image::open(&image) else { continue };
                std::fs::remove_file(image).expect("the image");
                rig
            }
        };
        let (rounds, forced) = if kind == 2 { (300, 20) } else { (1500, 3) };
        does_what_a_plain_model_does(rig, &mut random, rounds, forced);
    }
}
