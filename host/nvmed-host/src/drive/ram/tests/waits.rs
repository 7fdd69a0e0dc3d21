//! How long a command waits for others', by the clock. Machines of tests are busy, so that the best of some tries counts, and the bound is generous:
//! `examples/ram_waits.rs` measures.

use super::*;

/// What the finding on the old program was: one Dataset Management of 256 overlapping ranges held all others up for 22 s, 63 Write Zeroes for 0.7 s, and a
/// Flush of 512 MiB for 0.26 s.
const MOST: Duration = Duration::from_millis(100);
/// Tries until one is good.
const TRIES: usize = 5;

/// Of the drive, in blocks: 256 MiB in memory, and 64 MiB in a file.
fn rigs(folder: &Folder) -> Vec<(u64, RamRig)> {
    let memory = Memory::usual();
    let in_memory = RamDrive::in_memory(Arc::clone(&memory), 1 << 19).expect("a drive");
    let other = Memory::usual();
    let in_file = RamDrive::in_file(Arc::clone(&other), 1 << 17, &folder.file("image")).expect("a drive");
    vec![
        (1 << 19, Rig::new(memory, in_memory)),
        (1 << 17, Rig::new(other, in_file)),
    ]
}

/// Writes all of the drive, puts the commands, and reads one block after another until they are done. The longest wait of a Read.
fn longest_wait(rig: &mut RamRig, blocks: u64, others: &[Entry]) -> Duration {
    for i in 0..31 {
        rig.memory.put64(LIST + 8 * i, DATA + 0x1000 * (i + 1));
    }
    rig.memory.fill(DATA, 0x20000, 0x5a);
    for first in (0..blocks).step_by(256) {
        assert_eq!(rig.run(entry(1, DATA, LIST, first, 255)), 0);
    }
    let mut waiting = others.iter().map(|other| rig.put(other)).collect::<Vec<_>>();
    let mut longest = Duration::ZERO;
    let turn = Budget {
        commands: 64,
        bytes: 1 << 20,
    };
    while !waiting.is_empty() {
        let begin = Instant::now();
        let read = rig.put(&entry(2, HIGH, 0, blocks - 8, 7));
        rig.ring();
        let mut is_read = false;
        while !is_read {
            rig.drive.work(turn).expect("work");
            rig.drive.woken();
            while let Some((command, status)) = rig.reap() {
                assert_eq!(status, 0);
                is_read |= command == read;
                waiting.retain(|other| *other != command);
            }
        }
        longest = longest.max(begin.elapsed());
    }
    longest
}

#[test]
fn no_wait_is_long() {
    let folder = Folder::new();
    for (blocks, mut rig) in rigs(&folder) {
        for i in 0..256u64 {
            rig.memory.put32(0x8f000 + 16 * i + 4, (blocks - i) as u32);
            rig.memory.put64(0x8f000 + 16 * i + 8, i);
        }
        let manage = vec![entry(9, 0x8f000, 0, 4 << 32 | 255, 0); 3];
        let zeroes = (0..60)
            .map(|i| entry(8, 0, 0, i % (blocks >> 16) * 65536, 0xffff))
            .collect::<Vec<_>>();
        let flush = vec![entry(0, 0, 0, 0, 0)];
        for (what, others) in [
            ("Dataset Management", manage),
            ("Write Zeroes", zeroes),
            ("Flush", flush),
        ] {
            let mut tries = (0..TRIES).map(|_| longest_wait(&mut rig, blocks, &others));
            assert!(
                tries.any(|longest| longest < MOST),
                "{what}: none of {TRIES} was below {MOST:?}"
            );
        }
        rig.close().expect("a clean end");
    }
}
