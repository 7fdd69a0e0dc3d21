//! A crash at each moment: what was flushed, or forced, is there.

use super::super::store::faulty::FaultyStore;
use super::*;

const READ_MOST: u64 = 64;

/// What a block may have after a crash: its versions, of which those before `floor` are gone for certain. A version is a number that fills the block.
#[derive(Clone)]
struct Block {
    versions: Vec<u64>,
    completed: usize,
    floor: usize,
    busy: bool,
}

#[derive(Clone, Copy)]
struct Outstanding {
    command: u16,
    first: u64,
    count: u64,
    forced: bool,
}

struct Model {
    blocks: Vec<Block>,
    outstanding: Vec<Outstanding>,
    /// Flushes, with what was completed before each.
    flushes: Vec<(u16, Vec<usize>)>,
}

impl Model {
    fn new() -> Model {
        let block = Block {
            versions: vec![0],
            completed: 0,
            floor: 0,
            busy: false,
        };
        Model {
            blocks: vec![block; READ_MOST as usize],
            outstanding: Vec::new(),
            flushes: Vec::new(),
        }
    }

    fn completed(&mut self, command: u16, status: u16) {
        if let Some(index) = self.flushes.iter().position(|(flush, _)| *flush == command) {
            let (_, before) = self.flushes.remove(index);
            for (block, completed) in self.blocks.iter_mut().zip(before) {
                if status == 0 {
                    block.floor = block.floor.max(completed);
                }
            }
            return;
        }
        let index = self
            .outstanding
            .iter()
            .position(|o| o.command == command)
            .expect("a command that is outstanding");
        let o = self.outstanding.remove(index);
        for block in &mut self.blocks[o.first as usize..(o.first + o.count) as usize] {
            block.busy = false;
            if status == 0 {
                block.completed = block.versions.len() - 1;
                if o.forced {
                    block.floor = block.completed;
                }
            }
        }
    }

    fn check(&self, bytes: &[u8], what: &str) {
        for (i, block) in self.blocks.iter().enumerate() {
            for word in bytes[i * 512..(i + 1) * 512].chunks_exact(8) {
                let seen = u64::from_le_bytes(word.try_into().expect("8 bytes"));
                let allowed = &block.versions[block.floor..];
                assert!(
                    allowed.contains(&seen),
                    "{what}: block {i} has version {seen}, not of {allowed:?}"
                );
            }
        }
    }
}

/// Puts a command, unless its blocks are busy.
fn submit(rig: &mut RamRig, model: &mut Model, random: &mut Random, version: u64) {
    let kind = random.below(8);
    if kind == 0 {
        let command = rig.put(&entry(0, 0, 0, 0, 0));
        model
            .flushes
            .push((command, model.blocks.iter().map(|block| block.completed).collect()));
        return;
    }
    let count = 1 + random.below(8);
    let first = random.below(READ_MOST - count + 1);
    let blocks = &mut model.blocks[first as usize..(first + count) as usize];
    if blocks.iter().any(|block| block.busy) {
        return;
    }
    let zeroes = kind <= 2;
    for block in blocks.iter_mut() {
        block.busy = true;
        block.versions.push(if zeroes { 0 } else { version });
    }
    let forced = random.below(4) == 0;
    let d12 = (count as u32 - 1) | if forced { FORCED } else { 0 };
    // Each command that is outstanding has a page of its own: at most one for each block.
    let page = DATA + 0x1000 * first;
    let command = if zeroes {
        rig.put(&entry(8, 0, 0, first, d12))
    } else {
        rig.memory.put(page, &version.to_le_bytes().repeat(512));
        rig.put(&entry(1, page, 0, first, d12))
    };
    model.outstanding.push(Outstanding {
        command,
        first,
        count,
        forced,
    });
}

/// A workload until the store has crashed; the number of calls of the store where it has not.
fn run(seed: u64, waits: bool, crash: Option<u64>) -> u64 {
    let store = Arc::new(FaultyStore::new(waits, READ_MOST));
    if let Some(calls) = crash {
        store.crash_after(calls);
    }
    let mut rig = Rig::over(Arc::clone(&store) as Arc<dyn Store>, READ_MOST);
    let mut random = Random::new(seed);
    let mut model = Model::new();
    for version in 1..80 {
        submit(&mut rig, &mut model, &mut random, version);
        rig.ring();
        rig.drive
            .work(Budget {
                commands: 4,
                bytes: 8192,
            })
            .expect("work");
        let most = random.below(6) as usize;
        while model.outstanding.len() + model.flushes.len() > most && !store.has_crashed() {
            let (command, status) = rig.wait();
            // What is said after the crash is heard by nobody.
            if !store.has_crashed() {
                model.completed(command, status);
            }
        }
        if store.has_crashed() {
            break;
        }
    }
    let calls = store.calls();
    drop(rig);
    for _ in 0..4 {
        let survivors = store.survivors(|| random.next());
        model.check(&survivors, &format!("seed {seed}, waits {waits}, crash {crash:?}"));
    }
    calls
}

#[test]
fn what_was_flushed_survives_a_crash_at_each_call() {
    for (seed, waits) in [(1, false), (2, false), (3, false), (4, true), (5, true)] {
        let calls = run(seed, waits, None);
        assert!(calls > 30);
        for crash in 0..calls {
            run(seed, waits, Some(crash));
        }
    }
}

/// The model finds it where a flush does nothing.
#[test]
#[should_panic(expected = "has version")]
fn a_drive_that_forgets_is_found_out() {
    let store = FaultyStore::new(false, READ_MOST);
    let mut model = Model::new();
    let mut written = [7u8, 0, 0, 0, 0, 0, 0, 0].repeat(64);
    store
        .write(512, &[VolatileSlice::from(&mut written[..])], Wait::Allowed)
        .expect("a write");
    model.blocks[1].versions.push(7);
    model.blocks[1].completed = 1;
    model.blocks[1].floor = 1;
    model.check(&store.survivors(|| 0), "nothing was synced");
}
