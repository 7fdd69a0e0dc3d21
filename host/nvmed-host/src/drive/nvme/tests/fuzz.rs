#![forbid(unsafe_code)]
//! Random pages, completions and properties: a refusal or a drive, and never more than that.

use super::recovery::Side;
use super::*;
use crate::drive::nvme::bytes::put;
use crate::drive::nvme::identify::{ControllerPage, Limits, NamespacePage};
use crate::drive::nvme::{Capabilities, RESETS, TRANSFER};

struct Random(u64);

impl Random {
    fn next(&mut self) -> u64 {
        self.0 ^= self.0 << 13;
        self.0 ^= self.0 >> 7;
        self.0 ^= self.0 << 17;
        self.0
    }

    fn below(&mut self, end: u64) -> u64 {
        self.next() % end
    }
}

#[test]
fn identify_pages() {
    let mut random = Random(0x1234_5678_9abc_def1);
    let good = Bench::new();
    let (controller, namespace) = (good.seen().controller, good.seen().namespace);
    let mut taken = 0;
    for _ in 0..20_000 {
        let (mut c, mut n) = (controller, namespace);
        for _ in 0..random.below(6) {
            let place =
                [77, 111, 512, 513, 516, 520, 525, 88, 259, random.below(4096) as usize][random.below(10) as usize];
            c[place] = random.next() as u8;
            let place = [0, 7, 25, 26, 29, 99, 128, 130, random.below(4096) as usize][random.below(9) as usize];
            n[place] = random.next() as u8;
        }
        if let Ok(page) = ControllerPage::of(&c, TRANSFER) {
            taken += 1;
            assert!(page.most_transfer.is_none_or(|most| most >= TRANSFER));
            assert!((1..=256).contains(&page.event_requests));
            assert!(page.serial.len() <= 20 && page.model.len() <= 40 && page.firmware.len() <= 8);
        }
        if let Ok(page) = NamespacePage::of(&n, 1, 4096) {
            taken += 1;
            assert!(page.blocks >= 4096);
        }
        Limits::of(&n);
        let cap = random.next();
        if let Ok(found) = Capabilities::of(
            cap,
            random.next() as u32,
            0,
            1 + random.below(8) as u32,
            random.next() as u32,
        ) {
            assert!((2..=65_536).contains(&found.most_entries) && (500..=600_000).contains(&found.ready_wait));
        }
    }
    assert!(taken > 1000);
}

/// Admin completions with random bytes, at any moment.
#[test]
fn admin_completions() {
    let mut random = Random(0xfeed_5678_9abc_def1);
    let (mut failures, mut rounds) = (0, 0);
    while rounds < 20_000 {
        let bench = Bench::new();
        let mut n = bench.running();
        for _ in 0..20 {
            rounds += 1;
            match random.below(8) {
                0 => {
                    let at = ADMIN + 4096 + 16 * random.below(16);
                    let mut entry = [0u8; 16];
                    put(&mut entry, 0, &random.next().to_le_bytes());
                    put(
                        &mut entry,
                        8,
                        &(random.below(20) | random.below(2) << 16 | random.below(24) << 32 | random.below(4) << 48)
                            .to_le_bytes(),
                    );
                    bench.memory.put(at, &entry);
                }
                1 => drop(bench.fake().raise(random.next() as u32 & 0x7f_07_07)),
                2 => bench.fake().stray(random.below(24) as u16),
                3 => bench.fake().csts = random.below(4) as u32,
                4 => bench.fake().time += random.below(4000),
                5 => drop(n.reset()),
                _ => {}
            }
            let good = if random.below(2) == 0 { n.work() } else { n.check() };
            if good.is_err() {
                failures += 1;
                break;
            }
        }
        let _ = n.close();
    }
    assert!(failures > 100);
}

/// Completions of a lane with random bytes, and doorbells with any value: the first failure stays, and the controller can be closed.
#[test]
fn lane_completions() {
    let mut random = Random(0xabcd_5678_9abc_def1);
    let (mut failures, mut resets) = (0, 0);
    for _ in 0..1000 {
        let bench = Bench::new();
        let mut n = bench.running();
        let mut failed = String::new();
        for _ in 0..40 {
            let lane = random.below(2) as usize;
            let at = rings(lane as u32).completion + 16 * random.below(65) + 4 * random.below(4);
            bench.memory.put(at, &(random.next() as u32).to_le_bytes());
            bench.fake().mute = (random.below(3) == 0).then_some(0xa5);
            bench.fake().time += random.below(3000);
            let value = random.below(66) as u32;
            let rung = if random.below(2) == 0 {
                n.ring_submission(lane, value)
            } else {
                n.ring_completion(lane, value)
            };
            assert!(value < 65 || rung.is_err());
            let done = if random.below(2) == 0 { n.work() } else { n.check() };
            if failed.is_empty() {
                failed = words(done);
            } else {
                assert_eq!(words(done), failed);
            }
        }
        failures += u32::from(!failed.is_empty());
        resets += bench.seen().enables - 1;
        n.close().unwrap();
        assert_eq!(bench.seen().cc & 1, 0);
    }
    assert!(failures > 10 && resets > 100, "{failures} failures, {resets} resets");
}

/// A reset, by one of its three ways.
fn reset(random: &mut Random, bench: &Bench, n: &mut Controller<FakeAccess>) {
    match random.below(3) {
        0 => n.reset().unwrap(),
        way => {
            bench.fake().csts = if way == 1 { 3 } else { 0 };
            n.check().unwrap();
        }
    }
}

/// Commands, losses, Aborts and resets at any moment: each command is completed once, those that the controller has lost with an error, and no other.
#[test]
fn commands_and_resets() {
    let mut random = Random(0x0dd0_5678_9abc_def1);
    let (mut losses, mut aborts, mut enables) = (0, 0, 0);
    for _ in 0..300 {
        let bench = Bench::new();
        let mut n = bench.running();
        let mut sides = [Side::new(0), Side::new(1)];
        let mut resets = 0;
        for _ in 0..100 {
            let side = &mut sides[random.below(2) as usize];
            match random.below(8) {
                0 => bench.fake().mute = (random.below(2) == 0).then_some(2),
                1 if resets + 1 < RESETS && !n.is_recovering() => {
                    reset(&mut random, &bench, &mut n);
                    resets += 1;
                }
                2..=4 => side.put(&bench, &mut n, random.below(20) as usize),
                5 => drop(side.take(&bench, &mut n, random.below(8) as usize)),
                6 => n.work().unwrap(),
                _ => {
                    for side in &mut sides {
                        side.take(&bench, &mut n, 64);
                    }
                    bench.fake().time += random.below(2000);
                    n.check().unwrap();
                }
            }
        }
        bench.fake().mute = None;
        for _ in 0..400 {
            n.work().unwrap();
            for (lane, side) in sides.iter_mut().enumerate() {
                side.take(&bench, &mut n, 64);
                n.abort(lane).unwrap();
            }
        }
        let seen = bench.seen();
        let failed = sides.iter().flat_map(|side| &side.taken).filter(|taken| taken.1 != 0);
        assert_eq!((failed.count(), seen.violations), (seen.losses, 0));
        assert!(sides.iter().all(|side| side.outstanding.is_empty()) && !n.is_recovering());
        n.close().unwrap();
        (losses, aborts, enables) = (losses + seen.losses, aborts + seen.aborts, enables + seen.enables - 1);
    }
    assert!(
        losses > 1000 && aborts > 100 && enables > 300,
        "{losses} losses, {aborts} Aborts, {enables} resets"
    );
}
