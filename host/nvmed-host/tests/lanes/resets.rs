//! Resets of a drive that the program resets itself.

#![allow(clippy::unwrap_used, clippy::expect_used, clippy::panic)]

use std::time::Instant;

use super::lanes::{blocks, Bench, DATA};

/// Resets while commands are on their way, at many places of the rings.
pub fn resets(b: &mut Bench) {
    let mut failed = 0;
    for round in 0..3u64 {
        for i in 0..17 + round * 40 {
            assert_eq!(b.run(0, 2, DATA, 0, i, 0), 0);
        }
        let mut outstanding = [Vec::new(), Vec::new()];
        for (lane, given) in outstanding.iter_mut().enumerate() {
            for i in 0..20 {
                given.push(b.give(lane, 2, DATA + 0x1000 * i, 0, i, 0));
            }
            b.ring(lane);
        }
        b.drive.recover().unwrap().reset().unwrap();
        // while the reset goes on
        for (lane, given) in outstanding.iter_mut().enumerate() {
            for i in 0..20 {
                given.push(b.give(lane, 2, DATA + 0x1000 * i, 0, i, 0));
            }
            b.ring(lane);
        }
        let begin = Instant::now();
        for (lane, given) in outstanding.iter_mut().enumerate() {
            while !given.is_empty() {
                let (id, status) = b.wait(lane);
                let at = given.iter().position(|o| *o == id).expect("a stray completion");
                given.remove(at);
                assert!(status == 0 || status == 6, "{status:#x}");
                failed += u32::from(status == 6);
            }
        }
        assert!(!b.drive.recover().unwrap().is_recovering());
        println!("a reset, and 80 commands: {:?}", begin.elapsed());
        blocks(b);
    }
    println!("{failed} commands ended with Internal Error");
}
