//! Random commands, and random answers of a kernel and a drive: each command is completed once, and memory that no Read names stays as it was.

use super::*;

/// A fault that a kernel or a drive may have.
fn fault(random: &mut Random) -> Fault {
    use libc::{EACCES, EAGAIN, EBUSY, EFAULT, EINTR, EINVAL, EIO, ENOMEM, ETIMEDOUT};
    let errors = [EACCES, EAGAIN, EBUSY, EFAULT, EINTR, EINVAL, EIO, ENOMEM, ETIMEDOUT];
    match random.below(4) {
        0 => Fault::Error(errors[random.below(errors.len() as u64) as usize]),
        1 => Fault::Number(random.next() as u32),
        2 => Fault::Lie(random.next() as u32 & 0x7fff),
        _ => Fault::Number(random.next() as u32 & 0x7fff),
    }
}

#[test]
fn random_commands_with_random_answers() {
    for (seed, pages) in (1..).zip(lacking().into_iter().step_by(5)) {
        let mut random = Random::new(seed);
        let (mut rig, control) = fake_with(pages);
        survives_random_commands(&mut rig, &mut random, 10_000, |random| match random.below(400) {
            0..=3 => {
                let opcodes = [FLUSH, WRITE, READ, COMPARE, ZEROES, RANGES];
                control.fail(opcodes[random.below(6) as usize], fault(random));
            }
            4..=6 => control.room(1 + random.below(20) as usize),
            _ => {}
        });
        control.heal();
        rig.close().expect("a clean end");
    }
}

/// Guests' memory is written by Reads alone, whatever is answered: 0xee is there from the beginning on.
#[test]
fn nothing_but_a_read_writes_memory() {
    let mut random = Random::new(9);
    for pages in lacking() {
        let (mut rig, control) = fake_with(pages);
        put_range(&rig, 0, 5, 700);
        for _ in 0..200 {
            let opcodes = [FLUSH, WRITE, COMPARE, ZEROES, RANGES];
            let opcode = opcodes[random.below(5) as usize];
            control.fail([READ, opcode][random.below(2) as usize], fault(&mut random));
            let command = match opcode {
                RANGES => entry(opcode, HIGH, 0, AD, 0),
                _ => entry(opcode, DATA, DATA + 0x1000, random.below(900), random.below(16) as u32),
            };
            rig.run(command);
        }
        assert_eq!(rig.memory.get(DATA, 0x40000), vec![0xee; 0x40000]);
        control.heal();
        rig.close().expect("a clean end");
    }
}
