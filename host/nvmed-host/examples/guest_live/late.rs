//! Reads of a slow drive, which are on their way for seconds.

use std::io;
use std::path::Path;
use std::thread::sleep;
use std::time::{Duration, Instant};

use crate::client::Memory;
use crate::guest::Guest;
use crate::{
    bring_up, connect, demand, entry_of, memory, set_up_function, shut_down, Failure, Stopping, DATA, PAGE, PAUSE, READ,
};

/// The drive needs less for all of the Reads.
const LATE: Duration = Duration::from_secs(3);
const READS: u64 = 16;

/// Puts a Read of 8 blocks into the first queue, into a page from DATA on.
fn put_read(guest: &mut Guest, number: u64) -> io::Result<()> {
    let at = number % READS;
    guest
        .put_entry(1, entry_of(READ, [DATA + at * PAGE, 0], at * 8, 8))
        .map(|_| ())
}

fn begin_reads(guest: &mut Guest) -> io::Result<()> {
    for number in 0..READS {
        put_read(guest, number)?;
    }
    guest.ring(1, false)
}

/// In place of each Read that ends the drive gets another. A line is printed once it has the first ones.
pub fn busy(guest: &mut Guest, stopping: &Stopping) -> Result<(), Failure> {
    bring_up(guest)?;
    begin_reads(guest)?;
    println!("busy");
    let mut number = 0;
    while !stopping.has_come() {
        match guest.take(1)? {
            Some(done) => {
                demand(done.status == 0, format!("a Read: {:#x}", done.status))?;
                put_read(guest, number)?;
                guest.ring(1, true)?;
                guest.ring(1, false)?;
                number += 1;
            }
            None => sleep(PAUSE),
        }
    }
    Ok(())
}

/// Whether the pages of the late Reads stay as they are.
fn is_quiet(memory: &Memory) -> io::Result<bool> {
    let marked = vec![0x5a; (READS * PAGE) as usize];
    memory.write(DATA, &marked)?;
    sleep(LATE);
    Ok(memory.read(DATA, marked.len())? == marked)
}

/// Reads are ended by a reset of the function, and by going away.
pub fn resets(mut guest: Guest, socket: &Path, word: Option<&str>) -> Result<(), Failure> {
    bring_up(&mut guest)?;
    begin_reads(&mut guest)?;
    let begin = Instant::now();
    guest.client.reset()?;
    println!("the reset was answered after {} ms", begin.elapsed().as_millis());
    set_up_function(&mut guest)?;
    guest.await_ready(0)?;
    println!("the controller was not ready after {} ms", begin.elapsed().as_millis());
    demand(is_quiet(&guest.memory)?, "a Read got into the memory after the reset")?;
    bring_up(&mut guest)?;
    begin_reads(&mut guest)?;
    let Guest {
        client, memory: before, ..
    } = guest;
    drop(client);
    let mut guest = connect(socket, memory(word)?)?;
    guest.await_ready(0)?;
    demand(
        is_quiet(&before)?,
        "a Read got into the memory after the connection's end",
    )?;
    bring_up(&mut guest)?;
    shut_down(&mut guest)
}
