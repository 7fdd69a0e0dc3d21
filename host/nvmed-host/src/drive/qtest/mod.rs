#![forbid(unsafe_code)]
//! QEMU's NVMe controller, reached by the qtest socket of the QEMU that has it.
//!
//! That QEMU maps the files of the window as its RAM, in the same order, so that rings and data need no copies: host address a is its physical address a.
//! The pieces of the window lie between 1 MiB and 2,816 MiB (b0000000h), where a machine of type q35 has RAM without holes. The controller is the one NVMe
//! function of bus 0; its BAR0 is put at fe000000h.
//!
//! Opening and closing wait for QEMU, with limits. In between doorbells are written without waiting for QEMU's answers; these are looked at later. QEMU
//! that does not answer within [`ANSWER_WAIT`] fails the drive.

mod socket;
#[cfg(test)]
mod tests;

use std::os::unix::net::UnixStream;
use std::path::Path;
use std::sync::atomic::{fence, Ordering};
use std::sync::Arc;

pub use socket::{Place, Socket, ANSWER_WAIT, MOST_POSTED};

use super::nvme::access::property::DOORBELLS;
use super::nvme::memory::{load32, store32};
use super::nvme::{Access, Controller, DriveMemory, Needs, Physical};
use super::{DriveError, Reach};

/// Where the window's pieces may lie.
pub const REACH: Reach = Reach {
    from: 0x10_0000,
    to: 0xb000_0000,
};

/// Where PCI memory of that machine is free, up to other devices.
const BAR_AT: u32 = 0xfe00_0000;
const BAR_MOST: u32 = 0x40_0000;

const COMMAND: u8 = 0x04;
const CLASS: u8 = 0x08;
const BAR0: u8 = 0x10;
const BAR1: u8 = 0x14;
const COMMAND_MEMORY: u32 = 1 << 1;
const COMMAND_MASTER: u32 = 1 << 2;
const COMMAND_SILENT: u32 = 1 << 10;
const CLASS_NVME: u32 = 0x01_0802;

/// BAR0 by the socket.
pub struct Bar {
    socket: Socket,
    place: Place,
    bytes: u32,
    /// A value was asked for.
    wanted: Option<u32>,
}

impl Bar {
    fn address(&self, offset: u32) -> Result<u64, DriveError> {
        if offset % 4 != 0 || offset > self.bytes - 4 {
            return Err(DriveError::Failed(format!("BAR0 has no dword at {offset:#x}")));
        }
        Ok(u64::from(BAR_AT) + u64::from(offset))
    }
}

impl Access for Bar {
    fn bytes(&self) -> u32 {
        self.bytes
    }

    fn read(&mut self, offset: u32) -> Result<u32, DriveError> {
        let address = self.address(offset)?;
        self.socket.forget_value();
        self.wanted = None;
        self.socket.read(address)
    }

    fn poll(&mut self, offset: u32) -> Result<Option<u32>, DriveError> {
        let address = self.address(offset)?;
        self.socket.work()?;
        if self.wanted == Some(offset) {
            let value = self.socket.take_value();
            if value.is_some() {
                self.wanted = None;
            }
            return Ok(value);
        }
        self.socket.forget_value();
        self.wanted = Some(offset);
        self.socket.want(address)?;
        Ok(None)
    }

    fn write(&mut self, offset: u32, value: u32) -> Result<(), DriveError> {
        let address = self.address(offset)?;
        if offset < DOORBELLS {
            self.socket.forget_value();
            self.wanted = None;
        }
        fence(Ordering::SeqCst);
        self.socket.post(address, value)
    }
}

/// QEMU's controller.
pub struct QtestDrive {
    controller: Controller<Bar>,
}

/// A QEMU that has the window's memory and a controller, which is not opened yet.
pub struct FoundQemu {
    socket: Socket,
    place: Place,
    memory: Arc<dyn DriveMemory>,
    needs: Needs,
}

fn unusable<T>(words: String) -> Result<T, DriveError> {
    Err(DriveError::Unusable(words))
}

impl FoundQemu {
    /// Finds the controller of the QEMU whose qtest socket is at `path`. That QEMU has the window's memory is tried by a pattern at both ends of each
    /// piece, which are then as they were: nothing else may use the window meanwhile.
    ///
    /// Errors: where QEMU cannot be reached or has other memory, and where there is not one NVMe function on bus 0.
    pub fn at(path: &Path, memory: Arc<dyn DriveMemory>, needs: Needs) -> Result<Self, DriveError> {
        Self::by(Socket::connect(path)?, memory, needs)
    }

    fn by(mut socket: Socket, memory: Arc<dyn DriveMemory>, needs: Needs) -> Result<Self, DriveError> {
        check_reach(&*memory)?;
        check_shared(&mut socket, &*memory)?;
        let place = find_function(&mut socket)?;
        let needs = Needs {
            interrupts: false,
            ..needs
        };
        Ok(Self {
            socket,
            place,
            memory,
            needs,
        })
    }

    /// Opens the controller. Others may use the window.
    ///
    /// Errors: where the function cannot be set up, and as of [`Controller::open`].
    pub fn open(mut self) -> Result<QtestDrive, DriveError> {
        let place = self.place;
        let bytes = match set_up_function(&mut self.socket, place) {
            Ok(bytes) => bytes,
            Err(why) => {
                // The first reason is reported; however far it came, the controller makes no accesses of the window.
                let _ = self.socket.config_write(place, COMMAND, COMMAND_SILENT);
                return Err(why);
            }
        };
        let bar = Bar {
            socket: self.socket,
            place,
            bytes,
            wanted: None,
        };
        let mut drive = QtestDrive {
            controller: Controller::new(bar, self.memory, self.needs),
        };
        let opened = drive.controller.open();
        if opened.is_err() {
            // As above.
            let _ = drive.silence();
        }
        opened.map(|()| drive)
    }
}

impl QtestDrive {
    /// Finds and opens the controller of the QEMU whose qtest socket is at `path`: see [`FoundQemu::at`] and [`FoundQemu::open`].
    pub fn open(path: &Path, memory: Arc<dyn DriveMemory>, needs: Needs) -> Result<Self, DriveError> {
        FoundQemu::at(path, memory, needs)?.open()
    }

    /// The same on a connected socket.
    pub fn on(stream: UnixStream, memory: Arc<dyn DriveMemory>, needs: Needs) -> Result<Self, DriveError> {
        FoundQemu::by(Socket::on(stream)?, memory, needs)?.open()
    }
}

impl Physical for QtestDrive {
    type Access = Bar;

    fn controller(&self) -> &Controller<Bar> {
        &self.controller
    }

    fn controller_mut(&mut self) -> &mut Controller<Bar> {
        &mut self.controller
    }

    /// QEMU's answers to what was posted.
    fn hear(&mut self) -> Result<(), DriveError> {
        self.controller.access_mut().socket.work()
    }

    fn place(&self) -> String {
        let Place { device, function } = self.controller.access().place;
        format!("of QEMU at 00:{device:02x}.{function}")
    }

    /// Switches bus mastering off: the controller makes no access of the window then.
    fn silence(&mut self) -> Result<(), DriveError> {
        let bar = self.controller.access_mut();
        bar.socket.config_write(bar.place, COMMAND, COMMAND_SILENT)
    }
}

/// A machine with 2,816 MiB of RAM or more has a hole from 2 GiB on: [`check_shared`] finds a window that is in it.
fn check_reach(memory: &dyn DriveMemory) -> Result<(), DriveError> {
    for piece in memory.pieces() {
        if piece.host < REACH.from || piece.host >= REACH.to || piece.bytes > REACH.to - piece.host {
            return unusable(format!(
                "a piece of the window, {:#x} and {:#x} bytes, is not in {:#x} to {:#x}, where QEMU has RAM without holes",
                piece.host, piece.bytes, REACH.from, REACH.to
            ));
        }
    }
    Ok(())
}

fn check_shared(socket: &mut Socket, memory: &dyn DriveMemory) -> Result<(), DriveError> {
    for piece in memory.pieces() {
        for host in [piece.host, piece.host + piece.bytes - 4] {
            if !is_shared(socket, memory, host)? {
                return unusable(format!(
                    "QEMU's RAM at {host:#x} is not the window's memory: it maps another file, or has less RAM"
                ));
            }
        }
    }
    Ok(())
}

/// Whether QEMU's RAM is the window's memory: a pattern that is put there is to be read back, then the old bytes are put again.
fn is_shared(socket: &mut Socket, memory: &dyn DriveMemory, host: u64) -> Result<bool, DriveError> {
    let old = load32(memory, host)?;
    let pattern = !old ^ host as u32;
    store32(memory, host, pattern)?;
    fence(Ordering::SeqCst);
    let read = socket.read(host);
    store32(memory, host, old)?;
    Ok(read? == pattern)
}

/// Finds the one NVMe function of bus 0.
fn find_function(socket: &mut Socket) -> Result<Place, DriveError> {
    let mut found: Option<Place> = None;
    for device in 0..32 {
        for function in 0..8 {
            let place = Place { device, function };
            if socket.config_read(place, 0)? & 0xffff == 0xffff {
                if function == 0 {
                    break; // without a function 0 there is no device
                }
                continue;
            }
            if socket.config_read(place, CLASS)? >> 8 != CLASS_NVME {
                continue;
            }
            if let Some(first) = found {
                return unusable(format!(
                    "there are two NVMe functions on bus 0: 00:{:02x}.{} and 00:{device:02x}.{function}",
                    first.device, first.function
                ));
            }
            found = Some(place);
        }
    }
    found.ok_or_else(|| DriveError::Unusable("there is no NVMe function on bus 0".into()))
}

/// Sizes BAR0 by all ones, puts it where it is wanted, and switches memory and bus mastering on, interrupts off. A write of 0 to the status register in
/// the command's upper half changes nothing. The bytes of BAR0.
fn set_up_function(socket: &mut Socket, place: Place) -> Result<u32, DriveError> {
    socket.config_write(place, COMMAND, COMMAND_SILENT)?;
    socket.config_write(place, BAR0, u32::MAX)?;
    let ones = socket.config_read(place, BAR0)?;
    let kind = ones >> 1 & 3;
    if ones == 0 || ones & 1 == 1 || (kind != 0 && kind != 2) {
        return unusable(format!("BAR0 is no memory of 32 or 64 bits: {ones:#x}"));
    }
    let bytes = (!(ones & !15)).wrapping_add(1);
    if !(0x1000..=BAR_MOST).contains(&bytes) || !bytes.is_power_of_two() {
        return unusable(format!("BAR0 has {bytes:#x} bytes, not 4 KiB to 4 MiB"));
    }
    socket.config_write(place, BAR0, BAR_AT)?;
    if kind == 2 {
        socket.config_write(place, BAR1, 0)?;
    }
    let value = socket.config_read(place, BAR0)?;
    if value & !15 != BAR_AT {
        return unusable(format!("BAR0 cannot be put at {BAR_AT:#x}: it reads as {value:#x}"));
    }
    socket.config_write(place, COMMAND, COMMAND_MEMORY | COMMAND_MASTER | COMMAND_SILENT)?;
    let value = socket.config_read(place, COMMAND)?;
    if value & COMMAND_MEMORY == 0 || value & COMMAND_MASTER == 0 {
        return unusable(format!(
            "memory and bus mastering cannot be switched on: the command register is {:#x}",
            value & 0xffff
        ));
    }
    Ok(bytes)
}
