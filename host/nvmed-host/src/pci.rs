#![forbid(unsafe_code)]
//! What a guest is shown beside the mediator's registers: the configuration space of the NVMe function, the version, and the shutdown status.
//!
//! This is presented and not proved. There is no input or output here. Sources: PCI Local Bus 3.0, "Configuration Space"; PCI Express Base 5.0, "PCI
//! Express Capability Structure" and "Function Level Reset"; PCI Power Management 1.2; NVMe Base Specification, "Controller Properties" and "Shutdown".

#[cfg(test)]
mod tests;

use crate::interrupts::{Control, VECTORS};

/// Bytes of configuration space.
pub const CONFIG_BYTES: usize = 256;
/// Bytes of BAR0: registers in the first page, doorbells in the second, then the MSI-X table and the pending bits.
pub const BAR_BYTES: u64 = 0x4000;
/// The offset in BAR0 from which on there are doorbells. They have a page for themselves.
pub const DOORBELLS: u64 = 0x1000;
/// The offset in BAR0 of the MSI-X table, 16 bytes a vector. The client of vfio-user emulates it.
pub const MSIX_TABLE: u32 = 0x2000;
/// The offset in BAR0 of the MSI-X pending bits. The client of vfio-user emulates them.
pub const MSIX_PENDING: u32 = 0x3000;
/// The value of the property Version for NVMe 1.3.
pub const VERSION_1_3: u32 = 0x0001_0300;

// Places of the header of type 0.
const COMMAND: usize = 0x04;
const STATUS: usize = 0x06;
const CACHE_LINE: usize = 0x0c;
const BAR0: usize = 0x10;
const CAPABILITIES: usize = 0x34;
const INTERRUPT_LINE: usize = 0x3c;
const INTERRUPT_PIN: usize = 0x3d;
// The capabilities, each with the place of the next in its second byte.
const MSIX: usize = 0x40;
const POWER: usize = 0x50;
const EXPRESS: usize = 0x60;
const MSIX_CONTROL: usize = MSIX + 2;
const POWER_STATE: usize = POWER + 4;
const DEVICE_CONTROL: usize = EXPRESS + 8;
const LINK_CONTROL: usize = EXPRESS + 0x10;
const LINK_CONTROL_2: usize = EXPRESS + 0x30;

const COMMAND_MEMORY: u16 = 1 << 1;
const COMMAND_MASTER: u16 = 1 << 2;
const COMMAND_PARITY: u16 = 1 << 6;
const COMMAND_SERR: u16 = 1 << 8;
const COMMAND_NO_INTX: u16 = 1 << 10;
const STATUS_INTERRUPT: u8 = 1 << 3;
const STATUS_CAPABILITIES: u16 = 1 << 4;
const MSIX_ENABLE: u16 = 1 << 15;
const MSIX_MASK: u16 = 1 << 14;
const POWER_BITS: u8 = 3;
const POWER_D3HOT: u8 = 3;
/// A transition from D3hot to D0 keeps what was set up.
const POWER_NO_SOFT_RESET: u16 = 1 << 3;
/// Initiate Function Level Reset: bit 15 of Device Control, so bit 7 of its second byte. It is read as 0.
const INITIATE_RESET: u8 = 1 << 7;

/// What a write of configuration space has changed, beside the bytes themselves.
#[derive(Clone, Copy, Debug, Default, PartialEq, Eq)]
pub struct Changes {
    /// The guest asked for a Function Level Reset. Configuration space has been reset; the controller is to be reset as by a device reset.
    pub reset: bool,
    /// [`ConfigSpace::is_master`] has another value.
    pub master: bool,
    /// [`ConfigSpace::control`] has another value: it is to be given to [`Interrupts::set_control`](crate::interrupts::Interrupts::set_control).
    pub interrupts: bool,
}

/// The configuration space of a function. The identifiers are those of the NVMe controller that QEMU has, so that drivers know it.
#[derive(Clone)]
pub struct ConfigSpace {
    bytes: [u8; CONFIG_BYTES],
    writable: [u8; CONFIG_BYTES],
    intx: bool,
}

impl ConfigSpace {
    /// A function as it is after power-on. It has an interrupt pin where `intx` is set.
    pub fn new(intx: bool) -> Self {
        let (bytes, writable) = (initial(intx), writable());
        Self { bytes, writable, intx }
    }

    /// A reset of the function: what the guest has written is gone.
    pub fn reset(&mut self) {
        self.bytes = initial(self.intx);
    }

    /// Whether the function has an interrupt pin (INTA#).
    pub fn has_intx(&self) -> bool {
        self.intx
    }

    /// Reads from `offset` on. Outside of the 256 bytes all bits are ones.
    pub fn read(&self, offset: u64, into: &mut [u8]) {
        for (at, byte) in (u128::from(offset)..).zip(into) {
            *byte = usize::try_from(at)
                .ok()
                .and_then(|at| self.bytes.get(at))
                .copied()
                .unwrap_or(0xff);
        }
    }

    /// Writes from `offset` on. Bits that cannot be written keep their value, and outside of the 256 bytes nothing happens.
    ///
    /// These can be written: of the command register bits 10 (no INTx), 8, 6, 2 (bus master) and 1 (memory); the cache line size; the address bits of
    /// BAR0; the interrupt line; MSI-X enable and function mask; the power state, to D0 and D3hot; of PCI Express the error reporting, ordering, snoop
    /// and size bits of Device Control, and the bits of Link Control that an endpoint has.
    pub fn write(&mut self, offset: u64, bytes: &[u8]) -> Changes {
        let before = (self.is_master(), self.control());
        let mut reset = false;
        for (at, &byte) in (u128::from(offset)..).zip(bytes) {
            let Some(at) = usize::try_from(at).ok().filter(|&at| at < CONFIG_BYTES) else {
                break;
            };
            self.write_byte(at, byte);
            reset |= at == DEVICE_CONTROL + 1 && byte & INITIATE_RESET != 0;
        }
        if reset {
            self.reset();
        }
        Changes {
            reset,
            master: self.is_master() != before.0,
            interrupts: self.control() != before.1,
        }
    }

    /// A power state that the function doesn't have is not taken.
    fn write_byte(&mut self, at: usize, byte: u8) {
        let strange = at == POWER_STATE && !matches!(byte & POWER_BITS, 0 | POWER_D3HOT);
        if let (Some(old), Some(&bits), false) = (self.bytes.get_mut(at), self.writable.get(at), strange) {
            *old = (*old & !bits) | (byte & bits);
        }
    }

    fn word(&self, at: usize) -> u16 {
        let byte = |at: usize| self.bytes.get(at).copied().unwrap_or(0);
        u16::from_le_bytes([byte(at), byte(at + 1)])
    }

    /// Whether the function is in the power state D0, and not in D3hot. In D3hot there are no accesses but those of configuration space.
    pub fn is_awake(&self) -> bool {
        self.word(POWER_STATE) as u8 & POWER_BITS != POWER_D3HOT
    }

    /// Whether BAR0 answers: Memory Space Enable is set, in D0. Elsewhere reads give all ones and writes are dropped.
    pub fn is_memory(&self) -> bool {
        self.is_awake() && self.word(COMMAND) & COMMAND_MEMORY != 0
    }

    /// Whether the function may access memory: Bus Master Enable is set, in D0. Where it is not, nothing is to be fetched or stored for the guest: its
    /// doorbells and its writes of CC wait, the mediator's work of the guest is left undone, and no message interrupt is sent.
    pub fn is_master(&self) -> bool {
        self.is_awake() && self.word(COMMAND) & COMMAND_MASTER != 0
    }

    /// What configuration space says of interrupts.
    pub fn control(&self) -> Control {
        let msix = self.word(MSIX_CONTROL);
        Control {
            msix: msix & MSIX_ENABLE != 0,
            msix_masked: msix & MSIX_MASK != 0,
            intx_off: self.word(COMMAND) & COMMAND_NO_INTX != 0 || !self.is_awake(),
            master: self.is_master(),
        }
    }

    /// Shows the level of INTx in the status register, bit 3: to be called before a read.
    pub fn show_interrupt(&mut self, raised: bool) {
        if let Some(status) = self.bytes.get_mut(STATUS) {
            *status = (*status & !STATUS_INTERRUPT) | if raised && self.intx { STATUS_INTERRUPT } else { 0 };
        }
    }
}

fn put16(bytes: &mut [u8; CONFIG_BYTES], at: usize, value: u16) {
    for (byte, value) in bytes.iter_mut().skip(at).zip(value.to_le_bytes()) {
        *byte = value;
    }
}

fn put32(bytes: &mut [u8; CONFIG_BYTES], at: usize, value: u32) {
    put16(bytes, at, value as u16);
    put16(bytes, at + 2, (value >> 16) as u16);
}

/// The bytes after a reset.
fn initial(intx: bool) -> [u8; CONFIG_BYTES] {
    let mut c = [0; CONFIG_BYTES];
    put32(&mut c, 0x00, 0x0010_1b36); // QEMU's NVMe controller
    put16(&mut c, STATUS, STATUS_CAPABILITIES);
    put32(&mut c, 0x08, 0x0108_0202); // NVM Express I/O controller, revision 2
    put32(&mut c, 0x2c, 0x1100_1af4);
    put16(&mut c, CAPABILITIES, MSIX as u16);
    put16(&mut c, INTERRUPT_PIN, intx.into());
    put16(&mut c, MSIX, 0x11 | (POWER as u16) << 8);
    put16(&mut c, MSIX_CONTROL, VECTORS as u16 - 1);
    put32(&mut c, MSIX + 4, MSIX_TABLE); // the low bits are the BAR, 0
    put32(&mut c, MSIX + 8, MSIX_PENDING);
    put16(&mut c, POWER, 0x01 | (EXPRESS as u16) << 8);
    put16(&mut c, POWER + 2, 0x0003); // version 1.2; neither D1 nor D2, and no PME
    put16(&mut c, POWER_STATE, POWER_NO_SOFT_RESET);
    put16(&mut c, EXPRESS, 0x10);
    put16(&mut c, EXPRESS + 2, 0x0002); // version 2, endpoint
    put32(&mut c, EXPRESS + 4, 0x1000_8000); // Function Level Reset, role-based error reporting, payloads of 128 bytes
    put16(&mut c, DEVICE_CONTROL, 0x2810); // relaxed ordering, no snoop, requests of 512 bytes
    put32(&mut c, EXPRESS + 0x0c, 0x0000_0043); // the link: 8 GT/s, four lanes
    put16(&mut c, LINK_CONTROL + 2, 0x0043);
    put32(&mut c, EXPRESS + 0x2c, 0x0000_000e); // 2.5, 5 and 8 GT/s
    put16(&mut c, LINK_CONTROL_2, 0x0003);
    c
}

/// The bits of each byte that can be written.
fn writable() -> [u8; CONFIG_BYTES] {
    let mut w = [0; CONFIG_BYTES];
    put16(
        &mut w,
        COMMAND,
        COMMAND_MEMORY | COMMAND_MASTER | COMMAND_PARITY | COMMAND_SERR | COMMAND_NO_INTX,
    );
    put16(&mut w, CACHE_LINE, 0x00ff);
    put32(&mut w, BAR0, !(BAR_BYTES as u32 - 1));
    put16(&mut w, INTERRUPT_LINE, 0x00ff);
    put16(&mut w, MSIX_CONTROL, MSIX_ENABLE | MSIX_MASK);
    put16(&mut w, POWER_STATE, POWER_BITS.into());
    put16(&mut w, DEVICE_CONTROL, 0x78ff); // not extended tags, phantom functions, auxiliary power, nor the reset
    put16(&mut w, LINK_CONTROL, 0x00cb); // ASPM, read completion boundary, common clock, extended synch
    put16(&mut w, LINK_CONTROL_2, 0x000f);
    w
}

// NVMe: properties, and bits of Controller Configuration (CC) and Controller Status (CSTS).
const VS: u32 = 0x08;
const CC: u32 = 0x14;
const CSTS: u32 = 0x1c;
const CC_ENABLE: u32 = 1;
const CC_SHUTDOWN: u32 = 3 << 14;
const CSTS_SHUTDOWN: u32 = 3 << 2;
const SHUTDOWN_OCCURRING: u32 = 1 << 2;
const SHUTDOWN_COMPLETE: u32 = 2 << 2;

/// Where a guest's shutdown of its controller is.
#[derive(Clone, Copy, Debug, Default, PartialEq, Eq)]
enum Shutdown {
    #[default]
    No,
    Occurring,
    Complete,
}

/// The properties that are presented: the version as configured, and the shutdown status.
#[derive(Clone, Copy, Debug)]
pub struct Registers {
    version: u32,
    shutdown: Shutdown,
}

impl Registers {
    /// Registers with this value of the property Version, such as [`VERSION_1_3`].
    pub fn new(version: u32) -> Self {
        Self {
            version,
            shutdown: Shutdown::No,
        }
    }

    /// A reset of the function.
    pub fn reset(&mut self) {
        self.shutdown = Shutdown::No;
    }

    /// The guest writes the property at `offset`: to be called with each dword that it writes.
    ///
    /// A shutdown begins where CC.SHN is written with another value than 0. It is over, and its status 0 again, where a write has CC.EN 0, which resets
    /// the controller, and CC.SHN 0.
    pub fn note_write(&mut self, offset: u32, value: u32) {
        if offset != CC {
            return;
        }
        if value & CC_SHUTDOWN == 0 {
            if value & CC_ENABLE == 0 {
                self.shutdown = Shutdown::No;
            }
        } else if self.shutdown == Shutdown::No {
            self.shutdown = Shutdown::Occurring;
        }
    }

    /// Whether the guest has asked for a shutdown that is not complete.
    pub fn is_shutting(&self) -> bool {
        self.shutdown == Shutdown::Occurring
    }

    /// Nothing of the guest is outstanding, neither in the mediator nor in the drive: to be called when that is so and [`Registers::is_shutting`].
    pub fn note_idle(&mut self) {
        if self.is_shutting() {
            self.shutdown = Shutdown::Complete;
        }
    }

    /// What the guest reads from the property at `offset`, a multiple of 4, where the mediator's value is `value`.
    pub fn shown(&self, offset: u32, value: u32) -> u32 {
        match (offset, self.shutdown) {
            (VS, _) => self.version,
            (CSTS, Shutdown::Occurring) => value & !CSTS_SHUTDOWN | SHUTDOWN_OCCURRING,
            (CSTS, Shutdown::Complete) => value & !CSTS_SHUTDOWN | SHUTDOWN_COMPLETE,
            _ => value,
        }
    }
}
