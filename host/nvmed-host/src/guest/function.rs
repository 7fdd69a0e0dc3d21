//! The PCI function that a guest's client sees: configuration space, BAR0 and interrupts, over the mailbox to the mediator.

#![forbid(unsafe_code)]

use std::os::fd::OwnedFd;
use std::sync::Arc;

use crate::doorbells::{Page, PAGE_BYTES};
use crate::interrupts::{InterruptError, Interrupts, Signals, VECTORS};
use crate::mediation::mailbox::{Access, Gone, Sender};
use crate::pci::{Changes, ConfigSpace, BAR_BYTES, CONFIG_BYTES, DOORBELLS};
use crate::vfio_user::{
    pci_irq, pci_region, Area, Device, DeviceError, Irq, IrqAction, IrqData, Mapping, Region, SetIrqs,
};

/// NVMe Base, "Controller Status".
const CSTS: u32 = 0x1c;
/// Bytes of a register, and of a doorbell.
const DWORD: usize = 4;

/// Why a client's request cannot be done.
#[derive(Debug, thiserror::Error)]
pub enum FunctionError {
    /// The request is refused, and the connection goes on.
    #[error("{0}")]
    Refused(InterruptError),
    /// The connection is over.
    #[error("{0}")]
    Fatal(InterruptError),
    /// The mediator's thread has ended.
    #[error(transparent)]
    Gone(#[from] Gone),
}

impl From<InterruptError> for FunctionError {
    fn from(error: InterruptError) -> Self {
        if error.is_fatal() {
            Self::Fatal(error)
        } else {
            Self::Refused(error)
        }
    }
}

/// The function, of one guest. It stays from one connection to the next, and is reset between them.
pub struct Function {
    config: ConfigSpace,
    interrupts: Interrupts,
    mailbox: Sender,
}

/// What a function has, for a client: BAR0, with the doorbells in a page that it may map; configuration space; interrupts, and one of errors, without which
/// QEMU warns that it cannot enable error recovery.
///
/// A function with an interrupt pin has no page: QEMU takes the page away with each interrupt of a pin, and doorbells by messages could overtake those in the page.
///
/// # Errors
///
/// None, but for a fault of this program.
pub fn device(page: Option<&Page>, intx: bool) -> Result<Device, DeviceError> {
    let file = page.and_then(Page::file).and_then(|fd| fd.try_clone_to_owned().ok());
    let bar = match file {
        Some(file) => Region::mapped(
            BAR_BYTES,
            Mapping {
                file: Arc::new(file),
                offset: 0,
                areas: vec![Area {
                    offset: DOORBELLS,
                    bytes: PAGE_BYTES,
                }],
            },
        ),
        None => Region::of(BAR_BYTES),
    };
    let mut regions = vec![Region::none(); pci_region::COUNT];
    for (index, region) in [
        (pci_region::BAR0, bar),
        (pci_region::CONFIG, Region::of(CONFIG_BYTES as u64)),
    ] {
        if let Some(place) = regions.get_mut(index as usize) {
            *place = region;
        }
    }
    let mut irqs = vec![Irq::NONE; pci_irq::COUNT];
    let pin = Irq {
        count: 1,
        eventfd: true,
        maskable: true,
        automasked: true,
        noresize: false,
    };
    let messages = Irq {
        count: VECTORS as u32,
        eventfd: true,
        maskable: true,
        automasked: false,
        noresize: false,
    };
    let errors = Irq {
        count: 1,
        eventfd: true,
        noresize: true,
        ..Irq::NONE
    };
    for (index, irq) in [
        (pci_irq::INTX, if intx { pin } else { Irq::NONE }),
        (pci_irq::MSIX, messages),
        (pci_irq::ERR, errors),
    ] {
        if let Some(place) = irqs.get_mut(index as usize) {
            *place = irq;
        }
    }
    Device::new(regions, irqs)
}

impl Function {
    /// A function as after power-on, with an interrupt pin where `intx` is set.
    pub fn new(intx: bool, signals: Arc<Signals>, mailbox: Sender) -> Self {
        Self {
            config: ConfigSpace::new(intx),
            interrupts: Interrupts::new(signals),
            mailbox,
        }
    }

    /// A client connects, with this doorbell page.
    ///
    /// # Errors
    ///
    /// The mediator has ended.
    pub fn connect(&mut self, page: Option<Arc<Page>>) -> Result<(), Gone> {
        self.config.reset();
        self.mailbox.connect(page)
    }

    /// The client is gone. Its descriptors are closed, which takes as long as it wants.
    ///
    /// # Errors
    ///
    /// The mediator has ended.
    pub fn disconnect(&mut self) -> Result<(), Gone> {
        let result = self.mailbox.send(Access::Disconnect);
        self.interrupts.reset();
        self.config.reset();
        result
    }

    /// The interrupts, for what is polled.
    pub fn interrupts(&self) -> &Interrupts {
        &self.interrupts
    }

    /// Delivers what the mediator's thread has published.
    ///
    /// # Errors
    ///
    /// An eventfd that cannot be written.
    pub fn deliver(&mut self) -> Result<(), FunctionError> {
        Ok(self.interrupts.deliver()?)
    }

    /// The pin's resample eventfd is readable.
    ///
    /// # Errors
    ///
    /// An eventfd that cannot be read or written.
    pub fn resampled(&mut self) -> Result<(), FunctionError> {
        Ok(self.interrupts.resampled()?)
    }

    /// A reset, as by `VFIO_USER_DEVICE_RESET`: what the guest has written is gone. The client's eventfds stay.
    ///
    /// # Errors
    ///
    /// See [`FunctionError`].
    pub fn reset(&mut self) -> Result<(), FunctionError> {
        self.config.reset();
        self.mailbox.send(Access::Reset)?;
        self.mailbox.send(Access::Master(false))?;
        Ok(self.interrupts.set_control(self.config.control())?)
    }

    /// Reads configuration space.
    pub fn read_config(&mut self, offset: u64, into: &mut [u8]) {
        self.config.show_interrupt(self.interrupts.level());
        self.config.read(offset, into);
    }

    /// Writes configuration space.
    ///
    /// # Errors
    ///
    /// See [`FunctionError`].
    pub fn write_config(&mut self, offset: u64, bytes: &[u8]) -> Result<(), FunctionError> {
        let Changes {
            reset,
            master,
            interrupts,
        } = self.config.write(offset, bytes);
        if reset {
            return self.reset();
        }
        if master {
            self.mailbox.send(Access::Master(self.config.is_master()))?;
        }
        if interrupts {
            self.interrupts.set_control(self.config.control())?;
        }
        Ok(())
    }

    /// Waits until the mediator has carried out all that it was asked for.
    ///
    /// # Errors
    ///
    /// The mediator has ended.
    pub fn settle(&mut self) -> Result<(), Gone> {
        // an answer comes after all that was asked for before
        self.mailbox.read(CSTS).map(drop)
    }

    /// Reads BAR0. Doorbells read as 0, and without Memory Space Enable all bits are ones.
    ///
    /// # Errors
    ///
    /// The mediator has ended.
    pub fn read_bar(&mut self, offset: u64, into: &mut [u8]) -> Result<(), Gone> {
        if !self.config.is_memory() {
            into.fill(0xff);
            return Ok(());
        }
        into.fill(0);
        let mut value = [0; DWORD];
        let mut known = None;
        for (at, byte) in (offset..DOORBELLS).zip(into) {
            let register = at & !(DWORD as u64 - 1);
            if known != Some(register) {
                known = Some(register);
                value = self.mailbox.read(register as u32)?.to_le_bytes();
            }
            *byte = value.get((at - register) as usize).copied().unwrap_or(0);
        }
        Ok(())
    }

    /// Writes BAR0, in whole dwords: other writes change nothing. Nor do those without Memory Space Enable, or beyond the doorbells.
    ///
    /// # Errors
    ///
    /// The mediator has ended.
    pub fn write_bar(&mut self, offset: u64, bytes: &[u8]) -> Result<(), Gone> {
        if !self.config.is_memory() || offset % DWORD as u64 != 0 {
            return Ok(());
        }
        for (at, dword) in (offset..DOORBELLS + PAGE_BYTES)
            .step_by(DWORD)
            .zip(bytes.chunks_exact(DWORD))
        {
            let Ok(value) = dword.try_into().map(u32::from_le_bytes) else {
                break;
            };
            let offset = at as u32;
            self.mailbox.send(if at < DOORBELLS {
                Access::Write { offset, value }
            } else {
                Access::Doorbell { offset, value }
            })?;
        }
        Ok(())
    }

    /// Sets up, masks or triggers interrupts.
    ///
    /// # Errors
    ///
    /// See [`FunctionError`].
    pub fn set_irqs(&mut self, request: SetIrqs) -> Result<(), FunctionError> {
        match request.index {
            pci_irq::INTX => self.set_pin(request),
            pci_irq::MSIX => self.set_messages(request),
            // QEMU stops its machine for good where an error is signalled, so none is: where the drive has failed, commands end with an error that the guest sees
            _ => Ok(()),
        }
    }

    fn set_pin(&mut self, request: SetIrqs) -> Result<(), FunctionError> {
        let all = request.disables_all();
        let pin = &mut self.interrupts;
        match (request.action, request.data) {
            (IrqAction::Trigger, IrqData::None) if all => pin.set_intx(None)?,
            (IrqAction::Trigger, IrqData::Eventfds(fds)) => pin.set_intx(fds.into_iter().next())?,
            (IrqAction::Unmask, IrqData::Eventfds(fds)) => pin.set_resample(fds.into_iter().next())?,
            (IrqAction::Mask, IrqData::Eventfds(_)) => {}
            (action, data) if chosen(&data, 0) => match action {
                IrqAction::Mask => pin.mask_intx(true)?,
                IrqAction::Unmask => pin.mask_intx(false)?,
                IrqAction::Trigger => pin.trigger_intx()?,
            },
            _ => {}
        }
        Ok(())
    }

    fn set_messages(&mut self, request: SetIrqs) -> Result<(), FunctionError> {
        let SetIrqs {
            start,
            count,
            action,
            data,
            ..
        } = request;
        match (action, data) {
            (IrqAction::Trigger, IrqData::None) if count == 0 => self.interrupts.disable_vectors(),
            (IrqAction::Trigger, IrqData::Eventfds(fds)) => {
                let places = count.min(VECTORS as u32 + 1) as usize;
                let mut fds: Vec<Option<OwnedFd>> = fds.into_iter().map(Some).collect();
                fds.resize_with(places, || None);
                self.interrupts.set_vectors(start, fds)?;
            }
            (_, IrqData::Eventfds(_)) => {}
            (action, data) => {
                for place in (0..count).filter(|&place| chosen(&data, place)) {
                    let vector = start.saturating_add(place);
                    match action {
                        IrqAction::Mask => self.interrupts.mask_vectors(vector, 1, true)?,
                        IrqAction::Unmask => self.interrupts.mask_vectors(vector, 1, false)?,
                        IrqAction::Trigger => self.interrupts.trigger_vectors(vector, 1)?,
                    }
                }
            }
        }
        Ok(())
    }
}

/// Whether an action is for the interrupt at that place of a request.
fn chosen(data: &IrqData, place: u32) -> bool {
    match data {
        IrqData::None => true,
        IrqData::Bools(chosen) => chosen.get(place as usize).copied().unwrap_or(false),
        IrqData::Eventfds(_) => false,
    }
}

#[cfg(test)]
mod tests;
