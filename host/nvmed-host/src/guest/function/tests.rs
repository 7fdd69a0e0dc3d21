use std::fs::File;
use std::os::fd::AsFd;
use std::thread;

use nix::sys::eventfd::{EfdFlags, EventFd};

use super::*;
use crate::interrupts::VectorSet;
use crate::mediation::mailbox::{mailbox, Receiver};
use crate::mediation::wake::Bell;

fn function(intx: bool) -> (Function, Receiver, Arc<Signals>) {
    let (sender, receiver) = mailbox(Arc::new(Bell::new().unwrap()));
    let signals = Arc::new(Signals::new().unwrap());
    (Function::new(intx, Arc::clone(&signals), sender), receiver, signals)
}

fn all(receiver: &mut Receiver) -> Vec<Access> {
    std::iter::from_fn(|| receiver.take()).collect()
}

fn eventfd() -> EventFd {
    EventFd::from_flags(EfdFlags::EFD_NONBLOCK).unwrap()
}

fn copy(of: &EventFd) -> OwnedFd {
    of.as_fd().try_clone_to_owned().unwrap()
}

fn request(index: u32, start: u32, count: u32, action: IrqAction, data: IrqData) -> SetIrqs {
    SetIrqs {
        index,
        start,
        count,
        action,
        data,
    }
}

/// A function whose memory accesses and bus master are on, and whose MSI-X is.
fn ready(intx: bool) -> (Function, Receiver, Arc<Signals>) {
    let (mut it, mut receiver, signals) = function(intx);
    it.connect(None).unwrap();
    it.write_config(4, &[6, 0]).unwrap();
    it.write_config(0x42, &[8, if intx { 0 } else { 0x80 }]).unwrap();
    assert_eq!(all(&mut receiver), [Access::Connect, Access::Master(true)]);
    (it, receiver, signals)
}

#[test]
fn a_device_has_a_page_or_a_pin() {
    let page = Page::new().unwrap();
    let device = device(Some(&page), false).unwrap();
    assert!(device.regions()[0].mapping.is_some());
    assert_eq!(device.regions()[7].bytes, 256);
    assert_eq!((device.irqs()[0].count, device.irqs()[2].count), (0, 9));
    let device = super::device(None, true).unwrap();
    assert!(device.regions()[0].mapping.is_none());
    assert_eq!(device.irqs()[0].count, 1);
}

#[test]
fn whole_dwords_are_written() {
    let (mut it, mut receiver, _) = ready(false);
    it.write_bar(0x28, &[1, 0, 0, 0, 2, 0, 0, 0]).unwrap();
    it.write_bar(0x1008, &[7, 0, 0, 0]).unwrap();
    it.write_bar(0x14, &[1]).unwrap();
    it.write_bar(0x15, &[1, 0, 0, 0]).unwrap();
    it.write_bar(0x2000, &[1, 0, 0, 0]).unwrap();
    assert_eq!(
        all(&mut receiver),
        [
            Access::Write { offset: 0x28, value: 1 },
            Access::Write { offset: 0x2c, value: 2 },
            Access::Doorbell {
                offset: 0x1008,
                value: 7
            }
        ]
    );
}

#[test]
fn registers_are_read_in_any_width() {
    let (mut it, mut receiver, _) = ready(false);
    let mediator = thread::spawn(move || {
        let mut asked = Vec::new();
        while asked.len() < 4 {
            if let Some(Access::Read { offset }) = receiver.take() {
                asked.push(offset);
                receiver.answer(0x0403_0201 + offset);
            }
        }
        (asked, receiver)
    });
    let mut bytes = [0; 8];
    it.read_bar(0x10, &mut bytes).unwrap();
    assert_eq!(bytes, [0x11, 2, 3, 4, 0x15, 2, 3, 4]);
    let mut bytes = [0; 2];
    it.read_bar(0x1d, &mut bytes).unwrap();
    assert_eq!(bytes, [2, 3]);
    let mut bytes = [9; 8];
    it.read_bar(0xffc, &mut bytes).unwrap();
    assert_eq!(bytes[4..], [0; 4], "doorbells read as 0");
    let (asked, _receiver) = mediator.join().unwrap();
    assert_eq!(asked, [0x10, 0x14, 0x1c, 0xffc]);
}

#[test]
fn without_memory_accesses_nothing_is_there() {
    let (mut it, mut receiver, _) = ready(false);
    it.write_config(4, &[4, 0]).unwrap();
    let mut bytes = [0; 4];
    it.read_bar(0, &mut bytes).unwrap();
    assert_eq!(bytes, [0xff; 4]);
    it.write_bar(0x14, &[1, 0, 0, 0]).unwrap();
    assert_eq!(all(&mut receiver), []);
}

#[test]
fn a_reset_of_the_function_is_passed_on() {
    let (mut it, mut receiver, _) = ready(false);
    // Initiate Function Level Reset, in the second byte of Device Control
    it.write_config(0x69, &[0x80]).unwrap();
    assert_eq!(all(&mut receiver), [Access::Reset, Access::Master(false)]);
    let mut command = [0; 2];
    it.read_config(4, &mut command);
    assert_eq!(command, [0, 0]);
    it.write_config(4, &[4, 0]).unwrap();
    it.write_config(4, &[0, 0]).unwrap();
    assert_eq!(all(&mut receiver), [Access::Master(true), Access::Master(false)]);
    it.disconnect().unwrap();
    assert_eq!(all(&mut receiver), [Access::Disconnect]);
    drop(receiver);
    assert!(it.disconnect().is_err());
    assert!(matches!(it.reset(), Err(FunctionError::Gone(_))));
}

#[test]
fn messages_are_set_up_masked_and_triggered() {
    let (mut it, _receiver, signals) = ready(false);
    let vectors: Vec<EventFd> = (0..9).map(|_| eventfd()).collect();
    let is = |v: usize| vectors[v].read().is_ok();
    let msix = |start, count, action, data| request(pci_irq::MSIX, start, count, action, data);
    it.set_irqs(msix(0, 1, IrqAction::Trigger, IrqData::Eventfds(Vec::new())))
        .unwrap();
    let fds = vectors.iter().map(copy).collect();
    it.set_irqs(msix(0, 9, IrqAction::Trigger, IrqData::Eventfds(fds)))
        .unwrap();
    signals.publish(VectorSet::from_bits(0b10), VectorSet::from_bits(0b10));
    it.deliver().unwrap();
    assert!(is(1) && !is(0));
    it.set_irqs(msix(2, 3, IrqAction::Trigger, IrqData::Bools(vec![true, false, true])))
        .unwrap();
    assert!(is(2) && !is(3) && is(4));
    it.set_irqs(msix(1, 1, IrqAction::Mask, IrqData::None)).unwrap();
    signals.publish(VectorSet::from_bits(0b10), VectorSet::from_bits(0b10));
    it.deliver().unwrap();
    assert!(!is(1));
    it.set_irqs(msix(1, 1, IrqAction::Unmask, IrqData::None)).unwrap();
    assert!(is(1), "what is pending is told once it is unmasked");
    it.set_irqs(msix(0, 0, IrqAction::Trigger, IrqData::None)).unwrap();
    signals.publish(VectorSet::from_bits(0b10), VectorSet::from_bits(0b10));
    it.deliver().unwrap();
    assert!(!is(1));
    // actions with eventfds that nobody needs
    it.set_irqs(msix(0, 1, IrqAction::Mask, IrqData::Eventfds(Vec::new())))
        .unwrap();
}

/// QEMU sets it up, and would stop its machine where it is signalled.
#[test]
fn the_interrupt_of_errors_is_taken_and_never_signalled() {
    let device = device(None, false).unwrap();
    let errors = device.irqs()[pci_irq::ERR as usize];
    assert!(errors.count == 1 && errors.eventfd && errors.noresize && !errors.maskable);
    let (mut it, receiver, signals) = ready(false);
    let error = eventfd();
    let set = |data| request(pci_irq::ERR, 0, 1, IrqAction::Trigger, data);
    it.set_irqs(set(IrqData::Eventfds(vec![copy(&error)]))).unwrap();
    it.set_irqs(set(IrqData::None)).unwrap();
    signals.publish(VectorSet::from_bits(1), VectorSet::from_bits(1));
    it.deliver().unwrap();
    // the mediator ends, as after a drive that has failed
    drop(receiver);
    assert!(it.reset().is_err());
    it.set_irqs(set(IrqData::Eventfds(Vec::new()))).unwrap();
    assert!(error.read().is_err(), "it was signalled");
}

#[test]
fn other_descriptors_are_refused() {
    let (mut it, _receiver, _) = ready(true);
    let file = || OwnedFd::from(File::open("/dev/null").unwrap());
    for index in [pci_irq::INTX, pci_irq::MSIX] {
        let wrong = request(index, 0, 1, IrqAction::Trigger, IrqData::Eventfds(vec![file()]));
        assert!(matches!(it.set_irqs(wrong), Err(FunctionError::Refused(_))));
    }
}

#[test]
fn the_pin_is_raised_and_unmasked() {
    let (mut it, _receiver, signals) = ready(true);
    let (pin, resample) = (eventfd(), eventfd());
    let intx = |count, action, data| request(pci_irq::INTX, 0, count, action, data);
    it.set_irqs(intx(1, IrqAction::Trigger, IrqData::Eventfds(vec![copy(&pin)])))
        .unwrap();
    signals.publish(VectorSet::from_bits(1), VectorSet::from_bits(1));
    it.deliver().unwrap();
    assert!(pin.read().is_ok());
    let mut status = [0; 2];
    it.read_config(6, &mut status);
    assert_eq!(status[0] & 8, 8, "the level is shown");
    it.deliver().unwrap();
    assert!(pin.read().is_err());
    it.set_irqs(intx(1, IrqAction::Unmask, IrqData::None)).unwrap();
    assert!(pin.read().is_ok(), "it is raised still");
    it.set_irqs(intx(1, IrqAction::Unmask, IrqData::Eventfds(vec![copy(&resample)])))
        .unwrap();
    resample.write(1).unwrap();
    it.resampled().unwrap();
    assert!(pin.read().is_ok());
    it.set_irqs(intx(1, IrqAction::Mask, IrqData::Bools(vec![true])))
        .unwrap();
    it.set_irqs(intx(1, IrqAction::Mask, IrqData::Bools(vec![false])))
        .unwrap();
    it.set_irqs(intx(1, IrqAction::Mask, IrqData::Eventfds(vec![copy(&resample)])))
        .unwrap();
    it.set_irqs(intx(1, IrqAction::Trigger, IrqData::Bools(vec![true])))
        .unwrap();
    assert!(pin.read().is_ok());
    it.set_irqs(intx(0, IrqAction::Trigger, IrqData::None)).unwrap();
    signals.publish(VectorSet::from_bits(1), VectorSet::from_bits(1));
    it.deliver().unwrap();
    assert!(pin.read().is_err());
}
