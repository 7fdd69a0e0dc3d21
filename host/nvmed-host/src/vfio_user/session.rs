//! The protocol of one connection, without its socket: bytes and descriptors in, requests out; answers in, bytes out.

#![forbid(unsafe_code)]

use std::os::fd::{BorrowedFd, OwnedFd};
use std::sync::Arc;
use std::time::{Duration, Instant};

use nix::errno::Errno;

use super::device::Device;
use super::inbox::Inbox;
use super::maps::Maps;
use super::outbox::{Outbox, UNSENT_MAX};
use super::request::{
    Answer, DmaMap, DmaUnmap, IrqData, RegionRead, RegionWrite, Request, SetIrqs, SmallWrite, Ticket,
};
use super::version::{negotiate, Agreed, VersionError, MAJOR, MINOR};
use super::wire::{
    decode, encode, encode_error, Body, FramingError, IrqSelection, MapRequest, Message, Refusal, ReplyBody,
    SetIrqsRequest, UnmapRequest, VersionRequest,
};

/// After so long the rest of a message is not waited for any more.
pub const STALL: Duration = Duration::from_secs(10);

/// Why a connection is over. It is to be closed; nothing of another connection is concerned.
#[derive(Clone, Copy, Debug, PartialEq, Eq, thiserror::Error)]
pub enum Error {
    /// The peer closed it, between two messages.
    #[error("the client closed the connection")]
    Closed,
    /// The peer closed it in the middle of a message.
    #[error("the client closed the connection in the middle of a message")]
    Cut,
    /// The rest of a message did not come within [`STALL`].
    #[error("the rest of a message did not come within {} seconds", STALL.as_secs())]
    Stalled,
    /// The socket failed.
    #[error("the socket failed: {0}")]
    Socket(Errno),
    /// What came can't be taken apart.
    #[error("{0}")]
    Framing(#[from] FramingError),
    /// No agreement on the version.
    #[error("{0}")]
    Version(#[from] VersionError),
    /// Something else came before the version.
    #[error("a message came before the version was agreed on")]
    NoVersion,
    /// The version came again.
    #[error("the version was proposed twice")]
    VersionAgain,
    /// The peer doesn't read its replies.
    #[error("more than {UNSENT_MAX} bytes of replies were not read")]
    Unread,
    /// An answer that fits no request that waits: the fault of this program.
    #[error("a request was answered in a way that does not fit it (a fault of this program)")]
    Misanswered,
}

/// A request that waits for its answer.
#[derive(Debug)]
struct Waiting {
    number: u64,
    reply: ReplyTo,
    effect: Effect,
}

/// Where a reply goes.
#[derive(Clone, Copy, Debug)]
struct ReplyTo {
    id: u16,
    command: u16,
    wanted: bool,
}

/// What the answer `Done` means, and what the reply needs of the request.
#[derive(Clone, Copy, Debug)]
enum Effect {
    Nothing,
    Map { address: u64, bytes: u64 },
    Unmap(UnmapRequest),
    Read(RegionRead),
    Write { region: u32, offset: u64, count: u32 },
    WriteMulti { count: u64 },
}

/// The protocol of one connection.
#[derive(Debug)]
pub struct Session {
    device: Arc<Device>,
    inbox: Inbox,
    outbox: Outbox,
    agreed: Option<Agreed>,
    maps: Maps,
    waiting: Option<Waiting>,
    numbers: u64,
    over: Option<Error>,
    refused: u64,
    last_refusal: Option<Refusal>,
}

impl Session {
    /// A connection at its beginning.
    pub fn new(device: Arc<Device>) -> Session {
        Session {
            device,
            inbox: Inbox::default(),
            outbox: Outbox::default(),
            agreed: None,
            maps: Maps::default(),
            waiting: None,
            numbers: 0,
            over: None,
            refused: 0,
            last_refusal: None,
        }
    }

    /// Why the connection is over, if it is.
    pub fn error(&self) -> Option<Error> {
        self.over
    }

    /// What was agreed on with the client, once it has proposed a version.
    pub fn agreed(&self) -> Option<&Agreed> {
        self.agreed.as_ref()
    }

    /// How many requests were answered by an error here, without being shown to the caller, and why the last one was.
    pub fn refusals(&self) -> (u64, Option<Refusal>) {
        (self.refused, self.last_refusal)
    }

    /// Ranges of memory that are mapped.
    pub fn maps(&self) -> usize {
        self.maps.len()
    }

    /// Ends the connection, unless it is over.
    pub(super) fn fail<T>(&mut self, error: impl Into<Error>) -> Result<T, Error> {
        let error = *self.over.get_or_insert(error.into());
        Err(error)
    }

    fn alive(&self) -> Result<(), Error> {
        self.over.map_or(Ok(()), Err)
    }

    /// Whether bytes may be received now. Where not, requests are to be taken or answered first.
    pub fn has_room(&self) -> bool {
        self.over.is_none() && self.inbox.has_room()
    }

    /// Room for bytes that are received next; empty where none may be now.
    pub fn room(&mut self) -> &mut [u8] {
        if self.over.is_some() {
            return &mut [];
        }
        self.inbox.room()
    }

    /// Says that one `recvmsg` put so many bytes into the room, which descriptors came with them, and whether some were lost.
    pub fn fed(&mut self, count: usize, descriptors: Vec<OwnedFd>, lost: bool) -> Result<(), Error> {
        self.alive()?;
        if lost {
            return self.fail(FramingError::Descriptors);
        }
        match self.inbox.fed(count, descriptors) {
            Ok(()) => Ok(()),
            Err(error) => self.fail(error),
        }
    }

    /// Takes as many of the bytes as there is room for, and descriptors that came with the last of those; says how many it took.
    pub fn feed(&mut self, bytes: &[u8], descriptors: Vec<OwnedFd>) -> Result<usize, Error> {
        let room = self.room();
        let count = bytes.len().min(room.len());
        if let (Some(to), Some(from)) = (room.get_mut(..count), bytes.get(..count)) {
            to.copy_from_slice(from);
        }
        self.fed(count, descriptors, false)?;
        Ok(count)
    }

    /// The stream has ended.
    pub(super) fn ended(&mut self) -> Result<(), Error> {
        let error = if self.inbox.is_partial() {
            Error::Cut
        } else {
            Error::Closed
        };
        self.fail(error)
    }

    /// When the rest of a message has to be there.
    pub fn deadline(&self) -> Option<Instant> {
        self.inbox
            .partial_since()
            .filter(|_| self.over.is_none())
            .and_then(|since| since.checked_add(STALL))
    }

    /// Ends the connection where the rest of a message did not come in time.
    pub fn check(&mut self, now: Instant) -> Result<(), Error> {
        self.alive()?;
        match self.deadline() {
            Some(end) if now >= end => self.fail(Error::Stalled),
            _ => Ok(()),
        }
    }

    /// What is to be sent next in one `sendmsg`, and the descriptor with it.
    pub fn unsent(&self) -> Option<(&[u8], Option<BorrowedFd<'_>>)> {
        self.outbox.front()
    }

    /// Says that so many bytes of that were sent.
    pub fn sent(&mut self, count: usize) {
        self.outbox.sent(count);
    }

    /// The next request, if all of it is there and the one before was answered. What concerns the protocol alone is answered here.
    pub fn next_request(&mut self) -> Result<Option<(Request, Ticket)>, Error> {
        self.alive()?;
        while self.waiting.is_none() {
            let taken = match self.inbox.first() {
                Ok(Some(taken)) => taken,
                Ok(None) => break,
                Err(error) => return self.fail(error),
            };
            let message = decode(self.inbox.bytes_of(&taken), taken.descriptors.len());
            self.inbox.drop_first(&taken);
            let handled = message
                .map_err(Error::from)
                .and_then(|message| self.handle(message, taken.descriptors));
            match handled {
                Ok(None) => {}
                Ok(Some(request)) => return Ok(Some(request)),
                Err(error) => return self.fail(error),
            }
        }
        Ok(None)
    }

    fn handle(&mut self, message: Message, descriptors: Vec<OwnedFd>) -> Result<Option<(Request, Ticket)>, Error> {
        let to = ReplyTo {
            id: message.id,
            command: message.command,
            wanted: message.reply_wanted,
        };
        if self.agreed.is_none() {
            return self.agree(to, message).map(|()| None);
        }
        let handled = message.body.and_then(|body| match body {
            Body::GetInfo => Ok(Handled::Reply(self.device.info())),
            Body::GetIrqInfo { index } => self.device.irq_info(index).map(Handled::Reply),
            Body::GetRegionInfo { argsz, index } => Ok(Handled::RegionInfo { argsz, index }),
            Body::Version(_) => Ok(Handled::VersionAgain),
            Body::DmaMap(map) => self.map(map, descriptors).map(Handled::Request),
            Body::DmaUnmap(unmap) => self.unmap(unmap).map(Handled::Request),
            Body::SetIrqs(irqs) => self.set_irqs(irqs, descriptors).map(Handled::Request),
            Body::RegionRead(read) => self.read(read, to.wanted).map(Handled::Request),
            Body::RegionWrite(write) => self.write(write).map(Handled::Request),
            Body::WriteMulti(writes) => self.write_multi(writes).map(Handled::Request),
            Body::Reset => Ok(Handled::Request((Request::Reset, Effect::Nothing))),
        });
        match handled {
            Ok(Handled::Reply(body)) => self.reply(to, &body).map(|()| None),
            Ok(Handled::RegionInfo { argsz, index }) => self.region_info(to, argsz, index).map(|()| None),
            Ok(Handled::VersionAgain) => Err(Error::VersionAgain),
            Ok(Handled::Request((request, effect))) => Ok(Some((request, self.wait(to, effect)))),
            Err(refusal) => self.refuse(to, refusal).map(|()| None),
        }
    }

    /// The first message. Where there is no agreement the client is told so, and the connection is over.
    fn agree(&mut self, to: ReplyTo, message: Message) -> Result<(), Error> {
        let agreed = match message.body {
            Ok(Body::Version(request)) => proposal(&request, to.wanted),
            Err(refusal) if to.command == super::wire::Command::Version as u16 => {
                Err(Error::Version(VersionError::Message(refusal.why)))
            }
            _ => Err(Error::NoVersion),
        };
        match agreed {
            Ok((agreed, text)) => {
                self.agreed = Some(agreed);
                self.reply(
                    to,
                    &ReplyBody::Version {
                        major: MAJOR,
                        minor: MINOR,
                        text: &text,
                    },
                )
            }
            Err(error) => {
                self.error_reply(to, Errno::EINVAL)?;
                Err(error)
            }
        }
    }

    fn map(&self, map: MapRequest, mut descriptors: Vec<OwnedFd>) -> Result<(Request, Effect), Refusal> {
        self.maps.check_new(map.address, map.bytes)?;
        let MapRequest {
            readable,
            writable,
            offset,
            address,
            bytes,
            ..
        } = map;
        let request = DmaMap {
            address,
            bytes,
            offset,
            readable,
            writable,
            fd: descriptors.pop(),
        };
        Ok((Request::DmaMap(request), Effect::Map { address, bytes }))
    }

    fn unmap(&self, unmap: UnmapRequest) -> Result<(Request, Effect), Refusal> {
        let UnmapRequest {
            address, bytes, all, ..
        } = unmap;
        if !all {
            self.maps.check_there(address, bytes)?;
        }
        Ok((
            Request::DmaUnmap(DmaUnmap { address, bytes, all }),
            Effect::Unmap(unmap),
        ))
    }

    fn set_irqs(&self, irqs: SetIrqsRequest, descriptors: Vec<OwnedFd>) -> Result<(Request, Effect), Refusal> {
        self.device.check_irqs(&irqs)?;
        let SetIrqsRequest {
            index,
            start,
            count,
            action,
            data,
        } = irqs;
        let data = match data {
            IrqSelection::Each => IrqData::None,
            IrqSelection::Chosen(chosen) => IrqData::Bools(chosen),
            IrqSelection::Eventfds => IrqData::Eventfds(descriptors),
        };
        Ok((
            Request::SetIrqs(SetIrqs {
                index,
                start,
                count,
                action,
                data,
            }),
            Effect::Nothing,
        ))
    }

    fn read(&self, read: RegionRead, wanted: bool) -> Result<(Request, Effect), Refusal> {
        if !wanted {
            return Err(Refusal::invalid("a read whose reply nobody wants"));
        }
        self.device
            .check_access(read.region, read.offset, read.count as usize, false)?;
        Ok((Request::RegionRead(read), Effect::Read(read)))
    }

    fn write(&self, write: RegionWrite) -> Result<(Request, Effect), Refusal> {
        self.device
            .check_access(write.region, write.offset, write.data.len(), true)?;
        let effect = Effect::Write {
            region: write.region,
            offset: write.offset,
            count: write.data.len() as u32,
        };
        Ok((Request::RegionWrite(write), effect))
    }

    fn write_multi(&self, writes: Vec<SmallWrite>) -> Result<(Request, Effect), Refusal> {
        for write in &writes {
            self.device
                .check_access(write.region, write.offset, write.data().len(), true)?;
        }
        let count = writes.len() as u64;
        Ok((Request::WriteMulti(writes), Effect::WriteMulti { count }))
    }

    fn region_info(&mut self, to: ReplyTo, argsz: u32, index: u32) -> Result<(), Error> {
        let takes = self.agreed.as_ref().is_some_and(|agreed| agreed.client_descriptors > 0);
        match self.device.region_info(index, argsz, takes) {
            Err(refusal) => self.refuse(to, refusal),
            Ok((info, file)) => {
                let bytes = encode(to.id, to.command, &ReplyBody::RegionInfo(info));
                self.queue(to, bytes, file)
            }
        }
    }

    fn wait(&mut self, reply: ReplyTo, effect: Effect) -> Ticket {
        self.numbers += 1;
        let number = self.numbers;
        self.waiting = Some(Waiting { number, reply, effect });
        Ticket {
            number,
            posted: !reply.wanted,
        }
    }

    /// Answers the request that waits. Bytes of a reply are queued, unless nobody wants it.
    pub fn answer(&mut self, ticket: Ticket, answer: Answer<'_>) -> Result<(), Error> {
        self.alive()?;
        let Some(Waiting { reply, effect, .. }) = self.waiting.take_if(|waiting| waiting.number == ticket.number)
        else {
            return self.fail(Error::Misanswered);
        };
        let queued = match (answer, effect) {
            (Answer::Refused(errno), _) => self.error_reply(reply, errno),
            (Answer::Data(data), Effect::Read(RegionRead { region, offset, count }))
                if data.len() == count as usize =>
            {
                self.reply(reply, &ReplyBody::Read { region, offset, data })
            }
            (Answer::Data(_), _) | (Answer::Done, Effect::Read(_)) => Err(Error::Misanswered),
            (Answer::Done, effect) => self.done(reply, effect),
        };
        queued.or_else(|error| self.fail(error))
    }

    fn done(&mut self, to: ReplyTo, effect: Effect) -> Result<(), Error> {
        match effect {
            Effect::Map { address, bytes } => {
                self.maps.add(address, bytes);
                self.reply(to, &ReplyBody::Empty)
            }
            Effect::Unmap(unmap) => {
                if unmap.all {
                    self.maps.clear();
                } else {
                    self.maps.remove(unmap.address);
                }
                self.reply(to, &ReplyBody::DmaUnmap(unmap))
            }
            Effect::Write { region, offset, count } => self.reply(to, &ReplyBody::Write { region, offset, count }),
            Effect::WriteMulti { count } => self.reply(to, &ReplyBody::WriteMulti { count }),
            Effect::Nothing | Effect::Read(_) => self.reply(to, &ReplyBody::Empty),
        }
    }

    fn refuse(&mut self, to: ReplyTo, refusal: Refusal) -> Result<(), Error> {
        self.refused += 1;
        self.last_refusal = Some(refusal);
        self.error_reply(to, refusal.errno)
    }

    fn error_reply(&mut self, to: ReplyTo, errno: Errno) -> Result<(), Error> {
        self.queue(to, encode_error(to.id, to.command, errno), None)
    }

    fn reply(&mut self, to: ReplyTo, body: &ReplyBody<'_>) -> Result<(), Error> {
        if !to.wanted {
            return Ok(());
        }
        self.queue(to, encode(to.id, to.command, body), None)
    }

    fn queue(&mut self, to: ReplyTo, bytes: Vec<u8>, descriptor: Option<Arc<OwnedFd>>) -> Result<(), Error> {
        if to.wanted && !self.outbox.push(bytes, descriptor) {
            return Err(Error::Unread);
        }
        Ok(())
    }
}

/// What is done with a message, where it is good.
enum Handled {
    Reply(ReplyBody<'static>),
    RegionInfo { argsz: u32, index: u32 },
    VersionAgain,
    Request((Request, Effect)),
}

fn proposal(request: &VersionRequest, wanted: bool) -> Result<(Agreed, String), Error> {
    if !wanted {
        return Err(Error::Version(VersionError::Message("no reply is wanted")));
    }
    Ok(negotiate(request)?)
}
