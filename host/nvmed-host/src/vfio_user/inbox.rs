//! Bytes and descriptors that came, until they are taken as messages.
//!
//! Linux ends a `recvmsg` after the bytes with which descriptors came, so that the descriptors that one gives belong to the last message of which it gives bytes.

#![forbid(unsafe_code)]

use std::collections::VecDeque;
use std::ops::Range;
use std::os::fd::OwnedFd;
use std::time::Instant;

use super::wire::{FramingError, Header, DESCRIPTORS_MAX, HEADER_BYTES};

/// Bytes that are kept of messages that were not taken, but for a longer message.
const KEPT_BYTES: usize = 16 << 10;

/// Bytes and descriptors that came. At most 32 descriptors, and the bytes of one message or of [`KEPT_BYTES`].
#[derive(Debug, Default)]
pub struct Inbox {
    bytes: Vec<u8>,
    from: usize,
    to: usize,
    /// The place in the stream of the byte at `from`.
    place: u64,
    /// Descriptors and the place in the stream of the last byte that came with them.
    descriptors: VecDeque<(u64, OwnedFd)>,
    /// Since when the first message is incomplete.
    partial_since: Option<Instant>,
}

/// A whole message: where it is, and its descriptors.
#[derive(Debug)]
pub struct Taken {
    range: Range<usize>,
    /// Those that belong to it.
    pub descriptors: Vec<OwnedFd>,
}

impl Inbox {
    fn held(&self) -> &[u8] {
        self.bytes.get(self.from..self.to).unwrap_or_default()
    }

    /// The first message's header, if it is there.
    fn header(&self) -> Result<Option<Header>, FramingError> {
        self.held()
            .first_chunk::<HEADER_BYTES>()
            .map(Header::decode)
            .transpose()
    }

    /// The first message's bytes, if its header is there and good.
    fn first_bytes(&self) -> Option<usize> {
        self.header().ok().flatten().map(|header| header.bytes as usize)
    }

    /// Whether all of the first message is there. A bad header counts as whole: there is nothing to wait for.
    fn has_whole(&self) -> bool {
        match self.header() {
            Ok(Some(header)) => self.to - self.from >= header.bytes as usize,
            Ok(None) => false,
            Err(_) => true,
        }
    }

    /// How much may be held.
    fn limit(&self) -> usize {
        self.first_bytes().unwrap_or(0).max(KEPT_BYTES)
    }

    /// Whether more may come. Where descriptors wait for their message to be taken, no others may.
    pub fn has_room(&self) -> bool {
        self.to - self.from < self.limit() && (self.descriptors.is_empty() || !self.has_whole())
    }

    /// Whether a part of a message is there and the rest is waited for.
    pub fn is_partial(&self) -> bool {
        self.to > self.from && !self.has_whole()
    }

    /// Since when.
    pub fn partial_since(&self) -> Option<Instant> {
        self.partial_since
    }

    /// Room for bytes that are received next; empty where no more may come now.
    pub fn room(&mut self) -> &mut [u8] {
        if !self.has_room() {
            return &mut [];
        }
        let limit = self.limit();
        if self.from > 0 && (self.from == self.to || self.from + limit > self.bytes.len()) {
            self.bytes.copy_within(self.from..self.to, 0);
            self.to -= self.from;
            self.from = 0;
        }
        if self.bytes.len() < limit {
            self.bytes.resize(limit, 0);
        } else if self.to == 0 && self.bytes.len() > limit {
            self.bytes.truncate(limit);
            self.bytes.shrink_to_fit();
        }
        let end = self.bytes.len().min(self.from + limit);
        self.bytes.get_mut(self.to..end).unwrap_or_default()
    }

    /// Says that so many bytes were put into the room, and which descriptors came with them.
    pub fn fed(&mut self, count: usize, descriptors: Vec<OwnedFd>) -> Result<(), FramingError> {
        if descriptors.len() > DESCRIPTORS_MAX || (count == 0 && !descriptors.is_empty()) {
            return Err(FramingError::Descriptors);
        }
        self.to = self.bytes.len().min(self.to + count);
        let last = self.place + (self.to - self.from).saturating_sub(1) as u64;
        self.descriptors
            .extend(descriptors.into_iter().map(|descriptor| (last, descriptor)));
        let whole = self.has_whole();
        if !whole && self.descriptors.len() > DESCRIPTORS_MAX {
            return Err(FramingError::Descriptors);
        }
        self.note_partial();
        Ok(())
    }

    fn note_partial(&mut self) {
        if !self.is_partial() {
            self.partial_since = None;
        } else if self.partial_since.is_none() {
            self.partial_since = Some(Instant::now());
        }
    }

    /// The first message, if all of it is there. It stays where it is until [`Inbox::drop_first`].
    pub fn first(&mut self) -> Result<Option<Taken>, FramingError> {
        let Some(header) = self.header()? else { return Ok(None) };
        let bytes = header.bytes as usize;
        if self.to - self.from < bytes {
            return Ok(None);
        }
        let end = self.place + bytes as u64;
        let count = self.descriptors.iter().take_while(|(place, _)| *place < end).count();
        let descriptors = self
            .descriptors
            .drain(..count)
            .map(|(_, descriptor)| descriptor)
            .collect();
        Ok(Some(Taken {
            range: self.from..self.from + bytes,
            descriptors,
        }))
    }

    /// A message's bytes.
    pub fn bytes_of(&self, taken: &Taken) -> &[u8] {
        self.bytes.get(taken.range.clone()).unwrap_or_default()
    }

    /// Forgets the first message's bytes.
    pub fn drop_first(&mut self, taken: &Taken) {
        self.place += taken.range.len() as u64;
        self.from = taken.range.end.min(self.to);
        if self.from == self.to {
            self.from = 0;
            self.to = 0;
        }
        self.note_partial();
    }
}
