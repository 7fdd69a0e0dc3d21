#![forbid(unsafe_code)]
//! Which interrupts are due: without input or output.

use std::ops::{BitAnd, BitOr, Not};

use super::{News, VECTORS};

/// A set of vectors.
#[derive(Clone, Copy, Debug, Default, PartialEq, Eq, Hash)]
pub struct VectorSet(u16);

impl VectorSet {
    /// All vectors that there are.
    pub const ALL: Self = Self((1 << VECTORS) - 1);

    /// The set of those vectors whose bit is set. Bits of vectors that there are not are left out.
    pub fn from_bits(bits: u16) -> Self {
        Self(bits) & Self::ALL
    }

    /// A bit for each vector.
    pub fn bits(self) -> u16 {
        self.0
    }

    /// Whether there is none in it.
    pub fn is_empty(self) -> bool {
        self.0 == 0
    }

    /// Whether a vector is in it.
    pub fn contains(self, vector: usize) -> bool {
        vector < VECTORS && self.0 & 1 << vector != 0
    }
}

/// Vectors that there are not are left out.
impl FromIterator<usize> for VectorSet {
    fn from_iter<I: IntoIterator<Item = usize>>(vectors: I) -> Self {
        Self(
            vectors
                .into_iter()
                .filter(|&v| v < VECTORS)
                .fold(0, |bits, v| bits | 1 << v),
        )
    }
}

/// As a guest has set them: a vector that there is not is left out.
impl FromIterator<u16> for VectorSet {
    fn from_iter<I: IntoIterator<Item = u16>>(vectors: I) -> Self {
        vectors.into_iter().map(usize::from).collect()
    }
}

impl BitAnd for VectorSet {
    type Output = Self;
    fn bitand(self, other: Self) -> Self {
        Self(self.0 & other.0)
    }
}

impl BitOr for VectorSet {
    type Output = Self;
    fn bitor(self, other: Self) -> Self {
        Self(self.0 | other.0)
    }
}

impl Not for VectorSet {
    type Output = Self;
    fn not(self) -> Self {
        Self(!self.0 & Self::ALL.0)
    }
}

/// What configuration space says of interrupts.
#[derive(Clone, Copy, Debug, Default, PartialEq, Eq)]
pub struct Control {
    /// MSI-X Enable. While it is set there is no INTx.
    pub msix: bool,
    /// Function Mask of MSI-X.
    pub msix_masked: bool,
    /// Interrupt Disable of the command register, or the function sleeps.
    pub intx_off: bool,
    /// The function may access memory. A message interrupt is such an access.
    pub master: bool,
}

/// What is to be signalled now.
#[derive(Clone, Copy, Debug, Default, PartialEq, Eq)]
pub(super) struct Due {
    /// The eventfds of these vectors.
    pub(super) vectors: VectorSet,
    /// The eventfd of INTx.
    pub(super) intx: bool,
}

#[derive(Debug, Default)]
pub(super) struct Logic {
    control: Control,
    /// The vectors that have an eventfd.
    present: VectorSet,
    masked: VectorSet,
    intx_present: bool,
    intx_masked: bool,
    /// INTx was signalled, and has not been unmasked since: it masks itself.
    raised: bool,
    pending: VectorSet,
}

impl Logic {
    /// The vectors that are sent when they are posted.
    pub(super) fn open(&self) -> VectorSet {
        let on = self.control.msix && !self.control.msix_masked && self.control.master;
        if on {
            self.present & !self.masked
        } else {
            VectorSet::default()
        }
    }

    /// Whether INTx is signalled when something is pending, but for being raised already.
    pub(super) fn intx_open(&self) -> bool {
        self.intx_present && !self.intx_masked && !self.control.msix && !self.control.intx_off
    }

    fn raise(&mut self) -> bool {
        let due = self.intx_open() && !self.raised && !self.pending.is_empty();
        self.raised |= due;
        due
    }

    pub(super) fn news(&mut self, news: News) -> Due {
        self.pending = news.pending;
        Due {
            vectors: news.posted & self.open(),
            intx: self.raise(),
        }
    }

    /// What is pending is due of each vector that is open and was not, or has another eventfd than before.
    fn change(&mut self, replaced: VectorSet, change: impl FnOnce(&mut Self)) -> Due {
        let (before, intx) = (self.open(), self.intx_open());
        change(self);
        self.raised &= intx || !self.intx_open();
        Due {
            vectors: self.open() & self.pending & (!before | replaced),
            intx: self.raise(),
        }
    }

    pub(super) fn set_control(&mut self, control: Control) -> Due {
        self.change(VectorSet::default(), |l| l.control = control)
    }

    pub(super) fn replace_vectors(&mut self, present: VectorSet, absent: VectorSet) -> Due {
        self.change(present, |l| l.present = (l.present | present) & !absent)
    }

    pub(super) fn disable_vectors(&mut self) {
        self.present = VectorSet::default();
        self.masked = VectorSet::default();
    }

    pub(super) fn mask_vectors(&mut self, vectors: VectorSet, masked: bool) -> Due {
        self.change(VectorSet::default(), |l| {
            l.masked = if masked {
                l.masked | vectors
            } else {
                l.masked & !vectors
            }
        })
    }

    pub(super) fn replace_intx(&mut self, present: bool) -> Due {
        self.change(VectorSet::default(), |l| {
            l.intx_present = present;
            l.intx_masked &= present;
            l.raised = false;
        })
    }

    pub(super) fn mask_intx(&mut self, masked: bool) -> Due {
        self.change(VectorSet::default(), |l| {
            l.intx_masked = masked;
            l.raised &= masked;
        })
    }
}
