#![forbid(unsafe_code)]
//! Why a call was refused.

use crate::library::Version;

/// Why a call was refused: the errors of `nvmed_status`, and two that this crate finds itself.
///
/// After an error nothing has changed, unless the call says otherwise. Three answers of the C interface have no like here, since Rust's types rule them
/// out: a null pointer, a handle that holds no mediator, and one that holds one already.
#[derive(Debug, Clone, Copy, PartialEq, Eq, thiserror::Error)]
#[non_exhaustive]
pub enum Error {
    /// There is nothing to do (`NVMED_IDLE`).
    #[error("there is nothing to do")]
    Idle,
    /// The lane has too few free tags (`NVMED_BUSY`).
    #[error("the lane has too few free tags: try again once commands have ended")]
    Busy,
    /// The guest's completion queue is full (`NVMED_HELD`).
    #[error("the guest's completion queue is full: try again once the guest has acknowledged completions")]
    Held,
    /// The tag is not at that point (`NVMED_STALE`).
    #[error("the tag's command is not at that point")]
    Stale,
    /// Not all of these addresses are mapped for the guest (`NVMED_UNMAPPED`).
    #[error("not all of these addresses lie in the guest's memory")]
    Unmapped,
    /// An access without effect, or there is no such guest, queue, lane, tag or slot (`NVMED_IGNORED`).
    #[error("the access has no effect: nothing there can be accessed in this way now, or there is no such guest")]
    Ignored,
    /// The library got no memory from `malloc` (`NVMED_NO_MEMORY`).
    #[error("out of memory: free some, and try again")]
    NoMemory,
    /// A set-up of more than 16 guests (`NVMED_TOO_MANY_GUESTS`).
    #[error("there are more than 16 guests: give the others a mediator and a drive of their own")]
    TooManyGuests,
    /// Two extents have a block in common (`NVMED_RANGES_MEET`).
    #[error("two extents have a block of the drive in common: give each guest blocks of its own")]
    RangesMeet,
    /// Two guests' memories meet in the host, or one and the mediator's area (`NVMED_MAPS_MEET`).
    #[error("two guests' memories meet in the host's memory, or one and the mediator's area: put them apart")]
    MapsMeet,
    /// A size is beyond its limits (`NVMED_BAD_SIZE`): which sizes there are, [`SetUp`](crate::SetUp) says, and of a share
    /// [`Mediator::share`](crate::Mediator::share).
    #[error("a size is beyond its limits: the host's memory, the drive, lanes, a guest's extents or descriptors, or a share")]
    BadSize,
    /// A region's addresses or length are no multiple of 4,096 bytes, or it is empty (`NVMED_UNALIGNED`).
    #[error("a region is empty, or its addresses or length are no multiple of 4,096 bytes")]
    Unaligned,
    /// Two regions of a guest have a guest address in common (`NVMED_OVERLAP`).
    #[error("two regions of a guest have an address in common")]
    Overlap,
    /// A region leaves the host's memory (`NVMED_OUTSIDE_HOST`).
    #[error("a region leaves the host's memory")]
    OutsideHost,
    /// There is no guest, lane, queue or kind of that number (`NVMED_NO_SUCH`).
    #[error("there is no guest, lane, queue or event of that number")]
    NoSuch,
    /// The host's memory has not as many bytes as the set-up says (`NVMED_OTHER_MEMORY`).
    #[error("the host's memory has not as many bytes as the set-up says")]
    OtherMemory,
    /// The lane was closed (`NVMED_CLOSED`).
    #[error("the lane was closed: make another mediator to use the drive again")]
    Closed,
    /// A completion of the drive names no command that it has (`NVMED_STRAY`).
    #[error("the drive completed a command that it does not have: stop the drive, and close its lanes")]
    Stray,
    /// The host's memory says that it has no bytes there that may be read and written ([`HostMemory::has`](crate::HostMemory::has)). This crate finds
    /// it, before it calls the library.
    #[error("the host's memory has no bytes to read and write at host address {host:#x} for {bytes:#x} bytes, where the set-up wants some")]
    NotThere {
        /// The host address at which a region or the mediator's area begins.
        host: u64,
        /// How many bytes it has.
        bytes: u64,
    },
    /// The library that is linked has another interface than this crate. This crate finds it, before it calls anything else.
    #[error("the library that is linked has version {library}, and {wanted} is needed: install that of this crate")]
    OtherVersion {
        /// The library's version.
        library: Version,
        /// What this crate was written for.
        wanted: Version,
    },
    /// The library answered with a number that this crate does not know, or that it ruled out.
    #[error("the library answered {0}, which is no answer to this call: it does not fit this crate")]
    Unknown(u32),
}

/// The numbers of `enum nvmed_status`.
pub(crate) mod status {
    pub(crate) const OK: u32 = 0;
    pub(crate) const IDLE: u32 = 1;
    pub(crate) const BUSY: u32 = 2;
    pub(crate) const HELD: u32 = 3;
    pub(crate) const STALE: u32 = 4;
    pub(crate) const UNMAPPED: u32 = 5;
    pub(crate) const IGNORED: u32 = 6;
    pub(crate) const NO_MEMORY: u32 = 8;
    pub(crate) const TOO_MANY_GUESTS: u32 = 9;
    pub(crate) const RANGES_MEET: u32 = 10;
    pub(crate) const MAPS_MEET: u32 = 11;
    pub(crate) const BAD_SIZE: u32 = 12;
    pub(crate) const UNALIGNED: u32 = 13;
    pub(crate) const OVERLAP: u32 = 14;
    pub(crate) const OUTSIDE_HOST: u32 = 15;
    pub(crate) const NO_SUCH: u32 = 18;
    pub(crate) const OTHER_MEMORY: u32 = 20;
    pub(crate) const CLOSED: u32 = 21;
    pub(crate) const STRAY: u32 = 22;
}

impl Error {
    /// What a status says.
    pub(crate) fn check(answer: u32) -> Result<(), Error> {
        Err(match answer {
            status::OK => return Ok(()),
            status::IDLE => Error::Idle,
            status::BUSY => Error::Busy,
            status::HELD => Error::Held,
            status::STALE => Error::Stale,
            status::UNMAPPED => Error::Unmapped,
            status::IGNORED => Error::Ignored,
            status::NO_MEMORY => Error::NoMemory,
            status::TOO_MANY_GUESTS => Error::TooManyGuests,
            status::RANGES_MEET => Error::RangesMeet,
            status::MAPS_MEET => Error::MapsMeet,
            status::BAD_SIZE => Error::BadSize,
            status::UNALIGNED => Error::Unaligned,
            status::OVERLAP => Error::Overlap,
            status::OUTSIDE_HOST => Error::OutsideHost,
            status::NO_SUCH => Error::NoSuch,
            status::OTHER_MEMORY => Error::OtherMemory,
            status::CLOSED => Error::Closed,
            status::STRAY => Error::Stray,
            other => Error::Unknown(other),
        })
    }
}
