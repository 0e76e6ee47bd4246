//! Why a call is refused.
use crate::ids::{FileId, PoolId};
use std::error::Error;
use std::fmt;
use std::io;

/// Why a call is refused. A refused call changes nothing that any domain can read. `docs/RULES.md` lists for each call which
/// of these it may return, and when.
#[derive(Clone, Copy, PartialEq, Eq, Hash, Debug)]
#[non_exhaustive]
pub enum Refusal {
    /// The caller, the receiver or a listed domain is not live.
    NoDomain,
    /// The descriptor is not open, or there is no such connection.
    BadFd,
    /// The domain has no such aggregate, or an aggregate would be joined with itself.
    BadAgg,
    /// There is no such pool, or the caller has no default pool.
    NoPool,
    /// No file has this name.
    NoFile,
    /// The descriptor is not open for this, or a new file's name is taken.
    WrongMode,
    /// A range that ends before it begins or past the end, or a number or a name outside its limits.
    BadRange,
    /// An aggregate or a file would have over 2^24 bytes.
    TooLong,
    /// A table would pass its limit, or a count its last number.
    TooMany,
    /// The list of this pool does not name the domain.
    Denied(PoolId),
    /// The pool is closed.
    PoolClosed(PoolId),
    /// The pool is named by a file or a live connection.
    PoolBusy(PoolId),
    /// No domain will read what would be written, or the peer sends no more.
    BrokenPipe,
    /// A queue is full or empty, or no connection waits.
    WouldBlock,
    /// The pool has too few free pages, or too few chunks are free for it.
    NoRoom(PoolId),
    /// The store failed at this file.
    Fault(FileId),
    /// Out of memory.
    Memory,
}

impl Refusal {
    /// The refusal with this number, which names `about`. Panics at a number that the library never returns.
    pub(crate) fn new(number: u32, about: u32) -> Refusal {
        let pool = PoolId::new(about);
        match number {
            1 => Refusal::NoDomain,
            2 => Refusal::BadFd,
            3 => Refusal::BadAgg,
            4 => Refusal::NoPool,
            5 => Refusal::NoFile,
            6 => Refusal::WrongMode,
            7 => Refusal::BadRange,
            8 => Refusal::TooLong,
            9 => Refusal::TooMany,
            10 => Refusal::Denied(pool),
            11 => Refusal::PoolClosed(pool),
            12 => Refusal::PoolBusy(pool),
            13 => Refusal::BrokenPipe,
            14 => Refusal::WouldBlock,
            15 => Refusal::NoRoom(pool),
            16 => Refusal::Fault(FileId::new(about)),
            17 => Refusal::Memory,
            _ => unreachable!("this crate passes known events with room for their replies, and got {number}"),
        }
    }
}

impl fmt::Display for Refusal {
    fn fmt(&self, f: &mut fmt::Formatter<'_>) -> fmt::Result {
        match self {
            Refusal::Denied(pool) => write!(f, "Denied pool {pool}"),
            Refusal::PoolClosed(pool) => write!(f, "PoolClosed pool {pool}"),
            Refusal::PoolBusy(pool) => write!(f, "PoolBusy pool {pool}"),
            Refusal::NoRoom(pool) => write!(f, "NoRoom pool {pool}"),
            Refusal::Fault(file) => write!(f, "Fault file {file}"),
            _ => write!(f, "{self:?}"),
        }
    }
}

impl Error for Refusal {}

impl From<Refusal> for io::Error {
    fn from(refusal: Refusal) -> io::Error {
        let kind = match refusal {
            Refusal::NoFile => io::ErrorKind::NotFound,
            Refusal::Denied(_) => io::ErrorKind::PermissionDenied,
            Refusal::BrokenPipe => io::ErrorKind::BrokenPipe,
            Refusal::WouldBlock => io::ErrorKind::WouldBlock,
            Refusal::Memory => io::ErrorKind::OutOfMemory,
            Refusal::BadRange => io::ErrorKind::InvalidInput,
            _ => io::ErrorKind::Other,
        };
        io::Error::new(kind, refusal)
    }
}
