//! The calls of one domain.
use crate::ids::{AggId, DomainId, Fd, FileId, PoolId};
use crate::parts::Parts;
use crate::streams::{Reader, Writer};
use crate::system::{Mode, System};
use crate::Result;
use std::ops::Range;

/// A domain of a system that is borrowed: its methods are the system's calls by this domain.
#[derive(Debug)]
pub struct Domain<'s> {
    system: &'s mut System,
    id: DomainId,
}

/// Methods that call the system's of the same name.
macro_rules! calls {
    ($($(#[$doc:meta])* $name:ident($($word:ident: $what:ty),*) -> $result:ty;)*) => {
        $(
            $(#[$doc])*
            pub fn $name(&mut self, $($word: $what),*) -> Result<$result> {
                self.system.$name(self.id, $($word),*)
            }
        )*
    };
}

impl<'s> Domain<'s> {
    pub(crate) fn new(system: &'s mut System, id: DomainId) -> Domain<'s> {
        Domain { system, id }
    }

    /// The domain's number.
    pub fn id(&self) -> DomainId {
        self.id
    }

    calls! {
        /// See [`System::domain_new`].
        domain_new() -> DomainId;
        /// See [`System::exit`].
        exit() -> ();
        /// See [`System::pool_create`].
        pool_create(chunks: u32, domains: &[DomainId]) -> PoolId;
        /// See [`System::pool_close`].
        pool_close(pool: PoolId) -> ();
        /// See [`System::pool_admit`].
        pool_admit(pool: PoolId, domain: DomainId) -> ();
        /// See [`System::set_pool`].
        set_pool(pool: PoolId) -> ();
        /// See [`System::agg_make`].
        agg_make(bytes: &[u8]) -> AggId;
        /// See [`System::agg_dup`].
        agg_dup(agg: AggId) -> AggId;
        /// See [`System::agg_cut`].
        agg_cut(agg: AggId, range: Range<u32>) -> AggId;
        /// See [`System::agg_split`].
        agg_split(agg: AggId, at: u32) -> (AggId, AggId);
        /// See [`System::agg_join`].
        agg_join(first: AggId, second: AggId) -> AggId;
        /// See [`System::agg_replace`].
        agg_replace(agg: AggId, range: Range<u32>, with: AggId) -> AggId;
        /// See [`System::agg_drop`].
        agg_drop(agg: AggId) -> ();
        /// See [`System::agg_give`].
        agg_give(agg: AggId, to: DomainId) -> AggId;
        /// See [`System::show`].
        show(agg: AggId) -> Vec<u8>;
        /// See [`System::file_new`].
        file_new(name: &[u8], pool: PoolId) -> FileId;
        /// See [`System::open_file`].
        open_file(name: &[u8], mode: Mode) -> Fd;
        /// See [`System::pipe`].
        pipe() -> (Fd, Fd);
        /// See [`System::give_fd`].
        give_fd(fd: Fd, to: DomainId) -> Fd;
        /// See [`System::close`].
        close(fd: Fd) -> ();
        /// See [`System::seek`].
        seek(fd: Fd, at: u32) -> ();
        /// See [`System::length`].
        length(fd: Fd) -> u32;
        /// See [`System::read`].
        read(fd: Fd, count: u32) -> AggId;
        /// See [`System::write`].
        write(fd: Fd, agg: AggId) -> u32;
        /// See [`System::fsync`].
        fsync(fd: Fd) -> ();
        /// See [`System::read_copy`].
        read_copy(fd: Fd, into: &mut [u8]) -> usize;
        /// See [`System::write_copy`].
        write_copy(fd: Fd, bytes: &[u8]) -> usize;
        /// See [`System::accept`].
        accept() -> Fd;
    }

    /// See [`System::parts`].
    pub fn parts(&self, agg: AggId) -> Result<Parts<'_>> {
        self.system.parts(self.id, agg)
    }

    /// See [`System::copy_to`].
    pub fn copy_to(&self, agg: AggId, into: &mut [u8]) -> Result<usize> {
        self.system.copy_to(self.id, agg, into)
    }

    /// See [`System::reader`].
    pub fn reader(&mut self, fd: Fd) -> Reader<'_> {
        self.system.reader(self.id, fd)
    }

    /// See [`System::writer`].
    pub fn writer(&mut self, fd: Fd) -> Writer<'_> {
        self.system.writer(self.id, fd)
    }
}
