//! A system, and one method for each event.
use crate::domain::Domain;
use crate::ffi::{self, Event, Reply};
use crate::ids::{AggId, ConnId, DomainId, Fd, FileId, PoolId};
use crate::parts::Parts;
use crate::refusal::Refusal;
use crate::streams::{Reader, Writer};
use crate::Result;
use std::cell::UnsafeCell;
use std::fs::File;
use std::io;
use std::ops::Range;
use std::os::fd::{AsRawFd, BorrowedFd};
use std::ptr;

/// The most bytes that one reply has.
const MAX_BYTES: usize = 1 << 24;

/// The most pools of a system.
const MAX_POOLS: usize = 1024;

/// The sizes that a system is made with.
#[derive(Clone, Copy, PartialEq, Eq, Debug)]
pub struct Sizes {
    /// The chunks of memory, 1 to 256, each of 64 KiB.
    pub chunks: u32,
    /// The number of buffers that a page holds, one after another, at least 1.
    pub generations: u32,
    /// The number of checksums of slices that are remembered, 1 to 65,536.
    pub sums: u32,
}

impl Default for Sizes {
    /// 256 chunks, 2^32 - 1 generations, 1,024 checksums.
    fn default() -> Sizes {
        Sizes { chunks: 256, generations: u32::MAX, sums: 1024 }
    }
}

/// What a file is opened for.
#[derive(Clone, Copy, PartialEq, Eq, Debug)]
pub enum Mode {
    /// For reads.
    Read,
    /// For writes.
    Write,
    /// For both.
    Both,
}

/// How a peer closes a connection.
#[derive(Clone, Copy, PartialEq, Eq, Debug)]
pub enum How {
    /// It sends no more, and still receives.
    Done,
    /// It is gone.
    Gone,
}

/// The bytes that one read of a descriptor brought.
#[derive(Clone, Copy, PartialEq, Eq, Debug)]
pub struct Arrived {
    /// The number of bytes.
    pub taken: u32,
    /// Whether the descriptor is at its end.
    pub end: bool,
    /// Whether the read failed.
    pub failed: bool,
}

/// The bytes that a descriptor took.
#[derive(Clone, Copy, PartialEq, Eq, Debug)]
pub struct Drained {
    /// The number of bytes.
    pub taken: u32,
    /// Whether a write failed, or took none.
    pub failed: bool,
}

/// The pages of a pool.
#[derive(Clone, Copy, PartialEq, Eq, Debug)]
pub struct PoolReport {
    /// The pool.
    pub pool: PoolId,
    /// All of its pages.
    pub pages: u32,
    /// Those that may be used.
    pub free: u32,
    /// Those that will not be used again.
    pub retired: u32,
}

/// What is in a system, counted.
#[derive(Clone, PartialEq, Eq, Debug)]
pub struct Report {
    /// The pools that still have their chunks, by number.
    pub pools: Vec<PoolReport>,
    /// The extents of files in memory.
    pub extents: u64,
    /// Those that are not written back.
    pub dirty: u64,
    /// The live buffers.
    pub buffers: u32,
}

/// A system of domains that share buffers, over a store of files.
///
/// It may move to another thread, and one thread uses it at a time: it is [`Send`], and not [`Sync`].
///
/// ```compile_fail,E0277
/// fn shared<T: Sync>() {}
/// shared::<iolite::System>();
/// ```
///
/// Each method carries out one event, whole, and returns what it replies. `docs/RULES.md` says what each means, and lists
/// its refusals.
#[derive(Debug)]
pub struct System {
    raw: UnsafeCell<*mut core::ffi::c_void>,
    _files: Vec<File>,
}

// SAFETY: A `System` owns its handle and its files, and no other value has the handle. What the handle owns is one block of
// malloc and what is in it; the proof of the library (`iol_ffi`, `Send` of `Handle`) says that neither belongs to a thread. The
// library has no variables of its own, of a thread or of the process. Who moves a `System` orders the calls before and after.
unsafe impl Send for System {}

impl Drop for System {
    fn drop(&mut self) {
        // SAFETY: the pointer is that of a system, which is freed once.
        self.call(|raw| unsafe { ffi::iol_system_free(raw) });
    }
}

fn event(kind: u32, by: DomainId) -> Event {
    Event { kind, by: by.number(), ..Event::default() }
}

fn outside(kind: u32, id: u32, from: u32) -> Event {
    Event { kind, id, from, ..Event::default() }
}

fn checked(reply: Reply) -> Result<Reply> {
    match reply.refusal {
        0 => Ok(reply),
        number => Err(Refusal::new(number, reply.about)),
    }
}

impl System {
    /// Makes a system over an empty store in memory. It has domain 1, and no pool.
    ///
    /// `BadRange` where a size is out of its range.
    pub fn new(sizes: Sizes) -> Result<System> {
        let mut raw = ffi::System { at: ptr::null_mut() };
        // SAFETY: `raw` is an empty handle.
        let refusal = unsafe { ffi::iol_system_new(sizes.chunks, sizes.generations, sizes.sums, &mut raw) };
        System::made(refusal, raw, Vec::new())
    }

    /// Makes a system over open files: file N of the store is `files[N - 1]`, at most 2^24 bytes each and 1,024 in number.
    ///
    /// An error of the kind `Other` has the [`Refusal`]. Nothing else may change the files while the system lives.
    pub fn over(sizes: Sizes, files: Vec<File>) -> io::Result<System> {
        let lens = files
            .iter()
            .map(|file| Ok(u32::try_from(file.metadata()?.len()).unwrap_or(u32::MAX)))
            .collect::<io::Result<Vec<u32>>>()?;
        let fds: Vec<i32> = files.iter().map(|file| file.as_raw_fd()).collect();
        let mut raw = ffi::System { at: ptr::null_mut() };
        // SAFETY: the slices live over the call, and `raw` is an empty handle. The files are kept open by the system.
        let refusal = unsafe {
            ffi::iol_system_over(
                sizes.chunks,
                sizes.generations,
                sizes.sums,
                fds.as_ptr(),
                fds.len(),
                lens.as_ptr(),
                lens.len(),
                &mut raw,
            )
        };
        Ok(System::made(refusal, raw, files)?)
    }

    fn made(refusal: u32, raw: ffi::System, files: Vec<File>) -> Result<System> {
        match refusal {
            0 => Ok(System { raw: UnsafeCell::new(raw.at), _files: files }),
            number => Err(Refusal::new(number, 0)),
        }
    }

    /// Calls the library with the handle. The system stays where it is.
    pub(crate) fn call<T>(&self, call: impl FnOnce(*mut ffi::System) -> T) -> T {
        // A `System` of the library is this pointer. No other thread has a reference to it, since it is not `Sync`, so no two
        // calls meet.
        call(self.raw.get().cast())
    }

    fn step_with(&mut self, event: Event, bytes: &[u8], names: &[u32], out: &mut [u8]) -> Result<Reply> {
        let mut reply = Reply::default();
        // SAFETY: the slices live over the call, and `out` overlaps none of them.
        self.call(|raw| unsafe {
            ffi::iol_step(
                raw,
                &event,
                bytes.as_ptr(),
                bytes.len(),
                names.as_ptr(),
                names.len(),
                out.as_mut_ptr(),
                out.len(),
                &mut reply,
            );
        });
        if reply.refusal == ffi::SMALL_ROOM {
            return Err(Refusal::BadRange);
        }
        checked(reply)
    }

    fn step(&mut self, event: Event) -> Result<Reply> {
        self.step_with(event, &[], &[], &mut [])
    }

    /// The calls of one domain.
    pub fn domain(&mut self, id: DomainId) -> Domain<'_> {
        Domain::new(self, id)
    }

    /// Makes a domain, with no aggregate and no open descriptor.
    pub fn domain_new(&mut self, by: DomainId) -> Result<DomainId> {
        Ok(DomainId::new(self.step(event(ffi::DOMAIN_NEW, by))?.number as u32))
    }

    /// Ends a domain: its aggregates are dropped and its descriptors closed.
    pub fn exit(&mut self, by: DomainId) -> Result<()> {
        self.step(event(ffi::EXIT, by)).map(drop)
    }

    /// Makes a pool of 1 to 256 chunks that 1 to 16 live domains may read.
    pub fn pool_create(&mut self, by: DomainId, chunks: u32, domains: &[DomainId]) -> Result<PoolId> {
        let names: Vec<u32> = domains.iter().map(|domain| domain.number()).collect();
        let event = Event { from: chunks, ..event(ffi::POOL_CREATE, by) };
        Ok(PoolId::new(self.step_with(event, &[], &names, &mut [])?.number as u32))
    }

    /// Closes a pool: no byte is placed in it any more, and those in it stay readable.
    pub fn pool_close(&mut self, by: DomainId, pool: PoolId) -> Result<()> {
        self.step(Event { id: pool.number(), ..event(ffi::POOL_CLOSE, by) }).map(drop)
    }

    /// Adds a live domain to those that may read a pool, of which the caller is one.
    pub fn pool_admit(&mut self, by: DomainId, pool: PoolId, domain: DomainId) -> Result<()> {
        self.step(Event { id: pool.number(), to: domain.number(), ..event(ffi::POOL_ADMIT, by) }).map(drop)
    }

    /// Makes a pool the caller's default, where the bytes that it makes are placed.
    pub fn set_pool(&mut self, by: DomainId, pool: PoolId) -> Result<()> {
        self.step(Event { id: pool.number(), ..event(ffi::SET_POOL, by) }).map(drop)
    }

    /// Makes an aggregate of these bytes, at most 2^24, in the caller's default pool.
    pub fn agg_make(&mut self, by: DomainId, bytes: &[u8]) -> Result<AggId> {
        let reply = self.step_with(event(ffi::AGG_MAKE, by), bytes, &[], &mut [])?;
        Ok(AggId::new(reply.number))
    }

    fn new_agg(&mut self, event: Event) -> Result<AggId> {
        Ok(AggId::new(self.step(event)?.number))
    }

    /// Makes a second aggregate of the same bytes.
    pub fn agg_dup(&mut self, by: DomainId, agg: AggId) -> Result<AggId> {
        self.new_agg(Event { agg: agg.number(), ..event(ffi::AGG_DUP, by) })
    }

    /// Makes an aggregate of a range of the bytes of another.
    pub fn agg_cut(&mut self, by: DomainId, agg: AggId, range: Range<u32>) -> Result<AggId> {
        let (from, until) = (range.start, range.end);
        self.new_agg(Event { agg: agg.number(), from, until, ..event(ffi::AGG_CUT, by) })
    }

    /// Splits an aggregate, which is given up, at byte `at`.
    pub fn agg_split(&mut self, by: DomainId, agg: AggId, at: u32) -> Result<(AggId, AggId)> {
        let reply = self.step(Event { agg: agg.number(), from: at, ..event(ffi::AGG_SPLIT, by) })?;
        Ok((AggId::new(reply.number), AggId::new(reply.second)))
    }

    /// Joins two aggregates, which are given up, to one of at most 2^24 bytes.
    pub fn agg_join(&mut self, by: DomainId, first: AggId, second: AggId) -> Result<AggId> {
        self.new_agg(Event { agg: first.number(), with: second.number(), ..event(ffi::AGG_JOIN, by) })
    }

    /// Makes an aggregate of the bytes of `agg`, those of a range replaced by those of `with`.
    pub fn agg_replace(&mut self, by: DomainId, agg: AggId, range: Range<u32>, with: AggId) -> Result<AggId> {
        let (from, until) = (range.start, range.end);
        self.new_agg(Event { agg: agg.number(), with: with.number(), from, until, ..event(ffi::AGG_REPLACE, by) })
    }

    /// Gives an aggregate up.
    pub fn agg_drop(&mut self, by: DomainId, agg: AggId) -> Result<()> {
        self.step(Event { agg: agg.number(), ..event(ffi::AGG_DROP, by) }).map(drop)
    }

    /// Gives an aggregate to a domain that may read all of its bytes. Returns the receiver's.
    pub fn agg_give(&mut self, by: DomainId, agg: AggId, to: DomainId) -> Result<AggId> {
        self.new_agg(Event { agg: agg.number(), to: to.number(), ..event(ffi::AGG_GIVE, by) })
    }

    /// Copies the bytes of an aggregate, as an event. `copy_to` copies as many as there is room for.
    pub fn show(&mut self, by: DomainId, agg: AggId) -> Result<Vec<u8>> {
        let mut bytes = vec![0; self.parts(by, agg)?.byte_count() as usize];
        self.step_with(Event { agg: agg.number(), ..event(ffi::SHOW, by) }, &[], &[], &mut bytes)?;
        Ok(bytes)
    }

    /// Copies the first bytes of an aggregate into `into`, as many as it has room for. Returns how many bytes the aggregate has.
    pub fn copy_to(&self, by: DomainId, agg: AggId, into: &mut [u8]) -> Result<usize> {
        let parts = self.parts(by, agg)?;
        let count = parts.byte_count() as usize;
        let mut rest = into;
        for part in parts {
            let (front, left) = rest.split_at_mut(part.len().min(rest.len()));
            front.copy_from_slice(&part[..front.len()]);
            rest = left;
        }
        Ok(count)
    }

    /// Borrows the bytes of an aggregate in place, part by part. No byte is copied, and no step can be taken meanwhile.
    pub fn parts(&self, by: DomainId, agg: AggId) -> Result<Parts<'_>> {
        Parts::new(self, by, agg)
    }

    /// Gives the store's next file a name of 1 to 255 bytes, and a pool for its bytes.
    pub fn file_new(&mut self, by: DomainId, name: &[u8], pool: PoolId) -> Result<FileId> {
        let event = Event { id: pool.number(), ..event(ffi::FILE_NEW, by) };
        Ok(FileId::new(self.step_with(event, name, &[], &mut [])?.number as u32))
    }

    /// Opens the file of this name at position 0.
    pub fn open_file(&mut self, by: DomainId, name: &[u8], mode: Mode) -> Result<Fd> {
        let event = Event { from: mode as u32, ..event(ffi::OPEN_FILE, by) };
        Ok(Fd::new(self.step_with(event, name, &[], &mut [])?.number as u32))
    }

    /// Makes a pipe, which holds at most 65,536 bytes. Returns its read end and its write end.
    pub fn pipe(&mut self, by: DomainId) -> Result<(Fd, Fd)> {
        let reply = self.step(event(ffi::PIPE, by))?;
        Ok((Fd::new(reply.number as u32), Fd::new(reply.second as u32)))
    }

    /// Moves a descriptor to a domain. Returns the receiver's.
    pub fn give_fd(&mut self, by: DomainId, fd: Fd, to: DomainId) -> Result<Fd> {
        let event = Event { id: fd.number(), to: to.number(), ..event(ffi::GIVE_FD, by) };
        Ok(Fd::new(self.step(event)?.number as u32))
    }

    /// Closes a descriptor.
    pub fn close(&mut self, by: DomainId, fd: Fd) -> Result<()> {
        self.step(Event { id: fd.number(), ..event(ffi::CLOSE, by) }).map(drop)
    }

    /// Sets the position of a file's descriptor, at most the file's length.
    pub fn seek(&mut self, by: DomainId, fd: Fd, at: u32) -> Result<()> {
        self.step(Event { id: fd.number(), from: at, ..event(ffi::SEEK, by) }).map(drop)
    }

    /// The length of a file in bytes.
    pub fn length(&mut self, by: DomainId, fd: Fd) -> Result<u32> {
        Ok(self.step(Event { id: fd.number(), ..event(ffi::LENGTH, by) })?.number as u32)
    }

    /// Reads at most `count` bytes as an aggregate. No byte that is in memory is copied.
    pub fn read(&mut self, by: DomainId, fd: Fd, count: u32) -> Result<AggId> {
        self.new_agg(Event { id: fd.number(), from: count, ..event(ffi::READ, by) })
    }

    /// Writes an aggregate's bytes, and leaves the aggregate. Returns how many were taken.
    pub fn write(&mut self, by: DomainId, fd: Fd, agg: AggId) -> Result<u32> {
        let event = Event { id: fd.number(), agg: agg.number(), ..event(ffi::WRITE, by) };
        Ok(self.step(event)?.number as u32)
    }

    /// Writes all of a file that is dirty back to the store.
    pub fn fsync(&mut self, by: DomainId, fd: Fd) -> Result<()> {
        self.step(Event { id: fd.number(), ..event(ffi::FSYNC, by) }).map(drop)
    }

    /// Reads bytes into `into` by copying them, at most 2^24. Returns how many.
    pub fn read_copy(&mut self, by: DomainId, fd: Fd, into: &mut [u8]) -> Result<usize> {
        let count = into.len().min(MAX_BYTES);
        let event = Event { id: fd.number(), from: count as u32, ..event(ffi::READ_COPY, by) };
        Ok(self.step_with(event, &[], &[], into)?.number as usize)
    }

    /// Writes bytes by copying them. Returns how many were taken.
    pub fn write_copy(&mut self, by: DomainId, fd: Fd, bytes: &[u8]) -> Result<usize> {
        let event = Event { id: fd.number(), ..event(ffi::WRITE_COPY, by) };
        Ok(self.step_with(event, bytes, &[], &mut [])?.number as usize)
    }

    /// Accepts the first connection that waits for the caller.
    pub fn accept(&mut self, by: DomainId) -> Result<Fd> {
        Ok(Fd::new(self.step(event(ffi::ACCEPT, by))?.number as u32))
    }

    /// A peer connects. Its bytes will be placed in a pool.
    pub fn conn_new(&mut self, pool: PoolId) -> Result<ConnId> {
        Ok(ConnId::new(self.step(outside(ffi::CONN_NEW, pool.number(), 0))?.number as u32))
    }

    /// Bytes arrive on a connection. Returns how many were taken.
    pub fn arrive(&mut self, conn: ConnId, bytes: &[u8]) -> Result<usize> {
        let event = outside(ffi::ARRIVE, conn.number(), 0);
        Ok(self.step_with(event, bytes, &[], &mut [])?.number as usize)
    }

    /// The peer of a connection closes it.
    pub fn peer_closed(&mut self, conn: ConnId, how: How) -> Result<()> {
        self.step(outside(ffi::PEER_CLOSED, conn.number(), how as u32)).map(drop)
    }

    /// Sends the first bytes that a connection has to send: they go to `into`. Returns how many, and their Internet checksum.
    pub fn transmit(&mut self, conn: ConnId, into: &mut [u8]) -> Result<(usize, u16)> {
        let count = into.len().min(MAX_BYTES);
        let event = outside(ffi::TRANSMIT, conn.number(), count as u32);
        let reply = self.step_with(event, &[], &[], into)?;
        Ok((reply.number as usize, reply.second as u16))
    }

    /// Writes the first dirty extent of the files back to the store.
    pub fn flush(&mut self) -> Result<()> {
        self.step(outside(ffi::FLUSH, 0, 0)).map(drop)
    }

    /// Forgets what memory has of files that the store has, too.
    pub fn drop_clean(&mut self) -> Result<()> {
        self.step(outside(ffi::DROP_CLEAN, 0, 0)).map(drop)
    }

    /// Reads once from a descriptor of the process straight into a page, at most `max` bytes, which arrive on a connection.
    pub fn arrive_from(&mut self, conn: ConnId, from: BorrowedFd<'_>, max: u32) -> Result<Arrived> {
        let mut reply = Reply::default();
        // SAFETY: the descriptor is open over the call.
        self.call(|raw| unsafe { ffi::iol_arrive_from(raw, conn.number(), from.as_raw_fd(), max, &mut reply) });
        let reply = checked(reply)?;
        Ok(Arrived { taken: reply.number as u32, end: reply.second == 1, failed: reply.second == 2 })
    }

    /// Writes the first bytes that a connection has to send to a descriptor of the process, at most `max`.
    pub fn drain_to(&mut self, conn: ConnId, to: BorrowedFd<'_>, max: u32) -> Result<Drained> {
        let mut reply = Reply::default();
        // SAFETY: the descriptor is open over the call.
        self.call(|raw| unsafe { ffi::iol_drain_to(raw, conn.number(), to.as_raw_fd(), max, &mut reply) });
        let reply = checked(reply)?;
        Ok(Drained { taken: reply.number as u32, failed: reply.second == 1 })
    }

    /// Counts what is in the system.
    pub fn report(&self) -> Result<Report> {
        let mut room = vec![ffi::Pool::default(); MAX_POOLS];
        let mut report = ffi::Report::default();
        // SAFETY: the room has as many pools as the call gets.
        self.call(|raw| unsafe { ffi::iol_report(raw, room.as_mut_ptr(), room.len(), &mut report) });
        if report.refusal != 0 {
            return Err(Refusal::new(report.refusal, 0));
        }
        let pools = room[..report.pools as usize].iter().map(|it| PoolReport {
            pool: PoolId::new(it.pool),
            pages: it.pages,
            free: it.free,
            retired: it.retired,
        });
        Ok(Report { pools: pools.collect(), extents: report.extents, dirty: report.dirty, buffers: report.buffers })
    }

    /// A pipe's or a file's descriptor, or a connection's, as a reader that copies.
    pub fn reader(&mut self, by: DomainId, fd: Fd) -> Reader<'_> {
        Reader::new(self, by, fd)
    }

    /// A pipe's or a file's descriptor, or a connection's, as a writer that copies.
    pub fn writer(&mut self, by: DomainId, fd: Fd) -> Writer<'_> {
        Writer::new(self, by, fd)
    }
}
