//! Borrowed bytes.
use crate::ffi::{self, Part, Reply};
use crate::ids::{AggId, DomainId};
use crate::refusal::Refusal;
use crate::system::System;
use crate::Result;
use std::{ptr, slice};

const ROOM: usize = 16;

/// The parts of an aggregate, in order: slices of the system's pages. They borrow the system, so it takes no step while one
/// of them is used:
///
/// ```compile_fail,E0502
/// # use iolite::{AggId, DomainId, Sizes, System};
/// let mut system = System::new(Sizes::default()).unwrap();
/// let parts = system.parts(DomainId::FIRST, AggId::new(1)).unwrap();
/// system.agg_drop(DomainId::FIRST, AggId::new(1)).unwrap();
/// for part in parts {
///     println!("{part:?}");
/// }
/// ```
#[derive(Debug)]
pub struct Parts<'a> {
    system: &'a System,
    by: DomainId,
    agg: AggId,
    room: [Part; ROOM],
    next: usize,
    count: usize,
    byte_count: u64,
}

impl<'a> Parts<'a> {
    pub(crate) fn new(system: &'a System, by: DomainId, agg: AggId) -> Result<Parts<'a>> {
        let room = [Part { at: ptr::null(), len: 0 }; ROOM];
        let mut parts = Parts { system, by, agg, room, next: 0, count: 0, byte_count: 0 };
        parts.fill()?;
        Ok(parts)
    }

    /// Borrows the next parts, as many as there is room for.
    fn fill(&mut self) -> Result<()> {
        let (by, agg, next) = (self.by.number(), self.agg.number(), self.next);
        let mut reply = Reply::default();
        let room = self.room.as_mut_ptr();
        // SAFETY: the room has as many parts as the call gets. The call changes nothing in the system.
        self.system.call(|raw| unsafe { ffi::iol_parts(raw, by, agg, next, room, ROOM, &mut reply) });
        if reply.refusal != 0 {
            return Err(Refusal::new(reply.refusal, reply.about));
        }
        self.count = reply.number as usize;
        self.byte_count = reply.second;
        Ok(())
    }

    /// The number of bytes of the aggregate.
    pub fn byte_count(&self) -> u64 {
        self.byte_count
    }
}

impl<'a> Iterator for Parts<'a> {
    type Item = &'a [u8];

    fn next(&mut self) -> Option<&'a [u8]> {
        if self.next == self.count {
            return None;
        }
        if self.next > 0 && self.next % ROOM == 0 {
            self.fill().ok()?;
        }
        let part = self.room[self.next % ROOM];
        self.next += 1;
        // SAFETY: the library keeps these bytes in place until its next step, and `'a` borrows the system until then.
        Some(unsafe { slice::from_raw_parts(part.at, part.len) })
    }

    fn size_hint(&self) -> (usize, Option<usize>) {
        let left = self.count - self.next;
        (left, Some(left))
    }
}

impl ExactSizeIterator for Parts<'_> {}
