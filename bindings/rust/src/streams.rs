//! Descriptors of a domain as readers and writers.
use crate::ids::{DomainId, Fd};
use crate::system::System;
use std::io::{self, Read, Write};

/// A descriptor as a reader. A read of an empty pipe that can still be written is `WouldBlock`.
#[derive(Debug)]
pub struct Reader<'s> {
    system: &'s mut System,
    by: DomainId,
    fd: Fd,
}

impl<'s> Reader<'s> {
    pub(crate) fn new(system: &'s mut System, by: DomainId, fd: Fd) -> Reader<'s> {
        Reader { system, by, fd }
    }
}

impl Read for Reader<'_> {
    fn read(&mut self, into: &mut [u8]) -> io::Result<usize> {
        if into.is_empty() {
            return Ok(0);
        }
        Ok(self.system.read_copy(self.by, self.fd, into)?)
    }
}

/// A descriptor as a writer. A write to a full pipe is `WouldBlock`. A flush of a file's writer does not write back: see
/// [`System::fsync`].
#[derive(Debug)]
pub struct Writer<'s> {
    system: &'s mut System,
    by: DomainId,
    fd: Fd,
}

impl<'s> Writer<'s> {
    pub(crate) fn new(system: &'s mut System, by: DomainId, fd: Fd) -> Writer<'s> {
        Writer { system, by, fd }
    }
}

impl Write for Writer<'_> {
    fn write(&mut self, bytes: &[u8]) -> io::Result<usize> {
        if bytes.is_empty() {
            return Ok(0);
        }
        Ok(self.system.write_copy(self.by, self.fd, bytes)?)
    }

    fn flush(&mut self) -> io::Result<()> {
        Ok(())
    }
}
