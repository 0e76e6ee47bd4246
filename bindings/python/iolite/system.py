"""A system, its domains and their aggregates."""
from __future__ import annotations

import array
import os
from collections.abc import Iterable
from types import TracebackType
from typing import TYPE_CHECKING, BinaryIO, NamedTuple

from . import _iolite

if TYPE_CHECKING:
    from .streams import Stream

MAX_BYTES = 1 << 24  # of one reply
MAX_QUEUE = 1 << 16  # bytes of a queue
MAX_NUMBER = 2**32 - 1
MODES = {"r": 0, "w": 1, "rw": 2}
ENDS = {"done": 0, "gone": 1}

Bytes = bytes | bytearray | memoryview


class PoolReport(NamedTuple):
    """The pages of a pool: all, those that may be used, and those that will not be used again."""

    pool: int
    pages: int
    free: int
    retired: int


class Report(NamedTuple):
    """What is in a system: live buffers, extents of files and dirty ones, and the pools that have chunks."""

    buffers: int
    extents: int
    dirty: int
    pools: tuple[PoolReport, ...]


class Arrived(NamedTuple):
    """The bytes that one read of a descriptor brought, whether it is at its end, and whether the read failed."""

    taken: int
    end: bool
    failed: bool


class Drained(NamedTuple):
    """The bytes that a descriptor took, and whether a write failed or took none."""

    taken: int
    failed: bool


def _words_of(pattern: str, numbers: Iterable[int]) -> bytes:
    return array.array(pattern, numbers).tobytes()


class System:
    """A system over an empty store in memory, or over open files: file N of the store is `files[N - 1]`.

    `chunks` is the memory, 1 to 256 chunks of 64 KiB, `generations` the number of buffers that a page holds one after
    another, at least 1, and `sums` the number of checksums that are remembered, 1 to 65,536. `BadRange` else. Files have
    at most 2^24 bytes each, and nothing else may change them. A new system has domain 1, and no pool."""

    def __init__(self, chunks: int = 256, generations: int = MAX_NUMBER, sums: int = 1024,
                 files: Iterable[BinaryIO] | None = None) -> None:
        if files is None:
            self._raw = _iolite.System(chunks, generations, sums)
            return
        kept = tuple(files)
        fds = [file.fileno() for file in kept]
        lens = [min(os.fstat(fd).st_size, MAX_NUMBER) for fd in fds]
        self._raw = _iolite.System(chunks, generations, sums, _words_of("i", fds), _words_of("I", lens), kept)

    def __enter__(self) -> System:
        return self

    def __exit__(self, kind: type[BaseException] | None, error: BaseException | None, trace: TracebackType | None) -> None:
        self.close()

    def close(self) -> None:
        """Frees the system. A `BufferError` where a view of a page lives. What is dirty is not written back."""
        self._raw.close()

    def domain(self, number: int = 1) -> Domain:
        """The domain with this number."""
        return Domain(self, number)

    def report(self) -> Report:
        """Counts what is in the system."""
        buffers, extents, dirty, pools = self._raw.report()
        return Report(buffers, extents, dirty, tuple(map(PoolReport._make, pools)))

    def _outside(self, kind: int, number: int = 0, value: int = 0, data: Bytes | None = None) -> int:
        return self._raw.step(kind, 0, 0, 0, number, 0, value, 0, data)[0]

    def conn_new(self, pool: int) -> int:
        """A peer connects, whose bytes will be placed in a pool. Returns the connection."""
        return self._outside(_iolite.CONN_NEW, pool)

    def arrive(self, conn: int, data: Bytes) -> int:
        """Bytes arrive on a connection. Returns how many were taken."""
        return self._outside(_iolite.ARRIVE, conn, 0, data)

    def peer_closed(self, conn: int, how: str) -> None:
        """The peer of a connection sends no more ('done'), or is gone ('gone')."""
        self._outside(_iolite.PEER_CLOSED, conn, ENDS[how])

    def transmit(self, conn: int, count: int) -> tuple[bytes, int]:
        """Sends the first bytes, at most `count`, that a connection has to send. Returns them, and their checksum."""
        out = bytearray(min(count, MAX_QUEUE))
        length, checksum = self._raw.step(_iolite.TRANSMIT, 0, 0, 0, conn, 0, len(out), 0, None, (), out)
        return bytes(memoryview(out)[:length]), checksum

    def flush(self) -> None:
        """Writes the first dirty extent of the files back to the store."""
        self._outside(_iolite.FLUSH)

    def drop_clean(self) -> None:
        """Forgets what memory has of files that the store has, too."""
        self._outside(_iolite.DROP_CLEAN)

    def arrive_from(self, conn: int, fd: int, count: int) -> Arrived:
        """Reads once from a descriptor of the process into a page, at most `count` bytes, which arrive on a connection."""
        taken, ending = self._raw.arrive_from(conn, fd, count)
        return Arrived(taken, ending == 1, ending == 2)

    def drain_to(self, conn: int, fd: int, count: int) -> Drained:
        """Writes the first bytes that a connection has to send to a descriptor of the process, at most `count`."""
        taken, failed = self._raw.drain_to(conn, fd, count)
        return Drained(taken, failed == 1)


class Domain:
    """A domain of a system, and its calls. Pools, files and descriptors are numbers."""

    __slots__ = ("system", "number", "_step")

    def __init__(self, system: System, number: int) -> None:
        self.system, self.number = system, number
        self._step = system._raw.step

    def __repr__(self) -> str:
        return f"<domain {self.number}>"

    def domain_new(self) -> Domain:
        """Makes a domain, with no aggregate and no open descriptor."""
        return Domain(self.system, self._step(_iolite.DOMAIN_NEW, self.number, 0, 0, 0, 0, 0, 0)[0])

    def exit(self) -> None:
        """Ends the domain: its aggregates are dropped and its descriptors closed. A `BufferError` where a view lives."""
        self._step(_iolite.EXIT, self.number, 0, 0, 0, 0, 0, 0)

    def pool_create(self, chunks: int, domains: Iterable[Domain]) -> int:
        """Makes a pool of 1 to 256 chunks that 1 to 16 live domains may read."""
        names = tuple(domain.number for domain in domains)
        return self._step(_iolite.POOL_CREATE, self.number, 0, 0, 0, 0, chunks, 0, None, names)[0]

    def pool_close(self, pool: int) -> None:
        """Closes a pool: no byte is placed in it any more, and those in it stay readable."""
        self._step(_iolite.POOL_CLOSE, self.number, 0, 0, pool, 0, 0, 0)

    def pool_admit(self, pool: int, domain: Domain) -> None:
        """Adds a live domain to those that may read a pool, of which the caller is one."""
        self._step(_iolite.POOL_ADMIT, self.number, 0, 0, pool, domain.number, 0, 0)

    def set_pool(self, pool: int) -> None:
        """Makes a pool the domain's default, where the bytes that it makes are placed."""
        self._step(_iolite.SET_POOL, self.number, 0, 0, pool, 0, 0, 0)

    def agg_make(self, data: Bytes) -> Aggregate:
        """Makes an aggregate of these bytes, at most 2^24, in the domain's default pool."""
        return Aggregate(self, self._step(_iolite.AGG_MAKE, self.number, 0, 0, 0, 0, 0, 0, data)[0])

    def aggregate(self, number: int) -> Aggregate:
        """Takes over the aggregate with this number: it is dropped when the result is gone. For numbers from elsewhere."""
        return Aggregate(self, number)

    def file_new(self, name: bytes, pool: int) -> int:
        """Gives the store's next file a name of 1 to 255 bytes, and a pool for its bytes."""
        return self._step(_iolite.FILE_NEW, self.number, 0, 0, pool, 0, 0, 0, name)[0]

    def open_file(self, name: bytes, mode: str = "r") -> int:
        """Opens the file of this name at position 0, for 'r', 'w' or 'rw'. Returns the descriptor."""
        return self._step(_iolite.OPEN_FILE, self.number, 0, 0, 0, 0, MODES[mode], 0, name)[0]

    def pipe(self) -> tuple[int, int]:
        """Makes a pipe, which holds at most 65,536 bytes. Returns its read end and its write end."""
        return self._step(_iolite.PIPE, self.number, 0, 0, 0, 0, 0, 0)

    def give_fd(self, fd: int, to: Domain) -> int:
        """Moves a descriptor to a domain. Returns the receiver's."""
        return self._step(_iolite.GIVE_FD, self.number, 0, 0, fd, to.number, 0, 0)[0]

    def close(self, fd: int) -> None:
        """Closes a descriptor."""
        self._step(_iolite.CLOSE, self.number, 0, 0, fd, 0, 0, 0)

    def seek(self, fd: int, at: int) -> None:
        """Sets the position of a file's descriptor, at most the file's length."""
        self._step(_iolite.SEEK, self.number, 0, 0, fd, 0, at, 0)

    def length(self, fd: int) -> int:
        """The length of a file in bytes."""
        return self._step(_iolite.LENGTH, self.number, 0, 0, fd, 0, 0, 0)[0]

    def read(self, fd: int, count: int) -> Aggregate:
        """Reads at most `count` bytes as an aggregate. No byte that is in memory is copied."""
        return Aggregate(self, self._step(_iolite.READ, self.number, 0, 0, fd, 0, count, 0)[0])

    def write(self, fd: int, agg: Aggregate) -> int:
        """Writes an aggregate's bytes, and leaves the aggregate. Returns how many were taken."""
        agg._held()
        return self._step(_iolite.WRITE, self.number, agg.number, 0, fd, 0, 0, 0)[0]

    def fsync(self, fd: int) -> None:
        """Writes all of a file that is dirty back to the store."""
        self._step(_iolite.FSYNC, self.number, 0, 0, fd, 0, 0, 0)

    def read_copy(self, fd: int, count: int) -> bytes:
        """Reads at most `count` bytes by copying them."""
        out = bytearray(min(count, MAX_BYTES))
        return bytes(memoryview(out)[: self.read_into(fd, out)])

    def read_into(self, fd: int, out: bytearray | memoryview) -> int:
        """Reads bytes into a buffer by copying them, at most 2^24. Returns how many."""
        count = min(len(out), MAX_BYTES)
        return self._step(_iolite.READ_COPY, self.number, 0, 0, fd, 0, count, 0, None, (), out)[0]

    def write_copy(self, fd: int, data: Bytes) -> int:
        """Writes bytes by copying them. Returns how many were taken."""
        return self._step(_iolite.WRITE_COPY, self.number, 0, 0, fd, 0, 0, 0, data)[0]

    def accept(self) -> int:
        """Accepts the first connection that waits for the domain. Returns its descriptor."""
        return self._step(_iolite.ACCEPT, self.number, 0, 0, 0, 0, 0, 0)[0]

    def stream(self, fd: int) -> Stream:
        """A descriptor as a raw stream of `io`, which copies, and closes the descriptor at its end."""
        from .streams import Stream
        return Stream(self, fd)


class Aggregate:
    """Bytes of a domain that do not change. It is dropped when it and all views of it are gone, or at the end of `with`."""

    __slots__ = ("domain", "number", "_hold", "__weakref__")

    def __init__(self, domain: Domain, number: int) -> None:
        self.domain, self.number = domain, number
        self._hold: _iolite.Hold | None = _iolite.Hold(domain.system._raw, domain.number, number)

    def __enter__(self) -> Aggregate:
        return self

    def __exit__(self, kind: type[BaseException] | None, error: BaseException | None, trace: TracebackType | None) -> None:
        self.drop()

    def __repr__(self) -> str:
        return f"<aggregate {self.number} of {self.domain!r}>"

    def _held(self) -> _iolite.Hold:
        if self._hold is None:
            raise ValueError("the aggregate was given up")
        return self._hold

    def _given_up(self) -> int:
        """The number of an aggregate that the next call gives up: of this one, or of a copy where a view lives."""
        hold = self._held()
        if hold.release():
            self._hold = None
            return self.number
        return self.domain._step(_iolite.AGG_DUP, self.domain.number, self.number, 0, 0, 0, 0, 0)[0]

    def _kept(self) -> None:
        """The call that was to give it up was refused."""
        if self._hold is None:
            self._hold = _iolite.Hold(self.domain.system._raw, self.domain.number, self.number)

    def __len__(self) -> int:
        return len(self._held())

    def __bytes__(self) -> bytes:
        return b"".join(self._held().parts())

    def views(self) -> list[memoryview]:
        """Read-only views of the bytes, where they are stored. Each keeps the aggregate as long as it lives."""
        return [memoryview(part) for part in self._held().parts()]

    def show(self) -> bytes:
        """Copies the bytes, as an event."""
        out = bytearray(len(self))
        self.domain._step(_iolite.SHOW, self.domain.number, self.number, 0, 0, 0, 0, 0, None, (), out)
        return bytes(out)

    def drop(self) -> None:
        """Gives the aggregate up, once no view lives. It is no error if it is given up already."""
        self._hold = None

    def _new(self, kind: int, other: int = 0, start: int = 0, until: int = 0) -> Aggregate:
        self._held()
        by = self.domain.number
        return Aggregate(self.domain, self.domain._step(kind, by, self.number, other, 0, 0, start, until)[0])

    def dup(self) -> Aggregate:
        """A second aggregate of the same bytes."""
        return self._new(_iolite.AGG_DUP)

    def cut(self, start: int, until: int) -> Aggregate:
        """An aggregate of the bytes from `start` up to `until`."""
        return self._new(_iolite.AGG_CUT, 0, start, until)

    def replace(self, start: int, until: int, other: Aggregate) -> Aggregate:
        """An aggregate of these bytes, those from `start` up to `until` replaced by those of `other`."""
        other._held()
        return self._new(_iolite.AGG_REPLACE, other.number, start, until)

    def _give_up(self, kind: int, others: tuple[Aggregate, ...] = (), to: int = 0, start: int = 0) -> tuple[int, int]:
        """Carries out a call that gives this aggregate up, and others. Refused, it leaves them."""
        given = [self, *others]
        numbers = [it._given_up() for it in given]
        try:
            return self.domain._step(kind, self.domain.number, numbers[0], numbers[1] if others else 0, 0, to, start, 0)
        except BaseException:
            for it, number in zip(given, numbers):
                if number == it.number:
                    it._kept()
                else:
                    Aggregate(self.domain, number).drop()
            raise

    def split(self, at: int) -> tuple[Aggregate, Aggregate]:
        """Splits the aggregate, which is given up, at byte `at`."""
        first, second = self._give_up(_iolite.AGG_SPLIT, start=at)
        return Aggregate(self.domain, first), Aggregate(self.domain, second)

    def join(self, second: Aggregate) -> Aggregate:
        """Joins two aggregates, which are given up, to one of at most 2^24 bytes."""
        if second is self:
            return self._new(_iolite.AGG_JOIN, self.number)  # refused: BadAgg
        return Aggregate(self.domain, self._give_up(_iolite.AGG_JOIN, (second,))[0])

    def give(self, to: Domain) -> Aggregate:
        """Gives the aggregate to a domain that may read all of its bytes. Returns the receiver's."""
        return Aggregate(to, self._give_up(_iolite.AGG_GIVE, to=to.number)[0])
