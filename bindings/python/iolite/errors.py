"""The refusals of calls, as exceptions."""
from . import _iolite


class Refused(Exception):
    """A call was refused. What any domain can read is unchanged.

    `about` is the number of the pool or the file that the refusal names, or 0."""

    about: int = 0

    def __str__(self) -> str:
        name = type(self).__name__
        return f"{name} {'file' if isinstance(self, Fault) else 'pool'} {self.about}" if self.about else name


class NoDomain(Refused):
    """The caller, the receiver or a listed domain is not live."""


class BadFd(Refused):
    """The descriptor is not open, or there is no such connection."""


class BadAgg(Refused):
    """The domain has no such aggregate, or an aggregate would be joined with itself."""


class NoPool(Refused):
    """There is no such pool, or the caller has no default pool."""


class NoFile(Refused, FileNotFoundError):
    """No file has this name."""


class WrongMode(Refused):
    """The descriptor is not open for this, or a new file's name is taken."""


class BadRange(Refused, ValueError):
    """A range that ends before it begins or past the end, or a number or a name outside its limits."""


class TooLong(Refused):
    """An aggregate or a file would have over 2^24 bytes."""


class TooMany(Refused):
    """A table would pass its limit, or a count its last number."""


class Denied(Refused, PermissionError):
    """The list of pool `about` does not name the domain."""


class PoolClosed(Refused):
    """Pool `about` is closed."""


class PoolBusy(Refused):
    """Pool `about` is named by a file or a live connection."""


class BrokenPipe(Refused, BrokenPipeError):
    """No domain will read what would be written, or the peer sends no more."""


class WouldBlock(Refused, BlockingIOError):
    """A queue is full or empty, or no connection waits."""


class NoRoom(Refused):
    """Pool `about` has too few free pages, or too few chunks are free for it."""


class Fault(Refused):
    """The store failed at file `about`."""


class Memory(Refused, MemoryError):
    """Out of memory."""


class BadEvent(Refused, ValueError):
    """The kind of the event is unknown, or a mode is out of its range. Nothing was done."""


class SmallRoom(Refused, ValueError):
    """The reply's bytes have no room. Nothing was done."""


_BY_NUMBER = {number: globals()[name] for number, name in _iolite.REFUSALS.items()}


def _make(number: int, about: int) -> Refused:
    made = _BY_NUMBER[number]()
    made.about = about
    return made


_iolite.set_refusals(_make)
