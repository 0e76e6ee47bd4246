"""The I/O system whose domains share buffers by reference, from Python.

    with System(chunks=16) as system:
        one = system.domain(1)
        two = one.domain_new()
        one.set_pool(one.pool_create(1, [one, two]))
        hello = one.agg_make(b"hello")      # dropped when it and all its views are gone
        for view in hello.views():          # read-only memoryviews of the pages: nothing is copied
            print(bytes(view))

A system is used by the thread that made it. docs/RULES.md says what each call means, and docs/BINDINGS.md what is proved.
"""
from .errors import (BadAgg, BadEvent, BadFd, BadRange, BrokenPipe, Denied, Fault, Memory, NoDomain, NoFile, NoPool, NoRoom,
                     PoolBusy, PoolClosed, Refused, SmallRoom, TooLong, TooMany, WouldBlock, WrongMode)
from .streams import Stream
from .system import Aggregate, Arrived, Domain, Drained, PoolReport, Report, System

__version__ = "1.0.0"
__all__ = [
    "Aggregate", "Arrived", "BadAgg", "BadEvent", "BadFd", "BadRange", "BrokenPipe", "Denied", "Domain", "Drained", "Fault",
    "Memory", "NoDomain", "NoFile", "NoPool", "NoRoom", "PoolBusy", "PoolClosed", "PoolReport", "Refused", "Report", "SmallRoom",
    "Stream", "System", "TooLong", "TooMany", "WouldBlock", "WrongMode",
]
