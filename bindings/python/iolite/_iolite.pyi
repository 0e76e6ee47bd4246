from typing import Callable, Final
from collections.abc import Buffer  # type: ignore[attr-defined]

DOMAIN_NEW: Final[int]
EXIT: Final[int]
POOL_CREATE: Final[int]
POOL_CLOSE: Final[int]
POOL_ADMIT: Final[int]
SET_POOL: Final[int]
AGG_MAKE: Final[int]
AGG_DUP: Final[int]
AGG_CUT: Final[int]
AGG_SPLIT: Final[int]
AGG_JOIN: Final[int]
AGG_REPLACE: Final[int]
AGG_DROP: Final[int]
AGG_GIVE: Final[int]
SHOW: Final[int]
FILE_NEW: Final[int]
OPEN_FILE: Final[int]
PIPE: Final[int]
GIVE_FD: Final[int]
CLOSE: Final[int]
SEEK: Final[int]
LENGTH: Final[int]
READ: Final[int]
WRITE: Final[int]
FSYNC: Final[int]
READ_COPY: Final[int]
WRITE_COPY: Final[int]
ACCEPT: Final[int]
CONN_NEW: Final[int]
ARRIVE: Final[int]
PEER_CLOSED: Final[int]
TRANSMIT: Final[int]
FLUSH: Final[int]
DROP_CLEAN: Final[int]
REFUSALS: Final[dict[int, str]]

def set_refusals(make: Callable[[int, int], BaseException], /) -> None: ...

class Part:
    def __len__(self) -> int: ...
    def __buffer__(self, flags: int, /) -> memoryview: ...

class Hold:
    def __init__(self, system: System, by: int, agg: int, /) -> None: ...
    def __len__(self) -> int: ...
    def parts(self) -> tuple[Part, ...]: ...
    def release(self) -> bool: ...

class System:
    def __init__(self, chunks: int, generations: int, sums: int, fds: Buffer = ..., lens: Buffer = ...,
                 files: object = ...) -> None: ...
    def step(self, kind: int, by: int, agg: int, with_: int, id: int, to: int, from_: int, until: int, data: Buffer | None = ...,
             names: tuple[int, ...] = ..., out: Buffer = ..., /) -> tuple[int, int]: ...
    def arrive_from(self, conn: int, fd: int, max: int, /) -> tuple[int, int]: ...
    def drain_to(self, conn: int, fd: int, max: int, /) -> tuple[int, int]: ...
    def report(self) -> tuple[int, int, int, tuple[tuple[int, int, int, int], ...]]: ...
    def close(self) -> None: ...
