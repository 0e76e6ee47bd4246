"""Descriptors of a domain as raw streams."""
from __future__ import annotations

import io

from .errors import WouldBlock
from .system import Domain


class Stream(io.RawIOBase):
    """A pipe's or a file's descriptor, or a connection's. It copies. `close` closes the descriptor.

    As of any raw stream, `readinto` and `write` return None where they would block. Wrap it in `io.BufferedReader` or
    `io.BufferedWriter` for buffers."""

    def __init__(self, domain: Domain, fd: int) -> None:
        super().__init__()
        self._domain, self._fd = domain, fd

    def readable(self) -> bool:
        return True

    def writable(self) -> bool:
        return True

    def readinto(self, out: bytearray | memoryview) -> int | None:  # type: ignore[override]
        if len(out) == 0:
            return 0
        try:
            return self._domain.read_into(self._fd, out)
        except WouldBlock:
            return None

    def write(self, data: bytes | bytearray | memoryview) -> int | None:  # type: ignore[override]
        if len(data) == 0:
            return 0
        try:
            return self._domain.write_copy(self._fd, data)
        except WouldBlock:
            return None

    def close(self) -> None:
        if not self.closed:
            super().close()
            self._domain.close(self._fd)
