"""The texts of scripts: their notation, and texts with the places of their bytes."""
from functools import lru_cache
from urllib.parse import unquote_to_bytes

PLAIN = {*range(0x21, 0x7F)} - {ord("%")}
PRINTED = [b"%c" % byte if byte in PLAIN else b"%%%02X" % byte for byte in range(256)]


@lru_cache(256)
def decode(text):
    """Returns the bytes of a TEXT: `%` and two hexadecimal digits, in upper or lower case, are one byte."""
    return unquote_to_bytes(text)


def encode(data):
    """Returns bytes in the notation of replies, which scripts accept, too."""
    return b"".join(map(PRINTED.__getitem__, data))


def checksum(data):
    """Returns the Internet checksum (RFC 1071)."""
    total = int.from_bytes(data + bytes(len(data) % 2), "big") % 0xFFFF
    return 0 if total == 0 and any(data) else 0xFFFF - total


class Text:
    """Bytes with their slices. A slice is the mark of its buffer (room.py) and its number of bytes."""

    __slots__ = ("data", "slices")

    def __init__(self, data=b"", slices=()):
        self.data, self.slices = data, slices

    def __len__(self):
        return len(self.data)

    def __add__(self, other):
        return Text(self.data + other.data, (*self.slices, *other.slices))

    def part(self, start, end=None):
        data, slices, at = self.data[start:end], [], 0
        for mark, count in self.slices:
            first, last = max(at, start), min(at + count, start + len(data))
            if first < last:
                slices.append((mark, last - first))
            at += count
        return Text(data, tuple(slices))
