"""A cache of the files of a folder under a budget of memory: ranges in place, snapshots under writes, and access lists.

An `lru_cache` of blocks is faster where ranges are whole blocks and nobody writes. This one takes any range, a reader keeps the
bytes that it has begun to read while another writes, readers and writers share one budget, and the list of the pool says who may
read."""
import os
import tempfile

from iolite import Aggregate, Denied, System


class FolderCache:
    """The files of a folder, by name, with a budget of `chunks` of 64 KiB."""

    def __init__(self, folder: str, chunks: int) -> None:
        names = sorted(os.listdir(folder))
        files = [open(os.path.join(folder, name), "r+b", buffering=0) for name in names]
        self.system = System(chunks=chunks, files=files)
        self.owner = self.system.domain(1)
        self.pool = self.owner.pool_create(chunks, [self.owner])
        self.owner.set_pool(self.pool)
        self._fds: dict[str, int] = {}
        for name in names:
            self.owner.file_new(name.encode(), self.pool)
            self._fds[name] = self.owner.open_file(name.encode(), "rw")

    def range(self, name: str, at: int, count: int) -> Aggregate:
        """A range of a file. Blocks that are in memory are shared."""
        self.owner.seek(self._fds[name], at)
        return self.owner.read(self._fds[name], count)

    def write(self, name: str, at: int, data: bytes) -> None:
        """Writes over a file, in memory."""
        self.owner.seek(self._fds[name], at)
        self.owner.write_copy(self._fds[name], data)

    def sync(self, name: str) -> None:
        """Has the folder get what was written."""
        self.owner.fsync(self._fds[name])


def main() -> None:
    with tempfile.TemporaryDirectory() as folder:
        for number in range(8):
            with open(f"{folder}/{number}.txt", "w", encoding="ascii") as file:
                file.write(f"file {number} " * 20_000)
        cache = FolderCache(folder, chunks=8)

        first = cache.range("3.txt", 7, 14)
        print("range:", bytes(first))
        buffers = cache.system.report().buffers
        view = cache.range("3.txt", 7, 14).views()[0]
        print("buffers for a second reader:", cache.system.report().buffers - buffers)

        cache.write("3.txt", 7, b"FILE")
        after = cache.range("3.txt", 7, 14)
        print("before the write:", bytes(view), "after it:", bytes(after))
        cache.sync("3.txt")
        with open(f"{folder}/3.txt", "rb") as file:
            print("in the folder:", file.read(21))

        guest = cache.owner.domain_new()
        try:
            after.give(guest)
        except Denied as refused:
            print("to a guest:", refused)
        cache.owner.pool_admit(cache.pool, guest)
        print("to an admitted guest:", bytes(after.give(guest)))

        del first, view
        count = 0
        for number in range(8):
            for at in range(0, 140_000, 35_000):
                count += len(cache.range(f"{number}.txt", at, 35_000))
        print(f"read {count} bytes with {8 * 65_536} bytes of memory")


if __name__ == "__main__":
    main()
