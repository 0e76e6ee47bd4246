"""The ranges of files in memory, and the free pages: docs/RULES.md, Buffers and room, Files and the cache."""
from collections import Counter
from typing import NamedTuple

from model.room import PAGE_BYTES, pages_for, runs_of
from model.texts import Text

WORTH = 2**24


class Extent(NamedTuple):
    at: int
    text: Text
    is_dirty: bool
    height: int = 0

    @property
    def end(self):
        return self.at + len(self.text)


class Cache:
    """The extents by file, L by pool, the generation of each page, and the number of calls of the store."""

    def __init__(self):
        self.extents, self.low, self.generations, self.calls = {}, Counter(), Counter(), 0

    def copy(self):
        other = Cache()
        other.extents, other.calls = dict(self.extents), self.calls
        other.low, other.generations = self.low.copy(), self.generations.copy()
        return other

    def of(self, file):
        return self.extents.get(file, ())

    def all(self):
        """Each extent with its file, by file and offset."""
        return [(file, extent) for file in sorted(self.extents) for extent in self.extents[file]]

    def put(self, file, extents):
        self.extents[file] = tuple(sorted(extents, key=lambda extent: extent.at))

    def replace(self, file, old, *new):
        self.put(file, [*(extent for extent in self.of(file) if extent is not old), *new])

    def drop_clean(self):
        for file in self.extents:
            self.put(file, [extent for extent in self.of(file) if extent.is_dirty])


class NoRoom(Exception):
    """There are too few pages."""


class Fault(Exception):
    """The store failed."""


class Plan:
    """The effect of a call on pages and on the cache. It takes place only when it is committed."""

    def __init__(self, state):
        self.state, self.buffers, self.cache = state, state.buffers, state.cache.copy()
        self.held = state.held()  # marks of aggregates and queues, and of bytes that the call uses
        self.gen_limit = state.gen_limit

    def commit(self):
        self.state.cache = self.cache

    def marks(self, is_dirty=None):
        """Returns the marks with references, including those of all extents, or only of the dirty ones if `is_dirty` is true."""
        texts = (extent.text for _, extent in self.cache.all() if is_dirty in (None, extent.is_dirty))
        return self.held | {mark for text in texts for mark, _ in text.slices}

    def free(self, pool):
        busy = self.buffers.pages_under(self.marks())
        return [page for page in pool.pages if page not in busy and self.cache.generations[page] < self.gen_limit]

    def counted(self, pool):
        """Returns the number of free pages and of retired pages."""
        unheld = {*pool.pages} - self.buffers.pages_under(self.marks())
        retired = sum(self.cache.generations[page] >= self.gen_limit for page in unheld)
        return len(unheld) - retired, retired

    # ---- room

    def make_room(self, pool, count):
        pinned = self.buffers.pages_under(self.marks(is_dirty=True))
        pinned |= {page for page in pool.pages if self.cache.generations[page] >= self.gen_limit}
        if len(pinned & {*pool.pages}) + count > len(pool.pages):
            raise NoRoom
        while len(self.free(pool)) < count:
            self.evict(pool)

    def evict(self, pool):
        """Evicts a clean extent: first one without another reference, then the least by height, file and offset."""
        others = self.marks(is_dirty=True)

        def rank(entry):
            file, extent = entry
            is_used = any(mark in others for mark, _ in extent.text.slices)
            return is_used, extent.height, file, extent.at

        entries = [it for it in self.cache.all() if not it[1].is_dirty and self.pool_of(it[0]) is pool]
        file, victim = min(entries, key=rank)
        self.cache.replace(file, victim)
        self.cache.low[pool.number] = victim.height

    def place(self, pool, data, is_read=False):
        """Places bytes on the lowest free pages. Bytes of a file are read from the store, one buffer at a time."""
        runs, slices, at = runs_of(self.free(pool)[:pages_for(len(data))]), [], 0
        for _ in runs if is_read else ():
            self.ask()
        for run in runs:
            self.cache.generations.update(run)
            count = min(len(run) * PAGE_BYTES, len(data) - at)
            slices.append((self.buffers.add(pool.number, run), count))
            at += count
        self.held |= {mark for mark, _ in slices}
        return Text(data, tuple(slices))

    def ask(self):
        """Counts one read or write of the store."""
        self.cache.calls += 1
        if self.cache.calls == self.state.fault:
            raise Fault

    # ---- files

    def pool_of(self, file):
        return self.state.files[file].pool

    def height(self, file, size):
        return self.cache.low[self.pool_of(file).number] + WORTH // size

    def clean(self, file, at, text):
        return Extent(at, text, False, self.height(file, len(text)))

    def read(self, file, start, end):
        """Returns the bytes of a range: hits at their places, and each gap in a new clean extent."""
        number, parts, gaps, at = file.number, [], [], start
        for extent in self.cache.of(number):
            first, last = max(extent.at, start), min(extent.end, end)
            if first < last:
                gaps += [(at, first)] * (at < first)
                parts.append((first, extent.text.part(first - extent.at, last - extent.at)))
                if not extent.is_dirty:
                    self.cache.replace(number, extent, self.clean(number, extent.at, extent.text))
                at = last
        gaps += [(at, end)] * (at < end)
        self.held |= {mark for _, text in parts for mark, _ in text.slices}
        if gaps:
            self.make_room(file.pool, sum(pages_for(last - first) for first, last in gaps))
            parts += self.fill(file, gaps)
        whole = Text()
        for _, text in sorted(parts, key=lambda part: part[0]):
            whole += text
        assert whole.data == file.data[start:end]  # the cache changes no byte
        return whole

    def fill(self, file, gaps):
        """Reads gaps from the store. If the store fails, none of them remains in memory."""
        before = self.cache.of(file.number)
        made = []
        try:
            for first, last in gaps:
                text = self.place(file.pool, file.data[first:last], is_read=True)
                made.append((first, text))
                self.cache.replace(file.number, None, self.clean(file.number, first, text))
        except Fault:
            self.cache.put(file.number, before)
            raise
        return made

    def write(self, file, at, text):
        """Overwrites a range. Bytes of the file's pool keep their places; each run of other bytes gets new pages."""
        groups = self.runs(text, file.pool.number)
        wanted = sum(pages_for(count) for is_own, count in groups if not is_own)
        if wanted:
            self.make_room(file.pool, wanted)
        new, start = Text(), 0
        for is_own, count in groups:
            part = text.part(start, start + count)
            new += part if is_own else self.place(file.pool, part.data)
            start += count
        self.put_dirty(file.number, at, new)

    def runs(self, text, pool):
        """Returns the runs of bytes inside and outside of a pool: whether they are inside, and their number."""
        runs = []
        for mark, count in text.slices:
            is_own = mark is not None and self.buffers.pools[mark] == pool
            if runs and runs[-1][0] == is_own:
                runs[-1][1] += count
            else:
                runs.append([is_own, count])
        return runs

    def put_dirty(self, file, at, text):
        """Puts one dirty extent in place of a range. Extents that it overlaps are cut, and the pieces stay clean or dirty."""
        end = at + len(text)
        for extent in self.cache.of(file):
            if extent.at < end and at < extent.end and text:
                sides = ((extent.at, extent.text.part(0, max(0, at - extent.at))),
                         (end, extent.text.part(max(0, end - extent.at))))
                pieces = [Extent(place, side, True) if extent.is_dirty else self.clean(file, place, side)
                          for place, side in sides if side]
                self.cache.replace(file, extent, *pieces)
        if text:
            self.cache.replace(file, None, Extent(at, text, True))

    def write_back(self, file, extent):
        for _ in extent.text.slices:
            self.ask()
        self.cache.replace(file, extent, self.clean(file, extent.at, extent.text))
