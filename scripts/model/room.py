"""The pages of the model: docs/RULES.md, Buffers and room.

The model copies bytes, but each byte has the mark of its buffer in every copy. A buffer has a reference while some byte has its
mark. So the model knows which pages are free, whether there is room, and the counts of a report.
"""
import re

PAGE_BYTES, CHUNK_PAGES = 4096, 16
POOL = re.compile(r"pool (\d+) pages (\d+) free (\d+) retired (\d+)")


class Impossible(Exception):
    """A reply that the model does not allow."""


def pages_for(count):
    return -(-count // PAGE_BYTES)


def pages_of(chunks):
    return [page for chunk in chunks for page in range(chunk * CHUNK_PAGES, (chunk + 1) * CHUNK_PAGES)]


def runs_of(pages):
    """Returns the maximal runs of consecutive pages in a chunk."""
    runs = []
    for page in pages:
        if runs and page == runs[-1][-1] + 1 and page % CHUNK_PAGES:
            runs[-1].append(page)
        else:
            runs.append([page])
    return runs


class Buffers:
    """The pool and the pages of each buffer, by its mark."""

    def __init__(self):
        self.pools, self.pages = [], []

    def add(self, pool, pages):
        self.pools.append(pool)
        self.pages.append(pages)
        return len(self.pools) - 1

    def pages_under(self, marks):
        return {page for mark in marks for page in self.pages[mark]}


def check_report(lines, state):
    """Compares a report with the state."""
    state.return_chunks()
    plan = state.plan()
    *pools, last = lines
    there = [pool for pool in state.pools.values() if not pool.is_returned]
    counted = [plan.counted(pool) for pool in there]
    wanted = [f"pool {pool.number} pages {len(pool.pages)} free {free} retired {retired}"
              for pool, (free, retired) in zip(there, counted)]
    extents = plan.cache.all()
    dirty = sum(extent.is_dirty for _, extent in extents)
    wanted.append(f"extents {len(extents)} dirty {dirty} buffers {len(plan.marks())}")
    if [*pools, last] != wanted:
        raise Impossible(f"the model counts {'; '.join(wanted)}")
