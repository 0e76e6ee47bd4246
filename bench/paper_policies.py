"""Traces of reads of whole files, and simulated caches of some of the files: GreedyDual-Size, LRU, and bounds of the optimum."""
import bisect
import heapq
import itertools
import math
import random

PAGE = 4096
CHUNK_PAGES = 16
SCALE = 1 << 24  # the height of a file of one byte above L


def pages_of(length):
    return -(-length // PAGE)


def scaled(raw, total):
    """Returns lengths in these proportions, each from 128 bytes to 1 MiB, with about this sum."""
    factor = total / sum(raw)
    for _ in range(20):
        lengths = [min(max(round(it * factor), 128), 1 << 20) for it in raw]
        factor *= total / sum(lengths)
    return lengths


class Trace:
    """Files with their lengths, and the order in which they are read.

    The lengths are log-normal with the given sigma, between 128 bytes and 1 MiB, scaled to `total` bytes. The popularity of
    files is Zipf's with the given exponent, independent of their lengths.
    """

    def __init__(self, files, total, reads, seed=1, sigma=1.5, exponent=0.8):
        chance = random.Random(seed)
        raw = [chance.lognormvariate(0, sigma) for _ in range(files)]
        self.lengths = scaled(raw, total)
        weights = [1 / rank**exponent for rank in range(1, files + 1)]
        places = list(range(files))
        chance.shuffle(places)
        self.order = chance.choices(places, weights, k=reads)

    def bytes(self):
        return sum(self.lengths)

    def bytes_read(self):
        return sum(self.lengths[it] for it in self.order)


def greedy_dual_size(trace, pages):
    """Returns the hits of the rule in docs/RULES.md, as indices of the order. The cost of each file is the same."""
    height, heap, free, low, hits = {}, [], pages, 0, []
    for place, file in enumerate(trace.order):
        length = trace.lengths[file]
        if file in height:
            hits.append(place)
        else:
            free -= pages_of(length)
            while free < 0:
                top, victim = heapq.heappop(heap)
                if height.get(victim) != top:
                    continue
                del height[victim]
                free += pages_of(trace.lengths[victim])
                low = top
        height[file] = low + SCALE // length
        heapq.heappush(heap, (height[file], file))
    return hits


def least_recently_used(trace, pages):
    """Returns the hits of LRU, as indices of the order."""
    kept, free, hits = {}, pages, []
    for place, file in enumerate(trace.order):
        if file in kept:
            del kept[file]
            hits.append(place)
        else:
            free -= pages_of(trace.lengths[file])
            while free < 0:
                victim = next(iter(kept))
                del kept[victim]
                free += pages_of(trace.lengths[victim])
        kept[file] = None
    return hits


def next_uses(order):
    """Returns for each index of the order the index of the next read of the same file."""
    following, after = {}, [math.inf] * len(order)
    for place in range(len(order) - 1, -1, -1):
        after[place] = following.get(order[place], math.inf)
        following[order[place]] = place
    return after


def belady_by_size(trace, pages):
    """Returns the hits of a cache that knows the future. It evicts the file with the largest product of pages and time to its next
    read."""
    after, kept, free, hits = next_uses(trace.order), {}, pages, []
    for place, file in enumerate(trace.order):
        if file in kept:
            hits.append(place)
        else:
            need = pages_of(trace.lengths[file])
            if after[place] == math.inf:
                continue  # it is not read again
            while free < need:
                victim = max(kept, key=lambda it: pages_of(trace.lengths[it]) * (kept[it] - place))
                if pages_of(trace.lengths[victim]) * (kept[victim] - place) < need * (after[place] - place):
                    break
                del kept[victim]
                free += pages_of(trace.lengths[victim])
            if free < need:
                continue
            free -= need
        kept[file] = after[place]
        if after[place] == math.inf:
            del kept[file]
            free += pages_of(trace.lengths[file])
    return hits


def most_hits(trace, pages):
    """Returns an upper bound of the hits of any cache: the number of the cheapest intervals between reads of a file, whose products of
    pages and length fit the cache on average (PFOO, Berger and others 2018)."""
    after = next_uses(trace.order)
    costs = sorted(
        (next_place - place) * pages_of(trace.lengths[trace.order[place]])
        for place, next_place in enumerate(after) if next_place != math.inf
    )
    return bisect.bisect_right(list(itertools.accumulate(costs)), pages * len(trace.order))
