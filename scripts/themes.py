"""The themes of random scripts. A theme sets the size of the system, the first lines, and the frequency of each call."""
from dataclasses import dataclass, field

# The relative frequency of each call. `report` is no call: it counts pages and extents.
BASE = {
    "domain_new": 2, "exit": 0.6, "pool_create": 4, "pool_close": 1.5, "pool_admit": 3, "set_pool": 5,
    "agg_make": 10, "agg_fill": 4, "agg_dup": 5, "agg_cut": 7, "agg_split": 5, "agg_join": 6, "agg_replace": 5,
    "agg_drop": 9, "agg_give": 6, "show": 8, "file_new": 3, "open_file": 5, "pipe": 4, "give_fd": 5, "close": 2.5,
    "seek": 5, "length": 2, "fsync": 2, "iol_write": 12, "iol_read": 12, "write": 8, "read": 8, "accept": 4,
    "conn_new": 4, "arrive": 6, "peer_closed": 1, "transmit": 6, "flush": 2, "drop_clean": 1, "report": 2,
}
TRAFFIC = ("iol_write", "iol_read", "write", "read")
ON_FILES = ("file_new", "open_file", "seek", "length", "fsync", "flush", "drop_clean", *TRAFFIC)
ON_PIPES = ("pipe", "give_fd", "set_pool", "agg_make", "agg_join", "pool_admit", *TRAFFIC)
ON_NET = ("accept", "conn_new", "arrive", "peer_closed", "transmit", *TRAFFIC)
# Calls that do not occur if a table is full, because they free entries; and calls that do not occur with files of the maximal
# length, because they print or make long texts, or end the domain.
FREEING = ("exit", "close", "agg_drop", "agg_join", "peer_closed")
PRINTING = ("exit", "show", "read", "iol_read", "agg_fill")
# The ranges of the number of bytes of a TEXT.
SMALL = ((0, 0), (1, 1), (1, 12), (1, 12), (5, 40))
LARGE = ((0, 12), (1, 40), (4090, 4100), (8190, 8194), (5000, 20_000))
LONG = 2**24


def times(names, factor):
    return {name: weight * (factor if name in names else 1) for name, weight in BASE.items()}


@dataclass
class Theme:
    """A theme. A number is drawn between the two of a pair."""

    weights: dict = field(default_factory=lambda: BASE)
    chunks: tuple = (2, 12)  # of the system
    generations: tuple = (2**32 - 1, 2**32 - 1)
    pools: tuple = (1, 1, 2, 3)  # the possible numbers of chunks of a pool
    texts: tuple = SMALL
    fills: tuple = ((1, 100), (4096, 70_000))  # the bytes of an `agg_fill`
    most: int = 20_000  # one of the numbers of bytes that a read requests
    lines: tuple = (30, 120)
    is_faulty: bool = False
    filling: tuple = ()  # the first lines, for example to fill a table
    is_swept: bool = False  # replayed with growths refused
    is_stored: bool = False  # replayed with calls of the store failing

    def headers(self, chance):
        """Yields the headers, which set up the system."""
        sizes = chance.randint(*self.chunks), chance.randint(*self.generations), chance.choice((1, 2, 1024))
        yield "config {} {} {}".format(*sizes)
        if self.is_faulty:
            yield f"fault {chance.randint(1, 12)}"
        for slot in range(1, chance.randint(1, 5)):
            yield f"store {slot} {'%00b' * chance.choice((0, 1, 5))}"
            yield f"storen {slot} {chance.choice((0, 1, 4096, 9000, 40_000))} {chance.choice(('a', 'xyz', '%ff'))}"

    def opening(self, chance):
        """Returns the first calls: those that fill a table, or those that make domains, and pools for some of them."""
        if self.filling or chance.random() < 0.1:
            return self.filling
        domains = range(1, chance.randint(2, 5))
        lines = ["1 domain_new"] * (len(domains) - 1)
        for pool in range(1, chance.randint(2, 4)):
            names = chance.sample(domains, chance.randint(1, len(domains)))
            lines.append(f"1 pool_create {chance.choice(self.pools)} {listed(names)}")
            lines += [f"{name} set_pool {pool}" for name in names]
        return lines


class Long(Theme):
    """Files and an aggregate of the maximal length, and a slot that is too long."""

    def headers(self, chance):
        yield from ("config 256 9 9", f"storen 1 {LONG} a", "store 2 b", f"storen 3 {LONG + 1} a")


# The frequency of calls on five files that do not fit their pool together.
EVICTING = {
    "read": 20, "iol_read": 10, "agg_drop": 12, "seek": 20, "write": 6, "iol_write": 6, "agg_fill": 2, "agg_make": 2,
    "agg_cut": 3, "agg_join": 3, "fsync": 3, "flush": 6, "drop_clean": 0.5, "length": 1, "report": 12,
}


class Evicting(Theme):
    """Files of several pages in a pool of one or two chunks, which are read and written repeatedly."""

    def headers(self, chance):
        yield f"config 4 {chance.randint(*self.generations)} 9"
        if self.is_faulty:
            yield f"fault {chance.randint(1, 40)}"
        for slot in range(1, 6):
            yield f"storen {slot} {chance.choice((1, 3000, 5000, 15_000, 30_000, 60_000))} {chance.choice('abc')}"

    def opening(self, chance):
        yield from (f"1 pool_create {chance.choice((1, 1, 2))} 1", "1 pool_create 1 1", "1 set_pool 2")
        for name in "abcde":
            yield from (f"1 file_new {name} 1", f"1 open_file {name} both")


def listed(numbers):
    return ",".join(map(str, numbers))


def pool_of(chunks):
    """Returns the lines that give domain 1 a pool, and make it the default pool."""
    return [f"1 pool_create {chunks} 1", "1 set_pool 1"]


def closed_pools():
    for pool in range(1, 1025):
        yield from ("1 pool_create 1 1", f"1 pool_close {pool}")


def longest_aggregate():
    """Yields the lines that make aggregate 17 with the maximal number of bytes, all from one chunk."""
    yield from (*pool_of(2), f"1 agg_fill {LONG + 1} a", "1 agg_fill 65536 a")
    for first in range(1, 17, 2):
        yield from (f"1 agg_dup {first}", f"1 agg_join {first} {first + 1}")


# Lines that fill a table. The last ones of each request a further entry.
FILLINGS = {
    "domains": ["1 domain_new"] * 4096,
    "names": [
        *["1 domain_new"] * 17, f"1 pool_create 1 {listed(range(1, 17))}", "1 pool_admit 1 17",
        f"1 pool_create 1 {listed(range(1, 18))}",
    ],
    "pools": [*closed_pools(), "1 pool_create 1 1"],
    "descriptors": [
        *pool_of(1), "1 file_new f 1", *["1 open_file f both"] * 1025, "1 domain_new", "2 pipe", "2 give_fd 0 1",
        "conn_new 1", "1 accept", "1 pipe", "1 give_fd 3 1",
    ],
    "pipes": [*["1 domain_new"] * 2, *["1 pipe"] * 512, *["2 pipe"] * 512, "3 pipe"],
    "aggregates": [
        *pool_of(1), "1 pipe", "1 agg_make ab", "1 iol_write 1 1", *["1 agg_dup 1"] * 65_536, "1 agg_make a",
        "1 agg_cut 1 0 1", "1 agg_split 1 1", "1 agg_replace 1 0 1 2", "1 iol_read 0 1",
    ],
    "connections": [*pool_of(1), *["conn_new 1"] * 1025],
    "files": [*pool_of(1), *[f"1 file_new f{number} 1" for number in range(1, 1026)]],
}
LONGEST = [
    *longest_aggregate(), "1 file_new a 1", "1 file_new b 1", "1 open_file a both", f"1 seek 0 {LONG}",
    "1 open_file b both", "1 agg_make tail", "1 agg_join 17 18", "1 agg_replace 17 0 0 18", "1 iol_write 0 18",
    "1 write 0 x", "1 file_new c 1",
]
# Domain 2 reads from a pipe. Domain 1 writes bytes into it: of a pool that names the reader, and of one that does not.
MIXED = (
    "1 domain_new", "1 pool_create 2 1,2", "1 pool_create 2 1", "1 pool_create 2 1,2", "1 pipe", "1 give_fd 0 2",
    "1 set_pool 1", "1 agg_make both", "1 iol_write 1 1", "1 set_pool 2", "1 agg_make mine", "1 iol_write 1 2",
)
# Domain 1 places bytes in a closed pool. Its pipe has no reader, and its connection has no peer.
BROKEN = (
    "1 pool_create 2 1", "1 pool_create 2 1", "1 set_pool 1", "1 pipe", "1 agg_make x", "1 close 0", "conn_new 2",
    "1 accept", "peer_closed 1 gone", "1 pool_close 1", "1 write 1 x", "1 write 0 x",
)
# A file whose pool is full, and bytes in another pool.
FULL_POOL = (
    "1 pool_create 1 1", "1 pool_create 1 1", "1 set_pool 1", "1 agg_fill 65536 a", "1 set_pool 2", "1 agg_make b",
    "1 file_new f 1", "1 open_file f both", "1 iol_write 0 2",
)
CONNECTED = (
    "1 domain_new", "1 pool_create 2 1,2", "1 set_pool 1", "conn_new 1", "1 accept", "1 write 0 hello", "arrive 1 hello",
    "transmit 1 3",
)
FULL_QUEUES = (
    "1 pool_create 8 1", "1 set_pool 1", "1 pipe", "1 agg_fill 65536 a", "1 iol_write 1 1", "1 iol_write 1 1", "1 write 1 b",
    "conn_new 1", "1 accept", f"arrive 1 {'c' * 65_536}", "arrive 1 d",
)
FEW = (20, 60)
STORE = {"weights": times(ON_FILES, 4), "pools": (1, 2)}
NET = {"weights": times(ON_NET, 4)}
QUEUES = {**NET, "pools": (4, 8), "chunks": (16, 32), "texts": (*LARGE, (60_000, 70_000)), "lines": FEW}
FULL = {"weights": times(FREEING, 0), "lines": FEW}
# The theme of a seed has the index of the seed, modulo the number of themes.
THEMES = [
    *[Theme(is_swept=True)] * 16,
    *[Theme(chunks=(1, 3), pools=(1, 1, 2), texts=LARGE)] * 10,
    *[Theme(chunks=(1, 3), generations=(1, 4), pools=(1,), texts=LARGE)] * 8,
    *[Theme(**STORE, is_swept=True, is_stored=True)] * 12,
    *[Theme(**STORE, chunks=(2, 4), texts=LARGE, is_stored=True)] * 8,
    *[Theme(**STORE, filling=FULL_POOL, texts=LARGE)] * 2,
    *[Theme(**STORE, is_faulty=True)] * 6,
    *[Evicting(weights=EVICTING, texts=LARGE, is_stored=True)] * 8,
    *[Evicting(weights=EVICTING, texts=LARGE, is_faulty=True)] * 6,
    *[Evicting(weights=EVICTING, texts=LARGE, generations=(3, 12))] * 2,
    *[Theme(weights=times(ON_PIPES, 6), filling=MIXED)] * 6,
    *[Theme(weights=times(ON_PIPES, 6), filling=BROKEN)] * 2,
    *[Theme(**NET, is_swept=True)] * 8,
    *[Theme(**NET, filling=CONNECTED, is_swept=True)] * 4,
    *[Theme(**QUEUES)] * 6,
    *[Theme(**QUEUES, filling=FULL_QUEUES)] * 2,
    *[Theme(**FULL, filling=tuple(filling)) for filling in FILLINGS.values()],
    *[Theme(**FULL, filling=tuple(FILLINGS[name])) for name in ("names", "descriptors", "connections", "files")],
    *[Long(weights=times(PRINTING, 0), filling=tuple(LONGEST), lines=(5, 15))] * 2,
]
