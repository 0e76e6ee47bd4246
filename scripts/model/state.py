"""The machine of docs/RULES.md, written from its text. It copies at every call, but also knows the place of each byte.

A call is a generator. It checks its refusals in their order, and yields its reply and the late refusals that may come instead.
If the call succeeds, the code after the `yield` is executed, which changes the state. If the call needs pages, or works on a file,
it has a plan (cache.py), which determines whether there is room and whether the store fails.
"""
from contextlib import contextmanager

from model.cache import Cache, Fault, NoRoom, Plan
from model.room import Buffers, pages_for, pages_of
from model.texts import Text

MAX_DOMAINS, MAX_POOLS, MAX_LISTED, MAX_CHUNKS = 4096, 1024, 16, 256
MAX_OPEN, MAX_AGGREGATES, MAX_PIPES, MAX_FILES, MAX_CONNECTIONS = 1024, 65_536, 1024, 1024, 1024
MAX_BYTES = 2**24  # of an aggregate, and of a file
MAX_QUEUE_BYTES = 65_536
NEVER = frozenset()
MEMORY = frozenset({"Memory"})


class Refused(Exception):
    """A refusal, the late refusals that may come in its place, and the plan of its effect on pages and the cache."""

    def __init__(self, refusal, late=NEVER, plan=None):
        super().__init__(refusal)
        self.refusal, self.late, self.plan = refusal, late, plan


def need(holds, refusal):
    if not holds:
        raise Refused(refusal)


def lowest(taken, start=0):
    while start in taken:
        start += 1
    return start


class Pool:
    def __init__(self, number, chunks, names):
        self.number, self.chunks, self.pages, self.names = number, chunks, pages_of(chunks), names
        self.is_closed = self.is_returned = False

    def need_open(self):
        need(not self.is_closed, f"PoolClosed pool {self.number}")

    def need_named(self, domain):
        need(domain in self.names, f"Denied pool {self.number}")


class File:
    def __init__(self, number, name, pool, data):
        self.number, self.name, self.pool, self.data = number, name, pool, data


class OpenFile:
    def __init__(self, file, mode):
        self.file, self.at = file, 0
        self.reads, self.writes = mode != "write", mode != "read"


class Pipe:
    def __init__(self):
        self.queue, self.is_read, self.is_written = Text(), True, True


class ReadEnd:
    reads, writes = True, False

    def __init__(self, pipe):
        self.pipe = pipe

    unread = property(lambda self: self.pipe.queue)
    may_grow = property(lambda self: self.pipe.is_written)

    def take(self, count):
        self.pipe.queue = self.pipe.queue.part(count)


class WriteEnd:
    reads, writes = False, True

    def __init__(self, pipe):
        self.pipe = pipe

    unsent = property(lambda self: self.pipe.queue)
    is_broken = property(lambda self: not self.pipe.is_read)

    def put(self, text):
        self.pipe.queue += text


class Connection:
    reads = writes = True

    def __init__(self, number, pool):
        self.number, self.pool, self.peer = number, pool, None
        self.unread, self.unsent = Text(), Text()
        self.is_accepted = self.is_closed = False

    may_grow = property(lambda self: self.peer is None)
    is_broken = property(lambda self: self.peer == "gone")

    def take(self, count):
        self.unread = self.unread.part(count)

    def put(self, text):
        self.unsent += text

    def is_over(self):
        is_left = self.is_closed or not self.is_accepted and self.peer == "gone"
        return is_left and not self.unsent


class Domain:
    def __init__(self, number):
        self.number, self.aggs, self.next_agg, self.fds, self.default = number, {}, 1, {}, None

    def agg(self, number):
        need(number in self.aggs, "BadAgg")
        return self.aggs[number]

    def fd(self, number):
        need(number in self.fds, "BadFd")
        return self.fds[number]

    def file(self, number):
        need(isinstance(self.fd(number), OpenFile), "WrongMode")
        return self.fds[number]

    def default_pool(self):
        need(self.default is not None, "NoPool")
        return self.default

    def add(self, text):
        self.aggs[self.next_agg] = text
        self.next_agg += 1

    def need_open(self, more):
        need(len(self.fds) + more <= MAX_OPEN, "TooMany")


class State:
    """The state of the machine, with functions that find its parts."""

    def __init__(self, chunks, gen_limit, slots, fault):
        self.chunks, self.gen_limit, self.slots, self.fault = chunks, gen_limit, slots, fault
        self.domains, self.domains_made = {1: Domain(1)}, 1
        self.pools, self.files, self.names = {}, {}, {}
        self.conns, self.conns_made, self.pipes, self.aggs = {}, 0, 0, 0
        self.buffers, self.cache = Buffers(), Cache()

    def domain(self, number):
        need(number in self.domains, "NoDomain")
        return self.domains[number]

    def pool(self, number):
        need(number in self.pools, "NoPool")
        return self.pools[number]

    def conn(self, number):
        need(number in self.conns, "BadFd")
        return self.conns[number]

    def need_aggs(self, made, given=0):
        need(self.aggs + made - given <= MAX_AGGREGATES, "TooMany")

    def may_read(self, domain, mark):
        return domain in self.pools[self.buffers.pools[mark]].names

    def barred(self, domain, text):
        """Returns the pool of the first byte that the domain may not read, or None."""
        return next((self.buffers.pools[mark] for mark, _ in text.slices if not self.may_read(domain, mark)), None)

    def admitted(self, domain, text):
        """Returns the longest beginning of a text that the domain may read."""
        end = 0
        for mark, count in text.slices:
            if not self.may_read(domain, mark):
                break
            end += count
        return text.part(0, end)

    def held(self):
        """Returns the marks of the bytes of aggregates and queues."""
        texts = [text for conn in self.conns.values() for text in (conn.unread, conn.unsent)]
        for domain in self.domains.values():
            texts += domain.aggs.values()
            texts += (fd.pipe.queue for fd in domain.fds.values() if isinstance(fd, (ReadEnd, WriteEnd)))
        return {mark for text in texts for mark, _ in text.slices}

    def return_chunks(self):
        """Returns the chunks of closed pools that contain no bytes."""
        closed = [pool for pool in self.pools.values() if pool.is_closed and not pool.is_returned]
        if closed:
            held = {self.buffers.pools[mark] for mark in self.held()}
            for pool in closed:
                pool.is_returned = pool.number not in held

    def free_chunks(self):
        self.return_chunks()
        taken = {chunk for pool in self.pools.values() if not pool.is_returned for chunk in pool.chunks}
        return [chunk for chunk in range(self.chunks) if chunk not in taken]

    def plan(self):
        return Plan(self)

    @contextmanager
    def planned(self, pool=None, file=None, late=MEMORY):
        """A context with a plan for pages of a pool, or for a file. The call is refused if there is no room or the store fails."""
        plan = self.plan()
        try:
            yield plan
        except NoRoom:
            raise Refused(f"NoRoom pool {pool.number}", late, plan) from None
        except Fault:
            raise Refused(f"Fault file {file}", late, plan) from None

    def placed(self, pool, data):
        """Returns bytes on new pages, and the plan that places them."""
        with self.planned(pool) as plan:
            if data:
                plan.make_room(pool, pages_for(len(data)))
            return plan.place(pool, data), plan

    def written_back(self, dirty):
        """Writes back extents of a file, in order, up to the first fault."""
        with self.planned(file=dirty[0][0] if dirty else None, late=NEVER) as plan:
            for file, extent in dirty:
                plan.write_back(file, extent)
        yield "done", NEVER
        plan.commit()

    def forget(self, conn):
        if conn.is_over():
            self.conns.pop(conn.number, None)

    def leave(self, open_on):
        """Changes the object of a descriptor that is closed."""
        match open_on:
            case ReadEnd(pipe=pipe):
                pipe.queue, pipe.is_read = Text(), False
                self.pipes -= not pipe.is_written
            case WriteEnd(pipe=pipe):
                pipe.is_written = False
                self.pipes -= not pipe.is_read
            case Connection():
                open_on.unread, open_on.is_closed = Text(), True
                self.forget(open_on)
