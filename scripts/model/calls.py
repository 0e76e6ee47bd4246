"""The calls of the model except those that read and write, and the external events: docs/RULES.md, The calls.

The code after a `yield` is the change that a successful call makes: see state.py.
"""
from model.state import (
    MAX_BYTES, MAX_CHUNKS, MAX_CONNECTIONS, MAX_DOMAINS, MAX_FILES, MAX_LISTED, MAX_PIPES, MAX_POOLS,
    MAX_QUEUE_BYTES, MEMORY, NEVER, Connection, Domain, File, OpenFile, Pipe, Pool, ReadEnd, Refused, State, WriteEnd,
    lowest, need,
)
from model.texts import Text, checksum
from model.traffic import shown


class Domains(State):
    def domain_new(self, by):
        self.domain(by)
        need(self.domains_made < MAX_DOMAINS, "TooMany")
        yield f"domain {self.domains_made + 1}", MEMORY
        self.domains_made += 1
        self.domains[self.domains_made] = Domain(self.domains_made)

    def exit(self, by):
        domain = self.domain(by)
        yield "done", NEVER
        for fd in sorted(domain.fds):
            self.leave(domain.fds[fd])
        self.aggs -= len(domain.aggs)
        del self.domains[by]

    def pool_create(self, by, chunks, names):
        for domain in (by, *names):
            self.domain(domain)
        need(names and 1 <= chunks <= MAX_CHUNKS, "BadRange")
        need(len(set(names)) <= MAX_LISTED and len(self.pools) < MAX_POOLS, "TooMany")
        number = len(self.pools) + 1
        free = self.free_chunks()
        if len(free) < chunks:
            raise Refused(f"NoRoom pool {number}", MEMORY)
        yield f"pool {number}", MEMORY
        self.pools[number] = Pool(number, free[:chunks], set(names))

    def pool_close(self, by, pool):
        self.domain(by)
        pool = self.pool(pool)
        pool.need_named(by)
        pool.need_open()
        users = [*self.files.values(), *self.conns.values()]
        need(all(user.pool is not pool for user in users), f"PoolBusy pool {pool.number}")
        yield "done", NEVER
        pool.is_closed = True

    def pool_admit(self, by, pool, domain):
        self.domain(by)
        self.domain(domain)
        pool = self.pool(pool)
        need(domain in pool.names or len(pool.names) < MAX_LISTED, "TooMany")
        pool.need_named(by)
        pool.need_open()
        yield "done", NEVER
        pool.names.add(domain)

    def set_pool(self, by, pool):
        domain, pool = self.domain(by), self.pool(pool)
        pool.need_named(by)
        pool.need_open()
        yield "done", NEVER
        domain.default = pool


class Aggregates(State):
    def made(self, domain, *texts, given=()):
        """Returns new aggregates. The aggregates `given` are removed."""
        number = domain.next_agg
        yield f"agg {number}" if len(texts) == 1 else f"aggs {number} {number + 1}", MEMORY
        for agg in given:
            del domain.aggs[agg]
        for text in texts:
            domain.add(text)
        self.aggs += len(texts) - len(given)

    def agg_make(self, by, data):
        domain = self.domain(by)
        pool = domain.default_pool()
        need(len(data) <= MAX_BYTES, "TooLong")
        self.need_aggs(1)
        pool.need_open()
        text, plan = self.placed(pool, data)
        yield f"agg {domain.next_agg}", MEMORY
        plan.commit()
        domain.add(text)
        self.aggs += 1

    def agg_dup(self, by, agg):
        domain = self.domain(by)
        text = domain.agg(agg)
        self.need_aggs(1)
        yield from self.made(domain, text)

    def agg_cut(self, by, agg, start, end):
        domain = self.domain(by)
        text = domain.agg(agg)
        need(start <= end <= len(text), "BadRange")
        self.need_aggs(1)
        yield from self.made(domain, text.part(start, end))

    def agg_split(self, by, agg, at):
        domain = self.domain(by)
        text = domain.agg(agg)
        need(at <= len(text), "BadRange")
        self.need_aggs(2, 1)
        yield from self.made(domain, text.part(0, at), text.part(at), given=[agg])

    def agg_join(self, by, first, second):
        domain = self.domain(by)
        texts = domain.agg(first), domain.agg(second)
        need(first != second, "BadAgg")
        need(sum(map(len, texts)) <= MAX_BYTES, "TooLong")
        yield from self.made(domain, texts[0] + texts[1], given=[first, second])

    def agg_replace(self, by, agg, start, end, other):
        domain = self.domain(by)
        text, new = domain.agg(agg), domain.agg(other)
        need(start <= end <= len(text), "BadRange")
        need(len(text) - (end - start) + len(new) <= MAX_BYTES, "TooLong")
        self.need_aggs(1)
        yield from self.made(domain, text.part(0, start) + new + text.part(end))

    def agg_drop(self, by, agg):
        domain = self.domain(by)
        domain.agg(agg)
        yield "done", NEVER
        del domain.aggs[agg]
        self.aggs -= 1

    def agg_give(self, by, agg, to):
        domain, receiver = self.domain(by), self.domain(to)
        text = domain.agg(agg)
        barred = self.barred(to, text)
        need(barred is None, f"Denied pool {barred}")
        yield f"agg {receiver.next_agg}", MEMORY
        del domain.aggs[agg]
        receiver.add(text)

    def show(self, by, agg):
        yield shown("bytes", self.domain(by).agg(agg).data), MEMORY


class Descriptors(State):
    def opened(self, domain, open_on):
        fd = lowest(domain.fds)
        yield f"fd {fd}", MEMORY
        domain.fds[fd] = open_on

    def file_new(self, by, name, pool):
        self.domain(by)
        pool, number = self.pool(pool), len(self.files) + 1
        need(name not in self.names, "WrongMode")
        need(1 <= len(name) <= 255, "BadRange")
        data = self.slots.get(number, b"")
        need(len(data) <= MAX_BYTES, "TooLong")
        need(number <= MAX_FILES, "TooMany")
        pool.need_named(by)
        pool.need_open()
        yield f"file {number}", MEMORY
        self.files[number] = self.names[name] = File(number, name, pool, data)

    def open_file(self, by, name, mode):
        domain = self.domain(by)
        need(name in self.names, "NoFile")
        domain.need_open(1)
        self.names[name].pool.need_named(by)
        yield from self.opened(domain, OpenFile(self.names[name], mode))

    def pipe(self, by):
        domain = self.domain(by)
        domain.need_open(2)
        need(self.pipes < MAX_PIPES, "TooMany")
        first = lowest(domain.fds)
        second = lowest(domain.fds, first + 1)
        yield f"fds {first} {second}", MEMORY
        pipe = Pipe()
        domain.fds[first], domain.fds[second] = ReadEnd(pipe), WriteEnd(pipe)
        self.pipes += 1

    def give_fd(self, by, fd, to):
        domain, receiver = self.domain(by), self.domain(to)
        given = domain.fd(fd)
        if receiver is not domain:
            receiver.need_open(1)
        if isinstance(given, (OpenFile, Connection)):
            (given.file if isinstance(given, OpenFile) else given).pool.need_named(to)
        number = lowest(receiver.fds.keys() - {fd} if receiver is domain else receiver.fds)
        yield f"fd {number}", MEMORY
        receiver.fds[number] = domain.fds.pop(fd)

    def close(self, by, fd):
        domain = self.domain(by)
        domain.fd(fd)
        yield "done", NEVER
        self.leave(domain.fds.pop(fd))

    def seek(self, by, fd, at):
        on = self.domain(by).file(fd)
        need(at <= len(on.file.data), "BadRange")
        yield "done", NEVER
        on.at = at

    def length(self, by, fd):
        yield f"count {len(self.domain(by).file(fd).file.data)}", NEVER

    def fsync(self, by, fd):
        file = self.domain(by).file(fd).file.number
        yield from self.written_back([(file, extent) for extent in self.cache.of(file) if extent.is_dirty])

    def accept(self, by):
        domain = self.domain(by)
        domain.need_open(1)
        waiting = [conn for conn in self.conns.values() if not conn.is_accepted and by in conn.pool.names]
        need(waiting, "WouldBlock")
        yield from self.opened(domain, waiting[0])
        waiting[0].is_accepted = True


class Outside(State):
    def conn_new(self, pool):
        pool, number = self.pool(pool), self.conns_made + 1
        need(len(self.conns) < MAX_CONNECTIONS, "TooMany")
        pool.need_open()
        yield f"conn {number}", MEMORY
        self.conns_made = number
        self.conns[number] = Connection(number, pool)

    def arrive(self, conn, data):
        conn = self.conn(conn)
        need(conn.peer is None and not conn.is_closed, "BrokenPipe")
        taken = data[:MAX_QUEUE_BYTES - len(conn.unread)]
        need(taken or not data, "WouldBlock")
        text, plan = self.placed(conn.pool, taken)
        yield f"count {len(taken)}", MEMORY if taken else NEVER
        plan.commit()
        conn.unread += text

    def peer_closed(self, conn, how):
        conn = self.conn(conn)
        yield "done", NEVER
        if how == "gone":
            conn.peer, conn.unsent = "gone", Text()
        conn.peer = conn.peer or "done"
        self.forget(conn)

    def transmit(self, conn, most):
        conn = self.conn(conn)
        need(most, "BadRange")
        need(conn.unsent, "WouldBlock")
        sent = conn.unsent.part(0, most).data
        yield shown(f"segment {checksum(sent):04x}", sent), MEMORY
        conn.unsent = conn.unsent.part(most)
        self.forget(conn)

    def flush(self):
        yield from self.written_back([it for it in self.cache.all() if it[1].is_dirty][:1])

    def drop_clean(self):
        yield "done", NEVER
        self.cache.drop_clean()
