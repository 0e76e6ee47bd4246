"""The calls of the model that read and write: docs/RULES.md, The calls, Pipes, Files and the cache, Connections."""
from model.state import MAX_BYTES, MAX_QUEUE_BYTES, MEMORY, OpenFile, State, need
from model.texts import Text, encode


def shown(word, data):
    return f"{word} {encode(data).decode()}" if data else word


class Reading(State):
    def readable(self, by, source, count):
        """Returns the bytes of a read of `count` bytes, and the plan of its effect on the cache."""
        if isinstance(source, OpenFile):
            source.file.pool.need_named(by)
            end = min(source.at + count, len(source.file.data))
            with self.planned(source.file.pool, source.file.number) as plan:
                return plan.read(source.file, source.at, end), plan
        if count:
            barred = self.barred(by, source.unread.part(0, 1))
            need(barred is None, f"Denied pool {barred}")
            need(source.unread or not source.may_grow, "WouldBlock")
        return self.admitted(by, source.unread.part(0, count)), None

    def was_read(self, source, text, plan):
        if isinstance(source, OpenFile):
            plan.commit()
            source.at += len(text)
        else:
            source.take(len(text))

    def iol_read(self, by, fd, count):
        domain = self.domain(by)
        source = domain.fd(fd)
        need(source.reads, "WrongMode")
        self.need_aggs(1)
        text, plan = self.readable(by, source, count)
        yield f"agg {domain.next_agg}", MEMORY
        self.was_read(source, text, plan)
        domain.add(text)
        self.aggs += 1

    def read(self, by, fd, count):
        source = self.domain(by).fd(fd)
        need(source.reads, "WrongMode")
        text, plan = self.readable(by, source, count)
        yield shown("bytes", text.data), MEMORY
        self.was_read(source, text, plan)


class Writing(State):
    def taken(self, to, count):
        """Returns how many of `count` bytes a write takes."""
        if isinstance(to, OpenFile):
            return count
        need(not to.is_broken, "BrokenPipe")
        fits = min(count, MAX_QUEUE_BYTES - len(to.unsent))
        need(fits or not count, "WouldBlock")
        return fits

    def need_short(self, to, count):
        if isinstance(to, OpenFile):
            need(to.at + count <= MAX_BYTES, "TooLong")

    def into_file(self, to, text):
        """Writes bytes to a file."""
        with self.planned(to.file.pool) as plan:
            plan.write(to.file, to.at, text)
        yield f"count {len(text)}", MEMORY
        plan.commit()
        file, end = to.file, to.at + len(text)
        file.data = file.data[:to.at] + text.data + file.data[end:]
        to.at = end

    def iol_write(self, by, fd, agg):
        domain = self.domain(by)
        to, text = domain.fd(fd), domain.agg(agg)
        need(to.writes, "WrongMode")
        self.need_short(to, len(text))
        count = self.taken(to, len(text))
        if isinstance(to, OpenFile):
            yield from self.into_file(to, text)
        else:
            yield f"count {count}", MEMORY
            to.put(text.part(0, count))

    def write(self, by, fd, data):
        domain = self.domain(by)
        to = domain.fd(fd)
        is_file = isinstance(to, OpenFile)
        pool = to.file.pool if is_file else domain.default_pool()
        need(to.writes, "WrongMode")
        self.need_short(to, len(data))
        if not is_file:
            pool.need_open()
        taken = data[:self.taken(to, len(data))]
        if is_file:
            yield from self.into_file(to, Text(data, ((None, len(data)),) if data else ()))  # it has no buffer yet
        else:
            text, plan = self.placed(pool, taken)
            yield f"count {len(taken)}", MEMORY
            plan.commit()
            to.put(text)
