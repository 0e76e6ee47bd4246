"""Plays a script of docs/RULES.md ("Scripts") from standard input through the package, and prints its replies as
`iolite replay` does. A script with a store is played over files. No script with a fault is."""
import sys
import tempfile
from urllib.parse import unquote_to_bytes

from iolite import Fault, Refused, System

HEADERS = {b"config", b"fault", b"store", b"storen"}
MAX_FILES = 1024


def encoded(data):
    return "".join(chr(it) if 0x21 <= it < 0x7F and it != 0x25 else f"%{it:02X}" for it in data)


def text(name, data):
    return f"{name} {encoded(data)}".rstrip(" ")


class Player:
    """A system, and the aggregates of its domains by their numbers."""

    def __init__(self, system):
        self.system, self.aggs, self.domain = system, {}, None

    def kept(self, agg):
        self.aggs[agg.domain.number, agg.number] = agg
        return f"agg {agg.number}"

    def agg(self, word):
        """The aggregate with this number. One that is not there is one that is not dropped, either."""
        number = int(word)
        if (self.domain.number, number) not in self.aggs:
            absent = self.domain.aggregate(number)
            absent._hold.release()
            return absent
        return self.aggs[self.domain.number, number]

    def taken(self, *aggs):
        """These aggregates are given up by the call that was carried out."""
        for it in aggs:
            self.aggs.pop((it.domain.number, it.number), None)

    def domain_new(self):
        return f"domain {self.domain.domain_new().number}"

    def exit(self):
        self.domain.exit()
        for key in [it for it in self.aggs if it[0] == self.domain.number]:
            self.aggs.pop(key)._hold.release()
        return "done"

    def pool_create(self, chunks, listed):
        domains = [self.system.domain(int(it)) for it in listed.split(b",")]
        return f"pool {self.domain.pool_create(int(chunks), domains)}"

    def pool_close(self, pool):
        self.domain.pool_close(int(pool))
        return "done"

    def pool_admit(self, pool, domain):
        self.domain.pool_admit(int(pool), self.system.domain(int(domain)))
        return "done"

    def set_pool(self, pool):
        self.domain.set_pool(int(pool))
        return "done"

    def agg_make(self, data=b""):
        return self.kept(self.domain.agg_make(unquote_to_bytes(data)))

    def agg_fill(self, times, data=b""):
        return self.kept(self.domain.agg_make(unquote_to_bytes(data) * int(times)))

    def agg_dup(self, agg):
        return self.kept(self.agg(agg).dup())

    def agg_cut(self, agg, start, until):
        return self.kept(self.agg(agg).cut(int(start), int(until)))

    def agg_split(self, agg, at):
        it = self.agg(agg)
        first, second = it.split(int(at))
        self.taken(it)
        self.kept(first), self.kept(second)
        return f"aggs {first.number} {second.number}"

    def agg_join(self, first, second):
        one, two = self.agg(first), self.agg(second)
        joined = one.join(two)
        self.taken(one, two)
        return self.kept(joined)

    def agg_replace(self, agg, start, until, other):
        return self.kept(self.agg(agg).replace(int(start), int(until), self.agg(other)))

    def agg_drop(self, agg):
        it = self.agg(agg)
        self.domain._step(12, self.domain.number, it.number, 0, 0, 0, 0, 0)
        it._hold.release()
        self.taken(it)
        return "done"

    def agg_give(self, agg, to):
        it = self.agg(agg)
        given = it.give(self.system.domain(int(to)))
        self.taken(it)
        return self.kept(given)

    def show(self, agg):
        it = self.agg(agg)
        shown = it.show()
        if bytes(it) != shown or b"".join(it.views()) != shown:
            sys.exit("parts and show differ")
        return text("bytes", shown)

    def file_new(self, name, pool):
        return f"file {self.domain.file_new(unquote_to_bytes(name), int(pool))}"

    def open_file(self, name, mode):
        short = {b"read": "r", b"write": "w", b"both": "rw"}[mode]
        return f"fd {self.domain.open_file(unquote_to_bytes(name), short)}"

    def pipe(self):
        return "fds {} {}".format(*self.domain.pipe())

    def give_fd(self, fd, to):
        return f"fd {self.domain.give_fd(int(fd), self.system.domain(int(to)))}"

    def close(self, fd):
        self.domain.close(int(fd))
        return "done"

    def seek(self, fd, at):
        self.domain.seek(int(fd), int(at))
        return "done"

    def length(self, fd):
        return f"count {self.domain.length(int(fd))}"

    def iol_read(self, fd, count):
        return self.kept(self.domain.read(int(fd), int(count)))

    def iol_write(self, fd, agg):
        return f"count {self.domain.write(int(fd), self.agg(agg))}"

    def fsync(self, fd):
        self.domain.fsync(int(fd))
        return "done"

    def read(self, fd, count):
        return text("bytes", self.domain.read_copy(int(fd), int(count)))

    def write(self, fd, data=b""):
        return f"count {self.domain.write_copy(int(fd), unquote_to_bytes(data))}"

    def accept(self):
        return f"fd {self.domain.accept()}"

    def conn_new(self, pool):
        return f"conn {self.system.conn_new(int(pool))}"

    def arrive(self, conn, data=b""):
        return f"count {self.system.arrive(int(conn), unquote_to_bytes(data))}"

    def peer_closed(self, conn, how):
        self.system.peer_closed(int(conn), how.decode())
        return "done"

    def transmit(self, conn, count):
        data, checksum = self.system.transmit(int(conn), int(count))
        return text(f"segment {checksum:04x}", data)

    def flush(self):
        self.system.flush()
        return "done"

    def drop_clean(self):
        self.system.drop_clean()
        return "done"

    def report(self):
        it = self.system.report()
        lines = [f"pool {pool} pages {pages} free {free} retired {retired}" for pool, pages, free, retired in it.pools]
        return "\n".join([*lines, f"extents {it.extents} dirty {it.dirty} buffers {it.buffers}"])

    def play(self, line):
        """Carries out a line: what it replies."""
        first, _, rest = line.partition(b" ")
        name = first
        if first.isdigit():
            self.domain = self.system.domain(int(first))
            name, _, rest = rest.partition(b" ")
        most = {b"agg_make": 0, b"agg_fill": 1, b"write": 1, b"arrive": 1}.get(name, 9)
        words = rest.split(b" ", most) if rest else []
        try:
            return getattr(self, name.decode())(*words)
        except Refused as it:
            return f"refused {type(it).__name__}" + (f" {'file' if isinstance(it, Fault) else 'pool'} {it.about}" if it.about else "")


def system_of(lines):
    """The system that the headers of a script set up."""
    sizes, slots = {}, []
    for line in lines:
        name, _, rest = line.partition(b" ")
        if name == b"config":
            sizes = dict(zip(("chunks", "generations", "sums"), map(int, rest.split())))
        elif name == b"fault":
            sys.exit("the store of this program does not fail")
        elif name in HEADERS:
            slot, times, data = rest.split(b" ", 2) if name == b"storen" else (rest.split(b" ", 1)[0], b"1", rest.partition(b" ")[2])
            slots += [b""] * (int(slot) - len(slots))
            slots[int(slot) - 1] += unquote_to_bytes(data) * int(times)
    if not slots:
        return System(**sizes)
    slots += [b""] * (min(sum(b" file_new " in line for line in lines), MAX_FILES) - len(slots))
    files = []
    for data in slots:
        files.append(tempfile.TemporaryFile(buffering=0))
        files[-1].write(data)
    return System(**sizes, files=files)


def main():
    lines = sys.stdin.buffer.read().split(b"\n")
    player = Player(system_of(lines))
    for line in lines:
        if line and not line.startswith(b"#") and line.split(b" ")[0] not in HEADERS:
            sys.stdout.write(player.play(line) + "\n")


if __name__ == "__main__":
    main()
