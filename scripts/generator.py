"""Draws a random script. Each seed gives one fixed script.

The generator executes each call on the model (model/). If the model refuses a call, the generator mostly draws another one, so
that most calls succeed. It keeps a refused call more often if the script has not had this refusal yet.
"""
import random

from model.script import OUTSIDE, set_up
from model.state import OpenFile
from model.texts import encode
from themes import THEMES

TRIES = 8
WILD, ODD = 0.05, 0.4  # the probability that an argument does not exist, in a usual line and in an odd line
ODD_LINES = 0.04  # the probability of an odd line
WORDS = {  # the arguments of each call, in order
    "pool_create": ("chunks", "domains"), "pool_close": ("pool",), "pool_admit": ("pool", "domain"),
    "set_pool": ("pool",), "agg_make": ("text",), "agg_fill": ("times",), "agg_dup": ("agg",),
    "agg_cut": ("agg", "part"), "agg_split": ("agg", "place"), "agg_join": ("agg", "agg"),
    "agg_replace": ("agg", "part", "agg"), "agg_drop": ("agg",), "agg_give": ("agg", "domain"), "show": ("agg",),
    "file_new": ("new_name", "pool"), "open_file": ("named", "mode"), "give_fd": ("fd", "domain"), "close": ("fd",),
    "seek": ("fd", "place"), "length": ("fd",), "fsync": ("fd",), "iol_write": ("fd", "agg"),
    "iol_read": ("fd", "count"), "write": ("fd", "text"), "read": ("fd", "count"), "conn_new": ("pool",),
    "arrive": ("conn", "text"), "peer_closed": ("conn", "how"), "transmit": ("conn", "count"),
}


def is_file(on):
    return isinstance(on, OpenFile)


FITS = {  # the kind of descriptor that is mostly drawn for a call
    "seek": is_file, "length": is_file, "fsync": is_file,
    "iol_read": lambda on: on.reads, "read": lambda on: on.reads,
    "iol_write": lambda on: on.writes, "write": lambda on: on.writes,
}


def written(data):
    """Returns bytes as a word of a script."""
    return encode(data).decode()


class Words:
    """Draws the arguments of calls: mostly from the objects of the machine, rarely of objects that do not exist."""

    def is_wild(self):
        return self.chance.random() < self.wildness

    def one_of(self, numbers, next_number):
        """Returns one of these numbers, mostly one of the last, or rarely a number that does not exist."""
        numbers = list(numbers)
        if not numbers or self.is_wild():
            return self.chance.choice((0, next_number, next_number + 1, self.chance.randrange(next_number + 1)))
        return self.chance.choice(numbers[-4:] if self.chance.random() < 0.6 else numbers)

    def domain(self):
        return self.one_of(self.machine.domains, self.machine.domains_made + 1)

    def domains(self):
        count = self.chance.choice((1, 2, 2, 3, 3, 4))
        live = list(self.machine.domains)[:12]
        names = self.chance.sample(live, min(count, len(live))) if live else [1]
        if self.is_wild():
            names.append(self.domain())
        return ",".join(map(str, names))

    def chunks(self):
        return self.chance.choice((0, 257, 2**32 - 1)) if self.is_wild() else self.chance.choice(self.theme.pools)

    def pool(self):
        return self.one_of(self.machine.pools, len(self.machine.pools) + 1)

    def conn(self):
        conns = self.machine.conns
        sending = [number for number, conn in conns.items() if conn.unsent]
        is_to_send = self.name == "transmit" and self.chance.random() < 0.7
        return self.one_of(sending if is_to_send else conns, self.machine.conns_made + 1)

    def agg(self):
        caller = self.caller
        number = self.one_of(caller.aggs, caller.next_agg) if caller else 1
        self.of = len(caller.aggs[number]) if caller and number in caller.aggs else 9
        return number

    def fd(self):
        caller = self.caller
        fits = FITS.get(self.name, lambda on: True)
        fitting = [number for number, on in caller.fds.items() if fits(on)] if caller else ()
        number = self.one_of(fitting, max(caller.fds, default=0) + 1) if caller else 0
        on = caller.fds.get(number) if caller else None
        self.of = len(on.file.data) if is_file(on) else 9
        return number

    def place(self):
        """Returns an offset in an object of `self.of` bytes, or rarely one after its end."""
        if self.is_wild():
            return self.of + self.chance.choice((1, 2, 2**32 - 1 - self.of))
        return self.chance.choice((0, self.of, self.chance.randint(0, self.of), min(self.of, 4096)))

    def part(self):
        first, second = self.place(), self.place()
        return f"{first} {second}" if self.is_wild() else f"{min(first, second)} {max(first, second)}"

    def count(self):
        counts = (0, 1, 2, 3, 7, 50, 1000, 4095, 4096, 9000, 65_536, self.theme.most, 2**32 - 1)
        return self.chance.choice(counts)

    def text(self):
        """Returns a TEXT whose length is one of the theme's. A long text repeats its first bytes."""
        low, high = self.chance.choice(self.theme.texts)
        count = self.chance.randint(low, high)
        most = 256 if count < 200 else 128
        first = [self.digits_or(self.chance.randrange(most)) for _ in range(min(count, 40))]
        return "".join((first * (count // 40 + 1))[:count])

    def digits_or(self, byte):
        """Returns a byte of a TEXT: unescaped, or by its hexadecimal digits in upper or lower case."""
        if 32 <= byte < 127 and byte != 37 and self.chance.random() < 0.8:
            return chr(byte)
        return f"%{byte:02X}" if self.chance.random() < 0.5 else f"%{byte:02x}"

    def times(self):
        """Returns a number of repetitions and a text."""
        pattern = self.chance.randbytes(self.chance.randint(1, 5))
        low, high = self.chance.choice(self.theme.fills)
        return f"{self.chance.randint(low, high) // len(pattern)} {written(pattern)}"

    def named(self):
        names = [*self.machine.names]
        return written(self.chance.choice(names)) if names and not self.is_wild() else self.new_name()

    def new_name(self):
        if self.is_wild():
            return self.chance.choice(("", "n" * 255, "n" * 256, *map(written, self.machine.names)))
        return written(self.chance.randbytes(self.chance.randint(1, 3)))

    def mode(self):
        return self.chance.choice(("read", "write", "both", "both"))

    def how(self):
        return self.chance.choice(("done", "done", "gone"))


class Drawing(Words):
    """The script of a seed."""

    def __init__(self, seed):
        self.chance = random.Random(seed)
        self.theme = theme_of(seed)
        self.lines = [line.encode() for line in self.theme.headers(self.chance)]
        self.machine = set_up(self.lines)
        self.caller, self.name, self.of, self.wildness, self.met = None, "", 0, WILD, set()
        for line in self.theme.opening(self.chance):
            self.take(line.encode())
        for _ in range(self.chance.randint(*self.theme.lines)):
            self.take(self.line())
        self.lines.append(b"report")

    def line(self):
        """Returns a line. While the model refuses it, another line is mostly drawn. An odd line may be wrong for several reasons."""
        if self.chance.random() < ODD_LINES:
            self.wildness = ODD
            return self.drawn().encode()
        self.wildness = WILD
        for _ in range(TRIES):
            line = self.drawn().encode()
            if line == b"report":
                return line
            name, answer, *_ = self.machine.step(line)
            refusal = answer.startswith("refused") and (name, answer.split(" ")[1])
            if not refusal or self.chance.random() < (0.03 if refusal in self.met else 0.3):
                self.met.add(refusal)
                return line
        return line

    def drawn(self):
        self.name = name = self.chance.choices(list(self.theme.weights), self.theme.weights.values())[0]
        if name == "report":
            return name
        drawn = WORDS.get(name, ())
        if name in OUTSIDE:
            self.caller, words = None, [name]
        else:
            by = self.by(drawn)
            self.caller, words = self.machine.domains.get(by), [str(by), name]
        return " ".join([*words, *(str(getattr(self, word)()) for word in drawn)])

    def by(self, drawn):
        """Returns the domain of a call: mostly one that has aggregates and descriptors if the call needs them."""
        domains = self.machine.domains.items()
        able = [by for by, it in domains if (it.aggs or "agg" not in drawn) and (it.fds or "fd" not in drawn)]
        return self.chance.choice(able) if able and not self.is_wild() else self.domain()

    def take(self, line):
        """Adds a line to the script, and executes it on the machine."""
        self.lines.append(line)
        change = self.machine.step(line)[-1] if line != b"report" else None
        next(change or iter(()), None)


def theme_of(seed):
    return THEMES[seed % len(THEMES)]


def script(seed):
    """Returns the lines of the script of a seed."""
    return Drawing(seed).lines
