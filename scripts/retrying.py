"""Runs a script's events on a system, each time with another growth of memory refused (`refuse.c`), and the refused event retried.

The program is crates/test_retried_events. It prints each reply in the form of Rust's `Debug`, also those of refused tries.
"""
import itertools
import os
import re
import subprocess

import tree
from growths import REFUSED
from model.script import CALLS, OUTSIDE, read_line
from model.texts import decode
from replaying import SECONDS, Wrong

CRATE = f"{tree.ROOT}/crates/test_retried_events"
PROGRAM = f"{CRATE}/out/test_retried_events"
SIZES = [b"256", b"4294967295", b"1024"]
MODES = {"read": 0, "write": 1, "both": 2, "done": 0, "gone": 1}
BEGIN = b"\n"  # the output before the system is made
WAYS = ("retried", "unneeded")
COUNTED = {"LATE": "1"}  # growths are counted after this number of writes to the output
MOST_CALLS = 20  # the most calls of the store by one event
NUMBER = re.compile(rb"\d+")
SHORTAGE = re.compile(rb"NoReport|Reply\(Refused\((Memory|Fault \{.*)\)\)")


def build():
    """Proves and builds the program if it is missing or a source is newer."""
    tree.build_program("test_retried_events", *tree.read(f"{CRATE}/args").splitlines())


def repeated(data):
    """Returns the arguments for a text: a number of repetitions, and the repeated text."""
    count = len(data) if data == data[:1] * len(data) else 1
    once = data[:1] if count > 1 else data
    return [str(count or 1), "".join(f"%{byte:02x}" for byte in once)]


def words_of(line, is_fault):
    """Returns the arguments for an event. `is_fault` says whether its reply is a fault."""
    name, given = read_line(line)
    kinds, by = OUTSIDE.get(name), 0
    if name in CALLS:
        kinds, (by, *given) = CALLS[name], given
    numbers, aggs, text = [], [], b""
    for kind, value in zip(kinds, given, strict=True):
        if kind == "a":
            aggs.append(value)
        elif kind in "nmh":
            numbers.append(MODES.get(value, value))
        else:
            text = bytes(value)
    places = [*(aggs + [0, 0])[:2], *(numbers + [0, 0])[:2]]
    return [name, str(by), *map(str, places), *repeated(text), "-" if is_fault else "fault"]


def parsed(reply):
    """Returns the name and the numbers of a reply of a script."""
    word, _, rest = reply[0].partition(b" ")
    if word in (b"pool", b"extents") and len(reply[0].split()) > 2:
        return b"Report", [int(it) for line in reply for it in NUMBER.findall(line)]
    if word == b"bytes":
        return b"Bytes", list(decode(rest))
    if word == b"segment":
        checksum, _, text = rest.partition(b" ")
        return b"Segment", [*decode(text), int(checksum, 16)]
    if word == b"refused":
        return rest.split(b" ")[0], [int(it) for it in NUMBER.findall(rest)]
    return word.capitalize(), [int(it) for it in NUMBER.findall(rest)]


def is_reply(answer, reply):
    """Returns whether a reply of the program is this reply of a script."""
    word, numbers = parsed(reply)
    return word in re.findall(rb"\w+", answer)[:3] and [int(it) for it in NUMBER.findall(answer)] == numbers


class Retried:
    """A script's events as arguments of the program."""

    def __init__(self, script, replies):
        self.sizes, self.fault, self.pieces = SIZES, 0, []
        for line in script.lines:
            name, _, rest = line.partition(b" ")
            if name == b"config":
                self.sizes = rest.split()
            elif name == b"fault":
                self.fault = int(rest)
            elif name in (b"store", b"storen"):
                slot, _, text = rest.partition(b" ")
                count, _, text = text.partition(b" ") if name == b"storen" else (1, b"", text)
                self.pieces.append((int(slot) - 1, decode(text) * int(count)))
        lines = [script.lines[at] for at in script.events]
        faults = [reply[0].startswith(b"refused Fault ") for reply in replies]
        self.events = [words_of(line, is_fault) for line, is_fault in zip(lines, faults, strict=True)]

    def words(self, fault):
        pieces = [[str(place), *repeated(data)] for place, data in self.pieces]
        head = [*(it.decode() for it in self.sizes), str(fault), str(len(pieces))]
        return [*head, *itertools.chain(*pieces, *self.events)]

    def run(self, extra, fault):
        """Runs the program. Returns the replies, and whether a growth was refused."""
        ran = subprocess.run([PROGRAM, *self.words(fault)], env={**os.environ, **extra}, capture_output=True, timeout=SECONDS)
        left = ran.stderr.replace(REFUSED, b"", 1)
        if ran.returncode != 0 or left or not ran.stdout.startswith(BEGIN):
            raise Wrong(f"status {ran.returncode}, {left!r}")
        return ran.stdout.removeprefix(BEGIN).splitlines(), REFUSED in ran.stderr


def one_more(answers, expected):
    """Returns the reply without which the others are the expected ones, or None."""
    at = next((at for at, answer in enumerate(expected) if answers[at:at + 1] != [answer]), len(expected))
    return answers[at] if answers[:at] + answers[at + 1:] == expected and at < len(answers) else None


class Sweep:
    """The runs of a script's events, each with another growth refused."""

    def __init__(self, name, script, shim):
        self.name, self.env = name, {**COUNTED, "LD_PRELOAD": shim}
        replies = script.reply_lines(script.output())
        self.row = Retried(script, replies)
        self.expected, _ = self.row.run({}, self.row.fault)
        if len(self.expected) != len(replies) or not all(map(is_reply, self.expected, replies)):
            raise Wrong(f"{name}: the replies to its events differ from those to its lines")

    def way(self, number):
        """Returns how a run ended, or None if there was no further growth to refuse.

        A refused try may have called the store already, and its retry calls the store again. So if a script names a call that
        fails, the number of the same call of the same event is higher by the calls of the refused try.
        """
        for calls in range(MOST_CALLS if self.row.fault else 1):
            answers, is_refused = self.row.run(self.env | {"REFUSE": str(number)}, self.row.fault + calls)
            if not is_refused and calls == 0:
                return None
            if is_refused and answers == self.expected:
                return "unneeded"
            refused = one_more(answers, self.expected)
            if is_refused and refused and SHORTAGE.match(refused):
                return "retried"
        raise Wrong(f"{self.name}, growth {number} refused and retried: got {answers}, expected {self.expected}"[:3000])

    def counts(self):
        """Refuses one growth after another, until there is no further growth. Returns the number of runs for each way."""
        counts = dict.fromkeys(WAYS, 0)
        for number in itertools.count():
            way = self.way(number)
            if way is None:
                return counts
            counts[way] += 1
