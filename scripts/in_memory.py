"""Rows over a site in memory (crates/test_worked_rows), and their possible results if an injected failure occurs."""
import itertools
import os
import re
import subprocess

import hindering
import tree
from growths import REFUSED
from hindering import FAILED, SECONDS, SPOILED, Row, Site, way_among
from model.cgi import Private
CRATE = f"{tree.ROOT}/crates/test_worked_rows"
PROGRAM = f"{CRATE}/out/test_worked_rows"
BEGIN = b"\n\n"  # the program prints one line end before it makes the site, and one after it
PAGE = 4096
SITE, SERVED = "1", "2"  # values of LATE: growths are counted from the making of the site, or from the serving
OVER, ROUGH = b"over\n", b"rough\n"
BROKEN = 1  # status of a connection that has failed
ENDINGS = {
    OVER: (0, b""), b"over, rough\n": (0, ROUGH), b"failed\n": (BROKEN, b""), b"failed, rough\n": (BROKEN, ROUGH),
}
BOTH = re.compile(rb"(.*)\nconnection 1, idle: true\n(.*)\nconnection 2, idle: true\n", re.DOTALL)


def build():
    """Proves and builds the program if it is missing or a source is newer."""
    tree.build_program("test_worked_rows", "borrowed", "0", "-", "1", "0", "1", "0")


def words_of(files):
    """Yields the arguments that describe files to the program: each file is a text and its number of repetitions."""
    for name, data in files.items():
        page = data[:PAGE]
        count = len(data) // PAGE
        times, text = (count, page) if count > 1 and page * count == data else (1, data)
        yield from ("guest" if isinstance(data, Private) else "all", name, str(times), text)


class Served(Row):
    """A stream on one connection. Each pool of the site has one chunk, except the pool `site`, which has `chunks`."""

    failures = ("growths", "faults", "reads", "writes")
    pieces = ("1", "4095")  # bytes moved at a time
    mode = "served"

    def __init__(self, name, files, *streams, late=SERVED, few=None, chunks=1):
        super().__init__(name, Site("", files), list(streams))
        self.chunks, self.late = chunks, late
        self.few = {"SHORT": few} if few else {}

    def sweeps(self, env):
        """Yields the sweeps of the row, one for each kind of failure."""
        for what in self.failures:
            late = self.late if what == "growths" else SERVED
            numbers = itertools.count(1 if what == "faults" else 0)
            yield Sweep(self, env | self.few | {"LATE": late}, what, numbers)

    def words(self, fault):
        return [self.mode, str(self.chunks), fault, *words_of(self.site.files)]

    def run(self, extra):
        env = {**os.environ, **extra}
        words = [PROGRAM, *self.words(extra.get("FAULT", "0"))]
        ran = subprocess.run(words, input=self.streams[0], env=env, capture_output=True, timeout=SECONDS)
        printed = ran.stdout.removeprefix(BEGIN)
        ending = next((ending for ending in ENDINGS if printed.endswith(ending)), b"")
        status, rough = ENDINGS[ending] if ending and ran.returncode == 0 else (ran.returncode or None, b"")
        mark = rough if "FAULT" in extra else b""
        return self.answers(printed.removesuffix(ending)), status, ran.stderr + mark

    def answers(self, printed):
        return [printed]


class ByTurns(Served):
    """Requests for a script and a file at the same time. The file is written before the script reads it."""

    failures = ("growths", "faults")
    mode = "turns"

    def __init__(self, *words, **how):
        super().__init__(*words, **how)
        self.pieces = ()

    def files(self, at):
        return self.site.files if at else {**self.site.files, "f": b"two"}

    def answers(self, printed):
        found = BOTH.fullmatch(printed)
        return list(found.groups()) if found else [printed]


class Steps(Served):
    """Steps on a connection, and the reply of each.

    The reader delivers a text repeatedly. Reader and writer have a limit of bytes per call, and fail at one of their calls.
    """

    failures = ("growths",)

    def __init__(self, name, given, reader, writer, steps, replies):
        super().__init__(name, {}, b"")
        self.given, self.limits, self.steps, self.replies, self.pieces = given, (*reader, *writer), steps, replies, ()

    def words(self, fault):
        count, text = self.given
        return ["borrowed", str(count), text, *map(str, self.limits), *self.steps.split()]

    def whole(self):
        return [self.replies]


def way_of_growth(row, answers, status, errors):
    return way_among(answers, row.with_one(503, "[Memory]")) if (status, errors) == (0, b"") else None


def way_of_fault(row, answers, status, errors):
    _whole, *ways = row.with_one(500, "[Fault]")
    return way_among(answers, ways) if (status, errors) == (0, b"") else None


def way_of_cut(row, answers, status, errors):
    """Returns how a run with a failing reader or writer ended. The failed write may be that of the last line, its ending."""
    [answer], [whole] = answers, row.whole()
    is_begun = (whole if status == BROKEN else whole + OVER).startswith(answer)
    return "cut off" if is_begun and status in (BROKEN, None) and errors == b"" else None


class Sweep(hindering.Sweep):
    ways = {
        "growths": ("REFUSE", REFUSED, way_of_growth),
        "faults": ("FAULT", ROUGH, way_of_fault),
        "reads": ("FAIL", FAILED, way_of_cut),
        "writes": ("SPOIL", SPOILED, way_of_cut),
    }
