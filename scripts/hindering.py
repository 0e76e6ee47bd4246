"""Rows of the server, and the possible results of a row if an injected failure occurs (`refuse.c`)."""
import contextlib
import os
import socket
import subprocess
from collections import Counter
from collections.abc import Iterable
from dataclasses import dataclass

from growths import REFUSED
from model import cgi, http
from replaying import PROGRAM, Wrong

FAILED, BROKEN, SPOILED = b"call failed\n", b"connection broken\n", b"output spoiled\n"  # the shim's messages
INTERRUPTED = b"call interrupted\n"
SECONDS = 60


@dataclass(frozen=True)
class Site:
    """A folder, and the bytes of its files."""

    root: str
    files: dict

    def make(self):
        os.mkdir(self.root)
        for name, data in self.files.items():
            with open(f"{self.root}/{name}", "wb") as it:
                it.write(data)
        return self

    def without(self, name):
        return Site(self.root, {other: data for other, data in self.files.items() if other != name})

    def answer(self, stream):
        return http.answer_to(stream, self.files)


def fetch(port, stream):
    """Sends a stream, ends it, and returns the bytes received. If the connection breaks, these are the bytes before."""
    answer = b""
    with contextlib.suppress(ConnectionError), socket.create_connection(("127.0.0.1", port), SECONDS) as client:
        client.sendall(stream)
        with contextlib.suppress(OSError):  # the connection may be closed already
            client.shutdown(socket.SHUT_WR)
        while more := client.recv(65_536):
            answer += more
    return answer


class Row:
    """Streams of requests to a server, one stream per client, one client after another."""

    def __init__(self, name, site, streams):
        self.name, self.site, self.streams = name, site, streams

    def run(self, extra):
        """Runs a server and its clients. Returns the response to each stream, the server's status, and its errors."""
        words = [PROGRAM, "serve", "0", self.site.root, str(len(self.streams))]
        pipes = {"stdout": subprocess.PIPE, "stderr": subprocess.PIPE}
        with subprocess.Popen(words, env={**os.environ, **extra}, **pipes) as server:
            try:
                line = server.stdout.readline()
                port = int(line.removeprefix(b"listening ")) if line.endswith(b"\n") else None
                answers = [fetch(port, stream) if port else b"" for stream in self.streams]
                return answers, server.wait(SECONDS), server.stderr.read()
            finally:
                server.kill()

    def files(self, at):
        """Returns the files that determine the response to a stream."""
        return self.site.files

    def whole(self):
        """Returns the responses without a failure."""
        return [http.answer_to(stream, self.files(at)) for at, stream in enumerate(self.streams)]

    def with_one(self, code, refusal):
        """Yields the responses without a failure, and all with one refused call on a file, each with the word for it."""
        whole = self.whole()
        yield "whole", whole
        for at, stream in enumerate(self.streams):
            files = self.files(at)
            replies = list(http.replies(stream, files))
            texts = [text for _, text in replies]
            for place, (head, _) in enumerate(replies):
                for way, text in refused_once(head, files, code, refusal):
                    yield way, [*whole[:at], b"".join([*texts[:place], text, *texts[place + 1:]]), *whole[at + 1:]]

    def without_one(self):
        """Yields the responses from the site without one of its files, each with a word for that."""
        for name in self.site.files:
            less = self.site.without(name)
            yield "not found", [less.answer(stream) for stream in self.streams]


class Loop(Row):
    """A request by `loop` for a path."""

    def __init__(self, name, site, path):
        stream = http.lined(f"GET {path} HTTP/1.1", "Host: 127.0.0.1", "Connection: close", "")
        super().__init__(name, site, [stream])
        self.path = path

    def run(self, extra):
        words, env = [PROGRAM, "loop", self.site.root, self.path], {**os.environ, **extra}
        ran = subprocess.run(words, env=env, capture_output=True, timeout=SECONDS)
        return [ran.stdout], ran.returncode, ran.stderr


def may_read(name, files):
    return name in files and not isinstance(files[name], cgi.Private)


def refused_once(head, files, code, refusal):
    """Yields the responses to a request if a call on its file, or on a file that its script reads, is refused."""
    requested = head.requested(files) if head else None
    if requested is None or not may_read(requested[0], files):
        return
    name, query = requested
    yield f"a {code}", head.refused(code)
    if name.endswith(".cgi") and not head.is_head:
        lines = cgi.lines_of(files[name]) or []
        parts = cgi.parts(lines, query, files)
        for at, (word, rest) in enumerate(lines):
            if word in cgi.OF_FILES and may_read(rest.decode(), files):
                yield refusal, head.script_response([*parts[:at], f"{refusal}\n".encode(), *parts[at + 1:]])


def way_among(answers, ways):
    return next((way for way, wanted in ways if wanted == answers), None)


def way_of_growth(row, answers, status, errors):
    """Returns how a run with a refused growth ended, or None if this result is not allowed."""
    if (status, errors) == (3, b"fault: memory\n"):
        whole = row.whole()
        until = ([*whole[:count], *[b""] * (len(whole) - count)] for count in range(len(whole)))
        return "ended" if answers in until else None
    return way_among(answers, row.with_one(503, "[Memory]")) if (status, errors) == (0, b"") else None


def way_of_call(row, answers, status, errors):
    """The same for a run with a failed call on the folder or on a file."""
    if (status, errors) == (3, b"fault: folder\n"):
        return None if any(answers) else "ended"
    way = way_among(answers, row.with_one(500, "[Fault]")) or way_among(answers, row.without_one())
    return way if (status, errors) == (0, b"") else None


def way_of_break(row, answers, status, errors):
    """The same for a run with a broken connection."""
    cut = [(answer, whole) for answer, whole in zip(answers, row.whole(), strict=True) if answer != whole]
    is_begun = all(whole.startswith(answer) for answer, whole in cut)
    if isinstance(row, Loop):
        return "cut off" if cut and is_begun and (status, errors) == (3, b"fault: connect\n") else None
    if len(cut) > 1 or not is_begun or (status, errors) != (0, b""):
        return None
    return "cut off" if cut else "whole"


def way_of_interruption(row, answers, status, errors):
    """The same for a run in which a signal interrupted sending or receiving."""
    return "whole" if (answers, status, errors) == (row.whole(), 0, b"") else None


def way_of_spoil(row, answers, status, errors):
    """The same for a run with a failed write to the output."""
    is_begun = row.whole()[0].startswith(answers[0]) if isinstance(row, Loop) else not any(answers)
    return "spoiled" if is_begun and (status, errors) == (3, b"fault: output\n") else None


WAYS = {
    "growths": ("REFUSE", REFUSED, way_of_growth),
    "calls": ("FAIL", FAILED, way_of_call),
    "breaks": ("BREAK", BROKEN, way_of_break),
    "interruptions": ("INTERRUPT", INTERRUPTED, way_of_interruption),
    "output": ("SPOIL", SPOILED, way_of_spoil),
}


@dataclass(frozen=True)
class Sweep:
    """The runs of a row in an environment. Each run has one injected failure, whose number is the next of `numbers`."""

    row: Row
    env: dict
    what: str
    numbers: Iterable
    ways = WAYS

    def run(self):
        """Runs up to the first run in which the failure does not occur. Returns the number of runs for each way, and a message
        about the first unexpected result or None."""
        counts = Counter()
        for number in self.numbers:
            try:
                way, is_last = self.way(number)
            except (Wrong, TimeoutError, subprocess.TimeoutExpired) as wrong:
                word, *_ = self.ways[self.what]
                return counts, f"{self.row.name}, {self.row.streams}, with {word}={number} in {self.env}: {wrong}"
            if is_last:
                return counts, None
            counts[way] += 1
        return counts, "all numbers were used, and the failure still occurs"

    def way(self, number):
        """Runs the row with one failure. Returns how the run ended, and whether the failure did not occur."""
        word, mark, way_of = self.ways[self.what]
        answers, status, errors = self.row.run(self.env | {word: str(number)})
        if mark in errors:
            way = way_of(self.row, answers, status, errors.replace(mark, b"", 1))
        else:
            way = "whole" if (answers, status, errors) == (self.row.whole(), 0, b"") else None
        if way is None:
            raise Wrong(f"status {status}, {errors!r}, answered {[answer[:300] for answer in answers]}")
        return way, mark not in errors
