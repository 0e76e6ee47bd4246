"""Scripts, and the replies of `iolite replay` to them."""
import os
import subprocess

import tree

PROGRAM = f"{tree.ROOT}/crates/iolite/out/iolite"
HEADERS = (b"config ", b"fault ", b"store ", b"storen ")
SECONDS = 120


class Wrong(Exception):
    """An unexpected result of a run."""


def build():
    """Proves and builds the program if it is missing or out of date."""
    subprocess.run([f"{tree.ROOT}/scripts/iolite", "replay"], stdin=subprocess.DEVNULL, check=True)


def has_reply(line):
    """Returns whether a line gets a reply: it is no comment, no header and not empty."""
    return line != b"" and not line.startswith((b"#", *HEADERS))


class Script:
    """The lines of a script, the indices of those that get a reply (the events), and whether the counts of reports are compared."""

    def __init__(self, lines, counts):
        self.lines = lines
        self.counts = counts
        self.events = [at for at, line in enumerate(lines) if has_reply(line)]

    def without(self, event):
        """Returns the script without an event."""
        at = self.events[event]
        return Script(self.lines[:at] + self.lines[at + 1:], self.counts)

    def doubled(self, event):
        """Returns the script in which an event occurs twice."""
        at = self.events[event]
        return Script(self.lines[:at + 1] + self.lines[at:], self.counts)

    def first(self, count):
        """Returns the script with its first `count` events. The others are comments of the same length."""
        lines = list(self.lines)
        for at in self.events[count:]:
            lines[at] = b"#" + lines[at][1:]
        return Script(lines, self.counts)

    def headed(self, line):
        """Returns the script with a further line at its head."""
        return Script([line, *self.lines], self.counts)

    def run(self, extra=None):
        given = b"\n".join(self.lines)
        env = {**os.environ, **(extra or {})}
        return subprocess.run([PROGRAM, "replay"], input=given, capture_output=True, env=env, timeout=SECONDS)

    def output(self):
        """Runs the script with no failure, and returns the output."""
        ended = self.run()
        if ended.returncode != 0 or ended.stderr:
            raise Wrong(f"status {ended.returncode} without a failure, {ended.stderr[-200:]!r}")
        return ended.stdout

    def reply_lines(self, output):
        """Returns the lines of the reply to each event."""
        *left, last = output.split(b"\n")
        answers, begin = [], 0
        for at in self.events:
            end = begin
            if self.lines[at] == b"report":
                while end < len(left) and not left[end].startswith(b"extents "):
                    end += 1
            if last or end >= len(left):
                raise Wrong("not one reply per line")
            answers.append(left[begin:end + 1])
            begin = end + 1
        if begin < len(left):
            raise Wrong("more replies than lines")
        return answers

    def answers(self, output):
        """Returns the same, with one word in place of each report whose counts are not compared."""
        reply_lines = self.reply_lines(output)
        if self.counts:
            return reply_lines
        return [[b"report"] if self.lines[at] == b"report" else answer for at, answer in zip(self.events, reply_lines)]

    def ends(self, output):
        """Returns the offsets in the output at which the first reply begins and each reply ends."""
        ends = [0]
        for answer in self.reply_lines(output):
            ends.append(ends[-1] + sum(len(line) + 1 for line in answer))
        return ends

    def agree(self, answers, others):
        """Returns whether two runs have the same replies.

        If the counts of reports are not compared, the two runs may have different ranges of files in memory, and so different
        pinned pages. Then the replies are compared up to the first NoRoom that only one of them has.
        """
        for answer, other in zip(answers, others, strict=True):
            if answer != other:
                return not self.counts and any(it[0].startswith(b"refused NoRoom ") for it in (answer, other))
        return True


def read_script(path, counts):
    with open(path, "rb") as it:
        return Script(it.read().split(b"\n"), counts)


def is_fault(answer):
    return answer[0].startswith(b"refused Fault ")
