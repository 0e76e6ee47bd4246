"""Runs the program repeatedly, each time with another growth of its memory refused (`refuse.c`)."""
import os
import subprocess

import tree
from replaying import Wrong, is_fault

REFUSED = b"growth refused\n"  # the shim's messages
SPOILED = b"output spoiled\n"
AHEAD = 32  # the most growths that reading takes more if a line is duplicated
WAYS = ("ended", "refused", "unneeded")


def build_shim(folder, name="refuse"):
    """Builds a library of scripts/ by the compiler of the kit, and returns its path. It is loaded into the program."""
    doc = subprocess.run(["rt", "doc"], capture_output=True, text=True, check=True).stdout.strip()
    clang = f"{os.path.dirname(doc)}/toolchain/bin/clang"
    flags = ["-shared", "-fPIC", "-O1", "-Wall", "-fuse-ld=lld", "-nostdlib"]
    subprocess.run([clang, *flags, "-o", f"{folder}/{name}.so", f"{tree.ROOT}/scripts/{name}.c"], check=True)
    return f"{folder}/{name}.so"


def is_shortage(answer, expected):
    """Returns whether a reply differs from the expected one and reports a lack of memory."""
    return answer != expected and (answer == [b"refused Memory"] or is_fault(answer))


class Sweep:
    """The runs of a script, each with another growth refused. `check`, if given, is called with the lines and output of each."""

    def __init__(self, name, script, shim, check=None):
        self.name, self.script, self.shim, self.check = name, script, shim, check
        self.output = script.output()
        self.expected = script.answers(self.output)
        self.ends = script.ends(self.output)
        self.rests = {}
        self.passed = {0}  # numbers of events that, counted from the first, are known not to reach the refused growth

    def run(self, script, number):
        ended = script.run({"LD_PRELOAD": self.shim, "REFUSE": str(number)})
        if self.check and ended.returncode == 0:
            self.check(script.lines, ended.stdout)
        return ended

    def rest(self, event):
        """Returns the replies to the script without an event."""
        if event not in self.rests:
            script = self.script.without(event)
            self.rests[event] = script.answers(script.output())
        return self.rests[event]

    def check_retried(self, event, number):
        """Checks the script in which the event occurs twice and the first one is refused."""
        script = self.script.doubled(event)
        for later in range(number, number + AHEAD):
            ended = self.run(script, later)
            if ended.returncode == 0:
                answers = script.answers(ended.stdout)
                if is_shortage(answers[event], self.expected[event]):
                    if not script.agree(answers[:event] + answers[event + 1:], self.expected):
                        raise Wrong("the retried event changes the replies")
                    return
        raise Wrong("if the event occurs twice, the first one is not refused")

    def check_refused(self, event, answers, number):
        """Checks that a refused event changed nothing, and succeeds if it is retried."""
        if not self.script.agree(answers[:event] + answers[event + 1:], self.rest(event)):
            raise Wrong("the replies differ from those without the refused event")
        self.check_retried(event, number)

    def reaches(self, count, number):
        """Returns whether the first `count` events reach the growth of this number."""
        return REFUSED in self.script.first(count).run({"LD_PRELOAD": self.shim, "REFUSE": str(number)}).stderr

    def check_ended(self, printed, number):
        """Checks that exactly the replies to the lines before the refused growth were printed."""
        if not self.output.startswith(printed) or len(printed) not in self.ends:
            raise Wrong("it ended, and its output is not a number of whole replies from the first")
        count = self.ends.index(len(printed))
        if count not in self.passed and self.reaches(count, number):
            raise Wrong("it ended, and printed the reply to a line that reached the growth")
        self.passed.add(count)
        if not self.reaches(count + 1, number):
            raise Wrong("it ended, and did not print the reply to a line that did not reach the growth")

    def check_spoiled(self, printed, number):
        """Checks the run whose first write fails, too: it prints nothing, and reports the failed write if it had output."""
        ended = self.script.run({"LD_PRELOAD": self.shim, "REFUSE": str(number), "SPOIL": "0"})
        errors = ended.stderr.replace(REFUSED, b"", 1).replace(SPOILED, b"", 1)
        if (ended.returncode, ended.stdout, errors) != (3, b"", b"fault: output\n" if printed else b"fault: memory\n"):
            raise Wrong(f"with a failing output, status {ended.returncode}, {ended.stdout!r}, {errors!r}")

    def way(self, ended, number):
        """Checks how a run ended, and returns which of WAYS it was."""
        errors = ended.stderr.replace(REFUSED, b"", 1)
        if ended.returncode == 3 and errors == b"fault: memory\n":
            self.check_ended(ended.stdout, number)
            self.check_spoiled(ended.stdout, number)
            return "ended"
        if ended.returncode != 0 or errors:
            raise Wrong(f"status {ended.returncode}, {errors!r}")
        answers = self.script.answers(ended.stdout)
        if answers == self.expected:
            return "unneeded"
        shortages = [event for event, answer in enumerate(answers) if is_shortage(answer, self.expected[event])]
        if not shortages:
            raise Wrong("the replies differ, and none reports a lack of memory")
        self.check_refused(shortages[0], answers, number)
        return "refused"

    def counts(self):
        """Refuses one growth after another, until there is no further growth. Returns the number of runs for each way."""
        counts = dict.fromkeys(WAYS, 0)
        number = 0
        while True:
            try:
                ended = self.run(self.script, number)
                way = self.way(ended, number)
            except Wrong as wrong:
                raise Wrong(f"{self.name}, growth {number} refused: {wrong}") from wrong
            if REFUSED not in ended.stderr:
                return counts
            counts[way] += 1
            number += 1
