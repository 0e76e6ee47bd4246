"""Counts instructions and allocations of a program by valgrind, also of iolite on a script, and measures its processor time."""
import os
import re
import resource
import subprocess
import sys
import tempfile

ROOT = os.path.dirname(os.path.dirname(os.path.abspath(__file__)))
PROGRAM = f"{ROOT}/crates/iolite/out/iolite"


def build():
    subprocess.run([f"{ROOT}/scripts/iolite", "replay"], stdin=subprocess.DEVNULL, check=True)


def _counted(tool, pattern, words):
    ran = subprocess.run(["valgrind", *tool, *words], capture_output=True, text=True, check=True)
    return int(re.search(pattern, ran.stderr)[1].replace(",", ""))


def instructions_of(words):
    """Returns the instructions of a command."""
    return _counted(["--tool=callgrind", "--callgrind-out-file=/dev/null"], r"Collected : (\d+)", words)


def allocations_of(words):
    """Returns the allocations of a command."""
    return _counted(["--tool=memcheck"], r"total heap usage: ([\d,]+) allocs", words)


def instructions(script, refusals=0):
    """Returns the instructions of iolite on a script, which has to have this number of refusals."""
    with tempfile.NamedTemporaryFile("w") as given:
        given.write(script)
        given.flush()
        with open(given.name, encoding="ascii") as lines:
            words = ["valgrind", "--tool=callgrind", "--callgrind-out-file=/dev/null", PROGRAM, "replay"]
            ran = subprocess.run(words, stdin=lines, capture_output=True, text=True, check=True)
    if ran.stdout.count("refused") != refusals:
        sys.exit("the number of refused rounds is not the expected one")
    return int(re.search(r"Collected : (\d+)", ran.stderr)[1])


def used():
    used = resource.getrusage(resource.RUSAGE_CHILDREN)
    return used.ru_utime + used.ru_stime


def seconds(script, tries=5):
    """Returns the least processor time of several runs of iolite on a script."""
    took = []
    with tempfile.TemporaryFile("w+") as lines:
        lines.write(script)
        for _ in range(tries):
            lines.seek(0)
            before = used()
            subprocess.run([PROGRAM, "replay"], stdin=lines, stdout=subprocess.DEVNULL, check=True)
            took.append(used() - before)
    return min(took)


def a_round(head, rounds, count, refusals=0):
    """Returns the cost of one of `count` rounds after a head, whose cost is subtracted. `refusals` lines of the rounds are refused."""
    return (instructions(head + rounds, refusals) - instructions(head, 0)) / count


def compare(few, many, calls, count, limit, refused=()):
    """Prints the cost of each call after the head `few` and after the head `many`. Returns whether a ratio is above the limit.

    Each call has a name, its rounds after `few` and its rounds after `many`, `count` of both. For the names in `refused`, one line
    of each round is refused.
    """
    worst = 0.0
    print(f"instructions per round, with its lines      few      many   ratio (at most {limit})")
    for name, after_few, after_many in calls:
        refusals = count if name in refused else 0
        low = a_round(few, after_few, count, refusals)
        high = a_round(many, after_many, count, refusals)
        worst = max(worst, high / low)
        print(f"{name:40} {low:9.0f} {high:9.0f} {high / low:7.2f}", flush=True)
    return worst > limit
