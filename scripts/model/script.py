"""Reads the lines of a script (docs/RULES.md, Scripts), and compares each reply with those that the model allows."""
import re
from collections import Counter

from model.calls import Aggregates, Descriptors, Domains, Outside
from model.state import MAX_BYTES, Refused
from model.room import Impossible, check_report
from model.texts import decode
from model.traffic import Reading, Writing
from replaying import Wrong, has_reply

# The arguments of each call: n is a number of 32 bits, a is one of 64 bits, l is a list of numbers, d is a name, t is a text, m is
# the mode of an open file, h is how a peer closed.
CALLS = {
    "domain_new": "", "exit": "", "pool_create": "nl", "pool_close": "n", "pool_admit": "nn", "set_pool": "n",
    "agg_make": "t", "agg_fill": "nt", "agg_dup": "a", "agg_cut": "ann", "agg_split": "an", "agg_join": "aa",
    "agg_replace": "anna", "agg_drop": "a", "agg_give": "an", "show": "a", "file_new": "dn", "open_file": "dm",
    "pipe": "", "give_fd": "nn", "close": "n", "seek": "nn", "length": "n", "fsync": "n", "iol_write": "na",
    "iol_read": "nn", "write": "nt", "read": "nn", "accept": "",
}
OUTSIDE = {
    "conn_new": "n", "arrive": "nt", "peer_closed": "nh", "transmit": "nn", "flush": "", "drop_clean": "", "report": "",
}


def number_below(limit):
    def read(word):
        if not re.fullmatch(rb"[0-9]+", word) or int(word) >= limit:
            raise ValueError(word)
        return int(word)
    return read


def numbers(word):
    return [READ["n"](number) for number in word.split(b",")]


def one_of(*words):
    return lambda word: words[[it.encode() for it in words].index(word)]


READ = {
    "n": number_below(2**32), "a": number_below(2**64), "l": numbers, "d": decode, "t": decode,
    "m": one_of("read", "write", "both"), "h": one_of("done", "gone"),
}


def read_line(line):
    """Returns the name and the arguments of a line's call, its domain first. Raises `ValueError` if the line is no command."""
    first, has_more, rest = line.partition(b" ")
    name, by, kinds = first, [], OUTSIDE
    if first.isdigit():
        by = [READ["n"](first)]
        name, has_more, rest = rest.partition(b" ")
        kinds = CALLS
    name = name.decode()
    if name not in kinds or has_more and not kinds[name]:
        raise ValueError(line)
    words = rest.split(b" ", len(kinds[name]) - 1) if kinds[name] else []
    words += [b""] * (len(kinds[name]) - len(words))  # a missing text is empty
    given = [READ[kind](word) for kind, word in zip(kinds[name], words)]
    if name == "agg_fill":
        if given[0] * len(given[1]) > MAX_BYTES + 1:
            raise ValueError(line)
        name, given = "agg_make", [given[1] * given[0]]
    return name, [*by, *given]


def is_command(line):
    """Returns whether a line that is no header is a command, or is skipped."""
    try:
        return not has_reply(line) or bool(read_line(line))
    except ValueError:
        return False


class Machine(Domains, Aggregates, Descriptors, Reading, Writing, Outside):
    def step(self, line):
        """Returns the call of a line, its reply, the late refusals that may come instead, and the change to be made."""
        name, given = read_line(line)
        change = getattr(self, name)(*given)
        try:
            answer, late = next(change)
        except Refused as it:
            return name, f"refused {it.refusal}", it.late, it.plan and committing(it.plan)
        return name, answer, late, change


def set_up(lines):
    """Returns the machine that the headers of a script set up."""
    sizes, slots, fault = (256, 2**32 - 1), {}, 0
    for line in lines:
        name, _, rest = line.partition(b" ")
        if name == b"config":
            sizes = tuple(map(int, rest.split()[:2]))
        elif name == b"fault":
            fault = int(rest)
        elif name in (b"store", b"storen"):
            slot, text = rest.split(b" ", 1)
            times, text = text.split(b" ", 1) if name == b"storen" else (1, text)
            slots[int(slot)] = slots.get(int(slot), b"") + decode(text) * int(times)
    return Machine(*sizes, slots, fault)


def committing(plan):
    """The change that a refusal makes: it commits the plan."""
    plan.commit()
    yield


def answer_to(line, replies):
    """Returns the lines of the reply to a line. A report has one for each pool, and a last one."""
    answer = []
    while not answer or line == b"report" and not answer[-1].startswith("extents "):
        reply = next(replies, None)
        if reply is None:
            raise Impossible("there is no reply")
        answer.append(reply)
    return answer


class Comparison:
    """Compares a script's replies with the model, and counts what was reached: each call that succeeded, and each refusal.

    If memory may be short, a reply may report this, and the store in memory may fail. After that the ranges of files in memory are
    unknown, so the comparison ends if there are files.
    """

    def __init__(self, lines, may_lack_memory):
        self.machine, self.reached, self.may_lack_memory = set_up(lines), Counter(), may_lack_memory
        self.is_over = False

    def take(self, line, answer):
        if line == b"report":
            check_report(answer, self.machine)
            self.reached["report", "answered"] += 1
            return
        name, wanted, late, change = self.machine.step(line)
        reply = answer[0]
        if reply == wanted:
            next(change or iter(()), None)
        elif not self.may_lack_memory or not is_shortage(reply, late):
            raise Impossible(f"the reply of the model is {wanted[:200]!r}")
        else:
            self.is_over = bool(self.machine.files)
        self.reached[name, reply.split(" ")[1] if reply.startswith("refused ") else "answered"] += 1


def is_shortage(reply, late):
    """Returns whether a reply reports a lack of memory, and the call may have this reply."""
    return reply.startswith("refused Fault ") or reply == "refused Memory" and "Memory" in late


def compare(lines, output, may_lack_memory=False):
    """Compares the output of a script with the model, and returns what it reached. Raises `Wrong` if a reply is not allowed."""
    comparison = Comparison(lines, may_lack_memory)
    replies = iter(output.decode().splitlines())
    for number, line in enumerate(lines, 1):
        answer = []
        try:
            if has_reply(line) and not comparison.is_over:
                answer = answer_to(line, replies)
                comparison.take(line, answer)
        except Impossible as it:
            reply = " ".join(answer)[:200]
            raise Wrong(f"line {number}, {line[:80]!r}, got the reply {reply!r}: {it}") from it
    if not comparison.is_over and next(replies, None) is not None:
        raise Wrong("there are more replies than lines")
    return comparison.reached
