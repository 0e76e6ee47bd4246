"""Judges the result of checking an edit from the output of the prover."""
import re

UNREAD = re.compile(
    r"error\[[\w-]+\]"  # an error of the compiler
    r"|^(note: )?\S+:\d+:\d+: error: .*(is not in scope|has no field|has no `|is no name|operand is missing)"
    r"|^(note: )?(\./)?(src|specs)/\S+: error: [^`]",
    re.MULTILINE,
)
# the same, except for messages about a proof that names something that the edit removed
UNREADABLE = re.compile(
    r"error\[[\w-]+\]"
    r"|^(note: )?(?!(\./)?proofs/)\S+:\d+:\d+: error: .*(is not in scope|has no field|has no `|is no name|operand is missing)"
    r"|^(note: )?(\./)?(src|specs)/\S+: error: [^`]",
    re.MULTILINE,
)
WHERE = re.compile(r"^(note: )?\S+:\d+:\d+: error.*$", re.MULTILINE)
# a limit of the prover that every check of the same text reaches
LIMITS = re.compile(
    r"antt ran out of (stack|the (steps|memory) that the check of one declaration may (take|use))"
    r"|(outgrew the memory limit|stopped at the step limit) \("
)


def open_goals(output, function):
    """Returns the names of the open goals of a function's proof."""
    answers = rf"(?:\./)?proofs/{re.escape(function.replace('::', '/'))}/Answers\.antt"
    goals = set(re.findall(rf"^(?:note: )?{answers}:\d+:\d+: error: `([^`]+)`", output, re.MULTILINE))
    goals |= set(re.findall(rf"^note: `([^`]+)` of {answers} must prove", output, re.MULTILINE))
    for line in re.findall(rf"^fn \w+::{re.escape(function)}: .*did not prove (.*)$", output, re.MULTILINE):
        goals |= set(re.findall(r"`([^`]+)`", line))
    return goals


def unproved_functions(output):
    """Returns the functions that are not proved, by their names in the crate. There are none if the crate does not compile."""
    if re.search(r"error\[[\w-]+\]", output):
        return set()
    return set(re.findall(r"^fn \w+::(\S+): (?!proved$)", output, re.MULTILINE))


def refused_functions(output):
    """Returns the functions with an open goal, by their names in the crate. There are none if the crate does not compile."""
    return {name for name in unproved_functions(output) if open_goals(output, name)}


def is_named(function, names):
    """Returns whether one of these names ends with the given name of a function."""
    return any(f"::{name}".endswith(f"::{function}") for name in names)


def is_goal(named, goal):
    """Returns whether an edit names a goal: by its name, by the name of its clause, or by a beginning of one of these.

    `returns` by itself means the one clause without a name, and no named clause."""
    where, _, clause = goal.partition("-clause-")
    name = clause if where.startswith("returns") and clause and "-clause-" not in named else goal
    return name == named or name.startswith((f"{named}-", f"{named} "))


def outcome_of_all(status, output):
    """Returns the outcome of checking a whole crate with an edit: a word, and details."""
    unread = UNREADABLE.search(output)
    if status == 0:
        return "still proved", "the whole crate"
    if unread and status == 1:
        return "does not compile", output[unread.start() :].partition("\n")[0]
    if status == 1 and output.strip().splitlines()[-1].startswith("logic=not-proved"):
        return "refused", (WHERE.search(output) or [""])[0][:160]
    limit = LIMITS.search(output)
    return ("refused", limit[0]) if status == 3 and limit else ("no verdict", output[-400:])


def outcome_of_part(edit, status, output):
    """Returns the outcome of checking some functions with an edit, as a check of the whole crate would give it, or else that it
    decides nothing: a word, and details."""
    where = WHERE.search(output)
    if status != 1 or not unproved_functions(output) or UNREADABLE.search(output):
        return "not decided", ""
    is_named = edit.goal and any(is_goal(edit.goal, goal) for goal in open_goals(output, edit.function))
    return ("refused", edit.goal if is_named else where[0][:160]) if is_named or where else ("not decided", "")


def outcome(edit, status, output):
    """Returns the outcome of checking an edit: a word, and details."""
    counted = re.search(r"^only=(\d+) proved=(\d+)$", output, re.MULTILINE)
    unread = UNREAD.search(output)
    if unread and status == 1:
        return "does not compile", output[unread.start() :].partition("\n")[0]
    if status not in (0, 1) or not counted:
        return "no verdict", output[-400:]
    if status == 0:
        return "still proved", edit.function
    goals = sorted(open_goals(output, edit.function))
    if any(is_goal(edit.goal, goal) for goal in goals):
        return "refused", edit.goal
    return "refused elsewhere", f"not {edit.goal}, but {', '.join(goals) or output[-600:]}"
