"""Finds the function whose body contains a given text of a crate. It relies on the layout that `rt fmt` writes."""
import os
import re

import tree

FUNCTION = re.compile(r"^(?P<indent> *)(?:pub(?:\(crate\))? )?(?:const )?fn (?P<name>\w+)")
BLOCK = re.compile(
    r"^impl(?:<(?P<given>[^{]*?)>)? (?:(?:\w+::)*(?P<trait>\w+)(?:<(?P<by>[^{]*)>)? for )?(?P<type>\w+)(?:<(?P<of>[^{]*)>)?"
)
ENDS = re.compile(r"^[)\w].*\{$")  # the last line of a function's head, if the head has several lines


def head_ends(lines, at, indent):
    """Returns the line number at which the body begins, for the function that begins at line `at`; None if it has no body."""
    for number in range(at, len(lines)):
        line = lines[number]
        own = line.startswith(indent) and not line[len(indent) :].startswith(" ")
        if own and line.endswith((";", "{}")):
            return None
        if own and (line == f"{indent}{{" or line.endswith("{") and (number == at or ENDS.match(line[len(indent) :]))):
            return number
    return None


def owner_of(block):
    """Returns the type and the trait of an impl block as the prover writes them: the type of a block without a trait with its arguments
    unless all are parameters, the trait with its arguments, but not with theirs."""
    given = re.findall(r"(?:^|, )(?:const )?(\w+)", re.sub(r"<[^<>]*>", "", block["given"] or ""))
    of = [] if block["trait"] else re.findall(r"(?<!')\b\w+", block["of"] or "")
    by = re.findall(r"(?<!')\b\w+", re.sub(r"<[^<>]*>", "", block["by"] or ""))
    return "+".join([block["type"], *(of if set(of) - set(given) else [])]) + "".join([block["trait"] or "", *by, "::"])


def heads(text):
    """Yields for each function the number of its first line, its indentation, and its name, qualified by its type and trait."""
    owner = ""
    for at, line in enumerate(text.split("\n")):
        block, function = BLOCK.match(line), FUNCTION.match(line)
        if block:
            owner = owner_of(block)
        elif line == "}":
            owner = ""
        elif function:
            yield at, function["indent"], owner + function["name"]


def bodies(text):
    """Yields for each body its first and last line numbers and the function's name, qualified by its type and trait."""
    lines = text.split("\n")
    for at, indent, name in heads(text):
        first = head_ends(lines, at, indent)
        if first is not None:
            yield first, lines.index(f"{indent}}}", first), name


def function_at(room, file, old):
    """Returns the function whose body contains the text `old` of a file, as a suffix of its name in a check; else None."""
    if not file.startswith("src/") or not file.endswith(".rt") or not os.path.isfile(f"{room}/{file}"):
        return None
    text = tree.read(f"{room}/{file}")
    first = text.count("\n", 0, text.find(old))
    last = first + old.strip("\n").count("\n")
    found = [name for begin, end, name in bodies(text) if begin < first and last < end]
    if not found:
        return None
    return in_module(file, found[-1])


def in_module(file, name):
    """Returns the name of a function of a file with its module, unless it has its type."""
    module = "".join(f"{part}::" for part in file[len("src/") : -len(".rt")].split("/") if part not in ("lib", "main"))
    return name if "::" in name else module + name


def is_import(text):
    """Returns whether a line of an edit is an import, which changes no function by itself."""
    return text.startswith("use ") and text.endswith(";")


def functions_of(room, edit):
    """Returns the functions that an edit changes; the empty set if it also changes text outside of bodies that is no import."""
    found = {function_at(room, file, old) for file, old, new in edit.changes if not (is_import(old) and is_import(new))}
    return frozenset() if None in found else frozenset(found)


def in_batches(functions, most):
    """Groups edits into batches of at most `most`. No two edits of a batch change the same function."""
    found = []
    for edit, own in functions.items():
        fits = (it for it in found if len(it) < most and not any(own & functions[other] for other in it))
        batch = next(fits, None)
        if batch is None:
            found.append(batch := [])
        batch.append(edit)
    return found
