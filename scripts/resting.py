"""Says what functions of a crate rest on: the lines of their proofs, and the definitions that their contracts import."""
import functools
import glob
import itertools
import os
import re

import bodies
import tree


def files_of(room, module):
    """Returns the files of `proofs` that hold a module: its own, or for one that the prover makes those of its function."""
    own = f"{room}/proofs/{module}.antt"
    return [own] if os.path.isfile(own) else glob.glob(f"{room}/proofs/{os.path.dirname(module)}/*.antt")


@functools.cache
def imported(name, room, path):
    """Returns the files of `proofs` that a file of a crate imports."""
    modules = re.findall(rf"^use Rattle\.{name}\.proofs\.([\w.+]+?)(?:\.\{{|\s|$)", tree.read(path), re.MULTILINE)
    return {file for module in modules for file in files_of(room, module.replace(".", "/"))}


@functools.cache
def lines_below(name, room, function):
    """Returns the number of lines of the proof of a function and of all that it imports, in the folder `room` of its crate."""
    found, left = set(), files_of(room, f"{function.replace('::', '/')}/Answers")
    while left:
        path = left.pop()
        if path not in found:
            found.add(path)
            left.extend(imported(name, room, path))
    return sum(tree.read(path).count("\n") for path in found)


def functions_over(name, room, file):
    """Returns the functions whose contracts name a definition that they import from a file of `specs`; none for another file."""
    module = file.removeprefix("specs/").removesuffix(".antt").replace("/", ".")
    uses = re.compile(rf"^ghost use Rattle\.{name}\.specs\.{re.escape(module)}\.\{{(.*)\}};$", re.MULTILINE)
    found = set()
    for path in glob.glob(f"{room}/src/**/*.rt", recursive=True) if file.startswith("specs/") else ():
        text = tree.read(path)
        names = {it.strip() for given in uses.findall(text) for it in given.split(",")}
        lines, own = text.split("\n"), path.removeprefix(f"{room}/")
        heads = [*bodies.heads(text)]
        for (at, _, function), (end, _, _) in zip(heads, [*heads[1:], (len(lines), "", "")]):
            clauses = itertools.takewhile(lambda it: it.strip() not in ("{", "{}"), lines[at:end])
            if names & set(re.findall(r"\w+", " ".join(clauses))):
                found.add(bodies.in_module(own, function))
    return found
