"""Functions that the scripts share: the crates of a tree, the edits of a crate, and copies of a tree."""
import functools
import os
import re
import shutil
import subprocess
from dataclasses import dataclass

ROOT = os.path.dirname(os.path.dirname(os.path.abspath(__file__)))
PARTS = ("src", "specs", "proofs")  # the folders of a crate that the prover reads
TALLY = re.compile(r"(\d+) passed, (\d+) failed")


class Unfit(Exception):
    """An edit that cannot be read, or does not apply."""


def read(path):
    with open(path, encoding="utf-8") as it:
        return it.read()


def write(path, text):
    os.makedirs(os.path.dirname(path), exist_ok=True)
    with open(path, "w", encoding="utf-8") as it:
        it.write(text)


def listed(text):
    """Returns each crate of the text of a crates.txt with its dependencies, in order."""
    lines = (line.split("#")[0].strip() for line in text.splitlines())
    named = (line.partition(":") for line in lines if line)
    return {name.split()[0]: low.split() for name, _, low in named}


def crates(root=ROOT):
    return listed(read(f"{root}/crates.txt"))


def is_static(name, root=ROOT):
    """Returns whether crates.txt lists a crate as a static library."""
    return any(line.partition(":")[0].split() == [name, "staticlib"] for line in read(f"{root}/crates.txt").splitlines())


def lowest_first(known, names):
    """Returns these crates and all their dependencies, lower crates first."""
    found = []
    for name in names:
        if name in known:
            found += [it for it in [*lowest_first(known, known[name]), name] if it not in found]
    return found


def below(known, name):
    """Returns all crates on which a crate depends."""
    return lowest_first(known, known[name])


def above(known, names):
    """Returns the crates that depend on one of these."""
    return [name for name in known if any(low in names for low in below(known, name))]


def paths(known):
    """Returns the number of paths through crates.txt that begin at each crate, including the path that ends there.

    When `rt` makes a checksum of a crate, it reads the files of each crate below once for each path to it.
    """
    @functools.cache
    def count(name):
        return 1 + sum(count(low) for low in known[name] if low in known)

    return {name: count(name) for name in known}


def only_known(names, known):
    """Returns these names, or all crates if there are no names. A name that is no crate ends the script."""
    for name in names:
        if name not in known:
            raise SystemExit(f"{name} is no crate of crates.txt")
    return names or [*known]


@dataclass(frozen=True)
class Edit:
    """A change of a crate's text: old and new texts by file, and the function and the goal that must refuse it."""

    crate: str
    name: str
    changes: tuple
    function: str = ""
    goal: str = ""

    def apply(self, room):
        """Changes the text of the crate in this folder."""
        for file, old, new in self.changes:
            if not os.path.isfile(f"{room}/{file}"):
                raise Unfit(f"there is no file {file}")
            text = read(f"{room}/{file}")
            if text.count(old) != 1:
                raise Unfit(f"an old text occurs {text.count(old)} times in {file}, not once: {old.strip()}")
            write(f"{room}/{file}", text.replace(old, new))


def read_edit(crate, path):
    """Reads the edit in a file."""
    file, old, changes, words = None, None, [], {}
    for line in read(path).splitlines():
        key, _, rest = line.partition(":")
        rest = rest.removeprefix(" ")
        if key == "file":
            file = rest.strip()
        elif key == "old":
            old = rest
        elif key == "new" and file and old:
            changes.append((file, old, rest))
            old = None
        elif key in ("function", "goal") and rest.strip():
            words[key] = rest.strip()
        else:
            raise Unfit(f"an unknown line: {line}")
    if not changes or old is not None:
        raise Unfit("it has no pair of an old and a new text, or an incomplete one")
    return Edit(crate, name_of(path), tuple(changes), **words)


def name_of(path):
    """Returns the name of the edit in a file."""
    return os.path.basename(path).removesuffix(".edit")


def edits_in(folder):
    """Returns the files of the edits in a folder, in the order of their names."""
    names = sorted(os.listdir(folder)) if os.path.isdir(folder) else []
    return [f"{folder}/{name}" for name in names if name.endswith(".edit")]


def copy_crate(name, room, root=ROOT):
    """Copies the folders of a crate that the prover reads into a new folder."""
    os.makedirs(room)
    for part in PARTS:
        if os.path.isdir(f"{root}/crates/{name}/{part}"):
            shutil.copytree(f"{root}/crates/{name}/{part}", f"{room}/{part}")


def copy_tree(room, root=ROOT, leave=("edits", "wrong")):
    """Copies the crates and the other files that rt reads, without build results and without the folders `leave`."""
    shutil.copytree(f"{root}/crates", f"{room}/crates", ignore=shutil.ignore_patterns("out", *leave))
    for name in ("crates.txt", "HANDLES"):
        if os.path.isfile(f"{root}/{name}"):
            shutil.copy(f"{root}/{name}", f"{room}/{name}")


def sources():
    """Yields the files from which programs are built."""
    yield f"{ROOT}/crates.txt"
    for name in crates():
        for part in PARTS:
            for folder, _, files in os.walk(f"{ROOT}/crates/{name}/{part}"):
                yield from (f"{folder}/{file}" for file in files)


def build_program(name, *words):
    """Proves and builds the program of a crate by `rt run` if it is missing or a source is newer. That also runs it, with `words`."""
    room = f"{ROOT}/crates/{name}"
    program = f"{room}/out/{name}"
    built = os.path.getmtime(program) if os.path.isfile(program) else 0
    if any(os.path.getmtime(source) > built for source in sources()):
        subprocess.run(["rt", "run", "--", *words], cwd=room, stdin=subprocess.DEVNULL, capture_output=True, check=True)
        os.utime(program)


def tally(output):
    """Returns the numbers of passed and failed checks from the last line of a script's output, or None."""
    lines = output.strip().splitlines()
    found = TALLY.match(lines[-1]) if lines else None
    return (int(found[1]), int(found[2])) if found else None


def report(results):
    """Prints the last line of a script with several checks, and returns its status. No check at all is a failure."""
    passed = sum(map(bool, results))
    print(f"{passed} passed, {len(results) - passed} failed", flush=True)
    return 0 if results and passed == len(results) else 1
