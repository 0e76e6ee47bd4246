"""Checks the text of a crate by the prover, without `rt`, over the libraries of the repository."""
import os
import shutil
import subprocess
import sys

import tree

KIT = os.path.dirname(subprocess.run(["rt", "doc"], capture_output=True, text=True, check=True).stdout.strip())
LANES = int(os.environ.get("RT_JOBS", min(2, os.cpu_count())))  # the number of checks at a time


def is_proved_by_ci(root, name):
    """Returns whether `rt ci` made the library of this crate from its current text. Unlike `rt lib` it writes no stamp next to it."""
    library = f"{root}/crates/{name}/out/rlib/{name}.rlib"
    if not os.path.isdir(library) or os.path.exists(f"{root}/crates/{name}/out/rlib/stamp"):
        return False
    made = os.stat(library).st_mtime
    folders = [f"{root}/crates/{name}/{part}" for part in tree.PARTS]
    files = [f"{at}/{file}" for folder in folders for at, _, found in os.walk(folder) for file in found]
    return all(os.stat(file).st_mtime <= made for file in files)


def link(one, other):
    """Copies a file of stored results. A check replaces files of results and never changes one, so a link suffices for these."""
    return os.link(one, other) if one.endswith(".oantt") else shutil.copy2(one, other)


class Prover:
    """The prover over the libraries of a tree."""

    def __init__(self, root):
        self.root = root
        self.crates = tree.crates(root)
        self.prefix = ()  # words before the command of a check, such as `nice`

    def is_proved(self, name):
        """Returns whether `rt ci` has proved the current text of a crate and of all below it."""
        return all(is_proved_by_ci(self.root, it) for it in [name, *tree.below(self.crates, name)])

    def make_libraries(self, crates):
        """Makes the libraries of these crates and of all below by `rt lib`, unless `rt ci` left them. Returns those that failed."""
        low = tree.lowest_first(self.crates, crates)
        if all(is_proved_by_ci(self.root, it) for it in low):
            return []
        print(f"rt lib makes the libraries that are missing or out of date: {' '.join(low)}", file=sys.stderr, flush=True)
        made = {it: subprocess.run(["rt", "lib"], cwd=f"{self.root}/crates/{it}", capture_output=True) for it in low}
        return [it for it in low if made[it].returncode]

    def words(self, room, name, over):
        """Returns the arguments of rattle that check a crate in the folder `room`, with its tests, over the libraries of the crates `over`."""
        file = "src/main.rt" if os.path.isfile(f"{room}/src/main.rt") else "src/lib.rt"
        given = ["--crate-name", name, file, *(["--test"] if "#[cfg(test)]" in tree.read(f"{room}/{file}") else [])]
        for it in ["std", *[it for it in over if it not in self.crates]]:
            given += ["--extern", f"{it}={KIT}/rlibs/{it}.rlib"]
        given += ["-L", f"dependency={KIT}/rlibs"]
        for it in over:
            if it in self.crates:
                given += ["--extern", f"{it}={self.root}/crates/{it}/out/rlib/{it}.rlib"]
        for it in tree.lowest_first(self.crates, over):
            given += ["-L", f"dependency={self.root}/crates/{it}/out/rlib"]
        logic = ["--antt-project", f"{KIT}/rattle/logic/antt-project.json", "--logic-built", f"{KIT}/logic_built"]
        kind = ["--crate-type", "staticlib"] if tree.is_static(name, self.root) else []
        return [*given, *logic, *kind, "--jobs", "1", "--links", f"{name}="]

    def check(self, room, name, functions, kept=None, over=None):
        """Proves these functions of a crate in the folder `room`, from stored results in `kept`. Returns the status and the output."""
        words = self.words(room, name, self.crates[name] if over is None else over)
        words += [word for function in functions for word in ("--only", function)]
        words += ["--incremental", kept] if kept else []
        how = {"stdin": subprocess.DEVNULL, "stdout": subprocess.PIPE, "stderr": subprocess.STDOUT}
        ran = subprocess.run([*self.prefix, f"{KIT}/bin/rattle", "check", *words], cwd=room, text=True, errors="replace", **how)
        return ran.returncode, ran.stdout
