"""The repository as tests/wrong/run sees it: its crates, the kit that checks them, and the gate that builds their libraries."""

import hashlib
import os
import pathlib
import re
import shutil
import subprocess
import sys
import tempfile

from crates import Crate

HOW = "by its own function, 2"  # how an edit is judged: another number where that changes
KEPT = pathlib.Path(os.environ.get("XDG_CACHE_HOME") or pathlib.Path.home() / ".cache") / "gotsavena/wrong"


class Gate:
    """A run of `rt ci`, or none: its file has what it says, and with .status at its end there is one more once it ended."""

    def __init__(self, file=""):
        self.file = file

    def goes_on(self):
        return self.file != "" and not os.path.exists(self.file + ".status")

    def built(self):
        """The crates of which it built the libraries, or took them from an earlier run."""
        return set(re.findall(r"^rt: (\w+) (?:is kept|proved)\b", pathlib.Path(self.file).read_text(errors="replace"), re.M))


def link_or_copy(one, other):
    try:
        os.link(one, other)
    except OSError:
        shutil.copy2(one, other)


class Repository:
    """The crates of crates.txt, the kit that checks them, and the gate that builds their libraries meanwhile."""

    def __init__(self, root, gate):
        self.gate, self.room, self.ready = gate, tempfile.TemporaryDirectory(prefix="wrong-libraries-"), set()
        self.kit = pathlib.Path(subprocess.check_output(["rt", "doc"], text=True).strip()).parent
        lines = [it.partition("#")[0] for it in (root / "crates.txt").read_text().splitlines()]
        self.crates = {it.name: it for it in (Crate(root, line) for line in lines if ":" in line)}
        self.own = (HOW, (self.kit / "KIT-ID").read_text())

    def below(self, crate):
        found = []
        for it in (self.crates[name] for name in crate.uses if name in self.crates):
            found += [one for one in [*self.below(it), it] if one not in found]
        return found

    def build_below(self, crate):
        for it in self.below(crate):
            if not self.library(it).exists() and not it.is_built():
                print(f"{crate.name}: building {it.name}, on which it stands", flush=True)
                if subprocess.run(["rt", "lib"], cwd=it.folder, stdin=subprocess.DEVNULL, stdout=sys.stderr, check=False).returncode:
                    sys.exit(f"tests/wrong/run: {it.name}, on which {crate.name} stands, isn't proved")

    def is_ready(self, crate):
        """Whether the libraries below a crate are there; where no gate goes on they are built now. Their files get names of ours, too,
        since a gate gives back at its end what it found, which may be older."""
        if crate.name in self.ready:
            return True
        below = self.below(crate)
        if not self.gate.goes_on():
            self.build_below(crate)
        elif not {it.name for it in below} <= self.gate.built():
            return False
        for it in below:
            if not self.library(it).parent.exists():
                shutil.copytree(it.rlib.parent, self.library(it).parent, copy_function=link_or_copy)
        self.ready.add(crate.name)
        return True

    def library(self, crate):
        return pathlib.Path(self.room.name) / crate.name / crate.rlib.name

    def check(self, crate):
        """The words of a check by one job of the crate in the folder in which it is called."""
        root = "main" if (crate.folder / "src/main.rt").exists() else "lib"
        words = [self.kit / "bin/rattle", "check", "--crate-name", crate.name, f"src/{root}.rt", "--jobs", "1"]
        words += ["--extern", f"std={self.kit}/rlibs/std.rlib", "-L", f"dependency={self.kit}/rlibs"]
        for name in crate.uses:
            words += ["--extern", f"{name}={self.library(self.crates[name]) if name in self.crates else self.kit / f'rlibs/{name}.rlib'}"]
        for it in self.below(crate):
            words += ["-L", f"dependency={self.library(it).parent}"]
        words += ["--crate-type", "staticlib"] * ("staticlib" in crate.kind)
        words += ["--antt-project", self.kit / "rattle/logic/antt-project.json", "--logic-built", self.kit / "logic_built"]
        return [*map(str, words), "--links", f"{crate.name}="]

    def place(self, crate, edit):
        """Where the verdict on an edit is kept: its name is the sum of all that it stands on."""
        sums = [self.own, crate.sum, *[it.sum for it in self.below(crate)], edit.changes]
        return KEPT / hashlib.sha256(repr(sums).encode()).hexdigest()
