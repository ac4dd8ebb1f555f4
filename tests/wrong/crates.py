"""A crate as tests/wrong/run sees it: its wrong bodies, and the functions of its sources by the names that a check prints."""

import dataclasses
import functools
import hashlib
import pathlib
import re

FUNCTION = re.compile(r"^([ \t]*)(?:pub(?:\([^)]*\))? )?(?:const )?(?:unsafe )?(?:extern \"C\" )?fn (\w+)", re.M)
IMPL = re.compile(r"^impl\b\s*(?:<[^{]*?>\s*)?(?:([\w:]+)(?:<(\w*)[^{]*?>)? for )?([\w:]+)", re.M)
TYPE = re.compile(r"^(?:pub(?:\([^)]*\))? )?(?:struct|enum) (\w+)", re.M)
TRAIT = re.compile(r"^(?:pub(?:\([^)]*\))? )?trait \w+[^}]*?\{.*?^\}", re.M | re.S)


def module_of(path):
    parts = re.sub(r"(/mod)?\.rt$", "", path).split("/")[1:]
    return [] if parts in (["lib"], ["main"]) else parts


def path_of(function):
    return pathlib.Path(*function.split("::")[1:])


def last(path):
    return (path or "").split("::")[-1]


class Functions:
    """Those of the files below a crate's src/. What a name isn't found of here, such as a derived method, goes without."""

    def __init__(self, crate, folder):
        self.texts = {str(it.relative_to(folder)): it.read_text() for it in sorted((folder / "src").rglob("*.rt"))}
        homes = {it[1]: module_of(path) for path, text in self.texts.items() for it in TYPE.finditer(text)}
        self.found = []  # of (file, place, name)
        for path, text in self.texts.items():
            impls = [(it.start(), last(it[3]), last(it[1]) + (it[2] or "")) for it in IMPL.finditer(text)]
            traits = [it.span() for it in TRAIT.finditer(text)]
            for it in FUNCTION.finditer(text):
                if any(start < it.start() < end for start, end in traits):
                    continue
                parts, above = [*module_of(path), it[2]], [of for of in impls if of[0] < it.start()]
                if it[1] and above:
                    # a method goes by its type's module, whichever file it stands in
                    _, of, by = above[-1]
                    parts = [*homes.get(of, module_of(path)), of + by, it[2]]
                self.found.append((path, it.start(), "::".join([crate, *parts])))

    def names(self):
        return [name for _, _, name in self.found]

    def lines_of(self, function):
        """The file of a function, and its lines up to the next function's."""
        path, start = next((file, at) for file, at, name in self.found if name == function)
        text = self.texts[path]
        end = min([at for file, at, _ in self.found if file == path and at > start], default=len(text))
        return path, range(text.count("\n", 0, start) + 1, text.count("\n", 0, end) + 2)

    def with_bodies_of(self, kept, path, text):
        """The text of a file in which only these functions have their bodies; each line stays where it is. (By the layout of `rt fmt` a body
        stands between two lines of its own, or its first line ends the signature.)"""
        lines = text.split("\n")
        begins = [(self.texts[path].count("\n", 0, at), name) for file, at, name in self.found if file == path]
        for (first, name), (last, _) in zip(begins, [*begins[1:], (len(lines), "")]):
            indent = re.match(" *", lines[first])[0]
            opens = [k for k in range(first, last) if re.match(rf"{indent}(\{{|\S.* \{{)$", lines[k])]
            ends = [k for k in range(first, last) if lines[k] == indent + "}"]
            if name not in kept and opens and ends and opens[0] + 1 < ends[0]:
                lines[opens[0] + 1 : ends[0]] = ["unreachable!()", *[""] * (ends[0] - opens[0] - 2)]
        return "\n".join(lines)

    def changed_by(self, path, old):
        """The function in which a text of a file stands; of a text before the first function, all of that file."""
        place, of_file = self.texts[path].find(old), [(at, name) for file, at, name in self.found if file == path]
        return [name for at, name in of_file if at <= place][-1:] or [name for _, name in of_file]


@dataclasses.dataclass
class Edit:
    name: str
    changes: list  # of (path, old, new)
    functions: frozenset  # those that it changes, by the prover's names
    bad: str  # why it can't be applied


class Crate:
    """A crate of the repository at root, by its line of crates.txt."""

    def __init__(self, root, line):
        head, _, used = line.partition(":")
        self.name, self.kind, self.uses = head.split()[0], head.split()[1:], used.split()
        self.folder = root / "crates" / self.name
        self.rlib = self.folder / "out/rlib" / f"{self.name}.rlib"

    @functools.cached_property
    def functions(self):
        return Functions(self.name, self.folder)

    def files(self):
        return sorted(it for part in ("src", "specs", "proofs") for it in (self.folder / part).rglob("*") if it.is_file())

    @functools.cached_property
    def sum(self):
        told = hashlib.sha256(repr((self.name, self.kind, self.uses)).encode())
        for it in self.files():
            told.update(repr((str(it.relative_to(self.folder)), it.read_bytes())).encode())
        return told.hexdigest()

    def is_built(self):
        return (self.rlib / "format").exists() and all(it.stat().st_mtime <= self.rlib.parent.stat().st_mtime for it in self.files())

    def why_not(self, path, old, new):
        """Why a change can't be made, or nothing."""
        file = self.folder / path
        count = file.read_text().count(old) if path.startswith("src/") and file.is_file() and old else 0
        return f"an 'old:' text stands in '{path}' {count} times, and not once" if count != 1 else "it changes nothing" * (old == new)

    def edit(self, name, text):
        changes, path, old = [], "", ""
        for line in text.splitlines():
            if line.startswith("file: "):
                path = line[6:].strip()
            elif line.startswith("old: "):
                old = line[5:]
            elif line.startswith("new:"):
                changes.append((path, old, line[4:].removeprefix(" ")))
        bad = [why for why in (self.why_not(*it) for it in changes) if why] or ["it has no 'old:' and 'new:' pair"] * (not changes)
        functions = [] if bad else [name for path, old, _ in changes for name in self.functions.changed_by(path, old)]
        return Edit(name, changes, frozenset(functions), "".join(bad[:1]))

    def edits(self):
        """Those of its file wrong.edits, each below a line `## NAME`."""
        file = self.folder / "wrong.edits"
        parts = re.split(r"^## (\w+)\n", file.read_text() if file.is_file() else "", flags=re.M)[1:]
        return [self.edit(name, text) for name, text in zip(parts[::2], parts[1::2])]
