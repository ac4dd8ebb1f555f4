#!/usr/bin/env python3
"""Shows that the Rust files say what the Rattle files say: `audit.py [-v]`.

Each file of the crates, and of those in tests/units, is held against the `.rs` file that was made from it, token by token. Each difference
has to be of a kind of kinds.txt; the first one that isn't is told with its file, its lines and both tokens. With -v
each difference is told. The exit status is 0 where all is well, else 1.
"""

import sys
from collections import Counter
from pathlib import Path

import rattle_lexer
import rust_lexer
from align import Difference, align
from kinds import Kind, not_told, read_kinds
from messages import Unknown, with_messages
from requires import with_tests

AUDIT = Path(__file__).resolve().parent
ROOT = AUDIT.parent.parent
FOLDERS = ("rust/src/proved", "rust/capi/src/proved", "rust/qstream/src/proved")
KINDS = AUDIT / "kinds.txt"
# The crate of which nothing is made in Rust: an example of a use from Rattle.
RATTLE_ALONE = {"qs_example"}
# Crates that are nothing but tests: they aren't proved, and stand elsewhere, in files of another suffix.
TESTS = {"qs_ends", "qs_tests", "qs_units"}
# The kind of a line that names a module in a file of which nothing is made.
UNMADE_MODULE = "module"
# Crates that only tests use.
FOR_TESTS = {"qs_chunks", *TESTS}


class Refused(Exception):
    """A difference of no listed kind, or a file without its partner."""


def source_of(made, folder):
    """The Rattle file from which a Rust file is made."""
    crate, *inner = made.relative_to(folder).with_suffix("").parts
    place, suffix = (ROOT / "tests" / "units", ".rattle") if crate in TESTS else (ROOT / "crates", ".rt")
    src = place / crate / "src"
    if inner == ["mod"]:
        inner = ["lib" if (src / f"lib{suffix}").is_file() else "main"]
    return src.joinpath(*inner).with_suffix(suffix)


def all_sources():
    """Each Rattle file: those of the crates, and those of their tests."""
    return {*(ROOT / "crates").glob("*/src/**/*.rt"), *(ROOT / "tests" / "units").glob("*/src/**/*.rattle")}


def _words(tokens):
    return [token for token, _line in tokens]


def _stands_in(words, tokens):
    first = words[0]
    return any(token == first and tokens[at:at + len(words)] == words for at, token in enumerate(tokens))


def imported(imports, tokens):
    """The import of the shim's names that a file of these tokens has."""
    words = _words(tokens)
    if words[:5] == ["use", "crate", "::", "shim", "::"]:
        words = words[words.index(";") + 1:]
    names = [name for name, asked in imports if _stands_in(asked, words)]
    if not names:
        return []
    named = names if len(names) == 1 else ["{", *" , ".join(names).split(), "}"]
    return [(word, 1) for word in ["use", "crate", "::", "shim", "::", *named, ";"]]


def _show(tokens, at, lines):
    if at >= len(tokens):
        return "the end of the file"
    token, line = tokens[at]
    return f"line {line}: {token!r} in {lines[line - 1].strip()!r}"


def audit_text(source_text, made_text, listed, crate, names):
    """The differences between two texts, each as a kind with both its places, and both lists of tokens."""
    source_name, made_name = names
    try:
        old = with_tests(with_messages(rattle_lexer.tokens(source_text)))
    except (rattle_lexer.LexError, Unknown) as error:
        raise Refused(f"{source_name}: {error}") from error
    try:
        new = rust_lexer.tokens(made_text)
    except rust_lexer.LexError as error:
        raise Refused(f"{made_name}: {error}") from error
    old = imported(listed.imports, new) + old
    try:
        return align(old, new, listed.kinds, crate), old, new
    except Difference as difference:
        in_old = _show(old, difference.old_at, source_text.split("\n"))
        in_new = _show(new, difference.new_at, made_text.split("\n"))
        raise Refused(
            f"a difference of no listed kind\n  {source_name}: {in_old}\n  {made_name}: {in_new}"
        ) from difference


def audit_made(text, made, folder, listed):
    """The same of the text of a Rust file and the Rattle file that it is made from."""
    source = source_of(made, folder)
    name, source_name = made.relative_to(ROOT), source.relative_to(ROOT)
    if not source.is_file():
        raise Refused(f"{name}: {source_name}, of which it is made, isn't there")
    header = f"// Made from {source_name} by rust/erase; not edited by hand."
    if text.split("\n", 1)[0] != header:
        raise Refused(f"{name}: its first line isn't {header!r}")
    crate = made.relative_to(folder).parts[0]
    used, old, new = audit_text(source.read_text(encoding="utf-8"), text, listed, crate, (source_name, name))
    _check_inlines(used, new, folder == ROOT / FOLDERS[0], name)
    return used, old, new


def _check_inlines(used, new, is_library, name):
    """Each short function of the library that others may call is told to be inlined, and none elsewhere."""
    at = not_told(new) if is_library else None
    if at is not None:
        raise Refused(f"{name}: line {new[at][1]}: a function of few lines that isn't told to be inlined")
    for kind, (_old_at, new_at) in used:
        if kind.name == "inline" and not is_library:
            raise Refused(f"{name}: line {new[new_at][1]}: a function that is told to be inlined outside of the library")


def _end_of_allow(words, listed, name, seen):
    end = words.index(")") if ")" in words else len(words)
    lints = "".join(words[5:end]).split(",")
    if len(lints) > 1 and lints[-1] == "":
        lints.pop()
    for lint in lints:
        if lint not in listed.lints or lint in seen:
            raise Refused(f"{name}: it allows {lint!r}")
        seen.append(lint)
    if words[end:end + 2] != [")", "]"]:
        raise Refused(f"{name}: an attribute of no listed kind")
    return end + 2


def audit_list(text, made, folder, listed):
    """Whether the list of modules names each folder, in order, and has nothing beside but lints that may be allowed.

    The lists of the program and of the calls for C name the library's modules first, each by the path of its file; what only tests use is for tests.
    """
    name = made.relative_to(ROOT)
    words = _words(rust_lexer.tokens(text))
    seen = []
    while words[:5] == ["#", "!", "[", "allow", "("]:
        words = words[_end_of_allow(words, listed, name, seen):]
    library = ROOT / FOLDERS[0]
    expected = []
    for root in [library] if folder == library else [library, folder]:
        for crate in sorted(path.name for path in root.iterdir() if path.is_dir()):
            if root != folder:
                expected += ["#", "[", "path", "=", f'"../../../src/proved/{crate}/mod.rs"', "]"]
            tests = crate in FOR_TESTS
            expected += ["#", "[", "cfg", "(", "test", ")", "]"] if tests else ["pub", "(", "crate", ")"]
            expected += ["mod", crate, ";"]
    if words != expected:
        raise Refused(f"{name}: it isn't the list of the modules that are there")


def audit_unmade(source, listed):
    """Whether a Rattle file of which no Rust file is made has ghosts and modules alone."""
    modules = [Kind(UNMADE_MODULE, ["pub", "mod", "$name", ";"], [], 0)]
    alone = type(listed)()
    alone.kinds = listed.kinds + modules
    names = (source.relative_to(ROOT), "no file")
    return audit_text(source.read_text(encoding="utf-8"), "", alone, source.parent.parent.name, names)


def made_files():
    """Each Rust file that was made, with the folder of its crates."""
    for folder in FOLDERS:
        for made in sorted((ROOT / folder).rglob("*.rs")):
            yield made, ROOT / folder


def audit_file(text, made, folder, listed):
    """The differences of a Rust file of that text: as `audit_made`, or none of the list of modules."""
    if made.parent == folder:
        audit_list(text, made, folder, listed)
        return [], [], []
    return audit_made(text, made, folder, listed)


class Tally:
    """What was found so far."""

    def __init__(self, told):
        self.told = told
        self.counts = Counter()
        self.files = 0
        self.same = 0
        self.tests = 0
        self.faults = []

    def add(self, used, old, new, name):
        self.files += 1
        for kind, (old_at, new_at) in used:
            self.counts[kind.name] += 1
            if self.told:
                lines = [str(tokens[at][1]) if at < len(tokens) else "end" for tokens, at in ((old, old_at), (new, new_at))]
                print(f"{name}: {kind.name}, line {lines[0]} there and {lines[1]} here")
        self.same += len(new)
        self.tests += _words(new).count("debug_assert")

    def add_unmade(self, used):
        self.counts.update(kind.name for kind, _places in used if kind.name != UNMADE_MODULE)


def main(arguments):
    listed = read_kinds(KINDS)
    tally = Tally("-v" in arguments)
    sources = set()
    for made, folder in made_files():
        try:
            sources.add(source_of(made, folder))
            tally.add(*audit_file(made.read_text(encoding="utf-8"), made, folder, listed), made.relative_to(ROOT))
        except Refused as refused:
            tally.faults.append(str(refused))
    for source in sorted(all_sources() - sources):
        if source.relative_to(ROOT).parts[1] in RATTLE_ALONE:
            continue
        try:
            tally.add_unmade(audit_unmade(source, listed)[0])
        except Refused as refused:
            tally.faults.append(f"no Rust file is made of this one: {refused}")
    for kind in listed.kinds:
        if not tally.counts[kind.name] and not tally.faults:
            tally.faults.append(f"kinds.txt:{kind.line}: nothing is of the kind {kind.name}")
    for name, count in sorted(tally.counts.items(), key=lambda entry: (-entry[1], entry[0])):
        print(f"{count:6} {name}")
    print(f"{tally.tests:6} tests of what contracts ask of numbers")
    for fault in tally.faults:
        print(fault)
    for name, count in (
        ("files", tally.files),
        ("tokens", tally.same),
        ("differences", sum(tally.counts.values())),
        ("kinds", len(tally.counts)),
        ("tests", tally.tests),
    ):
        print(f"figure audit_{name} {count}")
    print(f"{tally.files} passed, {len(tally.faults)} failed")
    return 1 if tally.faults or tally.files == 0 else 0


if __name__ == "__main__":
    sys.exit(main(sys.argv[1:]))
