#!/usr/bin/env python3
"""Changes one token, or drops one statement, of the Rust files, and sees that the audit refuses each change.

    mutants.py [--seed S] [--count N]      the audit reads each changed text; no file is touched
    mutants.py .. --library                of the library's files alone
    mutants.py .. --tests                  of the tests of what contracts ask of numbers alone
    mutants.py .. --inlines                of what tells short functions to be inlined alone: it goes, says something else, or stands
                                           before another item
    mutants.py .. --run 'COMMAND'          each change is written into its file, the command is run in `rust/`, and the
                                           file is put back; told is how many changes the command failed on.
                                           For a copy of the repository.

The last line is `N passed, M failed`: how many changes were refused, and how many weren't.
"""

import argparse
import random
import subprocess
import sys
from collections import Counter

import rust_lexer
from audit import FOLDERS, KINDS, ROOT, Refused, audit_file, made_files
from kinds import read_kinds

_SWAPS = {
    "+": "-", "-": "+", "*": "+", "/": "*", "%": "/", "<": "<=", "<=": "<", ">": ">=", ">=": ">", "==": "!=", "!=": "==",
    "&&": "||", "||": "&&", "+=": "-=", "-=": "+=", "..": "..=", "..=": "..", "&": "|", "|": "&", "<<": ">>", ">>": "<<",
    "true": "false", "false": "true", "min": "max", "max": "min", "Some": "None", "Ok": "Err", "Err": "Ok", "!": "-",
}


def _changed_literal(token):
    if token.startswith('"'):
        return token[:-1] + 'x"'
    if token.startswith("0x"):
        return "0x1" + token[2:]
    return str(int(token.replace("_", "")) + 1) if token.replace("_", "").isdigit() else None


def _is_word(token):
    return token[0].isalpha() or token[0] == "_"


def _operator(tokens, at, _draw):
    return _SWAPS.get(tokens[at])


def _literal(tokens, at, _draw):
    return _changed_literal(tokens[at])


def _identifier(tokens, at, draw):
    words = sorted({token for token in tokens if _is_word(token)} - {tokens[at]})
    return draw.choice(words) if _is_word(tokens[at]) and words else None


def _deletion(_tokens, _at, _draw):
    return ""


_CHANGES = {"operator": _operator, "literal": _literal, "identifier": _identifier, "deletion": _deletion}


# The places from behind one `;`, `{` or `}` to the next `;`, where no bracket opens or closes between them.
def _statement(tokens, at):
    start = at
    while start > 0 and tokens[start - 1] not in (";", "{", "}"):
        start -= 1
    end = at
    while end < len(tokens) and tokens[end] not in (";", "{", "}"):
        end += 1
    if end < len(tokens) and tokens[end] == ";" and end > start:
        return start, end
    return None


# The places of the tokens that may change: all of them, or those of the tests `debug_assert!(..);`.
def _places(text, spans, only_tests):
    if not only_tests:
        return range(len(spans))
    places, is_test = [], False
    for at, (start, end, _line) in enumerate(spans):
        is_test = is_test or text[start:end] == "debug_assert"
        if is_test:
            places.append(at)
        is_test = is_test and text[start:end] != ";"
    return places


def mutant(files, draw):
    """A file, the text that a change makes of it, and the change in words. Each kind is as likely as any other."""
    kind = draw.choice([*_CHANGES, "statement"])
    while True:
        made, folder, text, spans, places = draw.choice(files)
        at = draw.choice(places)
        tokens = [text[start:end] for start, end, _line in spans]
        start, end, line = spans[at]
        if kind == "statement":
            found = _statement(tokens, at)
            if found is None:
                continue
            start, line = spans[found[0]][0], spans[found[0]][2]
            end = spans[found[1]][1]
            new = ""
        else:
            new = _CHANGES[kind](tokens, at, draw)
            if new is None:
                continue
        old = text[start:end]
        told = f"{made.relative_to(ROOT)}:{line}: {kind}: {' '.join(old.split())!r} -> {new!r}"
        return made, folder, text[:start] + new + text[end:], kind, told


_INLINE = ["#", "[", "inline", "]"]
_OTHERS = ["", "#[inline(always)]", "#[inline(never)]", "#[cold]", "#[test]", "#[inline] #[inline]"]
_ITEMS = {"struct", "enum", "impl", "trait", "use", "mod", "const", "let", "return"}


def mutant_of_inlines(files, draw):
    """The same of an attribute `#[inline]`: it is changed, or one more stands before an item that is no short function."""
    while True:
        made, folder, text, spans, _places_of_all = draw.choice(files)
        tokens = [text[start:end] for start, end, _line in spans]
        if draw.choice([True, False]):
            found = [at for at in range(len(tokens)) if tokens[at:at + 4] == _INLINE]
            kind, new = "attribute", draw.choice(_OTHERS)
        else:
            found = [at for at, token in enumerate(tokens) if token in _ITEMS and tokens[at + 1] != "fn"]
            kind, new = "item", "#[inline] "
        if not found:
            continue
        at = draw.choice(found)
        start, _end, line = spans[at]
        end = spans[at + 3][1] if kind == "attribute" else start
        told = f"{made.relative_to(ROOT)}:{line}: {kind}: {text[start:end]!r} -> {new!r}"
        return made, folder, text[:start] + new + text[end:], kind, told


def _fails(command, made, changed):
    before = made.read_bytes()
    made.write_text(changed, encoding="utf-8")
    try:
        done = subprocess.run(command, shell=True, cwd=ROOT / "rust", capture_output=True, check=False, timeout=600)
        return done.returncode != 0
    except subprocess.TimeoutExpired:
        return True
    finally:
        made.write_bytes(before)


def _is_refused(made, folder, changed, listed):
    try:
        audit_file(changed, made, folder, listed)
    except (Refused, rust_lexer.LexError):
        return True
    return False


def main():
    parser = argparse.ArgumentParser()
    parser.add_argument("--seed", type=int, default=1)
    parser.add_argument("--count", type=int, default=12)
    parser.add_argument("--library", action="store_true")
    parser.add_argument("--tests", action="store_true")
    parser.add_argument("--inlines", action="store_true")
    parser.add_argument("--run")
    options = parser.parse_args()
    draw = random.Random(options.seed)
    listed = read_kinds(KINDS)
    texts = [(made, folder, made.read_text(encoding="utf-8")) for made, folder in made_files()]
    # Files by their length, so that each token is as likely as any other.
    files = []
    for made, folder, text in texts:
        if options.library and folder != ROOT / FOLDERS[0]:
            continue
        spans = rust_lexer.spans(text)
        places = _places(text, spans, options.tests)
        files += [(made, folder, text, spans, places)] * ((len(places) + 499) // 500)
    refused, kinds = 0, Counter()
    for _ in range(options.count):
        made, folder, changed, kind, told = (mutant_of_inlines if options.inlines else mutant)(files, draw)
        kinds[kind] += 1
        if options.run:
            failed = _fails(options.run, made, changed)
        else:
            failed = _is_refused(made, folder, changed, listed)
        refused += failed
        if options.run or not failed:
            print(f"{'refused' if failed else 'NOT REFUSED'}: {told}", flush=True)
    print(", ".join(f"{count} {kind}" for kind, count in sorted(kinds.items())))
    print(f"{refused} passed, {options.count - refused} failed")
    return 1 if refused < options.count and not options.run else 0


if __name__ == "__main__":
    sys.exit(main())
