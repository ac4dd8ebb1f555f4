"""The kinds of differences that are allowed, and where one of them stands.

A line of kinds.txt is `NAME: OLD =>> NEW`: the tokens OLD of the Rattle file stand as the tokens NEW in the Rust file.
Tokens are parted by spaces. Beside plain tokens a pattern may have

    $name      one word, the same one wherever the pattern has that name
    %own       the name of the crate that the file is of
    %crate     the name of any crate of the row, `qs_` and a word, the same one in OLD and NEW
    ^          the beginning of the file; it takes no token
    (*)        a parenthesis and all up to its partner; so are [*], {*} and <*>
    {clauses}  one clause or more: `requires`, `ensures`, perhaps a name, and braces
    {ghosts}   braces in which every member is a ghost: `ghost NAME .. ;` with braces in pairs
    %step      a name that begins with `learn_`: a step that only tells the prover a fact
    (shared)   a parenthesis in which nothing is `mut`
    {step}     a statement that is a call of such a step: names, calls and places joined by `.` or `::`, the step's name last, and its semicolon
    **;        all up to the next semicolon that no bracket holds, and it
    {short}    no token: here begins a function of up to 40 lines that has a visibility, behind its attributes
"""

import re

_WORD = re.compile(r"(?:r#)?[A-Za-z_][A-Za-z0-9_]*\Z")
_PAIRS = {"(": ")", "[": "]", "{": "}"}
_CLOSING = set(_PAIRS.values())
_RESERVED = {"ghost", "requires", "ensures"}
_STEP = re.compile(r"learn_[a-z_]+\Z")
_CRATE = re.compile(r"qs_[a-z]+\Z")
# How many lines a function has at most, from its visibility to its closing brace, that is told to be inlined.
_SHORT = 40


def is_word(token):
    """Whether a token is a name or a word of the language."""
    return bool(_WORD.match(token))


class Kind:
    """One line of the list."""

    def __init__(self, name, old, new, line):
        self.name = name
        self.old = old
        self.new = new
        self.line = line


class Listed:
    """What a list has: kinds, imports with the tokens that ask for them, and lints that may be allowed."""

    def __init__(self):
        self.kinds = []
        self.imports = []
        self.lints = []


def read_kinds(path):
    """What the list of that name has, in its order."""
    listed = Listed()
    kinds = listed.kinds
    with open(path, encoding="utf-8") as lines:
        for number, text in enumerate(lines, 1):
            text = text.rstrip("\n")
            if not text.strip() or text.startswith("#"):
                continue
            name, found, rest = text.partition(": ")
            if name.startswith("import "):
                listed.imports.append((name.split()[1], rest.split()))
                continue
            if name == "allow":
                listed.lints += rest.split()
                continue
            old, arrow, new = f" {rest} ".partition(" =>> ")
            if not found or not arrow:
                raise SystemExit(f"{path}:{number}: no kind: {text}")
            kinds.append(Kind(name, old.split(), new.split(), number))
    names = [kind.name for kind in kinds]
    for name in names:
        if names.count(name) > 1:
            raise SystemExit(f"{path}: two kinds are named {name}")
    return listed


def end_of_group(tokens, at, opening):
    """The place behind the partner of the bracket that stands at a place, or None."""
    if at >= len(tokens) or tokens[at][0] != opening:
        return None
    open_ones = []
    while at < len(tokens):
        token = tokens[at][0]
        if token in _PAIRS:
            open_ones.append(_PAIRS[token])
        elif token in _CLOSING:
            if not open_ones or open_ones.pop() != token:
                return None
        at += 1
        if not open_ones:
            return at
    return None


def end_of_angles(tokens, at):
    """The place behind the partner of the `<` that stands at a place, or None."""
    if at >= len(tokens) or tokens[at][0] != "<":
        return None
    depth = 0
    while at < len(tokens):
        token = tokens[at][0]
        if token == "<":
            depth += 1
        elif token == ">":
            depth -= 1
        elif token == ">>":
            depth -= 2
        elif token in (";", "{", "}"):
            return None
        at += 1
        if depth <= 0:
            return at if depth == 0 else None
    return None


def _end_of_statement(tokens, at):
    while at < len(tokens):
        token = tokens[at][0]
        if token in _PAIRS:
            at = end_of_group(tokens, at, token)
            if at is None:
                return None
            continue
        if token in _CLOSING:
            return None
        at += 1
        if token == ";":
            return at
    return None


def _end_of_ghosts(tokens, at):
    end = end_of_group(tokens, at, "{")
    if end is None:
        return None
    at += 1
    while at < end - 1:
        if tokens[at][0] != "ghost":
            return None
        at = _end_of_statement(tokens, at)
        if at is None or at > end - 1:
            return None
    return end


def _end_of_clauses(tokens, at):
    end = None
    while at < len(tokens) and tokens[at][0] in ("requires", "ensures"):
        at += 1
        if at < len(tokens) and tokens[at][0] == "*":
            at += 1
        if at < len(tokens) and _WORD.match(tokens[at][0]):
            at += 1
        at = end_of_group(tokens, at, "{")
        if at is None:
            return None
        end = at
    return end


def _end_of_shared(tokens, at):
    end = end_of_group(tokens, at, "(")
    if end is None or any(token == "mut" for token, _line in tokens[at:end]):
        return None
    return end


def _end_of_step(tokens, at):
    """The place behind a statement that is a call of a step, or None."""
    if at == 0 or tokens[at - 1][0] not in (";", "{", "}"):
        return None
    while at < len(tokens) and _WORD.match(tokens[at][0]):
        name = tokens[at][0]
        at += 1
        while at < len(tokens) and tokens[at][0] in ("(", "["):
            is_call = tokens[at][0] == "("
            at = end_of_group(tokens, at, tokens[at][0])
            if at is None:
                return None
            if is_call and _STEP.match(name):
                return at + 1 if at < len(tokens) and tokens[at][0] == ";" else None
        if at >= len(tokens) or tokens[at][0] not in (".", "::"):
            return None
        at += 1
    return None


def _end_of_body(tokens, at):
    """The place behind the body of a function whose name stands at a place, or None where it has none."""
    while at < len(tokens) and tokens[at][0] not in ("{", ";"):
        at = end_of_group(tokens, at, tokens[at][0]) if tokens[at][0] in ("(", "[") else at + 1
        if at is None:
            return None
    return end_of_group(tokens, at, "{")


def begins_short(tokens, at):
    """Whether a function of few lines that others may call begins here, behind its attributes."""
    first = at
    if at >= len(tokens) or tokens[at][0] != "pub":
        return False
    at += 1
    if at < len(tokens) and tokens[at][0] == "(":
        at = end_of_group(tokens, at, "(") or len(tokens)
    while at < len(tokens) and tokens[at][0] in ("const", "unsafe", "default"):
        at += 1
    if at + 1 >= len(tokens) or tokens[at][0] != "fn" or not _WORD.match(tokens[at + 1][0]):
        return False
    end = _end_of_body(tokens, at + 1)
    return end is not None and tokens[end - 1][1] - tokens[first][1] < _SHORT


def _is_told(tokens, at):
    """Whether the attributes right before a place say how a function is inlined."""
    while at > 0 and tokens[at - 1][0] == "]":
        at -= 1
        while at > 0 and tokens[at][0] != "#":
            at -= 1
        if tokens[at + 2][0] == "inline":
            return True
    return False


def not_told(tokens):
    """The first place where a function begins that isn't told how it is inlined and should be, or None."""
    found = (at for at in range(len(tokens)) if begins_short(tokens, at) and not _is_told(tokens, at))
    return next(found, None)


def _end_of_element(element, tokens, at):
    if element == "{short}":
        return at if begins_short(tokens, at) else None
    if element == "{clauses}":
        return _end_of_clauses(tokens, at)
    if element == "{ghosts}":
        return _end_of_ghosts(tokens, at)
    if element == "{step}":
        return _end_of_step(tokens, at)
    if element == "(shared)":
        return _end_of_shared(tokens, at)
    if element == "**;":
        return _end_of_statement(tokens, at)
    if element == "<*>":
        return end_of_angles(tokens, at)
    if len(element) == 3 and element[1] == "*" and element[0] in _PAIRS:
        return end_of_group(tokens, at, element[0])
    if at < len(tokens) and tokens[at][0] == element:
        return at + 1
    return None


def _takes_word(element, word, words):
    if element == "%own":
        return word == words["%own"]
    if element == "%step":
        return bool(_STEP.match(word))
    if element == "%crate" and not _CRATE.match(word):
        return False
    if not _WORD.match(word) or word in _RESERVED:
        return False
    return words.setdefault(element, word) == word


def match(pattern, tokens, at, words):
    """The place behind the tokens that a pattern takes from a place on, or None. Words that it names are kept."""
    for element in pattern:
        if element == "^":
            if at != 0:
                return None
            continue
        if element[0] in "$%" and len(element) > 1 and element != "%=":
            if at >= len(tokens) or not _takes_word(element, tokens[at][0], words):
                return None
            at += 1
            continue
        at = _end_of_element(element, tokens, at)
        if at is None:
            return None
    return at
