"""The messages of errors: what `Error` derives from `#[error("TEXT")]` is written out in the Rust files.

The words of the expected text are made here, from the attributes alone, and stand in the list of tokens that a Rust
file is held against. So each of its tokens is compared, too.
"""

import re

from kinds import end_of_group

_HEAD = "fn fmt ( & self , f : & mut core :: fmt :: Formatter < '_ > ) -> core :: fmt :: Result { match self {".split()
_FIELD = re.compile(r"\{([a-z_0-9]*)(?::[^}]*)?\}")


class Unknown(Exception):
    """A form of an error that the audit can't read."""


def _skip_attributes(tokens, at):
    while tokens[at][0] == "#" and tokens[at + 1][0] == "[":
        at = end_of_group(tokens, at + 1, "[")
    return at


# The text of an attribute `# [ error ( TEXT ) ]` at a place, or None.
def _text_at(tokens, at):
    words = [token for token, _line in tokens[at:at + 7]]
    if words[:4] == ["#", "[", "error", "("] and words[5:7] == [")", "]"]:
        return words[4]
    return None


def _arm(name, shape, text):
    """The arm of the match that tells one value's text."""
    fields = _FIELD.findall(text.replace("{{", ""))
    if not fields:
        pattern = {"none": [], "tuple": ["(", "..", ")"], "named": ["{", "..", "}"]}[shape]
        return ["Self", *name, *pattern, "=>", "f", ".", "write_str", "(", text, ")", ","]
    if shape == "tuple" and fields == ["0"]:
        return ["Self", *name, "(", "field", ")", "=>", "write", "!", "(", "f", ",", text, ",", "field", ")", ","]
    if shape == "named" and all(not field.isdigit() and field for field in fields):
        listed = [word for field in fields for word in (field, ",")]
        return ["Self", *name, "{", *listed, "..", "}", "=>", "write", "!", "(", "f", ",", text, ")", ","]
    raise Unknown(f"an error's text names fields so: {text}")


def _shape_at(tokens, at):
    return {"(": "tuple", "{": "named"}.get(tokens[at][0], "none")


def _arms_of_enum(tokens, at, end):
    arms = []
    at += 1
    while at < end - 1:
        text = None
        while tokens[at][0] == "#":
            text = _text_at(tokens, at) or text
            at = end_of_group(tokens, at + 1, "[")
        name = tokens[at][0]
        shape = _shape_at(tokens, at + 1)
        if text is None:
            raise Unknown(f"the variant {name} has no text")
        arms += _arm(["::", name], shape, text)
        at += 1
        if shape != "none":
            at = end_of_group(tokens, at, tokens[at][0])
        if tokens[at][0] == ",":
            at += 1
    return arms


# The tokens of the item behind its derive, with its name, where it ends, and the arms of its texts.
def _item(tokens, at):
    text = None
    while tokens[at][0] == "#":
        text = _text_at(tokens, at) or text
        at = end_of_group(tokens, at + 1, "[")
    if tokens[at][0] == "pub":
        at += 1
        if tokens[at][0] == "(":
            at = end_of_group(tokens, at, "(")
    word, name = tokens[at][0], tokens[at + 1][0]
    at += 2
    shape = _shape_at(tokens, at)
    end = at if shape == "none" else end_of_group(tokens, at, tokens[at][0])
    if word == "enum" and shape == "named":
        return name, end, _arms_of_enum(tokens, at, end)
    if word == "struct" and text is not None:
        return name, end if shape == "named" else end + 1, _arm([], shape, text)
    raise Unknown(f"an error is no enum and no struct with a text: {name}")


# Whether the derive at a place names Error.
def _derives_error(tokens, at):
    if tokens[at][0] != "#":
        return False
    words = [token for token, _line in tokens[at:at + 4]]
    if words != ["#", "[", "derive", "("]:
        return False
    return "Error" in [token for token, _line in tokens[at + 3:end_of_group(tokens, at + 3, "(")]]


def with_messages(tokens):
    """The tokens of a Rattle file with what its derived errors write in Rust. The attributes stay."""
    found = []
    waiting = {}
    for at, token in enumerate(tokens):
        if _derives_error(tokens, at):
            name, end, arms = _item(tokens, end_of_group(tokens, at + 1, "["))
            display = ["impl", "core", "::", "fmt", "::", "Display", "for", name, "{", *_HEAD, *arms, "}", "}", "}"]
            error = ["impl", "core", "::", "error", "::", "Error", "for", name, "{", "}"]
            waiting[end] = [(word, tokens[end - 1][1]) for word in display + error]
        found += waiting.pop(at, [])
        found.append(token)
    for rest in waiting.values():
        found += rest
    return found
