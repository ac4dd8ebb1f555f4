"""The tokens of a Rust file.

Written from the Rust reference alone. Comments and white space separate tokens and are no tokens. A form
that isn't known stops the lexer, with its line.
"""

import re


class LexError(Exception):
    """A place in a file where no token begins."""


_SPACE = re.compile(r"[ \t\r\n]+")
_LINE_COMMENT = re.compile(r"//[^\n]*")
_RAW_STRING = re.compile(r'(?:br|cr|r)(#*)"')
_STRING = re.compile(r'[bc]?"(?:[^"\\]|\\.)*"', re.S)
_CHAR = re.compile(r"b?'(?:[^'\\\n]|\\(?:[nrt0\\'\"]|x[0-9a-fA-F]{2}|u\{[0-9a-fA-F_]{1,8}\}))'")
_LIFETIME = re.compile(r"'[A-Za-z_][A-Za-z0-9_]*")
_NAME = re.compile(r"(?:r#)?[A-Za-z_][A-Za-z0-9_]*")
_NUMBER = re.compile(
    r"0x[0-9a-fA-F_]+(?:[iu](?:8|16|32|64|128|size))?"
    r"|0o[0-7_]+(?:[iu](?:8|16|32|64|128|size))?"
    r"|0b[01_]+(?:[iu](?:8|16|32|64|128|size))?"
    r"|[0-9][0-9_]*(?:\.[0-9][0-9_]*)?(?:[eE][+-]?[0-9_]+)?(?:[iuf](?:8|16|32|64|128|size))?"
)
# The longest first.
_SIGN = re.compile("|".join(re.escape(sign) for sign in (
    "<<=", ">>=", "...", "..=",
    "::", "->", "=>", "==", "!=", "<=", ">=", "&&", "||", "<<", ">>", "..",
    "+=", "-=", "*=", "/=", "%=", "^=", "&=", "|=",
    "+", "-", "*", "/", "%", "^", "!", "&", "|", "=", "<", ">", "@", ".", ",", ";", ":",
    "#", "$", "?", "~", "{", "}", "[", "]", "(", ")",
)))


def _end_of_block_comment(text, at):
    depth = 0
    while at < len(text):
        if text.startswith("/*", at):
            depth += 1
            at += 2
        elif text.startswith("*/", at):
            depth -= 1
            at += 2
            if depth == 0:
                return at
        else:
            at += 1
    raise LexError("a comment has no end")


def _end_of_token(text, at):
    raw = _RAW_STRING.match(text, at)
    if raw:
        closing = '"' + raw.group(1)
        end = text.find(closing, raw.end())
        return None if end < 0 else end + len(closing)
    for form in (_STRING, _CHAR, _LIFETIME, _NAME, _NUMBER, _SIGN):
        found = form.match(text, at)
        if found:
            return found.end()
    return None


def spans(text):
    """The tokens' places: of each the bytes that it takes, and the number of its line."""
    found = []
    at = 0
    line = 1
    while at < len(text):
        space = _SPACE.match(text, at) or _LINE_COMMENT.match(text, at)
        if space:
            end = space.end()
        elif text.startswith("/*", at):
            end = _end_of_block_comment(text, at)
        else:
            end = _end_of_token(text, at)
            if end is None:
                raise LexError(f"line {line}: no token begins with {text[at:at + 12]!r}")
            found.append((at, end, line))
        line += text.count("\n", at, end)
        at = end
    return found


def tokens(text):
    """The tokens, each with the number of its line."""
    return [(text[start:end], line) for start, end, line in spans(text)]
