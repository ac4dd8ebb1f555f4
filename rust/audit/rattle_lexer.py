"""The tokens of a Rattle file: those of Rust's forms, and those that stand in clauses alone.

It goes character by character. What no form of Rust begins with (operators and names of other alphabets, a prime
behind a name) is a token of one character, or of one word: these stand in ghosts, and no kind of difference but a
ghost takes them.
"""

_BRACKETS = "{}[]()"
_OPERATORS = {
    1: set("+-*/%^!&|=<>@.,;:#$?~" + _BRACKETS),
    2: {"::", "->", "=>", "==", "!=", "<=", ">=", "&&", "||", "<<", ">>", "..", "+=", "-=", "*=", "/=", "%=", "^=", "&=", "|="},
    3: {"<<=", ">>=", "...", "..="},
}
_DIGITS = set("0123456789")
_WORD_START = set("abcdefghijklmnopqrstuvwxyzABCDEFGHIJKLMNOPQRSTUVWXYZ_")
_WORD = _WORD_START | _DIGITS
_SUFFIXED = _WORD


class LexError(Exception):
    """A place in a file where no token begins."""


class _Reader:
    def __init__(self, text):
        self.text = text
        self.at = 0
        self.line = 1
        self.found = []

    def peek(self, more=0):
        place = self.at + more
        return self.text[place] if place < len(self.text) else ""

    def step(self):
        if self.peek() == "\n":
            self.line += 1
        self.at += 1

    def skip_line(self):
        end = self.text.find("\n", self.at)
        self.at = len(self.text) if end < 0 else end

    def skip_block(self):
        depth = 0
        while True:
            two = self.text[self.at:self.at + 2]
            if two == "/*":
                depth += 1
            elif two == "*/":
                depth -= 1
            elif two == "":
                raise LexError(f"line {self.line}: a comment has no end")
            else:
                self.step()
                continue
            self.step()
            self.step()
            if depth == 0:
                return

    def word(self):
        text, start, at = self.text, self.at, self.at
        while at < len(text) and text[at] in _WORD:
            at += 1
        self.at = at
        return text[start:at]

    def number(self):
        start = self.at
        radix = self.text[self.at:self.at + 2] in ("0x", "0o", "0b")
        while self.peek() != "" and self.peek() in _SUFFIXED:
            if not radix and self.peek() in "eE" and self.peek(1) in ("+", "-"):
                self.step()
            self.step()
        if not radix and self.peek() == "." and self.peek(1) != "" and self.peek(1) in _DIGITS:
            self.step()
            while self.peek() != "" and self.peek() in _SUFFIXED:
                self.step()
        return self.text[start:self.at]

    # A text between quotes, whose opening quote is next.
    def quoted(self):
        line = self.line
        self.step()
        while self.peek() != '"':
            if self.peek() == "":
                raise LexError(f"line {line}: a text has no end")
            if self.peek() == "\\":
                self.step()
            self.step()
        self.step()

    def raw(self):
        line = self.line
        fence = 0
        while self.peek() == "#":
            fence += 1
            self.step()
        self.step()
        closing = '"' + "#" * fence
        while not self.text.startswith(closing, self.at):
            if self.peek() == "":
                raise LexError(f"line {line}: a text has no end")
            self.step()
        for _ in closing:
            self.step()

    # What a quote begins: a character, a lifetime, or a prime of a clause.
    def single(self):
        rest = self.text[self.at + 1:self.at + 14]
        if rest.startswith("\\"):
            end = rest.find("'", 2)
            if end > 0:
                for _ in range(end + 2):
                    self.step()
                return
        elif len(rest) >= 2 and rest[1] == "'" and rest[0] not in "'\n":
            for _ in range(3):
                self.step()
            return
        self.step()
        if self.peek() != "" and self.peek() in _WORD_START:
            self.word()

    def token(self):
        char = self.peek()
        start = self.at
        behind_word = bool(self.found) and self.found[-1][2] == self.at and self.found[-1][0][-1] in _WORD
        if char in _WORD_START:
            word = self.word()
            if word in ("b", "c") and self.peek() == '"':
                self.quoted()
            elif word == "b" and self.peek() == "'":
                self.single()
            elif word in ("r", "br", "cr") and (self.peek() == '"' or self.peek() == "#" and self.peek(1) in ('"', "#")):
                self.raw()
            elif word == "r" and self.peek() == "#":
                self.step()
                self.word()
        elif char in _DIGITS:
            self.number()
        elif char == '"':
            self.quoted()
        elif char == "'" and not behind_word:
            self.single()
        elif char == "\\" or char == "'" or char == "`" or ord(char) > 127:
            self.step()
        else:
            size = max((n for n in (1, 2, 3) if self.text[start:start + n] in _OPERATORS[n]), default=0)
            if size == 0:
                raise LexError(f"line {self.line}: no token begins with {char!r}")
            self.at += size
        return self.text[start:self.at]


def tokens(text):
    """The tokens, each with the number of its line."""
    reader = _Reader(text)
    while reader.at < len(text):
        char = text[reader.at]
        if char in " \t\r\n":
            reader.step()
        elif char == "/" and reader.peek(1) == "/":
            reader.skip_line()
        elif char == "/" and reader.peek(1) == "*":
            reader.skip_block()
        else:
            line = reader.line
            token = reader.token()
            reader.found.append((token, line, reader.at))
    return [(token, line) for token, line, _end in reader.found]
