"""What contracts ask of numbers: the tests that stand before the bodies of functions in the Rust files.

The words of each test are made here, from the clauses alone, and stand in the list of tokens that a Rust file is held
against. So each of its tokens is compared, too, and a test that no clause asks for is a difference.
"""

from kinds import end_of_angles, end_of_group, is_word

_NUMBERS = ("u64", "usize")
_CLAUSES = ("requires", "ensures")
_SIGNS = {"<": "<", "≤": "<="}


def _words(tokens):
    return [token for token, _line in tokens]


def _split(words, sign):
    parts = [[]]
    for word in words:
        if word == sign:
            parts.append([])
        else:
            parts[-1].append(word)
    return parts


def _params(words):
    """The types of the parameters that are numbers by value, and the names of those that are slices."""
    numbers, slices = {}, set()
    for param in _split(words, ","):
        param = param[param[:1] == ["mut"]:]
        if len(param) < 3 or param[1] != ":":
            continue
        name, kind = param[0], param[2:]
        if len(kind) == 1 and kind[0] in _NUMBERS:
            numbers[name] = kind[0]
        elif kind[:2] == ["&", "["] or kind[:3] == ["&", "mut", "["]:
            slices.add(name)
    return numbers, slices


def _side(words, params):
    """A side of a comparison in Rust's words and its type, which is empty for a number; None where it is another."""
    numbers, slices = params
    if words == ["MAX_VARINT"]:
        return ["0x3fff_ffff_ffff_ffff"], ""
    if words in (["MAX_WINDOW"], ["MAX_CONN_WINDOW"]):
        return ["1", "<<", "30" if words == ["MAX_WINDOW"] else "40"], ""
    if len(words) == 1 and words[0] in numbers:
        return words, numbers[words[0]]
    if len(words) == 1 and words[0].isdecimal():
        return words, ""
    if len(words) == 3 and words[:2] == ["2", "^"] and words[2].isdecimal() and int(words[2]) < 64:
        return ["1", "<<", words[2]], ""
    if len(words) == 4 and words[0] == "length" and words[1] in slices and words[2:] in ([".", "now"], [".", "old"]):
        return [words[1], ".", "len", "(", ")"], "usize"
    return None


def _comparison(words, params):
    if words[:1] == ["("] and words[-1:] == [")"]:
        words = words[1:-1]
    signs = [at for at, word in enumerate(words) if word in _SIGNS]
    if len(signs) != 1:
        return None
    left, right = _side(words[:signs[0]], params), _side(words[signs[0] + 1:], params)
    if left is None or right is None or len({left[1], right[1]} - {""}) != 1:
        return None
    return ["debug_assert", "!", "(", *left[0], _SIGNS[words[signs[0]]], *right[0], ")", ";"]


def _tests(clause, params):
    """The tests of a clause, none where one of its parts compares no numbers."""
    found = [_comparison(part, params) for part in _split(clause, "×")]
    return [] if None in found else sum(found, [])


def _end_of_signature(tokens, at):
    while at < len(tokens) and tokens[at][0] not in ("{", ";", *_CLAUSES):
        at = end_of_group(tokens, at, tokens[at][0]) if tokens[at][0] in ("(", "[") else at + 1
        if at is None:
            return len(tokens)
    return at


# The place behind the brace that begins the body of the function whose name is at a place, and the words of its tests.
def _function(tokens, at):
    first = at + 1
    if tokens[first][0] == "<":
        first = end_of_angles(tokens, first)
    behind = first and end_of_group(tokens, first, "(")
    if not behind:
        return None
    params = _params(_words(tokens[first + 1:behind - 1]))
    at = _end_of_signature(tokens, behind)
    words = []
    while at < len(tokens) and tokens[at][0] in _CLAUSES:
        opening = at + 1 + (tokens[at + 1][0] == "*")
        opening += is_word(tokens[opening][0])
        end = end_of_group(tokens, opening, "{")
        if end is None:
            return None
        if tokens[at][0] == "requires":
            words += _tests(_words(tokens[opening + 1:end - 1]), params)
        at = end
    return (at + 1, words) if at < len(tokens) and tokens[at][0] == "{" else None


def with_tests(tokens):
    """The tokens of a Rattle file with the tests that its clauses ask for, each behind the brace of its function."""
    found = []
    waiting = {}
    for at, token in enumerate(tokens):
        found += waiting.pop(at, [])
        found.append(token)
        if token[0] == "fn" and at + 2 < len(tokens) and is_word(tokens[at + 1][0]):
            behind, words = _function(tokens, at + 1) or (0, [])
            if words:
                waiting[behind] = [(word, tokens[behind - 1][1]) for word in words]
    return found
