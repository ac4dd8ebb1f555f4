"""Two lists of tokens side by side: how the one became the other by kinds that are listed."""

from kinds import match


class Difference(Exception):
    """The first place where no kind goes on."""

    def __init__(self, old_at, new_at):
        super().__init__("no kind goes on")
        self.old_at = old_at
        self.new_at = new_at


def _moves(old, new, old_at, new_at, kinds, crate):
    for kind in kinds:
        words = {"%own": crate}
        old_end = match(kind.old, old, old_at, words)
        if old_end is None:
            continue
        new_end = match(kind.new, new, new_at, words)
        if new_end is None or (old_end, new_end) == (old_at, new_at):
            continue
        yield kind, old_end, new_end


def _path(came_from, at):
    used = []
    while at in came_from:
        before, kind = came_from[at]
        if kind is not None:
            used.append((kind, before))
        at = before
    used.reverse()
    return used


def align(old, new, kinds, crate):
    """The kinds by which `old` became `new`, each with the places where it stands. Raises Difference where there are none.

    From each pair of places it goes on by one token that is the same in both, or by one kind. It tries the same token
    first, and comes back to the other ways where that leads nowhere.
    """
    by_first = {}
    for kind in kinds:
        first = next((element for element in kind.old if element != "^"), None)
        plain = first is not None and (len(first) == 1 or first[0] not in "$%") and "*" not in first and first not in ("{ghosts}", "{step}")
        by_first.setdefault(first if plain else None, []).append(kind)
    open_ended = by_first.get(None, [])
    goal = (len(old), len(new))
    came_from = {}
    seen = {(0, 0)}
    stack = [(0, 0)]
    farthest = (0, 0)
    while stack:
        at = stack.pop()
        if at == goal:
            return _path(came_from, at)
        old_at, new_at = at
        if old_at + new_at > sum(farthest):
            farthest = at
        here = open_ended
        if old_at < len(old):
            here = by_first.get(old[old_at][0], []) + open_ended
        nexts = [(kind, (i, j)) for kind, i, j in _moves(old, new, old_at, new_at, here, crate)]
        if old_at < len(old) and new_at < len(new) and old[old_at][0] == new[new_at][0]:
            nexts.append((None, (old_at + 1, new_at + 1)))
        for kind, to in nexts:
            if to not in seen:
                seen.add(to)
                came_from[to] = (at, kind)
                stack.append(to)
    raise Difference(*farthest)
