"""The limits of bench/instructions: how many instructions a unit of each work may take, which only fall.

A block for each compiler begins with the line that `rustc -V` prints. Then a line for each work has its name, its limit with one codegen
unit and its limit with sixteen. Where one of them rose, `# raised FROM TO: reason` stands behind them, once for each.
"""

import math
import re
import subprocess

import common

PATH = common.HERE / "instructions"
# How far a limit is above what was counted, for each build in their order.
ROOM = {"one": 1.01, "release": 1.03}
_LINE = re.compile(r"(\S+)((?: \d+)+)((?: # raised \d+ \d+: [^#]*[^#\s])*)")
_RAISED = re.compile(r"# raised (\d+) (\d+): ")


class Limit:
    """The limits of a work, and what is said of those that rose: from what to what."""

    def __init__(self, values, said=""):
        self.values = values
        self.said = said
        self.raised = {(int(old), int(new)) for old, new in _RAISED.findall(said)}

    def line(self, name):
        return f"{name} {' '.join(map(str, self.values))}{self.said}"


def read(text):
    """The blocks: by compiler and by work the limits."""
    blocks = {}
    block = None
    for line in text.splitlines():
        if line.startswith("rustc "):
            block = blocks.setdefault(line, {})
            continue
        found = _LINE.fullmatch(line)
        if not found or block is None or found.group(1) in block:
            raise SystemExit(f"bench: no line of bench/instructions: {line}")
        block[found.group(1)] = Limit([int(word) for word in found.group(2).split()], found.group(3))
    return blocks


def text_of(blocks):
    """The file of these blocks."""
    lines = []
    for compiler, block in blocks.items():
        lines += [compiler, *(limit.line(name) for name, limit in block.items())]
    return "\n".join(lines) + "\n"


def rises(old, new):
    """What rose, or went, from the old blocks to the new ones without its reason."""
    for compiler, block in old.items():
        if compiler not in new:
            yield f"the block of {compiler} is gone"
            continue
        for name, limit in block.items():
            if name not in new[compiler]:
                yield f"{name} is gone"
                continue
            now = new[compiler][name]
            if len(now.values) < len(limit.values):
                yield f"{name} has a limit less"
            for before, after in zip(limit.values, now.values):
                if after > before and (before, after) not in now.raised:
                    yield f"{name} rose from {before} to {after}, and '# raised {before} {after}: reason' doesn't stand beside it"


def _of_commit(commit):
    done = subprocess.run(["git", "-C", common.HERE, "show", f"{commit}:bench/instructions"], capture_output=True, text=True, check=False)
    return done.stdout if done.returncode == 0 else None


def before():
    """The file as it stood before its last change: that of the last commit, or, where it is the same, of the one before the last that
    changed it. None where there is no such commit."""
    old = _of_commit("HEAD")
    if old is not None and old == PATH.read_text():
        last = common.ask("git", "-C", common.HERE, "log", "-n", "1", "--format=%H", "--", "instructions").strip()
        old = _of_commit(f"{last}^")
    return old


def lowered(blocks, compiler, counts):
    """The blocks with limits for these counts, by work and build, where those are lower than what stands or nothing does."""
    block = dict(blocks.get(compiler, {}))
    for name, counted in counts.items():
        wanted = [math.ceil(counted[build] * room) for build, room in ROOM.items()]
        old = block.get(name, Limit([]))
        kept = [min(pair) for pair in zip(old.values, wanted)]
        block[name] = Limit(kept + wanted[len(kept):], old.said)
    return {compiler: block, **{name: other for name, other in blocks.items() if name != compiler}}


def above(blocks, compiler, counts):
    """The counts that are above their limits, and those that have none."""
    block = blocks.get(compiler, {})
    for name, counted in counts.items():
        if name not in block:
            yield f"{name} has no limit"
            continue
        for limit, build in zip(block[name].values, ROOM):
            if counted[build] > limit:
                yield f"{name}, {common.BUILDS[build]}: {counted[build]:.1f} is above {limit}"
