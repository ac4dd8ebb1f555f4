"""The test of tests/wrong/run itself: on a crate of its own, whose wrong bodies are good ones and such as can't count."""

import pathlib
import shutil
import tempfile
import threading

from repository import Gate

# How the verdict on each edit of sample/wrong.edits begins.
WANTED = {
    "one_too_many": "refused: ",
    "the_lesser": "refused: ",
    "only_calls_a_wrong_one": "NOT REFUSED",
    "means_the_same": "NOT REFUSED",
    "takes_a_goal_away": "refused only because a proof file names",
    "does_not_parse": "BAD EDIT",
    "stands_nowhere": "BAD EDIT",
}
COUNT = len(WANTED) + 4
GB = 1_000_000  # kB


class Crate:
    """What a lane asks of a crate."""

    name = "qs_conn"


class Ready:
    """A repository of which all is built, and no gate goes on."""

    gate = Gate()

    def is_ready(self, _crate):
        return True


def makes_lanes(tool):
    """150 edits, each three of one function, are in three lanes of 50, and no two of a group change one function."""
    edits = [tool.Edit(f"{number}", [], frozenset([f"sample::{number // 3}"]), "") for number in range(150)]
    lanes = [groups for _, groups in tool.lanes_of(None, edits)]
    return [[len(group) for group in groups] for groups in lanes] == [[50]] * 3 and sorted(sum(sum(lanes, []), []), key=edits.index) == edits


def tries_side_by_side(tool):
    """Where the memory of three lanes and a half is free, three go on at once, and the others once these have ended."""
    together, going_on, most = threading.Barrier(3), [], []

    def settle(_repository, _crate, number):
        going_on.append(number)
        most.append(len(going_on))
        together.wait(20)
        going_on.remove(number)
        return number

    kept = tool.settle, tool.number_in
    free = 7 * tool.MEMORY[Crate.name] // 2
    tool.settle, tool.number_in = settle, lambda file, _: free if file == "/proc/meminfo" else 0
    try:
        ended = list(tool.in_lanes(Ready(), [(Crate, number) for number in range(6)], 4))
    except threading.BrokenBarrierError:
        ended = []
    tool.settle, tool.number_in = kept
    return sorted(ended) == [*range(6)] and max(most) == 3


def reckons_room(tool):
    """Of 20 GB that are free, two lanes of 5 GB take 4 GB more where they have 6, and a proof of the gate takes more."""
    kept = tool.number_in, tool.Trial.running
    tool.number_in, tool.Trial.running = lambda file, _: 20 * GB if file == "/proc/meminfo" else 3 * GB, {1, 2}
    found = [tool.room_beside([5 * GB] * 2, goes_on) for goes_on in (False, True)]
    tool.number_in, tool.Trial.running = kept
    return found == [16 * GB, 16 * GB - tool.MEMORY_OF_GATE]


def failures(tool):
    """How many of the verdicts aren't those that are wanted, and 1 more where the edits aren't those of the table."""
    sample = pathlib.Path(__file__).resolve().parent / "sample"
    with tempfile.TemporaryDirectory(prefix="wrong-own-") as room:
        root = pathlib.Path(room)
        crate = root / "crates/sample"
        (crate / "src").mkdir(parents=True)
        shutil.copy(sample / "wrong.edits", crate / "wrong.edits")
        shutil.copy(sample / "lib.rattle", crate / "src/lib.rt")
        for it in (sample / "proofs").rglob("*.antt-sample"):
            to = crate / it.relative_to(sample).with_suffix(".antt")
            to.parent.mkdir(parents=True, exist_ok=True)
            shutil.copy(it, to)
        (root / "crates.txt").write_text("sample:\n")
        found = tool.try_all(tool.Repository(root, tool.Gate()), [], True)
    wrong = [name for name, text in WANTED.items() if not found[f"sample/{name}"].text.startswith(text)]
    for name in wrong:
        print(f"FAILED: the tool says of its own {name}: {found[f'sample/{name}'].text}, and not {WANTED[name]}")
    own = [it for it in (makes_lanes, tries_side_by_side, reckons_room) if not it(tool)]
    for it in own:
        print(f"FAILED: the tool doesn't do this: {it.__doc__}")
    return len(wrong) + (len(found) != len(WANTED)) + len(own)
