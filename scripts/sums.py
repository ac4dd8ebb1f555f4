"""tests/costs: what a check of each crate from nothing takes, in seconds of the processor, beside those of a fixed work in the same run."""

import pathlib
import sys

FILE = pathlib.Path(__file__).resolve().parent.parent / "tests/costs"
ALONE = "of three runs alone"
HEAD = """# What a check of each crate from nothing takes: its name, seconds of the processor, and seconds that a fixed work took in the same run, which
# say how fast the machine was. `scripts/seconds --measure CRATE` writes a line, and `./test` holds each proof to it (scripts/costs). One that
# wasn't measured alone fails nothing.
"""


def lines():
    """Of each crate the words of its line, and what is said of them."""
    found = {}
    for place, line in enumerate(FILE.read_text().splitlines() if FILE.is_file() else (), 1):
        words, _, said = line.partition("#")
        if not words.strip():
            continue
        try:
            name, seconds, pace = words.split()
            found[name] = float(seconds), float(pace), said.strip()
        except ValueError:
            sys.exit(f"tests/costs:{place} is no line 'CRATE SECONDS SECONDS-OF-THE-FIXED-WORK'")
    return found


def keep(name, seconds, pace, said):
    found = {**lines(), name: (seconds, pace, said)}
    told = [f"{name} {seconds:.0f} {pace:.3f}  # {said}\n" for name, (seconds, pace, said) in sorted(found.items())]
    FILE.write_text(HEAD + "".join(told))
