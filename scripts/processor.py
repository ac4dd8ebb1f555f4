"""How much of the processor processes use, by /proc, and how fast the machine is just now, by a fixed work."""

import os
import pathlib
import statistics
import subprocess
import sys
import time

TICKS = os.sysconf("SC_CLK_TCK")


class Process:
    """A process as /proc shows it at one moment."""

    def __init__(self, number):
        # (its name, in brackets, may hold blanks)
        fields = pathlib.Path(f"/proc/{number}/stat").read_text().rpartition(")")[2].split()
        self.number, self.parent, self.began = number, int(fields[1]), int(fields[19])
        # Its own seconds, and those of children that have ended.
        self.seconds = sum(map(int, fields[11:15])) / TICKS


def processes():
    """All of them, by number."""
    found = {}
    for name in os.listdir("/proc"):
        if name.isdigit():
            try:
                found[int(name)] = Process(int(name))
            except (OSError, IndexError, ValueError):
                pass  # it has ended meanwhile
    return found


def below(number, found):
    """The processes that one began, and that those began, and so on."""
    children = {}
    for it in found.values():
        children.setdefault(it.parent, []).append(it)
    left, all_of_them = [number], []
    while left:
        those = children.get(left.pop(), [])
        all_of_them += those
        left += [it.number for it in those]
    return all_of_them


def seconds_of(number):
    """What a process and all below it have used so far."""
    found = processes()
    own = [found[number]] if number in found else []
    return sum(it.seconds for it in [*own, *below(number, found)])


def fill_and_read(seed):
    """A table is filled in no order, and read in another."""
    number, table = seed, {}
    for place in range(250_000):
        number = (number * 6364136223846793005 + 1442695040888963407) & 0xFFFF_FFFF_FFFF_FFFF
        table[number >> 20] = place
    return sum(table[it] for it in sorted(table))


def fixed_work():
    """The seconds that a work takes which is always the same: the median of some turns, a third of a second each."""
    found = []
    for turn in range(5):
        begin = time.process_time()
        fill_and_read(turn)
        found.append(time.process_time() - begin)
    return statistics.median(found)


class Paces:
    """The fixed work, done now and then while something else runs, in a process of its own."""

    def __init__(self, each=60):
        self.each, self.work, self.next = each, None, 0

    def turn(self):
        """Begins the next work where it is time for that. The seconds of one that ended since the last turn, or None."""
        found = None
        if self.work and self.work.poll() is not None:
            found, self.work = float(self.work.communicate()[0] or 0), None
        if not self.work and time.monotonic() >= self.next:
            self.next = time.monotonic() + self.each
            self.work = subprocess.Popen([sys.executable, __file__], stdout=subprocess.PIPE, text=True)
        return found or None

    def end(self):
        if self.work:
            self.work.kill()
            self.work.wait()


if __name__ == "__main__":
    print(fixed_work())
