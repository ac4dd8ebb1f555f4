"""What the programs of this folder share: what they build, what they tell of the machine, and their places in RESULTS.md."""

import datetime
import os
import pathlib
import platform
import subprocess
import sys

HERE = pathlib.Path(__file__).resolve().parent
RESULTS = HERE / "RESULTS.md"
# The builds: with cargo's default flags, as a user has them, and with one codegen unit.
BUILDS = {"release": "default", "one": "one unit"}
MISSING = 4


def tell(text):
    print(f"bench: {text}", file=sys.stderr, flush=True)


def build_ours(program, profile="release"):
    """Builds the package, and answers the path of this program of it."""
    subprocess.run(["cargo", "build", "--quiet", "--offline", "--profile", profile], cwd=HERE, check=True)
    return HERE / "target" / profile / program


def build_driver(name, *words):
    """The driver's path, or None where what it stands on isn't there."""
    room = HERE / "target" / "peers"
    room.mkdir(parents=True, exist_ok=True)
    done = subprocess.run([HERE / name / "build", room, *words], stdout=subprocess.PIPE, text=True)
    if done.returncode == MISSING:
        return None
    done.check_returncode()
    return pathlib.Path(done.stdout.splitlines()[-1])


def ask(*words, **more):
    """What a program prints."""
    return subprocess.run(words, stdout=subprocess.PIPE, text=True, check=True, **more).stdout


def processor():
    for line in pathlib.Path("/proc/cpuinfo").read_text().splitlines():
        if line.startswith("model name"):
            return line.partition(":")[2].strip()
    return platform.machine()


def commit():
    """The commit, with a sign where a source that is measured was changed since."""
    try:
        name = ask("git", "-C", HERE, "rev-parse", "--short=10", "HEAD").strip()
        changed = ask("git", "-C", HERE, "status", "--porcelain", "--", "src", "../rust/src", "quinn", "ngtcp2", "quic-go", "c", "../c/src").strip()
    except (subprocess.CalledProcessError, FileNotFoundError):
        return "unknown"
    return name + (" and changes" if changed else "")


def load():
    return f"{os.getloadavg()[0]:.1f}"


def today():
    return datetime.date.today().isoformat()


def parts(begin, end, page=RESULTS):
    """A page up to a mark, what stands between it and another one, and the page from that on."""
    before, first, rest = page.read_text().partition(begin)
    inside, last, after = rest.partition(end)
    if not first or not last:
        sys.exit(f"bench: {page} lacks one of its marks, {begin} and {end}")
    return before + begin, inside, end + after


def write(begin, end, text, page=RESULTS):
    """Puts a text between two marks."""
    before, _old, after = parts(begin, end, page)
    page.write_text(f"{before}\n\n{text}\n\n{after}")


def run(main):
    """Runs a program, and tells of a command that failed."""
    try:
        sys.exit(main())
    except subprocess.CalledProcessError as fault:
        sys.exit(f"bench: {fault.cmd[0]} ended with status {fault.returncode}")
    except FileNotFoundError as fault:
        sys.exit(f"bench: {fault.filename} isn't there")
