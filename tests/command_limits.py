#!/usr/bin/env python3
"""Whether `grain` keeps the old file if a write fails, whether what it writes grows with the file alone (docs/COMMAND.md), and
whether a run frees what nothing refers to.

    python3 tests/command_limits.py GRAIN

GRAIN is the built command. tests/command/limits.txt and writes.txt have what a transcript can show. It ends with status 1 at the
first thing that isn't so.
"""
import os
import pathlib
import re
import resource
import signal
import sys
import tempfile

from program import Program, expect

TOP = pathlib.Path(__file__).resolve().parent.parent


def check_version(grain):
    version = re.search(r'^version = "(.*)"$', (TOP / "hosts/rust/Cargo.toml").read_text(), re.M)[1]
    expect(grain.done("--version") == f"grain {version}\n".encode(), f"--version isn't {version}, which the Rust package has")


def limited(size):
    """Has files of a process end at a size: a write past it fails."""
    signal.signal(signal.SIGXFSZ, signal.SIG_IGN)
    resource.setrlimit(resource.RLIMIT_FSIZE, (size, size))


def check_full(grain):
    """A write that fails leaves the old file, and no other."""
    grain.done("smith", "--seed", "1", "--size", "10", "-o", "kept.grain")
    grain.done("smith", "--seed", "1", "--size", "8000", "-o", "long.grain")
    old, before = grain.read("kept.grain"), sorted(os.listdir(grain.folder))
    for words in ("smith --seed 1 --size 8000", "print long.grain", "list --json long.grain", "flow long.grain", "dump -x long.grain"):
        status, _, errors = grain.run(*words.split(), "-o", "kept.grain", preexec_fn=lambda: limited(4096))
        expect(status == 1 and errors.startswith(b"error: kept.grain: "), f"a full disk ends `{words}` with {status}: {errors!r}")
        kept = grain.read("kept.grain") == old and sorted(os.listdir(grain.folder)) == before
        expect(kept, f"`{words}` leaves another file if a write fails")


def check_positions(grain):
    """What a number in a text has `parse` allocate is bounded by the text, and each program comes back."""
    expect(b"number too large" in grain.run("parse", "-", given=b".positions 67108838")[2], "many positions of a short text are read")
    for places in (65_536, 65_537, 70_000):
        text = b".positions %d\n.code\nunit\nreturn\n.places\n" % (places + 2) + b"".join(b"%d\n" % at for at in range(2, places + 2))
        file = grain.write("places.grain", grain.done("parse", "-", given=text))
        expect(grain.done("parse", "-", given=grain.done("print", file)) == grain.read(file), f"{places} positions don't come back")


def check_protected(grain):
    """A write-protected file isn't replaced. Nothing is write-protected from root."""
    if os.geteuid() != 0:
        grain.done("smith", "--seed", "2", "-o", "protected.grain")
        os.chmod(grain.folder / "protected.grain", 0o440)
        grain.refused("smith", "--seed", "3", "-o", "protected.grain")


def check_growth(grain):
    """Texts grow with the file, however often a long name or a long text is used."""
    long = b"n" * 5000
    for text in (
        b'.names\n"' + long + b'"\n.code\n' + b"load_named #0\npop\n" * 500,
        b'.constants\n["' + long + b'"]\n.code\n' + b"load_const #0\npop\n" * 500,
    ):
        file = grain.write("long.grain", grain.done("parse", "-", given=text + b"unit\nreturn\n"))
        for words, most in ((["print"], 100_000), (["list"], 300_000), (["list", "--json"], 400_000), (["flow"], 2_000_000)):
            size = len(grain.done(*words, file))
            expect(size < most, f"{words} writes {size} bytes")
        expect(grain.done("parse", "-", given=grain.done("print", file)) == grain.read(file), "a long name doesn't come back")


def check_captured(grain):
    """What closures captured is freed when they are gone: 640 MB in all, of which 32 MB are kept."""
    script = b"""
let kept = [];
for i in 0..2000 {
    let list = [];
    list.pad(20000, i);
    let len = || list.len();
    if i % 20 == 0 { kept.push(len); }
}
let sum = 0;
for len in kept { sum += len.call(); }
sum
"""

    def bounded():
        resource.setrlimit(resource.RLIMIT_AS, (300_000_000, 300_000_000))

    status, text, errors = grain.run("run", "-", given=script, preexec_fn=bounded)
    expect((status, text, errors) == (0, b"2000000\n", b""), f"closures that are gone keep memory: {status}, {errors!r}")


def main():
    if len(sys.argv) != 2:
        sys.exit(__doc__)
    with tempfile.TemporaryDirectory() as folder:
        grain = Program(sys.argv[1], folder)
        for check in (check_version, check_full, check_positions, check_protected, check_growth, check_captured):
            check(grain)
    print("limits of grain: well")


if __name__ == "__main__":
    main()
