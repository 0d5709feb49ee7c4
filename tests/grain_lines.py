#!/usr/bin/env python3
"""Whether `grain lines` behaves as docs/LISTINGS.md says on a terminal, as a stream, where its reader leaves, and with little memory.

    python3 tests/grain_lines.py GRAIN

GRAIN is the built command. tests/command/lines.txt has what a transcript can show. It ends with status 1 at the first thing that
isn't so.
"""
import os
import pathlib
import pty
import resource
import select
import subprocess
import sys

CASE = b"verify 7fff 0213 0:2:8\n"
ESCAPE = b"\x1b["


def expect(is_so, what):
    if not is_so:
        sys.exit(f"grain lines: {what}")


def run(program, *arguments, given=CASE, **more):
    """The status, and what came on standard output and standard error."""
    streams = {"stdout": subprocess.PIPE, "stderr": subprocess.PIPE, **more}
    ran = subprocess.run([program, "lines", *arguments], input=given, timeout=60, **streams)
    return ran.returncode, ran.stdout, ran.stderr


def on_terminal(program, *arguments, **environment):
    """What a terminal gets."""
    ours, theirs = pty.openpty()
    inherited = {name: value for name, value in os.environ.items() if name not in ("NO_COLOR", "TERM")}
    ran = subprocess.Popen(
        [program, "lines", *arguments], stdin=subprocess.PIPE, stdout=theirs, env={**inherited, "TERM": "xterm", **environment}
    )
    os.close(theirs)
    ran.stdin.write(CASE)
    ran.stdin.close()
    written = b""
    try:
        while piece := os.read(ours, 65536):
            written += piece
    except OSError:
        pass
    os.close(ours)
    expect(ran.wait(60) == 0 and b"accepted 1" in written, "a terminal gets no listing")
    return written


def check_stream(program):
    """A listing is there once its line is, while the input goes on."""
    for word, end in (("--color=never", b"Return\n\n"), ("--json", b"}\n")):
        ran = subprocess.Popen([program, "lines", word], stdin=subprocess.PIPE, stdout=subprocess.PIPE)
        for _ in range(3):
            ran.stdin.write(CASE)
            ran.stdin.flush()
            listing = b""
            while not listing.endswith(end):
                ready, _, _ = select.select([ran.stdout], [], [], 60)
                piece = os.read(ran.stdout.fileno(), 65536) if ready else b""
                expect(piece, f"no listing comes before the input ends with {word}: {listing}")
                listing += piece
        ran.stdin.close()
        expect((ran.stdout.read(), ran.wait(60)) == (b"", 0), f"the end of a stream with {word}")


def check_terminal(program):
    for words, environment, is_coloured in (
        ("", {}, True),
        ("", {"NO_COLOR": ""}, True),
        ("", {"NO_COLOR": "1"}, False),
        ("", {"TERM": "dumb"}, False),
        ("--color=auto", {"NO_COLOR": "1"}, False),
        ("--color=always", {"NO_COLOR": "1", "TERM": "dumb"}, True),
        ("--color=never", {}, False),
        ("--json", {}, False),
    ):
        text = on_terminal(program, *words.split(), **environment)
        expect((ESCAPE in text) == is_coloured, f"colours of a terminal with `{words}` and {environment}")


def little_memory():
    resource.setrlimit(resource.RLIMIT_AS, (64 << 20, 64 << 20))


def check_failures(program):
    reading, writing = os.pipe()
    os.close(reading)
    status, _, errors = run(program, stdout=writing)
    os.close(writing)
    expect((status, errors) == (1, b""), f"a reader that left: {status}, {errors}")
    for long_line in (b"#" * (100 << 20), b"code " + b"02" * (10 << 20)):
        status, _, errors = run(program, given=long_line, preexec_fn=little_memory)
        expect((status, errors) == (1, b"error: out of memory\n"), f"little memory: {status}, {errors}")


def main():
    if len(sys.argv) != 2:
        sys.exit(__doc__)
    program = pathlib.Path(sys.argv[1]).resolve()
    check_stream(program)
    check_terminal(program)
    check_failures(program)
    print("grain lines: well")


if __name__ == "__main__":
    main()
