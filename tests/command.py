#!/usr/bin/env python3
"""Runs the transcripts of tests/command, and compares what each command prints, and how it ends, with what they show.

    python3 tests/command.py FOLDER [NAME..] [--bless]

FOLDER has the commands `grain` and `grain_check`, as tools/build leaves them. NAME is a transcript without its
`.txt`; without one all are run. With --bless they get what is printed: read the difference before you commit it.

A transcript is text with `$` examples, as pages have them (tests/transcripts.py), in a folder of its own. After a command are the
lines of its standard output, those of its standard error, each behind `! `, and its status in brackets where it isn't 0. Of a
pipe it is the last one that isn't 0. Control characters are written as `\\x1b`. `(no line feed)` follows an output that ends
without one, and `(empty line)` is an empty line at its end. `unhex` writes the bytes of hexadecimal digits.
"""
import argparse
import difflib
import pathlib
import re
import subprocess
import sys

import transcripts

HERE = pathlib.Path(__file__).resolve().parent / "command"
CONTROL = re.compile(r"[\0-\x08\x0b-\x1f\x7f]")


def lines_of(output):
    """The lines of an output."""
    text = CONTROL.sub(lambda found: f"\\x{ord(found[0]):02x}", output.decode(errors="backslashreplace"))
    lines = text.split("\n")
    if lines[-1]:
        return [*lines, "(no line feed)"]
    lines.pop()
    if lines and not lines[-1]:
        lines[-1] = "(empty line)"
    return lines


def shown(ran):
    """What a transcript shows of a command that ran."""
    status = [f"[{ran.returncode}]"] if ran.returncode else []
    return [*lines_of(ran.stdout), *(f"! {line}" if line else "!" for line in lines_of(ran.stderr)), *status]


def main():
    parser = argparse.ArgumentParser(description=__doc__, formatter_class=argparse.RawDescriptionHelpFormatter)
    parser.add_argument("folder")
    parser.add_argument("names", nargs="*", metavar="NAME")
    parser.add_argument("--bless", action="store_true", help="write what is printed into the transcripts")
    given = parser.parse_args()
    path = transcripts.path_of(given.folder, HERE)
    total, failed = 0, 0
    for name in given.names or sorted(it.stem for it in HERE.glob("*.txt")):
        file = HERE / f"{name}.txt"
        old = file.read_text()
        new, count, wrong = transcripts.run(old, lambda command, folder: shown(transcripts.ran(command, folder, path, subprocess.PIPE)))
        total += count
        if given.bless:
            file.write_text(new)
        elif wrong:
            failed += len(wrong)
            sys.stdout.writelines(difflib.unified_diff(old.splitlines(True), new.splitlines(True), str(file), "what is printed"))
    print(f"transcripts: {f'{failed} of ' if failed else ''}{total} commands {'differ' if failed else 'well'}")
    return 1 if failed else 0


if __name__ == "__main__":
    sys.exit(main())
