#!/usr/bin/env python3
"""Runs random scripts, and texts that are nearly scripts, and compares what they do with what they should.

    tests/random_scripts.py PROGRAM [--scripts N] [--seed S] [--misses N] [--print]

PROGRAM is the built command `grain`. tests/models/script_maker.py makes the scripts, with what they print and how they
end: declarations, arithmetic, blocks, conditions, switches, loops, functions, methods, closures, arrays, maps, strings, `try`.

- `check` accepts each script, and `run` prints what is expected. A fault is the expected one, at the line and column of its
  operator, its index or its `throw`.
- With little `--fuel` a run ends too, and has printed the beginning of that.
- In a near miss one character of a script is deleted, replaced or inserted. `check` ends with status 0 or 1, and its error
  names a place inside the text. One that is accepted also runs to an end.

Script K of seed S is script 0 of seed S + K. With `--print` the first script is printed with its output, and nothing is run. It
ends with status 1 after five scripts that differ.
"""
import argparse
import pathlib
import random
import re
import subprocess
import sys
import tempfile

from models.script_maker import made

FUEL, SECONDS = 10_000_000, 60
MESSAGES = {"overflow": r"(?i)overflow", "zero": r"(?i)division by zero|modulo by zero", "bounds": r"(?i)out of bounds"}


def near_miss(chance, text):
    """The text with one character deleted, replaced or inserted."""
    at, character = chance.randrange(len(text)), chance.choice("(){}[]|;,.=+-!\"'`$#/*\\ \n0aé")
    return text[:at] + chance.choice(["", character]) + text[at + chance.randrange(2) :]


class Checker:
    """Compares scripts with the answers of a program."""

    def __init__(self, program, folder):
        self.program, self.path = str(pathlib.Path(program).resolve()), folder / "random.rhai"

    def call(self, text, *words):
        self.path.write_text(text)
        try:
            done = subprocess.run([self.program, *words, str(self.path)], capture_output=True, timeout=SECONDS)
        except subprocess.TimeoutExpired:
            return None, "", f"it didn't end within {SECONDS} seconds"
        return done.returncode, done.stdout.decode(errors="replace"), done.stderr.decode(errors="replace")

    def differences(self, text, lines, fault, chance):
        """What the program does otherwise with a script."""
        status, _, message = self.call(text, "check")
        if status != 0:
            yield f"check ends with status {status}: {message.strip()}"
            return
        status, output, message = self.call(text, "run", "--fuel", str(FUEL))
        if output.split("\n")[:-1] != lines:
            yield f"the output is {output.split(chr(10))[:-1]}, and not {lines}: {message.strip()}"
        if status != (1 if fault else 0):
            yield f"the status is {status}, and the fault {fault and fault.kind}: {message.strip()}"
        elif fault and not re.search(MESSAGES.get(fault.kind, rf"Runtime error: {fault.value}\b"), message):
            yield f"the fault is `{message.strip()}`, and not {fault.kind} {fault.value}"
        elif fault and "(line {}, position {})".format(*fault.place) not in message.split("\n")[0]:
            yield f"the fault is `{message.strip()}`, and not at {fault.place}"
        if chance.random() < 0.25:
            yield from self.stopped(text, lines, chance.randrange(1, 2000))

    def stopped(self, text, lines, fuel):
        """What is wrong with a run of little fuel."""
        status, output, message = self.call(text, "run", "--fuel", str(fuel))
        if status not in (0, 1):
            yield f"with --fuel {fuel} the status is {status}: {message.strip()}"
        printed = output.split("\n")[:-1]
        if printed != lines[: len(printed)]:
            yield f"with --fuel {fuel} the output is {printed}, which {lines} doesn't begin with"

    def missed(self, text):
        """What is wrong with the answers to a near miss."""
        status, _, message = self.call(text, "check")
        if status == 0:
            status, _, message = self.call(text, "run", "--fuel", "100000")
            if status not in (0, 1):
                yield f"it is accepted, and its run ends with status {status}: {message.strip()}"
            return
        if status != 1:
            yield f"check ends with status {status}: {message.strip()}"
        if not any(is_inside(text, int(line), int(column)) for line, column in re.findall(r":(\d+):(\d+)", message)):
            yield f"the error names no place inside the text: {message.strip()}"


def is_inside(text, line, column):
    """Whether a place is a character of the text, or follows the last one of its line."""
    lines = text.split("\n")
    return 1 <= line <= len(lines) and 1 <= column <= len(lines[line - 1]) + 1


def report(kind, seed, text, found):
    """Prints what differs, with the text."""
    for line in found:
        print(f"{kind} of seed {seed}: {line}")
    if found:
        print("\n".join(f"    {line}" for line in text.split("\n")))
    return bool(found)


def main():
    parser = argparse.ArgumentParser(description=__doc__, formatter_class=argparse.RawDescriptionHelpFormatter)
    parser.add_argument("program")
    parser.add_argument("--scripts", type=int, default=1000, metavar="N")
    parser.add_argument("--seed", type=int, default=1, metavar="S")
    parser.add_argument("--misses", type=int, default=2, metavar="N", help="near misses of each script")
    parser.add_argument("--print", action="store_true", help="print the first script and its output alone")
    chosen = parser.parse_args()
    sys.setrecursionlimit(10_000)
    if chosen.print:
        text, lines, fault = made(chosen.seed)
        print(text + "\n".join(f"//= {line}" for line in lines) + (f"\n//! {fault.kind} {fault.value}" if fault else ""))
        return 0
    failed = faults = 0
    with tempfile.TemporaryDirectory() as folder:
        checker = Checker(chosen.program, pathlib.Path(folder))
        for seed in range(chosen.seed, chosen.seed + chosen.scripts):
            chance = random.Random(-seed)
            text, lines, fault = made(seed)
            faults += fault is not None
            failed += report("script", seed, text, list(checker.differences(text, lines, fault, chance)))
            for _ in range(chosen.misses):
                miss = near_miss(chance, text)
                failed += report("near miss", seed, miss, list(checker.missed(miss)))
            if failed >= 5:
                break
    if failed:
        print(f"random scripts: {failed} differ")
        return 1
    print(f"random scripts: {chosen.scripts} well, {faults} of them with a fault, and {chosen.scripts * chosen.misses} near misses")
    return 0


if __name__ == "__main__":
    sys.exit(main())
