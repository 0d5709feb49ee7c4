#!/usr/bin/env python3
"""Runs scripts by the engine of the library and by `grain run`, and compares what both print and how they end.

    tests/engine_scripts.py PROGRAM RUN_MANY [--scripts N] [--seed S] [--misses N]

PROGRAM is the built command `grain`, and RUN_MANY the built example run_many of hosts/rust, which runs many scripts in one
process. The scripts are all cases of tests/scripts, then N random ones of tests/models/script_maker.py, and near misses of each
as tests/random_scripts.py makes them. Each is run with enough turns, and some also with few.

Compared of each script:

- the status, and all that is printed, the value at the end too. What `debug` writes the engine keeps among the output, and
  `grain run` writes to standard error: then only the lines are compared, in any order.
- a fault: its sentence and its place, and the calls that it ended. With few turns both run out of them at the same turn.
- an error of the text: the line, the column and the sentence of the first one, its excerpt and caret unless the line is long.

Not compared, but counted:

- an unknown variable, which is an error of the text for `grain run` alone: the engine's host may set it.
- a value at the end that closures share, which doesn't cross to a host. What was printed before it is compared.

It ends with status 1 after five scripts that differ.
"""
import argparse
import collections
import dataclasses
import pathlib
import random
import re
import subprocess
import sys
import tempfile

import scripts
from models.script_maker import made
from random_scripts import near_miss

MANY, FEW, SECONDS = 1_000_000, (30, 300, 3000), 600
NAME = "case.rhai"
UNKNOWN, UNSHOWN = "no variable has this name", "a value isn't within the bounds"


@dataclasses.dataclass
class Ran:
    """How a script ended."""

    status: int
    output: str
    error: str


def of_engine(run_many, texts, turns):
    """What the engine does with each script."""
    given = "\0".join(texts).encode()
    done = subprocess.run([run_many, str(turns)], input=given, capture_output=True, timeout=SECONDS)
    rest, found = done.stdout, []
    while rest:
        head, _, rest = rest.partition(b"\n")
        status, output, error = map(int, head.split())
        found.append(Ran(status, rest[:output].decode(), rest[output:output + error].decode()))
        rest = rest[output + error:]
    if done.returncode != 0 or len(found) != len(texts):
        raise SystemExit(f"run_many ended with status {done.returncode} after {len(found)} of {len(texts)} scripts: {done.stderr.decode()}")
    return found


def of_command(program, folder, text, turns):
    """What `grain run` does with a script."""
    (folder / NAME).write_text(text)
    try:
        done = subprocess.run([program, "run", "--fuel", str(turns), NAME], cwd=folder, capture_output=True, timeout=SECONDS)
    except subprocess.TimeoutExpired:
        return Ran(-1, "", f"it didn't end within {SECONDS} seconds")
    return Ran(done.returncode, done.stdout.decode(), done.stderr.decode())


# What messages of the command escape of a fault: controls and marks of direction, and ends of lines before the calls.
HIDDEN = re.compile(r"[\x00-\x09\x0b-\x1f\x7f-\x9f\u200e\u200f\u2028-\u202e\u2066-\u2069]|\n(?!  (?:in|called from|and) )")


def escaped(text):
    """A fault of the engine as messages of the command show it."""
    return HIDDEN.sub(lambda found: f"\\u{{{ord(found[0]):x}}}", text)


def fault_of(error):
    """The fault of a message of the command, its calls written as the engine does."""
    text = re.sub(rf"^error: {NAME}: ", "", error.rstrip("\n"))
    text = re.sub(r"^(  (?:in|called from) \S+) at (\d+)", r"\1:\2", text, flags=re.M)
    return "out of turns" if text == "out of fuel" else text


def is_of_text(error):
    """Whether a message of the command is an error of the text of the script."""
    return re.match(rf"{NAME}:\d+:\d+: error: ", error) is not None


class Comparer:
    """Compares, and counts how scripts ended."""

    def __init__(self):
        self.ends = collections.Counter()

    def differences(self, engine, command):
        """What the engine does otherwise than the command."""
        debugged, said = "", command.error
        if not said.startswith(("error: ", f"{NAME}:")):
            at = said.rfind(f"\nerror: {NAME}: ") + 1 if command.status else len(said)
            debugged, said = said[:at], said[at:]
        if is_of_text(said):
            yield from self.of_text(engine, said)
            return
        if UNSHOWN in engine.error:
            self.ends["a value that doesn't cross"] += 1
            if not command.output.startswith(engine.output):
                yield f"the engine printed {engine.output!r}, with which {command.output!r} doesn't begin"
            return
        self.ends["a fault" if command.status else "a value"] += 1
        if engine.status != command.status:
            yield f"the status is {engine.status} ({engine.error}), and not {command.status} ({said})"
        if debugged:
            if sorted(engine.output.split("\n")) != sorted((command.output + debugged).split("\n")):
                yield f"the lines are {engine.output!r}, and not {command.output!r} with {debugged!r}"
        elif engine.output != command.output:
            yield f"the output is {engine.output!r}, and not {command.output!r}"
        if escaped(engine.error) != fault_of(said):
            yield f"the fault is {engine.error!r}, and not {fault_of(said)!r}"

    def of_text(self, engine, said):
        """What differs where the command says that the text has an error."""
        if UNKNOWN in said.split("\n")[0]:
            self.ends["an unknown variable"] += 1
            return
        self.ends["an error of the text"] += 1
        report = engine.error.replace("script:", f"{NAME}:").rstrip("\n")
        if "…" in said:
            # The command shows a part of a long line, and the engine all of it.
            report, said = report.split("\n")[0], said.split("\n")[0]
        if engine.status != 1 or not is_of_text(report) or not said.startswith(report):
            yield f"the error is {engine.error!r}, and not the beginning of {said!r}"


def texts_of(chosen):
    """The scripts, each with a title and a number of turns."""
    for topic in sorted(path.stem for path in scripts.HERE.glob("*.rhai")):
        for case in scripts.cases_of(topic):
            yield case.title, case.script, MANY
            yield case.title, case.script, FEW[0]
    for seed in range(chosen.seed, chosen.seed + chosen.scripts):
        chance = random.Random(-seed)
        text = made(seed)[0]
        yield f"script of seed {seed}", text, MANY
        yield f"script of seed {seed}, stopped", text, chance.choice(FEW)
        for _ in range(chosen.misses):
            yield f"near miss of seed {seed}", near_miss(chance, text), MANY


def batches(items, size=500):
    """The items by their numbers of turns, at most so many together."""
    waiting = collections.defaultdict(list)
    for title, text, turns in items:
        if "\0" in text:
            continue
        waiting[turns].append((title, text))
        if len(waiting[turns]) == size:
            yield turns, waiting.pop(turns)
    yield from waiting.items()


def main():
    parser = argparse.ArgumentParser(description=__doc__, formatter_class=argparse.RawDescriptionHelpFormatter)
    parser.add_argument("program")
    parser.add_argument("run_many")
    parser.add_argument("--scripts", type=int, default=1000, metavar="N")
    parser.add_argument("--seed", type=int, default=1, metavar="S")
    parser.add_argument("--misses", type=int, default=2, metavar="N", help="near misses of each random script")
    chosen = parser.parse_args()
    sys.setrecursionlimit(10_000)
    program, run_many = (str(pathlib.Path(path).resolve()) for path in (chosen.program, chosen.run_many))
    comparer, failed, compared = Comparer(), 0, 0
    with tempfile.TemporaryDirectory() as folder:
        for turns, batch in batches(texts_of(chosen)):
            for (title, text), engine in zip(batch, of_engine(run_many, [text for _, text in batch], turns)):
                found = list(comparer.differences(engine, of_command(program, pathlib.Path(folder), text, turns)))
                compared, failed = compared + 1, failed + bool(found)
                for line in found:
                    print(f"{title}, {turns} turns: {line}")
                if failed >= 5:
                    print(f"engine scripts: {failed} differ")
                    return 1
    if failed:
        print(f"engine scripts: {failed} differ")
        return 1
    print(f"engine scripts: {compared} well: " + ", ".join(f"{count} with {end}" for end, count in sorted(comparer.ends.items())))
    return 0


if __name__ == "__main__":
    sys.exit(main())
