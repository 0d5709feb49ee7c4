#!/usr/bin/env python3
"""Tries the wrong bodies that the gate leaves out, and says which refusals are at another goal than they should be.

    tests/wrong_bodies.py [--jobs N] [CRATE ..]     tries those of these crates, or of all; as many crates side by side
    tests/wrong_bodies.py --read LOG                reads what `rt ci` or `rt must-fail` printed of the edits of must-fail/
    tests/wrong_bodies.py --read LOG --write        writes the line `breaks:` of each edit that has none, from what was printed

crates/CRATE/wrong-bodies/*.edit have the form of crates/CRATE/must-fail/*.edit. They are tried in a scratch copy of the crates, over
what their out/ keep of earlier checks, so that nothing of the work tree changes. It takes a check of each crate and some twenty
seconds for each wrong body. The last line counts them; it ends with 1 where one isn't refused.

An edit's line `breaks: FUNCTION GOAL` names the function whose contract refuses it and the goal that stays open there, or the
goal whose answer in proofs/ doesn't hold any more. Of a table it names the file of a lemma over it, and the lemma. The prover's
refusal has to be at that goal: an edit that is refused for a name that is missing shows nothing of a contract.
"""
import argparse
import os
import pathlib
import re
import shutil
import subprocess
import sys
import tempfile
from concurrent.futures import ThreadPoolExecutor

import scratch

TOP = pathlib.Path(__file__).resolve().parent.parent

# What `rt` prints of an edit that was refused: the crate, the edit, where the first open goal is, and its name.
REFUSED = re.compile(r"must-fail (\w+)/([\w.-]+)\.edit: refused, as it must be: (?:note: )?(?:\./)?(src/[\w/]+\.rt):(\d+):\d+: .*?\(`([^`]+)`\)")

# The same where an answer that a proof file has for a goal isn't one for the edited function: the function's folder, and the goal. Of a
# table whose law is a lemma it is the lemma's file, and the lemma.
IN_ANSWER = re.compile(r"must-fail (\w+)/([\w.-]+)\.edit: refused, as it must be: (?:\./)?proofs/(?:[\w+-]+/)*?([\w+-]+)(?:/(?:Answers|Invariants|Proof))?\.antt:\d+:\d+: error: `([^`]+)`")


def scratch_copy(room):
    """The crates, with what their out/ keep of earlier checks."""
    scratch.copy_crates(room)
    for kept in TOP.glob("crates/*/out"):
        shutil.copytree(kept, room / kept.relative_to(TOP), symlinks=True, dirs_exist_ok=True)


def libraries(room, crates):
    """The libraries of crates.txt that these crates use, each after those that it uses itself."""
    uses = {}
    for line in (room / "crates.txt").read_text().splitlines():
        head, _, tail = line.partition("#")[0].partition(":")
        if head.strip():
            uses[head.split()[0]] = tail.split()
    ordered = []
    while len(ordered) < len(uses):
        ordered += [it for it in uses if it not in ordered and all(dep in ordered or dep not in uses for dep in uses[it])]
    below = set()
    for it in reversed(ordered):
        if it in below or it in crates:
            below.update(uses[it])
    return [it for it in ordered if it in below]


def take_edits(room, crate):
    folder = room / "crates" / crate / "must-fail"
    shutil.rmtree(folder, ignore_errors=True)
    shutil.copytree(TOP / "crates" / crate / "wrong-bodies", folder)


def tried(room, crate):
    """How many wrong bodies of the crate were refused, of how many, and what was printed of them."""
    ran = subprocess.run(["rt", "must-fail", crate], cwd=room, stdout=subprocess.PIPE, stderr=subprocess.STDOUT, text=True, errors="replace")
    lines = [line for line in ran.stdout.splitlines() if "must-fail " in line]
    print("\n".join(lines or ran.stdout.splitlines()[-5:]), flush=True)
    refused = sum(": refused, as it must be" in line for line in lines)
    return refused, len([*(TOP / "crates" / crate / "wrong-bodies").glob("*.edit")]), lines


def edit_of(crate, name):
    found = [TOP / "crates" / crate / folder / f"{name}.edit" for folder in ("must-fail", "wrong-bodies")]
    return next((path for path in found if path.is_file()), None)


def edited(path):
    """The text of each file that the edit changes, as the edit leaves it."""
    texts, name, old = {}, "", ""
    for line in path.read_text().splitlines():
        word, _, rest = line.partition(": ")
        if word == "file":
            name = rest
            texts.setdefault(name, (path.parent.parent / name).read_text())
        elif word == "old":
            old = rest
        elif line.startswith("new:"):
            texts[name] = texts[name].replace(old, line[len("new:") :].removeprefix(" "))
    return texts


def function_at(text, number):
    """The function in which a line of a source is. The attributes of a function are lines of it."""
    lines = text.splitlines()
    while number < len(lines) and lines[number - 1].lstrip().startswith("#["):
        number += 1
    for line in reversed(lines[:number]):
        found = re.match(r"\s*(?:pub(?:\(\w+\))? )?(?:const )?(?:unsafe )?(?:extern \"C\" )?fn (\w+)", line)
        if found:
            return found[1]
    return "-"


def broken_goal(line):
    """Of what `rt` printed of a refused edit: its path, and the line `breaks:` that it should have. Nothing where no goal is named."""
    if found := REFUSED.search(line):
        crate, name, source, number, goal = found.groups()
        path = edit_of(crate, name)
        if path is None:
            return None
        text = edited(path).get(source) or (path.parent.parent / source).read_text()
        return path, f"breaks: {function_at(text, int(number))} {goal}"
    if found := IN_ANSWER.search(line):
        crate, name, function, goal = found.groups()
        path = edit_of(crate, name)
        return path and (path, f"breaks: {function} {goal}")
    return None


def is_broken(lines, write):
    """Compares refusals with the lines `breaks:` of their edits, and prints where they differ. Answers how often they do."""
    differ = 0
    for line in lines:
        if "must-fail " not in line or ": refused, as it must be" not in line:
            continue
        found = broken_goal(line)
        if not found:
            differ += 1
            print(f"refused, but not at a goal of a function: {line[:200]}")
            continue
        path, breaks = found
        first = path.read_text().splitlines()[0]
        if not first.startswith("breaks: ") and write:
            path.write_text(f"{breaks}\n{path.read_text()}")
        elif first != breaks:
            differ += 1
            print(f"{path.relative_to(TOP)}: it says `{first}`, and what was refused is `{breaks}`")
    return differ


def main():
    words = argparse.ArgumentParser(description=__doc__, formatter_class=argparse.RawDescriptionHelpFormatter)
    words.add_argument("--jobs", type=int, default=len(os.sched_getaffinity(0)))
    words.add_argument("--read", type=pathlib.Path, metavar="LOG")
    words.add_argument("--write", action="store_true")
    words.add_argument("crates", nargs="*", metavar="CRATE")
    given = words.parse_args()
    if given.read:
        return 1 if is_broken(given.read.read_text(errors="replace").splitlines(), given.write) else 0
    crates = given.crates or sorted(it.parent.name for it in TOP.glob("crates/*/wrong-bodies"))
    with tempfile.TemporaryDirectory(prefix="wrong-bodies-") as made:
        room = pathlib.Path(made)
        scratch_copy(room)
        for library in libraries(room, crates):
            ran = subprocess.run(["rt", "lib"], cwd=room / "crates" / library, capture_output=True, text=True, errors="replace")
            if ran.returncode:
                print(ran.stdout[-2000:])
                sys.exit(f"{library} isn't proved")
        for crate in crates:
            take_edits(room, crate)
        with ThreadPoolExecutor(max(given.jobs, 1)) as pool:
            counts = [*pool.map(lambda crate: tried(room, crate), crates)]
    refused, there = sum(it[0] for it in counts), sum(it[1] for it in counts)
    differ = is_broken([line for it in counts for line in it[2]], given.write)
    print(f"{refused} of {there} wrong bodies refused, {differ} at another goal than they say")
    return 0 if refused == there and not differ else 1


if __name__ == "__main__":
    sys.exit(main())
