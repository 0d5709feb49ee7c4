#!/usr/bin/env python3
"""Whether `grain smith` makes accepted programs of all instructions, and with --near programs of all refusals.

    python3 tests/smith.py TOOL [--seeds N]

TOOL is the built program, as `rt run` leaves it in crates/grain_tool/out. The seeds are the N numbers from 0 on (400 without it).
It prints how often each refusal came up, and ends with status 1 at the first thing that isn't so.
"""
import argparse
import collections
import json
import pathlib
import re
import subprocess
import sys
import tempfile

from models.file_reader import Reader, read_head, verdict

TOP = pathlib.Path(__file__).resolve().parent.parent
FORMAT = (TOP / "docs/FORMAT.md").read_text()
# Tag, name and width of each instruction, and each refusal, by docs/FORMAT.md.
WIDTHS = {int(tag, 16): (name, int(width)) for tag, name, width in re.findall(r"^\| ([0-9a-f]{2}) \| ([A-Z_]+) \|[^|]*\| (\d) \|", FORMAT, re.M)}
TABLE = FORMAT[FORMAT.index("| Refusal | What it says |"):FORMAT.index("A path reaches each instruction")]
REFUSALS = {word for row in re.findall(r"^\| (`[^|]*) \|", TABLE, re.M) for word in re.findall(r"`([a-z-]+)", row)}
# No file has fragments of syntax, and no program sites of custom syntax, so that these are refused wherever they are.
NEVER = {"EVAL_AST", "EVAL_AST_KEEP", "CUSTOM_SYNTAX"}
# What the assembly text of the programs has somewhere: each root, step and tail, cases, ranges, and nested constants.
WORDS = ("local", "named", "this", "temporary", "index", "property", "method", "read", "assign", "case", "range", "fn", "Fn(", "#{", "[", "shared")
# Enough seeds for all instructions and refusals.
ENOUGH = 400


def expect(is_so, what):
    if not is_so:
        sys.exit(f"smith: {what}")


def call(tool, *words, given=b"", wanted=(0,)):
    ran = subprocess.run([tool, *words], input=given, stdout=subprocess.PIPE, stderr=subprocess.PIPE, timeout=600)
    expect(ran.returncode in wanted, f"{words[:4]} ends with {ran.returncode}: {ran.stderr[-400:]!r}")
    return ran.stdout


def tags(data):
    """The names of the instructions of a file's code."""
    reader = Reader(data)
    read_head(reader, 0)
    reader.number(), reader.number(), reader.number()
    code, at = reader.bytes(), 0
    while at < len(code):
        name, width = WIDTHS[code[at]]
        yield name
        at += width


def made(tool, folder, seeds, *more):
    """The files of these seeds."""
    files = [f"{folder}/{seed}{''.join(more)}.grain" for seed in seeds]
    for seed, file in zip(seeds, files):
        call(tool, "smith", "--seed", str(seed), *more, "-o", file)
    return files


def verdicts(tool, files):
    """What `grain validate` says of each file."""
    lines = call(tool, "validate", "--json", *files, wanted=(0, 1)).decode().splitlines()
    said = [json.loads(line) for line in lines]
    expect([line["file"] for line in said] == files, "validate doesn't answer each file")
    return said


def check_accepted(tool, folder, count):
    files = made(tool, folder, range(count))
    for line in verdicts(tool, files):
        expect(line["accepted"], f"{line['file']} is refused: {line}")
    seen = collections.Counter(name for file in files for name in tags(pathlib.Path(file).read_bytes()))
    text = b"".join(call(tool, "print", file) for file in files).decode()
    if count >= ENOUGH:
        missing = {name for name, _width in WIDTHS.values()} - set(seen)
        expect(missing == NEVER, f"these instructions don't come up: {missing}")
        for word in WORDS:
            expect(word in text, f"no program has {word}")
    print(f"smith: {count} programs accepted, with {len(seen)} of {len(WIDTHS)} instructions, {sum(seen.values())} in all")
    return files


def check_repeats(tool, folder, files):
    """The same seed gives the same bytes, and its text gives them back."""
    for seed, file in enumerate(files[:300]):
        data = pathlib.Path(file).read_bytes()
        expect(call(tool, "smith", "--seed", str(seed)) == data, f"seed {seed} gives two programs")
        expect(call(tool, "parse", "-", given=call(tool, "print", file)) == data, f"seed {seed} doesn't come back from its text")
    for size in ("1", "2", "1000"):
        first = call(tool, "smith", "--seed", "7", "--size", size)
        expect(call(tool, "smith", "--seed", "7", "--size", size) == first, f"size {size} gives two programs")
        call(tool, "validate", "-", given=first)
    small = call(tool, "smith", "--seed", "7", "--size", "0")
    large = call(tool, "smith", "--seed", "7", "--size", "5000")
    expect(len(small) < len(large) and verdict(large) == "file", "--size changes nothing")
    call(tool, "validate", "-", given=large)
    call(tool, "smith", wanted=(2,))
    call(tool, "smith", "--seed", "x", wanted=(2,))


def check_near(tool, folder, count):
    files = made(tool, folder, range(count), "--near")
    found = collections.Counter()
    for line in verdicts(tool, files):
        expect(verdict(pathlib.Path(line["file"]).read_bytes()) == "file", f"{line['file']} is no file")
        found["accepted" if line["accepted"] else line["error"].removeprefix(line["file"] + ": ").split()[0]] += 1
    for file in files[:100]:
        expect(call(tool, "parse", "-", given=call(tool, "print", file)) == pathlib.Path(file).read_bytes(), f"{file} doesn't come back")
    print("smith: --near: " + ", ".join(f"{often} {what}" for what, often in found.most_common()))
    if count >= ENOUGH:
        expect(0 < found["accepted"] < count / 3, "most programs of --near aren't refused, or all are")
        expect(REFUSALS <= set(found), f"these refusals don't come up: {REFUSALS - set(found)}")


def main():
    parser = argparse.ArgumentParser()
    parser.add_argument("tool")
    parser.add_argument("--seeds", type=int, default=ENOUGH)
    given = parser.parse_args()
    expect(len(REFUSALS) == 13 and len(WIDTHS) == 74, "docs/FORMAT.md isn't read")
    tool = str(pathlib.Path(given.tool).resolve())
    with tempfile.TemporaryDirectory() as folder:
        files = check_accepted(tool, folder, given.seeds)
        check_repeats(tool, folder, files)
        check_near(tool, folder, given.seeds)


main()
