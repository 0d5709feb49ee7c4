#!/usr/bin/env python3
"""Runs small scripts whose answers Rhai's documentation gives, and compares what `grain run` does.

    python3 tests/battery.py GRAIN [--list]

tests/battery/cases.jsonl has a script a line: its name, what Rhai does (`expect` is `value`, `fault` or `refusal`), what it writes
(`out`), and how sure the writer was, who had no Rhai at hand. tests/battery/programs has longer scripts, each with what it writes as
.want. tests/battery/differences.txt names each case that is answered otherwise, with what `grain run` does and why. A case that is
answered otherwise and isn't there, or that is there and isn't, ends the run with status 1. --list prints all that is answered
otherwise.
"""
import json
import pathlib
import re
import subprocess
import sys
import tempfile
from concurrent.futures import ThreadPoolExecutor

HERE = pathlib.Path(__file__).resolve().parent / "battery"
FUEL = "50000000"
SECONDS = 20
# What the compiler prints of a text that it refuses begins with a place.
REFUSAL = re.compile(r":\d+:\d+: error: ")


def answer_of(grain, path):
    """Returns whether a script ends well, fails or is refused, and what it writes."""
    try:
        ran = subprocess.run([grain, "run", "--fuel", FUEL, path], capture_output=True, timeout=SECONDS)
    except subprocess.TimeoutExpired:
        return "hangs", ""
    written = ran.stdout.decode("utf-8", "replace")
    if ran.returncode == 0:
        return "value", written
    if ran.returncode == 1:
        return "refusal" if REFUSAL.search(ran.stderr.decode("utf-8", "replace")) else "fault", written
    return f"ends with {ran.returncode}", written


def judged(case, answer, written):
    """Returns how an answer differs from what is expected, or None. Rhai fails at run time where a text may be refused before."""
    expected = case["expect"]
    if answer not in ("value", "fault", "refusal"):
        return answer
    if expected == "value":
        if answer == "value":
            return None if written == case["out"] else "another value"
        return "refused" if answer == "refusal" else "fails"
    if answer == "value":
        return "accepted"
    return None if expected == "fault" or answer == "refusal" else "fails late"


def found_in(grain, cases):
    """Returns how each case differs that does, by its name."""
    with tempfile.TemporaryDirectory() as room, ThreadPoolExecutor() as pool:

        def run(case):
            path = pathlib.Path(room, case["name"] + ".rhai")
            path.write_text(case["script"], encoding="utf-8", newline="")
            return case["name"], judged(case, *answer_of(grain, str(path)))

        return {name: kind for name, kind in pool.map(run, cases) if kind}


def programs():
    """Returns the longer scripts as cases."""
    folder = HERE / "programs"
    return [
        {
            "name": f"programs_{path.stem}",
            "script": path.read_text(encoding="utf-8"),
            "expect": "value",
            "out": path.with_suffix(".want").read_text(encoding="utf-8"),
        }
        for path in sorted(folder.glob("*.rhai"))
    ]


def known():
    """Returns the kinds of the differences that are known, by the names of their cases."""
    lines = (HERE / "differences.txt").read_text(encoding="utf-8").splitlines()
    return dict(line.split(": ")[:2] for line in lines if line and not line.startswith("#"))


def main():
    grain = sys.argv[1]
    cases = [json.loads(line) for line in (HERE / "cases.jsonl").read_text(encoding="utf-8").splitlines()]
    cases += programs()
    found, expected = found_in(grain, cases), known()
    if "--list" in sys.argv[2:]:
        for name, kind in found.items():
            print(f"{name}: {kind}")
    wrong = sorted(name for name in found.keys() | expected.keys() if found.get(name) != expected.get(name))
    for name in wrong:
        print(f"{name}: {found.get(name, 'as in Rhai')}, and not {expected.get(name, 'as in Rhai')}", file=sys.stderr)
    if wrong:
        sys.exit(1)
    print(f"battery: {len(cases) - len(found)} of {len(cases)} scripts as in Rhai, {len(found)} differences, all known")


main()
