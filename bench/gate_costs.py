#!/usr/bin/env python3
"""What the gate takes, by kind, by crate and by function. It runs a command, .ci/run where none is given, looks every two seconds
at the processes below it, and prints what they took of processors. With --of PID it watches a process that runs already.

A check writes the proofs of a function into a folder of its own below the folder for temporary files, one after another: the time
since the file before is what a file took.

usage: bench/gate_costs.py [--of PID] [--functions N] [COMMAND ..]"""
import argparse
import collections
import os
import pathlib
import re
import subprocess
import tempfile
import time

TOP = pathlib.Path(__file__).resolve().parent.parent
TICKS = os.sysconf("SC_CLK_TCK")
EVERY = 2
# The files that a function has.
PARTS = "Kinds Reads Statement Lts Tie Proof Named Layout Met Mir Code Symbol Key Answers Invariants".split()
REST = ("the rest", "")
KINDS = ("proofs", "proofs of tests", "second proofs, for wrong bodies", "wrong bodies", "compilers", "the rest")


def arguments_of(process):
    with open(f"/proc/{process}/cmdline", "rb") as it:
        return it.read().decode(errors="replace").split("\0")


def stat_of(process):
    """Returns the parent of a process, when it began, and what it has taken so far of processors, without what it waited for."""
    with open(f"/proc/{process}/stat", encoding="utf-8", errors="replace") as it:
        fields = it.read().rpartition(")")[2].split()
    return int(fields[1]), fields[19], (int(fields[11]) + int(fields[12])) / TICKS


def kind_of(words):
    """Returns of which kind a process is, and of which crate."""
    if os.path.basename(words[0]) not in ("rattle", "rattle-link") or "--crate-name" not in words:
        return "compilers" if os.path.basename(words[0]) == "rattle-link" else "the rest", ""
    crate = words[words.index("--crate-name") + 1]
    if "--crate-checked" in words:
        return "compilers", crate
    if "--incremental" in words:
        over = os.path.basename(words[words.index("--incremental") + 1])
        return "second proofs, for wrong bodies" if over == "seed" else "wrong bodies", crate
    made = words[words.index("-o") + 1] if "-o" in words else ""
    if made.endswith("_tests.o"):
        return "proofs of tests", crate
    return "proofs" if made or words[1] == "check" else "the rest", crate


class Watch:
    """What was seen of the processes below one."""

    def __init__(self, top):
        self.top, self.kinds, self.took, self.now, self.files = top, {}, {}, {}, collections.defaultdict(dict)

    def look(self):
        found = {}
        for name in os.listdir("/proc"):
            if name.isdigit():
                try:
                    found[int(name)] = stat_of(name)
                except (OSError, ValueError, IndexError):
                    continue
        below, last = {self.top}, 0
        while len(below) > last:
            last = len(below)
            below |= {it for it, (parent, _, _) in found.items() if parent in below}
        for process in below & found.keys():
            try:
                self.note(process, *found[process][1:])
            except (OSError, ValueError, IndexError):
                continue

    def note(self, process, began, took):
        # (the number of a process is given again to a later one)
        key = process, began
        if self.kinds.get(key, REST)[0] == REST[0]:
            # (a shell becomes what it starts)
            self.kinds[key] = kind_of(arguments_of(process))
        self.took[key], self.now[process] = took, key

    def look_at_files(self):
        at = tempfile.gettempdir()
        for name in os.listdir(at):
            of = re.match(r"rattle-logic-built-locked-(\d+)-", name)
            key = self.now.get(int(of[1])) if of else None
            if key:
                try:
                    for it in os.scandir(f"{at}/{name}"):
                        if it.name.endswith(".oantt"):
                            self.files[key][it.name] = it.stat().st_mtime
                except OSError:
                    continue

    def functions(self):
        """Returns what each function took in a proof of its crate or of the crate's tests."""
        spent = collections.Counter()
        for key, files in self.files.items():
            kind, crate = self.kinds[key]
            if kind not in ("proofs", "proofs of tests"):
                continue
            before = min(files.values())
            for name, when in sorted(files.items(), key=lambda it: it[1]):
                spent[crate, function_of(name, crate)] += when - before
                before = when
        return spent


def function_of(file, crate):
    words = re.sub(r"^(proofs|specs)\.((contracts|declared)\.)?", "", file[: -len(".oantt")].removeprefix(f"Rattle-{crate}-")).split(".")
    while len(words) > 1 and words[-1].split("-")[0] in PARTS:
        words.pop()
    return ".".join(words)


def uses():
    """The crates that each crate uses, by crates.txt."""
    lines = [line.split(":") for line in (TOP / "crates.txt").read_text().splitlines() if ":" in line]
    return {name.split()[0]: used.split() for name, used in lines}


def longest_chain(crates):
    """Returns the crates that have to be proved one after another for the longest time, and that time."""
    used, longest = uses(), {}

    def of(name):
        if name not in longest:
            before = max((of(it) for it in used[name] if it in used), key=lambda it: it[1], default=([], 0))
            longest[name] = ([*before[0], name], before[1] + crates[name, "proofs"])
        return longest[name]

    found = []
    for name in used:
        chain, took = of(name)
        tests = crates[name, "proofs of tests"]
        found.append((chain + ["its tests"] * bool(tests), took - crates[name, "proofs"] * bool(tests) + tests))
        found.append((chain, took))
    return max(found, key=lambda it: it[1])


def table(title, rows, most):
    print(f"\n{title}")
    for name, seconds in sorted(rows.items(), key=lambda it: -it[1])[:most]:
        print(f"  {seconds:7.0f} s  {' '.join(name) if isinstance(name, tuple) else name}")


def main():
    parser = argparse.ArgumentParser(description=__doc__, formatter_class=argparse.RawDescriptionHelpFormatter)
    parser.add_argument("--of", type=int, metavar="PID")
    parser.add_argument("--functions", type=int, metavar="N", default=20)
    parser.add_argument("command", nargs=argparse.REMAINDER)
    given = parser.parse_args()
    began, status = time.time(), 0
    started = None if given.of else subprocess.Popen(given.command or [".ci/run"])
    watch, looks = Watch(given.of or started.pid), 0
    while started.poll() is None if started else os.path.exists(f"/proc/{given.of}"):
        watch.look()
        if looks % 3 == 0:
            watch.look_at_files()
        looks += 1
        time.sleep(EVERY)
    status = started.returncode if started else 0
    kinds, crates = collections.Counter(dict.fromkeys(KINDS, 0)), collections.Counter()
    for key, took in watch.took.items():
        kind, crate = watch.kinds[key]
        kinds[kind] += took
        if crate:
            crates[crate, kind] += took
    whole = collections.Counter()
    for (crate, _), took in crates.items():
        whole[crate] += took
    print(f"\n{(time.time() - began) / 60:.1f} min by the clock, {sum(kinds.values()) / 60:.1f} min of processors")
    table("by kind", kinds, len(KINDS))
    table("by crate", whole, len(whole))
    table("by crate and kind", crates, len(crates))
    table("by function, in proofs", watch.functions(), given.functions)
    chain, took = longest_chain(crates)
    print(f"\nlongest chain of crates, {took / 60:.1f} min of processors: {', '.join(chain)}")
    return status


if __name__ == "__main__":
    raise SystemExit(main())
