#!/usr/bin/env python3
"""Has each growth of each call refused in turn, and counts the answers that there should be none of.

    python3 tests/growths.py [--crate NAME] [--jobs N] [--last N]

The tests of growths stand in tests/growths/CRATE of tests, apart from the crates, since the gate would prove each of them and
run it where nothing is refused. A file MODULE.tests there is a module of that crate, or of one that stands there alone: it is put
into a scratch copy, so that nothing of the work tree changes, and its parent names it.

In the copy's folder of each crate that has such tests it runs `rt try --test --fail-alloc N`, for N from 1 on, and reads the
tests whose names end in _growth_fails. In such a run the Nth growth of each test is refused, and the test says which one that was:

- one of what it prepares, by an error of which it makes nothing;
- one of its call. Then the call answered by its own name that memory was refused, what it was lent was as before, and the same call
  made again answered as if nothing had been refused; or the call answered so at once;
- the growth behind its call, which ends the count.

All else is a third answer: another refusal, a change of what was lent, an unlike second answer. It prints how many growths
each call has and what came of them, and ends with status 1 where there is a third answer, or a call without its test. Each
run builds the tests anew, which takes half a minute to a minute; N runs are made at a time with --jobs N.
"""
import argparse
import pathlib
import re
import shutil
import subprocess
import sys
import tempfile
from concurrent.futures import ThreadPoolExecutor

import scratch

TOP = pathlib.Path(__file__).resolve().parent.parent

SUFFIX = "_growth_fails"

# How a test ends that says which growth was refused, and with which errors it ends while it prepares.
REFUSED = "a growth of the call was refused"
BEHIND = "no growth of the call is left"
PREPARING = {"error: AllocError", "error: AllocFailed { .. }", "error: OutOfMemory"}

# The crate that has the tests of each.
TESTS = {
    "grain_base": "grain_tests",
    "grain_bytecode": "grain_tests",
    "grain": "grain_tests",
    "grain_explain": "grain_tests",
    "grain_file": "grain_file_tests",
    "grain_flat_file": "grain_file_tests",
    "grain_machine": "grain_machine_tests",
    "grain_lines": "grain_tests",
}

# The crates of tests that stand there alone, and what each uses.
OWN = {"grain_file_tests": "grain_flat_file grain_file grain"}

# The call of each test.
CALLS = {
    "grain_base": {
        "put_u64": "`varint::put_u64`",
        "put_i64": "`varint::put_i64`",
        "put_behind_others": "`varint::put_u64` behind 30 bytes",
        "encode": "`pos::encode`",
        "pos_error_texts": "`Display` of `pos::Error`",
    },
    "grain_bytecode": {
        "assemble": "`assemble`",
        "starts_of": "`Starts::of`",
        "strings_new": "`Strings::new`",
        "strings_borrowed": "`Strings::borrowed`",
        "qualify": "`names::qualify`",
        "to_table": "`Positions::to_table`",
        "from_table": "`Positions::from_table`",
        "refused_table": "`Positions::from_table`, `PastTheEnd`",
        "sites_encode": "`sites::encode`",
        "sites_decode": "`sites::decode`",
        "op_text": "`Op::disassemble`",
        "missing_text": "`Op::disassemble`, `Missing`",
        "chain_text": "`Chain::disassemble`",
        "step_text": "`Step::disassemble`",
        "tail_text": "`Tail::disassemble`",
        "assign_op_text": "`AssignOp::disassemble`",
        "switch_text": "`Switch::disassemble`",
        "switch_range_text": "`SwitchRange::disassemble`",
        "function_text": "`Function::disassemble`",
        "table_error_texts": "`Debug` and `Display` of `TableError`",
    },
    "grain": {
        "verify": "`verify`",
        "scratch": "`Scratch::verify`, twice",
        "verify_flaw": "`verify`, `Undecodable`",
        "verify_metered": "`verify_metered`",
        "program_verify": "`Program::verify`",
        "tighten_stack": "`Program::tighten_stack`",
        "sidecar": "`Program::sidecar`",
        "strip_positions": "`Program::strip_positions`",
        "attach_positions": "`Program::attach_positions`",
        "build": "`build`",
        "error_texts": "`Display` of `VerifyError`",
    },
    "grain_explain": {
        "explain_chunks": "`explain_chunks`",
        "explained_flaw": "`explain_chunks`, `FallsOffTheEnd`",
    },
    "grain_file": {
        "read": "`read`",
        "write": "`write`",
        "load": "`load`",
        "read_sidecar": "`read_sidecar`",
        "write_sidecar": "`write_sidecar`",
        "outline": "`outline`",
        "outline_sidecar": "`outline_sidecar`",
    },
    "grain_flat_file": {
        "read_flat": "`read_flat`",
        "tighten": "`grain_flat_file::tighten`",
        "strip": "`grain_flat_file::strip`",
    },
    "grain_machine": {
        "accept": "`accept`",
        "run": "`Runnable::run` on a try",
        "run_call": "`Runnable::run` on a call, of which two are the host's",
    },
    "grain_lines": {
        "run": "`run` on `code` lines",
        "run_on_other_lines": "`run` on `site` and `verify` lines",
    },
}


def ends_of(output):
    """How each test of growths ended, by its name without the suffix: the lines that it wrote, None where it passed."""
    ends, lines = {}, None
    for line in output.splitlines():
        if line.startswith("test ") and " ... " in line:
            path, end = line[len("test ") :].split(" ... ")
            name = path.split("::")[-1]
            lines = None if end == "ok" else []
            if name.endswith(SUFFIX):
                ends[name[: -len(SUFFIX)]] = lines
        elif lines is not None:
            lines.append(line.strip())
    return ends


def kind_of(lines):
    """What a test said of the growth that was refused."""
    if lines is None:
        return "undisturbed"
    for kind, texts in (("refused", {REFUSED}), ("behind", {BEHIND}), ("preparing", PREPARING)):
        if texts & set(lines):
            return kind
    return "third"


def scratch_copy(room):
    """The crates as the work tree has them, each of tests with its modules of growths."""
    scratch.copy_crates(room)
    for crate, used in OWN.items():
        source = room / "crates" / crate / "src"
        source.mkdir(parents=True)
        (source / "lib.rt").write_text("//! Tests of growths.\n#![tactic(auto)]\n")
        with (room / "crates.txt").open("a") as listed:
            listed.write(f"{crate}: {used}\n")
    modules = (TOP / "tests" / "growths").glob("*/**/*.tests")
    for module in sorted(modules, key=lambda it: len(it.parts)):
        crate, *place = module.relative_to(TOP / "tests" / "growths").with_suffix(".rt").parts
        source = room / "crates" / crate / "src"
        source.joinpath(*place).parent.mkdir(exist_ok=True)
        shutil.copyfile(module, source.joinpath(*place))
        parent = source.joinpath(*place[:-1]).with_suffix(".rt") if place[1:] else source / "lib.rt"
        with parent.open("a") as text:
            text.write(f"\n#[cfg(test)]\nmod {module.stem};\n")
    for tests in set(TESTS.values()):
        leave_out_others(room / "crates" / tests / "src")


def leave_out_others(source):
    """Of a crate of tests leaves the modules of growths, those that stand around them, and what these use."""
    lib = source / "lib.rt"
    kept, open_ends = set(), {path.relative_to(source).parts[0].removesuffix(".rt") for path in source.rglob("*growths.rt")}
    while open_ends - kept:
        name = (open_ends - kept).pop()
        kept.add(name)
        for path in [source / f"{name}.rt", *(source / name).rglob("*.rt")]:
            open_ends |= set(re.findall(r"\bcrate::(\w+)", path.read_text()))
    text = lib.read_text()
    for name in set(re.findall(r"^mod (\w+);$", text, re.M)) - kept:
        text = text.replace(f"#[cfg(test)]\nmod {name};\n", "")
        (source / f"{name}.rt").unlink()
        shutil.rmtree(source / name, ignore_errors=True)
    lib.write_text(text)


def run(folder, number):
    """How each test ended in the run in which that growth is refused."""
    words = ["rt", "try", "--test", "--fail-alloc", str(number)]
    ran = subprocess.run(words, cwd=folder, capture_output=True, text=True)
    ends = ends_of(ran.stdout + ran.stderr)
    if not ends:
        sys.exit(f"{folder.name}: no test of growths ran\n{ran.stdout}{ran.stderr}")
    return ends


class Row:
    """What came of the growths of one call, in their order."""

    def __init__(self):
        self.kinds = []
        self.ended = False
        self.thirds = []

    def add(self, number, lines):
        kind = kind_of(lines)
        if self.ended or (kind == "preparing" and not self.kinds):
            return
        if kind == "behind":
            self.ended = True
        elif kind in ("refused", "undisturbed"):
            self.kinds.append(kind)
        else:
            self.kinds.append("third")
            self.thirds.append((number, lines))


def rows_of(folder, jobs, last):
    """The row of each test of growths in the folder of a crate of tests."""
    rows = {}
    with ThreadPoolExecutor(jobs) as pool:
        for first in range(1, last + 1, jobs):
            numbers = range(first, first + jobs)
            for number, ends in zip(numbers, pool.map(lambda n: run(folder, n), numbers)):
                for name, lines in ends.items():
                    rows.setdefault(name, Row()).add(number, lines)
            if all(row.ended for row in rows.values()):
                break
    return rows


def report(room, crates, jobs, last):
    """Prints the rows of these crates. Answers whether each call has its test, is counted to its end and has no third answer."""
    good = True
    print("| Crate | Call | Growths | Out of memory | Undisturbed | Third answers |")
    print("|---|---|---|---|---|---|", flush=True)
    known = {}
    for crate in crates:
        tests = TESTS[crate]
        if tests not in known:
            known[tests] = rows_of(room / "crates" / tests, jobs, last)
            called = {name for it, calls in CALLS.items() if TESTS[it] == tests for name in calls}
            for name in sorted(called ^ known[tests].keys()):
                print(f"{tests}: a test or a call is missing: {name}", file=sys.stderr)
                good = False
        rows = known[tests]
        for name, call in CALLS[crate].items():
            row = rows.get(name, Row())
            counts = [row.kinds.count(kind) for kind in ("refused", "undisturbed", "third")]
            told = [f"`{crate}`", call, len(row.kinds), *counts]
            print("| " + " | ".join(map(str, told)) + " |", flush=True)
            for number, lines in row.thirds:
                print(f"{crate}: {name}, growth {number}: {lines}", file=sys.stderr)
            if not row.ended:
                print(f"{crate}: {name} has growths above {last}", file=sys.stderr)
            good = good and row.ended and not row.thirds
    return good


def main():
    arguments = argparse.ArgumentParser()
    arguments.add_argument("--crate", choices=CALLS)
    arguments.add_argument("--jobs", type=int, default=1)
    arguments.add_argument("--last", type=int, default=60)
    given = arguments.parse_args()
    crates = [given.crate] if given.crate else [*CALLS]
    with tempfile.TemporaryDirectory(prefix="growths-") as made:
        room = pathlib.Path(made)
        scratch_copy(room)
        return 0 if report(room, crates, given.jobs, given.last) else 1


if __name__ == "__main__":
    sys.exit(main())
