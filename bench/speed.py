#!/usr/bin/env python3
"""How fast the built command `grain` is: least processor time of some runs, in milliseconds, with what starts and ends a process.

    python3 bench/speed.py TOOL [--runs N]

TOOL is the built program, as `rt run` leaves it in crates/grain_tool/out. It writes the rows of bench/results/tool.md.
"""
import argparse
import os
import pathlib
import subprocess
import sys
import tempfile

INSTRUCTIONS = 1_000_000
LINES = 10_000


def spent(words, given):
    """The processor time of one run, in seconds."""
    before = os.times()
    ran = subprocess.run(words, input=given, stdout=subprocess.DEVNULL, stderr=subprocess.PIPE)
    after = os.times()
    if ran.returncode:
        sys.exit(f"{words} ends with {ran.returncode}: {ran.stderr!r}")
    return after.children_user - before.children_user + after.children_system - before.children_system


def least(words, runs, given=b""):
    return 1000 * min(spent(words, given) for _ in range(runs))


def straight():
    """Straight code of many kinds of instructions, as assembly text."""
    piece = ["load_const 1", "declare_local x", "load_local 0", "load_const 2", 'call_op "+" 2 +', "store_local 0", "tick", "unwind_to 0"]
    return "\n".join(piece * (INSTRUCTIONS // len(piece)) + ["unit", "return", ""]).encode()


def script():
    """A script of many lines: functions with loops, conditions, calls and strings."""
    piece = """fn f{0}(a, b) {{
    let sum = 0;
    for i in a..b {{
        if i % 3 == 0 {{ sum += i; }} else {{ sum -= 1; }}
    }}
    let text = `${{sum}} of f{0}`;
    if text.len() > 3 {{ text += "!"; }}
    [sum, text]
}}
f{0}(1, 10);
"""
    return "".join(piece.format(at) for at in range(LINES // 10)).encode()


def main():
    parser = argparse.ArgumentParser()
    parser.add_argument("tool")
    parser.add_argument("--runs", type=int, default=7)
    given = parser.parse_args()
    tool = str(pathlib.Path(given.tool).resolve())
    with tempfile.TemporaryDirectory() as folder:
        os.chdir(folder)
        pathlib.Path("a.gasm").write_bytes(straight())
        pathlib.Path("a.rhai").write_bytes(script())
        subprocess.run([tool, "parse", "a.gasm", "-o", "a.grain"], check=True)
        printed = subprocess.run([tool, "print", "a.grain"], check=True, stdout=subprocess.PIPE).stdout
        rows = [("start and end: `--version`", ["--version"], None)]
        rows.append((f"`validate`, {INSTRUCTIONS:,} instructions, {os.path.getsize('a.grain'):,} bytes", ["validate", "a.grain"], None))
        rows.append((f"`print`, {len(printed):,} bytes of text", ["print", "a.grain", "-o", "b.gasm"], len(printed)))
        rows.append((f"`parse`, {os.path.getsize('a.gasm'):,} bytes of text", ["parse", "a.gasm", "-o", "b.grain"], os.path.getsize("a.gasm")))
        rows.append((f"`check`, {LINES:,} lines of script, {os.path.getsize('a.rhai'):,} bytes", ["check", "a.rhai"], None))
        print("| What | ms | MB/s |\n|---|---|---|")
        for what, words, size in rows:
            time = least([tool, *words], given.runs)
            print(f"| {what} | {time:.1f} | {f'{size / 1000 / time:.1f}' if size else ''} |", flush=True)


main()
