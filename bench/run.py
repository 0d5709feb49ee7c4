#!/usr/bin/env python3
"""Times the scripts of bench/run with those of the same name in Python and Lua, and writes a Markdown table.

    bench/run.py PROGRAM [NAME..] [--runs N] [--instructions] [--output FILE]

PROGRAM is the built command `grain`. Each NAME.rhai, NAME.py and NAME.lua does the same work and prints the same, which is
checked. A time is the processor time of a process from its start to its end, system time included, the least of some runs. The
programs run in turn, so that a slow minute of the machine meets all of them. `empty` shows what a start costs.

Python is the one that runs this file, without site packages. Lua is left out where lua5.4 isn't installed, and a note says so.
With `--instructions` each program runs once more under valgrind's callgrind, which counts its instructions: that number hardly
depends on the machine's load. Where valgrind isn't installed, that is left out.

It ends with status 1 where two programs print different texts, or one fails.
"""
import argparse
import os
import pathlib
import platform
import re
import shutil
import subprocess
import sys
import tempfile

HERE = pathlib.Path(__file__).resolve().parent / "run"


def languages(program):
    """The command of each language, by its name, and the ending of its files."""
    found = {"grain": ([program, "run"], ".rhai"), "python3": ([sys.executable, "-I", "-S"], ".py")}
    if shutil.which("lua5.4"):
        found["lua5.4"] = (["lua5.4"], ".lua")
    else:
        print("note: lua5.4 isn't installed", file=sys.stderr)
    return found


def timed(words):
    """What a command prints, and its processor time in seconds."""
    with tempfile.TemporaryFile() as output, tempfile.TemporaryFile() as errors:
        child = subprocess.Popen(words, stdout=output, stderr=errors)
        _, status, used = os.wait4(child.pid, 0)
        child.returncode = os.waitstatus_to_exitcode(status)
        output.seek(0)
        errors.seek(0)
        if child.returncode:
            message = errors.read().decode(errors="replace").strip()
            raise SystemExit(f"{' '.join(words)}: status {child.returncode}: {message}")
        return output.read(), used.ru_utime + used.ru_stime


def counted(words):
    """How many instructions a command takes, as callgrind counts them."""
    with tempfile.TemporaryDirectory() as folder:
        valgrind = ["valgrind", "--tool=callgrind", f"--callgrind-out-file={folder}/out", "--trace-children=yes"]
        done = subprocess.run([*valgrind, *words], capture_output=True, text=True)
    found = re.findall(r"Collected : (\d+)", done.stderr)
    if done.returncode or not found:
        raise SystemExit(f"{' '.join(words)}: valgrind counts nothing: {done.stderr.strip()[-300:]}")
    return sum(map(int, found))


def least_times(name, commands, runs):
    """The least time of each language for a script. All of them must print the same."""
    least, printed = {}, {}
    for _ in range(runs):
        for language, (words, ending) in commands.items():
            text, seconds = timed([*words, str(HERE / f"{name}{ending}")])
            least[language] = min(seconds, least.get(language, seconds))
            printed[language] = text
    unlike = [language for language, text in printed.items() if text != printed["grain"]]
    if unlike:
        raise SystemExit(f"{name}: grain prints {printed['grain']!r}, and {unlike[0]} {printed[unlike[0]]!r}")
    return least


def first_sentence(name):
    """What a script measures, as its first line says."""
    return (HERE / f"{name}.rhai").read_text().splitlines()[0].removeprefix("//").strip().rstrip(".")


def processor():
    """The name of the machine's processor."""
    for line in pathlib.Path("/proc/cpuinfo").read_text().splitlines():
        if line.startswith("model name"):
            return line.partition(":")[2].strip()
    return platform.machine()


def ratios(values):
    """How often the value of grain is that of each other language."""
    return [f"{values['grain'] / max(value, 1e-9):.2f}" for language, value in values.items() if language != "grain"]


def table(title, head, rows):
    """A Markdown table with its title."""
    lines = [f"## {title}", "", f"| {' | '.join(head)} |", f"|{'|'.join(['---', '---'] + ['---:'] * (len(head) - 2))}|"]
    return "\n".join(lines + [f"| {' | '.join(row)} |" for row in rows]) + "\n"


def measured(names, commands, runs, instructions):
    """The tables, as text."""
    others = [name for name in commands if name != "grain"]
    head = ["Script", "What", *commands, *(f"grain / {name}" for name in others)]
    times, counts = [], []
    for name in names:
        least = least_times(name, commands, runs)
        times.append([name, first_sentence(name), *(f"{1000 * value:.0f}" for value in least.values()), *ratios(least)])
        if instructions:
            found = {language: counted([*words, str(HERE / f"{name}{ending}")]) for language, (words, ending) in commands.items()}
            counts.append([name, first_sentence(name), *(f"{value / 1e6:.1f}" for value in found.values()), *ratios(found)])
    parts = [f"{processor()}, the least of {runs} runs.\n", table("Processor time in milliseconds", head, times)]
    if counts:
        parts.append(table("Millions of instructions", head, counts))
    return "\n".join(parts)


def main():
    parser = argparse.ArgumentParser(description=__doc__, formatter_class=argparse.RawDescriptionHelpFormatter)
    parser.add_argument("program")
    parser.add_argument("names", nargs="*", metavar="NAME")
    parser.add_argument("--runs", type=int, default=5, metavar="N")
    parser.add_argument("--instructions", action="store_true", help="count instructions too")
    parser.add_argument("--output", metavar="FILE", help="write the table to this file too")
    chosen = parser.parse_args()
    instructions = chosen.instructions
    if instructions and not shutil.which("valgrind"):
        print("note: valgrind isn't installed, so that no instructions are counted", file=sys.stderr)
        instructions = False
    names = chosen.names or sorted(path.stem for path in HERE.glob("*.rhai"))
    text = measured(names, languages(chosen.program), max(chosen.runs, 1), instructions)
    print(text, end="")
    if chosen.output:
        pathlib.Path(chosen.output).write_text(text)
    return 0


if __name__ == "__main__":
    sys.exit(main())
