#!/usr/bin/env python3
"""Times the command `grain` on scripts that are made to be slow, each at a size and at ten times that size.

    python3 bench/hostile_scripts.py PROGRAM [--size N] [--runs N] [--only WORD]

PROGRAM is the built command. For each shape it prints the least processor time of some runs at N and at 10 N, and the ratio
of the two. Work that grows with its input has a ratio of at most about 10. It ends with status 1 where a ratio is above 14, or the
command's status or the first line of what it prints isn't the one that the shape is made for.
"""
import os
import subprocess
import sys
import tempfile

from hostile import arguments

LIMIT = 14

UNKNOWN = "no variable has this name"
MANY = "there are too many arguments"


# Each shape answers the subcommand, a script at a size, the status, and a part of what is printed.


def names_of_a_closure(n):
    return "check", "|| [" + ",".join(f"v{i}" for i in range(n)) + "];", 1, UNKNOWN


def closures_nested(n):
    return "check", "|| " * 90 + "[" + ",".join(f"v{i}" for i in range(n)) + "];", 1, UNKNOWN


def closures_beside(n):
    return "check", "||1;" * n, 0, ""


def functions(n):
    return "check", "".join(f"fn f{i}() {{}}\n" for i in range(n)), 0, ""


def calls_of_functions(n):
    return "check", "".join(f"fn f{i}() {{}}\nf{i}();\n" for i in range(n)), 0, ""


def parameters(n):
    return "check", "fn f(" + ",".join(f"v{i}" for i in range(n)) + ") {}", 1, MANY


def parameters_of_a_closure(n):
    return "check", "|" + ",".join(f"v{i}" for i in range(n)) + "| 1;", 1, MANY


def steps(n):
    return "check", "let m = #{}; m" + ".a" * n + ";", 0, ""


def optional_steps(n):
    return "check", "let m = #{}; m" + "?.a" * n + ";", 0, ""


def methods(n):
    return "check", "let m = []; m" + ".len()" * n + ";", 0, ""


def variables(n):
    return "check", "".join(f"let v{i} = 0;\n" for i in range(n)) + "v0;\n" * n, 0, ""


def cases(n):
    return "check", "switch 1 { " + " | ".join(str(i) for i in range(n)) + " => 1 }", 0, ""


def characters(n):
    return "run", f"let s = \"\"; s.pad({n}, 'x'); let k = 0; for i in 0..{n} {{ if s[i] == 'x' {{ k += 1; }} }} k", 0, str(n)


def characters_from_the_end(n):
    return "run", f"let s = \"\"; s.pad({n}, 'x'); let k = 0; for i in 0..{n} {{ if s[-1 - i] == 'x' {{ k += 1; }} }} k", 0, str(n)


def lengths(n):
    return "run", f"let s = \"\"; s.pad({n}, 'é'); let k = 0; while k < s.len() {{ k += 1; }} k", 0, str(n)


def sorted_by_a_closure(n):
    return "run", f"let a = []; for i in 0..{n} {{ a.push(i * 7919 % {n}); }} a.sort(|x, y| x - y); a.len()", 0, str(n)


SHAPES = [
    names_of_a_closure,
    closures_nested,
    closures_beside,
    functions,
    calls_of_functions,
    parameters,
    parameters_of_a_closure,
    steps,
    optional_steps,
    methods,
    variables,
    cases,
    characters,
    characters_from_the_end,
    lengths,
    sorted_by_a_closure,
]


def once(program, subcommand, path):
    """The processor time of a run in seconds, its status, and what it prints."""
    with tempfile.TemporaryFile() as printed:
        run = subprocess.Popen([program, subcommand, path], stdout=printed, stderr=printed)
        _, status, used = os.wait4(run.pid, 0)
        run.returncode = os.waitstatus_to_exitcode(status)
        printed.seek(0)
        return used.ru_utime + used.ru_stime, run.returncode, printed.read(1000).decode(errors="replace")


def measure(program, shape, size, runs):
    """The least time of some runs, and whether each ends as the shape says."""
    subcommand, script, status, text = shape(size)
    with tempfile.TemporaryDirectory() as folder:
        path = os.path.join(folder, "a.rhai")
        with open(path, "w", encoding="utf-8") as file:
            file.write(script)
        all_runs = [once(program, subcommand, path) for _ in range(runs)]
    is_right = all(found == status and text in printed for _, found, printed in all_runs)
    return min(time for time, _, _ in all_runs), is_right


def main():
    asked = arguments(__doc__, 6000, 3)
    failed = False
    print("%-24s %10s %10s %6s" % ("shape", "N, ms", "10 N, ms", "ratio"))
    for shape in SHAPES:
        if asked.only not in shape.__name__:
            continue
        small, small_right = measure(asked.program, shape, asked.size, asked.runs)
        large, large_right = measure(asked.program, shape, 10 * asked.size, asked.runs)
        ratio = large / max(small, 0.001)
        flaw = ""
        if not (small_right and large_right):
            flaw = "  ends otherwise"
        elif ratio > LIMIT:
            flaw = "  above %d" % LIMIT
        failed = failed or flaw != ""
        print("%-24s %10.1f %10.1f %6.1f%s" % (shape.__name__, small * 1000, large * 1000, ratio, flaw))
        sys.stdout.flush()
    sys.exit(1 if failed else 0)


if __name__ == "__main__":
    main()
