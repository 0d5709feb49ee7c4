#!/usr/bin/env python3
"""Whether the assembly text of random programs gives back their files, byte by byte.

    python3 tests/round_trips.py TOOL [--programs N] [--first SEED] [--jobs N]

TOOL is the built program, as `rt run` leaves it in crates/grain_tool/out. Each seed is a program of `grain smith`, and each odd
seed one of `grain smith --near`, which is mostly refused. Sizes vary. It ends with status 1 at the first text that fails.
100,000 programs, which is what it tries without --programs, take some minutes on four processors.
"""
import argparse
import concurrent.futures
import os
import pathlib
import subprocess
import sys

# Programs that one task tries, so that a task costs little beside them.
BATCH = 100
SIZES = ("0", "5", "20", "60", "200")


def ran(tool, *words, given=b""):
    done = subprocess.run([tool, *words], input=given, stdout=subprocess.PIPE, stderr=subprocess.PIPE, timeout=600)
    if done.returncode != 0:
        raise ValueError(f"grain {' '.join(words)} ends with {done.returncode}: {done.stderr[-400:]!r}")
    return done.stdout


def flaw(tool, seed):
    """What is wrong with the program of a seed, or None."""
    near = ["--near"] if seed % 2 else []
    try:
        program = ran(tool, "smith", "--seed", str(seed), "--size", SIZES[seed % len(SIZES)], *near)
        text = ran(tool, "print", "-", given=program)
        back = ran(tool, "parse", "-", given=text)
    except ValueError as error:
        return f"seed {seed}: {error}"
    return None if back == program else f"seed {seed}: its text gives other bytes"


def flaws(tool, first, end):
    return [found for seed in range(first, end) if (found := flaw(tool, seed))], end - first


def main():
    parser = argparse.ArgumentParser()
    parser.add_argument("tool")
    parser.add_argument("--programs", type=int, default=100_000)
    parser.add_argument("--first", type=int, default=0)
    parser.add_argument("--jobs", type=int, default=os.cpu_count())
    given = parser.parse_args()
    tool = str(pathlib.Path(given.tool).resolve())
    end = given.first + given.programs
    tried = 0
    with concurrent.futures.ThreadPoolExecutor(given.jobs) as pool:
        tasks = [pool.submit(flaws, tool, first, min(first + BATCH, end)) for first in range(given.first, end, BATCH)]
        for task in concurrent.futures.as_completed(tasks):
            found, count = task.result()
            tried += count
            if found:
                pool.shutdown(cancel_futures=True)
                sys.exit("\n".join(["round trips:", *found]))
    print(f"round trips: {tried} programs come back from their text")


main()
