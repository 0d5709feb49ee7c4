#!/usr/bin/env python3
"""Whether the line program answers each line of tests/lines/NAME.in by the line of NAME.out, as docs/FORMAT.md says.

    python3 tests/lines.py GRAIN_CHECK

GRAIN_CHECK is the built program. It has to end with status 2 where an answer is `bad case`, and with 0 otherwise.
"""
import difflib
import pathlib
import subprocess
import sys

HERE = pathlib.Path(__file__).resolve().parent / "lines"


def differences(program, cases):
    """What is unlike the answers that a file of cases should get, as lines, and how many answers it should get."""
    answers = cases.with_suffix(".out")
    ran = subprocess.run([program], input=cases.read_text(), capture_output=True, text=True)
    wanted = answers.read_text().splitlines(True)
    found = list(difflib.unified_diff(wanted, ran.stdout.splitlines(True), str(answers), "what is answered"))
    status = 2 if "bad case\n" in wanted else 0
    if ran.returncode != status:
        found.append(f"{cases}: the line program ended with status {ran.returncode}, and not {status}\n")
    return found, len(wanted)


def main():
    if len(sys.argv) != 2:
        sys.exit(__doc__)
    program = pathlib.Path(sys.argv[1]).resolve()
    results = [differences(program, cases) for cases in sorted(HERE.glob("*.in"))]
    different = [line for found, _ in results for line in found]
    sys.stdout.writelines(different)
    if not different:
        print(f"lines: {sum(count for _, count in results)} well")
    return 1 if different else 0


if __name__ == "__main__":
    sys.exit(main())
