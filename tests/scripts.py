#!/usr/bin/env python3
"""Runs the scripts of tests/scripts and compares what they print, and how they end, with what is expected.

    tests/scripts.py PROGRAM [TOPIC..] [--list] [--show CASE]

PROGRAM is the built command `grain`. A file `tests/scripts/TOPIC.rhai` has many cases:

    //--- NAME      begins a case: its script is the lines up to the first expected one
    //= TEXT        a line of the expected output; the script's value is printed after the rest, unless it is unit
    //! TEXT        the script ends with an error or a fault, whose message has this text
    //@ LINE        the message names this line of the script
    //@ LINE:COLUMN the message names this place of the script

The expectations are written from the Rhai Book, not from the output of a program. `PROGRAM run FILE` must end with status 1
where an error is expected, otherwise with status 0.

Each case that compiles is also compiled to a file (`compile`), which a host without modules and custom syntax accepts
(`validate`), printed as assembly (`print`) and parsed again (`parse`): the bytes must be the same. A program without one of
these subcommands is only run, and a note says so.

What docs/LANGUAGE.md shows of the language in code has to be in a case, which .ci/documents checks.

It ends with status 1 where anything differs, otherwise it prints `scripts: N well`.
"""
import argparse
import dataclasses
import pathlib
import re
import subprocess
import sys
import tempfile

HERE = pathlib.Path(__file__).resolve().parent / "scripts"
PAGE = HERE.parent.parent / "docs" / "LANGUAGE.md"
# What the page writes in code and isn't part of a script that runs: patterns, and forms that are refused.
PATTERNS = {
    "${..}", r"""\n \r \t \\ \" \' \xHH \uHHHH \UHHHHHHHH""", "++ -- === !== :=", "module::name", "f!(..)", "obj.call(f, ..)",
    "m.f(..)", "x[a..b]", "x.f(y)", "World", "a.b.f()",
}
MARKS = ("//=", "//!", "//@")
SECONDS = 60
# The capabilities of a host without modules and custom syntax.
PLAIN = " | ".join(("FUNCTION", "ARRAY", "BLOB", "MAP", "FN_PTR", "CURRYING", "SHARING", "THIS", "INDEXING", "PROPERTY", "METHOD"))


@dataclasses.dataclass
class Case:
    topic: str
    name: str
    script: str
    output: list
    texts: list
    places: list

    @property
    def title(self):
        return f"{self.topic}: {self.name}"

    @property
    def fails(self):
        return bool(self.texts or self.places)


def after_mark(line):
    """The text of an expected line, without its mark and the blank that follows it."""
    text = line[3:]
    return text[1:] if text.startswith(" ") else text


def case_of(topic, name, lines):
    """The case of these lines. Nothing but expected lines follows its first expected line."""
    first = next((at for at, line in enumerate(lines) if line.startswith(MARKS)), len(lines))
    script, expected = lines[:first], [line for line in lines[first:] if line]
    if not "".join(script).strip():
        raise SystemExit(f"{topic}: {name}: the case has no script")
    strange = [line for line in expected if not line.startswith(MARKS)]
    if strange:
        raise SystemExit(f"{topic}: {name}: `{strange[0]}` follows an expected line")
    of_mark = {mark: [after_mark(line) for line in expected if line.startswith(mark)] for mark in MARKS}
    places = of_mark["//@"]
    for place in places:
        if not re.fullmatch(r"\d+(:\d+)?", place):
            raise SystemExit(f"{topic}: {name}: `{place}` is no place")
    return Case(topic, name, "\n".join(script) + "\n", of_mark["//="], of_mark["//!"], places)


def cases_of(topic):
    """The cases of a topic, in the order of its file."""
    parts = re.split(r"^//--- (.*)\n", (HERE / f"{topic}.rhai").read_text(), flags=re.M)
    if parts[0].strip():
        raise SystemExit(f"{topic}: lines come before the first case")
    found = [case_of(topic, name, body.splitlines()) for name, body in zip(parts[1::2], parts[2::2])]
    names = [case.name for case in found]
    repeated = {name for name in names if names.count(name) > 1}
    if repeated:
        raise SystemExit(f"{topic}: two cases have the name {repeated.pop()}")
    return found


def names_place(message, place):
    """Whether a message names a line, or a line and a column: as `2:5`, or as `line 2, position 5`."""
    line, _, column = place.partition(":")
    if column:
        form = rf"(?<!\d){line}:{column}(?!\d)|\bline {line}, (?:position|column) {column}(?!\d)"
    else:
        form = rf":{line}:\d|(?<![\d:]){line}:\d|\bline {line}(?!\d)"
    return re.search(form, message) is not None


def unshown():
    """What docs/LANGUAGE.md shows of the language, and no case has. `.ci/documents` calls it, before anything is proved."""
    page = PAGE.read_text()
    shown = page[page.index("## Lexemes"):page.index("## Limits")]
    # The cases of modules need several files.
    paths = [*HERE.glob("*.rhai"), HERE.parent / "command" / "modules.txt"]
    text = "\n".join(path.read_text() for path in paths)
    for span in dict.fromkeys(re.findall(r"(?<!`)``? ?(.+?) ?``?(?!`)", shown)):
        call = re.fullmatch(r"(\w+)\(.*\)", span)
        has_call = call and f"{call[1]}(" in text
        if not (span in text or has_call or span in PATTERNS or all(part in text for part in span.split())):
            yield f"docs/LANGUAGE.md shows `{span}`, and no case has it"


class Checker:
    """Compares cases with the answers of a program."""

    def __init__(self, program, folder):
        self.program = str(pathlib.Path(program).resolve())
        self.folder = folder

    def call(self, *words):
        """Calls the program in the scratch folder. A run that doesn't end has no status."""
        words = [self.program, *words]
        try:
            return subprocess.run(words, cwd=self.folder, capture_output=True, timeout=SECONDS)
        except subprocess.TimeoutExpired:
            return subprocess.CompletedProcess(words, None, b"", b"it didn't end within %d seconds" % SECONDS)

    def lacking(self):
        """The subcommands that the program doesn't have."""
        return [name for name in ("compile", "validate", "print", "parse") if self.call(name, "--help").returncode != 0]

    def write(self, case):
        (self.folder / "case.rhai").write_text(case.script)

    def differences(self, case):
        """What is unlike what the case expects, each as a line."""
        self.write(case)
        done = self.call("run", "case.rhai")
        output, message = done.stdout.decode(errors="replace"), done.stderr.decode(errors="replace")
        lines = output.split("\n")
        if lines and lines[-1] == "":
            lines.pop()
        if done.returncode != int(case.fails):
            yield f"the status is {done.returncode}, and not {int(case.fails)}: {message.strip() or output.strip()}"
        elif message and not case.fails:
            yield f"it says on standard error: {message.strip()}"
        if lines != case.output:
            yield f"the output is {lines}, and not {case.output}"
        yield from (f"the message `{message.strip()}` hasn't `{text}`" for text in case.texts if text not in message)
        for place in case.places:
            if not names_place(message, place):
                yield f"the message `{message.strip()}` doesn't name {place}"

    def unlike_again(self, case):
        """Why the compiled file isn't accepted, or what differs after it was printed as assembly and parsed again."""
        self.write(case)
        for words in (
            ("compile", "case.rhai", "-o", "case.grain"),
            ("validate", "--caps", PLAIN, "case.grain"),
            ("print", "case.grain", "-o", "case.asm"),
            ("parse", "case.asm", "-o", "again.grain"),
        ):
            done = self.call(*words)
            if done.returncode != 0:
                # A script that isn't compiled is compared by `differences`.
                if words[0] != "compile" or not case.fails:
                    yield f"`{words[0]}` ended with status {done.returncode}: {done.stderr.decode(errors='replace').strip()}"
                return
        first, again = ((self.folder / name).read_bytes() for name in ("case.grain", "again.grain"))
        if first != again:
            yield f"its assembly is parsed as other bytes: {len(first)} and {len(again)} of them"


def main():
    parser = argparse.ArgumentParser(description=__doc__, formatter_class=argparse.RawDescriptionHelpFormatter)
    parser.add_argument("program")
    parser.add_argument("topics", nargs="*", metavar="TOPIC")
    parser.add_argument("--list", action="store_true", help="print the names of the cases alone")
    parser.add_argument("--show", metavar="CASE", help="print the script of a case, `TOPIC: NAME`, alone")
    chosen = parser.parse_args()
    topics = chosen.topics or sorted(path.stem for path in HERE.glob("*.rhai"))
    cases = [case for topic in topics for case in cases_of(topic)]
    if chosen.list or chosen.show:
        for case in cases:
            if chosen.list:
                print(case.title)
            elif case.title == chosen.show:
                print(case.script, end="")
        return 0
    with tempfile.TemporaryDirectory() as folder:
        checker = Checker(chosen.program, pathlib.Path(folder))
        lacking = checker.lacking()
        if lacking:
            print(f"note: the program has no `{'`, `'.join(lacking)}`, so that nothing is printed and parsed again")
        failed = 0
        for case in cases:
            found = list(checker.differences(case))
            if not lacking:
                found += checker.unlike_again(case)
            failed += bool(found)
            for line in found:
                print(f"{case.title}: {line}")
    if failed:
        print(f"scripts: {failed} of {len(cases)} differ")
        return 1
    print(f"scripts: {len(cases)} well")
    return 0


if __name__ == "__main__":
    sys.exit(main())
