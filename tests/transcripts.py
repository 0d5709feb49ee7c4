"""Reads and runs the `$` examples of a text: of a page (.ci/examples), or of a transcript (command.py).

An example is an indented block with lines `$ COMMAND`. The lines after one are what it prints. All examples of a text run in one
folder, in their order. `$ cat FILE` shows a file that later commands use: it is written as shown, unless an earlier command wrote
it.
"""
import pathlib
import re
import subprocess
import tempfile

INDENT = "    "
CREATED = re.compile(r"cat ([\w.-]+)$")
# After so many seconds a command is stopped, and has the status 124.
SECONDS = "120"


def path_of(*folders):
    """The value of PATH with which commands are found in these folders first."""
    return ":".join([*(str(pathlib.Path(folder).resolve()) for folder in folders), "/usr/local/bin", "/usr/bin", "/bin"])


def ran(command, folder, path, errors):
    """A command that ran to its end, with its status and its outputs. `errors` is where its standard error goes."""
    words = ["timeout", SECONDS, "bash", "-o", "pipefail", "-c", command]
    environment = {"PATH": path, "TERM": "dumb", "LC_ALL": "C.UTF-8"}
    return subprocess.run(words, cwd=folder, env=environment, stdin=subprocess.DEVNULL, stdout=subprocess.PIPE, stderr=errors)


def blocks(lines):
    """The first and the last line of each indented block, as indices from and to which it goes, with empty lines inside."""
    start = end = None
    for index, line in enumerate([*lines, "end"]):
        if line.startswith(INDENT):
            start = index if start is None else start
            end = index + 1
        elif line and start is not None:
            yield start, end
            start = None


def without_end(lines):
    """The lines without empty ones at the end, which no text can show."""
    count = len(lines)
    while count and not lines[count - 1].strip():
        count -= 1
    return lines[:count]


def examples(lines):
    """Each command of a block, and what it prints."""
    found = []
    for line in lines:
        text = line[len(INDENT) :]
        if text.startswith("$ "):
            found.append((text[2:], []))
        elif found:
            found[-1][1].append(text)
    return [(command, without_end(shown)) for command, shown in found]


def create(command, shown, folder):
    """Writes a file that is shown and that no earlier command wrote."""
    created = CREATED.match(command)
    if created and not (folder / created[1]).exists():
        (folder / created[1]).write_text("".join(line + "\n" for line in shown))


def run(text, printed):
    """The text with what its examples print, how many there are, and those that print something else than it shows. `printed`
    gives the lines that a command prints in a folder."""
    lines = text.splitlines()
    after, count, wrong, written = 0, 0, [], []
    with tempfile.TemporaryDirectory() as name:
        folder = pathlib.Path(name)
        for start, end in blocks(lines):
            found = examples(lines[start:end])
            if not found:
                continue
            written += lines[after:start]
            for command, shown in found:
                create(command, shown, folder)
                answer = without_end(printed(command, folder))
                written += [f"{INDENT}$ {command}", *(INDENT + line if line.strip() else "" for line in answer)]
                count += 1
                if answer != shown:
                    wrong.append((command, shown, answer))
            after = end
    return "\n".join([*written, *lines[after:]]) + "\n", count, wrong
