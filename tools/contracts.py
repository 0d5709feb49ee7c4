#!/usr/bin/env python3
"""contracts.py REVISION [--all] [OLD=NEW[@CRATE,CRATE..] ..]: what became of contracts and definitions since REVISION, wherever
they are now.

Each function of src/ (tests aside) is found again by its type and name, each definition of specs/ by its name; the crate,
the file and the order don't count, nor how lines are broken. It prints each contract and each definition that isn't there
to the letter any more, and each public name that a facade (grain_base, grain_bytecode, grain) no longer re-exports.
OLD=NEW is a name that was changed: everywhere, or in files of those crates, by their names at REVISION.
With --all also what is new. It ends with 1 where a contract or a definition of REVISION changed or is gone.
"""
import collections
import os
import re
import subprocess
import sys

FACADES = ("grain_base", "grain_bytecode", "grain")
TESTS = re.compile(r"(^|/)(tests|samples|sample)(/|\.rt)|_tests/")


def files_at(revision):
    """The texts of the crates' files: of a revision, or of the work tree where it is None."""
    if revision is None:
        for at, folders, names in os.walk("crates"):
            folders[:] = [it for it in folders if it != "out"]
            for name in names:
                with open(f"{at}/{name}", encoding="utf-8", errors="replace") as it:
                    yield f"{at}/{name}", it.read()
        return
    names = subprocess.run(["git", "ls-tree", "-r", "--name-only", revision, "crates"], capture_output=True, text=True, check=True)
    for name in names.stdout.split("\n"):
        if name.endswith((".rt", ".antt")):
            shown = subprocess.run(["git", "show", f"{revision}:{name}"], capture_output=True, text=True, check=True)
            yield name, shown.stdout


def renaming(words):
    """A function that gives the text of a file of REVISION the names of now."""
    changes = []
    for word in words:
        change, _, crates = word.partition("@")
        old, _, new = change.partition("=")
        changes.append((re.compile(rf"\b{re.escape(old)}\b"), new, set(filter(None, crates.split(",")))))

    def renamed(name, text):
        crate = name.split("/")[1]
        for old, new, crates in changes:
            if not crates or crate in crates:
                text = old.sub(new, text)
        return text

    return renamed


def folded(text):
    return re.sub(r"\s+", " ", text).strip()


def contracts_of(text):
    """Of each function its owner and name, whether it is public, and its signature with its clauses up to the body."""
    owner, found = "", []
    code = re.sub(r"(?m)^\s*//.*\n", "", text)
    item = re.compile(r"(?ms)^(?:impl\b(?P<impl>[^{]*)\{|pub trait (?P<trait>\w+)|\}|(?P<fn>[ \t]*(?:pub(?:\([a-z]+\))? )?(?:final )?(?:const )?(?:unsafe )?(?:extern \"C\" )?fn (?P<name>\w+)))")
    for it in item.finditer(code):
        if it["impl"] is not None:
            owner = folded(it["impl"])
        elif it["trait"]:
            owner = it["trait"]
        elif it["fn"] is None:
            owner = ""
        else:
            end = re.compile(r"(?m)^[ \t]*\{\}?$|;$|\{$").search(code, it.end())
            head = folded(code[it.start() : end.start() if end else it.end()])
            # (which crates may call it isn't part of its contract)
            head = re.sub(r"^pub(\([a-z]+\))? ", "", head)
            found.append(((owner if it["fn"].startswith((" ", "\t")) else "", it["name"]), head))
    return found


def definitions_of(text):
    """Of each definition its name and its text, without comments and imports."""
    lines = [it for it in text.split("\n") if not it.lstrip().startswith("--")]
    blocks = re.split(r"\n(?=(?:abbrev |pub |record |data |opaque |unfoldable )+[^\s]+|[^\s:]+ [^\n]*: )", "\n".join(lines))
    found = []
    for it in blocks:
        head = re.match(r"(?:(?:abbrev|pub|record|data|opaque|unfoldable) )+([^\s:(]+)", it)
        if head and not re.match(r"(pub )?(use|mod) ", it):
            found.append((head[1], folded(it)))
    return found


def read(revision, renamed=lambda _name, text: text):
    contracts, definitions, given = collections.Counter(), collections.Counter(), collections.defaultdict(set)
    for name, text in files_at(revision):
        text = renamed(name, text)
        crate, _, rest = name[len("crates/") :].partition("/")
        if TESTS.search(name):
            continue
        if rest.startswith("src/") and name.endswith(".rt"):
            text = re.sub(r"(?s)\n#\[cfg\(test\)\]\nmod \w+ \{.*?\n\}\n", "\n", text)
            contracts.update(contracts_of(text))
            if rest == "src/lib.rt" and crate in FACADES:
                for uses in re.findall(r"(?s)pub use ([^;]*);", text):
                    names = uses[uses.find("{") + 1 :].rstrip("} \n") if "{" in uses else uses.rpartition("::")[2]
                    given[crate] |= {it.strip() for it in names.split(",") if it.strip()}
                given[crate] |= set(re.findall(r"(?m)^pub mod (\w+);", text))
            if crate in FACADES and rest.startswith("src/laws"):
                given[crate] |= {f"laws::{it}" for it in re.findall(r"(?m)^pub fn (\w+)", text)}
                for uses in re.findall(r"(?s)pub use [^;]*laws::(\{[^}]*\}|\w+);", text):
                    given[crate] |= {f"laws::{it.strip()}" for it in uses.strip("{}").split(",") if it.strip()}
        elif rest.startswith("specs/") and name.endswith(".antt"):
            definitions.update(definitions_of(text))
    return contracts, definitions, given


def main():
    words = [it for it in sys.argv[1:] if it != "--all" and "=" not in it]
    if len(words) != 1:
        sys.exit(__doc__)
    before, now = read(words[0], renaming([it for it in sys.argv[1:] if "=" in it])), read(None)
    lost = 0
    for what, old, new in zip(("contract", "definition"), before, now):
        gone, come = old - new, new - old
        for key, text in sorted(gone):
            lost += 1
            print(f"{what} gone or changed: {key if isinstance(key, str) else '::'.join(key).strip(':')}\n    was: {text[:600]}")
            for other, said in come:
                if other == key:
                    print(f"    now: {said[:600]}")
        if "--all" in sys.argv:
            for key, text in sorted(come):
                print(f"{what} new: {key if isinstance(key, str) else '::'.join(key).strip(':')}: {text[:300]}")
        print(f"{sum(old.values())} {what}s before, {sum(new.values())} now, {sum((old & new).values())} to the letter")
    for crate in FACADES:
        missing = before[2][crate] - now[2][crate]
        lost += len(missing)
        print(f"{crate}: {len(before[2][crate])} public names before, {len(now[2][crate])} now{'; lost: ' + ', '.join(sorted(missing)) if missing else ''}")
    return 1 if lost else 0


if __name__ == "__main__":
    sys.exit(main())
