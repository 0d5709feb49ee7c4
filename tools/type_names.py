#!/usr/bin/env python3
"""Prints the names under which two crates or more export types of their own.

    python3 tools/type_names.py [MOST]

It ends with 1 if there are more than MOST. A crate exports a type if its lib.rt names it in a `pub use`, or if the type is in a
module that is public up to there.
"""
import pathlib
import re
import sys

TOP = pathlib.Path(__file__).resolve().parent.parent
TYPE = re.compile(r"^pub (?:struct|enum|trait|type) (\w+)", re.M)


def exported(crate):
    """The names of the types that a crate defines and exports."""
    source = crate / "src"
    head = (source / "lib.rt").read_text()
    named = set(re.findall(r"\w+", " ".join(re.findall(r"^pub use (.*?);", head, re.M | re.S))))
    public = set(re.findall(r"^pub mod (\w+);", head, re.M))
    found = set()
    for path in source.rglob("*.rt"):
        names = set(TYPE.findall(path.read_text()))
        found |= names if path.stem in public or path.stem == "lib" else names & named
    return found


def main():
    homes = {}
    for crate in sorted(path for path in (TOP / "crates").iterdir() if (path / "src/lib.rt").exists() and not path.name.endswith("_tests")):
        for name in exported(crate):
            homes.setdefault(name, []).append(crate.name)
    shared = {name: crates for name, crates in sorted(homes.items()) if len(crates) > 1}
    for name, crates in shared.items():
        print(f"{name}: {', '.join(crates)}")
    most = int(sys.argv[1]) if len(sys.argv) > 1 else len(shared)
    print(f"{len(shared)} names of types are exported by two crates or more (at most {most})")
    sys.exit(len(shared) > most)


main()
