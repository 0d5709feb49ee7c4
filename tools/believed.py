#!/usr/bin/env python3
"""Prints what has to be believed of a promise: the definitions that a contract rests on, in reading order.

    tools/believed.py               of each public contract of the headline and of the calls that README names: how many definitions, files and lines
    tools/believed.py FUNCTION      of one of them, file by file, each behind those that it uses
    tools/believed.py --text [FUNCTION]      of `verify`, or of one of them, as one text: each definition, and what the kit's words mean
    tools/believed.py --write       writes the list of `verify` to docs/reference/belief.md
    tools/believed.py --check       fails where that file isn't up to date

What a clause names and a `ghost use` brings is a definition of some specs/; what that names is one, and so on. If a contract
or a definition speaks of a type of the code, or of one whose fields have it, what contracts see of it (`ghost view` in its
`impl Model`) is a definition as well; `self` speaks of the type of its `impl`. Lines are those of the definitions, without
comments and blank lines. The fields of types and the words of the kit are listed and not counted.
"""
import pathlib
import re
import shutil
import sys

TOP = pathlib.Path(__file__).resolve().parent.parent
CRATES = TOP / "crates"
BELIEF = TOP / "docs" / "reference" / "belief.md"

# The public calls that carry the headline.
FUNCTIONS = {
    "verify": "grain_verify/src/verifier.rt",
    "verify_metered": "grain_verify/src/verifier.rt",
    "verify_located": "grain_verify/src/verifier.rt",
    "verify_read": "grain_verify/src/verifier.rt",
    "Scratch::verify": "grain_verify/src/verifier.rt",
    "Program::verify": "grain/src/tighten.rt",
    "Program::tighten_stack": "grain/src/tighten.rt",
    "build": "grain/src/builder.rt",
}

# The other calls that README names, and the exports that verify.
OTHERS = {
    "load": "grain_file/src/loading.rt",
    "tighten": "grain_flat_file/src/changed.rt",
    "compile": "rhai_compile/src/programs.rt",
    "Runnable::run": "grain_machine/src/run.rt",
    "Runnable::resume": "grain_machine/src/run.rt",
    "grain_proved_verify_with": "grain_c/src/verify.rt",
    "grain_proved_file_verify": "grain_c/src/files.rt",
    "grain_proved_file_tighten": "grain_c/src/changed.rt",
    "grain_proved_session_compile": "grain_engine_c/src/opening.rt",
    "grain_proved_session_compile_modules": "grain_engine_c/src/opening.rt",
    "grain_proved_session_load": "grain_engine_c/src/opening.rt",
    "grain_proved_session_resume": "grain_engine_c/src/calls.rt",
}
SOURCES = {**FUNCTIONS, **OTHERS}

WORD = re.compile(r"[A-Za-z_][\w']*")
TYPE = re.compile(r"^pub(?:\(crate\))? (?:struct|enum) (\w+)[^;]*?(?:\{\n(.*?)^\}|;)", re.M | re.S)
MODEL = re.compile(r"^impl(?:<[^>]*>)? Model for (\w+)[^{]*\{\n(.*?)^\}", re.M | re.S)
VIEW = re.compile(r"^    (ghost (?:Value|view) = .*?\};)$", re.M | re.S)
KIT = re.compile(r"^(?:ghost )?(?:pub )?use Rattle\.(std|bitflags)\.specs\.([\w.]+)\.\{(.*)\};?$", re.M)
USE = re.compile(r"^(?:ghost )?(?:pub )?use Rattle\.((?:grain|rhai)\w*)\.specs\.([\w.]+?)(?:\.\{(.*)\})?(?: as (\w+))?;?$", re.M)
# A definition begins with its name behind these words, or with its name and its type, also in a block `mutual`.
KEYED = re.compile(r"^(?:(?:abbrev|unfoldable|opaque|pub|record|data) )+([^\s:({]+)(?=[\s:({])")
TYPED = re.compile(r"^([^\s:({]+)(?: \{[^}]*\})* :(?=\s)")
MUTUAL = re.compile(r"^(?:(?:abbrev|unfoldable) )?mutual$")


def uses(text):
    """What a file brings: by its name here, the crate, the file and the name there; none where it is the whole file."""
    brought = {}
    for crate, path, names, alias in USE.findall(text):
        if path.startswith("declared"):
            for name in filter(None, re.split(r",\s*", names)):
                brought[name] = (crate, "declared", name)
            continue
        for name in filter(None, re.split(r",\s*", names)):
            there, _, here = name.partition(" as ")
            brought[here or there] = (crate, path, there)
        if alias or not names:
            brought[alias or path] = (crate, path, None)
    return brought


def blocks(text):
    """The definitions of a file, in order, each with the lines that count."""
    found, name, indent = {}, None, ""
    for line in text.splitlines():
        if MUTUAL.match(line):
            name, indent = None, "  "
            continue
        if line[:1].strip():
            indent = ""
        rest = line.removeprefix(indent)
        if not rest.startswith((" ", "use ", "pub use ", "module ", "--")):
            begins = KEYED.match(rest) or TYPED.match(rest)
            first = rest.split(" ")[0]
            # (a line `name pattern = value` belongs to the definition of that name)
            name = begins[1] if begins else first if first in found else name
            if begins:
                found.setdefault(name, [])
        if name and line.strip() and not line.lstrip().startswith("--"):
            found[name].append(line)
    return found


def all_files():
    """Of each crate's specs/ file what it brings and what it defines, and of each file of its src/ the views of its types."""
    files = {}
    for path in sorted(CRATES.glob("*/specs/*.antt")):
        text = path.read_text()
        files[path.parent.parent.name, path.stem] = (uses(text), blocks(text))
    for crate, path, text in sources():
        for name, body in MODEL.findall(text):
            inner = re.sub(r"^    ", "", body, flags=re.M)
            lines = [line for part in VIEW.findall(body) for line in part.splitlines()]
            brought = {**uses(text), **uses(inner)}
            old_brought, defined = files.get((crate, path), ({}, {}))
            files[crate, path] = ({**old_brought, **brought}, {**defined, f"view of {name}": lines})
    return files


def sources():
    """The files of the crates' src/: crate, path and text."""
    for path in sorted(CRATES.glob("*/src/**/*.rt")):
        crate = path.relative_to(CRATES).parts[0]
        if not crate.endswith("_tests"):
            yield crate, str(path.relative_to(CRATES / crate)), path.read_text()


def all_types():
    """The types of the code by name: crate, file, the words of its fields."""
    types = {}
    for crate, path, text in sources():
        for name, fields in TYPE.findall(text):
            words = {word for line in fields.splitlines() if not line.strip().startswith(("//", "ghost")) for word in WORD.findall(line) if word[0].isupper()}
            types.setdefault(name, []).append((crate, path, words))
    return types


def views(files, types, crate, name):
    """The views of a type and of those that its fields have."""
    seen, waiting = set(), [(crate, name)]
    while waiting:
        crate, name = waiting.pop()
        among = types.get(name, [])
        found = next((it for it in among if it[0] == crate), among[0] if len(among) == 1 else None)
        if found is None or (found[0], name) in seen:
            continue
        own, path, words = found
        seen.add((own, name))
        if f"view of {name}" in files.get((own, path), ({}, {}))[1]:
            yield own, path, f"view of {name}"
        else:
            waiting.extend((own, word) for word in words)


def home(files, crate, path, name):
    """Where a definition stands that a crate gives out: in the crate itself or in one below."""
    if name in files.get((crate, path), ({}, {}))[1]:
        return crate, path
    for (other, file), (_, defined) in files.items():
        if file == path and name in defined:
            return other, file
    return None


def named(files, brought, defined, own, text):
    """The definitions that a text names."""
    for word in set(WORD.findall(text)):
        if word in defined:
            yield (*own, word)
        elif word in brought:
            crate, path, name = brought[word]
            if path == "declared":
                yield from views(files, TYPES, crate, name)
                continue
            names = [name] if name else re.findall(re.escape(word) + r"\.(\w+)", text)
            for there in names:
                place = home(files, crate, path, there)
                if place:
                    yield (*place, there)


def closure(files, wanted):
    """All that these definitions rest on, they included."""
    seen, waiting = set(), list(wanted)
    while waiting:
        place = waiting.pop()
        if place in seen:
            continue
        seen.add(place)
        crate, path, name = place
        brought, defined = files[crate, path]
        waiting.extend(named(files, brought, defined, (crate, path), "\n".join(defined[name])))
    return seen


def kit_words(files, seen):
    """The words of the kit that these definitions cite, by the file of the kit from which they are brought."""
    cited = {}
    for crate, path, name in seen:
        base = CRATES / crate
        text = (base / path if path.startswith("src/") else base / "specs" / f"{path}.antt").read_text()
        own = "\n".join(files[crate, path][1][name])
        for library, file, names in KIT.findall(re.sub(r"^    ", "", text, flags=re.M)):
            for word in filter(None, re.split(r",\s*", names)):
                parts = word.partition(" as ")[2] or word
                if all(re.search(r"(?<![\w'])" + re.escape(part) + r"(?![\w'])" if WORD.fullmatch(part) else re.escape(part), own) for part in filter(None, parts.split("◌"))):
                    cited.setdefault((library, file), set()).add(word.partition(" as ")[0])
    return cited


def contract(function):
    """The clauses of a function, and what its file brings. What its parameters are is part of them."""
    text = (CRATES / SOURCES[function]).read_text()
    owner, _, name = function.rpartition("::")
    head = next(
        it
        for it in re.finditer(rf'^ *pub (?:extern "C" )?fn {name}\b(.*?)\n *\{{(?:\}})?\n', text, re.M | re.S)
        if not owner or stands_in(text, it.start(), owner)
    )
    signature, clauses = re.split(r"(?=requires|ensures)", head[1], maxsplit=1)
    types = {word for word in WORD.findall(signature) if word[0].isupper()}
    return clauses, uses(text), types | ({owner} if re.search(r"\bself\b", clauses) else set())


def stands_in(text, at, owner):
    """Whether a place is in an `impl` of this type."""
    heads = re.findall(r"^impl[^{]*?(\w+)(?:<[^{]*>)? \{", text[:at], re.M)
    return bool(heads) and heads[-1] == owner


def rests_on(files, function):
    clauses, brought, types = contract(function)
    crate = SOURCES[function].split("/")[0]
    wanted = list(named(files, brought, {}, None, clauses))
    return closure(files, wanted + [place for name in types for place in views(files, TYPES, crate, name)])


def by_file(files, seen):
    """The files in reading order, each behind those that it uses, with its definitions in order and their lines."""
    wanted = {(crate, path) for crate, path, _ in seen}
    needed = {place: set() for place in wanted}
    for crate, path, name in seen:
        brought, defined = files[crate, path]
        text = "\n".join(defined[name])
        needed[crate, path] |= {(c, p) for c, p, _ in named(files, brought, defined, (crate, path), text)} - {(crate, path)}
    order = {line.split(":")[0].split()[0]: place for place, line in enumerate((TOP / "crates.txt").read_text().splitlines()) if line[:1] != "#"}
    listed = []
    while len(listed) < len(wanted):
        ready = [place for place in wanted - set(listed) if needed[place] <= set(listed)]
        listed.append(min(ready, key=lambda place: (order[place[0]], place)))
    for place in listed:
        defined = files[place][1]
        names = [name for name in defined if (*place, name) in seen]
        yield place, names, sum(len(defined[name]) for name in names)


def page(files):
    seen = rests_on(files, "verify")
    rows = list(by_file(files, seen))
    count, lines = sum(len(names) for _, names, _ in rows), sum(size for _, _, size in rows)
    text = [
        "# What has to be believed",
        "",
        f"The contract of `verify` rests on {count} definitions in {len(rows)} files, {lines} lines without comments. Who has read these knows what a yes says, and needs to read no proof. [THEOREM.md](../THEOREM.md) explains them.",
        "",
        "The files are in reading order, each after those that it uses; a file of src/ has what contracts see of a type. [tools/believed.py](../../tools/believed.py) follows the names and writes this page; `tools/believed.py --text` prints all of it as one text. With them belong the fields of the types of the code that they name: operations, chains, switches, pools, values and refusals. The last table has the words of the kit.",
        "",
        "| File | Lines | Definitions |",
        "|---|---|---|",
    ]
    for (crate, path), names, size in rows:
        text.append(f"| [{path}](../../{place_of(crate, path)}) | {size} | {', '.join(f'`{name}`' for name in names)} |")
    text += ["", "| File of the kit | Words |", "|---|---|"]
    for (library, file), words in sorted(kit_words(files, seen).items()):
        text.append(f"| {library}, {file} | {', '.join(f'`{word}`' for word in sorted(words))} |".replace("||", "\\|\\|"))
    text += [
        "",
        "Other calls rest on more, or on less. Laws that a definition carries, such as those of a format of files, are counted with it. `tools/believed.py --text CALL` prints what a call rests on.",
        "",
        "| Call | Definitions | Lines | Lines that `verify` lacks |",
        "|---|---|---|---|",
    ]
    for function in OTHERS:
        rest = rests_on(files, function)
        text.append(f"| `{function}` | {len(rest)} | {lines_of(files, rest)} | {lines_of(files, rest - seen)} |")
    return "\n".join(text) + "\n"


def lines_of(files, seen):
    return sum(len(files[crate, path][1][name]) for crate, path, name in seen)


def place_of(crate, path):
    return f"crates/{crate}/{path}" if path.startswith("src/") else f"crates/{crate}/specs/{path}.antt"


def kit_definitions(cited):
    """What the kit says of these words, as far as it is found in its definitions."""
    command = shutil.which("rt")
    if command is None:
        return
    kit = pathlib.Path(command).resolve().parent.parent / "rattle"
    wanted = {word for words in cited.values() for word in words}
    for path in sorted(it for library in ("core", "std", "bitflags") for it in (kit / library / "specs").glob("**/*.antt")):
        defined = blocks(path.read_text())
        found = [name for name in defined if name in wanted]
        if found:
            yield path.relative_to(kit), [defined[name] for name in found]


def whole_text(files, function):
    """All definitions that a contract rests on, in reading order, as one text."""
    seen = rests_on(files, function)
    for (crate, path), names, _ in by_file(files, seen):
        yield f"-- {place_of(crate, path)}"
        for name in names:
            yield ""
            yield from ([f"-- {name}"] if name.startswith("view of") else [])
            yield from files[crate, path][1][name]
        yield ""
    cited = kit_words(files, seen)
    for path, found in kit_definitions(cited):
        yield f"-- of the kit: {path}"
        for lines in found:
            yield ""
            yield from lines
        yield ""


def is_written(files):
    """Whether docs/reference/belief.md has the list as it is now."""
    return BELIEF.is_file() and BELIEF.read_text() == page(files)


TYPES = all_types()


def main():
    files = all_files()
    if sys.argv[1:] == ["--write"]:
        BELIEF.parent.mkdir(exist_ok=True)
        BELIEF.write_text(page(files))
    elif sys.argv[1:] == ["--check"]:
        if not is_written(files):
            raise SystemExit("docs/reference/belief.md isn't up to date: run tools/believed.py --write")
    elif sys.argv[1:2] == ["--text"]:
        print("\n".join(whole_text(files, sys.argv[2] if sys.argv[2:] else "verify")))
    elif sys.argv[1:]:
        for (crate, path), names, size in by_file(files, rests_on(files, sys.argv[1])):
            print(f"{size:4} {place_of(crate, path)}: {', '.join(names)}")
    else:
        for function in SOURCES:
            rows = list(by_file(files, rests_on(files, function)))
            print(f"{function}: {sum(len(names) for _, names, _ in rows)} definitions in {len(rows)} files, {sum(size for _, _, size in rows)} lines")


if __name__ == "__main__":
    main()
