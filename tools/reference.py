#!/usr/bin/env python3
"""Writes the reference of contracts and definitions from the sources, or says whether it is up to date.

    tools/reference.py              fails where a file of docs/reference isn't what the sources say; `--check` is the same
    tools/reference.py --write      writes a page for each crate, and the index README.md

The page of a crate has each public function with a contract: its signature, its doc comment, its clauses, and what the
definitions that a clause cites say; and the ghost members of public traits and implementations. Of a program it has all
functions with a contract, since none of them is public. Then come the wrong bodies that the prover must refuse, each by the
function that it changes, and each definition of specs/ with its comment, each file after those that it uses. There are no
line numbers, so that a page changes only with what it says.
"""
import dataclasses
import functools
import pathlib
import re
import sys
import textwrap

import believed

TOP = pathlib.Path(__file__).resolve().parent.parent
CRATES = TOP / "crates"
REFERENCE = TOP / "docs" / "reference"

FN = re.compile(r"^(\s*)(pub(?:\(\w+\))? )?(?:final )?(?:const )?(?:unsafe )?(?:extern \"C\" )?fn (\w+)")
OWNER = re.compile(r"^(?:unsafe )?(impl|pub trait|trait)\b(?:<[^{]*?>(?= ))?\s*([^{]*?)\s*(?:where .*)?\{")
CLAUSE = re.compile(r"^\s*(ensures\*?|requires\*?)(?:\s+(\w+))?\s*\{", re.M)
BEGINS = re.compile(r"^(?:(?:abbrev|unfoldable|opaque) )*pub (?!mod |use )(?:record |data )?([^\s:(]+)(?=[\s:(])")
GHOST = re.compile(r"^    ghost (\w+)(?: =|:) \{", re.M)
FIELD = re.compile(r"^  (?:pub )?([^\s:{(]+(?: [^\s:{(]+)*?)\s*(?::|$)")


@dataclasses.dataclass
class Clause:
    kind: str
    name: str
    text: str
    comment: str


@dataclasses.dataclass
class Function:
    owner: str
    name: str
    path: str
    signature: str
    visible: str
    docs: list
    clauses: list

    def title(self):
        return "::".join(filter(None, [self.owner, self.name]))


def crates():
    """The crates in the order of crates.txt, each after those that it uses; those of tests are left out."""
    lines = (TOP / "crates.txt").read_text().splitlines()
    names = [line.split(":")[0].split()[0] for line in lines if line.strip() and not line.startswith("#")]
    return [name for name in names if not name.endswith("_tests")]


def without_tests(text):
    """The text with its test modules as empty lines, so that the numbers of its lines stay."""
    return re.sub(r"^#\[cfg\(test\)\]\nmod \w+ \{.*?^\}$", lambda found: "\n" * found[0].count("\n"), text, flags=re.M | re.S)


def owner_of(line):
    """The type, or the type and its trait, in whose block the functions below are."""
    found = OWNER.match(line)
    if not found:
        return None
    trait, is_for, name = found[2].partition(" for ")
    name = re.sub(r"<.*>", "", name or trait).strip()
    if found[1] != "impl":
        return name.split(":")[0].strip(), "trait"
    trait = re.sub(r"<'\w+>|\b\w+::", "", trait).strip()
    return (f"<{name} as {trait}>", "impl for") if is_for else (name, "impl")


def closing(text, begin):
    """Where the brace that opens at a place is closed."""
    depth = 0
    for at in range(begin, len(text)):
        depth += {"{": 1, "}": -1}.get(text[at], 0)
        if depth == 0:
            return at
    return len(text) - 1


def clauses_of(head):
    """The clauses of a function's head, each with the comment above it."""
    found, at = [], 0
    while match := CLAUSE.search(head, at):
        end = closing(head, match.end() - 1)
        above = re.search(r"((?:^\s*//[^\n]*\n)+)\s*\Z", head[at : match.start() + 1], re.M)
        comment = " ".join(filter(None, (line.strip().removeprefix("//").strip() for line in above[1].splitlines()))) if above else ""
        text = "\n".join(line for line in head[match.end() : end].splitlines() if not line.strip().startswith("//"))
        found.append(Clause(match[1], match[2] or "", re.sub(r"\s+", " ", text).strip(), comment))
        at = end + 1
    return found


def members_of(block):
    """What a trait or its implementation says in ghost members: how a type is seen, what is printed, what is kept."""
    for found in (it for it in GHOST.finditer(block) if it[1] not in ("View", "Value")):
        end = closing(block, found.end() - 1)
        comment = re.search(r"((?:^\s*///[^\n]*\n)+)\s*\Z", block[: found.start()], re.M)
        said = " ".join(filter(None, (line.strip().removeprefix("///").strip() for line in comment[1].splitlines()))) if comment else ""
        yield Clause("ghost", found[1], re.sub(r"\s+", " ", block[found.end() : end]).strip(), said)


def docs_above(lines, number):
    """The doc comment above a line, past its attributes."""
    docs = []
    while number > 0 and lines[number - 1].lstrip().startswith(("#[", "///", "//", ")]")):
        number -= 1
        if lines[number].lstrip().startswith("///"):
            docs.insert(0, lines[number].strip()[3:].removeprefix(" "))
    return docs


def head_of(lines, number, indent):
    """The lines of a function up to its body."""
    end = re.compile(rf"^{indent}\{{\}}?$")
    for last in range(number, len(lines)):
        line = lines[last]
        if end.match(line) or last == number and re.search(r"\{(?:\}|.*\})?$", line) and "ensures" not in line:
            return "\n".join(lines[number:last])
        plain = line.startswith(indent) and not line.startswith(indent + " ")
        if line.rstrip().endswith(";") or plain and line.rstrip().endswith("{") and last > number:
            return "\n".join(lines[number : last + 1])
    return "\n".join(lines[number:])


def signature_of(head):
    """The head of a function without its clauses and comments, laid out from its first column."""
    first = CLAUSE.search(head)
    lines = head[: first.start() if first else len(head)].rstrip().removesuffix("{").rstrip().splitlines()
    return textwrap.dedent("\n".join(line for line in lines if not line.strip().startswith("//"))).rstrip(";")


def functions(crate):
    """The functions of a crate's sources, those of tests left out."""
    for path in sorted((CRATES / crate / "src").glob("**/*.rt")):
        relative = str(path.relative_to(CRATES / crate))
        if re.search(r"(^|/)(tests|samples|sample)(/|\.rt)", relative):
            continue
        lines = without_tests(path.read_text()).splitlines()
        owner, kind = "", ""
        for number, line in enumerate(lines):
            owner, kind = owner_of(line) or (("", "") if line == "}" else (owner, kind))
            if kind in ("trait", "impl for") and owner_of(line) and not line.endswith("}"):
                last = next((it for it in range(number, len(lines)) if lines[it] == "}"), number)
                visible = "" if kind == "trait" and not line.startswith("pub ") else "pub"
                yield Function(owner, "", relative, "", visible, docs_above(lines, number), list(members_of("\n".join(lines[number:last]))))
            found = FN.match(line)
            if not found:
                continue
            visible = "pub" if kind in ("trait", "impl for") and found[1] else (found[2] or "").strip()
            head = head_of(lines, number, found[1])
            yield Function(owner if found[1] else "", found[3], relative, signature_of(head), visible, docs_above(lines, number), clauses_of(head))


def exported(crate):
    """The names that the crate exports by `pub use`, and its public modules."""
    names, modules = set(), set()
    for other in crates():
        for path in (CRATES / other / "src").glob("**/*.rt"):
            text = path.read_text()
            for used in re.findall(r"(?s)^ *pub use ([^;]*);", text, re.M):
                listed = used[used.find("{") + 1 :].rstrip("} \n").split(",") if "{" in used else [used.rpartition("::")[2]]
                names |= {it.partition(" as ")[0].strip() for it in listed if it.strip()}
    for path in (CRATES / crate / "src").glob("**/*.rt"):
        for module in re.findall(r"^pub mod (\w+)[;{]?", path.read_text(), re.M):
            modules.add(module)
    return names, modules


@functools.cache
def own_traits(crate):
    """The traits of a crate that it doesn't export."""
    text = "".join(path.read_text() for path in (CRATES / crate / "src").glob("**/*.rt"))
    uses = " ".join(re.findall(r"(?s)^ *pub use ([^;]*);", text, re.M))
    return {name for name in re.findall(r"^(?:pub(?:\(\w+\))? )?trait (\w+)", text, re.M) if not re.search(rf"\b{name}\b", uses)}


@functools.cache
def types(crate):
    """The public types and traits of a crate."""
    text = "".join(path.read_text() for path in (CRATES / crate / "src").glob("**/*.rt"))
    return set(re.findall(r"^pub (?:struct|enum|trait) (\w+)", text, re.M))


def is_public(function, crate, names, modules):
    """Whether callers outside of the crate reach a function; of a program each function counts."""
    if (CRATES / crate / "src" / "main.rt").is_file():
        return True
    if function.visible != "pub":
        return False
    if crate == "grain_c":
        return True
    if re.sub(r".* as (\w+).*", r"\1", function.owner) in own_traits(crate):
        return False
    place = function.path.removeprefix("src/").removesuffix(".rt").split("/")
    if all(part in modules for part in place) and not function.owner:
        return True
    owner = re.sub(r"^<(\w+).*", r"\1", function.owner)
    return (owner or function.name) in names or all(part in modules for part in place) and owner in types(crate)


def linked(text):
    """The text with a link for each document and file of the repository that it names outside of code."""

    def link(found):
        name, behind = found[2], re.match(r',? \(?"([^"]+)"', text[found.end() :])
        title = re.sub(r"[^\w -]", "", behind[1]).lower().replace(" ", "-") if behind and found[0].endswith(".md") else ""
        return f"[{name}](../../{name}{title and '#' + title})" if name and (TOP / name).is_file() else found[0]

    return re.sub(r"(`[^`]*`|\[[^\]]*\]\([^)]*\))|((?<![\w/.-])(?:bench|docs|hosts|tests|tools)/[\w/.-]*\w)", link, text)


def summary(docs):
    """A doc comment as one paragraph for each of its own, its headings in bold."""
    paragraphs = re.split(r"\n\s*\n", "\n".join(docs).strip())
    for paragraph in filter(None, paragraphs):
        lines = [re.sub(r"^# (.*)$", r"**\1.**", line.strip()) for line in paragraph.splitlines()]
        joined = "\n".join(lines) if any(line.startswith(("-", "|", "```")) for line in lines) else " ".join(lines)
        yield re.sub(r"\[(`[^`]*`|[^\]]*)\](?:\([^)]*\))?", r"\1", joined)


class Definitions:
    """What specs/ defines: of each definition its comment, its signature and its parts."""

    def __init__(self):
        self.found = {}
        self.heads = {}
        for path in sorted(CRATES.glob("*/specs/*.antt")):
            if path.stem != "Lib" and not path.parent.parent.name.endswith("_tests"):
                self.read(path)

    def read(self, path):
        crate, lines = path.parent.parent.name, flat(path.read_text().splitlines())
        own = {}
        self.heads[crate, path.stem] = comment_at(lines, 0)[0]
        for number, line in enumerate(lines):
            begins = BEGINS.match(line)
            if begins and begins[1] not in own:
                first, at = [], number
                while at > 0 and lines[at - 1].startswith("--"):
                    at -= 1
                    first.insert(0, lines[at].lstrip("- "))
                signature = line[begins.start(1) :].removesuffix(" where")
                own[begins[1]] = (" ".join(first) if at > 0 else "", signature, parts_of(lines, number + 1))
        self.found[crate, path.stem] = own

    def home(self, crate, path, name):
        """Where a definition is that a crate re-exports: in the crate itself or in another."""
        if name in self.found.get((crate, path), {}):
            return crate, path
        return next((place for place, own in self.found.items() if place[1] == path and name in own), None)

    def comment(self, place):
        crate, file, name = place
        return self.found.get((crate, file), {}).get(name, ("", "", []))[0]


def flat(lines):
    """The lines, those of a block of definitions that use each other as if they were not indented."""
    found, inside = [], False
    for line in lines:
        inside = re.match(r"(?:\w+ )*mutual$", line) is not None or inside and (not line.strip() or line.startswith("  "))
        found.append(line[2:] if inside and line.startswith("  ") else line)
    return found


def comment_at(lines, number):
    """The comment that begins at a line, and the line after it."""
    words = []
    while number < len(lines) and lines[number].lstrip().startswith("--"):
        words.append(lines[number].strip().lstrip("-").strip())
        number += 1
    return " ".join(words), number


def parts_of(lines, number):
    """The fields or constructors of a definition that have a comment, each with it."""
    parts = []
    while number < len(lines) and lines[number].startswith("  "):
        comment, number = comment_at(lines, number)
        field = FIELD.match(lines[number]) if number < len(lines) else None
        if comment and field:
            parts.append((field[1], comment))
        number += 1
    return parts


def anchor(place):
    return "-".join(place).replace("'", "_")


def cited(clause, brought, definitions):
    """The definitions that a clause names, in the order in which it does."""
    seen = []
    for word in believed.WORD.findall(clause.text):
        crate, path, name = brought.get(word, (None, None, None))
        place = crate and path != "declared" and name and definitions.home(crate, path, name)
        if place and (*place, name) not in seen:
            seen.append((*place, name))
    return seen


def link_to(place, crate):
    """The link from the page of a crate to a definition."""
    return f"{'' if place[0] == crate else place[0] + '.md'}#{anchor(place)}"


def contract_lines(crate, function, name, brought, definitions):
    yield f'#### <a id="{name}"></a>`{function.title()}`'
    if function.signature:
        yield ""
        yield from ("```rust", *function.signature.splitlines(), "```")
    for paragraph in summary(function.docs):
        yield ""
        yield paragraph
    yield ""
    for clause in function.clauses:
        name = f" `{clause.name}`" if clause.name else ""
        comment = f" {clause.comment}" if clause.comment else ""
        yield f"- **{clause.kind}**{name}:{comment} `{clause.text}`"
        for place in cited(clause, brought, definitions):
            said = definitions.comment(place)
            yield f"  - [`{place[2]}`]({link_to(place, crate)})" + (f": {said}" if said else "")
    yield ""


def function_at(text, needle):
    """The function that has a line of text."""
    lines = text[: text.find(needle)].splitlines() + [needle]
    for line in reversed(lines):
        found = FN.match(line)
        if found:
            return found[3]
    return ""


def wrong_bodies(crate):
    """The wrong bodies of a crate: its name, whether each gate tries it, the function that it changes, and the goal that refuses it."""
    for folder, always in (("must-fail", True), ("wrong-bodies", False)):
        for path in sorted((CRATES / crate / folder).glob("*.edit")):
            text = path.read_text()
            file = re.search(r"^file: (.*)$", text, re.M)[1].strip()
            old = re.search(r"^old: (.*)$", text, re.M)[1]
            breaks = re.search(r"^breaks: (\S+) (\S+)", text, re.M)
            yield path.stem, always, function_at((CRATES / crate / file).read_text(), old), breaks.groups() if breaks else None


def wrong_body_lines(crate):
    rows = sorted(wrong_bodies(crate))
    if not rows:
        return
    yield "## Wrong bodies"
    yield ""
    yield "The prover must refuse each, at the open goal if one is named. Each gate tries those in bold."
    yield ""
    yield "| Wrong body | Changes | Open goal |"
    yield "|---|---|---|"
    for name, always, function, breaks in rows:
        shown = f"**{name}**" if always else name
        goal = f"`{breaks[1]}` of `{breaks[0]}`" if breaks else ""
        yield f"| {shown} | {f'`{function}`' if function else 'the file'} | {goal} |"
    yield ""


def contracts(crate, definitions):
    """The contracts of a crate's public functions, source by source."""
    names, modules = exported(crate)
    path, anchors = None, {}
    for function in (it for it in functions(crate) if it.clauses and is_public(it, crate, names, modules)):
        if function.path != path:
            path = function.path
            source = (CRATES / crate / path).read_text()
            first = re.match(r"(?://! .*\n)+", source)
            said = " ".join(line.removeprefix("//! ") for line in first[0].splitlines()) if first else ""
            yield from (f"### [{path}](../../crates/{crate}/{path})", "", *([said, ""] if said else []))
            brought = believed.uses(re.sub(r"^    ", "", source, flags=re.M))
        name = f"{crate}-" + re.sub(r"\W+", "-", function.title()).strip("-")
        anchors[name] = anchors.get(name, 0) + 1
        yield from contract_lines(crate, function, name if anchors[name] == 1 else f"{name}-{anchors[name]}", brought, definitions)


def in_order(crate, definitions, files):
    """The files of a crate's specs/, each after those that it uses, and else in the order of Lib.antt."""
    listed = re.findall(r"^pub mod (\w+)", (CRATES / crate / "specs" / "Lib.antt").read_text(), re.M)
    waiting = [file for file in listed if (crate, file) in definitions.found]
    ordered = []
    while waiting:
        ready = (it for it in waiting if not {path for other, path, _ in files[crate, it][0].values() if other == crate and path != it} & set(waiting))
        following = next(ready, waiting[0])
        waiting.remove(following)
        ordered.append(following)
    return ordered


def reading(crate, files, definitions):
    """The definitions of a crate in reading order."""
    if not (CRATES / crate / "specs" / "Lib.antt").is_file():
        return
    for file in in_order(crate, definitions, files):
        own = definitions.found[crate, file]
        if not own:
            continue
        head = definitions.heads[crate, file]
        yield from (f"### [specs/{file}.antt](../../crates/{crate}/specs/{file}.antt)", "", *([head, ""] if head else []))
        for name, (comment, signature, parts) in own.items():
            yield f'- <a id="{anchor((crate, file, name))}"></a>`{name}`: {comment or f"`{signature}`"}'
            yield from (f"  - `{part}`: {said}" for part, said in parts)
        yield ""


def page(crate, files, definitions):
    """The page of a crate; none if it has no contract, no definition and no wrong body."""
    clauses, defined = list(contracts(crate, definitions)), list(reading(crate, files, definitions))
    bodies = list(wrong_body_lines(crate))
    if not clauses and not defined and not bodies:
        return None
    lines = [f"# {crate}", "", f"Written from the sources of [{crate}](../../crates/{crate}) by [tools/reference.py](../../tools/reference.py). [README.md](README.md) says how to read it.", ""]
    lines += ["## Contracts", "", *clauses] if clauses else []
    lines += bodies
    lines += ["## Definitions", "", *defined] if defined else []
    return linked("\n".join(lines).rstrip("\n") + "\n")


INDEX = """# Reference

A page for each crate, lowest first, written from the sources by [tools/reference.py](../../tools/reference.py): change it there. [PROMISES.md](../PROMISES.md) says in plain words what is promised, [DEFINITIONS.md](../DEFINITIONS.md) which definitions to read first, and [belief.md](belief.md) what the contract of `verify` rests on.

## Reading a contract

- A clause is `ensures` or `requires`, its name, and its text. `requires` is the caller's duty, and `ensures` what then holds after the call. `ghost` is what a trait or an implementation says of a type: what is printed, or how contracts see it.
- `x.now` is the value of an argument `x` that the function only reads. Of one that it may change, `x.old` is the value before the call and `x.new` the value after it. `result` is what is returned.
- `IfOk result (λ value. P)` holds if the result is an error, or P holds of the value in it. `IfErr`, `IfSome` and `IfNone` are read likewise. `OnOk result P` is P if the result is `Ok`.
- `λ x. P` is P as a property of x. `A × B` is both, `A ⊎ B` one of the two, `A → B` that A implies B, `⊥` what never holds. `a ≡ b` is that a and b are equal. `(x : T) × P` is that there is such an x, `(x : T) → P` that P holds of each.
- Below a clause are the definitions that it names, each with its comment. A definition without a comment has its type here.

## Crates

| Crate | Public functions with a contract | Definitions |
|---|---|---|
"""


def index(found):
    """The index: of each crate its contracts and definitions, counted."""
    rows = (f"| [{crate}]({crate}.md) | {text.count(chr(10) + '#### ')} | {len(re.findall(r'^- <a id=', text, re.M))} |" for crate, text in found.items())
    return INDEX + "\n".join(rows) + "\n"


def pages():
    """The text of each page by its file."""
    files, definitions = believed.all_files(), Definitions()
    found = {crate: text for crate in crates() if (text := page(crate, files, definitions))}
    written = {REFERENCE / f"{crate}.md": text for crate, text in found.items()}
    return {REFERENCE / "README.md": index(found), **written}


def others():
    """Pages of crates that aren't there, or have nothing to show."""
    kept = {*pages(), REFERENCE / "belief.md"}
    return [path for path in REFERENCE.glob("*.md") if path not in kept]


def stale():
    """The pages that aren't what the sources say."""
    for path, text in pages().items():
        if not path.is_file() or path.read_text() != text:
            yield f"{path.relative_to(TOP)} isn't up to date: run tools/reference.py --write"
    yield from (f"{path.relative_to(TOP)} is the page of no crate" for path in others())


def main():
    if sys.argv[1:] == ["--write"]:
        REFERENCE.mkdir(exist_ok=True)
        for path in others():
            path.unlink()
        for path, text in pages().items():
            path.write_text(text)
        return 0
    if sys.argv[1:] not in ([], ["--check"]):
        raise SystemExit(__doc__)
    untrue = list(stale())
    print("\n".join(untrue) if untrue else "the reference is up to date")
    return 1 if untrue else 0


if __name__ == "__main__":
    sys.exit(main())
