"""The instruction table of docs/FORMAT.md beside the definitions, cell by cell.

A row is made from `encoding` (crates/grain_code/specs/InstructionTable.antt), `row` (crates/grain_rules/specs/Rows.antt), the
constants of crates/grain_code/src/tag.rt and the fields of `Op` (crates/grain_code/src/op.rt). What is written there in
another form than these files have now isn't read, and then said to differ.
"""
import pathlib
import re

TOP = pathlib.Path(__file__).resolve().parent.parent
HEADER = ["Tag", "Constant", "Fields", "Width", "`Op`", "Operands", "Requires", "Flow", "Quiet"]
LETTERS = {
    "Index Constants": "c", "Index Names": "n", "Index Operators": "t", "Index OpAssignments": "o", "Index Fragments": "f",
    "Index Chains": "h", "Index Switches": "w", "Index SyntaxSites": "y", "Slot": "s", "Count": "a", "Target": "j",
}
SIZES = {"a": 1, "j": 4}
FLOWS = {
    "Falls": "", "Ends": "ends", "Jumps": "jumps", "Branches": "branches", "Switches": "switches",
    "BeginsIterator": "begins an iterator", "AdvancesIterator": "advances an iterator", "EndsIterator": "ends an iterator",
    "PushesHandler": "arms a handler", "PopsHandler": "disarms a handler",
}
# What the column `Op` leaves out (docs/FORMAT.md, "Canonical form").
UNSAID = {"capture_parent_scope": "false", "is_global": "false", "is_method": "true"}


def split(text):
    """The parts of an application, those in brackets without them."""
    parts, depth, part = [], 0, ""
    for letter in text + " ":
        depth += (letter == "(") - (letter == ")")
        if letter == " " and depth == 0:
            parts += [part] if part else []
            part = ""
        else:
            part += letter
    return [part[1:-1] if part.startswith("(") else part for part in parts]


def clauses(path, name):
    """The patterns and the bodies of a definition by cases."""
    text = (TOP / "crates" / path).read_text()
    for arguments, body in re.findall(rf"^{name} ([^=\n]*) = (.*)$", text, re.M):
        yield split(arguments)[-1], body


def pattern(text):
    """An operation's name and its arguments."""
    name, *arguments = split(text)
    return name.removeprefix("ops."), arguments


def op_fields():
    """The fields of each operation, in order, by name; those of a tuple have none."""
    body = re.search(r"pub enum Op \{\n(.*?)\n\}", (TOP / "crates/grain_code/src/op.rt").read_text(), re.M | re.S)[1]
    body = re.sub(r"\s*///.*", "", body)
    fields = {}
    for name, tuple_, record in re.findall(r"^    (\w+)(?:\(([^)]*)\)| \{(.*?)\n    \})?,", body, re.M | re.S):
        fields[name] = [""] * bool(tuple_) if not record else re.findall(r"(\w+):", record)
    return fields


def matches(one, other):
    """Whether a pattern of one table covers one of the other."""
    (name, arguments), (name2, others) = one, other
    if name != name2:
        return False
    plain = lambda a: re.fullmatch(r"[a-z_']+", a) and a not in ("true", "false")
    return all(plain(a) or a.split()[0] == b.split()[0] for a, b in zip(arguments, others))


def op_cell(name, arguments, fields):
    """The operation as the column has it, each argument a letter or a word."""
    said = []
    for field, argument in zip(fields, arguments):
        if not field or re.fullmatch(r"[a-z]", argument):
            said.append(argument)
        elif argument != UNSAID.get(field) and argument != "any":
            said.append(f"{field}: {argument}")
    if not fields:
        return f"`{name}`"
    return f"`{name}({said[0]})`" if fields == [""] else f"`{name} {{ {', '.join(said)} }}`"


def written(argument, letters):
    """An argument of `encoding`'s pattern: a letter, a word, or `any` where it isn't written."""
    parts = argument.replace("receiver.", "").split(" ", 1)
    if argument in letters:
        return letters[argument]
    if len(parts) == 2:
        return f"{parts[0]}({written(parts[1].removeprefix('(').removesuffix(')'), letters)})"
    return parts[0] if parts[0] in ("true", "false", "None", "This") else "any"


def number(text, letters):
    """A count of operands as the column has it."""
    for variable, letter in letters.items():
        text = re.sub(rf"(?<![\w']){re.escape(variable)}(?![\w'])", letter, text)
    if text.startswith("chain_takes "):
        return "k"
    return "m" if text == "a - 1" else text.replace(" * ", "").replace(" ", "")


def asked(text):
    parts = split(text)
    if parts[0] == "bit_or":
        return f"{asked(parts[1])}, {asked(parts[2])}"
    return {"0": "", "module_of": "M", "chain_asks": "those of the chain"}.get(parts[0], parts[0])


def cells(names, fields, rules, text, body):
    name, arguments = pattern(text)
    tag, list_, unwritten = re.fullmatch(r"\(0x(\w+), (\[\]|.*? ∷ \[\]), (.*)\)", body).groups()
    items = [item.rsplit(" ", 1) for item in list_.split(" ∷ ")[:-1]]
    letters = {variable: LETTERS[kind] for kind, variable in items}
    kinds = [LETTERS[kind] for kind, _ in items]
    [(rule, does)] = [(rule, does) for rule, does in rules if matches(pattern(rule), (name, arguments))]
    needs, takes, gives, asks, flow, quiet = split(does[does.index("does ") + 5:])
    own = {}
    for mine, theirs in zip(pattern(rule)[1], arguments):
        own.setdefault(mine, letters.get(theirs, theirs))
    counts = [number(count, own) for count in (needs, takes, gives)]
    op = [written(argument, letters) for argument in arguments]
    decoded = dict(re.findall(r"\((\w+), (\w+)\)", unwritten))
    op = [decoded.get(argument, said) for argument, said in zip(arguments, op)]
    width = 1 + sum(SIZES.get(kind, 2) for kind in kinds)
    return [
        tag, names.get(int(tag, 16), ""), " ".join(kinds), str(width), op_cell(name, op, fields[name]),
        " ".join(counts), asked(asks), FLOWS[flow.split(" ")[0]], "quiet" if quiet == "true" else "",
    ]


def table():
    """The rows that the definitions make, in the order of tags."""
    text = (TOP / "crates/grain_code/src/tag.rt").read_text()
    names = {int(value, 16): name for name, value in re.findall(r"pub const (\w+): u8 = 0x(\w+);", text)}
    fields = op_fields()
    rules = list(clauses("grain_rules/specs/Rows.antt", "row"))
    made = [cells(names, fields, rules, text, body) for text, body in clauses("grain_code/specs/InstructionTable.antt", "encoding")]
    return sorted(made)


def without_unsaid(cell):
    """The column `Op` without what may go unsaid."""
    return re.sub("|".join(rf", {field}: {value}\b" for field, value in UNSAID.items()), "", cell)


def differences(told):
    """What the rows of docs/FORMAT.md, by their header, say otherwise than the definitions."""
    made = {row[0]: row for row in table()}
    if [row[0] for row in told] != list(made):
        yield f"FORMAT.md has the tags {' '.join(row[0] for row in told)}, and the definitions {' '.join(made)}"
    for row in told:
        for column, has, wanted in zip(HEADER, row, made.get(row[0], row)):
            if without_unsaid(has) != wanted:
                yield f"FORMAT.md says of tag {row[0]} in the column {column} `{has}`, and the definitions `{wanted}`"


if __name__ == "__main__":
    for row in table():
        print("| " + " | ".join(row) + " |")
