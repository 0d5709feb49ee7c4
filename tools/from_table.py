#!/usr/bin/env python3
"""What follows from the instruction table (`encoding` in crates/grain_code/specs/InstructionTable.antt) and from the names of
tags (crates/grain_code/src/tag.rt), wherever it stands.

    tools/from_table.py           says where it stands otherwise, and ends with 1 where there is any
    tools/from_table.py --write   writes it there

- hosts/c/grain_instructions.h is written as a whole: each instruction's tag, name, width and fields, and whether it is quiet.
- What instructions are called stands in hosts/rust/src/mnemonics.rs (tags and names), and in crates/grain_flat, in
  specs/TagNames.antt (names by tags) and src/mnemonics.rt (names of operations).
- The table read from tags to operations is the list `rows` in crates/grain_code/proofs/Rows.antt, which the prover compares
  with the table.
- In crates/grain_code/src, what a tag says of its instructions is the list `TAG_ROWS` in tag_table.rt; encoding.rt (the tag and
  the fields of an operation) and decoder.rt (the operation of a tag and bytes) are written as a whole.
- The table for machines in Rust is the list of hosts/rust/src/opcode.rs: names, tags, fields and their names, flow and quiet
  instructions.

.ci/documents asks whether all of it is as this writes it.
"""
import pathlib
import re
import subprocess
import sys

import instruction_table

TOP = pathlib.Path(__file__).resolve().parent.parent



def tags():
    """The name of each tag by its number."""
    text = (TOP / "crates/grain_code/src/tag.rt").read_text()
    return {int(number, 16): name for name, number in re.findall(r"^pub const (\w+): u8 = (0x\w+);$", text, re.M)}


# What hosts/rust/src/code.rs and opcode.rs call the letters of fields and the words of the column Flow.
RUST_KINDS = {
    "c": "Constant", "n": "Name", "t": "Operator", "o": "OpAssignment", "f": "Fragment", "h": "Chain", "w": "Switch",
    "y": "SyntaxSite", "s": "Slot", "a": "Count", "j": "Target",
}
RUST_FLOWS = {
    "": "Next", "ends": "Ends", "jumps": "Jumps", "branches": "Branches", "switches": "Switches",
    "begins an iterator": "BeginsIterator", "advances an iterator": "AdvancesIterator", "ends an iterator": "EndsIterator",
    "arms a handler": "ArmsHandler", "disarms a handler": "DisarmsHandler",
}


# What the variants of `Instruction` in hosts/rust/src/opcode.rs call their fields: by letters, and where a field means something
# else, by the name of the instruction and the place of the field.
RUST_FIELDS = {
    "c": "constant", "n": "name", "t": "operator", "o": "op_assignment", "f": "fragment", "h": "chain", "w": "switch",
    "y": "site", "s": "slot", "a": "argc", "j": "target",
}
OTHER_RUST_FIELDS = {
    ("MAKE_ARRAY", 0): "len", ("MAKE_MAP", 0): "len", ("CHECK_ARRAY_SIZE", 0): "index", ("CHECK_MAP_SIZE", 0): "index",
    ("UNWIND_TO", 0): "len", ("STATEMENT", 0): "depth", ("ROTATE", 0): "count", ("PUSH_HANDLER_VAR", 1): "variable",
    ("CALL_NAMED_REF", 2): "variable", ("CALL_FN_PTR_ON_NAMED", 1): "variable", ("EXPORT_LOCAL", 1): "alias",
    ("EXPORT_NAMED", 1): "alias", ("IMPORT", 0): "alias",
}


def opcodes():
    """The instruction table as rows of the macro `opcodes` in Rust."""
    for tag, name, letters, _, _, _, _, flow, quiet in instruction_table.table():
        variant = "".join(word.capitalize() for word in name.split("_"))
        fields = ", ".join(f"{OTHER_RUST_FIELDS.get((name, place), RUST_FIELDS[letter])}: {RUST_KINDS[letter]}"
                           for place, letter in enumerate(letters.split()))
        fields = f"[{fields}], " if fields else ""
        yield f'    {variant} = 0x{tag}, "{name}", {fields}{RUST_FLOWS[flow]}, {"true" if quiet else "false"};\n'


def argument(text):
    """An argument of a pattern of `encoding` as one of Rattle, or nothing where it is a variable."""
    name, *inner = instruction_table.split(text)
    if re.fullmatch(r"receiver\.\w+", name):
        name = name.replace("receiver.", "Receiver::")
    elif name not in ("true", "false", "None", "Some"):
        return None
    return f"{name}({argument(inner[0]) or '_'})" if inner else name


def pattern(text, fields):
    """A pattern of `encoding` as one of Rattle."""
    name, arguments = instruction_table.pattern(text)
    given = [argument(each) for each in arguments]
    if not fields[name]:
        return f"Op::{name}"
    if fields[name] == [""]:
        return f"Op::{name}({given[0] or '_'})"
    told = [f"{field}: {each}" for field, each in zip(fields[name], given) if each]
    return f"Op::{name} {{ {', '.join(told + ['..'] * (len(told) < len(given)))} }}"


def arms():
    names, fields = tags(), instruction_table.op_fields()
    for text, body in instruction_table.clauses("grain_code/specs/InstructionTable.antt", "encoding"):
        number = int(re.match(r"\(0x(\w+)", body)[1], 16)
        yield f'{pattern(text, fields)} => "{names[number]}",'


def by_tag():
    """The names as a list by tags, in antt."""
    names = tags()
    codes = [f'codes "{names[tag]}"' if tag in names else "[]" for tag in range(max(names) + 1)]
    return "tag_names =\n" + "".join(f"    {each} ∷\n" for each in codes) + "    []\n"


def row_op(text, values):
    """A pattern of `encoding` as the operation of a row, with a value in the place of each variable."""
    name, *inner = instruction_table.split(text)
    if name in values:
        return values[name]
    arguments = [row_op(each, values) for each in inner]
    return " ".join([name, *(f"({each})" if " " in each else each for each in arguments)])


def table_rows():
    """The rows of `rows`, by tags, in antt."""
    for text, body in instruction_table.clauses("grain_code/specs/InstructionTable.antt", "encoding"):
        tag, list_, unwritten = re.fullmatch(r"\((0x\w+), (\[\]|.*? ∷ \[\]), (.*)\)", body).groups()
        items = [item.rsplit(" ", 1) for item in list_.split(" ∷ ")[:-1]]
        letters = " ∷ ".join([kind[0].lower() + kind[1:] for kind, _ in items] + ["[]"])
        values = {variable: f"v {place}" for place, (_, variable) in enumerate(items)}
        values |= dict(re.findall(r"\((\w+), (\w+)\)", unwritten))
        yield f"    row {tag} {f'({letters})' if items else letters} (λ v. {row_op(text, values)}) ∷\n"


HEADER = """\
/* Written by tools/from_table.py (in the repository) from the instruction table. Don't edit it.
 *
 * GRAIN_INSTRUCTIONS(X) is X(tag, NAME, width, fields, quiet) for each instruction, in the order of tags: the byte with which
 * it begins, its name, how many bytes it takes, a letter for each field, and whether it is quiet (grain.h, grain_verify).
 * No other byte begins an instruction. The fields follow the tag without a gap, their low bytes first:
 *
 *     letter  bytes  what the field is
%s *
 * A machine makes its decoder and its table of widths from this list, so that they are those of the verifier. */
#ifndef GRAIN_INSTRUCTIONS_H
#define GRAIN_INSTRUCTIONS_H

#define GRAIN_INSTRUCTIONS(X)%s

/* The bytes with which instructions begin. */
#define GRAIN_TAG_ENUMERATOR(tag, name, width, fields, quiet) GRAIN_TAG_##name = tag,
typedef enum grain_tag { GRAIN_INSTRUCTIONS(GRAIN_TAG_ENUMERATOR) } grain_tag;
#undef GRAIN_TAG_ENUMERATOR

#endif
"""

FIELDS = {
    "c": "the index of a constant", "n": "the index of a name", "t": "the index of an operator",
    "o": "the index of an op-assignment", "f": "the index of a fragment", "h": "the index of a chain",
    "w": "the index of a switch", "y": "the index of a site of custom syntax",
    "s": "a slot, a depth or a length", "a": "a count of arguments or operands", "j": "a jump's target",
}


def instructions_header():
    """The whole of hosts/c/grain_instructions.h."""
    letters = "".join(
        f" *     {letter:<7} {instruction_table.SIZES.get(letter, 2):<6} {meaning}\n" for letter, meaning in FIELDS.items())
    rows = "".join(
        f' \\\n    X(0x{tag}, {name}, {width}, "{fields.replace(" ", "")}", {int(quiet == "quiet")})'
        for tag, name, fields, width, _, _, _, _, quiet in instruction_table.table())
    return HEADER % (letters, rows)


INDEX_LETTERS = {letter for kind, letter in instruction_table.LETTERS.items() if kind.startswith("Index ")}


def tag_rows():
    """The rows of `TAG_ROWS`, by tags, in Rattle. What depends on fields, on pools or on the host's capabilities is no part
    of a row."""
    flows = {words: name for name, words in instruction_table.FLOWS.items()}
    rows = {int(row[0], 16): row[1:] for row in instruction_table.table()}
    for tag in range(max(rows) + 1):
        if tag not in rows:
            yield "    NONE,\n"
            continue
        name, letters, width, _, counts, asks, flow, quiet = rows[tag]
        is_fixed = re.fullmatch(r"\d \d \d", counts) and not asks and flow != "switches"
        has_index = any(letter in INDEX_LETTERS for letter in letters.split())
        words = [
            width, f"{'INDEX' if has_index else 'NO_INDEX':<8}", f"{'QUIET' if quiet else 'LOUD':<5}",
            "PLAIN" if is_fixed and flow == "" else "OTHER", counts if is_fixed else "0 0 0", flows[flow],
        ]
        yield f"    row!({name + ':':<22} {' '.join(words)}),\n"


# What a field of the table is in Rattle: how `layout` writes it, and how decoding reads it from its bytes.
RATTLE_FIELDS = {"Slot": ("Field::Slot({})", "slot({}, {})"), "Count": ("Field::Count({})", "{}"), "Target": ("Field::Target({})", "target")}
WRITTEN = "//! Written by tools/from_table.py from the instruction table. Don't edit it."


def encoded():
    """Of each row of `encoding`: the pattern of its operation, its tag, its fields as kinds and variables, and the values of the
    flags that aren't written."""
    for text, body in instruction_table.clauses("grain_code/specs/InstructionTable.antt", "encoding"):
        tag, list_, unwritten = re.fullmatch(r"\((0x\w+), (\[\]|.*? ∷ \[\]), (.*)\)", body).groups()
        items = [item.rsplit(" ", 1) for item in list_.split(" ∷ ")[:-1]]
        yield text, int(tag, 16), items, dict(re.findall(r"\((\w+), (\w+)\)", unwritten))


def rattle_op(text, values, fields, rest=False):
    """A pattern of `encoding` in Rattle, with these in the place of variables; what has none is left to `..` where there is a rest."""
    def part(each):
        name, *inner = instruction_table.split(each)
        if name in values:
            return values[name]
        word = name.replace("receiver.", "Receiver::")
        if word not in ("true", "false", "None", "Some") and not word.startswith("Receiver::"):
            return None
        return f"{word}({part(inner[0])})" if inner else word

    name, arguments = instruction_table.pattern(text)
    given = [part(each) for each in arguments]
    if not fields[name]:
        return f"Op::{name}"
    if fields[name] == [""]:
        return f"Op::{name}({given[0]})"
    said = [field if field == each else f"{field}: {each}" for field, each in zip(fields[name], given) if each is not None]
    return f"Op::{name} {{ {', '.join(said + ['..'] * (rest and None in given))} }}"


def layout():
    """The whole of crates/grain_code/src/encoding.rt."""
    names, fields = tags(), instruction_table.op_fields()
    counts = ["None", "One", "Two", "Three"]
    arms = []
    for text, tag, items, _ in encoded():
        told = {variable: variable.replace("'", "2") for _, variable in items}
        listed = []
        for kind, variable in items:
            pool = kind.removeprefix("Index ")
            form = f"Field::Index(Pool::{pool}, {{}})" if pool != kind else RATTLE_FIELDS[kind][0]
            listed.append(form.format(told[variable]))
        value = f"Fields::{counts[len(listed)]}" + (f"([{', '.join(listed)}])" if listed else "")
        arms.append(f"        {rattle_op(text, told, fields, rest=True)} => (tag::{names[tag]}, {value}),\n")
    return f"""{WRITTEN}
//!
//! The tag of an operation and its fields.
ghost use Rattle.std.specs.Prelude.{{◌≡◌}};
ghost use Rattle.grain_code.specs.Fields.{{field_list}};
ghost use Rattle.grain_code.specs.InstructionTable.{{form}};

use crate::field::{{Field, Fields, Pool}};
use crate::op::{{Op, Receiver}};
use crate::tag;

/// The tag of an operation and its fields: the instruction table (docs/FORMAT.md, "Instructions").
#[must_use]
pub fn layout(op: &Op) -> (u8, Fields)
    ensures {{ (result.0, field_list result.1) ≡ form op.now }}
{{
    match *op {{
{"".join(arms)}    }}
}}
"""


DECODERS = [
    ("bare", "without fields"), ("with_one", "and one byte"), ("with_two", "and two bytes"), ("with_three", "and three bytes"),
    ("with_four", "and four bytes"), ("with_five", "and five bytes"), ("with_six", "and six bytes"),
]


def decoder_of(count):
    """The function that decodes the instructions whose fields have this many bytes."""
    names, fields = tags(), instruction_table.op_fields()
    letters, arms, is_aimed = "abcdef"[:count], [], False
    for text, tag, items, unwritten in sorted(encoded(), key=lambda row: row[1]):
        sizes = [4 if kind == "Target" else 1 if kind == "Count" else 2 for kind, _ in items]
        if sum(sizes) != count:
            continue
        values, at = dict(unwritten), 0
        for (kind, variable), size in zip(items, sizes):
            form = "index({}, {})" if kind.startswith("Index ") else RATTLE_FIELDS[kind][1]
            values[variable] = form.format(*letters[at:at + size])
            is_aimed, at = is_aimed or kind == "Target", at + size
        arms.append(f"        tag::{names[tag]} => Some({rattle_op(text, values, fields)}),\n")
    name, what = DECODERS[count]
    bytes_ = " ∷ ".join(["tag", *letters, "[]"])
    aim = "    let target = u32::from_le_bytes([a, b, c, d]);\n" if is_aimed else ""
    return f"""/// The instruction of a tag {what}.
#[inline(always)]
fn {name}({", ".join(f"{each}: u8" for each in ["tag", *letters])}) -> Option<Op>
    ensures found {{ IfSome result (λ op. Instr ({bytes_}) op) }}
    ensures none {{ IfNone result ((op : Op) → Instr ({bytes_}) op → ⊥) }}
{{
{aim}    match tag {{
{"".join(arms)}        _ => None,
    }}
}}

"""


def decoder():
    """The whole of crates/grain_code/src/decoder.rt."""
    calls = "".join(
        f"        [{', '.join('abcdef'[:count])}] => {name}({', '.join(['tag', *('*' + each for each in 'abcdef'[:count])])}),\n"
        for count, (name, _) in enumerate(DECODERS))
    return f"""{WRITTEN}
//!
//! Decoding: what a tag and the bytes after it are. The width of the tag says how many bytes belong to it. One function for
//! each number of bytes then has an arm for each tag.
ghost use Rattle.std.specs.Prelude.{{◌≡◌, IfSome, IfNone, [], ◌∷◌}};
ghost use Rattle.std.specs.Int.{{w16, from_le_bytes}};
ghost use Rattle.grain_code.specs.InstructionTable.{{Instr}};
ghost use Rattle.grain_code.specs.declared.op.Op.{{Op}};

use crate::op::{{Op, Receiver}};
use crate::tag;

/// An index into a pool.
#[inline(always)]
fn index(low: u8, high: u8) -> u32
    ensures {{ result ≡ from_le_bytes w16 (low ∷ high ∷ []) }}
{{
    u32::from(u16::from_le_bytes([low, high]))
}}

/// A slot, a depth or a length.
#[inline(always)]
fn slot(low: u8, high: u8) -> u16
    ensures {{ result ≡ from_le_bytes w16 (low ∷ high ∷ []) }}
{{
    u16::from_le_bytes([low, high])
}}

{"".join(decoder_of(count) for count in range(len(DECODERS)))}/// The instruction of a tag and the bytes of its fields, or `None` if they are none.
#[inline(always)]
pub(crate) fn op_of(tag: u8, fields: &[u8]) -> Option<Op>
    ensures found {{ IfSome result (λ op. Instr (tag ∷ fields.now) op) }}
    ensures none {{ IfNone result ((op : Op) → Instr (tag ∷ fields.now) op → ⊥) }}
{{
    match fields {{
{calls}        _ => None,
    }}
}}
"""


def blocks():
    """Of each file where they stand: what stands before, the block itself, and what stands behind."""
    names = tags()
    rows = "".join(f'    (0x{tag:02x}, "{name}"),\n' for tag, name in names.items())
    return {
        "hosts/rust/src/mnemonics.rs": (
            r"(?=const MNEMONICS)", f"const MNEMONICS: [(u8, &str); {len(names)}] = [\n{rows}];\n", r"\Z"),
        "hosts/rust/src/opcode.rs": (r"(?=opcodes! \{)", "opcodes! {\n" + "".join(opcodes()) + "}\n", r"\Z"),
        "crates/grain_code/src/tag_table.rt": (
            r"TAG_ROWS: \[TagRow; 256\] = rows!\[\n", "".join(tag_rows()), r"\];\n"),
        "crates/grain_code/proofs/Rows.antt": (r"\nrows =\n", "".join(sorted(table_rows())) + "    []\n", r"\nabbrev pub row_of"),
        "crates/grain_flat/specs/TagNames.antt": (r"List \(List ℕ\)\n", by_tag(), r"\Z"),
        "crates/grain_flat/src/mnemonics.rt": (
            r"match \*op \{\n", "".join(f"        {arm}\n" for arm in arms()), r"    \}\n\}\n"),
    }


def plain(text):
    """The text without what a formatter decides."""
    return re.sub(r",(?=[})\]])", "", re.sub(r"\s", "", text))


def file_differences(write):
    """The files that are written as a whole. A formatter may lay those in Rattle out."""
    files = {
        "hosts/c/grain_instructions.h": (instructions_header, str),
        "crates/grain_code/src/encoding.rt": (layout, plain),
        "crates/grain_code/src/decoder.rt": (decoder, plain),
    }
    for name, (made, compared) in files.items():
        path, text = TOP / name, made()
        if path.is_file() and compared(path.read_text()) == compared(text):
            continue
        if write:
            path.write_text(text)
        else:
            yield f"{name} differs from the instruction table: tools/from_table.py --write"


def differences(write=False):
    yield from file_differences(write)
    for name, (before, block, behind) in blocks().items():
        path = TOP / name
        text = path.read_text()
        found = re.search(rf"(?s)(?<={before})(.*?)(?={behind})" if not before.startswith("(?=") else rf"(?s){before}(.*?)(?={behind})", text)
        if found is None:
            yield f"{name} has no place for what follows from the instruction table"
        elif plain(found[1]) != plain(block):
            if write:
                path.write_text(text[:found.start(1)] + block + text[found.end(1):])
            else:
                yield f"{name} says of instructions otherwise than tag.rt and the instruction table: tools/from_table.py --write"


def main():
    write = sys.argv[1:] == ["--write"]
    untrue = list(differences(write))
    if write:
        for crate in ("grain_code", "grain_flat"):
            subprocess.run(["rt", "fmt"], cwd=TOP / "crates" / crate, check=True, stdout=subprocess.DEVNULL)
    print("\n".join(untrue) if untrue else "all is as it follows from the instruction table")
    return 1 if untrue else 0


if __name__ == "__main__":
    sys.exit(main())
