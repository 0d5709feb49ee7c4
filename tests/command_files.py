#!/usr/bin/env python3
"""Compares what `grain` says of program files with models of docs/FORMAT.md and docs/LISTINGS.md.

    python3 tests/command_files.py GRAIN [--programs N]

GRAIN is the built command. N random programs (200 without it) go through print and parse, and must come back byte by byte. It ends
with status 1 at the first thing that isn't so.
"""
import argparse
import json
import pathlib
import random
import re
import tempfile
import xml.etree.ElementTree

from models import file_changes, file_reader
from models.random_programs import Random
from program import Program, expect

TOP = pathlib.Path(__file__).resolve().parent.parent
FORMAT = (TOP / "docs/FORMAT.md").read_text()
# The sections of a program file and of a sidecar, in their order.
SECTIONS = [
    "header", "capabilities", "id", "code", "main chunk", "functions", "names", "constants", "operators", "op-assignments",
    "chains", "switches", "source name", "positions",
]
SIDECAR = ["header", "id", "address table", "chain stream"]


def dump_of(grain, name, sections):
    """The dump of a file, as JSON. Its items have to be all of the file, and its tables have to say the same."""
    content = grain.read(name)
    dump = json.loads(grain.done("dump", "-x", "--json", name))
    expect([section["section"] for section in dump["sections"]] == sections, f"the sections of {content.hex()}")
    expect(dump["file"] == name and dump["size"] == len(content), f"the size of {content.hex()}")
    at = 0
    for section in dump["sections"]:
        expect(section["offset"] == at, f"{section} doesn't follow the section before it")
        for item in section["items"]:
            expect(item["offset"] == at, f"{item} doesn't follow the item before it")
            expect(bytes.fromhex(item["bytes"]) == content[at:at + item["size"]], f"the bytes of {item}")
            at += item["size"]
        expect(section["offset"] + section["size"] == at, f"the size of {section}")
    expect(at == len(content), f"a dump of {at} bytes is of {content.hex()}")
    lines = [f"{section['offset']:>10} {section['size']:>10}  {section['section']:<14}  {section['text']}".rstrip() for section in dump["sections"]]
    expect(grain.done("dump", name).decode().rstrip("\n").split("\n")[1:] == lines, f"the table of {content.hex()}")
    shown = [line[12:60] for line in grain.done("dump", "-x", name).decode().split("\n") if re.match(r" *\d+  [0-9a-f]{2}\b", line)]
    expect(bytes.fromhex("".join(shown)) == content, f"the bytes in the table of {content.hex()}")
    return {section["section"]: section for section in dump["sections"]}


def check_dumps(grain):
    """The dumps of a program, of its positions and of random programs. The positions are those that a model takes out of it."""
    add = b'.source "a.rhai"\n  load_const 20 @1:1\n  load_const 22 @1:6\n  call "+" 2 @1:4\n  return\n'
    grain.write("add.grain", grain.done("parse", "-", given=add))
    grain.done("strip", "add.grain", "--sidecar", "add.pos", "-o", "small.grain")
    expect((grain.read("small.grain"), grain.read("add.pos")) == file_changes.stripped(grain.read("add.grain")), "a file is stripped otherwise")
    dump_of(grain, "add.grain", SECTIONS)
    dump_of(grain, "add.pos", SIDECAR)
    made = Random(12)
    for _ in range(40):
        grain.write("random.grain", made.program())
        dump_of(grain, "random.grain", SECTIONS)


def pages_files():
    """The files whose bytes docs/FORMAT.md has: two programs and a sidecar."""
    lines = re.findall(r"^    ((?:[0-9a-f]{2}[0-9a-f ]*?)(?=  |$).*)$", FORMAT, re.M)
    files = []
    for line in lines:
        digits = line.split("  ")[0]
        if digits.startswith("0067726e"):
            files.append("")
        if files:
            files[-1] += digits
    return [bytes.fromhex(digits) for digits in files]


def check_page(grain):
    """The files of docs/FORMAT.md are those of which tests/command/format.txt shows what the page says."""
    transcript = (TOP / "tests/command/format.txt").read_text()
    shown = [bytes.fromhex(digits) for digits in re.findall(r"\$ unhex ([0-9a-f ]+) >(?:first|second|page)\.", transcript)]
    expect(shown == pages_files(), "tests/command/format.txt has other files than docs/FORMAT.md")
    for name, content, sections in zip(("first.grain", "second.grain", "page.pos"), shown, (SECTIONS, SECTIONS, SIDECAR)):
        dump_of(grain, grain.write(name, content), sections)


# A program with something in each list, by docs/FORMAT.md: all roots, steps and tails, and the greatest numbers.
FULL = bytes.fromhex(
    "0067726e0200 09" + 2 * "ffffffffffffffffff01" + "0113 0001ac02"
    # A private function with two parameters for a receiver, names, -64, a NaN with all bits set, ^= and => of the host, and an
    # op-assignment.
    "01 01 0200ac02 01 0101 000102  02 00 02c3a9  02 037f 0dffffffffffffffffff01  02 26 27023d3e  01 1c01 00c801"
    # Four chains, of which the first has three steps.
    "04 01f0a204010205 03 00ac020100010200 010102030100 020405060100 010109 9003"
    "00070800010000 0200000000 03000000"
    # A switch with a range, the name of the source, and a position.
    "01 00 01090a018001 01  01 06612e72686169  01 01 01ffff0300"
)


def words_of_faults():
    """What the command says of each fault of a file, as docs/FORMAT.md has it."""
    one = re.search(r"The command says `(\w+)` as `([^`]+)`", FORMAT)
    table = FORMAT[FORMAT.index("| Refusal | Words |"):]
    return dict([one.groups(), *re.findall(r"\| `([A-Z]\w+)` \| ([^|`]+) (?=\|)", table[:table.index("\n\n")])])


def parts_of(dump):
    """The part of each byte of a file, as refusals name it: an item of a list, or else the section."""
    parts = []
    for name, section in dump.items():
        pieces = section["items"] if name != "code" else []
        parts += [f"the {name}"] * (pieces[0]["size"] if pieces else section["size"])
        for number, piece in enumerate(pieces[1:]):
            one = name.removesuffix("es") if name == "switches" else name.removesuffix("s")
            parts += [f"{one} {number}"] * piece["size"]
    return parts


def check_front(grain, front, part):
    """The front of a file is refused at its end, in the part that is cut off."""
    at, _ = file_reader.verdict(front).split()
    said = grain.refused("print", "-", given=front)
    expect(said == f"error: standard input: the file ends within a field ({part}, byte {at})\n", f"{front.hex()} is refused by {said!r}")


def check_changed(grain, changed, words):
    """A file with a byte changed is refused as the model says, or comes back from its assembly text."""
    wanted = file_reader.verdict(changed)
    status, text, errors = grain.run("print", "-", given=changed)
    if wanted == "file":
        expect(status == 0 and grain.done("parse", "-", given=text) == changed, f"{changed.hex()} doesn't come back")
        return
    at, fault = wanted.split()
    said = errors.decode()
    expect(status == 1 and said.endswith(f", byte {at})\n") and words[fault] in said, f"{changed.hex()} is refused by {said!r}, and not by {wanted}")


def check_changes(grain):
    first, second, _ = pages_files()
    made, words = random.Random(5), words_of_faults()
    for content in (first, second, FULL):
        parts = parts_of(dump_of(grain, grain.write("front.grain", content), SECTIONS))
        for end, part in enumerate(parts):
            check_front(grain, content[:end], part)
            check_changed(grain, content[:end] + bytes([made.randrange(256)]) + content[end + 1:], words)


# A loop in a try, a switch and a function.
FLOWS = b"""fn f(x) { try { x + 1 } catch { 2 } }
let s = "a\\nb<&\\"";
for i in 0..3 { f(i); }
switch s { 1 => 2, 3..5 => 6, _ => 7 }
"""
# Two paths to the address 2 disagree in operands.
CLASH = b".chunks\nmain 0 14 stack 8\n.code\nunit\niter_init\nL2:\niter_next L12\njump L2\nL12:\nunit\nreturn\n"
NODE = re.compile(r'^  n(\d+) \[label="', re.M)
EDGE = re.compile(r"^  n(\d+) -> n(\d+)( \[color=red)?", re.M)


def listing_of(grain, file):
    return json.loads(grain.done("list", "--json", file))


def items_of(grain, file, name):
    """The instructions of a function, by its listing."""
    return next(chunk for chunk in listing_of(grain, file)["chunks"] if chunk["name"] == name)["items"]


def check_listings(grain):
    """The JSON of a listing has the functions by name, each instruction with its position, and the paths to a flaw."""
    grain.write("flows.grain", grain.done("compile", "-", given=FLOWS))
    found = listing_of(grain, "flows.grain")
    expect([chunk["name"] for chunk in found["chunks"]] == ["main", "f"] and found["accepted"], "--json of a listing lacks a name")
    items = [item for chunk in found["chunks"] for item in chunk["items"]]
    expect(all(item["position"]["line"] for item in items), "--json of a listing lacks a position")
    text = grain.done("list", "flows.grain").decode()
    for item in items:
        line = rf"^ *{item['at']}  {item['bytes']} .*  {re.escape(item['instruction'])}"
        expect(re.search(line, text, re.M), f"the text of a listing lacks {item}")
    grain.write("clash.grain", grain.done("parse", "-", given=CLASH))
    found = listing_of(grain, "clash.grain")
    expect(found["error"].startswith("depth-conflict") and found["chunks"][0]["refusal"]["other_path"], "--json of a refused program")


def switch_targets(item):
    found = re.findall(r"=> (\d+)", item["instruction"]) if item["instruction"].startswith("Switch") else []
    return {int(target) for target in found}


def edges_of(items):
    """The edges between instructions that are reached."""
    edges, places = set(), {item["at"] for item in items}
    for item, after in zip(items, items[1:] + [None]):
        if item["state"] is None:
            continue
        targets = switch_targets(item) | ({item["target"]} if item["target"] is not None else set())
        targets |= {after["at"]} if item["falls"] and after else set()
        edges |= {(item["at"], target) for target in targets & places}
    return edges


def check_picture(grain, file, name):
    """The picture of a function is XML that has each instruction, and its DOT has each instruction and edge. Returns both."""
    items = items_of(grain, file, name)
    root = xml.etree.ElementTree.fromstring(grain.done("flow", "--function", name, file))
    texts = {node.text for node in root.iter("{http://www.w3.org/2000/svg}text")}
    for item in items:
        word = re.match(r"\w+", item["instruction"])[0]
        expect(str(item["at"]) in texts and any(text and text.startswith(word) for text in texts), f"the picture lacks {item['at']}")
    dot = grain.done("flow", "--function", name, "--dot", file).decode()
    expect([int(at) for at in NODE.findall(dot)] == [item["at"] for item in items], f"DOT of {name} lacks an instruction")
    found = {(int(start), int(end)) for start, end, _ in EDGE.findall(dot)}
    expect(found == edges_of(items), f"DOT of {name} has the edges {found ^ edges_of(items)} more or less")
    return root, dot


def check_flows(grain):
    """Only the path to a flaw is red."""
    for name in ("main", "f"):
        _, dot = check_picture(grain, "flows.grain", name)
        expect("color=red" not in dot, "an accepted function has a red path")
    root, dot = check_picture(grain, "clash.grain", "main")
    red = {(int(start), int(end)) for start, end, colour in EDGE.findall(dot) if colour}
    expect(red == {(0, 1), (1, 2), (2, 7), (7, 2)}, f"the red path is {red}")
    strokes = [path.get("stroke") for path in root.iter("{http://www.w3.org/2000/svg}path")]
    expect(strokes.count("#b03a2e") == len(red), f"{strokes.count('#b03a2e')} arrows are red")


def check_round_trips(grain, count):
    made = Random(11)
    for at in range(count):
        program = made.program()
        printed = grain.done("print", grain.write("random.grain", program))
        expect(grain.done("parse", "-", given=printed) == program, f"program {at} doesn't come back: {program.hex()}")


def main():
    parser = argparse.ArgumentParser()
    parser.add_argument("grain")
    parser.add_argument("--programs", type=int, default=200)
    given = parser.parse_args()
    with tempfile.TemporaryDirectory() as folder:
        grain = Program(given.grain, folder)
        for check in (check_dumps, check_page, check_changes, check_listings, check_flows):
            check(grain)
        check_round_trips(grain, given.programs)
    print(f"files of grain: well, and {given.programs} random programs come back byte by byte")


if __name__ == "__main__":
    main()
