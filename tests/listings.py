#!/usr/bin/env python3
"""Holds the listings of `grain lines` against grain_check and against a model of its own, on lines that are made at random.

    python3 tests/listings.py CHECK GRAIN [--lines N] [--seed N]

CHECK and GRAIN are the built programs, as tools/build leaves them in bin/grain_check and bin/grain. The model
is written from docs/FORMAT.md, whose instruction table it reads, and docs/LISTINGS.md. For each line it looks whether the listing's verdict is that of
grain_check, and the statuses agree; whether the rows of a chunk that passes are its instructions, a typing of it, just what is
reached, and up to the number of the verdict, each from where it says; whether the paths of a refusal lead along edges from the chunk's
entry to a state that has that very flaw; whether the first chunk that is refused has the flaw of the verdict; whether the word that is
named of a bad case is its first that doesn't fit; and whether the text says just what the JSON does. It ends with status 1 at the
first line where that isn't so.
"""
import argparse
import collections
import json
import pathlib
import random
import re
import subprocess
import sys

TOP = pathlib.Path(__file__).resolve().parent.parent
SIZES = {"a": 1, "j": 4}
INDICES = set("cnothfwy")
State = collections.namedtuple("State", "operands iterators bases")
Row = collections.namedtuple("Row", "name fields width operands asks flow quiet")


def tables():
    """The instruction table by tag, and the bit of each capability."""
    rows, bits = {}, {}
    for line in (TOP / "docs" / "FORMAT.md").read_text().splitlines():
        cells = [cell.strip() for cell in line.split("|")[1:-1]]
        if len(cells) == 9 and re.fullmatch("[0-9a-f]{2}", cells[0]):
            name = re.match(r"`(\w+)", cells[4])[1]
            rows[int(cells[0], 16)] = Row(name, cells[2].split(), int(cells[3]), cells[5].split(), cells[6], cells[7], cells[8] == "quiet")
        if len(cells) == 6 and re.fullmatch("[0-9a-f]{4}", cells[0]):
            bits.update({name: int(bit, 16) for bit, name in zip(cells[0::2], cells[1::2])})
    return rows, bits


ROWS, BITS = tables()


def fields_of(row, code, at):
    found, place = {}, at + 1
    for field in row.fields:
        size = SIZES.get(field, 2)
        found[field] = int.from_bytes(code[place : place + size], "little")
        place += size
    return found


def instruction(code, at):
    """The row, the fields and the end of the instruction at an address, if there is one."""
    row = ROWS.get(code[at]) if at < len(code) else None
    if row is None or at + row.width > len(code):
        return None
    return row, fields_of(row, code, at), at + row.width


def starts_of(code):
    at, starts = 0, []
    while (found := instruction(code, at)) is not None:
        starts.append(at)
        at = found[2]
    return starts, at


def number(text, fields):
    for letter, value in fields.items():
        text = re.sub(rf"\b(\d*){letter}\b", lambda m: str(int(m[1] or 1) * value), text)
    return sum(int(part) for part in text.split("+"))


def effect(code, at):
    """What the instruction at an address needs, takes and gives."""
    row, fields, _ = instruction(code, at)
    return [number(text, fields) for text in row.operands]


def asked(row):
    return sum(BITS[name.strip()] for name in row.asks.split(",")) if row.asks else 0


def lack(code, caps, at, state):
    """The first thing that an instruction lacks, as a refusal has it."""
    row = instruction(code, at)[0]
    needs, takes, _ = effect(code, at)
    advances = row.flow == "advances an iterator"
    missing = asked(row) & ~caps
    if missing:
        return f"missing-caps at={at} missing={missing:04x}"
    if state.operands < needs:
        return f"underflow at={at} need={needs} have={state.operands}"
    if (advances or row.flow == "ends an iterator") and not state.iterators:
        return f"iterator-underflow at={at}"
    if row.flow == "disarms a handler" and not state.bases:
        return f"handler-underflow at={at}"
    if not row.quiet and state.bases:
        operands, iterators = state.bases[0]
        for need, have in ((operands, state.operands - takes), (iterators, state.iterators - advances)):
            if have < need:
                return f"sinks-below-handler at={at} need={need} have={have}"
    return None


def edges(code, at, state):
    """Where an instruction that has all leads, and with what: its targets, and the next where it falls through."""
    row, fields, behind = instruction(code, at)
    _, takes, gives = effect(code, at)
    after = state._replace(operands=state.operands - takes + gives)
    target = fields.get("j")
    if row.flow == "":
        return [], [(behind, after)]
    if row.flow == "jumps":
        return [(target, after)], []
    if row.flow == "branches":
        return [(target, after)], [(behind, after)]
    if row.flow == "ends":
        return [], []
    if row.flow == "begins an iterator":
        return [], [(behind, after._replace(iterators=state.iterators + 1))]
    if row.flow == "advances an iterator":
        return [(target, after._replace(iterators=state.iterators - 1))], [(behind, after._replace(operands=after.operands + 1))]
    if row.flow == "ends an iterator":
        return [], [(behind, after._replace(iterators=state.iterators - 1))]
    if row.flow == "arms a handler":
        armed = after._replace(bases=((state.operands, state.iterators),) + state.bases)
        return [(target, armed)], [(behind, armed)]
    if row.flow == "disarms a handler":
        return [], [(behind, after._replace(bases=state.bases[1:]))]
    raise ValueError(row.flow)


def is_shown(state, shown):
    """Whether a state is shown so: with the innermost four bases, and how many there are."""
    bases = tuple((base["operands"], base["iterators"]) for base in shown["bases"])
    return (state.operands, state.iterators, len(state.bases), state.bases[:4]) == (
        shown["operands"],
        shown["iterators"],
        shown["handlers"],
        bases,
    )


def expect(holds, why):
    if not holds:
        raise AssertionError(why)


EMPTY = State(0, 0, ())


def check_items(code, items, entry, end):
    """The items are the instructions that have a byte from the entry up to the end."""
    starts = [at for at in starts_of(code)[0] if at < end and instruction(code, at)[2] > entry]
    expect([item["at"] for item in items] == starts, "the rows aren't the instructions")
    for item in items:
        row, fields, behind = instruction(code, item["at"])
        expect(item["bytes"] == code[item["at"] : behind].hex(), "bytes")
        expect(re.match(r"\w+", item["instruction"])[0] == row.name, "instruction")
        expect(item["target"] == fields.get("j"), "target")
        expect(item["catches"] == (row.flow == "arms a handler"), "catches")
        expect(item["falls"] == (row.flow not in ("jumps", "ends", "switches")), "falls")


def state_behind(code, caps, at, state, to, shown):
    """The state on an edge from a state at an address to another address, which is shown so."""
    expect(lack(code, caps, at, state) is None, f"a path goes on at {at}, where something is lacking")
    jumps, falls = edges(code, at, state)
    found = [behind for target, behind in jumps + falls if target == to and is_shown(behind, shown)]
    expect(found, f"no edge leads from {at} to {to} with that state")
    return found[0]


def states_of(code, caps, chunk):
    """The state of each row, which was come to from where it says."""
    rows = {item["at"]: item for item in chunk["items"] if item["state"]}
    expect(all(item["from"] is None for item in chunk["items"] if not item["state"]), "no row, and come to")
    expect(all((item["from"] is None) == (at == chunk["entry"]) for at, item in rows.items()), "an origin is lacking")
    expect(chunk["entry"] not in rows or is_shown(EMPTY, rows[chunk["entry"]]["state"]), "the entry")
    onwards = collections.defaultdict(list)
    for at, item in rows.items():
        onwards[item["from"]].append(at)
    held = {at: EMPTY for at in onwards[None]}
    waiting = list(held)
    while waiting:
        at = waiting.pop()
        for to in onwards[at]:
            held[to] = state_behind(code, caps, at, held[at], to, rows[to]["state"])
            waiting.append(to)
    expect(set(held) == set(rows), "origins in a circle")
    return held


def check_typing(code, caps, chunk, held, most):
    """The rows are a typing of the chunk and just what is reached."""
    expect(held.get(chunk["entry"]) == EMPTY, "the entry")
    work, seen = [chunk["entry"]], {chunk["entry"]}
    while work:
        at = work.pop()
        expect(lack(code, caps, at, held[at]) is None, f"{at} lacks something")
        jumps, falls = edges(code, at, held[at])
        for to, state in jumps + falls:
            expect(held.get(to) == state, f"the edge from {at} to {to}")
            if to not in seen:
                seen.add(to)
                work.append(to)
    expect(seen == set(held), "rows that aren't reached")
    expect(max(state.operands for state in held.values()) == most, "the number")
    expect(most <= chunk["declared"], "the declared stack")


def last_state(code, caps, chunk, path):
    """The last state of a path, which leads along edges from the entry."""
    expect(path and path[0]["at"] == chunk["entry"] and is_shown(EMPTY, path[0]), "a path begins at the entry")
    state = EMPTY
    for one, other in zip(path, path[1:]):
        state = state_behind(code, caps, one["at"], state, other["at"], other)
    return state


def check_frame(code, chunk, error):
    starts, end = starts_of(code)
    entry, to = chunk["entry"], chunk["end"]
    if to < entry or to > len(code):
        return error == f"chunk-out-of-range entry={entry} end={to} len={len(code)}"
    if to == entry:
        return error == "falls-off-the-end"
    bad = entry if entry not in starts else to
    return bad not in (starts if bad == entry else starts + [end]) and error == f"jump-into-an-instruction at={entry} target={bad}"


def has_flaw(code, caps, chunk, path, other, error):
    """Whether the last state of a path, or those of two paths, have the very flaw."""
    at, state = path[-1]["at"], last_state(code, caps, chunk, path)
    if error.startswith("depth-conflict"):
        there = last_state(code, caps, chunk, other)
        return other[-1]["at"] == at and there != state and error == f"depth-conflict at={at} expected={state.operands} found={there.operands}"
    if error.startswith("stack-exceeds-declared"):
        return state.operands > chunk["declared"] and error == f"stack-exceeds-declared needed={state.operands} declared={chunk['declared']}"
    missing = lack(code, caps, at, state)
    if missing is not None:
        return error == missing
    jumps, falls = edges(code, at, state)
    inside = [to for to, _ in jumps if chunk["entry"] <= to < chunk["end"]]
    outside = [to for to, _ in jumps if to not in inside]
    flaws = [f"jump-out-of-range at={at} target={to}" for to in outside]
    flaws += [f"jump-into-an-instruction at={at} target={to}" for to in inside if to not in starts_of(code)[0]]
    flaws += ["falls-off-the-end" for to, _ in falls if to == chunk["end"]]
    return error in flaws


def check_chunk(code, caps, chunk, most):
    refusal = chunk["refusal"]
    check_items(code, chunk["items"], chunk["entry"], chunk["end"])
    held = states_of(code, caps, chunk)
    if refusal is None:
        top = max((item["state"]["operands"] for item in chunk["items"] if item["state"]), default=0)
        return check_typing(code, caps, chunk, held, top if most is None else most)
    if not refusal["path"]:
        return expect(check_frame(code, chunk, refusal["error"]), "the frame hasn't that flaw")
    expect(bool(refusal["other_path"]) == refusal["error"].startswith("depth-conflict"), "another path, and no conflict")
    expect(has_flaw(code, caps, chunk, refusal["path"], refusal["other_path"], refusal["error"]), "the path shows another flaw")


def check_program(code, caps, spans, verdict, listing):
    chunks = listing["chunks"]
    if not chunks:
        whole = listing["refusal"]["error"] if listing["refusal"] else None
        expect((f"refused {whole}" if whole else "accepted") == verdict and (whole or not spans), "no chunk is listed")
        return check_items(code, listing["items"], 0, len(code))
    numbers = [int(word) for word in verdict.split()[1:]] if verdict.startswith("accepted") else [None] * len(chunks)
    expect([f"{chunk['entry']}:{chunk['end']}:{chunk['declared']}" for chunk in chunks] == spans, "chunks")
    expect(len(numbers) == len(chunks), "numbers")
    for chunk, most in zip(chunks, numbers):
        check_chunk(code, caps, chunk, most)
    errors = [chunk["refusal"]["error"] for chunk in chunks if chunk["refusal"]]
    expect((f"refused {errors[0]}" if errors else "accepted") == (verdict if errors else verdict.split()[0]), "the first refusal is another")


def is_number(word, bits):
    return re.fullmatch("[0-9]+", word) is not None and int(word) < 2**bits


def is_chunk(word):
    parts = word.split(":")
    return len(parts) == 3 and is_number(parts[0], 32) and is_number(parts[1], 32) and is_number(parts[2], 16)


SPELLINGS = {
    "HEX": (lambda word: word == "-" or re.fullmatch("([0-9a-fA-F]{2})+", word), "hexadecimal digits in pairs, or - for no bytes"),
    "ADDRESS": (lambda word: is_number(word, 32), "decimal digits only, at most 4294967295"),
    "CAPS": (lambda word: re.fullmatch("[0-9a-fA-F]{4}", word) and int(word, 16) < 0x8000, "four hexadecimal digits, at most 7fff"),
    "CHUNK": (is_chunk, "ENTRY:END:DECLARED in decimal digits only, the first two at most 4294967295, the last at most 65535"),
}
FORMS = {"code": ["HEX"], "site": ["HEX", "ADDRESS"], "verify": ["CAPS", "HEX"]}


def problem_of(words):
    """What is wrong with the first word that doesn't fit."""
    if not words:
        return "The line has no word."
    if words[0] not in FORMS:
        return "The first word must be code, site or verify."
    fields = FORMS[words[0]]
    if words[0] == "verify":
        fields = fields + ["CHUNK"] * (len(words) - 3)
    for number, field in enumerate(fields, 2):
        fits, rule = SPELLINGS[field]
        if number > len(words):
            return f"{field} is missing: {rule}."
        if not fits(words[number - 1]):
            return f"Word {number} is not a valid {field}: {rule}."
    return f"Word {len(fields) + 2} is one too many." if len(words) > len(fields) + 1 else None


def check_line(line, verdict, listing):
    expect(listing["line"] == line, "the line")
    expect(listing["verdict"] == verdict, "the verdict is another")
    words = [word for word in line.split(" ") if word]
    expect(listing["problem"] == problem_of(words), "the problem of a bad case")
    expect((listing["problem"] is not None) == (verdict == "bad case"), "a bad case")
    if verdict == "bad case" or words[0] == "site":
        return expect(not listing["items"] + listing["chunks"] and not listing["refusal"], "nothing is shown")
    bytes_of = lambda word: b"" if word == "-" else bytes.fromhex(word)
    if words[0] == "code":
        return check_items(bytes_of(words[1]), listing["items"], 0, len(bytes_of(words[1])))
    caps, code = int(words[1], 16), bytes_of(words[2])
    check_program(code, caps, [":".join(str(int(part)) for part in word.split(":")) for word in words[3:]], verdict, listing)


# The text of a listing, by its JSON.


def state_text(state):
    pairs = [f"{base['operands']}/{base['iterators']}" for base in state["bases"]]
    more = state["handlers"] - len(pairs)
    shown = " ".join(pairs) + (f" and {more} more" if more else "")
    return f"{state['operands']:>8} {state['iterators']:>9}  {shown or '-'}".ljust(30)


def op_text(item):
    how = "catches " if item["catches"] else "at its end " if item["instruction"].startswith("IterNext") else ""
    return item["instruction"] + ("" if item["target"] is None else f"  {how}-> {item['target']}")


def item_text(item, stands):
    return f"{item['at']:>9}  {item['bytes']:14}  {stands}{op_text(item)}"


def path_text(title, path, by_address):
    return [f"  {title}"] + [item_text(by_address[state["at"]], state_text(state)) for state in path]


def refusal_text(refusal, by_address):
    lines = [f"  {refusal['wrong']}", f"  The rule: {refusal['rule']}"]
    path, other = refusal["path"], refusal["other_path"]
    if other:
        return lines + path_text("One path there:", path, by_address) + path_text("Another path there:", other, by_address)
    return lines + (path_text("A path there:", path, by_address) if path else [])


def chunk_text(place, chunk):
    refusal = chunk["refusal"]
    lines = ["", f"chunk {place} from {chunk['entry']} to {chunk['end']}, which declares {chunk['declared']}: {'refused' if refusal else 'passes'}"]
    if chunk["items"]:
        lines.append("  address  bytes           operands iterators  bases     instruction")
    flaw = refusal["path"][-1]["at"] if refusal and refusal["path"] else None
    for item in chunk["items"]:
        stands = state_text(item["state"]) if item["state"] else f"  {'not visited' if refusal else 'unreachable'}".ljust(30)
        lines.append(item_text(item, stands) + ("  <== here" if item["at"] == flaw else ""))
    return lines + (refusal_text(refusal, {item["at"]: item for item in chunk["items"]}) if refusal else [])


def code_text(listing):
    lines = ["", "  address  bytes           instruction"]
    lines += [item_text(item, "") for item in listing["items"]]
    words = listing["line"].split()
    code = bytes.fromhex(words[1 if words[0] == "code" else 2])
    end = starts_of(code)[1]
    return lines + ([f"{end:>9}  no instruction"] if end < len(code) else [])


def text_of(listing):
    lines = [listing["line"], listing["verdict"]]
    if listing["problem"]:
        return lines + [f"  {listing['problem']}", ""]
    words = listing["line"].split()
    if words[0] == "site":
        return lines + [""]
    if not listing["chunks"] and words[1 if words[0] == "code" else 2] != "-":
        lines += code_text(listing)
    if listing["refusal"]:
        lines += refusal_text(listing["refusal"], {})
    for place, chunk in enumerate(listing["chunks"]):
        lines += chunk_text(place, chunk)
    return lines + [""]


# What lines are made of: a list of instructions, of which a target is the place of another.

PLAIN = [tag for tag, row in ROWS.items() if row.flow == "" and not INDICES & set(row.fields)]


def plain(rng):
    tag = rng.choice(PLAIN)
    return tag, [(field, rng.randrange(4)) for field in ROWS[tag].fields]


def jump(tag, label):
    return tag, [("j", label)] + [(field, 0) for field in ROWS[tag].fields[1:]]


def statements(rng, depth, code, labels):
    """Appends balanced statements; a label is a list that gets the place it stands for."""
    for _ in range(rng.randrange(4)):
        kind = rng.randrange(7 if depth else 3)
        if kind < 2:
            code += [(0x02, []), (0x0B, [])]
        elif kind == 2:
            code.append((0x12, []))
        elif kind == 3:
            label = []
            code += [(0x04, []), jump(rng.choice([0x0D, 0x0E]), label)]
            statements(rng, depth - 1, code, labels)
            label.append(len(code))
        elif kind == 4:
            exit_, back = [], []
            code += [(0x02, []), (0x1D, [])]
            back.append(len(code))
            code += [jump(0x1E, exit_), (0x0B, [])]
            statements(rng, depth - 1, code, labels)
            code.append(jump(0x0C, back))
            exit_.append(len(code))
        elif kind == 5:
            caught, end = [], []
            code.append(jump(0x23, caught))
            statements(rng, depth - 1, code, labels)
            code += [(0x22, []), jump(0x0C, end)]
            caught.append(len(code))
            code.append((0x22, []))
            statements(rng, depth - 1, code, labels)
            end.append(len(code))
        else:
            end = []
            code += [(0x02, []), jump(0x42, end), (0x0B, []), (0x02, [])]
            end.append(len(code))
            code.append((0x0B, []))


def changed(rng, code):
    """The instructions with one left out, put in, exchanged or led elsewhere."""
    at = rng.randrange(len(code))
    kind = rng.randrange(4)
    if kind == 0 and len(code) > 1:
        del code[at]
    elif kind == 1:
        code.insert(at, plain(rng))
    elif kind == 2:
        code[at] = rng.choice(code)
    else:
        code[at] = jump(rng.choice([0x0C, 0x0E, 0x1E, 0x21, 0x23, 0x42]), [rng.randrange(len(code) + 1)])


def assembled(code):
    places, at = [], 0
    for tag, _ in code:
        places.append(at)
        at += ROWS[tag].width
    places.append(at)
    out = bytearray()
    for tag, fields in code:
        out.append(tag)
        for field, value in fields:
            if field == "j":
                value = places[min(value[0], len(code))] if isinstance(value, list) else value
            out += value.to_bytes(SIZES.get(field, 2), "little")
    return bytes(out), places


def made(rng):
    code = []
    statements(rng, 3, code, [])
    code += [(0x02, []), (0x13, [])]
    for _ in range(rng.choice([0, 0, 1, 1, 2, 5])):
        changed(rng, code)
    data, places = assembled(code)
    caps = rng.choice(["7fff"] * 6 + [f"{rng.randrange(0x8000):04x}"])
    chunks = [f"0:{len(data)}:{rng.choice([8, 8, 8, 1, 2, 65535])}"]
    if rng.random() < 0.2:
        chunks.append(f"{rng.choice(places)}:{rng.choice(places)}:{rng.randrange(4)}")
    if rng.random() < 0.05:
        chunks.append(f"{rng.randrange(len(data) + 2)}:{rng.randrange(len(data) + 2)}:3")
    if rng.random() < 0.1:
        data = bytearray(data)
        data[rng.randrange(len(data))] = rng.randrange(256)
    return f"verify {caps} {bytes(data).hex()} {' '.join(chunks)}"


def mutated(rng, rows):
    line = list(rng.choice(rows))
    for _ in range(rng.randrange(1, 3)):
        at = rng.randrange(0 if rng.random() < 0.1 else min(7, len(line) - 1), len(line))
        line[at] = rng.choice("0123456789abcdef: -") if rng.random() < 0.2 else rng.choice("0123456789abcdef")
    return "".join(line)


def lines_of(rng, count):
    files = sorted((TOP / "tests" / "lines").glob("*.in"))
    rows = [line for path in files for line in path.read_text().splitlines() if re.fullmatch("[^#][!-~ ]*", line)]
    return [made(rng) if rng.random() < 0.75 else mutated(rng, rows) for _ in range(count)]


def answers(program, lines, *arguments):
    ran = subprocess.run([program, *arguments], input="\n".join(lines) + "\n", capture_output=True, text=True)
    return ran.stdout.splitlines(), ran.returncode


def check_all(lines, verdicts, listings, text):
    """How many verdicts there are of each kind."""
    kinds, place = collections.Counter(), 0
    for line, verdict, listing in zip(lines, verdicts, listings):
        try:
            listing = json.loads(listing)
            check_line(line, verdict, listing)
            written = text_of(listing)
            expect(text[place : place + len(written)] == written, "the text says something else")
            place += len(written)
        except (AssertionError, KeyError, ValueError, TypeError, IndexError) as why:
            sys.exit(f"{line}\n{verdict}\n{json.dumps(listing)}\n{why!r}")
        kinds[" ".join(verdict.split()[: 2 if verdict.startswith(("refused", "bad")) else 1])] += 1
    if place != len(text):
        sys.exit(f"{len(text) - place} lines of text more")
    return kinds


def main():
    parser = argparse.ArgumentParser(description=__doc__.splitlines()[0])
    parser.add_argument("check")
    parser.add_argument("grain")
    parser.add_argument("--lines", type=int, default=1000)
    parser.add_argument("--seed", type=int, default=1)
    wanted = parser.parse_args()
    lines = lines_of(random.Random(wanted.seed), wanted.lines)
    verdicts, status = answers(wanted.check, lines)
    listings, list_status = answers(wanted.grain, lines, "lines", "--json")
    text, text_status = answers(wanted.grain, lines, "lines")
    # A bad case has `grain_check` end with status 2, and `grain` with 1.
    if len(verdicts) != len(lines) or len(listings) != len(lines) or not {0: 0, 2: 1}.get(status) == list_status == text_status:
        sys.exit(f"{len(lines)} lines, {len(verdicts)} verdicts, {len(listings)} listings; statuses {status}, {list_status} and {text_status}")
    for kind, count in check_all(lines, verdicts, listings, text).most_common():
        print(f"{count:8} {kind}")
    print(f"{len(lines)} lines well, seed {wanted.seed}, status {status}")


if __name__ == "__main__":
    main()
