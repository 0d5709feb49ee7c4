#!/usr/bin/env python3
"""Draws the control flow of a chunk: grain lines --json <LINES | docs/pictures/flow.py FILE.svg [LINE [CHUNK]]

LINE and CHUNK are counted from 0. Addresses run down the page, with the instruction and what stands there; jumps go at the left,
those of handlers dashed and in blue, and the path to a flaw is red. Only the standard library is needed.
"""
import json
import pathlib
import re
import sys

sys.dont_write_bytecode = True
sys.path.append(str(pathlib.Path(__file__).resolve().parent))
from draw import BLUE, BLUE_FILL, FAINT, INK, RED, RED_FILL, Picture

HEIGHT, TOP, LANE, LETTER = 34, 84, 18, 8.2


def label(item):
    """The instruction's name, with its target."""
    name = re.match(r"\w+", item["instruction"])[0]
    return name if item["target"] is None else f"{name} {item['target']}"


def bases(state):
    return " ".join(f"{base['operands']}/{base['iterators']}" for base in state["bases"])


def stands(state):
    return f"{state['operands']}, {state['iterators']}"


def steps_of(refusal):
    """The edges of the paths to a flaw."""
    paths = [refusal["path"], refusal["other_path"]] if refusal else []
    return {(one["at"], other["at"]) for path in paths for one, other in zip(path, path[1:])}


def jumps_of(items, place):
    """The edges that don't lead to the next row, the shortest first."""
    edges = []
    for number, item in enumerate(items):
        if item["target"] in place:
            edges.append((number, place[item["target"]], item["catches"]))
    return sorted(edges, key=lambda edge: (abs(edge[0] - edge[1]), edge[0]))


def lanes_of(edges):
    """A lane for each edge, so that no two in one lane touch."""
    lanes, taken = [], []
    for start, end, _ in edges:
        low, high = min(start, end), max(start, end)
        lane = next((k for k, spans in enumerate(taken) if all(high < a or b < low for a, b in spans)), len(taken))
        if lane == len(taken):
            taken.append([])
        taken[lane].append((low, high))
        lanes.append(lane)
    return lanes, len(taken)


def wrapped(words, width):
    """The words in lines of at most this number of letters."""
    lines = [""]
    for word in words.split():
        if lines[-1] and len(lines[-1]) + 1 + len(word) > width:
            lines.append("")
        lines[-1] = f"{lines[-1]} {word}".strip()
    return lines


def last_of(refusal, member):
    """The state to which a path of a refusal leads, if there is one."""
    return refusal[member][-1] if refusal and refusal[member] else None


class Flow:
    """The picture of a chunk."""

    def __init__(self, chunk):
        self.chunk, self.items, self.refusal = chunk, chunk["items"], chunk["refusal"]
        self.edges = jumps_of(self.items, {item["at"]: row for row, item in enumerate(self.items)})
        self.lanes, lane_count = lanes_of(self.edges)
        self.red = steps_of(self.refusal)
        self.flaw, self.other = last_of(self.refusal, "path"), last_of(self.refusal, "other_path")
        self.left = 30 + LANE * (lane_count + 1)
        self.instruction = self.left + 74
        self.counts = self.instruction + LETTER * max([len(label(item)) for item in self.items] + [11]) + 40
        self.handlers = self.counts + 148
        longest = max([len(bases(item["state"])) for item in self.items if item["state"]] + [18])
        self.width = int(max(self.handlers + 7.5 * longest + 40, 560))
        self.said = wrapped(self.refusal["wrong"], int((self.width - 60) / 6.6)) if self.refusal else []
        self.below = TOP + HEIGHT * len(self.items)
        verdict = "refused" if self.refusal else "passes"
        title = f"The chunk from {chunk['entry']} to {chunk['end']}: {verdict}"
        self.picture = Picture(self.width, self.below + 24 + 19 * len(self.said), title)
        self.picture.text(self.left - 12, 30, title, 15, RED if self.refusal else INK, bold=True)

    def is_flaw(self, item):
        return self.flaw is not None and self.flaw["at"] == item["at"]

    def is_left(self, item):
        """Whether edges lead on from an instruction: none do where something is lacking."""
        return item["state"] is not None and (not self.is_flaw(item) or self.other is not None)

    def middle(self, row):
        return TOP + HEIGHT * row + HEIGHT / 2 - 6

    def titles(self):
        for x, title, anchor in (
            (self.left + 34, "address", "end"),
            (self.instruction, "instruction", "start"),
            (self.counts, "operands, iterators", "start"),
            (self.handlers, "bases of armed handlers", "start"),
        ):
            self.picture.text(x, 60, title, 12, FAINT, anchor)

    def both(self, text, none):
        """The state at the flaw, by both paths where these differ in it."""
        here, there = text(self.flaw), text(self.other) if self.other else text(self.flaw)
        return here if here == there else f"{here or none} and {there or none}"

    def row(self, row, item):
        y, state, is_flaw = self.middle(row), item["state"], self.is_flaw(item)
        fill, stroke = ("#ffffff", "#d8d8d0") if state else ("#f3f3ee", "#e4e4dc")
        if state and state["bases"]:
            fill, stroke = BLUE_FILL, "#bcd0e4"
        if is_flaw:
            fill, stroke = RED_FILL, RED
        self.picture.box(self.left - 10, y - 12, self.width - self.left - 10, 24, fill, stroke, 4)
        ink = RED if is_flaw else INK if state else FAINT
        self.picture.text(self.left + 34, y + 5, str(item["at"]), 13, ink, "end", mono=True)
        self.picture.text(self.instruction, y + 5, label(item), 13, ink, bold=is_flaw, mono=True)
        if is_flaw:
            self.picture.text(self.counts, y + 5, self.both(stands, "none"), 13, ink, mono=True)
            self.picture.text(self.handlers, y + 5, self.both(bases, "none"), 13, ink, mono=True)
        elif state:
            self.picture.text(self.counts, y + 5, stands(state), 13, ink, mono=True)
            self.picture.text(self.handlers, y + 5, bases(state), 13, BLUE, mono=True)
        else:
            self.picture.text(self.counts, y + 5, "not visited" if self.refusal else "unreachable", 12, FAINT)

    def arrow(self, start, end, points, ink, dashed=False):
        is_red = (start["at"], end["at"]) in self.red
        self.picture.arrow(points, RED if is_red else ink, dashed=dashed, width=2.0 if is_red else 1.4)

    def falls(self):
        for row, (item, below) in enumerate(zip(self.items, self.items[1:])):
            if item["falls"] and self.is_left(item):
                x = self.left + 56
                self.arrow(item, below, [(x, self.middle(row) + 12), (x, self.middle(row + 1) - 12)], INK)

    def jumps(self):
        for (start, end, catches), lane in zip(self.edges, self.lanes):
            if self.is_left(self.items[start]):
                x, side = self.left - 10 - LANE * (lane + 1), self.left - 10
                out, to = self.middle(start) + (3 if end > start else -3), self.middle(end) + (-8 if end > start else 8)
                points = [(side, out), (x, out), (x, to), (side, to)]
                self.arrow(self.items[start], self.items[end], points, BLUE if catches else INK, dashed=catches)

    def drawn(self):
        self.titles()
        for row, item in enumerate(self.items):
            self.row(row, item)
        self.falls()
        self.jumps()
        for row, words in enumerate(self.said):
            self.picture.text(self.left - 12, self.below + 16 + 19 * row, words, 13, RED)
        return "\n".join(self.picture.shapes + ["</svg>", ""])


def main():
    if len(sys.argv) < 2:
        sys.exit(__doc__)
    line, chunk = (int(word) for word in (sys.argv[2:] + ["0", "0"][len(sys.argv) - 2:]))
    listing = json.loads(sys.stdin.read().splitlines()[line])
    pathlib.Path(sys.argv[1]).write_text(Flow(listing["chunks"][chunk]).drawn())


if __name__ == "__main__":
    main()
