#!/usr/bin/env python3
"""Draws the pictures of the documents, way.svg, try.svg and sinks.svg, beside this file: docs/pictures/draw.py

Plain shapes and texts at places of their own, so that any program that shows SVG shows the same.
"""
import pathlib
from xml.sax.saxutils import escape

HERE = pathlib.Path(__file__).resolve().parent
PAPER, INK, FAINT, FRAME = "#fcfcf9", "#222222", "#767676", "#9a9a9a"
BLUE, BLUE_FILL, RED, RED_FILL, GREEN, GREEN_FILL = "#1f5d99", "#e6eff8", "#b03a2e", "#fbeae7", "#2e7d4f", "#e6f4ea"


class Picture:
    def __init__(self, width, height, title):
        self.shapes = [
            f'<svg xmlns="http://www.w3.org/2000/svg" width="{width}" height="{height}"'
            f' viewBox="0 0 {width} {height}" font-family="Helvetica, Arial, sans-serif">',
            f"<title>{escape(title)}</title>",
        ]
        self.box(0, 0, width, height, PAPER, "none", 0)

    def box(self, x, y, width, height, fill="#ffffff", stroke=FRAME, round_by=5):
        self.shapes.append(
            f'<rect x="{x}" y="{y}" width="{width}" height="{height}" rx="{round_by}" fill="{fill}" stroke="{stroke}"/>'
        )

    def text(self, x, y, words, size=13, fill=INK, anchor="start", bold=False, mono=False):
        kind = ' font-family="Menlo, Consolas, DejaVu Sans Mono, monospace"' if mono else ""
        weight = ' font-weight="bold"' if bold else ""
        self.shapes.append(
            f'<text x="{x}" y="{y}" font-size="{size}" fill="{fill}" text-anchor="{anchor}"{kind}{weight}>{escape(words)}</text>'
        )

    def circle(self, x, y, radius, fill, stroke):
        self.shapes.append(f'<circle cx="{x}" cy="{y}" r="{radius}" fill="{fill}" stroke="{stroke}"/>')

    def arrow(self, points, stroke=INK, dashed=False, width=1.4):
        """A line through the points, with a head at the last, to which it comes level or upright."""
        (fx, fy), (x, y) = points[-2:]
        dx, dy = (x > fx) - (x < fx), (y > fy) - (y < fy)
        head = [(x, y), (x - 8 * dx - 4 * dy, y - 8 * dy - 4 * dx), (x - 8 * dx + 4 * dy, y - 8 * dy + 4 * dx)]
        ends = points[:-1] + [(x - 7 * dx, y - 7 * dy)]
        line = "M" + " L".join(f"{px} {py}" for px, py in ends)
        dash = ' stroke-dasharray="6 4"' if dashed else ""
        self.shapes.append(f'<path d="{line}" fill="none" stroke="{stroke}" stroke-width="{width}"{dash}/>')
        corners = " ".join(f"{px},{py}" for px, py in head)
        self.shapes.append(f'<polygon points="{corners}" fill="{stroke}"/>')

    def write(self, name):
        (HERE / name).write_text("\n".join(self.shapes + ["</svg>", ""]))


def way():
    """From what is verified to the numbers or a refusal, test by test."""
    p = Picture(940, 866, "From bytes to a verdict")
    left, width, right = 60, 480, 640

    def part(y, title, more=None, refused=(), inset=0):
        height = 52 if more else 36
        p.box(left + inset, y, width - inset, height)
        p.text(left + inset + 14, y + 23, title, 14, bold=True)
        if more:
            p.text(left + inset + 14, y + 42, more, 13)
        for place, name in enumerate(refused):
            p.text(right, y + height / 2 + 5 + 17 * (place - (len(refused) - 1) / 2), name, 13, RED, mono=True)
        if refused:
            p.arrow([(left + width, y + height / 2), (right - 12, y + height / 2)], RED)
        return y + height

    def down(y, to, x=left + width / 2):
        p.arrow([(x, y), (x, to)])

    p.text(right, 34, "refused, by name", 13, FAINT)
    p.box(left, 14, width, 52, BLUE_FILL, BLUE)
    p.text(left + 14, 37, "What is verified", 14, bold=True)
    p.text(left + 14, 56, "capabilities, constants, code, functions, chunks, pools", 13)

    p.box(30, 88, 540, 184, "#f3f3ee", "#d8d8d0", 8)
    p.text(560, 105, "no memory is taken", 12, FAINT, "end")
    down(66, 112)
    end = part(112, "Constants: what each asks is there", refused=["MissingCaps"])
    down(end, 166)
    end = part(166, "Code: whole instructions, each index in bounds", refused=["Undecodable", "BadIndex"])
    down(end, 220)
    end = part(220, "Functions: where there are some, FUNCTION is there", refused=["MissingCaps"])
    down(end, 290)
    end = part(290, "Starts", "a bit for each address at which an instruction begins", ["OutOfMemory, here or below"])

    p.box(30, 362, 540, 420, "#f3f3ee", "#d8d8d0", 8)
    p.text(560, 379, "chunk after chunk", 12, FAINT, "end")
    down(end, 388)
    end = part(388, "Frame", "in the code, not empty, from a start to a boundary",
                ["ChunkOutOfRange", "FallsOffTheEnd", "JumpIntoAnInstruction"])
    inset = 70
    middle = left + inset + (width - inset) / 2
    down(end, 462, middle)
    p.box(left + inset, 462, width - inset, 52, BLUE_FILL, BLUE)
    p.text(left + inset + 14, 485, "What comes next", 14, bold=True)
    p.text(left + inset + 14, 504, "the entry; then what falls through, or one of the worklist", 13)
    down(514, 534, middle)
    end = part(534, "Visited before?", "then what comes has to equal its state; else it becomes it", ["DepthConflict"], inset)
    p.arrow([(left + inset, 560), (left + 45, 560)], BLUE)
    p.text(left + 48, 553, "yes", 12, BLUE)
    down(end, 606, middle)
    p.text(middle + 8, 600, "no", 12, FAINT)
    end = part(606, "It has what it asks and needs", "and, where it isn't quiet, leaves the last base",
                ["MissingCaps, Underflow", "IteratorUnderflow, HandlerUnderflow", "SinksBelowHandler"], inset)
    down(end, 678, middle)
    part(678, "What it leaves is sent along each edge", refused=["JumpOutOfRange, FallsOffTheEnd", "JumpIntoAnInstruction"],
         inset=inset)
    p.arrow([(left + inset, 696), (left + 44, 696), (left + 44, 476), (left + inset, 476)], BLUE)
    p.arrow([(left + inset, 500), (left + 16, 500), (left + 16, 736)])
    p.text(left + 24, 730, "where nothing is left", 12, FAINT)
    part(736, "The greatest operand count is within the declared one", refused=["StackExceedsDeclared"])
    down(772, 800)
    p.box(left, 800, width, 52, GREEN_FILL, GREEN)
    p.text(left + 14, 823, "Accepted", 14, bold=True)
    p.text(left + 14, 842, "of each chunk its number: the greatest operand count that is reached", 13)
    p.write("way.svg")


# address, instruction, operands, iterators, whether the handler is armed
LISTING = [
    (0, "Unit", 0, 0, False),
    (1, "IterInit", 1, 0, False),
    (2, "IterNext 25", 0, 1, False),
    (7, "PushHandler 18", 1, 1, False),
    (12, "LoadLocal 0", 1, 1, True),
    (15, "CallFnPtr 0", 2, 1, True),
    (17, "Pop", 2, 1, True),
    (18, "PopHandler", 1, 1, True),
    (19, "Pop", 1, 1, False),
    (20, "Jump 2", 0, 1, False),
    (25, "Return", 0, 0, False),
]


def one_try():
    """The worked listing: its counts, its edges, and a fault that is caught."""
    p = Picture(860, 500, "A try and its catch edge")
    step, top = 36, 62
    middle = {address: top + step * place + 14 for place, (address, *_) in enumerate(LISTING)}
    for x, words in [(150, "address"), (206, "instruction"), (378, "operands"), (470, "iterators"), (556, "bases")]:
        p.text(x, 36, words, 12, FAINT)
    p.box(136, middle[12] - 17, 500, middle[18] - middle[12] + 34, RED_FILL, "#eac3bd", 6)
    for address, instruction, operands, iterators, armed in LISTING:
        y = middle[address]
        p.text(184, y + 5, str(address), 14, anchor="end", mono=True)
        p.text(206, y + 5, instruction, 14, mono=True)
        for place in range(operands):
            kept = armed and place == 0
            p.box(378 + 22 * place, y - 8, 16, 16, "#e2a59d" if kept else "#ffffff", RED if kept else INK, 2)
        for place in range(iterators):
            p.circle(478 + 22 * place, y, 8, "#e2a59d" if armed else "#ffffff", RED if armed else INK)
        p.text(556, y + 5, "1/1" if armed else "none", 13, RED if armed else FAINT, mono=armed)
    for (before, *_), (after, *_) in zip(LISTING, LISTING[1:]):
        if before != 20:
            p.arrow([(170, middle[before] + 7), (170, middle[after] - 11)], FAINT, width=1)
    p.arrow([(134, middle[20]), (100, middle[20]), (100, middle[2] + 6), (134, middle[2] + 6)], BLUE)
    p.arrow([(134, middle[2] - 5), (76, middle[2] - 5), (76, middle[25]), (134, middle[25])], BLUE)
    p.text(68, middle[12] + 4, "no item", 12, BLUE, "end")
    p.text(68, middle[12] + 20, "is left", 12, BLUE, "end")
    p.text(108, middle[20] + 18, "again", 12, BLUE)
    p.arrow([(608, middle[7]), (672, middle[7]), (672, middle[18]), (642, middle[18])], RED, dashed=True)
    p.text(682, middle[7] + 5, "arms a handler, whose", 12, RED)
    p.text(682, middle[7] + 21, "base is what stands here:", 12, RED)
    p.text(682, middle[7] + 37, "1 operand, 1 iterator", 12, RED)
    p.text(682, middle[15] + 2, "catch edge: a fault that it", 12, RED)
    p.text(682, middle[15] + 18, "catches is cut to the base,", 12, RED)
    p.text(682, middle[15] + 34, "and goes on at 18", 12, RED)
    p.text(136, 484, "Shaded: what stood when the handler was armed. It stands all along, and where the catch edge leads.", 12, FAINT)
    p.write("try.svg")


# address, instruction, the operands that stand before it, what is said beside
RUN = [
    (0, "Unit", 0, ""),
    (1, "PushHandler 9", 1, "arms a handler: its base is 1 operand"),
    (6, "Pop", 1, "is quiet, so that it may take the base's operand"),
    (7, "PopHandler", 0, "is quiet too, and this machine faults at it"),
    (9, "PopHandler", 0, "cut to the base, 1 operand should stand, and none does"),
    (10, "Pop", 0, "lacks its operand"),
]


def sinks():
    """The run of the README that isn't kept."""
    p = Picture(860, 312, "A run that isn't kept")
    step, top = 36, 62
    middle = {address: top + step * place + 14 for place, (address, *_) in enumerate(RUN)}
    for x, words in [(150, "address"), (206, "instruction"), (378, "operands")]:
        p.text(x, 36, words, 12, FAINT)
    p.box(136, middle[6] - 17, 330, middle[7] - middle[6] + 34, RED_FILL, "#eac3bd", 6)
    for address, instruction, operands, beside in RUN:
        y = middle[address]
        lost = address >= 9
        p.text(184, y + 5, str(address), 14, anchor="end", mono=True)
        p.text(206, y + 5, instruction, 14, mono=True)
        for place in range(operands):
            p.box(378 + 22 * place, y - 8, 16, 16, "#e2a59d" if address == 6 else "#ffffff", RED if address == 6 else INK, 2)
        if not operands and address != 0:
            p.text(378, y + 5, "none", 13, RED if lost else INK)
        p.text(482, y + 5, beside, 13, RED if address in (7, 9, 10) else FAINT)
    for before, after in [(0, 1), (1, 6), (6, 7), (9, 10)]:
        p.arrow([(170, middle[before] + 7), (170, middle[after] - 11)], FAINT, width=1)
    p.arrow([(134, middle[7]), (96, middle[7]), (96, middle[9]), (134, middle[9])], RED, dashed=True)
    p.text(90, middle[7] + 22, "caught", 12, RED, "end")
    p.text(136, 296, "Accepted code sees to it at every instruction that isn't quiet. At the quiet ones the host does.", 12, FAINT)
    p.write("sinks.svg")


if __name__ == "__main__":
    way()
    one_try()
    sinks()
