"""Random program files, by docs/FORMAT.md, "Program files"."""
import pathlib
import random
import re

TOP = pathlib.Path(__file__).resolve().parents[2]
# Tag and field letters of each instruction, by docs/FORMAT.md.
ROW = re.compile(r"^\| ([0-9a-f]{2}) \| [A-Z_]+ \| ([a-z ]*) \| \d \|", re.M)
WIDTH = {letter: 2 for letter in "cntofhwys"} | {"a": 1, "j": 4}


def number(value):
    """The shortest spelling of a number."""
    out = bytearray()
    while value > 127:
        out.append(value & 127 | 128)
        value >>= 7
    return bytes([*out, value])


def signed(value):
    return number(2 * value if value >= 0 else -2 * value - 1)


def text(value):
    return number(len(value.encode())) + value.encode()


def listed(items):
    return number(len(items)) + b"".join(items)


class Random:
    """Programs of a seed, one after another."""

    def __init__(self, seed):
        self.random = random.Random(seed)
        self.rows = [(int(tag, 16), fields.split()) for tag, fields in ROW.findall((TOP / "docs/FORMAT.md").read_text())]

    def below(self, limit):
        return self.random.randrange(limit)

    def small(self, limit=1 << 16):
        return self.random.choice([0, 1, 2, limit - 1, self.below(limit)])

    def word(self):
        return "".join(self.random.choices("ab_\"\\'\n\t;# é\U0001f600\x00\x7f$", k=self.below(5)))

    def option(self, made):
        return b"\1" + made() if self.below(2) else b"\0"

    def many(self, made, most=3):
        return listed([made() for _ in range(self.below(most + 1))])

    def integer(self):
        return self.random.choice([0, 1, -1, -(1 << 63), (1 << 63) - 1, self.below(1 << 20)])

    def float_bits(self):
        """0.0, -0.0, 1.5, infinity, a NaN, the smallest number and the greatest, all bits, and any."""
        known = [0, 1 << 63, 0x3FF8 << 48, 0x7FF0 << 48, 0xFFF8 << 48, 1, (0x7FF0 << 48) - 1, (1 << 64) - 1]
        return self.random.choice([*known, self.random.getrandbits(64)])

    def value(self, depth=3):
        kind = self.below(14 if depth else 9)
        if not depth and kind == 8:
            kind = 13
        if kind < 3:
            return bytes([kind])
        if kind == 3:
            return b"\3" + signed(self.integer())
        if kind == 4:
            return b"\4" + number(ord(self.random.choice("a'\\\né\U0001f600\x00")))
        if kind == 5:
            return b"\5" + text(self.word())
        if kind in (6, 7):
            return bytes([kind]) + signed(self.integer()) + signed(self.integer())
        if kind == 8:
            return b"\x08" + self.many(lambda: self.value(depth - 1))
        if kind == 9:
            data = self.random.randbytes(self.below(5))
            return b"\x09" + number(len(data)) + data
        if kind == 10:
            keys = sorted({self.word() for _ in range(self.below(4))}, key=str.encode)
            return b"\x0a" + listed([text(key) + self.value(depth - 1) for key in keys])
        if kind == 11:
            return b"\x0b" + text(self.word()) + self.many(lambda: self.value(depth - 1))
        if kind == 12:
            return b"\x0c" + self.value(depth - 1)
        return b"\x0d" + number(self.float_bits())

    def token(self):
        tag = self.below(40)
        return bytes([tag]) + (text(self.word()) if tag == 39 else b"")

    def position(self):
        return b"\1" + number(1 + self.small((1 << 16) - 1)) + number(self.small()) if self.below(2) else b"\0"

    def chunk(self, length):
        return number(self.small(length + 2)) + number(self.small(1 << 32)) + number(self.small())

    def index(self):
        return number(self.small(1 << 32))

    def root(self):
        return self.random.choice([
            lambda: b"\0" + number(self.small()) + self.index(),
            lambda: b"\1" + self.index() + self.position(),
            lambda: b"\2" + self.position(),
            lambda: b"\3",
        ])()

    def step(self):
        flags = bytes([self.below(256)])
        return self.random.choice([
            lambda: b"\0" + number(self.small()) + flags + self.position() + self.position(),
            lambda: b"\1" + self.index() + self.index() + self.index() + flags + self.position(),
            lambda: b"\2" + self.index() + bytes([self.below(256)]) + number(self.small()) + flags + self.position(),
        ])()

    def chain(self):
        tail = b"\1" + self.option(self.index) if self.below(2) else b"\0"
        return self.root() + self.many(self.step) + tail + number(self.small())

    def switch(self, constants):
        chosen = sorted(self.random.sample(range(constants), self.below(constants + 1))) if constants else []
        cases = [number(constant) + number(self.small(1 << 32)) for constant in chosen]
        ranges = self.many(lambda: signed(self.integer()) + signed(self.integer()) + bytes([self.below(2)]) + self.index())
        return listed(cases) + ranges + self.index()

    def code(self):
        code = b""
        for _ in range(self.below(12)):
            tag, fields = self.random.choice(self.rows)
            code += bytes([tag])
            for field in fields:
                code += self.below(1 << 8 * WIDTH[field] if field != "j" else 40).to_bytes(WIDTH[field], "little")
        return code + self.random.randbytes(self.below(3)) * self.below(2)

    def program(self):
        code = self.code()
        function = lambda: self.index() + self.many(self.index) + bytes([self.below(2)]) + self.option(self.index) + self.chunk(len(code))
        # Constants that are all different, as the cases of a switch have to be.
        constants = [b"\3" + signed(at) for at in range(self.below(4))]
        others = [self.value() for _ in range(self.below(4))]
        parts = [
            b"\0grn\2\0", number(self.small()), number(self.small(1 << 64)), number(self.small(1 << 64)),
            number(len(code)), code, self.chunk(len(code)), self.many(function),
            self.many(lambda: text(self.word())), listed(constants + others), self.many(self.token),
            self.many(lambda: self.token() + self.index() + self.token() + self.index()),
            self.many(self.chain), self.many(lambda: self.switch(len(constants))),
            self.option(lambda: text(self.word())),
            self.option(lambda: listed([self.position() for _ in range(self.random.choice([len(code), self.below(9)]))])),
        ]
        return b"".join(parts)
