"""Reads program files and sidecar files by docs/FORMAT.md alone, and says of each whether it is one.

    file_reader.py FILE..          a line for each file: its verdict
    file_reader.py --hex TEXT..    the same for bytes in hexadecimal; with --sidecar as sidecar files

The verdict is `file`, or the byte and the cause of the first fault, as in `23 NotShortest`, or `TooLarge`. It shares no code with
the crate: what the two answer on the same bytes can be compared.
"""

import argparse
import sys

SIZE, DEPTH, CASES = 64 << 20, 64, 4096


def number(value):
    """The shortest spelling of a number."""
    groups = []
    while value >= 128:
        groups.append(value % 128 | 128)
        value //= 128
    return bytes([*groups, value])


class Fault(Exception):
    def __init__(self, at, cause):
        self.at, self.cause = at, cause


class Reader:
    def __init__(self, data):
        self.data, self.at = data, 0

    def byte(self):
        if self.at == len(self.data):
            raise Fault(self.at, "Truncated")
        self.at += 1
        return self.data[self.at - 1]

    def expect(self, wanted, cause):
        if self.byte() != wanted:
            raise Fault(self.at - 1, cause)

    def tag(self, limit):
        value = self.byte()
        if value >= limit:
            raise Fault(self.at - 1, "UnknownTag")
        return value

    def number(self, bits=64):
        # Whatever is wrong with a number stands at its first byte.
        start, value, shift = self.at, 0, 0
        while True:
            if self.at == len(self.data):
                raise Fault(start, "Truncated")
            group = self.data[self.at]
            self.at += 1
            value |= (group & 127) << shift
            if group < 128:
                break
            shift += 7
            if shift == 70:
                raise Fault(start, "TooWide")
        if shift and group == 0:
            raise Fault(start, "NotShortest")
        if value >= 1 << bits:
            raise Fault(start, "TooWide")
        return value

    def signed(self):
        value = self.number()
        return -(value // 2) - 1 if value % 2 else value // 2

    def bytes(self):
        count = self.number()
        if len(self.data) - self.at < count:
            raise Fault(self.at, "Truncated")
        self.at += count
        return self.data[self.at - count : self.at]

    def text(self):
        start = self.at
        found = self.bytes()
        try:
            found.decode("utf-8")
        except UnicodeDecodeError:
            raise Fault(start, "NotText") from None
        return found

    def list(self, item):
        return [item() for _ in range(self.number())]

    def option(self, item):
        return item() if self.tag(2) else None


def read_value(r, depth):
    """The value, as what it is without its shared marks."""
    if depth == 0:
        raise Fault(r.at, "TooDeep")
    tag = r.tag(14)
    if tag <= 2:
        return (tag,)
    if tag == 3:
        return (tag, r.signed())
    if tag == 4:
        start = r.at
        value = r.number(32)
        if value > 0x10FFFF or 0xD800 <= value < 0xE000:
            raise Fault(start, "NotCharacter")
        return (tag, value)
    if tag == 5:
        return (tag, r.text())
    if tag <= 7:
        return (tag, r.signed(), r.signed())
    if tag == 8:
        return (tag, tuple(r.list(lambda: read_value(r, depth - 1))))
    if tag == 9:
        return (tag, r.bytes())
    if tag == 10:
        return (tag, read_entries(r, depth - 1))
    if tag == 11:
        return (tag, r.text(), tuple(r.list(lambda: read_value(r, depth - 1))))
    if tag == 13:
        return (tag, r.number())
    return read_value(r, depth - 1)


def read_entries(r, depth):
    entries = []
    for _ in range(r.number()):
        start = r.at
        key = r.text()
        if entries and key <= entries[-1][0]:
            raise Fault(start, "KeyOrder")
        entries.append((key, read_value(r, depth)))
    return tuple(entries)


def read_chunk(r):
    r.number(32), r.number(32), r.number(16)


def read_function(r):
    r.number(32)
    r.list(lambda: r.number(32))
    r.tag(2)
    r.option(lambda: r.number(32))
    read_chunk(r)


def read_names(r):
    start = r.at
    if sum(map(len, r.list(r.text))) >= 1 << 32:
        raise Fault(start, "NamesTooLong")


def read_operator(r):
    if r.tag(40) == 39:
        r.text()


def read_op_assignment(r):
    read_operator(r), r.number(32), read_operator(r), r.number(32)


def read_line_and_column(r):
    start = r.at
    line, _column = r.number(16), r.number(16)
    if line == 0:
        raise Fault(start, "NoLine")


def read_position(r):
    r.option(lambda: read_line_and_column(r))


def read_root(r):
    tag = r.tag(4)
    if tag == 0:
        r.number(16), r.number(32)
    elif tag == 1:
        r.number(32), read_position(r)
    elif tag == 2:
        read_position(r)


def read_step(r):
    tag = r.tag(3)
    if tag == 0:
        r.number(16), r.byte(), read_position(r), read_position(r)
    elif tag == 1:
        r.number(32), r.number(32), r.number(32), r.byte(), read_position(r)
    else:
        r.number(32), r.byte(), r.number(16), r.byte(), read_position(r)


def read_chain(r):
    read_root(r)
    r.list(lambda: read_step(r))
    r.option(lambda: r.option(lambda: r.number(32)))
    r.number(16)


def read_cases(r, constants):
    start = r.at
    cases = r.list(lambda: (r.number(32), r.number(32)))
    indices = [constant for constant, _target in cases]
    if any(b <= a for a, b in zip(indices, indices[1:])):
        raise Fault(start, "CaseOrder")
    if any(i >= len(constants) for i in indices):
        raise Fault(start, "NoConstant")
    if len(cases) > CASES:
        raise Fault(start, "TooManyCases")
    if len({constants[i] for i in indices}) < len(indices):
        raise Fault(start, "SameCase")


def read_range(r):
    r.signed(), r.signed(), r.tag(2), r.number(32)


def read_switch(r, constants):
    read_cases(r, constants)
    r.list(lambda: read_range(r))
    r.number(32)


def read_head(r, kind):
    for byte in b"\x00grn":
        r.expect(byte, "Magic")
    r.expect(2, "Version")
    r.expect(kind, "Kind")


def read_end(r):
    if r.at < len(r.data):
        raise Fault(r.at, "Trailing")


def read_sidecar(r):
    read_head(r, 1)
    r.number(), r.number()
    r.bytes(), r.bytes()
    read_end(r)


def read_program(r):
    read_head(r, 0)
    r.number(16), r.number(), r.number()
    r.bytes()
    read_chunk(r)
    r.list(lambda: read_function(r))
    read_names(r)
    constants = r.list(lambda: read_value(r, DEPTH))
    r.list(lambda: read_operator(r))
    r.list(lambda: read_op_assignment(r))
    r.list(lambda: read_chain(r))
    r.list(lambda: read_switch(r, constants))
    r.option(r.text)
    r.option(lambda: r.list(lambda: read_position(r)))
    read_end(r)


def verdict(data, read=read_program):
    if len(data) > SIZE:
        return "TooLarge"
    try:
        read(Reader(data))
    except Fault as fault:
        return f"{fault.at} {fault.cause}"
    return "file"


def main():
    options = argparse.ArgumentParser(description=__doc__, formatter_class=argparse.RawDescriptionHelpFormatter)
    options.add_argument("--hex", action="store_true", help="the arguments are bytes, and no names of files")
    options.add_argument("--sidecar", action="store_true", help="the files are sidecars")
    options.add_argument("what", nargs="+")
    given = options.parse_args()
    for what in given.what:
        if given.hex:
            data = bytes.fromhex(what)
        else:
            with open(what, "rb") as file:
                data = file.read()
        print(verdict(data, read_sidecar if given.sidecar else read_program))


if __name__ == "__main__":
    sys.exit(main())
