"""What is written of a program file that is tightened or stripped, by docs/FORMAT.md alone.

tests/models/file_reader.py reads the file, and notes where its positions and its chunks are. It shares no code with the crates.
"""
from models import file_reader
from models.file_reader import number


class Noting(file_reader.Reader):
    """Notes where options, numbers and lists of bytes begin and end."""

    def __init__(self, data):
        super().__init__(data)
        self.options, self.numbers, self.texts = [], [], []

    def option(self, item):
        self.options.append(self.at)
        return super().option(item)

    def bytes(self):
        found = super().bytes()
        self.texts.append((self.at - len(found), self.at))
        return found

    def number(self, bits=64):
        start = self.at
        value = super().number(bits)
        self.numbers.append((start, self.at, value))
        return value


class Parts:
    """Where a file has its positions and what its chunks declare: spans of bytes, with what they are."""

    def __init__(self, data):
        self.chains, self.code, self.declared = [], [], []
        self.reader = Noting(data)
        names = ["read_position", "read_chunk", "read_chain", "read_switch"]
        kept = {name: getattr(file_reader, name) for name in names}
        self.kept, self.in_chain = kept, False
        try:
            for name in names[:3]:
                setattr(file_reader, name, getattr(self, name))
            file_reader.read_program(self.reader)
        finally:
            for name in names:
                setattr(file_reader, name, kept[name])
        # The last option of the file is that of the positions of the code; each of these is an option too.
        self.positions = self.reader.options[-1 - len(self.code)]

    def read_position(self, reader):
        start, before = reader.at, len(reader.numbers)
        self.kept["read_position"](reader)
        place = tuple(value for _start, _end, value in reader.numbers[before:]) or None
        (self.chains if self.in_chain else self.code).append((start, reader.at, place))

    def read_chunk(self, reader):
        self.kept["read_chunk"](reader)
        self.declared.append(reader.numbers[-1])

    def read_chain(self, reader):
        self.in_chain = True
        self.kept["read_chain"](reader)
        self.in_chain = False


def with_spans(data, spans):
    """The bytes with others in place of some, in order."""
    written, at = b"", 0
    for start, end, new in spans:
        written, at = written + data[at:start] + new, end
    return written + data[at:]


def stripped(data):
    """The file of the program without positions, and the sidecar file of these."""
    parts = Parts(data)
    bare = with_spans(data[: parts.positions], [(start, end, b"\0") for start, end, _place in parts.chains]) + b"\0"
    entries = [(address, place) for address, (_start, _end, place) in enumerate(parts.code) if place]
    table, before = number(len(entries)), 0
    for address, (line, column) in entries:
        table, before = table + number(address - before) + number(line) + number(column), address
    stream = number(len(parts.chains)) + b"".join(number(n) for _start, _end, place in parts.chains for n in place or (0, 0))
    low, high = (value for _start, _end, value in parts.reader.numbers[1:3])
    return bare, b"\0grn\2\1" + number(low) + number(high) + number(len(table)) + table + number(len(stream)) + stream


def tightened(data, depths):
    """The file of the program whose chunks declare these depths."""
    return with_spans(data, [(start, end, number(depth)) for (start, end, _value), depth in zip(Parts(data).declared, depths)])
