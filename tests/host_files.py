#!/usr/bin/env python3
"""Whether the library for C reads random program files and near misses as docs/FORMAT.md says.

    tests/host_files.py [--files N] [--seed S]

tests/random_files.py makes the files, and tests/models/file_reader.py reads them by that page alone. The shared object that hosts/build has
made reads them too: both say of each that it is a file, or name the byte and the cause of the first fault. Of those that are files
tests/models/file_changes.py says what they are when they are stripped, if a sidecar gives their positions back, and, where the program is
accepted, tightened. It ends with 1 where the two differ.
"""
import argparse
import ctypes
import pathlib
import random
import re
import sys

import random_files
from models import file_changes, file_reader

TOP = pathlib.Path(__file__).resolve().parent.parent

sys.path.append(str(TOP / "tools"))
import instruction_table

ACCEPTED, REFUSED, MALFORMED, NOT_RESTORABLE = 0, 1, 9, 12
ALL_CAPS, NO_LIMIT = 0x7FFF, 2**64 - 1


class ReadError(ctypes.Structure):
    """grain_read_error of grain.h."""

    _fields_ = [("cause", ctypes.c_uint32), ("part", ctypes.c_uint32)] + [(name, ctypes.c_uint64) for name in ("index", "at", "limit")]


def causes():
    """The name of each cause by its number, as docs/FORMAT.md has it."""
    header = (TOP / "hosts" / "c" / "grain.h").read_text()
    found = re.findall(r"GRAIN_CAUSE_([A-Z_]+) = (\d+)", header)
    return {int(number): "".join(word.capitalize() for word in name.split("_")) for name, number in found}


class Room(ctypes.Structure):
    """grain_room of grain.h."""

    _fields_ = [("bytes", ctypes.c_char_p), ("len", ctypes.c_size_t), ("size", ctypes.c_size_t)]

    @classmethod
    def of(cls, size):
        """Room for so many bytes, which are kept as long as the record."""
        own = ctypes.create_string_buffer(size)
        made = cls(ctypes.cast(own, ctypes.c_char_p), size, 0)
        made.own = own
        return made

    def written(self):
        return self.own.raw[: self.size]


class Sound(random_files.Files):
    """Makes files of programs that are accepted: each chunk returns unit."""

    def caps(self):
        return random_files.number(ALL_CAPS)

    def code(self):
        return b"\2\2\x13"

    def chunk(self):
        return b"\0\2" + random_files.number(self.chance.choice([1, 2, 127, 128, 300, 65535]))


def depths_of(library, data):
    """The depths of the chunks of a file, if its program is accepted."""
    file, depths = ctypes.c_void_p(), (ctypes.c_uint16 * 64)()
    if library.grain_file_read(ctypes.byref(file), data, ctypes.c_size_t(len(data)), None, None) != ACCEPTED:
        return None
    caps, limit, room = ctypes.c_uint16(ALL_CAPS), ctypes.c_uint64(NO_LIMIT), ctypes.c_size_t(64)
    status = library.grain_file_verify(None, file, caps, limit, depths, room, None, None)
    library.grain_file_free(file)
    return list(depths) if status == ACCEPTED else None


def tightened_of(library, data):
    """The tightened file, or the status."""
    room, limit = Room.of(len(data)), ctypes.c_uint64(NO_LIMIT)
    status = library.grain_file_tighten(data, ctypes.c_size_t(len(data)), None, limit, ctypes.byref(room), None, None)
    return room.written() if status == ACCEPTED else status


def stripped_of(library, data):
    """The stripped file and the sidecar file, or the status."""
    rooms = [Room.of(2 * len(data)) for _ in range(2)]
    status = library.grain_file_strip(data, ctypes.c_size_t(len(data)), None, *map(ctypes.byref, rooms), None)
    return tuple(room.written() for room in rooms) if status == ACCEPTED else status


def starts_of(code, widths):
    """The addresses at which the instructions of code begin, and whether the code is whole instructions."""
    starts, at = set(), 0
    while at < len(code) and at + widths.get(code[at], len(code) + 1) <= len(code):
        starts.add(at)
        at += widths[code[at]]
    return starts, at == len(code)


def stripping_of(data, widths):
    """What stripping a file may answer. Where the code isn't whole instructions, FORMAT.md leaves open which positions fit."""
    parts = file_changes.Parts(data)
    start, end = parts.reader.texts[0][:2]
    starts, is_whole = starts_of(data[start:end], widths)
    placed = {address for address, (_start, _end, place) in enumerate(parts.code) if place}
    if data[parts.positions] == 0:
        return [file_changes.stripped(data)]
    if len(parts.code) != end - start or not placed:
        return [NOT_RESTORABLE]
    answers = [file_changes.stripped(data) if placed <= starts else NOT_RESTORABLE]
    return answers if is_whole else [file_changes.stripped(data), NOT_RESTORABLE]


def changes_differ(library, data, widths):
    """What is wrong with the changed files of a file, if anything."""
    wrong, depths = [], depths_of(library, data)
    wanted = REFUSED if depths is None else file_changes.tightened(data, depths)
    if tightened_of(library, data) != wanted:
        wrong.append("is tightened otherwise")
    files = stripped_of(library, data)
    if files not in stripping_of(data, widths):
        wrong.append("is stripped otherwise")
    elif files != NOT_RESTORABLE:
        is_sidecar = file_reader.verdict(files[1], file_reader.read_sidecar) == "file"
        wrong += [] if is_sidecar and len(files[1]) <= len(data) else ["has no sidecar file, or a longer one"]
    return wrong


def verdict_of(library, names, data):
    file, error = ctypes.c_void_p(), ReadError()
    status = library.grain_file_read(ctypes.byref(file), data, ctypes.c_size_t(len(data)), None, ctypes.byref(error))
    if status == ACCEPTED:
        library.grain_file_free(file)
        return "file"
    return f"{error.at} {names[error.cause]}" if status == MALFORMED else f"status {status}"


def main():
    arguments = argparse.ArgumentParser()
    arguments.add_argument("--files", type=int, default=20000)
    arguments.add_argument("--seed", type=int, default=61)
    given = arguments.parse_args()
    library = ctypes.CDLL(str(next((TOP / "hosts" / "out").glob("libgrain.so.*"))))
    widths = {int(row[0], 16): int(row[3]) for row in instruction_table.table()}
    names, chance = causes(), random.Random(given.seed)
    files, sound = random_files.Files(chance), Sound(chance)
    accepted = differ = tight = 0
    for count in range(given.files):
        data = files.one() if count % 4 else sound.file()
        wanted, found = file_reader.verdict(data), verdict_of(library, names, data)
        accepted += found == "file"
        wrong = [] if wanted == found else [f"{found}, not {wanted}"]
        if wanted == found == "file":
            wrong += changes_differ(library, data, widths)
            tight += depths_of(library, data) is not None
        differ += bool(wrong)
        for what in wrong:
            print(f"{data.hex()}: {what}")
    print(f"{given.files} files, {accepted} read, {tight} of accepted programs: {differ} differ")
    return 1 if differ else 0


if __name__ == "__main__":
    sys.exit(main())
