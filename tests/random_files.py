#!/usr/bin/env python3
"""Whether `grain_file` reads random program files, sidecar files and near misses as docs/FORMAT.md says.

    tests/random_files.py [--files N] [--seed S]

tests/models/file_reader.py reads files by that page alone, and shares no code with the crate. Files are made at random; most are then
changed at a few places: a byte is replaced, inserted or taken out, a number gets a longer spelling, the end is cut off or grows,
a part is repeated. Both say of each whether it is a program file, and whether it is a sidecar file, or name the byte and the cause of the first
fault.

The crate is called by a small program, which is put into a scratch copy of the repository and built without a proof (`rt try`):
half a minute to two. It ends with 1 where the two differ.
"""
import argparse
import pathlib
import random
import subprocess
import sys
import tempfile

import scratch
from models import file_reader
from models.file_reader import number

TOP = pathlib.Path(__file__).resolve().parent.parent

CRATE = "file_verdicts"
PROGRAM = """//! Says of each line of hexadecimal digits whether its bytes are a program file, and whether they are a sidecar file.
#![tactic(auto)]

use grain_file::{Limits, ReadError, read, read_sidecar};
use std::alloc::Global;
use std::io::{BufRead, BufReader, BufWriter, Error, Write};
use std::process::ExitCode;

fn write_verdict<W: Write>(refused: Option<ReadError>, writer: &mut W) -> Result<(), Error> {
    match refused {
        None => write!(writer, "file"),
        Some(ReadError::OutOfMemory) => write!(writer, "OutOfMemory"),
        Some(ReadError::TooLarge { .. }) => write!(writer, "TooLarge"),
        Some(ReadError::DepthLimit { .. }) => write!(writer, "DepthLimit"),
        Some(ReadError::Malformed { at, fault, .. }) => write!(writer, "{at} {fault:?}"),
    }
}

fn write_both<W: Write>(alloc: Global, bytes: &[u8], writer: &mut W) -> Result<(), Error> {
    let limits = Limits::default();
    write_verdict(read(alloc, bytes, &limits).err(), writer)?;
    write!(writer, ", ")?;
    write_verdict(read_sidecar(alloc, bytes, &limits).err(), writer)?;
    writeln!(writer)
}

fn write_verdicts(rt: &HostRuntime) -> Result<(), Error> {
    let alloc = rt.alloc();
    let mut reader = BufReader::new(alloc, rt.stdin())?;
    let mut writer = BufWriter::new(alloc, rt.stdout())?;
    let mut line = Vec::new(alloc);
    for _turn in 0..u64::MAX {
        line.clear();
        if reader.read_until(b'\\n', &mut line)? == 0 {
            return writer.flush();
        }
        if let [digits @ .., b'\\n'] = line.as_slice() {
            match hex::decode(alloc, digits) {
                Ok(bytes) => write_both(alloc, &bytes, &mut writer)?,
                Err(_) => writeln!(writer, "not hexadecimal")?,
            }
        }
    }
    writer.flush()
}

fn main(rt: HostRuntime) -> ExitCode {
    ExitCode::from(if write_verdicts(&rt).is_ok() { 0 } else { 1 })
}
"""


class Files:
    """Makes program files at random."""

    def __init__(self, chance):
        self.chance = chance

    def below(self, bits):
        """A number of at most that many bits, most often a small one."""
        return number(self.chance.getrandbits(self.chance.choice([1, 3, 3, 7, 8, bits])) % (1 << bits))

    def signed(self):
        return self.below(64)

    def list(self, item, most=3):
        count = self.chance.randrange(most + 1)
        return number(count) + b"".join(item() for _ in range(count))

    def option(self, item):
        return b"\1" + item() if self.chance.random() < 0.5 else b"\0"

    def bytes(self):
        return self.list(lambda: bytes([self.chance.randrange(256)]), 6)

    def text(self):
        found = "".join(self.chance.choice("ab:_é☃\U0001f600\0") for _ in range(self.chance.randrange(5))).encode()
        return number(len(found)) + found

    def flag(self, limit):
        return bytes([self.chance.randrange(limit)])

    def caps(self):
        return self.below(16)

    def code(self):
        return self.bytes()

    def chunk(self):
        return self.below(32) + self.below(32) + self.below(16)

    def function(self):
        name, parameters, access = self.below(32), self.list(lambda: self.below(32)), self.flag(2)
        return name + parameters + access + self.option(lambda: self.below(32)) + self.chunk()

    def value(self, depth=3):
        tag = self.chance.choice([*range(14)] if depth else [*range(8), 13])
        holds = {
            3: self.signed,
            4: lambda: number(self.chance.choice([0, 65, 0xD7FF, 0xE000, 0x10FFFF])),
            5: self.text,
            6: lambda: self.signed() + self.signed(),
            7: lambda: self.signed() + self.signed(),
            8: lambda: self.list(lambda: self.value(depth - 1)),
            9: self.bytes,
            10: lambda: self.map(depth - 1),
            11: lambda: self.text() + self.list(lambda: self.value(depth - 1)),
            12: lambda: self.value(depth - 1),
            13: lambda: number(self.chance.choice([0, 1 << 63, 0x3FF8 << 48, 0x7FF8 << 48, self.chance.getrandbits(64)])),
        }
        return bytes([tag]) + holds.get(tag, bytes)()

    def map(self, depth):
        keys = sorted({self.text()[1:] for _ in range(self.chance.randrange(4))})
        return number(len(keys)) + b"".join(number(len(key)) + key + self.value(depth) for key in keys)

    def operator(self):
        tag = self.chance.randrange(40)
        return bytes([tag]) + (self.text() if tag == 39 else b"")

    def op_assignment(self):
        return self.operator() + self.below(32) + self.operator() + self.below(32)

    def position(self):
        return self.option(lambda: number(self.chance.randrange(1, 1 << 16)) + self.below(16))

    def root(self):
        tag = self.chance.randrange(4)
        holds = [lambda: self.below(16) + self.below(32), lambda: self.below(32) + self.position(), self.position, bytes]
        return bytes([tag]) + holds[tag]()

    def step(self):
        tag = self.chance.randrange(3)
        holds = [
            lambda: self.below(16) + self.flag(256) + self.position() + self.position(),
            lambda: self.below(32) + self.below(32) + self.below(32) + self.flag(256) + self.position(),
            lambda: self.below(32) + self.flag(256) + self.below(16) + self.flag(256) + self.position(),
        ]
        return bytes([tag]) + holds[tag]()

    def chain(self):
        tail = self.option(lambda: self.option(lambda: self.below(32)))
        return self.root() + self.list(self.step) + tail + self.below(16)

    def deep(self):
        """A value that is nested about as deep as a reader lets it, in arrays and shared values."""
        return b"".join(self.chance.choice([b"\x08\1", b"\x0c"]) for _ in range(self.chance.randrange(61, 67))) + b"\0"

    def many_cases(self):
        """Constants and a switch with about as many cases as a reader lets it have."""
        count = self.chance.randrange(4095, 4099)
        constants = [b"\3" + number(value) for value in range(count)]
        return constants, number(count) + b"".join(number(value) + b"\0" for value in range(count)) + b"\0\0"

    def switch(self, constants):
        """A switch, most often with cases that ascend and are there. Some constants may be equal."""
        some = sorted(self.chance.sample(range(constants), self.chance.randrange(constants + 1)))
        cases = number(len(some)) + b"".join(number(constant) + self.below(32) for constant in some)
        ranges = self.list(lambda: self.signed() + self.signed() + self.flag(2) + self.below(32))
        return cases + ranges + self.below(32)

    def file(self):
        constants = [self.value() if self.chance.random() < 0.98 else self.deep() for _ in range(self.chance.randrange(5))]
        switches = self.list(lambda: self.switch(len(constants)), 2)
        if self.chance.random() < 0.001:
            constants, switch = self.many_cases()
            switches = b"\1" + switch
        head = b"\0grn\2\0" + self.caps() + self.below(64) + self.below(64) + self.code() + self.chunk()
        pools = self.list(self.function) + self.list(self.text) + number(len(constants)) + b"".join(constants)
        code = self.list(self.operator) + self.list(self.op_assignment) + self.list(self.chain)
        tail = self.option(self.text) + self.option(lambda: self.list(self.position))
        return head + pools + code + switches + tail

    def sidecar(self):
        return b"\0grn\2\1" + self.below(64) + self.below(64) + self.bytes() + self.bytes()

    def near_miss(self, data):
        """The bytes with a change."""
        at = self.chance.randrange(len(data))
        kind = self.chance.randrange(7)
        if kind == 0:
            return data[:at] + bytes([self.chance.randrange(256)]) + data[at + 1 :]
        if kind == 1:
            return data[:at] + bytes([data[at] ^ 1 << self.chance.randrange(8)]) + data[at + 1 :]
        if kind == 2:
            return data[:at] + bytes([self.chance.choice([0, 1, 127, 128, 255])]) + data[at:]
        if kind == 3:
            return data[:at] + data[at + 1 :]
        if kind == 4:
            return data[:at] + bytes([data[at] | 128, 0]) + data[at + 1 :]
        if kind == 5:
            return data[:at] if self.chance.random() < 0.5 else data + bytes([self.chance.randrange(256)])
        to = min(len(data), at + self.chance.randrange(1, 12))
        return data[:to] + data[at:to] + data[to:]

    def one(self):
        """A file, or after one to three changes what may be none."""
        data = self.file() if self.chance.random() < 0.8 else self.sidecar()
        for _ in range(self.chance.choice([0, 1, 1, 1, 2, 3])):
            data = self.near_miss(data) if data else data
        return data


def scratch_copy(room):
    """The crates as the work tree has them, and the program that calls `grain_file`."""
    scratch.copy_crates(room)
    source = room / "crates" / CRATE / "src"
    source.mkdir(parents=True)
    (source / "main.rt").write_text(PROGRAM)
    with (room / "crates.txt").open("a") as listed:
        listed.write(f"{CRATE}: grain_file hex\n")


def verdicts_of_crate(files):
    with tempfile.TemporaryDirectory(prefix="random-files-") as made:
        room = pathlib.Path(made)
        scratch_copy(room)
        lines = "".join(data.hex() + "\n" for data in files)
        ran = subprocess.run(["rt", "try"], cwd=room / "crates" / CRATE, input=lines, capture_output=True, text=True)
    found = ran.stdout.splitlines()
    if ran.returncode or len(found) != len(files):
        sys.exit(f"the program of {CRATE} wrote {len(found)} verdicts on {len(files)} files\n{ran.stderr[-3000:]}")
    return found


def main():
    options = argparse.ArgumentParser(description=__doc__, formatter_class=argparse.RawDescriptionHelpFormatter)
    options.add_argument("--files", type=int, default=20000)
    options.add_argument("--seed", type=int, default=1)
    given = options.parse_args()
    made = Files(random.Random(given.seed))
    files = [made.one() for _ in range(given.files)]
    differ, causes = 0, {}
    for data, answer in zip(files, verdicts_of_crate(files)):
        both = [file_reader.verdict(data, read) for read in (file_reader.read_program, file_reader.read_sidecar)]
        for cause in {each.split(" ")[-1] for each in both} - {"Kind"}:
            causes[cause] = causes.get(cause, 0) + 1
        if answer != ", ".join(both):
            differ += 1
            print(f"{data.hex()}: the crate says `{answer}`, and the reader `{', '.join(both)}`")
    print(", ".join(f"{count} {cause}" for cause, count in sorted(causes.items())))
    print(f"seed {given.seed}: {len(files)} files, {differ} of which the two differ about")
    return 1 if differ else 0


if __name__ == "__main__":
    sys.exit(main())
