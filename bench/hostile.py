#!/usr/bin/env python3
"""Times grain_check on inputs that are made to be slow, each at a size and at ten times that size.

    python3 bench/hostile.py PROGRAM [--size N] [--runs N] [--only WORD]

PROGRAM is the built program, as `rt run` leaves it in crates/grain_check/out. For each shape it prints the least
processor time of some runs at N and at 10 N, the ratio of the two, and the most memory at 10 N; what is below the memory
of this program isn't told apart. Work that grows with its input has a ratio of about 10. It ends with status 1 where a
ratio is above 12 or a verdict isn't the one that the shape is made for.
"""
import argparse
import os
import resource
import struct
import subprocess
import sys
import tempfile

LIMIT = 12

# How many bytes of plain text, code or line ends make up for one instruction, entry or chunk of the other shapes.
BYTES = 20

UNIT, POP, JUMP, IF_FALSE, TICK, RETURN = b"\x02", b"\x0b", 0x0C, 0x0E, b"\x12", b"\x13"
ITER_INIT, ITER_NEXT, POP_HANDLER, PUSH_HANDLER = b"\x1d", 0x1E, b"\x22", 0x23


def to(tag, target):
    """An instruction with a target."""
    return bytes([tag]) + struct.pack("<I", target)


def verify(code, chunks=None):
    """The line that verifies the code, as one chunk where no chunks are given."""
    chunks = chunks or [(0, len(code), 65535)]
    return b"verify 7fff " + code.hex().encode() + b"".join(b" %d:%d:%d" % chunk for chunk in chunks)


def varint(number):
    out = bytearray()
    while number > 127:
        out.append(number & 127 | 128)
        number >>= 7
    out.append(number)
    return bytes(out)


def site(table, address):
    return b"site " + table.hex().encode() + b" %d" % address


# Each shape answers its lines at a size, and what the first verdict begins with.


def straight(n):
    return [verify((UNIT + POP) * (n // 2) + UNIT + RETURN)], b"accepted 1"


def chunks_apart(n):
    part = UNIT + POP + UNIT + RETURN
    count = n // len(part)
    chunks = [(len(part) * i, len(part) * (i + 1), 1) for i in range(count)]
    return [verify(part * count, chunks)], b"accepted 1 1 1"


def one_chunk_again(n):
    return [verify(UNIT + RETURN, [(0, 2, 1)] * n)], b"accepted 1 1 1"


def chunks_behind_long_code(n):
    code = (UNIT + POP) * (n // 2) + UNIT + RETURN
    return [verify(code, [(len(code) - 2, len(code), 1)] * n)], b"accepted 1 1 1"


def handlers_nested(n):
    tails = 5 * n
    code = b"".join(to(PUSH_HANDLER, tails + 7 * (n - 1 - i) + 6) for i in range(n))
    code += b"".join(POP_HANDLER + to(JUMP, tails + 7 * (i + 1)) + POP_HANDLER for i in range(n))
    return [verify(code + UNIT + RETURN)], b"accepted 1"


def handlers_to_the_next(n):
    code = b"".join(to(PUSH_HANDLER, 5 * (i + 1)) for i in range(n))
    return [verify(code + UNIT + RETURN)], b"accepted 1"


def handlers_on_operands(n):
    code = b"".join(to(PUSH_HANDLER, 6 * i + 5) + UNIT for i in range(n))
    verdict = b"refused stack-exceeds-declared needed=%d" if n > 65535 else b"accepted %d"
    return [verify(code + RETURN)], verdict % n


def handlers_of_unlike_bases(n):
    """One handler after another is armed with none around it, each with one iterator more below it."""
    code = b"".join(UNIT + ITER_INIT + to(PUSH_HANDLER, 8 * i + 7) + POP_HANDLER for i in range(n))
    return [verify(code + UNIT + RETURN)], b"accepted 1"


def handlers_that_meet(n):
    """Two branches that arm n handlers of the same bases each, by other instructions, and then meet n times."""
    branch = 11 * n + 1
    ends = 6 + 2 * branch
    code = bytearray(UNIT + to(IF_FALSE, 6 + branch))
    for _ in range(2):
        for _ in range(n):
            code += to(PUSH_HANDLER, len(code) + 5)
        for k in range(n):
            code += UNIT + to(IF_FALSE, ends + k)
        code += RETURN
    return [verify(bytes(code) + RETURN * n)], b"accepted 1"


def tries(n):
    code = bytearray()
    for _ in range(n):
        at = len(code)
        code += to(PUSH_HANDLER, at + 13) + UNIT + POP + POP_HANDLER + to(JUMP, at + 14) + POP_HANDLER
    return [verify(bytes(code) + UNIT + RETURN)], b"accepted 1"


def branches_to_one_place(n):
    return [verify((UNIT + to(IF_FALSE, 6 * n)) * n + UNIT + RETURN)], b"accepted 1"


def branches_nested(n):
    tails = 6 * n
    code = b"".join(UNIT + to(IF_FALSE, tails + 7 * (n - 1 - i) + 6) for i in range(n))
    code += b"".join(TICK + to(JUMP, tails + 7 * (i + 1)) + TICK for i in range(n))
    return [verify(code + UNIT + RETURN)], b"accepted 1"


def branches_to_the_next(n):
    code = b"".join(UNIT + to(IF_FALSE, 6 * (i + 1)) for i in range(n))
    return [verify(code + UNIT + RETURN)], b"accepted 1"


def jumps_backwards(n):
    """A jump to the last of n jumps, each of which leads to the one before it, and the first of these to the end."""
    first, back = to(JUMP, 5 * n) + to(JUMP, 5 * n + 5), b"".join(to(JUMP, 5 * i) for i in range(1, n))
    return [verify(first + back + RETURN)], b"accepted 0"


def loops(n):
    code = bytearray()
    for _ in range(n):
        at = len(code)
        code += UNIT + ITER_INIT + to(ITER_NEXT, at + 14) + POP + TICK + to(JUMP, at + 2)
    return [verify(bytes(code) + UNIT + RETURN)], b"accepted 1"


def iterators_nested(n):
    return [verify((UNIT + ITER_INIT) * n + UNIT + RETURN)], b"accepted 1"


def conflict_at_last(n):
    code = (UNIT + to(IF_FALSE, 6 * n)) * n + UNIT
    return [verify(code + to(JUMP, 0))], b"refused depth-conflict at=0"


def one_table(n):
    table = varint(n) + b"".join(varint(1 if i else 0) + varint(1 + i // 40) + varint(1 + i % 40) for i in range(n))
    return [site(table, n - 1)], b"site %d:%d" % (1 + (n - 1) // 40, 1 + (n - 1) % 40)


def long_numbers(n):
    entry = b"\x01" + b"\xff\xff\xff\xff\x8f\x80\x80\x80\x80\x00" * 2
    return [site(varint(n) + entry * n, n)], b"site 4294967295:4294967295"


def cut_table(n):
    return [site(b"\xff\xff\xff\xff\x0f" + b"\x01\x01\x01" * n, 4294967295)], b"none"


def long_code(n):
    n *= BYTES
    return [b"code " + b"0c00000000" * (n // 5)], b"whole"


def code_cut_short(n):
    n *= BYTES
    return [b"code " + b"02" * n + b"ff"], b"undecodable at=%d" % n


def short_lines(n):
    return [b"code 0213"] * n, b"whole 2"


def bad_lines(n):
    n *= BYTES
    return [b"c"] * n, b"bad case"


def comments(n):
    n *= BYTES
    return [b"#"] * n + [b"code 0213"], b"whole 2"


def empty_lines(n):
    n *= BYTES
    return [b""] * n + [b"code 0213"], b"whole 2"


def spaces(n):
    n *= BYTES
    return [b"code" + b" " * n + b"0213" + b" " * n], b"whole 2"


def one_word(n):
    n *= BYTES
    return [b"c" * n], b"bad case"


def one_comment(n):
    n *= BYTES
    return [b"#" * n, b"code 0213"], b"whole 2"


def returns(n):
    n *= BYTES
    return [b"code 0213" + b"\r" * n], b"bad case"


def long_number(n):
    n *= BYTES
    return [b"site 00 " + b"0" * n], b"none"


def digit_too_many(n):
    n *= BYTES
    return [b"code " + b"02" * n + b"0"], b"bad case"


def last_chunk_is_bad(n):
    return [b"verify 7fff 0213" + b" 0:2:1" * n + b" 0:2"], b"bad case"


def colons(n):
    n *= BYTES
    return [b"verify 7fff 0213 " + b":" * n], b"bad case"


SHAPES = [
    straight,
    chunks_apart,
    one_chunk_again,
    chunks_behind_long_code,
    handlers_nested,
    handlers_to_the_next,
    handlers_on_operands,
    handlers_of_unlike_bases,
    handlers_that_meet,
    tries,
    branches_to_one_place,
    branches_nested,
    branches_to_the_next,
    jumps_backwards,
    loops,
    iterators_nested,
    conflict_at_last,
    one_table,
    long_numbers,
    cut_table,
    long_code,
    code_cut_short,
    short_lines,
    bad_lines,
    comments,
    empty_lines,
    spaces,
    one_word,
    one_comment,
    returns,
    long_number,
    digit_too_many,
    last_chunk_is_bad,
    colons,
]


def write(shape, size, path):
    """Writes what the first verdict begins with, and behind it the lines of a shape.

    A process of its own does it: the memory of a run is counted from that of the process which starts it.
    """
    child = os.fork()
    if child == 0:
        lines, verdict = shape(size)
        with open(path, "wb") as file:
            file.write(verdict + b"\n" + b"\n".join(lines) + b"\n")
        os._exit(0)
    os.waitpid(child, 0)


def once(program, path):
    """The processor time of a run in seconds, its most memory in MB, and whether its verdict is the right one."""
    with open(path, "rb", buffering=0) as lines, tempfile.TemporaryFile() as verdicts:
        verdict = first_line(lines)
        run = subprocess.Popen([program], stdin=lines, stdout=verdicts)
        _, _, used = os.wait4(run.pid, 0)
        run.returncode = 0
        verdicts.seek(0)
        text = verdicts.read(len(verdict))
    return used.ru_utime + used.ru_stime, used.ru_maxrss / 1024, text == verdict


def first_line(file):
    """The first line of a file that has no buffer, which is left behind it."""
    line = b""
    while not line.endswith(b"\n"):
        line += file.read(1)
    return line[:-1]


def measure(program, shape, size, runs):
    """The least time of some runs, the most memory, and whether each verdict is the right one."""
    with tempfile.TemporaryDirectory() as folder:
        path = os.path.join(folder, "lines")
        write(shape, size, path)
        all_runs = [once(program, path) for _ in range(runs)]
    times, memories, verdicts = zip(*all_runs)
    return min(times), max(memories), all(verdicts)


def memory_text(memory):
    """The memory of a run in MB. It is counted with that of this program, where the run began."""
    own = resource.getrusage(resource.RUSAGE_SELF).ru_maxrss / 1024
    return "%.0f" % memory if memory > own + 1 else "< %.0f" % (own + 1)


def arguments(description, size, runs):
    """The program, the smaller size, the number of runs, and a part of the names of shapes."""
    parser = argparse.ArgumentParser(description=description.splitlines()[0])
    parser.add_argument("program")
    parser.add_argument("--size", type=int, default=size)
    parser.add_argument("--runs", type=int, default=runs)
    parser.add_argument("--only", default="")
    return parser.parse_args()


def main():
    asked = arguments(__doc__, 100000, 5)
    failed = False
    print("%-24s %10s %10s %6s %8s" % ("shape", "N, ms", "10 N, ms", "ratio", "MB"))
    for shape in SHAPES:
        if asked.only not in shape.__name__:
            continue
        small, _, small_right = measure(asked.program, shape, asked.size, asked.runs)
        large, memory, large_right = measure(asked.program, shape, 10 * asked.size, asked.runs)
        ratio = large / small
        flaw = ""
        if not (small_right and large_right):
            flaw = "  another verdict"
        elif ratio > LIMIT:
            flaw = "  above %d" % LIMIT
        failed = failed or flaw != ""
        row = (shape.__name__, small * 1000, large * 1000, ratio, memory_text(memory), flaw)
        print("%-24s %10.1f %10.1f %6.1f %8s%s" % row)
        sys.stdout.flush()
    sys.exit(1 if failed else 0)


if __name__ == "__main__":
    main()
