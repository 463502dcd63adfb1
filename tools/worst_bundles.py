#!/usr/bin/env python3
"""Times the opener on the bundles that keep it busy longest.

usage: python3 tools/worst_bundles.py crates/startlist/out/startlist

Each bundle goes to `startlist examine` as lines of hex digits, all the same. A time is the least user time of nine runs,
divided by the number of lines, so that the reading of the hex digits is in it.
"""

import resource
import struct
import subprocess
import sys

MOST = 65536
EMIT_RAW, LOOKUP, PUSH_WITH, POP_FRAME, JUMP_IF_FALSE = 0, 2, 37, 40, 43


def bundle(templates, blocks, codes, instructions, text):
    """A bundle without constants; an instruction is a pair of its kind and its field a."""
    sections = [(len(templates), 20), (len(blocks), 12), (len(codes), 12), (len(instructions), 16), (0, 12), (len(text), 1)]
    made, at = b"", 48
    for count, size in sections:
        made += struct.pack("<II", count, at)
        at += count * size
    made += b"".join(struct.pack("<5I", *it) for it in templates)
    made += b"".join(struct.pack("<3I", *it) for it in blocks + codes)
    made += b"".join(struct.pack("<BBHIIHH", kind, 0, 0, a, 0, 1, 0) for kind, a in instructions)
    return made + text


def alike(count, room):
    """The length of so many names that overlap in a text, and the text: name k begins at offset k, and only the first differs, in its last byte."""
    length = room - (count - 1)
    text = bytearray(b"a" * room)
    text[length - 1] = ord("b")
    return length, bytes(text)


def empty_codes(count):
    return [(0, 0, 0)] * count


def zeros():
    """Refused at its first rule: the time is that of reading the digits."""
    return bytes(MOST)


def template_names():
    length, text = alike(64, MOST - 48 - 64 * 32)
    return bundle([(k, length, k, 0, 0) for k in range(64)], [], empty_codes(64), [], text)


def block_names():
    length, text = alike(32, MOST - 48 - 64 * 32 - 2048 * 24)
    templates = [(0, k, k, k * 32, 32) for k in range(64)]
    return bundle(templates, [(j % 32, length, 64 + j) for j in range(2048)], empty_codes(2112), [], text)


def block_names_of_one_template():
    count = 1363
    length, text = alike(32, MOST - 48 - 32 - count * 24)
    return bundle([(0, 0, 0, 0, count)], [(min(i, 31), length, 1 + i) for i in range(count)], empty_codes(count + 1), [], text)


def texts():
    codes = [(0, 1024, 0), (1024, 1024, 0), (2048, 1024, 0), (3072, 1014, 0)]
    return bundle([(0, 0, 0, 0, 3)], [(0, 0, 1), (0, 1, 2), (0, 2, 3)], codes, [(EMIT_RAW, 0)] * 4086, b"aa")


def empty_names():
    count = 2727
    return bundle([(0, 0, 0, 0, count)], [(0, 0, 1 + i) for i in range(count)], empty_codes(count + 1), [], b"")


def main_codes(count, instructions):
    """Templates that have all the same main code, each a copy of its own."""
    long = len(instructions)
    return bundle([(0, k, k, 0, 0) for k in range(count)], [], [(k * long, long, 0) for k in range(count)], instructions * count, b"a" * count)


def branches(count, long):
    """Codes in which every second instruction branches to a place far away."""
    return main_codes(count, [it for i in range(0, long, 2) for it in ((LOOKUP, 0), (JUMP_IF_FALSE, (i * 7 + long // 2) % long // 2 * 2))])


def scopes(count, long):
    """Codes that open 16 scopes and close them again, over and over."""
    return main_codes(count, ([(PUSH_WITH, 0)] * 16 + [(POP_FRAME, 0)] * 16) * (long // 32))


def many_codes():
    templates = [(0, k, k, k * 32, 32) for k in range(64)]
    return bundle(templates, [(0, j % 32, 64 + j) for j in range(2048)], empty_codes(2112), [], b"a" * 64)


def time_of(program, made, lines):
    """The least user time of a line, in milliseconds, and the answer to the first one."""
    text, least = (made.hex() + "\n").encode() * lines, None
    for _ in range(9):
        before = resource.getrusage(resource.RUSAGE_CHILDREN).ru_utime
        said = subprocess.run([program, "examine"], input=text, stdout=subprocess.PIPE, check=True).stdout
        taken = resource.getrusage(resource.RUSAGE_CHILDREN).ru_utime - before
        least = taken if least is None else min(least, taken)
    return 1000 * least / lines, said.decode().split("\n")[0]


def main():
    rows = [(it.__name__, it(), 20) for it in (template_names, block_names, block_names_of_one_template)]
    rows += [(it.__name__, it(), 400) for it in (zeros, texts, empty_names, many_codes)]
    for count, long in [(1, 1016), (2, 1016), (4, 1016), (8, 508), (16, 252), (32, 124)]:
        rows += [(f"{it.__name__} {count} x {long}", it(count, long), 400) for it in (branches, scopes)]
    for name, made, lines in rows:
        milliseconds, answer = time_of(sys.argv[1], made, lines)
        print(f"{name:30} {len(made):6} {answer} {milliseconds:7.2f} ms", flush=True)


if len(sys.argv) != 2:
    sys.exit(__doc__)
main()
