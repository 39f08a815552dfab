"""Scripts for tables.sh: tables.py KIND N writes one of them to standard output.

strings, ints, templates and deffacts: N facts or names that a hasher with the standard library's fixed seed gives one
number; each with -control: as many of the same lengths, with numbers that differ.
facts: N ordered facts of one relation. others: N/100 templates, none of a relation that a fact names. both: the two, one
after another. again: N deffacts, and each defined anew.
"""

import struct
import sys

MULTIPLIER = 0x9E3779B97F4A7C15
SEED = 0x243F6A8885A308D3
MASK = (1 << 64) - 1
# the bytes that end a word or may not stand in one: blanks, delimiters, and those that begin a variable
UNFIT = set(range(33)) | {127} | set(b'"()&|~;<?$')


def mixed(a, b):
    product = a * b
    return (product & MASK) ^ (product >> 64)


def written(state, data):
    """The hasher's state after one write of at least 4 bytes."""
    size = len(data)
    if size <= 8:
        low = struct.unpack_from("<I", data, 0)[0] | struct.unpack_from("<I", data, size - 4)[0] << 32
        return mixed(state ^ low, MULTIPLIER ^ (2 * size))
    state = (state + size) & MASK
    at = 0
    while size - at > 16:
        first, second = struct.unpack_from("<QQ", data, at)
        state = mixed(first ^ state, second ^ MULTIPLIER)
        at += 16
    last = struct.unpack_from("<Q", data, max(0, size - 16))[0]
    return mixed(last ^ state, struct.unpack_from("<Q", data, size - 8)[0] ^ MULTIPLIER)


def number(value):
    return value.to_bytes(8, "little")


def level_names(count):
    """Names of 32 bytes after whose third eight bytes the state is 0, whatever follows."""
    turn = 0
    while count > 0:
        head = b"n%015d" % turn
        turn += 1
        first, second = struct.unpack_from("<QQ", head, 0)
        state = mixed(first ^ ((SEED + 32) & MASK), second ^ MULTIPLIER)
        middle = struct.pack("<Q", state)
        if not set(middle) & UNFIT:
            count -= 1
            yield head + middle + b"-ABCDEF-"


def level_ints(count):
    """Pairs of numbers, the second chosen so that the fact (a FIRST SECOND) ends in one state."""
    # one byte is written as that byte three times, and no less
    relation = mixed(SEED ^ (0x61 | 0x61 << 8 | 0x61 << 16), MULTIPLIER ^ 2)
    for first in range(count):
        state = written(relation, number(2))
        state = written(written(state, number(2)), number(first))
        second = written(state, number(2)) ^ 0x5555
        yield first, second - (1 << 64) if second >> 63 else second


def lines(kind, count):
    control = kind.endswith("-control")
    kind = kind.removesuffix("-control")
    if kind == "strings":
        end = struct.pack("<Q", MULTIPLIER ^ (0x0101010101010101 if control else 0))
        for i in range(count):
            yield b'(assert (a "%08d' % i + end + b'"))'
    elif kind == "ints":
        for first, second in level_ints(count):
            yield b"(assert (a %d %d))" % (first, second ^ first * 2654435761 % 65536 if control else second)
    elif kind in ("templates", "deffacts"):
        form = {"templates": b"(deftemplate %s (slot a))", "deffacts": b"(deffacts %s (f))"}[kind]
        for name in level_names(count):
            yield form % (name[::-1] if control else name)
    elif kind == "again":
        for place in (b"shelf", b"cellar"):
            for i in range(count):
                yield b"(deffacts part-%d (part %d %s))" % (i, i, place)
    else:
        if kind in ("facts", "both"):
            for i in range(count):
                yield b"(assert (part %d shelf))" % i
        if kind in ("others", "both"):
            for i in range(count // 100):
                yield b"(deftemplate other-%d (slot id))" % i


def main():
    for line in lines(sys.argv[1], int(sys.argv[2])):
        sys.stdout.buffer.write(line + b"\n")


main()
