#!/usr/bin/env python3
"""Writes modules that a verifier might take long for, and runs a program on them.

    modules.py FOLDER                        writes the modules to FOLDER
    modules.py FOLDER PROGRAM                and runs `PROGRAM exec` on each: status, seconds, peak memory
    modules.py FOLDER PROGRAM --size 0.5     on modules of half the size
    modules.py FOLDER PROGRAM --twice        on modules of half and of full size, with the ratio of their times

The options and marks are those of texts.py; the module format is in docs/FORMATS.md.
"""
import os
import sys

sys.dont_write_bytecode = True
from texts import arguments, part, tell, written

INT, FALSE, TRUE, ITEM, JUMP, BRANCH, RETURN, POP = 0x00, 0x01, 0x02, 0x15, 0x18, 0x19, 0x1C, 0x1D


def num(n):
    out = bytearray()
    while n >= 128:
        out.append(128 + n % 128)
        n //= 128
    out.append(n)
    return bytes(out)


def module(instrs, words=0, tallies=()):
    """A module with this main, a list of instructions as bytes."""
    parts = [b"CSL1", num(words), num(len(tallies)), *map(num, tallies), num(0), num(0), num(0), num(0)]
    return b"".join(parts + [num(0), num(len(instrs)), *instrs])


def branches(operands, pairs):
    """This many branches, each to a pop of its own far behind it, over this many operands."""
    push, pop, true = [bytes([INT, 0])] * operands, [bytes([POP])], bytes([TRUE])
    behind = operands + 2 * pairs
    jumps = []
    for j in range(pairs):
        jumps += [true, bytes([BRANCH]) + num(behind + 2 * j)]
    return module(push + jumps + [true, bytes([POP])] * pairs + pop * operands + [bytes([RETURN])])


def rebuilt(rounds, pairs):
    """Branches to the same places from stacks that are built anew in each round."""
    push, true = [bytes([INT, 0])] * 1023, bytes([TRUE])
    each = 1023 + 2 * pairs + 1
    end = rounds * each
    instrs = []
    for _ in range(rounds):
        instrs += push
        for j in range(pairs):
            instrs += [true, bytes([BRANCH]) + num(end + 2 * j)]
        instrs.append(bytes([JUMP]) + num(end))
    pops = [bytes([POP])] * 1023
    return module(instrs + [true, bytes([POP])] * pairs + pops + [bytes([RETURN])])


def tally_words(tallies, uses):
    """This many tally words behind one word, and this many uses of it as an array."""
    use = [bytes([INT, 0]), bytes([ITEM]) + num(0) + num(1), bytes([POP])]
    return module(use * uses + [bytes([RETURN])], tallies + 1, range(1, tallies + 1))


def many_blocks(blocks):
    """This many blocks of the least code, each with two locals."""
    block = num(2) + bytes([1, 1]) + num(1) + bytes([RETURN])
    head = [b"CSL1", num(0), num(0), num(0), num(0), num(0), num(blocks), block * blocks]
    return b"".join(head + [num(0), num(1), bytes([RETURN])])


def pushes_and_pops(pairs):
    return module([bytes([TRUE]), bytes([POP])] * pairs + [bytes([RETURN])])


PROMISED = num(2**32 - 1)

# Each with the status that is wanted, 0 where it runs to its end and 10 where it is refused, and the module of a size.
MODULES = {
    "branches_1023": (0, lambda s: branches(1023, part(200_000, s))),
    "branches_1024": (10, lambda s: branches(1024, part(200_000, s))),
    "branches_rebuilt": (0, lambda s: rebuilt(12, part(100_000, s))),
    "tally_words": (0, lambda s: tally_words(part(262_143, s), part(1_000_000, s))),
    "promised_tallies": (10, lambda s: b"CSL1" + num(0) + PROMISED),
    "promised_texts": (10, lambda s: b"CSL1" + num(0) * 3 + PROMISED),
    "promised_instructions": (10, lambda s: b"CSL1" + num(0) * 6 + num(0) + PROMISED),
    "too_large_number": (10, lambda s: b"CSL1" + bytes([0x80, 0x80, 0x80, 0x80, 0x10])),
    "wide": (0, lambda s: many_blocks(part(2_000_000, s))),
    "long": (0, lambda s: pushes_and_pops(part(8_000_000, s))),
}


def main():
    given, size = arguments(__doc__)
    for name, (wanted, make) in MODULES.items():
        if given.only not in f"{name} exec":
            continue
        path = os.path.join(given.folder, name + ".cslm")
        words = lambda: ["exec", written(path, make, size)]
        half = lambda: ["exec", written(path, make, size // 2)]
        tell(given, name, "exec", wanted, words, half)


main()
