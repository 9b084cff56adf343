#!/usr/bin/env python3
"""deep_chain.py CRATE: a chain of 32 routines and a schedule for it, as CRATE/data/deep.table and deep.schedule; and the lines that the program has to print
of them, which are put in the place of the last three of CRATE/stdout (or behind it, where it has none yet).

Routine 0 STARTs routine 1 with cell 1, then CALLs it with cell 0. Routine q CALLs q + 1 with the cell that it was passed. So thread 0 comes to 32 frames,
thread 1 to 31. On the way back the even routines and routine 31 add 1 to their cell. What is printed is counted here, not computed by an engine."""
import os
import sys

ROUTINES = 32


def works(q):
    return q % 2 == 0 or q == ROUTINES - 1


def body(q):
    passed = 0 if q == 0 else q + 1  # handles 0 and 1 are routine 0's, then one parameter a routine
    out = [(9, 1, 1)] if q == 0 else []
    if q + 1 < ROUTINES:
        out.append((8, q + 1, passed))
    return out + ([(1, passed), (4, 1), (2, passed)] if works(q) else []) + [(12,)]


def table():
    bodies = [body(q) for q in range(ROUTINES)]
    lines = [(1, 2, 0, 1 + ROUTINES, ROUTINES, sum(len(b) for b in bodies)), (2, 0, 1, 1, 0), (2, 0, 1, 1, 1)]
    lines += [(2, q, 1, 0) for q in range(1, ROUTINES)] + [(3, len(b)) for b in bodies] + [(4,) + s for b in bodies for s in b]
    return "".join("".join("%6d" % n for n in line + (0,) * (8 - len(line))) + "\n" for line in lines)


def back(first):
    """The frames open behind each step of the way back, from routine 31 to `first`, the oldest."""
    return [n for q in range(ROUTINES - 1, first - 1, -1) for n in [q - first + 1] * (3 if works(q) else 0) + [q - first]]


def run():
    """The steps, each (thread, answer, frames of thread 0 behind it, frames of thread 1 behind it)."""
    out = [(0, 0, 1, 1), (1, 0, 1, 2)]  # the START; a CALL of thread 1
    out += [(0, 0, n, 2) for n in range(2, 33)] + [(1, 0, 32, n) for n in range(3, 32)]  # both to their deepest frame
    one, other = back(0), back(1)
    n = m = 0
    while n < len(one) or m < len(other):  # and back, in turn
        if n < len(one):
            n += 1
            out.append((0, 0, one[n - 1], other[m - 1] if m else 31))
        if m < len(other):
            m += 1
            out.append((1, 0, one[n - 1], other[m - 1]))
    return out + [(0, 15, 0, 0), (1, 15, 0, 0)]


def main():
    crate = sys.argv[1]
    steps = run()
    words = ["".join(" %d" % step[k] for step in steps) for k in range(4)]
    cells = [sum(works(q) for q in range(first, ROUTINES)) for first in (0, 1)]
    lines = ["frames of thread 0:" + words[2], "frames of thread 1:" + words[3], "answers%s, cells %d %d" % (words[1], cells[0], cells[1])]
    with open(os.path.join(crate, "data", "deep.table"), "w") as f:
        f.write(table())
    with open(os.path.join(crate, "data", "deep.schedule"), "wb") as f:
        f.write(bytes(step[0] for step in steps))
    with open(os.path.join(crate, "stdout")) as f:
        before = f.read().splitlines()
    if before[-3].startswith("frames"):
        before = before[:-3]
    with open(os.path.join(crate, "stdout"), "w") as f:
        f.write("".join(line + "\n" for line in before + lines))


main()
