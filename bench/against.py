#!/usr/bin/env python3
"""bench/against.py FOLDER: tables whose handles flow against the order of the passes (C-12), so that many passes are made, for bench/check/run.

    against-largest.table   a chain of 128 handles in a table of the largest size, the other statements READs: 128 passes, the most that a table can take
                            (crates/flow_vectors/data/against.table is the chain alone)
    crowded.table           routines that POINT along 7 of their handles and CALL the next one as often as there is room, with four arguments: 111 passes
                            over 1,696 edges. The slowest of seven tables made by hand; nobody searched for a slower one
"""
import os
import sys


def table(cells, handles, bodies):
    lines = [[1, cells, 0, len(handles), len(bodies), sum(map(len, bodies))]]
    lines += [[2, *h] for h in handles] + [[3, len(b)] for b in bodies] + [[4, *s] for b in bodies for s in b]
    return "".join("".join("%6d" % n for n in line + [0] * (8 - len(line))) + "\n" for line in lines)


def chain():
    """32 routines of four handles: each POINTs from its first handle to its last and passes that on. Cell 0 comes one handle on in each pass."""
    handles = [(r, 1, int(r == 0 or k > 0), int(k > 0)) for r in range(32) for k in range(4)]
    bodies = []
    for r in range(32):
        b = 4 * r
        body = [[7, b + 1, b], [7, b + 2, b + 1], [7, b + 3, b + 2]] + ([[8, r + 1, b + 3]] if r < 31 else [])
        bodies.append(body + [[1, b]] * (15 - len(body)) + [[12]])
    return table(2, handles, bodies)


def crowded():
    """16 routines of eight handles, four of them parameters (in routine 0 locals): POINTs along the first seven, and CALLs of the next routine as often as there is
    room, the first argument the end of that chain, the others the eighth handle, which nothing changes."""
    handles = [(r, 1, int(r == 0 or k > 3), 0 if 0 < r and k < 4 else (8 * r + k) // 2) for r in range(16) for k in range(8)]
    bodies = []
    for r in range(16):
        b = 8 * r
        body = [[7, h + 1, h] for h in range(b, b + 6)]
        bodies.append(body + ([[8, r + 1, b + 6] + [b + 7] * 3] * (26 + int(r < 10)) if r < 15 else []) + [[12]])
    return table(64, handles, bodies)


folder = sys.argv[1]
os.makedirs(folder, exist_ok=True)
for name, text in [("against-largest", chain()), ("crowded", crowded())]:
    with open(os.path.join(folder, name + ".table"), "w") as f:
        f.write(text)
