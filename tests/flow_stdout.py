#!/usr/bin/env python3
"""flow_stdout.py VECTORS CRATE: tables into CRATE/data, their names into CRATE/args, and into CRATE/stdout what the program has to print of them: each name
and how many passes its flow sets take. Eight tables are those of VECTORS/data, VECTORS being crates/report_vectors; four are written here.

The passes are counted here, from the table texts and the words of the request, not by proved code: "pass over the statements from the highest number down
until a pass changes nothing", the last pass counted. Sets change in place. A refused text takes 0 passes; which one is refused is known from the stored
reports, VECTORS/stdout, where a refused text has line 50. Those written here are accepted."""
import os
import shutil
import sys

POINT, CALL, START = 7, 8, 9
READ, RETURN = (1,), (12,)
LENT = ["000", "016", "041", "large-busy", "large-flowchain", "large-ladder", "large-maxwild", "large-pingpong"]


def table(cells, handles, bodies):
    """A table text without locks: its handles, all of cells, each (routine, origin, start), and the statements of its routines."""
    lines = [(1, cells, 0, len(handles), len(bodies), sum(len(b) for b in bodies))]
    lines += [(2, r, 1, origin, start) for r, origin, start in handles]
    lines += [(3, len(b)) for b in bodies] + [(4,) + s for b in bodies for s in b]
    return "".join("".join("%6d" % n for n in line + (0,) * (8 - len(line))) + "\n" for line in lines)


def helpers(used):
    """A chain of five routines: routine q passes its one handle to routine used[q]; the last of the chain uses none, and reads it."""
    bodies = [[(CALL, used[q], q) if q in used else READ + (q,), RETURN] for q in range(5)]
    return table(1, [(0, 1, 0)] + [(q, 0, 0) for q in range(1, 5)], bodies)


def points(n):
    """One routine: handle h starts at cell h, and is pointed at what handle h - 1 has, from handle 1 on."""
    return table(n, [(0, 1, h) for h in range(n)], [[(POINT, h, h - 1) for h in range(1, n)] + [RETURN]])


def against(routines):
    """One chain of eight handles a routine, against the order of the passes: from handle to handle within a routine, and from its last one, by a CALL, to
    the parameter of the next. Handle 0 starts at cell 0, every other local at cell 1: each pass brings cell 0 one handle on."""
    handles, bodies = [], []
    for r in range(routines):
        b = 8 * r
        handles += [(r, 1 if r == 0 or i else 0, 1 if i else 0) for i in range(8)]
        onward = [(CALL, r + 1, b + 7)] if r + 1 < routines else []
        bodies.append([(POINT, b + i, b + i - 1) for i in range(1, 8)] + onward + [RETURN])
    return table(64, handles, bodies)


WRITTEN = [
    # the tables of crates/report/specs/PassCases.antt
    ("helpers-before", helpers({0: 4, 4: 3, 3: 2, 2: 1})),
    ("helpers-behind", helpers({0: 1, 1: 2, 2: 3, 3: 4})),
    ("points-onward", points(4)),
    # the most passes that a table can take, one for each of 128 handles
    ("against", against(16)),
]


def passes(text):
    """How many passes over the statements the flow sets of an accepted text take."""
    rows = [[int(line[i:i + 6]) for i in range(0, 48, 6)] for line in text.splitlines()]
    handles = [row for row in rows if row[0] == 2]
    statements = [row for row in rows if row[0] == 4]
    own = [[h for h, row in enumerate(handles) if row[1] == r] for r in range(rows[0][4])]
    parameters = [[h for h in mine if handles[h][3] == 0] for mine in own]
    sets = [{row[4]} if row[3] == 1 else set() for row in handles]
    made, before = 0, None
    while sets != before:
        made, before = made + 1, [set(s) for s in sets]
        for row in reversed(statements):
            if row[1] == POINT:
                sets[row[2]] |= sets[row[3]]
            if row[1] in (CALL, START):
                for argument, parameter in zip(row[3:], parameters[row[2]]):
                    sets[parameter] |= sets[argument]
    return made


def refused(vectors):
    """The names of the texts whose stored report is line 50: a report is that line, or ends in line 59."""
    with open(os.path.join(vectors, "args")) as f:
        names = f.read().split()
    with open(os.path.join(vectors, "stdout")) as f:
        last = [int(line[:6]) for line in f if line[:6] in ("    50", "    59")]
    assert len(names) == len(last)
    return {name for name, kind in zip(names, last) if kind == 50}


def main():
    vectors, crate = sys.argv[1], sys.argv[2]
    data = os.path.join(crate, "data")
    os.makedirs(data, exist_ok=True)
    for name in LENT:
        shutil.copyfile(os.path.join(vectors, "data", name + ".table"), os.path.join(data, name + ".table"))
    for name, text in WRITTEN:
        with open(os.path.join(data, name + ".table"), "w") as f:
            f.write(text)
    bad = refused(vectors)
    names = [name + ".table" for name in LENT] + [name + ".table" for name, _ in WRITTEN]
    lines = []
    for name in names:
        with open(os.path.join(data, name)) as f:
            lines.append("%s %d\n" % (name, 0 if name in bad else passes(f.read())))
    with open(os.path.join(crate, "args"), "w") as f:
        f.write("".join(name + "\n" for name in names))
    with open(os.path.join(crate, "stdout"), "w") as f:
        f.write("".join(lines))


main()
