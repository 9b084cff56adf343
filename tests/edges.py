#!/usr/bin/env python3
"""Writes the table texts that stand at the edge of each refusal, with the answer that document 01 gives, into crates/table_vectors.

Each answer is stated beside the text that it belongs to; no program of this repository is asked. Run at the root of the repository.
The texts of the shared vectors that are refused (041 to 088) go in with the answers stored beside them."""
import glob
import os
import sys

HERE = "crates/table_vectors"


def line(*numbers):
    return "".join("%6d" % n for n in list(numbers) + [0] * (8 - len(numbers))) + "\n"


def table(cells=1, locks=0, handles=(), routines=((2, 4, 12),)):
    """handles: (routine, kind, origin, start); routines: lists of statements, each a tuple from the operation on."""
    body = "".join(line(2, *h) for h in handles)
    body += "".join(line(3, len(r)) for r in routines)
    body += "".join(line(4, *(s if isinstance(s, tuple) else (s,))) for r in routines for s in r)
    return line(1, cells, locks, len(handles), len(routines), sum(len(r) for r in routines)) + body


END = (12,)
ONE = [[END]]
EDGES = []


def edge(name, text, answer):
    EDGES.append((name, text, answer))


def ok(name, text):
    edge(name, text, None)


# 1: the length
edge("01-empty", "", (1, 0))
edge("01-byte-more", table(routines=ONE) + " ", (1, 0))
fill = [[(3, 1)] * 511 + [END]]
full = table(cells=64, locks=16, handles=[(0, 1, 1, 0)] * 8, routines=fill)
ok("01-512-statements", full)
# the most lines that the rules allow: 1 + 128 + 32 + 512 = 673, 32,977 bytes
most_routines = [[(8, r + 1)] + [(3, 7)] * 14 + [END] for r in range(31)] + [[(3, 7)] * 15 + [END]]
most_handles = [(r, 1, 1, 0) for r in range(32) for _ in range(4)]
most = table(cells=64, locks=16, handles=most_handles, routines=most_routines)
assert len(most) == 32977
ok("01-32977-bytes", most)
edge("01-33026-bytes", most + line(4, 12), (1, 0))
# 2: the form of a line
edge("02-minus-zero", table(routines=[[(3, 5), END]]).replace("     5", "    -0"), (2, 2))
ok("02-999999", table(routines=[[(3, 999999), END]]))
ok("02-minus-99999", table(routines=[[(3, -99999), END]]))
edge("02-two-bad-lines", table(routines=[[(3, 5), (3, 6), END]]).replace("     5", "    +5").replace("     6", "    06"), (2, 2))
edge("02-no-line-feed", table(routines=ONE)[:-1] + " ", (2, 2))
edge("02-before-3", table(cells=65, routines=[[(3, 5), END]]).replace("     5", "   5  "), (2, 2))
# 3: the header
ok("03-64-cells", table(cells=64, routines=ONE))
edge("03-65-cells", table(cells=65, routines=ONE), (3, 0))
edge("03-no-cell", table(cells=0, routines=ONE), (3, 0))
ok("03-16-locks", table(locks=16, routines=ONE))
edge("03-17-locks", table(locks=17, routines=ONE), (3, 0))
edge("03-129-handles", line(1, 1, 0, 129, 1, 1) + line(2, 0, 1, 1, 0) * 129 + line(3, 1) + line(4, 12), (3, 0))
edge("03-513-statements", table(routines=[[(3, 1)] * 512 + [END]]), (3, 0))
edge("03-33-routines", line(1, 1, 0, 0, 33, 33) + line(3, 1) * 33 + line(4, 12) * 33, (3, 0))
edge("03-negative-locks", line(1, 1, -1, 0, 1, 1) + line(3, 1) + line(4, 12), (3, 0))
edge("03-last-field", line(1, 1, 0, 0, 1, 1, 0, 7) + line(3, 1) + line(4, 12), (3, 0))
# 4: the number of lines
edge("04-line-more", table(routines=ONE) + line(4, 12), (4, 0))
edge("04-line-less", table(routines=[[(3, 1), END]])[:-49], (4, 0))
# 5: the leading field; the lower of two failing lines
edge("05-leading", line(1, 1, 0, 0, 1, 2) + line(3, 2) + line(5, 3, 1) + line(6, 12), (5, 2))
edge("05-before-6", line(1, 1, 0, 1, 1, 1) + line(2, 9, 9, 9, 9) + line(3, 1) + line(3, 12), (5, 3))
# 6: handles
two = [[(8, 1, 0, 1, 2, 3), END], [END]]
ok("06-eight-handles", table(handles=[(0, 1, 1, 0)] * 8, routines=ONE))
edge("06-ninth-handle", table(handles=[(0, 1, 1, 0)] * 9, routines=ONE), (6, 9))
ok("06-four-parameters", table(handles=[(0, 1, 1, 0)] * 4 + [(1, 1, 0, 0)] * 4, routines=two))
edge("06-fifth-parameter", table(handles=[(0, 1, 1, 0)] * 4 + [(1, 1, 0, 0)] * 5, routines=two), (6, 9))
edge("06-parameter-of-0", table(handles=[(0, 1, 0, 0)], routines=ONE), (6, 1))
edge("06-parameter-behind-local", table(handles=[(0, 1, 1, 0), (1, 1, 1, 0), (1, 1, 0, 0)], routines=[[(8, 1), END], [END]]), (6, 3))
edge("06-routine-falls", table(handles=[(1, 1, 1, 0), (0, 1, 1, 0)], routines=[[(8, 1), END], [END]]), (6, 2))
edge("06-lock-of-none", table(handles=[(0, 2, 1, 0)], routines=ONE), (6, 1))
ok("06-last-lock", table(locks=3, handles=[(0, 2, 1, 2)], routines=ONE))
edge("06-lock-past-last", table(locks=3, handles=[(0, 2, 1, 3)], routines=ONE), (6, 1))
edge("06-start-of-parameter", table(handles=[(0, 1, 1, 0), (1, 1, 0, 1)], routines=[[(8, 1, 0), END], [END]], cells=2), (6, 2))
edge("06-two-failing", table(handles=[(0, 1, 1, 0), (0, 3, 1, 0), (0, 1, 2, 0)], routines=ONE), (6, 2))
# 7 and 8: routines
edge("07-count-0", line(1, 1, 0, 0, 2, 1) + line(3, 1) + line(3, 0) + line(4, 12), (7, 2))
edge("07-count-above", line(1, 1, 0, 0, 1, 1) + line(3, 2) + line(4, 12), (7, 1))
edge("08-sum", line(1, 1, 0, 0, 2, 3) + line(3, 1) + line(3, 1) + line(4, 12) * 3, (8, 0))
# 9: statements
edge("09-operation-0", table(routines=[[(0,), END]]), (9, 2))
edge("09-operation-14", table(routines=[[(14,), END]]), (9, 2))
edge("09-other-routines-handle", table(handles=[(1, 1, 1, 0)], routines=[[(8, 1), (1, 0), END], [END]]), (9, 5))
edge("09-lock-read", table(locks=1, handles=[(0, 2, 1, 0)], routines=[[(1, 0), END]]), (9, 3))
edge("09-point-kinds", table(locks=1, handles=[(0, 1, 1, 0), (0, 2, 1, 0)], routines=[[(7, 0, 1), END]]), (9, 4))
ok("09-target-last", table(routines=[[(10, 1), END]]))
edge("09-target-past-end", table(routines=[[(10, 2), (8, 1), END], [END]]).replace(line(4, 10, 2), line(4, 10, 3)), (9, 3))
edge("09-argument-missing", table(handles=[(0, 1, 1, 0), (0, 1, 1, 0), (1, 1, 0, 0), (1, 1, 0, 0)], locks=1, routines=[[(8, 1, 0, 2), END], [END]]), (9, 7))
edge("09-argument-too-many", table(handles=[(0, 1, 1, 0), (0, 1, 1, 0), (1, 1, 0, 0)], routines=[[(8, 1, 0, 1), END], [END]]), (9, 6))
edge("09-argument-kind", table(locks=1, handles=[(0, 1, 1, 0), (1, 2, 0, 0)], routines=[[(8, 1, 0), END], [END]]), (9, 5))
edge("09-routine-past-last", table(routines=[[(8, 1), END]]), (9, 2))
edge("09-unused-field", table(routines=[[(12, 1)]]), (9, 2))
edge("09-two-failing", table(routines=[[(3, 1), (14,), (15,), END]]), (9, 3))
edge("09-before-10", table(routines=[[(3, 1)], [(14,), END]]), (9, 4))
# C-18: "Check 9 accepts operation 13": one operand, a lock handle of the own routine
lock = [(0, 2, 1, 0)]
ok("09-taker", table(locks=1, handles=lock, routines=[[(13, 0), END]]))
ok("09-taker-last-lock", table(locks=16, handles=[(0, 1, 1, 0), (0, 2, 1, 15)], routines=[[(13, 1), END]]))
edge("09-operation-14-of-lock", table(locks=1, handles=lock, routines=[[(14, 0), END]]), (9, 3))
edge("09-taker-no-handle", table(routines=[[(13,), END]]), (9, 2))
edge("09-taker-cell", table(locks=1, handles=[(0, 1, 1, 0)], routines=[[(13, 0), END]]), (9, 3))
edge("09-taker-past-last-handle", table(locks=1, handles=lock, routines=[[(13, 1), END]]), (9, 3))
edge("09-taker-negative", table(locks=1, handles=lock, routines=[[(13, -1), END]]), (9, 3))
edge("09-taker-other-routines-handle", table(locks=1, handles=[(1, 2, 1, 0)], routines=[[(8, 1), (13, 0), END], [END]]), (9, 5))
edge("09-taker-second-operand", table(locks=1, handles=lock, routines=[[(13, 0, 1), END]]), (9, 3))
edge("09-taker-last-field", table(locks=1, handles=lock, routines=[[(13, 0, 0, 0, 0, 0, 7), END]]), (9, 3))
# 10: the last statement
edge("10-runs-on", table(routines=[[(8, 1), (3, 1)], [(3, 2)]]), (10, 4))
edge("10-taker-last", table(locks=1, handles=lock, routines=[[(13, 0)]]), (10, 3))
ok("10-jump", table(routines=[[(3, 1), (10, 0)]]))
# 11: a routine that nothing names
edge("11-unnamed", table(routines=[[END], [END]]), (11, 2))
edge("11-two-unnamed", table(routines=[[(8, 2), END], [END], [END], [END]]), (11, 2))
# 12: a routine that reaches itself
edge("12-names-itself", table(routines=[[(8, 1), END], [(8, 1), END]]), (12, 2))
edge("12-through-start", table(routines=[[(8, 1), END], [(9, 2), END], [(8, 1), END]]), (12, 2))
edge("12-routine-0", table(routines=[[(8, 1), END], [(9, 0), END]]), (12, 1))
edge("12-leads-to-cycle", table(routines=[[(8, 1), END], [(8, 2), END], [(8, 3), END], [(8, 2), END]]), (12, 3))
edge("12-itself-alone", table(routines=[[END], [(9, 1), END]]), (12, 2))


def main():
    os.makedirs(HERE + "/data", exist_ok=True)
    shared = sys.argv[1] if len(sys.argv) > 1 else "../shared/vectors"
    rows = []
    for path in sorted(glob.glob(shared + "/[0-9][0-9][0-9].table")):
        number = os.path.basename(path)[:3]
        if int(number) >= 41:
            with open(path, "rb") as f, open(path[:-5] + "report") as g:
                rows.append((number, f.read(), g.read()))
        elif number == "040":
            with open(path, "rb") as f:
                rows.append((number, f.read(), "accepted\n"))
    for name, text, answer in EDGES:
        rows.append(("edge-" + name, text.encode(), line(50, *answer) if answer else "accepted\n"))
    for name, text, _ in rows:
        with open("%s/data/%s.table" % (HERE, name), "wb") as f:
            f.write(text)
    with open(HERE + "/args", "w") as f:
        f.write("".join("%s.table\n" % r[0] for r in rows))
    with open(HERE + "/stdout", "w") as f:
        f.write("".join("%s.table\n%s" % (r[0], r[2]) for r in rows))
    print(len(rows), "texts")


main()
