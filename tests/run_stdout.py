#!/usr/bin/env python3
"""run_stdout.py VECTORS CRATE: the runs of VECTORS, as 01-NN, and of VECTORS/requests/C-RR, as RR-NN, with their answers into CRATE/data; and what the
program has to print of them, by their stored answers and cells, into CRATE/stdout. A refused run has its line 50 stored and no answers; its answers in
CRATE/data are an empty file, and no place of a buffer changes. Behind them what sum.table shows, by hand from the documents."""
import os
import shutil
import sys

# The program's buffers have so many places for cells and answers, each filled with 99.
CELLS, ANSWERS = 66, 40001
EDGES = [
    "0 line 0, cells 2147483647 99",  # 485,794 and then 999,999 2,147 times
    "0 line 0, cells 2147483647 99",  # C-17: "2,147,483,647 ADD 1 giving 2,147,483,647"
    "0 line 0, answers 99 99 99, cells 0",  # no step
    "0 line 0, answers 0 0 14, cells 0",
    "13 line 0, answers 0 0 14, cells 98",  # four steps, three answers
    "13 line 0, answers 0 0 14, cells",  # no cell
]


def main():
    vectors, crate = sys.argv[1], sys.argv[2]
    out = []
    for request, folder in (("01", vectors), ("17", os.path.join(vectors, "requests", "C-17")), ("18", os.path.join(vectors, "requests", "C-18"))):
        for entry in sorted(os.listdir(folder)):
            stem, end = os.path.splitext(entry)
            if end != ".schedule":
                continue
            there, here = os.path.join(folder, stem), os.path.join(crate, "data", "%s-%s" % (request, stem[-2:]))
            refused = os.path.exists(there + ".printed")
            for end in (".table", ".schedule") + (() if refused else (".answers",)):
                shutil.copyfile(there + end, here + end)
            if refused:
                open(here + ".answers", "w").close()
            with open(there + (".printed" if refused else ".cells")) as f:
                words = [int(word) for word in f.read().split()]
            (number, row), cells = (words[1:3], []) if refused else ((0, 0), words)
            shown = "".join(" %d" % x for x in cells + [99] * (CELLS - len(cells)))
            out.append("%d line %d, cells%s; %d of %d places as stored" % (number, row, shown, ANSWERS, ANSWERS))
    with open(os.path.join(crate, "stdout"), "w") as f:
        f.write("".join(line + "\n" for line in out + EDGES))


main()
