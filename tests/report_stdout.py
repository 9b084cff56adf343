#!/usr/bin/env python3
"""report_stdout.py VECTORS CRATE: the tables of VECTORS, of VECTORS/large and of the folders of REQUESTS in VECTORS/requests into CRATE/data, their names into
CRATE/args, and their stored reports, one behind the other, into CRATE/stdout; behind them the unstarred entries of document 01's notebook, with the answers that it gives.

A report is one of VECTORS: of a table of document 01 that of VECTORS/requests/C-13/base, where it is there, else the one beside the table. That one no
longer holds for the tables in CHANGED: where base has none for them, it is the one in tests/judge/base, which `judge report` printed; .ci/run holds the
library to the judge on these tables."""
import os
import shutil
import sys


def line(*numbers):
    return "".join("%6d" % n for n in list(numbers) + [0] * (8 - len(numbers))) + "\n"


# The requests that change a report, and what their tables' names begin with.
REQUESTS = {"c13-": "C-13", "c18-": "C-18"}
# The tables whose reports C-13 changes.
CHANGED = ["007", "008", "012", "013", "026", "027", "031", "034", "035", "039", "large-heldladder", "large-maxnearly"]
ONE = line(3, 1) + line(4, 12)
SET = line(1, 1, 0, 0, 1, 2) + line(3, 2) + line(4, 3, 5) + line(4, 12)
NOTEBOOK = [
    ("16-locks", line(1, 1, 16, 0, 1, 1) + ONE, line(51, 0, 0, 0, 0, 65535) + line(59)),
    ("64-cells", line(1, 64, 0, 0, 1, 1) + ONE, "".join(line(51, x) for x in range(64)) + line(59)),
    ("65-cells", line(1, 65, 0, 0, 1, 1) + ONE, line(50, 3, 0)),
    ("999999", SET.replace("     5", "999999"), line(51, 0) + line(59)),
    ("minus-0", SET.replace("     5", "    -0"), line(50, 2, 2)),
]


def report_of(vectors, folder, prefix, stem):
    """Where the stored report of a table is."""
    base = os.path.join(vectors, "requests", "C-13", "base", stem + ".report")
    if prefix not in REQUESTS and os.path.exists(base):
        return base
    if prefix + stem in CHANGED:
        return os.path.join(os.path.dirname(os.path.abspath(__file__)), "judge", "base", prefix + stem + ".report")
    return os.path.join(folder, stem + ".report")


def main():
    vectors, crate = sys.argv[1], sys.argv[2]
    os.makedirs(os.path.join(crate, "data"), exist_ok=True)
    names, reports = [], b""
    folders = [(vectors, ""), (os.path.join(vectors, "large"), "large-")]
    folders += [(os.path.join(vectors, "requests", request), prefix) for prefix, request in REQUESTS.items()]
    for folder, prefix in folders:
        for entry in sorted(os.listdir(folder)):
            stem, end = os.path.splitext(entry)
            if end != ".table" or stem.startswith("run"):
                continue
            shutil.copyfile(os.path.join(folder, entry), os.path.join(crate, "data", prefix + entry))
            names.append(prefix + entry)
            with open(report_of(vectors, folder, prefix, stem), "rb") as f:
                reports += f.read()
    for name, text, report in NOTEBOOK:
        names.append("notebook-%s.table" % name)
        with open(os.path.join(crate, "data", names[-1]), "w") as f:
            f.write(text)
        reports += report.encode()
    with open(os.path.join(crate, "args"), "w") as f:
        f.write("".join(n + "\n" for n in names))
    with open(os.path.join(crate, "stdout"), "wb") as f:
        f.write(reports)


main()
