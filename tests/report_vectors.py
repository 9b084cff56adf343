#!/usr/bin/env python3
"""report_vectors.py FOLDER NUMBER..: the module of tables and reports, out of FOLDER/NUMBER.table and FOLDER/NUMBER.report, to standard output."""
import sys


def fields(line):
    return [int(line[i:i + 6]) for i in range(0, 48, 6)]


def row(numbers):
    if all(n >= 0 for n in numbers):
        return "row " + " ".join(map(str, numbers))
    assert numbers[0] == 4 and numbers[2] < 0 and not any(numbers[3:])
    return "negative %d %d" % (numbers[1], -numbers[2] - 1)


def rows(path):
    return [row(fields(line)) for line in open(path).read().splitlines()]


def main():
    folder, names = sys.argv[1], sys.argv[2:]
    for name in names:
        print("-- table %s" % name)
        print("abbrev pub v%s : Case" % name)
        print("v%s = record {" % name)
        print("  lines =\n      " + "\n      ∷ ".join(rows("%s/%s.table" % (folder, name))) + " ∷ [];")
        print("  report =\n      " + "\n      ∷ ".join(rows("%s/%s.report" % (folder, name))) + " ∷ []")
        print("}\n")
    print("abbrev pub vectors : List Case")
    print("vectors = " + " ∷ ".join("v" + n for n in names) + " ∷ []")


main()
