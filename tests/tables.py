"""Random table texts for tests/command: accepted ones, and damaged ones."""
import os
import sys

sys.dont_write_bytecode = True
sys.path.insert(0, os.path.join(os.path.dirname(os.path.dirname(os.path.abspath(__file__))), "tools"))
from form import line_of  # noqa: E402


def accepted(r):
    """A table text that keeps the rules: a routine is named by lower ones only, and by one of them surely. Most are small."""
    large = r.random() < 0.01
    routines = r.randint(1, 32 if large else 5)
    cells, locks = r.randint(1, 64 if large else 3), r.randint(0, 16 if large else 3)
    parents = [None] + [r.randrange(q) for q in range(1, routines)]
    own, budget = [], 128
    for q in range(routines):
        mine = []
        kinds = [h[0] for h in own[parents[q]]] if q else []
        for _ in range(r.randint(0, 4) if kinds else 0):
            mine.append((r.choice(kinds), 0, 0))
        for _ in range(r.randint(0, 8 - len(mine))):
            kind = r.randint(1, 2) if locks else 1
            mine.append((kind, 1, r.randrange(cells if kind == 1 else locks)))
        mine = mine[:max(budget, 0)]
        budget -= len(mine)
        own.append(mine)
    first_handle = [sum(len(m) for m in own[:q]) for q in range(routines)]
    children = [[c for c in range(routines) if parents[c] == q] for q in range(routines)]
    most = (512 - routines) // routines
    counts = [len(children[q]) + 1 + r.randint(0, min(most - len(children[q]) if most > len(children[q]) else 0, 30 if large else 8)) for q in range(routines)]
    firsts = [sum(counts[:q]) for q in range(routines)]

    def handle(q, kind):
        fit = [first_handle[q] + i for i, h in enumerate(own[q]) if not kind or h[0] == kind]
        return r.choice(fit) if fit else None

    def naming(q, callee):
        given = [handle(q, h[0]) for h in own[callee] if h[1] == 0]
        return None if None in given else (r.randint(8, 9), callee) + tuple(given)

    def statement(q):
        operation = r.randint(1, 13)
        if operation in (1, 2, 5, 6, 13):
            h = handle(q, 1 if operation < 3 else 2)
            return (operation, h) if h is not None else (12,)
        if operation in (3, 4):
            return operation, r.choice([0, 1, -1, 7, -99999, 999999, r.randint(-99999, 999999)])
        if operation == 7:
            h = handle(q, 0)
            return (7, h, handle(q, own[q][h - first_handle[q]][0])) if h is not None else (12,)
        if operation in (8, 9):
            return (naming(q, r.randrange(q + 1, routines)) if q + 1 < routines else None) or (3, 5)
        return (operation, firsts[q] + r.randrange(counts[q])) if operation < 12 else (12,)

    bodies = []
    for q in range(routines):
        body = [statement(q) for _ in range(counts[q] - 1)]
        for place, child in zip(r.sample(range(counts[q] - 1), len(children[q])), children[q]):
            body[place] = naming(q, child)
        bodies.append(body + [r.choice([(12,), (12,), (10, firsts[q] + r.randrange(counts[q]))])])
    text = line_of(1, cells, locks, sum(map(len, own)), routines, sum(counts))
    text += "".join(line_of(2, q, *h) for q in range(routines) for h in own[q])
    text += "".join(line_of(3, n) for n in counts)
    return (text + "".join(line_of(4, *s) for body in bodies for s in body)).encode()


def damaged(r, text):
    """A text with something changed: a field, a byte, a line, the length."""
    lines = [text[i:i + 49] for i in range(0, len(text), 49)]
    i, kind = r.randrange(len(lines)), r.randrange(10)
    if kind < 6:
        f, value = r.randrange(8), r.choice([0, 1, 2, 3, 4, 8, 9, 12, 13, 14, 64, 65, 128, 511, -1, 999999, r.randint(0, 40)])
        lines[i] = lines[i][:6 * f] + b"%6d" % value + lines[i][6 * f + 6:]
    elif kind == 6:
        b = r.randrange(49)
        lines[i] = lines[i][:b] + bytes([r.choice([9, 10, 13, 32, 43, 45, 48, 53, 0, 200, r.randrange(256)])]) + lines[i][b + 1:]
    elif kind == 7:
        lines.insert(i, lines[r.randrange(len(lines))])
    elif kind == 8:
        del lines[i]
    else:
        return text[:r.randrange(len(text))]
    return b"".join(lines)
