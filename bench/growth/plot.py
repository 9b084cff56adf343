#!/usr/bin/env python3
"""plot.py TIMES SVG: draws the lines of TIMES, which bench/run writes: family, size, microseconds; for Spin `cut`, what ran out (memory or time) and its
limit (megabytes or seconds) where it was not finished. The family `process` has one line: a call of the program behind `check`, started anew."""
import sys
from math import ceil, floor, log10

WIDTH, HEIGHT = 400, 250
COLOURS = ["#1f5fa8", "#c0392b", "#2e7d32"]


def read(path):
    """The points of each family, and what ran out for each cut one: (family, size): words."""
    families, cuts = {}, {}
    for line in open(path):
        family, size, value, *more = line.split()
        families.setdefault(family, []).append((int(size), None if value == "cut" else float(value)))
        if value == "cut":
            what, limit = more
            cuts[family, int(size)] = f"out of memory ({int(limit):,} MB)" if what == "memory" else f"not finished in {limit} s"
    return families, cuts


def label(us):
    if us >= 1e6:
        return f"{us / 1e6:g} s"
    return f"{us / 1e3:g} ms" if us >= 1e3 else f"{us:g} µs"


def text(x, y, words, anchor="middle", size=12, extra=""):
    return f'<text x="{x:.1f}" y="{y:.1f}" text-anchor="{anchor}" font-size="{size}" {extra}>{words}</text>'


def line(x1, y1, x2, y2, colour="#dddddd"):
    return f'<line x1="{x1:.1f}" y1="{y1:.1f}" x2="{x2:.1f}" y2="{y2:.1f}" stroke="{colour}"/>'


def round_step(most, count):
    """A step of 1, 2 or 5 times a power of ten that gives at most `count` steps."""
    step = 10.0 ** floor(log10(most / count))
    return next(step * m for m in (1, 2, 5, 10) if most / (step * m) <= count)


class Panel:
    def __init__(self, left, top, title, x_label, curves, ticks, logarithmic, cut="", notes=()):
        self.left, self.top, self.title, self.x_label, self.curves, self.ticks = left, top, title, x_label, curves, ticks
        self.cut, self.notes = cut, notes
        values = [v for _, points in curves for _, v in points if v is not None]
        self.logarithmic = logarithmic
        if logarithmic:
            self.low, self.high = floor(log10(min(values))), ceil(log10(max(values) * 5)) + any(v is None for _, points in curves for _, v in points)
            self.marks = [10.0 ** e for e in range(self.low, self.high + 1)]
        else:
            step = round_step(max(values), 6)
            self.low, self.high = 0, step * ceil(max(values) * 1.02 / step)
            self.marks = [step * i for i in range(round(self.high / step) + 1)]
        self.first, self.last = min(ticks), max(ticks)

    def x(self, size):
        return self.left + WIDTH * (size - self.first) / (self.last - self.first)

    def y(self, value):
        height = log10(value) if self.logarithmic else value
        return self.top + HEIGHT * (1 - (height - self.low) / (self.high - self.low))

    def frame(self):
        out = [text(self.left, self.top - 14, self.title, "start", 14, 'font-weight="bold"')]
        for mark in self.marks:
            out.append(line(self.left, self.y(mark), self.left + WIDTH, self.y(mark)))
            out.append(text(self.left - 8, self.y(mark) + 4, label(mark) if mark else "0", "end"))
        for tick in self.ticks:
            out.append(line(self.x(tick), self.top + HEIGHT, self.x(tick), self.top + HEIGHT + 5, "#555555"))
            out.append(text(self.x(tick), self.top + HEIGHT + 19, tick))
        out.append(text(self.left + WIDTH / 2, self.top + HEIGHT + 38, self.x_label))
        middle = self.top + HEIGHT / 2
        out.append(text(self.left - 66, middle, "time of one call", "middle", 12, f'transform="rotate(-90 {self.left - 66} {middle})"'))
        out.append(f'<rect x="{self.left}" y="{self.top}" width="{WIDTH}" height="{HEIGHT}" fill="none" stroke="#555555"/>')
        return out

    def curve(self, points, colour):
        done = [(self.x(s), self.y(v)) for s, v in points if v is not None]
        path = " ".join(f"{x:.1f},{y:.1f}" for x, y in done)
        out = [f'<polyline points="{path}" fill="none" stroke="{colour}" stroke-width="2"/>']
        out += [f'<circle cx="{x:.1f}" cy="{y:.1f}" r="3" fill="{colour}"/>' for x, y in done]
        cut = [size for size, value in points if value is None]
        out += [text(self.x(size), self.top + 17, "×", "middle", 16, f'fill="{colour}"') for size in cut]
        if cut:
            out.append(text(self.x(cut[0]) - 10, self.top + 16, self.cut, "end", 11, f'fill="{colour}"'))
        return out

    def draw(self):
        out = self.frame()
        for i, (name, points) in enumerate(self.curves):
            out += self.curve(points, COLOURS[i])
            y = self.top + HEIGHT + 60 + 18 * i
            out.append(f'<line x1="{self.left}" y1="{y - 4}" x2="{self.left + 24}" y2="{y - 4}" stroke="{COLOURS[i]}" stroke-width="2"/>')
            out.append(text(self.left + 32, y, name, "start"))
        for i, note in enumerate(self.notes):
            out.append(text(self.left, self.top + HEIGHT + 60 + 18 * (len(self.curves) + i), note, "start", 11, 'fill="#555555"'))
        return out


TITLE = "Time of the proved check and of Spin"
DESCRIPTION = """Four panels. First: the class exercise with 2 to 8 threads, on a logarithmic scale of time; the check stays between {low} and {high}, \
Spin's search of all states takes many times longer with each thread{spin}. The other three: the check's time grows in proportion to the statements, and little with \
handles and routines. Spin's answer is exact; the check may warn where no order of steps goes wrong."""


def described(families, cuts):
    check = [v for _, v in families["threads"]]
    ended = [f"{words} at {size} threads" for (_, size), words in sorted(cuts.items())]
    return DESCRIPTION.format(low=label(round(min(check), 1)), high=label(round(max(check), 1)), spin=", and ended " + ", ".join(ended) if ended else "")


def main():
    f, cuts = read(sys.argv[1])
    sizes = [s for s, _ in f["threads"]]
    notes = ["Spin's answer is exact; the check may warn where no order of steps goes wrong."]
    if "process" in f:
        notes.append(f"The check is one call in a running program; to start a program for it takes {label(float('%.1g' % f['process'][0][1]))} more.")
    why = ", ".join(dict.fromkeys(cuts.values()))
    panels = [
        Panel(90, 50, "Class exercise, by threads", "threads started, ten statements each (log scale of time)",
              [("the proved check", f["threads"]), ("Spin, search of all states (compiling not counted)", f.get("spin", []))], sizes, True, why, notes),
        Panel(600, 50, "The check, by statements", "statements, two routines",
              [("blocks of TAKE, READ, ADD, WRITE, GIVE", f["in-order"]), ("jumps against the order, one access at the end", f["against-order"]),
               ("each second block TAKER, READ, GIVE", f["both-holds"])],
              [0, 128, 256, 384, 512], False),
        Panel(90, 490, "The check, by handles", "handles, in 16 routines of 32 statements", [("the proved check", f["handles"])], [0, 32, 64, 96, 128], False),
        Panel(600, 490, "The check, by routines", "routines, 512 statements in all", [("the proved check", f["routines"])], [0, 8, 16, 24, 32], False),
    ]
    body = "\n".join(part for p in panels for part in p.draw())
    head = '<svg xmlns="http://www.w3.org/2000/svg" width="1030" height="840" viewBox="0 0 1030 840" font-family="sans-serif" role="img" aria-labelledby="title description">'
    head += f'\n<title id="title">{TITLE}</title>\n<desc id="description">{described(f, cuts)}</desc>'
    with open(sys.argv[2], "w") as out:
        out.write(f'{head}\n<rect width="1030" height="840" fill="white"/>\n{body}\n</svg>\n')


main()
