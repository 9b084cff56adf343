#!/usr/bin/env python3
"""table: the named form of station tables (docs/NAMED_FORM.md), from it to a table text and back. See HELP.

It stands beside the proof: what is loaded is the table, and `check` judges the table."""
import difflib
import os
import re
import subprocess
import sys

sys.dont_write_bytecode = True
HERE = os.path.dirname(os.path.dirname(os.path.abspath(__file__)))
sys.path.insert(0, os.path.join(HERE, "tools"))
import form  # noqa: E402
import words  # noqa: E402
from form import ADD, CALL, CELL, HANDLES, JUMP, JUMPZ, KINDS, LOCAL, LOCK, OPERATIONS, PARAMETER, POINT, RETURN, SET, START  # noqa: E402

HELP = """table build [FILE]    the table text of a named form, on standard output
table show [FILE]     the named form of a table text, on standard output
table lines [FILE]    for each statement of a named form: its number, its line in the table, its line in FILE, and the statement

Without FILE, or for -, it reads standard input. docs/NAMED_FORM.md has the form.

Exit status:
  0  done
  2  the named form has mistakes (each is said with line and column), or the table text is refused
  3  something could not be read or written, or the call is wrong"""
LIMITS = {"cell": 64, "lock": 16, "routine": 32, "statement": 512, "handle": 128}
KEYWORDS = {"cells", "locks", "routine", "local", "cell", "lock"} | {name.lower() for name in OPERATIONS if name}
CODES = {name: i for i, name in enumerate(OPERATIONS) if name}
TOKEN = re.compile(r"(?P<comment>#.*)|(?P<name>[A-Za-z_][A-Za-z0-9_]*)|(?P<number>[+-]?[0-9]+)|(?P<sign>[^ \t])")


class Mistake(Exception):
    def __init__(self, line, column, message):
        super().__init__(message)
        self.where = (line, column)


class Token:
    def __init__(self, kind, text, line, column):
        self.kind, self.text, self.line, self.column = kind, text, line, column

    def wrong(self, expected):
        found = "the line ends" if self.kind == "end" else "'%s' stands" % self.text
        return Mistake(self.line, self.column, "expected %s, and %s here" % (expected, found))

    def mistake(self, message):
        return Mistake(self.line, self.column, message)


def tokens_of(text, line):
    """The words and signs of a line, a comment left out, and its end."""
    out = [Token(found.lastgroup, found.group(), line, found.start() + 1) for found in TOKEN.finditer(text) if found.lastgroup != "comment"]
    last = out[-1] if out else None
    out.append(Token("end", "", line, last.column + len(last.text) if last else 1))
    return out


class Reader:
    """Takes the tokens of one line, one after the other."""

    def __init__(self, tokens):
        self.tokens = tokens

    @property
    def next(self):
        return self.tokens[0]

    def take(self):
        return self.tokens.pop(0)

    def is_sign(self, sign, ahead=0):
        return len(self.tokens) > ahead and self.tokens[ahead].kind == "sign" and self.tokens[ahead].text == sign

    def sign(self, sign):
        if not self.is_sign(sign):
            raise self.next.wrong("'%s'" % sign)
        return self.take()

    def name(self, what):
        if self.next.kind != "name":
            raise self.next.wrong(what)
        if self.next.text.lower() in KEYWORDS:
            raise self.next.mistake("expected %s, and '%s' is a word of the form and names nothing" % (what, self.next.text))
        return self.take()

    def number(self):
        if self.next.kind != "number":
            raise self.next.wrong("a number from -99999 to 999999")
        token = self.take()
        if not re.fullmatch(r"0|-?[1-9][0-9]*", token.text):
            raise token.mistake("expected a number without plus sign, leading zero or -0, and '%s' stands here" % token.text)
        if not -99999 <= int(token.text) <= 999999:
            raise token.mistake("expected a number from -99999 to 999999, and %s stands here" % token.text)
        return int(token.text)

    def end(self, behind):
        if self.next.kind != "end":
            raise self.next.wrong("nothing more behind " + behind)

    def names_in_brackets(self, one):
        """'(' one ',' one ... ')', or nothing."""
        out = []
        if not self.is_sign("("):
            return out
        self.take()
        if not self.is_sign(")"):
            out.append(one())
            while self.is_sign(","):
                self.take()
                out.append(one())
        if not self.is_sign(")"):
            raise self.next.wrong("',' or ')'")
        self.take()
        return out


class Routine:
    def __init__(self, token, number):
        self.token, self.number = token, number
        self.handles = []       # (name, kind, origin, start)
        self.labels = {}        # name: (token, place)
        self.pending = []       # labels that wait for a statement
        self.statements = []    # (token of the operation, operation, operand tokens or numbers)

    @property
    def parameters(self):
        return [h for h in self.handles if h[2] == PARAMETER]


class Form:
    """A named form that is read line by line; mistakes are collected, one a line."""

    def __init__(self):
        self.things = {}        # name of a cell or lock: (token, kind, number)
        self.counts = {CELL: 0, LOCK: 0}
        self.routines, self.by_name = [], {}
        self.mistakes = []

    # reading

    def read(self, text):
        lines = text.split("\n")
        for i, line in enumerate(lines, 1):
            self.attempt(self.line, Reader(tokens_of(line.rstrip("\r"), i)))
        # What is told at the end is told of good lines only, so that one mistake makes no other ones.
        if not self.mistakes:
            self.whole(len(lines))

    def attempt(self, what, *given):
        try:
            return what(*given)
        except Mistake as mistake:
            self.mistakes.append(mistake)

    def line(self, reader):
        if reader.next.kind == "end":
            return
        word = reader.next.text.lower()
        if word in ("cells", "locks") and not reader.is_sign(":", 1):
            return self.names(reader, CELL if word == "cells" else LOCK)
        if word == "routine":
            return self.routine(reader)
        if word == "local":
            return self.local(reader)
        while reader.next.kind == "name" and reader.is_sign(":", 1):
            self.label(reader)
        if reader.next.kind != "end":
            self.statement(reader)

    def names(self, reader, kind):
        word = reader.take()
        if self.routines:
            raise word.mistake("expected '%s' above the first routine" % word.text)
        if reader.next.kind == "end":
            raise reader.next.wrong("a name for a " + KINDS[kind])
        while reader.next.kind != "end":
            token = reader.name("a name for a " + KINDS[kind])
            if token.text in self.things:
                raise token.mistake("expected a new name, and '%s' is a %s (line %d)" % (token.text, KINDS[self.things[token.text][1]], self.things[token.text][0].line))
            if self.counts[kind] == LIMITS[KINDS[kind]]:
                raise token.mistake("expected at most %d %ss" % (LIMITS[KINDS[kind]], KINDS[kind]))
            self.things[token.text] = (token, kind, self.counts[kind])
            self.counts[kind] += 1

    def routine(self, reader):
        reader.take()
        routine = Routine(reader.next, len(self.routines))
        self.routines.append(routine)
        token = reader.name("a name for the routine")
        if token.text in self.by_name:
            raise token.mistake("expected a new name, and '%s' is a routine (line %d)" % (token.text, self.by_name[token.text].token.line))
        self.by_name[token.text] = routine
        if len(self.routines) > LIMITS["routine"]:
            raise token.mistake("expected at most %d routines" % LIMITS["routine"])
        begins = reader.next
        reader.names_in_brackets(lambda: self.parameter(reader, routine))
        if routine.number == 0 and routine.parameters:
            raise begins.mistake("expected no parameter: the first routine has none")
        reader.end("the routine")

    def parameter(self, reader, routine):
        if reader.next.text not in ("cell", "lock"):
            raise reader.next.wrong("'cell' or 'lock', the kind of a parameter")
        kind = CELL if reader.take().text == "cell" else LOCK
        token = reader.name("a name for the parameter")
        if len(routine.parameters) == 4:
            raise token.mistake("expected at most four parameters")
        self.handle(routine, token, kind, PARAMETER, 0)

    def inside(self, token):
        if not self.routines:
            raise token.mistake("expected 'cells', 'locks' or 'routine' first, and '%s' belongs into a routine" % token.text)
        return self.routines[-1]

    def handle(self, routine, token, kind, origin, start):
        if token.text in self.things:
            raise token.mistake("expected a new name, and '%s' is a %s (line %d)" % (token.text, KINDS[self.things[token.text][1]], self.things[token.text][0].line))
        if any(h[0] == token.text for h in routine.handles):
            raise token.mistake("expected a new name, and '%s' is a handle of this routine" % token.text)
        self.room(routine, token)
        routine.handles.append((token.text, kind, origin, start))

    def room(self, routine, token):
        if len(routine.handles) == 8:
            raise token.mistake("expected at most eight handles in a routine, with those of the cells and locks that it names itself")
        if sum(len(r.handles) for r in self.routines) == LIMITS["handle"]:
            raise token.mistake("expected at most %d handles in all" % LIMITS["handle"])

    def local(self, reader):
        routine = self.inside(reader.take())
        token = reader.name("a name for the handle")
        if routine.statements or routine.pending:
            raise token.mistake("expected 'local' above the routine's first statement")
        reader.sign("=")
        thing = reader.name("the name of a cell or a lock")
        if thing.text not in self.things:
            raise thing.mistake(self.unknown("a cell or a lock", thing, self.things))
        _, kind, number = self.things[thing.text]
        self.handle(routine, token, kind, LOCAL, number)
        reader.end("the handle")

    def label(self, reader):
        routine = self.inside(reader.next)
        token = reader.name("a label")
        reader.take()
        if token.text in routine.labels:
            raise token.mistake("expected a new label, and '%s' stands on line %d" % (token.text, routine.labels[token.text][0].line))
        routine.labels[token.text] = (token, len(routine.statements))
        routine.pending.append(token)

    def statement(self, reader):
        token = reader.next
        operation = CODES.get(token.text.upper())
        if operation is None:
            near = difflib.get_close_matches(token.text.lower(), sorted(KEYWORDS), 1)
            raise token.wrong("an operation (%s), 'local', 'routine' or a label and ':'%s" % (
                ", ".join(OPERATIONS[1:]), " (did you mean '%s'?)" % near[0] if near else ""))
        routine = self.inside(token)
        reader.take()
        routine.pending = []
        operands = []
        routine.statements.append((token, operation, operands))
        if sum(len(r.statements) for r in self.routines) > LIMITS["statement"]:
            raise token.mistake("expected at most %d statements" % LIMITS["statement"])
        for i, kind in HANDLES.get(operation, []):
            if operation == POINT and i == 1:
                kind = routine.handles[operands[0]][1]
            name = reader.name("a %s" % KINDS[kind] if kind else "a handle")
            if operation == POINT and i == 0 and name.text in self.things:
                # The name of a cell always means that cell.
                raise name.mistake("expected a handle that POINT can move, and '%s' is a %s" % (name.text, KINDS[self.things[name.text][1]]))
            operands.append(self.place(routine, name, kind))
        if operation in (SET, ADD):
            operands.append(reader.number())
        elif operation in (JUMP, JUMPZ):
            operands.append(reader.name("a label of this routine"))
        elif operation in (CALL, START):
            operands.append(reader.name("the name of a routine"))
            operands += reader.names_in_brackets(lambda: self.argument(reader, routine))
        reader.end(OPERATIONS[operation])

    def argument(self, reader, routine):
        token = reader.name("a handle, a cell or a lock")
        return token, self.place(routine, token, 0)

    def place(self, routine, token, kind):
        """The place among the routine's handles of the one that a name means; a cell or lock gets a local of its own."""
        found = next((i for i, h in enumerate(routine.handles) if h[0] == token.text), None)
        wanted = "a %s, or a handle of one" % KINDS[kind] if kind else "a handle, a cell or a lock"
        if found is None:
            if token.text not in self.things:
                raise token.mistake(self.unknown(wanted, token, list(self.things) + [h[0] for h in routine.handles]))
            _, its, number = self.things[token.text]
            if kind and its != kind:
                raise token.mistake("expected %s, and '%s' is a %s" % (wanted, token.text, KINDS[its]))
            self.room(routine, token)
            routine.handles.append((token.text, its, LOCAL, number))
            return len(routine.handles) - 1
        if kind and routine.handles[found][1] != kind:
            raise token.mistake("expected %s, and '%s' is a %s's" % (wanted, token.text, KINDS[routine.handles[found][1]]))
        return found

    @staticmethod
    def unknown(wanted, token, known):
        near = difflib.get_close_matches(token.text, sorted(known), 1)
        return "expected %s, and '%s' is none%s" % (wanted, token.text, " (did you mean '%s'?)" % near[0] if near else "")

    # what can only be told at the end

    def whole(self, last):
        named = {}
        if not self.counts[CELL]:
            self.mistakes.append(Mistake(1, 1, "expected a line 'cells NAME ...': a table has at least one cell"))
        if not self.routines:
            self.mistakes.append(Mistake(last, 1, "expected 'routine NAME': a table has at least one routine"))
        for routine in self.routines:
            self.attempt(self.ends, routine)
            for _, operation, operands in routine.statements:
                self.attempt(self.resolve, routine, operation, operands, named)
        for routine in self.routines[1:]:
            if routine.number not in named:
                self.mistakes.append(routine.token.mistake("expected a CALL or START of the routine '%s' somewhere" % routine.token.text))
        self.no_way_round(named)

    @staticmethod
    def ends(routine):
        if not routine.statements:
            raise routine.token.mistake("expected a statement in the routine '%s', at least RETURN" % routine.token.text)
        if routine.pending:
            raise routine.pending[0].mistake("expected a statement behind the label '%s'" % routine.pending[0].text)
        token, operation, _ = routine.statements[-1]
        if operation not in (JUMP, RETURN):
            raise token.mistake("expected JUMP or RETURN as the last statement of the routine '%s'" % routine.token.text)

    def resolve(self, routine, operation, operands, named):
        if operation in (JUMP, JUMPZ):
            token = operands[0]
            if token.text not in routine.labels:
                raise token.mistake(self.unknown("a label of this routine", token, routine.labels))
        if operation in (CALL, START):
            token = operands[0]
            if token.text not in self.by_name:
                raise token.mistake(self.unknown("a routine", token, self.by_name))
            to = self.by_name[token.text]
            named.setdefault(to.number, []).append((routine.number, token))
            if len(operands) - 1 != len(to.parameters):
                raise token.mistake("expected %s for '%s', and %d given" % (
                    words.many(len(to.parameters), "argument"), token.text, len(operands) - 1))
            for (given, place), parameter in zip(operands[1:], to.parameters):
                if routine.handles[place][1] != parameter[1]:
                    raise given.mistake("expected a %s for the parameter '%s' of '%s', and '%s' is a %s's" % (
                        KINDS[parameter[1]], parameter[0], token.text, given.text, KINDS[routine.handles[place][1]]))

    def no_way_round(self, named):
        """No routine may reach itself; the first one that does is said, at its statement that leads back."""
        names = {r.number: [] for r in self.routines}
        for to, places in named.items():
            for by, token in places:
                names[by].append((to, token))

        def reached(first):
            seen, todo = set(), [first]
            while todo:
                r = todo.pop()
                if r not in seen:
                    seen.add(r)
                    todo += [to for to, _ in names[r]]
            return seen

        for routine in self.routines:
            for to, token in names[routine.number]:
                if routine.number in reached(to):
                    self.mistakes.append(token.mistake("expected no way round, and the routine '%s' would reach itself through '%s'" % (routine.token.text, token.text)))
                    return

    # writing

    def table(self):
        """The lines of the table, each with the line of the form that it comes from (0: none)."""
        first_handle, first_statement, handles, statements = 0, 0, [], []
        for routine in self.routines:
            for _, kind, origin, start in routine.handles:
                handles.append((2, routine.number, kind, origin, start))
            for token, operation, operands in routine.statements:
                statements.append((token.line, (4, operation) + tuple(self.numbers(routine, operation, operands, first_handle, first_statement))))
            first_handle += len(routine.handles)
            first_statement += len(routine.statements)
        header = (1, self.counts[CELL], self.counts[LOCK], len(handles), len(self.routines), len(statements))
        lines = [(0, header)] + [(0, h) for h in handles] + [(r.token.line, (3, len(r.statements))) for r in self.routines] + statements
        return [(line, form.line_of(*numbers)) for line, numbers in lines]

    def numbers(self, routine, operation, operands, first_handle, first_statement):
        if operation in (JUMP, JUMPZ):
            return [first_statement + routine.labels[operands[0].text][1]]
        if operation in (CALL, START):
            return [self.by_name[operands[0].text].number] + [first_handle + place for _, place in operands[1:]]
        if operation in HANDLES:
            return [first_handle + place for place in operands]
        return operands


def read_form(text):
    """The form, or the mistakes in order."""
    made = Form()
    made.read(text)
    return made, sorted(made.mistakes, key=lambda m: m.where)


def shown(text):
    """The named form of an accepted table text. Names carry the table's numbers: cell0, lock0, h0, r0, and s0
    for a statement that is jumped to."""
    table = form.Table(text)
    out = []
    for word, name, count in (("cells", "cell", table.cells), ("locks", "lock", table.locks)):
        for i in range(0, count, 8):
            out.append(word + "".join(" %s%d" % (name, k) for k in range(i, min(i + 8, count))))
    targets = {s.operands[0] for s in table.statements if s.operation in (JUMP, JUMPZ)}
    for r in range(len(table.counts)):
        parameters = ["%s h%d" % (KINDS[h.kind], h.number) for h in table.parameters_of(r)]
        out += ["", "routine r%d%s" % (r, "(%s)" % ", ".join(parameters) if parameters else "")]
        out += ["    local h%d = %s%d" % (h.number, KINDS[h.kind], h.start) for h in table.handles_of(r) if h.origin == LOCAL]
        for s in table.of_routine(r):
            out += ["  s%d:" % s.number] if s.number in targets else []
            out.append("    " + shown_statement(table, s))
    return "\n".join(out) + "\n"


def shown_statement(table, s):
    operands = s.operands
    if s.operation in HANDLES:
        return " ".join([s.name] + ["h%d" % operands[i] for i, _ in HANDLES[s.operation]])
    if s.operation in (JUMP, JUMPZ):
        return "%s s%d" % (s.name, operands[0])
    if s.operation in (CALL, START):
        given = operands[1:1 + len(table.parameters_of(operands[0]))]
        return "%s r%d%s" % (s.name, operands[0], "(%s)" % ", ".join("h%d" % h for h in given) if given else "")
    return "%s %d" % (s.name, operands[0]) if s.operation in (SET, ADD) else s.name


def complain(message):
    print("table: " + message, file=sys.stderr)
    return 3


class Unread(Exception):
    pass


def read_file(name, most=1 << 22):
    """The bytes of a file, or of standard input."""
    if name == "-" and sys.stdin is None:
        raise Unread("standard input is closed")
    if name == "-" and sys.stdin.isatty():
        complain("waiting for a text from the terminal; Ctrl-D ends it (table --help)")
    try:
        with open(name if name != "-" else 0, "rb") as f:
            text = f.read(most + 1)
    except OSError as e:
        raise Unread("%s cannot be read: %s" % (name, e.strerror))
    if len(text) > most:
        raise Unread("%s has more than %d bytes" % (name, most))
    return text


def write(text):
    sys.stdout.write(text)
    sys.stdout.flush()
    return 0


def from_form(name, use):
    """What `use` makes of the form in a file; or its mistakes."""
    try:
        text = read_file(name).decode("utf-8")
    except UnicodeDecodeError as e:
        complain("%s:1:%d: expected a text in UTF-8" % (name, e.start + 1))
        return 2
    made, mistakes = read_form(text)
    if not mistakes:
        return write(use(made, text))
    for mistake in mistakes[:20]:
        complain("%s:%d:%d: %s" % ((name,) + mistake.where + (mistake,)))
    if len(mistakes) > 20:
        complain("%s: %d mistakes more" % (name, len(mistakes) - 20))
    return 2


def build(name):
    return from_form(name, lambda made, text: "".join(line for _, line in made.table()))


def lines(name):
    def listing(made, text):
        source, table = text.split("\n"), made.table()
        first = len(table) - sum(len(r.statements) for r in made.routines)
        return "".join("statement %d, line %d of the table, line %d of the form: %s\n" % (i - first, i + 1, line, source[line - 1].split("#")[0].strip())
                       for i, (line, _) in enumerate(table) if i >= first)
    return from_form(name, listing)


def show(name):
    text = read_file(name)
    done = subprocess.run([os.path.join(HERE, "check"), "-"], input=text, stdout=subprocess.PIPE)
    if done.returncode not in (0, 1, 2):
        return 3
    if done.returncode == 2:
        for said in words.words_of(done.stdout.decode("ascii"), text[:words.READ_AT_MOST]):
            complain("%s: %s" % (name, said))
        return 2
    return write(shown(text))


def main(given):
    if given[:1] in (["--help"], ["-h"]):
        return write(HELP + "\n")
    if given == ["--version"]:
        return subprocess.run([os.path.join(HERE, "check"), "--version"]).returncode
    calls = {"build": build, "show": show, "lines": lines}
    if not given or given[0] not in calls:
        return complain("expected build, show or lines%s (table --help)" % (", not '%s'" % given[0] if given else ""))
    if len(given) > 2:
        return complain("one file at a time, and '%s' is a second (table --help)" % given[2])
    name = given[1] if len(given) == 2 else "-"
    if name.startswith("-") and name != "-":
        return complain("there is no option %s (table --help)" % name)
    try:
        return calls[given[0]](name)
    except Unread as e:
        return complain(str(e))


if __name__ == "__main__":
    try:
        status = main(sys.argv[1:])
    except OSError:
        # Standard output is closed or full; what Python still holds for it goes nowhere.
        os.dup2(os.open(os.devnull, os.O_WRONLY), 1)
        status = complain("standard output cannot be written")
    sys.exit(status)
