"""The form of a table text, for words.py, holds.py and named.py. Nothing is decided here: `check` says what is accepted."""

OPERATIONS = ["", "READ", "WRITE", "SET", "ADD", "TAKE", "GIVE", "POINT", "CALL", "START", "JUMP", "JUMPZ", "RETURN", "TAKER"]
READ, WRITE, SET, ADD, TAKE, GIVE, POINT, CALL, START, JUMP, JUMPZ, RETURN, TAKER = range(1, 14)
CELL, LOCK = 1, 2
KINDS = {CELL: "cell", LOCK: "lock"}
PARAMETER, LOCAL = 0, 1
LINE = 49
# The statements' handle operands: (operand, kind), kind 0 where both kinds will do.
HANDLES = {READ: [(0, CELL)], WRITE: [(0, CELL)], TAKE: [(0, LOCK)], TAKER: [(0, LOCK)], GIVE: [(0, LOCK)], POINT: [(0, 0), (1, 0)]}


def numbers_of(line):
    """The eight numbers of a good line."""
    return [int(line[i:i + 6]) for i in range(0, 48, 6)]


def line_of(*numbers):
    return "%6d%6d%6d%6d%6d%6d%6d%6d\n" % (numbers + (0,) * (8 - len(numbers)))


class Handle:
    def __init__(self, number, fields):
        self.number, self.routine, self.kind, self.origin, self.start = [number] + fields[1:5]


class Statement:
    def __init__(self, number, routine, fields):
        self.number, self.routine, self.fields = number, routine, fields
        self.operation, self.operands = fields[1], fields[2:]

    @property
    def name(self):
        return OPERATIONS[self.operation]


class Table:
    """The parts of a text whose lines are good and as many as its header says."""

    def __init__(self, text):
        self.lines = [numbers_of(text[i:i + 48]) for i in range(0, len(text), LINE)]
        self.cells, self.locks, handles, routines, statements = self.lines[0][1:6]
        self.routine_lines = 1 + handles
        self.statement_lines = 1 + handles + routines
        self.handles = [Handle(i, f) for i, f in enumerate(self.lines[1:self.routine_lines])]
        self.counts = [f[1] for f in self.lines[self.routine_lines:self.statement_lines]]
        self.statements = []
        dealt = [r for r, n in enumerate(self.counts) for _ in range(max(n, 0))]
        for i, f in enumerate(self.lines[self.statement_lines:]):
            self.statements.append(Statement(i, dealt[i] if i < len(dealt) else None, f))

    def of_routine(self, r):
        return [s for s in self.statements if s.routine == r]

    def handles_of(self, r):
        return [h for h in self.handles if h.routine == r]

    def parameters_of(self, r):
        return [h for h in self.handles_of(r) if h.origin == PARAMETER]

    def has_taker(self):
        return any(s.operation == TAKER for s in self.statements)

    def moved(self):
        """The handles that a POINT moves."""
        return {s.operands[0] for s in self.statements if s.operation == POINT}

    def editor(self, statement):
        """The line of a statement as an editor counts, from 1."""
        return self.statement_lines + statement + 1
