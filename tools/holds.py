"""The locks that are surely held before each statement, by the documents' rules, for words.py: the report has no line for them. What is found here is only
said where the common locks that follow from it are the report's."""
from form import CALL, GIVE, JUMP, JUMPZ, LOCAL, POINT, READ, RETURN, START, TAKE, TAKER, WRITE

READING, WRITING, EITHER = (TAKER,), (TAKE,), (TAKE, TAKER)


def nexts(s):
    """The statements that may come next, whatever the values."""
    if s.operation == RETURN:
        return []
    return s.operands[:1] * (s.operation in (JUMP, JUMPZ)) + [s.number + 1] * (s.operation != JUMP)


def until_still(value, change):
    while True:
        after = change(list(value))
        if after == value:
            return value
        value = after


def flow_of(table):
    """By handle: what it may refer to."""
    def change(flow):
        for s in table.statements:
            if s.operation == POINT:
                flow[s.operands[0]] = flow[s.operands[0]] | flow[s.operands[1]]
            elif s.operation in (CALL, START):
                for parameter, given in zip(table.parameters_of(s.operands[0]), s.operands[1:]):
                    flow[parameter.number] = flow[parameter.number] | flow[given]
        return flow
    return until_still([{h.start} if h.origin == LOCAL else set() for h in table.handles], change)


class Holds:
    """By statement: the locks surely held before it for reading, for writing, and either way."""

    def __init__(self, table):
        self.table, self.flow = table, flow_of(table)
        self.all = set(range(table.locks))
        self.given = until_still([set() for _ in table.counts], self.give)
        self.reading, self.writing, self.either = (until_still([self.all] * len(table.statements), self.change(kind)) for kind in (READING, WRITING, EITHER))

    def give(self, given):
        """By routine: the locks that a GIVE in it, or in what it reaches by CALLs, has in its flow set."""
        for s in self.table.statements:
            if s.operation == GIVE:
                given[s.routine] = given[s.routine] | self.flow[s.operands[0]]
            elif s.operation == CALL:
                given[s.routine] = given[s.routine] | given[s.operands[0]]
        return given

    def change(self, kind):
        """From sets before each statement to those that its ways in leave, with the takes of one kind, or of both."""
        table = self.table
        firsts = [table.of_routine(r)[0].number for r in range(len(table.counts))]

        def after(s, held):
            own = self.flow[s.operands[0]] if s.operation in (TAKE, TAKER, GIVE) else set()
            if s.operation in kind and len(own) == 1:
                return held[s.number] | own
            if s.operation == GIVE:
                return held[s.number] - own
            if s.operation == CALL:
                returns = [held[x.number] for x in table.of_routine(s.operands[0]) if x.operation == RETURN]
                return self.all.intersection(*returns) | held[s.number] - self.given[s.operands[0]]
            return held[s.number]

        def step(held):
            new = [self.all] * len(held)
            new[0] = set()
            for s in table.statements:
                for x in nexts(s):
                    new[x] = new[x] & after(s, held)
                if s.operation in (CALL, START):
                    first = firsts[s.operands[0]]
                    new[first] = new[first] & held[s.number] if s.operation == CALL else set()
            return new
        return step

    def accesses(self, cell, counted):
        """The counted accesses of a cell."""
        return [s for s in self.table.statements if s.operation in (READ, WRITE) and s.number in counted and cell in self.flow[s.operands[0]]]

    def common(self, accesses):
        return self.all.intersection(*[(self.writing if s.operation == WRITE else self.either)[s.number] for s in accesses])

    def always(self, accesses):
        """The locks that are held, in either way, at all of them."""
        return self.all.intersection(*[self.either[s.number] for s in accesses])
