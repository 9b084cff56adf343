#!/usr/bin/env python3
"""words.py CHECK FILE...: what CHECK says of each text, in sentences; exit status as CHECK's, the highest. Run by `check --words`.

Which cell, statement, lock, rule and line, and how many, comes from the lines that CHECK prints. The text is looked at only to say what
stands in the lines that these name, for a refusal which field of the line breaks the rule, and of a table with a TAKER what is held at the accesses of an
unguarded cell. Lines are counted as an editor does, from 1."""
import os
import re
import subprocess
import sys

sys.dont_write_bytecode = True
sys.path.insert(0, os.path.dirname(os.path.abspath(__file__)))
import form  # noqa: E402
from form import CALL, CELL, JUMP, JUMPZ, KINDS, LOCAL, OPERATIONS, PARAMETER, POINT, READ, RETURN, START, WRITE  # noqa: E402
from holds import Holds, nexts  # noqa: E402

RULES = {
    1: "the length is 0, no multiple of 49, or above 32,977",
    2: "a line is not eight good fields and a line feed",
    3: "the header breaks its rule",
    4: "the lines are not 1 + handles + routines + statements",
    5: "a line's first field is not the one that its position needs",
    6: "a handle line breaks its rule",
    7: "a routine line breaks its rule",
    8: "the routines' counts do not add up to the statements",
    9: "a statement has an unknown operation, a wrong operand or an unused field that is not 0",
    10: "a routine's last statement is neither JUMP nor RETURN",
    11: "a routine other than 0 is named by no CALL or START",
    12: "a routine reaches itself through CALLs and STARTs",
}
HEADER = [("1", 1, 1), ("cells", 1, 64), ("locks", 0, 16), ("handles", 0, 128), ("routines", 1, 32), ("statements", 1, 512), ("0", 0, 0), ("0", 0, 0)]
MOST, READ_AT_MOST = 32977, 65536


def many(n, one, more=None):
    return "%d %s" % (n, one if n == 1 else more or one + "s")


def listed(words):
    return words[0] if len(words) == 1 else ", ".join(words[:-1]) + " and " + words[-1]


# A refusal: the field, and why. Each answers (field or None, sentence).

def bad_length(text):
    if not text:
        return None, "The text is empty."
    if len(text) > MOST:
        return None, "The text has %d bytes%s; the largest table has %d lines of 49 bytes, which is 32,977 bytes." % (
            len(text), " or more" if len(text) >= READ_AT_MOST else "", MOST // 49)
    lines = text.split(b"\n")
    for i, line in enumerate(lines[:-1]):
        if len(line) != 48:
            why = ", a carriage return among them" if line.endswith(b"\r") else ""
            return None, "Line %d has %s%s before its line feed; 48 are needed." % (i + 1, many(len(line), "character"), why)
    if len(lines[-1]) == 48:
        return None, "The last line, line %d, has no line feed." % len(lines)
    return None, "Behind the last line feed: %s; each line has 48 and a line feed." % many(len(lines[-1]), "character")


def bad_field(field):
    """Why six bytes are no field, or nothing."""
    if re.fullmatch(rb" *(0|-?[1-9][0-9]*)", field):
        return None
    shown = '"%s"' % "".join(chr(b) if 32 <= b < 127 else "\\x%02x" % b for b in field)
    if b"\n" in field:
        return "%s has a line feed: the line is too short" % shown
    if b"\r" in field:
        return "%s has a carriage return" % shown
    if b"\t" in field:
        return "%s has a tab" % shown
    if not field.strip(b" "):
        return "%s has no number" % shown
    if re.fullmatch(rb" *-?[0-9]+ +", field):
        return "%s is not right-justified: spaces stand behind the number" % shown
    if re.fullmatch(rb" *-0+", field):
        return "%s: 0 has no minus sign" % shown
    if re.fullmatch(rb" *-?0[0-9]+", field):
        return "%s has a leading zero" % shown
    if b"+" in field:
        return "%s has a plus sign" % shown
    return "%s is no number" % shown


def bad_line(text, line):
    piece = text[49 * line:49 * line + 49]
    for i in range(8):
        why = bad_field(piece[6 * i:6 * i + 6])
        if why:
            return i + 1, why
    return None, "Behind the eighth field stands byte %d in the place of the line feed." % piece[48]


def bad_header(numbers):
    for i, (what, low, high) in enumerate(HEADER):
        if not low <= numbers[i] <= high:
            needed = str(low) if low == high else "%d to %d %s" % (low, high, what)
            return i + 1, "it is %d; %s is needed there" % (numbers[i], needed) if low == high else "it is %d; %s are allowed" % (numbers[i], needed)
    return None


def bad_count(text):
    handles, routines, statements = form.numbers_of(text[:48])[3:6]
    return None, "The header announces %s, %s and %s, with itself %s; the text has %d." % (
        many(handles, "handle"), many(routines, "routine"), many(statements, "statement"), many(1 + handles + routines + statements, "line"), len(text) // 49)


def bad_leading(table, line):
    if line < table.routine_lines:
        needed = "2: it is the line of handle %d" % (line - 1)
    elif line < table.statement_lines:
        needed = "3: it is the line of routine %d" % (line - table.routine_lines)
    else:
        needed = "4: it is the line of statement %d" % (line - table.statement_lines)
    return 1, "it is %d, and the header's counts need %s" % (table.lines[line][0], needed)


def bad_handle(table, line):
    fields, h = table.lines[line], table.handles[line - 1]
    before = table.handles[:h.number]
    same = [g for g in before if g.routine == h.routine]
    routines = len(table.counts)
    if not 0 <= h.routine < routines:
        return 2, "it is %d; the routines are 0 to %d" % (h.routine, routines - 1)
    if before and before[-1].routine > h.routine:
        return 2, "it is %d, and the handle before belongs to routine %d; routine numbers never fall" % (h.routine, before[-1].routine)
    if len(same) >= 8:
        return 2, "it is the ninth handle of routine %d; a routine has at most eight" % h.routine
    if h.kind not in KINDS:
        return 3, "the kind is %d; 1 is a cell, 2 a lock" % h.kind
    if h.origin not in (PARAMETER, LOCAL):
        return 4, "the origin is %d; 0 is a parameter, 1 a local" % h.origin
    if h.origin == PARAMETER and h.routine == 0:
        return 4, "it is a parameter, and routine 0 has none"
    if h.origin == PARAMETER and any(g.origin == LOCAL for g in same):
        return 4, "it is a parameter behind a local of routine %d; parameters come first" % h.routine
    if h.origin == PARAMETER and len(same) >= 4:
        return 4, "it is the fifth parameter of routine %d; a routine has at most four" % h.routine
    if h.origin == PARAMETER and h.start != 0:
        return 5, "it is %d; a parameter has 0 there" % h.start
    most = table.cells if h.kind == CELL else table.locks
    if h.origin == LOCAL and not most:
        return 3, "it is a local of kind lock, and the table has no lock"
    if h.origin == LOCAL and not 0 <= h.start < most:
        return 5, "it is %d; the %ss are 0 to %d" % (h.start, KINDS[h.kind], most - 1)
    return unused(fields, 5)


def unused(fields, first, what="it is unused"):
    """The first field from place `first` on that is not 0; the others are named with it."""
    found = [i + 1 for i in range(first, 8) if fields[i] != 0]
    if not found:
        return None
    also = "" if len(found) == 1 else ", and so %s field%s %s" % ("is" if len(found) == 2 else "are", "" if len(found) == 2 else "s", ranges(found[1:]))
    return found[0], "it is %d; %s and holds 0%s" % (fields[found[0] - 1], what, also)


def bad_routine(table, line):
    fields, most = table.lines[line], table.lines[0][5]
    if fields[1] < 1:
        return 2, "it counts %d statements; a routine has at least 1" % fields[1]
    if fields[1] > most:
        return 2, "it counts %d statements; the header has %d in all" % (fields[1], most)
    return unused(fields, 2)


def bad_sum(table):
    return None, "The routines count %s statements, %d together; the header has %d." % (
        " + ".join(map(str, table.counts)), sum(table.counts), table.lines[0][5])


def not_a_handle(table, s, number, kind):
    """Why a number is no handle of the statement's routine and of the kind (0: of any); or nothing."""
    own = [h.number for h in table.handles_of(s.routine)]
    wanted = "a %s handle of routine %d" % (KINDS[kind], s.routine) if kind else "a handle of routine %d" % s.routine
    theirs = [h for h in own if not kind or table.handles[h].kind == kind]
    if number in theirs:
        return None
    there = " (handle%s %s)" % ("" if len(theirs) == 1 else "s", ranges(theirs)) if theirs else ", which has none"
    if not 0 <= number < len(table.handles):
        return "it is %d, and %s is needed%s" % (number, wanted, there)
    h = table.handles[number]
    also = "" if h.routine == s.routine else "; or a routine's count is wrong, on lines %d to %d" % (table.routine_lines + 1, table.statement_lines)
    return "handle %d is a %s's, of routine %d, and %s is needed%s%s" % (number, KINDS[h.kind], h.routine, wanted, there, also)


def ranges(numbers):
    """0, 1, 2, 5 as 0 to 2 and 5."""
    out = []
    for n in numbers:
        if out and out[-1][1] == n - 1:
            out[-1][1] = n
        else:
            out.append([n, n])
    return listed([str(a) if a == b else "%d to %d" % (a, b) for a, b in out])


def bad_arguments(table, s):
    routine = s.operands[0]
    if not 0 <= routine < len(table.counts):
        return 3, "there is no routine %d; the routines are 0 to %d" % (routine, len(table.counts) - 1)
    parameters = table.parameters_of(routine)
    for i, p in enumerate(parameters):
        why = not_a_handle(table, s, s.operands[1 + i], p.kind)
        if why:
            return 4 + i, "argument %d of %d: %s" % (i + 1, len(parameters), why)
    return unused(s.fields, 3 + len(parameters), "routine %d has %s: it is unused" % (routine, many(len(parameters), "parameter")))


def bad_statement(table, line):
    s = table.statements[line - table.statement_lines]
    if not 1 <= s.operation < len(OPERATIONS):
        return 2, "there is no operation %d; the operations are 1 to %d" % (s.operation, len(OPERATIONS) - 1)
    if s.operation in (CALL, START):
        return bad_arguments(table, s)
    operands = form.HANDLES.get(s.operation, [])
    for i, kind in operands:
        if s.operation == POINT and i == 1:
            kind = table.handles[s.operands[0]].kind
        why = not_a_handle(table, s, s.operands[i], kind)
        if why:
            return 3 + i, "operand of %s: %s" % (s.name, why)
    if s.operation in (JUMP, JUMPZ):
        own = [t.number for t in table.of_routine(s.routine)]
        if s.operands[0] not in own:
            return 3, "it is %d, and a statement of routine %d is needed; these are %s" % (s.operands[0], s.routine, ranges(own))
    used = 2 if s.operation == RETURN else 3 + (s.operation == POINT)
    return unused(s.fields, used)


def bad_end(table, line):
    s = table.statements[line - table.statement_lines]
    return 2, "routine %d ends with this statement, a %s; a RETURN or a JUMP is needed, or the routine's count on line %d is wrong" % (
        s.routine, s.name, table.routine_lines + s.routine + 1)


def named_by(table):
    """The routines that each routine names, with the statements."""
    return {r: [(s.operands[0], s) for s in table.of_routine(r) if s.operation in (CALL, START)] for r in range(len(table.counts))}


def way_round(table, first):
    """A shortest way by CALLs and STARTs from a routine back to itself: statements."""
    names, ways = named_by(table), [[s] for _, s in named_by(table)[first]]
    seen = set()
    for way in ways:
        last = way[-1].operands[0]
        if last == first:
            return way
        if last not in seen:
            seen.add(last)
            ways += [way + [s] for _, s in names.get(last, [])]
    return []


def unnamed(table, line):
    return None, "No statement CALLs or STARTs routine %d. Let one do so, or take the routine out." % (line - table.routine_lines)


def reaches_itself(table, line):
    steps = ["routine %d %ss routine %d on line %d" % (s.routine, s.name, s.operands[0], table.editor(s.number)) for s in way_round(table, line - table.routine_lines)]
    return (None, sentence("%s." % listed(steps))) if steps else None


def sentence(words):
    return words[:1].upper() + words[1:]


def explain(number, line, text):
    """(field or None, why) of a refusal; None where nothing is found, which tests/command rules out."""
    if number == 1:
        return bad_length(text)
    if number == 2:
        return bad_line(text, line)
    if number == 3:
        return bad_header(form.numbers_of(text[:48]))
    if number == 4:
        return bad_count(text)
    table = form.Table(text)
    if number == 8:
        return bad_sum(table)
    by_line = {5: bad_leading, 6: bad_handle, 7: bad_routine, 9: bad_statement, 10: bad_end, 11: unnamed, 12: reaches_itself}
    return by_line[number](table, line) if number in by_line else None


def refusal(fields, text):
    number, line = fields[1], fields[2]
    where = "" if number == 1 else ", line %d" % (line + 1)
    out = ["Refused by rule %d%s: %s." % (number, where, RULES.get(number, "a rule that is not known here"))]
    found = explain(number, line, text)
    if found:
        field, why = found
        out.append("    Field %d: %s." % (field, why) if field else "    " + why)
        if number > 1 and len(text) >= 49 * line + 48:
            piece = text[49 * line:49 * line + 48]
            if re.fullmatch(rb"[ -~]*", piece):
                out.append("    The line is: " + piece.decode())
    return out


# A report.

def handle_words(table, number):
    h = table.handles[number]
    if h.origin == PARAMETER:
        return "handle %d, a parameter" % number
    return "handle %d, which starts at %s %d%s" % (number, KINDS[h.kind], h.start, " and is moved by POINT" if number in table.moved() else "")


def statement_words(table, s):
    """A READ, WRITE or GIVE in words."""
    return "line %d: %s through %s (statement %d, routine %d)" % (table.editor(s.number), s.name, handle_words(table, s.operands[0]), s.number, s.routine)


def preceded(table):
    """The statements that a START can precede: those of a routine that is STARTed, or CALLed where a START can precede the CALL, and those that may
    follow, in their routine, a START or a CALL that reaches one by CALLs."""
    found, reach, size = set(), set(), -1
    while size < len(found) + len(reach):
        size = len(found) + len(reach)
        for s in table.statements:
            if s.operation == START or s.operation == CALL and s.operands[0] in reach:
                reach.add(s.routine)
                found.update(nexts(s))
            if s.number in found:
                found.update(nexts(s))
            if s.operation == START or s.operation == CALL and s.number in found:
                found.update(x.number for x in table.of_routine(s.operands[0]))
    return found


def lock_words(locks):
    return "lock%s %s" % ("" if len(locks) == 1 else "s", ranges(sorted(locks)))


def held_words(holds, s):
    """What is surely held at a statement, and how."""
    n, said, left = s.number, [], set(holds.either[s.number])
    for locks, how in ((holds.writing[n], "for writing"), (holds.reading[n], "for reading"), (holds.either[n], "either way")):
        if locks & left:
            said.append("%s held %s" % (lock_words(locks & left), how))
        left -= locks
    return ": " + (", ".join(said) or "no lock held")


def lacking(table, holds, cell, counted):
    """Of an unguarded cell: the locks that are held at all its counted accesses, each with the WRITEs at which it is not held for writing."""
    found, out = holds.accesses(cell, counted), []
    for lock in sorted(holds.always(found)):
        bare = [table.editor(s.number) for s in found if s.operation == WRITE and lock not in holds.writing[s.number]]
        out.append("    Lock %d is held at each of them, but not for writing at line%s %s: a lock held for reading does not guard a WRITE." % (
            lock, "" if len(bare) == 1 else "s", ranges(bare)))
    return out


def accesses(table, cell, reads, writes, holds):
    """The accesses of a cell, with those that C-13 leaves out named. A local's flow set has the cell at which it starts, so statements through such a local are accesses; where they are
    as many as the report counts they are all. The others go through a parameter, or a local that POINT moves; where as many as these are
    missing, these are the others."""
    lines, more, moved, counted = [], [], table.moved(), preceded(table)
    for operation, count, word in ((READ, reads, "read"), (WRITE, writes, "write")):
        of_kind = [s for s in table.statements if s.operation == operation]
        sure = [s for s in of_kind if table.handles[s.operands[0]].origin == LOCAL and table.handles[s.operands[0]].start == cell]
        lines += sure
        others = [s for s in of_kind if s not in sure and (table.handles[s.operands[0]].origin == PARAMETER or s.operands[0] in moved)]
        if count - len(sure) == len(others):
            lines += others
        elif count > len(sure):
            more.append("    %s more, through a parameter or a handle that POINT moves, among lines %s" % (
                many(count - len(sure), word), ranges([table.editor(s.number) for s in others])))

    def behind(s):
        if s.number not in counted:
            return ": not counted, no START can precede it"
        return held_words(holds, s) if holds else ""
    lines = ["    " + statement_words(table, s) + behind(s) for s in sorted(lines, key=lambda s: s.number)]
    return lines + more + (lacking(table, holds, cell, counted) if holds else [])


def cell_words(fields, table, holds):
    cell, reads, writes, shared, common, unguarded = fields[1:7]
    counts = "%s, %s" % (many(reads, "read"), many(writes, "write"))
    if unguarded:
        how = " and for writing at the WRITEs among them" if table.has_taker() else ""
        return ["Cell %d is UNGUARDED: threads share it, and no lock is held at all of its counted accesses%s (%s in all):" % (cell, how, counts)] + accesses(table, cell, reads, writes, holds)
    if shared:
        locks = ["lock %d" % k for k in range(16) if common >> k & 1]
        how = ", for writing at each WRITE" if table.has_taker() else ""
        return ["Cell %d is shared and guarded: %s %s held at each of its counted accesses%s (%s in all)." % (cell, listed(locks), "is" if len(locks) == 1 else "are", how, counts)]
    return ["Cell %d is not shared (%s)." % (cell, counts)]


def give_words(fields, table):
    s = table.statements[fields[1]]
    h = table.handles[s.operands[0]]
    if h.origin == LOCAL and h.number not in table.moved():
        why = "it is not sure that the thread holds lock %d there" % h.start
    else:
        why = "it is not sure which lock the handle refers to, or that the thread holds it there"
    how = ", for reading or for writing" if table.has_taker() else ""
    return ["STRAY GIVE on %s: %s%s." % (statement_words(table, s), why, how)]


def total_words(fields):
    cells, gives = fields[1:3]
    if cells == gives == 0:
        return ["Clean: no unguarded cell and no stray GIVE. The table may be loaded; docs/GUARANTEE.md says what that promises."]
    return ["%s and %s: the table must not be loaded." % (many(cells, "unguarded cell"), many(gives, "stray GIVE"))]


def holds_of(table, lines):
    """What is held in a table with a TAKER; nothing where the report's common locks do not follow from it, which tests/command rules out."""
    if not table.has_taker():
        return None
    holds, counted = Holds(table), preceded(table)
    agrees = all(sum(1 << k for k in holds.common(holds.accesses(fields[1], counted))) == fields[5] for fields in lines if fields[0] == 51)
    return holds if agrees else None


def words_of(report, text):
    """The sentences for the lines that `check` printed of the text."""
    lines = [form.numbers_of(line) for line in report.splitlines()]
    if lines[0][0] == 50:
        return refusal(lines[0], text)
    table, out = form.Table(text), []
    holds = holds_of(table, lines)
    untouched = [fields[1] for fields in lines if fields[0] == 51 and fields[2] == fields[3] == 0]
    for fields in lines:
        if fields[0] == 51 and fields[1] not in untouched:
            out += cell_words(fields, table, holds)
        elif fields[0] == 52:
            out += give_words(fields, table)
        elif fields[0] == 59:
            out += ["No statement touches cell%s %s." % ("" if len(untouched) == 1 else "s", ranges(untouched))] if untouched else []
            out += total_words(fields)
    return out


def complain(words):
    print("check: " + words, file=sys.stderr)
    return 3


def one(check, name):
    """One text: prints its sentences, returns its status."""
    if name == "-" and sys.stdin is None:
        return complain("standard input cannot be read: it is closed")
    if name == "-" and sys.stdin.isatty():
        complain("waiting for a table text from the terminal; Ctrl-D ends it (check --help)")
    try:
        text = sys.stdin.buffer.read(READ_AT_MOST) if name == "-" else open(name, "rb").read(READ_AT_MOST)
    except OSError as e:
        return complain("%s cannot be read: %s" % (name, e.strerror))
    done = subprocess.run([check, "-"], input=text, stdout=subprocess.PIPE)
    if done.returncode not in (0, 1, 2):
        return 3
    sys.stdout.write("\n".join(words_of(done.stdout.decode("ascii"), text)) + "\n")
    sys.stdout.flush()
    return done.returncode


def main():
    check, names, worst = sys.argv[1], sys.argv[2:], 0
    for name in names:
        if len(names) > 1:
            print("check: " + name, file=sys.stderr)
        worst = max(worst, one(check, name))
    return worst


if __name__ == "__main__":
    try:
        status = main()
    except OSError:
        # Standard output is closed or full; what Python still holds for it goes nowhere.
        os.dup2(os.open(os.devnull, os.O_WRONLY), 1)
        status = complain("standard output cannot be written")
    sys.exit(status)
