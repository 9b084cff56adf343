#!/usr/bin/env python3
"""Respells the repository's own antt names in snake case: definitions, constructors, fields, lemmas and local names.

usage: tools/respell.py [--dry]        at the top of the repository, once, behind the kit's port.py

The crate `futures` gets the name `future`: the kit has a library of the old name.

A name with a hump (`lineCount`) or a dash (`passed-next`) becomes one in snake case (`line_count`, `passed_next`); a part that begins with a capital keeps it.
Names of the kit, of modules and types, of Rattle's goals, and everything in .rt files but what a clause or a `ghost use` line cites, stay.
Where a new name is one that stands already, NEW below says which.
"""

import glob
import os
import re
import sys

# old name: new name, where the rule would give a name that something else has
NEW = {
    "all-locks": "all_locks_lem",
    "at-returns": "at_returns_lem",
    "back-place": "back_place_lem",
    "by-start": "by_start",
    "byCall": "edges_by_call",
    "byStart": "edges_by_start",
    "caller-edges": "caller_edges_lem",
    "counted-at": "counted_at_lem",
    "edges-of": "edges_of_lem",
    "end-ok": "end_ok_lem",
    "ends-in": "ends_in_lem",
    "field-text": "field_text_lem",
    "first-of": "first_statement_lem",
    "first_of": "first_statement",
    "flow-by-passes": "flow_by_passes_lem",
    "flow-edges": "flow_edges_lem",
    "flow-sets": "flow_sets_lem",
    "good-line": "good_line_lem",
    "handle-at": "handle_at_lem",
    "handle-ok": "handle_ok_lem",
    "held-at": "held_at_lem",
    "held_after": "held_after_lem",
    "held_by": "held_by_lem",
    "in-routine": "in_routine_lem",
    "is_digit": "is_digit_lem",
    "joined-from": "joined_from_lem",
    "last-of": "last_of_lem",
    "last_line": "last_line_lem",
    "named-by": "named_by_lem",
    "next-edges": "next_edges_lem",
    "on_or": "on_or_lem",
    "own-handle": "own_handle_lem",
    "own-of-kind": "own_of_kind_lem",
    "owner_of": "owner_of_lem",
    "places-of": "places_of_lem",
    "preceding-at": "preceding_at_lem",
    "preceding-edges": "preceding_edges_lem",
    "put-at": "put_at_lem",
    "reach-edges": "reach_edges_lem",
    "routine-at": "routine_at_lem",
    "routine-ok": "routine_ok_lem",
    "same_above": "same_above_lem",
    "says-unguarded": "says_unguarded_lem",
    "shared-at": "shared_at_lem",
    "statement-in": "statement_in_lem",
    "statement-line": "statement_line_lem",
    "stray-line": "stray_line_lem",
    "stray-total": "stray_total_lem",
    "tabulate-from": "tabulate_from_lem",
    "turned_down": "turned_down_lem",
    "unguarded-total": "unguarded_total_lem",
    "union-from": "union_from_lem",
    "up-edges": "up_edges_lem",
    "view_in": "view_in_lem",
}

WORD = re.compile(r"[A-Za-zα-ωΑ-Ωℓℕℤ_][\w'₀-₉⁻¹ℕℤᴰ?*→≤<-]*")


def strip(line):
    """The code of a line, without its comment."""
    if line.lstrip().startswith("--"):
        return ""
    at = line.find(" -- ")
    return line if at < 0 else line[:at]


def is_old(name):
    if not name or not re.match(r"[A-Za-zα-ωΑ-Ω_]", name):
        return False
    if re.fullmatch(r"[a-zα-ω_]+(_[a-z0-9]+)*", name):
        return False
    body = name.strip("-")
    return bool(re.search(r"[\w'₀-₉]-[\w]", body)) or bool(name[0].islower() and re.search(r"[a-z0-9][A-Z]", name) and "ℕ" not in name and "ℤ" not in name)


def turned(name):
    if name in NEW:
        return NEW[name]
    parts = []
    for part in name.split("-"):
        if part[:1].islower():
            part = re.sub(r"(?<=[a-z0-9])([A-Z])", lambda m: "_" + m.group(1).lower(), part)
        parts.append(part)
    return "_".join(parts)


def antt_files():
    return sorted(glob.glob("crates/*/specs/**/*.antt", recursive=True) + glob.glob("crates/*/proofs/**/*.antt", recursive=True))


def is_walk(path):
    return path.endswith("/Proof.antt")


USE = re.compile(r"^\s*(?:pub )?use (\S+?)(?:\.\{(.*)\})?(?: as (\S+))?\s*$")
KIT = re.compile(r"^(?:Rattle\.(?:std|core|io|libc|os)\.|(?!Rattle\.))")


def kit_names(text):
    names = set()
    for line in text.split("\n"):
        m = USE.match(line)
        if m and KIT.match(m.group(1)):
            for item in (m.group(2) or "").split(","):
                for part in item.strip().split(" as "):
                    names.add(part.strip())
    return names


DECLARED = re.compile(r"^\s*(?:let |pub |abbrev |unfoldable |private )*([^\s:(){}]+)(?: \{[^}]*\})? :(?: |$)")
MADE = re.compile(r"^(?:Need|At|In|After|Then|Else|Start|invariant|decreases)-")


def own_names():
    """Every name in old spelling that a file of specs/ or a lemma file uses and no kit has; of the walks, what they declare for themselves beside Rattle's goals."""
    own, seen_kit = set(), set()
    for path in antt_files():
        text = open(path, encoding="utf-8").read()
        kit = kit_names(text)
        seen_kit |= kit
        walk = is_walk(path)
        if walk:
            continue
        for line in text.split("\n"):
            code = strip(line)
            m = USE.match(code)
            if m:
                if not KIT.match(m.group(1)):
                    for item in (m.group(2) or "").split(","):
                        for part in item.strip().split(" as "):
                            if is_old(part.strip()):
                                own.add(part.strip())
                continue
            for word in words(code):
                if is_old(word) and word not in kit:
                    own.add(word)
    return own, seen_kit


def words(code):
    for m in WORD.finditer(code):
        yield m.group(0).rstrip("-")


def respell_antt(text, own, walk):
    kit = kit_names(text)
    out = []
    for line in text.split("\n"):
        m = USE.match(line)
        if m:
            if not KIT.match(m.group(1)) and m.group(2):
                head = line[: line.index("{") + 1]
                items = [" as ".join(rename(p.strip(), own) for p in item.strip().split(" as ")) for item in m.group(2).split(",")]
                line = head + ", ".join(items) + "}" + line[line.rindex("}") + 1 :]
            out.append(line)
            continue
        code = strip(line)
        rest = line[len(code) :]

        def sub(m):
            word = m.group(0)
            tail = word[len(word.rstrip("-")) :]
            word = word.rstrip("-")
            if word in kit or word not in own:
                return word + tail
            before = code[: m.start()]
            if walk and before.endswith("."):
                # a field: of Rattle's records it stays, but for what an invariant or a promise of the repository's own holds
                chain = re.search(r"[\w'₀-₉.-]*$", before).group(0)
                if chain.startswith("tie.") or not re.search(r"\.(invariant|ensures|requires)\.|(^|[^\w.])(?!c\.)[\w'-]+\.$", chain):
                    return word + tail
            return turned(word) + tail

        out.append(WORD.sub(sub, code) + comment(rest, own))
    return "\n".join(out)


def comment(text, own):
    return re.sub(r"`([^`]*)`", lambda m: "`" + WORD.sub(lambda w: rename(w.group(0), own), m.group(1)) + "`", text)


def rename(word, own):
    return turned(word) if word in own else word


def respell_rt(text, own):
    out = []
    clause = False
    for line in text.split("\n"):
        m = re.match(r"^(\s*ghost use Rattle\.(?!std\.)[^{]*\{)(.*)(\};\s*)$", line)
        if m:
            items = [" as ".join(rename(p.strip(), own) for p in item.strip().split(" as ")) for item in m.group(2).split(",")]
            line = m.group(1) + ", ".join(items) + m.group(3)
        elif clause or re.match(r"^\s*(?:requires|ensures|ghost)\b", line):
            clause = line.count("{") > line.count("}") or (clause and "}" not in line)
            line = WORD.sub(lambda w: rename(w.group(0), own), line)
        out.append(line)
    return "\n".join(out)


def rename_crate(old, new):
    if os.path.isdir(f"crates/{old}"):
        os.rename(f"crates/{old}", f"crates/{new}")
    for path in antt_files() + glob.glob("crates/*/src/**/*.rt", recursive=True) + ["crates.txt"]:
        text = open(path, encoding="utf-8").read()
        turned_text = text.replace(f"Rattle.{old}.", f"Rattle.{new}.").replace(f"{old}::", f"{new}::")
        if path == "crates.txt":
            lines = [l if l.startswith("#") else re.sub(rf"(?<![\w]){old}(?![\w])", new, l) for l in text.split("\n")]
            turned_text = "\n".join(lines)
        if turned_text != text:
            open(path, "w", encoding="utf-8").write(turned_text)


def main():
    dry = "--dry" in sys.argv
    if not dry:
        rename_crate("futures", "future")
    own, kit = own_names()
    own |= set(NEW)
    groups = {}
    for name in own:
        groups.setdefault(turned(name), set()).add(name)
    plain = set()
    for path in antt_files():
        if not is_walk(path):
            for line in open(path, encoding="utf-8"):
                plain |= {w for w in words(strip(line)) if not is_old(w)}
    for new, olds in sorted(groups.items()):
        if len(olds) > 1:
            print("falls together:", new, sorted(olds))
        if new in plain and new not in NEW:
            print("stands already:", new, sorted(olds))
        if new in kit:
            print("the kit's:", new, sorted(olds))
    both = own & kit
    for name in sorted(both):
        print("both own and the kit's:", name)
    print(len(own), "names")
    if dry:
        return
    for path in antt_files():
        text = open(path, encoding="utf-8").read()
        new = respell_antt(text, own, is_walk(path))
        if new != text:
            open(path, "w", encoding="utf-8").write(new)
    for path in sorted(glob.glob("crates/*/src/**/*.rt", recursive=True)):
        text = open(path, encoding="utf-8").read()
        new = respell_rt(text, own)
        if new != text:
            open(path, "w", encoding="utf-8").write(new)


main()
