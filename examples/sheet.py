#!/usr/bin/env python3
"""examples/sheet.py [--sheet] FILE: writes the bytes of the sheet in a text file, and of its sequence unless --sheet is given.

A line is `HEAD if BODY`, `HEAD` alone, `{HEAD} if BODY` or `{HEAD}` for a choice rule, `never if BODY` for a constraint, or `sequence`
with atoms, once. BODY is atoms divided by commas, each with `not` in front or without. Atoms are names of letters a to z, digits and _,
numbered as the rules name them; `if`, `not`, `never` and `sequence` are no names. Each choice rule has a fresh atom of its own; in the
sequence `{HEAD}` names the fresh atoms of all choice rules for HEAD, in their order. Text behind # is a comment. Anything else is
refused: the file, the line and what was expected go to standard error, nothing goes to standard output, and the exit status is 2.
"""

import re
import sys

RESERVED = ("if", "not", "never", "sequence")
RULE, CONSTRAINT, CHOICE = range(3)


def main():
    arguments = sys.argv[1:]
    sheet_alone = arguments[:1] == ["--sheet"]
    if len(arguments) != 1 + sheet_alone or arguments[-1].startswith("-"):
        refuse("usage: examples/sheet.py [--sheet] FILE")
    path = arguments[-1]
    try:
        with open(path, encoding="ascii", errors="backslashreplace") as file:
            lines = [line.split("#")[0].split() for line in file]
    except OSError as error:
        refuse(f"{path}: {error.strerror}")
    sheet, sequence = encoded(path, lines, sheet_alone)
    sys.stdout.buffer.write(sheet if sheet_alone else sheet + sequence)


def encoded(path, lines, sheet_alone):
    """The bytes of the sheet and of the sequence."""
    atoms, records, entries, place, named_at = {}, [], None, 0, 0
    try:
        for place, words in enumerate(lines, 1):
            if words[:1] == ["sequence"]:
                expect("one line with `sequence`", entries is None, "a second")
                entries, named_at = words[1:], place
            elif words:
                records.append(record(atoms, words))
                expect("at most 128 rules", len(records) <= 128, "more")
                expect("at most 64 atoms, with one for each choice rule", len(atoms) + len(choices(records)) <= 64, "more")
        expect("a line with `sequence`, or --sheet", sheet_alone or entries is not None, "neither")
        place = named_at
        entries = [entry for name in entries or [] for entry in named(atoms, records, name)]
        expect("at most 640 atoms", len(entries) <= 640, "more")
    except ValueError as error:
        refuse(f"{path}:{place}: {error}")
    body = b"".join(records)
    sheet = bytes([1]) + two(5 + len(body)) + bytes([len(atoms), len(records)]) + body
    return sheet, bytes([1]) + two(len(entries)) + bytes(entries)


def named(atoms, records, name):
    """What stands for a name in the sequence: an atom, or the fresh atoms of the choice rules for one."""
    if not braced(name):
        expect("an atom that some rule names", name in atoms, name)
        return [atoms[name]]
    heads = choices(records)
    fresh = [len(atoms) + place for place, head in enumerate(heads) if head == atoms.get(name[1:-1])]
    expect("the head of a choice rule in { }", fresh, name)
    return fresh


def choices(records):
    """The heads of the choice rules."""
    return [record[2] for record in records if record[1] == CHOICE]


def braced(word):
    return word[:1] == "{" and word[-1:] == "}"


def record(atoms, words):
    head, rest = words[0], words[1:]
    kind = CONSTRAINT if head == "never" else CHOICE if braced(head) else RULE
    expect("`if` with a body behind it", rest[:1] == ["if"] and rest[1:] or not rest and kind != CONSTRAINT, " ".join(rest))
    head = 0 if kind == CONSTRAINT else number(atoms, head[1:-1] if kind == CHOICE else head)
    positives, negatives = set(), set()
    for part in " ".join(rest[1:]).split(",") if rest else []:
        literal = part.split()
        negative = literal[:1] == ["not"]
        expect("an atom, or `not` and an atom", len(literal) == 1 + negative, part.strip())
        (negatives if negative else positives).add(number(atoms, literal[-1]))
    parts = bytes([kind, head, len(positives), *sorted(positives), *sorted(negatives)])
    return bytes([len(parts)]) + parts


def number(atoms, name):
    named = re.fullmatch("[A-Za-z0-9_]+", name) and name.lower() not in RESERVED
    expect("a name of letters, digits and _ (none of %s)" % ", ".join(RESERVED), named, name)
    atoms.setdefault(name, len(atoms))
    expect("at most 64 atoms", len(atoms) <= 64, "more")
    return atoms[name]


def expect(what, holds, found):
    if not holds:
        raise ValueError(f"expected {what}, found {found or 'nothing'}")


def refuse(message):
    print(message, file=sys.stderr)
    sys.exit(2)


def two(value):
    return value.to_bytes(2, "big")


if __name__ == "__main__":
    main()
