#!/usr/bin/env python3
"""Writes a script, or a part of one, to standard output, for the measurements beside it.

    make_scripts.py KIND NUMBER..

The kinds, each with its numbers:

    outside BYTES            so many blanks, and an item after them
    inside BYTES             an item with so many blanks in it
    person                   the template of the facts below
    asserts COUNT            so many facts, each asserted by a command that is indented over several lines
    deffacts GROUPS COUNT    so many deffacts, each of so many facts, indented
    templates SLOTS COUNT    so many templates, each with so many slots
    facts SLOTS COUNT        so many facts of the first such template, each of which gives all slots
"""
import sys

# Four blanks and a line end, as an indented script has them.
BLANKS = "    \n"

FIRST_NAMES = ["Ann", "Ben", "Cleo", "Dora", "Emil", "Fay", "Gus", "Hana"]
LAST_NAMES = ["Lee", "Moor", "Nash", "Orr", "Pike", "Quinn", "Reed"]
TOWNS = ["ashford", "bedale", "crewe", "dover", "epsom"]


def outside(size):
    """Blanks outside lists."""
    yield BLANKS * (size // len(BLANKS))
    yield "(assert (a))\n"


def inside(size):
    """Blanks inside a list."""
    yield "(assert\n"
    yield BLANKS * (size // len(BLANKS))
    yield "(a))\n"


def person():
    yield (
        "(deftemplate person\n"
        "    (slot id (type INTEGER))\n"
        "    (slot name (type STRING))\n"
        "    (slot town (type SYMBOL))\n"
        "    (slot age (type INTEGER) (default 18))\n"
        "    (multislot tags))\n\n"
    )


def person_fact(number, indent):
    """A fact of `person`, a slot a line."""
    name = f"{FIRST_NAMES[number % len(FIRST_NAMES)]} {LAST_NAMES[number % len(LAST_NAMES)]}"
    slots = [
        f"(id    {number})",
        f'(name  "{name}")',
        f"(town  {TOWNS[number % len(TOWNS)]})",
        f"(age   {number % 90})",
        "(tags  staff on-leave)",
    ]
    between = "\n" + " " * (indent + len("(person "))
    return " " * indent + "(person " + between.join(slots) + ")"


def asserts(count):
    for number in range(1, count + 1):
        yield f"(assert\n{person_fact(number, 4)})\n\n"


def deffacts(groups, count):
    for group in range(groups):
        yield f"(deffacts people-{group}\n"
        for number in range(group * count + 1, (group + 1) * count + 1):
            yield person_fact(number, 4) + "\n"
        yield ")\n\n"


def slot_name(number):
    return f"slot-{number}"


def templates(slots, count):
    for template in range(1, count + 1):
        yield f"(deftemplate wide-{template}\n"
        for number in range(1, slots + 1):
            yield f"    (slot {slot_name(number)})\n"
        yield ")\n"


def facts(slots, count):
    for fact in range(1, count + 1):
        yield "(assert (wide-1\n"
        for number in range(1, slots + 1):
            yield f"    ({slot_name(number)} {fact})\n"
        yield "))\n"


KINDS = {
    "outside": outside,
    "inside": inside,
    "person": person,
    "asserts": asserts,
    "deffacts": deffacts,
    "templates": templates,
    "facts": facts,
}


def main():
    kind, *numbers = sys.argv[1:] or [""]
    if kind not in KINDS:
        sys.exit(__doc__)
    for text in KINDS[kind](*map(int, numbers)):
        sys.stdout.write(text)


if __name__ == "__main__":
    main()
