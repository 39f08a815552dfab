#!/usr/bin/env python3
"""Whether the man page, docs/clipsbatch.1, says what the other pages say.

docs/man.py    prints what it says otherwise (so does docs/man.py --check); the exit status is then 1, else 0

The options with their ranges and defaults have to be those of README.md, of docs/LANGUAGE.md and of the help that the
program prints. The statuses have to be those of README.md, and the faults, the limits and the lines on standard error those
of docs/LANGUAGE.md. Any other part of a sentence that has a number of two digits or more has to stand in one of the two.
tools/pages.py runs the script of the man page.
"""
import re
import sys
from pathlib import Path

TOP = Path(__file__).resolve().parent.parent
MAN = "docs/clipsbatch.1"
README, LANGUAGE, HELP = "README.md", "docs/LANGUAGE.md", "crates/cb_command_line/src/words.rt"
RANGE = re.compile(r"(\d+) to (\d+)")
DEFAULT = re.compile(r"default(?: is|:) (\d+)")


def text(path):
    """The text of a file, the numbers in it as digits alone."""
    return re.sub(r"(?<=\d)[,_](?=\d{3})", "", (TOP / path).read_text())


def tables(page):
    """The rows of the tables of a page, by the first words of their heads."""
    found, head = {}, None
    for line in text(page).splitlines():
        cells = [cell.strip().replace("`", "") for cell in line.strip("|").split("|")]
        if not line.startswith("|"):
            head = None
        elif head is None:
            head = cells[0]
        elif set(line) - set("|-"):
            found.setdefault(head, []).append(cells)
    return found


def shown(line):
    """What a line of the man page shows, where it isn't the head of an item."""
    macro, _, rest = line.partition(" ")
    rest = rest.replace('"', "")
    return {".Fl": f"-{rest}", ".Pq": f"({rest.removeprefix('Li ')})"}.get(macro, "" if macro.startswith(".") else line)


def section(name):
    """The lines of a section of the man page."""
    return text(MAN).partition(f"\n.Sh {name}\n")[2].partition("\n.Sh ")[0].splitlines()


def items(name):
    """The items of the lists in a section of the man page: the head of each, and what stands below it."""
    found, is_open = [], False
    for line in section(name):
        if line.startswith(".It "):
            found.append((line[4:].replace('"', "").removeprefix("Li ").replace(" Ta ", ": "), []))
        if line.startswith("."):
            is_open = line.startswith(".It ") or is_open and not line.startswith((".El", ".Pp"))
        if is_open and shown(line):
            found[-1][1].append(shown(line))
    return [(head, " ".join(below)) for head, below in found]


def option(name, words):
    """An option, its range and its default."""
    return name, *RANGE.search(words).groups(), DEFAULT.search(words)[1]


def options(page):
    """The options of a page."""
    rows = (row for row in tables(page)["Option"] if row[2])
    return [option(row[0].split()[0], f"{row[2]}, default: {row[3]}") for row in rows]


def options_of_help():
    """The options by the words that the program prints for them."""
    code = text(HELP)
    helps = dict(re.findall(r'static (\w+): &str =\s*"([^"]*)"', code))
    return [option(f"--{name}", helps[words]) for name, words in re.findall(r'number\(alloc, "([\w-]+)", (\w+),', code)]


def options_of_man():
    heads = ((head.split(), words) for head, words in items("DESCRIPTION"))
    return [option(f"-{head[1]}", words) for head, words in heads if head[-1] == "N"]


def faults():
    return [f"{row[0]}: {row[1]}" for row in tables(LANGUAGE)["Number"]]


def heads(name, beginning):
    """What the items of a section are named, of those that begin so."""
    return [head for head, _ in items(name) if head.startswith(beginning)]


def lines_of_failure():
    """The lines on standard error in the table of statuses."""
    return re.findall(r"`(clipsbatch: [a-z ]+)`", text(LANGUAGE))


def parts_with_numbers():
    """The parts of sentences that have a number of two digits or more, but for the defaults."""
    lines = section("DESCRIPTION") + section("LIMITS")
    parts = re.split(r"[.,;] |\.$", " ".join(filter(None, map(shown, lines))))
    return [part for part in parts if re.search(r"\d\d", part) and not DEFAULT.search(part)]


def differences():
    """What the man page and another page differ in, and what stands in each."""
    pages = (text(README) + text(LANGUAGE)).lower()
    synopsis = re.findall(r"\.Op Fl (\S+) Ar N", text(MAN))
    yield f"the options of {README}", options_of_man(), options(README)
    yield f"the options of {LANGUAGE}", options_of_man(), options(LANGUAGE)
    yield f"the options of {HELP}", options_of_man(), options_of_help()
    yield "its own synopsis", [name for name, *_ in options_of_man()], [f"-{name}" for name in synopsis]
    yield f"the statuses of {README}", items("EXIT STATUS"), [tuple(row) for row in tables(README)["Exit status"]]
    yield f"the faults of {LANGUAGE}", heads("DIAGNOSTICS", "CB"), faults()
    yield f"the limits of {LANGUAGE}", heads("LIMITS", "["), [row[0] for row in tables(LANGUAGE)["Line"]]
    yield f"the lines on standard error of {LANGUAGE}", heads("DIAGNOSTICS", "clipsbatch"), lines_of_failure()
    known = [part for part in parts_with_numbers() if part.lower() in pages]
    yield f"the sentences of {README} and {LANGUAGE}", parts_with_numbers(), known


def main():
    if sys.argv[1:] not in ([], ["--check"]):
        sys.exit(__doc__)
    wrong = 0
    for what, here, there in differences():
        if here and here == there:
            continue
        wrong += 1
        print(f"{MAN} differs from {what}:")
        print(*(f"  here:  {one}" for one in here if one not in there), sep="\n")
        print(*(f"  there: {one}" for one in there if one not in here), sep="\n")
    return 1 if wrong else 0


if __name__ == "__main__":
    sys.exit(main())
