#!/usr/bin/env python3
"""Runs the scripts of the pages, of the man page, of `examples/` and of `tests/` on the built program.

    tools/pages.py [--after LINE] [PROGRAM ..]

PROGRAM is crates/clipsbatch/out/clipsbatch unless it is given. A script that has another transcript or exit status has a line, and
the last line is 'N passed, M failed', to which the numbers of LINE are added, if it is given: a line of that form.

A script of a page is a block of the kind `clips`, and its transcript is the next block of the kind `text`. In a block of the
kind `clips control` pictures such as ␁ stand for control bytes. The tables of tokens, words, strings, items and patterns are
scripts too: what a cell says of a script is what the script shows. In the table of functions each call is a line of one
script, and what it shows a line of the transcript. In the man page the script is what `echo` writes.

The exit status follows from the transcript: 4 where its last line is a limit's, 1 where one line is a fault's, else 0. A line
that is `(exit)` or `(exit n)` alone, n up to 255, ends a script, and so does any other `exit` with a comment `; status n`.
"""
import os
import re
import subprocess
import sys
from pathlib import Path

from tally import tally

TOP = Path(__file__).resolve().parent.parent
MAN = "docs/clipsbatch.1"
LANGUAGE = "docs/LANGUAGE.md"
PAGES = ["README.md", LANGUAGE, "docs/CLIPS.md", "tests/language.md", "tests/modify.md", "tests/rules.md"]
# The limits of each run, which some of the scripts reach.
LIMITS = ["--max-form", "2000", "--max-firings", "1000", "--max-turns", "1000"]
# A script takes some milliseconds.
SECONDS = 60
CALL = re.compile(r"^\| `[^`]+` \|.*\| `(\([^`]*\))` \| `([^`]*)` \|$")
PIPED = re.compile(r"^\$ echo '([^']*)' \| clipsbatch\n(.*?)^\.Ed$", re.M | re.S)
LIMIT = re.compile(r"^\[CB9\d\] .*\n\Z", re.M)
FAULT = re.compile(r"\[CB\d\d\] ")
EXIT = re.compile(r"^\(exit(?: (\d+))?\)$|^\(exit .*; status (\d+)$", re.M)
PICTURES = {0x2421: 127} | {0x2400 + byte: byte for byte in range(32)}

def sections(page):
    """The headings of a page, each with the lines below it up to the next."""
    found = [("", [])]
    is_code = False
    for line in (TOP / page).read_text().splitlines():
        is_code ^= line.startswith("```")
        if line.startswith("#") and not is_code:
            found.append((line.lstrip("# ").replace("`", ""), []))
        else:
            found[-1][1].append(line)
    return found


def blocks(lines):
    """The blocks of a section: the kind of each, and its text."""
    kind, text = None, []
    for line in lines:
        if kind is None and line.startswith("```"):
            kind, text = line[3:], []
        elif line.startswith("```"):
            yield kind, "".join(f"{each}\n" for each in text)
            kind = None
        elif kind is not None:
            text.append(line)


def scripts(page):
    """The scripts of a page: the section and the name of each, its text and its transcript."""
    for heading, lines in sections(page):
        calls = [found.groups() for found in map(CALL.match, lines) if found]
        if calls:
            yield heading, f"{heading}: each one", "".join(f"{call}\n" for call, _ in calls), "".join(f"{shown}\n" for _, shown in calls)
        script, number = None, 0
        for kind, text in blocks(lines):
            if kind in ("clips", "clips control"):
                script, number = text.translate(PICTURES if kind == "clips control" else {}), number + 1
            elif kind == "text" and script is not None:
                yield heading, f"{heading}: {number}", script, text
                script = None


def piped_scripts():
    """The scripts of the man page."""
    for number, (script, written) in enumerate(PIPED.findall((TOP / MAN).read_text()), 1):
        yield f"The man page: {number}", f"{script}\n", written


def files():
    """The scripts of `examples/`."""
    for script in sorted((TOP / "examples").glob("*.clp")):
        yield script.name, script.read_text(), script.with_suffix(".txt").read_text()


def cells_of(line):
    """The cells of a row of a table."""
    return [cell.strip().replace("\\|", "|") for cell in re.split(r"(?<!\\)\|", line)[1:-1]]


def tables(heading):
    """The tables of a section of LANGUAGE: the first row of each, and the others."""
    found, is_open = [], False
    for line in next(lines for name, lines in sections(LANGUAGE) if name == heading):
        if line.startswith("|") and not is_open:
            found.append((tuple(cells_of(line)), []))
        elif line.startswith("|") and not line.startswith("|-"):
            found[-1][1].append(cells_of(line))
        is_open = line.startswith("|")
    return found


def rows(heading):
    """The rows of the tables of a section, each with the first of its table."""
    return [(head, row) for head, body in tables(heading) for row in body]


def code(cell):
    return re.findall(r"`([^`]*)`", cell)


FAULT_LINES = {row[0]: f"[{row[0]}] {row[1]}\n" for _, row in rows("Faults") if row[0].startswith("CB")}
KINDS = [("the symbol ", "{}\n"), ("the string ", '"{}"\n'), ("the variable ", FAULT_LINES["CB11"]), ("the list of ", FAULT_LINES["CB06"])]
CLASSES = [("the wildcard", "CB08"), ("the global", "CB12"), ("the variable", "CB11"), ("the multifield variable", "CB11"), ("the fault CB05", "CB05")]


def shown(part):
    """What a script shows of a part of a cell that says what the script is."""
    if part == "a comment":
        return ""
    if re.fullmatch(r"(then )?CB\d\d", part):
        return FAULT_LINES[part[-4:]]
    if re.fullmatch(r"the integer -?\d+", part):
        return f"{part.split()[-1]}\n"
    for words, line in KINDS:
        if part.startswith(words):
            return line.format(code(part)[0])
    return {"`&`": FAULT_LINES["CB08"], "`|`": FAULT_LINES["CB08"], "`~`": FAULT_LINES["CB08"]}[part]


def parts_of(cell):
    """The parts of a cell. The members of a list are one part with it."""
    parts = re.split(r",? and (?=a comment)|, ", cell)
    return [cell] if " and `" in cell else parts


def shown_word(what, word):
    """What a word of a class shows."""
    for words, fault in CLASSES:
        if what.startswith(words):
            return FAULT_LINES[fault]
    return f"{int(word)}\n" if what.startswith("an integer") else f"{word}\n"


def token_scripts():
    """The scripts of the tables of tokens, words, strings and items, one for each row."""
    for heading in ("Tokens", "Strings", "Items"):
        for number, (head, row) in enumerate(rows(heading), 1):
            title = f"{heading}: row {number}"
            if head in (("Script", "Tokens"), ("Script", "Items")):
                yield title, "\n".join(code(row[0])) if " and, in the next line, " in row[0] else code(row[0])[0], "".join(map(shown, parts_of(row[1])))
            elif head == ("The word", "What it is", "Examples"):
                words = code(re.sub(r"\([^)]*\)", "", row[2]))
                yield title, "".join(f"{word}\n" for word in words), "".join(shown_word(row[1], word) for word in words)
            elif head == ("Written", "Content"):
                content = (code(row[1]) or [""])[0]
                yield title, f"(printout t {code(row[0])[0]} crlf)", f"{content}\n"


def pattern_script(pattern, fitting, others):
    """The script of a pattern, the facts that it fits with what each prints, and facts that it doesn't fit."""
    names = re.findall(r"(\w+)=", next((ways[0] for _, ways in fitting), ""))
    values = " ".join(f'"{" " if place else ""}{name}=" ?{name}' for place, name in enumerate(names)) or "fits"
    script = "(deftemplate part (slot name) (multislot sizes))\n" if "(part" in pattern else ""
    script += f"(set-strategy breadth)\n(defrule r {pattern} => (println {values}))\n"
    written = "depth\n"
    for fact, ways in fitting:
        script += f"(assert {fact})\n(run)\n(reset)\n"
        written += "<Fact-1>\n" + "".join(f"{way}\n" for way in ways)
    return pattern, f"{script}(assert {' '.join(others)})\n(run)\n", f"{written}<Fact-{len(others)}>\n"


def pattern_scripts():
    """The scripts of the tables of patterns. A row without a pattern has another fact for the last."""
    for _, body in tables("Patterns")[1:]:
        patterns = []
        for pattern, fact, ways, others in (map(code, row) for row in body):
            if pattern:
                patterns.append((pattern[0], [], others))
            patterns[-1][1].extend((each, ways) for each in fact)
        yield from (pattern_script(*each) for each in patterns)


def wrong_lengths():
    """The items of LANGUAGE that haven't the length that is said."""
    for head, row in rows("Items"):
        if head == ("Item", "Length") and len(code(row[0])[0]) != int(row[1]):
            yield f"{LANGUAGE}: {row[0]} hasn't the length {row[1]}"


def status_of(script, written):
    """The exit status of a script that writes this."""
    if LIMIT.search(written):
        return 4
    is_faulty = bool(FAULT.search(written))
    statuses = [int(number or said or is_faulty) for number, said in EXIT.findall(script)]
    return next((status for status in statuses if status < 256), int(is_faulty))


def all_scripts():
    """All scripts: the name of each, its text and its transcript."""
    for page in PAGES:
        for _, name, *script in scripts(page):
            yield f"{page}, {name}", *script
    yield from piped_scripts()
    yield from token_scripts()
    yield from pattern_scripts()
    yield from files()


def goes(program, name, script, written):
    """Whether a program writes this for a script. It prints where it doesn't."""
    ran = subprocess.run([program, *LIMITS], input=script.encode(), capture_output=True, timeout=SECONDS)
    wanted, status = written.encode(), status_of(script, written)
    if ran.stdout == wanted and ran.returncode == status:
        return True
    same = os.path.commonprefix([ran.stdout.split(b"\n"), wanted.split(b"\n")])
    print(f"{name}: status {ran.returncode}, not {status}" if ran.stdout == wanted else f"{name}: the transcript differs in line {len(same) + 1}")
    return False


def main(words):
    wrong = list(wrong_lengths())
    for line in wrong:
        print(line)
    return tally(words, "pages", all_scripts, goes, len(wrong))


if __name__ == "__main__":
    sys.exit(main(sys.argv[1:]))
