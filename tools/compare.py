#!/usr/bin/env python3
"""Compares two programs on random scripts, and prints the first script that they answer differently.

    tools/compare.py PROGRAM OTHER SEED COUNT    runs both on the scripts 0 to COUNT - 1 of this seed
    tools/compare.py --script SEED NUMBER        writes one of these scripts to standard output
    tools/compare.py --plain FOLDER              makes a copy of the repository whose program finds all matches anew at each change

What is proved of both matchers is only as good as the one definition that both meet, so this looks for what the proofs can't: a
transcript that depends on the matcher. For that, PROGRAM is crates/clipsbatch/out/clipsbatch, and OTHER the same path in FOLDER,
built there by `rt run` in crates/clipsbatch. The exit status is 0 where all scripts are answered alike.
"""
import difflib
import random
import shutil
import subprocess
import sys
from pathlib import Path

TOP = Path(__file__).resolve().parent.parent
SECONDS = 600
TEMPLATE = "(deftemplate t (slot k) (slot v (default 0)) (multislot m))"
CONSTANTS = ["1", "2", "3", "red"]
ORDERS = ["<", ">", "<=", ">="]
# Predicates that compare no field with a variable or a constant.
CONDITIONS = ["(= {0} (+ {1} 1))", "(not (eq {0} {1}))", "(oddp {0})", "(eq {1} (max {0} 2))", "(or (< {1} {0}) (= {0} 2))"]

# What the copy of --plain has in another way: in a file, each old text and the new one.
PLAIN = {
    "crates.txt": [("cb_script: cb_io cb_forms cb_matches cb_rete ", "cb_script: cb_io cb_forms cb_matches cb_rematch ")],
    "crates/cb_script/src/script.rt": [("cb_rete::Joins", "cb_rematch::Rematch"), ("Joins::new", "Rematch::new")],
}


def listed(*parts):
    return f"({' '.join(part for part in parts if part)})"


class LeftSide:
    """The left side of a rule, drawn from left to right: the variables that have values so far, and the addresses of facts."""

    def __init__(self, draw):
        self.draw, self.known, self.addresses = draw, [], []
        self.elements = [self.element() for _ in range(draw.randint(1, 4))]

    def field(self):
        """A constraint for one field."""
        draw, chance, name = self.draw, self.draw.random(), self.draw.choice("xyzuvw")
        known = f"?{draw.choice(self.known)}" if self.known else "1"
        if chance < 0.15:
            return draw.choice(["?", "1", "2", "~1", "1|2", "red"])
        if chance < 0.45 or name in self.known:
            return draw.choice([known, known, known, f"~{known}"])
        self.known.append(name)
        if chance < 0.58:
            return f"?{name}&:({draw.choice(ORDERS)} ?{name} {known})"
        if chance < 0.7:
            return f"?{name}&:{draw.choice(CONDITIONS).format(f'?{name}', known)}"
        return f"?{name}&=(+ {known} 1)" if chance < 0.75 else f"?{name}"

    def fields(self, most):
        return [self.field() for _ in range(self.draw.randint(0, most))]

    def ordered(self):
        fields = self.fields(2)
        if self.draw.random() < 0.1:
            fields.insert(self.draw.randint(0, len(fields)), "$?")
        return listed(self.draw.choice("abc"), *fields)

    def of_template(self):
        slots = [listed(slot, self.field()) for slot in self.draw.sample("kv", self.draw.randint(0, 2))]
        many = listed("m", "$?", *self.fields(1), "$?") if self.draw.random() < 0.3 else ""
        return listed("t", *slots, many)

    def pattern(self):
        return self.of_template() if self.draw.random() < 0.25 else self.ordered()

    def test(self):
        one, other = (f"?{self.draw.choice(self.known)}" if self.known else "1" for _ in range(2))
        return f"(test ({self.draw.choice([*ORDERS, 'eq', 'neq'])} {one} {other}))"

    def group(self, depth=1):
        """A group, at most three deep. Variables that get their values in it have none behind it."""
        before, parts = list(self.known), [self.pattern()]
        for _ in range(self.draw.choice([0, 0, 1, 2])):
            parts.append(self.group(depth + 1) if depth < 3 and self.draw.random() < 0.2
                         else self.draw.choice([self.pattern, self.pattern, self.test])())
        self.known = before
        kind = self.draw.choice(["not", "not", "exists", "forall"])
        if kind == "exists" or kind == "forall" and len(parts) > 1:
            return listed(kind, *parts)
        return listed("not", parts[0] if len(parts) == 1 else listed("and", *parts))

    def element(self):
        chance = self.draw.random()
        if chance < 0.35:
            return self.group()
        if chance < 0.43:
            return self.test()
        if chance < 0.48:
            return listed("or", self.group(), self.test())
        self.addresses.append(f"?f{len(self.addresses)}")
        return f"{self.addresses[-1]} <- {self.pattern()}"


def fact(draw, values):
    """A fact whose fields are some of these values."""
    many = lambda most: draw.choices(values, k=draw.randint(0, most))
    if draw.random() < 0.3:
        return listed("t", *(listed(slot, draw.choice(values)) for slot in draw.sample("kv", draw.randint(1, 2))), listed("m", *many(2)))
    return listed(draw.choice("abc"), *many(2))


def rule(draw):
    left = LeftSide(draw)
    values = [f"?{name}" for name in left.known]
    actions = [listed("println", "fired", *(f'" {it[1:]}=" {it}' for it in values))]
    for _ in range(draw.randint(0, 2)):
        address = draw.choice(left.addresses or ["1"])
        actions.append(draw.choice([
            f"(assert {fact(draw, values + ['1', '2'])})",
            f"(retract {address})",
            f"(modify {address} ({draw.choice('kv')} {draw.choice(values + ['1', '2'])}))",
        ]))
    salience = draw.choice(["", "", "(declare (salience 5))", "(declare (salience -5))"])
    return listed("defrule", f"r{draw.randint(1, 4)}", salience, *left.elements, "=>", *actions)


def some_facts(draw):
    return " ".join(fact(draw, CONSTANTS) for _ in range(draw.randint(1, 5)))


def item(draw):
    """A change of the facts or the rules, a run, or a listing."""
    facts = some_facts(draw)
    weights = {
        f"(assert {facts})": 12,
        rule(draw): 5,
        f"(retract {draw.randint(1, 12)})": 4,
        f"(modify {draw.randint(1, 12)} ({draw.choice('kv')} {draw.choice(CONSTANTS)}))": 3,
        f"(run {draw.randint(1, 5)})": 6,
        draw.choice(["(reset)", "(retract *)", f"(undefrule r{draw.randint(1, 4)})", f"(deffacts d {facts})"]): 2,
        draw.choice(["(agenda)", "(set-strategy breadth)", "(set-strategy depth)"]): 2,
    }
    return draw.choices(list(weights), list(weights.values()))[0]


def script(seed, number):
    draw = random.Random(f"{seed}/{number}")
    rules = [rule(draw) for _ in range(draw.randint(1, 3))]
    facts = [f"(assert {some_facts(draw)})" for _ in range(3)]
    items = [item(draw) for _ in range(draw.randint(10, 30))]
    return "\n".join([TEMPLATE, "(watch all)", *rules, *facts, *items, "(run 50)", "(agenda)", "(facts)", "(rules)", ""])


def ran(program, text):
    """What the program writes for a script, line by line, with what it reports and its exit status at the end."""
    done = subprocess.run([program], input=text.encode(), capture_output=True, timeout=SECONDS)
    return [*done.stdout.decode().splitlines(), *done.stderr.decode().splitlines(), f"exit status {done.returncode}"]


def compare(program, other, seed, count):
    firings = faults = 0
    for number in range(count):
        text = script(seed, number)
        one, two = ran(program, text), ran(other, text)
        if one != two:
            print(text)
            print(*difflib.unified_diff(one, two, program, other, lineterm=""), sep="\n")
            print(f"The script {number} of the seed {seed} is answered differently")
            return 1
        firings += sum(line.startswith("FIRE") for line in one)
        faults += sum(line.startswith("[CB") for line in one)
    print(f"{count} scripts are answered alike, with {firings} firings and {faults} faults")
    return 0


def make_plain(folder):
    shutil.copytree(TOP, folder, ignore=shutil.ignore_patterns("out", ".git", "must-fail"))
    for path, pairs in PLAIN.items():
        text = (Path(folder) / path).read_text()
        for old, new in pairs:
            if old not in text:
                sys.exit(f"{path} doesn't have {old}")
            text = text.replace(old, new)
        (Path(folder) / path).write_text(text)
    return 0


def main(words):
    if len(words) == 2 and words[0] == "--plain":
        return make_plain(words[1])
    if len(words) == 3 and words[0] == "--script":
        print(script(words[1], int(words[2])), end="")
        return 0
    if len(words) == 4:
        return compare(words[0], words[1], words[2], int(words[3]))
    sys.exit(__doc__)


if __name__ == "__main__":
    sys.exit(main(sys.argv[1:]))
