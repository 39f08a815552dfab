#!/usr/bin/env python3
"""Programs for costs.sh, each of which ends by printing what it did.

    costs.py                     lists them: in each line a name and three sizes
    costs.py NAME SIZE FOLDER    writes one to the folder: its constructs, which CLIPS reads by load*, and its commands

Here are those in which one thing is many: facts that are retracted, facts that wait for another one, rules, comparisons.
programs.py and puzzles.py have whole programs.
"""

import sys

from programs import COUNT, COUNTER, LIST, PROGRAMS, RUN
from puzzles import PUZZLES


def rule(name, elements, actions=COUNT, salience=0):
    return "(defrule %s (declare (salience %d)) %s => %s)" % (name, salience, elements, actions)


def many(n, form="(item %d)"):
    return [form % i for i in range(n)]


def shuffled(n):
    return ["(item %d)" % (i * 7919 % n) for i in range(n)]


# Facts are retracted one by one, at the first and at the last pattern of a join.


def retract_first(n):
    rules = [rule("join", "(w ?x) (on)"), rule("out", "?f <- (w ?x)", "(retract ?f)", -1)]
    return rules, ["(on)"] + many(n, "(w %d)"), LIST


def retract_last(n):
    rules = [rule("join", "(on) (w ?x)"), rule("out", "?f <- (w ?x)", "(retract ?f)", -1)]
    return rules, ["(on)"] + many(n, "(w %d)"), LIST


# Many facts wait for one.


def saliences(n):
    return [rule("s%d" % i, "(go) (item ?x)", salience=i) for i in range(20)], many(n) + ["(go)"], RUN


def phase_waits(n):
    """Twenty times a phase comes and goes, and nothing fires for it."""
    rules = [
        rule("work", "(phase) (item ?x)"),
        rule("come", "(turn ?k&:(> ?k 0)) (not (phase))", "(assert (phase))", 1),
        rule("pass", "?t <- (turn ?k) ?p <- (phase)", "(retract ?p ?t) (assert (turn (- ?k 1)))", 2),
    ]
    return rules, many(n) + ["(turn 20)"], RUN


def phase_works(n):
    """Five phases, each of which fires for each item."""
    rules = [
        rule("work", "(phase ?k) (item ?x)"),
        rule("next", "?p <- (phase ?k&:(< ?k 5))", "(retract ?p) (assert (phase (+ ?k 1)))", -1),
    ]
    return rules, many(n) + ["(phase 1)"], RUN


def watch(n):
    rules = [rule("work", "(item ?x) (not (busy))", "(assert (done ?x))"), rule("see", "(done ?x)")]
    return rules, many(n), ["(watch facts)", "(watch rules)", "(watch activations)", "(reset)", "(run)"]


# Many rules.


def rule_set(n):
    form = "(topic-%d %d ?x) (state ?x s%d)"
    return [rule("r%d" % i, form % (i % 50, i, i % 7), "(printout t %d crlf)" % i) for i in range(n)]


# One of the rules fires, if it is there.
ONE = ["(assert (topic-1 1 a) (state a s1))", "(run)", "(printout t end crlf)"]


def rules_loaded(n):
    return rule_set(n), [], ONE


def rules_cleared(n):
    return rule_set(n), [], ["(clear)"] + ONE


def rules_undefined(n):
    return rule_set(n), [], ["(undefrule *)"] + ONE


def rules_again(n):
    return rule_set(n) + rule_set(n), [], ONE


def relation_constants(n):
    return [rule("r%d" % i, "(event ?x k%d)" % i) for i in range(n)], ["(event %d k%d)" % (i, i) for i in range(n)], RUN


def relation_plain(n):
    return [rule("r%d" % i, "(event ?x ?y)") for i in range(n)], ["(event %d k%d)" % (i, i) for i in range(5)], RUN


# Comparisons in a `not`.


def least(n):
    """The least item, then the next, each of which goes."""
    return [rule("least", "?f <- (item ?x) (not (item ?y&:(< ?y ?x)))", "(retract ?f) " + COUNT)], shuffled(n), LIST


def following(n):
    """From each item to the next greater one."""
    elements = "?a <- (at ?x) (item ?y&:(> ?y ?x)) (not (item ?z&:(> ?z ?x)&:(< ?z ?y)))"
    return [rule("next", elements, "(retract ?a) (assert (at ?y)) " + COUNT)], shuffled(n) + ["(at -1)"], LIST


def greatest(n):
    """The greatest of each of 20 groups."""
    facts = ["(item g%d %d)" % (i % 20, i * 7919 % n) for i in range(n)]
    rules = [rule("greatest", "(item ?g ?x) (not (item ?g ?y&:(> ?y ?x)))", '(printout t ?g " " ?x crlf)')]
    return rules, facts, ["(reset)", "(run)"]


COSTS = {
    "retract-first": (retract_first, [10000, 20000, 40000]),
    "retract-last": (retract_last, [10000, 20000, 40000]),
    "saliences": (saliences, [2000, 4000, 8000]),
    "phase-waits": (phase_waits, [4000, 8000, 16000]),
    "phase-works": (phase_works, [4000, 8000, 16000]),
    "watch": (watch, [4000, 8000, 16000]),
    "rules-loaded": (rules_loaded, [2000, 8000, 32000]),
    "rules-cleared": (rules_cleared, [2000, 8000, 32000]),
    "rules-undefined": (rules_undefined, [2000, 8000, 32000]),
    "rules-again": (rules_again, [2000, 8000, 32000]),
    "relation-constants": (relation_constants, [1000, 3000, 10000]),
    "relation-plain": (relation_plain, [1000, 3000, 10000]),
    "least": (least, [500, 1000, 2000]),
    "following": (following, [250, 500, 1000]),
    "greatest": (greatest, [4000, 8000, 16000]),
}
ALL = {**COSTS, **PROGRAMS, **PUZZLES}


def deffacts(facts):
    for i in range(0, len(facts), 500):
        yield "(deffacts part-%d\n   %s)" % (i, "\n   ".join(facts[i : i + 500]))


def main():
    if len(sys.argv) != 4:
        for name, (_, sizes) in ALL.items():
            print(name, *sizes)
        return
    name, size, folder = sys.argv[1:]
    constructs, facts, commands = ALL[name][0](int(size))
    for part, lines in ("constructs", [COUNTER, *constructs, *deffacts(facts)]), ("commands", commands):
        with open("%s/%s" % (folder, part), "w") as out:
            out.writelines(line + "\n" for line in lines)


if __name__ == "__main__":
    main()
