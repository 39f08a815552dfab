"""Large scripts for edge.py, each with what the program must write, and the processor seconds and the bytes of memory that it may take.

A program that is right and has no index, moves half of its queue at each removal, or keeps what is gone, takes many times as much.
"""
from collections import namedtuple

MEGABYTE = 1 << 20

Large = namedtuple("Large", "name script out seconds memory")


def lines(*parts):
    """The lines of all parts: a part is a line, or lines one after another."""
    return "".join(f"{line}\n" for part in parts for line in ([part] if isinstance(part, str) else part)).encode()


def loop(turns, *actions):
    """An item that does these actions with `?i` from 1 to `turns`, and what it and its `bind` write."""
    return ["(bind ?i 0)", f"(while (< ?i {turns}) do (bind ?i (+ ?i 1)) {' '.join(actions)})"], ["0", "FALSE"]


def watched_firings():
    script = lines("(watch rules)", "(defrule r ?f <- (n ?x&:(< ?x 10000)) => (retract ?f) (assert (n (+ ?x 1))))", "(assert (n 0))", "(run)")
    return Large("10,000 watched firings", script, lines("<Fact-1>", (f"FIRE {at:4} r: f-{at}" for at in range(1, 10001))), 5, 100 * MEGABYTE)


def fact_lines(facts):
    return [f"f-{at:<5} {fact}" for at, fact in enumerate(facts, 1)] + [f"For a total of {len(facts)} fact{'s' * (len(facts) > 1)}."]


def deffacts():
    facts = [f"(n {at})" for at in range(300)]
    script = lines((f"(deffacts d-{at} {fact})" for at, fact in enumerate(facts)), "(reset)", "(facts)")
    return Large("300 deffacts", script, lines(fact_lines(facts)), 5, 100 * MEGABYTE)


def redefinitions():
    script = lines((f"(deffacts d (n {at}))" for at in range(300)), "(deffacts e (m))", "(reset)", "(facts)")
    return Large("300 redefinitions of one deffacts", script, lines(fact_lines(["(n 299)", "(m)"])), 5, 100 * MEGABYTE)


def join():
    """Half of the facts on one side come before all on the other, so facts are looked up as well as partial matches."""
    half, half_wrote = loop(10000, "(assert (a ?i))")
    other, other_wrote = loop(20000, "(assert (b ?i))")
    rest, rest_wrote = loop(10000, "(assert (a (+ ?i 10000)))")
    script = lines("(defglobal ?*n* = 0)", "(defrule r (a ?x) (b ?x) => (bind ?*n* (+ ?*n* 1)))", half, other, rest, "(run)", "?*n*")
    return Large("a join of 20,000 with 20,000 facts", script, lines(half_wrote, other_wrote, rest_wrote, "20000"), 5, 400 * MEGABYTE)


def activations():
    """Facts go from the midst outwards, and 40,000 activations are left to fire."""
    facts, wrote = loop(100000, "(assert (a ?i))")
    gone, gone_wrote = loop(30000, "(retract (+ 50000 ?i) (- 50001 ?i))")
    script = lines("(defglobal ?*n* = 0)", "(defrule r (a ?x) => (bind ?*n* (+ ?*n* 1)))", facts, gone, "(run)", "?*n*")
    return Large("removals from the midst of 100,000 activations", script, lines(wrote, gone_wrote, "40000"), 5, 400 * MEGABYTE)


def passing_facts():
    script, wrote = loop(1000000, "(retract (assert (a ?i)))")
    return Large("1,000,000 facts asserted and retracted", lines(script), lines(wrote), 40, 64 * MEGABYTE)


def passing_names():
    """Each round has 1,000 names that no other has, each of 40 bytes."""
    rounds = ("(assert %s)(clear)" % " ".join(f"(name-{at * 1000 + place:035})" for place in range(1000)) for at in range(1000))
    return Large("1,000,000 names over (clear)", lines(rounds), lines(["<Fact-1000>"] * 1000), 40, 64 * MEGABYTE)


ALL = [watched_firings, deffacts, redefinitions, join, activations, passing_facts, passing_names]
