"""Rule programs such as people write, for costs.py. Each function makes one at a size n: its constructs, its facts, which a reset
asserts, and its commands.
"""

import random

COUNT = "(bind ?*count* (+ ?*count* 1))"
COUNTER = "(defglobal ?*count* = 0)"
PRINT = "(printout t ?*count* crlf)"
RUN = ["(reset)", "(run)", PRINT]
LIST = RUN + ["(facts)"]


def counter(n):
    rule = "(defrule count ?n <- (n ?x&:(< ?x %d)) => (retract ?n) (assert (n (+ ?x 1))))" % n
    return [rule], ["(n 0)"], LIST


def gcd(n):
    rules = """
(deftemplate state (slot a (type INTEGER)) (slot b (type INTEGER)))
(defrule step
   ?s <- (state (a ?a) (b ?b))
   (test (> ?b 0))
   =>
   (retract ?s)
   (assert (state (a ?b) (b (mod ?a ?b)))))
(defrule done
   ?s <- (state (a ?a) (b 0))
   (next ?n)
   =>
   (bind ?*count* (+ ?*count* ?a))
   (retract ?s)
   (assert (ready ?n)))
(defrule again
   ?r <- (ready ?n)
   ?f <- (next ?n&:(< ?n LAST))
   =>
   (retract ?r ?f)
   (assert (next (+ ?n 1)) (state (a 832040) (b (+ 514229 ?n)))))
"""
    return [rules.replace("LAST", str(n))], ["(next 1)", "(ready 1)"], LIST


def whileloop(n):
    rule = """
(defrule loop
   =>
   (bind ?i 0)
   (while (< ?i LAST) do
      (bind ?j 0)
      (while (< ?j 1000) do
         (bind ?j (+ ?j 1))
         (if (= (mod ?j 3) 0) then (bind ?*count* (+ ?*count* (mod (* ?i ?j) 7)))))
      (bind ?i (+ ?i 1))))
"""
    return [rule.replace("LAST", str(n))], [], RUN


def hanoi(n):
    rules = """
(defrule split
   ?t <- (top ?k)
   ?g <- (goal ?k ?n&:(> ?n 0) ?from ?to ?by)
   =>
   (retract ?t ?g)
   (assert (goal ?k (- ?n 1) ?by ?to ?from) (disk (+ ?k 1) ?n ?from ?to))
   (assert (goal (+ ?k 2) (- ?n 1) ?from ?by ?to) (top (+ ?k 2))))
(defrule none
   ?t <- (top ?k)
   ?g <- (goal ?k 0 ? ? ?)
   =>
   (retract ?t ?g)
   (assert (top (- ?k 1))))
(defrule move
   ?t <- (top ?k)
   ?d <- (disk ?k ?n ?from ?to)
   ?on <- (on ?n ?from)
   =>
   COUNT
   (retract ?t ?d ?on)
   (assert (on ?n ?to) (top (- ?k 1))))
"""
    facts = ["(on %d left)" % i for i in range(1, n + 1)] + ["(goal 1 %d left right middle)" % n, "(top 1)"]
    return [rules.replace("COUNT", COUNT)], facts, LIST


def queens(n):
    rules = """
(defrule place
   (size ?n)
   ?b <- (board ?k&:(< ?k ?n) $?queens)
   (column ?c&:(not (member$ ?c ?queens)))
   =>
   (bind ?i 1)
   (bind ?free TRUE)
   (while (and ?free (<= ?i ?k)) do
      (if (= (abs (- (nth$ ?i ?queens) ?c)) (- (+ ?k 1) ?i)) then (bind ?free FALSE))
      (bind ?i (+ ?i 1)))
   (if ?free then (assert (board (+ ?k 1) ?queens ?c))))
(defrule tried
   (declare (salience -1))
   (size ?n)
   ?b <- (board ?k&:(< ?k ?n) $?)
   =>
   (retract ?b))
(defrule found
   (size ?n)
   (board ?n $?)
   =>
   COUNT)
"""
    facts = ["(size %d)" % n] + ["(column %d)" % i for i in range(1, n + 1)] + ["(board 0)"]
    return [rules.replace("COUNT", COUNT)], facts, RUN


def mfsort(n):
    rule = "(defrule swap ?l <- (list $?a ?x ?y&:(< ?y ?x) $?b) => (retract ?l) (assert (list ?a ?y ?x ?b)))"
    return [rule], ["(list %s)" % " ".join(str(i) for i in range(n, 0, -1))], LIST


def mfseg(n):
    rule = "(defrule between (line $?a ?x $?b ?x $?c) => (bind ?*count* (+ ?*count* (length$ ?b))))"
    return [rule], ["(line %s)" % " ".join(str(i % (n // 2)) for i in range(n))], RUN


def mfmany(n):
    rules = """
(defrule gold (bag ?id $? gold $?) => COUNT)
(defrule twice (bag ?id $? ?x $? ?x $?) => COUNT)
(defrule empty (declare (salience -1)) ?b <- (bag ?id tin $?more) => (retract ?b) (assert (bag ?id ?more)))
"""
    rnd = random.Random(1)
    things = ["gold", "tin", "rope", "lamp", "coin", "key", "map", "ring"]
    facts = ["(bag %d %s)" % (i, " ".join(rnd.choice(things) for _ in range(6))) for i in range(n)]
    return [rules.replace("COUNT", COUNT)], facts, RUN


def bigfacts(n):
    rules = """
(defrule read (row ?id ?first $? ?last) (wanted ?first) => (assert (seen ?id ?last)))
(defrule drop (declare (salience -1)) ?s <- (seen ?id ?) ?r <- (row ?id $?) => COUNT (retract ?s ?r))
"""
    facts = ["(row %d %d %s)" % (i, i % 10, " ".join(str(i + k) for k in range(200))) for i in range(n)]
    return [rules.replace("COUNT", COUNT)], ["(wanted %d)" % i for i in range(5)] + facts, RUN


def stream(n):
    rules = """
(defrule add ?r <- (reading ?s ?v) ?t <- (total ?s ?n) => (retract ?r ?t) (assert (total ?s (+ ?n ?v))))
(defrule begin (reading ?s ?) (not (total ?s ?)) => (assert (total ?s 0)))
"""
    lines = ["(assert (reading s%d %d))\n(run)" % (i * 7 % 50, i % 13) for i in range(n)]
    return [rules], [], ["(reset)"] + lines + ["(facts)"]


def manyrules(n):
    """Each rule has a relation of its own."""
    form = "(defrule r%d ?s <- (step-%d ?x) (on ?x) => (retract ?s) (assert (step-%d ?x)))"
    facts = [fact % k for k in range(10) for fact in ("(on %d)", "(step-0 %d)")]
    return [form % (i, i, i + 1) for i in range(n)], facts, LIST


def samerel(n):
    """One relation, whose facts are told apart by a constant for each rule."""
    form = "(defrule r%d ?s <- (state s%d ?x) (input ?x) => (retract ?s) (assert (state s%d ?x)))"
    facts = [fact % k for k in range(10) for fact in ("(input %d)", "(state s0 %d)")]
    return [form % (i, i, i + 1) for i in range(n)], facts, LIST


def join(n):
    rule = "(defrule pair (left ?x ?y) (right ?x ?z) => (assert (pair ?y ?z)) COUNT)"
    facts = [fact % (i, i) for i in range(n) for fact in ("(left %d l%d)", "(right %d r%d)")]
    return [rule.replace("COUNT", COUNT)], facts, RUN


def tests(n):
    rule = "(defrule pair (left ?x) (right ?y) (test (= ?x (+ ?y 1))) => COUNT)"
    return [rule.replace("COUNT", COUNT)], [fact % i for i in range(n) for fact in ("(left %d)", "(right %d)")], RUN


def retractjoin(n):
    rules = """
(defrule sent (order ?o ?c) (customer ?c ?t) (town ?t) => COUNT)
(defrule away (declare (salience -1)) ?f <- (order ?o ?c) => (retract ?f))
(defrule gone (declare (salience -2)) ?f <- (customer ?c ?t) => (retract ?f))
"""
    facts = ["(town t%d)" % i for i in range(n // 40)]
    facts += ["(customer %d t%d)" % (i, i % (n // 40)) for i in range(n // 4)]
    facts += ["(order %d %d)" % (i, i * 7 % (n // 4)) for i in range(n)]
    return [rules.replace("COUNT", COUNT)], facts, LIST


def retractnot(n):
    rules = """
(defrule open (task ?x) (not (done ?x)) => COUNT)
(defrule undo (declare (salience -1)) ?d <- (done ?x) => (retract ?d))
"""
    return [rules.replace("COUNT", COUNT)], [fact % i for i in range(n) for fact in ("(done %d)", "(task %d)")], RUN


def tasks(n):
    rule = "(defrule work (task ?x) (not (done ?x)) => (assert (done ?x)) COUNT)"
    return [rule.replace("COUNT", COUNT)], ["(task %d)" % i for i in range(n)], RUN


def onenot(n):
    rules = """
(defrule start ?t <- (task ?x) (not (busy ?)) => (retract ?t) (assert (busy ?x)))
(defrule end ?b <- (busy ?) => COUNT (retract ?b))
"""
    return [rules.replace("COUNT", COUNT)], ["(task %d)" % i for i in range(n)], LIST


def agenda(n):
    """Twenty rules of different salience; while they wait, each second fact is retracted."""
    rules = ["(defrule s%d (declare (salience %d)) (w ?x) (on) => %s)" % (i, i, COUNT) for i in range(20)]
    rules += ["(defrule odd (declare (salience 100)) ?f <- (w ?x&:(oddp ?x)) => (retract ?f))"]
    return rules, ["(on)"] + ["(w %d)" % i for i in range(n)], RUN


CLOSURE = """
(defrule edge (edge ?x ?y) => (assert (path ?x ?y)))
(defrule longer (edge ?x ?y) (path ?y ?z) => (assert (path ?x ?z)))
(defrule each (path ? ?) => COUNT)
""".replace("COUNT", COUNT)


def tcchain(n):
    return [CLOSURE], ["(edge %d %d)" % (i, i + 1) for i in range(1, n)], RUN


def tcrand(n):
    rnd = random.Random(1)
    edges = {(rnd.randrange(n), rnd.randrange(n)) for _ in range(n + n // 4)}
    return [CLOSURE], ["(edge %d %d)" % edge for edge in sorted(edges)], RUN


PROGRAMS = {
    "counter": (counter, [20000, 40000, 80000]),
    "gcd": (gcd, [1000, 2000, 4000]),
    "whileloop": (whileloop, [100, 200, 400]),
    "hanoi": (hanoi, [11, 12, 13]),
    "queens": (queens, [7, 8, 9]),
    "mfsort": (mfsort, [25, 50, 100]),
    "mfseg": (mfseg, [400, 800, 1600]),
    "mfmany": (mfmany, [2500, 5000, 10000]),
    "bigfacts": (bigfacts, [500, 1000, 2000]),
    "stream": (stream, [2500, 5000, 10000]),
    "manyrules": (manyrules, [500, 1000, 2000]),
    "samerel": (samerel, [500, 1000, 2000]),
    "join": (join, [5000, 10000, 20000]),
    "tests": (tests, [250, 500, 1000]),
    "retractjoin": (retractjoin, [5000, 10000, 20000]),
    "retractnot": (retractnot, [5000, 10000, 20000]),
    "tasks": (tasks, [5000, 10000, 20000]),
    "onenot": (onenot, [250, 500, 1000]),
    "agenda": (agenda, [2500, 5000, 10000]),
    "tcchain": (tcchain, [100, 200, 400]),
    "tcrand": (tcrand, [100, 200, 400]),
}
