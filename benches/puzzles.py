"""Longer rule programs for costs.py, made as in programs.py: puzzles, seats at a table, a configuration, labels of a drawing."""

import random
import re

from programs import COUNT, LIST, PRINT

# A digit is placed where a cell, a row, a column or a box leaves no other; placed digits, pairs and boxes rule others out.
SUDOKU = """
(deftemplate may (slot puzzle) (slot cell) (slot row) (slot column) (slot box) (slot digit))
(deftemplate is (slot puzzle) (slot cell) (slot row) (slot column) (slot box) (slot digit))
(defrule given
   (declare (salience 20))
   (given ?p ?k ?d)
   ?f <- (may (puzzle ?p) (cell ?k) (digit ~?d))
   =>
   (retract ?f))
(defrule one-digit
   (may (puzzle ?p) (cell ?k) (row ?r) (column ?c) (box ?b) (digit ?d))
   (not (may (puzzle ?p) (cell ?k) (digit ~?d)))
   =>
   (assert (is (puzzle ?p) (cell ?k) (row ?r) (column ?c) (box ?b) (digit ?d))))
"""
SUDOKU_PLACE = """
(defrule one-place-in-PLACE
   (may (puzzle ?p) (cell ?k) (row ?r) (column ?c) (box ?b) (digit ?d))
   (not (may (puzzle ?p) (PLACE ?V) (cell ~?k) (digit ?d)))
   =>
   (assert (is (puzzle ?p) (cell ?k) (row ?r) (column ?c) (box ?b) (digit ?d))))
(defrule not-twice-in-PLACE
   (declare (salience 10))
   (is (puzzle ?p) (cell ?k) (PLACE ?x) (digit ?d))
   ?f <- (may (puzzle ?p) (cell ~?k) (PLACE ?x) (digit ?d))
   =>
   (retract ?f))
(defrule pair-in-PLACE
   (may (puzzle ?p) (cell ?k) (PLACE ?x) (digit ?d))
   (may (puzzle ?p) (cell ?k) (digit ?e&:(> ?e ?d)))
   (not (may (puzzle ?p) (cell ?k) (digit ~?d&~?e)))
   (may (puzzle ?p) (cell ?m&~?k) (PLACE ?x) (digit ?d))
   (may (puzzle ?p) (cell ?m) (digit ?e))
   (not (may (puzzle ?p) (cell ?m) (digit ~?d&~?e)))
   ?f <- (may (puzzle ?p) (cell ~?k&~?m) (PLACE ?x) (digit ?d|?e))
   =>
   (retract ?f))
"""
SUDOKU_CELL = """
(defrule no-other-digit
   (declare (salience 10))
   (is (puzzle ?p) (cell ?k) (digit ?d))
   ?f <- (may (puzzle ?p) (cell ?k) (digit ~?d))
   =>
   (retract ?f))
(defrule locked
   (may (puzzle ?p) (box ?b) (row ?r) (digit ?d))
   (not (may (puzzle ?p) (box ?b) (row ~?r) (digit ?d)))
   ?f <- (may (puzzle ?p) (box ~?b) (row ?r) (digit ?d))
   =>
   (retract ?f))
(defrule count (declare (salience -10)) (is) => COUNT)
"""


def sudoku(n):
    rules = SUDOKU + SUDOKU_CELL.replace("COUNT", COUNT)
    for place in "row", "column", "box":
        rules += SUDOKU_PLACE.replace("PLACE", place).replace("?V", "?" + place[0])
    rnd = random.Random(3)
    facts = []
    for p in range(n):
        digits = rnd.sample(range(1, 10), 9)
        shown = rnd.sample(range(81), 34)
        for k in range(81):
            r, c = divmod(k, 9)
            b = r // 3 * 3 + c // 3
            may = "(may (puzzle %d) (cell %d) (row %d) (column %d) (box %d) " % (p, k, r, c, b)
            facts += [may + "(digit %d))" % d for d in range(1, 10)]
            if k in shown:
                facts.append("(given %d %d %d)" % (p, k, digits[(r * 3 + r // 3 + c) % 9]))
    return [rules], facts, LIST


# Who keeps the zebra: kind, name, and the letter of the house, in the order in which the rule joins them. `/` and a test follow
# where two houses are neighbours.
ZEBRA = """
nation english a, colour red a, nation spanish b, pet dog b, drink coffee c, colour green c, nation ukrainian d, drink tea d,
colour ivory e/(= ?c (+ ?e 1)), smokes gold f, pet snails f, smokes kools g, colour yellow g, drink milk h/(= ?h 3),
nation norwegian i/(= ?i 1), smokes chesterfield j, pet fox k/(= 1 (abs (- ?k ?j))), pet horse l/(= 1 (abs (- ?l ?g))),
smokes lucky m, drink juice m, nation japanese o, smokes parliament o, colour blue q/(= 1 (abs (- ?q ?i))), pet zebra r,
drink water s
"""


def zebra(n):
    elements, facts, before = [], [], {}
    for clue in ZEBRA.split(","):
        clue, _, test = clue.strip().partition("/")
        kind, name, house = clue.split()
        others = before.setdefault(kind, [])
        parts = ["?" + house] + ["~?" + other for other in others] + ([":" + test] if test else [])
        elements.append("(is ?p %s %s %s)" % (kind, name, "&".join(parts)))
        others.append(house)
        facts += [(kind, name, h) for h in range(1, 6)]
    rule = "(defrule solve %s => (printout t ?p \" zebra \" ?r \" water \" ?s crlf))" % "\n   ".join(elements)
    return [rule], ["(is %d %s %s %d)" % (p, *fact) for p in range(n) for fact in facts], ["(reset)", "(run)"]


# Miss Manners: guests are seated so that neighbours differ in sex and share a hobby.
MANNERS = """
(deftemplate guest (slot name) (slot sex) (slot hobby))
(deftemplate seating (slot seat) (slot left) (slot right) (slot id) (slot before) (slot is-done))
(deftemplate path (slot id) (slot name) (slot seat))
(deftemplate chosen (slot id) (slot name) (slot hobby))
(deftemplate context (slot state))
(deftemplate next (slot id))
(defrule begin
   ?c <- (context (state begin))
   (first ?n)
   ?k <- (next (id ?x))
   =>
   (assert (seating (seat 1) (left ?n) (right ?n) (id ?x) (before 0) (is-done yes)))
   (assert (path (id ?x) (name ?n) (seat 1)))
   (modify ?k (id (+ ?x 1)))
   (modify ?c (state find)))
(defrule find
   ?c <- (context (state find))
   (seating (seat ?s) (right ?g) (id ?id) (is-done yes))
   (guest (name ?g) (sex ?sex) (hobby ?h))
   (guest (name ?n) (sex ~?sex) (hobby ?h))
   ?k <- (next (id ?x))
   (not (path (id ?id) (name ?n)))
   (not (chosen (id ?id) (name ?n) (hobby ?h)))
   =>
   (assert (seating (seat (+ ?s 1)) (left ?g) (right ?n) (id ?x) (before ?id) (is-done no)))
   (assert (path (id ?x) (name ?n) (seat (+ ?s 1))))
   (assert (chosen (id ?id) (name ?n) (hobby ?h)))
   (modify ?k (id (+ ?x 1)))
   (modify ?c (state make)))
(defrule make
   (declare (salience 1))
   (context (state make))
   (seating (id ?id) (before ?before) (is-done no))
   (path (id ?before) (name ?n) (seat ?s))
   (not (path (id ?id) (name ?n)))
   =>
   (assert (path (id ?id) (name ?n) (seat ?s))))
(defrule made
   ?c <- (context (state make))
   ?f <- (seating (is-done no))
   =>
   (modify ?f (is-done yes))
   (modify ?c (state check)))
(defrule done
   (declare (salience 1))
   (context (state check))
   (last ?s)
   (seating (seat ?s))
   =>
   (printout t "seated " ?s crlf)
   (halt))
(defrule go-on
   ?c <- (context (state check))
   =>
   (modify ?c (state find)))
"""


def manners(n):
    facts = [
        "(guest (name n%d) (sex %s) (hobby %d))" % (i, "mf"[i % 2], (i + k * k) % 5)
        for i in range(1, n + 1)
        for k in range(3)
    ]
    facts += ["(last %d)" % n, "(first n1)", "(next (id 1))", "(context (state begin))"]
    return [MANNERS], facts, ["(reset)", "(run)"]


# Modules of an order are put into the first rack with room for them, and racks are opened and cabled as they are wanted.
CONFIG = """
(deftemplate wanted (slot line) (slot kind) (slot count))
(deftemplate kind (slot name) (slot width) (slot watts) (slot zone))
(deftemplate module (slot id) (slot kind) (slot rack (default none)))
(deftemplate rack (slot id) (slot zone) (slot room) (slot power))
(deftemplate cable (slot from) (slot to))
(defrule expand
   (declare (salience 10))
   ?w <- (wanted (line ?l) (kind ?k) (count ?n&~0))
   (not (wanted (line ?other&:(< ?other ?l)) (count ~0)))
   ?m <- (made ?i)
   =>
   (modify ?w (count (- ?n 1)))
   (retract ?m)
   (assert (made (+ ?i 1)) (module (id (+ ?i 1)) (kind ?k))))
(defrule put
   ?t <- (turn ?i)
   ?m <- (module (id ?i) (kind ?k) (rack none))
   (kind (name ?k) (width ?w) (watts ?e) (zone ?z))
   ?r <- (rack (id ?id) (zone ?z) (room ?room&:(>= ?room ?w)) (power ?power&:(>= ?power ?e)))
   (not (rack (zone ?z) (id ?other&:(< ?other ?id)) (room ?v&:(>= ?v ?w)) (power ?u&:(>= ?u ?e))))
   =>
   (modify ?m (rack ?id))
   (modify ?r (room (- ?room ?w)) (power (- ?power ?e)))
   (retract ?t)
   (assert (turn (+ ?i 1))))
(defrule open
   (turn ?i)
   (module (id ?i) (kind ?k) (rack none))
   (kind (name ?k) (width ?w) (watts ?e) (zone ?z))
   (not (rack (zone ?z) (room ?v&:(>= ?v ?w)) (power ?u&:(>= ?u ?e))))
   ?o <- (opened ?n)
   =>
   (retract ?o)
   (assert (opened (+ ?n 1)) (rack (id (+ ?n 1)) (zone ?z) (room 20) (power 900))))
(defrule connect
   (declare (salience -5))
   (rack (id ?a) (zone ?z))
   (rack (id ?b&:(> ?b ?a)) (zone ?z))
   (not (rack (id ?c&:(> ?c ?a)&:(< ?c ?b)) (zone ?z)))
   =>
   (assert (cable (from ?a) (to ?b))))
(defrule mixed
   (declare (salience -5))
   (module (id ?i) (kind ?k) (rack ?r))
   (exists (module (rack ?r) (kind ~?k)))
   =>
   COUNT)
"""


def config(n):
    rnd = random.Random(5)
    form = "(kind (name k%d) (width %d) (watts %d) (zone z%d))"
    kinds = [form % (i, rnd.randint(1, 6), rnd.randint(5, 200), i % 3) for i in range(20)]
    wanted = ["(wanted (line %d) (kind k%d) (count %d))" % (i, i * 7 % 20, n // 20) for i in range(20)]
    return [CONFIG.replace("COUNT", COUNT)], kinds + ["(made 0)", "(opened 0)", "(turn 1)"] + wanted, LIST


# Waltz's labels: the lines of drawn cubes are seen from both ends, each corner gets its kind and the readings of that kind, and a
# reading falls where no reading of the corner at the other end of a line fits it. Ends are numbered counterclockwise.
WALTZ = """
(deftemplate line (slot from) (slot to))
(deftemplate edge (slot from) (slot to) (slot line))
(deftemplate place (slot corner) (slot cube) (slot x) (slot y))
(deftemplate end (slot corner) (slot position) (slot line) (slot to))
(deftemplate reading (slot kind) (slot number) (slot position) (slot label))
(deftemplate may (slot corner) (slot number))
(defrule both-ways
   (stage edges)
   ?l <- (line (from ?a) (to ?b))
   =>
   (bind ?line (sym-cat ?a - ?b))
   (retract ?l)
   (assert (edge (from ?a) (to ?b) (line ?line)) (edge (from ?b) (to ?a) (line ?line))))
(defrule arrow
   (stage corners)
   THREE
   (test (< (TURN r p) 0))
   =>
   (assert (kind ?j arrow) ENDS))
(defrule fork
   (stage corners)
   THREE
   (test (> (TURN r p) 0))
   (test (and (< ?p ?q) (< ?p ?r)))
   =>
   (assert (kind ?j fork) ENDS))
(defrule bend
   (stage corners)
   (edge (from ?j) (to ?p) (line ?lp))
   (edge (from ?j) (to ?q&~?p) (line ?lq))
   (not (edge (from ?j) (to ~?p&~?q)))
   (place (corner ?j) (x ?xj) (y ?yj))
   (place (corner ?p) (x ?xp) (y ?yp))
   (place (corner ?q) (x ?xq) (y ?yq))
   (test (> (TURN p q) 0))
   =>
   (assert (kind ?j bend) TWO-ENDS))
(defrule readings
   (stage readings)
   (kind ?j ?kind)
   (reading (kind ?kind) (number ?n) (position 1))
   =>
   (assert (may (corner ?j) (number ?n))))
(defrule outside
   (stage outside)
   (place (corner ?j) (cube ?c) (y ?y))
   (not (place (cube ?c) (y ?other&:(< ?other ?y))))
   ?m <- (may (corner ?j) (number ~arrow-0))
   =>
   (retract ?m))
(defrule refuted
   (stage labels)
   ?m <- (may (corner ?j) (number ?n))
   (end (corner ?j) (position ?i) (line ?l) (to ?k))
   (reading (number ?n) (position ?i) (label ?a))
   (opposite ?a ?b)
   (end (corner ?k) (position ?o) (line ?l))
   (not (and (may (corner ?k) (number ?r)) (reading (number ?r) (position ?o) (label ?b))))
   =>
   COUNT
   (retract ?m))
(defrule told
   (stage told)
   (may (corner ?j) (number ?n))
   (end (corner ?j) (position ?i) (line ?l) (to ?k&:(< ?j ?k)))
   (reading (number ?n) (position ?i) (label ?a))
   =>
   (printout t ?l " " ?a crlf))
(defrule next-stage
   (declare (salience -10))
   ?s <- (stage ?before)
   (after ?before ?stage)
   =>
   (retract ?s)
   (assert (stage ?stage)))
"""
WALTZ_THREE = """(edge (from ?j) (to ?p) (line ?lp))
   (edge (from ?j) (to ?q&~?p) (line ?lq))
   (edge (from ?j) (to ?r&~?p&~?q) (line ?lr))
   (place (corner ?j) (x ?xj) (y ?yj))
   (place (corner ?p) (x ?xp) (y ?yp))
   (place (corner ?q) (x ?xq) (y ?yq))
   (place (corner ?r) (x ?xr) (y ?yr))
   (test (> (TURN p q) 0))
   (test (> (TURN q r) 0))"""
STAGES = ["edges", "corners", "readings", "outside", "labels", "told"]
READINGS = {
    "arrow": ["in + out", "+ - +", "- + -"],
    "fork": ["+ + +", "- - -", "- out in", "in - out", "out in -"],
    "bend": ["in out", "out in", "in +", "+ out", "out -", "- in"],
}
CORNERS = [(4, 0), (8, 2), (8, 6), (4, 8), (0, 6), (0, 2), (4, 4)]
LINES = [(0, 1), (1, 2), (2, 3), (3, 4), (4, 5), (5, 0), (6, 0), (6, 2), (6, 4)]


def waltz(n):
    ends = ["(end (corner ?j) (position %d) (line ?l%s) (to ?%s))" % (i, c, c) for i, c in ((1, "p"), (2, "q"), (3, "r"))]
    rules = WALTZ.replace("TWO-ENDS", " ".join(ends[:2])).replace("ENDS", " ".join(ends))
    rules = rules.replace("THREE", WALTZ_THREE).replace("COUNT", COUNT)
    # whether the way from the one line to the other is a turn to the left
    turn = r"(- (* (- ?x\1 ?xj) (- ?y\2 ?yj)) (* (- ?y\1 ?yj) (- ?x\2 ?xj)))"
    rules = re.sub(r"\(TURN (.) (.)\)", turn, rules)
    facts = ["(after %s %s)" % pair for pair in zip(STAGES, STAGES[1:])]
    facts += ["(opposite %s)" % pair for pair in ("+ +", "- -", "in out", "out in")]
    for kind, rows in READINGS.items():
        for k, row in enumerate(rows):
            reading = "(reading (kind %s) (number %s-%d) " % (kind, kind, k)
            facts += [reading + "(position %d) (label %s))" % it for it in enumerate(row.split(), 1)]
    for c in range(n):
        for k, (x, y) in enumerate(CORNERS):
            facts.append("(place (corner %d) (cube %d) (x %d) (y %d))" % (c * 10 + k, c, c * 10 + x, y))
        facts += ["(line (from %d) (to %d))" % (c * 10 + a, c * 10 + b) for a, b in LINES]
    return [rules], facts + ["(stage edges)"], ["(reset)", "(run)", PRINT]


PUZZLES = {
    "sudoku": (sudoku, [3, 6, 12]),
    "zebra": (zebra, [25, 50, 100]),
    "manners": (manners, [16, 32, 64]),
    "config": (config, [200, 400, 800]),
    "waltz": (waltz, [25, 50, 100]),
}
