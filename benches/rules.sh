#!/bin/sh
# Measures rules that fire: the processor time of small rule programs against CLIPS 6.30 on the same scripts, whose constructs CLIPS
# reads by `load*` and whose commands by its option `-f2`; and how the time of a run grows with its firings.
# Run it from anywhere, with python3 and GNU time as /usr/bin/time, and with CLIPS as `clips` (Debian's package of that name);
# where it isn't installed, the lines that need it are left out:
#
#     benches/rules.sh
#
# It proves and builds the program first. No test depends on it.
set -eu

. "$(dirname "$0")/built.sh"

# Says how the processor time of constructs and commands compares with CLIPS.
against_clips() {
    cat "$place/constructs" "$place/commands" >"$place/script"
    here=$(least_of_five "$program" --max-firings 1000000000)
    command -v clips >/dev/null || { echo "$1: $here s; not compared, as there is no program clips"; return; }
    { echo "(load* \"$place/constructs\")" && cat "$place/commands" && echo '(exit)'; } >"$place/batch"
    : >"$place/script"
    there=$(least_of_five clips -f2 "$place/batch")
    echo "$here $there" | awk -v what="$1" '{
        printf "%-60s time %.2f of CLIPS (%s s to %s s)\n", what ":", $1 / $3, $1, $3
    }'
}

cat >"$place/constructs" <<'END'
(defrule count
   ?n <- (n ?x&:(< ?x 100000))
   =>
   (retract ?n)
   (assert (n (+ ?x 1))))
END
cat >"$place/commands" <<'END'
(assert (n 0))
(run)
END
against_clips 'one rule that counts to 100,000 by retract and assert'

cat >"$place/constructs" <<'END'
(deftemplate state (slot a (type INTEGER)) (slot b (type INTEGER)))
(defrule step
   ?s <- (state (a ?a) (b ?b))
   (test (> ?b 0))
   =>
   (retract ?s)
   (assert (state (a ?b) (b (mod ?a ?b)))))
(defrule done
   ?s <- (state (a ?a) (b 0))
   (next ?n)
   =>
   (retract ?s)
   (assert (ready ?n)))
(defrule again
   ?r <- (ready ?n)
   ?f <- (next ?n&:(< ?n 5000))
   =>
   (retract ?r ?f)
   (assert (next (+ ?n 1)) (state (a 832040) (b (+ 514229 ?n)))))
END
cat >"$place/commands" <<'END'
(assert (next 1) (ready 1))
(run)
END
against_clips 'greatest common divisors, 5,000 of them, by three rules'

cat >"$place/constructs" <<'END'
(defrule pair (left ?x ?y) (right ?x ?z) => (assert (pair ?y ?z)))
END
awk 'BEGIN { for (i = 1; i <= 20000; i++) printf "(assert (left %d l%d) (right %d r%d))\n", i, i, i, i; print "(run)" }' >"$place/commands"
against_clips 'a join of 20,000 facts with 20,000'

cat >"$place/constructs" <<'END'
(defrule pair (left ?x) (right ?x) =>)
(defrule out (declare (salience -1)) ?l <- (left ?x) => (retract ?l))
END
awk 'BEGIN { for (i = 1; i <= 20000; i++) printf "(assert (left %d) (right %d))\n", i, i; print "(run)" }' >"$place/commands"
against_clips 'the same, and each of 20,000 facts retracted by a rule'

cat >"$place/constructs" <<'END'
(defrule pair (left ?x) (right ?y) (test (= ?x (+ ?y 1))) =>)
END
awk 'BEGIN { for (i = 1; i <= 1000; i++) printf "(assert (left %d) (right %d))\n", i, i; print "(run)" }' >"$place/commands"
against_clips 'a `test` behind two patterns of 1,000 facts each'

cat >"$place/constructs" <<'END'
(defrule edge (edge ?x ?y) => (assert (path ?x ?y)))
(defrule longer (edge ?x ?y) (path ?y ?z) => (assert (path ?x ?z)))
END
awk 'BEGIN { for (i = 1; i < 300; i++) printf "(assert (edge %d %d))\n", i, i + 1; print "(run)" }' >"$place/commands"
against_clips 'the paths along a chain of 300, 44,850 of them'

cat >"$place/constructs" <<'END'
(defrule work (task ?x) (not (done ?x)) => (assert (done ?x)))
END
awk 'BEGIN { for (i = 1; i <= 20000; i++) printf "(assert (task %d))\n", i; print "(run)" }' >"$place/commands"
against_clips 'a `not` for each of 20,000 tasks'

cat >"$place/constructs" <<'END'
(defrule start ?t <- (task ?x) (not (busy ?)) => (retract ?t) (assert (busy ?x)))
(defrule end ?b <- (busy ?) => (retract ?b))
END
awk 'BEGIN { for (i = 1; i <= 1000; i++) printf "(assert (task %d))\n", i; print "(run)" }' >"$place/commands"
against_clips 'one `not` that opens and closes for 1,000 tasks'

cat >"$place/constructs" <<'END'
(defrule done ?t <- (task ?x) => (retract ?t))
END
awk 'BEGIN { for (i = 1; i <= 20000; i++) printf "(assert (task %d))\n", i; print "(run)" }' >"$place/commands"
against_clips '20,000 tasks, retracted one by one'

awk 'BEGIN { for (i = 1; i <= 1000; i++) printf "(defrule r%d (event %d ?x) => (assert (seen %d)))\n", i, i, i }' >"$place/constructs"
awk 'BEGIN { for (i = 1; i <= 1000; i++) printf "(assert (event %d %d))\n", i, i; print "(run)" }' >"$place/commands"
against_clips 'a thousand rules for facts of one relation'

cat >"$place/constructs" <<'END'
(defrule swap ?l <- (list $?a ?x ?y&:(< ?y ?x) $?b) => (retract ?l) (assert (list ?a ?y ?x ?b)))
END
awk 'BEGIN { printf "(assert (list"; for (i = 60; i > 0; i--) printf " %d", i; print "))"; print "(run)" }' >"$place/commands"
against_clips 'a sort of 60 numbers in one fact'

awk 'BEGIN { for (i = 0; i < 20; i++) printf "(defrule s%d (declare (salience %d)) (item %d ?x) => (assert (did %d ?x)))\n", i, i, i, i }' >"$place/constructs"
awk 'BEGIN { for (i = 1; i <= 10000; i++) printf "(assert (item %d %d))\n", i % 20, i; print "(run)" }' >"$place/commands"
against_clips '10,000 activations of twenty saliences'

# Miss Manners: guests are seated so that neighbours differ in sex and share a hobby.
cat >"$place/constructs" <<'END'
(deftemplate guest (slot name) (slot sex) (slot hobby))
(deftemplate seating (slot seat) (slot left) (slot right) (slot id) (slot before) (slot is-done))
(deftemplate path (slot id) (slot name) (slot seat))
(deftemplate chosen (slot id) (slot name) (slot hobby))
(defrule begin
   ?c <- (context begin)
   (guest (name ?n))
   ?k <- (count ?x)
   =>
   (retract ?c ?k)
   (assert (seating (seat 1) (left ?n) (right ?n) (id ?x) (before 0) (is-done yes)))
   (assert (path (id ?x) (name ?n) (seat 1)))
   (assert (count (+ ?x 1)) (context find)))
(defrule find
   ?c <- (context find)
   (seating (seat ?s) (right ?g) (id ?id) (is-done yes))
   (guest (name ?g) (sex ?sex) (hobby ?h))
   (guest (name ?n) (sex ~?sex) (hobby ?h))
   ?k <- (count ?x)
   (not (path (id ?id) (name ?n)))
   (not (chosen (id ?id) (name ?n) (hobby ?h)))
   =>
   (retract ?c ?k)
   (assert (seating (seat (+ ?s 1)) (left ?g) (right ?n) (id ?x) (before ?id) (is-done no)))
   (assert (path (id ?x) (name ?n) (seat (+ ?s 1))))
   (assert (chosen (id ?id) (name ?n) (hobby ?h)))
   (assert (count (+ ?x 1)) (context make)))
(defrule make
   (declare (salience 1))
   (context make)
   (seating (id ?id) (before ?before) (is-done no))
   (path (id ?before) (name ?n) (seat ?s))
   (not (path (id ?id) (name ?n)))
   =>
   (assert (path (id ?id) (name ?n) (seat ?s))))
(defrule made
   ?c <- (context make)
   ?f <- (seating (seat ?s) (left ?l) (right ?r) (id ?id) (before ?before) (is-done no))
   =>
   (retract ?c ?f)
   (assert (seating (seat ?s) (left ?l) (right ?r) (id ?id) (before ?before) (is-done yes)))
   (assert (context check)))
(defrule done
   (declare (salience 1))
   (context check)
   (last ?s)
   (seating (seat ?s))
   =>
   (halt))
(defrule go-on
   ?c <- (context check)
   =>
   (retract ?c)
   (assert (context find)))
END
awk 'BEGIN {
    for (i = 1; i <= 64; i++)
        for (k = 0; k < 3; k++)
            printf "(assert (guest (name n%d) (sex %s) (hobby %d)))\n", i, i % 2 ? "f" : "m", (i + k * k) % 5
    print "(assert (last 64) (count 1))\n(assert (context begin))\n(run)"
}' >"$place/commands"
against_clips 'Miss Manners with 64 guests'

# The time of counting to so many.
counting() {
    cat >"$place/script" <<END
(defrule count ?n <- (n ?x&:(< ?x $1)) => (retract ?n) (assert (n (+ ?x 1))))
(assert (n 0))
(run)
END
    least_of_five "$program" --max-firings 1000000000 | cut -d ' ' -f 1
}

echo "$(counting 20000) $(counting 200000)" | awk '{
    printf "ten times the firings: %.1f times the time (%s s to %s s)\n", $2 / $1, $2, $1
}'

# The time of joining so many facts with as many.
joining() {
    { echo '(defrule pair (left ?x ?y) (right ?x ?z) => (assert (pair ?y ?z)))'
      awk -v most="$1" 'BEGIN { for (i = 1; i <= most; i++) printf "(assert (left %d l%d) (right %d r%d))\n", i, i, i, i; print "(run)" }'
    } >"$place/script"
    least_of_five "$program" --max-firings 1000000000 | cut -d ' ' -f 1
}

echo "$(joining 10000) $(joining 100000)" | awk '{
    printf "ten times the facts to join: %.1f times the time (%s s to %s s)\n", $2 / $1, $2, $1
}'
