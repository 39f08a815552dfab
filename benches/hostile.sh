#!/bin/sh
# Measures that no rules and facts make matching slow or deep, each at a size and at twice that: long chains of joins, rules of 64
# branches, groups in groups as deep as they may be, rules of many variables and groups, a fact in many ways, values that differ in
# their last bytes alone, facts that are modified, and firings; all under 64 kB of stack, the nested groups under 2 MB, and the
# firings with 64 MB of address space too.
# Run it from anywhere, with GNU time as /usr/bin/time:
#
#     benches/hostile.sh
#
# It proves and builds the program first, and ends with status 1 where a ratio is over its bound, or a run doesn't end with status 0.
# No test depends on it.
set -eu

. "$(dirname "$0")/built.sh"

# The script of this kind and size.
script() {
    case $1 in
    chain) awk -v n="$2" 'BEGIN {
        printf "(defrule chain"
        for (i = 1; i <= 100; i++) printf " (r%d ?x%d ?x%d)", i, i, i + 1
        print " =>)"
        for (j = 1; j <= n; j++) {
            printf "(assert"
            for (i = 1; i <= 100; i++) printf " (r%d %d %d)", i, j, j
            print ")"
        }
    }' ;;
    branches) awk -v n="$2" 'BEGIN {
        printf "(defrule branches"
        for (i = 1; i <= 6; i++) printf " (or (a ?x) (b ?x))"
        for (i = 1; i <= 14; i++) printf " (p%d ?x)", i
        print " =>)"
        for (j = 1; j <= n; j++) {
            printf "(assert (a %d)", j
            for (i = 1; i <= 14; i++) printf " (p%d %d)", i, j
            print ")"
        }
    }' ;;
    nested) awk -v n="$2" 'BEGIN {
        printf "(defrule nested (c ?x)"
        for (i = 1; i <= 198; i++) printf " (forall (a ?x)"
        for (i = 1; i <= 198; i++) printf (i > 1 ? ")" : " (b ?x))")
        print " =>)"
        for (j = 1; j <= n; j++) printf "(assert (c %d) (a %d) (b %d))\n", j, j, j
    }' ;;
    groups) awk -v n="$2" 'BEGIN {
        printf "(defrule groups (a"
        for (i = 1; i <= n; i++) printf " ?x%d", i
        printf ")"
        for (i = 1; i <= n; i++) printf " (not (b ?x%d))", i
        print " =>)"
    }' ;;
    ways | around) awk -v n="$2" -v kind="$1" 'BEGIN {
        print "(defrule segments (l $?a " (kind == "around" ? "x " : "") "$?b) =>)"
        printf "(assert (l"
        for (i = 1; i <= n; i++) printf " y"
        print (kind == "around" ? " x" : "") "))"
    }' ;;
    tails) awk -v n="$2" 'BEGIN {
        for (i = 1; i <= 100; i++) same = same "k"
        print "(defrule join (a ?x) (b ?x) =>)"
        for (j = 1; j <= n; j++) printf "(assert (a %s%d) (b %s%d))\n", same, j, same, j
    }' ;;
    depth | breadth) cat <<END
(set-strategy $1)
(deftemplate c (slot n) (slot k))
(defrule next ?f <- (c (k ?k&:(< ?k 2))) => (modify ?f (k (+ ?k 1))))
(bind ?i 0)
(while (< ?i $2) do (assert (c (n ?i) (k 0))) (bind ?i (+ ?i 1)))
END
    ;;
    firings) cat <<END
(defrule count ?n <- (n ?x&:(< ?x $2)) => (retract ?n) (assert (n (+ ?x 1))))
(assert (n 0))
END
    ;;
    esac
    echo '(run)'
}

# The address space of a run on a script of this kind, in kB.
space() {
    case $1 in
    firings) echo 65536 ;;
    *) echo unlimited ;;
    esac
}

# The stack of a run on a script of this kind, in kB.
stack() {
    case $1 in
    nested) echo 2048 ;;
    *) echo 64 ;;
    esac
}

# The processor seconds of a run on that script with so little stack, the least of three.
seconds() {
    script "$1" "$2" >"$place/script"
    for _ in 1 2 3; do
        (ulimit -s "$(stack "$1")" && ulimit -v "$(space "$1")" && /usr/bin/time -f '%U %S %x' "$program" --max-firings 1000000000 --max-form 16777216 <"$place/script" 2>&1 >"$place/transcript" | tail -n 1)
    done | awk '{ took = $1 + $2; if (NR == 1 || took < least) least = took; if ($3 != 0) least = 99999 } END { print least }'
}

# How the time for twice the size compares, for what $1 says: at most $5.
twice() {
    echo "$(seconds "$2" "$4") $(seconds "$2" "$3")" | awk -v what="$1" -v most="$5" '{
        printf "%-64s %.2f, at most %s (%s s to %s s)\n", what ":", $1 / ($2 + 0.001), most, $1, $2
        exit $1 > most * ($2 + 0.001) || $1 >= 99999
    }' || failed=1
}

failed=0
twice 'a rule of 100 patterns, each joined with the next, 200 to 100 rows' chain 100 200 3
twice 'a rule of 64 branches of 20 patterns, 200 to 100 values' branches 100 200 3
twice '198 groups of two in one another, 400 to 200 values' nested 200 400 3
twice 'a rule of 20,000 variables and as many groups, to 10,000' groups 10000 20000 3
twice 'a fact of 1,000,000 fields around a constant, to 500,000' around 500000 1000000 3
twice 'a fact of 100,000 fields in as many ways, to 50,000' ways 50000 100000 3
twice 'a join of 100,000 facts by values of 100 equal bytes first, to 50,000' tails 25000 50000 3
twice '100,000 facts modified one by one under depth, to 50,000' depth 50000 100000 3
twice '100,000 facts modified one by one under breadth, to 50,000' breadth 50000 100000 3
twice '2,000,000 firings, to 1,000,000' firings 1000000 2000000 3
exit $failed
