#!/bin/sh
# Measures what names cost: the peak memory of the program for facts whose names recur, for facts of a template with many slots,
# for facts whose names are all new, and for one large item; and the processor time of reading. Where there is another build
# of the program, it is run on the same scripts; and so is CLIPS, where it is installed, on those of facts.
# Run it from anywhere, with GNU time as /usr/bin/time:
#
#     benches/names.sh [another program]
#
# It proves and builds the program first. No test depends on what it prints.
set -eu

other=${1:-}
. "$(dirname "$0")/built.sh"

# The script of this kind. The numbers of the names come from one generator, so that each run has the same.
script() {
    awk -v kind="$1" '
        function pick(n) { seed = (seed * 16807) % 2147483647; return seed % n }
        BEGIN {
            seed = 4711
            if (kind == "recurring") for (i = 1; i <= 100000; i++) {
                line = "(assert (part p-" i
                for (k = 1; k <= 9; k++) line = line " symbol-" pick(1000)
                print line "))"
            }
            if (kind == "new") for (i = 1; i <= 100000; i++) {
                line = "(assert (part"
                for (k = 1; k <= 10; k++) line = line " n-" i "-" k
                print line "))"
            }
            if (kind == "slots") {
                line = "(deftemplate part"
                for (k = 1; k <= 20; k++) line = line " (slot slot-" k ")"
                print line ")"
                for (i = 1; i <= 100000; i++) print "(assert (part (slot-1 p-" i ") (slot-2 symbol-" pick(1000) ")))"
            }
            if (kind == "large") {
                printf "(assert"
                for (i = 1; i <= 250000; i++) printf "(a)"
                print ")"
            }
            if (kind == "words") {
                printf "(assert (a"
                for (i = 1; i <= 500000; i++) printf " a"
                print "))"
            }
            if (kind == "indented") {
                print "(deftemplate part (slot id) (slot kind) (multislot at) (slot state))"
                for (i = 1; i <= 100000; i++) print "(assert\n    (part (id " i ")\n        (kind bolt-" pick(100) ")\n        (at shelf-" pick(100) " left)\n        (state new)))"
            }
            if (kind == "symbols") for (i = 1; i <= 1000000; i++) print "symbol-" pick(1000)
        }'
}

# The peak memory in kB and the processor seconds, each the least of five runs, of this program with these words.
measured() {
    for _ in 1 2 3 4 5; do
        /usr/bin/time -f '%M %U %S' "$@" <"$place/script" 2>&1 >"$place/transcript" | tail -n 1
    done | awk '{
        took = $2 + $3
        if (NR == 1 || took < least) least = took
        if (NR == 1 || $1 < peak) peak = $1
    } END { print peak, least }'
}

# What the run on the script of this kind takes, which says $2, with $3 facts or 0.
compare() {
    script "$1" >"$place/script"
    size=$(wc -c <"$place/script")
    of_other='0 0'
    of_clips=0
    if [ -n "$other" ]; then
        of_other=$(measured "$other" --max-form 16777216)
    fi
    if [ "$3" -gt 0 ] && command -v clips >/dev/null; then
        { cat "$place/script"; echo '(exit)'; } >"$place/commands"
        of_clips=$(/usr/bin/time -f '%M' clips -f2 "$place/commands" 2>&1 >"$place/transcript" </dev/null | tail -n 1)
    fi
    echo "$(measured "$program" --max-form 16777216) $of_other $of_clips" | awk -v what="$2" -v n="$3" -v size="$size" '{
        printf "%-52s %d kB, %.1f bytes a byte of script", what ":", $1, $1 * 1024 / size
        if (n > 0) printf ", %d bytes a fact", $1 * 1024 / n
        printf ", %.2f s", $2
        if ($3 > 0) printf "; to the other: memory %.2f, time %.2f", $1 / $3, $2 / $4
        if ($5 > 0) printf "; to CLIPS: memory %.2f", $1 / $5
        print ""
    }'
}

compare recurring '100,000 facts of 10 symbols, 9 of which recur' 100000
compare new '100,000 facts of 10 symbols, each of them new' 100000
compare slots '100,000 facts of a template with 20 slots' 100000
compare large 'one item of 0.75 MB, 250,000 facts' 0
compare words 'one item of 1 MB, a fact of 500,000 symbols' 0
compare indented '10 MB of facts on several lines' 0
compare symbols '11 MB of symbols' 0
