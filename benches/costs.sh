#!/bin/sh
# Measures rule programs beside CLIPS 6.30, each at three sizes: processor time and peak memory of both, the ratios, and how both
# grow from size to size; at the end the geometric means at the greatest sizes, and the worst. costs.py makes the programs, whose
# constructs CLIPS reads by `load*` and whose commands by its option `-f2`. Both must print the same lines, in some order and under
# some indices. A run ends after 60 s.
# Run it from anywhere, with Python 3, GNU time as /usr/bin/time, and CLIPS as `clips` (Debian's package of that name):
#
#     benches/costs.sh            all programs
#     benches/costs.sh NAME..     those of these names
#
# It proves and builds the program first, and ends with status 1 where the lines differ. No test depends on it.
set -eu

command -v clips >/dev/null || { echo 'left out, as there is no program clips'; exit; }
benches=$(cd "$(dirname "$0")" && pwd)
. "$benches/built.sh"

# Runs the words after the first on the script, and notes under the first how long it took and how much memory.
spend() {
    of=$1
    shift
    (ulimit -t 60 && /usr/bin/time -q -o "$place/time" -f "$of %U %S %M" "$@" <"$place/script" >"$place/$of" 2>/dev/null) || true
    tail -n 1 "$place/time" >>"$place/spent"
}

# What a run printed, without what the two programs number or show in ways of their own.
lines() {
    sed -E '/^<Fact-[0-9]+>$/d; /\(initial-fact\)/d; /^For a total of /d; s/f-[0-9]+ */f- /g; s/^FIRE +[0-9]+/FIRE/' "$place/$1" | sort
}

# Name, size, seconds and kB of ours, seconds and kB of CLIPS, each the least of three runs, and whether both print the same.
both() {
    python3 -B "$benches/costs.py" "$1" "$2" "$place"
    cat "$place/constructs" "$place/commands" >"$place/script"
    { echo "(load* \"$place/constructs\")" && cat "$place/commands" && echo '(exit)'; } >"$place/batch"
    : >"$place/spent"
    for _ in 1 2 3; do
        spend ours "$program" --max-firings 1000000000
        spend theirs clips -f2 "$place/batch"
        # once is enough where it takes long
        awk '{ all += $2 + $3 } END { exit all > 10 }' "$place/spent" || break
    done
    lines ours >"$place/ours-lines"
    lines theirs >"$place/theirs-lines"
    same=same
    cmp -s "$place/ours-lines" "$place/theirs-lines" || same=differ
    awk -v what="$1 $2" -v same=$same '
        !($1 in time) || $2 + $3 < time[$1] { time[$1] = $2 + $3 }
        !($1 in memory) || $4 < memory[$1] { memory[$1] = $4 }
        END {
            if (time["ours"] > 59 || time["theirs"] > 59) same = "ended"
            print what, time["ours"], memory["ours"], time["theirs"], memory["theirs"], same
        }' "$place/spent"
}

python3 -B "$benches/costs.py" | while read -r name sizes; do
    case " ${*:-$name} " in
    *" $name "*) for size in $sizes; do both "$name" "$size"; done ;;
    esac
done | python3 -B "$benches/costs_table.py"
