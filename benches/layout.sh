#!/bin/sh
# Measures what the layout of a script costs: blanks inside a list against as many outside lists, and facts that are indented
# over several lines against CLIPS 6.30 on the same facts, which loads constructs by `load*` and commands by its option `-f2`.
# Run it from anywhere, with python3 and GNU time as /usr/bin/time, and with CLIPS as `clips` (Debian's package of that name);
# where it isn't installed, the lines that need it are left out:
#
#     benches/layout.sh
#
# It proves and builds the program first, and ends with status 1 where a ratio is over what is wanted. No test depends on it.
set -eu

. "$(dirname "$0")/built.sh"

# Says how the first run, which $1 names, compares with the second, and whether it takes at most $2 times as long.
compare() {
    echo "$3 $4" | awk -v what="$1" -v wanted="$2" '{
        printf "%-72s time %.2f (wanted: at most %s), peak memory %.2f (%s s to %s s, %s kB to %s kB)\n",
            what ":", $1 / $3, wanted, $2 / $4, $1, $3, $2, $4
        exit $1 > wanted * $3
    }' || missed=1
}

missed=0

# Ten times 10 MB of blanks.
blanks() {
    make_script "$1" 10000000 >"$place/once"
    for _ in 1 2 3 4 5 6 7 8 9 10; do cat "$place/once"; done >"$place/script"
    measured
}

inside=$(blanks inside)
outside=$(blanks outside)
compare '10 MB of blanks inside a list, to 10 MB outside' 4 "$inside" "$outside"

# These constructs and then these commands, here and in CLIPS.
against_clips() {
    cat "$place/constructs" "$place/commands" >"$place/script"
    here=$(measured)
    {
        echo "(load* \"$place/constructs\")"
        cat "$place/commands"
        echo '(exit)'
    } >"$place/batch"
    : >"$place/script"
    there=$(least_of_five clips -f2 "$place/batch")
    compare "$1, to CLIPS" 0.5 "$here" "$there"
}

# So many deffacts, each of so many facts.
deffacts_against_clips() {
    { make_script person && make_script deffacts "$1" "$2"; } >"$place/constructs"
    echo '(reset)' >"$place/commands"
    against_clips "$1 deffacts of $2 indented facts, and a reset"
}

if command -v clips >/dev/null; then
    make_script person >"$place/constructs"
    make_script asserts 100000 >"$place/commands"
    against_clips '100000 indented facts asserted'
    deffacts_against_clips 1000 100
    deffacts_against_clips 1 100000
else
    echo 'indented facts, to CLIPS: left out, as there is no program clips'
fi
exit "$missed"
