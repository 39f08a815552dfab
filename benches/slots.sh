#!/bin/sh
# Measures how the processor time and the peak memory of the program grow with the number of slots: of a template, and of a
# fact that gives them all. Slots are found by an order, so ten times the slots take little more than ten times the time.
# Run it from anywhere, with python3 and GNU time as /usr/bin/time:
#
#     benches/slots.sh
#
# It proves and builds the program first, and ends with status 1 where a ratio is over what is wanted. No test depends on it.
set -eu

. "$(dirname "$0")/built.sh"

# The script of this kind with so many slots. What is measured is done several times, since the system counts hundredths of a
# second.
script() {
    case $1 in
    template) make_script templates "$2" 20 ;;
    fact)
        make_script templates "$2" 1
        make_script facts "$2" 50
        ;;
    esac
}

# The ratios for ten times as many slots as $3, for the script of this kind, which does what $2 says.
ratios() {
    script "$1" $((10 * $3)) >"$place/script"
    many=$(measured)
    script "$1" "$3" >"$place/script"
    few=$(measured)
    echo "$many $few" | awk -v what="$2" -v n="$3" '{
        printf "%-42s %d to %d: time %.1f (wanted: at most 25), peak memory %.1f (%s s to %s s, %s kB to %s kB)\n",
            what ":", 10 * n, n, $1 / $3, $2 / $4, $1, $3, $2, $4
        exit $1 > 25 * $3
    }' || missed=1
}

missed=0
ratios template '20 templates of so many slots' 10000
ratios fact '50 facts that give so many slots' 3000
exit "$missed"
