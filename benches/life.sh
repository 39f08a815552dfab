#!/bin/sh
# Measures how the processor time of the program grows with the number of facts, deffacts and templates: facts asserted and
# listed, retracted from the front, from the back and all at once, and asserted by reset.
# Run it from anywhere, with GNU time as /usr/bin/time:
#
#     benches/life.sh
#
# It proves and builds the program first. No test depends on what it prints.
set -eu

. "$(dirname "$0")/built.sh"

# For each i from 1 to $2, and for a $3 of -1 from $2 down to 1, the line $1 with i in the place of each &.
lines() {
    if [ "${3:-1}" -lt 0 ]; then
        seq "$2" -1 1
    else
        seq "$2"
    fi | sed "s/.*/$1/"
}

template='(deftemplate part (slot id (type INTEGER)) (slot kind (default bolt)) (multislot at))'

# The script of this kind with n = $2.
script() {
    echo "$template"
    case $1 in
    asserted | listed | front | back | all) lines '(assert (part (id &) (at shelf &)))' "$2" ;;
    ordered) lines '(assert (part-& bolt & shelf))' "$2" ;;
    esac
    case $1 in
    listed) echo '(facts)' ;;
    front) lines '(retract &)' "$2" ;;
    back) lines '(retract &)' "$2" -1 ;;
    all) echo '(retract *)' ;;
    deffacts) lines '(deffacts part-& (part (id &) (at shelf &)))' "$2" ;;
    reset)
        lines '(deffacts part-& (part (id &) (at shelf &)))' "$2"
        echo '(reset)'
        ;;
    again)
        lines '(deffacts part-& (part (id &) (at shelf &)))' "$2"
        lines '(deffacts part-& (part (id &) (at cellar &)))' "$2"
        ;;
    one)
        echo '(deffacts parts'
        lines '(part (id &) (at shelf &))' "$2"
        echo ')(reset)'
        ;;
    templates) lines '(deftemplate part-& (slot id (default &)))' "$2" ;;
    esac
}

# The processor seconds of a run on that script, the least of five.
seconds() {
    script "$1" "$2" >"$place/script"
    measured | cut -d ' ' -f 1
}

# The ratios for the script of this kind, which does what $2 says: of n = 25,000, of twice and of four times as many.
ratios() {
    n=25000
    echo "$(seconds "$1" "$n") $(seconds "$1" $((2 * n))) $(seconds "$1" $((4 * n)))" | awk -v what="$2" -v n="$n" '{
        printf "%-52s n = %d to %d: %.2f, %d to %d: %.2f (%.2f s, %.2f s, %.2f s)\n",
            what ":", n, 2 * n, $2 / $1, 2 * n, 4 * n, $3 / $2, $1, $2, $3
    }'
}

ratios asserted 'n facts of a template asserted'
ratios ordered 'n ordered facts asserted, each of its own relation'
ratios listed 'n facts asserted and listed'
ratios front 'n facts asserted, and retracted from the front'
ratios back 'n facts asserted, and retracted from the back'
ratios all 'n facts asserted, and retracted by *'
ratios deffacts 'n deffacts defined'
ratios reset 'n deffacts defined, and a reset'
ratios again 'n deffacts defined, and each defined anew'
ratios one 'a deffacts of n facts defined, and a reset'
ratios templates 'n templates defined'
