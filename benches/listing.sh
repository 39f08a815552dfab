#!/bin/sh
# Measures the peak memory of the program for a script that asserts a million facts, and for the same script with a listing of
# them at its end: a listing is written line by line, so it takes the memory of one line.
# Run it from anywhere, with GNU time as /usr/bin/time:
#
#     benches/listing.sh
#
# It proves and builds the program first, and ends with status 1 where the listing takes over 2 % more. No test depends on it.
set -eu

. "$(dirname "$0")/built.sh"

# The peak memory in kB of a run on a million facts and then these commands, the least of three.
measured() {
    { seq 1000000 | sed 's/.*/(assert (part & bolt shelf))/'; echo "$1"; } >"$place/script"
    for _ in 1 2 3; do
        /usr/bin/time -f '%M' "$program" <"$place/script" 2>&1 >"$place/transcript" | tail -n 1
    done | sort -n | head -n 1
}

echo "$(measured '') $(measured '(facts)')" | awk '{
    printf "a million facts: peak memory with the listing to without it %.3f (%s kB to %s kB)\n", $2 / $1, $2, $1
    exit $2 > 1.02 * $1
}'
