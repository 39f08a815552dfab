#!/bin/sh
# Measures the time and the peak memory of the program for a script of 10 MB of constants and comments, and how they compare
# with those for one of 1 MB.
# Run it from anywhere, with GNU time as /usr/bin/time:
#
#     benches/memory.sh
#
# It proves and builds the program first. No test depends on what it prints.
set -eu

. "$(dirname "$0")/built.sh"

# Lines of a constant and a comment, so many bytes in all.
script() {
    yes 'constant-1 ; a comment
"a string"
12345' | head -c "$1"
}

# The seconds and the peak memory in kB of a run on so many bytes.
measured() {
    script "$1" >"$place/script"
    /usr/bin/time -f '%e %M' "$program" <"$place/script" 2>&1 >"$place/transcript" | tail -n 1
}

echo "$(measured 1000000) $(measured 10000000)" | awk '{
    printf "10 MB to 1 MB: peak memory %.2f, time %.1f (%s s to %s s, %s kB to %s kB)\n", $4 / $2, $3 / $1, $3, $1, $4, $2
}'
