#!/bin/sh
# Measures that no script makes the tables slow: facts and names with one hash, templates beside many facts, and deffacts
# defined anew. tables.py makes the scripts.
# Run it from anywhere, with Python 3, and GNU time as /usr/bin/time:
#
#     benches/tables.sh
#
# It proves and builds the program first, and ends with status 1 where a ratio is over its bound. No test depends on it.
set -eu

benches=$(cd "$(dirname "$0")" && pwd)
. "$benches/built.sh"

# The processor seconds of a run on that script, the least of five.
measured() {
    python3 "$benches/tables.py" "$1" "$2" >"$place/script"
    for _ in 1 2 3 4 5; do
        /usr/bin/time -f '%U %S' "$program" <"$place/script" 2>&1 >"$place/transcript" | tail -n 1
    done | awk '{ took = $1 + $2; if (NR == 1 || took < least) least = took } END { print least }'
}

# The ratio of $2 to $3, in seconds, for what $1 says, which is to be at most $4.
ratio() {
    echo "$2 $3 $4" | awk -v what="$1" '{
        printf "%-64s %.2f, at most %s (%s s to %s s)\n", what ":", $1 / $2, $3, $1, $2
        exit $1 > $3 * $2
    }' || failed=1
}

failed=0
n=50000
for kind in strings ints templates deffacts; do
    ratio "$n $kind with one hash, to $n with many" "$(measured $kind $n)" "$(measured $kind-control $n)" 3
done
ratio '1,000 templates after 100,000 facts, to the sum of both alone' "$(measured both 100000)" \
    "$(echo "$(measured facts 100000) $(measured others 100000)" | awk '{ print $1 + $2 }')" 1.5
ratio '40,000 deffacts defined twice, to 20,000' "$(measured again 40000)" "$(measured again 20000)" 3
exit $failed
