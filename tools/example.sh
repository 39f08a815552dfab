#!/bin/sh
# Runs the scripts of these names in examples/, or all of them, and shows each line that differs from the transcript beside it.
#
#     tools/example.sh [NAME ..]
#
# The program is crates/clipsbatch/out/clipsbatch, or the one at the path PROGRAM. The exit status is 0 if nothing differs.
set -u
top=$(cd "$(dirname "$0")/.." && pwd)
program=${PROGRAM:-$top/crates/clipsbatch/out/clipsbatch}
if [ $# = 0 ]; then
    set -- $(cd "$top/examples" && ls -- *.clp)
fi
status=0
for name; do
    example=$top/examples/${name%.clp}
    if "$program" <"$example.clp" | diff -u "$example.txt" -; then
        echo "${name%.clp}: as it should be"
    else
        echo "${name%.clp}: differs" >&2
        status=1
    fi
done
exit $status
