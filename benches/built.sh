# For the measurements beside it, which source it: the repository's top, a temporary folder that goes when they end, the
# program, proved and built, and how the scripts are made and the runs measured. The program is `clipsbatch`, or that of the
# name BUILT, or one that is built already, at the path PROGRAM.
top=$(cd "$(dirname "$0")/.." && pwd)
place=$(mktemp -d)
trap 'rm -rf "$place"' EXIT

# Proves and builds the program of this name. From then on it is what `program` names.
build() {
    program=$top/crates/$1/out/$1
    (cd "$top/crates/$1" && rt run </dev/null >/dev/null 2>"$place/checked") || {
        cat "$place/checked"
        exit 1
    }
}

if [ -n "${PROGRAM:-}" ]; then
    program=$PROGRAM
else
    build "${BUILT:-clipsbatch}"
fi

make_script() {
    python3 "$top/benches/make_scripts.py" "$@"
}

# The processor seconds and the peak memory in kB of a run of these words on the script in the folder, the least of five.
least_of_five() {
    for _ in 1 2 3 4 5; do
        /usr/bin/time -f '%U %S %M' "$@" <"$place/script" 2>&1 >"$place/transcript" | tail -n 1
    done | awk '
        NR == 1 || $1 + $2 < time { time = $1 + $2 }
        NR == 1 || $3 < memory { memory = $3 }
        END { print time, memory }'
}

# The same of the program, which must report no fault.
measured() {
    least_of_five "$program" --max-form 16777216
    ! grep -m 1 '^\[CB' "$place/transcript" >&2
}
