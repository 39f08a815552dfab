#!/bin/sh
# Measures how long the program's parts take, by the size of their input. Run it from anywhere:
#
#     benches/run.sh
#
# It makes a repository in a temporary folder, of the crates that a measurement needs and the measurement itself, proves
# and builds it there with `rt`, and runs it. That takes some minutes, or under one where the crates were checked here
# before. forms.rt.txt is the measurement; no check but this one reads it. No test depends on what it prints.
set -eu

top=$(cd "$(dirname "$0")/.." && pwd)
place=$(mktemp -d)
trap 'rm -rf "$place"' EXIT

mkdir -p "$place/crates/bench_forms/src"
cp -R "$top/crates/cb_io" "$top/crates/cb_forms" "$place/crates/"
cp "$top/benches/forms.rt.txt" "$place/crates/bench_forms/src/main.rt"
{
    grep -E "^cb_(io|forms):" "$top/crates.txt"
    echo 'bench_forms: cb_forms'
} >"$place/crates.txt"

cd "$place/crates/bench_forms"
rt run >"$place/printed" 2>"$place/checked" || {
    cat "$place/checked"
    exit 1
}
cat "$place/printed"
