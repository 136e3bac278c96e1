#!/bin/sh
# Times Grammar::new over 246 productions and 1,997 rows, and parse over 100 productions and 6,000 and 60,000 tokens.
# Makes a repository of ll_core and a program in a temporary folder, which `rt run` proves, builds and runs. The proof
# of the program takes some five processor minutes, so it is no crate of this repository.
set -e
root=$(cd "$(dirname "$0")/.." && pwd)
temp=$(mktemp -d)
trap 'rm -rf "$temp"' EXIT
mkdir -p "$temp/crates/ll_bench/src"
cp -r "$root/crates/ll_core" "$temp/crates/ll_core"
rm -rf "$temp/crates/ll_core/out"
cp "$root/HANDLES" "$temp/HANDLES"
printf 'll_core:\nll_bench: ll_core anyhow\n' > "$temp/crates.txt"
cp "$root/bench/main.rt.in" "$temp/crates/ll_bench/src/main.rt"
python3 "$root/bench/grammar.py" 24 2 | python3 "$root/tools/tables.py" module > "$temp/crates/ll_bench/src/hundred.rt"
python3 "$root/bench/grammar.py" 20 9 22 | python3 "$root/tools/tables.py" module > "$temp/crates/ll_bench/src/large.rt"
cd "$temp/crates/ll_bench"
rt run -- time | grep microseconds
