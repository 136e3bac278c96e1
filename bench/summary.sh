#!/bin/sh
# Times `summary` of 5,000 findings under 10,000 deviations, 1,000 of them patterns, for several kinds of objects, each
# from nineteen guidelines in turn and from one alone. Makes a repository of misra_base, compliance_core and a program
# in a temporary folder, which `rt run` proves, builds and runs: it is no crate of this repository, and no test.
set -e
root=$(cd "$(dirname "$0")/.." && pwd)
temp=$(mktemp -d)
trap 'rm -rf "$temp"' EXIT
mkdir -p "$temp/crates/summary_bench/src"
for crate in misra_base compliance_core; do
    cp -r "$root/crates/$crate" "$temp/crates/$crate"
    rm -rf "$temp/crates/$crate/out"
done
cp "$root/HANDLES" "$temp/HANDLES"
printf 'misra_base:\ncompliance_core: misra_base toml\nsummary_bench: misra_base compliance_core anyhow\n' > "$temp/crates.txt"
cp "$root/bench/summary.rt.in" "$temp/crates/summary_bench/src/main.rt"
cd "$temp/crates/summary_bench"
rt run | grep microseconds
