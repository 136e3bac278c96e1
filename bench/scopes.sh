#!/bin/sh
# Times `declare` over trees of some 59,000 tokens: declarations, uses in 64 scopes, and the members of one structure.
# Makes a repository of the crates of names and a program in a temporary folder, which `rt run` proves, builds and runs:
# it is no crate of this repository, and no test.
set -e
root=$(cd "$(dirname "$0")/.." && pwd)
temp=$(mktemp -d)
trap 'rm -rf "$temp"' EXIT
mkdir -p "$temp/crates/scopes_bench/src"
for crate in misra_base c_tree c_faults c_names c_identifiers c_visibility c_scope; do
    cp -r "$root/crates/$crate" "$temp/crates/$crate"
    rm -rf "$temp/crates/$crate/out"
done
cp "$root/HANDLES" "$temp/HANDLES"
cat > "$temp/crates.txt" <<'C'
misra_base:
c_tree: misra_base
c_faults: misra_base
c_names: misra_base indexmap
c_identifiers: misra_base c_tree c_names
c_visibility: misra_base c_tree c_names c_identifiers indexmap
c_scope: misra_base c_tree c_faults c_names c_identifiers c_visibility indexmap
scopes_bench: misra_base c_tree c_faults c_names c_identifiers c_visibility c_scope indexmap anyhow
C
cp "$root/bench/scopes.rt.in" "$temp/crates/scopes_bench/src/main.rt"
cd "$temp/crates/scopes_bench"
rt run | grep microseconds
