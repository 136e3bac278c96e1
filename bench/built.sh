# Read by the scripts beside it: builds the program where it is not built yet, and gives `program` and `text`, the name
# of a file in a folder that is removed at the end.
top=$(cd "$(dirname "$0")/.." && pwd) || exit 1
"$top/prove" || exit 1
program=$top/crates/misra_desk/out/misra_desk
work=$(mktemp -d) || exit 1
text=$work/text.c
trap 'rm -rf "$work"' EXIT
