#!/bin/sh
# Lets each allocation of the built program fail in turn, over the examples and some words, until a run meets
# no failure, and shows that the answer is the right one or status 8 with a front of the right bytes and its
# line. Wants gcc and a program that ./prove has built.
top=$(cd "$(dirname "$0")/.." && pwd) || exit 1
program=$top/crates/misra_desk/out/misra_desk
if [ ! -x "$program" ]; then
    echo "there is no program yet: ./prove builds it" >&2
    exit 1
fi
work=$(mktemp -d) || exit 1
trap 'rm -rf "$work"' EXIT
gcc -shared -fPIC -O1 -o "$work/failing.so" "$top/tools/failing_malloc.c" || exit 1

tried=0
wrong=0
try() {
    "$program" "$@" >"$work/right" 2>&1
    right=$?
    number=1
    while :; do
        COUNTED=$work/made FAILING=$number LD_PRELOAD=$work/failing.so "$program" "$@" >"$work/got" 2>&1
        status=$?
        [ "$number" -le "$(cat "$work/made")" ] || break
        tried=$((tried + 1))
        if [ "$status" -eq 8 ]; then
            tail -n 1 "$work/got" | grep -q -x 'out of memory' || wrong=$((wrong + 1))
            head -n -1 "$work/got" >"$work/front"
            head -c "$(wc -c <"$work/front")" "$work/right" | cmp -s - "$work/front" || wrong=$((wrong + 1))
        elif [ "$status" -ne "$right" ] || ! cmp -s "$work/got" "$work/right"; then
            echo "allocation $number of '$*': status $status" >&2
            wrong=$((wrong + 1))
        fi
        number=$((number + 1))
    done
    if [ "$status" -ne "$right" ] || ! cmp -s "$work/got" "$work/right"; then
        wrong=$((wrong + 1))
    fi
}

for example in "$top"/examples/*.c; do
    try check "$example"
done
try check no_such_file.c
try check
try
echo "allocations that failed: $tried, wrong answers: $wrong"
[ "$wrong" -eq 0 ]
