#!/bin/sh
# Tries ./misra_desk on a copy of the repository: with no program, through links, with a program whose sources are
# changed, broken or removed, and with commands that never run unproved. It proves nothing, so a small script stands
# in for the proved program. It takes some minutes, and ends with 0 where all is as docs/report.md says.
here=$(cd "$(dirname "$0")/.." && pwd -P) || exit 1
copy=$(mktemp -d) || exit 1
trap 'rm -rf "$copy"' EXIT
(cd "$here" && tar cf - --exclude=out --exclude=.git .) | tar xf - -C "$copy"
. "$copy/tools/sources.sh"
failures=0

# Runs the words behind the first three, and compares status, output and whether an answer was said to be unproved.
show() {
    what=$1 wanted=$2 unproved=$3
    shift 3
    output=$("$@" 2>"$copy/errors")
    status=$?
    said=no
    grep -q 'unproved run' "$copy/errors" && said=yes
    if [ "$status" -eq "$wanted" ] && [ "$said" = "$unproved" ]; then
        echo "ok: $what"
    else
        echo "WRONG: $what: status $status, unproved $said: $output"
        tail -n 5 "$copy/errors"
        failures=$((failures + 1))
    fi
}

plant() {
    mkdir -p "$copy/crates/misra_desk/out"
    printf '#!/bin/sh\nexit 99\n' >"$(program_of "$copy")"
    chmod +x "$(program_of "$copy")"
    wanted_stamp "$copy" >"$(stamp_of "$copy")"
}

cd "$copy" || exit 1
show "with no program a text without a finding is answered unproved" 0 yes ./misra_desk check examples/lock.c
show "a text with a finding has 1" 1 yes ./misra_desk check examples/unlock.c
show "a missing file has 4" 4 yes ./misra_desk check examples/none.c
show "words that are no form have 3" 3 yes ./misra_desk check -x
for command in plan summary serve; do
    show "$command never runs unproved" 11 no ./misra_desk "$command" 1
done
ln -s misra_desk first
mkdir links && ln -s ../first links/second
show "it runs through links" 1 yes links/second check examples/unlock.c

plant
show "a program of these very sources runs" 99 no links/second check examples/lock.c
show "and every command uses it" 99 no ./misra_desk serve 1
printf '#!/bin/sh\nexit 98\n' >"$(program_of "$copy")"
show "one that the last proof did not make never runs" 0 yes ./misra_desk check examples/lock.c
plant
printf '\n' >>crates/misra_base/specs/Lines.antt
show "one older than a definition below it never runs" 0 yes ./misra_desk check examples/lock.c
plant
source=crates/misra_desk/src/answer.rt
cp "$source" "$copy/kept"
echo 'fn broken(' >>"$source"
show "a source that does not parse has 10" 10 yes ./misra_desk check examples/lock.c
rm "$source"
show "a source that was removed has 10" 10 yes ./misra_desk check examples/lock.c
cp "$copy/kept" "$source"
show "and with the sources as they were the program runs again" 99 no ./misra_desk check examples/lock.c

[ "$failures" -eq 0 ]
