# For ./misra_desk and ./prove: the crates that the program stands on, and whether a program is made of these very
# sources. Each function is called with the top of the repository as its first word.

# The crates of the repository that misra_desk stands on, lowest first, and it as the last.
stands_on() {
    awk '
        function visit(name, count, words, i) {
            if (!(name in below) || name in seen) return
            seen[name] = 1
            count = split(below[name], words, " ")
            for (i = 1; i <= count; i++) visit(words[i])
            print name
        }
        /^#/ || !/:/ { next }
        { head = $0; sub(/:.*/, "", head); split(head, words, " "); tail = $0; sub(/^[^:]*:/, "", tail); below[words[1]] = tail }
        END { visit("misra_desk") }
    ' "$1/crates.txt"
}

# One sum over the names and the bytes of all their sources, and their lines in crates.txt.
sum_of_sources() (
    cd "$1" || exit 1
    for crate in $(stands_on .); do
        grep "^$crate[ :]" crates.txt
        find "crates/$crate/src" "crates/$crate/specs" "crates/$crate/proofs" \
            -type f \( -name '*.rt' -o -name '*.antt' \) -exec sha256sum {} + 2>/dev/null | LC_ALL=C sort
    done | sha256sum
)

# The proved program, and the file that says which sources and which program the last proof was of.
program_of() { echo "$1/crates/misra_desk/out/misra_desk"; }
stamp_of() { echo "$1/crates/misra_desk/out/misra_desk.proved"; }

# What the stamp has to say where the program was made of these very sources.
wanted_stamp() {
    sum_of_sources "$1"
    sha256sum <"$(program_of "$1")"
}

# Whether a proved program of these very sources stands.
is_proved() {
    [ -x "$(program_of "$1")" ] && [ -f "$(stamp_of "$1")" ] && [ "$(cat "$(stamp_of "$1")")" = "$(wanted_stamp "$1")" ]
}
