#!/usr/bin/env python3
"""Writes the tables of a grammar, and the lists by which they are shown to be right.

    tools/tables.py rust|module|antt < GRAMMAR

Each line of GRAMMAR is a production: its left side, `->`, and its right side; a `!` before the left side marks one
that nests. Left sides are numbered from 0 in the order in which they come, tokens from there on. `rust` prints the
productions and the prediction rows, `module` a module that lends them, `antt` the lists of members, each with the production that puts it there by the
members before it.
"""
import sys

END = 65535


def read(lines):
    """The productions as (left, nests, right) of names."""
    found = []
    for line in lines:
        if "->" in line:
            left, right = line.split("->")
            nests = left.strip().startswith("!")
            found.append((left.strip().lstrip("!").strip(), nests, right.split()))
    return found


def number(named):
    names = {}
    for left, _, _ in named:
        names.setdefault(left, len(names))
    for _, _, right in named:
        for symbol in right:
            names.setdefault(symbol, len(names))
    return names, [(names[left], nests, [names[x] for x in right]) for left, nests, right in named]


def grow(candidates, seed=()):
    """The least set with the seed that takes up each candidate (member, number) whose premise holds."""
    members, order = set(seed), []
    growing = True
    while growing:
        growing = False
        for member, number_, premise in candidates:
            if member not in members and premise(members):
                members.add(member)
                order.append((member, number_))
                growing = True
    return members, order


def sets_of(productions):
    lefts = {left for left, _, _ in productions}
    sentences, sentence_order = grow(
        [(p[0], n, lambda s, p=p: all(x in s or x not in lefts for x in p[2])) for n, p in enumerate(productions)]
    )
    nothing, nothing_order = grow(
        [(p[0], n, lambda s, p=p: all(x in s for x in p[2])) for n, p in enumerate(productions)]
    )
    tokens = sorted({x for _, _, right in productions for x in right if x not in lefts})

    def begins(first, symbols, token):
        for x in symbols:
            if (x, token) in first if x in lefts else x == token:
                return True
            if x not in nothing:
                return False
        return False

    first, first_order = grow(
        [
            ((p[0], t), n, lambda s, p=p, t=t: begins(s, p[2], t))
            for n, p in enumerate(productions)
            for t in tokens
        ]
    )

    def followed(follow, p, symbol, token):
        for i, x in enumerate(p[2]):
            rest = p[2][i + 1 :]
            if x == symbol and (begins(first, rest, token) or (all(y in nothing for y in rest) and (p[0], token) in follow)):
                return True
        return False

    follow, follow_order = grow(
        [
            ((x, t), n, lambda s, p=p, x=x, t=t: followed(s, p, x, t))
            for n, p in enumerate(productions)
            for x in sorted(set(p[2]) & lefts)
            for t in tokens + [END]
        ],
        [(productions[0][0], END)],
    )
    rows = []
    for n, (left, _, right) in enumerate(productions):
        for t in tokens + [END]:
            if begins(first, right, t) or (all(x in nothing for x in right) and (left, t) in follow):
                rows.append((left, t, n))
    return sentence_order, nothing_order, first_order, follow_order, sorted(rows)


MODULE_HEAD = """use ll_core::{Production, Row};

macro_rules! productions {
    ($($left:literal $nests:literal $length:literal: $($right:literal)*);* $(;)?) => {
        [$(Production { left: $left, nests: $nests, right: [$($right),*], length: $length }),*]
    };
}

macro_rules! rows {
    ($($left:literal $token:literal $production:literal);* $(;)?) => {
        [$(Row { left: $left, token: $token, production: $production }),*]
    };
}
"""


def print_productions(productions):
    for left, nests, right in productions:
        padded = right + [0] * (12 - len(right))
        print(f"    {left} {str(nests).lower()} {len(right)}: {' '.join(map(str, padded))};")


def print_rows(rows):
    for i in range(0, len(rows), 6):
        print("    " + " ".join(f"{a} {b} {c};" for a, b, c in rows[i : i + 6]))


def main():
    names, productions = number(read(sys.stdin.readlines()))
    sentences, nothing, first, follow, rows = sets_of(productions)
    if sys.argv[1] == "rust":
        print(f"// {', '.join(f'{n} {name}' for name, n in names.items())}")
        print(f"productions {len(productions)}")
        print_productions(productions)
        print(f"rows {len(rows)}")
        print_rows(rows)
    elif sys.argv[1] == "module":
        print(MODULE_HEAD)
        print(f"#[rattlefmt::skip]\nstatic PRODUCTIONS: [Production; {len(productions)}] = productions![")
        print_productions(productions)
        print(f"];\n\n#[rattlefmt::skip]\nstatic ROWS: [Row; {len(rows)}] = rows![")
        print_rows(rows)
        print("];\n")
        print(f"pub fn productions() -> &'static [Production; {len(productions)}] {{\n    &PRODUCTIONS\n}}\n")
        print(f"pub fn rows() -> &'static [Row; {len(rows)}] {{\n    &ROWS\n}}")
    else:
        for name, members in (("sentences", sentences), ("nothing", nothing)):
            print(f"{name} = {' ∷ '.join(f'member {m} {n}' for m, n in members)} ∷ []")
        for name, members in (("first", first), ("follow", follow)):
            print(f"{name} = {' ∷ '.join(f'token_member {m[0]} {m[1]} {n}' for m, n in members)} ∷ []")


if __name__ == "__main__":
    main()
