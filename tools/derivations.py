#!/usr/bin/env python3
"""What a parser has to answer, computed from the definitions alone, for small grammars.

All derivation trees of a grammar whose leaves are few are listed, with no stack and no table: the trees of a
symbol by their number of leaves, from the trees of smaller parts. From the list come sentences, viable prefixes
and nestings, and from these the answer for each list of tokens.

    tools/derivations.py NAME LENGTH

prints, for the grammar NAME, the answer for each list of up to LENGTH tokens: `=` and the productions of the
leftmost derivation, `@k` for a stop at token k, `^k` for a nesting that is too deep. The lists come by length, and
among those of one length the first token changes fastest.
"""
import sys
from functools import lru_cache

# number: (left side, whether it nests, right side)
GRAMMARS = {
    # a text of some a, perhaps a b, and a c; each a nests
    "empty": ("abc", [("S", False, "ABc"), ("A", True, "aA"), ("A", False, ""), ("B", False, "b"), ("B", False, "")]),
    # an x in brackets, which nest
    "brackets": ("()x", [("S", True, "(S)"), ("S", False, "x")]),
}
LIMIT = 64


def trees(productions, leaves):
    """Each (text, productions, nestings) of a derivation from the start with at most so many leaves."""
    lefts = {left for left, _, _ in productions}

    def of_symbols(symbols, room, height):
        if not symbols:
            return [((), (), ())]
        found = []
        for first in of_symbol(symbols[0], room, height):
            for rest in of_symbols(symbols[1:], room - len(first[0]), height):
                found.append(tuple(a + b for a, b in zip(first, rest)))
        return found

    @lru_cache(maxsize=None)
    def of_symbol(symbol, room, height):
        if symbol not in lefts:
            return [((symbol,), (), (0,))] if room > 0 else []
        if height == 0:
            return []
        found = []
        for number, (left, nests, right) in enumerate(productions):
            if left == symbol:
                for text, order, depths in of_symbols(right, room, height - 1):
                    found.append((text, (number,) + order, tuple(d + nests for d in depths)))
        return found

    return of_symbol(productions[0][0], leaves, 2 * leaves + 4)


def answer(tokens, listed):
    """The answer for the tokens, where `listed` has all derivations that matter."""
    for k in range(len(tokens)):
        going_on = [tree for tree in listed if tree[0][: k + 1] == tokens[: k + 1]]
        if not going_on:
            return f"@{k}"
        depths = {tree[2][k] for tree in going_on}
        assert len(depths) == 1, "the nesting of a token is that of its prefix"
        if depths.pop() > LIMIT:
            return f"^{k}"
    whole = [tree for tree in listed if tree[0] == tokens]
    assert len(whole) <= 1, "a text has one derivation"
    return "=" + "".join(str(n) for n in whole[0][1]) if whole else f"@{len(tokens)}"


def main():
    alphabet, productions = GRAMMARS[sys.argv[1]]
    length = int(sys.argv[2])
    # a viable prefix of these grammars goes on to a sentence of at most twice its length and one more
    listed = trees(productions, 2 * length + 1)
    count = sum(len(alphabet) ** n for n in range(length + 1))
    answers = []
    for code in range(count):
        tokens = []
        while code > 0:
            code -= 1
            tokens.append(alphabet[code % len(alphabet)])
            code //= len(alphabet)
        answers.append(answer(tuple(tokens), listed))
    print(" ".join(answers))


main()
