#!/usr/bin/env python3
"""Where a C text leaves the grammar of tools/c_grammar.txt, computed with no prediction rows: all derivations are
followed side by side, after Earley (An efficient context-free parsing algorithm, 1970).

    tools/c_sentences.py SEED COUNT PROGRAM

makes COUNT texts by chance from the grammar, most of them cut short or disturbed at a token, and compares the line
that PROGRAM, the built program, writes for `check` with what the grammar says.
"""
import random
import subprocess
import sys
import tempfile
from pathlib import Path

import c_grammar
import tokens

NAMES = {number: name.strip('"') for name, number in c_grammar.TOKENS.items()}
SPELLED = {"id": ["a", "b", "main"], "ty": ["T"], "library": ["mtx_t", "size_t"], "num": ["0", "'c'", "42u"]}


class Grammar:
    def __init__(self):
        text = (Path(__file__).parent / "c_grammar.txt").read_text()
        self.found = c_grammar.Productions(text).found
        self.by_left = {}
        for left, right in self.found:
            self.by_left.setdefault(left, []).append(right)
        self.nothing = set()
        while True:
            more = {left for left, right in self.found if all(x in self.nothing for x in right)} - self.nothing
            if not more:
                break
            self.nothing |= more

    def closed(self, columns, items):
        """All items of a column: (left, right, dot, origin)."""
        column, work = set(items), list(items)
        while work:
            left, right, dot, origin = work.pop()
            added = []
            if dot == len(right):
                source = column if origin == len(columns) else columns[origin]
                added = [(l, r, d + 1, o) for l, r, d, o in source if d < len(r) and r[d] == left]
            elif right[dot] in self.by_left:
                added = [(right[dot], tuple(r), 0, len(columns)) for r in self.by_left[right[dot]]]
                if right[dot] in self.nothing:
                    added.append((left, right, dot + 1, origin))
            for item in added:
                if item not in column:
                    column.add(item)
                    work.append(item)
        return column

    def first_without(self, symbols):
        """The number of the first token that no sentence goes on with, or None for a sentence."""
        columns = []
        column = self.closed(columns, [("unit", tuple(r), 0, 0) for r in self.by_left["unit"]])
        for k, symbol in enumerate(symbols):
            columns.append(column)
            column = self.closed(columns, [(l, r, d + 1, o) for l, r, d, o in column if d < len(r) and r[d] == symbol])
            if not column:
                return k
        whole = any(l == "unit" and d == len(r) and o == 0 for l, r, d, o in column)
        return None if whole else len(symbols)


def derived(grammar, chance, symbol, room):
    """A text of a symbol, by productions that chance picks; the shortest ones once there is no room."""
    if symbol not in grammar.by_left:
        return [chance.choice(SPELLED.get(symbol, [symbol.strip('"')]))]
    rights = grammar.by_left[symbol]
    right = chance.choice(rights) if room > 0 else min(rights, key=lambda r: grammar.height[tuple(r)])
    return [word for x in right for word in derived(grammar, chance, x, room - 1)]


def heights(grammar):
    best, grammar.height = {}, {}
    for _ in range(60):
        for left, right in grammar.found:
            if all(x in best or x not in grammar.by_left for x in right):
                height = 1 + max((best[x] for x in right if x in best), default=0)
                best[left] = min(best.get(left, height), height)
    for left, right in grammar.found:
        grammar.height[tuple(right)] = 1 + max((best[x] for x in right if x in best), default=0)


def wanted(grammar, text):
    """The refusal by the grammar, None for a sentence; nesting is left to the program."""
    answer = tokens.answer(text)
    if answer.startswith("U"):
        return "refused " + answer
    found = [list(map(int, t.split("."))) for t in answer.split()]
    quoted = {number: name for name, number in c_grammar.TOKENS.items()}
    k = grammar.first_without([quoted.get(t[0], "a named construct") for t in found])
    if k is None:
        return None
    if k == len(found):
        line, column = tokens.place(text, len(text))
        return f"refused U7 {line}:{column} end"
    number, start, length, line, column = found[k]
    name = text[start : start + length]
    if number == tokens.NAMED_CONSTRUCT:
        kind = "string" if name[0] == '"' else "floating" if name.strip(".")[:1].isdigit() else name
        return f"refused U6 {line}:{column} {kind}"
    return f"refused U7 {line}:{column} {name}"


def disturbed(chance, words):
    words = list(words)
    at = chance.randrange(len(words) + 1)
    way = chance.randrange(5)
    if way == 0:
        return words[:at]
    if way == 1 and at < len(words):
        del words[at]
    elif way == 2:
        words.insert(at, chance.choice(sorted(c_grammar.TOKENS) + ["goto", "1.5", '"s"', "...", "a", ";"]).strip('"') or "a")
    elif way == 3 and at < len(words):
        words[at] = chance.choice(["(", ")", "{", "}", ";", "a", "0", "=", ",", "int", "else", "case"])
    return words


def main():
    chance, count, program = random.Random(int(sys.argv[1])), int(sys.argv[2]), sys.argv[3]
    grammar = Grammar()
    heights(grammar)
    wrong = refused = 0
    with tempfile.TemporaryDirectory() as folder:
        for _ in range(count):
            words = derived(grammar, chance, "unit", chance.randint(8, 40))[:400]
            text = "typedef int T;\n" + " ".join(disturbed(chance, words)) + "\n"
            path = Path(folder) / "text.c"
            path.write_text(text)
            got = subprocess.run([program, "check", str(path)], capture_output=True, text=True).stdout.strip()
            want = wanted(grammar, text)
            refused += want is not None
            deep = got.startswith("refused U8")
            if not deep and (got != want if want else got.startswith("refused U") and not got.startswith("refused U0")):
                wrong += 1
                print(repr(text), got, "|", want)
    print(f"texts {count}, refused by the grammar {refused}, wrong {wrong}")


if __name__ == "__main__":
    main()
