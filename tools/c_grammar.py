#!/usr/bin/env python3
"""Writes the tables of the grammar of C in tools/c_grammar.txt, the lists by which they are shown to be right, and the
grammar in named left sides.

    tools/c_grammar.py tables|lists|nonterminals|grammar|rights

The grammar is in plain text: `{name: }` repeats, `[name: ]` may be missing, `(name: | )` chooses, quotes mark tokens.
Each of these three becomes a left side of its own, named after the rule that it stands in and by its own name, which
does not nest. `id`, `ty`, `library` and `num` are tokens too: an identifier, a typedef name, a type of the library and
a constant. Tokens have the numbers of their classes in the lexer, left sides those from 100 on. `tables` prints the
module of productions and prediction rows, `lists` the lists of members, each with the production that puts it there by
the members before it, `nonterminals` the module of left sides by name, `grammar` the right sides of each by name, and
`rights` the lemmas, all by computation, that the tables have these right sides, that no two of them begin with one
symbol, and which left sides count as nesting.
"""
import re
import sys
import textwrap
from pathlib import Path

from tables import sets_of

NESTING = {"statement", "if", "cond", "unary", "init", "members"}
WORDS = {
    "add": "additive", "assign": "assignment", "band": "and", "bor": "or", "bxor": "xor", "cond": "conditional",
    "emore": "more_enumerators", "enums": "enumerators", "eq": "equality", "imore": "more_initializers",
    "init": "initializer", "land": "logical_and", "lor": "logical_or", "mul": "multiplicative", "param": "parameter",
    "post": "postfix", "rel": "relational", "spec": "specifiers", "type": "type_name", "word": "specifier",
}
KEYWORDS = """static extern inline _Thread_local const volatile _Atomic typedef void char short int long signed
    unsigned _Bool struct enum if else while do for switch case default break continue return sizeof""".split()
PUNCTUATORS = """[ ] ( ) { } . -> ++ -- & * + - ~ ! / % << >> < > <= >= == != ^ | && || ? : ; = *= /= %= += -= <<=
    >>= &= ^= |= ,""".split()
TOKENS = {"id": 0, "ty": 1, "library": 2, "num": 4}
TOKENS.update({f'"{word}"': 5 + i for i, word in enumerate(KEYWORDS + PUNCTUATORS)})
FIRST_SYMBOL = 100


def rules(text):
    found = {}
    for line in text.splitlines():
        begins = re.match(r"(\w+) *= (.*)", line)
        if begins:
            name = begins.group(1)
            found[name] = begins.group(2)
        elif line.strip():
            found[name] += " " + line.strip()
    return {name: re.findall(r'"[^"]*"|\w+:|\w+|[{}()\[\]|]', body) for name, body in found.items()}


def alternatives(words, at, end):
    """The alternatives up to the closing bracket: lists of symbols and of (bracket, name, alternatives)."""
    found = [[]]
    while at < len(words) and words[at] != end:
        word = words[at]
        if word == "|":
            found.append([])
        elif word in "{[(":
            inner, end_of_inner = alternatives(words, at + 2, {"{": "}", "[": "]", "(": ")"}[word])
            found[-1].append((word, words[at + 1].rstrip(":"), inner))
            at = end_of_inner
        else:
            found[-1].append(word)
        at += 1
    return found, at


class Productions:
    """Productions as (left, right) of names, those of a rule's own symbols behind it."""

    def __init__(self, text):
        self.found = []
        for name, words in rules(text).items():
            for alternative in alternatives(words, 0, None)[0]:
                self.add(name, name, alternative)

    def add(self, left, rule, items, again=()):
        place = len(self.found)
        self.found.append(None)
        self.found[place] = (left, [self.symbol(rule, item) for item in items] + list(again))

    def symbol(self, rule, item):
        if isinstance(item, str):
            return item
        bracket, own, inner = item
        name = f"{rule}_{own}"
        for alternative in inner:
            self.add(name, rule, alternative, [name] if bracket == "{" else [])
        if bracket != "(":
            self.found.append((name, []))
        return name


def numbered(productions):
    numbers = dict(TOKENS)
    for left, _ in productions:
        if left not in numbers:
            numbers[left] = FIRST_SYMBOL + len(numbers) - len(TOKENS)
    return [(numbers[left], left in NESTING, [numbers[x] for x in right]) for left, right in productions]


TABLES = """//! The grammar of the subset (C11 6.5 to 6.9) as productions and prediction rows, as tools/c_grammar.py writes
//! them from tools/c_grammar.txt.

use ll_core::{{Production, Row}};

macro_rules! productions {{
    ($($left:literal $nests:literal $length:literal: $($right:literal)*);* $(;)?) => {{
        [$(Production {{ left: $left, nests: $nests, right: [$($right),*], length: $length }}),*]
    }};
}}

macro_rules! rows {{
    ($($left:literal $token:literal $production:literal);* $(;)?) => {{
        [$(Row {{ left: $left, token: $token, production: $production }}),*]
    }};
}}

/// Left side, whether it nests, length and right side of each production.
#[rattlefmt::skip]
pub static PRODUCTIONS: [Production; {count}] = productions![
{productions}
];

/// Left side, token and production of each prediction row.
#[rattlefmt::skip]
pub static ROWS: [Row; {row_count}] = rows![
{rows}
];
"""

NONTERMINALS = """/// A left side of the grammar. Its number is that of the symbol, less {first}.
#[derive(Clone, Copy, Debug, PartialEq, Eq)]
pub enum Nonterminal {{
{names}
}}

impl Nonterminal {{
    ghost use Rattle.std.specs.Prelude.{{◌≡◌}};
    ghost use Rattle.c_tables.specs.Grammar.{{left_side}};

    /// The number of the symbol.
    pub fn symbol(self) -> u16
        ensures {{ result ≡ left_side self }}
    {{
        self as u16 + {first}
    }}
}}
"""

GRAMMAR = """-- The grammar of the subset: what each left side may be replaced by (C11 6.5 to 6.9), as tools/c_grammar.py writes it.
use Rattle.std.specs.Prelude.{{ℕ, Bool, true, false, List, [], ◌∷◌}}
use Rattle.c_lexer.specs.TokenClasses.{{class_number}}
use Rattle.c_lexer.specs.declared.token_class.TokenClass.TheVariants as T
use Rattle.c_tables.specs.declared.nonterminal.Nonterminal.{{Nonterminal}}
use Rattle.c_tables.specs.declared.nonterminal.Nonterminal.TheVariants as N

-- the number of a left side
abbrev pub left_side : Nonterminal → ℕ
{numbers}

-- the right sides
abbrev pub rights : Nonterminal → List (List ℕ)
{rights}

-- whether a derivation of the left side counts as a nesting of the tokens that it holds
abbrev pub counts : Nonterminal → Bool
{counts}
counts left = false
"""

RIGHTS = """-- The productions are those of the grammar, as tools/c_grammar.py writes it.
use Rattle.std.proofs.Common.{{◌≡◌, true, false, refl}}
use Rattle.c_lexer.specs.TokenClasses.{{class_number}}
use Rattle.c_lexer.specs.declared.token_class.TokenClass.{{TokenClass}}
use Rattle.c_lexer.specs.declared.token_class.TokenClass.TheVariants as T
use Rattle.ll_core.specs.Trees.{{is_left}}
use Rattle.c_tables.specs.declared.tables.TheConstants.{{PRODUCTIONS}}
use Rattle.c_tables.specs.declared.nonterminal.Nonterminal.{{Nonterminal}}
use Rattle.c_tables.specs.declared.nonterminal.Nonterminal.TheVariants as N
use Rattle.c_tables.specs.Grammar.{{left_side, rights, counts}}
use Rattle.c_tables.specs.Productions.{{rights_in, are_apart, all_count}}

{lemmas}
"""

LISTS = """-- The sets of the grammar as lists, each member with the production that puts it there by the members before it, as
-- tools/c_grammar.py writes them.
use Rattle.std.specs.Prelude.{ℕ, List, [], ◌∷◌, ◌++◌}
use Rattle.ll_core.specs.ListedSets.{Member, TokenMember, ListedSets}

abbrev pub m : ℕ → ℕ → Member
m symbol number = record { symbol = symbol; number = number }

abbrev pub t : ℕ → ℕ → ℕ → TokenMember
t symbol token number = record { symbol = symbol; token = token; number = number }
"""


def wrapped(items, indent="    ", width=118):
    return textwrap.fill(" ".join(items), width, initial_indent=indent, subsequent_indent=indent)


def camel(name):
    rule, _, own = name.partition("_")
    whole = WORDS.get(rule, rule) + ("_" + own if own else "")
    return "".join(part.capitalize() for part in whole.split("_"))


def token_classes():
    """The names of the classes of tokens, in the order of their numbers."""
    text = (Path(__file__).parent.parent / "crates/c_lexer/src/token_class.rt").read_text()
    return re.findall(r"^    ([A-Z]\w*),$", text.split("pub enum TokenClass {")[1].split("\n}")[0], re.M)


def by_left(named):
    """The right sides of each left side, in the order of their numbers."""
    found = {}
    for left, right in named:
        found.setdefault(left, []).append(right)
    return found


def symbol(name, classes):
    return f"class_number T.{classes[TOKENS[name]]}" if name in TOKENS else f"left_side N.{camel(name)}"


def right_side(right, classes):
    return "(" + "".join(symbol(name, classes) + " ∷ " for name in right) + "[])" if right else "[]"


def nonterminals(named):
    names = "\n".join(f"    {camel(name)}," for name in by_left(named))
    return NONTERMINALS.format(first=FIRST_SYMBOL, names=names)


def grammar(named):
    found, classes = by_left(named), token_classes()
    numbers = [f"left_side N.{camel(name)} = {FIRST_SYMBOL + n}" for n, name in enumerate(found)]
    rights = [
        f"rights N.{camel(name)} = " + "".join(right_side(right, classes) + " ∷ " for right in found[name]) + "[]"
        for name in found
    ]
    counts = [f"counts N.{camel(name)} = true" for name in found if name in NESTING]
    return GRAMMAR.format(numbers="\n".join(numbers), rights="\n".join(rights), counts="\n".join(counts))


def rights(named):
    left, token = [f"N.{camel(name)}" for name in by_left(named)], [f"T.{name}" for name in token_classes()]
    lemmas = [
        ("rights_are", "n : Nonterminal", "rights_in PRODUCTIONS (left_side n) ≡ rights n", left),
        ("nonterminal_is_left", "n : Nonterminal", "is_left PRODUCTIONS (left_side n) ≡ true", left),
        ("token_is_no_left", "t : TokenClass", "is_left PRODUCTIONS (class_number t) ≡ false", token),
        ("starts_are_apart", "n : Nonterminal", "are_apart (rights n) ≡ true", left),
        ("counts_are", "n : Nonterminal", "all_count PRODUCTIONS (left_side n) (counts n) ≡ true", left),
    ]
    return RIGHTS.format(
        lemmas="\n\n".join(
            f"pub {name} : ({argument}) → {claim}\n" + "\n".join(f"{name} {case} = refl" for case in cases)
            for name, argument, claim, cases in lemmas
        )
    )


def main():
    text = (Path(__file__).parent / "c_grammar.txt").read_text()
    named = Productions(text).found
    productions = numbered(named)
    sentences, nothing, first, follow, rows = sets_of(productions)
    if sys.argv[1] == "tables":
        lines = []
        for number, ((left, nests, right), (name, parts)) in enumerate(zip(productions, named)):
            padded = " ".join(map(str, right + [0] * (12 - len(right))))
            lines.append(f"    {left} {str(nests).lower()} {len(right)}: {padded}; // {number} {name} = {' '.join(parts)}")
        print(
            TABLES.format(
                count=len(productions),
                productions="\n".join(line.rstrip() for line in lines),
                row_count=len(rows),
                rows=wrapped([f"{a} {b} {c};" for a, b, c in rows], width=98),
            ),
            end="",
        )
        return
    if sys.argv[1] != "lists":
        print({"nonterminals": nonterminals, "grammar": grammar, "rights": rights}[sys.argv[1]](named), end="")
        return
    print(LISTS, end="")
    for name, members in (("sentences", sentences), ("nothing", nothing)):
        print(f"\nunfoldable pub {name} : List Member\n{name} =")
        print(wrapped([f"m {m} {n} ∷" for m, n in members] + ["[]"]))
    third = -(-len(follow) // 3)
    parts = [(f"follow_{i + 1}", follow[i * third : (i + 1) * third]) for i in range(3)]
    for name, members in [("first", first)] + parts:
        print(f"\nunfoldable pub {name} : List TokenMember\n{name} =")
        print(wrapped([f"t {m[0]} {m[1]} {n} ∷" for m, n in members] + ["[]"]))
    print("\n-- in three parts, since the checker tests each by itself")
    print("unfoldable pub follow : List TokenMember\nfollow = follow_1 ++ follow_2 ++ follow_3")
    print("\nunfoldable pub lists : ListedSets")
    print("lists = record { sentences = sentences; nothing = nothing; first = first; follow = follow }")


if __name__ == "__main__":
    main()
