#!/usr/bin/env python3
"""Prints a grammar of binary operators for tools/tables.py: so many levels, of so many operators each.

    bench/grammar.py LEVELS OPERATORS

A level has the operators of one precedence. With 24 levels of two operators it has 100 productions; with 32 levels of
five operators and 20 statements more it has about 250 productions and 2,000 rows.
"""
import sys

levels, operators = int(sys.argv[1]), int(sys.argv[2])
statements = int(sys.argv[3]) if len(sys.argv) > 3 else 0
print("text -> level0 ; text")
for n in range(statements):
    print(f"text -> word{n} level0 ; text")
print("text ->")
for level in range(levels):
    below = f"level{level + 1}" if level + 1 < levels else "primary"
    print(f"level{level} -> {below} rest{level}")
    for operator in range(operators):
        print(f"rest{level} -> op{level}_{operator} {below} rest{level}")
    print(f"rest{level} ->")
print("!primary -> ( level0 )")
print("primary -> name")
