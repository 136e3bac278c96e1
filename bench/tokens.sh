#!/bin/sh
# Times the lexer, as the built program runs it: texts of 26,214 and 262,144 bytes with every kind of token, comments,
# and typedef names, which leave the form of the judged texts at their first token, so that all that takes time is
# reading and cutting. Prints the best of ten runs of each, start of the program and all. It is no test.
. "$(dirname "$0")/built.sh"
python3 - "$program" "$text" <<'END'
import subprocess
import sys
import time

program, name = sys.argv[1:]
chunk = (
    "typedef struct { int x; } name_%d; /* a comment of some words */\n"
    "static name_%d object_%d = { 0x7fffffff, 'a', 42uL }; // the rest of a line\n"
    "x <<= (y >> 2) ->z... && \"a string\" || 1.5e-3 != a[017];\n"
)
for size in (26214, 262144):
    text, number = "", 0
    while len(text) < size:
        text += chunk % (number, number, number)
        number += 1
    with open(name, "w") as file:
        file.write(text[:size].rsplit("\n", 1)[0].ljust(size))
    best = 1e9
    for _ in range(10):
        begin = time.perf_counter()
        found = subprocess.run([program, "check", name], capture_output=True, text=True)
        best = min(best, time.perf_counter() - begin)
    print(f"{size} bytes: {best * 1000:.1f} ms ({found.stdout.strip()})")
END
