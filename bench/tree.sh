#!/bin/sh
# Times the syntax, as the built program runs it: texts of nearly 60,000 tokens in one chain, and in 100 functions, which
# leave the form of the judged texts at an early token, so that all that takes time is reading, cutting and making the
# tree. Each comes at a tenth of the length and at the whole of it. Prints the best of five runs of each, start of the
# program and all, and the peak memory. It is no test.
. "$(dirname "$0")/built.sh"
python3 - "$program" "$text" <<'END'
import resource
import subprocess
import sys
import time

program, name = sys.argv[1:]
body = "int f%d(int a, int *b) { for (int i = 0; i < a; i++) { if (b[i] == (a & 3)) { b[i] += f(a, b) * 2; } else { return -1; } } %s return a ? *b : sizeof(int); }\n"
chains = {
    "sums": lambda n: "int main(void) { return 0" + "+0" * (n // 2) + "; }",
    "indexes": lambda n: "int main(void) { return x" + "[0]" * (n // 3) + "; }",
    "declarators": lambda n: "int a" + ", a" * (n // 2) + ";",
    "pointers": lambda n: "int " + "*" * n + "p;",
    "statements": lambda n: "int main(void) { " + "a;" * (n // 2) + "}",
    "functions": lambda n: "".join(body % (k, "a = 1; " * ((n - 7500) // 400 if n > 7500 else 0)) for k in range(100 if n > 7500 else 70)),
}
for kind, text in chains.items():
    for tokens in (5_900, 59_000):
        with open(name, "w") as file:
            file.write(text(tokens))
        best = 1e9
        for _ in range(5):
            begin = time.perf_counter()
            try:
                found = subprocess.run([program, "check", name], capture_output=True, text=True, timeout=20).stdout.strip()
            except subprocess.TimeoutExpired:
                found = "no answer in 20 seconds"
                break
            best = min(best, time.perf_counter() - begin)
        peak = resource.getrusage(resource.RUSAGE_CHILDREN).ru_maxrss / 1024
        print(f"{kind}, {tokens} tokens: {best * 1000:.1f} ms ({found}), peak memory so far {peak:.1f} MB")
END
