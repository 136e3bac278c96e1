#!/bin/sh
# Times `check` on a text of 262,144 bytes and nearly 60,000 tokens, some 6,700 calls, and prints seconds and peak memory.
top=$(cd "$(dirname "$0")/.." && pwd) || exit 1
folder=$(mktemp -d)
trap 'rm -rf "$folder"' EXIT
text=$folder/calls.c
{
    printf '#include <threads.h>\nstatic mtx_t mutex_of_calls;\nint main(void)\n{\n    (void)mtx_init(&mutex_of_calls, mtx_plain);\n'
    awk 'BEGIN {
        for (i = 0; i < 3330; i++) {
            print "    (void)mtx_lock(&mutex_of_calls);"
            print "    (void)mtx_unlock(&mutex_of_calls);"
        }
    }'
    printf '    return 0;\n}\n'
} >"$text"
# Spaces behind the text bring it to the limit.
size=$(wc -c <"$text")
if [ "$size" -gt 262144 ]; then
    echo "the text is too long: $size bytes" >&2
    exit 1
fi
printf '%*s' $((262144 - size)) '' >>"$text"
"$top/prove" || exit 1
wc -c "$text"
grep -c mtx_ "$text"
python3 - "$top/crates/misra_desk/out/misra_desk" "$text" <<'PYTHON'
import resource
import subprocess
import sys
import time

start = time.monotonic()
done = subprocess.run([sys.argv[1], "check", sys.argv[2]], capture_output=True, text=True)
seconds = time.monotonic() - start
peak = resource.getrusage(resource.RUSAGE_CHILDREN).ru_maxrss
print(done.stdout, end="")
print(f"status {done.returncode}, {seconds:.3f} seconds, peak memory {peak / 1024:.1f} MB")
PYTHON
