#!/usr/bin/env bash
# Measures what reading words costs at start: the program is run with words of no command, for which no parser is built, and
# with words of `files write`, whose parser is the longest, in turn. Prints the medians in milliseconds and their difference.
# RUNS says how often each is run (500 if unset), PROGRAM which program (the repository's own if unset).
set -eu
top=$(cd "$(dirname "$0")/.." && pwd)
program=${PROGRAM:-}
if [ -z "$program" ]; then
    "$top/unixfs" add -n < /dev/null > /dev/null
    program=$top/crates/uf_tool/out/uf_tool
fi

python3 - "$program" "${RUNS:-500}" <<'PYTHON'
import statistics, subprocess, sys, time

LISTS = {
    "no command": ["nonsense"],
    "files write": ["files", "write", "-o", "7", "-et", "--hex=00ff", "/f"],
}
program, runs = sys.argv[1], int(sys.argv[2])


def once(words):
    """Milliseconds of one run."""
    begin = time.perf_counter()
    subprocess.run([program, *words], stdin=subprocess.DEVNULL, stdout=subprocess.DEVNULL, stderr=subprocess.DEVNULL,
                   check=False)
    return (time.perf_counter() - begin) * 1000


times = {name: [] for name in LISTS}
for _ in range(runs):
    for name, words in LISTS.items():
        times[name].append(once(words))
medians = {name: statistics.median(some) for name, some in times.items()}
for name, median in medians.items():
    print(f"{name}: {median:.3f} ms")
print(f"difference: {medians['files write'] - medians['no command']:.3f} ms")
PYTHON
