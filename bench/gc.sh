#!/usr/bin/env bash
# Measures a collection: a store of BLOCKS blocks (100000 if unset) of which half are reached, three times in turn on one core;
# the medians and their ratios are printed, and the memory that a collection takes.
# - `repo gc` against `git prune` and `git gc --prune=now` over as many loose objects, of which half are reached
# CORE says which core (the last one if unset), FOLDER on which disk (that of the temporary files if unset).
set -eu
top=$(cd "$(dirname "$0")/.." && pwd)
blocks=${BLOCKS:-100000}
core=${CORE:-$(($(nproc) - 1))}
"$top/unixfs" add -n < /dev/null > /dev/null
export UNIXFS=$top/crates/uf_tool/out/uf_tool
folder=$(mktemp -d -p "${FOLDER:-${TMPDIR:-/tmp}}")
trap 'rm -rf "$folder"' EXIT
cd "$folder"
python3 - "$blocks" <<'PYTHON'
import os, sys
for name in ("kept", "other"):
    os.mkdir(name)
    for n in range(int(sys.argv[1]) // 2):
        with open(f"{name}/{n:06}", "wb") as file:
            file.write(os.urandom(100))
PYTHON

# A store and a repository with both folders, of which only the first is reached.
mkdir store
(
    cd store
    "$UNIXFS" init
    "$UNIXFS" add -r --to-files /kept ../kept
    "$UNIXFS" add -r ../other
) > /dev/null
git init -q repository
git -C repository config core.compression 0
git -C repository config gc.auto 0
cp -r kept repository/kept
git -C repository add kept
git -C repository -c user.name=bench -c user.email=bench@localhost commit -q -m kept
find other -type f | sed 's,^,../,' | git -C repository hash-object -w --stdin-paths > /dev/null
sync -f .

# Prints the name of a row, its seconds, its user seconds, its system seconds and its memory in MB, over a copy.
measure() {
    rm -rf work
    cp -r "$2" work
    sync -f .
    (cd work && taskset -c "$core" python3 - "$1" "$3" <<'PYTHON') | tee -a lines
import resource, subprocess, sys, time
start = time.monotonic()
subprocess.run(["sh", "-ec", sys.argv[2]], stdout=subprocess.DEVNULL, stderr=subprocess.DEVNULL, check=True)
used = resource.getrusage(resource.RUSAGE_CHILDREN)
print(sys.argv[1], f"{time.monotonic() - start:.4f} {used.ru_utime:.4f} {used.ru_stime:.4f} {used.ru_maxrss / 1024:.0f}")
PYTHON
}

for turn in 1 2 3; do
    measure unixfs store '"$UNIXFS" repo gc'
    measure prune repository 'git prune --expire=now'
    measure gc repository 'git gc -q --prune=now'
done
python3 - "$blocks" <<'PYTHON' | "$top/bench/record"
import statistics, sys
rows = {}
for line in open("lines", encoding="ascii"):
    name, *numbers = line.split()
    rows.setdefault(name, []).append([float(number) for number in numbers])
medians = {name: [statistics.median(column) for column in zip(*runs)] for name, runs in rows.items()}
print(f"medians of three: seconds, user seconds, system seconds, MB ({sys.argv[1]} blocks, half of them reached)")
for name, numbers in medians.items():
    print(name, *(f"{number:.3f}" for number in numbers))
for name, what in (("prune", "git prune"), ("gc", "git gc --prune=now")):
    print(f"ratio repo gc of {sys.argv[1]} blocks to {what}, seconds: {medians['unixfs'][0] / medians[name][0]:.2f}")
PYTHON
