#!/usr/bin/env bash
# Measures pulls over two pipes, each row three times in turn, and prints the medians and their ratios.
# - a folder of SMALL files of 5000 to 5400 bytes (10000 if unset: 52 MB) pulled into an empty store, beside `git fetch` from a
#   bare repository of them, which makes each object stable, and beside `rsync -a` where that is installed
# - the same folder again with one changed file
# Two processes work at once, so no core is chosen. FOLDER says on which disk (that of the temporary files if unset).
set -eu
top=$(cd "$(dirname "$0")/.." && pwd)
small=${SMALL:-10000}
"$top/unixfs" add -n < /dev/null > /dev/null
export UNIXFS=$top/crates/uf_tool/out/uf_tool
folder=$(mktemp -d -p "${FOLDER:-${TMPDIR:-/tmp}}")
trap 'rm -rf "$folder"' EXIT
cd "$folder"
mkdir small from
mkfifo back
python3 - "$small" <<'PYTHON'
import os, sys
for n in range(int(sys.argv[1])):
    with open(f"small/{n:05}", "wb") as file:
        file.write(os.urandom(5000 + n % 401))
PYTHON
(cd from && "$UNIXFS" init)
git init -q --bare from.git
git --git-dir=from.git config core.compression 0
git --git-dir=from.git config user.name bench
git --git-dir=from.git config user.email bench@localhost

# The folder as it is now goes into the store and the repository from which it is taken.
give() {
    (cd from && "$UNIXFS" add -r ../small) | tail -n 1 | cut -d ' ' -f 2 > root
    git --git-dir=from.git --work-tree=small add -A
    git --git-dir=from.git --work-tree=small commit -q --allow-empty -m now
}

# A store, a repository and a folder that have nothing yet.
ready() {
    rm -rf to to.git copy
    mkdir to copy
    git init -q --bare to.git
    git --git-dir=to.git config core.fsync loose-object
    git --git-dir=to.git config fetch.unpackLimit 1000000
    git --git-dir=to.git config core.compression 0
}

# Prints the name of a row, its seconds, its user seconds and its system seconds.
measure() {
    sync -f .
    python3 - "$1" "$2" <<'PYTHON' | tee -a lines
import resource, subprocess, sys, time
start = time.monotonic()
subprocess.run(["sh", "-c", sys.argv[2]], check=True, stdout=subprocess.DEVNULL, stderr=subprocess.DEVNULL)
used = resource.getrusage(resource.RUSAGE_CHILDREN)
print(sys.argv[1], f"{time.monotonic() - start:.4f} {used.ru_utime:.4f} {used.ru_stime:.4f}")
PYTHON
}

# Each way once.
fetch() {
    measure "$1:pull" '(cd from && "$UNIXFS" serve) < back | (cd to && "$UNIXFS" pull "$(cat ../root)") > back'
    measure "$1:git-fetch" 'git --git-dir=to.git fetch -q from.git +HEAD:refs/heads/copy'
    if command -v rsync > /dev/null; then
        measure "$1:rsync" 'rsync -a small/ copy/ && sync -f copy'
    fi
}

for turn in 1 2 3; do
    give
    ready
    fetch whole
    head -c 5000 /dev/urandom > small/00007
    give
    fetch changed
done
[ "$(cd to && "$UNIXFS" dag export "$(cat ../root)" | sha256sum)" = "$(cd from && "$UNIXFS" dag export "$(cat ../root)" | sha256sum)" ]
python3 - "$small" <<'PYTHON' | "$top/bench/record"
import statistics, sys
rows = {}
for line in open("lines", encoding="ascii"):
    name, *numbers = line.split()
    rows.setdefault(name, []).append([float(number) for number in numbers])
medians = {name: [statistics.median(column) for column in zip(*runs)] for name, runs in rows.items()}
print(f"medians of three: seconds, user seconds, system seconds ({sys.argv[1]} files)")
for name, numbers in medians.items():
    print(name, *(f"{number:.3f}" for number in numbers))
for kind, what in (("whole", f"pull of {sys.argv[1]} files"), ("changed", f"pull of one changed file of {sys.argv[1]}")):
    for other, told in (("git-fetch", "git fetch"), ("rsync", "rsync -a")):
        if f"{kind}:{other}" in medians:
            print(f"ratio {what} to {told}, seconds: {medians[f'{kind}:pull'][0] / medians[f'{kind}:{other}'][0]:.2f}")
PYTHON
