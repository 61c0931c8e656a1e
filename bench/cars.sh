#!/usr/bin/env bash
# Measures CARs and `cat` over the store on the disk, each row three times in turn on one core, and prints the medians and their
# ratios.
# - `dag export` of a file of MIB MiB (1024 if unset)
# - `dag import` of that CAR into another store
# - `cat` of the file
# - `cp` of the same bytes with `sync`, and sha256sum of them
# CORE says which core (the last one if unset), FOLDER on which disk (that of the temporary files if unset).
set -eu
top=$(cd "$(dirname "$0")/.." && pwd)
mib=${MIB:-1024}
core=${CORE:-$(($(nproc) - 1))}
"$top/unixfs" add -n < /dev/null > /dev/null
export UNIXFS=$top/crates/uf_tool/out/uf_tool
folder=$(mktemp -d -p "${FOLDER:-${TMPDIR:-/tmp}}")
trap 'rm -rf "$folder"' EXIT
cd "$folder"
mkdir from
head -c "$((mib * 1048576))" /dev/urandom > large
(cd from && "$UNIXFS" init && "$UNIXFS" add < ../large) | cut -d ' ' -f 2 > root
CID=$(cat root)
export CID

# Prints the name of a row, its seconds, its user seconds and its system seconds.
measure() {
    rm -rf work
    mkdir work
    sync -f .
    taskset -c "$core" python3 - "$1" "$2" <<'PYTHON' | tee -a lines
import resource, subprocess, sys, time
start = time.monotonic()
subprocess.run(["sh", "-c", sys.argv[2]], stderr=subprocess.DEVNULL, check=True)
used = resource.getrusage(resource.RUSAGE_CHILDREN)
print(sys.argv[1], f"{time.monotonic() - start:.4f} {used.ru_utime:.4f} {used.ru_stime:.4f}")
PYTHON
}

for turn in 1 2 3; do
    measure export 'cd from && "$UNIXFS" dag export "$CID" > ../large.car && sync -f ..'
    measure import 'cd work && "$UNIXFS" dag import < ../large.car > ../roots'
    measure cat 'cd from && "$UNIXFS" cat "$CID" > ../again'
    measure cp 'cp large.car work/copy && sync -f .'
    measure sha256sum 'sha256sum large.car > sum'
done
[ "$(cat roots)" = "root $CID" ]
python3 - "$mib" <<'PYTHON' | "$top/bench/record"
import statistics, sys
rows = {}
for line in open("lines", encoding="ascii"):
    name, *numbers = line.split()
    rows.setdefault(name, []).append([float(number) for number in numbers])
medians = {name: [statistics.median(column) for column in zip(*runs)] for name, runs in rows.items()}
print(f"medians of three: seconds, user seconds, system seconds ({sys.argv[1]} MiB)")
for name, numbers in medians.items():
    print(name, *(f"{number:.3f}" for number in numbers))
print("ratios of unixfs to others: seconds, user seconds")
for name in ("export", "import", "cat"):
    for other in ("cp", "sha256sum"):
        pairs = zip(medians[name][:2], medians[other][:2])
        print(f"{name}:{other}", *(f"{ours / theirs:.2f}" if theirs else "-" for ours, theirs in pairs))
for name in ("export", "import", "cat"):
    for other, at, seconds in (("sha256sum", 1, "user seconds"), ("cp", 0, "seconds")):
        print(f"ratio {'cat' if name == 'cat' else 'dag ' + name} of {sys.argv[1]} MiB to {other}, {seconds}: {medians[name][at] / medians[other][at]:.2f}")
PYTHON
