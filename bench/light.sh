#!/usr/bin/env bash
# Measures light proofs, three times in turn on one core; the medians and their ratios are printed.
# - `prove` of one file beside NAMES names (1000000 if unset), its bytes and its sections, and `check` of that; beside
#   `dag export` of the whole, and `git cat-file` of the blob and of the tree on its way
# - `check` of a file of MIB MiB (256 if unset) beside `sha256sum`
# CORE says which core (the last one if unset), FOLDER on which disk (that of the temporary files if unset).
set -eu
top=$(cd "$(dirname "$0")/.." && pwd)
names=${NAMES:-1000000}
mib=${MIB:-256}
core=${CORE:-$(($(nproc) - 1))}
"$top/unixfs" add -n < /dev/null > /dev/null
export UNIXFS=$top/crates/uf_tool/out/uf_tool
folder=$(mktemp -d -p "${FOLDER:-${TMPDIR:-/tmp}}")
trap 'rm -rf "$folder"' EXIT
cd "$folder"

# A store with so many names and a file beside them, a repository with as many, and a store with a large file.
mkdir wide large
python3 "$top/bench/wide.py" wide "$names"
(cd wide && printf 'hello world' | "$UNIXFS" files write -e /one && "$UNIXFS" files stat / | head -n 1 > ../root)
git init -q repository
blob=$(printf 'hello world' | git -C repository hash-object -w --stdin)
awk -v blob="$blob" -v count="$names" 'BEGIN { for (n = 0; n < count; n++) printf "100644 %s\tn%06d\n", blob, n }' |
    git -C repository update-index --index-info
git -C repository write-tree > tree
head -c "$((mib * 1048576))" /dev/urandom > bytes
(cd large && "$UNIXFS" init && "$UNIXFS" files write -e /f < ../bytes && "$UNIXFS" files stat / | head -n 1 > ../large-root)
(cd wide && "$UNIXFS" prove /one > ../proof)
(cd large && "$UNIXFS" prove /f > ../large-proof)
sync -f .

# Prints the name of a row, its seconds, its user seconds and the bytes that it wrote.
measure() {
    taskset -c "$core" python3 - "$1" "$2" <<'PYTHON' | tee -a lines
import os, resource, subprocess, sys, time
start = time.monotonic()
with open("written", "wb") as file:
    subprocess.run(["sh", "-ec", sys.argv[2]], stdout=file, check=True)
used = resource.getrusage(resource.RUSAGE_CHILDREN)
print(sys.argv[1], f"{time.monotonic() - start:.4f} {used.ru_utime:.4f} {os.path.getsize('written')}")
PYTHON
}

for turn in 1 2 3; do
    measure prove 'cd wide && "$UNIXFS" prove /one'
    measure check '"$UNIXFS" check "$(cat root)" /one < proof'
    measure export 'cd wide && "$UNIXFS" dag export "$(cat ../root)"'
    measure git 'cd repository && git cat-file tree "$(cat ../tree)" && git cat-file blob '"$blob"
    measure check-large '"$UNIXFS" check "$(cat large-root)" /f < large-proof > /dev/null'
    measure sha256sum 'sha256sum large-proof'
done
"$UNIXFS" check "$(cat large-root)" /f < large-proof | cmp - bytes
python3 - "$names" "$mib" <<'PYTHON' | "$top/bench/record"
import statistics, sys
names, mib = sys.argv[1:]
rows = {}
for line in open("lines", encoding="ascii"):
    name, *numbers = line.split()
    rows.setdefault(name, []).append([float(number) for number in numbers])
medians = {name: [statistics.median(column) for column in zip(*runs)] for name, runs in rows.items()}
with open("proof", "rb") as file:
    proof, at, sections = file.read(), 0, -1
while at < len(proof):
    length, shift = 0, 0
    while True:
        byte = proof[at]
        at += 1
        length |= (byte & 127) << shift
        shift += 7
        if byte < 128:
            break
    at, sections = at + length, sections + 1
print(f"medians of three: seconds, user seconds, bytes ({names} names; {mib} MiB); the proof has {sections} sections")
for name, (seconds, user, count) in medians.items():
    print(f"{name} {seconds:.4f} {user:.4f} {count:.0f}")
print(f"ratio prove of one file beside {names} names to git cat-file of its tree, bytes: {medians['prove'][2] / medians['git'][2]:.6f}")
print(f"ratio prove of one file beside {names} names to git cat-file of its tree, seconds: {medians['prove'][0] / medians['git'][0]:.4f}")
print(f"ratio check of a file of {mib} MiB to sha256sum, user seconds: {medians['check-large'][1] / medians['sha256sum'][1]:.2f}")
PYTHON
