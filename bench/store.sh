#!/usr/bin/env bash
# Measures the store on the disk, each row three times in turn on one core, and prints the medians.
# - `add` of 10000 blocks of 5200 bytes, against `git add` of as many files that makes each object stable, and `cp` with `sync`
# - `add` of MIB MiB (1024 if unset), against sha256sum, and `cp` with `sync`
# - `files mkdir` in a small tree, and a start without work
# - with strace, where it is installed: the system calls for each new block
# CORE says which core (the last one if unset), FOLDER on which disk (that of the temporary files if unset).
set -eu
top=$(cd "$(dirname "$0")/.." && pwd)
mib=${MIB:-1024}
core=${CORE:-$(($(nproc) - 1))}
"$top/unixfs" add -n < /dev/null > /dev/null
export UNIXFS=$top/crates/uf_tool/out/uf_tool
folder=$(mktemp -d -p "${FOLDER:-${TMPDIR:-/tmp}}")
trap 'rm -rf "$folder"' EXIT
cd "$folder"
python3 -c '
import os
os.mkdir("files")
with open("small", "wb") as whole:
    for n in range(10000):
        piece = os.urandom(5200)
        whole.write(piece)
        with open(f"files/{n}", "wb") as file:
            file.write(piece)'
head -c "$((mib * 1048576))" /dev/urandom > large
sync -f .

# A store or a repository in a folder of its own, which each row is done in.
ready() {
    rm -rf work
    mkdir work
    case $1 in
    blocks) (cd work && "$UNIXFS" init --chunk 5200) ;;
    large | mkdir) (cd work && "$UNIXFS" init && "$UNIXFS" files mkdir -p /a/b/c) ;;
    git)
        git -C work init -q
        git -C work config core.compression 0
        git -C work config core.fsync loose-object
        cp -r files work/files
        ;;
    esac
    sync -f .
}

# Prints the name of a row, its seconds and its user seconds.
measure() {
    ready "$2"
    (cd work && taskset -c "$core" python3 - "$1" "$3" <<'PYTHON') | tee -a lines
import resource, subprocess, sys, time
start = time.monotonic()
subprocess.run(["sh", "-c", sys.argv[2]], stdout=subprocess.DEVNULL, stderr=subprocess.DEVNULL, check=True)
used = resource.getrusage(resource.RUSAGE_CHILDREN)
print(sys.argv[1], f"{time.monotonic() - start:.4f} {used.ru_utime:.4f} {used.ru_stime:.4f}")
PYTHON
}

for turn in 1 2 3; do
    measure blocks:unixfs blocks '"$UNIXFS" add < ../small'
    measure blocks:git git 'git add files'
    measure blocks:cp cp 'cp -r ../files copy && sync -f .'
    measure large:unixfs large '"$UNIXFS" add < ../large'
    measure large:sha256sum sha256sum 'sha256sum ../large'
    measure large:cp cp 'cp ../large copy && sync -f .'
    measure mkdir:unixfs mkdir '"$UNIXFS" files mkdir /a/b/c/d'
    measure start:unixfs start 'for n in 0 1 2 3 4 5 6 7 8 9; do "$UNIXFS" || true; done'
    measure start:true start 'for n in 0 1 2 3 4 5 6 7 8 9; do /bin/true; done'
done
python3 - "$mib" <<'PYTHON' | "$top/bench/record"
import statistics, sys
rows = {}
for line in open("lines", encoding="ascii"):
    name, *numbers = line.split()
    rows.setdefault(name, []).append([float(number) for number in numbers])
print(f"medians of three: seconds, user seconds, system seconds (blocks: 10000 of 5200 bytes; large: {sys.argv[1]} MiB; start: ten)")
for name, runs in rows.items():
    print(name, *(f"{statistics.median(column):.3f}" for column in zip(*runs)))
spent = {name: statistics.median(run[0] for run in runs) for name, runs in rows.items()}
for ours, theirs, what in (("blocks:unixfs", "blocks:git", "add of 10000 blocks to git add"),
                           ("large:unixfs", "large:sha256sum", f"add of {sys.argv[1]} MiB to sha256sum")):
    print(f"ratio {what}, seconds: {spent[ours] / spent[theirs]:.2f}")
PYTHON

if command -v strace > /dev/null; then
    ready blocks
    (cd work && strace -f -c -U calls,name -o ../calls "$UNIXFS" add < ../small > /dev/null)
    awk -v blocks="$(find work/.unixfs/blocks -type f | wc -l)" \
        '$2 == "total" { printf "%d blocks, %d system calls, %.2f for each block\n", blocks, $1, $1 / blocks }' calls
    sed -n '3,9p' calls
fi
