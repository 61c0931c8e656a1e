#!/usr/bin/env bash
# Measures files and folders of the host: a folder is added and gotten again, each row three times in turn on one core, and
# the medians and their ratios are printed.
# - small: a folder of SMALL files of 5000 to 5400 bytes (10000 if unset: 52 MB)
# - large: a folder of four files of MIB MiB together (1024 if unset)
# - `unixfs add -r` against `git add` that makes each object stable, `cp -r` with `sync`, and, where they are installed,
#   `ostree commit` and `restic backup`; `unixfs get` against `git checkout`, `cp -r`, `ostree checkout` and `restic restore`
# - `unixfs add -r -n` against `find -exec sha256sum`
# Nothing is removed until the end: ext4 goes one by one over the inodes that were let go in the last seconds, which took more
# than all else.
# The aims: `add -r` of the small folder takes less time than `git add`, and `add -r -n` at most 1.2 of the user time of
# `sha256sum`.
# CORE says which core (the last one if unset), FOLDER on which disk (that of the temporary files if unset), and FOLDERS which of
# the two are measured (both if unset).
set -eu
top=$(cd "$(dirname "$0")/.." && pwd)
small=${SMALL:-10000}
mib=${MIB:-1024}
core=${CORE:-$(($(nproc) - 1))}
folders=${FOLDERS:-small large}
"$top/unixfs" add -n < /dev/null > /dev/null
export UNIXFS=$top/crates/uf_tool/out/uf_tool RESTIC_PASSWORD=none
folder=$(mktemp -d -p "${FOLDER:-${TMPDIR:-/tmp}}")
trap 'rm -rf "$folder"' EXIT
cd "$folder"
mkdir small large
python3 - "$small" "$mib" <<'PYTHON'
import os, sys
for n in range(int(sys.argv[1])):
    with open(f"small/{n:05}", "wb") as file:
        file.write(os.urandom(5000 + n % 401))
for n in range(4):
    with open(f"large/{n}", "wb") as file:
        for _ in range(int(sys.argv[2]) * 4):
            file.write(os.urandom(65536))
PYTHON
sync -f .

# Gives a folder another name, out of the way.
put_away() {
    [ ! -e "$1" ] || mv "$1" "$(mktemp -d -p .)/"
}

# A store or a repository in a folder of its own.
ready() {
    put_away work
    mkdir work
    case $1 in
    unixfs) (cd work && "$UNIXFS" init) ;;
    git)
        git -C work init -q
        git -C work config core.compression 0
        git -C work config core.fsync loose-object
        git -C work config gc.auto 0
        git -C work config user.name bench
        git -C work config user.email bench@localhost
        cp -r "$2" work/files
        ;;
    ostree) ostree --repo=work/repo init --mode=archive ;;
    restic) restic -q -r work/repo init ;;
    esac
    sync -f .
}

# Prints the name of a row, its seconds, its user seconds and its system seconds.
measure() {
    sync -f .
    (cd work && taskset -c "$core" python3 - "$1" "$2" <<'PYTHON') | tee -a lines
import resource, subprocess, sys, time
start = time.monotonic()
subprocess.run(["sh", "-c", sys.argv[2]], stdout=subprocess.DEVNULL, stderr=subprocess.DEVNULL, check=True)
used = resource.getrusage(resource.RUSAGE_CHILDREN)
print(sys.argv[1], f"{time.monotonic() - start:.4f} {used.ru_utime:.4f} {used.ru_stime:.4f}")
PYTHON
}

# Hashes one of the two folders, adds it and gets it again.
go_round() {
    ready unixfs
    measure "$1-hash:unixfs" "\"\$UNIXFS\" add -r -n ../$1 > ../hashed"
    measure "$1-hash:sha256sum" "find ../$1 -type f -exec sha256sum {} + > ../sums"
    measure "$1-add:unixfs" "\"\$UNIXFS\" add -r ../$1 > ../rows"
    cmp -s rows hashed
    cid=$(tail -n 1 rows | cut -d ' ' -f 2)
    measure "$1-get:unixfs" "\"\$UNIXFS\" get $cid copy && sync -f ."
    ready git "$1"
    measure "$1-add:git" 'git add files'
    git -C work commit -q -m files
    put_away work/files
    measure "$1-get:git" 'git checkout -q -- files && sync -f .'
    ready cp
    measure "$1-add:cp" "cp -r ../$1 copy && sync -f ."
    measure "$1-get:cp" 'cp -r copy again && sync -f .'
    if command -v ostree > /dev/null; then
        ready ostree
        measure "$1-add:ostree" "ostree --repo=repo commit -b files ../$1"
        measure "$1-get:ostree" 'ostree --repo=repo checkout -U files copy && sync -f .'
    fi
    if command -v restic > /dev/null; then
        ready restic
        measure "$1-add:restic" "restic -q -r repo backup ../$1"
        measure "$1-get:restic" 'restic -q -r repo restore latest --target copy && sync -f .'
    fi
}

for name in ostree restic; do
    command -v "$name" > /dev/null || echo "$name: not installed, skipped"
done
for turn in 1 2 3; do
    for name in $folders; do
        go_round "$name"
    done
done
python3 - "$small" "$mib" <<'PYTHON' | "$top/bench/record"
import statistics, sys
rows = {}
for line in open("lines", encoding="ascii"):
    name, *numbers = line.split()
    rows.setdefault(name, []).append([float(number) for number in numbers])
medians = {name: [statistics.median(column) for column in zip(*runs)] for name, runs in rows.items()}
print(f"medians of three: seconds, user seconds, system seconds (small: {sys.argv[1]} files of about 5 KB; large: {sys.argv[2]} MiB in four files)")
for name, numbers in medians.items():
    print(name, *(f"{number:.3f}" for number in numbers))
print("ratios of unixfs to others: seconds, user seconds")
for name, numbers in medians.items():
    what, who = name.split(":")
    if who != "unixfs":
        ours = medians[what + ":unixfs"]
        print(name, *(f"{ours[at] / numbers[at]:.2f}" if numbers[at] else "-" for at in (0, 1)))
FILES = {"small": f"{sys.argv[1]} files of 5 KB", "large": f"four files of {sys.argv[2]} MiB together"}
WORDS = {"hash": "add -r -n", "add": "add -r", "get": "get"}
KINDS = {"sha256sum": (1, "user seconds")}
for name, numbers in medians.items():
    what, who = name.split(":")
    folder, act = what.split("-")
    at, seconds = KINDS.get(who, (0, "seconds"))
    if who != "unixfs" and numbers[at]:
        print(f"ratio {WORDS[act]} of {FILES[folder]} to {who}, {seconds}: {medians[what + ':unixfs'][at] / numbers[at]:.2f}")
PYTHON
