#!/usr/bin/env bash
# Measures what the nodes in memory save, over the store on the disk, on one core: the medians of RUNS (9 if unset) in
# milliseconds and user milliseconds, and, where strace is installed, how many files of blocks one run opens. A node that is
# lent from memory opens none, so that number beside how many different blocks there are says what is saved.
# - one command each: `files ls -l` of NAMES directories (1000 if unset), `files stat` of a path eight deep, `cat` of a file of
#   MIB MiB (64 if unset), which reads each block twice; a leaf isn't kept in memory
# - a batch of COUNT (100 if unset) such `files stat` lines, beside as many single commands: those share nothing
# - `files read` of the file
# CORE says which core (the last one if unset), FOLDER on which disk (that of the temporary files if unset).
set -eu
top=$(cd "$(dirname "$0")/.." && pwd)
names=${NAMES:-1000}
mib=${MIB:-64}
core=${CORE:-$(($(nproc) - 1))}
"$top/unixfs" add -n < /dev/null > /dev/null
program=$top/crates/uf_tool/out/uf_tool
folder=$(mktemp -d -p "${FOLDER:-${TMPDIR:-/tmp}}")
trap 'rm -rf "$folder"' EXIT
cd "$folder"
mkdir work

deep=/a/b/c/d/e/f/g/h
head -c "$((mib * 1048576))" /dev/urandom > input
(
    cd work
    "$program" init
    for ((n = 0; n < names; n++)); do printf 'files mkdir -p /wide/n%06d\n' "$n"; done | "$program" batch > /dev/null
    "$program" files mkdir -p "$deep"
    "$program" add --to-files /file < ../input > ../row
)
cid=$(cut -d ' ' -f 2 row)
sync -f .

taskset -c "$core" python3 - "$program" "$names" "$mib" "$cid" "$deep" "${RUNS:-9}" "${COUNT:-100}" <<'PYTHON'
import os, re, shutil, statistics, subprocess, sys, time

PROGRAM, NAMES, MIB, CID, DEEP, RUNS, COUNT = *sys.argv[1:6], int(sys.argv[6]), int(sys.argv[7])
OPENED = re.compile(r"open(at)?\(.*/blocks/(../)?b.*O_RDONLY.* = \d")


def run(words, times, text):
    """The milliseconds and user milliseconds of so many runs with this input, one after the other."""
    begin, before = time.perf_counter(), os.times().children_user
    for _ in range(times):
        subprocess.run(words, cwd="work", input=text, stdout=subprocess.DEVNULL, check=True)
    return [1000 * (time.perf_counter() - begin), 1000 * (os.times().children_user - before)]


def opened(words, times, text):
    """How many files of blocks they open, and how many different ones."""
    if not shutil.which("strace"):
        return ["-", "-"]
    log = os.path.abspath("calls")
    subprocess.run(["strace", "-f", "-e", "trace=open,openat", "-s", "200", "-o", log, *words], cwd="work", input=text,
                   stdout=subprocess.DEVNULL, check=True)
    with open(log, encoding="utf-8", errors="replace") as lines:
        names = [line.split('"')[1] for line in lines if OPENED.search(line)]
    return [str(times * len(names)), str(len(set(names)))]


def measure(title, words, times=1, text=b""):
    turns = [run(words, times, text) for _ in range(RUNS)]
    row(title, *(f"{statistics.median(column):.1f}" for column in zip(*turns)), *opened(words, times, text))


def row(title, *cells):
    print(f"{title:44}" + "".join(f"{cell:>10}" for cell in cells), flush=True)


row(f"medians of {RUNS}", "ms", "user ms", "opened", "blocks")
measure(f"files ls -l of {NAMES} directories", [PROGRAM, "files", "ls", "-l", "/wide"])
measure("files stat, eight deep", [PROGRAM, "files", "stat", DEEP])
measure(f"cat of {MIB} MiB", [PROGRAM, "cat", CID])
measure(f"batch of {COUNT} files stat, eight deep", [PROGRAM, "batch"], 1, f"files stat {DEEP}\n".encode() * COUNT)
measure(f"{COUNT} commands files stat, eight deep", [PROGRAM, "files", "stat", DEEP], COUNT)
measure(f"files read of {MIB} MiB", [PROGRAM, "files", "read", "/file"])
PYTHON
