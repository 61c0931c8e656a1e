#!/usr/bin/env bash
# Measures edits of one name or one byte over the store on the disk, and prints a table: of each edit the medians of RUNS
# (9 if unset) in milliseconds, user and system milliseconds, on one core; and of one more, where strace is installed, its
# system calls, and how many blocks it read and how many it wrote.
# - `files write` of one byte into files of 1 and MIB MiB (1024 if unset), beside `git update-index` after such a write
# - `files mkdir` in directories of 10 and of NAMES names (100000 if unset), beside `git update-index` of one more name
# - a start without work, which is in each of them
# CORE says which core (the last one if unset), FOLDER on which disk (that of the temporary files if unset).
set -eu
top=$(cd "$(dirname "$0")/.." && pwd)
mib=${MIB:-1024}
names=${NAMES:-100000}
core=${CORE:-$(($(nproc) - 1))}
"$top/unixfs" add -n < /dev/null > /dev/null
program=$top/crates/uf_tool/out/uf_tool
folder=$(mktemp -d -p "${FOLDER:-${TMPDIR:-/tmp}}")
trap 'rm -rf "$folder"' EXIT
cd "$folder"

# A store with a file of so many MiB, which is written in parts, and a repository with the same file.
large() {
    mkdir "file-$1" "git-file-$1"
    head -c "$(($1 * 1048576))" /dev/urandom > "git-file-$1/f"
    (
        cd "file-$1"
        "$program" init
        for ((at = 0; at < $1; at += 256)); do
            tail -c "+$((at * 1048576 + 1))" "../git-file-$1/f" | head -c 268435456 |
                "$program" files write -e -o "$((at * 1048576))" /f
        done
    )
    git -C "git-file-$1" init -q
    git -C "git-file-$1" config core.compression 0
    git -C "git-file-$1" config core.fsync loose-object
    git -C "git-file-$1" add f
}

# A repository with so many names.
many() {
    mkdir "git-directory-$1"
    git -C "git-directory-$1" init -q
    git -C "git-directory-$1" config core.fsync loose-object
    blob=$(git -C "git-directory-$1" hash-object -w --stdin < /dev/null)
    awk -v blob="$blob" -v count="$1" 'BEGIN { for (n = 0; n < count; n++) printf "100644 %s\tn%06d\n", blob, n }' |
        git -C "git-directory-$1" update-index --index-info
}

large 1
large "$mib"
mkdir directory-10 "directory-$names" start
(cd directory-10 && "$program" init && for n in 0 1 2 3 4 5 6 7 8 9; do "$program" files mkdir "/n00000$n"; done)
python3 "$top/bench/wide.py" "directory-$names" "$names"
[ "$(cd "directory-$names" && "$program" files ls | wc -l)" -eq "$names" ]
many 10
many "$names"
sync -f .

taskset -c "$core" python3 - "$program" "$mib" "$names" "${RUNS:-9}" <<'PYTHON' | "$top/bench/record"
import os, re, shutil, statistics, subprocess, sys, time

PROGRAM, MIB, NAMES, RUNS = sys.argv[1], int(sys.argv[2]), int(sys.argv[3]), int(sys.argv[4])
QUIET = {"stdin": subprocess.DEVNULL, "stdout": subprocess.DEVNULL, "stderr": subprocess.DEVNULL}


def write(mib):
    """Writes a byte at another place in each turn."""
    return lambda turn: [PROGRAM, "files", "write", "-o", str(mib * (turn + 1) * 40009), "-x", f"{turn + 160:02x}", "/f"]


def make(turn):
    return [PROGRAM, "files", "mkdir", f"/k{turn}"]


def start(turn):
    return [PROGRAM]


def changed(mib):
    """Changes a byte in each turn, and gives the command that takes the file in."""
    def words(turn):
        with open("f", "r+b") as file:
            file.seek(mib * (turn + 1) * 40009)
            file.write(bytes([turn + 160]))
        return ["git", "update-index", "f"]
    return words


def named(turn):
    """Makes a file in each turn, and gives the command that takes it in."""
    with open(f"k{turn}", "wb"):
        return ["git", "update-index", "--add", f"k{turn}"]


def run(words, folder):
    """The milliseconds, user and system milliseconds of one run."""
    begin = time.perf_counter()
    child = subprocess.Popen(words, cwd=folder, **QUIET)
    _, code, usage = os.wait4(child.pid, 0)
    if code and len(words) > 1:
        sys.exit(f"{' '.join(words)}: status {code}")
    return [1000 * seconds for seconds in (time.perf_counter() - begin, usage.ru_utime, usage.ru_stime)]


def traced(words, folder):
    """The system calls of one run, and how many blocks it read and how many it wrote."""
    if not shutil.which("strace"):
        return ["-", "-", "-"]
    log = os.path.abspath("calls")
    subprocess.run(["strace", "-f", "-o", log, *words], cwd=folder, check=False, **QUIET)
    with open(log, encoding="utf-8", errors="replace") as lines:
        calls = [line.split(maxsplit=1)[1] for line in lines if re.match(r"\d+ +\w+\(", line)]
    met = [call for call in calls if re.match(r"open(at)?\(.*/blocks/(../)?b.*O_RDONLY.* = \d", call)]
    kept = [call for call in calls if re.match(r"rename\w*\(.*/blocks/(../)?b.* = 0", call)]
    return [str(len(calls)), str(len(met)), str(len(kept))] if words[0] == PROGRAM else [str(len(calls)), "", ""]


def measure(title, folder, task):
    turns = []
    for turn in range(RUNS + 1):
        os.chdir(folder)
        words = task(turn)
        os.chdir("..")
        if turn < RUNS:
            turns.append(run(words, folder))
    medians = [f"{statistics.median(column):.1f}" for column in zip(*turns)]
    row(title, *medians, *traced(words, folder))
    return float(medians[0])


def row(title, *cells):
    print(f"{title:42}" + "".join(f"{cell:>9}" for cell in cells), flush=True)


row(f"medians of {RUNS}", "ms", "user", "system", "calls", "read", "written")
measure("start", "start", start)
for mib in (1, MIB):
    byte = measure(f"a byte into a file of {mib} MiB", f"file-{mib}", write(mib))
for names in (10, NAMES):
    name = measure(f"mkdir in a directory of {names} names", f"directory-{names}", make)
for mib in (1, MIB):
    git_byte = measure(f"git update-index: file of {mib} MiB", f"git-file-{mib}", changed(mib))
for names in (10, NAMES):
    git_name = measure(f"git update-index: {names} names", f"git-directory-{names}", named)
print(f"ratio a byte written into a file of {MIB} MiB to git update-index, seconds: {byte / git_byte:.4f}")
print(f"ratio files mkdir beside {NAMES} names to git update-index, seconds: {name / git_name:.2f}")
PYTHON
