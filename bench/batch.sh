#!/usr/bin/env bash
# Measures one `batch` of COUNT lines (10000 if unset), each of which makes a file in one directory, three times in turn on one
# core. It prints the medians: lines a second, and of a line the milliseconds, user and system milliseconds.
# - in a directory of 100 names, and of NAMES names (100000 if unset), on the disk
# - the same in /dev/shm, where there is one: there a sync costs nothing
# - where strace is installed, how many syncs and how many system calls a line makes
# - how long a sync takes on the disk, of a new file of 100 bytes and of a folder that got one
# CORE says which core (the last one if unset), FOLDER on which disk (that of the temporary files if unset).
set -eu
top=$(cd "$(dirname "$0")/.." && pwd)
count=${COUNT:-10000}
names=${NAMES:-100000}
core=${CORE:-$(($(nproc) - 1))}
"$top/unixfs" add -n < /dev/null > /dev/null
program=$top/crates/uf_tool/out/uf_tool
folder=$(mktemp -d -p "${FOLDER:-${TMPDIR:-/tmp}}")
memory=
[ ! -w /dev/shm ] || memory=$(mktemp -d -p /dev/shm)
trap 'rm -rf "$folder" "$memory"' EXIT
cd "$folder"

mkdir 100 "$names"
(cd 100 && "$program" init && for ((n = 0; n < 100; n++)); do printf 'files mkdir /n%06d\n' "$n"; done | "$program" batch > /dev/null)
python3 "$top/bench/wide.py" "$names" "$names"
for ((n = 0; n < count; n++)); do printf 'files write -e -x %08x /b%05d\n' "$n" "$n"; done > lines
head -n 100 lines > few
sync -f .

taskset -c "$core" python3 - "$program" "$count" "$names" "$folder" $memory <<'PYTHON' | "$top/bench/record"
import os, re, shutil, statistics, subprocess, sys, time

PROGRAM, COUNT, NAMES, FOLDERS = sys.argv[1], int(sys.argv[2]), sys.argv[3], sys.argv[4:]


def ready(names, folder):
    """The folder of a new store with so many names."""
    work = os.path.join(folder, "work")
    shutil.rmtree(work, ignore_errors=True)
    shutil.copytree(names, work)
    subprocess.run(["sync", "-f", work], check=True)
    return work


def run(names, folder):
    """The lines a second of one batch, and of a line its milliseconds, user and system milliseconds."""
    work = ready(names, folder)
    begin = time.perf_counter()
    with open("lines", encoding="ascii") as lines, open("told", "w", encoding="ascii") as told:
        child = subprocess.Popen([PROGRAM, "batch"], cwd=work, stdin=lines, stdout=told)
        _, code, usage = os.wait4(child.pid, 0)
    seconds = time.perf_counter() - begin
    with open("told", encoding="ascii") as told:
        if code or told.read() != "[0]\n" * COUNT:
            sys.exit(f"batch: status {code}")
    return [COUNT / seconds, *(1000 * some / COUNT for some in (seconds, usage.ru_utime, usage.ru_stime))]


def traced(names):
    """The system calls and the syncs of a line, over a hundred of them at most."""
    with open("few", encoding="ascii") as lines:
        subprocess.run(["strace", "-f", "-c", "-U", "calls,name", "-o", os.path.abspath("calls"), PROGRAM, "batch"],
                       cwd=ready(names, FOLDERS[0]), stdin=lines, stdout=subprocess.DEVNULL, check=True)
    with open("calls", encoding="ascii") as table:
        calls = {name: int(count) for count, name in re.findall(r"^ *(\d+) +(\w+)$", table.read(), re.M)}
    few = min(COUNT, 100)
    return calls["total"] / few, (calls.get("fsync", 0) + calls.get("fdatasync", 0)) / few


def synced(times=500):
    """The milliseconds of a sync of a new file, and of its folder."""
    spent = [0.0, 0.0]
    os.makedirs("synced", exist_ok=True)
    there = os.open("synced", os.O_RDONLY)
    for number in range(times):
        file = os.open(f"synced/{number}", os.O_WRONLY | os.O_CREAT)
        os.write(file, bytes(100))
        for at, opened in enumerate((file, there)):
            begin = time.perf_counter()
            os.fsync(opened)
            spent[at] += time.perf_counter() - begin
        os.close(file)
    return [1000 * some / times for some in spent]


rows = {}
for _ in range(3):
    for names in ("100", NAMES):
        for folder, where in zip(FOLDERS, ("disk", "/dev/shm")):
            rows.setdefault((names, where), []).append(run(names, folder))
            print(f"{names} names, {where}: {rows[names, where][-1][0]:.1f} lines a second", flush=True)
print(f"medians of three batches of {COUNT} lines: lines a second; of a line ms, user ms, system ms")
for (names, where), runs in rows.items():
    print(f"{names} names, {where}:", *(f"{statistics.median(column):.2f}" for column in zip(*runs)))
for where in ("disk", "/dev/shm"):
    if (NAMES, where) in rows:
        wide, few = (statistics.median(run[2] for run in rows[names, where]) for names in (NAMES, "100"))
        print(f"ratio a line of a batch beside {NAMES} names to one beside 100, {where}, user seconds: {wide / few:.2f}")
print("ms of a sync of a new file, and of its folder:", *(f"{some:.3f}" for some in synced()))
for names in ("100", NAMES) if shutil.which("strace") else ():
    print(f"{names} names: %.1f system calls a line, of which %.2f are syncs" % traced(names))
PYTHON
