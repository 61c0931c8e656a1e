#!/usr/bin/env bash
# Measures the first use: a fresh clone of the commit with an empty cache folder, and then a second clone. Prints the machine,
# what the first use says with the seconds at which it says it, and for both clones the seconds by the clock and the processor
# seconds. The aims: at most 15 minutes by the clock on four cores, at most 45 processor minutes, and a second clone at once.
# CORES says on which cores (all that may be used, if unset), FOLDER on which disk (that of the temporary files if unset).
#
# It is a measure from nothing where the kit takes nothing over from other checkouts: it says of how many crates it could. Run it
# on a machine that does nothing else.
set -eu
top=$(cd "$(dirname "$0")/.." && pwd)
cores=${CORES:-$(python3 -c 'import os; print(",".join(map(str, sorted(os.sched_getaffinity(0)))))')}
kit=$(dirname "$(dirname "$(readlink -f "$(command -v rt)")")")
[ -z "$(git -C "$top" status --porcelain)" ] || echo "edits that are not committed are not measured"
folder=$(mktemp -d -p "${FOLDER:-${TMPDIR:-/tmp}}")
trap 'rm -rf "$folder"' EXIT
git clone -q "$top" "$folder/first"
git clone -q "$top" "$folder/second"

taskset -c "$cores" python3 - "$folder" "$kit" <<'PYTHON'
import glob, json, os, resource, subprocess, sys, time

folder, kit = sys.argv[1:]


def taken_over():
    """How many crates of other checkouts the kit could take over."""
    found = set()
    for name in glob.glob(os.path.join(kit + "-kept", "work", "uf_*")):
        try:
            with open(name, encoding="utf-8") as file:
                said = json.load(file)
            if said["stamp"] and os.path.isdir(said["folder"] + "/out"):
                found.add(os.path.basename(said["folder"]))
        except (OSError, ValueError, KeyError):
            pass
    return len(found)


def used():
    """Processor seconds of all that has ended."""
    spent = resource.getrusage(resource.RUSAGE_CHILDREN)
    return spent.ru_utime + spent.ru_stime


def first_use(name):
    """Runs the first use of a clone, and prints what it took."""
    environment = dict(os.environ, XDG_CACHE_HOME=f"{folder}/cache")
    begun, before = time.monotonic(), used()
    with open(f"{folder}/{name}/README.md", "rb") as page:
        work = subprocess.Popen([f"{folder}/{name}/unixfs", "add", "-n"], stdin=page, stdout=subprocess.DEVNULL,
                                stderr=subprocess.PIPE, env=environment, text=True)
        for line in work.stderr:
            print(f"{time.monotonic() - begun:8.1f} {line}", end="", flush=True)
    if work.wait():
        sys.exit(f"{name}: status {work.returncode}")
    wall, spent = time.monotonic() - begun, used() - before
    print(f"{name} clone: {wall:.1f} s by the clock ({wall / 60:.1f} min), {spent:.1f} processor s ({spent / 60:.1f} min)")


with open("/proc/meminfo", encoding="utf-8") as file:
    memory = int(file.readline().split()[1]) >> 20
print(f"{len(os.sched_getaffinity(0))} cores, {memory} GiB of memory, load {os.getloadavg()[0]:.1f}")
print(subprocess.run(["rt", "version"], stdout=subprocess.PIPE, text=True, check=True).stdout.strip())
print(f"the kit could take over {taken_over()} crates of other checkouts")
first_use("first")
first_use("second")
PYTHON
