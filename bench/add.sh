#!/usr/bin/env bash
# Measures `unixfs add -n` of incompressible bytes against sha256sum and, where it is installed (Debian's ipfs-cid),
# ipfs_cid: each three times in turn on one core. Prints user seconds, peak memory and ratios of the medians.
# MIB says how many MiB (1024 if unset), CORE which core (the last one if unset).
set -eu
top=$(cd "$(dirname "$0")/.." && pwd)
mib=${MIB:-1024}
core=${CORE:-$(($(nproc) - 1))}
folder=$(mktemp -d)
trap 'rm -rf "$folder"' EXIT

"$top/unixfs" add -n < /dev/null > /dev/null
program=$top/crates/uf_tool/out/uf_tool
head -c "$((mib * 1048576))" /dev/urandom > "$folder/input"

# Prints user seconds and peak memory in KiB of a command over the input.
measure() {
    taskset -c "$core" python3 - "$folder/input" "$@" <<'PYTHON'
import os, re, subprocess, sys, time
peak = 0
with open(sys.argv[1], "rb") as source:
    child = subprocess.Popen(sys.argv[2:], stdin=source, stdout=subprocess.DEVNULL, stderr=subprocess.DEVNULL)
    while True:
        with open(f"/proc/{child.pid}/status", encoding="ascii") as status:
            found = re.search(r"VmHWM:\s+(\d+)", status.read())
        peak = max(peak, int(found.group(1)) if found else 0)
        pid, code, usage = os.wait4(child.pid, os.WNOHANG)
        if pid:
            break
        time.sleep(0.02)
if code:
    sys.exit(f"{sys.argv[2]}: status {code}")
print(f"{usage.ru_utime:.2f} {peak}")
PYTHON
}

names=(unixfs sha256sum)
if command -v ipfs_cid > /dev/null; then names+=(ipfs_cid); fi
for turn in 1 2 3; do
    for name in "${names[@]}"; do
        case $name in
        unixfs) line=$(measure "$program" add -n) ;;
        sha256sum) line=$(measure sha256sum) ;;
        ipfs_cid) line=$(measure ipfs_cid "$folder/input") ;;
        esac
        echo "$name $line" | tee -a "$folder/lines"
    done
done

python3 - "$folder/lines" "$mib" <<'PYTHON' | "$top/bench/record"
import statistics, sys
runs = {}
for line in open(sys.argv[1], encoding="ascii"):
    name, seconds, memory = line.split()
    runs.setdefault(name, []).append((float(seconds), int(memory)))
medians = {name: statistics.median(seconds for seconds, _ in rows) for name, rows in runs.items()}
print(f"{sys.argv[2]} MiB, medians of three")
for name, rows in runs.items():
    print(f"{name}: {medians[name]:.2f} user seconds, peak {max(memory for _, memory in rows) / 1024:.1f} MiB, "
          f"{medians['unixfs'] / medians[name]:.2f} for unixfs against it")
print(f"ratio add -n of {sys.argv[2]} MiB to sha256sum, user seconds: {medians['unixfs'] / medians['sha256sum']:.2f}")
PYTHON
