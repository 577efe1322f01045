#!/bin/sh
# scan.sh [SEGMENTS] [TIMES]: times all totals of a snapshot of so many sealed segments of 1 MiB, each on a disk in
# memory of its own (bench/scan_main.txt): by `totals`, and by `scan_by_parts` with 1, 2, 4, 8 and 64 workers, the best of
# so many. The program is proved and built in a folder of its own, beside copies of the crates that it stands on, with
# what their own checks kept.
set -e
top=$(cd -- "$(dirname -- "$(readlink -f -- "$0")")/.." && pwd)
segments=${1:-120}
times=${2:-30}
place=${TMPDIR:-/tmp}/flowvault_scan
rt=${RT:-rt}
mkdir -p "$place/crates/scan_bench/src"
crates=$(sed -n 's/^\([a-z_]*\):.*/\1/p' "$top/crates.txt" | grep -v _checks)
for crate in $crates; do
    cp -au "$top/crates/$crate" "$place/crates/"
done
cp "$top/bench/scan_main.txt" "$place/crates/scan_bench/src/main.rt"
{
    for crate in $crates; do grep "^$crate:" "$top/crates.txt"; done
    echo "scan_bench: flow_disk flow_measure flow_memory_disk flow_roller flow_segment flow_snapshot bytes anyhow"
} >"$place/crates.txt"
python3 "$top/bench/generate.py" 1048576 >"$place/once.ipfix"
(cd "$place/crates/scan_bench" && "$rt" run -- 0 0 0 0 </dev/null)
python3 - "$place" "$segments" "$times" <<'PYTHON'
import subprocess, sys

place, segments, times = sys.argv[1:]
once = open(place + "/once.ipfix", "rb").read()
messages, at = 0, 0
while at < len(once):
    at += int.from_bytes(once[at + 2:at + 4], "big")
    messages += 1
program = place + "/crates/scan_bench/out/scan_bench"
print("%s segments of %d octets, the best of %s" % (segments, len(once), times))
for workers in (0, 1, 2, 4, 8, 64):
    words = [program, str(messages), segments, str(workers), times]
    rows, spent = subprocess.run(words, input=once, stdout=subprocess.PIPE, check=True).stdout.split()
    print("%-10s %6.1f ms, %s rows" % ("%d workers" % workers if workers else "totals", int(spent) / 1e6, int(rows)))
PYTHON
