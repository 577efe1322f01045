#!/bin/sh
# part.sh [OCTETS] [TIMES]: times the sums of one sealed segment of so many octets, read from a disk in memory so many
# times (bench/part_main.txt), and `flowvault measure 300` on a File of the same octets so many times, one behind the
# other; the best of five each. The program is proved and built in a folder of its own, beside copies of the crates that
# it stands on, with what their own checks kept: some 2 GB.
set -e
top=$(cd -- "$(dirname -- "$(readlink -f -- "$0")")/.." && pwd)
octets=${1:-1048576}
times=${2:-300}
place=${TMPDIR:-/tmp}/flowvault_part
rt=${RT:-rt}
mkdir -p "$place/crates/part_bench/src"
crates="flow_refusals flow_elements flow_disk flow_codec flow_measure flow_memory_disk flow_gate flow_segment"
for crate in $crates; do
    cp -au "$top/crates/$crate" "$place/crates/"
done
cp "$top/bench/part_main.txt" "$place/crates/part_bench/src/main.rt"
{
    for crate in $crates; do grep "^$crate:" "$top/crates.txt"; done
    echo "part_bench: flow_codec flow_disk flow_measure flow_memory_disk flow_segment anyhow"
} >"$place/crates.txt"
python3 "$top/bench/generate.py" "$octets" >"$place/once.ipfix"
"$top/flowvault" --version >/dev/null
(cd "$place/crates/part_bench" && "$rt" run -- 0 0 </dev/null)
python3 - "$place" "$top/built/flowvault" "$times" <<'PYTHON'
import subprocess, sys, time

place, program, times = sys.argv[1], sys.argv[2], int(sys.argv[3])
once = open(place + "/once.ipfix", "rb").read()
messages, at = 0, 0
while at < len(once):
    at += int.from_bytes(once[at + 2:at + 4], "big")
    messages += 1
with open(place + "/often.ipfix", "wb") as often:
    for _ in range(times):
        often.write(once)
part = place + "/crates/part_bench/out/part_bench"
runs = [
    ("a segment", [part, str(messages), str(times)], "once.ipfix"),
    ("measure 300", [program, "measure", "300"], "often.ipfix"),
]
best, rows = {}, {}
for _ in range(5):
    for name, command, given in runs:
        with open(place + "/" + given, "rb") as octets:
            begun = time.perf_counter()
            out = subprocess.run(command, stdin=octets, stdout=subprocess.PIPE, check=True).stdout
            spent = time.perf_counter() - begun
        best[name] = min(best.get(name, spent), spent)
        rows[name] = int(out) if name == "a segment" else out.count(b"\n")
assert rows["a segment"] == rows["measure 300"], rows
print("%d octets, %d messages, %d times" % (len(once), messages, times))
for name, spent in best.items():
    print("%-12s %.3f s, %.0f MB a second" % (name, spent, len(once) * times / spent / 1e6))
PYTHON
