#!/bin/sh
# archive.sh: times an archive on a disk in memory (bench/archive_main.txt): appends by one and by 64 messages, openings
# of 25, 50 and 100 sealed segments of 1 MiB, both with up to 2,900 templates in force, a roll of 100 segments against
# `flowvault measure 300` of the same octets, and a seal, an opening and a roll with up to 4,000 entries. The program is
# built in a folder of its own, beside copies of the crates that it stands on, with what their own checks kept: some
# 6 GB.
# Before it runs, build flowvault, by a call of ./flowvault.
set -e
top=$(cd -- "$(dirname -- "$(readlink -f -- "$0")")/.." && pwd)
place=${TMPDIR:-/tmp}/flowvault_archive
rt=${RT:-rt}
mkdir -p "$place/crates/archive_bench/src"
crates="flow_refusals flow_elements flow_disk flow_codec flow_measure flow_memory_disk flow_gate flow_manifest
    flow_segment flow_rolled flow_model flow_snapshot flow_recover flow_archive"
for crate in $crates; do
    cp -au "$top/crates/$crate" "$place/crates/"
done
cp "$top/bench/archive_main.txt" "$place/crates/archive_bench/src/main.rt"
{
    for crate in $crates; do grep "^$crate:" "$top/crates.txt"; done
    echo "archive_bench: flow_archive flow_codec flow_disk flow_memory_disk anyhow"
} >"$place/crates.txt"
python3 "$top/bench/generate.py" 1040000 >"$place/once.ipfix"
(cd "$place/crates/archive_bench" && "$rt" run -- 0 0 0 0 0 <"$place/once.ipfix")
python3 "$top/bench/archive_times.py" "$place" "$top/built/flowvault"
