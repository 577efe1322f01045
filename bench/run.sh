#!/bin/sh
# run.sh [OCTETS]: times `flowvault measure 300`, two C walks (walk.c, and bare_walk.c, which takes templates as they
# come), cat, wc -l and libfixbuf on one generated File, in one run; the best of nine each, and the processor time of it.
# libfixbuf takes part where Debian's libfixbuf-dev is installed. The File and the drivers are put into built/. Files
# that cost much where templates in force are copied: attack_files.py.
set -e
top=$(dirname -- "$(readlink -f -- "$0")")/..
octets=${1:-300000000}
mkdir -p "$top/built"
file=$top/built/bench-$octets.ipfix
[ -s "$file" ] || python3 "$top/bench/generate.py" "$octets" >"$file"
"$top/flowvault" --version >/dev/null
program=$top/built/flowvault
walk=$top/built/walk
bare=$top/built/bare_walk
cc -O2 "$top/bench/walk.c" -o "$walk"
cc -O2 "$top/bench/bare_walk.c" -o "$bare"
"$walk" 300 <"$file" >"$top/built/walk.out"
"$program" measure 300 <"$file" | cmp - "$top/built/walk.out" && echo "the same lines as the C walk"
"$bare" 300 <"$file" | cmp - "$top/built/walk.out" && echo "the same lines as the bare C walk"
fixbuf=
if pkg-config --exists libfixbuf 2>/dev/null; then
    fixbuf=$top/built/fixbuf_measure
    cc -O2 "$top/bench/fixbuf_measure.c" -o "$fixbuf" $(pkg-config --cflags --libs libfixbuf)
    "$fixbuf" 300 "$file" >"$top/built/fixbuf.out"
    "$program" measure 300 <"$file" | cmp - "$top/built/fixbuf.out" && echo "the same lines as libfixbuf"
fi
python3 - "$file" "$program" "$walk" "$bare" "$fixbuf" <<'PYTHON'
import os, resource, subprocess, sys, time

file, program, walk, bare, fixbuf = sys.argv[1:6]
runs = [
    ("measure 300", [program, "measure", "300"], True),
    ("bare C walk", [bare, "300"], True),
    ("C walk", [walk, "300"], True),
    ("cat", ["cat"], True),
    ("wc -l", ["wc", "-l"], True),
]
if fixbuf:
    runs.append(("libfixbuf", [fixbuf, "300", file], False))
best, processor = {}, {}


def used():
    of = resource.getrusage(resource.RUSAGE_CHILDREN)
    return of.ru_utime + of.ru_stime


for _ in range(9):
    for name, command, piped in runs:
        with open(file if piped else os.devnull, "rb") as given:
            before, begun = used(), time.perf_counter()
            subprocess.run(command, stdin=given, stdout=subprocess.DEVNULL, check=True)
            spent = time.perf_counter() - begun
        best[name] = min(best.get(name, spent), spent)
        processor[name] = min(processor.get(name, 1e9), used() - before)
print("%d octets, %s" % (os.path.getsize(file), os.uname().machine))
for name, spent in best.items():
    print("%-12s %.3f s, of a processor %.3f; measure takes %.2f and %.2f of it" % (
        name, spent, processor[name], best["measure 300"] / spent, processor["measure 300"] / processor[name]))
PYTHON
if [ -x /usr/bin/time ]; then
    /usr/bin/time -f "resident     %M KiB" "$program" measure 300 <"$file" >/dev/null
fi
