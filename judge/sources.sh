#!/bin/sh
# Prints one number for the names and the octets of all sources of the released programs: the SHA-256 of a list, in the
# order of their names, of the SHA-256 of each file. Sources are crates.txt, HANDLES, and the folders src, specs and
# proofs of each crate that flow_cli or flow_replay uses, and of these two.
# crates/flow_cli/src/sources.rt, which holds the number's first digits, isn't among them.
# `sources.sh --list` prints the names; `sources.sh --crates PROGRAM..` the crates that these programs use, lowest
# first, and their own.

cd -- "$(dirname -- "$(readlink -f -- "$0")")/.." || exit 1

crates_of() {
    awk -v tops="$*" '
        { sub(/#.*/, "") }
        /:/ { split($0, parts, ":"); split(parts[1], words, " "); below[words[1]] = parts[2] }
        function visit(name,    words, count, i) {
            if (name in seen || !(name in below)) return
            seen[name] = 1
            count = split(below[name], words, " ")
            for (i = 1; i <= count; i++) visit(words[i])
            print name
        }
        END { count = split(tops, top, " "); for (each = 1; each <= count; each++) visit(top[each]) }
    ' crates.txt
}

list() {
    set -- crates.txt HANDLES
    for crate in $(crates_of flow_cli flow_replay); do
        for part in src specs proofs; do
            if [ -d "crates/$crate/$part" ]; then set -- "$@" "crates/$crate/$part"; fi
        done
    done
    find "$@" -type f ! -path crates/flow_cli/src/sources.rt | LC_ALL=C sort
}

case ${1-} in
--list) list ;;
--crates)
    shift
    crates_of "$@"
    ;;
'')
    sums=$(list | xargs sha256sum) || exit 1
    printf '%s\n' "$sums" | sha256sum | cut -d ' ' -f 1
    ;;
*)
    echo "sources.sh: no such word: $1" >&2
    exit 2
    ;;
esac
