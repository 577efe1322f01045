#!/bin/sh
# Whether the released programs are built, each after the last change of a source. Else it prints why not, on standard
# error, and ends with status 1.

cd -- "$(dirname -- "$(readlink -f -- "$0")")/.." || exit 1
sources=$(judge/sources.sh --list) || exit 1
for program in flow_cli flow_replay; do
    built=crates/$program/out/$program
    if ! [ -x "$built" ]; then
        echo "$program isn't built" >&2
        exit 1
    fi
    # (by when the program was put there, whatever time it was given)
    newer=$(find $sources -newermc "$built" | head -n 1)
    if [ -n "$newer" ]; then
        echo "$program was built before $newer was changed" >&2
        exit 1
    fi
done
