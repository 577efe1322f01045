#!/bin/sh
# unpack.sh FOLDER: unpacks the released programs into a folder that is there, where release/ is of these sources and as
# its SHA256SUMS has it, octet for octet, the programs as unpacked too. Else it prints why not, on standard error, and
# ends with status 1: nothing that it left in the folder is to be run then.
# `unpack.sh --sums FOLDER` prints what SHA256SUMS has to hold, where the folder has the programs as unpacked.

programs='flow_replay flowvault'
here=$(dirname -- "$(readlink -f -- "$0")")
release=$here/../release

refuse() {
    printf '%s\n' "$*" >&2
    exit 1
}

# A line for each file of release/ and each program as unpacked, in the order of their names.
sums() {
    (
        cd "$release" && sha256sum KIT SOURCES $(printf '%s.gz ' $programs) || exit 1
        cd "$folder" && sha256sum $programs
    ) | LC_ALL=C sort -k 2
}

only_sums=
if [ "${1-}" = --sums ]; then
    only_sums=1
    shift
fi
folder=$(readlink -f -- "${1:?unpack.sh FOLDER}") && [ -d "$folder" ] || refuse "the folder $1 isn't there"
if [ -n "$only_sums" ]; then
    sums
    exit
fi
[ -f "$release/SOURCES" ] || refuse "there is no release/: ./renew-release makes it"
sum=$("$here/sources.sh") && [ "$(cat "$release/SOURCES")" = "$sum" ] ||
    refuse "release/ isn't of these sources: ./renew-release"
case $(uname -s)-$(uname -m) in
Linux-x86_64) ;;
*) refuse "the programs of release/ are for Linux on x86-64, and this is $(uname -s) on $(uname -m)" ;;
esac
for program in $programs; do
    # (what isn't unpacked well has another sum)
    gzip -dc "$release/$program.gz" >"$folder/$program" 2>/dev/null
done
found=$(sums 2>/dev/null)
if [ "$found" != "$(cat "$release/SHA256SUMS" 2>/dev/null)" ]; then
    other=$(printf '%s\n' "$found" | grep -vxF -f "$release/SHA256SUMS" 2>/dev/null | sed 's/^[^ ]*  //' | tr '\n' ' ')
    refuse "release/ isn't as its SHA256SUMS has it, and isn't run: ${other:-SHA256SUMS itself}"
fi
for program in $programs; do chmod 755 "$folder/$program" || exit 1; done
