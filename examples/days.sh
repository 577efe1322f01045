#!/bin/sh
# An archive for each exporter and day, EXPORTERS/EXPORTER/DATE, as udp/4739/2026-11-28 (docs/OPERATING.md, "Twenty
# exporters"). Days are UTC's; where TODAY is set, it is the date of today.
#
# days.sh feed FOLDER [WORDS..]
#     makes the archive FOLDER/DATE of today, where it isn't there, with the templates that the one of yesterday has in
#     force, where there is one, and feeds standard input to it, with these words besides. It rolls nothing.
# days.sh close EXPORTERS SUMS DAYS
#     of each archive of a day before today writes the sums, once, to SUMS/EXPORTER/DATE.csv, and removes those whose
#     sums are written and whose day is more than DAYS days before today. It names each that it can't ask, leaves that
#     one as it is, and goes on; its status is 1 then. What was left is done by the next run.

today=${TODAY:-$(date -u +%F)}

# The day of a date as a number, as 20261128.
number() {
    echo "$1" | tr -d -
}

# Gives the archive of today the templates of that of yesterday. Where these can't be had, that is said, and it goes on.
hand_on() {
    before=$1/$(date -u -d "$today - 1 day" +%F)
    [ -d "$before" ] || return 0
    flowvault templates "$before" | flowvault feed "$2" - --keep 4294967295 >/dev/null || true
}

# (an archive has its name once it is whole, and is fed once its name is on the disk)
feed() {
    folder=$1 archive=$1/$today
    shift
    if [ ! -d "$archive" ]; then
        rm -rf "$archive.new"
        mkdir -p "$archive.new" && flowvault create "$archive.new" 300 --limit 16777216 --wide 300 &&
            hand_on "$folder" "$archive.new" && mv "$archive.new" "$archive" || exit
    fi
    sync "$folder" || exit
    exec flowvault feed "$archive" - --keep 4294967295 --warn "$@"
}

# Writes the sums of an archive to a file, which is there only when it is whole, and on the disk.
write_sums() {
    mkdir -p "${2%/*}" && flowvault totals "$1" 0 4294967296 --csv >"$2.new" && sync "$2.new" && mv "$2.new" "$2" &&
        sync "${2%/*}" && return
    rm -f "$2.new"
    return 1
}

close() {
    status=0 last=$(number "$(date -u -d "$today - $3 days" +%F)")
    for archive in "$1"/*/????-??-??; do
        [ -d "$archive" ] || continue
        day=$(number "${archive##*/}") exporter=${archive%/*}
        [ "$day" -lt "$(number "$today")" ] || continue
        sums=$2/${exporter##*/}/${archive##*/}.csv
        if [ -e "$sums" ] || write_sums "$archive" "$sums"; then
            [ "$day" -ge "$last" ] || rm -rf "$archive" || status=1
        else
            echo "days.sh: no sums of $archive" >&2
            status=1
        fi
    done
    exit $status
}

case $1:$# in
feed:[2-9]) shift && feed "$@" ;;
close:4) shift && close "$@" ;;
*) sed -n '2,/^$/s/^# \{0,1\}//p' "$0" && exit 2 ;;
esac
