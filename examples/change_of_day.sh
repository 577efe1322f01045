#!/bin/sh
# A new archive, for a new day, while an exporter goes on sending: standard input, which is a pipe, a connection or a
# socket that somebody holds, is fed to the archive OLD until there is a file END, and from then on to a new one, NEW,
# which begins with the templates that OLD has in force. No message is lost in between: what isn't in OLD waits in the
# pipe or the socket, as long as that has room, and is in NEW.
#
# change_of_day.sh OLD NEW END [WORDS..]
#     WORDS are words of feed besides, as --datagrams. Its output is that of the feeds of standard input, a line each;
#     where the input ends before END is there, NEW isn't made.
# By hand: nc -l -p 4739 | change_of_day.sh 2026-11-28 2026-11-29 /run/flowvault/midnight
# and, at midnight, touch /run/flowvault/midnight.

[ $# -ge 3 ] || { sed -n '2,/^$/s/^# \{0,1\}//p' "$0" && exit 2; }
old=$1 new=$2 end=$3
shift 3

flowvault feed "$old" - --end-on "$end" --keep 4294967295 "$@" || exit
[ -e "$end" ] || exit 0
mkdir -p "$new" && flowvault create "$new" 300 --limit 16777216 --wide 300 || exit
flowvault templates "$old" </dev/null | flowvault feed "$new" - --keep 4294967295 >/dev/null || exit
exec flowvault feed "$new" - --keep 4294967295 "$@"
