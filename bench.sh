#!/bin/sh
# bench.sh [FILE]: board A's node over the packets of FILE, or of standard input: records of a two-byte length and a packet.
# It proves and builds what is needed first; that takes minutes the first time. Ends with 0; with 1 if something can't be proved, read or
# written; with 2 if the arguments are wrong.
set -eu
stop() { echo "bench.sh: $2" >&2; exit "$1"; }

case "${1:-}" in
    -h | --help) sed -n '2,4s/^# //p' "$0"; exit 0 ;;
    -?*) stop 2 "$1 is no option; it takes one file at most" ;;
esac
[ $# -le 1 ] || stop 2 "it takes one file at most, and not $#"
if [ $# -eq 1 ]; then
    [ ! -d "$1" ] || stop 1 "$1 is a directory"
    [ -r "$1" ] || stop 1 "$1 can't be read"
    exec <"$1"
fi
cd "$(dirname "$(readlink -f "$0")")"
tools/prove bench bench.sh || exit 1

# The program ends with 0 whatever it meets: what it couldn't read or write it says on standard error.
said=$(mktemp)
trap 'rm -f "$said"' EXIT
target/bin/bench 2>"$said" || stop 1 "the program ended with $?"
[ ! -s "$said" ] || { sort -u "$said" >&2; exit 1; }
