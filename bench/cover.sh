#!/bin/sh
# Times `enqd cover`, which looks through a script for locks that it lacks and does no line of it.
#   19,999 units of ten lines each, 199,991 lines in all: within two seconds.
#   One unit of 20,000 locks, 20,000 reads and 20,000 effects, once: the time is told, it has no mark.
# Both scripts are covered, which is looked at. Ends with status 1 where the best of the rounds is past the mark. It wants `enqd`
# built; ENQD names another in its place.
# Usage: bench/cover.sh [ROUNDS]
set -eu
bench=$(cd "$(dirname "$0")" && pwd)
enqd=${ENQD:-$bench/../crates/enqd/out/enqd}
rounds=${1:-5}
folder=$(mktemp -d)
trap 'rm -rf "$folder"' EXIT
cp "$bench/../demo/landscape.toml" "$folder"
cd "$folder"

awk 'BEGIN {
    print "A LOGON MILLER"
    for (n = 1; n < 20000; n++) {
        one = sprintf("%010d", 2 * n); two = sprintf("%010d", 2 * n + 1)
        print "A ENQ EZORDER E 2 MANDT=100 ORDNR=" one
        print "A ENQ EZORDER X 3 MANDT=100 ORDNR=" two
        print "A READ ZORDER 100" one " V"
        print "A READ ZORDER 100" two " W"
        print "A V1 PUT ZORDER 100" one " CHANGED"
        print "A V1 PUT ZORDER 100" two " CHANGED"
        print "A V1 INS VBAK " one " ORDER"
        print "A V1 INS VBAP " one "-10 PUMP"
        print "A V2 ADD STAT ORDERS 1"
        print "A COMMIT"
    }
}' > many
awk 'BEGIN {
    print "A LOGON MILLER"
    for (n = 1; n <= 20000; n++) printf "A ENQ EZORDER E 2 MANDT=100 ORDNR=%010d\n", n
    for (n = 1; n <= 20000; n++) printf "A READ ZORDER 100%010d V\n", n
    for (n = 1; n <= 20000; n++) printf "A V1 PUT ZORDER 100%010d CHANGED\n", n
    print "A COMMIT"
}' > large

# The best time of so many rounds, in seconds.
best() {
    least=
    for round in $(seq "$2"); do
        before=$(date +%s%N)
        "$enqd" cover < "$1" > answer
        behind=$(date +%s%N)
        [ "$(cat answer)" = COVERED ] || { echo "cover: $1 isn't covered" >&2; exit 2; }
        took=$(awk -v a="$before" -v b="$behind" 'BEGIN { printf "%.3f", (b - a) / 1e9 }')
        least=$(awk -v a="${least:-$took}" -v b="$took" 'BEGIN { print (b < a) ? b : a }')
    done
    echo "$least"
}

many=$(best many "$rounds")
large=$(best large 1)
echo "19,999 units of ten lines: $many s (at most 2)"
echo "one unit of 20,000 locks, reads and effects: $large s"
awk -v took="$many" 'BEGIN { exit (took > 2) ? 1 : 0 }'
