#!/bin/sh
# Times units through enqd, over its store on a disk, beside a C program that makes the same commits with libsqlite3,
# write-ahead log and full sync, and the same syncs of a log for the backup file. A unit is ENQ, V1 PUT, COMMIT, TAKE1 and
# DO1. Both are timed for so many units and for twice as many, three times each. It wants enqd built (demo/run builds it),
# cc and libsqlite3.
# Usage: bench/store.sh [UNITS] [FOLDER]; the folder has to be on a disk, not in memory.
set -eu
bench=$(cd "$(dirname "$0")" && pwd)
enqd=$(cd "$bench/../crates/enqd" && pwd)/out/enqd
units=${1:-10000}
folder=$(mktemp -d "${2:-$bench}/store.XXXXXX")
trap 'rm -rf "$folder"' EXIT
cc -O2 -o "$folder/commits" "$bench/commits.c" -lsqlite3

script() {
    awk -v units="$1" 'BEGIN {
        print "A LOGON MILLER"
        for (n = 1; n <= units; n++) {
            key = sprintf("%010d", n)
            print "A ENQ EZORDER E 2 MANDT=100 ORDNR=" key
            print "A V1 PUT VBAK " key " MILLER PUMP"
            print "A COMMIT"
            print "@1 TAKE1"
            print "@1 DO1"
        }
    }'
}

now() {
    date +%s.%N
}

# The seconds that enqd takes for so many units.
served() {
    mkdir "$folder/run"
    cp "$bench/../demo/landscape.toml" "$folder/run"
    script "$1" > "$folder/run/script"
    begun=$(now)
    (cd "$folder/run" && "$enqd" replay < script > replies)
    ended=$(now)
    if [ "$(grep -c ' POSTED ' "$folder/run/replies")" != "$1" ]; then
        echo "store.sh: not each unit was posted" >&2
        exit 1
    fi
    rm -rf "$folder/run"
    echo "$begun $ended" | awk '{ print $2 - $1 }'
}

# The seconds that libsqlite3 takes for the same commits.
committed() {
    begun=$(now)
    "$folder/commits" "$folder/c.db" "$1"
    ended=$(now)
    rm -f "$folder"/c.db*
    echo "$begun $ended" | awk '{ print $2 - $1 }'
}

echo "processors: $(nproc), load: $(cut -d ' ' -f 1 /proc/loadavg)"
for count in "$units" $((2 * units)); do
    for round in 1 2 3; do
        ours=$(served "$count")
        theirs=$(committed "$count")
        echo "$count $ours $theirs" | awk '{ printf "%d units: enqd %.2f s, libsqlite3 %.2f s, ratio %.2f\n", $1, $2, $3, $2 / $3 }'
    done
done
