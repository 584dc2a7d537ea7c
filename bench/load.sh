#!/bin/sh
# Times `enqd load` over its store on a disk, for 1,000 and for so many units, beside a C program that makes as many commits with
# libsqlite3, write-ahead log and full sync, and the same syncs of a log for the backup file; and `enqd_wal load`, with its store
# in a journal, beside that program with as many syncs as a journal makes. Three times each; the marks are 1.2 and 0.7 times.
# Then it times a start of each over what 8,334 units left, 100,011 rows: the best of three, over the journal at most as long as
# over the database. It wants enqd and enqd_wal built, cc and libsqlite3.
# Usage: bench/load.sh [UNITS] [FOLDER]; the folder has to be on a disk, not in memory.
set -eu
bench=$(cd "$(dirname "$0")" && pwd)
crates=$(cd "$bench/../crates" && pwd)
enqd=${ENQD:-$crates/enqd/out/enqd}
enqd_wal=${ENQD_WAL:-$crates/enqd_wal/out/enqd_wal}
units=${1:-10000}
folder=$(mktemp -d "${2:-$bench}/load.XXXXXX")
trap 'rm -rf "$folder"' EXIT
cc -O2 -o "$folder/commits" "$bench/commits.c" -lsqlite3

now() {
    date +%s.%N
}

since() {
    echo "$1 $(now)" | awk '{ print $2 - $1 }'
}

# A new folder.
begin() {
    rm -rf "$folder/run"
    mkdir "$folder/run"
    cp "$bench/../demo/landscape.toml" "$folder/run"
}

# The seconds that a program takes for so many units.
loaded() {
    begin
    begun=$(now)
    (cd "$folder/run" && "$1" load "$2" > counts)
    since "$begun"
    grep -q " UNITS $2 .* CLOSED $2 " "$folder/run/counts"
}

# The seconds that libsqlite3 takes for as many commits; with `gates` behind the number, with a journal's syncs.
committed() {
    begun=$(now)
    "$folder/commits" "$folder/c.db" "$1" load $2
    since "$begun"
    rm -f "$folder"/c.db*
}

# The least seconds of three starts over what units left.
started() {
    for round in 1 2 3; do
        begun=$(now)
        (cd "$folder/run" && "$1" replay < /dev/null)
        since "$begun"
    done | sort -g | head -n 1
}

echo "processors: $(nproc), load: $(cut -d ' ' -f 1 /proc/loadavg)"
for count in 1000 "$units"; do
    for round in 1 2 3; do
        ours=$(loaded "$enqd" "$count")
        theirs=$(committed "$count" "")
        journal=$(loaded "$enqd_wal" "$count")
        twice=$(committed "$count" gates)
        echo "$count $ours $theirs $journal $twice" | awk '{
            printf "%d units: enqd %.2f s, %.3f ms each; libsqlite3 %.2f s; ratio %.2f, ", $1, $2, 1000 * $2 / $1, $3, $2 / $3
            printf "at most 1.20; enqd_wal %.2f s, %.3f ms each; libsqlite3 with as many syncs %.2f s; ", $4, 1000 * $4 / $1, $5
            printf "ratio %.2f, at most 0.70\n", $4 / $5
        }'
    done
done
for program in "$enqd" "$enqd_wal"; do
    loaded "$program" 8334 > /dev/null
    started "$program" >> "$folder/starts"
done
paste -s -d ' ' "$folder/starts" | awk '{
    printf "a start over 100,011 rows: enqd %.2f s, enqd_wal %.2f s; ratio %.2f, at most 1.00\n", $1, $2, $2 / $1
}'
