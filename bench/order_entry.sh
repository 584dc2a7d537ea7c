#!/bin/sh
# Measures of enqd what bench/load.sh, which times the same units beside C, leaves out:
#   what a unit costs among 10,000, as a multiple of what one costs among 1,000: at most 1.1 times;
#   how long a start takes over a store of 100,000 rows, and the most memory that it had;
#   the same of a script of 200,000 lines, beside one of 20,000.
# Times are the best of three, each in a new folder. What is answered is looked at: it ends with status 1 where a line is
# refused, a count is another, or a unit costs too much. It wants /usr/bin/time.
# Usage: bench/order_entry.sh ENQD [FOLDER]; ENQD is the program (crates/enqd/out/enqd), the folder has to be on a disk.
set -eu
bench=$(cd "$(dirname "$0")" && pwd)
enqd=$(realpath "$1")
folder=$(mktemp -d "${2:-$bench}/order_entry.XXXXXX")
trap 'rm -rf "$folder"' EXIT

fail() {
    echo "order_entry.sh: $1" >&2
    exit 1
}

# A new folder.
begin() {
    rm -rf "$folder/run"
    mkdir "$folder/run"
    cp "$bench/../demo/landscape.toml" "$folder/run"
}

# Runs enqd with these words over the file `script`, and adds its seconds and its kilobytes to the file `measures`.
measured() {
    (cd "$folder/run" && /usr/bin/time -a -o "$folder/measures" -f '%e %M' "$enqd" "$@" < "$folder/script" > "$folder/replies") ||
        fail "$* ended with another status than 0"
}

# The least of the seconds, and the most of the kilobytes; then they are forgotten.
best() {
    awk 'NR == 1 || $1 < seconds { seconds = $1 } $2 > most { most = $2 } END { print seconds, most }' "$folder/measures"
    rm "$folder/measures"
}

# So many lines of the script of 10,000 units, and of the same units once more.
lines() {
    "$enqd" gen 10000 > "$folder/units"
    tail -n +5 "$folder/units" | cat "$folder/units" - | head -n "$1"
}

echo "processors: $(nproc), load: $(cut -d ' ' -f 1 /proc/loadavg)"
: > "$folder/script"
for units in 1 1000 10000; do
    for round in 1 2 3; do
        begin
        measured load "$units"
        grep -qx "0 UNITS $units OPEN 0 POSTED 0 BAD 0 CLOSED $units BAD2 0 CANCELLED 0 MARKS $((3 * units)) NUMBERS $units" "$folder/replies" ||
            fail "load $units: $(cat "$folder/replies")"
    done
    best > "$folder/load_$units"
done
status=0
cat "$folder/load_1" "$folder/load_1000" "$folder/load_10000" | awk '
    { seconds[NR] = $1; most[NR] = $2 }
    END {
        few = (seconds[2] - seconds[1]) / 999
        many = (seconds[3] - seconds[1]) / 9999
        printf "a unit among 1,000: %.3f ms, %d MB in all; among 10,000: %.3f ms, %d MB in all; %.2f times, at most 1.10\n",
            1000 * few, most[2] / 1000, 1000 * many, most[3] / 1000, many / few
        exit many > 1.1 * few
    }' || status=1

# Twelve rows a unit, and three more.
begin
measured load 8334
rm "$folder/measures"
echo '? AUDIT' > "$folder/script"
for round in 1 2 3; do
    measured replay
    grep -q '^1 UNITS 8334 .* CLOSED 8334 ' "$folder/replies" || fail "a start: $(cat "$folder/replies")"
done
best | awk '{ printf "a start over %d rows: %.2f s, %d MB\n", 12 * 8334 + 3, $1, $2 / 1000 }'

for count in 20000 200000; do
    lines "$count" > "$folder/script"
    for round in 1 2 3; do
        begin
        measured replay
        [ "$(grep -Ec '^[0-9]+ (OK|POSTED|CLOSED)( |$)' "$folder/replies")" = "$count" ] || fail "a line of $count is refused"
    done
    best | awk -v lines="$count" '{ printf "%d lines: %.2f s, %d MB\n", lines, $1, $2 / 1000 }'
done
exit $status
