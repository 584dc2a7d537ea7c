#!/bin/sh
# Times a script whose four sessions draw numbers of one interval with a buffer, 64 to a COMMIT, done by threads (`run`, one
# worker) beside the same script done line by line (`replay`). In `run` a number costs a turn only where the numbers that are
# reserved ran out, once in as many as a block has. Both go by turns, each over a new folder. Told are the median of the times, and
# what was counted at the end, which has to be the same. Ends with status 1 where it differs.
# It wants enqd built; ENQD names another in its place.
# Usage: bench/draws.sh [NUMBERS] [FOLDER] [ROUNDS]; numbers of all four sessions together, the folder has to be on a disk.
set -eu
bench=$(cd "$(dirname "$0")" && pwd)
enqd=${ENQD:-$(cd "$bench/../crates/enqd" && pwd)/out/enqd}
numbers=${1:-20000}
rounds=${3:-5}
folder=$(mktemp -d "${2:-$bench}/draws.XXXXXX")
trap 'rm -rf "$folder"' EXIT

landscape() {
    cat << 'END'
[[range]]
object = "ZBUF"
nr = "01"
from = 1
to = 999999999
buffer = 100
percent = 0
END
}

script() {
    awk -v each="$((numbers / 4))" 'BEGIN {
        for (s = 1; s <= 4; s++) print "S" s " LOGON U" s
        for (n = 1; n <= each; n++) {
            for (s = 1; s <= 4; s++) {
                print "S" s " NUM ZBUF 01 N"
                if (n % 64 == 0 || n == each) print "S" s " COMMIT"
            }
        }
        print "? AUDIT"
    }'
}

# The seconds of these words over the script, in a new folder. What was counted stays in $folder/counts.
timed() {
    mkdir "$folder/place"
    landscape > "$folder/place/landscape.toml"
    begun=$(date +%s%N)
    (cd "$folder/place" && "$enqd" "$@" < "$folder/script" > "$folder/replies")
    ended=$(date +%s%N)
    rm -rf "$folder/place"
    grep -o 'UNITS .*' "$folder/replies" | tail -n 1 > "$folder/counts"
    echo "$(((ended - begun) / 1000))"
}

median() {
    sort -n "$1" | awk '{ times[NR] = $1 } END { printf "%.2f", times[int((NR + 1) / 2)] / 1000000 }'
}

echo "processors: $(nproc), load: $(cut -d ' ' -f 1 /proc/loadavg), $numbers numbers"
script > "$folder/script"
for round in $(seq "$rounds"); do
    timed replay >> "$folder/replayed"
    mv "$folder/counts" "$folder/counts_of_replay"
    timed run --workers 1 >> "$folder/run"
    cmp "$folder/counts" "$folder/counts_of_replay"
done
echo "replay: $(median "$folder/replayed") s, run: $(median "$folder/run") s; $(cat "$folder/counts")"
