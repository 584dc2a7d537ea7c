#!/bin/sh
# Times a script whose four sessions commit units with V1 parts of 200 effects, done by threads with four workers beside one: a
# part is worked outside the turn, so that four workers are to be no slower. The two go by turns, each over a new folder; one in
# memory (/dev/shm) leaves the disk out. Told are the medians of the times and of those on processors, and what was counted at the
# end, which has to be the same. Behind each two the same is done by run_load, whose devices are in memory. Ends with status 1
# where what was counted differs. It wants /usr/bin/time, and enqd and run_load built; ENQD and RUN_LOAD name others in their place.
# Usage: bench/parts.sh [UNITS OF EACH SESSION] [FOLDER] [ROUNDS]; at most 240 units.
set -eu
bench=$(cd "$(dirname "$0")" && pwd)
enqd=${ENQD:-$(cd "$bench/../crates/enqd" && pwd)/out/enqd}
load=${RUN_LOAD:-$(cd "$bench/../crates/run_load" && pwd)/out/run_load}
units=${1:-60}
rounds=${3:-9}
folder=$(mktemp -d "${2:-/dev/shm}/parts.XXXXXX")
trap 'rm -rf "$folder"' EXIT

script() {
    awk -v units="$units" 'BEGIN {
        for (s = 1; s <= 4; s++) print "S" s " LOGON U" s
        for (n = 1; n <= units; n++) {
            for (s = 1; s <= 4; s++) {
                for (e = 1; e <= 200; e++) print "S" s " V1 PUT T " s "-" n "-" e " TEXT OF SOME LENGTH " e
                print "S" s " COMMIT"
            }
        }
        print "? AUDIT"
    }'
}

# Does the script with so many workers in a new folder, and adds its seconds and those on processors to a file.
timed() {
    mkdir "$folder/place"
    cp "$bench/../demo/landscape.toml" "$folder/place"
    (cd "$folder/place" && /usr/bin/time -a -o "$folder/workers_$1" -f '%e %U %S' "$enqd" run --workers "$1" < "$folder/script" > "$folder/replies")
    rm -rf "$folder/place"
    grep -o 'UNITS .*' "$folder/replies" | tail -n 1
}

# Does as much in memory with so many workers.
timed_in_memory() {
    /usr/bin/time -a -o "$folder/memory_$1" -f '%e %U %S' "$load" run "$1" parts "$units"
}

medians() {
    awk '{ print $1 }' "$folder/$1" | sort -n | awk '{ times[NR] = $1 } END { printf "%.2f s, ", times[int((NR + 1) / 2)] }'
    awk '{ print $2 + $3 }' "$folder/$1" | sort -n | awk '{ times[NR] = $1 } END { printf "%.2f on processors", times[int((NR + 1) / 2)] }'
}

echo "processors: $(nproc), load: $(cut -d ' ' -f 1 /proc/loadavg), units of each session: $units"
script > "$folder/script"
for round in $(seq "$rounds"); do
    four=$(timed 4)
    one=$(timed 1)
    [ "$four" = "$one" ]
    [ "$(timed_in_memory 4)" = "$four" ]
    [ "$(timed_in_memory 1)" = "$four" ]
done
echo "four workers: $(medians workers_4); one: $(medians workers_1); $four"
echo "in memory, four workers: $(medians memory_4); one: $(medians memory_1)"
