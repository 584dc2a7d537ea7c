#!/bin/sh
# Times enqd over landscapes of many number ranges with an empty script, up to a document of 1 MiB, and over a script that
# takes locks and then shows them by SM12. It wants enqd built (demo/run builds it).
# Usage: bench/landscape.sh [LOCKS] [FOLDER]
set -eu
bench=$(cd "$(dirname "$0")" && pwd)
enqd=${ENQD:-$(cd "$bench/../crates/enqd" && pwd)/out/enqd}
locks=${1:-100000}
folder=$(mktemp -d "${2:-$bench}/landscape.XXXXXX")
trap 'rm -rf "$folder"' EXIT

# A landscape of so many ranges.
ranges() {
    cat "$bench/../demo/landscape.toml"
    awk -v ranges="$1" 'BEGIN {
        for (n = 0; n < ranges; n++) {
            printf "[[range]]\nobject = \"Z%06d\"\nnr = \"%02d\"\nfrom = 1\nto = 99999\nbuffer = 10\npercent = 5\n", n / 100, n % 100
        }
    }'
}

# A script that takes so many locks, one a line.
locked() {
    awk -v locks="$1" 'BEGIN {
        print "A LOGON MILLER"
        for (n = 1; n <= locks; n++) {
            print "A ENQ EZORDER E 1 MANDT=100 ORDNR=" sprintf("%010d", n)
        }
    }'
}

# The seconds that enqd takes for the script in its folder.
served() {
    rm -f "$folder"/run/enq.db* "$folder"/run/ENQBCK
    begun=$(date +%s.%N)
    (cd "$folder/run" && "$enqd" replay < script > replies)
    ended=$(date +%s.%N)
    echo "$begun $ended" | awk '{ print $2 - $1 }'
}

mkdir "$folder/run"
echo "processors: $(nproc), load: $(cut -d ' ' -f 1 /proc/loadavg)"
: > "$folder/run/script"
for count in 1000 2000 4000 8000 12500; do
    ranges "$count" > "$folder/run/landscape.toml"
    bytes=$(wc -c < "$folder/run/landscape.toml")
    for round in 1 2 3; do
        echo "landscape of $count ranges, $bytes bytes: $(served) seconds"
    done
done
sed 's/^max_locks = .*/max_locks = 100000/' "$bench/../demo/landscape.toml" > "$folder/run/landscape.toml"
for count in $((locks / 2)) "$locks"; do
    for round in 1 2 3; do
        locked "$count" > "$folder/run/script"
        alone=$(served)
        echo "? SM12" >> "$folder/run/script"
        shown=$(served)
        lines=$(wc -l < "$folder/run/replies")
        echo "$count locks: $alone seconds, with SM12 $shown, $lines lines of replies"
    done
done
