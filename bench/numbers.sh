#!/bin/sh
# Times enqd over scripts that draw numbers: from an interval without a buffer and from buffered ones, 64 numbers to a COMMIT and
# one to a COMMIT, beside one session and beside 1,000 that have drawn from other intervals, and over a landscape of one interval
# more and of thousands. It wants enqd built (demo/run builds it).
# Usage: bench/numbers.sh [NUMBERS] [FOLDER]
set -eu
bench=$(cd "$(dirname "$0")" && pwd)
enqd=${ENQD:-$(cd "$bench/../crates/enqd" && pwd)/out/enqd}
numbers=${1:-32000}
folder=$(mktemp -d "${2:-$bench}/numbers.XXXXXX")
trap 'rm -rf "$folder"' EXIT

# A range, of this object, with this buffer.
range() {
    printf '[[range]]\nobject = "%s"\nnr = "01"\nfrom = 1\nto = 999999999\nbuffer = %d\npercent = 5\n' "$1" "$2"
}

# The landscape of the demo with ranges to draw from, and so many others.
landscape() {
    cat "$bench/../demo/landscape.toml"
    range ZPLAIN 0
    range ZTENS 10
    range ZMANY 10000
    awk -v others="$1" 'BEGIN {
        for (n = 0; n < others; n++) {
            printf "[[range]]\nobject = \"Z%06d\"\nnr = \"01\"\nfrom = 1\nto = 99999\nbuffer = 0\npercent = 5\n", n
        }
    }'
}

# So many sessions, each with a number of an interval of its own.
sessions() {
    awk -v sessions="$1" 'BEGIN {
        for (n = 0; n < sessions; n++) {
            printf "S%06d LOGON MILLER\nS%06d NUM Z%06d 01 N\n", n, n, n
        }
    }'
}

# So many numbers of an object, with a COMMIT behind each of so many of them.
draws() {
    awk -v object="$1" -v numbers="$2" -v together="$3" 'BEGIN {
        print "A LOGON MILLER"
        for (n = 1; n <= numbers; n++) {
            print "A NUM " object " 01 N"
            if (n % together == 0) {
                print "A COMMIT"
            }
        }
    }'
}

# The seconds that enqd takes for the script in its folder.
served() {
    rm -f "$folder"/run/enq.db* "$folder"/run/ENQBCK
    begun=$(date +%s.%N)
    (cd "$folder/run" && "$enqd" replay < script > replies)
    ended=$(date +%s.%N)
    echo "$begun $ended" | awk '{ print $2 - $1 }'
}

# What stands before the draws, the object, how many numbers, and how many to a COMMIT.
timed() {
    for round in 1 2 3; do
        { sessions "$1"; draws "$2" "$3" "$4"; } > "$folder/run/script"
        seconds=$(served)
        drawn=$(tail -n +"$(($1 * 2 + 2))" "$folder/run/replies" | grep -c '^[0-9]* OK [0-9]')
        echo "$3 numbers of $2, $4 to a COMMIT, beside $1 sessions: $seconds seconds, $drawn drawn"
    done
}

mkdir "$folder/run"
echo "processors: $(nproc), load: $(cut -d ' ' -f 1 /proc/loadavg)"
landscape 1000 > "$folder/run/landscape.toml"
for object in ZPLAIN ZTENS ZMANY; do
    timed 0 "$object" "$numbers" 64
done
timed 0 ZPLAIN "$((numbers * 2))" 64
timed 1000 ZPLAIN "$numbers" 64
timed 1000 ZTENS "$numbers" 64
timed 0 ZPLAIN "$((numbers / 8))" 1
for others in 1 10000; do
    landscape "$others" > "$folder/run/landscape.toml"
    echo "landscape with $others other ranges:"
    timed 0 ZPLAIN "$numbers" 64
    timed 0 ZPLAIN "$((numbers / 8))" 1
done
