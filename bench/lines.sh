#!/bin/sh
# Times a script of plain lines through enqd beside a C program that reads the same bytes and writes the same replies, with a flush
# behind each line, as enqd does. The script takes so many locks, one a line, or takes and frees one again and again. Both write to a
# pipe, and again to a file; they go by turns. Told are the medians of the times, and of the processor seconds, enqd's as a multiple of C's.
# It wants enqd built (demo/run builds it), cc and /usr/bin/time; ENQD names another program in its place.
# Usage: bench/lines.sh [LINES] [FOLDER] [ROUNDS]
set -eu
bench=$(cd "$(dirname "$0")" && pwd)
enqd=${ENQD:-$(cd "$bench/../crates/enqd" && pwd)/out/enqd}
lines=${1:-100000}
rounds=${3:-5}
folder=$(mktemp -d "${2:-/dev/shm}/lines.XXXXXX")
trap 'rm -rf "$folder"' EXIT
cc -O2 -o "$folder/plain" "$bench/lines.c"
sed "s/^max_locks = .*/max_locks = 100000/" "$bench/../demo/landscape.toml" > "$folder/landscape.toml"

# Locks that stay, or one lock that is taken and freed.
locks() {
    awk -v lines="$1" 'BEGIN {
        print "A LOGON MILLER"
        for (n = 1; n < lines; n++) print "A ENQ EZORDER E 1 MANDT=100 ORDNR=" sprintf("%010d", n)
    }'
}
turns() {
    awk -v lines="$1" 'BEGIN {
        print "A LOGON MILLER"
        for (n = 1; n < lines; n++) print "A " (n % 2 ? "ENQ" : "DEQ") " EZORDER E 1 MANDT=100 ORDNR=0000000001"
    }'
}

# Does the script by the stated program, and adds its seconds and those on processors, the kernel's too, to a file.
timed() {
    rm -f "$folder"/enq.db* "$folder"/ENQBCK
    times=$1
    shift
    (cd "$folder" && case "$times" in
        *pipe*) /usr/bin/time -a -o "$times" -f '%e %U %S' "$@" < script | cat > "replies.$times" ;;
        *) /usr/bin/time -a -o "$times" -f '%e %U %S' "$@" < script > "replies.$times" ;;
    esac)
}

median() {
    awk -v own="$2" '{ print own ? $2 : own == "" ? $1 : $2 + $3 }' "$folder/$1" | sort -n | awk '{ times[NR] = $1 } END { print times[int((NR + 1) / 2)] }'
}

echo "processors: $(nproc), load: $(cut -d ' ' -f 1 /proc/loadavg)"
for kind in locks turns; do
    "$kind" "$lines" > "$folder/script"
    for way in file pipe; do
        for round in $(seq "$rounds"); do
            timed "$kind.$way.enqd" "$enqd" replay
            mv "$folder/replies.$kind.$way.enqd" "$folder/wanted"
            timed "$kind.$way.plain" "$folder/plain" wanted
            cmp "$folder/wanted" "$folder/replies.$kind.$way.plain"
        done
        for measure in "" 0 1; do
            ours=$(median "$kind.$way.enqd" "$measure")
            plain=$(median "$kind.$way.plain" "$measure")
            case "$measure" in
                "") what="in all" ;;
                0) what="on a processor" ;;
                1) what="outside the kernel" ;;
            esac
            echo "$kind, $way: $lines lines $what: enqd $ours s, C $plain s" | awk '{ print }'
            echo "$ours $plain" | awk '$2 > 0 { printf "    %.2f times\n", $1 / $2 }'
        done
    done
done
