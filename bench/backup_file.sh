#!/bin/sh
# Shows how long the backup file is behind so many posted units with a lock each, behind the next start, and behind the start
# after a further unit, beside the file that a start makes anew. A start reads the file whole, and once more where it writes the
# log anew. It wants enqd built (demo/run builds it).
# Usage: bench/backup_file.sh [UNITS] [FOLDER]
set -eu
bench=$(cd "$(dirname "$0")" && pwd)
enqd=${ENQD:-$(cd "$bench/../crates/enqd" && pwd)/out/enqd}
units=${1:-10000}
folder=$(mktemp -d "${2:-$bench}/backup_file.XXXXXX")
trap 'rm -rf "$folder"' EXIT
cp "$bench/../demo/landscape.toml" "$folder"

# A script that posts so many units.
posted() {
    awk -v units="$1" 'BEGIN {
        print "A LOGON MILLER"
        for (n = 1; n <= units; n++) {
            key = sprintf("%010d", n)
            print "A ENQ EZORDER E 2 MANDT=100 ORDNR=" key
            print "A V1 PUT VBAK " key " MILLER PUMP"
            print "A COMMIT"
            print "@1 TAKE1"
            print "@1 DO1"
        }
    }'
}

# Starts with so many units, and tells how long the file was and is.
start() {
    before=$(stat -c %s "$folder/ENQBCK" 2> /dev/null || echo 0)
    posted "$2" > "$folder/script"
    begun=$(date +%s.%N)
    (cd "$folder" && "$enqd" replay < script > replies)
    ended=$(date +%s.%N)
    seconds=$(echo "$begun $ended" | awk '{ print $2 - $1 }')
    echo "$1: $before bytes before, $(stat -c %s "$folder/ENQBCK") behind it, $seconds seconds"
}

echo "processors: $(nproc), load: $(cut -d ' ' -f 1 /proc/loadavg)"
start "a first start without a unit" 0
start "$units units" "$units"
start "the next start, without a unit" 0
start "a start with one unit" 1
start "the start behind that" 0
start "and one more" 0
