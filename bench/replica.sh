#!/bin/sh
# Times enqd over scripts that take so many locks, free every second one, end the lock server and have its replica take its
# place, beside the same scripts in which none follows. Twice as many locks should take twice as long, with a replica and
# without. Beside it goes enqd_wal, whose replica gets each change itself, with no packet and no wire; what the two differ in
# besides is their stores, in which these scripts write no unit. The mark is 1.3 times its time.
# It wants both built; ENQD and PLAIN name other programs in their place.
# Usage: bench/replica.sh [LOCKS] [FOLDER] [ROUNDS]
set -eu
bench=$(cd "$(dirname "$0")" && pwd)
crates=$(cd "$bench/../crates" && pwd)
enqd=${ENQD:-$crates/enqd/out/enqd}
plain=${PLAIN:-$crates/enqd_wal/out/enqd_wal}
locks=${1:-80000}
rounds=${3:-5}
folder=$(mktemp -d "${2:-$bench}/replica.XXXXXX")
trap 'rm -rf "$folder"' EXIT

# A script over so many locks. The second word is what the administrator says first.
script() {
    awk -v locks="$1" -v first="$2" 'BEGIN {
        if (first) print "! " first
        print "A LOGON MILLER"
        for (n = 1; n <= locks; n++) {
            print "A ENQ EZORDER E 1 MANDT=100 ORDNR=" sprintf("%010d", n)
        }
        for (n = 1; n <= locks; n += 2) {
            print "A DEQ EZORDER E 1 MANDT=100 ORDNR=" sprintf("%010d", n)
        }
        if (first) print "! KILL\n! FAILOVER"
        print "? SM12"
    }'
}

# The processor's seconds that a program takes for a script, outside the kernel. Its replies are kept beside the script.
served() {
    rm -f "$folder"/enq.db* "$folder"/enq.wal "$folder"/ENQBCK
    (cd "$folder" && python3 -c '
import resource, subprocess, sys
with open(sys.argv[2]) as script, open(sys.argv[2] + ".replies", "w") as replies:
    subprocess.run([sys.argv[1], "replay"], stdin=script, stdout=replies, check=True)
print(round(resource.getrusage(resource.RUSAGE_CHILDREN).ru_utime, 3))
' "$1" "$2")
}

echo "processors: $(nproc), load: $(cut -d ' ' -f 1 /proc/loadavg)"
sed "s/^max_locks = .*/max_locks = $locks/" "$bench/../demo/landscape.toml" > "$folder/landscape.toml"
for count in $((locks / 8)) $((locks / 4)) $((locks / 2)) "$locks"; do
    script "$count" "" > "$folder/alone"
    script "$count" ATTACH > "$folder/followed"
    : > "$folder/ratios"
    for round in $(seq "$rounds"); do
        alone=$(served "$enqd" alone)
        plain_alone=$(served "$plain" alone)
        plain_followed=$(served "$plain" followed)
        mv "$folder/followed.replies" "$folder/plain.replies"
        followed=$(served "$enqd" followed)
        cmp "$folder/followed.replies" "$folder/plain.replies"
        # Each lock that wasn't freed has to stand behind the failover.
        standing=$(sed -n 's/.* SERVER UP REPLICA DETACHED LOCKS \([0-9]*\) OF .*/\1/p' "$folder/followed.replies")
        echo "$count $alone $followed $plain_alone $plain_followed $standing" | awk -v ratios="$folder/ratios" '{
            printf "%d locks: enqd %.3f s, followed %.3f s; plain %.3f s, followed %.3f s; ", $1, $2, $3, $4, $5
            printf "a replica %.2f and %.2f us a lock; ratio %.2f; ", 1e6 * ($3 - $2) / $1, 1e6 * ($5 - $4) / $1, $3 / $5
            printf "%d stand behind it\n", $6
            print $3 / $5 >> ratios
        }'
    done
    sort -n "$folder/ratios" | awk -v count="$count" '{ ratio[NR] = $1 } END {
        printf "%d locks: %.2f times at the median\n", count, ratio[int((NR + 1) / 2)]
    }'
done
