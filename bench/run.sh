#!/bin/sh
# Times scripts of order entries that threads do beside the same scripts done line by line: four sessions of so many entries
# each, every entry with a number of a buffered interval, the lock on the order of that number, a head and two items, a count,
# and a COMMIT. In `replay` a worker does both parts of the unit right behind each COMMIT, by four lines more; in `run` four
# workers take what waits.
#   Over files, enqd: `run` is to be no slower.
#   Over devices in memory, run_load: at most 1.5 times as long. Each write of the disk in memory copies the whole backup file, which
#   only grows, so that with many entries these copies are what is timed: there are fewer.
# The two go by turns, each over a new folder, and both have to end with the same counts. Beside the time it tells the seconds
# on processors, the kernel's too: on a machine that does other work they say more. Ends with status 1 where a median of the
# times is past its mark. It wants both programs built; ENQD and RUN_LOAD name others in their place.
# Usage: bench/run.sh [ENTRIES] [FOLDER] [ROUNDS] [ENTRIES IN MEMORY]; at most 4,500 entries, the folder has to be on a disk.
set -eu
bench=$(cd "$(dirname "$0")" && pwd)
crates=$(cd "$bench/../crates" && pwd)
enqd=${ENQD:-$crates/enqd/out/enqd}
load=${RUN_LOAD:-$crates/run_load/out/run_load}
entries=${1:-4500}
rounds=${3:-5}
in_memory=${4:-250}
workers=4
folder=$(mktemp -d "${2:-$bench}/run.XXXXXX")
trap 'rm -rf "$folder"' EXIT

# The script. A second word has workers do both parts of each unit at once.
script() {
    awk -v entries="$1" -v served="$2" 'BEGIN {
        for (s = 1; s <= 4; s++) print "S" s " LOGON U" s
        for (n = 1; n <= entries; n++) {
            for (s = 1; s <= 4; s++) {
                print "S" s " NUM ZORDNR 01 N"
                print "S" s " ENQ EZORDER E 2 MANDT=100 ORDNR=$N"
                print "S" s " V1 INS VBAK $N ORDER OF U" s
                print "S" s " V1 INS VBAP $N-10 PUMP"
                print "S" s " V1 INS VBAP $N-20 VALVE"
                print "S" s " V2 ADD STAT ORDERS 1"
                print "S" s " COMMIT"
                if (served) print "@" s " TAKE1\n@" s " DO1\n@" s " TAKE2\n@" s " DO2"
            }
        }
        print "? AUDIT"
    }'
}

landscape() {
    cat << 'END'
max_locks = 100000
[[object]]
name = "EZORDER"
fields = [{ name = "MANDT", width = 3 }, { name = "ORDNR", width = 10 }]
[[object.table]]
name = "ZORDER"
keys = ["MANDT", "ORDNR"]
[[range]]
object = "ZORDNR"
nr = "01"
from = 1
to = 9999999999
buffer = 100
percent = 0
END
}

# Runs a command in a new folder over a script. Adds its seconds and those on processors to a file of measures, and leaves what
# it counted in $folder/counts. What it answers goes through a pipe, so that the disk has only the store and the backup file.
measured() {
    measures=$1 input=$2
    shift 2
    mkdir "$folder/place"
    landscape > "$folder/place/landscape.toml"
    (cd "$folder/place" && python3 -c '
import resource, subprocess, sys, time
with open(sys.argv[1]) as script, open(sys.argv[2], "a") as measures:
    before = resource.getrusage(resource.RUSAGE_CHILDREN)
    begun = time.monotonic()
    answers = subprocess.run(sys.argv[3:], stdin=script, stdout=subprocess.PIPE, check=True).stdout
    took = time.monotonic() - begun
    after = resource.getrusage(resource.RUSAGE_CHILDREN)
    spent = after.ru_utime + after.ru_stime - before.ru_utime - before.ru_stime
    print(round(took, 4), round(spent, 4), file=measures)
    sys.stdout.buffer.write(answers)
' "$input" "$folder/$measures" "$@" | sed -n 's/.*\(UNITS [0-9].*\)/\1/p' > "$folder/counts")
    rm -rf "$folder/place"
}

# What a script of so many entries has to have counted, as both ways answer it.
same_counts() {
    counts="UNITS $((4 * $1)) OPEN 0 POSTED 0 BAD 0 CLOSED $((4 * $1)) BAD2 0 CANCELLED 0 MARKS $((12 * $1)) NUMBERS $((4 * $1))"
    if [ "$(cat "$folder/counts")" != "$counts" ]; then
        echo "run.sh: $2 counted $(cat "$folder/counts")" >&2
        exit 1
    fi
}

# Tells the last round, from two files of measures.
tell_round() {
    tail -qn 1 "$folder/$2" "$folder/$3" | paste -s -d ' ' | awk -v what="$1" '{
        printf "%s: run %.2f s, %.2f on processors; replay %.2f s, %.2f on processors; ratio %.2f and %.2f\n", what, $1, $2, $3, $4, $1 / $3, $2 / $4
    }'
}

# The median of one column of measures.
median() {
    cut -d ' ' -f "$2" "$folder/$1" | sort -g | awk '{ value[NR] = $1 } END { print value[int((NR + 1) / 2)] }'
}

# The medians of two files of measures, and how many times as long the first took, which may be so many.
compare() {
    echo "$(median "$2" 1) $(median "$3" 1) $(median "$2" 2) $(median "$3" 2)" | awk -v what="$1" -v most="$4" '{
        printf "%s: run %.2f s beside %.2f s, %.2f times as long at the median, at most %.1f; ", what, $1, $2, $1 / $2, most
        printf "on processors %.2f s beside %.2f s, %.2f times\n", $3, $4, $3 / $4
        exit $1 / $2 > most
    }'
}

echo "processors: $(nproc), load: $(cut -d ' ' -f 1 /proc/loadavg), entries of each session: $entries, in memory $in_memory"
script "$entries" "" > "$folder/run_script"
script "$entries" served > "$folder/replay_script"
for round in $(seq "$rounds"); do
    measured files_run "$folder/run_script" "$enqd" run --workers "$workers"
    same_counts "$entries" "enqd run"
    measured files_replay "$folder/replay_script" "$enqd" replay
    same_counts "$entries" "enqd replay"
    tell_round "over files" files_run files_replay
    measured memory_run /dev/null "$load" run "$workers" "$in_memory"
    same_counts "$in_memory" "run_load run"
    measured memory_replay /dev/null "$load" replay "$in_memory"
    same_counts "$in_memory" "run_load replay"
    tell_round "in memory" memory_run memory_replay
done
status=0
compare "over files" files_run files_replay 1.0 || status=1
compare "in memory" memory_run memory_replay 1.5 || status=1
echo "load: $(cut -d ' ' -f 1 /proc/loadavg)"
exit $status
