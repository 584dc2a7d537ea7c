#!/bin/sh
# Times the lock index beside a std::unordered_map in C++ that does the same look-ups:
#   refused asks over 100,000 locks: at most 2.3 times as long as the map's;
#   100,000 grants and then 100,000 frees in an order of their own: at most 2.3 times as long as half as many.
# Words: locks, asks, rounds.
# Both programs grant the locks to one session, make a request of a second session for each lock, every 7,919th in turn, and
# ask with these, one after the other and over again. The map makes its key of each request's table and argument when it
# asks. What the asks take is what the run with them takes longer than the run that makes the requests and doesn't ask.
# Both have to print the same counts.
# Each time is the processor time of a run outside the kernel, the least of all rounds, in which the runs go by turns. Ends with
# status 1 where one is too long.
set -eu
cd "$(dirname "$0")/.."
locks=${1:-100000}
asks=${2:-3000000}
rounds=${3:-11}
load=crates/lock_load/out/lock_load
[ -x "$load" ] || (cd crates/lock_load && rt run -- grants 1 0) > /dev/null
work=$(mktemp -d)
trap 'rm -rf "$work"' EXIT
c++ -O2 -o "$work/look_ups" bench/look_ups.cpp

# The least time of each command, in microseconds. A command is a line: the file for what it writes, and its words.
cat > "$work/least.py" <<'END'
import resource, subprocess, sys

rounds = int(sys.argv[1])
commands = [line.split() for line in sys.stdin]
least = [None] * len(commands)
for _ in range(rounds):
    for place, (output, *words) in enumerate(commands):
        before = resource.getrusage(resource.RUSAGE_CHILDREN).ru_utime
        with open(output, "wb") as file:
            subprocess.run(words, stdout=file, check=True)
        took = round((resource.getrusage(resource.RUSAGE_CHILDREN).ru_utime - before) * 1e6)
        least[place] = took if least[place] is None else min(least[place], took)
print(*least)
END

# Two times, and how many times as long the first is as the second, which may be so many.
compare() {
    awk -v what="$1" -v ours="$2" -v theirs="$3" -v most="$4" 'BEGIN {
        if (theirs <= 0) {
            printf "%s: the runs take too little to be compared\n", what
            exit 1
        }
        times = ours / theirs
        printf "%s: %.1f ms beside %.1f ms, %.2f times as long, at most %s\n", what, ours / 1000, theirs / 1000, times, most
        exit times > most
    }'
}

echo "processors: $(nproc), load: $(cut -d ' ' -f 1 /proc/loadavg), locks: $locks, refused asks: $asks, rounds: $rounds"
status=0
set -- $(python3 "$work/least.py" "$rounds" <<END
$work/none $load asks $locks 0
$work/ours $load asks $locks $asks
$work/none $work/look_ups asks $locks 0
$work/theirs $work/look_ups asks $locks $asks
$work/none $load frees $((locks / 2)) 0
$work/none $load frees $locks 0
END
)
cat "$work/ours"
cmp "$work/ours" "$work/theirs"
compare "refused asks" "$(($2 - $1))" "$(($4 - $3))" 2.3 || status=1
awk -v ours="$(($2 - $1))" -v theirs="$(($4 - $3))" -v asks="$asks" 'BEGIN {
    if (asks > 0) printf "one of them: %.1f ns beside %.1f ns\n", ours * 1000 / asks, theirs * 1000 / asks
}'
compare "grants and frees beside half as many" "$6" "$5" 2.3 || status=1
exit $status
