#!/bin/sh
# Times two loads on threads, each beside what it is measured by:
#   100,000 turns of each of four threads on the ticket lock, beside a std::mutex in C++: at most 3 times as long;
#   100,000 draws of each of four threads from one stock, beside one thread that draws as much: at most 6 times as long; and beside
#   the turns above, in each of which a counter is raised: no longer.
# A word: how many rounds a run makes (5). Each time is the best of five runs. Ends with status 1 where one is too long.
set -eu
cd "$(dirname "$0")/.."
rounds=${1:-5}
each=100000
(cd crates/turn_load && rt run -- all 1 1) > /dev/null
load=crates/turn_load/out/turn_load
work=$(mktemp -d)
trap 'rm -rf "$work"' EXIT
c++ -O2 -pthread -o "$work/mutex_turns" bench/mutex_turns.cpp

# The best time of five runs of a command, in microseconds. What it writes stays in $work/output.
best() {
    least=
    for _ in 1 2 3 4 5; do
        start=$(date +%s%N)
        "$@" > "$work/output"
        took=$((($(date +%s%N) - start) / 1000))
        if [ -z "$least" ] || [ "$took" -lt "$least" ]; then
            least=$took
        fi
    done
    echo "$least"
}

# Two times, and how many times as long the first is as the second, which may be so many.
compare() {
    awk -v what="$1" -v ours="$2" -v theirs="$3" -v most="$4" 'BEGIN {
        times = ours / theirs
        printf "%s: %.1f ms beside %.1f ms, %.2f times as long, at most %d\n", what, ours / 1000, theirs / 1000, times, most
        exit times > most
    }'
}

echo "processors: $(nproc), rounds: $rounds, steps of each thread in a round: $each"
status=0
mutex=$(best "$work/mutex_turns" "$each" "$rounds")
cp "$work/output" "$work/mutex_output"
turns=$(best "$load" turns "$each" "$rounds")
cmp "$work/output" "$work/mutex_output"
compare "turns of the lock beside a mutex" "$turns" "$mutex" 3 || status=1
alone=$(best "$load" draws-alone "$each" "$rounds")
draws=$(best "$load" draws "$each" "$rounds")
compare "draws by four threads beside one" "$draws" "$alone" 6 || status=1
compare "draws by four threads beside a counter under the lock" "$draws" "$turns" 1 || status=1
exit $status
