#!/bin/sh
# Runs each script of demo/rows through enqd, in a folder of its own, and compares its replies, its status and its line on standard
# error with what has to come. It ends with status 1 where something differs.
# Usage: demo/rows.sh [ENQD]; ENQD is the program, crates/enqd/out/enqd where it isn't given (demo/run builds it); enqd_wal may be
# given too.
#
# NAME.txt is a script, NAME.out what it has to be answered; `1 to 9: LINE` stands there for nine lines, each with its number for `#`.
# NAME_2.txt is started in the folder that NAME_1.txt has left. Beside them there may be:
#   NAME.end     the status and the lines on standard error, if they aren't 0 and none
#   NAME.words   the words of the command line, if they aren't `replay`
#   NAME.toml    the landscape, if it isn't that of the demo
#   NAME.before  the backup file that is put there before the start, and
#   NAME.after   the one that has to be there behind it, both as printf takes them
#   NAME.rows    the rows that the store of enqd has to have behind it, where there is a sqlite3 shell
set -eu
export LC_ALL=C
demo=$(cd "$(dirname "$0")" && pwd)
enqd=${1:-$demo/../crates/enqd/out/enqd}
if ! [ -x "$enqd" ]; then
    echo "rows.sh: there is no program $enqd" >&2
    exit 2
fi
enqd=$(realpath "$enqd")
work=$(mktemp -d)
trap 'rm -rf "$work"' EXIT
folder=$work/folder

# A file with the lines that `1 to 9: LINE` stands for.
written_out() {
    awk '/^[0-9]+ to [0-9]+: / {
        for (n = $1; n <= $3 + 0; n++) {
            line = $0
            sub(/^[0-9]+ to [0-9]+: /, "", line)
            gsub(/#/, n, line)
            print line
        }
        next
    }
    { print }' "$1"
}

# What has to come.
wanted() {
    written_out "$row.out"
    if [ -f "$row.end" ]; then cat "$row.end"; else echo "status 0"; fi
    if [ -f "$row.after" ]; then printf "$(cat "$row.after")" | od -c; fi
    if [ -f "$row.rows" ]; then cat "$row.rows"; fi
}

# What came.
found() {
    cat "$work/replies"
    echo "status $status"
    cat "$work/error"
    if [ -f "$row.after" ]; then od -c "$folder/ENQBCK"; fi
    if ! [ -f "$row.rows" ]; then
        :
    elif [ -f "$folder/enq.db" ] && command -v sqlite3 > /dev/null; then
        sqlite3 "$folder/enq.db" "SELECT number, hex(key), hex(value) FROM kept ORDER BY number, key"
    else
        cat "$row.rows"
    fi
}

starts=0
different=0
for script in "$demo"/rows/*.txt; do
    row=${script%.txt}
    case $row in
    *_[2-9]) ;;
    *)
        rm -rf "$folder"
        mkdir "$folder"
        ;;
    esac
    landscape=$row.toml
    [ -f "$landscape" ] || landscape=$demo/landscape.toml
    cp "$landscape" "$folder/landscape.toml"
    if [ -f "$row.before" ]; then printf "$(cat "$row.before")" > "$folder/ENQBCK"; fi
    words=replay
    if [ -f "$row.words" ]; then words=$(cat "$row.words"); fi
    written_out "$script" > "$work/script"
    status=0
    (cd "$folder" && "$enqd" $words < "$work/script" > "$work/replies" 2> "$work/error") || status=$?
    wanted > "$work/wanted"
    found > "$work/found" 2>&1 || true
    starts=$((starts + 1))
    if diff "$work/wanted" "$work/found" > "$work/difference"; then
        echo "${row##*/}: ok"
    else
        echo "${row##*/}: differs"
        head -n 20 "$work/difference"
        different=$((different + 1))
    fi
done
echo "$starts starts, $different differ"
[ "$different" = 0 ]
