#!/bin/sh
# Gives enqd, or enqd_wal, landscapes, scripts, stores, backup files, words and folders that are damaged: flipped bytes, cuts, huge
# lines, NULs, rows that are changed, files that are missing. trials/hostile_cases.py says what each run has to come to. It prints
# one line, and ends with status 1 where one came to something else; standard error then says what, and the folders of those cases
# are left. It wants python3.
# Usage: trials/hostile.sh ENQD [CASES [SEED]]; ENQD is the program (crates/enqd/out/enqd or crates/enqd_wal/out/enqd_wal), CASES is
# 2,000 where it isn't given.
set -eu
trials=$(cd "$(dirname "$0")" && pwd)
enqd=$(realpath "$1")
folder=$(mktemp -d)
if python3 "$trials/hostile_cases.py" "$enqd" "${2:-2000}" "${3:-1}" "$folder"; then
    rm -rf "$folder"
else
    echo "left in $folder" >&2
    exit 1
fi
