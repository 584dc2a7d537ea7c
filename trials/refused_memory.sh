#!/bin/sh
# Refuses enqd memory: runs scripts of demo/rows, and each_write.txt without and with a replica that follows, again and again, and each
# time another one of its allocations comes to nothing, first that one alone, then that one and all behind it. trials/refused_memory.py
# says what each run has to come to, and what the next start in its folder has to show. It prints one line, and ends with status 1
# where one came to something else; standard error then says what, and the folders of those runs are left.
# Not shown: what happens where the system has no memory for what it does itself, as for the stack or for starting the program.
# It wants python3, cc, and a C library whose malloc LD_PRELOAD can stand in front of.
# Usage: trials/refused_memory.sh ENQD [STEP]; ENQD is the program (crates/enqd/out/enqd). With a STEP just each STEP-th allocation is
# refused. All of them are some 50,000 runs, each with a next start: let TMPDIR name a folder in memory.
set -eu
trials=$(cd "$(dirname "$0")" && pwd)
enqd=$(realpath "$1")
folder=$(mktemp -d)
cc -O2 -shared -fPIC -o "$folder/refusing.so" "$trials/refused_memory.c"
if python3 "$trials/refused_memory.py" "$enqd" "$folder/refusing.so" "${2:-1}" "$folder"; then
    rm -rf "$folder"
else
    echo "left in $folder" >&2
    exit 1
fi
