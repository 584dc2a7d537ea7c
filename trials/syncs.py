#!/usr/bin/env python3
"""Compares the order in which enqd, or enqd_wal, syncs its files and writes its replies, as the system sees it.

syncs.py ENQD: runs each_write.txt, which meets every kind of write, under strace, in a new folder. When a reply is written nothing
that was written to store or backup file may be left unsynced; the syncs since the reply before have to be those of the line, in the
order in which its call goes to store and backup file; and before the first reply each file that was made has to stand in its
folder, by a sync of the folder behind its making. It prints one line, and ends with status 1 where a line was wrong, which standard
error then tells, and with status 2 where there is no strace."""
import os
import pathlib
import re
import shutil
import subprocess
import sys
import tempfile

TRIALS = pathlib.Path(__file__).resolve().parent
SCRIPT = TRIALS / "each_write.txt"
REPLIES = TRIALS / "each_write.out"
CALLS = "openat,close,write,pwrite64,ftruncate,fsync,fdatasync"

# The lines of the script that write: S is the store, B the backup file.
WRITES = {3: "S", 7: "BS", 9: "SB", 11: "S", 14: "BS", 16: "SB", 17: "BS", 18: "SB"}
# A record behind a gate takes two syncs, as each of the backup file does; a commit of SQLite takes one.
SYNCS = {"enq.db": {"S": "S", "B": "BB"}, "enq.wal": {"S": "SS", "B": "BB"}}
FILES = {"enq.db": "S", "enq.db-wal": "S", "enq.wal": "S", "ENQBCK": "B"}


class Watch:
    """What the calls so far have left unsynced, and the syncs since the last reply."""

    def __init__(self, folder):
        self.folder, self.names, self.wrong = folder, {}, []
        self.unsynced, self.homeless, self.syncs = set(), set(), ""
        self.store, self.line = None, 0

    def see(self, call, words, answer):
        getattr(self, f"see_{call}")(words, answer)

    def see_openat(self, words, descriptor):
        path = re.search(r'"([^"]*)"', words)[1]
        if descriptor >= 0:
            is_folder = os.path.normpath(os.path.join(self.folder, path)) == self.folder
            name = "folder" if is_folder else os.path.basename(path)
            self.names[descriptor] = name
            if name in FILES and "O_CREAT" in words:
                self.homeless.add(name)
            if name in SYNCS:
                self.store = name

    def see_close(self, words, _answer):
        self.names.pop(int(words), None)

    def see_write(self, words, _answer):
        descriptor = int(words.split(",")[0])
        if descriptor == 1:
            self.reply(int(re.match(r'1, "(\d+)', words)[1]))
        elif self.names.get(descriptor) in FILES:
            self.unsynced.add(self.names[descriptor])

    see_pwrite64 = see_ftruncate = see_write

    def see_fsync(self, words, answer):
        name = self.names.get(int(words))
        if answer != 0:
            self.wrong.append(f"behind line {self.line} a sync of {name} fails")
        elif name == "folder":
            self.homeless.clear()
        elif name in FILES:
            self.unsynced.discard(name)
            self.syncs += FILES[name]

    see_fdatasync = see_fsync

    def reply(self, line):
        if line == self.line:
            return
        if self.unsynced:
            self.wrong.append(f"line {line} is answered before a sync of {', '.join(sorted(self.unsynced))}")
        if self.homeless:
            self.wrong.append(f"line {line} is answered before a sync of the folder of {', '.join(sorted(self.homeless))}")
            self.homeless.clear()
        wanted = "".join(SYNCS[self.store][device] for device in WRITES.get(line, ""))
        if self.line and self.syncs != wanted:
            self.wrong.append(f"line {line} has the syncs {self.syncs!r} in place of {wanted!r}")
        self.line, self.syncs = line, ""


def main():
    enqd = os.path.abspath(sys.argv[1])
    if shutil.which("strace") is None:
        print("no strace on this machine: the order of syncs and replies wasn't tried")
        return 2
    with tempfile.TemporaryDirectory() as folder:
        shutil.copy(TRIALS.parent / "demo" / "landscape.toml", folder)
        with open(SCRIPT) as script:
            done = subprocess.run(["strace", "-f", "-qq", "-e", f"trace={CALLS}", "-e", "signal=none", "-o", "calls", enqd, "replay"],
                                  cwd=folder, stdin=script, stdout=subprocess.PIPE, check=True)
        watch = Watch(os.path.realpath(folder))
        if done.stdout != REPLIES.read_bytes():
            watch.wrong.append("other replies")
        with open(os.path.join(folder, "calls")) as calls:
            for call in calls:
                found = re.match(r"\d+ +(\w+)\((.*)\) += (-?\d+)", call)
                if found:
                    watch.see(found[1], found[2], int(found[3]))
    for text in watch.wrong:
        print(text, file=sys.stderr)
    print(f"{watch.line} replies of {os.path.basename(enqd)} beside the syncs of their calls: {len(watch.wrong)} wrong")
    return len(watch.wrong) > 0


sys.exit(main())
