#!/usr/bin/env python3
"""Starts enqd, or enqd_wal, from copies of its folder, which are taken while a signal has stopped it, at moments drawn by lot.

copies.py ENQD [COPIES [SEED]]: ENQD is the program, COPIES is 500 where it isn't given. The folder is in memory (/dev/shm, where it
is there), so that it has what was written so far, whether it was synced or not: a disk that has all that it was told, though it
never wrote it down. Each round gives the program a script of rounds.py, stops it at some moment, copies the folder, and lets it go
on to its end. What is answered by the stop has to be the beginning of what was to be answered. A start from the copy has to end
with status 0 and to show, line by line, what these lines have made, or those and the one line behind them; and the program that
went on has to answer all of its lines. It prints one line, and ends with status 1 where a round differed; standard error then says
how, and the folders of that round are left."""
import copy
import os
import random
import shutil
import signal
import sys
import tempfile

from rounds import Differs, Site, first_difference, replies_to, run

ROUNDS = 20  # in one folder: each start reads the whole store
MOST = 10  # rounds that differ, before it gives up


def copied(site, seed, moment, there):
    """A script that is stopped while its folder is copied, and goes on. Tells how many lines were answered by then, whether the
    line behind them was done, whether it was stopped before its end, and how long the script took."""

    def stop(child):
        os.kill(child.pid, signal.SIGSTOP)
        os.waitid(os.P_PID, child.pid, os.WSTOPPED | os.WEXITED | os.WNOWAIT)
        shutil.copytree(site.folder, there)
        os.kill(child.pid, signal.SIGCONT)

    script = site.script(seed)
    wanted = replies_to(script)
    status, whole, taken = run(site.enqd, site.folder, [line for line, reply in script], moment, stop)
    if status != 0 or whole != wanted:
        raise Differs(f"status {status} behind the stop: {first_difference(whole, wanted)}")
    if moment is None:
        site.look(site.behind(seed, len(script)), 2)
        return 0, 0, 0, taken
    with open(os.path.join(there, "replies")) as replies:
        text = replies.read()
    if not wanted.startswith(text):
        raise Differs(f"at the stop: {first_difference(text, wanted)}")
    answered = text.count("\n")
    other = copy.copy(site)
    other.folder = there
    done = other.look(site.behind(seed, answered), 2)
    site.look(site.behind(seed, len(script)), 2)
    shutil.rmtree(there)
    return answered, done, answered < len(script), taken


def main():
    enqd = os.path.abspath(sys.argv[1])
    wanted = int(sys.argv[2]) if len(sys.argv) > 2 else 500
    seed = int(sys.argv[3]) if len(sys.argv) > 3 else random.randrange(10**6)
    chance = random.Random(seed)
    copies = lines = flights = wrong = 0
    memory = "/dev/shm" if os.access("/dev/shm", os.W_OK) else None
    while copies < wanted and wrong < MOST:
        folder = tempfile.mkdtemp(dir=memory)
        try:
            os.mkdir(os.path.join(folder, "whole"))
            site = Site(enqd, os.path.join(folder, "whole"))
            length = copied(site, chance.random(), None, None)[3]
            for _ in range(ROUNDS):
                answered, done, more, _ = copied(site, chance.random(), chance.uniform(0, length), os.path.join(folder, "copy"))
                lines, flights, copies = lines + answered, flights + done, copies + more
            shutil.rmtree(folder)
        except Differs as differs:
            print(f"behind {copies} copies, in {folder}: {differs}", file=sys.stderr, flush=True)
            wrong += 1
    print(f"{copies} copies of the folder of {os.path.basename(enqd)} in memory, stopped amid a script, seed {seed}: {lines} answered "
          f"lines, the line in flight done {flights} times; {wrong} wrong")
    return wrong > 0


sys.exit(main())
