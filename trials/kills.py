#!/usr/bin/env python3
"""Kills enqd, or enqd_wal, at moments drawn by lot, and compares what the next start shows with what was answered before the kill.

kills.py ENQD [KILLS [SEED]]: ENQD is the program (crates/enqd/out/enqd or crates/enqd_wal/out/enqd_wal), KILLS is 1,000 where it
isn't given. Each round gives it a script of rounds.py. At some moment between start and end the process is killed, and now and
then the starts behind it too. What is answered by then has to be the beginning of what was to be answered. The next start has to
end with status 0 and to show, line by line, the units, locks, levels, counts and rows that the answered lines have made, or those
and the one line behind them. It prints one line, and ends with status 1 where a round differed; standard error then says how, and
the folder of that round is left."""
import os
import random
import shutil
import sys
import tempfile

from rounds import Differs, Site, first_difference, replies_to, run

ROUNDS = 20  # in one folder: each start reads the whole store
MOST = 10  # rounds that differ, before it gives up


def killed(site, seed, moment, others):
    """A script that is killed, and then starts that are killed. Tells how many lines were answered, whether the line
    behind them was done, how many kills there were, and how long the script took."""
    script = site.script(seed)
    status, text, taken = run(site.enqd, site.folder, [line for line, reply in script], moment)
    wanted = replies_to(script)
    answered = text.count("\n")
    if not wanted.startswith(text) or status not in (0, -9) or status == 0 and text != wanted:
        raise Differs(f"status {status}: {first_difference(text, wanted)}")
    kills = int(status == -9)
    for other in others:
        kills += run(site.enqd, site.folder, [], other * site.opening)[0] == -9
    done = site.look(site.behind(seed, answered), 2 + len(others))
    return answered, done, kills, taken


def main():
    enqd = os.path.abspath(sys.argv[1])
    wanted = int(sys.argv[2]) if len(sys.argv) > 2 else 1000
    seed = int(sys.argv[3]) if len(sys.argv) > 3 else random.randrange(10**6)
    chance = random.Random(seed)
    kills = lines = flights = units = wrong = 0
    while kills < wanted and wrong < MOST:
        folder = tempfile.mkdtemp()
        try:
            site = Site(enqd, folder)
            length = killed(site, chance.random(), None, [])[3]
            for _ in range(ROUNDS):
                others = [chance.random() for _ in range(chance.choice([0, 0, 0, 1, 2]))]
                answered, done, more, _ = killed(site, chance.random(), chance.uniform(0, length), others)
                lines, flights, kills = lines + answered, flights + done, kills + more
            units += len(site.state.units)
            shutil.rmtree(folder)
        except Differs as differs:
            print(f"behind {kills} kills, in {folder}: {differs}", file=sys.stderr, flush=True)
            wrong += 1
    print(f"{kills} kills of {os.path.basename(enqd)}, seed {seed}: {units} units, {lines} answered lines, the line in flight done "
          f"{flights} times; {wrong} wrong")
    return wrong > 0


sys.exit(main())
