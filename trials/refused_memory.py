#!/usr/bin/env python3
"""refused_memory.py ENQD LIBRARY STEP FOLDER: what trials/refused_memory.sh runs, with the library made of refused_memory.c.

A run in which allocations were refused ends in one of these ways, with the line on standard error that belongs to it:
- with status 0 and all replies that the script has to have;
- with status 12, behind the first of those replies: no memory for the line that comes next, or for the start;
- with status 5, 7 or 8 and no reply: the landscape, the store or the backup file was refused it at the start;
- with status 7 or 8: it was refused to the store or to the backup file in a call. This one is answered STORE_FAULT or BACKUP_FAULT,
  behind the first of those replies, and the calls behind it are answered DOWN, for as long as there is memory for them;
- with status 0 behind such a call, where the script's RESTART comes behind it and is answered OK. What the lines behind that are
  answered isn't compared, as a session may have lost its unit.
- as any of these by the replies of the same script without a replica, where one follows: a change of the table that finds no memory
  on its way to it detaches it, which no answer tells.

The next start, to which none is refused, ends with status 0. It shows the locks, units, number ranges and counts that stand where a
script ends behind the line that was answered last. Behind a fault in a call it may be that line or the one before; behind a RESTART
that was done in doubt, whatever it shows."""
import collections
import concurrent.futures
import itertools
import os
import pathlib
import re
import shutil
import subprocess
import sys

TRIALS = pathlib.Path(__file__).resolve().parent
DEMO = TRIALS.parent / "demo"
ROWS = DEMO / "rows"
# Scripts of demo/rows: an order with all that belongs to it; a part refused and tried again; a lock server ended and made anew; a start
# over a unit that waits; a replica that takes a lock server's place.
NAMES = ["order_entry", "refused_part_tried_again", "lock_server_ended", "next_start_goes_on_2", "replica_takes_over"]
# A script that meets every kind of write.
EACH_WRITE = "each_write"
# What the lines of the last one are answered where the replica was lost before the lock server was ended: there is none from then on.
LOST = {"replica_takes_over": b"""1 OK
2 OK
3 OK
4 OK
5 OK
6 OK
7 OK
8 OK
9 SERVER NONE REPLICA DETACHED
9 END
10 SYSTEM_FAILURE
11 NOT_ATTACHED
12 SYSTEM_FAILURE
13 SYSTEM_FAILURE
14 SYSTEM_FAILURE
15 SYSTEM_FAILURE
16 NOT_ATTACHED
17 SERVER NONE REPLICA DETACHED
17 END
"""}
MONITORS = b"? SM12\n? SM13\n? SNRO\n? AUDIT\n"
ENDS = {0: rb"", 5: rb"enqd: cannot read\n", 7: rb"enqd: store fault in command \d+\n", 8: rb"enqd: backup fault in command \d+\n",
        12: rb"enqd: no memory\n"}


def start(enqd, folder, script, **more):
    """The status, the replies, and standard error."""
    done = subprocess.run([enqd, "replay"], cwd=folder, input=script, capture_output=True, timeout=60, env={**os.environ, **more})
    return done.returncode, done.stdout, done.stderr


def number(reply):
    return int(reply.split()[0])


class Course:
    """A script with its replies, and what the next start shows where it ends behind so many lines."""

    def __init__(self, enqd, name, base, script, replies, copy):
        self.restarts = [place for place, line in enumerate(script, 1) if line == b"! RESTART\n"]
        self.replies, self.shown = replies.splitlines(keepends=True), []
        for lines in range(len(script) + 1):
            shutil.copytree(base, copy)
            whole = start(enqd, copy, b"".join(script[:lines]))
            self.shown.append(start(enqd, copy, MONITORS))
            shutil.rmtree(copy)
            if whole[0] != 0 or self.shown[-1][0] != 0:
                sys.exit(f"{name}: with its memory it ends with {whole!r}, the next start with {self.shown[-1]!r}")

    def problem(self, status, output, error, shown):
        """What is wrong with a run, and with what the next start has shown; nothing where all is well."""
        if not re.fullmatch(ENDS.get(status, rb"(?!)"), error):
            return "this status, or its line, doesn't belong here"
        replies = output.splitlines(keepends=True)
        fault = next((place for place, reply in enumerate(replies) if reply.endswith(b"_FAULT\n")), None)
        if fault is not None and status == 0:
            return self.problem_behind_doubt(replies, fault, shown)
        if replies[:fault] != self.replies[:len(replies[:fault])] or status == 0 and replies != self.replies:
            return "other replies"
        if status in (5, 7, 8) and (fault is None) != (not replies and error.endswith((b"read\n", b" 0\n"))):
            return "no reply tells this fault"
        if fault is None:
            lines = [number(replies[-1]) if replies else 0]
        else:
            lines = [number(replies[fault]) - 1, number(replies[fault])]
        if shown not in [self.shown[line] for line in lines]:
            return f"the next start has shown {shown!r}"
        return None

    def problem_behind_doubt(self, replies, fault, shown):
        """The same of a run with status 0 in which a call was answered with a fault."""
        done = any(place > number(replies[fault]) and b"%d OK\n" % place in replies for place in self.restarts)
        if replies[:fault] != self.replies[:fault] or not done:
            return "other replies"
        if shown[0] != 0:
            return f"the next start has shown {shown!r}"
        return None


def read_script(folder, name):
    """The lines of a script, and its replies."""
    return (folder / f"{name}.txt").read_bytes().splitlines(keepends=True), (folder / f"{name}.out").read_bytes()


def followed(script, replies):
    """The same with a replica that follows."""
    later = [b"%d %b" % (number(reply) + 1, reply.split(b" ", 1)[1]) for reply in replies.splitlines(keepends=True)]
    return [b"! ATTACH\n"] + script, b"".join([b"1 OK\n"] + later)


class Row:
    """A script in the folder that it begins in, with each course that it may take."""

    def __init__(self, enqd, name, script, replies, folder):
        self.name, self.base = name, folder / name
        self.script = b"".join(script)
        self.base.mkdir()
        shutil.copy(DEMO / "landscape.toml", self.base)
        if name.endswith("_2"):
            start(enqd, self.base, (ROWS / f"{name[:-1]}1.txt").read_bytes())
        self.courses = [Course(enqd, name, self.base, script, replies, folder / "copy")]
        if name in LOST:
            bare = [b"\n" if line == b"! ATTACH\n" else line for line in script]
            self.courses.append(Course(enqd, name, self.base, bare, LOST[name], folder / "copy"))

    def problem(self, *seen):
        """What is wrong by the first course, where something is by each."""
        problems = [course.problem(*seen) for course in self.courses]
        return problems[0] if all(problems) else None


def refuse(enqd, library, step, folder, row, behind):
    """Refuses each allocation of a row in turn, and with `behind` all behind it; the statuses of the runs, and how many were wrong."""
    name = f"{row.name}{'-and-behind' * behind}"
    more = {"LD_PRELOAD": library, "REFUSED_NOTE": str(folder / f"{name}-note"), **({"REFUSED_BEHIND": "1"} if behind else {})}
    statuses, wrong = collections.Counter(), 0
    for at in itertools.count(1, step):
        copy = shutil.copytree(row.base, folder / f"{name}-{at}")
        run = start(enqd, copy, row.script, REFUSED=str(at), **more)
        if not os.path.exists(more["REFUSED_NOTE"]):
            shutil.rmtree(copy)
            break  # it took fewer
        os.unlink(more["REFUSED_NOTE"])
        problem = row.problem(*run, start(enqd, copy, MONITORS))
        if problem:
            print(f"{copy.name}: status {run[0]}, {run[2]!r}, {run[1][-200:]!r}: {problem}", file=sys.stderr, flush=True)
            wrong += 1
        else:
            shutil.rmtree(copy)
        statuses[run[0]] += 1
    return statuses, wrong


def main(enqd, library, step, folder):
    each_write = read_script(TRIALS, EACH_WRITE)
    scripts = {name: read_script(ROWS, name) for name in NAMES}
    scripts.update({EACH_WRITE: each_write, f"{EACH_WRITE}_followed": followed(*each_write)})
    rows = [Row(enqd, name, *script, folder) for name, script in scripts.items()]
    with concurrent.futures.ThreadPoolExecutor(len(os.sched_getaffinity(0))) as pool:
        tries = [pool.submit(refuse, enqd, library, step, folder, row, behind) for row in rows for behind in (False, True)]
        results = [one.result() for one in tries]
    statuses, wrong = sum((one[0] for one in results), collections.Counter()), sum(one[1] for one in results)
    counts = ", ".join(f"{count} with status {status}" for status, count in sorted(statuses.items()))
    print(f"{sum(statuses.values())} runs of {len(rows)} scripts by {os.path.basename(enqd)}, each with an allocation refused, alone or with "
          f"all behind it: {counts}; {wrong} wrong")
    return wrong > 0


if __name__ == "__main__":
    sys.exit(main(sys.argv[1], sys.argv[2], int(sys.argv[3]), pathlib.Path(sys.argv[4])))
