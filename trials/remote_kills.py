#!/usr/bin/env python3
"""Kills trfcd at moments drawn by lot, sends again until no call is open, and looks whether each call was executed once.

remote_kills.py ENQD TRFCD [KILLS [SEED]]: the programs (crates/enqd/out/enqd and crates/trfcd/out/trfcd); KILLS is 200 where it
isn't given. Each round has enqd post units with remote calls, so that enq.db has them; then trfcd sends them, and is killed at some
moment between its start and the end of a run that wasn't killed. Then it is started, now and then killed again, until a run ends by
itself with status 0 and no call open. By the rows of target.db, read with Python's sqlite3, each call then stands there once, at a
place of its own, with the outcome that the outbox has, and the business rows are those that all calls leave which were executed once
each. The rows of enq.db are as enqd left them. It prints one line, and ends with status 1 if any round went wrong, whose folder it
leaves."""
import os
import random
import shutil
import signal
import sqlite3
import subprocess
import sys
import tempfile
import time

LANDSCAPE = os.path.join(os.path.dirname(os.path.abspath(__file__)), "..", "demo", "landscape.toml")
CALLS = 12  # of one round
MISSING = 2


class Wrong(Exception):
    pass


def rows_of(path):
    store = sqlite3.connect(f"file:{path}?mode=ro", uri=True)
    try:
        return {(table, bytes(key)): bytes(value) for table, key, value in store.execute("SELECT number, key, value FROM kept")}
    finally:
        store.close()


def script(calls):
    """A unit for two calls: the first adds to a row, the second deletes one that isn't there."""
    yield "A LOGON MILLER"
    for n in range(calls // 2):
        yield f"A V1 INS TRFCOUT A{n} ADD STAT N {n + 1}"
        yield f"A V1 INS TRFCOUT B{n} DEL STAT M{n}"
        yield "A COMMIT"
        yield "@1 TAKE1"
        yield "@1 DO1"


def send(trfcd, folder, seconds=None):
    """The status and the output of a run, or None where it was killed before its end."""
    process = subprocess.Popen([trfcd, "send"], cwd=folder, stdout=subprocess.PIPE, stderr=subprocess.PIPE)
    if seconds is not None:
        time.sleep(seconds)
        process.send_signal(signal.SIGKILL)
    output, error = process.communicate(timeout=60)
    if process.returncode == -signal.SIGKILL:
        return None
    if process.returncode != 0:
        raise Wrong(f"status {process.returncode}: {error.decode()}")
    return output.decode()


def check(folder, calls, system):
    if rows_of(os.path.join(folder, "enq.db")) != system:
        raise Wrong("enq.db was changed")
    target = rows_of(os.path.join(folder, "target.db"))
    outbox = rows_of(os.path.join(folder, "outbox.db"))
    executed = {key: value for (table, key), value in target.items() if table == 0}
    wanted = {f"A{n}".encode(): b"\1\0ADD STAT N %d" % (n + 1) for n in range(calls // 2)}
    wanted.update({f"B{n}".encode(): bytes([3, MISSING]) + b"DEL STAT M%d" % n for n in range(calls // 2)})
    if {key: value[8:] for key, value in executed.items()} != wanted:
        raise Wrong("the calls of target.db differ")
    if sorted(int.from_bytes(value[:8], "big") for value in executed.values()) != list(range(1, calls + 1)):
        raise Wrong("the places of target.db differ")
    if {key: value for (table, key), value in outbox.items() if table == 0} != wanted:
        raise Wrong("outbox.db differs")
    total = sum(range(1, calls // 2 + 1))
    if {key: value for (table, key), value in target.items() if table == 1} != {b"\4STATN": b"%d" % total}:
        raise Wrong("the business rows of target.db differ")
    if target[(2, b"S")] != calls.to_bytes(8, "big"):
        raise Wrong("the count of target.db differs")


def whole_time(enqd, trfcd):
    """How long a run takes that isn't killed."""
    folder = tempfile.mkdtemp()
    try:
        prepare(enqd, folder)
        before = time.monotonic()
        send(trfcd, folder)
        return time.monotonic() - before
    finally:
        shutil.rmtree(folder)


def prepare(enqd, folder):
    shutil.copy(LANDSCAPE, os.path.join(folder, "landscape.toml"))
    lines = "".join(line + "\n" for line in script(CALLS))
    done = subprocess.run([enqd, "replay"], cwd=folder, input=lines.encode(), capture_output=True, timeout=60)
    if done.returncode != 0 or b"BAD" in done.stdout:
        raise Wrong(f"enqd: {done.stdout.decode()}{done.stderr.decode()}")


def play(enqd, trfcd, folder, chance, length, left):
    """One folder: kills until a run ends by itself. The number of kills."""
    prepare(enqd, folder)
    system = rows_of(os.path.join(folder, "enq.db"))
    kills = 0
    while kills < left and (kills == 0 or chance.random() < 0.5):
        if send(trfcd, folder, chance.random() * length) is not None:
            break
        kills += 1
    last = send(trfcd, folder).splitlines()[-1]
    if last != f"CALLS {CALLS} DONE {CALLS // 2} BAD {CALLS // 2} OPEN 0":
        raise Wrong(last)
    check(folder, CALLS, system)
    return kills


def main():
    enqd, trfcd = (os.path.abspath(path) for path in sys.argv[1:3])
    wanted = int(sys.argv[3]) if len(sys.argv) > 3 else 200
    chance = random.Random(int(sys.argv[4]) if len(sys.argv) > 4 else None)
    length = whole_time(enqd, trfcd)
    kills = wrong = 0
    while kills < wanted:
        folder = tempfile.mkdtemp()
        try:
            kills += play(enqd, trfcd, folder, chance, length, wanted - kills)
            shutil.rmtree(folder)
        except Wrong as error:
            wrong += 1
            kills += 1
            print(f"{folder}: {error}", file=sys.stderr)
    print(f"remote kills: {kills} tried, {wrong} went wrong")
    sys.exit(1 if wrong else 0)


if __name__ == "__main__":
    main()
