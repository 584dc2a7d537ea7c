"""Scripts of which every reply is known beforehand, drawn by lot, and what a start shows behind so many of their lines.

Four sessions record units with a lock and two numbers each, workers post them or find them refused, and an administrator cancels
them, lets them be tried again, has a replica follow the locks, ends the lock server, and has it taken over by the replica or made
anew. kills.py and copies.py stop the program amid such a script."""
import copy
import itertools
import os
import random
import re
import subprocess
import time

LANDSCAPE = os.path.join(os.path.dirname(os.path.abspath(__file__)), "..", "demo", "landscape.toml")
UNITS = 40  # of one script
STATUSES = ["OPEN", "POSTED", "BAD", "CLOSED", "BAD2", "CANCELLED"]


class Differs(Exception):
    pass


class Unit:
    def __init__(self, key, session, number, text, is_wrong):
        self.key, self.session, self.number, self.text, self.is_wrong = key, session, number, text, is_wrong
        self.status = "OPEN"


class State:
    """What lines have made. Each unit has one number of ZORDNR and one of ZBUF."""

    def __init__(self):
        self.units = []  # in the order of their COMMITs
        self.waiting = []  # for V1, in their order
        self.posted = []  # those that wait for V2
        self.marks = 0
        self.level = 0  # of ZBUF
        self.drawn = 0  # the last number of ZBUF that was handed out
        self.is_followed = False  # by a replica, which no start finds

    def with_status(self, *statuses):
        return [unit for unit in self.units if unit.status in statuses]


# ---- the script of a round: each line with its reply, behind which the state is the one after the line


def play(state, start, chance):
    state.drawn, state.is_followed = state.level, False
    for session in range(1, 5):
        yield f"S{session} LOGON U{session}", "OK"
    for place in range(UNITS):
        yield from enter(state, start, place, chance.random() < 0.2)
        while chance.random() < 0.7:
            yield from work(state, chance)


def enter(state, start, place, is_wrong):
    """A session records a unit. One that is wrong can't be posted: its second effect is refused."""
    session, number = place % 4 + 1, len(state.units) + 1
    yield f"S{session} NUM ZORDNR 01 N", f"OK {number} -"
    state.drawn += 1
    state.level = max(state.level, (state.drawn + 9) // 10 * 10)
    yield f"S{session} NUM ZBUF 01 M", f"OK {state.drawn} -"
    yield f"S{session} ENQ EZORDER E 2 MANDT=100 ORDNR=$N", "OK"
    yield f"S{session} V1 INS VBAK $N $M", "OK"
    yield f"S{session} V1 " + ("DEL NONE 1" if is_wrong else "ADD STAT POSTED 1"), "OK"
    yield f"S{session} V2 ADD STAT CLOSED 1", "OK"
    unit = Unit(f"{start}.{session}.{place // 4 + 1}", session, number, state.drawn, is_wrong)
    state.units.append(unit)
    state.waiting.append(unit)
    state.marks += 1
    yield f"S{session} COMMIT", f"OK {unit.key}"


def work(state, chance):
    """What a worker or the administrator does, where there is something to do it with."""
    deed = chance.choice(["DO1"] * 8 + ["DO2"] * 8 + ["RESUBMIT"] * 2 + ["CANCEL", "KILL", "ATTACH"])
    if deed == "DO1" and state.waiting:
        unit = state.waiting[0]
        yield "@1 TAKE1", f"OK {unit.key}"
        state.waiting.pop(0)
        if unit.is_wrong:
            mark(state, unit, "BAD")
            yield "@1 DO1", f"BAD {unit.key} 2 MISSING"
        else:
            mark(state, unit, "POSTED")
            state.posted.append(unit)
            yield "@1 DO1", f"POSTED {unit.key}"
    elif deed == "DO2" and state.posted:
        unit = state.posted[0]
        yield "@2 TAKE2", f"OK {unit.key}"
        mark(state, state.posted.pop(0), "CLOSED")
        yield "@2 DO2", f"CLOSED {unit.key}"
    elif deed == "RESUBMIT" and state.with_status("BAD"):
        unit = state.with_status("BAD")[0]
        mark(state, unit, "OPEN")
        state.waiting.append(unit)
        yield f"! RESUBMIT {unit.key}", f"OK {unit.key}"
    elif deed == "CANCEL" and state.with_status("OPEN", "BAD"):
        unit = chance.choice(state.with_status("OPEN", "BAD"))
        if unit.status == "OPEN":
            state.waiting.remove(unit)
        mark(state, unit, "CANCELLED")
        yield f"! CANCEL {unit.key}", f"OK {unit.key}"
    elif deed == "ATTACH":
        state.is_followed = True
        yield "! ATTACH", "OK"
    elif deed == "KILL":
        is_followed, state.is_followed = state.is_followed, False
        if state.waiting:
            yield "@3 TAKE1", f"OK {state.waiting[0].key}"  # an order, which goes with the RESTART alone
        yield "! KILL", "OK"
        yield "S1 COMMIT", "SYSTEM_FAILURE"
        yield "! FAILOVER", "OK" if is_followed else "NOT_ATTACHED"
        if not is_followed:
            yield "! RESTART", "OK"
        elif state.waiting:
            yield "@3 DROP", f"OK {state.waiting[0].key}"


def mark(state, unit, status):
    unit.status = status
    state.marks += 1


def after(state, start, seed, count):
    """The state behind so many lines of the script."""
    state = copy.deepcopy(state)
    for _ in itertools.islice(play(state, start, random.Random(seed)), count):
        pass
    return state


# ---- what a start is asked, and what it answers over a state


def questions(numbers):
    rows = [f"VBAK {number}" for number in range(1, numbers + 1)] + ["STAT POSTED", "STAT CLOSED"]
    return (["? SM12", "? SM13", "? SNRO", "? AUDIT", "C LOGON CLERK"] + [f"C READ {row} T" for row in rows]
            + ["C ENQ EZORDER S 1 MANDT=999", "? SM12"])


def answers(state, start, numbers):
    locks = [f"U{unit.key} U{unit.session} ZORDER E 0 1 H 100{unit.number:<10}" for unit in state.waiting]
    own = f"D{start}.1 CLERK ZORDER S 1 0 - 999@@@@@@@@@@"
    posted = state.with_status("POSTED", "CLOSED")
    texts = {unit.number: f"OK {unit.text}" for unit in posted}
    counts = [len(posted), len(state.with_status("CLOSED"))]
    replies = [
        [f"SERVER UP REPLICA DETACHED LOCKS {len(locks)} OF 1000"] + locks + ["END"],
        [f"{unit.key} U{unit.session} {unit.status} V1 2 V2 1 LOCKS 1 NUMBERS 2"
         + (" ERROR 2 MISSING" if unit.status == "BAD" else "") for unit in state.units] + ["END"],
        [f"ZORDNR 01 1 9999999999 LEVEL {len(state.units)} BUFFER 0 PERCENT 10",
         "ZSMALL 01 98 100 LEVEL 97 BUFFER 0 PERCENT 40",
         f"ZBUF 01 1 999999999 LEVEL {state.level} BUFFER 10 PERCENT 0", "END"],
        [f"UNITS {len(state.units)} " + "".join(f"{status} {len(state.with_status(status))} " for status in STATUSES)
         + f"MARKS {state.marks} NUMBERS {2 * len(state.units)}", "END"],
        ["OK"],
    ]
    replies += [[texts.get(number, "NONE")] for number in range(1, numbers + 1)]
    replies += [[f"OK {count}" if count else "NONE"] for count in counts]
    replies += [["OK"], [f"SERVER UP REPLICA DETACHED LOCKS {len(locks) + 1} OF 1000"] + locks + [own, "END"]]
    return "".join(f"{number} {reply}\n" for number, lines in enumerate(replies, 1) for reply in lines)


# ---- the program in one folder


def run(enqd, folder, lines, moment=None, deed=subprocess.Popen.kill):
    """Does these lines, and does this deed to the program at this moment. Tells its status, what it wrote, and how long it took."""
    with open(os.path.join(folder, "script"), "w") as script:
        script.writelines(line + "\n" for line in lines)
    begun = time.monotonic()
    with open(script.name) as source, open(os.path.join(folder, "replies"), "w+") as sink:
        child = subprocess.Popen([enqd, "replay"], cwd=folder, stdin=source, stdout=sink, stderr=sink)
        if moment is not None:
            time.sleep(moment)
            deed(child)
        status = child.wait(timeout=600)
        taken = time.monotonic() - begun
        sink.seek(0)
        return status, sink.read(), taken


def first_difference(found, wanted):
    for one, other in itertools.zip_longest(found.splitlines(), wanted.splitlines()):
        if one != other:
            return f"{one!r} in place of {other!r}"
    return "a line end"


class Site:
    """A folder in which start follows start, with what they have made."""

    def __init__(self, enqd, folder):
        self.enqd, self.folder, self.state = enqd, folder, State()
        with open(LANDSCAPE) as source, open(os.path.join(folder, "landscape.toml"), "w") as landscape:
            landscape.write(source.read().replace("to = 1000\n", "to = 999999999\n"))
        self.start = 0
        self.look([self.state], 1)

    def script(self, seed):
        """The lines of the next script, each with its reply."""
        return list(play(copy.deepcopy(self.state), self.start + 1, random.Random(seed)))

    def behind(self, seed, answered):
        """The states behind so many lines of it: without and with the one in flight."""
        return [after(self.state, self.start + 1, seed, answered + more) for more in (0, 1)]

    def look(self, may_be, starts):
        """A start shows one of these states. It is one of so many starts since the last one whose number is known."""
        numbers = max(len(state.units) for state in may_be)
        status, text, self.opening = run(self.enqd, self.folder, questions(numbers))
        own = re.search(r" D(\d+)\.1 CLERK ", text)
        if status != 0 or own is None:
            raise Differs(f"the next start ends with status {status}: {text[-200:]!r}")
        start = int(own[1])
        wanted = [answers(state, start, numbers) for state in may_be]
        if text not in wanted:
            raise Differs(" or ".join(first_difference(text, one) for one in wanted))
        if not self.start < start <= self.start + starts:
            raise Differs(f"start {start} behind start {self.start}, of {starts}")
        self.start, self.state = start, may_be[wanted.index(text)]
        return wanted.index(text)


def replies_to(script):
    """What these lines are answered."""
    return "".join(f"{number} {reply}\n" for number, (line, reply) in enumerate(script, 1))
