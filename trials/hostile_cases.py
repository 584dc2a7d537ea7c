#!/usr/bin/env python3
"""hostile_cases.py ENQD CASES SEED FOLDER: what trials/hostile.sh runs, over enqd or over enqd_wal.

First come cases of which the end is known, then CASES cases by lot, of which the one at a place follows from SEED and the place
alone. Each begins with what the script FIRST has left in a folder, and in that something is damaged. Of each run this has to hold:
it ends by itself within a minute, with a status of the table in docs/OPERATING.md and the line that belongs to it on standard
error; it wrote lines of replies and nothing else; files that it doesn't open, or refuses, are as they were (`wrong_files`); what
was refused is refused again in the same words, and behind a run that was served, or had no room for its files, the next start
ends with status 0, with just the locks of the units that wait."""
import collections
import os
import pathlib
import random
import re
import resource
import shutil
import signal
import sqlite3
import subprocess
import sys

from stores import Broken, Database, Journal, long, read_journal, store_of

ROOT = pathlib.Path(__file__).resolve().parent.parent
LANDSCAPE = (ROOT / "demo" / "landscape.toml").read_bytes()

# Leaves a unit of each status, numbers with a unit and without one, locks of two units that wait, and rows of every kind.
FIRST = b"""A LOGON MILLER
A NUM ZORDNR 01 N
A NUM ZBUF 01 M
A ENQ EZORDER E 2 MANDT=100 ORDNR=$N
A V1 INS VBAK $N MILLER
A V2 ADD STAT ORDERS 1
A COMMIT
@1 TAKE1
@1 DO1
@1 TAKE2
@1 DO2
A V1 INS VBAK $N AGAIN
A COMMIT
@1 TAKE1
@1 DO1
A V1 PUT T 1 X
A V2 ADD VBAK $N 1
A COMMIT
@1 TAKE1
@1 DO1
@1 TAKE2
@1 DO2
A V1 PUT T 2 X
A V2 ADD STAT ORDERS 1
A COMMIT
@1 TAKE1
@1 DO1
A V1 DEL NONE 1
A COMMIT
! CANCEL 1.1.5
A NUM ZORDNR 01 N
A COMMIT
A ENQ EZORDER E 2 MANDT=100 ORDNR=7
A ENQ EZORDER S 2 MANDT=100 ORDNR=8
A V1 PUT T 7 X
A COMMIT
A ENQ EZORDER E 2 MANDT=200
A V1 PUT T 8 X
A COMMIT
"""

# Makes calls of every kind over that.
USUAL = b"""? SM12
? SM13
? SNRO
? AUDIT
A LOGON MILLER
B LOGON SMITH
A ENQ EZORDER E 3 MANDT=100 ORDNR=9
B ENQ EZORDER O 1 MANDT=300
A NUM ZORDNR 01 N
A NUM ZBUF 01 M
A NUM ZSMALL 01 S
A COLLECT EZORDER S 1 MANDT=$S ORDNR=
A FLUSH
B CONVERT EZORDER MANDT=300
A V1 PUT T $N-$M TEXT OF $N
A V1 ADD T 9223 9223372036854775807
A V2 DEL T $N
A COMMIT
! RESUBMIT 1.1.2
@1 TAKE1
@1 DO1
@2 TAKE2
@2 DO2
@3 TAKE1
! ATTACH
! KILL
! FAILOVER
! KILL
! RESTART
! CANCEL 1.1.2
A READ T 1 V
B READ T 7 V
A ROLLBACK
B ROLLBACK
A LOGOFF
? SM13
"""

# The line on standard error behind `enqd: `, by status.
ENDS = {
    0: r"", 2: r"bad words", 3: r"bad landscape, rule ([1-9]|1[0-5]) at \d+", 4: r"bad line [1-9]\d*", 5: r"cannot read",
    6: r"cannot write", 7: r"store fault in command \d+", 8: r"backup fault in command \d+",
    9: r"bad store, table [0-7] row [1-9]\d*",
    10: r"bad backup at \d+|backup lacks a lock of unit \d+\.\d+\.\d+ at [1-9]\d*|backup entries [1-9]\d* and [1-9]\d* clash",
    11: r"line [1-9]\d* is too long|too many lines", 12: r"no memory", 13: r"no start number left"}

TOKENS = [
    b"9223372036854775807", b"9223372036854775808", b"-1", b"0", b"1e9", b"inf", b'"', b"'''", b"[", b"]]", b"{", b"=", b"#",
    b"\0", b"\xff", b"\r", b"\n", b" ", b"$N", b"$", b"@", b"1.1.1", b"4294967296.1.1", b"\xe2\x82\xac",
    b"\0" * 5000, b"A" * 1100, b"[" * 3000, b"{a=" * 2000, b"1" * 4000, b"$S" * 300, b"a." * 3000]

WORDS = [
    [], [b""], [b"replay", b""], [b"REPLAY"], [b"replay "], [b"\xff\xfe"], [b"run"], [b"gen"], [b"gen", b"0"], [b"gen", b"03"],
    [b"gen", b"10001"], [b"gen", b"9" * 30], [b"load", b"-1"], [b"load", b"+1"], [b"load", b"1e3"], [b"load", b"1", b"1"],
    [b"x" * 100000], [b"-"] * 2000, [b"--help", b"replay"], [b"help"], [b"replay", b"--", b"x"]]


class Case:
    """A folder, and how the program is called there."""

    def __init__(self, folder, base):
        shutil.copytree(base, folder)
        self.folder, self.words, self.script = folder, [b"replay"], USUAL
        self.store = store_of(folder)
        self.stdin = self.stdout = self.room = self.holder = None

    def put(self, name, data):
        (self.folder / name).write_bytes(data)

    def change(self, name, change):
        self.put(name, change((self.folder / name).read_bytes()))

    def remove(self, name, folder_instead=False):
        (self.folder / name).unlink()
        if folder_instead:
            (self.folder / name).mkdir()

    def rows(self):
        return self.store.rows(self.folder)

    def change_rows(self, changes):
        """Changes the store, unless it is too broken for this change."""
        try:
            self.store.change(self.folder, changes)
        except (sqlite3.Error, OverflowError, Broken):
            pass

    def files(self):
        return {file.name: file.read_bytes() for file in self.folder.iterdir() if file.is_file()}


def limit_room(room):
    """No file gets longer than this: a write past it fails, as on a full disk."""
    signal.signal(signal.SIGXFSZ, signal.SIG_IGN)
    resource.setrlimit(resource.RLIMIT_FSIZE, (room, room))


def run(enqd, case, script):
    """The status (none where a minute wasn't enough), what was written, and standard error."""
    source = case.folder.with_suffix(".script")
    source.write_bytes(script)
    stdin = os.open(case.stdin or source, os.O_RDONLY)
    stdout = os.open(case.stdout, os.O_WRONLY) if case.stdout else subprocess.PIPE
    try:
        done = subprocess.run([os.fsencode(enqd)] + case.words, cwd=case.folder, stdin=stdin, stdout=stdout,
                              stderr=subprocess.PIPE, timeout=60, preexec_fn=case.room and (lambda: limit_room(case.room)))
        return done.returncode, done.stdout or b"", done.stderr
    except subprocess.TimeoutExpired:
        return None, b"", b""
    finally:
        source.unlink()
        os.close(stdin)
        if case.stdout:
            os.close(stdout)


# ---- cases of which the end is known


def hold(enqd, case):
    """Another program has the store open."""
    case.holder = subprocess.Popen([enqd, "replay"], cwd=case.folder, stdin=subprocess.PIPE, stdout=subprocess.PIPE)
    case.holder.stdin.write(b"A LOGON MILLER\n")
    case.holder.stdin.flush()
    case.holder.stdout.readline()


def make_backup_anew(case):
    """What docs/OPERATING.md says where the backup file is gone."""
    case.remove("ENQBCK")
    program = re.search(r"```python\n(.*?)```", (ROOT / "docs" / "OPERATING.md").read_text(), re.S)[1]
    subprocess.run([sys.executable, "-c", program], cwd=case.folder, check=True)
    (case.folder / "ENQBCK.new").rename(case.folder / "ENQBCK")


def last_start(case):
    case.change_rows({(0, b"S"): b"\xff" * 4 + case.rows()[0, b"S"][4:]})


def nul_store(case):
    """The write-ahead log goes too: with it the database has its pages back."""
    for log in case.folder.glob("enq.db-*"):
        log.unlink()
    case.put(case.store.name, bytes(8192))


def set_script(script):
    return lambda case: setattr(case, "script", script)


def set_rows(changes):
    return lambda case: case.change_rows(changes)


def known_cases(enqd, store):
    """What each shows, what is done to it, its status and its line."""
    own = known_journals() if store.name == Journal.name else known_databases(enqd)
    words = [(f"words {words!r:.40}", lambda case, words=words: setattr(case, "words", words), 2, "bad words") for words in WORDS]
    return known_files(store.name) + own + words


def known_files(store):
    length = len(LANDSCAPE) + 1
    return [
        ("nothing is damaged", lambda case: None, 0, ""),
        ("no landscape", lambda case: case.remove("landscape.toml"), 5, "cannot read"),
        ("a landscape that is a folder", lambda case: case.remove("landscape.toml", True), 5, "cannot read"),
        ("a landscape of 1 MiB", lambda case: case.put("landscape.toml", LANDSCAPE + b"#" * (2**20 - length) + b"\n"), 0, ""),
        ("a byte more", lambda case: case.put("landscape.toml", LANDSCAPE + b"#" * (2**20 - length) + b"#\n"), 3, "bad landscape, rule 1 at 0"),
        ("a NUL in a landscape", lambda case: case.change("landscape.toml", lambda old: b"\0" + old), 3, "bad landscape, rule 2 at 0"),
        ("another first number", lambda case: case.change("landscape.toml", lambda old: old.replace(b"from = 1\n", b"from = 2\n", 1)), 3, "bad landscape, rule 15 at 2"),
        ("a NUL in a script", set_script(b"A LOGON MILLER\n\0\n"), 4, "bad line 2"),
        ("a carriage return", set_script(b"A LOGON MILLER\r\n"), 4, "bad line 1"),
        ("a line of 1,024 bytes", set_script(b"#" * 1024 + b"\n"), 0, ""),
        ("a byte more", set_script(b"\n" + b"#" * 1025), 11, "line 2 is too long"),
        ("a line of 20 MB", set_script(b"A" * 20000000), 11, "line 1 is too long"),
        ("200,000 lines", set_script(b"\n" * 200000), 0, ""),
        ("a line more", set_script(b"\n" * 200001), 11, "too many lines"),
        ("a folder as standard input", lambda case: setattr(case, "stdin", case.folder), 5, "cannot read"),
        ("a full disk behind standard output", lambda case: setattr(case, "stdout", "/dev/full"), 6, "cannot write"),
        ("a store of NULs", nul_store, 7, "store fault in command 0"),
        ("a store that is a folder", lambda case: case.remove(store, True), 7, "store fault in command 0"),
        ("a store without its own row", set_rows({(0, b"S"): None}), 9, "bad store, table 0 row 1"),
        ("a business row that no part made", set_rows({(6, b"\1T2"): b"Y"}), 9, "bad store, table 6 row 2"),
        ("a row of a table that isn't read", set_rows({(8, b"K"): b"V"}), 0, ""),
        ("a store at its last start", last_start, 13, "no start number left"),
        ("an empty store", lambda case: case.put(store, b""), 0, ""),
        ("a backup file that is a folder", lambda case: case.remove("ENQBCK", True), 8, "backup fault in command 0"),
        ("a backup file of NULs", lambda case: case.put("ENQBCK", bytes(100)), 10, "bad backup at 0"),
        ("no backup file", lambda case: case.remove("ENQBCK"), 10, "backup lacks a lock of unit 1.1.6 at 1"),
        ("a backup file that ends early", lambda case: case.change("ENQBCK", lambda old: old[:-1]), 10, r"bad backup at \d+"),
        ("another lock", lambda case: case.change("ENQBCK", lambda old: old.replace(b"1008 ", b"1009 ")), 10, "backup lacks a lock of unit 1.1.6 at 2"),
        ("a backup file that was made anew", make_backup_anew, 0, ""),
    ]


def known_databases(enqd):
    other = "ALTER TABLE kept RENAME COLUMN value TO text"
    return [
        ("a table with other columns", lambda case: case.store.ask(case.folder, other), 7, "store fault in command 0"),
        ("a store that another program has open", lambda case: hold(enqd, case), 7, "store fault in command 0"),
    ]


def known_journals():
    """The last batch ends before the last byte of a journal, which is its closed gate."""
    put = b"\1\6" + long(b"K") + long(b"V")
    broken = [
        ("a journal that ends early", lambda old: old[:-1]),
        ("a journal of another version", lambda old: b"ENQWAL02" + old[8:]),
        ("a journal of 10 NULs", lambda old: bytes(10)),
        ("an open gate behind the last batch", lambda old: old[:-1] + b"\1"),
        ("an open gate with nothing whole behind it", lambda old: old[:-1] + b"\1" + old[9:40]),
    ] + [(name, lambda old, data=data: old[:-1] + b"\1" + long(data) + b"\0") for name, data in [
        ("a batch without changes", bytes(8)),
        ("a batch that counts a change more", counted(2) + put),
        ("a batch that counts a change less", counted(1) + put + put),
        ("a batch that counts all that can be", b"\xff" * 8 + put),
        ("a row that a batch changes twice", counted(2) + put + b"\2\6" + long(b"K")),
        ("a change of a third kind", counted(1) + b"\3" + put[1:]),
        ("a row without a key", counted(1) + b"\1\6" + long(b"") + long(b"V")),
        ("a key that is longer than its batch", counted(1) + b"\1\6" + counted(2**63) + b"K"),
    ]]
    good = [
        ("a journal of 9 bytes", lambda old: b"\1" * 9),
        ("a journal whose first gate is closed", lambda old: old[:8] + b"\0" + old[9:]),
        ("a closed gate of another byte", lambda old: old[:-1] + b"\xff"),
        ("bytes behind the closed gate", lambda old: old + old),
        ("a removal of a row that isn't there", lambda old: old[:-1] + b"\1" + long(counted(1) + b"\2\6" + long(b"K")) + b"\0"),
    ]
    return [(name, lambda case, change=change: case.change(Journal.name, change), status, line)
            for names, status, line in ((broken, 7, "store fault in command 0"), (good, 0, "")) for name, change in names]


def counted(count):
    return count.to_bytes(8, "big")


# ---- cases by lot


def damaged(data, chance):
    for _ in range(chance.choice([1, 1, 1, 2, 5])):
        at, some = chance.randrange(len(data) + 1), chance.choice([1, 2, 8, 100])
        before, piece, behind = data[:at], data[at:at + some], data[at + some:]
        data = chance.choice([
            lambda: before + bytes([piece[0] ^ 1 << chance.randrange(8)]) + piece[1:] + behind if piece else data,
            lambda: before + bytes(len(piece)) + behind,
            lambda: before + behind,
            lambda: before + piece * 2 + behind,
            lambda: before + chance.choice(TOKENS) + piece + behind,
            lambda: before,
        ])()
    return data


def damage_landscape(case, chance):
    case.change("landscape.toml", lambda old: damaged(old, chance))


def damage_script(case, chance):
    lines = (USUAL + FIRST).splitlines(keepends=True)
    chance.shuffle(lines)
    case.script = damaged(chance.choice([USUAL, USUAL + FIRST, b"".join(lines)]), chance)


def damage_store(case, chance):
    case.change(case.store.name, lambda old: damaged(old, chance))


def damage_log(case, chance):
    """The write-ahead log of a program that was killed."""
    case.change("enq.db-wal", lambda old: damaged(old, chance))


def leave_half_a_batch(case, chance):
    """What a stop may leave behind the closed gate of a journal."""
    case.change(case.store.name, lambda old: old + damaged(old[9:9 + chance.randint(1, 500)], chance))


def damage_rows(case, chance):
    rows = sorted(case.rows().items())
    for _ in range(chance.choice([1, 1, 2, 4])):
        (table, key), value = chance.choice(rows)
        case.change_rows(chance.choice([
            lambda: {(table, key): None},
            lambda: {spot: None for spot, _ in rows if spot[0] == table},
            lambda: {(table, key): damaged(value, chance)},
            lambda: {(table, key): chance.choice(rows)[1]},
            lambda: {(table, key): bytes(70000)},
            lambda: {(table, key): None, (table, damaged(key, chance)): value},
            lambda: {(table, key): None, (chance.randint(-1, 9), key): value},
            lambda: {(table, damaged(key, chance)): damaged(value, chance)},
        ])())


def damage_backup(case, chance):
    case.change("ENQBCK", lambda old: damaged(old, chance))


def leave_no_room(case, chance):
    longest = max(map(len, case.files().values()))
    case.room = chance.choice([chance.randint(1, 1000), chance.randint(1, longest), longest + chance.randint(1, 100000)])
    case.script = USUAL + FIRST


def damages(store):
    own = leave_half_a_batch if store.name == Journal.name else damage_log
    return ([damage_landscape] * 4 + [damage_script] * 5 + [damage_store] * 3 + [own] * 2 + [damage_rows] * 4 + [damage_backup] * 3
            + [leave_no_room] * 2)


# ---- what has to hold


def standing(files):
    """The files, without what counts as nothing: the bytes behind the closed gate of a journal."""
    try:
        journal = files[Journal.name]
        gate = read_journal(journal)[1]
    except (KeyError, Broken):
        return files
    return files | {Journal.name: journal[:gate + 1]} if gate else files


def wrong_files(status, line, before, now):
    """What changed of the files though it must not have: all of them where no store was opened; the backup file, and with it the
    store, where they were refused."""
    if status in (2, 3, 5) and "rule 15" not in line:
        return [name for name in before.keys() | now.keys() if before.get(name) != now.get(name)]
    refused = [Database.name, Journal.name, "ENQBCK"] if status in (9, 13) or line.endswith("store fault in command 0") else []
    backup = before.get("ENQBCK", b"")
    # One of version 1 becomes one of version 2 before it is compared with the store.
    is_read_alone = "bad backup" in line or backup[8:14] == b"\x01\x03\0\0\0\x22"
    if status == 3 or status == 10 and len(backup) > 9 and is_read_alone:
        refused = ["ENQBCK"]
    if "enq.db-wal" in before:
        refused = [name for name in refused if name != "enq.db"]  # to which an opening adds what stands in the log
    before, now = standing(before), standing(now)
    return [name for name in refused if before.get(name) != now.get(name)]


def has_locks(output):
    """Whether SM12 in line 1 shows just the locks of the units that wait by SM13 in line 2."""
    lines = [line.split() for line in output.decode().splitlines()]
    locks = collections.Counter(words[1][1:] for words in lines if words[0] == "1" and words[1][0] == "U")
    return locks == {words[1]: int(words[9]) for words in lines if words[0] == "2" and words[3:4] == ["OPEN"] and words[9] != "0"}


def problems(enqd, case):
    """What is wrong with the run of a case; its status and its line."""
    before = case.files()
    status, output, error = run(enqd, case, case.script)
    line, _, rest = error.decode("latin-1").partition("\n")
    wanted = ENDS.get(status)
    if wanted is None or not re.fullmatch(f"enqd: ({wanted})" if wanted else "", line) or rest and status != 2:
        return [f"status {status} and on standard error {error[:200]!r}"], status, line
    found = []
    if case.words == [b"replay"] and not re.fullmatch(rb"([1-9]\d* [ -~]+\n)*", output):
        found.append("it wrote something else than replies")
    if case.stdin is None:
        found += [f"{name} has changed" for name in wrong_files(status, line, before, case.files())]
    if status in (0, 4, 6, 11) or case.room:
        case.room = case.stdout = None
        again = run(enqd, case, b"? SM12\n? SM13\n")
        if again[0] != 0 or not has_locks(again[1]):
            found.append(f"the next start ends with status {again[0]}, {again[2][:200]!r}, and shows {again[1][:1000]!r}")
    elif status in (2, 3, 5, 9, 10, 13) or line.endswith("command 0"):
        again = run(enqd, case, case.script)
        if again[0] != status or again[2] != error:
            found.append(f"again it ends with status {again[0]}: {again[2][:200]!r}")
    if case.holder:
        case.holder.communicate()
        if case.holder.returncode != 0:
            found.append(f"the other program ends with status {case.holder.returncode}")
    return found, status, line


def make_bases(enqd, folder):
    """A folder of a run that ended, and one of a run that was killed."""
    base, killed = folder / "base", folder / "killed"
    base.mkdir()
    (base / "landscape.toml").write_bytes(LANDSCAPE)
    shutil.copytree(base, killed)
    subprocess.run([enqd, "replay"], cwd=base, input=FIRST, stdout=subprocess.DEVNULL, check=True)
    child = subprocess.Popen([enqd, "replay"], cwd=killed, stdin=subprocess.PIPE, stdout=subprocess.PIPE)
    child.stdin.write(FIRST)
    child.stdin.flush()
    for _ in FIRST.splitlines():
        child.stdout.readline()
    child.kill()
    child.wait()
    return base, killed


def main(enqd, cases, seed, folder):
    base, killed = make_bases(enqd, folder)
    statuses, wrong = {}, 0
    store = store_of(base)
    known = known_cases(enqd, store)
    for place in range(len(known) + cases):
        name, case = "", Case(folder / f"case{place}", base)
        if place < len(known):
            name, damage, wanted, wanted_line = known[place]
            damage(case)
        else:
            chance = random.Random(seed * 1000000 + place)
            damage = chance.choice(damages(store))
            name = damage.__name__
            if damage is damage_log:
                shutil.rmtree(case.folder)
                case = Case(case.folder, killed)
            damage(case, chance)
        found, status, line = problems(enqd, case)
        if place < len(known) and (status != wanted or not re.fullmatch(wanted_line, line.removeprefix("enqd: "))):
            found.append(f"status {status}, {line!r} in place of {wanted}, {wanted_line!r}")
        for text in found:
            print(f"case {place}, {name}: {text}", file=sys.stderr, flush=True)
        wrong += bool(found)
        statuses[status] = statuses.get(status, 0) + 1
        if not found:
            shutil.rmtree(case.folder)
    counts = ", ".join(f"{count} with status {status}" for status, count in sorted(statuses.items(), key=str))
    print(f"{len(known)} known damages and {cases} by lot, seed {seed}, by {os.path.basename(enqd)}: {counts}; {wrong} wrong")
    return wrong > 0


sys.exit(main(sys.argv[1], int(sys.argv[2]), int(sys.argv[3]), pathlib.Path(sys.argv[4])))
