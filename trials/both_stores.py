#!/usr/bin/env python3
"""Plays cases of crates/script_rows through enqd and through enqd_wal, over real files, each program in a folder of its own.

both_stores.py [ENQD [ENQD_WAL]]: the programs, crates/enqd/out/enqd and crates/enqd_wal/out/enqd_wal where they aren't given. It
does what the head of crates/script_rows/src/main.rt says of a case, and what is shown has to be what crates/script_rows/stdout has.
Behind each start the two stores have to hold the same rows, and the two backup files the same bytes. Left out are cases in
which a call of a device is to fail, but for the landscape, whose file is taken away there. It ends with status 1 where something
differs."""
import itertools
import pathlib
import re
import subprocess
import sys
import tempfile

from stores import Database, Journal

ROOT = pathlib.Path(__file__).resolve().parent.parent
CASES = ROOT / "crates" / "script_rows"

# Lines that plan what no file does, and the one case of words that the programs answer by themselves.
PLANNED = re.compile(r"(?:script|sink|store|backup|link) (?:fails|stops) at |link hands over |crash |words --help$", re.M)


# ---- texts


def decoded(text, number=None):
    """What a text stands for."""

    def piece(found):
        name = found[1]
        if name[0] == "{":
            times, repeated = name[1:-1].split("*")
            return repeated.encode() * int(times)
        if name == "#":
            return str(number).encode()
        return {"0": b"\0", "n": b"\n", "\\": b"\\"}.get(name) or bytes.fromhex(name[1:])

    parts, at = [], 0
    for found in re.finditer(r"\\(0|n|\\|x[0-9a-f]{2}|#|\{[^}]*\})", text):
        parts += [text[at:found.start()].encode(), piece(found)]
        at = found.end()
    return b"".join(parts) + text[at:].encode()


def script_lines(line, number):
    """A line of a script, or the lines that it stands for."""
    times, span = re.match(r"(\d+) times: (.*)", line), re.match(r"(\d+) to (\d+): (.*)", line)
    if times:
        return decoded(times[2] + "\\n", number) * int(times[1])
    if span:
        return b"".join(decoded(span[3] + "\\n", each) for each in range(int(span[1]), int(span[2]) + 1))
    if re.search(r"(?<!\\)(\\\\)*\\$", line):
        return decoded(line[:-1], number)
    return decoded(line + "\\n", number)


def shown(data, hidden=b""):
    """Bytes as they stand in cases; those that are hidden by their numbers."""

    def one(byte):
        if byte in hidden or not 0 < byte < 128 or not chr(byte).isprintable():
            return f"\\x{byte:02x}" if byte else "\\0"
        return "\\\\" if byte == ord("\\") else chr(byte)

    return "".join(map(one, data))


# ---- cases


def read_documents(text):
    documents = {}
    for name, body in re.findall(r"^document (\S+)\n(.*?)^end$", text, re.S | re.M):
        documents[name] = b"".join(script_lines(line, None) for line in body[:-1].split("\n"))
    return documents


def read_cases():
    """Of each case its headline, its lines, and the number that it is played for, as often as it is played."""
    head, *parts = (CASES / "stdin").read_text().split("\n== ")
    for part in parts:
        headline, _, body = part.partition("\n")
        span = re.match(r"for (\d+) to (\d+)\n", body)
        if span:
            yield f"== {headline}", "", None
            for number in range(int(span[1]), int(span[2]) + 1):
                yield f"for {number}", body[span.end():], number
        else:
            yield f"== {headline}", body, None


def read_answers():
    """Of each case its headline, and what it has to show."""
    text = (CASES / "stdout").read_text()
    return re.findall(r"^((?:== |for \d+$).*)\n((?:(?!== |for \d+$).*\n)*)", text, re.M)


# ---- a program in a folder of its own


class Site:
    def __init__(self, program, store, folder):
        self.program, self.store, self.folder = program, store, folder
        folder.mkdir()

    def backup(self):
        file = self.folder / "ENQBCK"
        return file.read_bytes() if file.exists() else b""

    def fill_backup(self, data):
        (self.folder / "ENQBCK").write_bytes(data)

    def start(self, words, landscape, script):
        """Starts the program. Tells its replies, and how it ended."""
        file = self.folder / "landscape.toml"
        file.unlink(missing_ok=True)
        if landscape is not None:
            file.write_bytes(landscape)
        done = subprocess.run([self.program] + words, cwd=self.folder, input=script, capture_output=True)
        end = f"status {done.returncode} " + done.stderr.decode().partition("\n")[0]
        return done.stdout.decode("latin-1"), end.rstrip() + "\n"

    def show_rows(self, tables):
        lines = [f"row {table} {shown(key, b' ')} {shown(value)}\n"
                 for (table, key), value in sorted(self.store.rows(self.folder).items()) if table in tables]
        return "".join(lines) or "no rows\n"


class Play:
    """A case on one site."""

    def __init__(self, site, documents, number):
        self.site, self.documents, self.number = site, documents, number
        self.landscape = next(iter(documents.values()))
        self.begin()

    def begin(self):
        """What a start is given where nothing else is said."""
        self.words, self.last, self.is_missing = [b"replay"], None, False

    def run(self, body):
        """What is shown, step by step."""
        lines = iter(body.split("\n"))
        for line in lines:
            if line and not line.startswith("#"):
                verb, _, rest = line.partition(" ")
                yield getattr(self, "do_" + verb)(rest, lines) or ""

    def text(self, lines):
        return b"".join(script_lines(line, self.number) for line in itertools.takewhile(lambda line: line != "end", lines))

    def do_landscape(self, rest, lines):
        if rest.startswith("fails at "):
            self.is_missing = True
        else:
            self.landscape = self.documents[rest] if rest else self.text(lines)

    def do_change(self, rest, _lines):
        old, new = (decoded(part, self.number) for part in rest.split(" => "))
        assert self.landscape.count(old) == 1
        self.landscape = self.landscape.replace(old, new)

    def do_words(self, rest, _lines):
        self.words = [b"" if word == '""' else decoded(word, self.number) for word in rest.split(" ")] if rest else []

    def do_last(self, rest, _lines):
        self.last = int(rest)

    def do_row(self, rest, _lines):
        table, key, value = rest.split(" ", 2)
        self.site.store.change(self.site.folder, {(int(table), decoded(key, self.number)): decoded(value, self.number)})

    def do_rows(self, rest, _lines):
        return self.site.show_rows([int(rest)] if rest else range(256))

    def do_backup(self, rest, _lines):
        if not rest:
            return f"backup {shown(self.site.backup())}\n"
        self.site.fill_backup(decoded(rest, self.number))

    def do_cut(self, rest, _lines):
        self.site.fill_backup(self.site.backup()[:int(decoded(rest, self.number))])

    def do_byte(self, rest, _lines):
        place, byte = rest.split(" ")
        place, file = int(decoded(place, self.number)), self.site.backup()
        self.site.fill_backup(file[:place] + decoded(byte) + file[place + 1:])

    def do_start(self, rest, lines):
        head = f"start {rest}\n" if rest else ""
        replies, end = self.site.start(self.words, None if self.is_missing else self.landscape, self.text(lines))
        skipped = max(0, replies.count("\n") - self.last) if self.last is not None else 0
        head += f"({skipped} lines)\n" if skipped else ""
        tail = "\\\n" if replies and replies[-1] != "\n" else ""
        self.begin()
        return head + "".join(replies.splitlines(keepends=True)[skipped:]) + tail + end


def differences(sites, documents, body, number, wanted):
    """What is wrong with a case that is played on both sites."""
    found = ["", ""]
    plays = [Play(site, documents, number).run(body) for site in sites]
    for steps, texts in enumerate(zip(*plays), 1):
        found = [before + text for before, text in zip(found, texts)]
        rows = [site.store.rows(site.folder) for site in sites]
        if rows[0] != rows[1]:
            yield f"step {steps} leaves other rows: {sorted(rows[0].items() ^ rows[1].items())[:2]}"
        if sites[0].backup() != sites[1].backup():
            yield f"step {steps} leaves another backup file"
    for site, text in zip(sites, found):
        if text != wanted:
            lines = itertools.zip_longest(text.splitlines(), wanted.splitlines())
            yield f"{site.store.name}: {next((pair for pair in lines if pair[0] != pair[1]), 'a line end')}"


def main():
    programs = [ROOT / "crates" / name / "out" / name for name in ("enqd", "enqd_wal")]
    programs[:len(sys.argv) - 1] = [pathlib.Path(program).resolve() for program in sys.argv[1:]]
    documents = read_documents((CASES / "stdin").read_text().partition("\n== ")[0])
    played = left_out = wrong = 0
    for (headline, body, number), (same, wanted) in zip(read_cases(), read_answers(), strict=True):
        assert headline == same
        if not body or PLANNED.search(body):
            left_out += bool(body)
            continue
        with tempfile.TemporaryDirectory() as folder:
            sites = [Site(program, store, pathlib.Path(folder, store.name))
                     for program, store in zip(programs, (Database(), Journal()))]
            found = list(differences(sites, documents, body, number, wanted))
        played, wrong = played + 1, wrong + bool(found)
        for text in found:
            print(f"{headline}: {text}", file=sys.stderr, flush=True)
    print(f"{played} cases of script_rows by both programs side by side, {left_out} left out: {wrong} wrong")
    return wrong > 0


sys.exit(main())
