"""The stores of enqd and of enqd_wal, read and written as docs/FORMATS.md says, without the programs. Rows are a dictionary from
table and key to the value; changes are one too, with None where a row goes."""
import sqlite3

KEPT = """CREATE TABLE IF NOT EXISTS kept (
    number INTEGER NOT NULL,
    key BLOB NOT NULL,
    value BLOB NOT NULL,
    PRIMARY KEY (number, key)
) STRICT"""


class Broken(Exception):
    """A journal that stands for nothing; the offset is its argument."""


class Database:
    """The store of enqd."""

    name = "enq.db"

    def rows(self, folder):
        if not (folder / self.name).exists():
            return {}
        found = self.ask(folder, "SELECT number, key, value FROM kept")
        return {(table, key): value for table, key, value in found}

    def change(self, folder, changes):
        self.ask(folder, KEPT)
        for (table, key), value in changes.items():
            self.ask(folder, "DELETE FROM kept WHERE number = ? AND key = ?", table, key)
            if value is not None:
                self.ask(folder, "INSERT INTO kept VALUES (?, ?, ?)", table, key, value)

    def ask(self, folder, statement, *values):
        connection = sqlite3.connect(folder / self.name)
        try:
            with connection:
                return connection.execute(statement, values).fetchall()
        finally:
            connection.close()


class Journal:
    """The store of enqd_wal."""

    name = "enq.wal"

    def rows(self, folder):
        file = folder / self.name
        return read_journal(file.read_bytes())[0] if file.exists() else {}

    def change(self, folder, changes):
        """Adds them as a batch."""
        file = folder / self.name
        data = file.read_bytes() if file.exists() else b""
        gate = read_journal(data)[1]
        front = data[:gate] if gate else b"ENQWAL01"
        file.write_bytes(front + b"\x01" + batch(changes) + b"\x00")


def store_of(folder):
    """The store that a program has made in a folder."""
    return Journal() if (folder / Journal.name).exists() else Database()


# ---- the journal


class Part:
    """Bytes from one offset to another, which are taken from the front."""

    def __init__(self, data, at, end):
        self.data, self.at, self.end = data, at, end

    def take(self, count):
        if count > self.end - self.at:
            raise ValueError
        self.at += count
        return self.data[self.at - count:self.at]

    def number(self, width=8):
        return int.from_bytes(self.take(width), "big")

    def long(self):
        return self.take(self.number())


def read_journal(data):
    """The rows that a journal stands for, and the offset of its closed gate, 0 where it is begun anew."""
    rows, at = {}, 8
    if len(data) <= 9:
        return rows, 0
    if data[:8] != b"ENQWAL01":
        raise Broken(0)
    while at < len(data) and data[at] == 1:
        try:
            behind = Part(data, at + 1, len(data))
            changes = read_batch(behind.long())
        except ValueError:
            raise Broken(at) from None
        for spot, value in changes.items():
            rows.pop(spot, None)
            if value is not None:
                rows[spot] = value
        at = behind.at
    if at == len(data):
        raise Broken(at)
    return rows, at


def read_batch(data):
    part, changes = Part(data, 0, len(data)), {}
    count = part.number()
    for _ in range(count):
        kind, table = part.number(1), part.number(1)
        spot = table, part.long()
        if kind not in (1, 2) or not spot[1] or spot in changes:
            raise ValueError
        changes[spot] = part.long() if kind == 1 else None
    if not changes or part.at < part.end:
        raise ValueError
    return changes


def batch(changes):
    """A batch with its length before it."""
    texts = [bytes([2, table % 256]) + long(key) if value is None else bytes([1, table % 256]) + long(key) + long(value)
             for (table, key), value in changes.items()]
    return long(len(texts).to_bytes(8, "big") + b"".join(texts))


def long(data):
    return len(data).to_bytes(8, "big") + data
