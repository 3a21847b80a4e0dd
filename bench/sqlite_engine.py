#!/usr/bin/env python3
"""The program as an SQLite engine: the state in tables, the chain check as a recursive query.

Reads document 01's command lines and allowset from standard input, with last=0 for loans, and writes the program's
output. Lists and rows are answered from the same table of grants. Every loan is taken as open-ended. Of several best
chains it need not give one with the fewest persons: it is held to the depth, and to a chain that has it.
"""

import re
import sqlite3
import sys

SCHEMA = """
CREATE TABLE live (item INTEGER PRIMARY KEY);
CREATE TABLE grants (item INT, right INT, person INT, depth INT,
                     PRIMARY KEY (item, right, person, depth)) WITHOUT ROWID;
CREATE TABLE loans (item INT, right INT, lender INT, borrower INT, depth INT,
                    PRIMARY KEY (item, right, lender, borrower, depth)) WITHOUT ROWID;
CREATE INDEX grants_by_person ON grants (person);
CREATE INDEX loans_by_lender ON loans (lender);
CREATE INDEX loans_by_borrower ON loans (borrower, item, right);
INSERT INTO live VALUES (0);
INSERT INTO grants VALUES (0, 0, 0, 0);
BEGIN;
"""

# For each person the greatest allowance that a chain ends with.
BEST = """
WITH RECURSIVE reach (person, allowance) AS (
    SELECT person, max(depth) FROM grants WHERE item = :on AND right = :right GROUP BY person
    UNION
    SELECT borrower, min(allowance - 1, depth)
    FROM reach JOIN loans ON lender = person AND item = :on AND right = :right
    WHERE allowance >= 1
)
SELECT person, max(allowance) FROM reach GROUP BY person
"""
GRANTED = "SELECT max(depth) FROM grants WHERE item = ? AND right = ? AND person = ?"
LENT = "SELECT lender, depth FROM loans WHERE item = ? AND right = ? AND borrower = ?"

FIELDS = {
    "create": ("by", "on"),
    "delete": ("by", "on"),
    "allow": ("by", "to", "on", "right", "depth"),
    "allowset": ("by", "set", "on", "right", "depth"),
    "withdraw": ("by", "to", "on", "right"),
    "lend": ("by", "to", "on", "right", "depth", "last"),
    "recall": ("by", "to", "on", "right", "depth", "last"),
    "check": ("who", "on", "right"),
}
LIMITS = {"by": 63, "to": 63, "on": 63, "who": 63, "right": 7, "depth": 7, "last": 255}
NUMBER = "0|[1-9][0-9]{0,9}"
SET = "[0-9a-f]{16}"
LOANS_MAX = 1024
THESE_GRANTS = "FROM grants WHERE item = :on AND right = :right AND person = :to"
THIS_LOAN = "item = :on AND right = :right AND lender = :by AND borrower = :to AND depth = :depth"

# What an accepted command does.
CHANGES = {
    "create": (
        "INSERT INTO live VALUES (:on)",
        "INSERT INTO grants VALUES (:on, 0, :by, 0)",
    ),
    "delete": (
        "DELETE FROM live WHERE item = :on",
        "DELETE FROM grants WHERE item = :on OR person = :on",
        "DELETE FROM loans WHERE item = :on OR lender = :on OR borrower = :on",
    ),
    "allow": ("INSERT OR IGNORE INTO grants VALUES (:on, :right, :to, :depth)",),
    "allowset": ("INSERT OR IGNORE INTO grants SELECT :on, :right, item, :depth FROM live WHERE :set >> item & 1",),
    "withdraw": (
        f"DELETE FROM loans WHERE item = :on AND right = :right AND lender = :to AND EXISTS (SELECT 1 {THESE_GRANTS})",
        f"DELETE {THESE_GRANTS}",
    ),
    "lend": ("INSERT OR IGNORE INTO loans VALUES (:on, :right, :by, :to, :depth)",),
    "recall": (f"DELETE FROM loans WHERE {THIS_LOAN}",),
}


def pattern(word, fields):
    values = "".join(f" {field}=(?P<{field}>{SET if field == 'set' else NUMBER})" for field in fields)
    return re.compile(f"do={word}{values}\n")


PATTERNS = {word: pattern(word, fields) for word, fields in FIELDS.items()}


def parse(line):
    """The word and the numbers of a line, or None for a malformed one."""
    word = line[3:].partition(" ")[0]
    match = PATTERNS[word].fullmatch(line) if word in PATTERNS else None
    if match is None:
        return None
    numbers = {field: value_of(field, text) for field, text in match.groupdict().items()}
    fits = all(value <= 4294967295 for field, value in numbers.items() if field != "set")
    return (word, numbers) if fits else None


def value_of(field, text):
    # A set is signed, as SQLite takes numbers of 64 bits; bit i is for item i all the same.
    return int.from_bytes(bytes.fromhex(text), "big", signed=True) if field == "set" else int(text)


def beyond(n):
    return any(value > LIMITS[field] for field, value in n.items() if field in LIMITS)


class Engine:
    def __init__(self):
        self.db = sqlite3.connect(":memory:", isolation_level=None)
        self.db.executescript(SCHEMA)

    def any(self, query, numbers):
        return self.db.execute(query, numbers).fetchone() is not None

    def lives(self, item):
        return self.any("SELECT 1 FROM live WHERE item = ?", (item,))

    def named_live(self, n):
        """Whether on, to and every member of the set live."""
        if not self.lives(n["on"]) or not self.lives(n.get("to", n["on"])):
            return False
        if "set" not in n:
            return True
        members = bin(n["set"] & 2**64 - 1).count("1")
        return members == self.db.execute("SELECT count(*) FROM live WHERE :set >> item & 1", n).fetchone()[0]

    def edits(self, n):
        return self.any("SELECT 1 FROM grants WHERE item = :on AND right = 0 AND person = :by LIMIT 1", n)

    def full(self, n):
        if self.db.execute("SELECT count(*) FROM loans").fetchone()[0] < LOANS_MAX:
            return False
        return not self.any(f"SELECT 1 FROM loans WHERE {THIS_LOAN}", n)

    def refusal(self, word, n):
        """The first number of the table that applies, 0 where none does."""
        if beyond(n):
            return 3
        if n.get("set") == 0:
            return 14
        if not self.lives(n["by"]):
            return 4
        if word == "create":
            return 6 if self.lives(n["on"]) else 0
        if not self.named_live(n):
            return 5
        if word == "delete" and n["on"] == 0:
            return 7
        if word in ("delete", "allow", "allowset", "withdraw"):
            return 0 if self.edits(n) else 8
        if word == "lend":
            return 9 if n["right"] == 0 else 10 if self.full(n) else 0
        return 0

    def change(self, word, n):
        for statement in CHANGES[word]:
            self.db.execute(statement, n)

    def lender(self, n, best, person):
        """The lender of the last loan of a best chain to the person, or None where a grant is all of it."""
        key = (n["on"], n["right"], person)
        if self.db.execute(GRANTED, key).fetchone()[0] == best[person]:
            return None
        for lender, depth in self.db.execute(LENT, key):
            if min(best.get(lender, 0) - 1, depth) == best[person]:
                return lender

    def chain(self, n):
        """The greatest allowance of any chain to the person and the persons of one, or None."""
        best = dict(self.db.execute(BEST, n))
        person = n["who"]
        if person not in best:
            return None
        persons = []
        while person is not None:
            persons.append(person)
            person = self.lender(n, best, person)
        return best[n["who"]], reversed(persons)

    def check(self, n):
        if beyond(n):
            return "list=3 row=3 chain=3 depth=- via=-"
        granted = self.any("SELECT 1 FROM grants WHERE item = :on AND right = :right AND person = :who LIMIT 1", n)
        flat = "yes" if granted else "no"
        found = self.chain(n)
        if found is None:
            return f"list={flat} row={flat} chain=no depth=- via=-"
        return f"list={flat} row={flat} chain=yes depth={found[0]} via={','.join(map(str, found[1]))}"

    def answer(self, line):
        parsed = parse(line)
        if parsed is None:
            return "list=11 row=11 chain=11"
        word, n = parsed
        if word == "check":
            return self.check(n)
        number = self.refusal(word, n)
        if number == 0:
            self.change(word, n)
        flat = "-" if word in ("lend", "recall") else number
        return f"list={flat} row={flat} chain={number}"


def main():
    engine = Engine()
    count = 0
    source = open(sys.stdin.fileno(), encoding="latin-1", newline="\n", closefd=False)
    for count, line in enumerate(source, 1):
        sys.stdout.write(f"line={count} {engine.answer(line)}\n")
    sys.stdout.write(f"lines={count}\n")


main()
