#!/usr/bin/env python3
"""What the scenarios of `bank_trials` have to answer to each step `replay`, made by the rules of tools/oracle.py.

It shares no code with the bank: a bank is tables of SQLite's C library. It plays those scenarios of `stdin` that have
such a step, up to the last one, and prints what `stdout` has to have there, and at each step `open`, `post`, `batch`,
`balance` and `number`. With --check it ends with status 1 unless `stdout` has it. That a call meets a fault, and which, is
taken from `stdout`. Mixed records are drawn as in `bank_scenarios/src/draws`; those of the driver are made by
tools/driver_vectors.py.
    tools/replay_vectors.py [--check]
"""
import re
import sqlite3
import sys
from pathlib import Path

import driver_vectors
import oracle

TRIALS = Path(__file__).resolve().parent.parent / "crates" / "bank_trials"
CALLS, RUNS = ("open", "post", "batch", "balance"), ("mixed", "steady", "drive")
FAULT = re.compile(r"store fault|down|damaged rule \d|table \w+ is defined otherwise")


def record_of(text):
    """The record of a step's item: its bytes, or five numbers and a reference."""
    if text.startswith("DC"):
        return text.ljust(100).encode()
    numbers, _, reference = text.partition(" for ")
    return oracle.record(*map(int, numbers.split()), reference or None)


class Draws:
    """Numbers of a seed: a word that is shifted."""

    def __init__(self, seed):
        self.word = seed * 0x9E3779B97F4A7C15 % 2**64

    def below(self, bound):
        for shift in (13, -7, 17):
            self.word ^= self.word << shift if shift > 0 else self.word >> -shift
            self.word %= 2**64
        return (self.word >> 20) % bound

    def branch(self):
        return {6: (1, 2), 7: (9998, 1000)}.get(self.below(8), (0, 3))

    def amount(self):
        kind = self.below(10)
        if kind == 0:
            return 0
        if kind in (1, 2):
            return self.below(2_000_000) - 1_000_000
        return self.below(1000) - 9_999_999_999 if kind == 3 else 9_999_999_999 - self.below(1000)

    def request(self, number):
        before, home = self.branch()
        other, count = self.branch() if self.below(7) == 0 else (before, home)
        bid = before + (2 if self.below(20) == 0 else 1)
        opened = 2 if self.below(20) == 0 else before
        tid = 10 * opened + 1 + self.below(10)
        place = count if self.below(20) == 0 else self.below(count)
        aid = 100_000 * other + 1 + place
        reference = chr(ord("A") + number % 20) * 20 if number % 3 == 0 else None
        return oracle.record(aid, tid, bid, number, self.amount(), reference)

    def again(self, sent):
        place = self.below(max(len(sent), 1))
        if not sent:
            return None
        record = bytearray(sent[place])
        way = self.below(4)
        if way == 0:
            record[50] = ord("0") + self.below(10)
        elif way == 1:
            byte = self.below(256)
            record[self.below(100)] = byte
        elif way == 2 and record[3:4] == b"2":
            record[51] = ord("Z")
        return bytes(record)

    def group(self, count, sent):
        """Puts so many records behind those that were sent."""
        for _ in range(count):
            fresh = self.request(len(sent) + 1)
            sent.append(self.again(sent) or fresh if self.below(4) == 0 else fresh)


def book_of(conn):
    """The book that the rows of a file's tables are, whatever led to them."""
    book, tables = oracle.Book(), oracle.tables_of(conn)
    book.rows, book.decided = tables, tables["meta"][1][1]
    book.kept = {row[:2]: ordinal for ordinal, row in tables["request"].items()}
    return book


class Bank:
    """A bank of a scenario: what it was given, and its tables under SQL, in which a step may have changed rows."""

    def __init__(self):
        self.book, self.conn, self.is_changed = oracle.Book(), None, False

    def read(self):
        """The book, with what SQL made of its rows."""
        if self.is_changed:
            self.book, self.is_changed = book_of(self.conn), False
        return self.book

    def post(self, moment, item):
        """What is told of the reply to an item: its text, or the outcome and the balance of a posting."""
        reply = self.read().answer(moment, record_of(item)).decode()
        if item.startswith("DC"):
            return reply.rstrip(" ")
        outcome = int(reply[4:6])
        return oracle.NAMES[outcome] + (f" {int(reply[53:66])}" if outcome == oracle.POSTED else "")

    def open(self, item):
        bid, count, floor = re.fullmatch(r"(\d+) with (\d+)(?: down to (\S+))?", item).groups()
        bid, terms = int(bid), (int(count), int(floor) if floor else None)
        book = self.read()
        if bid not in book.rows["branch"]:
            book.open(bid, *terms)
            return "opened"
        floor, = book.rows["branch_floor"].get(bid, (None,))
        return "already" if terms == (book.rows["branch"][bid][0], floor) else "differs"

    def balance(self, item):
        balance, = self.read().rows["account"].get(int(item), ("not open",))
        return str(balance)

    def mixed(self, seed, way):
        draws, sent = Draws(seed), []
        for group in range(20):
            before = len(sent)
            draws.group(draws.below(64) + 1 if "beside" in way else 25, sent)
            for record in sent[before:]:
                self.read().answer(group, record)

    def drive(self, seed, count, group=None):
        plan = [(bid, row[0]) for bid, row in self.read().rows["branch"].items()]
        for place, request in zip(range(count if plan else 0), driver_vectors.requests(seed, plan)):
            self.book.answer(place // group if group else 0, oracle.record(*request))

    def tables(self):
        """Its tables under SQL."""
        if self.is_changed:
            return self.conn
        if self.conn is None:
            self.conn = sqlite3.connect(":memory:")
            self.conn.executescript(oracle.SCHEMA)
        for table, rows in self.book.tables().items():
            columns = oracle.TABLES[table][2:]
            text = f"INSERT INTO {table} ({', '.join(columns)}) VALUES ({', '.join('?' * len(columns))})"
            self.conn.execute(f"DELETE FROM {table}")
            self.conn.executemany(text, [(key, *row) for key, row in rows.items()])
        return self.conn

    def replay(self):
        """The answer to the step: requests, digest and the plan's, or the first difference, or the fault."""
        lines, status = oracle.replay(self.tables())
        if status == 0:
            requests, digest, plan = (line.split()[-1] for line in lines[:3])
            return f"agrees: requests {requests} digest {digest} plan {plan}"
        return lines[0].removeprefix("bank: ")

    def call(self, word, rest, told):
        """What is answered to each thing that a call names. A fault is taken as told: it has changed nothing."""
        if word == "batch" and FAULT.fullmatch(told):
            return told
        moment, _, items = rest.partition(" ") if word in ("post", "batch") else ("", "", rest)
        ask = {"open": self.open, "balance": self.balance}.get(word, lambda item: self.post(int(moment), item))
        items = items.split(", ")
        answers = told.split(", ") + [""] * len(items)
        return ", ".join(said if FAULT.fullmatch(said) else ask(item) for item, said in zip(items, answers))

    def step(self, word, rest):
        if word == "mixed":
            seed, _, way = rest.partition(" ")
            self.mixed(int(seed), way)
        elif word == "steady":
            self.drive(int(rest.partition(" ")[0]), 500, group=25)
        elif word == "drive":
            seed, _, counts = rest.partition(" ")
            for count in counts.split(", "):
                self.drive(int(seed), int(count))
        elif word == "sql":
            self.tables().executescript(rest)
            self.is_changed = True
        elif word == "number":
            return str(self.tables().execute(rest).fetchone()[0])
        elif word == "replay":
            return self.replay()
        return None


def scenarios(name):
    """The heads of the scenarios and their lines that count."""
    text = (TRIALS / name).read_bytes().decode("latin-1").split("\nruns\n")[0] + "\n"
    for part in re.split(r"(?m)^bank in ", text)[1:]:
        head, *lines = part.split("\n")
        yield head, [line for line in lines if line and not line.startswith("#")]


def answers_of(head, steps, told):
    """What stands for each step, none where nothing has to."""
    stored, plain = Bank(), Bank() if head.startswith("both") else None
    for step, line in zip(steps, told):
        word, _, rest = step.removeprefix("then ").partition(" ")
        if word not in CALLS:
            if plain and word in RUNS:
                plain.step(word, rest)
            yield stored.step(word, rest)
            continue
        said = stored.call(word, rest, line.partition("; in tables: ")[2] if plain else line)
        if plain:
            by_rules = plain.call(word, rest, "")
            said = f"both: {said}" if said == by_rules else f"in memory: {by_rules}; in tables: {said}"
        yield said


def main():
    told = {head: lines for head, lines in scenarios("stdout")}
    wrong = 0
    for head, steps in scenarios("stdin"):
        last = max((place for place, step in enumerate(steps) if step == "replay"), default=-1)
        lines = told.get(head, []) + [""] * len(steps)
        for place, said in enumerate(answers_of(head, steps[: last + 1], lines)):
            if said is None:
                continue
            if "--check" not in sys.argv:
                print(f"{head}: {place + 1}: {said}")
            elif lines[place] != said:
                print(f"replay_vectors: {head}: step {place + 1}: {said}")
                wrong += 1
    sys.exit(wrong > 0)


if __name__ == "__main__":
    main()
