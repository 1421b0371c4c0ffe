#!/usr/bin/env python3
"""Compares what the built program says of drawn files with tools/oracle.py and with SQLite's C library.

Each file is a bank of drawn branches, some with floors, some opened between records, with records that are posted and
refused, some with references and some that come again, and driven ones; beside its tables is one of somebody else. A
third are then set back to version 1 or 2 by SQL, and migrated, with the rows that they had. Half are changed by SQL, in
ways that are drawn too. To SQLite's library the file is sound, and the other table as it was. What `replay`, `digest`
and `audit` say has to be to the byte what the oracle says, as has the status. Where a file agrees its postings then get
drawn moments, and what `statement` and `statements` say of drawn days has to be what the oracle says.

    tools/drawn_files.py [FILES [SEED]]
"""
import datetime
import os
import random
import sqlite3
import sys
import tempfile

import oracle
from oracle import DAY
from serve_client import done, need_program, open_branches, run

# Changes by hand: a statement for keys and amounts that are drawn.
CHANGES = [
    "UPDATE account SET balance = balance + {amount} WHERE aid = {account}",
    "UPDATE teller SET balance = balance + {amount} WHERE tid = {teller}",
    "UPDATE teller SET balance = balance + iif(tid = {teller}, {amount}, -{amount}) WHERE tid IN ({teller}, {other})",
    "UPDATE branch SET balance = balance + {amount} WHERE bid = {branch}",
    "UPDATE branch SET accounts = accounts + 1 WHERE bid = {branch}",
    "UPDATE branch_floor SET lowest = min(lowest + {amount}, 0)",
    "DELETE FROM branch_floor WHERE bid = {branch}",
    "DELETE FROM account WHERE aid = {account}",
    "DELETE FROM teller WHERE tid = {teller}",
    "DELETE FROM branch WHERE bid = {branch}",
    "INSERT OR IGNORE INTO account VALUES ({account} + 1, 0)",
    "INSERT OR IGNORE INTO teller VALUES ({teller} + 10, {amount})",
    "INSERT OR IGNORE INTO branch VALUES ({branch} + 1, 1, 0)",
    "UPDATE meta SET decided = decided + 1",
    "UPDATE history SET moment = moment + 1 WHERE ordinal = {ordinal}",
    "UPDATE history SET aid = {account} WHERE ordinal = {ordinal}",
    "UPDATE history SET delta = delta + {amount} WHERE ordinal = {ordinal}",
    "UPDATE OR IGNORE history SET ordinal = {far} WHERE ordinal = {ordinal}",
    "UPDATE OR IGNORE request SET ordinal = {far} WHERE ordinal = {ordinal}; "
    "UPDATE OR IGNORE history SET ordinal = {far} WHERE ordinal = {ordinal}",
    "DELETE FROM history WHERE ordinal = {ordinal}",
    "DELETE FROM request WHERE ordinal = {ordinal}",
    "UPDATE request SET aid = {account} WHERE ordinal = {ordinal}",
    "UPDATE request SET balance = balance + {amount} WHERE ordinal = {ordinal}",
    "UPDATE request SET delta = delta + {amount} WHERE ordinal = {ordinal}",
    "UPDATE request SET outcome = {outcome} WHERE ordinal = {ordinal}",
    "UPDATE request SET number = number + 1000000 WHERE ordinal = {ordinal}",
    "UPDATE request_reference SET reference = 'CHANGED BY HAND     ' WHERE ordinal = {ordinal}",
    "DELETE FROM request_reference WHERE ordinal = {ordinal}",
    "INSERT OR IGNORE INTO request_reference VALUES ({ordinal} + 1, 'PUT IN BY HAND      ')",
]


def fail(file, what):
    sys.exit(f"drawn_files: {file}: {what}")


def draw_plan(draw):
    return {bid: (draw.randint(1, 5), draw.choice(["", "", 0, -draw.randint(1, 2000)]))
            for bid in draw.sample([1, 2, 3, 50, 9999], draw.randint(1, 4))}


def draw_record(draw, plan, sent):
    """A record of an open teller mostly, or one that was sent."""
    if sent and draw.random() < 0.1:
        return draw.choice(sent)
    bid = draw.choice(list(plan))
    home = draw.choice(list(plan)) if draw.random() < 0.2 else bid
    aid = 100_000 * (home - 1) + draw.randint(1, plan[home][0] + (draw.random() < 0.1))
    tid = 10 * (bid - 1) + draw.randint(1, 10)
    named = bid + (draw.random() < 0.05)
    delta = draw.choice([draw.randint(-3000, 3000), 0, 9_999_999_999, -9_999_999_999])
    reference = draw.choice([None, None, "RENT", "", 'RENT, "MAY"'])
    return oracle.record(aid, tid, named, draw.randint(1, 400), delta, reference)


def make(file, draw, seed):
    """A bank whose branches are opened in two parts, with records before and between."""
    plan = draw_plan(draw)
    first = dict(list(plan.items())[: draw.randint(0, len(plan))])
    done("init", file)
    by_sql(file, "CREATE TABLE note (id INTEGER PRIMARY KEY, title TEXT); INSERT INTO note VALUES (1, 'a user''s')")
    sent = []
    for part in (first, plan):
        open_branches(file, [(bid, *terms) for bid, terms in part.items()])
        records = [draw_record(draw, plan, sent) for _ in range(draw.choice([0, 1, 20, 64, 65, 200]))]
        sent += records
        done("post", file, data=b"".join(records))
    if draw.random() < 0.3:
        done("drive", file, "--seed", str(seed), "--count", str(draw.choice([1, 30, 64, 65, 500])))


def by_sql(file, text):
    conn = sqlite3.connect(file)
    conn.executescript(text)
    conn.commit()
    conn.close()


def is_sound(file):
    """SQLite's library finds nothing wrong with the file, and the table of somebody else as it was."""
    conn = sqlite3.connect(file)
    found = conn.execute("PRAGMA integrity_check").fetchall(), conn.execute("SELECT * FROM note").fetchall()
    conn.close()
    if found != ([("ok",)], [(1, "a user's")]):
        fail(file, found)


def migrated(file):
    """Sets a bank back to version 3, or to an earlier one that has all its rows, and carries it over."""
    wanted = oracle.tables_of(file) | {"closing": {}}
    version = 3 if wanted["request_reference"] else 2 if wanted["branch_floor"] else 1
    lacking = ("branch_floor", "request_reference", "closing")[version - 1:]
    drops = "".join(f"DROP TABLE {table}; " for table in lacking)
    by_sql(file, f"{drops}UPDATE meta SET version = {version}")
    if done("migrate", file) != f"migrated {version} to {oracle.VERSION}\n".encode():
        fail(file, "isn't migrated")
    if oracle.tables_of(file) != wanted:
        fail(file, "other rows behind a migration")


def change(file, draw):
    """Changes a bank by hand, in up to four ways."""
    tables = oracle.tables_of(file)
    keys = {"account": "account", "teller": "teller", "other": "teller", "branch": "branch", "ordinal": "request"}
    for _ in range(draw.randint(1, 4)):
        drawn = {name: draw.choice(list(tables[table]) or [1]) for name, table in keys.items()}
        drawn |= {"amount": draw.choice([1, -1, 100, -5000, 10**12, -(10**15)]), "outcome": draw.choice(oracle.KEPT),
                  "far": draw.randint(1, 10**12)}
        by_sql(file, draw.choice(CHANGES).format(**drawn))


def compare(file, words, lines, status):
    """The program prints these lines, a fault's on standard error."""
    text = "".join(line + "\n" for line in lines).encode()
    wanted = (b"", text, status) if status in (3, 4) else (text, b"", status)
    told = run(*words)
    if told != wanted:
        fail(file, f"{' '.join(words)}: {told}, not {wanted}")


def draw_word(draw, *words):
    return draw.choice(["", "", *words])


def state(file, draw):
    """Statements of accounts whose postings have drawn moments, and of all accounts, of drawn days in a drawn zone."""
    first, days = draw.randrange(2_000_000_000), draw.choice([1, 400])
    by_sql(file, f"UPDATE history SET moment = {first} + abs(random()) % {days * DAY}")
    tables = oracle.tables_of(file)
    moments = [row[4] for row in tables["history"].values()] or [0]
    for aid in draw.choices([*tables["account"], 99_999], k=4):
        days = [datetime.datetime.fromtimestamp(draw.choice(moments), datetime.timezone.utc).date() for _ in range(2)]
        first = draw_word(draw, str(days[0]), str(min(days)), "2027-02-29", "1969-12-31")
        last = draw_word(draw, str(days[1]), str(max(days)), "9999-12-31", "2026-1-01")
        zone = draw_word(draw, "+00:00", "+01:00", "-05:30", "+23:59", "-00:00", "+1:00")
        reference = draw_word(draw, "RENT", 'RENT, "MAY"', "NO SUCH", "A TEXT THAT IS TOO LONG")
        layout = draw_word(draw, "csv")
        options = (("from", first), ("to", last), ("zone", zone), ("reference", reference))
        words = [f"--{name}={word}" for name, word in options if word] + ["--csv"] * (layout == "csv")
        lines, status = oracle.statement(file, aid, first, last, zone, reference, layout)
        compare(file, ("statement", file, str(aid), *words), lines, status)
        lines, status = oracle.statement(file, None, first, last, zone, reference, layout)
        compare(file, ("statements", file, *words), lines, status)


def main():
    need_program()
    files = int(sys.argv[1]) if len(sys.argv) > 1 else 20
    first = int(sys.argv[2]) if len(sys.argv) > 2 else 0
    agree = consistent = 0
    with tempfile.TemporaryDirectory() as work:
        for seed in range(first, first + files):
            draw = random.Random(seed)
            file = os.path.join(work, f"{seed}.db")
            make(file, draw, seed)
            if seed % 3 == 2:
                migrated(file)
            is_sound(file)
            if seed % 2 == 1:
                change(file, draw)
            lines, status = oracle.audit(file)
            compare(file, ("audit", file), lines, status)
            consistent += status == 0
            lines, status = oracle.replay(file)
            compare(file, ("replay", file), lines, status)
            if status == 0:
                agree += 1
                requests = list(oracle.requests_of(oracle.tables_of(file)))
                some = draw.randint(0, len(requests))
                compare(file, ("digest", file, str(some)), oracle.digest_lines(requests[:some]), 0)
                compare(file, ("digest", file, str(len(requests) + 1)), [f"bank: no request {len(requests) + 1}"], 4)
                state(file, draw)
    print(f"drawn_files: {files} files, of which {agree} agree and {consistent} are consistent: each replay and each "
          "audit is that of tools/oracle.py")


main()
