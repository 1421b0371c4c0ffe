#!/usr/bin/env python3
"""The rules of the bank once more, for all scripts that reckon by themselves: records and replies, judging, the tables, what
a replay and a digest print, an audit by SQL, and statements.

It shares no code with the bank, and reads files by the C library of SQLite. The rules are those of docs/USING.md. Of a
bank that runs, copy both files and ask the copy.

    tools/oracle.py FILE        prints what `bank replay FILE` prints, and ends with its status
    tools/oracle.py FILE N      prints what `bank digest FILE N` prints
"""
import csv
import datetime
import hashlib
import io
import re
import sqlite3
import sys

VERSION = 4
LIMIT = 999_999_999_999
# The keys of a teller's numbers in the table `closing` are this many times the teller, and the number.
PER_TELLER = 10**10
POSTED, NO_TELLER, WRONG_BRANCH, NO_ACCOUNT, OVER_LIMIT, REUSED_NUMBER, BELOW_FLOOR, MALFORMED = 0, 11, 12, 13, 14, 15, 17, 90
CLOSED, SEALED = 18, 19
NAMES = {POSTED: "POSTED", NO_TELLER: "NO TELLER", WRONG_BRANCH: "WRONG BRANCH", NO_ACCOUNT: "NO ACCOUNT",
         OVER_LIMIT: "OVER LIMIT", REUSED_NUMBER: "REUSED NUMBER", BELOW_FLOOR: "BELOW FLOOR", MALFORMED: "MALFORMED",
         CLOSED: "CLOSED", SEALED: "SEALED"}
KEPT = (POSTED, WRONG_BRANCH, NO_ACCOUNT, OVER_LIMIT, BELOW_FLOOR)

# Each table in the order in which they are compared: the word for its rows, its greatest key, and its columns, as a
# file has them.
TABLES = {
    "meta": ("meta", 1, "id", "version", "decided"),
    "branch": ("branch", 9_999, "bid", "accounts", "balance"),
    "branch_floor": ("floor", 9_999, "bid", "lowest"),
    "request": ("request", 10**12, "ordinal", "tid", "number", "aid", "bid", "delta", "outcome", "balance"),
    "request_reference": ("reference", 10**12, "ordinal", "reference"),
    "history": ("posting", 10**12, "ordinal", "aid", "tid", "bid", "delta", "moment"),
    "account": ("account", 999_900_000, "aid", "balance"),
    "teller": ("teller", 99_990, "tid", "balance"),
    "closing": ("closing", 10**18 - 1, "last", "first"),
}
# The tables as `init` makes them, in its order.
MADE = {
    "meta": "id INTEGER PRIMARY KEY CHECK (id = 1), version INTEGER NOT NULL, decided INTEGER NOT NULL",
    "branch": "bid INTEGER PRIMARY KEY, accounts INTEGER NOT NULL, balance INTEGER NOT NULL",
    "teller": "tid INTEGER PRIMARY KEY, balance INTEGER NOT NULL",
    "account": "aid INTEGER PRIMARY KEY, balance INTEGER NOT NULL",
    "history": "ordinal INTEGER PRIMARY KEY, aid INTEGER NOT NULL, tid INTEGER NOT NULL, bid INTEGER NOT NULL,"
               " delta INTEGER NOT NULL, moment INTEGER NOT NULL",
    "request": "ordinal INTEGER PRIMARY KEY, tid INTEGER NOT NULL, number INTEGER NOT NULL, aid INTEGER NOT NULL,"
               " bid INTEGER NOT NULL, delta INTEGER NOT NULL, outcome INTEGER NOT NULL, balance INTEGER NOT NULL,"
               " UNIQUE (tid, number)",
    "branch_floor": "bid INTEGER PRIMARY KEY, lowest INTEGER NOT NULL",
    "request_reference": "ordinal INTEGER PRIMARY KEY, reference TEXT NOT NULL",
    "closing": "last INTEGER PRIMARY KEY, first INTEGER NOT NULL",
}
SCHEMA = ";".join(f"CREATE TABLE {table} ({columns}) STRICT" for table, columns in MADE.items())
# What a column is called before what differs in it, if not by its name.
CALLED = {"aid": "account ", "tid": "teller ", "bid": "branch ", "balance": "", "lowest": "", "reference": ""}
RECORD = re.compile(rb"DC0(?:1|2)(\d{12})(\d{8})(\d{6})(\d{10})([+-]\d{10})", re.ASCII)


def branch_of_teller(tid):
    return (tid + 9) // 10


def branch_of_account(aid):
    return (aid + 99_999) // 100_000


# ---- records and replies

def fields_of(aid, tid, bid, number, delta):
    """How a request's numbers are spelled in its record and in its reply."""
    return f"{aid:012}{tid:08}{bid:06}{number:010}{delta:+011}"


def record_of(fields, reference=None):
    text = "DC01" + fields if reference is None else f"DC02{fields}{reference:<20}"
    return text.ljust(100).encode()


def record(account, teller, branch, number, delta, reference=None):
    """A request of 100 bytes."""
    return record_of(fields_of(account, teller, branch, number, delta), reference)


def reply_of(outcome, fields, balance=0):
    """A reply of 200 bytes."""
    return f"DR01{outcome:02}{fields}{balance:+013}{NAMES[outcome]}".ljust(200).encode()


def is_request(tid, number, aid, bid, delta):
    return (1 <= tid <= 99_999_999 and 1 <= number <= 9_999_999_999 and 1 <= aid <= LIMIT and 1 <= bid <= 999_999
            and abs(delta) <= 9_999_999_999)


def request_of(text):
    """The numbers of 100 bytes (teller, number, account, branch, delta) and the reference; none if they are no request."""
    found = RECORD.match(text)
    if not found:
        return None
    aid, tid, bid, number, delta = map(int, found.groups())
    is_spelled = found.group(5) != b"-0000000000" and is_request(tid, number, aid, bid, delta)
    reference, filler = (text[51:71], text[71:]) if text[3:4] == b"2" else (None, text[51:])
    if not is_spelled or filler.strip(b" ") or reference and not all(32 <= byte <= 126 for byte in reference):
        return None
    return (tid, number, aid, bid, delta), reference.decode() if reference is not None else None


# ---- postings

class Book:
    """The tables of a bank, by the rules of its postings."""

    def __init__(self):
        self.rows = {table: {} for table in TABLES}
        self.decided, self.kept = 0, {}

    def open(self, bid, count, floor=None):
        self.rows["branch"][bid] = (count, 0)
        self.rows["teller"].update({tid: (0,) for tid in range(10 * bid - 9, 10 * bid + 1)})
        self.rows["account"].update({100_000 * (bid - 1) + place: (0,) for place in range(1, count + 1)})
        if floor is not None:
            self.rows["branch_floor"][bid] = (floor,)

    def close(self, first, last):
        """Closes the numbers of these keys, of which none may be closed yet; 0 and 0 seal the books."""
        if not any(low <= last and first <= high for high, (low,) in self.rows["closing"].items()):
            self.rows["closing"][last] = (first,)

    def books(self, key):
        """What closed books say of a number that isn't kept."""
        closes = {at: any(low <= at <= high for high, (low,) in self.rows["closing"].items()) for at in (key, 0)}
        return CLOSED if closes[key] else SEALED if closes[0] else POSTED

    def judge(self, tid, aid, bid, delta):
        """The outcome of a request that is decided, and the new balances of its account, teller and branch."""
        if bid != branch_of_teller(tid):
            return WRONG_BRANCH, (0,)
        if aid not in self.rows["account"]:
            return NO_ACCOUNT, (0,)
        holders = ("account", aid), ("teller", tid), ("branch", bid)
        after = [self.rows[table][key][-1] + delta for table, key in holders]
        floor = self.rows["branch_floor"].get(branch_of_account(aid))
        if floor and after[0] < floor[0]:
            return BELOW_FLOOR, (0,)
        return (POSTED, after) if max(map(abs, after)) <= LIMIT else (OVER_LIMIT, (0,))

    def decide(self, moment, request, reference):
        """Keeps a request, unless its teller isn't open or has used the number, or books are closed."""
        tid, number, aid, bid, delta = request
        if tid not in self.rows["teller"] or (tid, number) in self.kept or self.books(PER_TELLER * tid + number):
            return
        outcome, after = self.judge(tid, aid, bid, delta)
        self.decided += 1
        self.kept[tid, number] = self.decided
        self.rows["request"][self.decided] = (*request, outcome, after[0])
        if reference is not None:
            self.rows["request_reference"][self.decided] = (reference,)
        if outcome == POSTED:
            self.rows["account"][aid], self.rows["teller"][tid] = (after[0],), (after[1],)
            self.rows["branch"][bid] = (self.rows["branch"][bid][0], after[2])
            self.rows["history"][self.decided] = (aid, tid, bid, delta, moment)

    def answer(self, moment, text):
        """The reply to 100 bytes, whether they are a request or not."""
        found = request_of(text)
        if found is None:
            return reply_of(MALFORMED, "0" * 36 + "+0000000000")
        (tid, number, aid, bid, delta), reference = found
        fields = fields_of(aid, tid, bid, number, delta)
        if tid not in self.rows["teller"]:
            return reply_of(NO_TELLER, fields)
        self.decide(moment, *found)
        if (tid, number) not in self.kept:
            return reply_of(self.books(PER_TELLER * tid + number), fields)
        ordinal = self.kept[tid, number]
        *request, outcome, balance = self.rows["request"][ordinal]
        if (tuple(request), self.rows["request_reference"].get(ordinal, (None,))[0]) != found:
            return reply_of(REUSED_NUMBER, fields)
        return reply_of(outcome, fields, balance)

    def tables(self):
        return self.rows | {"meta": {1: (VERSION, self.decided)}}


# ---- a file's tables, a replay and a digest

def tables_of(file):
    """The rows of a file's tables, by table and key; of a path or of a connection."""
    conn = sqlite3.connect(file) if isinstance(file, str) else file
    rows = {table: {row[0]: row[1:] for row in conn.execute(f"SELECT {', '.join(columns)} FROM {table}")}
            for table, (_, _, *columns) in TABLES.items()}
    if conn is not file:
        conn.close()
    return rows


def definition(conn, table):
    """What SQLite says of a table: its columns, the indexes of its rules, what refers to others, and the words of its
    other rules."""
    text = conn.execute("SELECT sql FROM sqlite_master WHERE type = 'table' AND name = ?", (table,)).fetchone()
    indexes = conn.execute(f"PRAGMA index_list({table})").fetchall()
    plain = "".join(re.sub(r"/\*.*?\*/|--[^\n]*", " ", text[0], flags=re.DOTALL).upper().split()) if text else ""
    return (re.findall(r"STRICT|CHECK\(.*?\)|AUTOINCREMENT|COLLATE\w+", plain),
            conn.execute(f"PRAGMA table_xinfo({table})").fetchall(),
            sorted((row[2:], conn.execute(f"PRAGMA index_xinfo({row[1]})").fetchall()) for row in indexes if row[3] != "c"),
            conn.execute(f"PRAGMA foreign_key_list({table})").fetchall(),
            conn.execute("SELECT name FROM sqlite_master WHERE type = 'trigger' AND tbl_name = ?", (table,)).fetchall())


def other_table(file):
    """The first table that a file defines otherwise than `init` makes it, none where it defines each so."""
    conn = sqlite3.connect(file) if isinstance(file, str) else file
    made = sqlite3.connect(":memory:")
    made.executescript(SCHEMA)
    found = next((table for table in MADE if definition(conn, table) != definition(made, table)), None)
    if conn is not file:
        conn.close()
    return found


def moment_of(posting):
    return posting[4] if posting else 0


def requests_of(tables):
    """Each kept request with its reference and its posting, none where it has none."""
    for ordinal, request in sorted(tables["request"].items()):
        yield request, tables["request_reference"].get(ordinal, (None,))[0], tables["history"].get(ordinal)


def made_anew(tables):
    """The tables that the kept requests lead to, where each branch is opened as late as it can be. It isn't opened with
    a floor above zero, and one that no balance reaches is none. In the end the numbers are closed that were."""
    book, moment = Book(), 0
    plan = {bid: (row[0], tables["branch_floor"].get(bid, (None,))[0]) for bid, row in tables["branch"].items()}

    def open_for(bid):
        count, floor = plan.pop(bid, (0, None))
        floor = floor if floor is not None and abs(floor) <= LIMIT else None
        if count and (floor or 0) <= 0:
            book.open(bid, count, floor)

    for (*request, outcome, _), reference, posting in requests_of(tables):
        if is_request(*request):
            open_for(branch_of_teller(request[0]))
            if outcome not in (WRONG_BRANCH, NO_ACCOUNT):
                open_for(branch_of_account(request[2]))
            moment = moment_of(posting) if posting else moment
            book.decide(moment, request, reference)
    for bid in sorted(plan):
        open_for(bid)
    for last, (first,) in sorted(tables["closing"].items()):
        if is_closing(abs(first), last):
            book.close(abs(first), last)
    return book.tables()


def is_closing(first, last):
    """Whether these are the keys of a run of one teller's numbers, or of the seal."""
    return first == last == 0 or (
        PER_TELLER < first <= last and first % PER_TELLER > 0 and first // PER_TELLER == last // PER_TELLER)


def entry_of(request, reference, posting):
    """What is chained of a kept request: its record, its reply, and the moment of its posting."""
    tid, number, aid, bid, delta, outcome, balance = request
    fields = fields_of(aid, tid, bid, number, delta)
    return record_of(fields, reference) + reply_of(outcome, fields, balance) + moment_of(posting).to_bytes(8, "big")


def digest_lines(requests):
    """How many requests there are, and the digest that is chained over them."""
    chain = bytes(32)
    for kept in requests:
        chain = hashlib.sha256(chain + entry_of(*kept)).digest()
    return [f"{'requests':<12}{len(requests):>20}", f"{'digest':<12}{chain.hex()}"]


def plan_text(tables):
    """The plan that the branches are."""
    floors = tables["branch_floor"]
    rows = [f"{bid},{row[0]},{floors.get(bid, ('',))[0]}\n" for bid, row in sorted(tables["branch"].items())]
    return "branch,accounts,floor\n" + "".join(rows)


def plan_line(tables):
    """The line of a replay for the plan."""
    return f"{'plan':<12}{hashlib.sha256(plan_text(tables).encode()).hexdigest()}"


def closing_line(tables):
    """The line of a replay for the closed numbers."""
    rows = "".join(f"{last},{first}\n" for last, (first,) in sorted(tables["closing"].items()))
    return f"{'closing':<12}{hashlib.sha256(rows.encode()).hexdigest()}"


def unread(table, row):
    """The rule that a row breaks which can't be read, 0 if it can be."""
    key, *rest = row
    if not (0 if table == "closing" else 1) <= key <= TABLES[table][1]:
        return 6
    if table == "branch" and not 1 <= rest[0] <= 100_000:
        return 6
    if table == "history" and not 0 <= moment_of(rest) <= 253_402_300_799:
        return 6
    is_text = table != "request_reference" or len(rest[0]) == 20 and all(" " <= byte <= "~" for byte in rest[0])
    return 0 if is_text else 9


def difference(tables, due):
    """The line of the first difference, or of a row that can't be read; none where there is neither."""
    for table, (word, _, _, *columns) in TABLES.items():
        for key in sorted(tables[table].keys() | due[table].keys()):
            one, other = tables[table].get(key), due[table].get(key)
            if one and unread(table, (key, *one)):
                return f"bank: damaged rule {unread(table, (key, *one))}"
            if one != other:
                return difference_line(f"{word} {key}", columns, one, other)
    return None


def difference_line(row, columns, one, other):
    """The first column in which two rows differ, or which of them isn't there."""
    if one is None or other is None:
        sides = ["no row" if side is None else "a row" for side in (one, other)]
        return f"{row} stands {sides[0]} due {sides[1]}"
    place = next(place for place, _ in enumerate(columns) if one[place] != other[place])
    name = CALLED.get(columns[place], f"{columns[place]} ")
    return f"{row} {name}stands {one[place]} due {other[place]}"


def replay(file):
    """What the bank prints of a replay of a path or of a connection, and its status."""
    conn = sqlite3.connect(file) if isinstance(file, str) else file
    try:
        meta = conn.execute("SELECT version FROM meta").fetchall()
    except sqlite3.OperationalError:
        return ["bank: no bank"], 4
    finally:
        if conn is not file:
            conn.close()
    if len(meta) == 1 and meta[0][0] != VERSION:
        return [f"bank: version {meta[0][0]}"], 4
    if other_table(file):
        return [f"bank: table {other_table(file)} is defined otherwise"], 4
    if len(meta) != 1:
        return ["bank: damaged rule 1"], 3
    tables = tables_of(file)
    for table in ("branch", "branch_floor", "request", "history", "request_reference", "closing"):
        for key, row in sorted(tables[table].items()):
            if unread(table, (key, *row)):
                return [f"bank: damaged rule {unread(table, (key, *row))}"], 3
    line = difference(tables, made_anew(tables))
    if line:
        return ([line], 3) if line.startswith("bank: ") else ([line, "DIFFERS"], 5)
    return digest_lines(list(requests_of(tables))) + [plan_line(tables), closing_line(tables), "AGREES"], 0


# ---- an audit by SQL

NUMBERS = [
    ("branches", "SELECT count(*) FROM branch"),
    ("tellers", "SELECT count(*) FROM teller"),
    ("accounts", "SELECT count(*) FROM account"),
    ("requests", "SELECT count(*) FROM request"),
    ("history", "SELECT count(*) FROM history"),
    ("account sum", "SELECT ifnull(sum(balance), 0) FROM account"),
    ("teller sum", "SELECT ifnull(sum(balance), 0) FROM teller"),
    ("branch sum", "SELECT ifnull(sum(balance), 0) FROM branch"),
    ("history sum", "SELECT ifnull(sum(delta), 0) FROM history"),
    ("unmatched", """
        SELECT (SELECT count(*) FROM request r WHERE r.outcome = 0 AND NOT EXISTS (
                    SELECT 1 FROM history h WHERE h.ordinal = r.ordinal AND h.aid = r.aid AND h.tid = r.tid
                    AND h.bid = r.bid AND h.delta = r.delta))
             + (SELECT count(*) FROM history h WHERE NOT EXISTS (
                    SELECT 1 FROM request r WHERE r.ordinal = h.ordinal AND r.outcome = 0))"""),
]
BRANCHES = """
    SELECT bid, tellers, balance FROM (
        SELECT bid, balance, (SELECT ifnull(sum(t.balance), 0) FROM teller t
                              WHERE t.tid BETWEEN 10 * (bid - 1) + 1 AND 10 * bid) AS tellers FROM branch)
    WHERE tellers <> balance ORDER BY bid"""


def audit(file):
    """What the bank prints of an audit of a path, and its status."""
    tables = tables_of(file)
    for table in ("branch", "teller", "account", "request", "history"):
        if any(unread(table, (key, *row)) for key, row in tables[table].items()):
            return ["bank: damaged rule 6"], 3
    conn = sqlite3.connect(file)
    numbers = {name: conn.execute(text).fetchone()[0] for name, text in NUMBERS}
    lines = [f"{name:<12}{numbers[name]:>20}" for name, _ in NUMBERS]
    differ = conn.execute(BRANCHES).fetchall()
    conn.close()
    lines += [f"branch {bid} tellers {tellers} balance {balance}" for bid, tellers, balance in differ]
    sums = {numbers[name] for name in ("account sum", "teller sum", "branch sum", "history sum")}
    sound = len(sums) == 1 and not differ and numbers["unmatched"] == 0
    return lines + ["CONSISTENT" if sound else "INCONSISTENT"], 0 if sound else 5


# ---- a statement

DAY = 86_400


def second_of(text, ahead):
    """The second with which the day of a date begins, by Python's calendar; none where it is no date."""
    if not re.fullmatch(r"[0-9]{4}-[0-9]{2}-[0-9]{2}", text, re.ASCII) or text < "1970":
        return None
    try:
        day = datetime.datetime.fromisoformat(text).replace(tzinfo=datetime.timezone(ahead))
    except ValueError:
        return None
    return int((day - datetime.datetime(1970, 1, 1, tzinfo=datetime.timezone.utc)).total_seconds())


def ahead_of(text):
    """How far a zone is ahead of UTC; none where it is no zone."""
    found = re.fullmatch(r"([+-])([01][0-9]|2[0-3]):([0-5][0-9])", text, re.ASCII)
    if not found or text == "-00:00":
        return None
    ahead = datetime.timedelta(hours=int(found.group(2)), minutes=int(found.group(3)))
    return -ahead if found.group(1) == "-" else ahead


def range_of(first, last, zone):
    """The seconds of a range, the first and the one after the last; or what is wrong with its words."""
    ahead = ahead_of(zone) if zone else datetime.timedelta()
    if ahead is None:
        return "no zone in --zone"
    begin = second_of(first, ahead) if first else 0
    if begin is None:
        return "no date in --from"
    end = second_of(last, ahead) if last else 253_402_300_799
    if end is None:
        return "no date in --to"
    end += DAY if last else 1
    return (begin, end) if begin < end else "--to is before --from"


def is_reference(text):
    """At most 20 bytes of printable ASCII."""
    return re.fullmatch(r"[ -~]{1,20}", text) is not None


def decimals(cents):
    """An amount with two digits of cents."""
    return f"{'-' if cents < 0 else ''}{abs(cents) // 100}.{abs(cents) % 100:02}"


def time_of(moment, ahead):
    """A moment as ISO 8601 writes it, by Python's calendar: in the zone, and in UTC where the year there is none."""
    utc = datetime.datetime(1970, 1, 1, tzinfo=datetime.timezone.utc) + datetime.timedelta(seconds=moment)
    try:
        there = utc.astimezone(datetime.timezone(ahead))
    except OverflowError:
        return utc.isoformat()
    return (there if there.year >= 1970 else utc).isoformat()


def sheet(rows):
    """Rows as CSV, by Python's writer."""
    text = io.StringIO()
    csv.writer(text, lineterminator="\n").writerows(rows)
    return text.getvalue().splitlines()


# All moments, for the statements of all accounts where no days are asked for.
ALL_TIME = (0, 253_402_300_800)

SHEET_COLUMNS = ("account", "ordinal", "time", "teller", "branch", "amount", "balance", "reference")


def asked(first, last, zone, reference):
    """The seconds that are asked for, if days are; or what is wrong with the words."""
    span = range_of(first, last, zone) if first or last or zone else None
    if reference and not isinstance(span, str) and not is_reference(reference):
        return "no reference in --reference"
    return span


def stated(tables, aid, span, zone, reference):
    """What a statement of an account has in columns, and its rows in a sheet."""
    rows = [(ordinal, *row) for ordinal, row in sorted(tables["history"].items()) if row[0] == aid]
    lines = [f"STATEMENT ACCOUNT {aid:012}",
             f"{'ordinal':>13} {'moment':>12} {'teller':>8} {'branch':>6} {'delta':>14} {'balance':>14} reference"]
    if span:
        lines.append(f"{'opening balance':<57} {sum(row[4] for row in rows if row[5] < span[0]):>14}")
    balance, listed = 0, []
    ahead = ahead_of(zone) if zone else datetime.timedelta()
    for ordinal, _, tid, bid, delta, moment in rows:
        balance += delta
        own = tables["request_reference"].get(ordinal, ())
        if (span and not span[0] <= moment < span[1]) or (reference and own != (reference.ljust(20),)):
            continue
        shown = "".join(" " + text for text in own)
        lines.append(f"{ordinal:>13} {moment:>12} {tid:>8} {bid:>6} {delta:>+14} {balance:>14}{shown}")
        listed.append((aid, ordinal, time_of(moment, ahead), tid, bid, decimals(delta), decimals(balance),
                       "".join(own).rstrip(" ")))
    closing = sum(row[4] for row in rows if row[5] < span[1]) if span else tables["account"][aid][0]
    return [*lines, f"{'closing balance':<57} {closing:>14}"], listed


def statement(file, aid, first="", last="", zone="", reference="", layout=""):
    """What the bank prints of a statement of an account of a path, and its status; with no account of the statements of all
    that have a posting which is asked for."""
    span = asked(first, last, zone, reference)
    if isinstance(span, str):
        return [f"bank: {span}"], 4
    tables = tables_of(file)
    if aid is not None and aid not in tables["account"]:
        return [f"bank: no account {aid}"], 4
    accounts = sorted({row[0] for row in tables["history"].values()}) if aid is None else [aid]
    parts = [stated(tables, it, span or (ALL_TIME if aid is None else None), zone, reference) for it in accounts]
    if layout == "csv":
        return sheet([SHEET_COLUMNS, *(row for _, listed in parts for row in listed)]), 0
    return [line for lines, listed in parts if listed or aid is not None for line in lines], 0


def main():
    if len(sys.argv) > 2:
        requests, first = list(requests_of(tables_of(sys.argv[1]))), int(sys.argv[2])
        few = first > len(requests)
        lines, status = ([f"bank: no request {first}"], 4) if few else (digest_lines(requests[:first]), 0)
    else:
        lines, status = replay(sys.argv[1])
    print("".join(line + "\n" for line in lines), end="", file=sys.stderr if status in (3, 4) else sys.stdout)
    sys.exit(status)


if __name__ == "__main__":
    main()
