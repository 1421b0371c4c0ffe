#!/usr/bin/env python3
"""Counts where a posting's instructions go, by callgrind, over 2 branches of 1,000 accounts: 64 a commit, by `bank drive`,
and one a commit, by `bank serve` and a kept connection; of 3,000 records less 1,000. With --resend each record was posted
before, and is sent a second time: by 64, by `bank post`, and alone, by `bank serve`. It needs the built program and
valgrind, and stands outside the gate. BANK names another program.
    bench/instructions.py [--resend]"""
import os
import re
import socket
import subprocess
import sys
import tempfile
from collections import Counter

sys.path.insert(0, os.path.join(os.path.dirname(os.path.dirname(os.path.abspath(__file__))), "tools"))
from serve_client import BANK, done, make_bank, need_program, post, read_answer, record  # noqa: E402

FEW, MANY = 1000, 3000
RECORDS = [record(i * 7 % 1000 + 1 + 100_000 * (i % 2), i % 20 + 1, i % 20 // 10 + 1, i // 20 + 1, 5) for i in range(MANY)]
# What calls `sqlite`, and what it asks for; the first that fits. The statements of a table have no symbol of their own.
KINDS = [
    ("UPDATE of meta", ".*write_decided", "execute"),
    ("SELECT of meta", ".*read_meta", "query_row"),
    ("INSERTs, and UPDATEs of accounts, tellers and branches", "bank_transactions|store_rows", "execute"),
    ("SELECTs of requests, accounts, tellers, branches and floors", "bank_transactions|store_rows", "query_row"),
    ("commit", "(?!sqlite)", "Connection::commit"),
    ("rollback", "(?!sqlite)", "rollback"),
]


def under_callgrind(counts, *words):
    return subprocess.Popen(["valgrind", "--tool=callgrind", f"--callgrind-out-file={counts}", BANK, *words],
                            stdin=subprocess.PIPE, stdout=subprocess.PIPE, stderr=subprocess.DEVNULL)


def drive(file, counts, records):
    assert not under_callgrind(counts, "drive", file, "--seed", "7", "--count", str(len(records))).wait()


def post_all(file, counts, records):
    program = under_callgrind(counts, "post", file)
    replies, _ = program.communicate(b"".join(records))
    assert program.returncode == 0 and len(replies) == 200 * len(records), replies


def serve(file, counts, records):
    server = under_callgrind(counts, "serve", file, "127.0.0.1:0", "--connections", "1")
    port = int(server.stdout.readline().rpartition(b":")[2])
    with socket.create_connection(("127.0.0.1", port)) as connection:
        for body in records:
            connection.sendall(post(body))
            status, reply, _ = read_answer(connection, b"")
            assert status == 200 and reply[66:72] == b"POSTED", reply
    assert server.wait() == 0


def calls_of(counts):
    """The instructions of each kind of call, and those of the whole run."""
    names, taken, caller, callee, total = {}, Counter(), None, None, 0

    def name_of(text):
        number, name = re.match(r"\((\d+)\)(?: (.*))?", text).groups()
        return names.setdefault(number, name)

    with open(counts) as lines:
        for line in map(str.rstrip, lines):
            if line.startswith("fn="):
                caller = name_of(line[3:])
            elif line.startswith("cfn="):
                callee = name_of(line[4:])
            elif line.startswith("calls="):
                kind = next((kind for kind, by, to in KINDS if re.match(by, caller) and to in callee), None)
                taken[kind] += int(next(lines).split()[-1])
            elif line.startswith("totals:"):
                total = int(line.split()[1])
    return taken, total


def measure(run, folder, is_resent):
    """What a posting takes of each kind, of all else, and together."""
    found = []
    for count in (FEW, MANY):
        file = f"{folder}/{run.__name__}{count}.db"
        make_bank(file, [(1, 1000), (2, 1000)])
        if is_resent:
            done("post", file, data=b"".join(RECORDS))
        run(file, f"{folder}/counts", RECORDS[:count])
        found.append(calls_of(f"{folder}/counts"))
    (few, least), (many, most) = found
    taken = [(many[kind] - few[kind]) / (MANY - FEW) for kind, _, _ in KINDS]
    whole = (most - least) / (MANY - FEW)
    return [*taken, whole - sum(taken), whole]


def main():
    need_program()
    is_resent = "--resend" in sys.argv[1:]
    with tempfile.TemporaryDirectory() as folder:
        columns = [measure(run, folder, is_resent) for run in (post_all if is_resent else drive, serve)]
    print("| | 64 a commit | one a commit |\n|---|---|---|")
    for kind, *row in zip([*(kind for kind, _, _ in KINDS), "all else"], *columns):
        cells = (f"{taken:,.0f}, {100 * taken / column[-1]:.0f}%" for taken, column in zip(row, columns))
        print(f"| {kind} | {' | '.join(cells)} |")
    print(f"| together | {' | '.join(f'{column[-1]:,.0f}' for column in columns)} |")


main()
