#!/usr/bin/env python3
"""Eight connections to a running `bank serve` at once, beside the rules of tools/oracle.py: what one of them asks after
another was answered has to show it, and the order that the log has of postings at once is the one of their replies.
    tools/http_model.py [COUNT] [SEED]
"""
import random
import sys
import tempfile

import oracle
from serve_client import Server, make_bank, need_program, post, read_answer

PLAN = [(1, 3), (2, 2)]
ENTRY = 308
NONE = b"404 Not Found\n"
SHOWN = ["/account/1", "/account/2", "/account/100001", "/account/4", "/teller/1", "/teller/11", "/branches", "/log/"]


def shown(book, path):
    """The body that answers a path, without the moments of entries."""
    if path == "/branches":
        return b"".join(b"%6d %7d %14d\n" % (bid, *row) for bid, row in sorted(book.rows["branch"].items()))
    holder, number = path[1:].split("/")
    if holder == "log":
        after = int(number)
        kept = list(oracle.requests_of(book.rows))[after:after + 192]
        return without_moments(b"".join(oracle.entry_of(*it) for it in kept)) if after <= book.decided else NONE
    row = book.rows[holder].get(int(number))
    return b"%s %s balance %d\n" % (holder.encode(), number.encode(), *row) if row else NONE


def without_moments(entries):
    return b"".join(entries[at:at + ENTRY - 8] for at in range(0, len(entries), ENTRY))


def ask(connection, message):
    """The body that a message is answered by, on a connection of which nothing else is asked."""
    connection.sendall(message)
    return read_answer(connection, b"")[1]


def get(connection, path):
    body = ask(connection, f"GET {path} HTTP/1.1\r\n\r\n".encode())
    return without_moments(body) if path.startswith("/log/") and body != NONE else body


def drawn_record(draw, number):
    account = draw.choice([1, 1, 1, 2, 3, 4, 100_001, 100_002])
    teller = draw.choice([1, 1, 2, 11, 20, 21])
    branch = (teller - 1) // 10 + 1 if draw.random() < 0.9 else draw.choice([1, 2, 3])
    return oracle.record(account, teller, branch, number, draw.choice([500, 500, -700, 0, 9_999_999_999, -9_999_999_999]))


def in_turns(draw, book, connections, count):
    """Each message, on a connection that is drawn, is sent when the one before it was answered."""
    for place in range(count):
        one = draw.choice(connections)
        if draw.random() < 0.5:
            asked = drawn_record(draw, place // 8 + draw.choice([1, 1, 2, 3]))
            message = post(asked)
            cut = draw.choice([0, draw.randrange(len(message))])
            one.sendall(message[:cut])
            got, wanted = ask(one, message[cut:]), book.answer(0, asked)
        else:
            asked = draw.choice(SHOWN)
            asked += str(max(0, book.decided + draw.choice([-2, -1, 0, 1]))) if asked == "/log/" else ""
            got, wanted = get(one, asked), shown(book, asked)
        if got != wanted:
            sys.exit(f"http_model: turn {place}, {asked!r}: {got!r}, not {wanted!r}")


def at_once(draw, book, connections, count):
    """One posting on each connection before any is answered: in the order that the log has of them then, each has the
    reply that was given."""
    for place in range(count):
        before = book.decided
        sent = [oracle.record(draw.choice([1, 2, 100_001]), it + 1, 1, 1_000_000 + place, draw.randrange(-900, 900))
                for it in range(len(connections))]
        for one, record in zip(connections, sent):
            one.sendall(post(record))
        got = {record: read_answer(one, b"")[1] for one, record in zip(connections, sent)}
        entries = get(draw.choice(connections), f"/log/{before}")
        order = [entries[at:at + 100] for at in range(0, len(entries), ENTRY - 8)]
        if sorted(order) != sorted(sent) or any(book.answer(0, record) != got[record] for record in order):
            sys.exit(f"http_model: round {place}: {got!r} in the order of {order!r}")


def main():
    need_program()
    count = int(sys.argv[1]) if len(sys.argv) > 1 else 20_000
    draw = random.Random(int(sys.argv[2]) if len(sys.argv) > 2 else 1)
    book = oracle.Book()
    for branch in PLAN:
        book.open(*branch)
    with tempfile.TemporaryDirectory() as folder:
        make_bank(folder + "/bank.db", PLAN)
        server = Server(folder + "/bank.db", 8)
        connections = [server.connect() for _ in range(8)]
        in_turns(draw, book, connections, count)
        at_once(draw, book, connections, count // 10)
        for one in connections:
            one.close()
        status = server.end()
    print(f"http_model: {count} messages in turns, {count // 10} rounds at once, status {status}")


if __name__ == "__main__":
    main()
