#!/usr/bin/env python3
"""Starts `bank serve` and nginx in front of it, as in examples/nginx.conf, on loopback, and sends what nginx has to refuse: who
posts as another teller, or not from the page of this server, or asks for the log without a follower's certificate; and then
wrong passwords, each on a connection of its own, of which two a second are looked at in the end.
    tools/strangers.py"""
import contextlib
import sys
import tempfile
import time

from serve_client import (FROM_PAGE, Place, connect, need_program, post, read_answer, record, run, signed_in, tls_of,
                          with_fields, within)


def strangers(folder):
    """What is sent by one who may not: a name, TLS, the message, and the statuses with which it is refused."""
    nobody, certified, standby = tls_of(folder), tls_of(folder, "teller1"), tls_of(folder, "standby")
    own, others = post(record(1, 2, 1, 9999, 1)), post(record(1, 4, 1, 9999, 1))
    signed, (content, origin) = signed_in(2), FROM_PAGE
    for name, tls, message, fields, *statuses in (
        ("nobody's posting", nobody, own, FROM_PAGE, 401),
        ("a wrong password", nobody, own, (signed_in(2, b"counter4"), *FROM_PAGE), 401),
        ("another teller's record", nobody, others, (signed, *FROM_PAGE), 403),
        ("a certificate of teller 1, a record of teller 2", certified, own, FROM_PAGE, 403),
        ("the same, and teller 2's name", certified, own, (signed, *FROM_PAGE), 403),
        ("a certificate that was revoked", tls_of(folder, "gone"), own, FROM_PAGE, 400),
        ("a follower's posting", standby, own, FROM_PAGE, 403),
        ("no record", nobody, post(b"DC01"), (signed, *FROM_PAGE), 403),
        ("a form's content", nobody, own, (signed, b"Content-Type: text/plain", origin), 403),
        ("no origin", nobody, own, (signed, content), 403),
        ("another server's page", nobody, own, (signed, content, b"Origin: https://bank.example"), 403),
        ("a page without TLS", nobody, own, (signed, content, b"Origin: http://bank"), 403),
    ):
        yield name, tls, with_fields(message, fields), statuses
    yield "nobody's balance", nobody, asking(b"/branches"), (401,)
    for path in (b"/log/0", b"/plan", b"/%6cog/0", b"/branches/../plan", b"//log/0", b"/log/0?x"):
        for who, tls, fields in (("nobody", nobody, ()), ("a password", nobody, (signed,)),
                                 ("a teller's certificate", certified, ())):
            yield f"{path.decode()} for {who}", tls, with_fields(asking(path), fields), (401, 403)
    for path in (b"/post/", b"//post", b"/%70ost", b"/./post", b"/post?", b"/post?x", b"/branches/../post", b"/post%00",
                 b"/post;", b"/branches", b"http://bank/post"):
        message = with_fields(others.replace(b"/post", path), (signed, *FROM_PAGE))
        yield f"another spelling of the path, {path.decode()}", nobody, message, (400, 403, 404)


def asking(path):
    return b"GET %s HTTP/1.1\r\nHost: bank\r\n\r\n" % path


def answer_of(tls, port, message):
    """The status of an answer, from a server that may still be starting."""
    def asked():
        with contextlib.suppress(OSError), connect(tls, port) as connection:
            connection.sendall(message)
            answer = read_answer(connection, b"")
            return answer and answer[0] < 500 and answer[0]

    return within(60, "an answer", asked)


def guesses(place, tls):
    """What is answered to wrong passwords: after a first 200 hardly one is looked at. Gives what isn't as it should be."""
    start, statuses = time.monotonic(), []
    for number in range(300):
        with connect(tls, place.front) as connection:
            connection.sendall(2 * with_fields(asking(b"/branches"), (signed_in(2, b"guess%d" % number),)))
            answer = read_answer(connection, b"")
            statuses.append(answer[0])
            if answer[0] == 401 and read_answer(connection, answer[2]):
                return ["a connection goes on after a wrong password"]
    most = 200 + 2 * (time.monotonic() - start) + 2
    looked_at = statuses.count(401)
    with connect(tls, place.front) as connection:
        connection.sendall(with_fields(asking(b"/branches"), (signed_in(2),)))
        last = read_answer(connection, b"")[0]
    is_well = 50 < looked_at <= most and looked_at + statuses.count(429) == 300
    return [] if is_well and last in (200, 429) else [f"{looked_at} of 300 wrong passwords are looked at"]


def main():
    need_program()
    with tempfile.TemporaryDirectory() as folder:
        place, asked, let_in = Place(folder, [(1, 3), (2, 2)]), 0, []
        try:
            place.start()
            for name, tls, message, statuses in strangers(folder):
                asked, status = asked + 1, answer_of(tls, place.front, message)
                let_in += [f"{name}: {status}"] if status not in statuses else []
            let_in += guesses(place, tls_of(folder))
        finally:
            place.stop()
        kept = run("export", place.file)[0]
    print(f"strangers: {asked} messages; " + ("; ".join(let_in) or "each is refused") + (", POSTED" if kept else ""))
    sys.exit(1 if let_in or kept else 0)


main()
