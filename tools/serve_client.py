"""What the scripts around the program share: a run of it, a bank with a plan, a running server and a connection to it."""
import base64
import contextlib
import os
import random
import re
import shutil
import socket
import sqlite3
import ssl
import subprocess
import sys
import tempfile
import threading
import time

import oracle
from oracle import record  # noqa: F401

HERE = os.path.dirname(os.path.dirname(os.path.abspath(__file__)))
# BANK in the environment names another program.
BANK = os.environ.get("BANK") or os.path.join(HERE, "crates/bank/out/bank")


class Failed(Exception):
    """What is tried isn't as it should be."""


def ensure(holds, what):
    if not holds:
        raise Failed(what)


def same(name, got, wanted):
    ensure(got == wanted, f"{name}: wanted {wanted!r}, got {got!r}")


def within(seconds, what, is_so):
    """Waits until it is so, and gives what it was."""
    end = time.monotonic() + seconds
    while time.monotonic() < end:
        it = is_so()
        if it:
            return it
        time.sleep(0.05)
    raise Failed(f"not within {seconds} s: {what}")


def check_books(copy, answered):
    """The books of a file that nobody has open agree, and each answer, of (teller, number) its reply and the amount of the
    request, is what stands there. Gives which stand there beside these."""
    for command, verdict in (("audit", b"CONSISTENT"), ("replay", b"AGREES")):
        output, faults, status = run(command, copy)
        ensure(status == 0 and verdict in output.split(), f"{command}: {output} {faults}")
    with contextlib.closing(sqlite3.connect(copy)) as books:
        rows = books.execute("SELECT tid, number, delta, outcome, balance FROM request")
        stands = {row[:2]: row[2:] for row in rows}
    for key, (reply, delta) in answered.items():
        same(f"what stands of teller and number {key}", stands.get(key), (delta, int(reply[4:6]), int(reply[53:66])))
    return stands.keys() - answered.keys()


def need_program():
    if not os.access(BANK, os.X_OK):
        sys.exit("build the program first: (cd crates/bank && rt run -- --help)")


def clear(file):
    """Takes both files of a bank away, where they are there."""
    for end in ("", "-wal"):
        with contextlib.suppress(FileNotFoundError):
            os.remove(file + end)


def copy_bank(file, copy):
    """Copies both files, on which no command may run, in the place of others."""
    clear(copy)
    for end in ("", "-wal"):
        if os.path.exists(file + end):
            shutil.copy(file + end, copy + end)


def rows_of(file):
    """The rows of a bank's tables, without moments, read from a copy of its files."""
    with tempfile.TemporaryDirectory() as folder:
        copy_bank(file, folder + "/copy.db")
        rows = oracle.tables_of(folder + "/copy.db")
    return rows | {"history": {ordinal: row[:-1] for ordinal, row in rows["history"].items()}}


def open_branches(file, plan):
    """Opens the branches of a plan: (branch, accounts), with a floor behind them or without one."""
    with open(file + ".csv", "w") as csv:
        csv.write("branch,accounts,floor\n")
        csv.writelines(",".join(map(str, (*row, "")[:3])) + "\n" for row in plan)
    done("load", file, file + ".csv")


def make_bank(file, plan):
    """A new bank in the file, with the branches of a plan."""
    clear(file)
    done("init", file)
    open_branches(file, plan)


def run(*words, data=b""):
    """A run of the program: its output, its faults and its status."""
    told = subprocess.run([BANK, *words], input=data, capture_output=True, check=False)
    return told.stdout, told.stderr, told.returncode


def done(*words, data=b""):
    """The output of a command that has to succeed."""
    output, faults, status = run(*words, data=data)
    if status:
        sys.exit(f"status {status} of {' '.join(words)}: {faults.decode()}")
    return output


class Server:
    """A running `bank serve` on a port of loopback that the system picks."""

    def __init__(self, file, connections, environment=None, may_fail=False, program=BANK):
        self.process = subprocess.Popen(
            [program, "serve", file, "127.0.0.1:0", "--connections", str(connections)],
            stdout=subprocess.PIPE, stderr=subprocess.PIPE, env=environment)
        line = self.process.stdout.readline().decode()
        word, _, address = line.strip().partition(" ")
        if word != "listening" and not may_fail:
            sys.exit(f"serve said {line!r}, {self.process.stderr.read().decode()!r}")
        self.port = int(address.rpartition(":")[2]) if word == "listening" else None

    def connect(self):
        connection = socket.create_connection(("127.0.0.1", self.port), timeout=20)
        connection.setsockopt(socket.IPPROTO_TCP, socket.TCP_NODELAY, 1)
        return connection

    def exchange(self, given):
        """What comes back to these bytes on a connection of their own, until it ends."""
        answered = b""
        with contextlib.suppress(OSError), self.connect() as connection:
            connection.sendall(given)
            connection.shutdown(socket.SHUT_WR)
            while piece := connection.recv(65536):
                answered += piece
        return answered

    def kill(self):
        self.process.kill()
        self.end()

    def end(self):
        """Waits for the server to end, and gives its status."""
        status = self.process.wait(timeout=60)
        self.process.stdout.close()
        self.process.stderr.close()
        return status


class Restarted(threading.Thread):
    """A program that is started again whenever it ends, as systemd does."""

    def __init__(self, words):
        super().__init__(daemon=True)
        self.words, self.starts, self.ends, self.lock = words, 0, False, threading.Lock()
        self.begin()
        self.start()

    def begin(self):
        """Starts the program, unless it is to end."""
        with self.lock:
            if not self.ends:
                self.process = subprocess.Popen(self.words, stdout=subprocess.DEVNULL, stderr=subprocess.DEVNULL,
                                                start_new_session=True)
                self.starts += 1

    def run(self):
        while not self.ends:
            self.process.wait()
            self.kill()
            time.sleep(0.1)
            self.begin()

    def kill(self):
        """Kills the program and what it started, and nothing else: the session is its own."""
        with self.lock, contextlib.suppress(ProcessLookupError):
            os.killpg(self.process.pid, 9)

    def stop(self):
        self.ends = True
        self.kill()
        self.join(timeout=10)


class Place:
    """A bank, the counter that serves it, and nginx before it as in examples/nginx.conf, each started again when it ends."""

    def __init__(self, folder, plan=None):
        self.folder, self.file = folder, folder + "/bank.db"
        if plan:
            make_bank(self.file, plan)
        with socket.create_server(("127.0.0.1", 0)) as one, socket.create_server(("127.0.0.1", 0)) as other:
            self.front, self.back = one.getsockname()[1], other.getsockname()[1]
        subprocess.run([HERE + "/tools/nginx_folder.sh", folder, str(self.front), str(self.back)], check=True)
        self.counter = self.nginx = None

    def start_counter(self):
        self.counter = Restarted([BANK, "serve", self.file, f"127.0.0.1:{self.back}", "--connections", "1000000"])

    def start(self):
        self.start_counter()
        self.start_nginx()

    def start_nginx(self):
        self.nginx = Restarted(["nginx", "-p", self.folder, "-c", "nginx.conf", "-g", "daemon off;"])

    def stop(self):
        for program in (self.nginx, self.counter):
            if program:
                program.stop()
        self.counter = self.nginx = None

    def address(self, who="", path="/"):
        return f"https://{who}localhost:{self.front}{path}"

    def posts(self, records):
        """Posts records while the counter is stopped, and gives the replies."""
        return subprocess.run([BANK, "post", self.file], input=b"".join(records), check=True,
                              stdout=subprocess.PIPE).stdout

    def keep(self, name):
        """Copies both files, on which no command may run."""
        copy_bank(self.file, f"{self.folder}/{name}.db")

    def put_back(self, name):
        copy_bank(f"{self.folder}/{name}.db", self.file)

    def copied(self):
        """A connection to a copy of both files."""
        self.keep("copy")
        return sqlite3.connect(self.folder + "/copy.db")


def post(body, close=False):
    """The message that posts a record."""
    last = b"Connection: close\r\n" if close else b""
    return b"POST /post HTTP/1.1\r\nHost: bank\r\nContent-Length: %d\r\n%s\r\n" % (len(body), last) + body


# What a posting has that comes from the page of nginx's server.
FROM_PAGE = (b"Content-Type: application/octet-stream", b"Origin: https://bank")


def signed_in(teller, word=b""):
    """The field with a teller's password, or with another word."""
    return b"Authorization: Basic " + base64.b64encode(b"teller%d:%s" % (teller, word or b"counter%d" % teller))


def with_fields(message, fields):
    return message.replace(b"Host: bank\r\n", b"\r\n".join((b"Host: bank", *fields, b"")))


def tls_of(folder, name=None):
    """TLS to nginx, with the certificate of somebody if a name is given."""
    tls = ssl.create_default_context(cafile=folder + "/bank.crt")
    if name:
        tls.load_cert_chain(f"{folder}/{name}.crt", folder + "/teller.key")
    return tls


def connect(tls, port):
    return tls.wrap_socket(socket.create_connection(("127.0.0.1", port), timeout=15), server_hostname="localhost")


def read_answer(connection, buffered):
    """The next answer's status and body, and what was read behind it; none where the connection ends first."""
    def more():
        piece = connection.recv(65536)
        return piece and buffered + piece

    while b"\r\n\r\n" not in buffered:
        if not (buffered := more()):
            return None
    head, _, _ = buffered.partition(b"\r\n\r\n")
    stated = re.search(rb"\r\ncontent-length: *(\d+)", head, re.IGNORECASE)
    start, length = len(head) + 4, int(stated[1]) if stated else 0
    while len(buffered) < start + length:
        if not (buffered := more()):
            return None
    return int(head[9:12]), buffered[start:start + length], buffered[start + length:]


class Sender(threading.Thread):
    """Sends messages in order, each until it has its reply, on a connection that it keeps, or makes anew where that was
    closed; up to so many are on their way. It gives up when that is so, or when it is told another answer. Before each
    it waits for up to so many seconds. It keeps when each reply came, and how long after its message was first sent."""

    def __init__(self, connect, messages, ahead=1, gives_up=lambda: False, wait=0):
        super().__init__(daemon=True)
        self.connect, self.messages, self.ahead, self.gives_up, self.wait = connect, messages, ahead, gives_up, wait
        self.replies, self.times, self.waits, self.begun, self.resent, self.fault = [], [], [], {}, 0, None
        self.start()

    def is_done(self):
        return len(self.replies) == len(self.messages) or self.fault or self.gives_up()

    def run(self):
        while not self.is_done():
            try:
                with self.connect() as connection:
                    self.converse(connection)
            except OSError:
                pass
            if not self.is_done():
                self.resent += 1
                time.sleep(random.uniform(0.001, 0.02))

    def converse(self, connection):
        sent, buffered = len(self.replies), b""
        while len(self.replies) < len(self.messages) and not self.gives_up():
            if self.wait:
                time.sleep(random.uniform(0, self.wait))
            for message in self.messages[sent:len(self.replies) + self.ahead]:
                self.begun.setdefault(sent, time.monotonic())
                connection.sendall(message)
                sent += 1
            answer = read_answer(connection, buffered)
            if answer is None or answer[0] in (429, 502, 503, 504):
                return
            if answer[0] != 200:
                self.fault = f"an answer with status {answer[0]}"
                return
            self.times.append(time.monotonic())
            self.waits.append(self.times[-1] - self.begun[len(self.replies)])
            self.replies.append(answer[1])
            buffered = answer[2]
