#!/usr/bin/env python3
"""How many postings a second `bank serve` answers to clients of loopback on kept connections, each asking when it has its
answer: this program, another (BEFORE names it), and pgbench's TPC-B script on PostgreSQL with as many clients, in rounds
that go from one to the other. On a disk (TMPDIR), without one, and with syncs that take 5 milliseconds longer, for all
alike. It prints a row for each: the medians of postings a second, and of the median, the 99th percentile and the latest
answer in microseconds, and the ratio to the program before and to one client. Each run's bank is audited, and has as many
postings as were answered.

    bench/serve.py [ROUNDS [SECONDS [CLIENTS,.. [IDLE]]]]        IDLE clients beside them say nothing
    bench/serve.py beside [SECONDS]    how long tellers wait who post so often, 20 and 100 of them, alone, and 20 beside
                                       clients that keep the counter waiting: a row for each, without a disk
"""
import os
import re
import shutil
import socket
import statistics
import subprocess
import sys
import tempfile
import threading
import time
from collections import defaultdict

HERE = os.path.dirname(os.path.abspath(__file__))
sys.path.insert(0, os.path.join(os.path.dirname(HERE), "tools"))
from serve_client import BANK, Server, make_bank, need_program, post, record, run  # noqa: E402

PLACES = {"disk": (None, 0), "none": ("/dev/shm", 0), "slow disk": (None, 5000)}


def compiled(folder, name, *flags):
    out = f"{folder}/{name}"
    subprocess.run([os.environ.get("CC", "cc"), "-O2", *flags, "-o", out, f"{HERE}/{name}.c"], check=True)
    return out


def served(tools, program, place, clients, idle, seconds):
    """Postings a second, and how long answers took, of one run."""
    folder, slow = PLACES[place]
    with tempfile.TemporaryDirectory(dir=folder) as work:
        make_bank(work + "/bank.db", [(1, 1000), (2, 1000)])
        slowly = {"LD_PRELOAD": f"{tools}/slow_sync", "SLOW_SYNC_US": str(slow)} if slow else {}
        server = Server(work + "/bank.db", 1_000_000, os.environ | slowly, program=program)
        _, rate, median, late, latest, *_ = loaded(tools, server, work + "/bank.db", clients, idle, seconds)
        return rate, median, late, latest, server.peak


def loaded(tools, server, file, clients, idle, seconds, pace=0):
    """What `load` says of a server, whose bank has as many postings then as were answered."""
    loader = subprocess.run([f"{tools}/load", str(server.port), str(clients), str(idle), str(int(seconds * 1000)),
                             str(int(pace * 1000))], capture_output=True, text=True, timeout=seconds + 120)
    server.peak = int(re.search(r"VmHWM:\s+(\d+)", open(f"/proc/{server.process.pid}/status", encoding="ascii").read())[1])
    server.kill()
    said = [*map(int, loader.stdout.split(","))]
    output = run("audit", file)[0].decode()
    if said[5] or not output.endswith("\nCONSISTENT\n") or int(re.search(r"history\s+(\d+)", output)[1]) != said[0]:
        sys.exit(f"serve: {loader.stderr}{output}")
    return said


class Hostile(threading.Thread):
    """A client that keeps the counter waiting in some way, and comes again when it is closed."""

    def __init__(self, server, end, way):
        super().__init__(daemon=True)
        self.server, self.end, self.way = server, end, way
        self.start()

    def over(self):
        return time.monotonic() >= self.end

    def run(self):
        while not self.over():
            try:
                with self.server.connect() as connection:
                    connection.settimeout(1)
                    self.way(self, connection)
            except OSError:
                pass
            time.sleep(0.01)

    def has_ended(self, connection):
        """Whether the counter, or the measure, ends the connection within a second."""
        try:
            return not connection.recv(65536)
        except socket.timeout:
            return self.over()

    def says_nothing(self, connection):
        while not self.has_ended(connection):
            pass

    def drips(self, connection):
        for byte in post(record(1, 1, 1, 1, 5)):
            connection.sendall(bytes([byte]))
            if self.has_ended(connection):
                return

    def never_reads(self, connection):
        while not self.over():
            connection.sendall(b"GET /branches HTTP/1.1\r\n\r\n" * 100)

    def sends_a_long_head(self, connection):
        connection.sendall(b"GET /branches HTTP/1.1\r\nA: ".ljust(8193, b"a"))
        while not self.over():
            connection.sendall(b"a")
            time.sleep(0.05)


WAYS = {"that say nothing": Hostile.says_nothing, "that send a byte a second": Hostile.drips,
        "that never read": Hostile.never_reads, "with a head of 8,193 bytes": Hostile.sends_a_long_head}
HOSTILE = 10


def beside(tools, count, every, seconds, way=None):
    with tempfile.TemporaryDirectory(dir="/dev/shm") as work:
        make_bank(work + "/bank.db", [(1, 1000), (2, 1000)])
        server = Server(work + "/bank.db", 1_000_000)
        for _ in range(HOSTILE if way else 0):
            Hostile(server, time.monotonic() + seconds + 2, WAYS[way])
        answers, _, *waits, _, anew, least, most = loaded(tools, server, work + "/bank.db", count, 0, seconds, every)
        print(f"| {count} every {every} s{f', beside {HOSTILE} {way}' if way else ''} | {answers} of "
              f"{int(count * seconds / every)} | {least} to {most} | "
              f"{' | '.join(f'{it / 1000:.0f} ms' for it in waits)} | {count + anew} |", flush=True)


class Postgres:
    """A server with the tables of pgbench, over 20 branches."""

    def __init__(self, tools, place):
        self.programs = sorted(os.listdir("/usr/lib/postgresql"))[-1]
        folder, slow = PLACES[place]
        self.work = tempfile.mkdtemp(dir=folder)
        os.chmod(self.work, 0o755)
        shutil.chown(self.work, "postgres")
        preload = [f"LD_PRELOAD={tools}/slow_sync", f"SLOW_SYNC_US={slow}"] if slow else []
        self.ask("initdb", "-D", self.work + "/data", "-A", "trust")
        self.ask("pg_ctl", "-D", self.work + "/data", "-w", "start", "-l", self.work + "/log", "-o",
                 f"-k {self.work} -h '' -p 5499 -c max_connections=300", environment=preload)
        self.ask("createdb", "-h", self.work, "-p", "5499", "bank")
        self.ask("pgbench", "-h", self.work, "-p", "5499", "-i", "-s", "20", "-q", "bank")

    def ask(self, name, *words, environment=()):
        program = f"/usr/lib/postgresql/{self.programs}/bin/{name}"
        return subprocess.run(["runuser", "-u", "postgres", "--", "env", *environment, program, *words], check=True,
                              cwd=self.work, stdout=subprocess.PIPE, stderr=subprocess.DEVNULL, text=True).stdout

    def rate(self, clients, seconds):
        said = self.ask("pgbench", "-h", self.work, "-p", "5499", "-c", str(clients), "-j", str(min(clients, 4)), "-T",
                        str(int(seconds)), "-M", "prepared", "-n", "bank")
        return float(re.search(r"tps = ([\d.]+)", said)[1])

    def stop(self):
        self.ask("pg_ctl", "-D", self.work + "/data", "-m", "fast", "-w", "stop")
        shutil.rmtree(self.work, ignore_errors=True)


def main():
    need_program()
    with tempfile.TemporaryDirectory() as tools:
        compiled(tools, "load")
        compiled(tools, "slow_sync", "-shared", "-fPIC", "-ldl")
        os.chmod(tools, 0o755)
        if sys.argv[1:2] == ["beside"]:
            print("| Tellers | Answers | Answers a teller | Median | 99th percentile | Latest | Connections |\n"
                  "|---|---|---|---|---|---|---|")
            seconds = float((sys.argv[2:] + ["10"])[0])
            for count, every, way in [(20, 0.2, None), (20, 1, None), (100, 0.2, None), (100, 1, None),
                                      *((20, 1, way) for way in WAYS)]:
                beside(tools, count, every, seconds, way)
            return
        words = sys.argv[1:] + ["3", "3", "1,4,16,64", "0"][len(sys.argv) - 1:]
        rounds, seconds, idle = int(words[0]), float(words[1]), int(words[3])
        counts = [int(it) for it in words[2].split(",")]
        programs = {"now": BANK} | ({"before": os.environ["BEFORE"]} if os.environ.get("BEFORE") else {})
        print("| | clients | system | postings a second | median, p99, latest (us) | of before | of one client |\n"
              "|---|---|---|---|---|---|---|")
        for place in PLACES:
            measure(tools, programs, place, counts, idle, rounds, seconds)


def measure(tools, programs, place, counts, idle, rounds, seconds):
    got = defaultdict(list)
    postgres = Postgres(tools, place) if os.path.isdir("/usr/lib/postgresql") and not idle else None
    for number in range(rounds):
        for count in counts:
            for name in list(programs)[:: 1 if number % 2 else -1]:
                got[name, count].append(served(tools, programs[name], place, count, idle, seconds))
            if postgres:
                got["postgres", count].append((postgres.rate(count, seconds), 0, 0, 0, 0))
    if postgres:
        postgres.stop()
    for count in counts:
        for name in [*programs, *(["postgres"] if postgres else [])]:
            middle = [statistics.median(values) for values in zip(*got[name, count])]
            of = [statistics.median(one[0] / other[0] for one, other in zip(got[name, count], got[key]))
                  if got.get(key) else 0 for key in (("before", count), (name, counts[0]))]
            print(f"| {place} | {count}{f' beside {idle} idle' if idle else ''} | {name} | {middle[0]:,.0f} "
                  f"| {middle[1]:,.0f}, {middle[2]:,.0f}, {middle[3]:,.0f} | {of[0]:.2f} | {of[1]:.2f} |", flush=True)
        print(f"<!-- most memory with {count}: {max(it[4] for it in got['now', count])} KB -->", flush=True)


main()
