"""How many postings a second `serve` answers to clients on loopback of its host, each asking when it has its answer: over a
quorum of etcd's members and over the volume of examples/cluster, with three hosts as in the drills, and on the plain disk,
all on one machine's disk. Each round goes through all of them, with a new bank for each count of clients, which is audited
then and has as many postings as were answered. `puts` are those of one entry, and of 64, one after another to a member of
the quorum, with no bank before it.

CLIENTS are the counts, LASTS how many seconds each run takes, and PLACES which are measured."""
import base64
import http.client
import json
import os
import re
import statistics
import subprocess
import threading
import time

import failover_quorum
import failover_volume
from failover_volume import PORT, enter_network
from serve_client import BANK, HERE, Server, clear, copy_bank, done, ensure, make_bank, within

CLIENTS = [int(it) for it in (os.environ.get("CLIENTS") or "1 16 64").split()]
SECONDS = float(os.environ.get("LASTS") or "5")
PLACES = (os.environ.get("PLACES") or "disk quorum volume").split()
PLAN = [(1, 1000), (2, 1000)]


class Puts(threading.Thread):
    """Puts so many entries and the end behind them at a host's member, again and again."""

    def __init__(self, host, count):
        super().__init__(daemon=True)
        self.host, self.count, self.waits = host, count, []
        self.start()
        self.join()

    def put(self, connection, place):
        key, end = b"bank/bare/log/%020d" % place, b"bank/bare/end"
        puts = [(key, bytes(failover_quorum.ENTRY * self.count)), (end, b"%020d" % (place + self.count))]
        text = [{name: base64.b64encode(it).decode() for name, it in zip(("key", "value"), put)} for put in puts]
        connection.request("POST", "/v3/kv/txn", json.dumps({"success": [{"requestPut": it} for it in text]}))
        ensure(json.loads(connection.getresponse().read()).get("succeeded"), "a put wasn't done")

    def run(self):
        enter_network(self.host.network)
        connection = http.client.HTTPConnection("127.0.0.1", 2379, timeout=60)
        begun = before = time.monotonic()
        while before < begun + SECONDS:
            self.put(connection, len(self.waits) * self.count)
            now = time.monotonic()
            self.waits.append(now - before)
            before = now

    def said(self):
        """As `load` says it, of entries."""
        ordered = sorted(int(it * 1_000_000) for it in self.waits)
        rate = int(len(ordered) * self.count / sum(self.waits))
        return len(ordered), rate, ordered[len(ordered) // 2], ordered[len(ordered) * 99 // 100], ordered[-1]


class Drill:
    def __init__(self, folder):
        self.folder, self.load, self.hosts, self.got = folder, folder + "/load", None, {}

    def begin(self):
        words = [os.environ.get("CC", "cc"), "-O2", "-o", self.load, HERE + "/bench/load.c"]
        subprocess.run(words, check=True)
        failover_quorum.PLAN = failover_volume.PLAN = PLAN

    def round(self, number):
        for place in PLACES[::1 if number % 2 else -1]:
            folder = f"{self.folder}/{place}{number}"
            os.mkdir(folder)
            for what, count, said in getattr(self, place)(folder):
                self.got.setdefault((what, count), []).append(said)
                print(f"{number:3} {what:9} {count:3}: {said[1]} a second; median {said[2] / 1000:.1f} ms, 99th "
                      f"percentile {said[3] / 1000:.1f}, latest {said[4] / 1000:.1f}", flush=True)
        return number

    def loaded(self, clients, port, *before):
        """What `load` says: how many were answered, a second, the median, the 99th percentile, the latest."""
        words = [*before, self.load, str(port), str(clients), "0", str(int(SECONDS * 1000)), "0"]
        told = subprocess.run(words, check=True, stdout=subprocess.PIPE, text=True, timeout=SECONDS + 120).stdout
        said = [*map(int, told.split(","))]
        ensure(not said[5], f"{said[5]} answers weren't POSTED")
        return said

    def audited(self, file, count):
        told = done("audit", file).decode()
        ensure(told.endswith("\nCONSISTENT\n") and int(re.search(r"history\s+(\d+)", told)[1]) == count, told)

    def disk(self, folder):
        for clients in CLIENTS:
            make_bank(folder + "/bank.db", PLAN)
            server = Server(folder + "/bank.db", 1_000_000)
            said = self.loaded(clients, server.port)
            server.kill()
            self.audited(folder + "/bank.db", said[0])
            yield "disk", clients, said

    def quorum(self, folder):
        self.hosts = drill = failover_quorum.Drill(folder)
        drill.boot()
        for clients in CLIENTS:
            drill.stop_counters()
            for host in drill.hosts:
                make_bank(host.file, PLAN)
            drill.hosts[0].call("etcdctl del --prefix bank/office/log/; etcdctl put bank/office/end " + "0" * 20)
            drill.hold(False)
            host = self.served(drill)
            said = self.loaded(clients, PORT, "nsenter", "--net=/run/netns/" + host.network)
            drill.stop_counters()
            copy_bank(host.file, folder + "/copy.db")
            self.audited(folder + "/copy.db", said[0])
            ensure(done("log", folder + "/copy.db") == drill.log(), "the quorum has another log")
            yield "quorum", clients, said
        for count in (1, 64):
            yield "puts of", count, Puts(drill.hosts[0], count).said()
        self.end()

    def volume(self, folder):
        self.hosts = drill = failover_volume.Drill(folder)
        drill.boot()
        for clients in CLIENTS:
            drill.hold(True)
            for host in drill.hosts:
                host.kill_serve()
            make_bank(folder + "/bank.db", PLAN)
            mount = drill.hosts[0].folder + "/mount"
            within(60, "a file that nobody has", lambda: not drill.hosts[0].call(
                f"rm -f {mount}/bank.db*; cp {folder}/bank.db* {mount}/").returncode)
            drill.hold(False)
            host = self.served(drill)
            said = self.loaded(clients, PORT, "nsenter", "--net=/run/netns/" + host.network)
            drill.hold(True)
            host.kill_serve()
            clear(folder + "/copy.db")
            host.call(f"for it in {host.folder}/mount/bank.db*; do cp $it {folder}/copy.db${{it##*bank.db}}; done")
            self.audited(folder + "/copy.db", said[0])
            yield "volume", clients, said
        self.end()

    def served(self, drill):
        """The host whose counter listens."""
        is_open = f"exec 3<>/dev/tcp/127.0.0.1/{PORT}"
        return within(90, "a counter", lambda: next((it for it in drill.hosts if not it.call(is_open).returncode), None))

    def told(self):
        return ""

    def tell(self, rounds):
        print("| | clients | a second, median (least to most) | median, 99th percentile, latest in ms |\n|---|---|---|---|")
        for (what, count), all_of in self.got.items():
            rates = [it[1] for it in all_of]
            waits = ", ".join(f"{statistics.median(it[part] for it in all_of) / 1000:.1f}" for part in (2, 3))
            print(f"| {what} | {count} | {statistics.median(rates):,.0f} ({min(rates):,} to {max(rates):,}) | {waits}, "
                  f"{max(it[4] for it in all_of) / 1000:.0f} |")
        print(f"rates: {len(rounds)} rounds of {BANK}")

    def end(self):
        if self.hosts:
            self.hosts.end()
            self.hosts = None
