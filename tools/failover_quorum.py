"""A bank over a log that a quorum of etcd's members keeps, on three hosts, and 16 tellers who post over HTTP from a fourth.
Each host is a network and a process namespace with a member, a file of its own and a counter that waits for the lock, each
started again every second, as by the units of examples/quorum. Each round something fails at a random moment:

    serve   the counter is killed
    member  a member is killed
    two     two members are killed: nothing may be answered until one is back
    other   a host that doesn't serve is gone: its link, and then all its processes
    lost    the serving host is gone: its link, and then all its processes
    cut     the serving host's link goes down for longer than the lease, and the counter there is asked on
    idle    the same while nobody posts; the counter there is asked when the link has been up again for a while
    short   the same for up to two seconds
    full    a member's disk is full, until it is emptied
    anew    a host's file is gone, and is made anew when its counter starts
    clock   the clock of a host's counter jumps by up to ten minutes, and stays there
    aside   `bank post` posts into the file of a host that stands by, without the quorum: its counter names the difference
    alone   the same on the host that serves next: its counter appends it

After each round each answered posting stands once, with its reply, in the log and in the file of whoever served last; each
file's entries are the first of the log's; that file audits and replays; and a host that was cut off has answered nothing
more since another one served.

It needs root, the built program, and Debian's etcd-server, etcd-client and faketime. The members' clocks aren't moved, since
programs of Go ask the kernel for the time, and not the C library. KINDS names the failures that are drawn from."""
import os
import random
import statistics
import subprocess
import threading
import time

from failover_volume import PORT, PROBE, Probe, ask, enter_network, run
from serve_client import BANK, HERE, check_books, copy_bank, done, ensure, make_bank, record, within

KINDS = (os.environ.get("KINDS") or
         "serve member two other lost lost cut cut idle short full anew clock aside alone").split()
# Who posts into a file without the quorum.
ASIDE = 22
FAKETIME = "/usr/lib/x86_64-linux-gnu/faketime/libfaketime.so.1"
PROGRAM = """#!/bin/sh
LD_PRELOAD={1} FAKETIME_TIMESTAMP_FILE={0}/clock FAKETIME_CACHE_DURATION=1 DONT_FAKE_MONOTONIC=1 exec {2} "$@"
"""
TELLERS, PLAN, ENTRY = 16, [(1, 100), (2, 100), (3, 100)], 308
# The member's disk, in megabytes.
DISK = 192
MEMBERS = ",".join(f"h{it}=http://10.77.0.{it}:2380" for it in (1, 2, 3))
BOOT = """
export ETCDCTL_API=3
mount -t proc proc /proc; mount {0}/disk.img {0}/etcd || exit
(while :; do
    etcd --name h{1} --data-dir {0}/etcd/data --listen-client-urls http://127.0.0.1:2379 \
        --advertise-client-urls http://127.0.0.1:2379 --listen-peer-urls http://10.77.0.{1}:2380 \
        --initial-advertise-peer-urls http://10.77.0.{1}:2380 --initial-cluster {2} >>{0}/etcd.log 2>&1 & echo $! >{0}/member
    wait $!; sleep 1
done) &
while :; do
    if [ ! -e {0}/held ]; then
        if [ ! -e {0}/bank.db ]; then {3} init {0}/bank.db && {3} load {0}/bank.db {0}/../plan.csv; fi
        TMPDIR={0} BANK={0}/bank PLAN={0}/../plan.csv {5}/examples/quorum/counter.sh {0}/bank.db 0.0.0.0:{4}
        echo "ended $?"
    fi
    sleep 1
done"""


class Host:
    def __init__(self, number, folder):
        self.number, self.address, self.network = number, f"10.77.0.{number}", f"bank{number}"
        self.folder, self.file, self.init = f"{folder}/{number}", f"{folder}/{number}/bank.db", None
        os.makedirs(self.folder + "/etcd")
        run("truncate", "-s", f"{DISK}M", self.folder + "/disk.img")
        run("mkfs.ext4", "-q", self.folder + "/disk.img")
        self.told = open(self.folder + "/told", "a+")
        self.set_clock(0)
        with open(self.folder + "/bank", "w") as program:
            program.write(PROGRAM.format(self.folder, FAKETIME, BANK))
        os.chmod(self.folder + "/bank", 0o755)

    def set_clock(self, seconds):
        with open(self.folder + "/clock", "w") as clock:
            clock.write(f"{seconds:+d}")

    def boot(self):
        self.set_link("up")
        words = ["nsenter", "--net=/run/netns/" + self.network, "unshare", "--mount", "--pid", "--fork", "--kill-child",
                 "--propagation", "private", "bash", "-c", BOOT.format(self.folder, self.number, MEMBERS, BANK, PORT, HERE)]
        self.init = subprocess.Popen(words, stdin=subprocess.DEVNULL, stdout=self.told, stderr=self.told)
        children = f"/proc/{self.init.pid}/task/{self.init.pid}/children"
        self.first = within(10, "a process of its own", lambda: open(children).read().split())[0]

    def call(self, script):
        words = ["nsenter", "-t", self.first, "--net", "--mount", "--pid", "bash", "-c", "export ETCDCTL_API=3; " + script]
        return subprocess.run(words, stdout=subprocess.PIPE, stderr=subprocess.STDOUT, text=True)

    def set_link(self, state):
        run("ip", "-n", "bank0", "link", "set", "p" + str(self.number), state)

    def lose(self):
        """The machine is gone, and says goodbye to nobody."""
        self.set_link("down")
        self.init.kill()
        self.init.wait()

    def kill_member(self):
        self.call(f"kill -9 $(cat {self.folder}/member)")

    def kill_serve(self):
        self.call(f"kill -9 $(pgrep -f '^{BANK} serve')")

    def hold(self, is_held):
        """Whether its counter is started."""
        if is_held:
            open(self.folder + "/held", "w").close()
        elif os.path.exists(self.folder + "/held"):
            os.remove(self.folder + "/held")

    def is_stopped(self):
        return self.call(f"pgrep -f '^{BANK} serve'").returncode

    def post(self, body):
        """Posts a record into its file, without the quorum, while its counter is stopped."""
        self.hold(True)
        self.kill_serve()
        within(30, "no counter", self.is_stopped)
        ensure(b"POSTED" in done("post", self.file, data=body), "a record wasn't posted into the file")

    def fill(self):
        self.call(f"dd if=/dev/zero of={self.folder}/etcd/filler bs=1M")

    def empty(self):
        self.call(f"rm -f {self.folder}/etcd/filler; etcdctl alarm disarm; kill -9 $(cat {self.folder}/member)")

    def ends(self, how="ended "):
        """How often the counter has ended here, or has said so."""
        return open(self.folder + "/told").read().count(how)


class Teller(threading.Thread):
    """Sends a posting to one host after another until it is answered, and then the next."""

    def __init__(self, drill, teller):
        super().__init__(daemon=True)
        self.drill, self.teller, self.number, self.replies, self.is_idle = drill, teller, 0, {}, False
        self.longest, self.sent = 0, 0

    def run(self):
        enter_network("bank4")
        while True:
            self.is_idle = not self.drill.is_open
            if not self.is_idle:
                self.number += 1
                delta, self.sent = random.randint(-999, 999), time.monotonic()
                body = record(random.choice((1, 2, 100001, 200001)), self.teller, (self.teller - 1) // 10 + 1,
                              self.number, delta)
                self.replies[self.number] = self.answered(body), delta
                self.longest = max(self.longest, time.monotonic() - self.sent)
            time.sleep(random.uniform(0, 0.05))

    def answered(self, body):
        while True:
            host = self.drill.front
            status, *reply = ask(host.address, body, 3)
            if status == 200:
                self.drill.acks.append((time.monotonic(), host))
                return reply[0]
            if self.drill.front is host:
                self.drill.front = self.drill.hosts[host.number % 3]
            time.sleep(0.05)


class Drill:
    def __init__(self, folder):
        self.folder, self.is_open, self.acks, self.probed, self.asked, self.tellers = folder, False, [], {}, 0, []
        self.hosts = [Host(number, folder) for number in (1, 2, 3)]
        self.front, self.kind, self.kinds, self.refusals = self.hosts[0], "the start", [], []
        self.count_aside = 0

    def begin(self):
        self.boot()
        self.tellers = [Teller(self, it) for it in range(1, TELLERS + 1)]
        for it in self.tellers:
            it.start()

    def boot(self):
        run("ip", "netns", "add", "bank0")
        run("ip", "-n", "bank0", "link", "add", "name", "switch", "type", "bridge")
        run("ip", "-n", "bank0", "link", "set", "switch", "up")
        for number in range(1, 5):
            here, port = f"bank{number}", f"p{number}"
            run("ip", "netns", "add", here)
            run("ip", "-n", "bank0", "link", "add", "name", port, "type", "veth", "peer", "name", "eth0", "netns", here)
            run("ip", "-n", "bank0", "link", "set", port, "master", "switch", "up")
            run("ip", "-n", here, "addr", "add", f"10.77.0.{number}/24", "dev", "eth0")
            for it in ("lo", "eth0"):
                run("ip", "-n", here, "link", "set", it, "up")
        with open(self.folder + "/plan.csv", "w") as plan:
            plan.write("branch,accounts\n" + "".join(f"{branch},{accounts}\n" for branch, accounts in PLAN))
        self.hold(True)
        for host in self.hosts:
            make_bank(host.file, PLAN)
            host.boot()
        within(60, "a log", lambda: not self.hosts[0].call("etcdctl put bank/office/end " + "0" * 20).returncode)
        self.hold(False)

    def hold(self, is_held):
        """Whether counters are started."""
        for host in self.hosts:
            host.hold(is_held)

    def acks_since(self, moment, but=None):
        return [it for it in self.acks[-5000:] if it[0] > moment and it[1] is not but]

    def answered_since(self, moment, but=None):
        """Waits for an answer of a host, other than one, and gives the seconds to the first one and its host."""
        first = within(90, "an answer", lambda: self.acks_since(moment, but))[0]
        return first[0] - moment, first[1]

    def others(self, front):
        return [it for it in self.hosts if it is not front]

    def serve(self, front, now):
        front.kill_serve()
        return self.answered_since(time.monotonic() + 0.02)

    def member(self, front, now):
        random.choice(self.hosts).kill_member()
        return self.answered_since(time.monotonic() + 0.02)

    def two(self, front, now):
        gone = random.sample(self.hosts, 2)
        for host in gone:
            # Its member isn't started again until then.
            host.call(f"kill -STOP $(cat {host.folder}/member)")
        stopped = time.monotonic()
        time.sleep(random.uniform(2, 8))
        late = len(self.acks_since(stopped + 0.2))
        back = time.monotonic()
        for host in gone:
            host.kill_member()
        ensure(not late, f"{late} postings were answered with one member of three")
        return self.answered_since(back)

    def other(self, front, now):
        return self.gone(random.choice(self.others(front)), lambda: self.answered_since(time.monotonic() + 0.5))

    def lost(self, front, now):
        return self.gone(front, lambda: self.answered_since(now, front))

    def gone(self, host, answered):
        host.lose()
        taken = answered()
        time.sleep(random.uniform(0, 3))
        host.boot()
        return taken

    def cut(self, front, now, is_asked=True):
        ends = front.ends()
        if not is_asked:
            self.pause()
            now = time.monotonic()
        front.set_link("down")
        self.is_open = True
        probe = Probe(self, front) if is_asked else None
        taken = self.answered_since(now, front)
        time.sleep(random.uniform(0, 5))
        front.set_link("up")
        if not is_asked:
            time.sleep(random.uniform(0, 5))
            probe = Probe(self, front)
        try:
            within(90, "the end of the counter that was cut off", lambda: front.ends() > ends)
        finally:
            late = probe.answered_since(now + taken[0])
            self.refusals.append(probe.refusals)
            is_back = any(it[1] is front for it in self.acks_since(now + taken[0]))
            ensure(is_back or not late, f"host {front.number} answered {late} postings after host {taken[1].number} did")
        return taken

    def idle(self, front, now):
        return self.cut(front, now, False)

    def short(self, front, now):
        front.set_link("down")
        time.sleep(random.uniform(0, 2))
        front.set_link("up")
        return self.answered_since(time.monotonic())

    def full(self, front, now):
        host = random.choice(self.hosts)
        host.fill()
        taken = self.answered_since(time.monotonic() + 1)
        time.sleep(random.uniform(0, 3))
        host.empty()
        return taken

    def anew(self, front, now):
        host = random.choice(self.hosts)
        host.lose()
        for end in ("", "-wal"):
            if os.path.exists(host.file + end):
                os.remove(host.file + end)
        host.boot()
        return self.answered_since(time.monotonic() + 0.5)

    def clock(self, front, now):
        random.choice((front, *self.hosts)).set_clock(random.randint(-600, 600))
        time.sleep(random.uniform(1.5, 4))
        return self.answered_since(time.monotonic())

    def record_aside(self):
        self.count_aside += 1
        return record(1, ASIDE, 3, self.count_aside, 1)

    def aside(self, front, now):
        host, body = random.choice(self.others(front)), self.record_aside()
        said = host.ends("another than the quorum's")
        host.post(body)
        host.hold(False)
        within(60, "a difference that is named", lambda: host.ends("another than the quorum's") > said or body in self.log())
        return self.answered_since(time.monotonic())

    def alone(self, front, now):
        host, body = random.choice(self.hosts), self.record_aside()
        self.pause()
        log = self.log()
        self.stop_counters()
        # It has followed to the end, or its file is made anew by what differs then.
        is_at_end = self.entries(host) == log
        host.post(body)
        said = host.ends("another than the quorum's")
        host.hold(False)
        within(60, "what was posted aside in the log, or a difference that is named",
               lambda: body in self.log() if is_at_end else host.ends("another than the quorum's") > said or body in self.log())
        self.hold(False)
        self.is_open = True
        return self.answered_since(time.monotonic())

    def stop_counters(self):
        self.hold(True)
        for host in self.hosts:
            host.kill_serve()
        within(30, "no counter", lambda: all(host.is_stopped() for host in self.hosts))

    def entries(self, host):
        """Those of a host's file."""
        copy_bank(host.file, host.folder + "/copy.db")
        return done("log", host.folder + "/copy.db")

    def round(self, number):
        """One failure; each kind comes before one comes again."""
        numbers = [it.number + 1 for it in self.tellers]
        self.kinds = self.kinds or random.sample(KINDS, len(KINDS))
        self.kind, self.is_open = self.kinds.pop(), True
        within(90, "answers", lambda: all(it.number > past for it, past in zip(self.tellers, numbers)))
        time.sleep(random.uniform(0.3, 2))
        front, count = self.front, len(self.acks)
        for it in self.tellers:
            it.longest = 0
        taken, host = getattr(self, self.kind)(front, time.monotonic())
        time.sleep(random.uniform(0.3, 1))
        self.pause()
        longest = max(it.longest for it in self.tellers)
        print(f"{number:3} {self.kind:6} host {front.number}: answered by host {host.number} after {taken:.1f} s; the longest "
              f"wait {longest:.1f} s; {len(self.acks) - count} postings", flush=True)
        self.check()
        return self.kind, taken, longest

    def pause(self):
        """Waits until each teller has an answer and sends nothing more."""
        self.is_open = False
        within(90, "an answer to each teller", lambda: all(it.is_idle for it in self.tellers))

    def log(self):
        """The entries that the quorum has, by a member's own reading of them."""
        told = b""
        for line in self.hosts[0].call("etcdctl get --prefix bank/office/log/ --hex --print-value-only").stdout.split():
            told += bytes.fromhex(line.replace("\\x", ""))
        return told

    def check(self):
        """Each file is a beginning of the log, and the books of the longest are what was answered."""
        self.stop_counters()
        within(60, "a quorum", lambda: not self.hosts[0].call("etcdctl get bank/office/end").returncode)
        log = self.log()
        files = {host: self.entries(host) for host in self.hosts if os.path.exists(host.file)}
        longest = max(files, key=lambda it: len(files[it]))
        for host, entries in files.items():
            common = min(len(entries), len(log))
            ensure(entries[:common] == log[:common] or len(entries) > 0 and self.is_tail(entries, log),
                   f"host {host.number}'s file isn't a beginning of the log")
        ensure(files[longest][:len(log)] == log, "no file has all of the log")
        answered = {(it.teller, number): reply for it in self.tellers for number, reply in it.replies.items()}
        answered |= {(PROBE, number): reply for number, reply in self.probed.items()}
        more = [key for key in check_books(longest.folder + "/copy.db", answered) if key[0] not in (PROBE, ASIDE)]
        ensure(not more, f"{more} stand, and nobody has an answer")
        self.hold(False)

    def is_tail(self, entries, log):
        """Only the last batch of a file may be its own: it was never answered, and its file is made anew."""
        place = next(it for it in range(0, len(entries), ENTRY) if entries[it:it + ENTRY] != log[it:it + ENTRY])
        return len(entries) - place <= 64 * ENTRY

    def told(self):
        """Who has waited for how many seconds, and where they ask."""
        waits = {it.teller: round(time.monotonic() - it.sent) for it in self.tellers if not it.is_idle}
        return f"{self.kind}; seconds of each teller who waits, at host {self.front.number}: {waits}"

    def tell(self, rounds):
        for kind in sorted({it[0] for it in rounds}):
            taken, waits = ([it[part] for it in rounds if it[0] == kind] for part in (1, 2))
            print(f"{kind}: {len(waits)} rounds, the next answer after {statistics.median(taken):.1f} s in the median, "
                  f"{max(taken):.1f} at most; the longest wait {statistics.median(waits):.1f} and {max(waits):.1f}")
        print(f"failover: {len(rounds)} rounds in which each of {len(self.acks)} answered postings stands once")

    def end(self):
        for host in self.hosts:
            if host.init:
                host.lose()
        for number in range(5):
            subprocess.run(["ip", "netns", "del", f"bank{number}"], stderr=subprocess.DEVNULL)
