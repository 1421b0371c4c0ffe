"""A bank on the volume of examples/cluster, on three hosts, and 16 tellers who post over HTTP from a fourth. Each host
is a network, process and mount namespace with a glusterd, a replica, a mount and a counter that is started again every
second, as the units do. Each round something fails at a random moment:

    brick   the process of a replica is killed
    serve   the counter is killed
    other   a host that doesn't serve is gone: its link, and then all its processes
    lost    the serving host is gone: its link, and then all its processes
    cut     the serving host's link goes down, and the counter there is asked on
    idle    the same while nobody posts; the counter there is asked when the link has been up again for a while
    short   the same for up to eight seconds, so that it may come back before another host serves
    two     the processes of two replicas are killed: nothing may be answered until one is back

After each round the replicas are equal, the bank audits and replays, each answered posting stands once with its reply,
none stands that wasn't sent, and a host that was cut off has answered nothing more since another one served.

It needs root, the built program, and Debian's glusterfs-server and glusterfs-client. KINDS names the failures that are
drawn from, SET options of the volume (`client.strict-locks off`), and CLIENT is the client's command."""
import ctypes
import os
import random
import re
import shutil
import socket
import statistics
import subprocess
import threading
import time

from serve_client import BANK, HERE, check_books, copy_bank, ensure, make_bank, post, read_answer, record, within

KINDS = (os.environ.get("KINDS") or "brick serve other lost lost cut cut idle idle short two").split()
UNIT = open(HERE + "/examples/cluster/bank-volume.service").read().replace("\\\n", "")
CLIENT = os.environ.get("CLIENT") or re.search("^ExecStart=(.*) /var/lib/bank$", UNIT, re.M)[1]
PORT, TELLERS, PLAN = 8080, 16, [(1, 100), (2, 100), (3, 100)]
# Who posts at a host that was cut off.
PROBE = 21
# The address that keepalived moves, by which the last of the tellers posts.
SHARED = "10.77.0.9"
ENTER_NETWORK = 0x40000000
BOOT = """
mount --bind {0}/lib /var/lib/glusterd && mount --bind {0}/log /var/log/glusterfs && mount --bind {0}/replica {1}
mount -t tmpfs run /run && mkdir /run/gluster && mount -t proc proc /proc && glusterd -p /run/glusterd.pid
while :; do sleep 1; done"""
# The mount and the counter, started again as by the units; somebody looks at the files meanwhile.
JOIN = """
while :; do {1} {0}/mount; umount --lazy {0}/mount; sleep 1; done &
until mountpoint -q {0}/mount; do sleep 0.2; done
while :; do ls -l {0}/mount; sleep 0.2; done >/dev/null &
keepalived --dont-fork --log-console --use-file {4}/examples/cluster/keepalived.conf &
while :; do
    if [ ! -e {0}/held ] && mountpoint -q {0}/mount; then
        {2} serve {0}/mount/bank.db 0.0.0.0:{3} --connections 1000000 & echo $! >{0}/pid; wait $!; echo "ended $?"
    fi
    sleep 1
done"""


def run(*words, **more):
    return subprocess.run(words, check=True, stdout=subprocess.PIPE, stderr=subprocess.STDOUT, text=True, **more).stdout


def enter_network(name):
    """This thread's sockets are in the namespace from now on."""
    with open("/run/netns/" + name) as file:
        if ctypes.CDLL(None, use_errno=True).setns(file.fileno(), ENTER_NETWORK):
            raise OSError(ctypes.get_errno(), name)


def ask(address, body, wait):
    """The status and the body of an answer, or none."""
    try:
        with socket.create_connection((address, PORT), timeout=wait) as connection:
            connection.sendall(post(body, close=True))
            return (read_answer(connection, b"") or [None])[:2]
    except OSError:
        return [None]


class Host:
    def __init__(self, number, folder):
        self.number, self.address, self.network = number, f"10.77.0.{number}", f"bank{number}"
        self.folder, self.replica, self.init = f"{folder}/{number}", folder + "/replica", None
        for it in ("lib", "log", "replica", "mount"):
            os.makedirs(f"{self.folder}/{it}")
        shutil.copytree("/var/lib/glusterd/groups", self.folder + "/lib/groups")
        self.told = open(self.folder + "/told", "a+")

    def boot(self):
        self.set_link("up")
        words = ["nsenter", "--net=/run/netns/" + self.network, "unshare", "--mount", "--pid", "--fork", "--kill-child",
                 "--propagation", "private", "bash", "-c", BOOT.format(self.folder, self.replica)]
        self.init = subprocess.Popen(words, stdin=subprocess.DEVNULL, stdout=self.told, stderr=self.told)
        children = f"/proc/{self.init.pid}/task/{self.init.pid}/children"
        self.first = within(10, "a process of its own", lambda: open(children).read().split())[0]
        within(30, "glusterd", lambda: not self.call("gluster pool list").returncode)

    def words(self, script):
        return ["nsenter", "-t", self.first, "--net", "--mount", "--pid", "bash", "-c", script]

    def call(self, script):
        return subprocess.run(self.words(script), stdout=subprocess.PIPE, stderr=subprocess.STDOUT, text=True)

    def join(self):
        script = JOIN.format(self.folder, CLIENT, BANK, PORT, HERE)
        subprocess.Popen(self.words(script), stdin=subprocess.DEVNULL, stdout=self.told, stderr=self.told)

    def set_link(self, state):
        run("ip", "-n", "bank0", "link", "set", "p" + str(self.number), state)

    def lose(self):
        """The machine is gone, and says goodbye to nobody."""
        self.set_link("down")
        self.init.kill()
        self.init.wait()

    def kill_brick(self):
        self.call("kill -9 $(cat /run/gluster/vols/bank/*.pid)")

    def kill_serve(self):
        self.call(f"kill -9 $(cat {self.folder}/pid)")

    def ends(self):
        """How often the counter has ended here."""
        return open(self.folder + "/told").read().count("ended ")


class Teller(threading.Thread):
    """Sends a posting to one host after another until it is answered, and then the next."""

    def __init__(self, drill, teller):
        super().__init__(daemon=True)
        self.drill, self.teller, self.number, self.replies, self.is_idle = drill, teller, 0, {}, False
        self.longest, self.sent = 0, 0

    def run(self):
        enter_network("bank4")
        while True:
            self.is_idle = not self.drill.is_open
            if not self.is_idle:
                self.number += 1
                delta = random.randint(-999, 999)
                branch, self.sent = (self.teller - 1) // 10 + 1, time.monotonic()
                body = record(random.choice((1, 2, 100001, 200001)), self.teller, branch, self.number, delta)
                self.replies[self.number] = self.answered(body), delta
                self.longest = max(self.longest, time.monotonic() - self.sent)
            time.sleep(random.uniform(0, 0.05))

    def answered(self, body):
        is_shared = self.teller == TELLERS
        while True:
            host = self.drill.front
            status, *reply = ask(SHARED if is_shared else host.address, body, 3)
            if status == 200:
                self.drill.acks += [] if is_shared else [(time.monotonic(), host)]
                return reply[0]
            if self.drill.front is host and not is_shared:
                self.drill.front = self.drill.hosts[host.number % 3]
            time.sleep(0.05)


class Probe(threading.Thread):
    """Asks the counter of a host from that host itself, a new posting each time, whether it is answered or not."""

    def __init__(self, drill, host):
        super().__init__(daemon=True)
        self.drill, self.host, self.acks, self.refusals, self.is_over = drill, host, [], 0, False
        self.start()

    def run(self):
        enter_network(self.host.network)
        while not self.is_over:
            self.drill.asked += 1
            number = self.drill.asked
            status, *reply = ask("127.0.0.1", record(1, PROBE, 3, number, 1), 20)
            if status == 200:
                self.drill.probed[number] = reply[0], 1
                self.acks.append(time.monotonic())
            self.refusals += status == 503
            time.sleep(0.1)

    def answered_since(self, moment):
        """Ends it, and counts its answers since then."""
        self.is_over = True
        self.join()
        return sum(it > moment for it in self.acks)


class Drill:
    def __init__(self, folder):
        self.folder, self.is_open, self.acks, self.probed, self.asked, self.tellers = folder, False, [], {}, 0, []
        os.mkdir(folder + "/replica")
        self.hosts = [Host(number, folder) for number in (1, 2, 3)]
        self.front, self.kind, self.kinds, self.refusals = self.hosts[0], "the start", [], []

    def begin(self):
        self.boot()
        self.tellers = [Teller(self, it) for it in range(1, TELLERS + 1)]
        for it in self.tellers:
            it.start()

    def boot(self):
        run("ip", "netns", "add", "bank0")
        run("ip", "-n", "bank0", "link", "add", "name", "switch", "type", "bridge")
        run("ip", "-n", "bank0", "link", "set", "switch", "up")
        for number in range(1, 5):
            here, port = f"bank{number}", f"p{number}"
            run("ip", "netns", "add", here)
            run("ip", "-n", "bank0", "link", "add", "name", port, "type", "veth", "peer", "name", "eth0", "netns", here)
            run("ip", "-n", "bank0", "link", "set", port, "master", "switch", "up")
            run("ip", "-n", here, "addr", "add", f"10.77.0.{number}/24", "dev", "eth0")
            for it in ("lo", "eth0"):
                run("ip", "-n", here, "link", "set", it, "up")
        for host in self.hosts:
            host.boot()
        self.make_volume()

    def make_volume(self):
        """By the example's script, and a bank on it."""
        words = " ".join(it.address for it in self.hosts)
        scripts = [f"{HERE}/examples/cluster/volume.sh {words} {self.folder}/replica force"]
        scripts += [f"gluster --mode=script volume set bank {it}" for it in os.environ.get("SET", "").split(",") if it]
        for script in scripts:
            made = self.hosts[0].call(script)
            ensure(not made.returncode, made.stdout)
        self.hold(True)
        for host in self.hosts:
            host.join()
        make_bank(self.folder + "/bank.db", PLAN)
        mount = self.hosts[0].folder + "/mount"
        within(60, "a mount", lambda: not self.hosts[0].call("mountpoint -q " + mount).returncode)
        self.hosts[0].call(f"cp {self.folder}/bank.db* {mount}/")
        self.hold(False)

    def hold(self, is_held):
        """Whether counters are started."""
        for host in self.hosts:
            if is_held:
                open(host.folder + "/held", "w").close()
            elif os.path.exists(host.folder + "/held"):
                os.remove(host.folder + "/held")

    def acks_since(self, moment, but=None):
        return [it for it in self.acks[-5000:] if it[0] > moment and it[1] is not but]

    def answered_since(self, moment, but=None):
        """Waits for an answer of a host, other than one, and gives the seconds to the first one and its host."""
        first = within(90, "an answer", lambda: self.acks_since(moment, but))[0]
        return first[0] - moment, first[1]

    def brick(self, front, now):
        random.choice(self.hosts).kill_brick()
        time.sleep(random.uniform(0, 3))
        return self.answered_since(self.start_bricks())

    def start_bricks(self):
        self.hosts[0].call("gluster --mode=script volume start bank force")
        return time.monotonic()

    def serve(self, front, now):
        front.kill_serve()
        return self.answered_since(time.monotonic() + 0.02)

    def lost(self, front, now):
        return self.gone(front, lambda: self.answered_since(now, front))

    def other(self, front, now):
        host = self.hosts[(front.number + random.choice((0, 1))) % 3]
        return self.gone(host, lambda: self.answered_since(time.monotonic() + 0.5))

    def gone(self, host, answered):
        host.lose()
        taken = answered()
        time.sleep(random.uniform(0, 3))
        host.boot()
        host.join()
        return taken

    def cut(self, front, now, is_asked=True):
        ends = front.ends()
        if not is_asked:
            # Nothing is on its way to the replicas when the link goes down.
            self.pause()
            now = time.monotonic()
        front.set_link("down")
        self.is_open = True
        probe = Probe(self, front) if is_asked else None
        taken = self.answered_since(now, front)
        time.sleep(random.uniform(0, 5))
        front.set_link("up")
        if not is_asked:
            # Its mount finds the replicas again meanwhile.
            time.sleep(random.uniform(0, 15))
            probe = Probe(self, front)
        try:
            within(60, "the end of the counter that was cut off", lambda: front.ends() > ends)
            time.sleep(random.uniform(0, 3))
        finally:
            late = probe.answered_since(now + taken[0])
            self.refusals.append(probe.refusals)
            ensure(not late, f"host {front.number} answered {late} postings after host {taken[1].number} did")
        return taken

    def idle(self, front, now):
        return self.cut(front, now, False)

    def short(self, front, now):
        probe = Probe(self, front)
        front.set_link("down")
        time.sleep(random.uniform(0, 8))
        front.set_link("up")
        taken = self.answered_since(time.monotonic())
        time.sleep(random.uniform(1, 3))
        probe.answered_since(now)
        return taken

    def two(self, front, now):
        for host in random.sample(self.hosts, 2):
            host.kill_brick()
        time.sleep(0.5)
        gone = time.monotonic()
        time.sleep(random.uniform(1, 5))
        acks = len(self.acks_since(gone))
        back = self.start_bricks()
        ensure(not acks, f"{acks} postings were answered with one replica of three")
        return self.answered_since(back)

    def round(self, number):
        """One failure; each kind comes before one comes again."""
        numbers = [it.number + 1 for it in self.tellers]
        self.kinds = self.kinds or random.sample(KINDS, len(KINDS))
        self.kind, self.is_open = self.kinds.pop(), True
        within(90, "answers", lambda: all(it.number > past for it, past in zip(self.tellers, numbers)))
        time.sleep(random.uniform(0.3, 2))
        front, count = self.front, len(self.acks)
        for it in self.tellers:
            it.longest = 0
        taken, host = getattr(self, self.kind)(front, time.monotonic())
        time.sleep(random.uniform(0.3, 1))
        self.pause()
        longest, shared = max(it.longest for it in self.tellers[:-1]), self.tellers[-1].longest
        answered = f"host {front.number}: answered by host {host.number} after {taken:.1f} s"
        print(f"{number:3} {self.kind:5} {answered}; the longest wait {longest:.1f} s, at the shared address {shared:.1f} s; "
              f"{len(self.acks) - count} postings", flush=True)
        self.check()
        return self.kind, longest, shared

    def pause(self):
        """Waits until each teller has an answer and sends nothing more."""
        self.is_open = False
        within(60, "an answer to each teller", lambda: all(it.is_idle for it in self.tellers))

    def check(self):
        """The three replicas are one file, and the books are what was answered."""
        self.hold(True)
        for host in self.hosts:
            host.kill_serve()
        within(120, "three equal replicas", self.is_healed)
        copy = self.folder + "/copy.db"
        copy_bank(self.hosts[0].folder + "/replica/bank.db", copy)
        answered = {(it.teller, number): reply for it in self.tellers for number, reply in it.replies.items()}
        answered |= {(PROBE, number): reply for number, reply in self.probed.items()}
        more = [key for key in check_books(copy, answered) if key[0] != PROBE]
        ensure(not more, f"{more} stand, and nobody has an answer")
        self.hold(False)

    def told(self):
        """Who has waited for how many seconds, and where they ask."""
        waits = {it.teller: round(time.monotonic() - it.sent) for it in self.tellers if not it.is_idle}
        return f"{self.kind}; seconds of each teller who waits, at host {self.front.number}: {waits}"

    def tell(self, rounds):
        for kind in sorted({it[0] for it in rounds}):
            waits, shared = ([it[part] for it in rounds if it[0] == kind] for part in (1, 2))
            print(f"{kind}: {len(waits)} rounds, the longest wait {statistics.median(waits):.1f} s in the median, "
                  f"{max(waits):.1f} at most; at the shared address {statistics.median(shared):.1f} and {max(shared):.1f}")
        refused = sum(it > 0 for it in self.refusals)
        print(f"of {len(self.refusals)} counters that were cut off and asked on, {refused} answered 503 before they ended")
        print(f"failover: {len(rounds)} rounds in which each of {len(self.acks)} answered postings stands once")

    def is_healed(self):
        told = self.hosts[0].call("gluster volume heal bank >/dev/null; gluster volume heal bank info").stdout
        folders = [f"{it.folder}/replica/bank.db" for it in self.hosts]
        if told.count("Number of entries: 0") < 3:
            return False
        return all(len({open(it + end, "rb").read() for it in folders}) == 1 for end in ("", "-wal"))

    def end(self):
        for host in self.hosts:
            if host.init:
                host.lose()
        for number in range(5):
            subprocess.run(["ip", "netns", "del", f"bank{number}"], stderr=subprocess.DEVNULL)
