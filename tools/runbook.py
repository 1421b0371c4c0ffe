#!/usr/bin/env python3
"""Plays docs/RUNBOOK.md, and what docs/USING.md says to set up, each command as it stands there: on two machines, which are
namespaces of this one with a root of their own over its system, a link between them, systemd as their first process, and
the package of the built program. Between the pages something is broken: the file's rights, its rows, room on the disk,
a whole machine. At each end every posting that was answered stands in the bank.

It needs root, and Debian's nginx, nftables, apache2-utils, openssl, sqlite3, curl, logrotate, psmisc, rsync and
openssh-server. Each unit is 2 or better by `systemd-analyze security`."""
import os
import re
import shutil
import subprocess
import sys
import tempfile
import textwrap
import time

from oracle import record
from serve_client import HERE, Failed, ensure, need_program, within

# What stands behind a command and has to be in its output.
RESULTS = ("active", "ok", "free", "AGREES", "CONSISTENT", "differs 0", "already version 4")
# No command takes longer than this, in seconds.
LONGEST = 120
BOOT = """
set -e
mount --make-rprivate /
mount -t overlay overlay -o lowerdir=/,upperdir=$1/upper,workdir=$1/work $1/root
cd $1/root
mount -t proc proc proc
mount -t sysfs -o ro sysfs sys
mount -t tmpfs tmpfs dev -o mode=755
for it in null zero full random urandom tty; do touch dev/$it; mount --bind /dev/$it dev/$it; done
mkdir dev/pts dev/shm
mount -t devpts -o newinstance,ptmxmode=0666 devpts dev/pts
ln -s pts/ptmx dev/ptmx
ln -s /proc/self/fd dev/fd
for it in run tmp; do mount -t tmpfs tmpfs $it; done
mkdir -p var/lib/bank
mount --bind $1/bank var/lib/bank
mount -t tmpfs tmpfs sys/fs/cgroup -o mode=755
mkdir sys/fs/cgroup/systemd sys/fs/cgroup/memory
mount -t cgroup -o none,name=systemd cgroup sys/fs/cgroup/systemd
mount -t cgroup -o memory cgroup sys/fs/cgroup/memory || true
find etc/systemd/system -path '*.wants/*' -delete
for it in systemd-sysctl systemd-modules-load systemd-remount-fs systemd-udevd systemd-udev-trigger; do
    ln -sf /dev/null etc/systemd/system/$it.service
done
echo $2 > etc/hostname
ip link set lo up
exec env -i container=drill PATH=/usr/sbin:/usr/bin:/sbin:/bin chroot . /lib/systemd/systemd --unit=basic.target
"""


def blocks(name, heading):
    """The commands of a section of a document, block by block."""
    with open(f"{HERE}/docs/{name}.md", encoding="utf-8") as file:
        text = re.search(rf"^#+ {re.escape(heading)}\n(.*?)(?=^#|\Z)", file.read(), re.M | re.S)
    ensure(text, f"{name} has no page {heading}")
    return [textwrap.dedent(it) for it in re.findall(r"(?:^ {4}.*\n)+", text[1], re.M)]


class Machine:
    def __init__(self, folder, number):
        self.folder, self.address, self.name = f"{folder}/{number}", f"10.77.0.{number}", f"machine{number}"
        self.process = self.first = None
        for part in ("upper", "work", "root", "bank"):
            os.makedirs(f"{self.folder}/{part}")
        subprocess.run(["mount", "-t", "tmpfs", "-o", "size=32m", "tmpfs", self.folder + "/bank"], check=True)

    def boot(self):
        """Starts it with the disk that it had; its system is as it was, but for mounts."""
        words = ["unshare", "--mount", "--pid", "--net", "--uts", "--ipc", "--cgroup", "--fork", "--kill-child",
                 "bash", "-c", BOOT, "boot", self.folder, self.name]
        self.process = subprocess.Popen(words, stdin=subprocess.DEVNULL, stdout=subprocess.DEVNULL, stderr=subprocess.DEVNULL)
        with_children = f"/proc/{self.process.pid}/task/{self.process.pid}/children"
        self.first = within(LONGEST, "a process", lambda: open(with_children).read().split())[0]
        within(LONGEST, f"{self.name} that runs",
               lambda: self.tries("systemctl is-system-running").stdout.strip() in (b"running", b"degraded"))

    def tries(self, script, data=b""):
        words = ["nsenter", "--target", self.first, "--mount", "--pid", "--net", "--uts", "--ipc", "--cgroup", "--root", "--wd",
                 "env", "-i", "PATH=/usr/sbin:/usr/bin:/sbin:/bin", "HOME=/root", "bash", "-c", script]
        return subprocess.run(words, input=data, stdout=subprocess.PIPE, stderr=subprocess.STDOUT, timeout=LONGEST, check=False)

    def does(self, script, data=b""):
        told = self.tries("set -e -o pipefail\ncd /root\n" + script, data)
        ensure(told.returncode == 0, f"{self.name}: {script}\n{told.stdout.decode()}status {told.returncode}")
        return told.stdout.decode()

    def has(self, path, data):
        self.does(f"mkdir -p {os.path.dirname(path)} && cat > {path}", data.encode())

    def until(self, what, script):
        within(LONGEST, what, lambda: self.tries(script).returncode == 0)

    def plays(self, heading, mend=None, name="RUNBOOK", part=slice(None), changes=()):
        """A page, after what the head has. `mend` is a command, and the line of the page before which it is done."""
        text = "\n" + "".join(blocks(name, heading)[part])
        for old, new in changes:
            text = text.replace(old, new)
        if mend:
            ensure("\n" + mend[1] in text, f"{heading} has no line {mend[1]}")
            text = text.replace("\n" + mend[1], f"\n{mend[0]}\n{mend[1]}", 1)
        # Each command that has a result behind it has its output between two marks.
        wanted, lines = [], []
        for line in text.splitlines():
            comment = re.search(r" {2,}# (.*)$", line)
            result = next((it for it in RESULTS if comment and re.match(rf"(.*, )?{it}(;|:|$)", comment[1])), None)
            if result:
                wanted.append(result)
                lines += [f"echo '<{len(wanted)}>'", line, f"echo '</{len(wanted)}>'"]
            else:
                lines.append(line)
        told = self.does(blocks("RUNBOOK", "Runbook")[0] + "\n" + "\n".join(lines))
        for place, result in enumerate(wanted, 1):
            output = re.search(rf"<{place}>\n(.*?)</{place}>", told, re.S)
            ensure(output and result in output[1], f"{heading}: {result} is not in\n{told}")
        print(f"runbook: {self.name}: {heading}", flush=True)
        return told

    def off(self):
        """As if its power went: nothing of it ends by itself. Its disks stay."""
        self.process.kill()
        self.process.wait()
        self.process = self.first = None


class Drill:
    def __init__(self, folder):
        self.folder, self.answered, self.number, self.alarms = folder, {}, 0, 0
        self.one, self.two = Machine(folder, 1), Machine(folder, 2)

    def package(self):
        for stamp, name in ((1_800_000_000, "bank"), (1_800_000_060, "newer")):
            os.mkdir(f"{self.folder}/{name}")
            subprocess.run([HERE + "/tools/package.sh", f"{self.folder}/{name}", "--trial"], check=True,
                           stdout=subprocess.DEVNULL, env=os.environ | {"SOURCE_DATE_EPOCH": str(stamp)})

    def deb(self, name):
        found = next(it for it in os.listdir(f"{self.folder}/{name}") if it.endswith(".deb"))
        with open(f"{self.folder}/{name}/{found}", "rb") as file:
            return file.read()

    def link(self):
        subprocess.run(["ip", "link", "add", "m1", "type", "veth", "peer", "name", "m2"], check=True)
        for machine, name in ((self.one, "m1"), (self.two, "m2")):
            subprocess.run(["ip", "link", "set", name, "netns", machine.first], check=True)
            machine.does(f"ip address add {machine.address}/24 dev {name}; ip link set {name} up")

    def set_up(self, machine):
        """The package, an alarm that goes into the journal, and five ends within an hour for a hundred."""
        machine.does("cat > bank.deb && dpkg -i --force-depends bank.deb", self.deb("bank"))
        machine.has("/etc/bank/alarm.conf", "SAY=cat\n")
        machine.has("/etc/systemd/system/bank.service.d/drill.conf", "[Unit]\nStartLimitBurst=5\n")
        machine.has("/etc/hosts", "127.0.0.1 localhost\n10.77.0.1 bank.example\n")
        machine.has("/etc/bank/standby.conf", "LEADER=https://bank.example:8443\n")
        machine.has("/root/plan.csv", "branch,accounts,floor\n1,3,\n2,5,-2000\n")
        machine.does("systemctl daemon-reload")

    def posts(self, machine, count=10):
        """Postings by curl, as a program of a teller sends them; each is answered, or none is counted."""
        for _ in range(count):
            self.number += 1
            body = record(1, 1, 1, self.number, 100)
            told = machine.tries("curl -sf -m 20 --cacert /etc/teller/bank.crt --resolve bank.example:8443:127.0.0.1 "
                                 "-u bert:word -H 'Content-Type: application/octet-stream' -H 'Origin: https://bank.example:8443' "
                                 "--data-binary @- https://bank.example:8443/post", body)
            if told.returncode == 0:
                self.answered[self.number] = body, told.stdout

    def stands(self, machine, why, lost=0):
        """What was answered stands, but for so many postings, which are posted when they are sent again; the replies are as
        they were."""
        machine.does("systemctl stop bank")
        kept = machine.does("runuser -u bank -- bank export /var/lib/bank/bank.db")
        records = {kept[at:at + 100].encode() for at in range(0, len(kept), 100)}
        lacks = sum(body not in records for body, _ in self.answered.values())
        ensure(lacks == lost, f"{why}: {lacks} of {len(self.answered)} answered postings are missing")
        again = machine.does("runuser -u bank -- bank post /var/lib/bank/bank.db",
                             b"".join(it[0] for it in self.answered.values()))
        ensure(again.encode() == b"".join(it[1] for it in self.answered.values()), f"{why}: another answer than before")
        machine.does("runuser -u bank -- bank audit /var/lib/bank/bank.db; systemctl reset-failed bank; systemctl start bank")

    def alarmed(self, machine, unit, meanwhile=lambda: None):
        """Waits for an alarm of a unit, one more than there were."""
        self.alarms += 1
        counts = f"journalctl -u bank-alarm@{unit} -o cat | grep -c '^{unit} has failed on {machine.name}'"
        within(LONGEST, f"an alarm of {unit}", lambda: meanwhile() or int(machine.tries(counts).stdout) >= self.alarms)

    def first_days(self, one):
        """What one machine meets."""
        one.boot()
        self.set_up(one)
        named = (("HOST", "bank.example"), ("htpasswd ", "htpasswd -b "), ("passwords anna", "passwords anna word"))
        one.plays("To set up the page", name="USING", part=slice(4), changes=named)
        one.plays("A branch is opened")
        one.does("systemctl enable --now teller evening.timer watch.timer; systemctl enable bank")
        one.plays("A teller joins, or leaves", part=slice(1), changes=(*named, ("anna", "bert")))
        one.plays("Is it up?")
        one.plays("It refuses a lot")
        # nginx takes up what it reads anew a moment after it was told.
        time.sleep(2)
        self.posts(one)
        ensure(len(self.answered) == 10, "a teller who joined can't post")
        one.does("systemd-analyze security --no-pager --threshold=20 bank teller standby evening watch bank-alarm@bank")
        one.does("nft flush ruleset; ! bank-watch /var/lib/bank/bank.db; systemctl reload bank; bank-watch /var/lib/bank/bank.db")
        one.does("logrotate --force /etc/logrotate.d/bank-teller")
        self.posts(one, 1)
        told = one.does("cat /var/lib/teller/access.log")
        ensure(told.count(f'"00000001 {self.number:010}"') == 1, "a posting has no line in the log")
        one.plays("Stop and start")
        one.plays("The evening raised an alarm")
        self.posts(one)
        self.stands(one, "after an evening")

        one.does("systemctl stop bank; chmod 0 /var/lib/bank/bank.db; systemctl start bank || true")
        self.alarmed(one, "bank")
        one.plays("It does not start", ("chmod 600 bank.db", "systemctl reset-failed"))
        self.stands(one, "after its rights were wrong")

        one.does("head -c 64M /dev/zero > /var/lib/bank/filler || true")
        self.alarmed(one, "bank", lambda: self.posts(one, 1))
        one.plays("The disk is full, or nearly", ("rm filler", "systemctl reset-failed"))
        self.posts(one)
        self.stands(one, "after a full disk")

        one.does("systemctl stop bank; sqlite3 /var/lib/bank/bank.db 'DELETE FROM teller WHERE tid = 3'")
        one.plays("The file is damaged")
        self.posts(one)
        self.stands(one, "after a damage")
        one.does("bank-evening --after-recovery /var/lib/bank/bank.db; bank-watch /var/lib/bank/bank.db /var/tmp/figures")
        one.plays("A certificate ends")

    def take_over(self, one, two):
        """Another machine follows, and the first one is lost with postings that the other lacks."""
        two.boot()
        self.link()
        self.set_up(two)
        two.plays("A machine that follows", name="USING")
        request = two.does("cat /etc/standby/standby.csr")
        one.has("/root/standby.csr", request)
        one.does("/usr/share/doc/bank/examples/certificates.sh signer sign standby standby.csr; systemctl reload teller\n"
                 "echo 'CN=standby yes;' >> /etc/teller/followers; systemctl reload teller")
        two.has("/etc/standby/standby.crt", one.does("cat signer/standby.crt"))
        two.has("/etc/standby/leader.crt", one.does("cat /etc/teller/bank.crt"))
        two.does("mkdir /etc/teller; base64 -d | tar -xC /etc/teller", one.does("tar -cC /etc/teller . | base64").encode())
        two.does("chown bank: /etc/standby/*; rm /var/lib/bank/bank.db*; systemctl enable --now standby watch.timer")
        two.until("one that follows", "bank-standby --behind /var/lib/bank/bank.db 5")
        self.away(one, two)
        self.posts(one)
        time.sleep(3)
        two.does("bank-evening /var/lib/bank/bank.db; systemctl is-active standby; bank-watch /var/lib/bank/bank.db")
        two.does("systemctl kill --signal STOP standby")
        self.posts(one, 5)
        one.off()
        two.does("systemctl kill --signal CONT standby")
        two.plays("The machine is lost, and another one follows it")
        self.stands(two, "after another machine took over, and all was sent again", lost=5)
        self.posts(two)
        two.does("systemctl is-active bank teller; ! systemctl is-active standby; bank-evening /var/lib/bank/bank.db; "
                 "systemctl is-active bank")

    def away(self, one, two):
        """The evenings of one machine go to the other, by a key that adds there alone, and come back."""
        two.does("useradd --create-home --password '*' evenings; install -d -o evenings ~evenings/evenings ~evenings/.ssh; "
                 "ssh-keygen -A; mkdir -p /run/sshd; /usr/sbin/sshd -o UsePAM=no")
        one.does("ssh-keygen -q -N '' -t ed25519 -f /etc/bank/away.key")
        two.has("/home/evenings/.ssh/authorized_keys", 'restrict,command="rrsync -no-del evenings" ' +
                one.does("cat /etc/bank/away.key.pub"))
        one.has("/etc/bank/away.hosts", f"{two.address} {two.does('cat /etc/ssh/ssh_host_ed25519_key.pub')}")
        one.has("/etc/bank/evening.conf", f"AWAY=/usr/share/doc/bank/examples/away.sh\nPLACE=evenings@{two.address}:\n")
        one.does("systemctl start evening")
        two.does("ls ~evenings/evenings/*Z/bank.db.replay")
        print(f"runbook: {one.name}: an evening that went to {two.name} and came back", flush=True)

    def back(self, one, two):
        """The lost machine follows, and the one that serves gets a newer package."""
        one.boot()
        self.link()
        one.does("mkdir -p /etc/standby")
        for name in ("standby.crt", "standby.key", "leader.crt"):
            one.has("/etc/standby/" + name, two.does("cat /etc/standby/" + name))
        two.does("systemctl reload teller")
        one.has("/etc/hosts", "127.0.0.1 localhost\n10.77.0.2 bank.example\n")
        one.does("chown -R bank: /etc/standby; systemctl daemon-reload")
        one.plays("The lost machine is back")
        self.posts(two)
        two.does("cat > bank.deb", self.deb("newer"))
        two.plays("Upgrade", changes=(("apt-get install -y", "dpkg -i --force-depends"),))
        ensure("/usr/bin/bank" in two.does("readlink /proc/$(systemctl show -P MainPID bank)/exe"), "another program runs")
        self.stands(two, "after an upgrade")
        count = len(self.answered)
        two.plays("A teller joins, or leaves", part=slice(1, 2), changes=(("anna", "bert"),))
        time.sleep(2)
        self.posts(two, 1)
        ensure(len(self.answered) == count, "a teller who has left can post")
        self.change(one, two)
        print(f"runbook: each of {len(self.answered)} answered postings stands, once", flush=True)

    def change(self, one, two):
        """The one that follows serves again, and lacks nothing."""
        page = "The machines change places"
        two.plays(page, part=slice(1))
        count = re.search(r"(\d+) requests, all", one.plays(page, part=slice(1, 2)))[1]
        told = two.plays(page, part=slice(2, 3), changes=(("1234", count),))
        ensure("\n0\n" in "\n" + told, f"it has more than {count} requests: {told}")
        one.plays("The machine is lost, and another one follows it")
        self.stands(one, "after the machines changed places")
        two.plays("The lost machine is back")

    def end(self):
        for machine in (self.one, self.two):
            if machine.process:
                machine.off()


def main():
    need_program()
    folder = tempfile.mkdtemp(prefix="runbook-")
    subprocess.run(["mount", "-t", "tmpfs", "tmpfs", folder], check=True)
    drill = Drill(folder)
    try:
        drill.package()
        drill.first_days(drill.one)
        drill.take_over(drill.one, drill.two)
        drill.back(drill.one, drill.two)
    except Failed as why:
        journals = (it.tries("journalctl -n 30 --no-pager").stdout.decode() for it in (drill.one, drill.two) if it.first)
        sys.exit("\n".join([*journals, f"runbook: {why}"]))
    finally:
        drill.end()
        subprocess.run(["umount", "--lazy", folder], check=False)
        shutil.rmtree(folder, ignore_errors=True)


main()
