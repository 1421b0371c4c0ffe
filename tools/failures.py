#!/usr/bin/env python3
"""Runs the built program where it is killed, stopped, or where its files fail, one cause after another, and then as if
nothing had happened: each acknowledged posting stands once, with its first reply.

    tools/failures.py [CAUSE..]      all causes, or these

posts       `post` is killed at random moments (LIVES times), and sent again from the first record with no reply
serves      the same of `serve`, by TELLERS clients at once, each with 8 messages on their way
full, unreadable    What is told is a store fault, and a prefix of the replies was written; once the cause is mended the same
            records get the replies of a run that nothing disturbed, and its tables stand. Needs root
memory      the same where each allocation is refused in turn, one a run, of `post` and of what only reads. Needs a C compiler
LIVES, RECORDS and TELLERS in the environment say how often, of how many records, and by how many."""
import os
import random
import shutil
import subprocess
import sys
import tempfile
import threading
import time

from serve_client import BANK, HERE, Failed, Sender, Server, ensure, make_bank, need_program, post, record, rows_of, run

LIVES, RECORDS, TELLERS = (int(os.environ.get(name, usual)) for name, usual in
                           (("LIVES", 100), ("RECORDS", 20_000), ("TELLERS", 16)))
AHEAD = 8

PLAN = [(1, 3), (2, 200)]
ACCOUNTS = [1, 2, 3, 100001, 100050, 100200]
STORE, MEMORY = b"bank: store fault\n", b"bank: no memory\n"
NOBODY = 65534


def records(count):
    draw = random.Random(7)
    return [record(draw.choice(ACCOUNTS), i % 20 + 1, 1 if i % 20 < 10 else 2, i // 20 + 1, draw.randint(-9999, 9999))
            for i in range(count)]


class Bench:
    """A folder of banks, the records that they get, and what came of them where nothing disturbed."""

    def __init__(self, path, count):
        self.path, self.told, self.runs, self.cause = path, {}, 0, ""
        self.given = b"".join(records(count))
        make_bank(path + "/whole.db", PLAN)
        self.whole = self.plain(["post", path + "/whole.db"], self.given)[1]
        self.rows = rows_of(path + "/whole.db")

    def plain(self, words, given=b"", user=None, environment=None):
        """A run, as another user if one is given."""
        def prepare():
            if user is not None:
                os.setgroups([])
                os.setgid(user)
                os.setuid(user)
        ended = subprocess.run([BANK] + words, input=given, stdout=subprocess.PIPE, stderr=subprocess.PIPE, timeout=120,
                               preexec_fn=prepare, env=environment)
        self.runs += 1
        return ended.returncode, ended.stdout, ended.stderr

    def note(self, status, fault):
        said = f"{fault.decode().strip() or 'all is answered'}, status {status}"
        told = self.told.setdefault(self.cause, {})
        told[said] = told.get(said, 0) + 1

    def new_bank(self, name):
        file = f"{self.path}/{name}.db"
        make_bank(file, PLAN)
        return file

    def is_told(self, ended, due=None, faults=(STORE,)):
        """The run ended as it may where there is a cause, with the beginning of what is due: the replies, if nothing else is."""
        status, output, fault = ended
        ensure(status == 0 and not fault or status == 3 and fault in faults, f"status {status}, {fault!r}")
        ensure((due or self.whole).startswith(output) and (due or len(output) % 200 == 0), "another output")
        ensure(status != 0 or output == (due or self.whole), "less output, and no fault")
        self.note(status, fault)

    def is_mended(self, file):
        """The same records get their replies, and the bank is as if nothing had disturbed."""
        ensure(self.plain(["post", file], self.given) == (0, self.whole, b""), "other replies when it is mended")
        status, output, fault = self.plain(["audit", file])
        ensure((status, fault) == (0, b"") and output.endswith(b"\nCONSISTENT\n"), f"an audit {output!r}")
        ensure(rows_of(file) == self.rows, "other tables")


def full(bench):
    """A disk of its own that is full but for so many bytes, which a file leaves."""
    disk = bench.path + "/disk"
    os.mkdir(disk)
    subprocess.run(["mount", "-t", "tmpfs", "-o", "size=4m", "tmpfs", disk], check=True)
    bench.cause = "a full disk"
    try:
        for room in list(range(0, 80, 4)) + list(range(80, 1_600, 50)):
            file = disk + "/full.db"
            make_bank(file, PLAN)
            space = os.statvfs(disk)
            with open(disk + "/ballast", "wb") as ballast:
                ballast.write(b"x" * max(0, space.f_bavail * space.f_frsize - room * 1024))
            bench.is_told(bench.plain(["post", file], bench.given))
            os.remove(disk + "/ballast")
            bench.is_mended(file)
    finally:
        subprocess.run(["umount", disk], check=True)


def killed(bench, file):
    """A run is killed while it answers, so that its log isn't copied back."""
    process = subprocess.Popen([BANK, "post", file], stdin=subprocess.PIPE, stdout=subprocess.PIPE)
    process.stdin.write(bench.given[:64_000])
    process.stdin.flush()
    ensure(len(process.stdout.read(200)) == 200, "no reply")
    process.kill()
    process.wait()
    process.stdin.close()
    process.stdout.close()


def unreadable(bench):
    """Another user runs the program, who may read and write both files, and then not one of them, or not the folder."""
    bench.cause = "a file or a folder that can't be read or written"
    folder = bench.path + "/theirs"
    for end, mode in (("", 0), ("-wal", 0), ("", 0o400), ("-wal", 0o400), ("", 0o200), ("folder", 0)):
        shutil.rmtree(folder, ignore_errors=True)
        os.mkdir(folder)
        file = folder + "/theirs.db"
        make_bank(file, PLAN)
        killed(bench, file)
        for name in (folder, file, file + "-wal"):
            os.chown(name, NOBODY, NOBODY)
        changed = folder if end == "folder" else file + end
        before = os.stat(changed).st_mode & 0o777
        os.chmod(changed, mode)
        for words in (["post", file], ["audit", file], ["statement", file, "1"]):
            status, output, fault = bench.plain(words, bench.given, user=NOBODY)
            ensure((status, output, fault) == (3, b"", STORE), f"{end or 'the file'} {mode:o}, {words[0]}: {status} {fault!r}")
            bench.note(status, fault)
        os.chmod(changed, before)
        bench.is_mended(file)


def memory(bench):
    """Each allocation is refused, one a run, until a run has fewer."""
    library, count = bench.path + "/refuse.so", bench.path + "/count"
    subprocess.run([os.environ.get("CC", "cc"), "-O1", "-shared", "-fPIC", "-o", library, HERE + "/tools/refuse_memory.c"], check=True)
    few = Bench(bench.path, 4)
    few.told = bench.told
    for command, *more in (["post"], ["audit"], ["replay"], ["statement", "1"]):
        bench.cause = few.cause = f"memory refused to {command}"
        file, at, had = few.new_bank("refused"), 0, 0
        if command != "post":
            few.is_mended(file)
        due = few.whole if command == "post" else few.plain([command, file, *more])[1]
        while at <= had:
            at += 1
            refuses = {"LD_PRELOAD": library, "REFUSE_AT": str(at), "REFUSE_COUNT": count}
            few.is_told(few.plain([command, file, *more], few.given, environment=refuses), due, (STORE, MEMORY))
            with open(count, "rb") as counted:
                had = int.from_bytes(counted.read(8), sys.byteorder)
            few.is_mended(file)
            file = few.new_bank("refused") if command == "post" else file

# ---- kills

def posts(bench):
    """Kills `post`, and resends from the first record that has no whole reply."""
    file, given = bench.new_bank("killed"), many(bench)
    replies, kills, latest = b"", 0, latest_kill(file)
    for _ in range(LIVES):
        process = subprocess.Popen([BANK, "post", file], stdin=subprocess.PIPE, stdout=subprocess.PIPE,
                                   stderr=subprocess.DEVNULL)
        timer = threading.Timer(random.uniform(0.0, latest), process.kill)
        timer.start()
        part = process.communicate(given[len(replies) // 2:])[0]
        timer.join()
        kills += process.returncode < 0
        replies += part[:len(part) // 200 * 200]
    before = len(replies) // 200
    replies += run("post", file, data=given[len(replies) // 2:])[0]
    bench.cause = f"{kills} kills of post in {LIVES} lives, {before} of {RECORDS} records answered in them"
    ensure(replies == bench.many and run("post", file, data=given)[0] == bench.many, "the replies differ")
    bench.note(0, b"the replies are those of one run")


def latest_kill(file):
    """Until when a life is killed: it opens the file, which takes as long as the machine is slow, and then answers for a
    while."""
    begun = time.monotonic()
    run("post", file)
    return 2 * (time.monotonic() - begun) + 0.08


def many(bench):
    """The records for kills, with the replies of a run that nobody kills."""
    given = b"".join(records(RECORDS))
    bench.many = run("post", bench.new_bank("many"), data=given)[0]
    return given


def serves(bench):
    """Kills `serve` beneath clients that post at once, each its own tellers' records, so that every reply but for its
    balance is known; the tables but for moments and ordinals are those of one run."""
    file, given = bench.new_bank("served"), many(bench)
    sorts = [[post(body) for i, body in enumerate(records(RECORDS)) if i % 20 % TELLERS == it] for it in range(TELLERS)]
    replies, kills, latest = [[] for _ in sorts], 0, latest_kill(file)
    for life in range(LIVES + 1):
        server = Server(file, 1000)
        timer = threading.Timer(random.uniform(0.0, latest), server.process.kill)
        if life < LIVES:
            timer.start()
        senders = [Sender(server.connect, sort[len(had):], AHEAD, lambda: server.process.poll() is not None)
                   for sort, had in zip(sorts, replies)]
        for sender, had in zip(senders, replies):
            sender.join()
            had += sender.replies
        if life == LIVES:
            server.process.kill()
        kills += server.end() < 0 and life < LIVES
    bench.cause = f"{kills} kills of serve in {LIVES} lives, beneath {TELLERS} clients"
    ensure(all(reply[4:6] == b"00" for had in replies for reply in had), "not all are posted")
    ensure([len(had) for had in replies] == [len(sort) for sort in sorts], "not all are answered")
    again = run("post", file, data=given)[0]
    told = dict(zip((it[-100:] for sort in sorts for it in sort), (it for had in replies for it in had)))
    ensure(all(told[given[at:at + 100]] == again[2 * at:2 * at + 200] for at in range(0, len(given), 100)),
           "a resend gets another reply")
    ensure(run("audit", file)[0].endswith(b"\nCONSISTENT\n") and run("replay", file)[2] == 0, "the books differ")
    ensure(int(run("replay", file)[0].split()[1]) == RECORDS, "not each is posted once")
    bench.note(0, b"each is posted once, with its first reply")


CAUSES = (posts, serves, full, unreadable, memory)


def main():
    need_program()
    with tempfile.TemporaryDirectory() as path:
        os.chmod(path, 0o755)
        bench = Bench(path, 2_000)
        for cause in CAUSES:
            if sys.argv[1:] and cause.__name__ not in sys.argv[1:]:
                continue
            try:
                cause(bench)
            except Failed as wrong:
                sys.exit(f"failures: {bench.cause}: {wrong}")
        for cause, told in bench.told.items():
            print(f"{cause}: " + "; ".join(f"{said} ({count})" for said, count in sorted(told.items())))


if __name__ == "__main__":
    main()
