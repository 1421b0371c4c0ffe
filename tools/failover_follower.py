"""A leader and a machine that follows it, by examples/standby.sh, each with nginx as in examples/nginx.conf; 16 tellers
post through the leader's nginx, each one's next when the last is answered. Meanwhile the programs of either side are
killed, and a second branch is opened, whose tellers then post too. At a random moment the leader is lost: its programs are
killed, and its files moved away. Then comes docs/USING.md's failover: the follower is stopped, the rest of the plan is
loaded, it is served, and every teller sends its day again, and goes on.

After it the first n requests, which the follower had, are the leader's by their digest, and have their first answers;
each request of each teller stands once, with the reply that it got last; the books agree. The last lines tell how far the
follower was behind: how many of the leader's requests it lacked, how old the oldest of these was that was answered, and how many
that the leader had posted were refused in the end, which examples/took_over.sh has to list.

It needs the built program, nginx, curl and openssl."""
import contextlib
import os
import random
import shutil
import signal
import statistics
import subprocess
import time

from serve_client import (BANK, FROM_PAGE, HERE, Place, Sender, check_books, clear, connect, done, ensure, make_bank,
                          open_branches, post, record, run, same, signed_in, tls_of, with_fields, within)

# Eight tellers are of the first branch, and eight of the one that is opened late.
PLAN, LATE = [(1, 3)], 2
TELLERS = range(1, 9), range(11, 19)
ACCOUNTS = [1, 2, 3, 100001, 100002, 999999999]
FILES = ("bank.crt", "bank.key", "tellers.crt", "passwords", "tellers", "followers", "revoked")
# The most postings of a teller's day, and no wait takes longer than this, in seconds.
DAY, LONGEST = 2000, 120


def day_of(teller):
    """The records of a teller's day: some are refused, some have a reference."""
    branch = (teller - 1) // 10 + 1
    return [record(random.choice(ACCOUNTS), teller, branch, number, random.choice((0, 1, -1)) * random.randint(1, 9999),
                   random.choice((None, None, "DAY %d" % number)))
            for number in range(1, DAY + 1)]


class Teller:
    def __init__(self, number, folder, wait):
        # Half of them show a certificate, and half a password.
        self.number, self.wait, self.records, is_certified = number, wait, day_of(number), number % 2 == 1
        self.tls = tls_of(folder, f"teller{number}" if is_certified else None)
        fields = FROM_PAGE if is_certified else (signed_in(number), *FROM_PAGE)
        self.messages = [with_fields(post(body), fields) for body in self.records]

    def posts(self, place, gives_up=lambda: False, count=DAY):
        return Sender(lambda: connect(self.tls, place.front), self.messages[:count], gives_up=gives_up, wait=self.wait)


class Standby:
    """examples/standby.sh, in a session of its own."""

    def __init__(self, leader, file, told):
        words = [HERE + "/examples/standby.sh", f"https://localhost:{leader.front}", file, "--cacert",
                 leader.folder + "/bank.crt", "--cert", leader.folder + "/standby.crt", "--key", leader.folder + "/teller.key"]
        self.process = subprocess.Popen(words, env={**os.environ, "BANK": BANK}, stdin=subprocess.DEVNULL, stderr=told,
                                        start_new_session=True)

    def kill_child(self, names):
        """Kills a program that it runs just now."""
        with open(f"/proc/{self.process.pid}/task/{self.process.pid}/children") as children:
            for child in children.read().split():
                with contextlib.suppress(OSError), open(f"/proc/{child}/comm") as name:
                    if name.read().strip() in names:
                        os.kill(int(child), signal.SIGKILL)

    def stop(self):
        """As systemd does, or as a lost power supply."""
        if random.random() < 0.5:
            self.process.terminate()
            self.process.wait()
        with contextlib.suppress(ProcessLookupError):
            os.killpg(self.process.pid, signal.SIGKILL)
        self.process.wait()


class Drill:
    def __init__(self, folder):
        self.folder, self.is_lost, self.standby, self.log = folder, False, None, open(folder + "/told", "w+")
        for name in ("leader", "follower", "lost"):
            os.mkdir(f"{folder}/{name}")
        os.chmod(folder, 0o755)
        self.leader, self.follower = Place(folder + "/leader"), Place(folder + "/follower")

    def begin(self):
        for name in FILES:
            shutil.copy(f"{self.leader.folder}/{name}", self.follower.folder)

    def told(self):
        """What the follower said at last."""
        with open(self.folder + "/told") as log:
            return log.read()[-2000:]

    def tell(self, lags):
        for name, part in (("requests", 0), ("seconds", 1)):
            all_of = [lag[part] for lag in lags]
            print(f"lag in {name}: {statistics.median(all_of):.2f} in the median, {max(all_of):.2f} at most")
        refused = [lag[3] for lag in lags if lag[3]]
        print(f"posted by the leader and refused by the follower: {sum(refused)} of {sum(lag[0] for lag in lags)} that it lacked, in "
              f"{len(refused)} rounds")
        print(f"failover: {len(lags)} leaders lost, and each request stands once, with one reply")

    def anew(self):
        """A new bank that is served, and one that follows it."""
        self.is_lost = False
        for name in os.listdir(self.folder + "/lost"):
            os.remove(f"{self.folder}/lost/{name}")
        clear(self.follower.file)
        for end in (".plan", ".followed"):
            with contextlib.suppress(FileNotFoundError):
                os.remove(self.follower.file + end)
        make_bank(self.leader.file, PLAN)
        self.leader.start()
        self.standby = Standby(self.leader, self.follower.file, self.log)
        within(LONGEST, "a follower", lambda: os.path.exists(self.follower.file + ".followed"))

    def end(self):
        if self.standby:
            self.standby.stop()
        self.leader.stop()
        self.follower.stop()

    def load_late(self):
        """A branch with a floor is opened while the counter is stopped, as it has to be."""
        self.leader.counter.stop()
        open_branches(self.leader.file, [(LATE, 5, -2000)])
        self.leader.start_counter()

    def disturb(self):
        """Something dies that is started again."""
        what = random.randrange(5)
        if what == 0:
            self.leader.counter.kill()
        elif what == 1:
            self.leader.nginx.kill()
        elif what == 2:
            self.standby.kill_child(("curl",))
        else:
            self.standby.kill_child((os.path.basename(BANK),))

    def lose(self):
        """The leader's programs are killed, and its files are gone."""
        for program in (self.leader.counter, self.leader.nginx):
            program.ends = True
            program.kill()
        moment = time.monotonic()
        self.leader.stop()
        self.is_lost = True
        for name in os.listdir(self.leader.folder):
            if name.startswith("bank.db"):
                os.rename(f"{self.leader.folder}/{name}", f"{self.folder}/lost/{name}")
        return moment

    def take_over(self):
        """What the operator does."""
        self.standby.stop()
        self.standby = None
        # What was killed holds the file's lock until it is gone.
        within(LONGEST, "the follower's file", lambda: run("audit", self.follower.file)[2] == 0)
        count = len(done("export", self.follower.file)) // 100
        digests = [done("digest", file, str(count)) for file in (self.folder + "/lost/bank.db", self.follower.file)]
        same(f"the digests of {count} requests", *digests)
        with open(self.folder + "/rest.csv", "wb") as plan:
            plan.write(done("plan", self.folder + "/lost/bank.db"))
        done("load", self.follower.file, self.folder + "/rest.csv")
        self.follower.start()
        return count

    def round(self, number):
        self.anew()
        wait = random.choice((0, 0.02, 0.2))
        early, late = ([Teller(it, self.leader.folder, wait) for it in part] for part in TELLERS)
        first = {it: it.posts(self.leader, lambda: self.is_lost) for it in early}
        end, disturbed, opens = time.monotonic() + random.uniform(2, 8), 0, random.random() * 4
        start = time.monotonic()
        while time.monotonic() < end:
            time.sleep(random.uniform(0.1, 0.7))
            if opens is not None and time.monotonic() > start + opens:
                self.load_late()
                first.update((it, it.posts(self.leader, lambda: self.is_lost)) for it in late)
                opens = None
            if random.random() < 0.3:
                self.disturb()
                disturbed += 1
        moment = self.lose()
        for it in first.values():
            it.join()
            ensure(not it.fault, it.fault)
        time.sleep(random.uniform(0, 1))
        count = self.take_over()
        taken = time.monotonic() - moment
        second = {it: it.posts(self.follower, count=min(DAY, len(sent.replies) + 20)) for it, sent in first.items()}
        within(LONGEST, "an answer to each", lambda: not any(it.is_alive() for it in second.values()))
        lag = self.check(first, second, count, moment)
        print(f"{number:3}: {sum(len(it.replies) for it in first.values())} answered by the leader, {disturbed} kills before "
              f"it was lost; the follower had {count}, lacked {lag[0]}, the oldest {lag[1]:.2f} s old, and served after "
              f"{taken:.1f} s; {lag[2]} second answers are others, {lag[3]} of them refusals of what was posted", flush=True)
        return lag

    def check(self, first, second, count, moment):
        self.follower.stop()
        lost, file = self.folder + "/lost/bank.db", self.follower.file
        same(f"the first {count} requests", *(done("digest", it, str(count)) for it in (file, lost)))
        kept = {text[:100]: text[100:300] for text in entries(done("log", lost))}
        had = {text[:100] for text in entries(done("log", file))[:count]}
        others, refused, oldest, answered = 0, 0, moment, {}
        for teller, again in second.items():
            ensure(not again.fault, again.fault)
            for place, body in enumerate(teller.records[:len(again.replies)]):
                reply, is_first = again.replies[place], place < len(first[teller].replies)
                answered[teller.number, place + 1] = reply, int(body[40:51])
                if is_first:
                    same(f"what the leader answered to {body}", first[teller].replies[place], kept[body])
                if body in had:
                    same(f"what is answered now to {body}", reply, kept[body])
                refused += body in kept and kept[body][4:6] == b"00" != reply[4:6]
                if is_first and body not in had:
                    oldest = min(oldest, first[teller].times[place])
                    others += first[teller].replies[place] != reply
        more = check_books(file, answered)
        ensure(not more, f"{more} stand, and nobody sent them")
        for teller, again in second.items():
            third = done("post", file, data=b"".join(teller.records[:len(again.replies)]))
            ensure(third == b"".join(again.replies), f"teller {teller.number}: a third sending has other answers")
        same("how many requests stand", len(done("export", file)) // 100, len(answered))
        listed = subprocess.run([HERE + "/examples/took_over.sh", lost, file], check=True, stdout=subprocess.PIPE).stdout
        same("what took_over.sh lists", max(0, listed.count(b"\n") - 1), refused)
        return len(kept) - count, moment - oldest, others, refused


def entries(log):
    return [log[at:at + 308] for at in range(0, len(log), 308)]
