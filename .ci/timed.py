#!/usr/bin/env python3
"""Runs `rt ci`, and says what its checks took, crate by crate.

    .ci/timed.py LOG COMMAND..

Runs the command and passes on what it prints, also to the file LOG. Before the last line comes the table of
docs/TIMES.md. The status is the command's.

Each check of the gate is a process of its own. Once a second this reads from /proc how much processor time each has
taken so far, and adds it up by crate: its proof, its tests and its must-fail edits. What others check is left out.
"""
import os
import subprocess
import sys
import threading
import time
from pathlib import Path

TOP = Path(__file__).resolve().parent.parent
TICKS = os.sysconf("SC_CLK_TCK")
PAGE = os.sysconf("SC_PAGE_SIZE")
PARTS = ("proof", "tests", "edits")


def work_of(pid):
    """What a process checks: the crate, and which part of the gate it is. None for any other process."""
    words = Path(f"/proc/{pid}/cmdline").read_bytes().split(b"\0")
    if not words[0].endswith(b"/rattle") or b"--crate-name" not in words:
        return None
    crate = words[words.index(b"--crate-name") + 1].decode()
    if os.path.basename(os.readlink(f"/proc/{pid}/cwd")).startswith("rt-edit-"):
        return crate, "edits"
    return crate, "tests" if b"--test" in words else "proof"


def stat_of(pid):
    """The parent of a process, its processor seconds, and its memory in bytes."""
    fields = Path(f"/proc/{pid}/stat").read_bytes().rpartition(b")")[2].split()
    return int(fields[1]), (int(fields[11]) + int(fields[12])) / TICKS, int(fields[21]) * PAGE


def is_under(pid, top):
    """Whether a process is this one, or was begun by it or by what it began: other checks on the machine don't count."""
    while pid > 1 and pid != top:
        pid = stat_of(pid)[0]
    return pid == top


def sample(spent, gate):
    """Adds what the running checks of the gate have taken, and gives the memory of all of them."""
    held = 0
    for pid in filter(str.isdigit, os.listdir("/proc")):
        try:
            work = work_of(pid)
            if work and is_under(int(pid), gate):
                _, spent[pid, *work], memory = stat_of(pid)
                held += memory
        except (OSError, IndexError, ValueError):
            pass
    return held


def table(spent):
    """The lines of the table, the sum of all crates last."""
    crates = {}
    for (_, crate, part), seconds in spent.items():
        crates.setdefault(crate, dict.fromkeys(PARTS, 0.0))[part] += seconds
    order = [line.split(":")[0] for line in (TOP / "crates.txt").read_text(encoding="utf-8").splitlines()]
    rows = [[f"`{crate}`", *(round(crates[crate][it]) for it in PARTS),
             len(list(TOP.glob(f"crates/{crate}/must-fail/*.edit")))] for crate in order if crate in crates]
    rows.append(["all", *(sum(row[at] for row in rows) for at in (1, 2, 3, 4))])
    lines = ["| Crate | Proof | Tests | Edits | How many edits |", "|---|---|---|---|---|"]
    return lines + [f"| {' | '.join(str(it or '') for it in row)} |" for row in rows] + [f"{sum(rows[-1][1:4])} in all"]


def watch(gate, spent, peaks):
    while gate.poll() is None:
        peaks.append(sample(spent, gate.pid))
        time.sleep(1)


def main():
    outs = [sys.stdout]
    try:
        outs.append(open(sys.argv[1], "w", encoding="utf-8"))
    except OSError as error:
        print(f"no log: {error}", file=sys.stderr)

    def say(line):
        for out in outs:
            print(line, file=out, flush=True)

    spent, peaks, last, began = {}, [0], None, time.monotonic()
    gate = subprocess.Popen(sys.argv[2:], cwd=TOP, stdin=subprocess.DEVNULL, stdout=subprocess.PIPE,
                            stderr=subprocess.STDOUT, text=True, errors="replace")
    threading.Thread(target=watch, args=(gate, spent, peaks), daemon=True).start()
    for line in gate.stdout:
        if last is not None:
            say(last)
        last = line.rstrip("\n")
    status, minutes = gate.wait(), (time.monotonic() - began) / 60
    for line in table(spent):
        say(line)
    say(f"{minutes:.1f} minutes, {max(peaks) / 2**30:.1f} GiB of memory at most")
    if last is not None:
        say(last)
    # What the gate said of these sources goes into the manifest of the program that it has built.
    if not status and sys.argv[2:] == ["rt", "ci"]:
        subprocess.run([sys.executable, TOP / "tools/build.py", "manifest", last], stdout=subprocess.DEVNULL, check=False)
    return status


sys.exit(main())
