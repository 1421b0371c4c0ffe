#!/usr/bin/env python3
"""Proves and builds the program `bank`, or another crate, and the libraries below it, several side by side.

    tools/build.py [CRATE]
    tools/build.py manifest LINE    notes that the gate passed the built program, with LINE as its last: .ci/run does so
    tools/build.py fits             whether what is built is what the gate passed of this commit, else why not

Beside the program comes MANIFEST: the commit, the kit, what the gate said, and the SHA-256 of the sources, of the program,
and of each library of this repository that it is linked from. Nothing is proved or built again while sources and program
are as it says.

`rt` locks a crate's folder and those of the libraries below it, so that one checkout proves one crate after another.
So there are lanes: the checkout, and copies of it in .git or in a temporary folder. Of the crates that can be proved,
the one with the longest chain of crates above it gets all processors, and the others, by two jobs each and `nice`, what
it leaves idle; near the end, where a processor would wait, all get all. What a lane has built is linked into the
others, and what it kept for the next check goes to the checkout.
"""
import hashlib
import os
import re
import shutil
import subprocess
import sys
import tempfile
import time
from pathlib import Path

TOP = Path(__file__).resolve().parent.parent
CPUS = len(os.sched_getaffinity(0))
# What a lane may take, in kB: a check over SQLite by two jobs takes 3 to 5 GB.
LANE = 6_000_000
PARTS = ("src", "specs", "proofs")
LISTED = [it.split("#")[0].partition(":") for it in (TOP / "crates.txt").read_text().splitlines()]
USES = {name.split()[0]: libraries.split() for name, colon, libraries in LISTED if colon}


def below(crate):
    """The crates that a crate stands on, and the crate itself."""
    return {crate}.union(*(below(it) for it in USES[crate] if it in USES))


def files(crate):
    return [it for part in PARTS for it in (TOP / "crates" / crate / part).rglob("*") if it.is_file()]


def digest_of(paths, top):
    """SHA-256 of the names and the bytes of files, in the order of their names."""
    every = hashlib.sha256()
    for path in sorted(paths):
        every.update(f"{path.relative_to(top)} {hashlib.sha256(path.read_bytes()).hexdigest()}\n".encode())
    return every.hexdigest()


def told(*words):
    """What a program says, in one line; a dash if there is none that does."""
    try:
        said = subprocess.run(words, cwd=TOP, stdin=subprocess.DEVNULL, capture_output=True, text=True, check=False)
    except OSError:
        return "-"
    return " ".join(said.stdout.split()) if not said.returncode else "-"


def here(program):
    """What a manifest says, of the files as they stand here."""
    changed = "" if told("git", "status", "--porcelain", "--untracked-files=no") in ("", "-") else ", and changes"
    sources = [TOP / "crates.txt", TOP / "HANDLES", *(it for crate in below(program) for it in files(crate))]
    made = TOP / "crates" / program / "out" / program
    return {"commit": told("git", "rev-parse", "HEAD") + changed, "sources": digest_of(sources, TOP),
            program: hashlib.sha256(made.read_bytes()).hexdigest() if made.is_file() else "-"}


def manifest(program):
    """The manifest beside a program."""
    try:
        return dict(it.split(": ", 1) for it in (TOP / "crates" / program / "out/MANIFEST").read_text().splitlines())
    except (OSError, ValueError):
        return {}


def write_manifest(program, gate):
    """Writes it; what the gate said before goes on to hold of the same sources and program."""
    now, before = here(program), manifest(program)
    is_same = all(before.get(it) == now[it] for it in ("sources", program))
    lines = {**now, "kit": told("rt", "version"), "gate": gate or (is_same and before.get("gate")) or "not run"}
    for crate in sorted(below(program) - {program}):
        library = TOP / "crates" / crate / "out/rlib"
        lines[f"library {crate}"] = digest_of((it for it in library.rglob("*") if it.is_file()), library) \
            if library.is_dir() else "-"
    (TOP / "crates" / program / "out/MANIFEST").write_text("".join(f"{it}: {value}\n" for it, value in lines.items()))


def misfit(program):
    """Why a program isn't known to be the one that the gate passed of this commit; none where it is."""
    now, said = here(program), manifest(program)
    other = [it for it in now if said.get(it) != now[it]]
    if other:
        return f"its manifest doesn't fit, or there is none: {', '.join(other)}"
    if "changes" in now["commit"] or now["commit"] == "-":
        return "what is here isn't committed"
    return None if re.fullmatch(r"\d+ passed, 0 failed", said["gate"]) else f"the gate said of it: {said['gate']}"


def lanes_in(room, crates):
    """The checkout, and as many copies of it as there are processors and memory for."""
    memory = next(int(it.split()[1]) for it in open("/proc/meminfo") if it.startswith("MemAvailable:"))
    lanes = [TOP, *(Path(room) / str(it) for it in range(1, min(CPUS - 1, memory // LANE)))]
    for lane in lanes[1:]:
        for crate in crates:
            for part in PARTS:
                if (TOP / "crates" / crate / part).is_dir():
                    shutil.copytree(TOP / "crates" / crate / part, lane / "crates" / crate / part)
            hand_on(crate, TOP, lane)
        shutil.copy(TOP / "HANDLES", lane)
        # `rt` asks for the folder of each crate that is listed.
        (lane / "crates.txt").write_text("".join(f"{it}: {' '.join(USES[it])}\n" for it in crates))
    return lanes


def link_or_copy(one, other):
    try:
        os.link(one, other)
    except OSError:
        shutil.copy2(one, other)


def hand_on(crate, lane, other):
    """Gives another lane the library that a lane has built, and the checkout what it kept for the next check."""
    here, there = (it / "crates" / crate / "out" for it in (lane, other))
    if (here / "rlib").is_dir():
        shutil.rmtree(there / "rlib", ignore_errors=True)
        shutil.copytree(here / "rlib", there / "rlib", copy_function=link_or_copy)
    if other == TOP and (here / "incremental").is_dir():
        shutil.rmtree(there / "incremental", ignore_errors=True)
        shutil.move(here / "incremental", there / "incremental")


def command(crate, jobs, is_first):
    words = ["rt", "run" if (TOP / "crates" / crate / "src/main.rt").exists() else "lib", "--jobs", str(jobs)]
    return ([] if is_first else ["nice"]) + words + (["--", "--help"] if words[1] == "run" else [])


def build(room, program):
    crates = below(program)
    chain = {}
    for crate in sorted(crates, key=lambda it: -len(below(it))):
        lines = sum(it.read_bytes().count(b"\n") for it in files(crate))
        chain[crate] = lines + max((chain[it] for it in crates if crate in USES[it]), default=0)
    lanes, running, done, start = lanes_in(room, crates), {}, set(), time.time()
    while len(done) < len(crates):
        ready = [it for it in crates - done - running.keys() if below(it) - {it} <= done]
        for crate in sorted(ready, key=lambda it: -chain[it])[: len(lanes) - len(running)]:
            is_first = all(chain[crate] > chain[it] for it in running)
            # Two jobs load less than four; a crate that begins late may be left alone with them.
            is_late = len(crates) - len(done) <= 2 * len(lanes)
            lane = next(it for it in lanes if it not in [lane for lane, _, _ in running.values()])
            lane, log = TOP if crate == program else lane, open(f"{room}/{crate}.log", "w+")
            words = command(crate, CPUS if is_first or is_late else min(CPUS, 2), is_first)
            how = {"cwd": lane / "crates" / crate, "stdin": subprocess.DEVNULL, "stdout": log, "stderr": log}
            running[crate] = lane, log, subprocess.Popen(words, **how)
            left = f"{len(crates) - len(done)} of {len(crates)} crates left"
            print(f"{int(time.time() - start):5} s: {left}, now {' '.join(sorted(running))}", flush=True)
        time.sleep(0.2)
        for crate in [it for it, (_, _, ran) in running.items() if ran.poll() is not None]:
            lane, log, ran = running.pop(crate)
            if ran.returncode:
                for _, _, other in running.values():
                    other.terminate()
                log.seek(0)
                sys.exit(f"{''.join(log.readlines()[-20:])}build: {crate} failed")
            for other in lanes:
                if other != lane:
                    hand_on(crate, lane, other)
            done.add(crate)
    print(f"{int(time.time() - start):5} s: done", flush=True)


def main():
    words = sys.argv[1:] or ["bank"]
    program = "bank" if words[0] in ("manifest", "fits") else words[0]
    now, said = here(program), manifest(program)
    if words[0] == "fits":
        sys.exit(misfit(program))
    if words[0] == "manifest":
        return write_manifest(program, words[1])
    if now[program] != "-" and all(said.get(it) == now[it] for it in ("sources", program)):
        print(f"crates/{program}/out/{program} was proved and built of these very files")
        return None
    if not shutil.which("rt"):
        sys.exit("build: there is no `rt` on the path")
    git = TOP / ".git"
    with tempfile.TemporaryDirectory(prefix="lanes-", dir=git if git.is_dir() else None) as room:
        build(room, program)
    return write_manifest(program, None)


if __name__ == "__main__":
    main()
