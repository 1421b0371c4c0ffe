#!/usr/bin/env python3
"""Prints the table of what `run.sh` measured, as docs/SPEED.md has it.

usage: table.py measured.csv
Each line of the first file is what was measured, by which system, and how many postings a second. A ratio is taken round by
round, so that it holds what the disk did at that time, and its median and range are told."""
import csv
import statistics
import sys

CASES = [
    ("one", "one a commit, 2 branches of 1,000 accounts"),
    ("many-rows-one", "one a commit, from 200,000 rows of history"),
    ("large-one", "one a commit, 10 branches of 100,000 accounts"),
    ("batch", "64 a commit, 2 branches of 1,000"),
    ("many-rows-batch", "64 a commit, from 200,000 rows"),
    ("large-batch", "64 a commit, 10 branches of 100,000"),
    ("bare-one", "without a disk, one a commit"),
    ("bare-batch", "without a disk, 64 a commit"),
]


def read(path):
    """The rates of each case and system, in the order of the rounds."""
    rates = {}
    with open(path, newline="") as file:
        for what, system, rate in csv.reader(file):
            rates.setdefault((what, system), []).append(int(rate))
    # The C library has the better of its two sizes of a page.
    for what in {what for what, _ in rates}:
        sizes = [rates[what, it] for it in ("sqlite-1024", "sqlite-4096") if (what, it) in rates]
        if sizes:
            rates[what, "sqlite"] = max(sizes, key=statistics.median)
    return rates


def ratio(own, other):
    """One over the other, round by round: the median and the range."""
    pairs = [one / another for one, another in zip(own, other)]
    return f"{statistics.median(pairs):.2f} ({min(pairs):.2f} to {max(pairs):.2f})"


def row(cells):
    return f"| {' | '.join(cells)} |".replace("|  |", "| |")


def table(rates):
    """The lines; with a program of another tree, what this one is of it."""
    def median(what, system):
        return f"{statistics.median(rates[what, system]):,.0f}"

    yield from (row(["", "this bank", "the C library", "ratio", "of the one before"]), "|---" * 5 + "|")
    for what, title in CASES:
        ours, peer, before = (rates.get((what, it)) for it in ("ours", "sqlite", "before"))
        if ours:
            yield row([title, median(what, "ours"), median(what, "sqlite"), ratio(ours, peer), ratio(ours, before) if before else ""])
    for what in (what for what, _ in rates if what.startswith("rows-")):
        after = ratio(rates["few-rows", "ours"], rates[what, "ours"])
        yield from ("", f"A posting after {int(what.removeprefix('rows-')):,} rows costs {after} times one after 1,000.")


print("\n".join(table(read(sys.argv[1]))))
