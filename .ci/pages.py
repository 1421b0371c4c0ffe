#!/usr/bin/env python3
"""Checks that the program on each library's page is one that the gate runs, line for line.

    .ci/pages.py

The page of a library is the `//!` lines at the head of its src/lib.rt, and of a file of src/ that has such a program.
A page has one ```rust block, and the paragraph before it names "the test `NAME` of `CRATE`", "the function `NAME` of
`CRATE`" or "the program `CRATE`". The block's lines stand one directly after the other in a file of that crate, from
the first import to the end of the test, which is marked as one, of the function, which is called elsewhere in the
crate, or of `main`. Blank lines, `#[test]` and indentation don't count.
Prints a line for each page, and ends with status 1 if one of them differs.
"""
import re
import sys
from pathlib import Path

CRATES = Path(__file__).resolve().parent.parent / "crates"

# What these have is tests, what tests and trials are made with, and lemmas: no program begins with them.
NO_PROGRAM = {"bank_scenarios", "counter_tests", "failing_ends", "http_tests", "sql_meanings", "store_tests"}

TEST = re.compile(r"[Tt]he test `(\w+)` of `(\w+)`")
FUNCTION = re.compile(r"[Tt]he function `(\w+)` of `(\w+)`")
PROGRAM = re.compile(r"[Tt]he program `(\w+)`")


def page_of(lib):
    """The lines of a page, without their `//!`."""
    lines = []
    for line in lib.read_text().splitlines():
        if not line.startswith("//!"):
            break
        lines.append(line[3:].removeprefix(" "))
    return lines


def stripped(lines):
    """The lines that count."""
    return [line.strip() for line in lines if line.strip() not in ("", "#[test]")]


def lines_to(text, head):
    """The lines of a file to the end of the function that begins so; none if it has no such function."""
    found = re.search(rf"^( *){head}.*?^\1}}$", text, re.MULTILINE | re.DOTALL)
    return found and stripped(text[: found.end()].splitlines())


def fault_of(page):
    """What is wrong with a page; none if its program is one that the gate runs."""
    starts = [i for i, line in enumerate(page) if line == "```rust"]
    if len(starts) != 1:
        return f"{len(starts)} programs, not one"
    start = starts[0]
    block = stripped(page[start + 1 : page.index("```", start)])
    paragraph = "\n".join(page[:start]).rstrip().split("\n\n")[-1].replace("\n", " ")
    test, function, program = (it.search(paragraph) for it in (TEST, FUNCTION, PROGRAM))
    if test:
        name, crate = test.groups()
        head = rf"#\[test\]\s+fn {name}\("
    elif function:
        name, crate = function.groups()
        head = rf"(?:pub )?fn {name}[(<]"
    elif program:
        name, crate = "main", program.group(1)
        head = r"fn main\("
    else:
        return "names no test, no function and no program"
    imports = block[0].startswith(("use ", "ghost use "))
    if not imports or not any(re.match(rf"(?:pub )?fn {name}[(<]", line) for line in block):
        return f"shows no imports and `{name}`"
    files = sorted((CRATES / crate / "src").rglob("*.rt"))
    if function and not any(re.search(rf"(?<!fn ){name}\(", it.read_text()) for it in files):
        return f"`{name}` of `{crate}` isn't called"
    for file in files:
        lines = lines_to(file.read_text(), head)
        if lines:
            before = lines[: -len(block)]
            same = lines[len(before) :] == block and not (before and before[-1].endswith(";"))
            return None if same else f"differs from {file.relative_to(CRATES.parent)}"
    return f"no `{name}` in `{crate}`"


def main():
    pages = {}
    for file in sorted(CRATES.glob("*/src/*.rt")):
        crate, page = file.parent.parent.name, page_of(file)
        if crate not in NO_PROGRAM and (file.name == "lib.rt" or "```rust" in page):
            pages[f"{crate}/{file.stem}"] = page
    faults = {name: fault_of(page) for name, page in pages.items()}
    for name, fault in faults.items():
        print(f"{name}: {fault or 'as it is run'}")
    sys.exit(any(faults.values()))


if __name__ == "__main__":
    main()
