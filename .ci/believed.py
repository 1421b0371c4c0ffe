#!/usr/bin/env python3
"""Prints the definitions that a reader has to believe, for each of README's claims.

    .ci/believed.py              prints docs/BELIEVE.md
    .ci/believed.py --check      ends with status 1 unless docs/BELIEVE.md is what it prints, README has its numbers
                                   and the logic of `bank --version`, and the folders specs/believed hold just what the
                                   promise and the calls need
    .ci/believed.py CRATE NAME [CLAUSE..]      the same page for one function's contract

From the names of a function's clauses it walks through `specs/` until only names of the kit are left. Where a law says the
same in such names, it goes on by the law. A definition counts with its comment; a file is named with the first line of its
head.
"""
import re
import sys
from pathlib import Path

TOP = Path(__file__).resolve().parent.parent
CRATES = TOP / "crates"
PAGE = TOP / "docs" / "BELIEVE.md"
README = TOP / "README.md"

# The promise, what a user of the library calls, and all that README claims: crate, function and clauses (none: all).
PROMISE = [("bank_lives", "reopen", ["lives"])]
CALLS = PROMISE + [
    ("bank_lives", "lives_law", []),
    ("bank_lives", "calls_law", []),
    ("bank_lives", "streams_law", []),
    ("posting_rules", "each_request_once", []),
    ("posting_rules", "tables_are_consistent", []),
    ("posting_rules", "sealed_law", []),
    ("posting_rules", "two_years_law", []),
    ("bank_store", "submit", []),
    ("bank_store", "submit_all", []),
    ("bank_store", "open_branch", []),
    ("bank_store", "seal", []),
    ("bank_store", "tables_law", []),
]
CLAIMS = CALLS + [
    ("bank_lives", "replayed_law", []),
    ("bank_lives", "sender_law", []),
    ("posting_rules", "cases_are_as_stated", []),
    ("posting_core", "post_stream", ["streams"]),
    ("posting_rules", "accounts_stay_above", []),
    ("bank_store", "balance", []),
    ("bank_store", "next_branch", []),
    ("bank_reports", "audit", ["file"]),
    ("shared_log", "sharing_law", []),
    ("bank_commands", "command_over", []),
    ("bank_commands", "run", []),
]

# What a law says in names of the kit and of Rust, so that its law is followed and not its definition.
BY_LAW = {("store_rows", "specs/believed/BankTables.antt", "bank_tables"): ("store_rows", "tables_law", [])}

# Who may name a definition, and when the prover unfolds it: nothing that a reader has to believe.
KEYWORDS = re.compile(r"^( *)(?:(?:abbrev|unfoldable|pub) )+")
WORD = re.compile(r"[^\W\d][\w'?!]*(?:\.[\w'?!]+)*|[◌∥⟦]\S*", re.UNICODE)
HEAD = re.compile(r"^(\s*)(?:(?:abbrev|unfoldable|record|data|pub|instance|opaque)\s+)+([^\s:({]+)")
USE = re.compile(r"(?:ghost )?(?:pub )?use\s+([\w.]+?)(?:\.\{([^}]*)\}|\s+as\s+(\w+))?\s*(?:;|$)", re.MULTILINE)


def without_comments(text, mark):
    return "\n".join(line.split(mark)[0] if mark in line else line for line in text.splitlines())


class Names:
    """What a file's names stand for, by its imports: the module and the name there, or a module alone."""

    def __init__(self, text):
        self.own, self.modules = {}, {}
        for path, names, alias in USE.findall(text):
            if alias:
                self.modules[alias] = path
            for name in filter(None, (it.strip() for it in names.split(","))):
                there, _, here = name.partition(" as ")
                inner, _, last = there.strip().rpartition(".")  # a module in the braces, as in {Tables.AreTablesOf}
                self.own[here.strip() or last] = (f"{path}.{inner}" if inner else path, last)

    def of(self, word):
        """The places that a word may name."""
        head, *rest = word.split(".")
        if word in self.own:
            return [self.own[word]]
        if head in self.modules and rest:
            return [(self.modules[head], rest[0])]
        return [self.own[head]] if head in self.own else []


class Definition:
    def __init__(self, module, name, start):
        self.module, self.name, self.start, self.text, self.words = module, name, start, [], set()

    @property
    def lines(self):
        return len(self.text)


class Module:
    """A file of specs/: its definitions by name, each with its lines and the words that it uses."""

    def __init__(self, path):
        self.path, text = path, path.read_text()
        self.names, self.definitions, self.place = Names(text), {}, {}
        self.about = next((l[3:] for l in text.splitlines() if l.startswith("-- ")), "")
        # The heads of the modules round a line, each with its comment, may go on over several lines.
        around, current, comment, is_open = [], None, [], False
        for number, line in enumerate(text.splitlines()):
            bare = line.split("--")[0].rstrip()
            if is_open:
                around[-1][1].append(line)
                is_open = not bare.endswith("where")
                continue
            if not bare:
                comment = [*comment, line] if line.strip() else []
                continue
            indent = len(bare) - len(bare.lstrip())
            around = [it for it in around if it[0] < indent]
            if re.match(r"(pub )?use ", bare):
                current, comment = None, []
                continue
            if bare.lstrip().startswith("module "):
                around.append((indent, [*comment, line]))
                current, comment, is_open = None, [], not bare.endswith("where")
                continue
            found = HEAD.match(bare)
            deep = around[-1][0] + 2 if around else 0
            if found and indent == deep and not (current and current.holds and indent > current.indent):
                name = found.group(2)
                current = self.definitions.setdefault(name, Definition(self, name, number))
                current.holds, current.indent = bare.endswith("where"), indent
                current.is_data = bare.lstrip().removeprefix("pub ").startswith("data ")
                current.outer = [it for _, head in around for it in head]
                current.text += comment
                current.words |= set(WORD.findall(without_comments("\n".join(current.outer), "--")))
            elif current is None:
                continue
            elif indent <= current.indent and not bare.lstrip().startswith((current.name + " ", current.name + "(", "(", "{", "}")):
                name = bare.split()[0]
                current = self.definitions.get(name, current)
            current.text.append(line)
            current.words |= set(WORD.findall(bare))
            if current.holds:
                inner = re.match(r"\s+(?:pub )?([A-Z]\w*)\s*:", bare)  # a constructor
                if inner and current.is_data:
                    self.place[inner.group(1)] = current.name
            comment = []


MODULES, RUST = {}, {}
OURS = {it.name for it in CRATES.iterdir() if (it / "src").is_dir()}


def module_at(path):
    parts = path.split(".")
    if len(parts) < 4 or parts[0] != "Rattle" or parts[1] not in OURS or parts[2] != "specs" or parts[3] == "declared":
        return None
    file = CRATES / parts[1] / "specs" / ("/".join(parts[3:]) + ".antt")
    if path not in MODULES:
        MODULES[path] = Module(file) if file.exists() else None
    return MODULES[path]


def is_ours(path):
    parts = path.split(".")
    return len(parts) > 1 and parts[1] in OURS


def clauses_of(crate, function, wanted):
    """The text of the clauses of a function, and the names of its file."""
    for file in sorted((CRATES / crate / "src").rglob("*.rt")):
        text = without_comments(file.read_text(), "//")
        for found in re.finditer(rf"^( *)(?:pub )?(?:const )?fn {function}\b.*?(?=^\1\{{|^\1}}|;$)", text, re.MULTILINE | re.DOTALL):
            head = found.group(0)
            if found.group(1) and not re.search(r"ensures", head):
                continue
            parts = re.split(r"\b(ensures|requires)\b", head)[1:]
            said = [(kind, body) for kind, body in zip(parts[::2], parts[1::2])]
            chosen = [b for k, b in said if not wanted or k == "requires" or b.split("{")[0].strip() in wanted]
            if any(k == "ensures" for k, _ in said):
                impl = text[: found.start()].rfind("\nimpl")
                return "\n".join(b[b.find("{") :] for b in chosen), Names(text), file
    sys.exit(f"no contract of {function} in {crate}")


def closure(contracts, laws=BY_LAW):
    """The definitions that these contracts need, the names of Rust types and constants, and those of the kit."""
    todo, seen, rust, kit = [], {}, set(), set()

    def take(words, names, home):
        for word in words:
            places = names.of(word)
            head = word.split(".")[0]
            if not places and home:
                if head in home.definitions:
                    places = [(None, head)]
                elif head in home.place:
                    places = [(None, home.place[head])]
            for path, name in places:
                where = home if path is None else module_at(path)
                if where is None:
                    if ".specs.declared." in path and is_ours(path):
                        rust.add((path.split(".")[1], path.split(".specs.declared.")[1].split(".TheVariants")[0]
                                  + ("." + name if "TheVariants" not in path and not path.endswith("." + name) else "")))
                    elif not is_ours(path):
                        kit.add((path, name))
                    continue
                found = where.definitions.get(name) or where.definitions.get(where.place.get(name, ""))
                if found is None:
                    again = where.names.of(name)  # a name that the file gives again
                    if again:
                        take([name], where.names, None)
                    continue
                if id(found) not in seen:
                    seen[id(found)] = found
                    todo.append(found)

    for contract in contracts:
        text, names, _ = clauses_of(*contract)
        take(WORD.findall(text), names, None)
    while todo:
        it = todo.pop()
        crate, *inside = it.module.path.relative_to(CRATES).parts
        law = laws.get((crate, "/".join(inside), it.name))
        if law:
            text, names, _ = clauses_of(*law)
            take(WORD.findall(text), names, None)
            continue
        chained = {"◌>>=◌"} if "do" in it.words else set()  # what `do` stands for
        take(it.words | chained, it.module.names, it.module)
    return list(seen.values()), rust, kit


def misplaced():
    """What the promise and the calls need outside a folder `believed`, and what else lies in one."""
    needed = {(it.module.path, it.name) for it in closure(CALLS, {})[0]}
    inside = {
        (file, name)
        for file in CRATES.glob("*/specs/believed/*.antt")
        for name in module_at(f"Rattle.{file.relative_to(CRATES).parts[0]}.specs.believed.{file.stem}").definitions
    }
    return sorted(f"{path.relative_to(CRATES)}: {name}" for path, name in needed ^ inside)


def order_of_crates():
    lines = (TOP / "crates.txt").read_text().splitlines()
    return [it.split(":")[0].split()[0] for it in lines if it and not it.startswith("#")]


def counts(contracts):
    found, rust, kit = closure(contracts)
    files = {it.module.path for it in found}
    return found, rust, kit, (
        f"{len(found)} definitions, {sum(it.lines for it in found):,} lines in {len(files)} files of "
        f"{len({it.relative_to(CRATES).parts[0] for it in files})} crates"
    )


def depth_of(path, below=()):
    """How many files of its own crate a file of specs/ stands on, one on another."""
    names = next(it.names for it in MODULES.values() if it and it.path == path)
    paths = {it for it, _ in names.own.values()} | set(names.modules.values())
    under = {it.path for it in map(module_at, paths) if it and it.path.parts[:-1] == path.parts[:-1]} - {path, *below}
    return 1 + max((depth_of(it, (*below, path)) for it in under), default=0)


def listed(found):
    """The files in reading order, each with its definitions."""
    by_file = {}
    for it in found:
        by_file.setdefault(it.module.path, []).append(it)
    out, order = [], order_of_crates()
    for path in sorted(by_file, key=lambda it: (order.index(it.relative_to(CRATES).parts[0]), depth_of(it), it.name)):
        its = sorted(by_file[path], key=lambda it: it.start)
        whole = sum(it.lines for it in its)
        crate, name = path.relative_to(CRATES).parts[0], "/".join(path.relative_to(CRATES).parts[2:])[:-5]
        out.append((crate, name, path, whole, its))
    return out


def page():
    promise, rust, kit, said = counts(PROMISE)
    calls, _, _, said_calls = counts(CALLS)
    claims = counts(CLAIMS)[0]
    # in hundreds, so that the page stands where a command has one definition more
    said_claims = f"some {round(len(claims), -2):,} definitions, {round(sum(it.lines for it in claims), -2):,} lines"
    listed_names = len({(library_of(path), name) for path, name in kit})
    return "\n".join([
        "# What must be believed",
        "",
        "A proof shows that the code keeps its contracts. Whether a contract says what it should is for you to judge. To judge",
        "README's promise, read this page from top to bottom: it has every definition that the promise needs, down to names of",
        "the kit, as in the code but for `pub`, `abbrev` and `unfoldable`. `.ci/believed.py CRATE FUNCTION` prints such a page",
        "for any other contract, and `.ci/run` fails when this page isn't what `.ci/believed.py` prints. The tables of a bank are",
        "those that the nine texts in `MAKE_TABLES` define, by `tables_law` of `store_rows`: read the texts, and not what",
        "`sqlite` makes of them. `specs/believed` of a crate has what the promise and the calls need, and nothing else.",
        "",
        "| For | Definitions |",
        "|---|---|",
        f"| README's promise: `reopen` (`lives`) | {said}; {len(rust)} Rust types and constants, {listed_names} names of the kit |",
        f"| with `lives_law`, `calls_law` and `streams_law`, which say what is acknowledged, `each_request_once`, `tables_are_consistent`, `sealed_law`, `two_years_law`, and `submit`, `submit_all`, `open_branch`, `seal` | {said_calls} |",
        f"| all ten claims of README | {said_claims} |",
        "",
        "## The promise",
        "",
        *clauses(PROMISE),
        *texts(promise),
        *borrowed(rust, kit),
    ])


def library_of(path):
    return path.split(".")[1] if path.startswith("Rattle.") else path.split(".")[0]


def borrowed(rust, kit):
    """The Rust types and constants that the definitions name, and the names of the kit."""
    types, names = {}, {}
    for crate, name in rust:
        types.setdefault(crate, set()).add(name.split(".")[-1])
    for path, name in kit:
        names.setdefault(library_of(path), set()).add(name)
    def lines(by_crate):
        return [f"- `{it}`: " + ", ".join(f"`{name}`" for name in sorted(by_crate[it])) for it in sorted(by_crate)]
    return ["**Rust types and constants**", "", *lines(types), "", "**Names of the kit**, beside the signs of its logic (≡, ×, ⊎, ∥ ∥₁)", "", *lines(names), ""]


def clauses(contracts):
    """The clauses themselves, as they stand in the code."""
    rows = []
    for crate, function, wanted in contracts:
        text = clauses_of(crate, function, wanted)[0]
        rows += [f"The contract of `{function}` of `{crate}`" + (f", its clause `{'`, `'.join(wanted)}`" if wanted else "") + ":", "", "```antt"]
        rows += [line.rstrip() for line in text.splitlines() if line.strip()] + ["```", ""]
    return rows


def texts(found):
    """Each file's definitions in reading order, with their texts and comments."""
    rows, crate_before = [], None
    for crate, name, path, lines, its in listed(found):
        if crate != crate_before:
            rows += [f"### `{crate}`", ""]
            crate_before = crate
        rows += [f"`specs/{name}`: {its[0].module.about.rstrip('.,:;')}", "", "```antt"]
        outer = []
        for it in its:
            rows += [line for place, line in enumerate(it.outer) if it.outer[:place + 1] != outer[:place + 1]]
            outer = it.outer
            rows += [*(KEYWORDS.sub(r"\1", line) for line in it.text), ""]
        rows[-1] = "```"
        rows.append("")
    return rows


def main():
    if sys.argv[1:] == ["--check"]:
        if not PAGE.exists() or PAGE.read_text() != page():
            sys.exit("docs/BELIEVE.md isn't what .ci/believed.py prints")
        said = counts(PROMISE)[3].split(" in ")[0]
        if said not in README.read_text():
            sys.exit(f"README.md doesn't say how much its promise needs: {said}")
        logic = re.search(r'VERSION: &str = ".*logic (\w+)"', (CRATES / "command_line/src/texts.rt").read_text())[1]
        if f"logic `{logic}`" not in README.read_text():
            sys.exit(f"README.md names another logic than `bank --version`: {logic}")
        if misplaced():
            sys.exit("not where it belongs, by specs/believed: " + ", ".join(misplaced()))
        print("docs/BELIEVE.md: as .ci/believed.py prints it")
    elif len(sys.argv) > 2:
        contract = [(sys.argv[1], sys.argv[2], sys.argv[3:])]
        found, rust, kit, said = counts(contract)
        print("\n".join([said, "", *clauses(contract), *texts(found), *borrowed(rust, kit)]), end="")
    else:
        print(page(), end="")


if __name__ == "__main__":
    main()
