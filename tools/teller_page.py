#!/usr/bin/env python3
"""Tries examples/teller.html in real browsers, behind nginx as in examples/nginx.conf, with the real counter: a teller
who uses the keyboard alone enters postings while the counter, nginx and the browser are killed at random. Each is
posted once, with the amounts and the balances that the page shows. Before that come the page's words for what is
refused, undoing, and a second tab.
    tools/teller_page.py [POSTINGS [KILLS [BROWSER]]]
                                     in Chromium and Firefox, as far as they are installed, or in one of them; 300
                                     postings, and 100 kills of the counter, 10 of nginx and 7 of the browser
    tools/teller_page.py hashes      writes the hashes of the page's script and style into examples/nginx.conf
    tools/teller_page.py pictures    takes docs/teller.png and docs/teller_narrow.png
It needs nginx, openssl, and Debian's `chromium-driver` or `firefox-esr`, and uses loopback alone."""
import base64
import contextlib
import hashlib
import json
import os
import random
import re
import subprocess
import sys
import tempfile
import threading
import time

from browsers import ENTER, ESCAPE, TAB, BrowserFault, Chromium, installed
from oracle import decimals
from serve_client import HERE, Failed, Place, check_books, ensure, need_program, open_branches, record, same, within

ACCOUNTS = [1, 2, 3, 100001]
# The least that account 3,000,001 may have is its floor; branch 31 has the tellers 301 to 310.
PLAN = [(1, 3), (2, 2), (31, 1, -500)]
# No wait in a page takes longer than this, and no run, in seconds.
WAIT, LONGEST = 120, 1800

# What the page keeps of its postings, the oldest first.
KEPT = """new Promise((yes, no) => { const ask = indexedDB.open('counter'); ask.onerror = no; ask.onsuccess = () => {
    const all = ask.result.transaction('postings').objectStore('postings').getAll();
    all.onsuccess = () => { ask.result.close(); yes(all.result) } } })"""
# Teller 1 has used this number.
AHEAD = """new Promise((yes, no) => { const ask = indexedDB.open('counter'); ask.onerror = no; ask.onsuccess = () => {
    const change = ask.result.transaction('numbers', 'readwrite');
    change.objectStore('numbers').put(%d, 'own 1');
    change.oncomplete = () => { ask.result.close(); yes(0) } } })"""
# The lines of its list, the newest first: number, account, amount, reference, answer, balance.
LINES = """[...document.querySelectorAll('.posting')].map(line =>
    [...line.cells].slice(1, 7).map(cell => cell.textContent))"""
NOTES = "['done', 'wrong', 'waiting', 'who'].map(id => document.getElementById(id).textContent)"
ACTIVE = ("(it => [it.id, it.getAttribute('aria-label') || (it.type === 'button' ? it.textContent : '')])"
          "(document.activeElement)")


def money(cents):
    """As the page shows it: units by thousands, with a narrow space."""
    return f"{'-' if cents < 0 else ''}{abs(cents) // 100:,}.{abs(cents) % 100:02}".replace(",", "\u202f")


def holds(name, text, *parts):
    ensure(all(part in text for part in parts), f"{name}: wanted {parts!r} in {text!r}")


def cents_of(text):
    return int(text.replace("\u202f", "").replace(".", ""))


def element(name):
    """An element of the page, in its own words."""
    return f"document.getElementById('{name}')"


def hashes():
    """Writes the hashes of the page's script and style into nginx.conf."""
    with open(HERE + "/examples/teller.html", encoding="utf-8") as file:
        page = file.read()
    path = HERE + "/examples/nginx.conf"
    with open(path, encoding="utf-8") as file:
        configuration = file.read()
    for part in ("script", "style"):
        text = re.search(f"<{part}[^>]*>(.*?)</{part}>", page, re.S)[1]
        digest = base64.b64encode(hashlib.sha256(text.encode()).digest()).decode()
        configuration = re.sub(f"{part}-src 'sha256-[^']*'", f"{part}-src 'sha256-{digest}'", configuration)
    with open(path, "w", encoding="utf-8") as file:
        file.write(configuration)


def texts():
    """Each language of the page has the same texts with the same places, and each that the page names."""
    with open(HERE + "/examples/teller.html", encoding="utf-8") as file:
        page = file.read()
    table = page[page.index("const TEXTS"):page.index("let language")]
    parts = re.split(r"^  (\w\w): \{$", table, flags=re.M)[1:]
    first, *others = ({name: sorted(re.findall(r"\{\w+\}", text)) for name, text in
                       re.findall(r"'([^'\n]+)':((?:\s+(?:\+ )?'(?:[^'\\]|\\.)*'(?: \+)?)+)", part)} for part in parts[1::2])
    for other in others:
        same("the texts of two languages", sorted(other.items()), sorted(first.items()))
    names = re.findall(r"'([^'\n]+)':\s", parts[1])
    same("names of two texts", sorted(names), sorted(set(names)))
    named = set(re.findall(r"(?:words\(|data-text=|data-label=)['\"]([^'\"]+)['\"]", page))
    ensure(len(first) > 100 and not named - first.keys(), f"texts that are missing: {named - first.keys()}")


class Page:
    """The page in a browser, as somebody who uses it."""

    def __init__(self, kind, profile, place):
        self.kind, self.profile, self.place, self.browser, self.who = kind, profile, place, None, None

    def sign_in(self, name, password):
        """Starts the browser and signs in, as a browser does that has been told a password."""
        self.who = (name, password)
        self.browser = self.kind(self.profile)
        self.load()

    def load(self):
        self.patiently(lambda: self.browser.open(self.place.address("%s:%s@" % self.who, "/branches")) or True)
        self.patiently(lambda: self.browser.open(self.place.address())
                       or self.browser.run("document.title.includes('Counter')"))
        self.until("the form", "!document.getElementById('form').hidden")

    def patiently(self, act):
        """Does what may fail while nginx is down."""
        end = time.monotonic() + WAIT
        while True:
            try:
                if act():
                    return
            except BrowserFault:
                if time.monotonic() > end or self.browser.process.poll() is not None:
                    raise
            if time.monotonic() > end:
                raise Failed("the page doesn't load")
            time.sleep(0.2)

    def act(self, *scripts):
        """Does something in the page, one after another, of which no value is wanted."""
        self.browser.run(f"({', '.join(scripts)}, 0)")

    def focus(self, name="account"):
        self.act(element(name) + ".focus()")

    def click(self, name):
        self.act(element(name) + ".click()")

    def write(self, name, text):
        self.act(f"{element(name)}.value = {json.dumps(text)}", element(name) + ".dispatchEvent(new Event('input'))")

    def search(self, text):
        self.write("search", text)

    def limit(self, text):
        self.write("ask-above", text)

    def prints(self, act, *parts):
        """What is on the slip that comes of it."""
        self.act(f"window.slip = '', window.print = () => {{ window.slip = {element('slip')}.textContent }}")
        act()
        self.until("a slip", "window.slip.length > 0")
        holds("the slip", self.browser.run("window.slip"), *parts)

    def note(self, name, text):
        self.until(f"the note {text}", f"{element(name)}.textContent.includes({json.dumps(text)})")

    def counts(self, amount):
        """Enters what is counted in the till."""
        self.until("a question", element("question") + ".open")
        self.browser.keys(amount, ENTER)
        self.until("no question", element("question") + ".open", False)

    def kept(self):
        return self.browser.run(KEPT)

    def until(self, name, script, wanted=True):
        end = time.monotonic() + WAIT
        while (got := self.browser.run(script)) != wanted:
            if time.monotonic() > end:
                raise Failed(f"{name}: {got!r}, and the page says {self.browser.run(NOTES)}")
            time.sleep(0.01)

    def enter(self, account, amount, reference):
        """Enters a posting by the keyboard, from the field that has the focus. Enter takes an amount with its sign alone."""
        same("the focus", self.browser.run(ACTIVE)[0], "account")
        self.browser.keys(str(account), TAB, amount if amount[0] in "+-" else "+" + amount, TAB, reference, ENTER)

    def listed(self, reference):
        """Waits for a posting to be in the list, which it is when it is on the disk."""
        self.until(f"{reference} in the list", f"{LINES}.some(line => line[3] === {json.dumps(reference)})")

    def answered(self, account, amount, reference):
        """Enters a posting, waits for its answer, and gives its line in the list and what the page says."""
        self.enter(account, amount, reference)
        self.listed(reference)
        self.settled()
        line = next(line for line in self.browser.run(LINES) if line[3] == reference)
        return line, self.browser.run(NOTES)

    def settled(self):
        """Waits until each posting has its answer, on the disk and in the list."""
        self.until("all answers", f"{KEPT}.then(all => all.every(it => it.answer))")
        self.until("all answers in the list", "!document.querySelector('.posting.waits')")

    def press(self, label):
        """Goes to a button by the key Tab, and presses it."""
        for _ in range(100):
            if self.browser.run(ACTIVE)[1].startswith(label):
                self.browser.keys(ENTER)
                return
            self.browser.keys(TAB)
        raise Failed(f"the key Tab doesn't lead to {label}")

    def fault(self, account, amount, reference, name, words):
        """Enters what is no posting: the field gets the focus and says what is wrong. Nothing is kept."""
        before = len(self.kept())
        self.enter(account, amount, reference)
        self.until(f"the focus at {name}", f"({ACTIVE})[0]", name)
        holds("what the field says", self.browser.run(element(name + "-fault") + ".textContent"), words)
        same("what is kept", len(self.kept()), before)
        self.act(element("form") + ".reset()", element("account") + ".focus()")

    def send_again(self):
        """Lets the day go out again, and waits for the answers."""
        self.click("send-again")
        self.browser.keys(TAB, ENTER)
        self.until("all go out again", element("question") + ".open", False)
        self.settled()

    def kill(self):
        self.browser.kill()
        self.browser = None


def words(place, page):
    """What the page says of refusals, and all else that it does beside sending."""
    page.sign_in("teller11", "counter11")
    line, notes = page.answered(100001, "5", "EARLY")
    holds("before the branch is open", line[4], "Not posted: teller 11 isn't open")
    same("what a screen reader meets without a name", page.browser.unnamed(), [])
    place.stop()
    open_branches(place.file, PLAN)
    # Account 100,002 and branch 31 come to within 0.99 of the limit of balances.
    place.posts(record(100002, 301, 31, i + 1, 9999999999) for i in range(100))
    place.start()
    page.press("Send again")
    page.settled()
    same("after the branch is open", page.browser.run(LINES)[0][3:], ["EARLY", "Posted", "5.00"])
    page.press("Total of the till")
    page.until("the till", element("done") + ".textContent", "The till of teller 11 has 5.00.")
    signed_out(place, page)
    page.kill()

    page.sign_in("teller1", "counter1")
    same("the postings of another teller", page.browser.run(LINES), [])
    page.fault("", "5", "", "account", "Enter the account")
    page.fault("1a", "5", "", "account", "digits alone")
    page.fault("1", "1,234.56", "", "amount", "12.34")
    page.browser.keys("1", TAB, "7", ENTER)
    page.until("which way", element("amount-fault") + ".textContent.startsWith('In or out?')")
    page.act(element("form") + ".reset()", element("account") + ".focus()")
    page.fault("1", "0.00", "", "amount", "nothing to post")
    page.fault("1", "100000000", "", "amount", "99999999.99 at most")
    page.fault("1", "1", "MÄRZ", "reference", "Ä")
    page.fault("1", "1", "A reference of 21 bytes", "reference", "20 characters")
    line, notes = page.answered("0003", "0900", "WHOLE UNITS")
    same("leading zeros", line[1:], ["3", "900.00", "WHOLE UNITS", "Posted", "900.00"])
    holds("what is said", notes[0], "Posted: 900.00 paid in to account 3. New balance: 900.00.")
    line, notes = page.answered(4, "1,5", "NO SUCH")
    holds("no account", line[4], "Not posted: there is no account 4")
    holds("what is said", notes[1], "there is no account 4")
    holds("below the floor", page.answered(3000001, "-5.01", "FLOOR")[0][4], "below the lowest balance")
    holds("over the limit", page.answered(100002, "99999999.99", "LIMIT")[0][4], "9999999999.99")
    reused(place, page)

    # Undoing, which asks first.
    line, _ = page.answered(2, "-12.34", "TO UNDO")
    page.press(f"Undo: number {line[0]}")
    page.browser.keys(ESCAPE)
    page.until("the question is gone", element("question") + ".open", False)
    page.focus()
    page.press(f"Undo: number {line[0]}")
    page.until("a question", element("question") + ".open")
    page.browser.keys(TAB, ENTER)
    page.listed(f"UNDO {line[0]}")
    page.settled()
    newest, undone = page.browser.run(LINES)[:2]
    same("the opposite", newest[1:], ["2", "12.34", f"UNDO {line[0]}", "Posted", "0.00"])
    same("what was undone", undone[4], f"Posted, and undone by {newest[0]}")

    page.focus()
    for copy in ("", "COPY 1", "COPY 2"):
        page.prints(lambda: page.press(f"Slip: number {newest[0]}"), "Teller1", f"Number{newest[0]}", "Paid in12.34",
                    "Balance then0.00", copy or "Posted", "Signature")

    page.focus()
    page.browser.keys("3", TAB, TAB, TAB, TAB, TAB, ENTER)
    page.note("done", "Account 3 has 900.00. Its postings: ask the back office for its statement.")
    page.focus("ask-branches")
    page.browser.keys(ENTER)
    page.until("the branches", element("branch-rows") + ".textContent.length > 0")
    same("a branch", page.browser.run("[...document.querySelectorAll('#branch-rows tr')].map(row => "
                                      "[...row.cells].map(cell => cell.textContent))[2]"), ["31", "1", money(999999999900)])
    same("another teller's record", page.browser.run(
        f"fetch('/post', {{method: 'POST', body: {json.dumps(record(1, 2, 1, 77, 7777).decode())}, headers: "
        "{'Content-Type': 'application/octet-stream'}}).then(got => got.status)"), 403)

    buttons(place, page)
    till(place, page)
    saved(place, page)
    days(page)
    closed(page)
    told(place, page)
    clicks(page)
    widths(page)
    outage(place, page)

    # A second tab isn't the teller's, until the first is closed.
    before = page.browser.other_tab(place.address())
    page.until("a second tab", "document.getElementById('who').textContent.includes('another tab')")
    same("its form", page.browser.run(element("form") + ".hidden"), True)
    page.browser.close_tab(before)
    page.kill()


def signed_out(place, page):
    """After `Sign out` neither the key Back nor another tab shows the teller's page, and nobody posts there in the teller's
    name."""
    kept, tab = page.kept(), page.browser.other_tab(place.address())
    page.click("sign-out")
    page.patiently(lambda: page.browser.run("document.title === 'Signed out'"))
    for go in (page.browser.back, lambda: page.browser.close_tab(tab), page.browser.reload):
        with contextlib.suppress(BrowserFault):
            go()
        time.sleep(1)
        shown = []
        page.patiently(lambda: shown.append(page.browser.run(
            "[document.querySelectorAll('.posting').length, !(window.form && !form.hidden)]")) or True)
        same("a page after the sign-out", shown[-1], [0, True])
        with contextlib.suppress(BrowserFault):
            page.act("window.form && (form.account.value = '1', form.amount.value = '-66', form.requestSubmit())")
        time.sleep(0.5)
        page.browser.open(place.address(path="/sign-out"))
        same("what is kept after the sign-out", page.kept(), kept)
    page.browser.open(place.address(path="/branches"))
    with open(place.folder + "/access.log", encoding="utf-8") as log:
        holds("who has signed out", log.readlines()[-1], '"GET /branches HTTP/1.1" 401 ')


def nobody(place, page):
    """Who signs in without being a teller keeps nothing, which could never go out."""
    word = subprocess.run(["openssl", "passwd", "-apr1", "guest"], check=True, stdout=subprocess.PIPE).stdout.decode()
    with open(place.folder + "/passwords", "a", encoding="utf-8") as passwords:
        passwords.write("guest:" + word)
    page.sign_in("guest", "guest")
    same("whose sign-in it is", page.browser.run(NOTES)[3], "Signed in, but not as a teller")
    page.browser.keys("1", TAB, "+5", ENTER)
    page.until("what nobody is told", f"({NOTES})[1]", "You aren't signed in as a teller: nothing can be posted.")
    same("what nobody keeps", page.kept(), [])
    page.kill()


def two_browsers(place, page):
    """Equal postings of one teller, by turns from two browsers: none is taken for a resend of another."""
    other = Page(page.kind, place.folder + "/other", place)
    os.mkdir(other.profile)
    try:
        for it in (page, other):
            it.sign_in("teller3", "counter3")
        for _ in range(20):
            for it in (page, other):
                it.enter(1, "0.01", "EQUAL")
                it.until("an empty form", element("account") + ".value", "")
        for it in (page, other):
            it.settled()
            same("the answers", {line[4] for line in it.browser.run(LINES)}, {"Posted"})
    finally:
        for it in (page, other):
            if it.browser:
                it.kill()
    place.counter.stop()
    with contextlib.closing(place.copied()) as base:
        same("equal postings", base.execute("SELECT count(*), sum(delta) FROM history WHERE tid = 3").fetchone(), (40, 40))
    place.start_counter()


def clicks(page):
    """A double click, slow or fast, posts once and shows no error; an error leaves no old success beside it."""
    for wait in (0, 50, 100, 200, 300):
        before = len(page.kept())
        page.browser.keys("2", TAB, "0.01")
        page.browser.run("new Promise(resolve => { const press = () => document.getElementById('in').click(); press(); "
                         f"setTimeout(() => {{ press(); setTimeout(() => resolve(0), 300) }}, {wait}) }})")
        page.settled()
        notes = page.browser.run(NOTES)
        same("a double click", (len(page.kept()), notes[1]), (before + 1, ""))
        holds("a double click", notes[0], "Posted: 0.01 paid in to account 2.")
    page.fault("", "5", "", "account", "Enter the account")
    same("the success before an error", page.browser.run(NOTES)[0], "")
    page.answered(4, "1.00", "NO ACCOUNT 4")
    same("the success before a refusal", page.browser.run(NOTES)[0], "")
    page.answered(2, "1.00", "AFTER A REFUSAL")
    same("the refusal before a success", page.browser.run(NOTES)[1], "")


def widths(page):
    """No window cuts the list off, be its texts as long as they can be."""
    page.answered(999999999999, "99999999.99", 20 * "W")
    page.answered(2, "99999999.99", 19 * "W")
    page.browser.run("(document.querySelectorAll('.posting td:first-child').forEach(it => it.textContent = "
                     "'2026-11-28 23:59'), 0)")
    for width in (*range(340, 740, 40), *range(740, 1201, 10)):
        page.browser.size(width, 740)
        wide = page.browser.run("[innerWidth, Math.max(document.documentElement.scrollWidth, ...[...document."
                                "querySelectorAll('.posting *')].map(it => it.getBoundingClientRect().right))]")
        if wide[1] > wide[0] + 1:
            raise Failed(f"a window of {wide[0]} pixels shows a list of {wide[1]}")
    page.browser.size(1120, 740)


def till(place, page):
    """A day of the till: what came in and went out here and elsewhere, and what is missing."""
    page.click("day")
    page.until("a question", element("question") + ".open")
    page.browser.keys("12,50-", ENTER)
    page.until("a count that is none", element("question-amount-fault") + ".textContent.length > 0")
    page.act(element("question-amount") + ".value = ''")
    page.counts("100")
    page.note("done", "The till is open with 100.00.")
    page.focus()
    page.answered(2, "20.00", "TILL IN")
    page.answered(2, "-5.50", "TILL OUT")
    place.counter.stop()
    place.posts([record(2, 1, 1, 4711, 300)])
    starts(place)
    page.load()
    page.click("day")
    page.until("the sums", element("question") + ".open")
    holds("the sums", page.browser.run(element("question-text") + ".textContent"), "In 20.00, out 5.50: 117.50 have to be in it.",
          "By other browsers: 3.00")
    page.prints(lambda: page.counts("117"), "Opening100.00", "In20.00", "Out-5.50", "By other browsers3.00", "Has to be117.50",
                "Counted117.00", "Difference-0.50", "Postings2")
    page.note("done", "The till is closed: 117.00 counted, 0.50 missing.")
    same("the till is closed", page.browser.run(element("day") + ".textContent"), "Open the till")
    page.focus()


def saved(place, page):
    """What waits is saved to a file and taken in by another browser: each is posted once, though both send it."""
    place.counter.stop()
    page.enter(2, "0.03", "SAVED")
    page.until("the button", element("save") + ".hidden", False)
    page.act("URL.createObjectURL = it => (it.text().then(text => { window.file = text }), 'blob:none')")
    page.click("save")
    page.until("a file", "Boolean(window.file)")
    text = page.browser.run("window.file")
    other = Page(page.kind, place.folder + "/taker", place)
    os.mkdir(other.profile)
    starts(place)
    page.click("send-now")
    page.settled()
    try:
        other.sign_in("teller1", "counter1")
        for given in (text.replace('"account": "2"', '"account": "3"'), text):
            other.act(f"(it => {{ it.items.add(new File([{json.dumps(given)}], 'a.json')); {element('file')}.files = it.files; "
                      f"{element('file')}.dispatchEvent(new Event('change')) }})(new DataTransfer())")
            if given != text:
                other.note("wrong", "has no postings of teller 1")
        other.listed("SAVED")
        other.settled()
        same("what was taken in", other.browser.run(LINES)[0][1:5], ["2", "0.03", "SAVED", "Posted"])
    finally:
        if other.browser:
            other.kill()
    place.counter.stop()
    with contextlib.closing(place.copied()) as base:
        same("a posting that two browsers sent", base.execute("SELECT count(*) FROM history WHERE delta = 3").fetchone(), (1,))
    place.start_counter()
    page.focus()


def days(page):
    """After midnight the rows of the day before have their date. A posting that isn't searched for ends the search."""
    page.search("saved")
    page.answered(2, "0.04", "BEFORE MIDNIGHT")
    same("a search", page.browser.run(element("search") + ".value"), "")
    page.act("window.Date.now = (now => () => now() + 86400000)(window.Date.now)")
    page.answered(2, "0.05", "AFTER IT")
    shown = page.browser.run("[...document.querySelectorAll('.posting td:first-child')].slice(0, 2).map(it => it.textContent.length)")
    same("the dates of two rows", shown, [5, 16])
    page.load()
    page.focus()


def closed(page):
    """After the books were closed: what they refuse waits for the new ones, and what the old ones decided keeps its first
    answer. If this browser has none, no button lets it be posted twice. The replies come from here."""
    page.act("window.code = '19', window.fetch = (real => (path, more) => path !== '/post' || !window.code ? real(path, more) : "
             "Promise.resolve(new Response((`DR01${window.code}${more.body.slice(4, 51)}+000000000000`).padEnd(200))))(window.fetch)")
    first = page.kept()
    page.enter(2, "0.06", "CLOSED")
    page.note("waiting", "The books of this counter are closed: the new ones will answer. 1 posting waits here")
    page.act("window.code = '18'")
    page.click("send-now")
    page.settled()
    said = "was decided before the books were closed. Don't enter it again: ask for the old statement"
    page.note("wrong", said)
    line = page.browser.run(LINES)[0]
    holds("a number of closed books", line[4], f"Number {line[0]} {said}")
    same("its buttons", page.browser.run("document.querySelector('.posting').querySelectorAll('button').length"), 0)
    page.send_again()
    kept, was = ([(it["answer"], it.get("first")) for it in all if it["reference"] != "CLOSED"] for all in (page.kept(), first))
    same("what closed books answered first", kept, was)
    page.load()
    page.focus()


def told(place, page):
    """What the server sets for all: the bank's name, the limit, statements, the language and the lock, after which what waits goes out, and
    then the browser is signed out. A file that can't be read asks each time."""
    def sets(text):
        with open(place.folder + "/settings.json", "w", encoding="utf-8") as file:
            file.write(text)
        page.load()
        page.focus()

    for text, amount, is_asked in (('{"ask above": "10.00"}', "10", False), ('{"ask above": "10.00"}', "10.01", True),
                                   ('{"ask above": "10,000.00"}', "1", True), ('{"ask above": ', "1", True)):
        sets(text)
        before = len(page.kept())
        page.browser.keys("2", TAB, "+" + amount, ENTER)
        page.until(text, f"{element('question')}.open || {KEPT}.then(all => all.length > {before})")
        same(text, page.browser.run(element("question") + ".open"), is_asked)
        page.browser.keys(ESCAPE)
        page.settled()
    sets('{"statements": "desk 4"}')
    page.write("account", "3")
    page.click("balance")
    page.note("done", "Its postings: desk 4.")
    place.counter.stop()
    sets('{"lock after minutes": 0.2}')
    page.enter(2, "0.07", "LOCKED")
    page.until("a lock", "form.hidden && !document.querySelector('.posting') && document.getElementById('save').hidden")
    starts(place)
    page.patiently(lambda: page.browser.run("document.title === 'Signed out'"))
    sets('{"bank": "Bank of Trials", "currency": "EUR", "language": "de", "lock after minutes": 0.2}')
    # Firefox asks its user first.
    if page.kind is Chromium:
        same("what may be deleted", page.browser.run(f"navigator.storage.persisted().then(it => it === !{element('keeps')}.textContent)"), True)
    same("its language", page.browser.run(f"[{element('in')}.textContent, {element('list-title')}.textContent]"), ["Ein", "Buchungen"])
    same("texts in both languages", page.browser.run("document.body.innerText.includes('undefined')"), False)
    page.prints(lambda: page.press("Beleg: Nummer"), "Bank of Trials", "Stand danach", "EUR", "Unterschrift")
    page.patiently(lambda: page.browser.run("document.title === 'Signed out'"))
    with open(place.folder + "/settings.json", "w", encoding="utf-8") as file:
        file.write("{}")
    page.load()
    page.focus()


def outage(place, page):
    """When the counter is back, `Send now` doesn't wait for the next try."""
    place.counter.stop()
    page.enter(2, "0.02", "OUTAGE")
    page.until("the button", element("send-now") + ".hidden", False)
    # By then a try comes each five seconds.
    time.sleep(8)
    starts(place)
    pressed = time.monotonic()
    page.click("send-now")
    page.settled()
    if time.monotonic() - pressed > 4:
        raise Failed(f"what waits went out {time.monotonic() - pressed:.1f} s after `Send now`")
    same("the button", page.browser.run(element("send-now") + ".hidden"), True)
    page.focus()


def buttons(place, page):
    """In and Out, the question above an amount, a search, a double click, and sending a day again."""
    page.act(element("form") + ".reset()", element("account") + ".focus()")
    page.browser.keys("2", TAB, "3.00", TAB, "BY BUTTON")
    page.click("out")
    page.click("out")
    page.listed("BY BUTTON")
    page.settled()
    same("an amount that is paid out", page.browser.run(LINES)[0][2:5], ["-3.00", "BY BUTTON", "Posted"])
    same("a second click", page.browser.run(NOTES)[1], "")
    page.limit("1000")
    page.browser.keys("2", TAB, "+1234567.89", TAB, "LARGE", ENTER)
    page.until("a question", element("question") + ".open")
    holds("a question", page.browser.run(element("question-text") + ".textContent"), money(123456789))
    page.browser.keys(TAB, ENTER)
    page.listed("LARGE")
    page.settled()
    for limit in ("1,000", "1 000", "1.000", "1000.-", "abc", "0", "-1"):
        page.limit(limit)
        same(f"a limit of {limit}", page.browser.run(element("ask-above-fault") + ".textContent.length > 0"),
             limit not in ("0", "-1"))
        page.browser.keys("2", TAB, "5000+", ENTER)
        page.until(f"a question at {limit}", element("question") + ".open")
        page.browser.keys(ESCAPE)
        page.act(element("form") + ".reset()", element("account") + ".focus()")
    page.limit("")
    page.search("by b")
    same("a search", [line[3] for line in page.browser.run(LINES)], ["BY BUTTON"])
    for text in ("-3.00", "1 234 567,89", "not posted"):
        page.search(text)
        ensure(0 < len(page.browser.run(LINES)) < 8, f"a search for {text}")
    page.search("")
    before = [it["answer"] for it in page.kept()]
    page.send_again()
    same("the answers when a day is sent again", [it["answer"] for it in page.kept()], before)
    holds("what is said of it", page.browser.run(element("again") + ".textContent"), ": none of ")
    page.focus()
    taken_over(place, page)


def taken_over(place, page):
    """Another machine takes over, which lacks the last postings and has another teller's in their place."""
    was = page.answered(2, "5.00", "WAS THERE")[0]
    place.counter.stop()
    place.keep("other")
    place.start_counter()
    lost = page.answered(2, "7.00", "LOST")[0]
    place.counter.stop()
    place.put_back("other")
    place.posts([record(2, 5, 1, 1, 100)])
    place.start_counter()
    page.focus()
    page.send_again()
    lines = {line[3]: line for line in page.browser.run(LINES)}
    same("what the other machine has", lines["WAS THERE"], was)
    same("what it lacked", lines["LOST"][4:],
         [f"Posted. Its first answer was another: posted, balance {lost[5]}", money(cents_of(lost[5]) + 100)])
    page.focus()
    refused_then(place, page)


def refused_then(place, page):
    """What one machine posted and the next refuses stays to be seen, however much follows it."""
    place.counter.stop()
    place.keep("other")
    place.start_counter()
    page.answered(3000001, "-4.00", "PAID OUT")
    for i in range(105):
        page.enter(2, "0.01", f"LATER {i}")
        page.until("an empty form", element("account") + ".value", "")
    page.settled()
    place.counter.stop()
    place.put_back("other")
    place.posts([record(3000001, 301, 31, 200, -300)])
    place.start_counter()
    page.send_again()
    said = page.browser.run(element("again") + ".textContent")
    same("what is said of it", re.sub(r"[\d:-]+ [\d:]+ \d+ of \d+ have", "N of M have", said),
         "N of M have another answer than before. Posted before, and refused now: 1.")
    page.answered(2, "0.01", "AFTER IT")
    same("what stays", page.browser.run(element("again") + ".textContent"), said)
    page.load()
    line = next(line for line in page.browser.run(LINES) if line[3] == "PAID OUT")
    holds("a posting that is refused now", line[4], "below the lowest balance", "The money has changed hands",
          "Its first answer was another: posted")
    ensure("ay out less" not in line[4], "a payout that was made is to be less")
    page.click("show-others")
    ensure(len(page.browser.run(LINES)) < 20, "more than the others are shown")
    page.press(f"Post with a new number: number {line[0]}")
    page.settled()
    page.search("")
    holds("the same under a new number", page.browser.run(LINES)[0][4], "Not posted: account 3000001 would go below")


def reused(place, page):
    """The page's clock was ahead once, and the next numbers were used elsewhere."""
    place.counter.stop()
    ahead = int(time.time()) + 1000
    place.posts(record(1, 1, 1, ahead + i, 1) for i in (1, 2))
    place.start_counter()
    page.browser.run(AHEAD % ahead)
    page.load()
    holds("a number that was used", page.answered(1, "1.50", "ELSEWHERE")[0][4], "was used for another posting")
    for answer in (f"Not posted: number {ahead + 2} was used", "Posted"):
        page.press("Post with a new number")
        page.settled()
        holds("under a new number", page.browser.run(LINES)[0][4], answer)
    same("the number", page.browser.run(LINES)[0][0], str(ahead + 3))


def listens(port):
    """Whether a program listens on a port of loopback."""
    with open("/proc/net/tcp", encoding="ascii") as lines:
        return any(f"0100007F:{port:04X} 00000000:0000 0A" in line for line in lines)


def starts(place):
    place.start_counter()
    within(WAIT, "the counter", lambda: listens(place.back))


def kill_soon(place, what):
    """Kills the counter or nginx, once it serves and some moments have gone by."""
    program, port = (place.counter, place.back) if what == "counter" else (place.nginx, place.front)
    within(WAIT, f"{what} that serves", lambda: listens(port))
    timer = threading.Timer(random.uniform(0, 0.1), program.kill)
    timer.start()
    return timer


def killed(place, page, count, kills):
    """Postings under kills of the counter, nginx and the browser. Gives what was entered, by reference, account and
    cents."""
    after, timers = [[] for _ in range(count)], []
    for what, times in (("counter", kills), ("nginx", kills // 10), ("browser", 7 * kills // 100)):
        for _ in range(times):
            random.choice(after).append(what)
    entered = [(f"{page.kind.name.upper()} {i}", random.choice(ACCOUNTS), random.choice((-1, 1)) * random.randint(1, 99999))
               for i in range(count)]
    at, end = 0, time.monotonic() + LONGEST
    while at < count:
        ensure(time.monotonic() < end, "the run takes too long")
        if page.browser is None:
            page.sign_in("teller1", "counter1")
            kept = [it["reference"] for it in page.kept()]
            lost = [it[0] for it in entered[:at] if it[0] not in kept]
            ensure(not lost, f"the browser forgot {lost}")
            # One that was typed and not yet in the list may have come to the disk.
            if entered[at][0] in kept:
                at += 1
                continue
        reference, account, cents = entered[at]
        dies, stops = "browser" in after[at], [it for it in after[at] if it != "browser"]
        after[at] = []
        if stops:
            # What was killed before has to be up again, and the page has to have caught up.
            for timer in timers:
                timer.join()
            page.until("a few that wait", f"{KEPT}.then(all => all.filter(it => !it.answer).length < 5)")
            timers = [kill_soon(place, what) for what in stops]
        page.enter(account, decimals(cents), reference)
        if not dies or random.randrange(2):
            page.listed(reference)
            at += 1
        if dies:
            page.kill()
    if page.browser is None:
        page.sign_in("teller1", "counter1")
    for timer in timers:
        timer.join()
    page.settled()
    return entered


def check(place, page, entered):
    """The bank has each posting once, as the page shows it, and its books agree."""
    kept = page.kept()
    page.kill()
    place.stop()
    shown = {it["reference"]: it for it in kept if it["reference"]}
    with contextlib.closing(place.copied()) as base:
        rows = base.execute("SELECT reference, number, request.aid FROM request JOIN request_reference USING (ordinal) "
                            "JOIN history USING (ordinal, tid)").fetchall()
    for reference, account, _ in entered:
        same("the row in the bank", [row[1:] for row in rows if row[0].strip() == reference],
             [(shown[reference]["number"], account)])
    check_books(place.folder + "/copy.db", {(1, shown[reference]["number"]): (shown[reference]["answer"].encode(), cents)
                                            for reference, _, cents in entered})
    # Every record that the page kept, sent once more, gets the answer that the page shows, but for what isn't kept.
    sent = [it for it in kept if it["answer"][4:6] not in ("11", "15", "16", "18", "90")]
    again = place.posts(it["record"].encode() for it in sent).decode()
    same("the replies", again, "".join(it["answer"] for it in sent))


@contextlib.contextmanager
def opened(kind):
    """A place that is started, and a page for it, until both have been used."""
    with tempfile.TemporaryDirectory(ignore_cleanup_errors=True) as folder:
        os.mkdir(folder + "/profile")
        place = Place(folder, [(1, 3)])
        page = Page(kind, folder + "/profile", place)
        try:
            place.start()
            yield place, page
        finally:
            if page.browser:
                page.kill()
            place.stop()


def run(kind, count, kills):
    start = time.monotonic()
    with opened(kind) as (place, page):
        nobody(place, page)
        two_browsers(place, page)
        words(place, page)
        check(place, page, killed(place, page, count, kills))
    print(f"teller_page: {kind.name}: {count} postings, {kills} kills of the counter, {kills // 10} of nginx and "
          f"{7 * kills // 100} of the browser: each is posted once, and the books agree "
          f"({time.monotonic() - start:.0f} s)", flush=True)


def pictures():
    """Takes the pictures of docs/, wide and narrow."""
    with opened(Chromium) as (place, page):
        page.sign_in("teller1", "counter1")
        page.browser.devtools("Browser.grantPermissions", permissions=["durableStorage"])
        page.load()
        for account, amount, reference in ((1, "1250", "OPENING"), (2, "310.50", "CHEQUE 4711"), (1, "-80", "CASH"),
                                           (4, "25", "NO NAME"), (3, "19.95", "BOOK 12")):
            page.answered(account, amount, reference)
        page.press("Undo: number")
        page.browser.keys(TAB, ENTER)
        page.until("the opposite", f"({LINES})[0][3].startsWith('UNDO')")
        page.settled()
        place.counter.stop()
        page.enter(1, "-120.00", "CASH")
        page.until("the notice", element("waiting") + ".textContent.length > 0")
        page.browser.keys("2", TAB, "45.50")
        for name, width, height in (("teller", 1120, 900), ("teller_narrow", 380, 820)):
            page.browser.size(width, height)
            page.browser.run("(scrollTo(0, 0), 0)")
            time.sleep(0.3)
            with open(f"{HERE}/docs/{name}.png", "wb") as file:
                file.write(page.browser.picture())


def main():
    if sys.argv[1:] == ["hashes"]:
        hashes()
        return
    need_program()
    texts()
    if sys.argv[1:] == ["pictures"]:
        pictures()
        return
    words_given = sys.argv[1:] + ["300", "100", ""][len(sys.argv) - 1:]
    count, kills = int(words_given[0]), int(words_given[1])
    browsers = [kind for kind in installed() if words_given[2] in ("", kind.name)]
    failed = not browsers
    if failed:
        print("teller_page: no browser: apt-get install chromium-driver firefox-esr")
    for kind in browsers:
        try:
            run(kind, count, kills)
        except (Failed, BrowserFault) as fault:
            print(f"teller_page: {kind.name}: {fault}", flush=True)
            failed = True
    sys.exit(1 if failed else 0)


main()
