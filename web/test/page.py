#!/usr/bin/env python3
"""web/test/page.py PAGE WASM PICTURES WHATIF...: tests what-if.html in a browser; WHATIF is the command that runs whatif on this machine.

Prints a line for each test, 'ok: ..' or 'FAILED: ..'. A test counts only if it also fails on a page that is spoilt for it: the sources of the
page with one text changed, or the WebAssembly with one of its words changed."""
import json
import re
import shutil
import signal
import subprocess
import sys
import tempfile
from concurrent.futures import ThreadPoolExecutor
from functools import lru_cache
from pathlib import Path
from random import Random, SystemRandom

from browser import Broken, Browser

TOP = Path(__file__).resolve().parent.parent.parent
READ = "05 10 00 01 00 EA"
WRITE = "05 20 00 02 01 66 72"
WRITE_READ_ONLY = "05 20 00 05 00 00 00 00 00 D6"
SEED = SystemRandom().randrange(1 << 30)


class Wrong(Exception):
    """The page is not as it should be."""


def holds(what, so):
    if not so:
        raise Wrong(what)


def has(what, text, *parts):
    for part in parts:
        holds("%s: %r is not in: %s" % (what, part, text), part in text)


def is_same(what, one, other):
    holds("%s: %r, and not %r" % (what, one, other), one == other)


class Page:
    """The page in a browser, with what a user does there and sees."""

    def __init__(self, browser, address, whatif):
        self.browser, self.address, self.whatif = browser, address, whatif
        self.open()

    def open(self, fragment=""):
        self.browser.open(self.address + fragment)

    def run(self, line):
        self.browser.type("#line", line)
        self.browser.click("#line-form button")

    def sees(self, selector, *parts):
        has(selector, self.browser.text(selector), *parts)

    def sees_row(self, name, *parts):
        """A row of a decoded packet or reply, the last with this name."""
        rows = [row for row in self.browser.text("#facts").split("\n") if row.split("\t")[0] == name]
        has("row " + name, rows[-1] if rows else "no row", *parts)

    def thing(self, name):
        """What the board's table says of a thing."""
        return self.browser.value("[...document.querySelectorAll('#things tr')].find((row) => row.innerText.startsWith('%s\\n')).innerText" % name)

    def outcomes(self):
        return self.browser.value("[...document.querySelectorAll('#calls-so-far span')].map((said) => said.innerText)")


# ---- The tests ----


def says_what_it_is(page):
    version = subprocess.run([*page.whatif, "--version"], capture_output=True, text=True, check=True).stdout.split()[1]
    page.sees("#edition", "tested edition", "the proved source, compiled elsewhere and tested", "Version " + version)
    seen = page.browser.text("body")
    is_same("how often the page says proved", len(re.findall(r"\bproved\b", seen)), 1)


def it_connects_to_nothing(page):
    for address in ("data:,text", "https://localhost/", page.address):
        holds("it may fetch " + address, not page.browser.value("fetch(%s).then(() => true, () => false)" % json.dumps(address)))


def a_read_answers_minus_three(page):
    page.run(READ)
    page.sees("#outcome", "reply 11, value of a variable")
    page.sees_row("variable", "00", "variable 0: read-only, 4 bytes, signed big endian")
    page.sees_row("value of 0", "FF FF FF FD", "means -3")
    page.sees("#facts", "| 10 | variable | 11: value |", "nothing")
    is_same("history", page.outcomes(), ["reply 11, value of a variable"])


def a_checksum_is_added(page):
    page.browser.click("#sum")
    page.run("05 10 00 01 00")
    page.sees("#outcome", "reply 11, value of a variable")
    page.sees_row("checksum", "F1", "the sum is 0")
    page.run("store 1 66")
    page.open(page.browser.value("location.hash"))
    lines = page.browser.value("[...document.querySelectorAll('#calls-so-far strong')].map((line) => line.innerText)")
    is_same("the calls by the link", lines, ["05 10 00 01 00, checksum added", "store 1 66"])


def a_write_gets_its_rule_also_by_a_link(page):
    page.browser.type("#line", WRITE_READ_ONLY)
    page.browser.press("Enter", 13)
    page.sees("#outcome", "reply E6, read-only")
    page.sees("#facts", "step 8 of the wire errors", "variable 0 is read-only")
    page.browser.click("#things input[value='1']")
    page.sees("#outcome", "variable 1 is busy")
    page.run(WRITE)
    page.sees("#outcome", "reply E8, resource busy")
    outcomes, link = page.outcomes(), page.browser.value("document.getElementById('link').value")
    page.open("#" + link.split("#")[1])
    is_same("history by the link", page.outcomes(), outcomes)
    page.sees("#outcome", "reply E8, resource busy")
    page.sees("#facts", "step 9 of the wire errors", "variable 1 is busy")
    holds("the mark is not there by the link", page.browser.value("document.querySelector(\"#things input[value='1']\").checked"))


def a_function_is_run_and_undone(page):
    page.run(WRITE)
    has("variable 1", page.thing("variable 1"), "66")
    page.run("05 50 00 02 00 07 A2")
    page.sees("#outcome", "function 0 is to be run, input 07; an answer is due")
    page.run("result 0 due gave 12 34")
    page.sees("#outcome", "reply 51, output of a function")
    page.sees_row("output", "12 34")
    page.browser.click("#undo")
    page.sees("#outcome", "function 0 is to be run")
    page.browser.click("#undo")
    page.browser.click("#undo")
    is_same("history after undo", page.outcomes(), [])
    has("variable 1 after undo", page.thing("variable 1"), "5A")
    holds("there is more to undo", page.browser.value("document.getElementById('undo').disabled"))


def a_sum_goes_stale_and_is_renewed(page):
    has("the sum", page.thing("sum of curve 0"), "of what curve 0 holds", "7D EA 36 2B")
    page.run("05 41 00 04 00 00 01 66 4F")
    has("the sum", page.thing("sum of curve 0"), "stale", "7D EA 36 2B")
    page.sees("#facts", "the sum of curve 0 is stale; 42 renews it")
    page.run("05 42 00 01 00 B8")
    page.sees("#facts", "42 (payload: curve; answer E0)", "sum of curve 0: 7D EA 36 2B")
    has("the sum", page.thing("sum of curve 0"), "of what curve 0 holds", "72 B7 E8 0C")
    page.run("05 0A 00 01 00 F0")
    page.sees_row("sum", "72 B7 E8 0C", "of what curve 0 holds")


def a_short_block_is_read_as_it_was_written(page):
    has("the lengths", page.thing("lengths of curve 0"), "4*2")
    page.run("05 41 00 06 00 00 01 AA BB CC 82")
    page.sees("#facts", "curve 0, block 1, length: 4 -> 3")
    has("the lengths", page.thing("lengths of curve 0"), "4 3")
    has("the curve", page.thing("curve 0"), "2 blocks of 4 bytes, 1 not full", "00 00 00 00 AA BB CC")
    page.run("05 40 00 03 00 00 01 B7")
    page.sees_row("data", "AA BB CC", "3 of 4 bytes")
    page.run("fresh")
    page.sees("#outcome", "all blocks are full, and the sums are worked out")
    has("the lengths", page.thing("lengths of curve 0"), "4*2")


def a_broken_link_is_told(page):
    page.run(READ)
    link = page.browser.value("location.hash")
    for broken in (link[:-1], link.replace("call=05", "call=06"), link.replace("address+5", "address+6"), "#anything", "#%"):
        page.open(broken)
        page.sees("#notice", "This link is broken or was cut off")
        is_same("history after " + broken[-20:], page.outcomes(), [])
    page.browser.type("#sent", link[:-1])
    page.browser.click("#open-form button")
    page.sees("#sent-mistake", "This link is broken or was cut off")
    page.browser.type("#sent", "what-if.html" + link)
    page.browser.click("#open-form button")
    is_same("history after the whole link", len(page.outcomes()), 1)


def an_error_in_the_hex_is_placed(page):
    page.run(READ)
    page.run(" 05 1G 00")
    page.sees("#line-mistake", "'G' at place 5 is no hex digit")
    is_same("the letter that is marked", page.browser.text("#line-mistake mark"), "G")
    is_same("the field", page.browser.value("document.getElementById('line').value"), " 05 1G 00")
    is_same("the letter that is selected", page.browser.value("getSelection().toString()"), "G")
    is_same("history", len(page.outcomes()), 1)
    page.run("store 9")
    page.sees("#outcome", "refused with 9, no such variable")
    holds("the mistake is still told", not page.browser.text("#line-mistake"))


def a_bad_board_file_is_told_and_not_used(page):
    page.run(WRITE)
    page.browser.click("#by-file summary")
    with tempfile.TemporaryDirectory() as folder:
        bad = Path(folder) / "bad.board"
        bad.write_text("address 7\nvariable writable 1 plain\nvariable writable 300 plain\n")
        page.browser.give_file("#file", bad)
        page.browser.wait("document.getElementById('board-text').value.startsWith('address 7')")
        page.sees("#board-mistake", "line 3: the size can't be 300", "The board is as it was.")
        is_same("the line that is selected", page.browser.value("getSelection().toString()"), "variable writable 300 plain")
        is_same("the text", page.browser.value("document.getElementById('board-text').value"), bad.read_text())
        has("variable 1", page.thing("variable 1"), "66")
        page.run(READ)
        page.sees_row("value of 0", "means -3")
        is_same("the text after a call", page.browser.value("document.getElementById('board-text').value"), bad.read_text())
        good = Path(folder) / "good.board"
        good.write_text("address 7\nvariable writable 1 signed big value -3\nbusy 0\n")
        page.browser.give_file("#file", good)
        page.browser.wait("document.querySelectorAll('#calls-so-far li').length === 0")
    has("variable 0", page.thing("variable 0"), "FD (-3)")
    page.run("07 20 00 02 00 01 D6")
    page.sees("#outcome", "reply E8, resource busy")


def a_board_from_the_form(page):
    page.browser.click("#by-form summary")
    page.browser.type("[data-line=address] input", "9")
    page.browser.type("[data-line=variable] input.holds", "-4")
    page.browser.click("[data-add=group]")
    page.browser.type("[data-line=group] input", "0 1")
    page.browser.click("[data-add=sum]")
    page.browser.type("[data-line=sum] label:nth-of-type(2) input", "AB*16")
    page.browser.click("[data-add=length]")
    page.browser.type("[data-line=length] label:nth-of-type(2) input", "1")
    page.browser.type("[data-line=length] label:nth-of-type(3) input", "2")
    page.browser.click("#board-form .main")
    has("the address", page.thing("address"), "9")
    has("variable 0", page.thing("variable 0"), "FF FF FF FC (-4)")
    has("group 3", page.thing("group 3"), "read-only, variables 0 1")
    has("the sum", page.thing("sum of curve 0"), "stale", "AB AB")
    has("the lengths", page.thing("lengths of curve 0"), "4 2")
    page.run("09 10 00 01 00 E6")
    page.browser.click("#anew")
    is_same("history", page.outcomes(), [])
    has("the address", page.thing("address"), "9")
    page.browser.type("[data-line=address] input", "256")
    page.browser.click("#board-form .main")
    page.sees("#form-mistake", "line 1: the address can't be 256", "The board is as it was.")
    has("the address", page.thing("address"), "9")


# Each board of the handbook, through the form and back.
THROUGH_THE_FORM = """about.questions.map(({ board }) => {
    useBoard(board);
    const before = JSON.stringify([came.things, ask("form", now.board)]);
    part("board-form").requestSubmit();
    return [board, before, JSON.stringify([came.things, ask("form", now.board)]), part("form-mistake").textContent];
})"""


def the_form_says_all_of_a_board(page):
    found = page.browser.value(THROUGH_THE_FORM)
    holds("no boards", len(found) > 50)
    for board, before, after, mistake in found:
        is_same("through the form: " + board, (after, mistake), (before, ""))


def a_reply_is_decoded(page):
    page.browser.type("#reply", "00 11 00 04 FF FF FF FD F2")
    page.browser.click("#reply-form button")
    page.sees("#reply-facts", "means -3", "the checksum should be F1")
    page.browser.type("#reply", "00 1")
    page.browser.click("#reply-form button")
    page.sees("#reply-mistake", "a byte has two digits, and at place 4 stands one")
    page.browser.type("#request", READ)
    page.browser.type("#reply", "00 11 00 03 FF FF FD F1")
    page.browser.click("#reply-form button")
    page.sees("#reply-facts", "refused with 13, reply doesn't fit the request", "10, read a variable: variable 0", "3 bytes, and variable 0 has 4")
    page.browser.type("#request", "05 1")
    page.browser.click("#reply-form button")
    page.sees("#request-mistake", "a byte has two digits, and at place 4 stands one")


# What can be used: whether it has a name, and how high it is. A checkbox is as high as its label.
CONTROLS = """[...document.querySelectorAll("button, input, select, textarea, summary")].filter((part) => part.checkVisibility()).map((part) => {
    const label = part.closest("label");
    const name = part.ariaLabel || part.labels?.[0]?.innerText || (part.matches("button, summary") ? part.innerText : "");
    return [part.id || part.outerHTML, name, (part.type === "checkbox" ? label : part).getBoundingClientRect().height];
})"""


def it_fits_a_telephone(page):
    try:
        page.browser.value("document.querySelectorAll('details').forEach((part) => (part.open = true))")
        page.run("05 7F 10 03 00*4099 69")
        for width in (320, 390):
            page.browser.order("Emulation.setDeviceMetricsOverride", width=width, height=800, deviceScaleFactor=1, mobile=True)
            is_same("the page's width", page.browser.value("document.documentElement.scrollWidth"), width)
        for part, name, height in page.browser.value(CONTROLS):
            holds("%s: name %r, height %s" % (part, name, height), name.strip() and height >= 44)
    finally:
        page.browser.order("Emulation.clearDeviceMetricsOverride")


# ---- The handbook's questions, on the page and by whatif ----

CALLS = ("packet", "store", "read", "write", "result", "fresh", "busy", "ask", "hear", "forget")
SHOW_ALL = """about.questions.map(({ question }, place) => {
    part("question").value = place;
    part("question-form").requestSubmit();
    const texts = [...part("calls-so-far").querySelectorAll("button")].map((call) => {
        call.click();
        return [part("outcome").innerText, part("text").textContent];
    });
    return [question, texts, came.told.map(({ facts }) => facts)];
})"""


def questions():
    """The questions of docs/what-if.cases: each with its name, its board file and whatif's lines."""
    for text in re.split(r"^question ", (TOP / "docs/what-if.cases").read_text(), flags=re.M)[1:]:
        name, *lines = text.splitlines()
        pairs = [line.split(" ", 1) for line in lines if " " in line]
        board = [(TOP / "docs/boards" / (rest + ".board")).read_text() for keyword, rest in pairs if keyword == "board"]
        board += [rest for keyword, rest in pairs if keyword == "with"]
        yield name, "\n".join(board), [line for line in lines if line.split(" ")[0] in CALLS]


def told_by_whatif(whatif, folder, place, board, lines):
    """What whatif prints, and the same as facts."""
    path = Path(folder) / ("%d.board" % place)
    path.write_text(board)
    both = []
    for options in ([], ["--json"]):
        done = subprocess.run([*whatif, "--board", str(path), *options, *lines], capture_output=True, text=True, timeout=60)
        holds("whatif: " + done.stderr, done.returncode == 0)
        both.append(done.stdout)
    return both[0], [json.loads(line) for line in both[1].splitlines()]


@lru_cache(maxsize=None)
def all_by_whatif(whatif):
    """Each question's name with what whatif says."""
    asked = list(questions())
    with tempfile.TemporaryDirectory() as folder, ThreadPoolExecutor(2) as workers:
        told = workers.map(lambda one: told_by_whatif(whatif, folder, one[0], *one[1][1:]), enumerate(asked))
        return [(name, *both) for (name, _, _), both in zip(asked, told)]


def the_questions_are_told_as_by_whatif(page):
    on_page, native = page.browser.value(SHOW_ALL), all_by_whatif(page.whatif)
    is_same("the questions", [name for name, _, _ in on_page], [name for name, _, _ in native])
    for (name, texts, facts), (_, text, native_facts) in zip(on_page, native):
        is_same(name, facts, native_facts)
        is_same(name, "\n".join(text for _, text in texts), text)
        is_same(name, [outcome for outcome, _ in texts], [fact["outcome"] for fact in native_facts])
    return "%d questions, %d calls" % (len(native), sum(len(facts) for _, _, facts in native))


# ---- Random calls, on the page and by whatif ----

COMMANDS = bytes.fromhex("00 02 04 06 08 0A 0C 10 12 20 22 24 26 28 30 32 40 41 42 50 7F")
RANDOM_LINES = 1500  # on each board
ASK_ALL = "(([board, lines]) => { ask('begin', board); return lines.map((line) => ask('tell_summed', line).facts); })(%s)"


def random_line(random):
    """A packet without its checksum, most of them of a right form, or a call of the board's own."""
    some = lambda most: bytes(random.choice((0, 1, 2, 3, 0x54, random.randrange(256))) for _ in range(random.randrange(most)))
    if random.randrange(100) == 0:
        return "fresh"
    if random.randrange(8) == 0:
        return random.choice(("store %d %s", "read signed %d %s", "read unsigned %d %s", "result %d due gave %s")) % (random.randrange(3), some(5).hex())
    payload = some(9)
    size = len(payload) + (random.randrange(20) == 0)
    return bytes([random.choice((5, 5, 5, 5, 6, 0xF8, 0xFF)), random.choice(COMMANDS), 0, size, *payload]).hex(" ")


@lru_cache(maxsize=None)
def random_by_whatif(whatif, seed):
    """Boards, each with random lines and what whatif says of them."""
    random, found = Random(seed), []
    for path in (TOP / "docs/boards/a.board", TOP / "docs/boards/two-curves.board", TOP / "docs/boards/numbers.board"):
        lines = [random_line(random) for _ in range(RANDOM_LINES)]
        command = [*whatif, "--board", str(path), "--sum", "--json"]
        done = subprocess.run(command, input="\n".join(lines), capture_output=True, text=True, timeout=120)
        holds("whatif: " + done.stderr, done.returncode == 0)
        found.append((path.read_text(), lines, [json.loads(line) for line in done.stdout.splitlines()]))
    return found


def random_calls_are_told_as_by_whatif(page):
    outcomes = set()
    for board, lines, native in random_by_whatif(page.whatif, SEED):
        on_page = page.browser.value(ASK_ALL % json.dumps([board, lines]))
        is_same("how many", len(on_page), len(native))
        for line, one, other in zip(lines, on_page, native):
            is_same("%s, seed %d" % (line, SEED), one, other)
        outcomes |= {facts["outcome"].split(",")[0] for facts in native}
    holds("too few sorts of outcomes: %s" % outcomes, len(outcomes) > 20)
    return "%d calls, seed %d, %d sorts of outcomes" % (3 * RANDOM_LINES, SEED, len(outcomes))


# Each with an edit of the page that it must not pass: the file, the text that is changed and what it is changed to.
TESTS = [
    (says_what_it_is, "page.html", "compiled elsewhere and tested", "proved elsewhere"),
    (it_connects_to_nothing, "page.html", "default-src 'none'", "default-src data:"),
    (a_read_answers_minus_three, "wasm", b"means ", b"reads "),
    (a_checksum_is_added, "page.js", 'sum ? "summed" : "call", text]', '"call", text]'),
    (a_write_gets_its_rule_also_by_a_link, "page.js", "calls.map(({ text, sum }) =>", "calls.slice(1).map(({ text, sum }) =>"),
    (a_function_is_run_and_undone, "page.js", "show(last, run(last));", "show(last, came);"),
    (a_sum_goes_stale_and_is_renewed, "wasm", b"is stale; 42", b"is fine; 042"),
    (a_short_block_is_read_as_it_was_written, "wasm", b", length: ", b", width:  "),
    (a_broken_link_is_told, "page.js", "sum !== check(JSON.stringify(pairs))", "!sum"),
    (an_error_in_the_hex_is_placed, "page.js", "letters[place - 1] });", "letters[place] });"),
    (a_bad_board_file_is_told_and_not_used, "page.js", "  if (begun.mistake) return begun;\n", ""),
    (a_board_from_the_form, "page.html", 'data-line="group"', 'data-line="variable"'),
    (the_form_says_all_of_a_board, "page.html", "<option>signed little</option>", ""),
    (a_reply_is_decoded, "wasm", b"checksum should be", b"checksum could be "),
    (it_fits_a_telephone, "page.css", "button {\n  min-height: 2.75rem;", "button {\n  min-height: 2rem;"),
    (the_questions_are_told_as_by_whatif, "wasm", b"is read-only", b"is read.only"),
    (random_calls_are_told_as_by_whatif, "wasm", b"value of a variable", b"value of variables!"),
]


def spoilt(folder, wasm, name, old, new):
    """A page with one text changed."""
    web = Path(folder) / "web"
    shutil.copytree(TOP / "web", web, ignore=shutil.ignore_patterns("target", "test", "src"))
    shutil.copy(wasm, web / "wasm")
    data, old, new = (web / name).read_bytes(), *(text if isinstance(text, bytes) else text.encode() for text in (old, new))
    holds("there is no such text in %s: %s" % (name, old), old in data)
    (web / name).write_bytes(data.replace(old, new))
    subprocess.run([web / "assemble", web / "wasm", "", web / "spoilt.html"], check=True, capture_output=True)
    return (web / "spoilt.html").as_uri()


def outcome(test, browser, address, whatif):
    """Whether the page passes, and what is said of it."""
    try:
        return True, test(Page(browser, address, whatif)) or ""
    except (Wrong, Broken) as wrong:
        return False, str(wrong)


def both_ways(browser, address, whatif, wasm, test, *edit):
    name = test.__name__.replace("_", " ")
    passes, said = outcome(test, browser, address, whatif)
    if not passes:
        print(said)
        return False, name
    with tempfile.TemporaryDirectory() as folder:
        passes, _ = outcome(test, browser, spoilt(folder, wasm, *edit), whatif)
    return not passes, name + (", but a spoilt page passes too" if passes else ": " + said if said else "")


def pictures(browser, address, whatif, folder):
    """For someone to look at."""
    page = Page(browser, address, whatif)
    page.run(WRITE_READ_ONLY)
    page.run("05 1G")
    for name, width, height in (("telephone", 390, 844), ("desk", 1280, 900)):
        for scheme in ("light", "dark"):
            browser.picture(folder / ("%s-%s.png" % (name, scheme)), width, height, scheme)


def main(page, wasm, folder, *whatif):
    signal.signal(signal.SIGTERM, lambda *_: sys.exit("it was ended from outside"))  # so that the browser is ended too
    address, folder = Path(page).resolve().as_uri(), Path(folder)
    folder.mkdir(parents=True, exist_ok=True)
    bad = 0
    with Browser() as browser:
        for test in TESTS:
            good, said = both_ways(browser, address, whatif, wasm, *test)
            print("%s: the page: %s" % ("ok" if good else "FAILED", said), flush=True)
            bad |= not good
        pictures(browser, address, whatif, folder)
    return bad


if len(sys.argv) < 5:
    sys.exit("usage: web/test/page.py PAGE WASM PICTURES WHATIF...")
sys.exit(main(*sys.argv[1:]))
