"""The service's page: what it may do, that it is small, and, where a browser is installed, what it shows of a made-up service and asks of it."""
import base64
import hashlib
import json
import random
import re
import struct
import subprocess
import tempfile
import time
import unittest
import urllib.error
import urllib.request
import zlib

from places import ROOT, TOOLS
from sumpharu_tools.clusters import Fault
from sumpharu_tools.dev import browser, pictures
from sumpharu_tools.dev.fake_service import BASE, PAGE, Fake, FakeService
from sumpharu_tools.dev.look_at_page import made_up

TEXT = PAGE.read_text(encoding="utf-8")
FORMATS = (ROOT / "docs/FORMATS.md").read_text()
# What a page that puts texts in by textContent alone, and asks nobody but its own service, has no use for.
FORBIDDEN = (
    *("innerHTML", "outerHTML", "insertAdjacentHTML", "DOMParser", "document.write", "srcdoc", "eval", "new Function", "javascript:", "import("),
    *("http:", "https:", "url(", "@import", " src=", " style=", "<link", "<img", "<iframe", "<form", "localStorage", "document.cookie"),
)
MOST_BYTES = 40_000
REBALANCE = f"POST {BASE}rebalance"
STOP = f"POST {BASE}stop_proposal_execution"
POLLS = [f"GET {BASE}{name}" for name in ("state", "load", "kafka_cluster_state", "user_tasks", "review_board")]
ENTER, ESCAPE, TAB, SPACE = ("Enter", 13, "\r"), ("Escape", 27), ("Tab", 9), (" ", 32, " ")
WIDTHS = (360, 400, 720, 721, 1060, 1061, 1200, 1600)
# No wait of a test is longer.
SECONDS = 60


def part(tag):
    """What stands in the page's one element of this name."""
    (found,) = re.findall(rf"<{tag}>(.*?)</{tag}>", TEXT, re.S)
    return found


def policy():
    """The page's policy: the values of each directive."""
    (text,) = re.findall(r'<meta http-equiv="Content-Security-Policy" content="([^"]*)">', TEXT)
    return {name: values for name, *values in (it.split() for it in text.split(";"))}


def source(text):
    """The value of a policy that allows this text alone."""
    return f"'sha256-{base64.b64encode(hashlib.sha256(text.encode()).digest()).decode()}'"


def keys(value):
    """All names of members in a value of JSON."""
    if isinstance(value, dict):
        return set(value) | {key for it in value.values() for key in keys(it)}
    return {key for it in value for key in keys(it)} if isinstance(value, list) else set()


class Text(unittest.TestCase):
    def test_policy(self):
        wanted = {
            "default-src": ["'none'"],
            "connect-src": ["'self'"],
            "script-src": [source(part("script"))],
            "style-src": [source(part("style"))],
            "base-uri": ["'none'"],
            "form-action": ["'none'"],
            "require-trusted-types-for": ["'script'"],
        }
        self.assertEqual(policy(), wanted, "web/page.html: its policy needs these values")

    def test_policy_comes_first(self):
        """A policy holds for what stands after it, so only the encoding stands before."""
        self.assertRegex(TEXT, r'\A<!DOCTYPE html>\n<html lang="en">\n<head>\n<meta charset="utf-8">\n<meta http-equiv="Content-Security-Policy"')

    def test_has_nothing_of_these(self):
        self.assertEqual([it for it in FORBIDDEN if it in TEXT], [])
        self.assertEqual(re.findall(r"<[^>]* on\w+=", TEXT.partition("<script>")[0]), [])
        self.assertEqual(len(re.findall(r"<script\b", TEXT)), 1)
        self.assertEqual(len(re.findall(r"<style\b", TEXT)), 1)

    def test_size(self):
        self.assertLessEqual(len(TEXT.encode()), MOST_BYTES)

    def test_ids(self):
        """What the script and the labels look for by id is there, once."""
        ids = re.findall(r' id="([\w-]+)"', TEXT)
        self.assertEqual(len(ids), len(set(ids)))
        named = {*re.findall(r"\bat\('([\w-]+)'\)", TEXT), *re.findall(r'(?:href="#|aria-labelledby="|aria-describedby=")([\w-]+)"', TEXT)}
        self.assertEqual(named - set(ids), set())

    def test_names_are_those_of_the_service(self):
        """The states, statuses and endpoints that the page knows stand in FORMATS."""
        named = {*re.findall(r"\b([A-Z]+(?:_[A-Z]+)+): \[", TEXT), *re.findall(r"\b(Active|InExecution|Completed\w*): '", TEXT), "ALIVE", "NEW", "DEMOTED", "DEAD"}
        named |= {*re.findall(r"\['([a-z_]+)', show", TEXT), *re.findall(r"'([a-z_]+)\?", TEXT), *re.findall(r"`([a-z_]+)\?", TEXT)}
        self.assertGreaterEqual(len(named), 20)
        self.assertEqual([it for it in sorted(named) if not re.search(rf"\b{it}\b", FORMATS)], [])


class MadeUp(unittest.TestCase):
    """The made-up service has the forms of FORMATS."""

    def test_members(self):
        rows = {name: set(re.findall(r"`(\w+)`", members)) for name, members in re.findall(r"^\| `(\w+)` \| 200 \| (.*) \|$", FORMATS, re.M)}
        fake = made_up(12, True, 4)
        for name in ("state", "load", "kafka_cluster_state", "user_tasks"):
            code, body, _ = fake.answer("GET", BASE + name)
            self.assertEqual((code, keys(body)), (200, rows[name]), name)
        self.assertEqual(keys(fake.answer("GET", f"{BASE}review_board")[1]), rows["review"])
        self.assertEqual(keys(made_up(12, False, 4).answer("POST", f"{BASE}stop_proposal_execution")[1]), rows["stop_proposal_execution"])
        self.assertEqual(Fake().answer("GET", f"{BASE}review_board"), (404, {"errorMessage": "not found"}, ""))

    def test_over_http(self):
        with FakeService(Fake()) as service:
            with urllib.request.urlopen(service.url, timeout=SECONDS) as reply:
                self.assertEqual((reply.headers["Content-Type"], reply.read()), ("text/html; charset=utf-8", PAGE.read_bytes()))
            with urllib.request.urlopen(f"{service.url}{BASE[1:]}load", timeout=SECONDS) as reply:
                text = reply.read().decode()
            self.assertEqual((reply.headers["Content-Type"], json.dumps(json.loads(text), sort_keys=True, separators=(",", ":"))), ("application/json", text))
            with self.assertRaises(urllib.error.HTTPError) as refused:
                urllib.request.urlopen(f"{service.url}favicon.ico", timeout=SECONDS)
            refused.exception.close()


class Pictures(unittest.TestCase):
    def test_rows(self):
        """Rows are found again, whichever of PNG's filters each has."""
        chance = random.Random(1)
        rows = [bytes(chance.randrange(256) for _ in range(9)) for _ in range(10)]
        data, above = b"", bytes(9)
        for number, row in enumerate(rows):
            kind, left, corner = number % 5, bytes(3) + row, bytes(3) + above
            guesses = [(0, a, b, (a + b) // 2, pictures.nearest(a, b, c))[kind] for a, b, c in zip(left, above, corner)]
            data, above = data + bytes([kind, *((x - y) % 256 for x, y in zip(row, guesses))]), row
        self.assertEqual([bytes(row) for row in pictures.rows_of(data, 3, 10)], rows)

    def test_few_colours(self):
        """A colour that is left out becomes the nearest that is kept."""
        pixels = [(0, 0, at) for at in range(256)] * 2 + [(9, 0, 77), (0, 3, 200)]
        data = b"\0" + b"".join(map(bytes, pixels))
        parts = {b"IHDR": struct.pack(">IIBBBBB", len(pixels), 1, 8, 2, 0, 0, 0), b"IDAT": zlib.compress(data)}
        made = pictures.few_colours(pictures.START + b"".join(pictures.chunk(*it) for it in parts.items()))
        found = dict(pictures.chunks(made))
        places = zlib.decompress(found[b"IDAT"])[1:]
        self.assertEqual([tuple(found[b"PLTE"][3 * at : 3 * at + 3]) for at in places], [*pixels[:-2], (0, 0, 77), (0, 0, 200)])

    def test_of_the_documents(self):
        picture = (ROOT / "docs/page.png").read_bytes()
        self.assertLess(len(picture), 150_000)
        self.assertEqual(struct.unpack(">I", dict(pictures.chunks(picture))[b"IHDR"][:4])[0], 1200)


@unittest.skipUnless(browser.found(), "no Chromium is installed")
class Shown(unittest.TestCase):
    @classmethod
    def setUpClass(cls):
        cls.tab = browser.Browser()
        cls.addClassCleanup(cls.tab.close)

    def open(self, fake):
        """Opens the page over a made-up service."""
        service = FakeService(fake)
        service.__enter__()
        self.addCleanup(service.__exit__)
        self.addCleanup(self.tab.open, "about:blank")
        self.tab.said.clear()
        self.tab.look(1200, 800, False)
        self.tab.open(service.url)
        self.tab.wait("document.body && document.body.className !== 'waiting'", SECONDS)
        return service

    def text(self, selector):
        return self.tab.value(f"(it => it && it.textContent)(document.querySelector({selector!r}))")

    def wait_for(self, selector, text):
        """Waits until what a selector finds has a text."""
        try:
            self.tab.wait(f"document.querySelector({selector!r})?.textContent.includes({text!r})", SECONDS)
        except Fault:
            self.fail(f"{selector} has {self.text(selector)!r}, and {text!r} is wanted")

    def focus(self, selector):
        self.tab.value(f"document.querySelector({selector!r}).focus()")

    def focused(self):
        return self.tab.value("document.activeElement.id || document.activeElement.getAttribute('aria-label')")

    def pause(self, seconds):
        """Lets the page go on."""
        self.tab.wait(f"new Promise(done => setTimeout(() => done(true), {1000 * seconds}))", SECONDS)

    def posts(self, fake):
        return [it for it in fake.asked if it.startswith("POST")]

    def test_brokers(self):
        """Broker 0 has its row with its state and what it carries, and the policy refuses nothing of the page."""
        fake = made_up(12, False, 4)
        self.open(fake)
        self.wait_for('tr[data-broker="0"]', "alive")
        self.wait_for('tr[data-broker="5"]', "demoted")
        self.wait_for('tr[data-broker="9"]', "dead")
        row = fake.load()["brokers"][11]
        self.wait_for('tr[data-broker="11"]', f"{row['replicas']}")
        self.assertEqual(self.tab.value("document.querySelectorAll('tr[data-broker]').length"), 12)
        self.assertIn("10 alive, 1 demoted, 1 dead", self.text("#summary"))
        widths = self.tab.value("[...document.querySelectorAll('tr[data-broker] td:nth-child(2) i')].map(it => parseFloat(it.style.width))")
        self.assertEqual((len(widths), max(widths)), (12, 100))
        self.assertEqual(self.tab.said, [])

    def test_what_goes_on(self):
        """The executor's counts, partitions in flight and user tasks; later all has ended."""
        fake = made_up(12, False, 4)
        self.open(fake)
        self.assertEqual(self.text("#doing"), "moving replicas")
        self.assertTrue(self.tab.value("document.querySelectorAll('#moves tr').length"))
        self.assertEqual(self.text("#moves tr td:nth-child(3)"), str(self.tab.value("document.querySelector('#moves td:nth-child(2)').textContent.split(', ').pop()")))
        self.assertTrue(self.tab.value("document.querySelector('#board').hidden"))
        self.wait_for("#task-rows tr", "InExecution")
        for _ in range(200):
            fake.answer("GET", f"{BASE}state")
        self.wait_for("#doing", "idle")
        self.wait_for("#flight-note", "None.")
        self.wait_for("#task-rows tr", "Completed")
        self.assertEqual(self.text("#counts .pending dd"), "0")

    def test_rounds(self):
        """One request at a time, round by round; the board is asked for once where there is none, and the lists only while a task is under way."""
        fake, start = Fake(), time.monotonic()
        self.open(fake)
        self.pause(5)
        polls = [it for it in fake.asked if it in POLLS]
        self.assertEqual(polls.count(POLLS[4]), 1)
        polls.remove(POLLS[4])
        rounds = len(polls) // 3
        self.assertGreaterEqual(rounds, 2)
        self.assertLessEqual(rounds, (time.monotonic() - start) / 2 + 1)
        self.assertEqual(polls[: 3 * rounds], [POLLS[0], POLLS[1], POLLS[3]] * rounds)

    def test_hidden(self):
        """Nothing is polled while the page is hidden; it goes on once it is shown."""
        fake = Fake()
        self.open(fake)
        self.tab.value("Object.defineProperty(document, 'hidden', {configurable: true, value: true}); document.dispatchEvent(new Event('visibilitychange'))")
        self.pause(1)
        count = len(fake.asked)
        self.pause(4.5)
        self.assertEqual(len(fake.asked), count)
        self.tab.value("delete document.hidden; document.dispatchEvent(new Event('visibilitychange'))")
        self.pause(1)
        self.assertGreater(len(fake.asked), count)

    def test_faults(self):
        """A poll that fails is told and tried again, whether the service refuses it or is away."""
        fake = Fake()
        service = self.open(fake)
        self.assertEqual(self.text("#fault"), "")
        fake.broken.add("load")
        self.wait_for("#fault", "GET load: 503 want of memory.")
        fake.broken.clear()
        self.tab.wait("document.querySelector('#fault').textContent === ''", SECONDS)
        service.away()
        self.wait_for("#fault", "GET state: no answer.")
        self.assertEqual(self.tab.value("document.body.className"), "lost")
        self.wait_for('tr[data-broker="0"]', "alive")
        service.back()
        self.tab.wait("document.body.className === '' && document.querySelector('#fault').textContent === ''", SECONDS)

    def test_dry_run(self):
        """A dry run by keyboard asks no question, and its result is shown."""
        fake = Fake()
        self.open(fake)
        self.focus("#dry")
        self.tab.press(*ENTER)
        self.wait_for("#told", "it would change")
        self.assertEqual(self.focused(), "dry")
        self.assertEqual(self.posts(fake), [f"{REBALANCE}?dryrun=true"] * 2)
        self.assertEqual(len(fake.tasks), 1)
        self.assertEqual(self.tab.value("document.querySelectorAll('#proposals tr').length"), min(len(fake.tasks[0].proposals), 100))

    def test_rebalance(self):
        """A rebalance asks first: Escape and Cancel ask nothing of the service."""
        fake = Fake()
        self.open(fake)
        for keys in ([ESCAPE], [ENTER]):
            self.focus("#real")
            self.tab.press(*ENTER)
            self.assertTrue(self.tab.value("document.querySelector('#question').open"))
            self.assertEqual(self.focused(), "no")
            for key in keys:
                self.tab.press(*key)
            self.tab.wait("!document.querySelector('#question').open", SECONDS)
            self.assertEqual(self.focused(), "real")
        self.assertEqual(self.posts(fake), [])
        for key in (ENTER, TAB, ENTER):
            self.tab.press(*key)
        self.wait_for("#told", "Rebalance: Active")
        self.assertEqual(self.posts(fake), [f"{REBALANCE}?dryrun=false"])
        self.wait_for("#doing", "moving replicas")
        for key in (ENTER, TAB, ENTER):
            self.tab.press(*key)
        self.wait_for("#refused", "Rebalance: 409 execution unfinished: 00000000-0000-8000-8000-000000000001.")

    def test_stop(self):
        """A stop asks first, and whether with force."""
        fake = Fake()
        self.open(fake)
        self.focus("#stop")
        for key in (ENTER, TAB, TAB, ENTER):
            self.tab.press(*key)
        self.wait_for("#refused", "Stop: 409 nothing to stop.")
        fake.answer("POST", f"{BASE}rebalance?dryrun=false")
        for _ in range(3):
            fake.answer("GET", f"{BASE}state")
        for key in (ENTER, SPACE, TAB, TAB, ENTER):
            self.tab.press(*key)
        self.wait_for("#told", "given up")
        self.assertEqual(self.text("#refused"), "")
        self.assertEqual(self.posts(fake)[0::2], [f"{STOP}?force_stop=false", f"{STOP}?force_stop=true"])

    def test_board(self):
        """A request is filed, approved and taken; another is discarded."""
        fake = Fake(review=True)
        self.open(fake)
        self.assertFalse(self.tab.value("document.querySelector('#board').hidden"))
        fake.answer("POST", f"{BASE}remove_broker?brokerid=9")
        self.focus("#dry")
        self.tab.press(*ENTER)
        self.wait_for("#told", "filed as request 2 of the review board")
        for label in ("Discard request 1, remove_broker", "Approve request 2, rebalance", "Take request 2, rebalance"):
            self.tab.wait(f"document.querySelector('[aria-label=\"{label}\"]') !== null", SECONDS)
            self.focus(f'[aria-label="{label}"]')
            self.tab.press(*ENTER)
        self.assertTrue(self.tab.value("document.querySelector('#question').open"))
        self.assertEqual(fake.tasks, [])
        for key in (TAB, ENTER):
            self.tab.press(*key)
        self.wait_for("#told", "it would change")
        self.assertEqual([(it["reviewId"], it["status"]) for it in fake.board], [(1, "DISCARDED"), (2, "SUBMITTED")])
        self.assertEqual(len(fake.tasks), 1)
        self.wait_for("#requests", "taken")

    def test_taken_rebalance(self):
        """A task that is taken and is no dry run has no result here, and starts once."""
        fake = Fake(review=True)
        fake.answer("POST", f"{BASE}rebalance?dryrun=false")
        fake.answer("POST", f"{BASE}review?approve=1")
        self.open(fake)
        self.focus('[aria-label="Take request 1, rebalance"]')
        for key in (ENTER, TAB, ENTER):
            self.tab.press(*key)
        self.wait_for("#told", "Take request 1, rebalance: Active")
        self.wait_for("#doing", "moving replicas")
        self.wait_for("#task-rows", "InExecution")
        self.assertEqual((len(fake.tasks), self.text("#refused")), (1, ""))
        self.assertEqual(len(fake.board), 1)

    def test_names_are_texts(self):
        """A name is shown as it is, whatever stands in it."""
        name = "<img src=x onerror=alert(1)>&amp;<b>"
        fake = made_up(12, False, 3)
        for it in fake.partitions:
            it.topic = name
        self.open(fake)
        self.wait_for("#moves", name)
        self.assertEqual(self.tab.value("document.querySelectorAll('#moves img, #moves b').length"), 0)
        self.assertEqual(self.tab.said, [])

    def test_widths(self):
        """The page is as wide as its window, dark and light, also with a long name and many brokers."""
        fake = made_up(40, True, 4)
        for it in fake.partitions:
            it.topic = "a" * 200
        self.open(fake)
        for width in WIDTHS:
            self.tab.look(width, 800, width % 2 == 0)
            self.assertLessEqual(self.tab.value("document.documentElement.scrollWidth"), width, width)
            background = self.tab.value("getComputedStyle(document.body).backgroundColor")
            self.assertEqual(sum(map(int, re.findall(r"\d+", background))) < 200, width % 2 == 0)

    def test_order(self):
        """The rows stand in the order that is asked for, and keep it."""
        fake = Fake()
        self.open(fake)
        first = "document.querySelector('#broker-rows tr').dataset.broker"
        self.assertEqual(self.tab.value(first), "0")
        self.tab.value("(it => { it.value = 'disk'; it.dispatchEvent(new Event('change')); })(document.querySelector('#order'))")
        most = max(fake.load()["brokers"], key=lambda it: it["disk"])
        self.assertEqual(self.tab.value(first), str(most["broker"]))

    def test_tool(self):
        with tempfile.TemporaryDirectory() as room:
            file = f"{room}/page.png"
            ran = subprocess.run([TOOLS, "look-at-page", file, "--width", "640", "--dark"], capture_output=True, text=True, timeout=120)
            self.assertEqual((ran.returncode, ran.stdout, ran.stderr), (0, "", ""))
            with open(file, "rb") as picture:
                head = picture.read(24)
        self.assertEqual((head[:8], struct.unpack(">I", head[16:20])[0]), (b"\x89PNG\r\n\x1a\n", 640))


if __name__ == "__main__":
    unittest.main()
