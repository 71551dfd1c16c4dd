"""Takes a picture of the service's page with a headless Chromium, and writes it as a PNG of at most 256 colours.

The page is that of --url. Without it the command serves web/page.html itself, over a made-up cluster that is being rebalanced. With --port it takes no
picture: it serves that page there until it is interrupted, for a look with another browser.

It prints what the browser says of the page: lines of its console, errors of its script, what its policy refused. Then the status is 1.
"""
from __future__ import annotations

import argparse
import pathlib
import threading

from ..clusters import Fault
from ..words import counted, positive
from .browser import Browser
from .fake_service import BASE, Fake, FakeService
from .pictures import few_colours

# What holds once the page's first round of polls is over.
IS_SHOWN = "document.querySelector('#brokers') !== null && !document.body.classList.contains('waiting')"
HEIGHT = "Math.ceil(document.documentElement.getBoundingClientRect().height)"
# What a page needs to draw what it was told, in seconds.
PAUSE = 0.7
FILED = ("rebalance?dryrun=false", "demote_broker?brokerid=5", "remove_broker?brokerid=9&dryrun=false", "add_broker?brokerid=11", "rebalance")


def made_up(brokers: int, has_board: bool, steps: int) -> Fake:
    """A made-up service whose execution has gone on for so many steps."""
    fake = Fake(brokers, 20 * brokers, has_board)
    for target in FILED if has_board else FILED[:1]:
        fake.answer("POST", BASE + target)
    if has_board:
        fake.answer("POST", f"{BASE}review?approve=1,3&discard=2")
        fake.answer("POST", f"{BASE}rebalance?review_id=1")
    for _ in range(steps):
        fake.answer("GET", f"{BASE}state")
    return fake


def take(url: str, arguments: argparse.Namespace) -> int:
    with Browser() as browser:
        browser.look(arguments.width, arguments.height or 800, arguments.dark)
        browser.open(url)
        try:
            browser.wait(IS_SHOWN, 20)
        except Fault as fault:
            raise Fault("; ".join([f"{url} isn't the page, or shows nothing", *browser.said])) from fault
        for selector in arguments.press:
            threading.Event().wait(PAUSE)
            if not browser.value(f"(it => it && (it.click(), true))(document.querySelector({selector!r}))"):
                raise Fault(f"nothing to press: {selector}")
        threading.Event().wait(PAUSE + arguments.seconds)
        if not arguments.height:
            browser.look(arguments.width, browser.value(HEIGHT), arguments.dark)
            threading.Event().wait(PAUSE)
        pathlib.Path(arguments.file).write_bytes(few_colours(browser.picture()))
        for line in browser.said:
            print(line)
        return 1 if browser.said else 0


def add_arguments(parser: argparse.ArgumentParser) -> None:
    parser.add_argument("file", metavar="FILE", nargs="?", help="the picture")
    parser.add_argument("--url", metavar="URL", help="where the page is, in place of a made-up service")
    parser.add_argument("--width", metavar="N", type=positive, default=1200, help="pixels; by default 1200")
    parser.add_argument("--height", metavar="N", type=positive, help="pixels; by default as high as the page")
    parser.add_argument("--dark", action="store_true", help="for a reader who prefers a dark page")
    parser.add_argument("--press", metavar="SELECTOR", action="append", default=[], help="press what this CSS selector finds, before; may be repeated")
    parser.add_argument("--seconds", metavar="N", type=counted, default=0, help="wait so long after that; by default 0")
    parser.add_argument("--brokers", metavar="N", type=positive, default=12, help="of the made-up cluster, by default 12, at least 10")
    parser.add_argument("--steps", metavar="N", type=counted, default=4, help="how far its rebalance is, by default 4")
    parser.add_argument("--review", action="store_true", help="it has a review board")
    parser.add_argument("--broken", metavar="NAME", action="append", default=[], help="it refuses this endpoint, such as 'load'; may be repeated")
    parser.add_argument("--port", metavar="N", type=positive, help="serve it at this port, and take no picture")


def run(arguments: argparse.Namespace) -> int:
    if not arguments.file and not arguments.port:
        raise Fault("a FILE for the picture is needed, or --port")
    if arguments.url:
        return take(arguments.url, arguments)
    fake = made_up(max(arguments.brokers, 10), arguments.review, arguments.steps)
    fake.broken.update(arguments.broken)
    try:
        service = FakeService(fake, arguments.port or 0)
    except OSError as fault:
        raise Fault(f"port {arguments.port}: {fault.strerror}") from fault
    with service:
        if arguments.port:
            print(service.url, flush=True)
            threading.Event().wait()
        status = take(service.url, arguments)
    return status
