"""Sessions and services with threads that have little to do, each of which has to end within seconds."""
from __future__ import annotations

import concurrent.futures
import itertools
import pathlib
import random
import subprocess
from dataclasses import dataclass
from functools import partial
from typing import Callable, Iterable, List, Optional, Union

from ..clusters import Fault
from . import ROOT, serving

File = Union[str, pathlib.Path]

CLUSTER = ROOT / "examples/two-brokers.json"
REMOVAL = b"POST /kafkacruisecontrol/remove_broker?brokerid=0&dryrun=false HTTP/1.1\r\n\r\n"
# The broker is lost, and removed at once.
FIX = b"POST /cluster/kill?broker=0 HTTP/1.1\r\n\r\nPOST /cluster/detect?now=0&alert_ms=0&heal_ms=0 HTTP/1.1\r\n\r\n"
GROWTH = b"POST /kafkacruisecontrol/topic_configuration?topic=t&replication_factor=2&dryrun=false HTTP/1.1\r\n\r\n"
# What a run is asked. One user task is accepted each time, whose work the threads have to find.
REQUESTS = {"a removal": REMOVAL, "a fix": FIX, "a growth": GROWTH}
ACCEPTED = b"HTTP/1.1 202 Accepted\r\n"
# How many run at a time.
AT_ONCE = 4


@dataclass(frozen=True)
class Crew:
    """The threads beside the front of a run."""

    movers: int
    planners: int

    def words(self) -> List[str]:
        return ["--movers", str(self.movers), "--planners", str(self.planners)]

    def __str__(self) -> str:
        return f"{self.movers} movers, {self.planners} planners"


# 1 to 8 movers, with none, one and two planners.
CREWS = [Crew(movers, planners) for movers in range(1, 9) for planners in range(3)]


def session(program: File, crew: Crew, seconds: float, asked: str = "a removal") -> Optional[str]:
    """A session that is asked one thing. What was wrong with it, or nothing."""
    command = [program, "session", str(CLUSTER), *crew.words()]
    it = f"a session with {crew} and {asked}"
    try:
        ran = subprocess.run(command, input=REQUESTS[asked], capture_output=True, timeout=seconds)
    except subprocess.TimeoutExpired:
        return f"{it} didn't end in {seconds} seconds"
    if ran.returncode or ran.stderr or ran.stdout.count(ACCEPTED) != 1:
        return f"{it} ended with status {ran.returncode}: {(ran.stderr or ran.stdout).decode(errors='replace')}"
    return None


def service(program: File, crew: Crew, links: int, seconds: float, asked: str = "a removal") -> Optional[str]:
    """A service whose links are closed at once, the first behind what it is asked. What was wrong with it, or nothing."""
    port = serving.free_port()
    it = f"a service of {links} links with {crew} and {asked}"
    command = [program, "serve", str(CLUSTER), "--listen", f"{serving.HOST}:{port}", "--links", str(links), *crew.words()]
    with subprocess.Popen(command, stdin=subprocess.DEVNULL, stdout=subprocess.DEVNULL, stderr=subprocess.PIPE) as process:
        try:
            for number in range(links):
                link = serving.connect(process, port, seconds)
                if not number:
                    link.send(REQUESTS[asked])
                link.close()
            _, line = process.communicate(timeout=seconds)
        except (subprocess.TimeoutExpired, Fault) as fault:
            process.kill()
            return f"{it}: {fault}"
    return f"{it} ended with status {process.returncode}: {line.decode()}" if process.returncode else None


def all_of(calls: Iterable[Callable[[], Optional[str]]]) -> List[str]:
    """What was wrong with any of the runs, some of which are made at a time."""
    with concurrent.futures.ThreadPoolExecutor(AT_ONCE) as pool:
        found = [pool.submit(call) for call in calls]
        return [wrong for wrong in (it.result() for it in found) if wrong]


def sessions(program: File, number: int, seconds: float) -> List[str]:
    made = itertools.islice(itertools.cycle(itertools.product(CREWS, REQUESTS)), number)
    return all_of([partial(session, program, crew, seconds, asked) for crew, asked in made])


def services(program: File, number: int, seconds: float, seed: int = 1) -> List[str]:
    chance = random.Random(seed)
    made = [(chance.choice(CREWS), chance.randint(1, 4), seconds, chance.choice([*REQUESTS])) for _ in range(number)]
    return all_of([partial(service, program, *words) for words in made])
