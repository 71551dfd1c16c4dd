"""Keeps a service without end busy for as long as it is told, and checks what it answers and how it ends.

It makes the cluster of 'gen-cluster', by default 40 brokers and 2,000 partitions of seed 1, and starts the built program's 'serve --forever' over it, with
two movers and a planner. Clients, four by default, each on a thread and over sockets, ask for rebalances and removals, dry and for real, stop executions,
send samples, have a few brokers die, poll, send requests in a row, malformed heads and requests that are cut, and go away. After that it waits until
nothing is under way, and asks the service to shut down. It checks:

  - each reply is framed, and has a status that its request may have
  - each list that is shown has distinct members, and what is added or removed is among them
  - each user task has ended in the end, no partition is then in flight, and each has as many members as at the start
  - the service ends with status 0 and says nothing

It prints what was done, and the memory (VmRSS) after the first minute and at the end, so the bytes that a request adds. Status 1 where something was wrong.
"""
from __future__ import annotations

import argparse
import collections
import os
import pathlib
import random
import re
import subprocess
import tempfile
import threading
import time
from typing import Callable, Counter, Dict, List, Optional, Sequence, Set, Tuple

from ..clusters import Fault
from ..words import counted
from . import ENTRY, PROGRAM, serving

PATH = "/kafkacruisecontrol"
POLLS = ("state", "load", "user_tasks", "kafka_cluster_state")
# Each of these ends its connection with a reply of this status.
MALFORMED = (
    (b"GET / HTTP/1.1\r\nContent-Length: x\r\n\r\n", 400),
    (b"G@T\x00 / HTTP/1.1\r\n\r\n", 400),
    (b"GET / HTTP/1.1\r\nContent-Length: 1048577\r\n\r\n", 413),
    (b"GET /" + b"a" * 16379, 431),
    (b"POST / HTTP/1.1\r\nTransfer-Encoding: chunked\r\n\r\n", 501),
)
# The service refuses what would start something while another plan is carried out, or too many wait.
STARTED = {202, 409, 429}
# What is waited for at the end takes less.
SECONDS = 600
MOST_DEATHS = 3


class Shared:
    """What the clients tell."""

    def __init__(self) -> None:
        self.lock = threading.Lock()
        self.wrong: List[str] = []
        self.done: Counter[str] = collections.Counter()
        self.tasks: Set[str] = set()
        self.deaths = 0

    def note(self, what: str, wrong: Optional[str], task: str) -> None:
        with self.lock:
            self.done[what] += 1
            if wrong:
                self.wrong.append(f"{what}: {wrong}")
            if task:
                self.tasks.add(task)

    def may_kill(self) -> bool:
        with self.lock:
            self.deaths += 1
            return self.deaths <= MOST_DEATHS


def wrong_lists(body: serving.Body) -> Optional[str]:
    for it in body["partitions"]:
        members = it["replicas"]
        if len(set(members)) != len(members) or not set(it["adding"]) | set(it["removing"]) <= set(members):
            return f"the lists of {it}"
    return None


class Client(threading.Thread):
    """Asks for one thing after another until the time is over."""

    def __init__(self, service: subprocess.Popen[bytes], port: int, brokers: int, partitions: int, shared: Shared, last: float, seed: str) -> None:
        super().__init__()
        self.service, self.port, self.brokers, self.partitions = service, port, brokers, partitions
        self.shared, self.last, self.chance = shared, last, random.Random(seed)
        self.clock = 0
        self.link: Optional[serving.Link] = None

    def run(self) -> None:
        kinds: Dict[Callable[[], Tuple[Optional[str], str]], int] = {
            self.poll: 60, self.in_a_row: 15, self.dry_run: 8, self.real_run: 4, self.stop: 3, self.sample: 6, self.head: 4, self.malformed: 4,
            self.cut: 4, self.last_one: 4, self.die: 1,
        }  # fmt: skip
        while time.monotonic() < self.last and not self.shared.wrong:
            what = self.chance.choices([*kinds], [*kinds.values()])[0]
            try:
                wrong, task = what()
            except (OSError, EOFError, ValueError, KeyError, Fault) as fault:
                wrong, task = f"{type(fault).__name__}: {fault}", ""
            self.shared.note(what.__name__.replace("_", " "), wrong, task)
        self.leave()

    def leave(self) -> None:
        if self.link:
            self.link.close()
            self.link = None

    def there(self) -> serving.Link:
        """The open connection, or a new one."""
        if self.link is None:
            self.link = serving.connect(self.service, self.port, SECONDS)
        return self.link

    def ask(self, method: str, path: str, codes: Set[int]) -> Tuple[Optional[str], str]:
        reply = self.there().ask(method, path)
        return (None if reply.code in codes else f"{method} {path} got {reply.code}: {reply.body}"), reply.task

    def poll(self) -> Tuple[Optional[str], str]:
        name = self.chance.choice(POLLS)
        reply = self.there().ask("GET", f"{PATH}/{name}")
        if reply.code != 200:
            return f"GET {name} got {reply.code}", ""
        return (wrong_lists(reply.body) if name == "kafka_cluster_state" else None), ""

    def in_a_row(self) -> Tuple[Optional[str], str]:
        link, count = self.there(), self.chance.randint(2, 20)
        link.send(f"GET {PATH}/state HTTP/1.1\r\n\r\n".encode() * count)
        codes = {link.reply().code for _ in range(count)}
        return (None if codes == {200} else f"got {codes}"), ""

    def broker(self) -> int:
        return self.chance.randrange(self.brokers)

    def dry_run(self) -> Tuple[Optional[str], str]:
        path = self.chance.choice(("rebalance", f"remove_broker?brokerid={self.broker()}", f"demote_broker?brokerid={self.broker()}"))
        return self.ask("POST", f"{PATH}/{path}", STARTED)

    def real_run(self) -> Tuple[Optional[str], str]:
        path = self.chance.choice(("rebalance?dryrun=false", f"remove_broker?dryrun=false&brokerid={self.broker()}"))
        return self.ask("POST", f"{PATH}/{path}", STARTED)

    def stop(self) -> Tuple[Optional[str], str]:
        return self.ask("POST", f"{PATH}/stop_proposal_execution?force_stop={self.chance.choice(('true', 'false'))}", {200, 409})

    def sample(self) -> Tuple[Optional[str], str]:
        self.clock += 1
        load = '{"leader":{"CPU":3,"NW_IN":5,"NW_OUT":5,"DISK":100},"follower":{"CPU":1,"NW_IN":5,"DISK":100}}'
        at = self.chance.randrange(self.partitions)
        body = f'{{"topic":"t{at % 50}","partition":{at // 50},"time":{self.clock},"load":{load}}}'.encode()
        link = self.there()
        link.send(f"POST /cluster/sample HTTP/1.1\r\nContent-Length: {len(body)}\r\n\r\n".encode() + body)
        code = link.reply().code
        return (None if code in {200, 400, 409} else f"got {code}"), ""

    def head(self) -> Tuple[Optional[str], str]:
        """A reply without its body, and the next one in step."""
        link = self.there()
        link.send(f"HEAD {PATH}/state HTTP/1.1\r\n\r\n".encode())
        while b"\r\n\r\n" not in link.held:
            link.held += link.stream.recv(1 << 16)
        _, _, link.held = link.held.partition(b"\r\n\r\n")
        return self.ask("GET", f"{PATH}/state", {200})

    def malformed(self) -> Tuple[Optional[str], str]:
        self.leave()
        link = self.there()
        data, code = self.chance.choice(MALFORMED)
        link.send(data)
        reply = link.reply()
        rest = link.rest()
        self.leave()
        return (None if (reply.code, rest) == (code, b"") else f"{data[:40]!r} got {reply.code}, and then {rest[:40]!r}"), ""

    def cut(self) -> Tuple[Optional[str], str]:
        self.there().send(f"POST {PATH}/rebalance?dryrun=fal".encode())
        self.leave()
        return None, ""

    def last_one(self) -> Tuple[Optional[str], str]:
        link = self.there()
        link.send(f"GET {PATH}/state HTTP/1.1\r\nConnection: close\r\n\r\n".encode())
        code, rest = link.reply().code, link.rest()
        self.leave()
        return (None if (code, rest) == (200, b"") else f"got {code}, and then {rest[:40]!r}"), ""

    def die(self) -> Tuple[Optional[str], str]:
        if not self.shared.may_kill():
            return self.poll()
        return self.ask("POST", f"/cluster/kill?broker={self.broker()}", {200, 409})


class Soak:
    def __init__(self, folder: pathlib.Path, words: argparse.Namespace) -> None:
        self.words, self.shared, self.port = words, Shared(), serving.free_port()
        cluster = folder / "cluster.json"
        made = [str(ENTRY), "gen-cluster", str(words.seed), "--brokers", str(words.brokers), "--partitions", str(words.partitions)]
        with open(cluster, "wb") as file:
            subprocess.run(made, check=True, stdout=file)
        options = ["--listen", f"{serving.HOST}:{self.port}", "--forever", "--movers", "2", "--planners", "1"]
        self.process = subprocess.Popen([words.program, "serve", cluster, *options], stdin=subprocess.DEVNULL, stdout=subprocess.PIPE, stderr=subprocess.PIPE)

    def memory(self) -> int:
        text = pathlib.Path(f"/proc/{self.process.pid}/status").read_text()
        found = re.search(r"^VmRSS:\s+(\d+) kB", text, re.M)
        return int(found[1]) if found else 0

    def lists(self) -> serving.Body:
        link = serving.connect(self.process, self.port, SECONDS)
        body = link.ask("GET", f"{PATH}/kafka_cluster_state").body
        link.close()
        return body

    def run_clients(self) -> List[Tuple[int, int]]:
        """Requests that were made and the memory, after a minute and at the end."""
        last = time.monotonic() + self.words.minutes * 60
        clients = [
            Client(self.process, self.port, self.words.brokers, self.words.partitions, self.shared, last, f"{self.words.seed}/{number}")
            for number in range(self.words.clients)
        ]
        for client in clients:
            client.start()
        seen: List[Tuple[int, int]] = []
        for client in clients:
            if not seen:
                client.join(60)
                seen.append((sum(self.shared.done.values()), self.memory()))
            client.join()
        return [*seen, (sum(self.shared.done.values()), self.memory())]

    def rest(self) -> None:
        """Waits until nothing is under way, and looks at what is left."""
        link = serving.connect(self.process, self.port, SECONDS)
        until = time.monotonic() + SECONDS
        while True:
            tasks = {it["userTaskId"]: it["status"] for it in link.ask("GET", f"{PATH}/user_tasks").body["userTasks"]}
            if all(status in serving.ENDED for status in tasks.values()):
                break
            if until < time.monotonic():
                raise Fault(f"tasks don't end: {sorted(set(tasks.values()))}")
            time.sleep(0.1)
        missing = self.shared.tasks - set(tasks)
        if missing:
            self.shared.wrong.append(f"{len(missing)} tasks were accepted and are unknown")
        link.close()

    def judge(self, first: serving.Body) -> None:
        body = self.lists()
        counts = [{key: len(members) for key, members in serving.lists_of(it).items()} for it in (first, body)]
        self.shared.wrong += [it for it in (wrong_lists(body), serving.in_flight(body) and "partitions are in flight", counts[0] != counts[1] and "lists changed their lengths") if it]

    def shut_down(self) -> None:
        link = serving.connect(self.process, self.port, SECONDS)
        if link.ask("POST", "/cluster/close").code != 200:
            self.shared.wrong.append("it doesn't shut down")
        link.close()
        out, err = self.process.communicate(timeout=SECONDS)
        if self.process.returncode or out or err:
            self.shared.wrong.append(f"it ended with status {self.process.returncode}: {err.decode(errors='replace')}")

    def soak(self) -> Sequence[str]:
        try:
            first = self.lists()
            (few, small), (all_, large) = self.run_clients()
            self.rest()
            self.judge(first)
            self.shut_down()
        except (Fault, OSError, subprocess.TimeoutExpired) as fault:
            self.shared.wrong.append(f"{type(fault).__name__}: {fault}")
            return self.shared.wrong
        finally:
            self.process.kill()
        for what, count in sorted(self.shared.done.items()):
            print(f"  {what:12} {count:9}")
        print(f"VmRSS {small} KB after {few} requests, {large} KB after {all_}: {(large - small) * 1024 / max(all_ - few, 1):.0f} bytes a request")
        return self.shared.wrong


def add_arguments(parser: argparse.ArgumentParser) -> None:
    parser.add_argument("--program", metavar="FILE", default=str(PROGRAM), help="the program, in place of the built one")
    parser.add_argument("--minutes", metavar="N", type=counted, default=60, help="how long the clients ask; by default 60")
    parser.add_argument("--clients", metavar="N", type=counted, default=4, help="by default 4")
    parser.add_argument("--seed", metavar="N", type=counted, default=1, help="by default 1")
    parser.add_argument("--brokers", metavar="N", type=counted, default=40, help="by default 40")
    parser.add_argument("--partitions", metavar="N", type=counted, default=2000, help="by default 2000")


def run(arguments: argparse.Namespace) -> int:
    if not os.access(arguments.program, os.X_OK):
        raise Fault(f"no program: {arguments.program}")
    with tempfile.TemporaryDirectory() as folder:
        wrong = Soak(pathlib.Path(folder), arguments).soak()
    for it in wrong:
        print(it)
    print("something was wrong" if wrong else "all was well")
    return 1 if wrong else 0
