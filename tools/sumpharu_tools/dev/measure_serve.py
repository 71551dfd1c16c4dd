"""Measures the service: requests a second, the time of a rebalance, and memory.

It makes the cluster of 'gen-cluster', by default 40 brokers and 2,000 partitions of seed 1, starts the built program's 'serve' over it, and prints,
without judging:

  - how many requests for the state are answered a second over the loopback, with one link and with four, with no workers and beside two movers and a
    planner; and how many a plain server answers that writes the same bytes to whatever comes, on a thread a link. Each link is kept alive and sends
    its next request once the last reply is there. Each figure comes once for each of the --runs
  - how long a rebalance takes over HTTP beside two movers and a planner, from the request to the first poll that tells its end: as a dry run, and for
    real
  - the memory of the process, now (VmRSS) and at its most (VmHWM), before and after --polls requests for the state over one link, and so the bytes
    that a request adds
  - with --plans N, the bytes that each of N dry runs adds, and each of N removals of a broker that are carried out, beside two movers and a planner.
    Six of each come before, in which the heap grows to the size that one plan needs

The client and the plain server are polls.rs, which stands beside this module, and which 'rustc -O' compiles in a temporary folder: so both services
have the same client, and the number of requests is known. Another client, such as wrk, may be tried by hand; it has its own way of counting.
"""
from __future__ import annotations

import argparse
import pathlib
import re
import shutil
import subprocess
import tempfile
import time
from typing import Callable, List, Optional, Sequence, Tuple, Union

from ..clusters import Fault
from ..words import counted
from . import ENTRY, PROGRAM, serving

STATE = "/kafkacruisecontrol/state"
REQUEST = f"GET {STATE} HTTP/1.1\r\n\r\n".encode()
# What is measured takes less.
SECONDS = 600
# So many plans come before those by which the memory is measured.
WARMING = 6


class Service:
    """A process that serves so many links beside one of its own, over which it is asked first."""

    def __init__(self, command: Sequence[Union[str, pathlib.Path]], port: int, seconds: float = SECONDS) -> None:
        self.process = subprocess.Popen(command, stdin=subprocess.DEVNULL)
        self.address = f"{serving.HOST}:{port}"
        try:
            self.link = serving.connect(self.process, port, seconds)
        except BaseException:
            self.process.kill()
            raise

    def __enter__(self) -> Service:
        return self

    def __exit__(self, kind: Optional[type], *_: object) -> None:
        self.link.close()
        if kind:
            self.process.kill()
        if self.process.wait(SECONDS) and not kind:
            raise Fault(f"the service ended with status {self.process.returncode}")

    def memory(self) -> List[int]:
        """The memory now and at its most, in KB."""
        text = pathlib.Path(f"/proc/{self.process.pid}/status").read_text()
        found = dict(re.findall(r"^(VmRSS|VmHWM):\s+(\d+) kB", text, re.M))
        return [int(found[name]) for name in ("VmRSS", "VmHWM")]


class Measure:
    def __init__(self, folder: pathlib.Path, words: argparse.Namespace) -> None:
        self.words = words
        self.cluster, self.polls = folder / "cluster.json", folder / "polls"
        self.request, self.reply = folder / "request", folder / "reply"
        self.request.write_bytes(REQUEST)
        made = [ENTRY, "gen-cluster", str(words.seed), "--brokers", str(words.brokers), "--partitions", str(words.partitions)]
        with open(self.cluster, "wb") as file:
            subprocess.run(made, check=True, stdout=file)
        source = pathlib.Path(__file__).with_name("polls.rs")
        if subprocess.run(["rustc", "-O", "--edition", "2021", "-o", self.polls, source], stdin=subprocess.DEVNULL).returncode:
            raise Fault("rustc failed")

    def serve(self, links: int, movers: int = 0, planners: int = 0) -> Service:
        port = serving.free_port()
        words = ["--listen", f"{serving.HOST}:{port}", "--links", str(links + 1), "--movers", str(movers), "--planners", str(planners)]
        return Service([self.words.program, "serve", self.cluster, *words], port)

    def serve_plainly(self, links: int) -> Service:
        port = serving.free_port()
        return Service([self.polls, "serve", f"{serving.HOST}:{port}", str(links + 1), self.reply], port)

    def ask(self, service: Service, links: int, requests: int) -> float:
        """The seconds that so many requests take on each of so many links."""
        words = [str(self.polls), "ask", service.address, str(links), str(requests), str(self.request)]
        ran = subprocess.run(words, stdin=subprocess.DEVNULL, stdout=subprocess.PIPE, timeout=SECONDS)
        if ran.returncode:
            raise Fault("a client failed")
        return float(ran.stdout)

    def rates(self, serve: Callable[[int], Service], links: int) -> str:
        """The requests that are answered a second, run by run."""
        found = []
        for _ in range(self.words.runs):
            with serve(links) as service:
                self.reply.write_bytes(service.link.ask("GET", STATE).raw)
                found.append(links * self.words.requests / self.ask(service, links, self.words.requests))
        return "  ".join(f"{rate:8.0f}" for rate in found)

    def print_rates(self) -> None:
        kinds: List[Tuple[str, Callable[[int], Service]]] = [
            ("no workers", self.serve),
            ("2 movers, 1 planner", lambda links: self.serve(links, 2, 1)),
            ("a plain server", self.serve_plainly),
        ]
        print("requests a second, a column a run")
        for links in (1, 4):
            for name, serve in kinds:
                print(f"  {links} link{'s' if links > 1 else ' '}  {name:20} {self.rates(serve, links)}", flush=True)
        print(f"  bytes a reply: {len(self.reply.read_bytes())}")

    def rebalance(self, link: serving.Link, query: str) -> Tuple[float, int]:
        return self.plan(link, f"rebalance{query}")

    def plan(self, link: serving.Link, query: str) -> Tuple[float, int]:
        """The seconds that it takes, and how many partitions change."""
        path = f"/kafkacruisecontrol/{query}"
        begun = time.monotonic()
        task = link.ask("POST", path).task
        while serving.status_of(link.ask("GET", "/kafkacruisecontrol/user_tasks").body, task) not in serving.ENDED:
            if time.monotonic() - begun > SECONDS:
                raise Fault(f"it doesn't end: {query}")
            time.sleep(0.005)
        seconds = time.monotonic() - begun
        body = link.ask("POST", path, task).body
        if body["status"] != "Completed" or "proposals" not in body:
            raise Fault(f"{query} ended otherwise: {body}")
        return seconds, len(body["proposals"])

    def print_rebalance(self) -> None:
        print(f"a rebalance of {self.words.brokers} brokers and {self.words.partitions} partitions, beside 2 movers and a planner")
        for _ in range(self.words.runs):
            with self.serve(0, 2, 1) as service:
                dry, _ = self.rebalance(service.link, "")
                real, changes = self.rebalance(service.link, "?dryrun=false")
                print(f"  dry run {dry:.3f} s; for real {real:.3f} s, with {changes} partitions that change", flush=True)

    def print_memory(self) -> None:
        print(f"memory, and {self.words.polls} requests for the state over one link, with no workers")
        with self.serve(1) as service:
            service.link.ask("GET", STATE)
            before = service.memory()
            self.ask(service, 1, self.words.polls)
            after = service.memory()
        for when, (now, most) in (("before", before), ("after", after)):
            print(f"  {when:6}  VmRSS {now:8} KB  VmHWM {most:8} KB")
        print(f"  bytes a request: {(after[0] - before[0]) * 1024 / max(self.words.polls, 1):.1f}")

    def print_plans(self) -> None:
        print(f"memory, and {self.words.plans} dry runs, and as many removals that are carried out, beside 2 movers and a planner")
        with self.serve(0, 2, 1) as service:
            for name, carried_out in (("a dry run", False), ("a removal", True)):
                for number in range(WARMING + self.words.plans):
                    if number == WARMING:
                        memory = service.memory()[0]
                    query = f"remove_broker?brokerid={number}&dryrun=false" if carried_out else "rebalance"
                    self.plan(service.link, query)
                added = service.memory()[0] - memory
                print(f"  bytes that {name} adds: {added * 1024 / self.words.plans:.0f}", flush=True)


def check(words: argparse.Namespace) -> None:
    if shutil.which("rustc") is None:
        raise Fault("rustc isn't on the path")
    if shutil.which(words.program) is None:
        raise Fault(f"{words.program} is no program: build it first, as by './sumpharu plan examples/three-brokers.json'")


def add_arguments(parser: argparse.ArgumentParser) -> None:
    parser.add_argument("--program", metavar="FILE", default=str(PROGRAM), help="the program, in place of the built one")
    parser.add_argument("--seed", metavar="N", type=counted, default=1, help="by default 1")
    parser.add_argument("--brokers", metavar="N", type=counted, default=40, help="by default 40")
    parser.add_argument("--partitions", metavar="N", type=counted, default=2000, help="by default 2000")
    parser.add_argument("--runs", metavar="N", type=counted, default=3, help="how often each figure is measured; by default 3")
    parser.add_argument("--requests", metavar="N", type=counted, default=20000, help="how many requests a link sends; by default 20000")
    parser.add_argument("--plans", metavar="N", type=counted, default=0, help="how many plans the memory is measured by; by default none")
    parser.add_argument("--polls", metavar="N", type=counted, default=100000, help="how many requests the memory is measured by; by default 100000")


def run(arguments: argparse.Namespace) -> int:
    check(arguments)
    with tempfile.TemporaryDirectory() as folder:
        measure = Measure(pathlib.Path(folder), arguments)
        measure.print_rates()
        measure.print_rebalance()
        measure.print_memory()
        if arguments.plans:
            measure.print_plans()
    return 0
