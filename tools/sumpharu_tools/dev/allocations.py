"""Runs of the built program in which one allocation is refused, and how each of them may end."""
from __future__ import annotations

import contextlib
import functools
import os
import pathlib
import re
import socket
import subprocess
from dataclasses import dataclass
from typing import Any, Callable, Dict, List, Optional, Sequence, Union

from ..clusters import Fault
from . import ROOT, serving

REFUSES = pathlib.Path(__file__).resolve().with_name("refuses.c")
EXAMPLES = ROOT / "examples"
NO_MEMORY_LINE = b"want of memory\n"
NO_MEMORY_REPLY = (
    b"HTTP/1.1 503 Service Unavailable\r\nContent-Type: application/json\r\nContent-Length: 45\r\n\r\n"
    b'{"errorMessage":"want of memory","version":1}'
)
AS_EVER = "as without it"
NOTHING_WRITTEN = "with status 9 and nothing written"


def request(line: str, body: str = "") -> bytes:
    length = f"Content-Length: {len(body)}\r\n" if body else ""
    return f"{line} HTTP/1.1\r\n{length}\r\n{body}".encode()


# What a session, and a service over its link, are asked of the cluster of two brokers. Behind the last there is work left.
REQUESTS = [
    request("POST /kafkacruisecontrol/remove_broker?brokerid=0&dryrun=false"),
    request("POST /kafkacruisecontrol/rebalance?dryrun=false"),
    request("POST /cluster/pump?steps=10"),
    request("GET /kafkacruisecontrol/kafka_cluster_state"),
    request("POST /cluster/sample", '{"topic":"t","partition":0,"time":5,"load":{"leader":{"CPU":3}}}'),
    request("GET /kafkacruisecontrol/load"),
    request("POST /cluster/kill?broker=1"),
    request("POST /cluster/detect?now=0&alert_ms=0&heal_ms=0"),
    request("POST /kafkacruisecontrol/topic_configuration?topic=t&replication_factor=2"),
    request("GET /kafkacruisecontrol/user_tasks"),
]


def lesser(asked: bytes) -> List[List[bytes]]:
    """What else may have been done of a request for which there was no memory: nothing, or of a pump fewer rounds."""
    steps = re.search(rb"steps=(\d+)", asked)
    if steps is None:
        return [[]]
    whole, rounds = steps[0], range(1, int(steps[1]))
    return [[], *([asked.replace(whole, b"steps=%d" % number)] for number in rounds)]


def replies_in(data: bytes) -> Optional[List[bytes]]:
    """The whole replies that some bytes are, or nothing where they aren't such."""
    replies = []
    try:
        while data:
            found = serving.read_reply(data)
            if found is None:
                return None
            reply, data = found
            replies.append(reply.raw)
    except (ValueError, KeyError, IndexError):
        return None
    return replies


@dataclass(frozen=True)
class Refusal:
    """Which allocation is refused, from 1, and whether each one behind it is too."""

    number: int
    is_onward: bool = False


@dataclass(frozen=True)
class Ran:
    """How a run ended."""

    # Below 0 it is a signal's number. Nothing stands for a run that didn't end in time.
    status: Optional[int]
    # What is on the output, and before that what a service answered over its link.
    out: bytes
    # What is on the error stream.
    line: bytes

    def __str__(self) -> str:
        ended = "no end in time" if self.status is None else f"status {self.status}"
        return f"{ended}, {len(self.out)} bytes written, the last of them {self.out[-100:]!r}, on the error stream {self.line[:100]!r}"


class Program:
    """The built program, of whose allocations one may be refused."""

    def __init__(self, file: str, folder: pathlib.Path, seconds: float) -> None:
        self.file, self.seconds = file, seconds
        self.library, self.count = folder / "refuses.so", folder / "count"
        words = ["cc", "-O1", "-shared", "-fPIC", "-o", str(self.library), str(REFUSES)]
        try:
            subprocess.run(words, check=True, capture_output=True, text=True)
        except OSError as fault:
            raise Fault(f"cc: {fault.strerror}") from fault
        except subprocess.CalledProcessError as fault:
            raise Fault(f"cc ended with status {fault.returncode}: {fault.stderr}") from fault

    def environment(self, refusal: Optional[Refusal]) -> Dict[str, str]:
        found = {**os.environ, "LD_PRELOAD": str(self.library), "REFUSE_COUNT": str(self.count)}
        if refusal:
            found["REFUSE_AT"] = str(refusal.number)
        if refusal and refusal.is_onward:
            found["REFUSE_ONWARD"] = "1"
        return found

    def run(self, words: Sequence[str], given: bytes = b"", refusal: Optional[Refusal] = None) -> Ran:
        try:
            ran = subprocess.run([self.file, *words], input=given, capture_output=True, env=self.environment(refusal), timeout=self.seconds)
        except subprocess.TimeoutExpired as late:
            return Ran(None, late.stdout or b"", late.stderr or b"")
        return Ran(ran.returncode, ran.stdout, ran.stderr)

    def serve(self, words: Sequence[str], given: bytes, refusal: Optional[Refusal] = None) -> Ran:
        """A service that is asked over one link."""
        port = serving.free_port()
        command = [self.file, *words, "--listen", f"{serving.HOST}:{port}"]
        pipes: Dict[str, Any] = {"stdin": subprocess.DEVNULL, "stdout": subprocess.PIPE, "stderr": subprocess.PIPE}
        with subprocess.Popen(command, env=self.environment(refusal), **pipes) as process:
            try:
                told = told_over_link(process, port, given, self.seconds)
                out, line = process.communicate(timeout=self.seconds)
                return Ran(process.returncode, told + out, line)
            except (TimeoutError, subprocess.TimeoutExpired):
                process.kill()
                return Ran(None, *process.communicate())
            finally:
                process.kill()

    def asked(self) -> int:
        """How many allocations the last run asked for."""
        try:
            return int(self.count.read_text())
        except OSError as fault:
            raise Fault(f"the allocations of {self.file} can't be counted") from fault


def told_over_link(process: subprocess.Popen[bytes], port: int, given: bytes, seconds: float) -> bytes:
    """What a service answers over a link, to the end of the link, or of the service where none comes in."""
    told = b""
    try:
        link = serving.connect(process, port, seconds)
    except Fault:
        return told
    with contextlib.suppress(ConnectionError), link.stream:
        link.send(given)
        link.stream.shutdown(socket.SHUT_WR)
        while more := link.stream.recv(1 << 16):
            told += more
    return told


class Answer:
    """A command that writes its answer once it is whole, and nothing where an allocation is refused."""

    def __init__(self, program: Program, words: Sequence[str]) -> None:
        self.program, self.words = program, words
        self.good = self.run()
        if (self.good.status, self.good.line) != (0, b""):
            raise Fault(f"{words[0]} with nothing refused: {self.good}")

    def run(self, refusal: Optional[Refusal] = None) -> Ran:
        return self.program.run(self.words, refusal=refusal)

    def end_of(self, ran: Ran, refusal: Refusal) -> Optional[str]:
        """How a run ended, in words, or nothing where it may not end so."""
        if ran == Ran(9, b"", NO_MEMORY_LINE):
            return NOTHING_WRITTEN
        return AS_EVER if ran == self.good else None


class Talk:
    """The requests, which `send` has a session or a service answer, and the replies that may come of them."""

    def __init__(self, send: Callable[[bytes, Optional[Refusal]], Ran]) -> None:
        self.send = send
        self.replies = self.replies_to(REQUESTS)

    def run(self, refusal: Optional[Refusal] = None) -> Ran:
        return self.send(b"".join(REQUESTS), refusal)

    def replies_to(self, requests: Sequence[bytes]) -> List[bytes]:
        ran = self.send(b"".join(requests), None)
        found = replies_in(ran.out)
        if (ran.status, ran.line) != (0, b"") or found is None or len(found) != len(requests):
            raise Fault(f"requests with nothing refused: {ran}")
        return found

    @functools.lru_cache(maxsize=None)
    def behind_request(self, at: int) -> List[List[bytes]]:
        """The replies behind one that there was no memory for: those of sessions in which that was done whole, in part, or not at all."""
        ways = [[REQUESTS[at]], *lesser(REQUESTS[at])]
        return [self.replies_to([*REQUESTS[:at], *way, *REQUESTS[at + 1 :]])[at + len(way) :] for way in ways]

    def may_come(self, replies: List[bytes], at: int, refusal: Refusal) -> bool:
        """Whether the replies are as they may be where the one at this place is the first that there was no memory for."""
        behind = replies[at + 1 :]
        if replies[:at] != self.replies[:at]:
            return False
        if refusal.is_onward:
            return all(reply == NO_MEMORY_REPLY for reply in behind)
        return not behind or any(way[: len(behind)] == behind for way in self.behind_request(at))

    def end_of(self, ran: Ran, refusal: Refusal) -> Optional[str]:
        """How a run ended, in words, or nothing where it may not end so."""
        replies = replies_in(ran.out)
        if replies is None or (ran.status, ran.line) not in [(0, b""), (9, NO_MEMORY_LINE)]:
            return None
        missing, is_cut = len(REQUESTS) - len(replies), ran.status == 9
        at = replies.index(NO_MEMORY_REPLY) if NO_MEMORY_REPLY in replies else len(replies)
        if missing < 0 or missing > 0 and not is_cut or not self.may_come(replies, at, refusal):
            return None
        ends = [f"503 to request {at + 1}"] if at < len(replies) else []
        ends += [f"status 9 behind {len(replies)} replies"] if is_cut else []
        return f"with {' and '.join(ends)}" if ends else AS_EVER


def command_named(name: str, program: Program, folder: pathlib.Path) -> Union[Answer, Talk]:
    """A command with small files: what it answers with nothing refused, and how a run with a refusal may end."""
    zones, trace = str(EXAMPLES / "three-zones.json"), folder / "trace.json"
    two_brokers = str(EXAMPLES / "two-brokers.json")
    if name == "session":
        return Talk(lambda given, refusal: program.run(["session", two_brokers], given, refusal))
    if name == "serve":
        return Talk(lambda given, refusal: program.serve(["serve", two_brokers], given, refusal))
    if name == "check":
        trace.write_bytes(program.run(["plan", zones, "--trace"]).out)
        return Answer(program, ["check", zones, str(trace)])
    return Answer(program, [name, zones])
