"""A service that was started by 'sumpharu serve', and links to it."""
from __future__ import annotations

import json
import random
import socket
import subprocess
import time
from dataclasses import dataclass
from typing import Any, Dict, List, Optional, Tuple

from ..clusters import Fault

# The value of a reply's body; a partition by topic and number; lists by partition.
Body = Dict[str, Any]
Key = Tuple[str, int]
ListsOf = Dict[Key, List[int]]

HOST = "127.0.0.1"
ENDED = ("Completed", "CompletedWithError")


@dataclass(frozen=True)
class Reply:
    code: int
    # The user task that it carries, or nothing.
    task: str
    # The value of its body, which is JSON.
    body: Body
    # All its bytes.
    raw: bytes


def read_reply(data: bytes) -> Optional[Tuple[Reply, bytes]]:
    """The first reply of some bytes and the bytes behind it, or nothing where it isn't whole yet."""
    head, end, behind = data.partition(b"\r\n\r\n")
    if not end:
        return None
    first, *lines = head.decode().split("\r\n")
    fields = {name.lower(): value for name, _, value in (line.partition(": ") for line in lines)}
    length = int(fields["content-length"])
    if len(behind) < length:
        return None
    raw = data[: len(head) + 4 + length]
    return Reply(int(first.split(" ")[1]), fields.get("user-task-id", ""), json.loads(behind[:length]), raw), behind[length:]


class Link:
    """A connection to the service, which serves it until either side ends it. No call waits longer than the seconds given."""

    def __init__(self, stream: socket.socket) -> None:
        self.stream = stream
        self.held = b""

    def send(self, data: bytes) -> None:
        self.stream.sendall(data)

    def reply(self) -> Reply:
        """The next reply."""
        found = read_reply(self.held)
        while found is None:
            more = self.stream.recv(1 << 20)
            if not more:
                raise EOFError("the link ended before the reply")
            self.held += more
            found = read_reply(self.held)
        reply, self.held = found
        return reply

    def ask(self, method: str, path: str, task: Optional[str] = None) -> Reply:
        """The reply to a request without a body; with a user task's id to the request for it."""
        field = f"User-Task-ID: {task}\r\n" if task else ""
        self.send(f"{method} {path} HTTP/1.1\r\n{field}\r\n".encode())
        return self.reply()

    def rest(self) -> bytes:
        """All bytes up to the service's end of the link."""
        data, self.held = self.held, b""
        while True:
            more = self.stream.recv(1 << 20)
            if not more:
                return data
            data += more

    def close(self) -> None:
        self.stream.close()


def free_port() -> int:
    """A port of this machine at which nothing listens. It is none of those that the system gives to clients."""
    for port in random.sample(range(20000, 32000), 500):
        with socket.socket() as probe:
            probe.setsockopt(socket.SOL_SOCKET, socket.SO_REUSEADDR, 1)
            try:
                probe.bind((HOST, port))
            except OSError:
                continue
            return port
    raise Fault("no port is free")


def connect(process: subprocess.Popen[Any], port: int, seconds: float = 20) -> Link:
    """A link to a process that was just started. A connection that is refused is no link, so it is tried until the process listens."""
    last = time.monotonic() + seconds
    while True:
        try:
            stream = socket.create_connection((HOST, port), timeout=seconds)
            stream.setsockopt(socket.IPPROTO_TCP, socket.TCP_NODELAY, 1)
            return Link(stream)
        except ConnectionRefusedError as fault:
            if process.poll() is not None or last < time.monotonic():
                raise Fault(f"nothing listens at {HOST}:{port}") from fault
            time.sleep(0.01)


def lists_of(body: Body) -> ListsOf:
    """The lists that 'kafka_cluster_state' tells, by topic and partition."""
    return {(it["topic"], it["partition"]): it["replicas"] for it in body["partitions"]}


def in_flight(body: Body) -> List[Key]:
    """The partitions of which that says that a replica is being added or removed."""
    return [(it["topic"], it["partition"]) for it in body["partitions"] if it["adding"] or it["removing"]]


def changes_of(proposals: List[Body]) -> Dict[Key, Tuple[List[int], List[int]]]:
    """The lists before and after, by topic and partition."""

    def place(it: Body) -> Key:
        return it["topicPartition"]["topic"], it["topicPartition"]["partition"]

    return {place(it): (it["oldReplicas"], it["newReplicas"]) for it in proposals}


def status_of(body: Body, task: str) -> Optional[str]:
    """The status that 'user_tasks' tells of a task, or nothing."""
    return {it["userTaskId"]: it["status"] for it in body["userTasks"]}.get(task)
