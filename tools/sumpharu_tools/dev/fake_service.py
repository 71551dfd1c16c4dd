"""A service that only looks like one: it answers the requests of web/page.html in the forms of docs/FORMATS.md, over a made-up cluster.

It plans nothing and moves nothing. Its executor goes on by one step with each request for the state, so what it shows doesn't depend on time.
"""
from __future__ import annotations

import json
import random
import socket
import sys
import threading
from http.server import BaseHTTPRequestHandler, ThreadingHTTPServer
from typing import Any, Dict, List, Optional, Set, Tuple
from urllib.parse import parse_qsl

from . import ROOT
from .serving import HOST

PAGE = ROOT / "web/page.html"
BASE = "/kafkacruisecontrol/"
TOPICS = ("orders", "payments", "clicks", "audit.log", "inventory-changes", "shipments")
STATES = {5: "DEMOTED", 9: "DEAD"}
IDLE, STOPPING, MOVING = "NO_TASK_IN_PROGRESS", "STOPPING_EXECUTION", "INTER_BROKER_REPLICA_MOVEMENT_TASK_IN_PROGRESS"
# What ends a task, and how many are in flight at once.
STEPS, CAP = 3, 9
PHASES = ("aborted", "aborting", "completed", "dead", "inProgress", "pending")

Body = Dict[str, Any]
Answer = Tuple[int, Body, str]


class Refused(Exception):
    def __init__(self, code: int, text: str) -> None:
        super().__init__(text)
        self.code, self.text = code, text


class Partition:
    def __init__(self, topic: str, number: int, replicas: List[int], weight: int) -> None:
        self.topic, self.number, self.weight = topic, number, weight
        self.before, self.after = replicas, replicas
        self.phase = ""
        self.steps = 0

    @property
    def in_flight(self) -> bool:
        return self.phase in ("inProgress", "aborting")

    @property
    def replicas(self) -> List[int]:
        if self.in_flight:
            return self.before + [it for it in self.after if it not in self.before]
        return self.after if self.phase == "completed" else self.before

    def told(self) -> Body:
        is_moving = self.in_flight
        adding = [it for it in self.after if it not in self.before] if is_moving else []
        removing = [it for it in self.before if it not in self.after] if is_moving else []
        return {"adding": adding, "partition": self.number, "removing": removing, "replicas": self.replicas, "topic": self.topic}

    def proposal(self, after: List[int]) -> Body:
        return {"newReplicas": after, "oldReplicas": self.replicas, "topicPartition": {"partition": self.number, "topic": self.topic}}


class Task:
    def __init__(self, endpoint: str, query: str, number: int) -> None:
        self.endpoint, self.query, self.status = endpoint, query, "Active"
        self.id = f"00000000-0000-8000-8000-{number:012x}"
        self.proposals: List[Body] = []

    @property
    def is_dry(self) -> bool:
        return dict(parse_qsl(self.query)).get("dryrun", "true") == "true"


class Fake:
    """The cluster, its executor, its user tasks and perhaps a review board. What is in 'broken' is refused."""

    def __init__(self, brokers: int = 12, partitions: int = 240, review: bool = False) -> None:
        chance = random.Random(7)
        self.lock = threading.Lock()
        self.states = {id: STATES.get(id, "ALIVE") for id in range(brokers)}
        self.partitions: List[Partition] = []
        for at in range(partitions):
            first = min(chance.randrange(brokers), chance.randrange(brokers))
            replicas = [(first + step) % brokers for step in range(3)]
            self.partitions.append(Partition(TOPICS[at % len(TOPICS)], at // len(TOPICS), replicas, chance.randrange(20, 100)))
        self.tasks: List[Task] = []
        self.running: Optional[Task] = None
        self.is_stopped = False
        self.board: Optional[List[Body]] = [] if review else None
        self.filed: List[Tuple[str, str]] = []
        self.broken: Set[str] = set()
        self.asked: List[str] = []

    def count(self, phase: str) -> int:
        return sum(it.phase == phase for it in self.partitions)

    # What goes on

    def plan(self) -> Dict[int, List[int]]:
        """New lists by partition: nothing stays on a dead broker, and a few replicas leave the brokers that have the most."""
        counts = {id: sum(id in it.replicas for it in self.partitions) for id, state in self.states.items() if state in ("ALIVE", "DEMOTED")}
        found = {}
        for at, it in enumerate(self.partitions):
            for old in it.replicas:
                least = min((id for id in counts if id not in it.replicas), key=lambda id: (counts[id], id))
                if old not in counts or counts[old] > counts[least] + 48:
                    found[at] = [least if id == old else id for id in it.replicas]
                    counts.update({id: counts[id] + (1 if id == least else -1) for id in (least, old) if id in counts})
                    break
        return found

    def step(self) -> None:
        """One step of the executor, or a plan if one waits."""
        waiting = next((task for task in self.tasks if task.status == "Active"), None)
        if waiting:
            lists = self.plan()
            waiting.proposals = [self.partitions[at].proposal(after) for at, after in lists.items()]
            waiting.status = "Completed" if waiting.is_dry else "InExecution"
            if not waiting.is_dry:
                for at, it in enumerate(self.partitions):
                    it.before, it.phase, it.steps = it.replicas, "pending" if at in lists else "", 0
                    it.after = lists.get(at, it.before)
                self.running, self.is_stopped = waiting, False
            return
        for number, it in enumerate(it for it in self.partitions if it.in_flight):
            it.steps += 1 + number % 2
            if it.steps >= STEPS:
                it.phase = "completed" if it.phase == "inProgress" else "aborted"
        room = CAP - sum(it.in_flight for it in self.partitions)
        for it in [it for it in self.partitions if it.phase == "pending"][:room]:
            it.phase = "inProgress"
        if self.running and not any(self.count(phase) for phase in ("pending", "inProgress", "aborting")):
            self.running.status = "CompletedWithError" if self.count("aborted") else "Completed"
            self.running = None

    # What is shown

    def state(self) -> Body:
        self.step()
        name = IDLE if not self.running else STOPPING if self.is_stopped else MOVING
        counts: Body = {phase: self.count(phase) for phase in PHASES}
        return {"ExecutorState": {**counts, "state": name}, "MonitorState": {"all": len(self.partitions), "valid": len(self.partitions)}}

    def load(self) -> Body:
        rows = []
        for id, state in self.states.items():
            mine = [it for it in self.partitions if id in it.replicas]
            led = [it for it in mine if it.replicas[0] == id]
            weights, led_weights = sum(it.weight for it in mine), sum(it.weight for it in led)
            loads = {"cpu": weights + led_weights, "disk": 173 * weights, "leaders": len(led), "nwIn": 11 * weights, "nwOut": 23 * led_weights}
            rows.append({"broker": id, **loads, "potentialNwOut": 23 * weights, "replicas": len(mine), "state": state})
        return {"brokers": rows}

    def shown(self, name: str) -> Body:
        if name == "state":
            return self.state()
        if name == "load":
            return self.load()
        if name == "kafka_cluster_state":
            dead = [id for id, state in self.states.items() if state == "DEAD"]
            return {"deadBrokers": dead, "partitions": [it.told() for it in self.partitions]}
        if name == "user_tasks":
            return {"userTasks": [{"endpoint": it.endpoint, "status": it.status, "userTaskId": it.id} for it in self.tasks]}
        if name == "review_board" and self.board is not None:
            return {"requests": self.board}
        raise Refused(404, "not found")

    # What is asked

    def done(self, name: str, query: str) -> Answer:
        """A request that nobody has to review any more."""
        if name == "stop_proposal_execution":
            return 200, self.stop("force_stop=true" in query), ""
        if "dryrun=false" in query and self.running:
            raise Refused(409, f"execution unfinished: {self.running.id}")
        task = Task(name, query, len(self.tasks) + 1)
        self.tasks.append(task)
        return 202, {"status": task.status, "userTaskId": task.id}, task.id

    def stop(self, is_forced: bool) -> Body:
        if not self.running:
            raise Refused(409, "nothing to stop")
        self.is_stopped = True
        aborted, aborting = self.count("pending"), 0
        for it in self.partitions:
            if it.phase == "pending":
                it.phase = "aborted"
            elif it.phase == "inProgress" and is_forced:
                it.phase, aborting = "aborting", aborting + 1
                it.steps = 0
        return {"aborted": aborted, "aborting": aborting}

    def found(self, name: str, query: str, id: str) -> Answer:
        task = next((it for it in self.tasks if it.id == id), None)
        if not task:
            raise Refused(404, f"no such task: {id}")
        if (task.endpoint, task.query) != (name, query):
            raise Refused(400, f"other request: {id}")
        if task.status in ("Active", "InExecution"):
            return 202, {"status": task.status, "userTaskId": id}, id
        return 200, {"proposals": task.proposals, "status": task.status, "userTaskId": id}, id

    def reviewed(self, board: List[Body], name: str, query: str) -> Answer:
        pairs = dict(parse_qsl(query))
        if name == "review":
            told = []
            for verb, status in (("approve", "APPROVED"), ("discard", "DISCARDED")):
                for number in pairs.get(verb, "").split(",") if verb in pairs else []:
                    row = board[int(number) - 1]
                    if row["status"] != "PENDING_REVIEW":
                        raise Refused(409, f"review {number} is {row['status']}")
                    row["status"] = status
                    told.append(row)
            return 200, {"requests": told}, ""
        if "review_id" in pairs:
            at = int(pairs["review_id"]) - 1
            if board[at]["status"] != "APPROVED":
                raise Refused(409, f"review {at + 1} is {board[at]['status']}")
            if board[at]["endpoint"] != name:
                raise Refused(400, f"other endpoint: {at + 1}")
            board[at]["status"] = "SUBMITTED"
            return self.done(*self.filed[at])
        self.filed.append((name, query))
        board.append({"endpoint": name, "reviewId": len(self.filed), "status": "PENDING_REVIEW"})
        return 202, {"reviewId": len(self.filed), "status": "PENDING_REVIEW"}, ""

    def answer(self, method: str, target: str, id: str = "") -> Answer:
        """The code, the body and the user task of a reply."""
        path, _, query = target.partition("?")
        name = path[len(BASE):] if path.startswith(BASE) else ""
        with self.lock:
            self.asked.append(f"{method} {target}")
            try:
                if name in self.broken:
                    raise Refused(503, "want of memory")
                if method == "GET":
                    return 200, self.shown(name), ""
                if id:
                    return self.found(name, query, id)
                return self.done(name, query) if self.board is None else self.reviewed(self.board, name, query)
            except Refused as refusal:
                return refusal.code, {"errorMessage": refusal.text}, ""


class Server(ThreadingHTTPServer):
    """One whose connections can be ended."""

    daemon_threads = True
    # else the end of a server waits for its clients
    block_on_close = False

    def __init__(self, *where: Any) -> None:
        self.open: Set[Any] = set()
        super().__init__(*where)

    def process_request(self, request: Any, client_address: Any) -> None:
        self.open.add(request)
        super().process_request(request, client_address)

    def shutdown_request(self, request: Any) -> None:
        self.open.discard(request)
        super().shutdown_request(request)

    def handle_error(self, request: Any, client_address: Any) -> None:
        # a client may go away at any time
        if not isinstance(sys.exc_info()[1], OSError):
            super().handle_error(request, client_address)

    def end_all(self) -> None:
        for request in list(self.open):
            try:
                request.shutdown(socket.SHUT_RDWR)
            except OSError:
                pass


class Handler(BaseHTTPRequestHandler):
    protocol_version = "HTTP/1.1"
    fake: Fake

    def send(self, code: int, kind: str, content: bytes, id: str) -> None:
        self.send_response(code)
        self.send_header("Content-Type", kind)
        self.send_header("Content-Length", str(len(content)))
        if id:
            self.send_header("User-Task-ID", id)
        self.end_headers()
        self.wfile.write(content)

    def do_GET(self) -> None:
        self.rfile.read(int(self.headers.get("Content-Length", 0)))
        if self.command == "GET" and self.path == "/":
            self.send(200, "text/html; charset=utf-8", PAGE.read_bytes(), "")
            return
        code, body, id = self.fake.answer(self.command, self.path, self.headers.get("User-Task-ID", ""))
        content = json.dumps({**body, "version": 1}, sort_keys=True, separators=(",", ":")).encode()
        self.send(code, "application/json", content, id)

    do_POST = do_GET

    def log_message(self, format: str, *args: Any) -> None:
        pass


class FakeService:
    """The fake at a free port of this machine, with the page at '/'."""

    def __init__(self, fake: Fake, port: int = 0) -> None:
        self.handler = type("Serving", (Handler,), {"fake": fake})
        self.port = port
        self.open()
        self.url = f"http://{HOST}:{self.port}/"

    def open(self) -> None:
        self.server = Server((HOST, self.port), self.handler)
        self.port = int(self.server.server_address[1])

    def back(self) -> None:
        """Has it serve, as at first or after it was away."""
        if self.server.socket.fileno() < 0:
            self.open()
        threading.Thread(target=self.server.serve_forever, args=(0.05,), daemon=True).start()

    def away(self) -> None:
        """Ends it with all its connections."""
        self.server.shutdown()
        self.server.server_close()
        self.server.end_all()

    def __enter__(self) -> FakeService:
        self.back()
        return self

    def __exit__(self, *_: object) -> None:
        self.away()
