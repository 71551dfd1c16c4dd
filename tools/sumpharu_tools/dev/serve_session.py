"""Uses the service as an operator does, with curl, and checks each answer.

It makes the cluster of 'gen-cluster', by default 40 brokers and 2,000 partitions of seed 1, and starts 'sumpharu serve' with two movers and a planner.
It asks a rebalance, first as a dry run, and polls until it is carried out; has broker 0 removed; and stops that midway, while two further clients
poll. It kills another broker, and asks what is to be done at later and later moments: at first that is waited for, then told, and then the broker is
removed. At last it has each partition of a topic get one more replica. Each time it compares all lists with those of the plans. Each command that it
runs is printed, to be copied, with the start of each reply. The first answer that differs from what is wanted ends it with status 1.

A call of curl is one link, since it keeps its connection for all its requests. The service ends once all links have ended, and so its links are
counted.

Build the program first, as by './sumpharu plan examples/three-brokers.json'. curl 7.84 or a later one is wanted, for its --rate.
"""
from __future__ import annotations

import argparse
import json
import pathlib
import shlex
import shutil
import subprocess
import sys
import tempfile
from itertools import dropwhile
from typing import Any, Callable, Dict, Iterator, List, Optional, Sequence, Tuple

from ..clusters import Fault
from ..words import counted
from . import ENTRY, ROOT, serving

# The code and the value of a reply; the executor's counts; lists before and after, by partition.
Answer = Tuple[int, serving.Body]
Counts = Dict[str, Any]
Changes = Dict[serving.Key, Tuple[List[int], List[int]]]

# The calls of curl in 'use', of which two run at once.
LINKS = 19
# What each of these two asks.
POLLS = 200
# No program that is run here may take longer.
SECONDS = 300
# What curl writes behind each reply.
CODE = r"\n%{http_code}\n"
IDLE = "NO_TASK_IN_PROGRESS"


class Different(Exception):
    """An answer that isn't what is wanted."""


def want(what: str, told: object, wanted: object) -> None:
    if told != wanted:
        raise Different(f"{what}: {told}, and {wanted} is wanted")
    print(f"  {what}: {told if len(str(told)) < 60 else 'as wanted'}")


def start_of(text: str) -> str:
    return text if len(text) <= 160 else f"{text[:160]}..."


class Curl:
    """A call of curl, which is one link: requests, and their replies in order."""

    def __init__(self, *words: str) -> None:
        print(f"$ {shlex.join(['curl', *words])}", flush=True)
        self.process = subprocess.Popen(["curl", *words], stdout=subprocess.PIPE, text=True)

    def replies(self) -> Iterator[Answer]:
        """The code and the value of each reply, as they come."""
        output = self.process.stdout
        assert output is not None
        for body in output:
            yield int(output.readline()), json.loads(body)

    def end(self) -> None:
        """Ends it, where it hasn't ended, and so its link."""
        self.process.terminate()
        self.process.communicate(timeout=SECONDS)

    def all_replies(self) -> List[Answer]:
        found = []
        for code, body in self.replies():
            print(f"{code} {start_of(json.dumps(body))}")
            found.append((code, body))
        want("curl's status", self.process.wait(SECONDS), 0)
        return found


class Client:
    """Who asks the service at an address."""

    def __init__(self, address: str) -> None:
        self.base = f"http://{address}"
        self.links = 0

    def curl(self, *words: str) -> Curl:
        self.links += 1
        return Curl("-s", *words)

    def request(self, method: str, path: str, task: Optional[str] = None) -> List[str]:
        """The words for one request."""
        how = (["-X", method] if method != "GET" else []) + (["-H", f"User-Task-ID: {task}"] if task else [])
        return [*how, "-w", CODE, f"{self.base}{path}"]

    def ask(self, *requests: Tuple[str, ...], first: Sequence[str] = ()) -> List[Answer]:
        """The replies to requests, each a method, a path and perhaps a task, over one link."""
        words = list(first)
        for at, request in enumerate(requests):
            words += (["--next"] if at else []) + self.request(*request)
        replies = self.curl(*words).all_replies()
        want("replies", len(replies), len(requests))
        return replies

    def start_polls(self, name: str, count: int, rate: int) -> Curl:
        """Asks one thing again and again, over one link. (The service doesn't use what 'reason' says.)"""
        return self.curl("--rate", f"{rate}/s", "-w", CODE, f"{self.base}/kafkacruisecontrol/{name}?reason=[1-{count}]")

    def poll(self, name: str, what: str, holds: Callable[[serving.Body], bool]) -> serving.Body:
        """The first reply of which it holds."""
        polls, count = self.start_polls(name, 6000, 20), 0
        for code, body in polls.replies():
            count += 1
            if code != 200:
                raise Different(f"{what}: code {code}, {body}")
            if holds(body):
                polls.end()
                print(f"  {what}, told by reply {count}: {start_of(json.dumps(body))}")
                return body
        raise Different(f"{what}: not within {count} replies; the last one is {start_of(json.dumps(body))}")


# What is wanted of the replies


def accepted(reply: Answer, status: str = "Active") -> str:
    """The id of a user task that was accepted."""
    code, body = reply
    want("code", code, 202)
    want("status", body["status"], status)
    return str(body["userTaskId"])


def outcome(reply: Answer, status: str) -> Changes:
    """The lists before and after of a task that has ended so."""
    code, body = reply
    want("code", code, 200)
    want("status", body.get("status"), status)
    return serving.changes_of(body["proposals"])


def lists(reply: Answer) -> serving.ListsOf:
    code, body = reply
    want("code of kafka_cluster_state", code, 200)
    want("partitions with a replica that is added or removed", len(serving.in_flight(body)), 0)
    return serving.lists_of(body)


def lists_after(before: serving.ListsOf, changes: Changes) -> serving.ListsOf:
    return {**before, **{place: new for place, (_, new) in changes.items()}}


def looked(reply: Answer, anomaly: str, *brokers: int) -> None:
    """A look at what is to be done found this, and asked nothing."""
    want("what is to be done", reply, (200, {"anomaly": anomaly, "brokers": [*brokers], "version": 1}))


def is_steady(counts: List[Counts]) -> bool:
    """Whether tasks that have ended stay so from one reply to the next, once an execution has begun."""
    begun = dropwhile(lambda it: it["pending"] + it["inProgress"] == 0, counts)
    ended = [(it["completed"], it["aborted"] + it["dead"]) for it in begun]
    return all(old[0] <= new[0] and old[1] <= new[1] for old, new in zip(ended, ended[1:]))


# The session


def until_ended(client: Client, task: str) -> None:
    client.poll("user_tasks", "ended", lambda body: serving.status_of(body, task) in serving.ENDED)


def begin(client: Client, file_lists: serving.ListsOf) -> None:
    print("\nThe cluster as the file has it")
    state, cluster = client.ask(
        ("GET", "/kafkacruisecontrol/state"),
        ("GET", "/kafkacruisecontrol/kafka_cluster_state"),
        first=["--retry", "60", "--retry-delay", "1", "--retry-connrefused"],
    )
    want("code", state[0], 200)
    want("executor", state[1]["ExecutorState"]["state"], IDLE)
    want("lists", lists(cluster), file_lists)


def dry_run(client: Client, before: serving.ListsOf) -> Changes:
    """The changes that a rebalance would make."""
    print("\nA rebalance as a dry run")
    [reply] = client.ask(("POST", "/kafkacruisecontrol/rebalance"))
    task = accepted(reply)
    client.poll("user_tasks", "planned", lambda body: serving.status_of(body, task) in serving.ENDED)
    result, cluster = client.ask(("POST", "/kafkacruisecontrol/rebalance", task), ("GET", "/kafkacruisecontrol/kafka_cluster_state"))
    changes = outcome(result, "Completed")
    print(f"  partitions that change: {len(changes)}")
    if not changes:
        raise Fault("the plan changes nothing: try another seed")
    want("lists before", {place: old for place, (old, _) in changes.items()}, {place: before[place] for place in changes})
    want("lists, of which none has changed", lists(cluster), before)
    return changes


def rebalance(client: Client, before: serving.ListsOf, planned: Changes) -> serving.ListsOf:
    print("\nThe rebalance for real")
    path = "/kafkacruisecontrol/rebalance?dryrun=false"
    [reply] = client.ask(("POST", path))
    task = accepted(reply)

    def is_done(body: serving.Body) -> bool:
        executor = body["ExecutorState"]
        return bool(executor["state"] == IDLE and executor["completed"] == len(planned))

    body = client.poll("state", "carried out", is_done)
    want("tasks that failed", body["ExecutorState"]["aborted"] + body["ExecutorState"]["dead"], 0)
    result, cluster = client.ask(("POST", path, task), ("GET", "/kafkacruisecontrol/kafka_cluster_state"))
    want("changes, those of the dry run", outcome(result, "Completed"), planned)
    after = lists_after(before, planned)
    want("lists, those of the plan", lists(cluster), after)
    return after


def until_under_way(polls: Curl) -> List[Counts]:
    """The executor's counts in the replies to a client, up to one that tells work under way."""
    counts = []
    for code, body in polls.replies():
        counts.append(body["ExecutorState"])
        if counts[-1]["inProgress"] and counts[-1]["completed"]:
            print(f"  work is under way, told by reply {len(counts)}: {counts[-1]}")
            return counts
    raise Fault("no reply told work that is under way: give more --chunks")


def removal_stopped(client: Client, before: serving.ListsOf, force: bool) -> serving.ListsOf:
    print("\nBroker 0 is removed, and that is stopped midway, while two further clients poll")
    path = "/kafkacruisecontrol/remove_broker?brokerid=0&dryrun=false"
    [reply] = client.ask(("POST", path))
    task = accepted(reply)
    clients = [client.start_polls("state", POLLS, 50) for _ in range(2)]
    counts: List[List[Counts]] = [until_under_way(clients[0]), []]
    [(code, stopped)] = client.ask(("POST", f"/kafkacruisecontrol/stop_proposal_execution?force_stop={str(force).lower()}"))
    want("code", code, 200)
    for polls, told in zip(clients, counts):
        told += [body["ExecutorState"] for code, body in polls.replies() if code == 200]
        want("replies to one of the two clients", len(told), POLLS)
        want("curl's status", polls.process.wait(SECONDS), 0)
        want("tasks that have ended stay so", is_steady(told), True)
    until_ended(client, task)
    result, cluster = client.ask(("POST", path, task), ("GET", "/kafkacruisecontrol/kafka_cluster_state"))
    changes = outcome(result, "CompletedWithError")
    want("tasks that were given up", result[1]["aborted"], stopped["aborted"] + stopped["aborting"])
    after = lists(cluster)
    kept = [place for place, (old, _) in changes.items() if after[place] == old]
    moved = [place for place, (_, new) in changes.items() if after[place] == new]
    want("lists that are the old ones", len(kept), result[1]["aborted"])
    want("lists that are the old ones or the new ones", len(kept) + len(moved), len(changes))
    want("lists of other partitions", {it: after[it] for it in after if it not in changes}, {it: before[it] for it in before if it not in changes})
    return after


def broker_lost(client: Client, before: serving.ListsOf, broker: int) -> serving.ListsOf:
    print(f"\nBroker {broker} dies, and half an hour later it is removed")
    requests = [f"/cluster/kill?broker={broker}", *(f"/cluster/detect?now={now}" for now in (1000, 901000, 1801000))]
    killed, waiting, alert, fix = client.ask(*(("POST", request) for request in requests))
    want("what was under way to it", killed, (200, {"aborting": 0, "dead": 0, "version": 1}))
    looked(waiting, "WAITING", broker)
    looked(alert, "ALERT", broker)
    task = accepted(fix)
    until_ended(client, task)
    removal = ("POST", f"/kafkacruisecontrol/remove_broker?brokerid={broker}&dryrun=false", task)
    result, cluster, look = client.ask(removal, ("GET", "/kafkacruisecontrol/kafka_cluster_state"), ("POST", "/cluster/detect?now=1802000"))
    after = lists_after(before, outcome(result, "Completed"))
    want("lists, those of the fix", lists(cluster), after)
    want("partitions of which it has a replica", [place for place, members in after.items() if broker in members], [])
    looked(look, "NONE")
    return after


def topic_grown(client: Client, before: serving.ListsOf, topic: str, lost: int) -> None:
    print(f"\nEach partition of topic {topic} gets one more replica")
    old = {place: members for place, members in before.items() if place[0] == topic}
    factor = max(map(len, old.values())) + 1
    path = f"/kafkacruisecontrol/topic_configuration?topic={topic}&replication_factor={factor}"
    dry, real = client.ask(("POST", path), ("POST", f"{path}&dryrun=false"))
    planned = outcome(dry, "Completed")
    task = accepted(real, "InExecution")
    until_ended(client, task)
    result, cluster = client.ask(("POST", f"{path}&dryrun=false", task), ("GET", "/kafkacruisecontrol/kafka_cluster_state"))
    want("changes, those of the dry run", outcome(result, "Completed"), planned)
    after = lists(cluster)
    want("lists, those of the dry run", after, lists_after(before, planned))
    want("lists before, to which one member came", {place: after[place][:-1] for place in planned}, old)
    new = [after[place][-1] for place in old]
    want("members that are new, and no broker that is lost", all(it != lost and it not in old[place] for place, it in zip(old, new)), True)


def use(client: Client, file_lists: serving.ListsOf, force: bool) -> None:
    begin(client, file_lists)
    planned = dry_run(client, file_lists)
    after = rebalance(client, file_lists, planned)
    after = removal_stopped(client, after, force)
    lost = max(id for members in after.values() for id in members)
    after = broker_lost(client, after, lost)
    topic_grown(client, after, min(topic for topic, _ in after), lost)
    want("links", client.links, LINKS)


# The service


def cluster_file(path: pathlib.Path, words: argparse.Namespace) -> serving.ListsOf:
    """Writes the cluster, and answers its lists."""
    made = [ENTRY, "gen-cluster", str(words.seed), "--brokers", str(words.brokers), "--partitions", str(words.partitions)]
    value = json.loads(subprocess.run(made, check=True, stdout=subprocess.PIPE).stdout)
    for it in value["partitions"]:
        it["chunks"] = words.chunks if 0 in it["replicas"] else 1
    path.write_text(json.dumps(value))
    return serving.lists_of(value)


def run_session(folder: pathlib.Path, words: argparse.Namespace) -> None:
    address = f"{serving.HOST}:{serving.free_port()}"
    file_lists = cluster_file(folder / "cluster.json", words)
    command = [words.program, "serve", str(folder / "cluster.json"), "--listen", address, "--links", str(LINKS), "--movers", "2", "--planners", "1"]
    print(f"$ {shlex.join(command)} &", flush=True)
    process = subprocess.Popen(command, stdin=subprocess.DEVNULL)
    try:
        use(Client(address), file_lists, not words.soft)
        print("\nAll links have ended, so the service does")
        want("its status", process.wait(SECONDS), 0)
    finally:
        process.terminate()
        process.wait()


def check(words: argparse.Namespace) -> None:
    if shutil.which("curl") is None:
        raise Fault("curl isn't on the path")
    if shutil.which(words.program) is None:
        raise Fault(f"{words.program} is no program")


def add_arguments(parser: argparse.ArgumentParser) -> None:
    parser.add_argument(
        "--program", metavar="FILE", default=str(ROOT / "sumpharu"), help="the built program, or another that takes 'serve', in place of the script sumpharu"
    )
    parser.add_argument("--seed", metavar="N", type=counted, default=1, help="by default 1")
    parser.add_argument("--brokers", metavar="N", type=counted, default=40, help="by default 40")
    parser.add_argument("--partitions", metavar="N", type=counted, default=2000, help="by default 2000")
    parser.add_argument(
        "--chunks",
        metavar="N",
        type=counted,
        default=1000,
        help="how many copies a replica takes of a partition that broker 0 has at the start, 1 to 1000; by default 1000. With few, the removal may be over "
        "before it is stopped",
    )
    parser.add_argument("--soft", action="store_true", help="stops without force: what is under way is ended, and only what waits is left")


def run(arguments: argparse.Namespace) -> int:
    check(arguments)
    with tempfile.TemporaryDirectory() as folder:
        try:
            run_session(pathlib.Path(folder), arguments)
        except (Different, KeyError, ValueError, subprocess.TimeoutExpired) as fault:
            print(f"differs: {fault}", file=sys.stderr)
            return 1
    print("all as wanted")
    return 0
