"""Carries a plan out on a real Kafka, within the caps of the cluster file.

The caps are the file's settings num.concurrent.partition.movements.per.broker, max.num.cluster.movements and num.concurrent.leader.movements. Moves of
replicas come first, then changes of the order alone; where another broker than a list's first one leads, an election of the preferred leader is asked
for.

Nothing is asked where a list is neither the file's nor the plan's, or where somebody else's reassignment is in flight. Each second the run looks at the
cluster, and takes a task for done only where a look says: nothing in flight, this list, this leader. It gives nothing up by itself. A run that ended,
was interrupted or was killed goes on by the same command. What isn't proved of it, and what it takes for granted: docs/KAFKA.md.

It ends with status

  0   done: each task has its list and its leader. After --dry-run and --unthrottle: said, or removed
  1   done in part: Kafka refused some tasks, which keep their old lists; all others are done
  2   the arguments, a file or a password can't be used
  3   left: looks ran out while tasks were in flight or waiting. The same command goes on
  4   nothing was asked: the cluster isn't the file's and the plan's, or somebody else's reassignment is in flight
  5   nothing was asked: no broker can be reached, or none lets the user in
  6   gave way: somebody else changed partitions meanwhile. What was in flight is over, the rest wasn't started
  7   throttles couldn't be set, and nothing was asked; or they couldn't all be removed: --unthrottle
  130 interrupted; as with 3
"""
from __future__ import annotations

import argparse
import signal
import sys
import time
from enum import IntEnum
from typing import List, Mapping, NoReturn

from . import kafka_sign_in, kafka_wire, plans, throttles
from .carry_report import MOST_NAMED, Report, named
from .carrying import Caps, Phase, Run, Standing, Task, shown
from .clusters import Cluster, Fault, Lists, read_cluster, read_plan
from .kafka_admin import Admin, Look
from .kafka_sign_in import Denied
from .words import positive


class Status(IntEnum):
    DONE = 0
    REFUSED = 1
    LEFT = 3
    NOT_BEGUN = 4
    NO_CONNECTION = 5
    GAVE_WAY = 6
    THROTTLES = 7
    INTERRUPTED = 130


REASONS = {
    Status.DONE: "done",
    Status.REFUSED: "done, and some refused",
    Status.LEFT: "looks ran out, and the same command goes on",
    Status.GAVE_WAY: "gave way to somebody else's reassignment",
    Status.THROTTLES: "throttles are left, and --unthrottle removes them",
    Status.INTERRUPTED: "interrupted, and the same command goes on",
}


def tasks_of(cluster: Cluster, after: Lists, is_back: bool) -> List[Task]:
    """A task for each partition that the plan changes; taken back, from the plan's list to the file's."""
    tasks = []
    for change in plans.changes(cluster, after):
        before, later = (change.after, change.before) if is_back else (change.before, change.after)
        tasks.append(Task((change.partition.topic, change.partition.number), before, later, is_back))
    return tasks


def caps_of(cluster: Cluster) -> Caps:
    settings = cluster.settings
    return Caps(settings.broker_cap, settings.cluster_cap, settings.leader_cap)


def shown_configs(values: Mapping[str, str]) -> str:
    return ", ".join(f"{name}={value}" for name, value in sorted(values.items()))


def shown_changes(resource: kafka_wire.Resource, changes: List[kafka_wire.Change]) -> str:
    """The configs that were changed, and of a broker to what."""
    if resource.kind == kafka_wire.TOPIC:
        return ", ".join(it.name for it in changes)
    return ", ".join(it.name + (f"={it.value}" if it.value else "") for it in changes)


class CarryOut:
    """One call of the tool, from its words to its status."""

    def __init__(self, words: argparse.Namespace) -> None:
        self.words = words
        cluster = read_cluster(words.cluster)
        after = read_plan(words.plan, cluster)
        needed = kafka_wire.TO_CARRY + (kafka_wire.TO_THROTTLE if words.throttle or words.unthrottle else ())
        self.admin = Admin(words.bootstrap, kafka_sign_in.security_of(words), words.timeout, dict(words.map), needed)
        self.report = Report(words.json)
        self.tasks, self.caps = tasks_of(cluster, after, words.back), caps_of(cluster)
        self.lists = {(it.topic, it.number): members for it, members in zip(cluster.partitions, cluster.lists)}
        # what is removed for its own sake may be a run's there or back
        throttled = self.tasks + tasks_of(cluster, after, True) if words.unthrottle else self.tasks
        self.throttles = throttles.Throttles.of(throttled)
        self.run = self.report.run = Run(self.admin, self.tasks, self.caps, words.settle, self.report.hear)

    @property
    def look(self) -> Look:
        """The last look, which there is once the run was examined."""
        assert self.run.last_look is not None
        return self.run.last_look

    def rest(self) -> None:
        time.sleep(self.words.every)

    def do(self) -> Status:
        self.warn()
        try:
            if self.words.unthrottle:
                self.admin.reach()
                return self.ended(self.unthrottle(), "unthrottled")
            return self.carry()
        except Denied as fault:
            return self.refuse(Status.NO_CONNECTION, str(fault))
        finally:
            self.admin.close()

    def warn(self) -> None:
        if self.words.sasl == "PLAIN" and not self.words.tls:
            print("carry-out: without --tls the password goes over the network as it is", file=sys.stderr)

    def refuse(self, status: Status, *lines: str) -> Status:
        told = [*lines[:MOST_NAMED], *([f"{len(lines) - MOST_NAMED:,} more of this kind"] if len(lines) > MOST_NAMED else [])]
        for line in told:
            print(f"carry-out: {line}", file=sys.stderr)
        return self.ended(status, "; ".join(told))

    def ended(self, status: Status, reason: str) -> Status:
        """The status; a machine hears of it even where no run began."""
        if self.words.json:
            self.report.say("", event="end", status=int(status), reason=reason, tasks=[])
        return status

    def carry(self) -> Status:
        """Looks, and where nothing is against it carries the plan out."""
        against = self.run.examine(self.lists, self.rest)
        if against is None:
            return self.refuse(Status.NO_CONNECTION, self.admin.reason)
        if against:
            return self.refuse(Status.NOT_BEGUN, *against)
        self.introduce()
        if self.words.dry_run:
            return self.show()
        try:
            if not self.throttle():
                return self.refuse(Status.THROTTLES, "throttles couldn't be set; --unthrottle removes those that were")
            self.run.carry(self.words.looks, self.rest)
            status = self.let_go(self.status())
        except KeyboardInterrupt:
            status = Status.INTERRUPTED
        self.tell_end(status)
        return status

    def tell_end(self, status: Status) -> None:
        reason = REASONS[status]
        if status == Status.LEFT and not self.admin.link:
            reason += f" (the last call had no answer: {self.admin.reason})"
        if self.words.throttle and status in (Status.LEFT, Status.INTERRUPTED):
            reason += "; throttles stay until then, or until --unthrottle"
        self.report.end(int(status), reason)

    def status(self) -> Status:
        if self.run.gives_way and not self.run.count(Phase.IN_FLIGHT):
            return Status.GAVE_WAY
        if not self.run.is_over():
            return Status.LEFT
        return Status.REFUSED if self.run.count(Phase.REFUSED) else Status.DONE

    def introduce(self) -> None:
        """What is going to happen, and what a reader should know before it does."""
        moves = sum(task.moves_replicas for task in self.tasks)
        caps, count = self.caps, len(self.tasks)
        self.report.say(
            f"{plans.plural(count, 'partition')}: {moves:,} to move replicas, {count - moves:,} to change the order alone; at once at most {caps.broker:,} "
            f"for a broker, {caps.cluster:,} in all, {caps.leaders:,} of the order",
            event="begin", tasks=count, moves=moves, broker_cap=caps.broker, cluster_cap=caps.cluster, leader_cap=caps.leaders,
        )
        nodes = self.look.metadata.nodes
        missing = sorted({id for task in self.tasks for id in task.after if id not in nodes})
        if missing:
            self.report.say(f"brokers that are wanted and aren't there: {named(missing)}", event="missing brokers", brokers=missing)
        gone = [task.name for task in self.tasks if task.standing == Standing.ABSENT]
        if gone:
            self.report.say(f"partitions that aren't there: {named(gone)}", event="missing partitions", partitions=gone)
        if self.run.settles:
            self.report.say(f"an earlier run was here: nothing is started for {self.words.settle:g} seconds (--settle)",
                            event="settle", seconds=self.words.settle)
        self.tell_throttles()

    def tell_throttles(self) -> None:
        """The throttles that are set already, as by a run that was killed."""
        held, faults = throttles.found(self.admin, self.throttles)
        self.report.throttles("throttled already", {it: shown_configs(values) for it, values in held.items()})
        self.tell_faults(faults if self.words.throttle else {})

    def tell_faults(self, faults: Mapping[kafka_wire.Resource, str]) -> None:
        self.report.throttles("throttles aren't known or changed", faults)

    def throttle(self) -> bool:
        """Sets the throttles that are asked for. Whether the run may begin: brokers that aren't there have none."""
        if not (self.words.throttle and self.tasks):
            return True
        done, faults = throttles.set_all(self.admin, self.throttles, self.words.throttle)
        self.report.throttles("throttled", {it: shown_changes(it, changes) for it, changes in done.items()})
        self.tell_faults(faults)
        return not any(it.kind == kafka_wire.TOPIC or int(it.name) in self.look.metadata.nodes for it in faults)

    def let_go(self, status: Status) -> Status:
        """Removes the run's throttles where nothing of it is in flight. The status, which is another where some are left."""
        if not (self.words.throttle and self.tasks) or self.run.count(Phase.IN_FLIGHT):
            return status
        left = self.unthrottle()
        return left if left and status in (Status.DONE, Status.REFUSED) else status

    def unthrottle(self) -> Status:
        done, faults = throttles.remove_all(self.admin, self.throttles)
        self.report.throttles("no longer throttled", {it: shown_changes(it, changes) for it, changes in done.items()})
        self.tell_faults(faults)
        return Status.THROTTLES if faults else Status.DONE

    def show(self) -> Status:
        """What a run would do with each task, in the order in which it would."""
        for task in sorted(self.tasks, key=lambda it: not it.moves_replicas):
            self.report.say(f"{task.name}: {shown(task.before)} to {shown(task.after)}: {self.would(task)}", event="would", topic=task.key[0],
                            partition=task.key[1], before=task.before, after=task.after, what=self.would(task))
        return self.ended(Status.DONE, "nothing was asked")

    def would(self, task: Task) -> str:
        seen = self.look.seen(task.key)
        words = {
            Standing.UNDER_WAY: "wait, for it is in flight already",
            Standing.ASTRAY: "give it up, then ask for its list",
            Standing.SETTLED: "nothing, for it is done",
            Standing.UNLED: f"elect {task.after[0]}",
            Standing.ABSENT: "nothing, for there is no such partition",
        }
        if task.standing in words:
            return words[task.standing]
        is_led = seen is not None and (seen.leader == task.after[0] or seen.leader not in task.after and not task.moves_replicas)
        return "ask for its list" + ("" if is_led else f", and have {task.after[0]} elected where it doesn't lead then")


def interrupted(*_: object) -> NoReturn:
    raise KeyboardInterrupt


def check(words: argparse.Namespace) -> None:
    """Whether these options go together."""
    if not words.bootstrap:
        raise Fault("--bootstrap HOST:PORT is wanted; --help says more")
    if words.unthrottle and (words.dry_run or words.back or words.throttle):
        raise Fault("--unthrottle goes with none of --dry-run, --back and --throttle")


def add_arguments(parser: argparse.ArgumentParser) -> None:
    parser.add_argument("cluster", metavar="CLUSTER", help="the cluster file that the plan was made for; - is the standard input")
    parser.add_argument("plan", metavar="PLAN", help="what 'sumpharu plan' wrote, or another reassignment JSON of Kafka's; or -")
    kafka_sign_in.add_bootstrap(parser, "brokers to begin with; the others are told by them")
    parser.add_argument("--dry-run", action="store_true", help="looks, says what would be asked, and asks nothing")
    parser.add_argument(
        "--back",
        action="store_true",
        help="takes a run back: gives up what is in flight, and asks for the file's lists. The run that is taken back has to have ended. An ask of its "
        "last minute may still be on its way, so nothing is moved before that minute is over (--settle)",
    )
    parser.add_argument(
        "--throttle",
        metavar="BYTES",
        type=positive,
        help="has brokers copy at most so many bytes a second for this plan. The rates and lists of throttled replicas are set before the first ask, "
        "told, and removed once nothing of the plan is in flight. A rate that is there already is replaced",
    )
    parser.add_argument("--unthrottle", action="store_true", help="removes the throttles that a run of this plan left, and does nothing else")
    parser.add_argument("--looks", metavar="N", type=positive, default=86400, help="ends after so many looks, whatever is in flight then; by default 86400")
    parser.add_argument("--every", metavar="SECONDS", type=kafka_sign_in.seconds, default=1.0, help="how long it rests between two looks; by default 1")
    parser.add_argument(
        "--settle",
        metavar="SECONDS",
        type=kafka_sign_in.seconds,
        default=60.0,
        help="how long an ask may be on its way: after an earlier run nothing is started for so long, and a run one of whose asks has no answer looks on "
        "for so long; by default 60",
    )
    parser.add_argument("--json", action="store_true", help="writes one JSON object a line: events, progress, and at the end all tasks")
    kafka_sign_in.add_options(parser)


def run(arguments: argparse.Namespace) -> int:
    check(arguments)
    signal.signal(signal.SIGTERM, interrupted)
    return int(CarryOut(arguments).do())
