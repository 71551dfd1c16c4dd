"""Makes random executions of the executor, call by call with the answers, as a table of its tests.

Four partitions, each on one of the brokers 0 to 5, go to other brokers. Movers take work, report it done or failed, and give it back; leases that
have ended or were never given are reported too; there are stops, deaths and other caps. The answers are those of a plain executor here, which looks
through the list of its tasks from the front. Without options it prints the table that crates/executor_tests/src/random.rt has. Run rt fmt after it
is put there.
"""
from __future__ import annotations

import argparse
import random
from typing import Callable, Iterable, List, Optional, Set, Tuple, Union

from ..words import counted

CLUSTER_CAP = LEADER_CAP = 10


class Task:
    def __init__(self, part: int, before: int, after: int) -> None:
        self.part, self.before, self.after = part, before, after
        self.phase = "Pending"
        self.done = self.faults = 0
        self.doomed = False
        # The lease that is out, and the work that it is for.
        self.lease: Optional[Tuple[int, str]] = None

    def in_flight(self) -> bool:
        return self.phase in ("InProgress", "Aborting")


class Executor:
    """The plain executor."""

    def __init__(self, cap: int, chunks: int, before: List[int], after: List[int]) -> None:
        self.cap, self.chunks = cap, chunks
        self.tasks = [Task(p, b, a) for p, (b, a) in enumerate(zip(before, after)) if b != a]
        self.leases = 0
        self.dead: Set[int] = set()

    def has_room(self, task: Task) -> bool:
        flying = [t for t in self.tasks if t.in_flight()]
        adding = sum(t.after == task.after for t in flying)
        removing = sum(t.before == task.before for t in flying)
        return adding < self.cap and removing < self.cap and len(flying) < CLUSTER_CAP

    def next_task(self) -> Union[str, Tuple[int, bool]]:
        """The place of the task that comes next, and whether it starts; or why there is none."""
        tests: Tuple[Tuple[Callable[[Task], bool], bool], ...] = (
            (lambda t: t.phase == "Aborting" and t.lease is None, False),
            (lambda t: t.phase == "InProgress" and t.lease is None, False),
            (lambda t: t.phase == "Pending" and self.has_room(t), True),
        )
        for test, starts in tests:
            for place, task in enumerate(self.tasks):
                if test(task):
                    return place, starts
        phases = {t.phase for t in self.tasks}
        if "Pending" in phases:
            return "CapsFull"
        return "AllLeased" if phases & {"InProgress", "Aborting"} else "NoExecution"

    def work_of(self, task: Task) -> str:
        if task.phase == "Aborting":
            return "Cancel"
        if task.done < self.chunks:
            return f"Copy {{ to: {task.after}, chunk: {task.done} }}"
        return "Commit"

    def take(self) -> str:
        found = self.next_task()
        if isinstance(found, str):
            return f"Err({found})"
        place, starts = found
        task = self.tasks[place]
        work = self.work_of(task)
        self.leases += 1
        task.lease = (self.leases, work)
        if starts:
            task.phase = "InProgress"
        return f"Ok({self.given(place, str(starts).lower())})"

    def given(self, place: int, starts: str) -> str:
        task = self.tasks[place]
        assert task.lease is not None
        number, work = task.lease
        return f"Given {{ lease: {number}, task: {place}, part: {task.part}, work: {work}, starts: {starts} }}"

    def holder(self, lease: int, kind: str = "") -> Optional[int]:
        for place, task in enumerate(self.tasks):
            if task.lease and task.lease[0] == lease and task.lease[1].startswith(kind):
                return place
        return None

    def end(self, lease: int, kind: str, finish: Callable[[Task], str]) -> str:
        """An event with a lease: ends it, and changes the task where the lease is worth it."""
        place = self.holder(lease, kind)
        if place is None:
            return f"Err(Stale({self.leases}))"
        task = self.tasks[place]
        task.lease = None
        if task.phase == "Aborting" and kind != "Cancel":
            return "Err(AbortAsked)"
        return f"Ok({finish(task)})"

    def copied(self, lease: int) -> str:
        def finish(task: Task) -> str:
            task.done += 1
            return f"Left({self.chunks - task.done})"

        return self.end(lease, "Copy", finish)

    def copy_failed(self, lease: int) -> str:
        def finish(task: Task) -> str:
            task.faults += 1
            if task.faults == 3:
                task.phase, task.doomed = "Aborting", True
            return f"Faults({task.faults})"

        return self.end(lease, "Copy", finish)

    def commit(self, lease: int) -> str:
        def finish(task: Task) -> str:
            task.phase = "Completed"
            return "()"

        return self.end(lease, "Commit", finish)

    def cancel(self, lease: int) -> str:
        def finish(task: Task) -> str:
            task.phase = "Dead" if task.doomed else "Aborted"
            return task.phase

        return self.end(lease, "Cancel", finish)

    def give_back(self, lease: int) -> str:
        place = self.holder(lease)
        if place is None:
            return f"Err(Stale({self.leases}))"
        self.tasks[place].lease = None
        return "Ok(())"

    def held(self, lease: int) -> str:
        place = self.holder(lease)
        return "None" if place is None else f"Some({self.given(place, 'false')})"

    def change_phases(self, tasks: Iterable[Task], changes: Iterable[Tuple[str, str]]) -> List[int]:
        """Gives tasks of some phases others, and returns how many were in each."""
        counts = []
        chosen = [(t, t.phase) for t in tasks]
        for was, phase in changes:
            matching = [t for t, old in chosen if old == was]
            for task in matching:
                task.phase = phase
            counts.append(len(matching))
        return counts

    def stop(self, force: str) -> str:
        if not any(t.phase == "Pending" or t.in_flight() for t in self.tasks):
            return "Err(NothingToStop)"
        changes = [("Pending", "Aborted")] + ([("InProgress", "Aborting")] if force == "true" else [])
        aborted, *aborting = self.change_phases(self.tasks, changes)
        return f"Ok(Stopped {{ aborted: {aborted}, aborting: {sum(aborting)} }})"

    def kill(self, broker: int) -> str:
        if broker > 5:
            return "Err(NoSuchBroker)"
        if broker in self.dead:
            return "Err(AlreadyDead)"
        self.dead.add(broker)
        needing = [t for t in self.tasks if t.after == broker]
        for task in needing:
            task.doomed = task.doomed or task.in_flight()
        dead, aborting = self.change_phases(needing, [("Pending", "Dead"), ("InProgress", "Aborting")])
        return f"Ok(Killed {{ dead: {dead}, aborting: {aborting} }})"

    def set_caps(self, cap: int) -> str:
        self.cap = cap
        return f"Caps {{ broker: {cap}, cluster: {CLUSTER_CAP}, leader: {LEADER_CAP} }}"


REPORTS = {"Copy": ("Copied", "copied"), "Commit": ("Commit", "commit"), "Cancel": ("Cancel", "cancel")}


def lease_call(rng: random.Random, exec: Executor) -> Tuple[str, str, int]:
    """A call with a lease, mostly one that is out and for the work that it is for."""
    out = [task.lease for task in exec.tasks if task.lease]
    if not out or rng.random() < 0.2:
        name, method = rng.choice([*REPORTS.values(), ("GiveBack", "give_back"), ("Held", "held")])
        return name, method, rng.randint(1, exec.leases + 1)
    number, work = rng.choice(out)
    name, method = REPORTS[work.split()[0]]
    chance = rng.random()
    if name == "Copied" and chance < 0.2:
        name, method = "CopyFailed", "copy_failed"
    elif chance > 0.9:
        name, method = rng.choice([("GiveBack", "give_back"), ("Held", "held")])
    return name, method, number


def next_call(rng: random.Random, exec: Executor) -> Tuple[str, str, Union[None, int, str]]:
    chance = rng.random()
    if chance < 0.48:
        return "Take", "take", None
    if chance < 0.92:
        return lease_call(rng, exec)
    if chance < 0.94:
        return "Stop", "stop", rng.choice(["true", "false"])
    if chance < 0.97:
        return "Kill", "kill", rng.randint(0, 6)
    return "SetCaps", "set_caps", rng.randint(1, 3)


def execution(rng: random.Random, calls: int) -> Tuple[int, int, List[int], List[int], List[Tuple[str, str]]]:
    """The cap of a broker, the chunks, the lists before and after, and the rows."""
    cap, chunks = rng.randint(1, 2), rng.randint(1, 2)
    before, after = ([rng.randint(0, 5) for _ in range(4)] for _ in range(2))
    exec = Executor(cap, chunks, before, after)
    rows = []
    for _ in range(calls):
        name, method, word = next_call(rng, exec)
        answer = getattr(exec, method)(*([] if word is None else [word]))
        rows.append((f"Call::{name}" + ("" if word is None else f"({word})"), answer))
    return cap, chunks, before, after, rows


def add_arguments(parser: argparse.ArgumentParser) -> None:
    parser.add_argument("--seed", metavar="SEED", type=counted, default=1, help="by default 1")
    parser.add_argument("--executions", metavar="COUNT", type=counted, default=4, help="by default 4")
    parser.add_argument("--calls", metavar="COUNT", type=counted, default=40, help="the calls of each; by default 40")


def run(arguments: argparse.Namespace) -> int:
    rng = random.Random(arguments.seed)
    count, calls = arguments.executions, arguments.calls
    # the line that the table of the crate begins with
    print("// Made by ./sumpharu-tools executions.")
    print("use crate::runs::{Call, Row};\n")
    heads = []
    for number in range(count):
        cap, chunks, before, after, rows = execution(rng, calls)
        print(f"const EXECUTION_{number}: [Row; {calls}] = [")
        for call, answer in rows:
            print(f'({call}, "{answer}"),')
        print("];\n")
        heads.append(f"({cap}, {chunks}, {before}, {after}, &EXECUTION_{number}),")
    print("// By the cap of a broker, the chunks of a replica, where the partitions are and go to, and the\n// calls.")
    print(f"pub const RANDOM: [(u32, u32, [u32; 4], [u32; 4], &[Row]); {count}] = [")
    print("\n".join(heads))
    print("];")
    return 0
