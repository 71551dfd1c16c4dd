"""What a run tells as it goes and at its end: lines, of which one moves on a terminal, or JSON with one object a line."""
from __future__ import annotations

import json
import sys
import time
from typing import Any, Callable, Dict, Iterable, List, Mapping, Optional, TextIO

from .carrying import Event, Phase, Run, Standing, Task, shown
from .kafka_admin import Look
from .kafka_wire import Resource, code_text

MOST_NAMED = 20


def counts(run: Run) -> Dict[Phase, int]:
    return {phase: run.count(phase) for phase in Phase}


def task_value(task: Task) -> Dict[str, Any]:
    topic, number = task.key
    return {"topic": topic, "partition": number, "before": task.before, "after": task.after, "state": task.phase.value, "codes": task.codes}


def named(items: Iterable[object], most: int = MOST_NAMED) -> str:
    """Names in one line, the first few of them where there are many."""
    names = [str(it) for it in items]
    rest = f" and {len(names) - most} more" if len(names) > most else ""
    return ", ".join(names[:most]) + rest


def why_left(task: Task, look: Optional[Look]) -> str:
    """What a task that isn't done waits for, as far as the last look says."""
    if task.phase == Phase.REFUSED:
        return "there is no such partition" if task.standing == Standing.ABSENT else f"Kafka says {code_text(task.codes[-1])}"
    if look is None:
        return "no look was whole"
    dead = [id for id in task.after if id not in look.metadata.nodes]
    if task.phase == Phase.WAITING:
        return "not asked for"
    if task.phase == Phase.TAKEN:
        return "somebody else changed it"
    if dead:
        return f"broker {named(dead)} isn't there"
    seen = look.seen(task.key)
    if task.standing == Standing.UNLED and seen is not None:
        return f"the list is there, and {seen.leader} leads in place of {task.after[0]}"
    if task.standing in (Standing.UNDER_WAY, Standing.ASTRAY) and seen is not None:
        return f"in sync are {shown(seen.in_sync)}"
    return "its last ask has no answer" if task.is_doubtful else "asked for, and not in force yet"


def throttle_lines(verb: str, values: Mapping[Resource, str]) -> List[str]:
    """Resources in one line for each value that they have in common: of {resource: text}."""
    by_value: Dict[str, List[Resource]] = {}
    for resource, value in values.items():
        by_value.setdefault(value, []).append(resource)
    return [f"{verb}: {value}: {named(resources)}" for value, resources in by_value.items()]


class Report:
    """Hears the events of a run and writes them."""

    # Has to be set before it hears of one.
    run: Run

    def __init__(self, is_json: bool, out: Optional[TextIO] = None, clock: Callable[[], float] = time.monotonic) -> None:
        self.is_json, self.out, self.clock = is_json, out or sys.stdout, clock
        self.begun, self.has_line = clock(), False
        self.last: Optional[Dict[Phase, int]] = None
        self.moves = not is_json and self.out.isatty()

    @property
    def minutes(self) -> float:
        return round((self.clock() - self.begun) / 60, 1)

    def write(self, line: str) -> None:
        """A line of its own, after the one that moves."""
        if self.has_line:
            self.out.write("\n")
            self.has_line = False
        self.out.write(line + "\n")
        self.out.flush()

    def say(self, text: str, **value: Any) -> None:
        """A line for a reader, or its object for a machine."""
        self.write(json.dumps(value) if self.is_json else text)

    def throttles(self, verb: str, values: Mapping[Resource, str]) -> None:
        """What throttles were found, set or removed: of {resource: text}."""
        if self.is_json:
            for resource, value in values.items():
                self.write(json.dumps({"event": verb, "resource": str(resource), "configs": value}))
            return
        for line in throttle_lines(verb, values):
            self.write(line)

    def hear(self, event: Event) -> None:
        """An event of the run's, as it happens."""
        if event["event"] == "look":
            self.progress(event["look"])
        elif self.is_json:
            self.write(json.dumps(event))
        elif event["event"] == "somebody else":
            self.write(f"{event['topic']}-{event['partition']} is changed by somebody else: nothing more is started")
        elif event.get("code"):
            self.write(f"{event['topic']}-{event['partition']}: to {event['event']} is answered with {code_text(event['code'])}")

    def progress(self, look: int) -> None:
        """How far the run is: told again where it changed, and on a terminal at each look."""
        now = counts(self.run)
        if self.is_json:
            if now != self.last:
                self.write(json.dumps({"event": "progress", "look": look, "minutes": self.minutes, **{it.value: n for it, n in now.items()}}))
        elif self.moves:
            self.out.write("\r\x1b[K" + self.line(now))
            self.out.flush()
            self.has_line = True
        elif now != self.last:
            self.write(self.line(now))
        self.last = now

    def line(self, now: Dict[Phase, int]) -> str:
        parts = [f"{phase.value} {n}" for phase, n in now.items() if n or phase != Phase.TAKEN]
        return f"{', '.join(parts)}, {self.minutes} minutes"

    def end(self, status: int, reason: str) -> None:
        """The last word: what isn't done and why, and how the run ended."""
        run = self.run
        if self.is_json:
            tasks = [task_value(task) for task in run.tasks]
            self.write(json.dumps({"event": "end", "status": status, "reason": reason, "minutes": self.minutes, "looks": run.looks,
                                   "looks without an answer": run.lost_looks, "asks in doubt": run.lost_asks, "tasks": tasks}))
            return
        for phase in (Phase.REFUSED, Phase.TAKEN, Phase.IN_FLIGHT, Phase.WAITING):
            self.left([task for task in run.tasks if task.phase == phase])
        self.write(f"{reason}: {self.line(counts(run))}")

    def left(self, tasks: List[Task]) -> None:
        """Tasks of one phase that aren't done, the first of them with their reasons."""
        for task in tasks[:MOST_NAMED]:
            self.write(f"{task.phase.value}: {task.name} to {shown(task.after)}: {why_left(task, self.run.last_look)}")
        if len(tasks) > MOST_NAMED:
            self.write(f"{tasks[0].phase.value}: {len(tasks) - MOST_NAMED:,} more, which --json names")
