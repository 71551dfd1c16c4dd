"""The rule by which a plan is carried out on a real Kafka: what a look says of each task, and what is asked for then.

1. A look is all reassignments in flight and then all metadata, on one connection to the broker that takes changes.
2. A task counts as in flight from before its first ask until a look says that it is over. Nothing is concluded from an answer that is missing, nor from
   one that says that an ask failed.
3. An ask names one partition and the list that the plan wants, and goes out on the connection of the look. Where a later look says that it isn't in
   force, it is asked again: the same ask twice is the same as once.
4. A task is refused where all its asks were answered, the last by a code that says that it was never taken, and a look after that says that nothing is
   in flight and the list is the old one.
5. Tasks that wait start, in the plan's order, while the caps have room. Those that change the order alone, and so at most the leader, wait for all others.
6. A run gives nothing up. One that takes a run back ('back') gives up what is in flight towards the plan's lists, and asks for the file's.
7. Where the first look shows an earlier run's work, an ask of that run may still be on its way. So nothing is started before it is older than 'settle'.
8. Somebody else's reassignment has a run start nothing more, finish, and say so.
"""
from __future__ import annotations

import time
from collections import Counter
from dataclasses import dataclass, field
from enum import Enum
from typing import Any, Callable, Counter as CounterOf, Dict, Iterable, List, Mapping, Optional

from .kafka_admin import Admin, Look
from .kafka_wire import NO_REASSIGNMENT, NO_SUCH_PARTITION, NONE, NOT_CONTROLLER, Key

Event = Dict[str, Any]

# Codes by which a broker says that it didn't take an ask, and won't take the same one again without more: no such partition, no right, no such list.
REFUSALS = (3, 29, 31, 39, 42, 44)
NOT_TAKEN = (*REFUSALS, NOT_CONTROLLER, NO_REASSIGNMENT)
# In how many looks, one after another, something has to be missing before it is gone: what a broker knows may be a moment old.
LOOKS_TO_BE_SURE = 3


class Phase(Enum):
    WAITING = "waiting"
    IN_FLIGHT = "in flight"
    DONE = "done"
    REFUSED = "refused"
    TAKEN = "taken over"


class Standing(Enum):
    """What a look says of a task."""

    UNDER_WAY = "in flight towards the list that is wanted"
    ASTRAY = "in flight towards the list that is taken back"
    ELSEWHERE = "in flight towards, or at, a list that nobody here asked for"
    SETTLED = "the list is the one that is wanted, and its first member leads"
    UNLED = "the list is the one that is wanted, and another member leads"
    UNASKED = "nothing is in flight, and the list is another"
    ABSENT = "no such partition"
    UNKNOWN = "nothing is told of the partition"


@dataclass(frozen=True)
class Caps:
    """How many tasks may be in flight: that add a broker or remove it, that move replicas at all, and that change the order alone."""

    broker: int = 10
    cluster: int = 1250
    leaders: int = 1000


@dataclass
class Task:
    """One partition's change, from the list that it had to the one that is wanted."""

    key: Key
    before: List[int]
    after: List[int]
    # Whether it takes an earlier run's change back, so that 'before' is the plan's list.
    is_back: bool = False
    phase: Phase = Phase.WAITING
    codes: List[int] = field(default_factory=list)
    # Whether an ask has no answer, or one that doesn't say whether it was taken: it may yet be carried out.
    is_doubtful: bool = False
    looks_absent: int = 0
    standing: Standing = Standing.UNKNOWN

    @property
    def name(self) -> str:
        return name_of(self.key)

    @property
    def adds(self) -> List[int]:
        return [id for id in self.after if id not in self.before]

    @property
    def removes(self) -> List[int]:
        return [id for id in self.before if id not in self.after]

    @property
    def moves_replicas(self) -> bool:
        return set(self.before) != set(self.after)

    @property
    def is_over(self) -> bool:
        return self.phase in (Phase.DONE, Phase.REFUSED, Phase.TAKEN)

    def is_expected(self, replicas: List[int]) -> bool:
        """Whether a list may be seen while this task alone is at work: the old one, the new one, both together in some order, or,
        where it takes a change back, the list that is wanted in another order."""
        both = set(self.before) | set(self.after)
        return replicas in (self.before, self.after) or set(replicas) == both or self.is_back and set(replicas) == set(self.after)

    def standing_in(self, look: Look) -> Standing:
        move, seen = look.moves.get(self.key), look.seen(self.key)
        if move is not None:
            if set(move.target) == set(self.after):
                return Standing.UNDER_WAY
            return Standing.ASTRAY if self.is_back and set(move.target) == set(self.before) else Standing.ELSEWHERE
        if seen is None:
            code = look.metadata.topics.get(self.key[0])
            return Standing.ABSENT if code in (None, NONE, NO_SUCH_PARTITION) else Standing.UNKNOWN
        if not self.is_expected(seen.replicas):
            return Standing.ELSEWHERE
        if seen.replicas != self.after:
            return Standing.UNASKED
        return Standing.SETTLED if seen.leader == self.after[0] else Standing.UNLED

    def is_untouched(self, look: Look) -> bool:
        """Whether a look shows nothing that an earlier run may have done."""
        seen = look.seen(self.key)
        return self.key not in look.moves and (seen is None or seen.replicas == self.before)

    def note_answer(self, code: Optional[int]) -> None:
        """Keeps an answer's code; None stands for an answer that is missing."""
        if code is not None:
            self.codes.append(code)
        if code is None or code not in (NONE, *NOT_TAKEN):
            self.is_doubtful = True

    @property
    def is_refused(self) -> bool:
        """Whether all asks were answered, and the last one says that it was never taken."""
        return bool(self.codes) and self.codes[-1] in REFUSALS and not self.is_doubtful


class Room:
    """How much the tasks in flight take of the caps, and whether another may start beside them."""

    def __init__(self, tasks: Iterable[Task], caps: Caps) -> None:
        self.caps = caps
        self.moving = self.leading = 0
        self.adding: CounterOf[int] = Counter()
        self.removing: CounterOf[int] = Counter()
        self.has_unfinished_moves = any(it.moves_replicas and not it.is_over for it in tasks)
        for task in tasks:
            if task.phase == Phase.IN_FLIGHT:
                self.take(task)

    def take(self, task: Task) -> None:
        if task.moves_replicas:
            self.moving += 1
            self.adding.update(task.adds)
            self.removing.update(task.removes)
        else:
            self.leading += 1

    def has(self, task: Task) -> bool:
        if not task.moves_replicas:
            return not self.has_unfinished_moves and self.leading < self.caps.leaders
        return (
            self.moving < self.caps.cluster
            and all(self.adding[id] < self.caps.broker for id in task.adds)
            and all(self.removing[id] < self.caps.broker for id in task.removes)
        )


def strangers_in(look: Look, tasks: Iterable[Task]) -> List[Key]:
    """The reassignments in flight of partitions that no task is for, or towards lists that none wants."""
    known = {task.key for task in tasks}
    strange = [task.key for task in tasks if task.standing == Standing.ELSEWHERE and task.key in look.moves]
    return sorted(strange + [key for key in look.moves if key not in known])


def objections(look: Look, tasks: List[Task], lists: Mapping[Key, List[int]]) -> List[str]:
    """Why a run must not begin, one line each: 'lists' are the file's of all partitions, by key."""
    lines = [f"{name_of(key)} is being reassigned to {shown(look.moves[key].target)}, which isn't this plan's" for key in strangers_in(look, tasks)]
    by_key = {task.key: task for task in tasks}
    for key, members in lists.items():
        seen, task = look.seen(key), by_key.get(key)
        if seen is None or key in look.moves:
            continue
        allowed = [members] if task is None else [task.before, task.after]
        in_other_order = task is not None and task.is_back and set(seen.replicas) == set(task.after)
        if seen.replicas not in allowed and not in_other_order:
            lines.append(f"{name_of(key)} has {shown(seen.replicas)}, and not {' or '.join(map(shown, allowed))}")
    if tasks and all(task.standing == Standing.ABSENT for task in tasks):
        lines.append("none of the plan's partitions is there")
    return lines


def name_of(key: Key) -> str:
    return f"{key[0]}-{key[1]}"


def shown(members: Iterable[int]) -> str:
    return ",".join(map(str, members))


class Run:
    """A plan's tasks on their way. The admin is asked, 'tell' hears of each ask, and time is what 'clock' says."""

    def __init__(
        self,
        admin: Admin,
        tasks: List[Task],
        caps: Caps,
        settle: float = 60.0,
        tell: Callable[[Event], None] = lambda event: None,
        clock: Callable[[], float] = time.monotonic,
    ) -> None:
        self.admin, self.tasks, self.caps, self.settle, self.tell, self.clock = admin, tasks, caps, settle, tell, clock
        self.is_back = any(task.is_back for task in tasks)
        self.looks = self.lost_looks = self.lost_asks = 0
        self.last_look: Optional[Look] = None
        self.strangers: List[Key] = []
        # The lists of the file's other partitions, which nobody is to change meanwhile.
        self.fixed: Dict[Key, List[int]] = {}
        # Before these moments nothing is started, and the run doesn't end.
        self.start_from: Optional[float] = None
        self.quiet_from = 0.0

    def count(self, phase: Phase) -> int:
        return sum(task.phase == phase for task in self.tasks)

    @property
    def gives_way(self) -> bool:
        return bool(self.strangers)

    @property
    def settles(self) -> bool:
        """Whether tasks wait for asks of an earlier run that may be on their way."""
        waits = self.is_back or any(task.phase == Phase.WAITING and task.standing in (Standing.UNASKED, Standing.UNLED) for task in self.tasks)
        return waits and self.start_from is not None and self.clock() < self.start_from

    def is_over(self) -> bool:
        ended = all(task.is_over for task in self.tasks) or self.gives_way and not self.count(Phase.IN_FLIGHT)
        return self.start_from is not None and ended and self.clock() >= self.quiet_from

    # -- a look

    def look(self) -> Optional[Look]:
        """A look, with what it says of each task; None where there is none."""
        look = self.admin.look()
        self.looks += 1
        if look is None:
            self.lost_looks += 1
            return None
        self.last_look = look
        self.note_earlier_run(look)
        for task in self.tasks:
            task.standing = task.standing_in(look)
        return look

    def note_earlier_run(self, look: Look) -> None:
        """At the first look: from when on tasks may start."""
        if self.start_from is not None:
            return
        now = self.clock()
        was_here = self.is_back or not all(task.is_untouched(look) for task in self.tasks)
        self.start_from = now + self.settle if was_here else now
        if self.is_back:
            self.quiet_from = self.start_from

    def step(self) -> bool:
        """One look, and what follows from it. Whether the look was whole."""
        look = self.look()
        if look is None:
            return False
        self.note_strangers(look)
        for task in self.tasks:
            self.judge(task, look)
        self.ask_all(look)
        self.tell({"event": "look", "look": self.looks})
        return True

    def note_strangers(self, look: Look) -> None:
        changed = [key for key, members in self.fixed.items() if key in look.metadata.partitions and look.metadata.partitions[key].replicas != members]
        for key in dict.fromkeys(strangers_in(look, self.tasks) + changed):
            if key not in self.strangers:
                self.strangers.append(key)
                self.tell({"event": "somebody else", "topic": key[0], "partition": key[1]})

    def judge(self, task: Task, look: Look) -> None:
        """What a look means for one task: it may be over, or counted as in flight though this run didn't ask for it."""
        task.looks_absent = task.looks_absent + 1 if task.standing == Standing.ABSENT else 0
        if task.is_over:
            self.judge_again(task, look)
        elif task.standing in (Standing.UNDER_WAY, Standing.ASTRAY):
            task.phase = Phase.IN_FLIGHT
        elif task.standing == Standing.SETTLED:
            task.phase = Phase.DONE
        elif task.looks_absent >= LOOKS_TO_BE_SURE:
            task.phase = Phase.REFUSED
        elif task.standing == Standing.ELSEWHERE:
            self.give_way(task)
        elif task.phase == Phase.IN_FLIGHT and task.standing == Standing.UNASKED:
            self.judge_unasked(task, look.metadata.partitions[task.key].replicas)

    def judge_again(self, task: Task, look: Look) -> None:
        """A task that is over counts anew where it is in flight, or where what was taken back was done once more."""
        came_back = task.is_back and task.standing == Standing.UNASKED and look.metadata.partitions[task.key].replicas == task.before
        if task.standing in (Standing.UNDER_WAY, Standing.ASTRAY) or task.phase == Phase.DONE and came_back:
            task.phase = Phase.IN_FLIGHT

    def judge_unasked(self, task: Task, replicas: List[int]) -> None:
        """A task that counts as in flight, and of which nothing is."""
        if replicas == task.before and task.is_refused:
            task.phase = Phase.REFUSED
        elif task.is_back and not task.codes and not task.is_doubtful and replicas == task.before:
            # it was given up too late: its way back starts like any other
            task.phase = Phase.WAITING

    def give_way(self, task: Task) -> None:
        task.phase = Phase.TAKEN
        if task.key not in self.strangers:
            self.strangers.append(task.key)
            self.tell({"event": "somebody else", "topic": task.key[0], "partition": task.key[1]})

    # -- asks

    def ask_all(self, look: Look) -> None:
        """What a look asks for: to give up, to ask again, to start, to elect. An ask that is lost ends it, as does the end of the look's connection."""
        flying = [task for task in self.tasks if task.phase == Phase.IN_FLIGHT]
        led = [task for task in flying if self.wants_leader(task, look)]
        good = all(self.give_up(task) for task in flying if task.standing == Standing.ASTRAY)
        good = good and all(self.ask(task) for task in flying if task.standing == Standing.UNASKED)
        may_start = self.start_from is not None and self.clock() >= self.start_from
        if good and not self.gives_way and may_start:
            good = self.start_tasks(look, led)
        if good and led:
            self.elect(led)

    def start_tasks(self, look: Look, led: List[Task]) -> bool:
        """Starts what the caps have room for. A task counts before it is asked."""
        room = Room(self.tasks, self.caps)
        for task in self.tasks:
            can_start = task.phase == Phase.WAITING and task.standing in (Standing.UNASKED, Standing.UNLED)
            if not can_start or not room.has(task):
                continue
            task.phase = Phase.IN_FLIGHT
            room.take(task)
            if task.standing == Standing.UNASKED and not self.ask(task):
                return False
            if self.wants_leader(task, look):
                led.append(task)
        return True

    def wants_leader(self, task: Task, look: Look) -> bool:
        """Whether an election would give a task its leader now: one that isn't in sync isn't elected."""
        return task.standing == Standing.UNLED and task.after[0] in look.metadata.partitions[task.key].in_sync

    def ask(self, task: Task) -> bool:
        """Asks for a task's list. Whether the connection is still there."""
        answer = self.admin.reassign(task.key, task.after)
        code = None if answer.is_lost else answer.of(task.key)
        task.note_answer(code)
        self.note_doubt(code)
        self.tell({"event": "ask", "topic": task.key[0], "partition": task.key[1], "replicas": task.after, "code": code})
        return self.admin.link is not None

    def give_up(self, task: Task) -> bool:
        """Gives up what is in flight. What comes of it, the next look says; the list that is wanted is asked for then."""
        answer = self.admin.reassign(task.key, None)
        code = None if answer.is_lost else answer.of(task.key)
        self.note_doubt(code)
        self.tell({"event": "give up", "topic": task.key[0], "partition": task.key[1], "code": code})
        return self.admin.link is not None

    def elect(self, tasks: List[Task]) -> None:
        answer = self.admin.elect([task.key for task in tasks])
        codes = [None if answer.is_lost else answer.of(task.key) for task in tasks]
        for task, code in zip(tasks, codes):
            self.tell({"event": "elect", "topic": task.key[0], "partition": task.key[1], "leader": task.after[0], "code": code})

    def note_doubt(self, code: Optional[int]) -> None:
        """An ask that may yet be carried out has the run look on until that can't come any more."""
        if code is None or code not in (NONE, *NOT_TAKEN):
            self.lost_asks += 1
            self.quiet_from = max(self.quiet_from, self.clock() + self.settle)

    def examine(self, lists: Mapping[Key, List[int]], rest: Callable[[], None]) -> Optional[List[str]]:
        """Why the run must not begin, after as many looks as it takes to be sure; with no whole look, None."""
        known, found = {task.key for task in self.tasks}, None
        self.fixed = {key: members for key, members in lists.items() if key not in known}
        for at in range(LOOKS_TO_BE_SURE):
            if at:
                rest()
            look = self.look()
            if look is not None:
                found = objections(look, self.tasks, lists)
            if found == []:
                break
        return found

    def carry(self, looks: int, rest: Callable[[], None]) -> bool:
        """Steps until the run is over, or so many looks were tried. Whether it is over."""
        for _ in range(looks):
            self.step()
            if self.is_over():
                return True
            rest()
        return False
