"""Random plans carried out on minikafka: faults at random places, controllers that move, brokers that die and come back, runs that are killed.

A trial holds each run against the cluster's own word: never more in flight than the caps, each task told done has its list and leader at that moment
and its list at the end, each refused one has its old list, nothing else changed, nothing is left in flight.
"""
import random

import places  # has the tools' package found
from sumpharu_tools.carrying import Caps, Phase, Run, Task
from sumpharu_tools.kafka_admin import Admin
from sumpharu_tools.kafka_link import Link
from sumpharu_tools.kafka_sign_in import Security
from minikafkas import InMemory

BROKERS, RATE = 5, 400000
TOPICS = {"a": (9, 3), "b": (9, 2)}
# By the cluster's clock: how long a late ask may be on its way, and how long a run waits for one.
LATE, SETTLE = 4, 6
MOST_LOOKS = 600
FAULTS = ["drop", "dropdone", "hang", "hangdone", "cut", "junk", "slow:0.05", "error:7", "done:7", *(f"late:{LATE - 0.5 * n}" for n in range(6))]
FAULTY = ["AlterPartitionReassignments"] * 5 + ["ListPartitionReassignments", "Metadata", "ElectLeaders", "ApiVersions"]


class Killed(BaseException):
    """The run's process is no more."""


class Life:
    """How many exchanges a run lives for; it dies before one is sent, or after it was sent and before its answer."""

    def __init__(self, exchanges=None, dies_after_sending=False):
        self.left, self.dies_after_sending = exchanges, dies_after_sending


def words_for(mode, brokers=BROKERS, topics=TOPICS):
    """minikafka's words for a cluster."""
    named = [word for name, (count, factor) in topics.items() for word in ("--topic", f"{name}:{count}:{factor}")]
    return ["--brokers", str(brokers), "--rate", str(RATE), "--mode", mode, *named]


class MortalLink(Link):
    """A link whose process may die at an exchange, and which may lead to a cluster in memory."""

    life, kafka = Life(), None

    def connected(self, place):
        return self.kafka.connect(place) if isinstance(self.kafka, InMemory) else super().connected(place)

    def exchange(self, message, body):
        life = self.life
        if life.left is not None:
            life.left -= 1
            if life.left < 0 and not life.dies_after_sending:
                raise Killed()
        return super().exchange(message, body)

    def received(self, count):
        if self.life.left is not None and self.life.left < 0:
            raise Killed()
        return super().received(count)


class MortalAdmin(Admin):
    def __init__(self, kafka, timeout, life):
        super().__init__(kafka.places(), Security(), timeout)
        self.kafka, self.life = kafka, life

    def open(self, place):
        kind = type("", (MortalLink,), {"life": self.life, "kafka": self.kafka})
        return kind(place, self.security, self.timeout)


class Clock:
    """The cluster's clock, which goes on where a run rests."""

    def __init__(self, kafka):
        self.kafka, self.now = kafka, 0.0

    def __call__(self):
        return self.now

    def advance(self, seconds=1.0):
        self.now += seconds
        self.kafka.tell("advance", seconds)


def random_lists(rng, before):
    """A plan: for most partitions another list, of which some are the same members in another order, and some are shorter or longer by one."""
    plan = {}
    for key, members in before.items():
        after = rng.sample(range(BROKERS), len(members))
        if rng.random() < 0.25:
            after = rng.sample(members, len(members))
        chance = rng.random()
        if chance < 0.1:
            after = after[: len(after) - 1]
        elif chance < 0.2:
            after = [*members, rng.choice([id for id in range(BROKERS) if id not in members])]
        if after != members:
            plan[key] = after
    return plan


def tasks_for(before, plan, is_back=False):
    if is_back:
        return [Task(key, after, before[key], True) for key, after in plan.items()]
    return [Task(key, before[key], after) for key, after in plan.items()]


class Trial:
    """One plan, and the runs that carry it out one after another on a cluster that is disturbed."""

    def __init__(self, kafka, mode, seed, timeout=0.3):
        self.kafka, self.mode, self.seed, self.timeout = kafka, mode, seed, timeout
        self.rng = random.Random(f"{seed} {mode}")
        self.clock, self.dead, self.faults, self.runs = Clock(kafka), None, [], 0
        kafka.tell("reset")
        self.before = {key: it["replicas"] for key, it in kafka.partitions().items()}
        self.plan = random_lists(self.rng, self.before)
        rng = self.rng
        self.caps = Caps(rng.choice([1, 1, 1, 2, 3]), rng.choice([2, 4, 8]), rng.choice([1, 3]))

    def inject_faults(self):
        for _ in range(self.rng.randrange(18)):
            name, fault = self.rng.choice(FAULTY), self.rng.choice(FAULTS)
            if name in ("Metadata", "ApiVersions") and fault.startswith(("error", "done")):
                fault = "drop"
            if fault.startswith("hang") and self.rng.random() < 0.5:
                fault = fault.replace("hang", "drop")
            self.kafka.tell("inject", name, fault)

    def disturb(self):
        """What may happen between two looks."""
        chance = self.rng.random()
        if chance < 0.03 and self.mode == "zk":
            self.kafka.tell("controller", self.rng.choice([id for id in range(BROKERS) if id != self.dead]))
        elif chance < 0.05 and self.dead is None:
            self.dead = self.rng.randrange(BROKERS)
            self.kafka.tell("kill", self.dead)
        elif chance < 0.15 and self.dead is not None:
            self.revive()

    def revive(self):
        if self.dead is not None:
            self.kafka.tell("revive", self.dead)
            self.dead = None

    def check_done(self, run, known):
        """Each task that was just told done has its list and its leader, by the cluster's own word."""
        fresh = [task for task in run.tasks if task.phase == Phase.DONE and task.key not in known]
        parts = self.kafka.partitions() if fresh else {}
        for task in fresh:
            known.add(task.key)
            found = parts[task.key]
            if (found["replicas"], found["leader"], found["adding"], found["removing"]) != (task.after, task.after[0], [], []):
                self.faults.append(f"{task.name} was told done, to {task.after}, and is {found}")

    def one_run(self, life, is_back=False):
        """Carries the plan out until it is over, or the run is killed. The run, and whether it lived."""
        admin = MortalAdmin(self.kafka, self.timeout, life)
        run, known = Run(admin, tasks_for(self.before, self.plan, is_back), self.caps, SETTLE, clock=self.clock), set()
        self.runs += 1
        try:
            against = None
            for _ in range(30):
                against = run.examine(self.before, self.clock.advance)
                if against is not None:
                    break
                self.revive()
            if against:
                self.faults.append(f"it wasn't begun: {against}")
                return run, True
            for _ in range(MOST_LOOKS):
                run.step()
                self.check_done(run, known)
                if run.is_over():
                    return run, True
                self.clock.advance()
                self.disturb()
            self.faults.append("not over: " + ", ".join(f"{it.name} {it.phase.value} {it.codes[-3:]}" for it in run.tasks if not it.is_over))
            return run, True
        except Killed:
            return run, False
        finally:
            admin.close()

    def random_life(self):
        return Life(self.rng.randrange(60), self.rng.random() < 0.5)

    def carry(self):
        """Runs that are killed, up to three, and one that isn't; in some trials a run is taken back at last."""
        self.inject_faults()
        for _ in range(self.rng.randrange(4)):
            run, lived = self.one_run(self.random_life())
            if lived:
                self.check_end(run)
            self.clock.advance(self.rng.choice([0.1, 1]))
        run, _ = self.one_run(Life())
        self.check_end(run)
        if self.rng.random() < 0.3:
            self.one_run(self.random_life())
            run, _ = self.one_run(Life(), is_back=True)
            self.check_end(run)
        self.revive()
        return run

    def check_end(self, run):
        """What a run told at its end, beside the cluster."""
        parts = self.kafka.partitions()
        for task in run.tasks:
            found = parts[task.key]["replicas"]
            if task.phase == Phase.DONE and found != task.after:
                self.faults.append(f"{task.name} was done and has {found}, not {task.after}")
            if task.phase == Phase.REFUSED and found != task.before:
                self.faults.append(f"{task.name} was refused and has {found}, not {task.before}")
            if not task.is_over or task.phase == Phase.TAKEN:
                self.faults.append(f"{task.name} is {task.phase.value}")
        for key, members in self.before.items():
            if key not in self.plan and parts[key]["replicas"] != members:
                self.faults.append(f"{key} changed, which isn't in the plan")
            if parts[key]["adding"] or parts[key]["removing"]:
                self.faults.append(f"{key} is in flight")
        self.check_caps()

    def check_caps(self):
        most = self.kafka.tell("state")["most_in_flight"]
        brokers = [*most["adding"].values(), *most["removing"].values(), 0]
        if most["cluster"] > self.caps.cluster or max(brokers) > self.caps.broker:
            self.faults.append(f"{self.caps} and {most}")
        malformed = self.kafka.tell("log")["malformed"]
        if malformed:
            self.faults.append(f"{malformed} requests were malformed")


def trial(kafka, mode, seed):
    """The faults of one trial, each with its seed."""
    it = Trial(kafka, mode, seed)
    run = it.carry()
    return [f"{mode} {seed}: {fault}" for fault in it.faults], run, it
