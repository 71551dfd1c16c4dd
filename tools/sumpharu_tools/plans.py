"""What a plan changes: its moves, what each broker carries before and after, and the goals' measures."""
from __future__ import annotations

from dataclasses import dataclass
from typing import Any, Counter as CounterOf, Dict, List

from . import goals
from .clusters import RESOURCES, Cluster, Lists, Partition

REPLICAS, LEADERS = "replicas", "leaders"
# What is shown of a broker: a name, its unit, the goal whose bounds are drawn and the goal whose limit is drawn.
COLUMNS = (
    (REPLICAS, "", "ReplicaDistributionGoal", "ReplicaCapacityGoal"),
    (LEADERS, "", "LeaderReplicaDistributionGoal", None),
    ("CPU", "%", "CpuUsageDistributionGoal", "CpuCapacityGoal"),
    ("NW_IN", "KB/s", "NetworkInboundUsageDistributionGoal", "NetworkInboundCapacityGoal"),
    ("NW_OUT", "KB/s", "NetworkOutboundUsageDistributionGoal", "NetworkOutboundCapacityGoal"),
    ("DISK", "MB", "DiskUsageDistributionGoal", "DiskCapacityGoal"),
)
BY_NAME = {goal.name: goal for goal in goals.GOALS}


@dataclass(frozen=True)
class Change:
    """A partition whose list changes."""

    partition: Partition
    before: List[int]
    after: List[int]

    @property
    def added(self) -> List[int]:
        return [id for id in self.after if id not in self.before]

    @property
    def removed(self) -> List[int]:
        return [id for id in self.before if id not in self.after]

    @property
    def moved(self) -> int:
        """How many replicas take the place of one that is removed; others make the list longer."""
        return min(len(self.added), len(self.removed))

    @property
    def has_new_leader(self) -> bool:
        return self.before[0] != self.after[0]

    @property
    def megabytes(self) -> int:
        """What is copied: the DISK of each replica that is added."""
        disk = RESOURCES.index("DISK")
        return sum((self.partition.leader if id == self.after[0] else self.partition.follower)[disk] for id in self.added)


def changes(cluster: Cluster, after: Lists) -> List[Change]:
    rows = zip(cluster.partitions, cluster.lists, after)
    return [Change(partition, before, later) for partition, before, later in rows if before != later]


def carried(cluster: Cluster, lists: Lists) -> Dict[str, CounterOf[int]]:
    """What each broker carries, column by column: {column: {broker: quantity}}."""
    found = {
        REPLICAS: goals.quantities(cluster, lists, goals.one, goals.one)[0],
        LEADERS: goals.quantities(cluster, lists, goals.one, goals.nothing)[0],
    }
    for resource, name in enumerate(RESOURCES):
        found[name] = goals.quantities(cluster, lists, goals.leader_of(resource), goals.follower_of(resource))[0]
    return found


@dataclass(frozen=True)
class Measured:
    goal: goals.Goal
    before: int
    after: int

    @property
    def word(self) -> str:
        if self.after == 0:
            return "met"
        if self.after == self.before:
            return "as before"
        return "better" if self.after < self.before else "worse"


def measures(cluster: Cluster, after: Lists) -> List[Measured]:
    return [Measured(goal, goal.measure(cluster, cluster.lists), goal.measure(cluster, after)) for goal in goals.GOALS]


def rollback(rows: List[Change]) -> Dict[str, Any]:
    """Kafka's reassignment, as an object, that takes the changes back."""
    entries = [{"partition": it.partition.number, "replicas": it.before, "topic": it.partition.topic} for it in rows]
    return {"partitions": entries, "version": 1}


def plural(count: int, word: str) -> str:
    return f"{count:,} {word}" + ("" if count == 1 else "s")


def told(count: int, word: str, one: str, many: str) -> str:
    return f"{plural(count, word)} {one if count == 1 else many}"


def summary(cluster: Cluster, rows: List[Change]) -> str:
    """One line that says how much a plan changes. Replicas that move are those that take another's place."""
    moved = sum(it.moved for it in rows)
    added = sum(len(it.added) for it in rows) - moved
    removed = sum(len(it.removed) for it in rows) - moved
    copied = sum(it.megabytes for it in rows)
    said = [told(moved, "replica", "moves", "move")]
    if added:
        said.append(told(added, "replica", "is added", "are added"))
    said[-1] += f" ({copied:,} MB)"
    if removed:
        said.append(told(removed, "replica", "is removed", "are removed"))
    said.append(told(sum(it.has_new_leader for it in rows), "leader", "changes", "change"))
    return f"{len(rows):,} of {plural(len(cluster.partitions), 'partition')} change: {', '.join(said)}"
