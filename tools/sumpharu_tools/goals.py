"""The eighteen goals, computed from their definitions (docs/GOALS.md, docs/DEFINITIONS.md): each has units with an excess each.

This is written apart from the program, in whole numbers, so that what it says of a plan is a second opinion.
"""
from __future__ import annotations

from collections import Counter
from dataclasses import dataclass
from typing import Callable, Counter as CounterOf, Dict, List, Optional, Tuple


from .clusters import Broker, Cluster, Lists, Partition, Ratio, Settings

# What a partition counts for; the scale, the lower and the upper bound of a unit, and of each broker, by the cluster and what all carry.
OfPartition = Callable[[Partition], int]
Bound = Tuple[int, int, int]
BoundOf = Callable[[Broker], Bound]
Bounds = Callable[[Cluster, int], BoundOf]


@dataclass(frozen=True)
class Unit:
    """A unit of a goal. Its quantity times the scale should lie from lower to upper; a lower of 0 asks nothing."""

    name: str
    quantity: int
    scale: int
    lower: int
    upper: int
    broker: Optional[int] = None

    @property
    def excess(self) -> int:
        scaled = self.quantity * self.scale
        return max(scaled - self.upper, 0) + max(self.lower - scaled, 0)


Units = Callable[[Cluster, Lists], List[Unit]]


@dataclass(frozen=True)
class Goal:
    name: str
    is_hard: bool
    units: Units

    def measure(self, cluster: Cluster, lists: Lists) -> int:
        return sum(unit.excess for unit in self.units(cluster, lists))


def unit_of(name: str, broker: Broker, quantity: int, bound: Bound) -> Unit:
    scale, lower, upper = bound
    return Unit(name, quantity, scale, lower, upper, broker.id)


def quantities(cluster: Cluster, lists: Lists, lead: OfPartition, follow: OfPartition) -> Tuple[CounterOf[int], int]:
    """What each broker carries, and what all carry: lead(partition) at first places, follow(partition) at all others."""
    carried: CounterOf[int] = Counter()
    for partition, members in zip(cluster.partitions, lists):
        for at, id in enumerate(members):
            carried[id] += follow(partition) if at else lead(partition)
    return carried, sum(carried.values())


def one(_: Partition) -> int:
    return 1


def nothing(_: Partition) -> int:
    return 0


def leader_of(resource: int) -> OfPartition:
    return lambda partition: partition.leader[resource]


def follower_of(resource: int) -> OfPartition:
    return lambda partition: partition.follower[resource]


def per_partition(excess: Callable[[Cluster, List[int]], int], at_most: int) -> Units:
    """Units are partitions; a partition's quantity may be at most so much."""

    def units(cluster: Cluster, lists: Lists) -> List[Unit]:
        pairs = zip(cluster.partitions, lists)
        return [Unit(partition.name, excess(cluster, members), 1, 0, at_most) for partition, members in pairs]

    return units


def per_broker(lead: OfPartition, follow: OfPartition, bounds: Bounds) -> Units:
    """Units are the brokers that aren't lost; bounds gives the scale, and the lower and the upper bound, of a broker."""

    def units(cluster: Cluster, lists: Lists) -> List[Unit]:
        carried, whole = quantities(cluster, lists, lead, follow)
        bound = bounds(cluster, whole)
        return [unit_of(f"broker {it.id}", it, carried[it.id], bound(it)) for it in cluster.live]

    return units


def at_most_replicas(cluster: Cluster, whole: int) -> BoundOf:
    return lambda broker: (1, 0, cluster.settings.max_replicas)


def within_capacity(resource: int) -> Bounds:
    def bounds(cluster: Cluster, whole: int) -> BoundOf:
        limit = cluster.settings.limits[resource]
        return lambda broker: (limit.scale, 0, limit.number * broker.capacity[resource])

    return bounds


def even(ratio: Ratio, count: int, whole: int) -> Bound:
    """The scale and the bounds of a count near the count-th part of all."""
    parts = ratio.scale * count
    return 1, whole * ratio.below_one() // parts, -(-whole * ratio.number // parts)


def evenly(ratio_of: Callable[[Settings], Ratio]) -> Bounds:
    return lambda cluster, whole: lambda broker: even(ratio_of(cluster.settings), len(cluster.live), whole)


def near_use(resource: int, has_lower: bool) -> Bounds:
    """A share of the broker's capacity near that of all brokers that aren't lost."""

    def bounds(cluster: Cluster, whole: int) -> BoundOf:
        ratio = cluster.settings.balances[resource]
        scale = sum(broker.capacity[resource] for broker in cluster.live) * ratio.scale
        low = ratio.below_one() if has_lower else 0
        return lambda broker: (scale, low * whole * broker.capacity[resource], ratio.number * whole * broker.capacity[resource])

    return bounds


def lost_members(cluster: Cluster, members: List[int]) -> int:
    return sum(cluster.broker(id).is_lost for id in members)


def shared_racks(cluster: Cluster, members: List[int]) -> int:
    """Members minus distinct racks; a broker without a rack is a rack of its own."""
    racks = {(True, broker.rack) if broker.rack is not None else (False, broker.id) for broker in map(cluster.broker, members)}
    return len(members) - len(racks)


def demoted_leader(cluster: Cluster, members: List[int]) -> int:
    return int(cluster.broker(members[0]).is_demoted)


def by_topic(cluster: Cluster, lists: Lists, follow: int) -> Dict[str, CounterOf[int]]:
    """What each broker carries of each topic, where a first place counts 1 and any other place so much."""
    carried: Dict[str, CounterOf[int]] = {topic: Counter() for topic in cluster.topics}
    for partition, members in zip(cluster.partitions, lists):
        for at, id in enumerate(members):
            carried[partition.topic][id] += follow if at else 1
    return carried


def topic_unit(topic: str, broker: Broker, count: int, bound: Bound) -> Unit:
    return unit_of(f"topic {topic} on broker {broker.id}", broker, count, bound)


def topic_replicas(cluster: Cluster, lists: Lists) -> List[Unit]:
    units = []
    for topic, carried in by_topic(cluster, lists, 1).items():
        whole = sum(carried.values())
        for broker in cluster.live:
            bound = even(cluster.settings.topics, len(cluster.live), whole)
            units.append(topic_unit(topic, broker, carried[broker.id], bound))
    return units


def least_leaders(cluster: Cluster, lists: Lists) -> List[Unit]:
    units = []
    for topic, carried in by_topic(cluster, lists, 0).items():
        least = cluster.least_leaders.get(topic)
        if least is None:
            continue
        for broker in cluster.live:
            if not broker.is_demoted:
                bound = 1, least, max(least, sum(carried.values()))
                units.append(topic_unit(topic, broker, carried[broker.id], bound))
    return units


def capacity_goal(resource: int) -> Units:
    return per_broker(leader_of(resource), follower_of(resource), within_capacity(resource))


def usage_goal(resource: int) -> Units:
    return per_broker(leader_of(resource), follower_of(resource), near_use(resource, True))


CPU, NW_IN, NW_OUT, DISK = range(4)

# In order of priority.
GOALS = (
    Goal("EvacuationGoal", True, per_partition(lost_members, 0)),
    Goal("RackAwareGoal", True, per_partition(shared_racks, 0)),
    Goal("MinTopicLeadersPerBrokerGoal", True, least_leaders),
    Goal("ReplicaCapacityGoal", True, per_broker(one, one, at_most_replicas)),
    Goal("DiskCapacityGoal", True, capacity_goal(DISK)),
    Goal("NetworkInboundCapacityGoal", True, capacity_goal(NW_IN)),
    Goal("NetworkOutboundCapacityGoal", True, capacity_goal(NW_OUT)),
    Goal("CpuCapacityGoal", True, capacity_goal(CPU)),
    Goal("DemotionGoal", False, per_partition(demoted_leader, 0)),
    Goal("ReplicaDistributionGoal", False, per_broker(one, one, evenly(lambda settings: settings.replicas))),
    Goal("PotentialNwOutGoal", False, per_broker(leader_of(NW_OUT), leader_of(NW_OUT), within_capacity(NW_OUT))),
    Goal("DiskUsageDistributionGoal", False, usage_goal(DISK)),
    Goal("NetworkInboundUsageDistributionGoal", False, usage_goal(NW_IN)),
    Goal("NetworkOutboundUsageDistributionGoal", False, usage_goal(NW_OUT)),
    Goal("CpuUsageDistributionGoal", False, usage_goal(CPU)),
    Goal("TopicReplicaDistributionGoal", False, topic_replicas),
    Goal("LeaderReplicaDistributionGoal", False, per_broker(one, nothing, evenly(lambda settings: settings.leaders))),
    Goal("LeaderBytesInDistributionGoal", False, per_broker(leader_of(NW_IN), nothing, near_use(NW_IN, False))),
)
