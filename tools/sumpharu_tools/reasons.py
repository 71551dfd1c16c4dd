"""Why a unit breaks its goal, in words, and where the numbers alone show that no plan can meet a goal."""
from __future__ import annotations

from collections import Counter
from fractions import Fraction
from typing import Callable, Dict, Iterable, Iterator, List, Optional, Union

from . import goals
from .clusters import Cluster, Lists
from .goals import Goal, Unit

Why = Callable[[Unit, Cluster, Lists], str]
Impossible = Callable[[Cluster, Lists], Iterator[str]]

RESOURCE_OF = {
    "DiskCapacityGoal": ("DISK", goals.DISK, "disk.capacity.threshold"),
    "NetworkInboundCapacityGoal": ("NW_IN", goals.NW_IN, "network.inbound.capacity.threshold"),
    "NetworkOutboundCapacityGoal": ("NW_OUT", goals.NW_OUT, "network.outbound.capacity.threshold"),
    "CpuCapacityGoal": ("CPU", goals.CPU, "cpu.capacity.threshold"),
    "PotentialNwOutGoal": ("potential NW_OUT", goals.NW_OUT, "network.outbound.capacity.threshold"),
}


def number(value: Union[int, Fraction]) -> str:
    """A fraction in decimals, of which at most three are shown."""
    value = Fraction(value)
    return f"{value.numerator:,}" if value.denominator == 1 else f"{float(value):,.3f}".rstrip("0")


def plural(count: int, word: str) -> str:
    return f"{count:,} {word}" + ("" if count == 1 else "s")


def members_of(cluster: Cluster, lists: Lists, name: str) -> List[int]:
    return next(members for partition, members in zip(cluster.partitions, lists) if partition.name == name)


def why_lost(unit: Unit, cluster: Cluster, lists: Lists) -> str:
    lost = [id for id in members_of(cluster, lists, unit.name) if cluster.broker(id).is_lost]
    return f"{unit.name}: {plural(len(lost), 'replica')} on lost brokers: {', '.join(map(str, lost))}"


def why_shared(unit: Unit, cluster: Cluster, lists: Lists) -> str:
    members = members_of(cluster, lists, unit.name)
    racks: Dict[Optional[str], List[int]] = {}
    for id in members:
        racks.setdefault(cluster.broker(id).rack, []).append(id)
    shared = [f"{rack} has brokers {', '.join(map(str, ids))}" for rack, ids in racks.items() if rack is not None and len(ids) > 1]
    return f"{unit.name}: {plural(len(members), 'replica')} on {plural(len(members) - unit.excess, 'rack')}: {'; '.join(shared)}"


def why_demoted(unit: Unit, cluster: Cluster, lists: Lists) -> str:
    return f"{unit.name}: its leader is broker {members_of(cluster, lists, unit.name)[0]}, which is DEMOTED"


def why_replicas(unit: Unit, cluster: Cluster, lists: Lists) -> str:
    return f"{unit.name}: {plural(unit.quantity, 'replica')}, {unit.excess:,} above max.replicas.per.broker = {unit.upper:,}"


def why_led(unit: Unit, cluster: Cluster, lists: Lists) -> str:
    return f"{unit.name}: leads {plural(unit.quantity, 'partition')}, {unit.excess:,} below the {unit.lower:,} of minTopicLeaders"


def why_capacity(resource: str, at: int, setting: str) -> Why:
    def why(unit: Unit, cluster: Cluster, lists: Lists) -> str:
        assert unit.broker is not None, "units of capacity goals are brokers"
        capacity = cluster.broker(unit.broker).capacity[at]
        limit, above = Fraction(unit.upper, unit.scale), Fraction(unit.excess, unit.scale)
        share = cluster.settings.limits[at]
        bound = f"{number(limit)} ({setting} {number(Fraction(share.number, share.scale))} of its capacity {capacity:,})"
        return f"{unit.name}: {resource} {unit.quantity:,}, {number(above)} above {bound}"

    return why


def why_unbalanced(unit: Unit, cluster: Cluster, lists: Lists) -> str:
    if not unit.scale:
        return f"{unit.name}: {unit.quantity:,}"
    low, high = Fraction(unit.lower, unit.scale), Fraction(unit.upper, unit.scale)
    side, bound = ("above", high) if unit.quantity > high else ("below", low)
    return f"{unit.name}: {unit.quantity:,}, {number(Fraction(unit.excess, unit.scale))} {side} its bound {number(bound)}"


WHY: Dict[str, Why] = {
    "EvacuationGoal": why_lost,
    "RackAwareGoal": why_shared,
    "DemotionGoal": why_demoted,
    "ReplicaCapacityGoal": why_replicas,
    "MinTopicLeadersPerBrokerGoal": why_led,
    **{name: why_capacity(*row) for name, row in RESOURCE_OF.items()},
}


def why(goal: Goal, unit: Unit, cluster: Cluster, lists: Lists) -> str:
    return WHY.get(goal.name, why_unbalanced)(unit, cluster, lists)


def live_racks(cluster: Cluster) -> int:
    named = {broker.rack for broker in cluster.live if broker.rack is not None}
    return len(named) + sum(broker.rack is None for broker in cluster.live)


def longest(lists: Lists) -> int:
    return max(map(len, lists), default=0)


def too_few_racks(cluster: Cluster, lists: Lists) -> Iterator[str]:
    racks, most = live_racks(cluster), longest(lists)
    if most > racks:
        yield f"a partition has {plural(most, 'replica')}, and the brokers that aren't lost stand on {plural(racks, 'rack')}"


def too_few_brokers(cluster: Cluster, lists: Lists) -> Iterator[str]:
    most = longest(lists)
    if most > len(cluster.live):
        yield f"a partition has {plural(most, 'replica')}, and {plural(len(cluster.live), 'broker')} aren't lost"


def too_many_replicas(cluster: Cluster, lists: Lists) -> Iterator[str]:
    whole, room = sum(map(len, lists)), cluster.settings.max_replicas * len(cluster.live)
    if whole > room:
        yield f"all brokers that aren't lost may hold {plural(room, 'replica')} together, and there are {whole:,}"


def too_few_leaders(cluster: Cluster, lists: Lists) -> Iterator[str]:
    able = sum(not broker.is_demoted for broker in cluster.live)
    sizes = Counter(partition.topic for partition in cluster.partitions)
    for topic, least in cluster.least_leaders.items():
        if 0 < sizes[topic] < least * able:
            owed = f"the brokers that may lead, {able} in all, owe {plural(least * able, 'leader')} of topic {topic}"
            yield f"{owed}, which has {plural(sizes[topic], 'partition')}"


def too_much_load(resource: str, at: int, setting: str) -> Impossible:
    def too_much(cluster: Cluster, lists: Lists) -> Iterator[str]:
        share = cluster.settings.limits[at]
        room = Fraction(share.number, share.scale) * sum(broker.capacity[at] for broker in cluster.live)
        whole = goals.quantities(cluster, lists, goals.leader_of(at), goals.follower_of(at))[1]
        if whole > room:
            yield f"all brokers that aren't lost may carry {number(room)} of {resource} together, and the load is {whole:,}"

    return too_much


IMPOSSIBLE: Dict[str, Impossible] = {
    "EvacuationGoal": too_few_brokers,
    "RackAwareGoal": too_few_racks,
    "ReplicaCapacityGoal": too_many_replicas,
    "MinTopicLeadersPerBrokerGoal": too_few_leaders,
    **{name: too_much_load(*row) for name, row in RESOURCE_OF.items() if name != "PotentialNwOutGoal"},
}


def impossible(goal: Goal, cluster: Cluster, lists: Lists) -> Iterable[str]:
    """Reasons for which no lists of the same lengths meet the goal once nothing stands on lost brokers."""
    return IMPOSSIBLE[goal.name](cluster, lists) if goal.name in IMPOSSIBLE else ()
