"""A cluster file (docs/FORMATS.md) as the tools see it: brokers, partitions with their loads, settings.

What the program refuses isn't found here in full: a file is taken where it has the values that a tool needs.
"""
from __future__ import annotations

import json
import re
import sys
from dataclasses import dataclass
from typing import Any, Dict, Iterable, List, Optional, Sequence, Tuple

# What a broker has or a replica carries of each resource; loads of a leader and of a follower; a list of replicas for each partition; JSON objects.
Amounts = Tuple[int, ...]
Load = Tuple[Amounts, Amounts]
Lists = List[List[int]]
Value = Dict[str, Any]

# The resources, in the order in which a load and a capacity have them.
RESOURCES = ("CPU", "NW_IN", "NW_OUT", "DISK")
NO_LIMIT = 2**40 - 1
STATES = ("ALIVE", "DEAD", "NEW", "DEMOTED")


class Fault(Exception):
    """What a tool says in one line before it ends with status 2."""


@dataclass(frozen=True)
class Ratio:
    """A threshold as it stands in its text: 0.80 is 80/100, and nothing is reduced."""

    number: int
    scale: int

    @staticmethod
    def read(text: object) -> Ratio:
        if not re.fullmatch(r"[0-9]+(\.[0-9]+)?", str(text)):
            raise ValueError(f"{text!r} is no ratio")
        whole, _, decimals = str(text).partition(".")
        return Ratio(int(whole + decimals), 10 ** len(decimals))

    def below_one(self) -> int:
        """As far below 1 as the ratio lies above it, times its scale, or 0."""
        return max(2 * self.scale - self.number, 0)


@dataclass(frozen=True)
class Broker:
    id: int
    rack: Optional[str]
    state: str
    capacity: Amounts

    @property
    def is_lost(self) -> bool:
        return self.state == "DEAD"

    @property
    def is_demoted(self) -> bool:
        return self.state == "DEMOTED"


@dataclass(frozen=True)
class Partition:
    topic: str
    number: int
    leader: Amounts
    follower: Amounts

    @property
    def name(self) -> str:
        return f"{self.topic}-{self.number}"


@dataclass
class Settings:
    """The settings that goals read, and the caps, with their defaults."""

    limits: List[Ratio]
    balances: List[Ratio]
    replicas: Ratio
    leaders: Ratio
    topics: Ratio
    max_replicas: int
    # How many tasks may be in flight that add or remove one broker, that move replicas, and that change leaders alone.
    broker_cap: int
    cluster_cap: int
    leader_cap: int


@dataclass
class Cluster:
    brokers: List[Broker]
    partitions: List[Partition]
    lists: Lists
    settings: Settings
    least_leaders: Dict[str, int]

    def broker(self, id: int) -> Broker:
        return self.by_id[id]

    def __post_init__(self) -> None:
        self.by_id = {broker.id: broker for broker in self.brokers}
        self.live = [broker for broker in self.brokers if not broker.is_lost]
        self.topics = list(dict.fromkeys(partition.topic for partition in self.partitions))

    def place_of(self) -> Dict[Tuple[str, int], int]:
        return {(partition.topic, partition.number): at for at, partition in enumerate(self.partitions)}


def read_json(name: str) -> Any:
    """The value of a JSON file; '-' is the standard input."""
    try:
        if name == "-":
            return json.load(sys.stdin)
        with open(name, encoding="utf-8") as file:
            return json.load(file)
    except OSError as fault:
        raise Fault(f"{name}: {fault.strerror}") from fault
    except ValueError as fault:
        raise Fault(f"{name} is no JSON: {fault}") from fault
    except RecursionError as fault:
        raise Fault(f"{name} is nested too deeply") from fault


def whole(value: object) -> int:
    """The value, where it is a whole number."""
    if type(value) is not int or value < 0:
        raise ValueError(f"{value!r} is no whole number")
    return value


def text(value: object) -> str:
    """The value, where it is a text."""
    if not isinstance(value, str):
        raise ValueError(f"{value!r} is no text")
    return value


def replicas_of(value: Iterable[object]) -> List[int]:
    """The value, where it is a list of ids of distinct brokers."""
    ids = [whole(id) for id in value]
    if not ids or len(set(ids)) < len(ids):
        raise ValueError(f"{value!r} is no list of replicas")
    return ids


def read_load(load: Value) -> Load:
    leader, follower = load.get("leader", {}), load.get("follower", {})

    def amounts(side: Value) -> List[int]:
        return [whole(side.get(it, 0)) for it in RESOURCES]

    return tuple(amounts(leader)), tuple(0 if it == "NW_OUT" else amount for it, amount in zip(RESOURCES, amounts(follower)))


def read_capacities(entries: Optional[List[Value]]) -> Dict[int, Amounts]:
    """The capacities by broker, with -1 for all others; without entries nothing is limited."""
    if entries is None:
        return {-1: (NO_LIMIT,) * 4}

    def amount(value: object) -> int:
        return whole(int(text(value).partition(".")[0]))

    return {int(entry["brokerId"]): tuple(amount(entry["capacity"][it]) for it in RESOURCES) for entry in entries}


def read_broker(value: Value, capacities: Dict[int, Amounts]) -> Broker:
    id, rack, state = whole(value["id"]), value.get("rack"), value.get("state", "ALIVE")
    if state not in STATES:
        raise ValueError(f"{state!r} is no state of a broker")
    return Broker(id, rack if rack is None else text(rack), state, capacities.get(id) or capacities[-1])


def read_settings(config: Value) -> Settings:
    def ratio(name: str, default: str) -> Ratio:
        return Ratio.read(config.get(name, default))

    def number(name: str, default: int) -> int:
        return whole(int(config.get(name, default)))

    words = ("cpu", "network.inbound", "network.outbound", "disk")
    return Settings(
        limits=[ratio(f"{word}.capacity.threshold", "0.80") for word in words],
        balances=[ratio(f"{word}.balance.threshold", "1.10") for word in words],
        replicas=ratio("replica.count.balance.threshold", "1.10"),
        leaders=ratio("leader.replica.count.balance.threshold", "1.10"),
        topics=ratio("topic.replica.count.balance.threshold", "3.00"),
        max_replicas=number("max.replicas.per.broker", 10000),
        broker_cap=number("num.concurrent.partition.movements.per.broker", 10),
        cluster_cap=number("max.num.cluster.movements", 1250),
        leader_cap=number("num.concurrent.leader.movements", 1000),
    )


def mean_of(loads: Sequence[Load]) -> Load:
    """The average of each of the eight numbers, rounded down."""
    leader, follower = (tuple(sum(column) // len(loads) for column in zip(*side)) for side in zip(*loads))
    return leader, follower


def accepted(samples: Iterable[Tuple[int, int, Load]], width: int, keep: int) -> Tuple[Dict[Tuple[int, int], List[Load]], Optional[int]]:
    """The samples by partition and window, without those that came too late or too many, and the newest window."""
    kept: Dict[Tuple[int, int], List[Load]] = {}
    newest: Optional[int] = None
    for place, time, load in samples:
        window = time // width
        here = kept.setdefault((place, window), [])
        if newest is not None and window + keep <= newest or len(here) >= 65536:
            continue
        here.append(load)
        newest = window if newest is None else max(newest, window)
    return kept, newest


def window_value(kept: Dict[Tuple[int, int], List[Load]], place: int, window: int, windows: range, least: int) -> Optional[Load]:
    """The average of a window's samples, where there is half of what is wanted; with both windows beside it, where these have it all; else None."""
    here = kept.get((place, window), [])
    if len(here) >= (least + 1) // 2:
        return mean_of(here)
    before, after = kept.get((place, window - 1), []), kept.get((place, window + 1), [])
    if window - 1 in windows and window + 1 in windows and len(before) >= least and len(after) >= least:
        return mean_of(before + here + after)
    return None


def loads_of_samples(samples: Iterable[Tuple[int, int, Load]], config: Value) -> Dict[int, Load]:
    """The load of each partition that has enough windows with a value, by its place."""

    def setting(name: str, default: int) -> int:
        return int(config.get(name, default))

    width, keep = setting("partition.metrics.window.ms", 300000), setting("num.partition.metrics.windows", 5)
    least, need = setting("min.samples.per.partition.metrics.window", 1), setting("min.valid.windows", 1)
    kept, newest = accepted(samples, width, keep)
    if newest is None:
        return {}
    windows, loads = range(max(newest + 1 - keep, 0), newest + 1), {}
    for place in {place for place, _ in kept}:
        found = (window_value(kept, place, window, windows, least) for window in windows)
        values = [value for value in found if value is not None]
        if len(values) >= need:
            loads[place] = mean_of(values)
    return loads


def cluster_of(value: Value) -> Cluster:
    capacities, config = read_capacities(value.get("brokerCapacities")), value.get("config", {})
    partitions, lists = [], []
    for entry in value["partitions"]:
        partitions.append(Partition(text(entry["topic"]), whole(entry["partition"]), *read_load(entry.get("load", {}))))
        lists.append(replicas_of(entry["replicas"]))
    place_of = {(partition.topic, partition.number): at for at, partition in enumerate(partitions)}
    samples = [(place_of[it["topic"], it["partition"]], whole(it["time"]), read_load(it["load"])) for it in value.get("samples", [])]
    for place, load in loads_of_samples(samples, config).items():
        partitions[place] = Partition(partitions[place].topic, partitions[place].number, *load)
    least = value.get("minTopicLeaders", []) if value["version"] == 2 else []
    return Cluster(
        brokers=[read_broker(it, capacities) for it in value["brokers"]],
        partitions=partitions,
        lists=lists,
        settings=read_settings(config),
        least_leaders={text(entry["topic"]): whole(entry["leaders"]) for entry in least},
    )


def read_cluster(name: str) -> Cluster:
    value = read_json(name)
    try:
        cluster = cluster_of(value)
        unknown = {id for members in cluster.lists for id in members} - set(cluster.by_id)
    except (KeyError, TypeError, ValueError, AttributeError, ArithmeticError) as fault:
        raise Fault(f"{name} is no cluster file: {type(fault).__name__} {fault}; sumpharu plan tells its first fault") from fault
    if unknown:
        raise Fault(f"{name} is no cluster file: no broker has the id {min(unknown)}; sumpharu plan tells its first fault")
    return cluster


def read_plan(name: str, cluster: Cluster) -> Lists:
    """The lists after a plan, that is after Kafka's reassignment JSON: partitions that it doesn't name keep theirs."""
    value, lists, place_of = read_json(name), list(cluster.lists), cluster.place_of()
    try:
        for entry in value["partitions"]:
            place, members = place_of[entry["topic"], entry["partition"]], replicas_of(entry["replicas"])
            if not set(members) <= set(cluster.by_id):
                raise ValueError(f"{members} are not all brokers of the cluster file")
            lists[place] = members
    except KeyError as fault:
        raise Fault(f"{name} is no plan for this cluster file: it has no {fault}") from fault
    except (TypeError, ValueError, AttributeError) as fault:
        raise Fault(f"{name} is no plan for this cluster file: {fault}") from fault
    return lists
