"""Replication throttles of a run: set before its first ask, and removed after it, or by a run for that alone where one was killed.

A broker's rate holds for the replicas that a topic's config names: as leaders those that were there before, as followers those that are added. Of a
topic's list only what a run put there is taken away; a rate is replaced, and removed whole.
"""
from __future__ import annotations

import contextlib
from dataclasses import dataclass
from typing import Callable, Dict, Iterable, List, Mapping, Optional, Set, Tuple, TypeVar

from .carrying import Task
from .kafka_admin import Admin, NotHere
from .kafka_link import Lost
from .kafka_sign_in import Denied
from .kafka_wire import APPEND, BROKER, DELETE, SET, SUBTRACT, TOPIC, Change, Resource

# The values of a resource's configs by name; these, and what was changed of them.
Configs = Dict[str, str]
Did = Tuple[Configs, List[Change]]
Given = TypeVar("Given")

RATES = ("leader.replication.throttled.rate", "follower.replication.throttled.rate")
LEADERS, FOLLOWERS = "leader.replication.throttled.replicas", "follower.replication.throttled.replicas"
ALL_REPLICAS = "*"
TRIES = 3


@dataclass(frozen=True)
class Throttles:
    """What the tasks of a plan have throttled: the replicas of each topic by config, and the brokers that take part."""

    topics: Dict[str, Dict[str, List[str]]]
    brokers: List[int]

    @staticmethod
    def of(tasks: Iterable[Task]) -> Throttles:
        topics: Dict[str, Dict[str, List[str]]] = {}
        brokers: Set[int] = set()
        for task in tasks:
            if not task.moves_replicas:
                continue
            topic, number = task.key
            named = topics.setdefault(topic, {LEADERS: [], FOLLOWERS: []})
            for name, ids in ((LEADERS, task.before), (FOLLOWERS, task.adds)):
                named[name] += [it for it in (f"{number}:{id}" for id in ids) if it not in named[name]]
            brokers.update(task.before, task.after)
        return Throttles(topics, sorted(brokers))

    def resources(self) -> List[Tuple[Resource, Tuple[str, ...]]]:
        """Each resource, with the names of the configs that a throttle sets on it."""
        topics = [Resource(TOPIC, topic) for topic in self.topics]
        return [*((it, (LEADERS, FOLLOWERS)) for it in topics), *((Resource(BROKER, str(id)), RATES) for id in self.brokers)]

    def changes_to_set(self, resource: Resource, held: Mapping[str, str], rate: int) -> List[Change]:
        """The changes that throttle a resource which has these configs now."""
        if resource.kind == BROKER:
            return [Change(name, SET, str(rate)) for name in RATES]
        found = []
        for name in (LEADERS, FOLLOWERS):
            members = held.get(name, "").split(",")
            lacking = [it for it in self.topics[resource.name][name] if it not in members]
            if lacking and ALL_REPLICAS not in members:
                found.append(Change(name, APPEND, ",".join(lacking)))
        return found

    def changes_to_remove(self, resource: Resource, held: Mapping[str, str]) -> List[Change]:
        """The changes that leave nothing of a throttle."""
        if resource.kind == BROKER:
            return [Change(name, DELETE) for name in RATES if name in held]
        found = []
        for name in (LEADERS, FOLLOWERS):
            members, ours = held.get(name, "").split(","), self.topics[resource.name][name]
            if set(members) <= set(ours) and name in held:
                found.append(Change(name, DELETE))
            elif set(members) & set(ours):
                found.append(Change(name, SUBTRACT, ",".join(ours)))
        return found


def is_there(admin: Admin, resource: Resource) -> bool:
    return resource.kind == TOPIC or int(resource.name) in admin.nodes


def tried(call: Callable[[], Given], tries: int) -> Given:
    """What a call gives, after as many tries as it takes, up to some; else the fault is raised."""
    for _ in range(tries - 1):
        with contextlib.suppress(Lost, NotHere, Denied):
            return call()
    return call()


def each(
    admin: Admin,
    throttles: Throttles,
    act: Callable[[Resource, Configs], List[Change]],
    tries: int = TRIES,
    patience: Optional[int] = None,
) -> Tuple[Dict[Resource, Did], Dict[Resource, str]]:
    """Does something with each resource and what it has now. Gives what was done, and why it wasn't, by resource.

    After so many faults as 'patience' says it ends, for one that doesn't answer costs time. Brokers that aren't there cost none.
    """

    def once(resource: Resource, names: Iterable[str]) -> Did:
        held = admin.configs(resource, names)
        changes = act(resource, held)
        if changes:
            admin.alter_configs(resource, changes)
        return held, changes

    done: Dict[Resource, Did] = {}
    faults: Dict[Resource, str] = {}
    for resource, names in throttles.resources():
        try:
            done[resource] = tried(lambda: once(resource, names), tries)
        except (Lost, NotHere, Denied) as fault:
            faults[resource] = str(fault)
        if sum(is_there(admin, it) for it in faults) == patience:
            break
    return done, faults


def found(admin: Admin, throttles: Throttles) -> Tuple[Dict[Resource, Configs], Dict[Resource, str]]:
    """The throttles that are set now, by resource, and what couldn't be asked. A look at them is worth little time."""
    done, faults = each(admin, throttles, lambda resource, held: [], tries=1, patience=2)
    return {resource: held for resource, (held, _) in done.items() if held}, faults


def set_all(admin: Admin, throttles: Throttles, rate: int) -> Tuple[Dict[Resource, List[Change]], Dict[Resource, str]]:
    """Throttles all that takes part; gives the resources with their changes, and what couldn't be. One that is there and can't be ends it."""
    done, faults = each(admin, throttles, lambda resource, held: throttles.changes_to_set(resource, held, rate), patience=1)
    return {resource: changes for resource, (_, changes) in done.items() if changes}, faults


def remove_all(admin: Admin, throttles: Throttles) -> Tuple[Dict[Resource, List[Change]], Dict[Resource, str]]:
    """Takes the throttles away; gives the resources that had some with their changes, and what couldn't be."""
    done, faults = each(admin, throttles, throttles.changes_to_remove)
    return {resource: changes for resource, (_, changes) in done.items() if changes}, faults
