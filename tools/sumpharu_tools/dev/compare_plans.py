"""Compares the program's plans with those of a literal planner, which lists every action and adds everything up.

For each of some seeds it draws a small cluster with brokers of all states, racks and loads, plans it for the rack goals by both, and stops with
status 1 at the first that differ.
"""
from __future__ import annotations

import argparse
import json
import os
import random
import subprocess
import tempfile
from typing import Collection, Dict, Iterator, List, Optional, Sequence, Union

from .. import goals
from ..clusters import Broker, Cluster, Fault, Lists, Value, cluster_of
from ..goals import Goal
from ..words import counted
from . import PROGRAM

PLAN = [str(PROGRAM), "plan", "{}", "--goals", "RackAwareGoal", "--skip-hard-goal-check"]
# The lists that an action gives some partitions, by their places; the lists after a plan, or its failure.
Change = Dict[int, List[int]]
Plan = Union[Lists, Dict[str, str]]
RACK = ("EvacuationGoal", "RackAwareGoal", "DemotionGoal")


def random_load(draw: random.Random) -> Value:
    leader = {"CPU": draw.randrange(20), "NW_IN": draw.randrange(60), "NW_OUT": draw.randrange(80), "DISK": draw.randrange(60)}
    return {"leader": leader, "follower": {"CPU": leader["CPU"] // 2, "NW_IN": leader["NW_IN"], "DISK": leader["DISK"]}}


def random_cluster(seed: int) -> Value:
    draw = random.Random(seed)
    brokers = draw.randrange(3, 7)
    states = draw.choice([["ALIVE"], ["ALIVE", "DEAD"], ["ALIVE", "DEMOTED"], ["ALIVE", "NEW"], ["ALIVE", "DEAD", "DEMOTED", "NEW"]])
    capacity = {"DISK": str(draw.choice([300, 5000])), "CPU": "100", "NW_IN": str(draw.choice([200, 5000])), "NW_OUT": "500"}
    ids = draw.sample(range(20), brokers)
    return {
        "version": 1,
        "config": {"topic.replica.count.balance.threshold": draw.choice(["1.00", "3.00"]), "max.replicas.per.broker": draw.choice(["6", "10000"])},
        "brokers": [{"id": id, "rack": f"r{draw.randrange(3)}", "state": "ALIVE" if k == 0 else draw.choice(states)} for k, id in enumerate(ids)],
        "brokerCapacities": [{"brokerId": "-1", "capacity": capacity}],
        "partitions": [
            {"topic": f"t{k % 3}", "partition": k // 3, "replicas": draw.sample(ids, draw.randrange(1, min(4, brokers))), "load": random_load(draw)}
            for k in range(draw.randrange(2, 8))
        ],
    }


class Planner:
    """The definition, word for word: the first legal action that the goals before accept and that lessens the goal."""

    def __init__(self, cluster: Cluster, names: Collection[str]) -> None:
        self.cluster = cluster
        self.goals = [goal for goal in goals.GOALS if goal.name in names]
        self.any_new = any(broker.state == "NEW" for broker in cluster.brokers)

    def replicas(self, lists: Lists, id: int) -> List[int]:
        def disk(place: int) -> int:
            partition = self.cluster.partitions[place]
            return (partition.leader if lists[place][0] == id else partition.follower)[goals.DISK]

        return sorted((place for place, members in enumerate(lists) if id in members), key=lambda place: (-disk(place), place))

    def moves(self, lists: Lists) -> Iterator[Change]:
        for source in self.cluster.brokers:
            for place in self.replicas(lists, source.id):
                for target in self.cluster.brokers:
                    may_gain = source.is_lost or target.state == "NEW" or not self.any_new
                    if not target.is_lost and target.id not in lists[place] and may_gain:
                        yield {place: [target.id if id == source.id else id for id in lists[place]]}

    def leads(self, lists: Lists) -> Iterator[Change]:
        for source in self.cluster.brokers:
            for place in self.replicas(lists, source.id):
                for target in self.cluster.brokers if lists[place][0] == source.id else ():
                    if target.id in lists[place][1:] and not target.is_lost:
                        exchanged = {source.id: target.id, target.id: source.id}
                        yield {place: [exchanged.get(id, id) for id in lists[place]]}

    def swaps(self, lists: Lists) -> Iterator[Change]:
        for source in self.cluster.brokers:
            for place in self.replicas(lists, source.id):
                for target in self.cluster.brokers:
                    for other in self.replicas(lists, target.id):
                        if place < other and self.may_swap(lists, place, source, other, target):
                            yield {
                                place: [target.id if id == source.id else id for id in lists[place]],
                                other: [source.id if id == target.id else id for id in lists[other]],
                            }

    def may_swap(self, lists: Lists, place: int, source: Broker, other: int, target: Broker) -> bool:
        apart = source.id not in lists[other] and target.id not in lists[place]
        return apart and not source.is_lost and not target.is_lost and not self.any_new

    def excesses(self, goal: Goal, lists: Lists) -> List[int]:
        return [unit.excess for unit in goal.units(self.cluster, lists)]

    def helps(self, lists: Lists, after: Lists, earlier: Sequence[Goal], goal: Goal) -> bool:
        if sum(self.excesses(goal, after)) >= sum(self.excesses(goal, lists)):
            return False
        return all(new <= old for it in earlier for new, old in zip(self.excesses(it, after), self.excesses(it, lists)))

    def next_lists(self, lists: Lists, earlier: Sequence[Goal], goal: Goal) -> Optional[Lists]:
        for kind in (self.moves, self.leads, self.swaps):
            for change in kind(lists):
                after = [change.get(place, members) for place, members in enumerate(lists)]
                if self.helps(lists, after, earlier, goal):
                    return after
        return None

    def plan(self) -> Plan:
        lists = [list(members) for members in self.cluster.lists]
        for at, goal in enumerate(self.goals):
            while (after := self.next_lists(lists, self.goals[:at], goal)) is not None:
                lists = after
            left = sum(self.excesses(goal, lists))
            if goal.is_hard and left > 0:
                return {"failed": goal.name, "measure": str(left)}
        return lists


def programs_plan(command: Sequence[str], path: str, cluster: Cluster) -> Plan:
    try:
        output = subprocess.run([path if word == "{}" else word for word in command], stdout=subprocess.PIPE, stderr=subprocess.DEVNULL).stdout
        answer = json.loads(output)
    except OSError as fault:
        raise Fault(f"{command[0]}: {fault.strerror}") from fault
    except ValueError as fault:
        raise Fault(f"{command[0]} wrote no JSON: {fault}") from fault
    if "failed" in answer:
        return {name: str(value) for name, value in answer.items()}
    lists, place_of = [list(members) for members in cluster.lists], cluster.place_of()
    for entry in answer["partitions"]:
        lists[place_of[entry["topic"], entry["partition"]]] = entry["replicas"]
    return lists


def compare(seed: int, names: Collection[str], command: Sequence[str], path: str) -> Optional[str]:
    """What differs between both plans of a seed's cluster, or None. The cluster's file is written to the path."""
    value = random_cluster(seed)
    with open(path, "w", encoding="utf-8") as file:
        json.dump(value, file)
    cluster = cluster_of(value)
    wanted, found = Planner(cluster, names).plan(), programs_plan(command, path, cluster)
    if wanted == found:
        return None
    return f"seed {seed}: the literal planner says {json.dumps(wanted)}, the program {json.dumps(found)}"


def add_arguments(parser: argparse.ArgumentParser) -> None:
    parser.add_argument("--count", metavar="N", type=counted, default=100, help="how many seeds; by default 100")
    parser.add_argument("--from", metavar="SEED", type=counted, default=1, dest="first", help="the first of them; by default 1")
    parser.add_argument("--all", action="store_true", help="plans for all eighteen goals, with --program: the program itself plans for the rack goals")
    parser.add_argument("--program", metavar="WORD", nargs="+", default=PLAN, help="the words that plan, where {} stands for the cluster file")


def run(arguments: argparse.Namespace) -> int:
    names = [goal.name for goal in goals.GOALS] if arguments.all else RACK
    with tempfile.TemporaryDirectory() as folder:
        for seed in range(arguments.first, arguments.first + arguments.count):
            told = compare(seed, names, arguments.program, os.path.join(folder, "cluster.json"))
            if told:
                print(told)
                return 1
    print(f"{arguments.count} clusters planned alike")
    return 0
