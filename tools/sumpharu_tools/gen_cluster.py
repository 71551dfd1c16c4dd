"""Writes a cluster file for measurements: with lists and loads that a seed draws, or with even ones.

It is the tools' one generator of cluster files. The same words give the same file. With a SEED alone, or with --brokers and --partitions, it is the
cluster of 'sumpharu gen SEED --file', which needs the built program; this one can also lose a broker, add new ones, and have few brokers hold all.

With a SEED each draw is one step of a linear congruential generator that begins with it. Brokers have the racks r0 to r3 in turn, topics have 50
names, and each partition has up to 3 replicas on consecutive brokers from a drawn one on.

With --even nothing is drawn: 100 partitions a topic, each with the same load and with 3 replicas on consecutive brokers, the next partition one
broker further. With a multiple of 4 brokers the racks are distinct, so that a plan for them has nothing to change. The largest file that sumpharu
reads is '--even --brokers 200 --partitions 10000'.
"""
from __future__ import annotations

import argparse
import json
import sys
from typing import List

from .clusters import Fault, Value
from .words import counted


class Draws:
    """The draws of a seed."""

    def __init__(self, seed: int) -> None:
        self.state = seed

    def below(self, limit: int) -> int:
        self.state = (1103515245 * self.state + 12345) % 2147483648
        return self.state // 65536 % limit


def drawn_load(draws: Draws) -> Value:
    network_in = draws.below(100)
    network_out = draws.below(200)
    processor = draws.below(10)
    disk = draws.below(1000)
    return {
        "leader": {"NW_IN": network_in, "NW_OUT": network_out, "CPU": processor, "DISK": disk},
        "follower": {"NW_IN": network_in, "CPU": processor // 2, "DISK": disk},
    }


def drawn_partition(draws: Draws, number: int, brokers: int) -> Value:
    first = draws.below(brokers)
    return {
        "topic": f"t{number % 50}",
        "partition": number // 50,
        "replicas": [(first + k) % brokers for k in range(min(3, brokers))],
        "load": drawn_load(draws),
    }


def broker(number: int, state: str) -> Value:
    return {"id": number, "rack": f"r{number % 4}", "state": state}


def brokers_of(words: argparse.Namespace) -> List[Value]:
    old = [broker(k, "DEAD" if k == words.lost else "ALIVE") for k in range(words.brokers)]
    return old + [broker(words.brokers + k, "NEW") for k in range(words.new)]


def capacities(processor: int) -> List[Value]:
    return [{"brokerId": "-1", "capacity": {"DISK": "500000", "CPU": str(processor), "NW_IN": "50000", "NW_OUT": "50000"}}]


def drawn_cluster(words: argparse.Namespace) -> Value:
    draws, held = Draws(words.seed), words.within or words.brokers
    return {
        "version": 1,
        "brokers": brokers_of(words),
        "brokerCapacities": capacities(10000),
        "partitions": [drawn_partition(draws, k, held) for k in range(words.partitions)],
    }


def even_partition(number: int, brokers: int) -> Value:
    return {
        "topic": f"topic-{number // 100}",
        "partition": number % 100,
        "replicas": [(number + k) % brokers for k in range(3)],
        "load": {"leader": {"CPU": 1, "NW_IN": 200, "NW_OUT": 400, "DISK": 500}, "follower": {"CPU": 0, "NW_IN": 200, "DISK": 500}},
    }


def even_cluster(words: argparse.Namespace) -> Value:
    held = words.within or words.brokers
    return {
        "version": 1,
        "brokerCapacities": capacities(100),
        "brokers": brokers_of(words),
        "partitions": [even_partition(k, held) for k in range(words.partitions)],
    }


def check(words: argparse.Namespace) -> None:
    if (words.seed is None) != words.even:
        raise Fault("one of SEED and --even is wanted; --help says more")
    if words.within is not None and not 1 <= words.within <= words.brokers:
        raise Fault(f"--within is from 1 to the {words.brokers} brokers; --help says more")
    least, held = 3 if words.even else 1, words.within or words.brokers
    if words.partitions and held < least:
        raise Fault(f"replicas want {least} brokers or more; --help says more")


def add_arguments(parser: argparse.ArgumentParser) -> None:
    parser.add_argument("seed", metavar="SEED", type=counted, nargs="?", help="the number that the draws begin with")
    parser.add_argument("--even", action="store_true", help="draws nothing: lists and loads are even")
    parser.add_argument("--brokers", metavar="N", type=counted, default=40, help="how many brokers hold replicas; by default 40")
    parser.add_argument("--partitions", metavar="N", type=counted, default=2000, help="how many partitions there are; by default 2000")
    parser.add_argument("--lost", metavar="ID", type=counted, help="this broker is lost, and all its replicas have to move")
    parser.add_argument("--new", metavar="N", type=counted, default=0, help="so many more brokers, in state NEW and without replicas")
    parser.add_argument("--within", metavar="N", type=counted, help="all replicas are on so many of the first brokers, from 1 to all of them")


def run(arguments: argparse.Namespace) -> int:
    check(arguments)
    json.dump(even_cluster(arguments) if arguments.even else drawn_cluster(arguments), sys.stdout)
    print()
    return 0
