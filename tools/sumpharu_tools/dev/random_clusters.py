"""Writes the small random clusters whose plans the tests check, as a Rattle file.

It is for crates/plan_tests/src/clusters.rt alone, whose tests compare plans of each of them with all that could have been done: so they are small, and
drawn apart from those of 'gen-cluster', which are large, regular and for measurements. The list is the same every time: the generator is Python's,
seeded with the cluster's number. Each cluster has 3 to 5 brokers on up to 3 racks, some of them lost, demoted or new, and 3 to 6 partitions of 2
topics with loads of every resource.
"""
from __future__ import annotations

import argparse
import json
import random
from typing import Any, Dict

COUNT = 12


def loads(rng: random.Random) -> Dict[str, Any]:
    leader = {"CPU": rng.randrange(1, 20), "NW_IN": rng.randrange(1, 60), "NW_OUT": rng.randrange(1, 80), "DISK": rng.randrange(1, 60)}
    follower = {"CPU": leader["CPU"] // 2, "NW_IN": leader["NW_IN"], "DISK": leader["DISK"]}
    return {"leader": leader, "follower": follower}


def cluster(number: int) -> Dict[str, Any]:
    rng = random.Random(number)
    brokers = rng.randrange(3, 6)
    states = ["ALIVE", "ALIVE", "DEAD", "DEMOTED", "NEW"]
    partitions = rng.randrange(3, 7)
    return {
        "version": 1,
        "brokers": [
            {"id": i, "rack": "r%d" % rng.randrange(3), "state": "ALIVE" if i < 2 else rng.choice(states)}
            for i in range(brokers)
        ],
        "brokerCapacities": [
            {"brokerId": "-1", "capacity": {"DISK": "200", "CPU": "100", "NW_IN": "300", "NW_OUT": "400"}}
        ],
        "partitions": [
            {
                "topic": "t%d" % (i % 2),
                "partition": i // 2,
                "replicas": rng.sample(range(brokers), rng.randrange(1, 3)),
                "load": loads(rng),
            }
            for i in range(partitions)
        ],
        "config": {"max.replicas.per.broker": str(rng.randrange(2, 6))},
    }


def add_arguments(parser: argparse.ArgumentParser) -> None:
    """It takes none: there is one list."""


def run(arguments: argparse.Namespace) -> int:
    # the line that the file of the crate begins with
    print("// Small clusters, written by ./sumpharu-tools random-clusters.")
    print()
    print("pub const CLUSTERS: [&str; %d] = [" % COUNT)
    for number in range(COUNT):
        text = json.dumps(cluster(number), separators=(",", ":"))
        print('    "%s",' % text.replace('"', '\\"'))
    print("];")
    return 0
