"""Makes a cluster file for sumpharu of what Kafka, or Cruise Control, says of a cluster.

The cluster comes from one of --bootstrap, --describe and --cluster-state, and the file goes to the output. One of the files that are read may be -,
the standard input. A broker that is named beside the partitions and has no replica yet is taken in. What is worth knowing of the result, and which
partitions, brokers or columns are missing, is told on the error stream. A load that isn't known is left out, and goals over it are met by the file
until you add it, as 'load' or 'samples' (docs/FORMATS.md). It ends with status 0, or 2 where it makes no file.
"""
from __future__ import annotations

import argparse
import sys

from . import kafka_sign_in, kafka_source, kafka_wire, sources
from .clusters import Fault, read_json
from .kafka_admin import Admin


def read_text(name: str) -> str:
    try:
        if name == "-":
            return sys.stdin.read()
        with open(name, encoding="utf-8") as file:
            return file.read()
    except (OSError, UnicodeDecodeError) as fault:
        raise Fault(f"{name}: {getattr(fault, 'strerror', None) or fault}") from fault


def ask_brokers(found: sources.Found, words: argparse.Namespace) -> None:
    needed = (kafka_wire.LIST_REASSIGNMENTS, *kafka_wire.TO_MEASURE)
    admin = Admin(words.bootstrap, kafka_sign_in.security_of(words), words.timeout, dict(words.map), needed)
    try:
        kafka_source.take_cluster(found, admin)
    finally:
        admin.close()


def take_lists(found: sources.Found, words: argparse.Namespace) -> None:
    if words.bootstrap:
        ask_brokers(found, words)
    elif words.describe:
        found.take_described(read_text(words.describe))
    else:
        found.take_state(read_json(words.cluster_state))


def check(words: argparse.Namespace) -> None:
    """Whether these options go together."""
    if sum(it is not None for it in (words.describe, words.cluster_state, words.bootstrap)) != 1:
        raise Fault("one of --bootstrap, --describe and --cluster-state is wanted; --help says more")
    if words.load and not words.cluster_state:
        raise Fault("--load goes with --cluster-state")
    if words.log_dirs and words.bootstrap:
        raise Fault("--log-dirs doesn't go with --bootstrap, which asks for the sizes itself")


def add_arguments(parser: argparse.ArgumentParser) -> None:
    places = parser.add_argument_group("where the cluster comes from, one of these")
    kafka_sign_in.add_bootstrap(places, "asks the brokers themselves: for brokers with their racks, lists, and the size of each replica")
    places.add_argument("--describe", metavar="TEXT", help="what 'kafka-topics.sh --describe' prints")
    places.add_argument("--cluster-state", metavar="JSON", help="Cruise Control's answer to /kafka_cluster_state?json=true&verbose=true")
    more = parser.add_argument_group("what else is known of it")
    more.add_argument("--load", metavar="JSON", help="Cruise Control's answer to /load?json=true: racks, states, and capacities where it has them")
    more.add_argument(
        "--capacity",
        metavar="FILE",
        help="capacities in the form of Cruise Control's capacity.json or capacityJBOD.json; the disks of a broker are added up. An entry may also have "
        '"rack", a text. Without it nothing is known of racks but what --load and --bootstrap say',
    )
    more.add_argument(
        "--state",
        metavar="ID=STATE",
        action="append",
        default=[],
        help="a broker's state: DEAD to have it drained, NEW, DEMOTED to have it lead nothing, or ALIVE; once for each broker",
    )
    loads = parser.add_argument_group("loads")
    loads.add_argument(
        "--log-dirs",
        metavar="TEXT",
        help="what 'kafka-log-dirs.sh --describe' prints: the DISK of leaders and followers, in MB, rounded up. --bootstrap has it already",
    )
    loads.add_argument(
        "--loads",
        metavar="CSV",
        help="a table that a metrics system exports, with a line of names: topic, partition and some of bytes_in and bytes_out (what the leader takes in and "
        "sends out, in bytes a second: NW_IN and NW_OUT in KB/s; followers take in the same), cpu and follower_cpu (percent of a broker; written in "
        "hundredths of a percent, capacities too). An empty cell or NaN is no number",
    )
    kafka_sign_in.add_options(parser)


def run(arguments: argparse.Namespace) -> int:
    check(arguments)
    found = sources.Found()
    take_lists(found, arguments)
    if arguments.load:
        found.take_load(read_json(arguments.load))
    if arguments.log_dirs:
        found.take_log_dirs(read_text(arguments.log_dirs))
    if arguments.loads:
        found.take_loads(read_text(arguments.loads))
    if arguments.capacity:
        found.take_capacities(read_json(arguments.capacity))
    for word in arguments.state:
        found.take_word_of_state(word)
    cluster = found.cluster()
    print(sources.text_of(cluster), flush=True)
    for line in found.notes:
        print(f"from-kafka: {line}", file=sys.stderr)
    return 0
