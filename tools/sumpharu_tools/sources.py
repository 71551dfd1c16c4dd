"""What Kafka's and Cruise Control's tools, brokers and an operator's metrics say of a cluster, and the cluster file that it makes."""
from __future__ import annotations

import csv
import json
import math
import re
from dataclasses import dataclass, field
from typing import Any, Collection, Dict, Iterable, List, Mapping, Optional, Tuple, Union

from .clusters import RESOURCES, STATES, Fault, Value, replicas_of, text

# A partition by topic and number; the partitions with their replicas and leaders; a broker's capacity by resource.
Key = Tuple[str, int]
Partitions = Dict[Key, Tuple[List[int], Optional[int]]]
Capacity = Dict[str, str]

LIMITS = (("brokers", 200), ("topics", 1000), ("partitions", 10000))
MEGABYTE, KILOBYTE = 1 << 20, 1 << 10
# The columns of a table of loads, beside topic and partition.
BYTES_IN, BYTES_OUT, CPU, FOLLOWER_CPU = "bytes_in", "bytes_out", "cpu", "follower_cpu"
COLUMNS = (BYTES_IN, BYTES_OUT, CPU, FOLLOWER_CPU)
# CPU is written in hundredths of a percent where a table has it: one partition seldom takes a whole one.
CPU_SCALE = 100
MOST_NAMED = 20
# The members of Cruise Control's /load that are capacities, by resource.
CAPACITIES = {"DISK": "DiskCapacityMB", "NW_IN": "NetworkInCapacity", "NW_OUT": "NetworkOutCapacity"}


def word_behind(line: str, name: str) -> Optional[str]:
    """The value behind a name on a line of kafka-topics.sh, or None."""
    found = re.search(rf"(?:^|[\t ]){name}:[\t ]*([^\t ]*)", line)
    return found[1] if found else None


def whole(value: Any, what: str) -> int:
    """A number or its text, rounded down."""
    try:
        return math.floor(float(value))
    except (TypeError, ValueError, OverflowError) as fault:
        raise Fault(f"{what} is no number: {value!r}") from fault


def disk_of(value: Any, what: str) -> int:
    """A capacity of one disk, or of several by their folders, added up."""
    return sum(whole(it, what) for it in value.values()) if isinstance(value, dict) else whole(value, what)


def cpu_of(value: Any, what: str) -> int:
    """Percent; Cruise Control counts a broker whose cores are given as 100 percent."""
    return 100 if isinstance(value, dict) else whole(value, what)


def capacity_of(values: Mapping[str, Any], what: str) -> Capacity:
    found = {name: values[name] for name in RESOURCES}
    read = {"DISK": disk_of, "CPU": cpu_of}
    return {name: str(read.get(name, whole)(value, f"{name} of {what}")) for name, value in found.items()}


def names_of(items: Iterable[Union[str, Key]]) -> str:
    """Names in one line, the first few of them where there are many."""
    names = [it if isinstance(it, str) else f"{it[0]}-{it[1]}" for it in items]
    rest = f" and {len(names) - MOST_NAMED} more" if len(names) > MOST_NAMED else ""
    return ", ".join(names[:MOST_NAMED]) + rest


def nearest(value: float) -> int:
    return math.floor(value + 0.5)


@dataclass
class Loads:
    """What is known of partitions' loads: bytes on disk by partition and broker, and the rows of a table by partition."""

    sizes: Dict[Key, Dict[int, int]] = field(default_factory=dict)
    rows: Dict[Key, Dict[str, float]] = field(default_factory=dict)
    columns: Tuple[str, ...] = ()
    has_sizes: bool = False

    def take_size(self, key: Key, broker: int, size: int) -> None:
        held = self.sizes.setdefault(key, {})
        held[broker] = held.get(broker, 0) + size

    def disk(self, key: Key, replicas: List[int]) -> Tuple[int, int]:
        """Megabytes of the leader and of a follower, rounded up; of what isn't known the other's."""
        known = self.sizes.get(key, {})
        others = [known[id] for id in replicas[1:] if id in known]
        leader = known.get(replicas[0], max(others, default=0))
        return -(-leader // MEGABYTE), -(-max(others, default=leader) // MEGABYTE)

    def of(self, key: Key, replicas: List[int]) -> Dict[str, Dict[str, int]]:
        """The partition's 'load', or nothing where nothing is known of it."""
        leader: Dict[str, int] = {}
        follower: Dict[str, int] = {}
        row = self.rows.get(key, {})
        if BYTES_IN in row:
            leader["NW_IN"] = follower["NW_IN"] = nearest(row[BYTES_IN] / KILOBYTE)
        if BYTES_OUT in row:
            leader["NW_OUT"] = nearest(row[BYTES_OUT] / KILOBYTE)
        for name, side in ((CPU, leader), (FOLLOWER_CPU, follower)):
            if name in row:
                side["CPU"] = nearest(row[name] * CPU_SCALE)
        if set(self.sizes.get(key, {})) & set(replicas):
            leader["DISK"], follower["DISK"] = self.disk(key, replicas)
        return {name: side for name, side in (("leader", leader), ("follower", follower)) if side}

    def notes(self, partitions: Partitions) -> List[str]:
        """What is missing, by name."""
        found = []

        def missing(known: Collection[Key]) -> List[Key]:
            return [key for key in sorted(partitions) if key not in known]

        if self.has_sizes:
            sized = {key for key, (replicas, _) in partitions.items() if set(self.sizes.get(key, {})) & set(replicas)}
            if missing(sized):
                found.append(f"partitions whose size isn't known, which have no DISK: {names_of(missing(sized))}")
        if not self.columns:
            return found
        if missing(self.rows):
            found.append(f"partitions that the table of loads doesn't name: {names_of(missing(self.rows))}")
        strangers = [key for key in sorted(self.rows) if key not in partitions]
        if strangers:
            found.append(f"partitions of the table of loads that the cluster hasn't got: {names_of(strangers)}")
        for name in COLUMNS:
            lacking = [key for key in sorted(self.rows) if key in partitions and name not in self.rows[key]]
            if name not in self.columns:
                found.append(f"the table of loads has no column {name}")
            elif lacking:
                found.append(f"partitions without a number for {name} in the table of loads: {names_of(lacking)}")
        if self.has_cpu:
            found.append("CPU is in hundredths of a percent, in loads and capacities")
        return found

    @property
    def has_cpu(self) -> bool:
        return CPU in self.columns or FOLLOWER_CPU in self.columns


def load_number(value: Optional[str], line: int, name: str) -> Optional[float]:
    """A number of a table, or None where the cell is empty or says that there is none."""
    if value is None or value.strip().lower() in ("", "nan"):
        return None
    try:
        number = float(value)
    except ValueError:
        number = -1.0
    if not 0 <= number < 2**42:
        raise Fault(f"line {line} of the table of loads: {name} is {value!r}, and a number that isn't negative is wanted")
    return number


class Found:
    """What was found so far: partitions with their replicas and loads, and brokers with rack, state and capacity."""

    def __init__(self) -> None:
        self.partitions: Partitions = {}
        self.brokers: Dict[int, Value] = {}
        self.capacities: Dict[int, Capacity] = {}
        self.notes: List[str] = []
        self.reassigned, self.loads = 0, Loads()

    def broker(self, id: int) -> Value:
        return self.brokers.setdefault(id, {"id": id})

    def take_partition(self, topic: object, number: int, replicas: List[int], leader: Optional[int]) -> None:
        self.partitions[text(topic), number] = (replicas_of(replicas), leader)

    def take_described(self, lines: str) -> None:
        """Lines of 'kafka-topics.sh --describe': those of a partition have 'Partition:' and 'Replicas:'."""
        for at, line in enumerate(lines.splitlines(), 1):
            topic, number, replicas = (word_behind(line, name) for name in ("Topic", "Partition", "Replicas"))
            if number is None or replicas is None:
                continue
            leader = word_behind(line, "Leader") or ""
            self.reassigned += bool(re.search(r"(Adding|Removing) Replicas:[\t ]*\d", line))
            try:
                members = [int(id) for id in replicas.split(",")]
                self.take_partition(topic, int(number), members, int(leader) if leader.isdigit() else None)
            except (TypeError, ValueError) as fault:
                raise Fault(f"line {at} is no line of a partition: {line.strip()[:80]}") from fault
        if not self.partitions:
            raise Fault("no line is that of a partition: what 'kafka-topics.sh --describe' prints is wanted")

    def take_state(self, value: Any) -> None:
        """Cruise Control's /kafka_cluster_state: partitions stand in lists by how they are, some in several."""
        try:
            for group in value["KafkaPartitionState"].values():
                for it in group:
                    self.take_partition(it["topic"], int(it["partition"]), [int(id) for id in it["replicas"]], it.get("leader"))
            for id in value.get("KafkaBrokerState", {}).get("ReplicaCountByBrokerId", {}):
                self.broker(int(id))
        except (KeyError, TypeError, ValueError, AttributeError, ArithmeticError) as fault:
            raise Fault(f"that is no answer to /kafka_cluster_state?json=true: {type(fault).__name__} {fault}") from fault
        if not self.partitions:
            raise Fault("the answer to /kafka_cluster_state names no partition: ask with verbose=true")

    def take_load(self, value: Any) -> None:
        """Cruise Control's /load: racks and states of brokers, and capacities where they are told."""
        try:
            for it in value["brokers"]:
                broker = self.broker(int(it["Broker"]))
                broker["rack"] = str(it["Rack"])
                self.take_state_of(broker, str(it.get("BrokerState", "ALIVE")))
                if all(member in it for member in CAPACITIES.values()):
                    capacity = {name: it[member] for name, member in CAPACITIES.items()}
                    self.capacities[broker["id"]] = capacity_of({**capacity, "CPU": 100}, f"broker {broker['id']}")
        except (KeyError, TypeError, ValueError, AttributeError, ArithmeticError) as fault:
            raise Fault(f"that is no answer to /load?json=true: {type(fault).__name__} {fault}") from fault

    def take_state_of(self, broker: Value, state: str) -> None:
        if state not in STATES:
            self.notes.append(f"broker {broker['id']} is {state}, which a cluster file doesn't know: it is taken as ALIVE")
        elif state != "ALIVE":
            broker["state"] = state

    def take_word_of_state(self, word: str) -> None:
        """The state of a broker that is known by now, as 3=DEAD."""
        id, _, state = word.partition("=")
        known = {str(it): it for it in [*self.brokers, *(it for replicas, _ in self.partitions.values() for it in replicas)]}
        if id not in known or state not in STATES:
            raise Fault(f"--state {word}: a known broker's id is wanted, = and one of {', '.join(STATES)}")
        self.broker(known[id])["state"] = state

    def take_capacities(self, value: Any) -> None:
        """Cruise Control's file of capacities; an entry of its own counts before what /load says, and that before the entry -1."""
        try:
            entries = [(int(it["brokerId"]), it) for it in value["brokerCapacities"]]
            for id, entry in entries:
                self.capacities[id] = capacity_of(entry["capacity"], f"broker {id}")
                if id >= 0:
                    self.take_rack(self.broker(id), entry.get("rack"))
        except (KeyError, TypeError, ValueError, AttributeError, ArithmeticError) as fault:
            raise Fault(f"that is no file of capacities: {type(fault).__name__} {fault}") from fault

    def take_rack(self, broker: Value, rack: Optional[object]) -> None:
        if rack is not None:
            broker["rack"] = str(rack)

    def take_log_dirs(self, lines: str) -> None:
        """What 'kafka-log-dirs.sh --describe' prints: a line of JSON after some of text."""
        line = next((it for it in lines.splitlines() if it.lstrip().startswith("{")), None)
        if line is None:
            raise Fault("no line is JSON: what 'kafka-log-dirs.sh --describe' prints is wanted")
        try:
            for broker in json.loads(line)["brokers"]:
                for folder in broker["logDirs"]:
                    self.take_log_dir(int(broker["broker"]), folder)
        except (KeyError, TypeError, ValueError, AttributeError) as fault:
            raise Fault(f"that isn't what 'kafka-log-dirs.sh --describe' prints: {type(fault).__name__} {fault}") from fault
        self.loads.has_sizes = True

    def take_log_dir(self, broker: int, folder: Any) -> None:
        if folder.get("error"):
            self.notes.append(f"broker {broker} can't read {folder.get('logDir')}: {folder['error']}")
        for it in folder["partitions"]:
            topic, dash, number = text(it["partition"]).rpartition("-")
            if not dash or type(it["size"]) is not int or it["size"] < 0:
                raise ValueError(f"{it!r} is no size of a partition")
            if not it.get("isFuture", False):
                self.loads.take_size((topic, int(number)), broker, it["size"])

    def take_loads(self, lines: str) -> None:
        """A table of loads: CSV with a line of names, of which topic and partition are wanted and at least one other."""
        rows = csv.DictReader(lines.splitlines())
        names = [(name or "").strip() for name in rows.fieldnames or ()]
        unknown = [name for name in names if name not in ("topic", "partition", *COLUMNS)]
        given = tuple(name for name in COLUMNS if name in names)
        if unknown or not {"topic", "partition"} <= set(names) or not given or len(set(names)) < len(names):
            raise Fault(f"the table of loads begins with {', '.join(names)}: topic, partition and some of {', '.join(COLUMNS)} are wanted")
        rows.fieldnames, self.loads.columns = names, given
        for row in rows:
            self.take_load_row(row, rows.line_num)

    def take_load_row(self, row: Dict[Any, Any], line: int) -> None:
        if None in row or not (row["partition"] or "").strip().isdecimal():
            raise Fault(f"line {line} of the table of loads is none: {', '.join(names_of([str(it)]) for it in row.values())[:80]}")
        key = (row["topic"].strip(), int(row["partition"]))
        if key in self.loads.rows:
            raise Fault(f"line {line} of the table of loads: {names_of([key])} stands there twice")
        numbers = {name: load_number(row[name], line, name) for name in self.loads.columns}
        self.loads.rows[key] = {name: number for name, number in numbers.items() if number is not None}

    def told_leaders(self) -> int:
        return sum(leader is not None and leader != replicas[0] for replicas, leader in self.partitions.values())

    def note(self, brokers: List[int]) -> None:
        """Says what a reader of the result should know."""
        used = {id for replicas, _ in self.partitions.values() for id in replicas}
        idle = [id for id in brokers if id not in used]
        if idle:
            self.notes.append(f"no replica stands on these brokers, which were named beside the partitions: {', '.join(map(str, idle))}")
        if self.reassigned:
            self.notes.append(f"partitions that are being reassigned just now, of which the file has all replicas: {self.reassigned}")
        others = self.told_leaders()
        if others:
            self.notes.append(f"partitions that another replica leads than their first, which the file takes as the leader: {others}")
        self.notes += self.loads.notes(self.partitions)
        if not any("rack" in it for it in self.brokers.values()):
            self.notes.append("no rack is known, so each broker is a rack of its own")
        counts = (len(self.brokers), len({topic for topic, _ in self.partitions}), len(self.partitions))
        for (what, most), count in zip(LIMITS, counts):
            if count > most:
                self.notes.append(f"there are {count} {what}, and sumpharu takes {most}")

    def cluster(self) -> Value:
        for replicas, _ in self.partitions.values():
            for id in replicas:
                self.broker(id)
        brokers = sorted(self.brokers)
        lacking = [id for id in brokers if id not in self.capacities]
        if self.capacities and lacking and -1 not in self.capacities:
            raise Fault(f"no capacity is known of broker {lacking[0]}: give an entry for it, or one for all others, in --capacity")
        self.note(brokers)
        value: Value = {"version": 1, "brokers": [self.brokers[id] for id in brokers]}
        if self.capacities:
            value["brokerCapacities"] = [{"brokerId": str(id), "capacity": self.scaled(it)} for id, it in sorted(self.capacities.items())]
        value["partitions"] = [self.entry(*key, replicas) for key, (replicas, _) in sorted(self.partitions.items())]
        return value

    def scaled(self, capacity: Capacity) -> Capacity:
        """A capacity, with CPU in the unit of the loads."""
        return {**capacity, "CPU": str(int(capacity["CPU"]) * CPU_SCALE)} if self.loads.has_cpu else capacity

    def entry(self, topic: str, number: int, replicas: List[int]) -> Value:
        entry = {"topic": topic, "partition": number, "replicas": replicas}
        load = self.loads.of((topic, number), replicas)
        return {**entry, "load": load} if load else entry


def text_of(cluster: Value) -> str:
    """The file's text, with one broker, capacity or partition a line."""
    members = []
    for name, value in cluster.items():
        if isinstance(value, list):
            members.append(f'"{name}": [\n' + ",\n".join("    " + json.dumps(it, ensure_ascii=False) for it in value) + "\n  ]")
        else:
            members.append(f'"{name}": {json.dumps(value)}')
    return "{\n  " + ",\n  ".join(members) + "\n}"
