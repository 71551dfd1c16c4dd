"""Kafka's messages as an admin writes and reads them, in one version each.

A request is bytes. An answer is read by a function of its own, from Fields that stand after the answer's head; bytes that aren't the message raise
Malformed. The versions are those that brokers from Kafka 2.4 on are known to share; a broker tells which it has before it is asked anything else.
"""
from __future__ import annotations

import struct
from dataclasses import dataclass
from typing import Any, Callable, Dict, Iterable, List, Mapping, Optional, Sequence, Tuple, TypeVar

# A partition by topic and number; whatever an array has; bytes, where a field of that name is near.
Key = Tuple[str, int]
Item = TypeVar("Item")
Bytes = bytes

MOST_BYTES = 64 * 1024 * 1024
TOPIC, BROKER = 2, 4
SET, DELETE, APPEND, SUBTRACT = 0, 1, 2, 3
NONE, NO_SUCH_PARTITION, NOT_CONTROLLER = 0, 3, 41
ELECTION_NOT_NEEDED, NO_REASSIGNMENT = 84, 85
CODES = {
    3: "UNKNOWN_TOPIC_OR_PARTITION", 7: "REQUEST_TIMED_OUT", 29: "TOPIC_AUTHORIZATION_FAILED", 31: "CLUSTER_AUTHORIZATION_FAILED",
    33: "UNSUPPORTED_SASL_MECHANISM", 35: "UNSUPPORTED_VERSION", 39: "INVALID_REPLICA_ASSIGNMENT", 40: "INVALID_CONFIG", 41: "NOT_CONTROLLER",
    42: "INVALID_REQUEST", 44: "POLICY_VIOLATION", 58: "SASL_AUTHENTICATION_FAILED", 80: "PREFERRED_LEADER_NOT_AVAILABLE",
    84: "ELECTION_NOT_NEEDED", 85: "NO_REASSIGNMENT_IN_PROGRESS",
}


class Malformed(Exception):
    """Bytes that aren't the message that they should be."""


@dataclass(frozen=True)
class Message:
    """A kind of request, with the version that is written here. Flexible ones have compact lengths and tagged fields."""

    name: str
    key: int
    version: int
    is_flexible: bool = False


API_VERSIONS = Message("ApiVersions", 18, 0)
METADATA = Message("Metadata", 3, 5)
SASL_HANDSHAKE = Message("SaslHandshake", 17, 1)
SASL_AUTHENTICATE = Message("SaslAuthenticate", 36, 0)
DESCRIBE_CONFIGS = Message("DescribeConfigs", 32, 1)
DESCRIBE_LOG_DIRS = Message("DescribeLogDirs", 35, 1)
ELECT_LEADERS = Message("ElectLeaders", 43, 2, True)
ALTER_CONFIGS = Message("IncrementalAlterConfigs", 44, 0)
ALTER_REASSIGNMENTS = Message("AlterPartitionReassignments", 45, 0, True)
LIST_REASSIGNMENTS = Message("ListPartitionReassignments", 46, 0, True)
TO_CARRY = (METADATA, LIST_REASSIGNMENTS, ALTER_REASSIGNMENTS, ELECT_LEADERS)
TO_THROTTLE = (DESCRIBE_CONFIGS, ALTER_CONFIGS)
TO_MEASURE = (METADATA, DESCRIBE_LOG_DIRS)
# Whose value a config has: the topic's own, or the broker's own. Others are defaults.
OWN_SOURCES = (1, 2)
# A message that brokers of a ZooKeeper cluster alone take: so a broker that doesn't name it belongs to KRaft.
LEADER_AND_ISR = 4


def code_text(code: int) -> str:
    return f"{code} {CODES[code]}" if code in CODES else str(code)


# -- writing


def int8(number: int) -> bytes:
    return struct.pack(">b", number)


def int16(number: int) -> bytes:
    return struct.pack(">h", number)


def int32(number: int) -> bytes:
    return struct.pack(">i", number)


def varint(number: int) -> bytes:
    out = b""
    while number >= 128:
        out += bytes([number & 127 | 128])
        number >>= 7
    return out + bytes([number])


def string(text: str) -> bytes:
    data = text.encode()
    return int16(len(data)) + data


def nullable_string(text: Optional[str]) -> bytes:
    return int16(-1) if text is None else string(text)


def array(items: Sequence[bytes]) -> bytes:
    return int32(len(items)) + b"".join(items)


def compact_string(text: str) -> bytes:
    data = text.encode()
    return varint(len(data) + 1) + data


def compact_array(items: Sequence[bytes]) -> bytes:
    return varint(len(items) + 1) + b"".join(items)


NO_ARRAY, NO_COMPACT_ARRAY, NO_TAGS = int32(-1), b"\0", b"\0"


def request_bytes(message: Message, correlation: int, client: str, body: bytes) -> bytes:
    """A whole request, without the length that goes before it on a connection."""
    tags = NO_TAGS if message.is_flexible else b""
    return int16(message.key) + int16(message.version) + int32(correlation) + nullable_string(client) + tags + body


def by_topic(partitions: Mapping[Key, Item]) -> Dict[str, List[Tuple[int, Item]]]:
    """Topics in order, each with the items of its partitions: of {(topic, number): item}."""
    found: Dict[str, List[Tuple[int, Item]]] = {}
    for (topic, number), item in partitions.items():
        found.setdefault(topic, []).append((number, item))
    return found


def metadata_body() -> bytes:
    """All topics, and none is to be made."""
    return NO_ARRAY + int8(0)


def list_body(milliseconds: int) -> bytes:
    """All reassignments."""
    return int32(milliseconds) + NO_COMPACT_ARRAY + NO_TAGS


def alter_body(targets: Mapping[Key, Optional[List[int]]], milliseconds: int) -> bytes:
    """Reassignments to the lists of {(topic, number): list}; a list that is None gives up what is in flight."""

    def partition(number: int, target: Optional[List[int]]) -> bytes:
        members = NO_COMPACT_ARRAY if target is None else compact_array([int32(id) for id in target])
        return int32(number) + members + NO_TAGS

    topics = [
        compact_string(topic) + compact_array([partition(*it) for it in items]) + NO_TAGS for topic, items in by_topic(targets).items()
    ]
    return int32(milliseconds) + compact_array(topics) + NO_TAGS


def elect_body(partitions: Iterable[Key], milliseconds: int) -> bytes:
    """Elections of the preferred leaders of (topic, number)s."""
    named = by_topic(dict.fromkeys(partitions))
    topics = [compact_string(topic) + compact_array([int32(number) for number, _ in items]) + NO_TAGS for topic, items in named.items()]
    return int8(0) + compact_array(topics) + int32(milliseconds) + NO_TAGS


def log_dirs_body() -> bytes:
    """All partitions of the broker that is asked."""
    return NO_ARRAY


@dataclass(frozen=True)
class Resource:
    """What configs belong to: a topic by its name, or a broker by its id."""

    kind: int
    name: str

    def __str__(self) -> str:
        return f"{'topic' if self.kind == TOPIC else 'broker'} {self.name}"


@dataclass(frozen=True)
class Change:
    """A change of one config. SET and DELETE are of the whole value, APPEND and SUBTRACT of members of a list."""

    name: str
    operation: int
    value: Optional[str] = None


def alter_configs_body(changes: Mapping[Resource, Iterable[Change]]) -> bytes:
    """The changes of {resource: changes}."""

    def one(change: Change) -> bytes:
        return string(change.name) + int8(change.operation) + nullable_string(change.value)

    resources = [int8(it.kind) + string(it.name) + array([one(change) for change in rows]) for it, rows in changes.items()]
    return array(resources) + int8(0)


def describe_configs_body(resources: Iterable[Resource], names: Iterable[str]) -> bytes:
    """The configs of these names, of each resource."""
    named = array([string(name) for name in names])
    return array([int8(it.kind) + string(it.name) + named for it in resources]) + int8(0)


def handshake_body(mechanism: str) -> bytes:
    return string(mechanism)


def authenticate_body(data: bytes) -> bytes:
    return int32(len(data)) + data


# -- reading


class Fields:
    """The fields of a message, read from the left."""

    def __init__(self, data: bytes, is_flexible: bool = False) -> None:
        self.data, self.at, self.is_flexible = data, 0, is_flexible

    def take(self, count: int) -> Bytes:
        if count < 0 or self.at + count > len(self.data):
            raise Malformed(f"{count} bytes are wanted at {self.at} of {len(self.data)}")
        self.at += count
        return self.data[self.at - count : self.at]

    def numbers(self, form: str) -> Tuple[Any, ...]:
        """Several numbers at once, as struct has them: faster, where an answer has thousands."""
        return struct.unpack(form, self.take(struct.calcsize(form)))

    def number(self, width: int) -> int:
        return int.from_bytes(self.take(width), "big", signed=True)

    def int8(self) -> int:
        return self.number(1)

    def int16(self) -> int:
        return self.number(2)

    def int32(self) -> int:
        return self.number(4)

    def int64(self) -> int:
        return self.number(8)

    def varint(self) -> int:
        value = 0
        for shift in range(0, 35, 7):
            byte = self.take(1)[0]
            value |= (byte & 127) << shift
            if byte < 128:
                return value
        raise Malformed("a number of more than five bytes")

    def length(self, width: int) -> int:
        """A length, or -1 for null."""
        return self.varint() - 1 if self.is_flexible else self.number(width)

    def text_or_none(self) -> Optional[str]:
        count = self.length(2)
        if count == -1:
            return None
        try:
            return self.take(count).decode()
        except UnicodeDecodeError as fault:
            raise Malformed(str(fault)) from fault

    def text(self) -> str:
        found = self.text_or_none()
        if found is None:
            raise Malformed("null, where a text must be")
        return found

    def bytes(self) -> Bytes:
        return self.take(self.length(4))

    def array(self, read: Callable[[], Item]) -> List[Item]:
        """The items, each read by a call. No room is made ahead for their number."""
        count = self.length(4)
        if count < 0 or count > len(self.data) - self.at:
            raise Malformed(f"an array of {count} items in {len(self.data) - self.at} bytes")
        return [read() for _ in range(count)]

    def ids(self) -> List[int]:
        """An array of numbers of four bytes."""
        count = self.length(4)
        if count < 0:
            raise Malformed("null, where an array must be")
        return list(struct.unpack(f">{count}i", self.take(4 * count)))

    def tags(self) -> None:
        """What stands at the end of each flexible struct; none is known here."""
        if self.is_flexible:
            for _ in range(self.varint()):
                self.varint()
                self.take(self.varint())

    def end(self) -> None:
        self.tags()
        if self.at != len(self.data):
            raise Malformed(f"{len(self.data) - self.at} bytes after the message")


def answer_fields(message: Message, correlation: int, data: bytes) -> Fields:
    """The fields of an answer, after its head, which has to name the request."""
    fields = Fields(data, message.is_flexible)
    if fields.int32() != correlation:
        raise Malformed("the answer to another request")
    fields.tags()
    return fields


def struct_of(fields: Fields, *reads: Callable[[], Any]) -> Tuple[Any, ...]:
    """The values of a struct's fields, and its tags passed over."""
    found = tuple(read() for read in reads)
    fields.tags()
    return found


def read_versions(fields: Fields) -> Tuple[int, Dict[int, Tuple[int, int]]]:
    """The first and last version of each message that a broker has, by key."""
    code = fields.int16()
    rows = fields.array(lambda: struct_of(fields, fields.int16, fields.int16, fields.int16))
    fields.end()
    return code, {key: (first, last) for key, first, last in rows}


@dataclass(frozen=True)
class Node:
    """A live broker, and where it is reached."""

    id: int
    host: str
    port: int
    rack: Optional[str]


@dataclass(frozen=True)
class Seen:
    """A partition as a broker's metadata have it. The leader is -1 where there is none."""

    leader: int
    replicas: List[int]
    in_sync: List[int]


@dataclass(frozen=True)
class Metadata:
    nodes: Dict[int, Node]
    controller: int
    # The code of each topic that is named, and the partitions of those without a fault.
    topics: Dict[str, int]
    partitions: Dict[Key, Seen]


def read_metadata(fields: Fields) -> Metadata:
    def node() -> Node:
        return Node(fields.int32(), fields.text(), fields.int32(), fields.text_or_none())

    def partition() -> Tuple[int, Seen]:
        _, number, leader = fields.numbers(">hii")
        replicas, in_sync, _ = fields.ids(), fields.ids(), fields.ids()
        return number, Seen(leader, replicas, in_sync)

    def topic() -> Tuple[int, str, List[Tuple[int, Seen]]]:
        code, name = fields.int16(), fields.text()
        fields.int8()
        return code, name, fields.array(partition)

    fields.int32()
    nodes = fields.array(node)
    fields.text_or_none()
    controller, topics = fields.int32(), fields.array(topic)
    fields.end()
    partitions = {(name, number): seen for _, name, rows in topics for number, seen in rows}
    return Metadata({it.id: it for it in nodes}, controller, {name: code for code, name, _ in topics}, partitions)


@dataclass(frozen=True)
class Move:
    """A reassignment in flight: the partition's list, what of it is added, and what will be removed."""

    replicas: List[int]
    adding: List[int]
    removing: List[int]

    @property
    def target(self) -> List[int]:
        return [id for id in self.replicas if id not in self.removing]


def read_moves(fields: Fields) -> Tuple[int, Dict[Key, Move]]:
    """The code for all, and the reassignments in flight by (topic, number)."""

    def partition() -> Tuple[int, Move]:
        number, replicas, adding, removing = struct_of(fields, fields.int32, fields.ids, fields.ids, fields.ids)
        return number, Move(replicas, adding, removing)

    fields.int32()
    code = fields.int16()
    fields.text_or_none()
    topics = fields.array(lambda: struct_of(fields, fields.text, lambda: fields.array(partition)))
    fields.end()
    return code, {(name, number): move for name, rows in topics for number, move in rows}


def read_partition_codes(fields: Fields, has_message: bool) -> Tuple[int, Dict[Key, int]]:
    """The code for all, and that of each partition: the answer to asks and elections."""

    def partition() -> Tuple[int, int]:
        number, code, _ = struct_of(fields, fields.int32, fields.int16, fields.text_or_none)
        return number, code

    fields.int32()
    code = fields.int16()
    if has_message:
        fields.text_or_none()
    topics = fields.array(lambda: struct_of(fields, fields.text, lambda: fields.array(partition)))
    fields.end()
    return code, {(name, number): found for name, rows in topics for number, found in rows}


def read_asked(fields: Fields) -> Tuple[int, Dict[Key, int]]:
    return read_partition_codes(fields, True)


def read_elected(fields: Fields) -> Tuple[int, Dict[Key, int]]:
    return read_partition_codes(fields, False)


@dataclass(frozen=True)
class Size:
    """What a broker's disk has of a partition, in bytes."""

    topic: str
    number: int
    bytes: int
    # Whether it is a copy for another of the broker's disks, which doesn't count yet.
    is_future: bool


def read_log_dirs(fields: Fields) -> Tuple[Dict[str, int], List[Size]]:
    """The folders with their codes, and the sizes of all replicas on the broker."""

    def partition(topic: str) -> Size:
        number, size = fields.int32(), fields.int64()
        fields.int64()
        return Size(topic, number, size, fields.int8() != 0)

    def topic() -> List[Size]:
        name = fields.text()
        return fields.array(lambda: partition(name))

    def folder() -> Tuple[int, str, List[List[Size]]]:
        return fields.int16(), fields.text(), fields.array(topic)

    fields.int32()
    folders = fields.array(folder)
    fields.end()
    return {name: code for code, name, _ in folders}, [size for _, _, topics in folders for sizes in topics for size in sizes]


def read_altered(fields: Fields) -> Dict[Resource, int]:
    """The code of each resource whose configs were to change."""

    def one() -> Tuple[Resource, int]:
        code = fields.int16()
        fields.text_or_none()
        return Resource(fields.int8(), fields.text()), code

    fields.int32()
    rows = fields.array(one)
    fields.end()
    return dict(rows)


def read_configs(fields: Fields) -> Dict[Resource, Tuple[int, Dict[str, Optional[str]]]]:
    """The code of each resource, and the values of its own configs by name; what it has by default isn't among them."""

    def config() -> Tuple[str, Optional[str], int]:
        name, value = fields.text(), fields.text_or_none()
        fields.int8()
        source = fields.int8()
        fields.int8()
        fields.array(lambda: (fields.text_or_none(), fields.text_or_none(), fields.int8()))
        return name, value, source

    def one() -> Tuple[Resource, Tuple[int, Dict[str, Optional[str]]]]:
        code = fields.int16()
        fields.text_or_none()
        resource = Resource(fields.int8(), fields.text())
        return resource, (code, {name: value for name, value, source in fields.array(config) if source in OWN_SOURCES})

    fields.int32()
    rows = fields.array(one)
    fields.end()
    return dict(rows)


def read_handshake(fields: Fields) -> Tuple[int, List[str]]:
    """The code, and the mechanisms that the broker has."""
    code, mechanisms = fields.int16(), fields.array(fields.text)
    fields.end()
    return code, mechanisms


def read_authenticated(fields: Fields) -> Tuple[int, Optional[str], bytes]:
    code, message, data = fields.int16(), fields.text_or_none(), fields.bytes()
    fields.end()
    return code, message, data
