"""What an admin asks of a cluster: looks, reassignments, elections, sizes and configs, and at which broker."""
from __future__ import annotations

from dataclasses import dataclass
from typing import Callable, Dict, Iterable, List, Mapping, Optional, Sequence, Tuple, TypeVar

from . import kafka_wire as wire
from .kafka_link import Link, Lost
from .kafka_sign_in import Denied, Place, Security
from .kafka_wire import BROKER, NOT_CONTROLLER, Key, code_text


Read = TypeVar("Read")
Reader = Callable[[wire.Fields], Read]


class NotHere(Exception):
    """The broker answered that it isn't for this request, or doesn't permit it."""


@dataclass(frozen=True)
class Look:
    """What a cluster said at one moment: the reassignments in flight, then, on the same connection, the metadata."""

    moves: Dict[Key, wire.Move]
    metadata: wire.Metadata

    def seen(self, key: Key) -> Optional[wire.Seen]:
        return self.metadata.partitions.get(key)


@dataclass(frozen=True)
class Answer:
    """What came back of an ask: the code for all and each partition's, or nothing where it is lost."""

    code: Optional[int] = None
    codes: Optional[Dict[Key, int]] = None

    @property
    def is_lost(self) -> bool:
        return self.code is None

    def of(self, key: Key) -> Optional[int]:
        """The code of a partition, or None where none was told."""
        return self.code if self.code else (self.codes or {}).get(key)


class Admin:
    """One connection to the broker that takes changes. With ZooKeeper that is the controller, with KRaft any.

    A connection that failed is made anew at the next call, to whichever broker is the controller then.
    """

    def __init__(
        self,
        bootstrap: Sequence[Place],
        security: Security,
        timeout: float,
        places: Optional[Mapping[int, Place]] = None,
        needed: Sequence[wire.Message] = wire.TO_CARRY,
    ) -> None:
        self.bootstrap, self.security, self.timeout, self.places, self.needed = bootstrap, security, timeout, places or {}, needed
        self.link: Optional[Link] = None
        # The controller where the connection is to that alone, and the brokers that were told last.
        self.at: Optional[int] = None
        self.nodes: Dict[int, wire.Node] = {}
        self.was_connected = False
        # Why the last call had no answer.
        self.reason = "nothing was asked yet"

    @property
    def milliseconds(self) -> int:
        """How long the controller may take, a little less than it is waited for."""
        return max(int(self.timeout * 900), 1)

    def close(self) -> None:
        if self.link:
            self.link.close()
        self.link, self.at = None, None

    def place_of(self, node: wire.Node) -> Place:
        return self.places.get(node.id) or (node.host, node.port)

    def open(self, place: Place) -> Link:
        return Link(place, self.security, self.timeout)

    def candidates(self) -> List[Place]:
        """Where a broker may answer: the brokers that were told last, and those that the user named."""
        return list(dict.fromkeys([*map(self.place_of, self.nodes.values()), *self.bootstrap]))

    def metadata_of(self, link: Link) -> wire.Metadata:
        metadata = link.ask(wire.METADATA, wire.metadata_body(), wire.read_metadata)
        self.nodes = metadata.nodes or self.nodes
        return metadata

    def connect(self) -> Link:
        """Opens the connection, or raises Lost with the reason of the last broker that was tried. A user who was never let in is Denied."""
        for place in self.candidates():
            try:
                link = self.connect_by(place)
                link.check(self.needed)
                self.was_connected = True
                return link
            except (Lost, NotHere, Denied) as fault:
                self.reason = str(fault)
                self.close()
                if isinstance(fault, Denied) and not self.was_connected:
                    raise
        raise Lost(self.reason)

    def reach(self) -> None:
        """Makes sure of a connection. One that can't be made is Denied."""
        try:
            if not self.link:
                self.connect()
        except Lost as fault:
            raise Denied(str(fault)) from fault

    def connect_by(self, place: Place) -> Link:
        """Opens the connection to the broker at a place, or to the controller that it names."""
        link = self.open(place)
        try:
            metadata = self.metadata_of(link)
            if link.is_any_broker:
                self.link, self.at = link, None
                return link
            controller = metadata.nodes.get(metadata.controller)
            if controller is None:
                raise NotHere(f"{link.name} names no controller that is alive")
        except BaseException:
            link.close()
            raise
        link.close()
        self.link, self.at = self.open(self.place_of(controller)), controller.id
        return self.link

    def ask(self, message: wire.Message, body: bytes, read: Reader[Read]) -> Read:
        """What is read of the answer on the connection, which is opened first where there is none."""
        link = self.link or self.connect()
        try:
            return link.ask(message, body, read)
        except Lost as fault:
            self.reason = str(fault)
            self.close()
            raise

    def look(self) -> Optional[Look]:
        """A whole look, or None. The controller alone gives one, and one that isn't told by it is none."""
        try:
            code, moves = self.ask(wire.LIST_REASSIGNMENTS, wire.list_body(self.milliseconds), wire.read_moves)
            metadata = self.ask(wire.METADATA, wire.metadata_body(), wire.read_metadata)
        except Lost:
            return None
        self.nodes = metadata.nodes or self.nodes
        if code == 0 and self.at in (None, metadata.controller):
            return Look(moves, metadata)
        self.reason = f"ListPartitionReassignments: {code_text(code)}" if code else f"broker {self.at} isn't the controller any more"
        self.close()
        return None

    def change(self, message: wire.Message, body: bytes, read: Reader[Tuple[int, Dict[Key, int]]]) -> Answer:
        """The answer to an ask. One that isn't for this broker has the next call look for another."""
        try:
            answer = Answer(*self.ask(message, body, read))
        except Lost:
            return Answer()
        if answer.code:
            self.reason = f"{message.name}: {code_text(answer.code)}"
            if answer.code == NOT_CONTROLLER:
                self.close()
        return answer

    def reassign(self, key: Key, target: Optional[List[int]]) -> Answer:
        """Asks for one partition's list; with None, gives up what is in flight."""
        return self.change(wire.ALTER_REASSIGNMENTS, wire.alter_body({key: target}, self.milliseconds), wire.read_asked)

    def elect(self, keys: Iterable[Key]) -> Answer:
        return self.change(wire.ELECT_LEADERS, wire.elect_body(keys, self.milliseconds), wire.read_elected)

    def at_broker(self, id: int, message: wire.Message, body: bytes, read: Reader[Read]) -> Read:
        """What one broker answers, on a connection of its own."""
        if id not in self.nodes:
            raise Lost(f"broker {id} isn't there")
        link = self.open(self.place_of(self.nodes[id]))
        try:
            return link.ask(message, body, read)
        finally:
            link.close()

    def sizes(self, id: int) -> Tuple[Dict[str, int], List[wire.Size]]:
        """What is on a broker's disks: each folder's code, and the sizes."""
        return self.at_broker(id, wire.DESCRIBE_LOG_DIRS, wire.log_dirs_body(), wire.read_log_dirs)

    def with_resource(self, resource: wire.Resource, message: wire.Message, body: bytes, read: Reader[Dict[wire.Resource, Read]]) -> Read:
        """What the broker that has a resource answers: a broker has its own configs, and any has the topics'."""
        if resource.kind == BROKER:
            found = self.at_broker(int(resource.name), message, body, read)
        else:
            found = self.ask(message, body, read)
        if resource not in found:
            raise NotHere(f"{resource}: {message.name}: no word of it came")
        return found[resource]

    def configs(self, resource: wire.Resource, names: Iterable[str]) -> Dict[str, str]:
        """The values of a resource's configs by name, where they are set on the resource itself."""
        body = wire.describe_configs_body([resource], names)
        code, values = self.with_resource(resource, wire.DESCRIBE_CONFIGS, body, wire.read_configs)
        if code:
            raise NotHere(f"{resource}: DescribeConfigs: {code_text(code)}")
        return {name: value for name, value in values.items() if value}

    def alter_configs(self, resource: wire.Resource, changes: List[wire.Change]) -> None:
        body = wire.alter_configs_body({resource: changes})
        code = self.with_resource(resource, wire.ALTER_CONFIGS, body, wire.read_altered)
        if code:
            raise NotHere(f"{resource}: IncrementalAlterConfigs: {code_text(code)}")
