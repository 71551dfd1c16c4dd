"""What a cluster's brokers say of it over the wire: themselves with their racks, the lists, and the size of each replica."""
from __future__ import annotations
from typing import List

from .clusters import Fault
from .kafka_admin import Admin, Look, NotHere
from .kafka_link import Lost
from .kafka_sign_in import Denied
from .kafka_wire import code_text
from .sources import Found, names_of

TRIES = 3


def whole_look(admin: Admin) -> Look:
    try:
        for _ in range(TRIES):
            look = admin.look()
            if look is not None:
                return look
    except Denied as fault:
        raise Fault(str(fault)) from fault
    raise Fault(admin.reason)


def take_cluster(found: Found, admin: Admin) -> None:
    """Takes all that the brokers say."""
    look = whole_look(admin)
    metadata = look.metadata
    for node in metadata.nodes.values():
        found.take_rack(found.broker(node.id), node.rack)
    for (topic, number), seen in metadata.partitions.items():
        found.take_partition(topic, number, seen.replicas, seen.leader if seen.leader >= 0 else None)
    if not found.partitions:
        raise Fault("the brokers name no partition")
    found.reassigned = len(look.moves)
    bad = [f"{name} ({code_text(code)})" for name, code in sorted(metadata.topics.items()) if code]
    if bad:
        found.notes.append(f"topics of which nothing is told: {names_of(bad)}")
    used = {id for seen in metadata.partitions.values() for id in seen.replicas}
    gone = sorted(used - set(metadata.nodes))
    if gone:
        found.notes.append(f"brokers that hold replicas and aren't there: {names_of(map(str, gone))}; --state ID=DEAD has one drained")
    take_sizes(found, admin, sorted(metadata.nodes))


def take_sizes(found: Found, admin: Admin, brokers: List[int]) -> None:
    """Asks each broker for what its disks have. One that doesn't answer is named."""
    found.loads.has_sizes = True
    for id in brokers:
        try:
            folders, sizes = admin.sizes(id)
        except (Lost, NotHere, Denied) as fault:
            found.notes.append(f"broker {id} doesn't tell its sizes: {fault}")
            continue
        for name, code in folders.items():
            if code:
                found.notes.append(f"broker {id} can't read {name or 'its disks'}: {code_text(code)}")
        for size in sizes:
            if not size.is_future:
                found.loads.take_size((size.topic, size.number), id, size.bytes)
