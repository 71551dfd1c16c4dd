"""A Kafka cluster as the requests of an admin see it: brokers, partitions, reassignments that advance, leaders, configs.

The rules are Kafka's, as far as they are known from KIP-455, KIP-460 and the code of Kafka 2.4 to 3.x; no Kafka was there to try them on. `mode` is
"zk" or "kraft": with "zk" only the controller takes reassignments and elections, a target's brokers must be alive, and a reassignment is done once all
of the target is in sync; with "kraft" any broker takes them, a target's brokers must be registered, what is added must be in sync, and a broker
names any live broker as the controller.
"""
import copy
import json
import random
import uuid

NONE, UNKNOWN_TOPIC_OR_PARTITION, LEADER_NOT_AVAILABLE, REQUEST_TIMED_OUT = 0, 3, 5, 7
INVALID_TOPIC, UNSUPPORTED_VERSION, TOPIC_ALREADY_EXISTS, INVALID_PARTITIONS = 17, 35, 36, 37
INVALID_REPLICATION_FACTOR, INVALID_REPLICA_ASSIGNMENT, INVALID_CONFIG, NOT_CONTROLLER, INVALID_REQUEST = 38, 39, 40, 41, 42
PREFERRED_LEADER_NOT_AVAILABLE, ELIGIBLE_LEADERS_NOT_AVAILABLE, ELECTION_NOT_NEEDED = 80, 83, 84
NO_REASSIGNMENT_IN_PROGRESS = 85
TOPIC, BROKER = 2, 4


class Broker:
    def __init__(self, number, rack):
        self.id, self.rack, self.alive, self.port = number, rack, True, 0
        self.log_dir = f"/var/lib/minikafka/{number}"


class Partition:
    def __init__(self, replicas, size):
        self.replicas, self.adding, self.removing = list(replicas), [], []
        self.isr, self.leader, self.epoch, self.size = list(replicas), replicas[0], 0, size
        self.copied = {}

    def target(self):
        return [b for b in self.replicas if b not in self.removing]

    def in_progress(self):
        return bool(self.adding or self.removing)


class Cluster:
    def __init__(self, mode="zk", rate=0):
        self.mode, self.rate, self.now, self.id = mode, rate, 0.0, "minikafka"
        self.brokers, self.topics, self.configs, self.controller = {}, {}, {}, -1
        self.chance, self.later, self.first = random.Random(1), [], {}
        self.forget_flight()

    # -- making it

    def add_broker(self, number, rack=None):
        self.brokers[number] = Broker(number, rack)
        if self.controller == -1:
            self.controller = number

    def read_file(self, path):
        """A cluster file of sumpharu: brokers with racks, partitions with their lists."""
        with open(path) as file:
            data = json.load(file)
        for broker in data["brokers"]:
            self.add_broker(broker["id"], broker.get("rack"))
        for part in data["partitions"]:
            size = int(part.get("load", {}).get("DISK", 0) or 0) * 1024 * 1024 or 1000000
            self.topics.setdefault(part["topic"], {})[part["partition"]] = Partition(part["replicas"], size)

    def alive(self):
        return [b.id for b in self.brokers.values() if b.alive]

    def create(self, name, lists, size=1000000):
        self.topics[name] = {i: Partition(replicas, size) for i, replicas in enumerate(lists)}

    def spread(self, count, factor):
        ids = sorted(self.alive())
        return [[ids[(i + k) % len(ids)] for k in range(factor)] for i in range(count)]

    # -- what happens by itself

    def elect(self, part, need=False):
        """A new leader where the one there can't stay: the first of the list that is alive and in sync."""
        if not need and part.leader in part.replicas and part.leader in part.isr and self.is_up(part.leader):
            return
        leader = next((b for b in part.replicas if b in part.isr and self.is_up(b)), -1)
        if leader != part.leader:
            part.leader, part.epoch = leader, part.epoch + 1

    def is_up(self, number):
        return number in self.brokers and self.brokers[number].alive

    def complete(self, part):
        if not part.in_progress():
            return False
        wanted = part.target() if self.mode == "zk" else part.adding
        left = [b for b in part.isr if b not in part.removing]
        if not left or not all(b in part.isr for b in wanted):
            return False
        part.replicas, part.isr = part.target(), left
        part.adding, part.removing, part.copied = [], [], {}
        self.elect(part)
        return True

    def throttle(self, topic, number, broker):
        """The rate at which a broker fetches a partition, where the broker has one and the topic names the replica."""
        rate = self.configs.get((BROKER, str(broker)), {}).get("follower.replication.throttled.rate")
        named = self.configs.get((TOPIC, topic), {}).get("follower.replication.throttled.replicas", "").split(",")
        return float(rate) if rate is not None and ("*" in named or f"{number}:{broker}" in named) else None

    def advance(self, seconds):
        """Time goes on: what is added is copied, what was copied comes in sync, what is in sync is done."""
        self.now += seconds
        due, self.later = [it for it in self.later if it[0] <= self.now], [it for it in self.later if it[0] > self.now]
        for _, act in due:
            act()
        for topic, parts in self.topics.items():
            for number, part in parts.items():
                for b in part.replicas:
                    if b in part.isr or not self.is_up(b) or part.leader == -1:
                        continue
                    limit = self.throttle(topic, number, b)
                    speed = self.rate if limit is None else min(self.rate, limit)
                    part.copied[b] = min(part.size, part.copied.get(b, 0) + speed * seconds)
                    if part.copied[b] >= part.size:
                        part.isr.append(b)
                self.complete(part)

    def finish(self, name, number):
        """The reassignment of one partition is copied at once."""
        part = self.topics[name][number]
        for b in part.replicas:
            if b not in part.isr and self.is_up(b):
                part.isr.append(b)
        return self.complete(part)

    def kill(self, number):
        self.brokers[number].alive = False
        for parts in self.topics.values():
            for part in parts.values():
                part.copied.pop(number, None)
                if number in part.isr and len(part.isr) > 1:
                    part.isr.remove(number)
                self.elect(part)
                self.complete(part)
        if self.controller == number:
            self.controller = min(self.alive(), default=-1)

    def revive(self, number):
        self.brokers[number].alive = True
        for parts in self.topics.values():
            for part in parts.values():
                if part.leader == -1:
                    self.elect(part, need=True)
        if self.controller == -1:
            self.controller = number

    def note_flight(self):
        """How much was ever in flight at once, by broker and in all, so that a test can hold it against caps."""
        adding, removing, cluster = {}, {}, 0
        for parts in self.topics.values():
            for part in parts.values():
                if not (part.adding or part.removing):
                    continue
                cluster += 1
                for b in part.adding:
                    adding[b] = adding.get(b, 0) + 1
                for b in part.removing:
                    removing[b] = removing.get(b, 0) + 1
        for name, counts in (("adding", adding), ("removing", removing)):
            for b, n in counts.items():
                self.most_in_flight[name][b] = max(n, self.most_in_flight[name].get(b, 0))
        self.most_in_flight["cluster"] = max(cluster, self.most_in_flight["cluster"])

    def do_later(self, seconds, act):
        """Has something done when so much time has gone on."""
        self.later.append((self.now + seconds, act))

    def keep(self):
        """Keeps all topics as they are now, for 'reset'."""
        self.first = copy.deepcopy(self.topics)

    def reset(self):
        """All topics as they were kept, all leaders where they were, no configs, and nothing on its way."""
        if not all(it.alive for it in self.brokers.values()):
            raise ValueError("a broker is dead")
        self.topics, self.configs, self.later = copy.deepcopy(self.first), {}, []
        self.forget_flight()

    def forget_flight(self):
        self.most_in_flight = {"adding": {}, "removing": {}, "cluster": 0}
        self.note_flight()

    def lead(self, topic, number, broker):
        """Another leader, as where the one there was away for a while."""
        part = self.topics[topic][number]
        if broker not in part.isr or not self.is_up(broker):
            raise ValueError(f"{broker} is not in sync")
        part.leader, part.epoch = broker, part.epoch + 1

    # -- reassignments (KIP-455)

    def part(self, topic, number):
        return self.topics.get(topic, {}).get(number)

    def revert(self, part):
        """Without what was being added. The order is that of the union, so it may differ from the one before the reassignment."""
        if not [b for b in part.isr if b not in part.adding]:
            return INVALID_REPLICA_ASSIGNMENT
        part.replicas = [b for b in part.replicas if b not in part.adding]
        part.isr = [b for b in part.isr if b in part.replicas]
        part.adding, part.removing, part.copied = [], [], {}
        self.elect(part)
        return NONE

    def reassign(self, topic, number, target):
        part = self.part(topic, number)
        if part is None:
            return UNKNOWN_TOPIC_OR_PARTITION, "The partition does not exist."
        if target is None:
            if not part.in_progress():
                return NO_REASSIGNMENT_IN_PROGRESS, None
            return self.revert(part), None
        known = self.alive() if self.mode == "zk" else self.brokers
        if not target or len(set(target)) != len(target) or not all(b in known for b in target):
            return INVALID_REPLICA_ASSIGNMENT, f"Invalid replica assignment: {target}"
        origin = [b for b in part.replicas if b not in part.adding] if self.mode == "zk" else part.replicas
        full = target + [b for b in origin if b not in target]
        part.adding = [b for b in target if b not in origin]
        part.removing = [b for b in origin if b not in target]
        part.copied = {b: n for b, n in part.copied.items() if b in full}
        part.isr = [b for b in part.isr if b in full]
        part.replicas = full
        self.elect(part)
        self.complete(part)
        self.note_flight()
        return NONE, None

    def alter(self, body):
        out = []
        for topic in body["topics"]:
            parts = []
            for wanted in topic["partitions"]:
                code, message = self.reassign(topic["name"], wanted["partition"], wanted["replicas"])
                parts.append({"partition": wanted["partition"], "error_code": code, "error_message": message})
            out.append({"name": topic["name"], "partitions": parts})
        return {"throttle_time_ms": 0, "error_code": NONE, "error_message": None, "responses": out}

    def listed(self, body):
        asked = None if body["topics"] is None else {(t["name"], p) for t in body["topics"] for p in t["partitions"]}
        out = []
        for name, parts in self.topics.items():
            found = [{"partition": i, "replicas": p.replicas, "adding": p.adding, "removing": p.removing}
                     for i, p in parts.items() if p.in_progress() and (asked is None or (name, i) in asked)]
            if found:
                out.append({"name": name, "partitions": found})
        return {"throttle_time_ms": 0, "error_code": NONE, "error_message": None, "topics": out}

    # -- leaders (KIP-460)

    def elect_leader(self, topic, number, unclean):
        part = self.part(topic, number)
        if part is None:
            return UNKNOWN_TOPIC_OR_PARTITION, "The partition does not exist."
        if unclean:
            if part.leader != -1:
                return ELECTION_NOT_NEEDED, "Leader election not needed for topic partition."
            leader = next((b for b in part.replicas if self.is_up(b)), -1)
            if leader == -1:
                return ELIGIBLE_LEADERS_NOT_AVAILABLE, "No eligible leader."
            part.leader, part.isr, part.epoch = leader, [leader], part.epoch + 1
            return NONE, None
        first = part.replicas[0]
        if part.leader == first:
            return ELECTION_NOT_NEEDED, "Leader election not needed for topic partition."
        if first not in part.isr or not self.is_up(first):
            return PREFERRED_LEADER_NOT_AVAILABLE, "The preferred leader is not available."
        part.leader, part.epoch = first, part.epoch + 1
        return NONE, None

    def elections(self, body):
        named = body["topics"] is not None
        asked = body["topics"] if named else [{"topic": t, "partitions": list(ps)} for t, ps in self.topics.items()]
        out = []
        for topic in asked:
            parts = []
            for number in topic["partitions"]:
                code, message = self.elect_leader(topic["topic"], number, body.get("election_type", 0) == 1)
                if named or code != ELECTION_NOT_NEEDED:
                    parts.append({"partition": number, "error_code": code, "error_message": message})
            out.append({"topic": topic["topic"], "partitions": parts})
        return {"throttle_time_ms": 0, "error_code": NONE, "topics": out}

    # -- looks

    def metadata(self, body, version, broker, host):
        asked = None if body["topics"] is None or (version == 0 and not body["topics"]) else [t["name"] for t in body["topics"]]
        topics = []
        for name in self.topics if asked is None else asked:
            parts = self.topics.get(name)
            topics.append({
                "error_code": UNKNOWN_TOPIC_OR_PARTITION if parts is None else NONE, "name": name,
                "topic_id": uuid.uuid5(uuid.NAMESPACE_OID, name).hex if parts else "0" * 32, "is_internal": name.startswith("__"),
                "topic_authorized_operations": -2147483648,
                "partitions": [{
                    "error_code": LEADER_NOT_AVAILABLE if p.leader == -1 else NONE, "partition": i, "leader": p.leader, "leader_epoch": p.epoch,
                    "replicas": p.replicas, "isr": p.isr, "offline": [b for b in p.replicas if not self.is_up(b)],
                } for i, p in (parts or {}).items()],
            })
        return {
            "throttle_time_ms": 0, "cluster_id": self.id, "topics": topics, "cluster_authorized_operations": -2147483648,
            "controller_id": self.controller if self.mode == "zk" else self.chance.choice(self.alive() or [broker]),
            "brokers": [{"node_id": b.id, "host": host, "port": b.port, "rack": b.rack} for b in self.brokers.values() if b.alive],
        }

    def log_dirs(self, body, broker):
        asked = None if body["topics"] is None else {(t["topic"], p) for t in body["topics"] for p in t["partitions"]}
        topics = []
        for name, parts in self.topics.items():
            found = []
            for i, p in parts.items():
                if broker in p.replicas and (asked is None or (name, i) in asked):
                    has = p.size if broker in p.isr else int(p.copied.get(broker, 0))
                    found.append({"partition": i, "partition_size": has, "offset_lag": p.size - has, "is_future_key": False})
            if found:
                topics.append({"name": name, "partitions": found})
        return {"throttle_time_ms": 0, "error_code": NONE, "results": [{
            "error_code": NONE, "log_dir": self.brokers[broker].log_dir, "topics": topics, "total_bytes": 1 << 40, "usable_bytes": 1 << 39,
        }]}

    # -- topics

    def create_topics(self, body):
        out = []
        for topic in body["topics"]:
            name, code, message = topic["name"], NONE, None
            manual = {a["partition"]: a["brokers"] for a in topic["assignments"]}
            count = len(manual) if manual else max(topic["num_partitions"], 1)
            factor = max(topic["replication_factor"], 1)
            if name in self.topics:
                code, message = TOPIC_ALREADY_EXISTS, f"Topic '{name}' already exists."
            elif manual and (sorted(manual) != list(range(count)) or not all(b in self.brokers for bs in manual.values() for b in bs)):
                code, message = INVALID_REPLICA_ASSIGNMENT, "Invalid replica assignment."
            elif not manual and factor > len(self.alive()):
                code, message = INVALID_REPLICATION_FACTOR, f"Replication factor: {factor} larger than available brokers: {len(self.alive())}."
            elif not body.get("validate_only", False):
                self.create(name, [manual[i] for i in range(count)] if manual else self.spread(count, factor))
                self.configs[(TOPIC, name)] = {c["name"]: c["value"] for c in topic["configs"]}
            out.append({"name": name, "error_code": code, "error_message": message})
        return {"throttle_time_ms": 0, "topics": out}

    def delete_topics(self, body):
        out = []
        for name in body["names"]:
            code = NONE if self.topics.pop(name, None) is not None else UNKNOWN_TOPIC_OR_PARTITION
            self.configs.pop((TOPIC, name), None)
            out.append({"name": name, "error_code": code})
        return {"throttle_time_ms": 0, "responses": out}

    def create_partitions(self, body):
        out = []
        for topic in body["topics"]:
            name, parts, code, message = topic["name"], self.topics.get(topic["name"]), NONE, None
            if parts is None:
                code, message = UNKNOWN_TOPIC_OR_PARTITION, "The topic does not exist."
            elif topic["count"] <= len(parts):
                code, message = INVALID_PARTITIONS, f"Topic currently has {len(parts)} partitions, which is higher than the requested {topic['count']}."
            elif not body["validate_only"]:
                factor, have = len(parts[0].target()), len(parts)
                lists = topic["assignments"] and [a["brokers"] for a in topic["assignments"]] or self.spread(topic["count"], factor)[have:]
                for i, replicas in enumerate(lists):
                    parts[have + i] = Partition(replicas, 1000000)
            out.append({"name": name, "error_code": code, "error_message": message})
        return {"throttle_time_ms": 0, "results": out}

    # -- configs

    def missing(self, kind, name, broker):
        """Why a broker can't speak of a resource's configs, or NONE. A broker's own are asked of itself."""
        if kind == TOPIC:
            return NONE if name in self.topics else UNKNOWN_TOPIC_OR_PARTITION
        return NONE if kind == BROKER and name in ("", str(broker)) else INVALID_REQUEST

    def altered(self, resource, incremental, broker):
        kind, name = resource["resource_type"], resource["resource_name"]
        code = self.missing(kind, name, broker)
        if code:
            return code, f"No such resource here: {name}", None
        held = dict(self.configs.get((kind, name), {})) if incremental else {}
        for config in resource["configs"]:
            key, value, operation = config["name"], config["value"], config.get("operation", 0)
            items = [x for x in (held.get(key) or "").split(",") if x]
            if operation == 1:
                held.pop(key, None)
            elif value is None:
                return INVALID_REQUEST, f"Null value not supported for {key}", None
            elif operation == 0:
                held[key] = value
            elif operation == 2:
                held[key] = ",".join(items + [x for x in value.split(",") if x not in items])
            elif operation == 3:
                held[key] = ",".join(x for x in items if x not in value.split(","))
            else:
                return INVALID_REQUEST, f"Unknown operation {operation}", None
            if key.endswith("throttled.rate") and operation == 0 and not value.isdigit():
                return INVALID_CONFIG, f"Invalid value {value} for configuration {key}", None
        return NONE, None, held

    def alter_configs(self, body, incremental, broker):
        out = []
        for resource in body["resources"]:
            code, message, held = self.altered(resource, incremental, broker)
            if held is not None and not body["validate_only"]:
                self.configs[(resource["resource_type"], resource["resource_name"])] = held
            out.append({"error_code": code, "error_message": message, "resource_type": resource["resource_type"],
                        "resource_name": resource["resource_name"]})
        return {"throttle_time_ms": 0, "responses": out}

    def describe_configs(self, body, broker):
        out = []
        for resource in body["resources"]:
            kind, name = resource["resource_type"], resource["resource_name"]
            code = self.missing(kind, name, broker)
            held = self.configs.get((kind, name), {})
            source = 1 if kind == TOPIC else 2
            out.append({
                "error_code": code, "error_message": None, "resource_type": kind, "resource_name": name,
                "configs": [{
                    "name": key, "value": value, "read_only": False, "is_default": False, "config_source": source, "is_sensitive": False,
                    "synonyms": [], "config_type": 2, "documentation": None,
                } for key, value in held.items() if resource["config_names"] is None or key in resource["config_names"]],
            })
        return {"throttle_time_ms": 0, "results": out}

    # -- for tests

    def shown(self):
        return {
            "now": round(self.now, 3), "mode": self.mode, "controller": self.controller,
            "brokers": {str(b.id): {"alive": b.alive, "port": b.port, "rack": b.rack} for b in self.brokers.values()},
            "partitions": [{
                "topic": t, "partition": i, "replicas": p.replicas, "adding": p.adding, "removing": p.removing, "isr": p.isr,
                "leader": p.leader, "size": p.size, "copied": {str(b): int(n) for b, n in p.copied.items()},
            } for t, ps in self.topics.items() for i, p in ps.items()],
            "configs": [{"type": k, "name": n, "values": v} for (k, n), v in self.configs.items() if v],
            "most_in_flight": {"cluster": self.most_in_flight["cluster"],
                               "adding": {str(b): n for b, n in self.most_in_flight["adding"].items()},
                               "removing": {str(b): n for b, n in self.most_in_flight["removing"].items()}},
        }
