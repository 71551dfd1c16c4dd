"""Kafka's messages as bytes, both ways: what each version of each message has, in order.

A message is a dict. A field that a version doesn't have is left out when it is read and passed over when it is written.
A string or an array that may be null is None then. Bytes that spell no message raise Malformed, as do bytes after one.
"""
import struct

HIGH = 1 << 30


class Malformed(Exception):
    pass


# A field: its name, its kind, and the first and last version that have it. Kinds: "i8" .. "i64", "bool", "uuid", "str", "nstr" (may be null),
# "bytes", array(kind), nullable(kind) which may be null; a list of fields stands for a struct.
def f(name, kind, first=0, last=HIGH):
    return (name, kind, first, last)


def array(kind):
    return ("array", kind, False)


def nullable(kind):
    return ("array", kind, True)


TOPIC_PARTITIONS = [f("topic", "str"), f("partitions", array("i32"))]

# Key: (name, versions, first flexible version, request, response)
API_VERSIONS, METADATA, CREATE_TOPICS, DELETE_TOPICS, DESCRIBE_CONFIGS, ALTER_CONFIGS = 18, 3, 19, 20, 32, 33
DESCRIBE_LOG_DIRS, CREATE_PARTITIONS, ELECT_LEADERS, INCREMENTAL_ALTER_CONFIGS = 35, 37, 43, 44
ALTER_REASSIGNMENTS, LIST_REASSIGNMENTS = 45, 46
SASL_HANDSHAKE, SASL_AUTHENTICATE = 17, 36
# What brokers tell of themselves and nobody here may ask: the message that only a broker of a ZooKeeper cluster takes, and one that KRaft alone has.
LEADER_AND_ISR, DESCRIBE_QUORUM = 4, 55

MESSAGES = {
    API_VERSIONS: ("ApiVersions", (0, 3), 3, [
        f("client_software_name", "str", 3), f("client_software_version", "str", 3),
    ], [
        f("error_code", "i16"),
        f("api_keys", array([f("api_key", "i16"), f("min_version", "i16"), f("max_version", "i16")])),
        f("throttle_time_ms", "i32", 1),
    ]),
    METADATA: ("Metadata", (0, 10), 9, [
        f("topics", nullable([f("topic_id", "uuid", 10), f("name", "str", 0, 9), f("name", "nstr", 10)])),
        f("allow_auto_topic_creation", "bool", 4),
        f("include_cluster_authorized_operations", "bool", 8), f("include_topic_authorized_operations", "bool", 8),
    ], [
        f("throttle_time_ms", "i32", 3),
        f("brokers", array([f("node_id", "i32"), f("host", "str"), f("port", "i32"), f("rack", "nstr", 1)])),
        f("cluster_id", "nstr", 2), f("controller_id", "i32", 1),
        f("topics", array([
            f("error_code", "i16"), f("name", "str"), f("topic_id", "uuid", 10), f("is_internal", "bool", 1),
            f("partitions", array([
                f("error_code", "i16"), f("partition", "i32"), f("leader", "i32"), f("leader_epoch", "i32", 7),
                f("replicas", array("i32")), f("isr", array("i32")), f("offline", array("i32"), 5),
            ])),
            f("topic_authorized_operations", "i32", 8),
        ])),
        f("cluster_authorized_operations", "i32", 8),
    ]),
    SASL_HANDSHAKE: ("SaslHandshake", (0, 1), HIGH, [f("mechanism", "str")], [f("error_code", "i16"), f("mechanisms", array("str"))]),
    SASL_AUTHENTICATE: ("SaslAuthenticate", (0, 2), 2, [f("auth_bytes", "bytes")], [
        f("error_code", "i16"), f("error_message", "nstr"), f("auth_bytes", "bytes"), f("session_lifetime_ms", "i64", 1),
    ]),
    CREATE_TOPICS: ("CreateTopics", (0, 4), HIGH, [
        f("topics", array([
            f("name", "str"), f("num_partitions", "i32"), f("replication_factor", "i16"),
            f("assignments", array([f("partition", "i32"), f("brokers", array("i32"))])),
            f("configs", array([f("name", "str"), f("value", "nstr")])),
        ])),
        f("timeout_ms", "i32"), f("validate_only", "bool", 1),
    ], [
        f("throttle_time_ms", "i32", 2),
        f("topics", array([f("name", "str"), f("error_code", "i16"), f("error_message", "nstr", 1)])),
    ]),
    DELETE_TOPICS: ("DeleteTopics", (0, 3), HIGH, [
        f("names", array("str")), f("timeout_ms", "i32"),
    ], [
        f("throttle_time_ms", "i32", 1), f("responses", array([f("name", "str"), f("error_code", "i16")])),
    ]),
    CREATE_PARTITIONS: ("CreatePartitions", (0, 1), HIGH, [
        f("topics", array([f("name", "str"), f("count", "i32"), f("assignments", nullable([f("brokers", array("i32"))]))])),
        f("timeout_ms", "i32"), f("validate_only", "bool"),
    ], [
        f("throttle_time_ms", "i32"),
        f("results", array([f("name", "str"), f("error_code", "i16"), f("error_message", "nstr")])),
    ]),
    DESCRIBE_CONFIGS: ("DescribeConfigs", (0, 4), 4, [
        f("resources", array([f("resource_type", "i8"), f("resource_name", "str"), f("config_names", nullable("str"))])),
        f("include_synonyms", "bool", 1), f("include_documentation", "bool", 3),
    ], [
        f("throttle_time_ms", "i32"),
        f("results", array([
            f("error_code", "i16"), f("error_message", "nstr"), f("resource_type", "i8"), f("resource_name", "str"),
            f("configs", array([
                f("name", "str"), f("value", "nstr"), f("read_only", "bool"), f("is_default", "bool", 0, 0),
                f("config_source", "i8", 1), f("is_sensitive", "bool"),
                f("synonyms", array([f("name", "str"), f("value", "nstr"), f("source", "i8")]), 1),
                f("config_type", "i8", 3), f("documentation", "nstr", 3),
            ])),
        ])),
    ]),
    ALTER_CONFIGS: ("AlterConfigs", (0, 1), HIGH, [
        f("resources", array([
            f("resource_type", "i8"), f("resource_name", "str"),
            f("configs", array([f("name", "str"), f("value", "nstr")])),
        ])),
        f("validate_only", "bool"),
    ], [
        f("throttle_time_ms", "i32"),
        f("responses", array([
            f("error_code", "i16"), f("error_message", "nstr"), f("resource_type", "i8"), f("resource_name", "str"),
        ])),
    ]),
    DESCRIBE_LOG_DIRS: ("DescribeLogDirs", (0, 4), 2, [
        f("topics", nullable(TOPIC_PARTITIONS)),
    ], [
        f("throttle_time_ms", "i32"), f("error_code", "i16", 3),
        f("results", array([
            f("error_code", "i16"), f("log_dir", "str"),
            f("topics", array([
                f("name", "str"),
                f("partitions", array([
                    f("partition", "i32"), f("partition_size", "i64"), f("offset_lag", "i64"), f("is_future_key", "bool"),
                ])),
            ])),
            f("total_bytes", "i64", 4), f("usable_bytes", "i64", 4),
        ])),
    ]),
    ELECT_LEADERS: ("ElectLeaders", (0, 2), 2, [
        f("election_type", "i8", 1), f("topics", nullable(TOPIC_PARTITIONS)), f("timeout_ms", "i32"),
    ], [
        f("throttle_time_ms", "i32"), f("error_code", "i16", 1),
        f("topics", array([
            f("topic", "str"),
            f("partitions", array([f("partition", "i32"), f("error_code", "i16"), f("error_message", "nstr")])),
        ])),
    ]),
    INCREMENTAL_ALTER_CONFIGS: ("IncrementalAlterConfigs", (0, 1), 1, [
        f("resources", array([
            f("resource_type", "i8"), f("resource_name", "str"),
            f("configs", array([f("name", "str"), f("operation", "i8"), f("value", "nstr")])),
        ])),
        f("validate_only", "bool"),
    ], [
        f("throttle_time_ms", "i32"),
        f("responses", array([
            f("error_code", "i16"), f("error_message", "nstr"), f("resource_type", "i8"), f("resource_name", "str"),
        ])),
    ]),
    ALTER_REASSIGNMENTS: ("AlterPartitionReassignments", (0, 0), 0, [
        f("timeout_ms", "i32"),
        f("topics", array([f("name", "str"), f("partitions", array([f("partition", "i32"), f("replicas", nullable("i32"))]))])),
    ], [
        f("throttle_time_ms", "i32"), f("error_code", "i16"), f("error_message", "nstr"),
        f("responses", array([
            f("name", "str"),
            f("partitions", array([f("partition", "i32"), f("error_code", "i16"), f("error_message", "nstr")])),
        ])),
    ]),
    LIST_REASSIGNMENTS: ("ListPartitionReassignments", (0, 0), 0, [
        f("timeout_ms", "i32"), f("topics", nullable([f("name", "str"), f("partitions", array("i32"))])),
    ], [
        f("throttle_time_ms", "i32"), f("error_code", "i16"), f("error_message", "nstr"),
        f("topics", array([
            f("name", "str"),
            f("partitions", array([
                f("partition", "i32"), f("replicas", array("i32")), f("adding", array("i32")), f("removing", array("i32")),
            ])),
        ])),
    ]),
}

KEYS = {message[0]: key for key, message in MESSAGES.items()}
NUMBERS = {"i8": (">b", 1), "i16": (">h", 2), "i32": (">i", 4), "i64": (">q", 8)}


def is_flexible(key, version):
    return version >= MESSAGES[key][2]


class Reader:
    def __init__(self, data):
        self.data, self.at = data, 0

    def take(self, n):
        if n < 0 or self.at + n > len(self.data):
            raise Malformed(f"{n} bytes wanted at {self.at} of {len(self.data)}")
        self.at += n
        return self.data[self.at - n:self.at]

    def number(self, kind):
        form, n = NUMBERS[kind]
        return struct.unpack(form, self.take(n))[0]

    def varint(self):
        value = 0
        for shift in range(0, 35, 7):
            byte = self.take(1)[0]
            value |= (byte & 127) << shift
            if byte < 128:
                return value
        raise Malformed("a varint of more than 5 bytes")

    def length(self, flexible, wide):
        """A length, or -1 for null."""
        return self.varint() - 1 if flexible else self.number("i32" if wide else "i16")

    def text(self, flexible, may_be_null):
        n = self.length(flexible, False)
        if n == -1 and may_be_null:
            return None
        if n < 0:
            raise Malformed(f"a string of length {n}")
        try:
            return self.take(n).decode()
        except UnicodeDecodeError as e:
            raise Malformed(str(e))

    def tags(self):
        for _ in range(self.varint()):
            self.varint()
            self.take(self.varint())

    def value(self, kind, version, flexible):
        if isinstance(kind, list):
            return self.fields(kind, version, flexible)
        if isinstance(kind, tuple):
            n = self.length(flexible, True)
            if n == -1 and kind[2]:
                return None
            if n < 0 or n > len(self.data) - self.at:
                raise Malformed(f"an array of length {n}")
            return [self.value(kind[1], version, flexible) for _ in range(n)]
        if kind in NUMBERS:
            return self.number(kind)
        if kind == "bool":
            return self.take(1)[0] != 0
        if kind == "uuid":
            return self.take(16).hex()
        if kind == "bytes":
            return self.take(self.length(flexible, True)).hex()
        return self.text(flexible, kind == "nstr")

    def fields(self, fields, version, flexible):
        out = {name: self.value(kind, version, flexible) for name, kind, first, last in fields if first <= version <= last}
        if flexible:
            self.tags()
        return out

    def end(self):
        if self.at != len(self.data):
            raise Malformed(f"{len(self.data) - self.at} bytes after the message")


class Writer:
    def __init__(self):
        self.out = bytearray()

    def number(self, kind, n):
        self.out += struct.pack(NUMBERS[kind][0], n)

    def varint(self, n):
        while n >= 128:
            self.out.append(n & 127 | 128)
            n >>= 7
        self.out.append(n)

    def length(self, n, flexible, wide):
        if flexible:
            self.varint(n + 1)
        else:
            self.number("i32" if wide else "i16", n)

    def value(self, kind, x, version, flexible):
        if isinstance(kind, list):
            self.fields(kind, x, version, flexible)
        elif isinstance(kind, tuple):
            if x is None and not kind[2]:
                raise Malformed("null in an array that can't be")
            self.length(-1 if x is None else len(x), flexible, True)
            for item in x or []:
                self.value(kind[1], item, version, flexible)
        elif kind in NUMBERS:
            self.number(kind, x)
        elif kind == "bool":
            self.out.append(1 if x else 0)
        elif kind == "uuid":
            self.out += bytes.fromhex(x)
        elif kind == "bytes":
            self.length(len(x) // 2, flexible, True)
            self.out += bytes.fromhex(x)
        else:
            if x is None and kind != "nstr":
                raise Malformed("null in a string that can't be")
            data = None if x is None else x.encode()
            self.length(-1 if data is None else len(data), flexible, False)
            self.out += data or b""

    def fields(self, fields, x, version, flexible):
        for name, kind, first, last in fields:
            if first <= version <= last:
                self.value(kind, x[name], version, flexible)
        if flexible:
            self.varint(0)


def frame(body):
    return struct.pack(">i", len(body)) + body


def read_header(data):
    """Key, version, correlation id, client id, and a reader that stands at the body."""
    r = Reader(data)
    key, version, correlation = r.number("i16"), r.number("i16"), r.number("i32")
    client = r.text(False, True)
    if key in MESSAGES and is_flexible(key, version):
        r.tags()
    return key, version, correlation, client, r


def read_request(key, version, r):
    body = r.fields(MESSAGES[key][3], version, is_flexible(key, version))
    r.end()
    return body


def response_bytes(key, version, correlation, body):
    w = Writer()
    w.number("i32", correlation)
    flexible = is_flexible(key, version)
    if flexible and key != API_VERSIONS:
        w.varint(0)
    w.fields(MESSAGES[key][4], body, version, flexible)
    return bytes(w.out)


def request_bytes(key, version, correlation, client, body):
    w = Writer()
    w.number("i16", key)
    w.number("i16", version)
    w.number("i32", correlation)
    w.value("nstr", client, version, False)
    flexible = is_flexible(key, version)
    if flexible:
        w.varint(0)
    w.fields(MESSAGES[key][3], body, version, flexible)
    return bytes(w.out)


def read_response(key, version, data):
    r = Reader(data)
    correlation = r.number("i32")
    flexible = is_flexible(key, version)
    if flexible and key != API_VERSIONS:
        r.tags()
    body = r.fields(MESSAGES[key][4], version, flexible)
    r.end()
    return correlation, body
