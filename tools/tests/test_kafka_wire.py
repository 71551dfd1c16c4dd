"""Kafka's messages, as tools write and read them, beside bytes that others made: of sarama's tests, and of the table of the tests' cluster."""
import importlib.util
import pathlib
import random
import unittest

HERE = pathlib.Path(__file__).resolve().parent
import places  # has the tools' package found
from sumpharu_tools import kafka_wire as ours
from sumpharu_tools.kafka_sign_in import Denied, Scram, SignIn, plain_message
from sumpharu_tools.kafka_wire import Change, Fields, Malformed, Move, Node, Resource, Seen, Size
from outside_bytes import BODIES


def other_table():
    """The table of messages of the tests' cluster, which shares no code with the tools."""
    spec = importlib.util.spec_from_file_location("minikafka_wire", HERE / "minikafka/wire.py")
    module = importlib.util.module_from_spec(spec)
    spec.loader.exec_module(module)
    return module


theirs = other_table()
TOPIC = ours.TOPIC


def body(name):
    return bytes.fromhex(BODIES[name])


class OutsideBytes(unittest.TestCase):
    def test_requests(self):
        one = Change("segment.ms", ours.SET, "1000")
        two = Change("retention.ms", ours.DELETE, "1000")
        foo, bar = Resource(TOPIC, "foo"), Resource(TOPIC, "bar")
        rows = [
            ("alterPartitionReassignmentsRequestNoBlock", ours.alter_body({}, 10000)),
            ("alterPartitionReassignmentsRequestOneBlock", ours.alter_body({("topic", 0): [1000, 1001]}, 10000)),
            ("alterPartitionReassignmentsAbortRequest", ours.alter_body({("topic", 0): None}, 10000)),
            ("electLeadersRequestOneTopic", ours.elect_body([("topic", 0)], 10000)),
            ("emptyIncrementalAlterConfigsRequest", ours.alter_configs_body({})),
            ("singleIncrementalAlterConfigsRequest", ours.alter_configs_body({foo: [one]})),
            ("doubleIncrementalAlterConfigsRequest", ours.alter_configs_body({foo: [one], bar: [two]})),
            ("emptyDescribeLogDirsRequest", ours.log_dirs_body()),
            ("baseSaslRequest", ours.handshake_body("foo")),
            ("saslAuthenticateRequest", ours.authenticate_body(b"foo")),
        ]
        for name, made in rows:
            self.assertEqual(made, body(name), name)

    def test_answers(self):
        foo = Resource(TOPIC, "foo")
        rows = [
            ("alterPartitionReassignmentsResponseNoError", ours.ALTER_REASSIGNMENTS, ours.read_asked, (0, {})),
            ("alterPartitionReassignmentsResponseWithError", ours.ALTER_REASSIGNMENTS, ours.read_asked, (12, {("topic", 1): 3})),
            ("listPartitionReassignmentsResponse", ours.LIST_REASSIGNMENTS, ours.read_moves,
             (0, {("topic", 1): Move([1000, 1001], [1002, 1003], [1004, 1005])})),
            ("electLeadersResponseOneTopic", ours.ELECT_LEADERS, ours.read_elected, (0, {("topic", 0): 0})),
            ("incrementalAlterResponseEmpty", ours.ALTER_CONFIGS, ours.read_altered, {}),
            ("incrementalAlterResponsePopulated", ours.ALTER_CONFIGS, ours.read_altered, {foo: 0}),
            ("describeLogDirsResponseEmpty", ours.DESCRIBE_LOG_DIRS, ours.read_log_dirs, ({}, [])),
            ("describeLogDirsResponseTwoPartitions", ours.DESCRIBE_LOG_DIRS, ours.read_log_dirs,
             ({"/kafka": 0}, [Size("random", 25, 125, False), Size("random", 26, 100, False)])),
            ("noBrokersNoTopicsWithThrottleTimeAndClusterIDV3", ours.METADATA, ours.read_metadata, ours.Metadata({}, 1, {}, {})),
            ("noBrokersOneTopicWithOfflineReplicasV5", ours.METADATA, ours.read_metadata,
             ours.Metadata({}, 2, {"foo": 0}, {("foo", 1): Seen(7, [1, 2, 3], [1, 2])})),
            ("OneTopicV6", ours.METADATA, ours.read_metadata,
             ours.Metadata({0: Node(0, "host", 9092, None)}, 1, {"tony": 0}, {("tony", 0): Seen(0, [0, 1, 2], [0, 1, 2])})),
            ("apiVersionResponse", ours.API_VERSIONS, ours.read_versions, (0, {3: (2, 1)})),
            ("describeConfigsResponsePopulatedv1", ours.DESCRIBE_CONFIGS, ours.read_configs, {foo: (0, {})}),
            ("describeConfigsResponseWithSynonymv1", ours.DESCRIBE_CONFIGS, ours.read_configs, {foo: (0, {})}),
            ("describeConfigsResponseWithDefaultv1", ours.DESCRIBE_CONFIGS, ours.read_configs, {foo: (0, {})}),
            ("saslHandshakeResponse", ours.SASL_HANDSHAKE, ours.read_handshake, (0, ["foo"])),
            ("saslAuthenticateResponseErr", ours.SASL_AUTHENTICATE, ours.read_authenticated, (58, "err", b"msg")),
        ]
        for name, message, read, wanted in rows:
            self.assertEqual(read(Fields(body(name), message.is_flexible)), wanted, name)
            self.check_whole(name, message, read, body(name))

    def check_whole(self, name, message, read, data):
        """No front of an answer is one, nor is one with a byte after it."""
        for data in [*(data[:count] for count in range(len(data))), data + b"\0"]:
            with self.assertRaises(Malformed, msg=name):
                read(Fields(data, message.is_flexible))

    def test_all_bodies_are_used(self):
        text = pathlib.Path(__file__).read_text()
        self.assertEqual([name for name in BODIES if f'"{name}"' not in text], [])


class OtherTable(unittest.TestCase):
    """Random messages, written by one side and read by the other."""

    def setUp(self):
        self.rng = random.Random(5)

    def ids(self):
        return [self.rng.randrange(1 << 20) for _ in range(self.rng.choice([1, 2, 3, 200]))]

    def keys(self):
        names = ["a", "b" * 200, "c.d_e-f"]
        return {(self.rng.choice(names), self.rng.randrange(1000)) for _ in range(self.rng.choice([1, 9, 150]))}

    def read_by_them(self, message, made):
        """What the other table reads of a whole request."""
        data = ours.request_bytes(message, 77, "me", made)
        key, version, correlation, client, reader = theirs.read_header(data)
        self.assertEqual((key, version, correlation, client), (message.key, message.version, 77, "me"))
        self.assertEqual(theirs.is_flexible(key, version), message.is_flexible)
        return theirs.read_request(key, version, reader)

    def test_requests(self):
        by_key = lambda topics, name: {(it[name], p["partition"]): p["replicas"] for it in topics for p in it["partitions"]}
        for _ in range(8):
            targets = {key: self.rng.choice([None, self.ids()]) for key in self.keys()}
            read = self.read_by_them(ours.ALTER_REASSIGNMENTS, ours.alter_body(targets, 99))
            self.assertEqual((read["timeout_ms"], by_key(read["topics"], "name")), (99, targets))
            read = self.read_by_them(ours.ELECT_LEADERS, ours.elect_body(targets, 98))
            named = {(it["topic"], number) for it in read["topics"] for number in it["partitions"]}
            self.assertEqual((read["election_type"], read["timeout_ms"], named), (0, 98, set(targets)))
        rows = [
            (ours.METADATA, ours.metadata_body(), {"topics": None, "allow_auto_topic_creation": False}),
            (ours.LIST_REASSIGNMENTS, ours.list_body(5), {"timeout_ms": 5, "topics": None}),
            (ours.DESCRIBE_LOG_DIRS, ours.log_dirs_body(), {"topics": None}),
            (ours.DESCRIBE_CONFIGS, ours.describe_configs_body([Resource(4, "7")], ["x", "y"]),
             {"resources": [{"resource_type": 4, "resource_name": "7", "config_names": ["x", "y"]}], "include_synonyms": False}),
            (ours.SASL_HANDSHAKE, ours.handshake_body("PLAIN"), {"mechanism": "PLAIN"}),
            (ours.SASL_AUTHENTICATE, ours.authenticate_body(b"\0x"), {"auth_bytes": "0078"}),
        ]
        for message, made, wanted in rows:
            self.assertEqual(self.read_by_them(message, made), wanted, message.name)

    def written_by_them(self, message, content):
        data = theirs.response_bytes(message.key, message.version, 77, content)
        return ours.answer_fields(message, 77, data), data

    def test_answers(self):
        for _ in range(8):
            keys = self.keys()
            moves = {key: Move(self.ids(), self.ids(), self.ids()) for key in keys}
            topics = [{"name": name, "partitions": [{"partition": number, "replicas": it.replicas, "adding": it.adding, "removing": it.removing}]}
                      for (name, number), it in moves.items()]
            content = {"throttle_time_ms": 1, "error_code": 0, "error_message": None, "topics": topics}
            fields, data = self.written_by_them(ours.LIST_REASSIGNMENTS, content)
            self.assertEqual(ours.read_moves(fields), (0, moves))
            self.check_junk(ours.LIST_REASSIGNMENTS, ours.read_moves, data)
            seen = {key: Seen(self.rng.randrange(-1, 9), self.ids(), self.ids()) for key in keys}
            topics = [{"error_code": 0, "name": name, "is_internal": False, "partitions": [
                {"error_code": 5, "partition": number, "leader": it.leader, "replicas": it.replicas, "isr": it.in_sync, "offline": [1]}]}
                for (name, number), it in seen.items()]
            content = {"throttle_time_ms": 0, "brokers": [{"node_id": 3, "host": "h", "port": 9, "rack": "r"}], "cluster_id": None,
                       "controller_id": 3, "topics": topics}
            fields, data = self.written_by_them(ours.METADATA, content)
            read = ours.read_metadata(fields)
            self.assertEqual((read.nodes, read.partitions), ({3: Node(3, "h", 9, "r")}, seen))
            self.check_junk(ours.METADATA, ours.read_metadata, data)

    def check_junk(self, message, read, data):
        """Bytes that were changed at random are read to some value or are Malformed, and nothing else."""
        for _ in range(10):
            changed = bytearray(data)
            for _ in range(3):
                changed[self.rng.randrange(4, len(data))] = self.rng.randrange(256)
            try:
                read(ours.answer_fields(message, 77, bytes(changed)))
            except Malformed:
                pass

    def test_another_requests_answer_is_none(self):
        with self.assertRaises(Malformed):
            ours.answer_fields(ours.METADATA, 3, b"\0\0\0\4")

    def test_every_version_is_one_that_the_other_table_has(self):
        messages = [it for it in vars(ours).values() if isinstance(it, ours.Message)]
        self.assertEqual(len(messages), 10)
        for it in messages:
            name, (first, last) = theirs.MESSAGES[it.key][:2]
            self.assertTrue(name == it.name and first <= it.version <= last, it)


class SigningIn(unittest.TestCase):
    def test_scram_is_that_of_the_rfc(self):
        """The example of RFC 7677, section 3."""
        scram = Scram(SignIn("SCRAM-SHA-256", "user", "pencil"), "rOprNGfwEbeRWgbNEkqO")
        self.assertEqual(scram.first(), b"n,,n=user,r=rOprNGfwEbeRWgbNEkqO")
        nonce = "rOprNGfwEbeRWgbNEkqO%hvYDpWUa2RaTCAfuxFIlj)hNlF$k0"
        last = scram.last(f"r={nonce},s=W22ZaJ0SNY7soEsUEjb6gQ==,i=4096".encode())
        self.assertEqual(last.decode(), f"c=biws,r={nonce},p=dHzbZapWIk4jUhN+Ute9ytag9zjfMHgsqmmiz7AndVQ=")
        scram.check(b"v=6rriTRBi23WpRR/wtup+mMhUZUn/dB5nLTJRsjl95G4=")
        for bad in (b"v=6rriTRBi23WpRR/wtup+mMhUZUn/dB5nLTJRsjl95G5=", b"e=other-error", b""):
            with self.assertRaises(Denied):
                scram.check(bad)

    def test_a_server_that_cheats_is_refused(self):
        scram = lambda: Scram(SignIn("SCRAM-SHA-512", "a=b,c", "x"), "abc")
        self.assertEqual(scram().first(), b"n,,n=a=3Db=2Cc,r=abc")
        for challenge in (b"r=abcd,s=AAAA,i=4095", b"r=abc,s=AAAA,i=4096", b"r=zbcd,s=AAAA,i=4096", b"r=abcd,s=A,i=4096", b"r=abcd,s=AAAA,i=x",
                          b"r=abcd,s=AAAA", b"", b"\xff", b"r=abcd,s=AAAA,i=99999999999"):
            with self.assertRaises(Denied, msg=challenge):
                scram().last(challenge)

    def test_plain(self):
        self.assertEqual(plain_message(SignIn("PLAIN", "u", "p\u00e4")), b"\0u\0p\xc3\xa4")

    def test_a_password_is_in_no_text(self):
        self.assertNotIn("pencil", repr(SignIn("PLAIN", "user", "pencil")) + str(SignIn("PLAIN", "user", "pencil")))


if __name__ == "__main__":
    unittest.main()
