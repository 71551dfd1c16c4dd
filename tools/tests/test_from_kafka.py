"""The tool from-kafka: sizes and loads beside the lists, from what Kafka's scripts print, from a table, and from the brokers themselves."""
import json
import pathlib
import subprocess
import tempfile
import unittest

from places import TOOLS
from sumpharu_tools import sources
from sumpharu_tools.clusters import Fault
from minikafkas import PATIENCE, Minikafka

MB = 1 << 20
DESCRIBED = """Topic: orders\tPartitionCount: 3\tReplicationFactor: 2\tConfigs:
\tTopic: orders\tPartition: 0\tLeader: 1\tReplicas: 1,2\tIsr: 1,2
\tTopic: orders\tPartition: 1\tLeader: 2\tReplicas: 2,3\tIsr: 2,3
\tTopic: orders\tPartition: 2\tLeader: 3\tReplicas: 3,1\tIsr: 3,1
\tTopic: a-b-7\tPartition: 0\tLeader: 3\tReplicas: 3\tIsr: 3
"""


def folder(name, sizes, error=None, is_future=False):
    rows = [{"partition": partition, "size": size, "offsetLag": 0, "isFuture": is_future} for partition, size in sizes.items()]
    return {"logDir": name, "error": error, "partitions": rows}


# What kafka-log-dirs.sh prints: broker 2 has two disks, of which one fails, and a copy under way from one to the other.
LOG_DIRS = {
    "version": 1,
    "brokers": [
        {"broker": 1, "logDirs": [folder("/d", {"orders-0": 5 * MB + 1, "orders-2": 7 * MB})]},
        {"broker": 2, "logDirs": [folder("/e", {"orders-0": 5 * MB}), folder("/f", {}, "KafkaStorageException"),
                                  folder("/g", {"orders-0": 900 * MB}, is_future=True)]},
        {"broker": 3, "logDirs": [folder("/d", {"orders-2": 9 * MB, "a-b-7-0": 1, "gone-0": 3})]},
    ],
}
PRINTED = "Querying brokers for log directories information\nReceived log directory information from brokers 1,2,3\n" + json.dumps(LOG_DIRS) + "\n"
TABLE = """topic,partition,bytes_in,bytes_out,cpu
orders,0,204800,1023.5,0.126
orders,1,NaN,2048,
gone,0,1,1,1
a-b-7,0,0,0,0
"""
CAPACITY = {"brokerCapacities": [{"brokerId": "-1", "capacity": {"DISK": "10", "CPU": "100", "NW_IN": "1000", "NW_OUT": "1000"}}]}


class FromKafka(unittest.TestCase):
    maxDiff = None

    def setUp(self):
        room = tempfile.TemporaryDirectory()
        self.addCleanup(room.cleanup)
        self.room = pathlib.Path(room.name)

    def file(self, name, value):
        path = self.room / name
        path.write_text(value if isinstance(value, str) else json.dumps(value))
        return str(path)

    def tool(self, *words, given=None):
        ran = subprocess.run([TOOLS, *words], input=given, capture_output=True, text=True, timeout=PATIENCE)
        return ran.returncode, ran.stdout, ran.stderr

    def loads(self, out):
        return {f"{it['topic']}-{it['partition']}": it.get("load") for it in json.loads(out)["partitions"]}

    def test_sizes_that_the_script_prints(self):
        words = ("from-kafka", "--describe", "-", "--log-dirs", self.file("dirs", PRINTED), "--capacity", self.file("capacity", CAPACITY))
        code, out, err = self.tool(*words, given=DESCRIBED)
        self.assertEqual(code, 0)
        disk = lambda leader, follower: {"leader": {"DISK": leader}, "follower": {"DISK": follower}}
        self.assertEqual(self.loads(out), {"a-b-7-0": disk(1, 1), "orders-0": disk(6, 5), "orders-1": None, "orders-2": disk(9, 7)})
        self.assertEqual(err.splitlines()[:2], [
            "from-kafka: broker 2 can't read /f: KafkaStorageException",
            "from-kafka: partitions whose size isn't known, which have no DISK: orders-1",
        ])
        # the disk goals speak of these sizes: broker 1 has 6 + 7, of 80 percent of 10
        code, said, _ = self.tool("explain", self.file("cluster", out), "DiskCapacityGoal")
        self.assertEqual(code, 1)
        self.assertIn("  broker 1: DISK 13, 5 above 8 ", said)
        code, said, _ = self.tool("explain", "-", "DiskCapacityGoal", given=json.dumps({**json.loads(out), "brokerCapacities": [
            {"brokerId": "-1", "capacity": {"DISK": "17", "CPU": "1", "NW_IN": "1", "NW_OUT": "1"}}]}))
        self.assertEqual((code, said), (0, "DiskCapacityGoal: met\n"))

    def test_a_table_of_loads(self):
        words = ("from-kafka", "--describe", "-", "--loads", self.file("table", TABLE), "--capacity", self.file("capacity", CAPACITY))
        code, out, err = self.tool(*words, given=DESCRIBED)
        self.assertEqual(code, 0)
        self.assertEqual(self.loads(out), {
            "a-b-7-0": {"leader": {"NW_IN": 0, "NW_OUT": 0, "CPU": 0}, "follower": {"NW_IN": 0}},
            "orders-0": {"leader": {"NW_IN": 200, "NW_OUT": 1, "CPU": 13}, "follower": {"NW_IN": 200}},
            "orders-1": {"leader": {"NW_OUT": 2}},
            "orders-2": None,
        })
        self.assertEqual(json.loads(out)["brokerCapacities"][0]["capacity"]["CPU"], "10000")
        self.assertEqual(err.splitlines()[:6], [
            "from-kafka: partitions that the table of loads doesn't name: orders-2",
            "from-kafka: partitions of the table of loads that the cluster hasn't got: gone-0",
            "from-kafka: partitions without a number for bytes_in in the table of loads: orders-1",
            "from-kafka: partitions without a number for cpu in the table of loads: orders-1",
            "from-kafka: the table of loads has no column follower_cpu",
            "from-kafka: CPU is in hundredths of a percent, in loads and capacities",
        ])
        both = (*words, "--log-dirs", self.file("dirs", PRINTED))
        loads = self.loads(self.tool(*both, given=DESCRIBED)[1])
        self.assertEqual(loads["orders-0"], {"leader": {"NW_IN": 200, "NW_OUT": 1, "CPU": 13, "DISK": 6}, "follower": {"NW_IN": 200, "DISK": 5}})
        self.assertEqual(self.tool("explain", "-", "CpuCapacityGoal", given=out)[0], 0)

    def test_tables_that_are_none(self):
        rows = ["", "a,b\n", "topic,partition\nt,0\n", "topic,partition,cpu,cpu\n", "topic,partition,memory\nt,0,1\n", "topic,partition,cpu\norders,0,x\n",
                "topic,partition,cpu\norders,0,-1\n", "topic,partition,cpu\norders,0,inf\n", "topic,partition,cpu\norders,x,1\n",
                "topic,partition,cpu\norders,0,1\norders,0,1\n", "topic,partition,cpu\norders,0,1,1\n"]
        for text in rows:
            with self.assertRaisesRegex(Fault, "table of loads", msg=text):
                sources.Found().take_loads(text)
        partition = {"partition": "t-0", "size": -1, "isFuture": False}
        rows = ["", "text alone", "{", *map(json.dumps, (
            {"brokers": [{"broker": 1}]}, {"brokers": 5}, {"brokers": [{"broker": 1, "logDirs": [{"partitions": [partition]}]}]}))]
        for text in rows:
            with self.assertRaisesRegex(Fault, "kafka-log-dirs.sh --describe", msg=text):
                sources.Found().take_log_dirs(text)
        for words in (("--loads", self.file("table", "a,b\n")), ("--log-dirs", self.file("dirs", "{")), ("--loads", "/none")):
            code, out, err = self.tool("from-kafka", "--describe", "-", *words, given=DESCRIBED)
            self.assertEqual((code, out, err.count("\n")), (2, "", 1), words)

    def test_asks_the_brokers(self):
        for mode in ("zk", "kraft"):
            with Minikafka("--brokers", "5", "--topic", "t:2:3", "--topic", "u:1:1", "--mode", mode) as kafka:
                kafka.tell("size", "t", "0", 3 * MB + 5)
                kafka.tell("kill", 1)
                code, out, err = self.tool("from-kafka", "--bootstrap", kafka.bootstrap(), "--state", "1=DEAD")
                self.assertEqual(code, 0)
                value = json.loads(out)
                self.assertEqual(value["brokers"], [{"id": 0, "rack": "a"}, {"id": 1, "state": "DEAD"}, *({"id": id, "rack": "abc"[id % 3]} for id in (2, 3, 4))])
                self.assertEqual([it["replicas"] for it in value["partitions"]], [[0, 1, 2], [1, 2, 3], [0]])
                self.assertEqual(self.loads(out)["t-0"], {"leader": {"DISK": 4}, "follower": {"DISK": 4}})
                self.assertEqual(self.loads(out)["u-0"]["leader"], {"DISK": 1})
                self.assertIn("from-kafka: brokers that hold replicas and aren't there: 1; --state ID=DEAD has one drained\n", err)
                kafka.tell("inject", "DescribeLogDirs", "drop")
                code, out, err = self.tool("from-kafka", "--bootstrap", kafka.bootstrap())
                self.assertEqual(code, 0)
                self.assertIn("from-kafka: broker 0 doesn't tell its sizes: ", err)
                self.assertIn("from-kafka: partitions whose size isn't known, which have no DISK: u-0\n", err)
                self.assertEqual(self.loads(out)["u-0"], None)

    def test_nobody_answers(self):
        rows = [("--bootstrap", "127.0.0.1:1"), ("--bootstrap", "127.0.0.1:1", "--describe", "x"), ("--bootstrap", "x"),
                ("--bootstrap", "127.0.0.1:1", "--log-dirs", "x"), ("--bootstrap", "127.0.0.1:1", "--sasl", "PLAIN"), ()]
        for words in rows:
            code, out, err = self.tool("from-kafka", *words)
            self.assertEqual((code, out, err.count("\n")), (2, "", 1), words)


if __name__ == "__main__":
    unittest.main()
