"""The tools, run as a user runs them."""
import contextlib
import hashlib
import io
import json
import os
import pathlib
import shutil
import subprocess
import sys
import tempfile
import unittest

from places import PROGRAM, ROOT, TOOLS
from sumpharu_tools import table
from sumpharu_tools.__main__ import main
from sumpharu_tools.dev.commands import NAMES

DESCRIBED = """Topic: orders\tTopicId: 0kZ\tPartitionCount: 2\tReplicationFactor: 2\tConfigs: segment.bytes=1
\tTopic: orders\tPartition: 0\tLeader: 2\tReplicas: 1,2\tIsr: 1,2\tElr: \tLastKnownElr: \tAdding Replicas: 2\tRemoving Replicas:
\tTopic: orders\tPartition: 1\tLeader: none\tReplicas: 3,1\tIsr: 3
Topic: audit  PartitionCount: 1  ReplicationFactor: 1  Configs:
  Topic: audit  Partition: 0  Leader: 1  Replicas: 1  Isr: 1
"""
CAPACITIES = {
    "brokerCapacities": [
        {"brokerId": "-1", "capacity": {"DISK": "1000", "CPU": "100", "NW_IN": "10", "NW_OUT": "20.7"}, "doc": "others"},
        {"brokerId": "3", "rack": "b", "capacity": {"DISK": {"/a": "300", "/b": "400.0"}, "CPU": {"num.cores": "8"}, "NW_IN": "1", "NW_OUT": "2"}},
        {"brokerId": "9", "rack": "a", "capacity": {"DISK": "5", "CPU": "100", "NW_IN": "10", "NW_OUT": "20"}},
    ]
}
STATE = {
    "KafkaBrokerState": {"ReplicaCountByBrokerId": {"0": 1, "1": 2, "2": 0}},
    "KafkaPartitionState": {
        "offline": [],
        "urp": [{"topic": "t", "partition": 1, "leader": 1, "replicas": [1, 0], "in-sync": [1]}],
        "under-min-isr": [{"topic": "t", "partition": 1, "leader": 1, "replicas": [1, 0], "in-sync": [1]}],
        "other": [{"topic": "t", "partition": 0, "leader": 1, "replicas": [1], "in-sync": [1]}],
    },
    "version": 1,
}
LOAD = {
    "brokers": [
        {"Broker": 0, "Rack": "a", "BrokerState": "DEAD", "DiskCapacityMB": 500.5, "NetworkInCapacity": 60.0, "NetworkOutCapacity": 70.0},
        {"Broker": 1, "Rack": "b", "BrokerState": "BAD_DISKS", "DiskCapacityMB": 500.5, "NetworkInCapacity": 60.0, "NetworkOutCapacity": 70.0},
        {"Broker": 2, "Rack": "b", "BrokerState": "NEW", "DiskCapacityMB": 500.5, "NetworkInCapacity": 60.0, "NetworkOutCapacity": 70.0},
    ],
    "version": 1,
}
PLAN = {
    "version": 1,
    "partitions": [
        {"topic": "orders", "partition": 0, "replicas": [105, 102, 103]},
        {"topic": "orders", "partition": 2, "replicas": [106, 105, 102]},
        {"topic": "payments", "partition": 1, "replicas": [106, 101, 103]},
    ],
}


class Tools(unittest.TestCase):
    maxDiff = None

    def setUp(self):
        room = tempfile.TemporaryDirectory()
        self.addCleanup(room.cleanup)
        self.room = pathlib.Path(room.name)

    def file(self, name, value):
        path = self.room / name
        path.write_text(value if isinstance(value, str) else json.dumps(value))
        return str(path)

    def tool(self, *words, given=None):
        how = {"input": given, "capture_output": True, "text": True, "cwd": ROOT, "timeout": 60}
        ran = subprocess.run([TOOLS, *words], **how)
        return ran.returncode, ran.stdout, ran.stderr

    def call(self, *words):
        """The same in the test's own process, which takes less time."""
        here = os.getcwd()
        os.chdir(ROOT)
        try:
            with contextlib.redirect_stdout(io.StringIO()) as out, contextlib.redirect_stderr(io.StringIO()) as err:
                try:
                    code = main(words)
                except SystemExit as end:
                    code = end.code
        finally:
            os.chdir(here)
        return code, out.getvalue(), err.getvalue()

    def test_help_and_errors_are_short(self):
        names = [name for names in table.groups().values() for name in names]
        self.assertGreater(len(names), 9)
        for name in names:
            code, out, err = self.tool(name, "--help")
            self.assertEqual((code, err), (0, ""), name)
            self.assertTrue(out.startswith(f"usage: sumpharu-tools {name} "), out)
            self.assertIn(table.text_of(name), out)
            code, out, err = self.call(name, "--nothing", "of this")
            self.assertEqual((code, out, err.count("\n")), (2, "", 1), name)
            self.assertTrue(err.startswith(f"{name}: "), err)
        for name in ("from-kafka", "show-plan", "explain", "json-place", "gen-cluster"):
            code, out, err = self.call(name)
            self.assertEqual((code, out, err.count("\n")), (2, "", 1), name)
        bad = self.file("bad", "{")
        good = self.file("good", PLAN)
        zones = "examples/three-zones.json"
        rows = [
            ("show-plan", zones, "/none"),
            ("show-plan", zones, bad),
            ("show-plan", zones, self.file("twice", {"partitions": [{"topic": "orders", "partition": 0, "replicas": [101, 101]}]})),
            ("show-plan", zones, self.file("list", [1])),
            ("show-plan", "examples/three-brokers.json", good),
            ("show-plan", good, good),
            ("show-plan", zones, good, "--htm"),
            ("explain", zones, "RackGoal"),
            ("explain", self.file("unknown", {"version": 1, "brokers": [], "partitions": [{"topic": "t", "partition": 0, "replicas": [1]}]})),
            ("gen-cluster", "one"),
            ("gen-cluster", "1", "--brokers", "-4"),
            ("gen-cluster", "1", "--within", "41"),
            ("gen-cluster", "4", "5"),
            ("gen-cluster", "1", "--even"),
            ("gen-cluster", "--even", "--brokers", "2"),
            ("random-clusters", "1"),
            ("measure-plans", "--sizes", "40"),
            ("measure-plans", "--kinds", "half"),
            ("compare-plans", "--program", "/none"),
            ("compare-plans", "--program", "true"),
            ("executions", "--calls", "x"),
            ("fail-allocations", "plan", "gen"),
            ("fail-allocations", "--program", "/none"),
            ("explain", zones, "--plan"),
            ("explain", zones, "--plans"),
            ("show-plan", zones, good, "--html", "--rollback"),
            ("from-kafka", "--describe", good),
            ("from-kafka", "--describe", bad, "--load", bad),
            ("from-kafka", "--cluster-state", good),
            ("from-kafka", "--cluster-state", self.file("state", STATE), "--state", "7=DEAD"),
            ("from-kafka", "--cluster-state", self.file("state", STATE), "--state", "1=LOST"),
            ("from-kafka", "--cluster-state", self.file("state", STATE), "--load", good),
        ]
        for words in rows:
            code, out, err = self.call(*words)
            self.assertEqual((code, out, err.count("\n")), (2, "", 1), words)
            self.assertTrue(err.startswith(f"{words[0]}: "), err)

    def test_the_entry_has_each_command(self):
        """Each module that can be run is in the table, and is told of by the help; what is no command is told in one line."""
        modules = [path for path in (ROOT / "tools/sumpharu_tools").rglob("*.py") if "\ndef add_arguments(" in path.read_text()]
        names = {group: [*names] for group, names in table.groups().items()}
        self.assertEqual([*names], ["for operators", "for developers of Sumpharu"])
        for names, is_of_developers in zip(names.values(), (False, True)):
            found = [path.stem.replace("_", "-") for path in modules if (path.parent.name == "dev") == is_of_developers]
            self.assertEqual(sorted(names), sorted(found))
        code, out, err = self.call("--help")
        self.assertEqual((code, err), (0, ""))
        for path in modules:
            self.assertRegex(out, rf"(?m)^  {path.stem.replace('_', '-')} +[A-Z].*\.$")
        for words in ([], ["nothing"], ["--nothing"], ["plan", "examples/three-zones.json"]):
            code, out, err = self.call(*words)
            self.assertEqual((code, out, err.count("\n")), (2, "", 1), words)
            self.assertTrue(err.startswith("sumpharu-tools: "), err)

    def test_operators_have_theirs_without_the_others(self):
        """The package for operators, which has no developers' commands, where nothing of the checkout can be found."""
        folder = self.room / "elsewhere/sumpharu_tools"
        folder.mkdir(parents=True)
        for path in (ROOT / "tools/sumpharu_tools").glob("*.py"):
            shutil.copy(path, folder)
        how = {"capture_output": True, "text": True, "cwd": folder.parent, "timeout": 60}
        run = lambda *words: subprocess.run([sys.executable, "-B", "-m", "sumpharu_tools", *words], **how)
        self.assertNotIn("developers", run("--help").stdout)
        self.assertEqual(run("wrong-bodies").returncode, 2)
        for name in table.OPERATORS:
            self.assertEqual(run(name, "--help").returncode, 0, name)

    def test_operands_stand_among_options(self):
        words = ["examples/too-few-racks.json", "EvacuationGoal"]
        plan = ["--plan", self.file("plan", {"partitions": []})]
        for order in ([*words, *plan], [words[0], *plan, words[1]], [*plan, *words], ["--all", words[0], *plan, words[1]]):
            self.assertEqual(self.call("explain", *order), (0, "EvacuationGoal: met\n", ""))

    def test_operands_behind_two_dashes(self):
        (self.room / "--bad").write_text("[1,")
        ran = subprocess.run([TOOLS, "json-place", "--", "--bad"], cwd=self.room, capture_output=True, text=True, timeout=60)
        self.assertEqual((ran.returncode, ran.stderr), (0, ""))
        self.assertIn("line 1, column 4", ran.stdout)

    def test_clusters_that_are_made(self):
        """The same bytes as ever, by their sums: of drawn clusters that measurements were made with, and of even ones."""
        rows = [
            ("1", "18ecef8a7c046770"),
            ("2", "6ec60f22b8e961e3"),
            ("3", "006b684eb5c90ad3"),
            ("1 --brokers 12 --partitions 120", "52769518159e853f"),
            ("1 --brokers 12 --partitions 120 --lost 0", "2fe54cf943e2a831"),
            ("1 --brokers 11 --new 1 --partitions 120", "d27836438c15fe15"),
            ("1 --brokers 12 --partitions 120 --within 1", "fe41ada19def4dee"),
            ("--even --brokers 200 --partitions 10000", "5c1326b3b622242f"),
            ("--even --brokers 200 --partitions 10000 --lost 0", "c1ccab4549bbda20"),
            ("--even --brokers 8 --partitions 30", "09c6776875ad1c31"),
        ]
        for words, wanted in rows:
            code, out, err = self.call("gen-cluster", *words.split())
            self.assertEqual((code, hashlib.sha256(out.encode()).hexdigest()[:16], err), (0, wanted, ""), words)

    @unittest.skipUnless(PROGRAM.exists(), "the program isn't built")
    def test_clusters_are_those_of_the_program(self):
        for words in ("7 --brokers 6 --partitions 30", "1 --brokers 1 --partitions 3", "2147483647"):
            made = subprocess.run([PROGRAM, "gen", *words.split(), "--file"], capture_output=True, text=True, timeout=60)
            wanted, found = json.loads(made.stdout), json.loads(self.tool("gen-cluster", *words.split())[1])
            for it in found["brokers"]:
                self.assertEqual(it.pop("state"), "ALIVE")
            self.assertEqual({**wanted, "version": 1}, found)

    def test_malformed_files_are_one_line(self):
        """A file that another tool would refuse is told in one line, whatever is wrong with it."""
        zones = ROOT / "examples/three-zones.json"
        changes = [
            lambda it: it["partitions"][0].update(replicas=[]),
            lambda it: it["partitions"][0].update(replicas=[101, 101]),
            lambda it: it["partitions"][0].update(replicas="101"),
            lambda it: it["partitions"][0].update(topic=["t"]),
            lambda it: it["partitions"][0].update(load={"leader": {"DISK": "5"}}),
            lambda it: it["partitions"][0].update(load=[]),
            lambda it: it["brokers"][0].update(rack={}),
            lambda it: it["brokers"][0].update(state="LOST"),
            lambda it: it["brokers"][0].update(id="101"),
            lambda it: it.update(config={"disk.capacity.threshold": "-1"}),
            lambda it: it.update(config=[]),
            lambda it: it.update(brokerCapacities=[{"brokerId": "-1", "capacity": {"DISK": "x"}}]),
            lambda it: it.update(version=2, minTopicLeaders=[{"topic": "orders", "leaders": "1"}]),
            lambda it: it.update(
                config={"partition.metrics.window.ms": 0}, samples=[{"topic": "orders", "partition": 0, "time": 1, "load": {}}]
            ),
        ]
        for at, change in enumerate(changes):
            value = json.loads(zones.read_text())
            change(value)
            code, out, err = self.tool("explain", self.file("changed", value))
            self.assertEqual((code, out, err.count("\n")), (2, "", 1), (at, err))
        deep = self.file("deep", "[" * 100000)
        inputs = [
            (["explain", deep], None),
            (["show-plan", zones, self.file("plan", {"partitions": [{"topic": "orders", "partition": 0, "replicas": "x"}]})], None),
            (["from-kafka", "--describe", "-"], "Partition: 0 Replicas: 1,2"),
            (["from-kafka", "--describe", "-"], "Topic: t Partition: 0 Replicas: 1,x"),
            (["from-kafka", "--describe", "-"], "Topic: t Partition: 0 Replicas: 1,1"),
            (["from-kafka", "--describe", zones, "--capacity", "-"], json.dumps(CAPACITIES)),
            (["from-kafka", "--cluster-state", "-"], json.dumps(STATE).replace('"partition": 1', '"partition": 1e999')),
            (["from-kafka", "--cluster-state", "-", "--capacity", self.file("c", CAPACITIES)], json.dumps(STATE).replace('"topic": "t"', '"topic": null')),
            (["from-kafka", "--cluster-state", self.file("s", STATE), "--load", "-"], json.dumps(LOAD).replace("500.5", "1e999")),
            (["from-kafka", "--cluster-state", self.file("s", STATE), "--load", "-"], json.dumps(LOAD).replace('"b"', '"\\ud800"')),
        ]
        for words, given in inputs:
            code, out, err = self.tool(*words, given=given)
            self.assertEqual((code, out, err.count("\n")), (2, "", 1), (words, err))

    def test_shows_a_plan(self):
        code, out, err = self.tool("show-plan", "examples/three-zones.json", "-", given=json.dumps(PLAN))
        self.assertEqual((code, err), (0, ""))
        first, _, *lines = out.splitlines()
        self.assertEqual(first, "2 of 8 partitions change: 1 replica moves (0 MB), 2 leaders change")
        cells = [line.split() for line in lines]
        self.assertIn(["orders-0", "101,102,103", "105,102,103", "101", "105", "0", "101", "->", "105"], cells)
        self.assertIn(["orders-2", "105,106,102", "106,105,102", "-", "-", "0", "105", "->", "106"], cells)
        self.assertIn(["101", "zone-a", "ALIVE", "6", "->", "5", "2", "->", "1", "0", "0", "0", "0"], cells)
        self.assertIn(["RackAwareGoal", "hard", "4", "3", "better"], cells)
        self.assertNotIn("payments-1", out)

    def test_counts_what_is_copied(self):
        loads = {"leader": {"DISK": 1000}, "follower": {"DISK": 900}}
        value = {"version": 1, "brokers": [{"id": id} for id in (1, 2, 3, 4)], "partitions": [{"topic": "t", "partition": 0, "replicas": [1, 2], "load": loads}]}
        plan = {"partitions": [{"topic": "t", "partition": 0, "replicas": [3, 4]}]}
        out = self.tool("show-plan", self.file("c", value), self.file("p", plan))[1]
        self.assertTrue(out.startswith("1 of 1 partition change: 2 replicas move (1,900 MB), 1 leader changes\n"), out)

    def longer_and_shorter(self):
        """The files of a cluster, of a plan that grows topic t, moves one of its replicas and cuts topic u, and the value of the cluster."""
        loads = {"leader": {"DISK": 1000}, "follower": {"DISK": 900}}
        lists = {"t": [[1, 2], [2, 1]], "u": [[1, 2, 3]], "v": [[4, 1]]}
        parts = [{"topic": topic, "partition": at, "replicas": it, "load": loads} for topic, all in lists.items() for at, it in enumerate(all)]
        value = {"version": 1, "brokers": [{"id": id} for id in (1, 2, 3, 4)], "partitions": parts}
        after = [("t", 0, [1, 2, 3, 4]), ("t", 1, [3, 1, 4]), ("u", 0, [3])]
        plan = {"partitions": [{"topic": topic, "partition": at, "replicas": members} for topic, at, members in after]}
        return self.file("cluster", value), self.file("plan", plan), value

    def test_shows_lists_that_get_longer_and_shorter(self):
        cluster, plan, value = self.longer_and_shorter()
        code, out, err = self.tool("show-plan", cluster, plan)
        self.assertEqual((code, err), (0, ""))
        first, _, *lines = out.splitlines()
        summary = "3 of 4 partitions change: 1 replica moves, 3 replicas are added (3,700 MB), 2 replicas are removed, 2 leaders change"
        self.assertEqual(first, summary)
        cells = [line.split() for line in lines]
        for row in (
            ["t-0", "1,2", "1,2,3,4", "-", "3,4", "1800", "stays"],
            ["t-1", "2,1", "3,1,4", "2", "3,4", "1900", "2", "->", "3"],
            ["u-0", "1,2,3", "3", "1,2", "-", "0", "1", "->", "3"],
            ["1", "-", "ALIVE", *"4 -> 3 2 -> 1 0 0 0 3800 -> 2800".split()],
            ["3", "-", "ALIVE", *"1 -> 3 0 -> 2 0 0 0 900 -> 2900".split()],
            # Of nine replicas, and then of ten, two or three are to be on each broker.
            ["ReplicaDistributionGoal", "soft", "3", "1", "better"],
        ):
            self.assertIn(row, cells)
        self.assertNotIn("v-0", out)
        page = self.tool("show-plan", cluster, plan, "--html")[1]
        for part in (f"<p>{summary}.</p>", "<td>1, 2, <ins>3</ins>, <ins>4</ins></td>", "<td><del>1</del>, <del>2</del>, 3</td><td>3</td>"):
            self.assertIn(part, page)

    def test_takes_back_lists_that_get_longer_and_shorter(self):
        cluster, plan, value = self.longer_and_shorter()
        code, back, err = self.tool("show-plan", cluster, plan, "--rollback")
        self.assertEqual((code, err), (0, ""))
        old = [{"topic": it["topic"], "partition": it["partition"], "replicas": it["replicas"]} for it in value["partitions"][:3]]
        self.assertEqual(json.loads(back)["partitions"], old)
        for it, new in zip(value["partitions"], json.loads(pathlib.Path(plan).read_text())["partitions"]):
            it["replicas"] = new["replicas"]
        out = self.tool("show-plan", self.file("after", value), self.file("back", back))[1]
        summary = "3 of 4 partitions change: 1 replica moves, 2 replicas are added (2,900 MB), 3 replicas are removed, 2 leaders change"
        self.assertEqual(out.splitlines()[0], summary)
        forth = json.loads(self.tool("show-plan", self.file("after", value), self.file("back", back), "--rollback")[1])
        self.assertEqual(forth["partitions"], json.loads(pathlib.Path(plan).read_text())["partitions"])

    def test_takes_a_plan_back(self):
        zones = ROOT / "examples/three-zones.json"
        plan = self.file("plan", PLAN)
        code, out, _ = self.tool("show-plan", zones, plan, "--rollback")
        back = '{"partitions":[{"partition":0,"replicas":[101,102,103],"topic":"orders"},{"partition":2,"replicas":[105,106,102],"topic":"orders"}],"version":1}\n'
        self.assertEqual((code, out), (0, back))
        value = json.loads(zones.read_text())
        for it in value["partitions"]:
            moved = [new["replicas"] for new in PLAN["partitions"] if (new["topic"], new["partition"]) == (it["topic"], it["partition"])]
            it["replicas"] = moved[0] if moved else it["replicas"]
        code, out, _ = self.tool("show-plan", self.file("after", value), self.file("back", back), "--rollback")
        forth = [it for it in PLAN["partitions"] if it["topic"] == "orders"]
        self.assertEqual(json.loads(out)["partitions"], forth)

    def test_writes_a_page(self):
        value = {
            "version": 1,
            "brokers": [{"id": 7, "rack": "<a>"}, {"id": 8, "state": "DEAD"}],
            "brokerCapacities": [{"brokerId": "-1", "capacity": {"DISK": "100", "CPU": "0", "NW_IN": "10", "NW_OUT": "10"}}],
            "partitions": [{"topic": "t", "partition": 0, "replicas": [8], "load": {"leader": {"DISK": 90, "CPU": 5}}}],
        }
        plan = {"partitions": [{"topic": "t", "partition": 0, "replicas": [7]}]}
        code, out, err = self.tool("show-plan", self.file("c", value), self.file("p", plan), "--html")
        self.assertEqual((code, err), (0, ""))
        for part in ("rack &lt;a&gt;, 1 broker<", "<del>8</del>", "<ins>7</ins>", "0 → <strong>90</strong>", "above 80", "above 0", "DEAD"):
            self.assertIn(part, out)
        for part in ("<script", "http", "src=", "<a>", "@import", "url("):
            self.assertNotIn(part, out)

    def test_explains(self):
        code, out, _ = self.tool("explain", "examples/too-few-racks.json", "EvacuationGoal", "RackAwareGoal")
        self.assertEqual(code, 1)
        lines = [
            "EvacuationGoal: met",
            "RackAwareGoal: not met, measure 2",
            "  audit-0: 3 replicas on 2 racks: dc-1 has brokers 1, 2",
            "  audit-2: 2 replicas on 1 rack: dc-2 has brokers 3, 4",
            "  no plan meets it: a partition has 3 replicas, and the brokers that aren't lost stand on 2 racks",
        ]
        self.assertEqual(out.splitlines(), lines)
        load = {"leader": {"DISK": 70, "NW_OUT": 9}, "follower": {"DISK": 70}}
        value = {
            "version": 2,
            "brokers": [{"id": 1}, {"id": 2}, {"id": 3, "state": "DEAD"}, {"id": 4, "state": "DEMOTED"}],
            "brokerCapacities": [{"brokerId": "-1", "capacity": {"DISK": "100", "CPU": "100", "NW_IN": "10", "NW_OUT": "10"}}],
            "partitions": [{"topic": "t", "partition": n, "replicas": [1, 3], "load": load} for n in range(2)],
            "config": {"max.replicas.per.broker": 1, "disk.capacity.threshold": "0.85"},
            "minTopicLeaders": [{"topic": "t", "leaders": 2}, {"topic": "u", "leaders": 9}],
        }
        code, out, _ = self.tool("explain", self.file("c", value))
        self.assertEqual(code, 1)
        for line in (
            "  t-0: 1 replica on lost brokers: 3",
            "  topic t on broker 2: leads 0 partitions, 2 below the 2 of minTopicLeaders",
            "  no plan meets it: the brokers that may lead, 2 in all, owe 4 leaders of topic t, which has 2 partitions",
            "  broker 1: 2 replicas, 1 above max.replicas.per.broker = 1",
            "  no plan meets it: all brokers that aren't lost may hold 3 replicas together, and there are 4",
            "  broker 1: DISK 140, 55 above 85 (disk.capacity.threshold 0.85 of its capacity 100)",
            "  no plan meets it: all brokers that aren't lost may carry 255 of DISK together, and the load is 280",
            "  broker 1: NW_OUT 18, 10 above 8 (network.outbound.capacity.threshold 0.8 of its capacity 10)",
        ):
            self.assertIn(line, out.splitlines())
        value["brokers"][2]["rack"], value["brokers"][0]["rack"], value["brokers"][1]["rack"] = "b", "a", "a"
        del value["brokers"][3]
        lines = [
            "RackAwareGoal: met, but not once nothing is left on lost brokers",
            "  no plan meets it: a partition has 2 replicas, and the brokers that aren't lost stand on 1 rack",
        ]
        code, out, _ = self.tool("explain", self.file("r", value), "RackAwareGoal")
        self.assertEqual((code, out.splitlines()), (1, lines))
        value["brokers"].append({"id": 4, "state": "DEMOTED"})
        plan = {"partitions": [{"topic": "t", "partition": n, "replicas": [n + 1, 4]} for n in range(2)]}
        self.assertEqual(self.tool("explain", self.file("c", value), "--plan", self.file("p", plan), "EvacuationGoal")[:2], (0, "EvacuationGoal: met\n"))

    def test_makes_a_file_of_what_kafka_says(self):
        words = ("--describe", "-", "--capacity", self.file("capacity", CAPACITIES), "--state", "2=DEAD", "--state", "9=NEW")
        code, out, err = self.tool("from-kafka", *words, given=DESCRIBED)
        self.assertEqual(code, 0)
        self.assertIn("on these brokers, which were named beside the partitions: 9\n", err)
        self.assertIn("partitions that another replica leads than their first, which the file takes as the leader: 1\n", err)
        self.assertIn("partitions that are being reassigned just now, of which the file has all replicas: 1\n", err)
        disk = lambda disk, into, out: {"DISK": disk, "CPU": "100", "NW_IN": into, "NW_OUT": out}
        wanted = {
            "version": 1,
            "brokers": [{"id": 1}, {"id": 2, "state": "DEAD"}, {"id": 3, "rack": "b"}, {"id": 9, "rack": "a", "state": "NEW"}],
            "brokerCapacities": [
                {"brokerId": "-1", "capacity": disk("1000", "10", "20")},
                {"brokerId": "3", "capacity": disk("700", "1", "2")},
                {"brokerId": "9", "capacity": disk("5", "10", "20")},
            ],
            "partitions": [
                {"topic": "audit", "partition": 0, "replicas": [1]},
                {"topic": "orders", "partition": 0, "replicas": [1, 2]},
                {"topic": "orders", "partition": 1, "replicas": [3, 1]},
            ],
        }
        self.assertEqual(json.loads(out), wanted)

    def test_the_examples_of_kafka_make_a_file(self):
        code, out, err = self.tool("from-kafka", "--describe", "examples/topics.txt", "--capacity", "examples/capacity.json")
        self.assertEqual((code, err), (0, ""))
        value = json.loads(out)
        self.assertEqual(value["brokers"], [{"id": 1, "rack": "zone-a"}, {"id": 2, "rack": "zone-a"}, {"id": 3, "rack": "zone-b"}])
        self.assertEqual(value["brokerCapacities"][1]["capacity"], {"CPU": "100", "NW_IN": "50000", "NW_OUT": "50000", "DISK": "600000"})
        self.assertEqual(self.tool("explain", "-", "RackAwareGoal", given=out)[1].splitlines()[0], "RackAwareGoal: not met, measure 2")

    def test_makes_a_file_of_what_cruise_control_says(self):
        code, out, err = self.tool("from-kafka", "--cluster-state", self.file("state", STATE), "--load", self.file("load", LOAD))
        self.assertEqual(code, 0)
        self.assertIn("broker 1 is BAD_DISKS, which a cluster file doesn't know", err)
        capacity = {"DISK": "500", "CPU": "100", "NW_IN": "60", "NW_OUT": "70"}
        wanted = {
            "version": 1,
            "brokers": [{"id": 0, "rack": "a", "state": "DEAD"}, {"id": 1, "rack": "b"}, {"id": 2, "rack": "b", "state": "NEW"}],
            "brokerCapacities": [{"brokerId": str(id), "capacity": capacity} for id in range(3)],
            "partitions": [{"topic": "t", "partition": 0, "replicas": [1]}, {"topic": "t", "partition": 1, "replicas": [1, 0]}],
        }
        self.assertEqual(json.loads(out), wanted)
        code, _, err = self.tool("from-kafka", "--cluster-state", self.file("state", STATE), "--capacity", self.file("capacity", CAPACITIES))
        self.assertEqual(code, 0)
        few = {"brokerCapacities": CAPACITIES["brokerCapacities"][1:]}
        code, _, err = self.tool("from-kafka", "--cluster-state", self.file("state", STATE), "--capacity", self.file("few", few))
        self.assertEqual((code, err), (2, "from-kafka: no capacity is known of broker 0: give an entry for it, or one for all others, in --capacity\n"))

    def test_random_executions_are_those_of_the_executors_tests(self):
        def squeezed(text):
            return "".join(text.split()).replace(",)", ")").replace(",]", "]")

        code, out, err = self.tool("executions")
        self.assertEqual((code, err), (0, ""))
        self.assertEqual(squeezed(out), squeezed((ROOT / "crates/executor_tests/src/random.rt").read_text()))

    def test_manual_and_completion_are_those_of_the_help(self):
        self.assertEqual(self.tool("make-manual", "--check"), (0, "", ""))
        page = (ROOT / "docs/sumpharu.1").read_text()
        self.assertIn("\n.B check FILE TRACE\nsays whether a planner\\(aqs trace is good", page)
        rows = [
            (["pl"], "plan"),
            (["--"], "--help --version"),
            (["help", ""], " ".join(sorted(NAMES))),
            (["check", "examples/three-brokers.t"], "examples/three-brokers.trace.json"),
            (["check", "a", "examples/three-brokers.t"], "examples/three-brokers.trace.json"),
            (["plan", "a", "--"], "--excluded-topics --goals --help --skip-hard-goal-check --trace"),
            (["plan", "a", "--goals", "R"], ""),
            (["check", "a", "b", "--goals", "RackAwareGoal", "--s"], "--skip-hard-goal-check"),
            (["session", "a", "--m"], "--movers"),
            (["serve", "a", "--li"], "--links --listen"),
            (["plam", ""], ""),
        ]
        for words, wanted in rows:
            line = 'source docs/sumpharu.bash; COMP_WORDS=("$@"); COMP_CWORD=$(($# - 1)); _sumpharu; printf "%s\\n" "${COMPREPLY[@]}" | sort | xargs'
            ran = subprocess.run(["bash", "-c", line, "bash", "sumpharu", *words], cwd=ROOT, capture_output=True, text=True)
            self.assertEqual((ran.stdout.strip(), ran.stderr), (wanted, ""), words)


if __name__ == "__main__":
    unittest.main()
