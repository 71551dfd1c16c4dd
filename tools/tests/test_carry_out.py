"""The tool carry-out, run as an operator runs it, on a cluster of the tests' own: its lines, its statuses, throttles, and how it signs in."""
import json
import os
import pathlib
import pty
import shutil
import signal
import subprocess
import tempfile
import time
import unittest

from minikafkas import PATIENCE, Minikafka
from places import TOOLS

QUICK = ("--every", "0.02", "--settle", "0.1", "--timeout", "60")
PASSWORD = "p\u00e4ss,w=rd"


class CarryOut(unittest.TestCase):
    maxDiff = None

    def setUp(self):
        room = tempfile.TemporaryDirectory()
        self.addCleanup(room.cleanup)
        self.room = pathlib.Path(room.name)

    def file(self, name, value):
        path = self.room / name
        path.write_text(value if isinstance(value, str) else json.dumps(value))
        return str(path)

    def kafka(self, *words, mode="zk", tick="0.05", rate="20000000", topic="t:4:2"):
        it = Minikafka("--brokers", "6", "--topic", topic, "--mode", mode, "--rate", rate, "--tick", tick, *words)
        self.addCleanup(it.close)
        return it

    def files(self, kafka, plan, config=None):
        """The cluster file of what there is, and a plan for it."""
        partitions = [{"topic": topic, "partition": number, "replicas": it["replicas"]} for (topic, number), it in kafka.partitions().items()]
        cluster = {"version": 1, "brokers": [{"id": id} for id in kafka.ports], "partitions": partitions, "config": config or {}}
        entries = [{"topic": topic, "partition": number, "replicas": members} for (topic, number), members in plan.items()]
        return self.file("cluster", cluster), self.file("plan", {"version": 1, "partitions": entries})

    def tool(self, kafka, files, *words, env=None):
        words = [TOOLS, "carry-out", *files, "--bootstrap", kafka.bootstrap(), *QUICK, *words]
        ran = subprocess.run(words, capture_output=True, text=True, timeout=PATIENCE, env={**os.environ, **(env or {})})
        return ran.returncode, ran.stdout, ran.stderr

    def lists(self, kafka):
        return {key: it["replicas"] for key, it in kafka.partitions().items()}


PLAN = {("t", 0): [3, 4], ("t", 1): [2, 1], ("t", 3): [3, 5]}


class Runs(CarryOut):
    def test_a_plan_is_carried_out_and_taken_back(self):
        for mode in ("zk", "kraft"):
            kafka = self.kafka(mode=mode)
            files, first = self.files(kafka, PLAN, {"num.concurrent.partition.movements.per.broker": 1, "max.num.cluster.movements": 1}), self.lists(kafka)
            code, out, err = self.tool(kafka, files, "--dry-run")
            self.assertEqual((code, err), (0, ""))
            self.assertEqual(out.splitlines(), [
                "3 partitions: 2 to move replicas, 1 to change the order alone; at once at most 1 for a broker, 1 in all, 1,000 of the order",
                "t-0: 0,1 to 3,4: ask for its list, and have 3 elected where it doesn't lead then",
                "t-3: 3,4 to 3,5: ask for its list",
                "t-1: 1,2 to 2,1: ask for its list, and have 2 elected where it doesn't lead then",
            ])
            self.assertEqual(self.lists(kafka), first)
            code, out, err = self.tool(kafka, files)
            self.assertEqual((code, err), (0, ""))
            self.assertEqual(out.splitlines()[-1][:42], "done: waiting 0, in flight 0, done 3, refu")
            self.assertEqual(self.lists(kafka), {**first, **PLAN})
            self.assertEqual([it["leader"] for it in kafka.partitions().values()], [3, 2, 2, 3])
            self.assertEqual(kafka.tell("state")["most_in_flight"]["cluster"], 1)
            code, out, _ = self.tool(kafka, files)
            self.assertEqual((code, out.count("\n")), (0, 3), "it is done already, which one look says")
            code, out, err = self.tool(kafka, files, "--back", "--json")
            self.assertEqual((code, err), (0, ""))
            events = [json.loads(line) for line in out.splitlines()]
            self.assertEqual([it["event"] for it in events][:2], ["begin", "settle"])
            self.assertEqual({it["state"] for it in events[-1]["tasks"]}, {"done"})
            self.assertEqual((events[-1]["status"], self.lists(kafka)), (0, first))

    def test_what_it_says_to_machines(self):
        kafka = self.kafka()
        kafka.tell("kill", 5)
        code, out, err = self.tool(kafka, self.files(kafka, PLAN), "--json")
        events = [json.loads(line) for line in out.splitlines()]
        self.assertEqual((code, err), (1, ""))
        kinds = [it["event"] for it in events]
        self.assertEqual(kinds[:2], ["begin", "missing brokers"])
        self.assertTrue({"ask", "elect", "progress"} <= set(kinds))
        self.assertEqual(kinds[-1], "end")
        states = {(it["topic"], it["partition"]): (it["state"], it["codes"][-1:]) for it in events[-1]["tasks"]}
        self.assertEqual(states, {("t", 0): ("done", [0]), ("t", 1): ("done", [0]), ("t", 3): ("refused", [39])})
        self.assertEqual((events[1]["brokers"], events[-1]["status"]), ([5], 1))

    def test_what_is_refused_is_told(self):
        kafka = self.kafka()
        kafka.tell("kill", 5)
        code, out, _ = self.tool(kafka, self.files(kafka, PLAN))
        self.assertEqual(code, 1)
        self.assertIn("brokers that are wanted and aren't there: 5\n", out)
        self.assertIn("refused: t-3 to 3,5: Kafka says 39 INVALID_REPLICA_ASSIGNMENT\n", out)
        self.assertTrue(out.splitlines()[-1].startswith("done, and some refused: "), out)

    def test_looks_run_out(self):
        kafka = self.kafka(rate="0", mode="kraft")
        files = self.files(kafka, PLAN, {"max.num.cluster.movements": 1})
        code, out, err = self.tool(kafka, files, "--looks", "4")
        self.assertEqual((code, err), (3, ""))
        self.assertIn("in flight: t-0 to 3,4: in sync are 0,1\n", out)
        self.assertIn("waiting: t-1 to 2,1: not asked for\n", out)
        kafka.tell("kill", 4)
        code, out, _ = self.tool(kafka, files, "--looks", "4")
        self.assertEqual(code, 3)
        self.assertIn("in flight: t-0 to 3,4: broker 4 isn't there\n", out)
        kafka.tell("revive", 4)
        kafka.tell("rate", 10**9)
        self.assertEqual(self.tool(kafka, files)[0], 0)

    def test_nothing_is_asked_where_the_cluster_is_another(self):
        kafka = self.kafka(rate="0")
        files = self.files(kafka, PLAN)
        asked = lambda: kafka.tell("log")["requests"].get("AlterPartitionReassignments", 0)
        kafka.tell("reassign", "t", 2, "2,5")
        code, out, err = self.tool(kafka, files)
        self.assertEqual((code, out, err), (4, "", "carry-out: t-2 is being reassigned to 2,5, which isn't this plan's\n"))
        kafka.tell("finish", "t", 2)
        code, out, err = self.tool(kafka, files, "--json")
        self.assertEqual((code, err), (4, "carry-out: t-2 has 2,5, and not 2,3\n"))
        self.assertEqual(json.loads(out), {"event": "end", "status": 4, "reason": "t-2 has 2,5, and not 2,3", "tasks": []})
        other = {"version": 1, "brokers": [{"id": id} for id in range(6)], "partitions": [{"topic": "t", "partition": n, "replicas": [5, 0]} for n in range(4)]}
        code, _, err = self.tool(kafka, (self.file("other", other), files[1]))
        self.assertEqual((code, err.count("\n"), err.splitlines()[0]), (4, 4, "carry-out: t-0 has 0,1, and not 5,0 or 3,4"))
        kafka.tell("delete", "t")
        self.assertEqual(self.tool(kafka, files)[0], 4)
        self.assertEqual(asked(), 0)

    def test_it_gives_way(self):
        kafka = self.kafka(rate="0", mode="kraft")
        files = self.files(kafka, PLAN, {"max.num.cluster.movements": 1})
        process = self.start(kafka, files)
        self.wait_until(lambda: kafka.partitions()["t", 0]["adding"])
        kafka.tell("reassign", "t", 2, "2,5")
        kafka.tell("rate", 10**9)
        out, _ = process.communicate(timeout=PATIENCE)
        self.assertEqual(process.returncode, 6)
        self.assertIn("t-2 is changed by somebody else: nothing more is started\n", out)
        self.assertEqual(self.lists(kafka)["t", 3], [3, 4])

    def start(self, kafka, files, *words):
        words = [TOOLS, "carry-out", *files, "--bootstrap", kafka.bootstrap(), *QUICK, *words]
        process = subprocess.Popen(words, stdout=subprocess.PIPE, stderr=subprocess.PIPE, text=True)
        self.addCleanup(process.wait, PATIENCE)
        self.addCleanup(process.kill)
        self.addCleanup(process.stdout.close)
        self.addCleanup(process.stderr.close)
        return process

    def wait_until(self, holds, seconds=PATIENCE):
        last = time.monotonic() + seconds
        while not holds():
            self.assertLess(time.monotonic(), last, "it didn't come to that")
            time.sleep(0.01)

    def test_killed_and_begun_again(self):
        """A run that is killed goes on by the same command, and one that is interrupted says what it leaves."""
        plan = {("t", number): [(number + 2) % 6, (number + 4) % 6, (number + 5) % 6] for number in range(8)}
        kafka = self.kafka(topic="t:8:3", rate="4000000")
        files = self.files(kafka, plan, {"num.concurrent.partition.movements.per.broker": 1, "max.num.cluster.movements": 2})
        for rest in (0.0, 0.02, 0.1):
            process = self.start(kafka, files)
            asked = kafka.tell("log")["requests"].get("AlterPartitionReassignments", 0)
            self.wait_until(lambda: kafka.tell("log")["requests"].get("AlterPartitionReassignments", 0) > asked)
            time.sleep(rest)
            process.kill()
            process.wait(PATIENCE)
        process = self.start(kafka, files)
        self.assertTrue(process.stdout.readline())
        process.send_signal(signal.SIGTERM)
        self.assertIn(process.wait(PATIENCE), (130, 0))
        self.assertEqual(self.tool(kafka, files)[0], 0)
        self.assertEqual(self.lists(kafka), plan)
        most = kafka.tell("state")["most_in_flight"]
        self.assertLessEqual(most["cluster"], 2)
        self.assertLessEqual(max([*most["adding"].values(), *most["removing"].values()]), 1)

    def test_a_terminal_has_one_line_that_moves(self):
        kafka = self.kafka()
        main, other = pty.openpty()
        words = [TOOLS, "carry-out", *self.files(kafka, PLAN), "--bootstrap", kafka.bootstrap(), *QUICK]
        process = subprocess.Popen(words, stdout=other, stderr=subprocess.PIPE)
        os.close(other)
        data = b""
        try:
            while True:
                data += os.read(main, 4096)
        except OSError:
            os.close(main)
        self.assertEqual((process.wait(PATIENCE), process.stderr.read()), (0, b""))
        process.stderr.close()
        lines = data.decode().replace("\r\n", "\n").splitlines(keepends=True)
        self.assertGreater(data.count(b"\r\x1b[K"), 2)
        self.assertRegex(data.decode(), r"\r\x1b\[Kwaiting \d, in flight \d, done \d, refused 0, [\d.]+ minutes")
        self.assertTrue(lines[-1].startswith("done: "), lines)


class Throttled(CarryOut):
    def configs(self, kafka):
        return {it["name"]: it["values"] for it in kafka.tell("state")["configs"]}

    def test_throttles_are_set_told_and_removed(self):
        kafka = self.kafka(rate="0")
        files = self.files(kafka, PLAN)
        code, out, err = self.tool(kafka, files, "--throttle", "123456", "--looks", "3")
        self.assertEqual((code, err), (3, ""))
        self.assertIn("throttled: leader.replication.throttled.rate=123456, follower.replication.throttled.rate=123456: broker 0, broker 1, broker 3, "
                      "broker 4, broker 5\n", out)
        self.assertIn("; throttles stay until then, or until --unthrottle: ", out)
        rates = {f"{side}.replication.throttled.rate": "123456" for side in ("leader", "follower")}
        topic = {"leader.replication.throttled.replicas": "0:0,0:1,3:3,3:4", "follower.replication.throttled.replicas": "0:3,0:4,3:5"}
        self.assertEqual(self.configs(kafka), {**{str(id): rates for id in (0, 1, 3, 4, 5)}, "t": topic})
        # a run without a throttle says that there is one, and leaves it
        code, out, _ = self.tool(kafka, files, "--looks", "3")
        self.assertIn("throttled already: follower.replication.throttled.rate=123456, leader.replication.throttled.rate=123456: broker 0, ", out)
        self.assertEqual(len(self.configs(kafka)), 6)
        kafka.tell("rate", 10**8)
        code, out, _ = self.tool(kafka, files, "--throttle", "50000000")
        self.assertEqual((code, self.configs(kafka)), (0, {}))
        self.assertIn("no longer throttled: ", out)

    def test_those_of_a_killed_run_are_removed(self):
        """Of a list only what the run put there; a list that is for all replicas isn't the run's."""
        kafka = self.kafka(rate="0")
        files = self.files(kafka, PLAN)
        self.assertEqual(self.tool(kafka, files, "--throttle", "5", "--looks", "1")[0], 3)
        code, out, err = self.tool(kafka, files, "--unthrottle")
        self.assertEqual((code, err, self.configs(kafka)), (0, "", {}))
        self.assertIn("no longer throttled: leader.replication.throttled.rate, follower.replication.throttled.rate: broker 0, ", out)
        self.assertEqual(self.tool(kafka, files, "--unthrottle"), (0, "", ""))
        kafka.tell("rate", 10**9)
        self.assertEqual(self.tool(kafka, files)[0], 0)
        kafka.tell("rate", 0)
        self.assertEqual(self.tool(kafka, files, "--back", "--throttle", "5", "--looks", "1", "--settle", "0")[0], 3)
        self.assertEqual(self.configs(kafka)["t"], {"leader.replication.throttled.replicas": "0:3,0:4,3:3,3:5", "follower.replication.throttled.replicas": "0:0,0:1,3:4"})
        self.assertEqual((self.tool(kafka, files, "--unthrottle")[0], self.configs(kafka)), (0, {}), "those of the way back too")
        kafka.tell("reset")
        kafka.tell("rate", 0)
        kafka.tell("inject", "IncrementalAlterConfigs", "drop", 1)
        code, out, _ = self.tool(kafka, files, "--throttle", "5", "--looks", "1")
        self.assertEqual((code, len(self.configs(kafka))), (3, 6), "an answer that is missing is asked for again")

    def test_nothing_is_asked_where_throttles_cant_be_set(self):
        kafka = self.kafka()
        files, first = self.files(kafka, PLAN), self.lists(kafka)
        kafka.tell("inject", "IncrementalAlterConfigs", "error:29", 3)
        code, out, err = self.tool(kafka, files, "--throttle", "5")
        self.assertEqual((code, err), (7, "carry-out: throttles couldn't be set; --unthrottle removes those that were\n"))
        self.assertIn("throttles aren't known or changed: topic t: IncrementalAlterConfigs: 29 TOPIC_AUTHORIZATION_FAILED: topic t\n", out)
        self.assertEqual(self.lists(kafka), first)

    def test_they_are_slower(self):
        """What is throttled is copied at the rate, as the cluster has it."""
        kafka = self.kafka(rate="1000000000", tick="0")
        files = self.files(kafka, {("t", 0): [0, 3]})
        self.assertEqual(self.tool(kafka, files, "--throttle", "100000", "--looks", "1")[0], 3)
        kafka.tell("advance", 5)
        self.assertEqual(kafka.partitions()["t", 0]["copied"], {"3": 500000})


class Connections(CarryOut):
    def test_nobody_listens(self):
        kafka = self.kafka()
        files = self.files(kafka, PLAN)
        kafka.tell("stop")
        kafka.process.wait(PATIENCE)
        code, out, err = self.tool(kafka, files)
        self.assertEqual((code, out, err), (5, "", f"carry-out: {kafka.bootstrap()}: Connection refused\n"))

    def test_sign_in(self):
        word = self.file("word", PASSWORD + "\n")
        for at, mechanism in enumerate(("PLAIN", "SCRAM-SHA-256", "SCRAM-SHA-512")):
            kafka = self.kafka("--sasl", f"{mechanism}:a=n,n:{PASSWORD}", mode=("zk", "kraft")[at % 2])
            files, how = self.unsigned_files(), ("--sasl", mechanism, "--user", "a=n,n")
            code, _, err = self.tool(kafka, files, *how, "--password-file", word)
            self.assertEqual((code, err.count("\n")), (0, mechanism == "PLAIN"), err)
            self.assertEqual(self.lists(kafka)["t", 0], [3, 4])
            code, out, err = self.tool(kafka, files, *how, env={"SUMPHARU_KAFKA_PASSWORD": "nothing"})
            self.assertEqual((code, out), (5, ""))
            self.assertIn("58 SASL_AUTHENTICATION_FAILED", err)
            self.assertNotIn("nothing", err)
        self.assertEqual(self.tool(kafka, files, *how, "--dry-run", env={"SUMPHARU_KAFKA_PASSWORD": PASSWORD})[0], 0)
        code, _, err = self.tool(kafka, files, "--sasl", "PLAIN", "--user", "a=n,n", "--password-file", word)
        self.assertIn("doesn't take PLAIN: 33 UNSUPPORTED_SASL_MECHANISM; it has SCRAM-SHA-512", err)
        self.assertEqual(code, 5)
        self.assertNotIn(PASSWORD, err)
        code, out, err = self.tool(kafka, files)
        self.assertEqual((code, out, err), (5, "", f"carry-out: {kafka.bootstrap()}: Metadata: the broker ended the connection, as one does that wants --tls or --sasl\n"))

    def unsigned_files(self):
        """Files for a cluster of which nothing is asked."""
        partitions = [{"topic": "t", "partition": n, "replicas": [n, n + 1]} for n in range(4)]
        cluster = {"version": 1, "brokers": [{"id": id} for id in range(6)], "partitions": partitions}
        entries = [{"topic": topic, "partition": number, "replicas": members} for (topic, number), members in PLAN.items()]
        return self.file("cluster", cluster), self.file("plan", {"version": 1, "partitions": entries})

    def test_words_about_signing_in(self):
        files = self.unsigned_files()
        rows = [
            (("--sasl", "PLAIN"), "--sasl wants --user"),
            (("--sasl", "PLAIN", "--user", "a"), "--sasl wants a password: in the file of --password-file, or in SUMPHARU_KAFKA_PASSWORD"),
            (("--sasl", "PLAIN", "--user", "a", "--password-file", "/none"), "/none: No such file or directory"),
            (("--sasl", "PLAIN", "--user", "a", "--password-file", self.file("empty", "\nx")),
             "a user or a password is empty, or has a zero byte, which no mechanism can say"),
            (("--user", "a"), "--user and --password-file go with --sasl"),
            (("--ca", "x"), "--ca goes with --tls"),
            (("--tls", "--ca", "/none"), "--ca, --certificate or --key: No such file or directory"),
        ]
        env = {name: value for name, value in os.environ.items() if name != "SUMPHARU_KAFKA_PASSWORD"}
        for words, wanted in rows:
            ran = subprocess.run([TOOLS, "carry-out", *files, "--bootstrap", "127.0.0.1:1", *words], capture_output=True, text=True, timeout=PATIENCE, env=env)
            self.assertEqual((ran.returncode, ran.stdout, ran.stderr), (2, "", f"carry-out: {wanted}\n"))
        for words in (("--bootstrap", "here"), ("--bootstrap", "h:0"), ("--bootstrap", "h:1", "--map", "x=h:1"), ("--bootstrap", "h:1", "--looks", "0"),
                      ("--bootstrap", "h:1", "--every", "-1"), ("--bootstrap", "h:1", "--unthrottle", "--back"), ()):
            ran = subprocess.run([TOOLS, "carry-out", *files, *words], capture_output=True, text=True, timeout=PATIENCE)
            self.assertEqual((ran.returncode, ran.stdout, ran.stderr.count("\n")), (2, "", 1), words)

    @unittest.skipUnless(shutil.which("openssl"), "no openssl makes certificates")
    def test_tls(self):
        made = lambda name: str(self.room / name)
        for name, subject in (("server", "IP:127.0.0.1"), ("elsewhere", "DNS:elsewhere"), ("client", "DNS:client")):
            words = ["openssl", "req", "-x509", "-newkey", "ec", "-pkeyopt", "ec_paramgen_curve:prime256v1", "-nodes", "-days", "2", "-subj", f"/CN={name}", "-addext", f"subjectAltName={subject}",
                     "-keyout", made(f"{name}.key"), "-out", made(f"{name}.pem")]
            subprocess.run(words, check=True, capture_output=True, timeout=PATIENCE)
        word = self.file("word", PASSWORD)
        kafka = self.kafka("--tls", made("server.pem"), "--key", made("server.key"), "--client-ca", made("client.pem"), "--sasl", f"SCRAM-SHA-512:ann:{PASSWORD}")
        files = self.unsigned_files()
        mine = ("--certificate", made("client.pem"), "--key", made("client.key"))
        how = ("--tls", "--ca", made("server.pem"), "--sasl", "SCRAM-SHA-512", "--user", "ann", "--password-file", word)
        code, out, err = self.tool(kafka, files, *how, *mine)
        self.assertEqual((code, err), (0, ""))
        self.assertEqual(self.lists(kafka)["t", 0], [3, 4])
        for words in (how, ("--tls", *how[3:], *mine), how[3:]):
            code, out, err = self.tool(kafka, files, *words)
            self.assertEqual((code, out, err.count("\n")), (5, "", 1), err)
        kafka = self.kafka("--tls", made("elsewhere.pem"), "--key", made("elsewhere.key"))
        how = ("--tls", "--ca", made("elsewhere.pem"), "--dry-run")
        code, _, err = self.tool(kafka, files, *how)
        self.assertEqual(code, 5)
        self.assertIn("has no certificate that counts: ", err)
        self.assertEqual(self.tool(kafka, files, *how, "--any-name")[0], 0)

    def test_brokers_that_are_reached_elsewhere(self):
        """With --map a broker's own address isn't used."""
        kafka = self.kafka()
        files = self.files(kafka, PLAN)
        words = [word for id in range(6) for word in ("--map", f"{id}=127.0.0.1:1")]
        code, _, err = self.tool(kafka, files, *words)
        self.assertEqual((code, err), (5, "carry-out: 127.0.0.1:1: Connection refused\n"))
        words = [word for id, port in kafka.ports.items() for word in ("--map", f"{id}=localhost:{port}")]
        self.assertEqual(self.tool(kafka, files, *words)[0], 0)


if __name__ == "__main__":
    unittest.main()
