"""What the built program answers for random clusters, judged by the goals as the tools compute them."""
import json
import os
import pathlib
import random
import subprocess
import tempfile
import unittest

from places import PROGRAM, TOOLS
from sumpharu_tools import clusters, plans

RACKS = ("--goals", "RackAwareGoal", "--skip-hard-goal-check")


def random_cluster(seed):
    rng = random.Random(seed)
    brokers = [{"id": 10 + id, "state": rng.choice(["ALIVE"] * 4 + ["DEAD", "NEW", "DEMOTED"])} for id in range(rng.randrange(2, 8))]
    for broker in brokers:
        if rng.random() < 0.9:
            broker["rack"] = rng.choice("abc")
    ids = [broker["id"] for broker in brokers]
    lists = [rng.sample(ids, rng.randrange(1, min(4, len(ids)) + 1)) for _ in range(rng.randrange(0, 9))]
    partitions = [{"topic": f"t{at % 2}", "partition": at // 2, "replicas": members} for at, members in enumerate(lists)]
    return {"version": 1, "brokers": brokers, "partitions": partitions}


@unittest.skipUnless(PROGRAM.exists() or os.environ.get("CI"), "the program isn't built")
class Program(unittest.TestCase):
    def run_program(self, verb, file):
        ran = subprocess.run([PROGRAM, verb, file, *RACKS], stdin=subprocess.DEVNULL, capture_output=True, text=True, timeout=60)
        return ran.returncode, ran.stdout

    def judge(self, file, value):
        cluster = clusters.cluster_of(value)
        code, out = self.run_program("plan", file)
        measure = lambda name, lists: plans.BY_NAME[name].measure(cluster, lists)
        if code == 4:
            failure = json.loads(out)
            left, name = int(failure["measure"]), failure["failed"]
            self.assertIn(name, ("EvacuationGoal", "RackAwareGoal"))
            self.assertTrue(0 < left)
            if name == "EvacuationGoal":
                self.assertTrue(left <= measure(name, cluster.lists))
            return code
        self.assertEqual(code, 0)
        file.with_suffix(".plan").write_text(out)
        after = clusters.read_plan(file.with_suffix(".plan"), cluster)
        self.assertEqual((measure("EvacuationGoal", after), measure("RackAwareGoal", after)), (0, 0))
        self.assertEqual([len(members) for members in after], [len(members) for members in cluster.lists])
        changed = [(it.partition.topic, it.partition.number) for it in plans.changes(cluster, after)]
        self.assertEqual([(it["topic"], it["partition"]) for it in json.loads(out)["partitions"]], changed)
        code, out = self.run_program("apply", file)
        self.assertEqual((code, [it["replicas"] for it in json.loads(out)["partitions"]]), (0, after))
        return code

    def test_plans_are_measured_with_their_checks(self):
        kinds = ["whole", "lost", "added", "tenth"]
        for goals in ([], ["--goals", "RackAwareGoal"]):
            words = [TOOLS, "measure-plans", "--sizes", "12x120", "--seeds", "1", *goals]
            ran = subprocess.run(words, stdin=subprocess.DEVNULL, capture_output=True, text=True, timeout=120)
            self.assertEqual((ran.returncode, ran.stderr), (0, ""))
            rows = [line.split() for line in ran.stdout.splitlines()[1:]]
            self.assertEqual([row[:3] for row in rows], [["12x120", kind, "1"] for kind in kinds])
            self.assertTrue(all(int(row[3]) > 0 for row in rows if row[1] == "lost"))

    def test_plans_of_random_clusters(self):
        with tempfile.TemporaryDirectory() as room:
            codes = []
            for seed in range(60):
                file, value = pathlib.Path(room) / f"{seed}.json", random_cluster(seed)
                file.write_text(json.dumps(value))
                with self.subTest(seed=seed):
                    codes.append(self.judge(file, value))
            self.assertTrue(codes.count(0) > 10 and codes.count(4) > 10, codes)


if __name__ == "__main__":
    unittest.main()
