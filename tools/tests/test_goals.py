"""The goals' excesses on a small cluster, compared with the numbers of the program's own tests; and loads of samples."""
import re
import unittest

from places import ROOT
from sumpharu_tools import clusters, goals


def load(unit):
    leader = {"CPU": 10 * unit, "NW_IN": 20 * unit, "NW_OUT": 30 * unit, "DISK": 40 * unit}
    return {"leader": leader, "follower": {"CPU": unit, "NW_IN": 2 * unit, "DISK": 4 * unit}}


def capacity(broker, cpu):
    return {"brokerId": broker, "capacity": {"CPU": str(cpu), "NW_IN": str(cpu + 10), "NW_OUT": str(cpu + 20), "DISK": f"{cpu + 30}.0"}}


def small_cluster(state):
    """Three brokers, the first of which is in some state, and five partitions of two topics with loads of some units."""
    rows = [("b", 0, 1, [0, 1]), ("a", 0, 10, [0]), ("b", 1, 1000, [1, 0]), ("a", 1, 100, [0, 2]), ("a", 2, 3, [0])]
    words = ("cpu", "network.inbound", "network.outbound", "disk")
    limits = {f"{word}.capacity.threshold": f"0.{5 + at}" for at, word in enumerate(words)}
    balances = {f"{word}.balance.threshold": f"1.{1 + at}" for at, word in enumerate(words)}
    counts = {"replica.count.balance.threshold": "1.2", "leader.replica.count.balance.threshold": "1.5"}
    return {
        "version": 2,
        "brokers": [{"id": 0, "rack": "near", "state": state}, {"id": 1, "rack": "near"}, {"id": 2, "rack": "far"}],
        "brokerCapacities": [capacity("-1", 100), capacity("01", 300)],
        "partitions": [{"topic": t, "partition": n, "replicas": r, "load": load(unit)} for t, n, unit, r in rows],
        "config": {**limits, **balances, **counts, "topic.replica.count.balance.threshold": 1, "max.replicas.per.broker": 1},
        "minTopicLeaders": [{"topic": "a", "leaders": 3}, {"topic": "gone", "leaders": 5}, {"topic": "b", "leaders": 1}],
    }


def program_rows():
    """The excesses that the program's own tests want, by the state of the first broker and by goal."""
    text = (ROOT / "crates/plan_tests/src/goals.rt").read_text()
    found = {}
    for state, table in re.findall(r"^const (\w+): \[Row; \d+\] = \[\n(.*?)^\];", text, re.M | re.S):
        rows = re.findall(r"GoalKind::(\w+),\s*&\[([\d, ]+)\]", table)
        found[state] = {f"{kind}Goal": [int(number) for number in numbers.split(", ")] for kind, numbers in rows}
    return found


def greatest():
    """The excess of the first broker, and of all others, that the program's own tests want of the greatest numbers."""
    text = (ROOT / "crates/plan_tests/src/goals.rt").read_text()
    others, first = re.search(r"let mut want = \[(\d+); 200\];\s*want\[0\] = (\d+);", text).groups()
    return int(first), int(others)


class Goals(unittest.TestCase):
    maxDiff = None

    def test_excesses(self):
        wanted = program_rows()
        self.assertEqual({state: len(rows) for state, rows in wanted.items()}, {"ALIVE": 18, "DEAD": 18, "DEMOTED": 4})
        for state, rows in wanted.items():
            cluster = clusters.cluster_of(small_cluster(state))
            found = {goal.name: [unit.excess for unit in goal.units(cluster, cluster.lists)] for goal in goals.GOALS}
            self.assertEqual({name: found[name] for name in rows}, rows)

    def test_greatest_numbers(self):
        most = 2**32 - 1
        full = {"CPU": most, "NW_IN": most, "NW_OUT": most, "DISK": most}
        value = {
            "version": 1,
            "brokers": [{"id": id} for id in range(200)],
            "partitions": [{"topic": "t", "partition": n, "replicas": [0], "load": {"leader": full}} for n in range(10000)],
            "config": {"disk.balance.threshold": "1.000"},
        }
        cluster = clusters.cluster_of(value)
        goal = next(goal for goal in goals.GOALS if goal.name == "DiskUsageDistributionGoal")
        excesses = [unit.excess for unit in goal.units(cluster, cluster.lists)]
        first, others = greatest()
        self.assertEqual(excesses, [first] + [others] * 199)

    def test_defaults(self):
        value = {"version": 1, "brokers": [{"id": 1}], "partitions": [], "minTopicLeaders": [{"topic": "t", "leaders": 1}]}
        cluster = clusters.cluster_of(value)
        self.assertEqual(cluster.settings.limits[3], clusters.Ratio(80, 100))
        self.assertEqual((cluster.least_leaders, cluster.brokers[0].capacity), ({}, (2**40 - 1,) * 4))

    def test_samples(self):
        """A partition in windows of ten with two samples wanted, of which the last three windows are kept."""
        sample = lambda time, disk: {"topic": "t", "partition": 0, "time": time, "load": {"leader": {"DISK": disk}}}
        rows = [
            ([sample(5, 7)], 7),
            ([sample(10, 1), sample(19, 2), sample(20, 8)], 4),
            ([sample(0, 90), sample(30, 5), sample(9, 90)], 5),
            ([], 3),
        ]
        for samples, disk in rows:
            value = {
                "version": 1,
                "brokers": [{"id": 1}],
                "partitions": [{"topic": "t", "partition": 0, "replicas": [1], "load": {"leader": {"DISK": 3}}}],
                "config": {
                    "partition.metrics.window.ms": 10,
                    "num.partition.metrics.windows": "3",
                    "min.samples.per.partition.metrics.window": 2,
                },
                "samples": samples,
            }
            self.assertEqual(clusters.cluster_of(value).partitions[0].leader[3], disk)


if __name__ == "__main__":
    unittest.main()
