"""The rule by which a plan is carried out, tried on the tests' cluster: random plans under faults, runs killed at each place, and the cases that the rule is
about. Fifty random plans are tried by each mode's rules in memory, and a few over sockets; SUMPHARU_SEEDS=N and SUMPHARU_SOCKET_SEEDS=N say how many."""
import os
import unittest

import places  # has the tools' package found
import trials
from sumpharu_tools.carrying import Caps, Phase, Room, Run, Standing, Task, objections
from sumpharu_tools.kafka_admin import Look
from sumpharu_tools.kafka_wire import Metadata, Move, Node, Seen
from minikafkas import InMemory, Minikafka

MODES = ("zk", "kraft")
SEEDS = int(os.environ.get("SUMPHARU_SEEDS", "50"))
SOCKET_SEEDS = int(os.environ.get("SUMPHARU_SOCKET_SEEDS", "3"))


def try_seeds(mode, seeds, kafka):
    """The faults of some trials, one after another on one cluster, and how many tasks were done and refused and runs begun in them."""
    faults, ended = [], {Phase.DONE: 0, Phase.REFUSED: 0, "runs": 0}
    with kafka:
        for seed in seeds:
            found, run, trial = trials.trial(kafka, mode, seed)
            faults += found
            for phase in (Phase.DONE, Phase.REFUSED):
                ended[phase] += run.count(phase)
            ended["runs"] += trial.runs
    return faults, ended


class RandomPlans(unittest.TestCase):
    def test_random_plans_under_faults(self):
        sums = {Phase.DONE: 0, Phase.REFUSED: 0, "runs": 0}
        for mode in MODES:
            faults, ended = try_seeds(mode, range(SEEDS), InMemory(trials.BROKERS, trials.TOPICS, mode, trials.RATE))
            self.assertEqual(faults, [])
            sums = {name: sums[name] + ended[name] for name in sums}
        self.assertGreater(sums[Phase.DONE], 10 * SEEDS)
        self.assertGreater(sums["runs"], 4 * SEEDS)
        if SEEDS >= 50:
            self.assertGreater(sums[Phase.REFUSED], 0)

    def test_some_of_them_over_sockets(self):
        for mode in MODES:
            faults, _ = try_seeds(mode, range(SEEDS, SEEDS + SOCKET_SEEDS), Minikafka(*trials.words_for(mode)))
            self.assertEqual(faults, [])


class Runs(unittest.TestCase):
    """Runs on a cluster of this test's own."""

    def kafka(self, mode, *topics, brokers=6):
        named = {name: (int(count), int(factor)) for name, count, factor in (it.split(":") for it in topics)}
        it = InMemory(brokers, named, mode, trials.RATE)
        self.clock = trials.Clock(it)
        return it

    def run_of(self, kafka, tasks, caps=Caps(), life=None, settle=trials.SETTLE):
        admin = trials.MortalAdmin(kafka, 2, life or trials.Life())
        self.addCleanup(admin.close)
        return Run(admin, tasks, caps, settle, clock=self.clock)

    def finish(self, run, looks=80):
        for _ in range(looks):
            run.step()
            if run.is_over():
                return
            self.clock.advance()
        self.fail(f"not over: {run.tasks}")

    def lists(self, kafka):
        return {key: it["replicas"] for key, it in kafka.partitions().items()}

    def most(self, kafka, side):
        return max([0, *kafka.tell("state")["most_in_flight"][side].values()])


class KilledAtEachPlace(Runs):
    """A run that is killed before or after any of its exchanges, and started again, ends as one that isn't killed."""

    PLAN = {("t", 0): [3, 4, 5], ("t", 1): [2, 1, 3], ("t", 2): [5, 3, 4], ("t", 3): [1, 0, 2]}

    def end_after(self, kafka, life):
        kafka.tell("reset")
        before = self.lists(kafka)
        tasks = lambda: trials.tasks_for(before, self.PLAN)
        try:
            self.finish(self.run_of(kafka, tasks(), Caps(1, 2, 1), life))
        except trials.Killed:
            self.finish(self.run_of(kafka, tasks(), Caps(1, 2, 1)))
        most = kafka.tell("state")["most_in_flight"]
        self.assertLessEqual(most["cluster"], 2, life.left)
        self.assertLessEqual(max([0, *most["adding"].values(), *most["removing"].values()]), 1, life.left)
        return {key: (it["replicas"], it["leader"]) for key, it in kafka.partitions().items()}

    def check(self, mode):
        kafka = self.kafka(mode, "t:4:3")
        whole = trials.Life(100000)
        wanted = self.end_after(kafka, whole)
        self.assertEqual({key: wanted[key][0] for key in self.PLAN}, self.PLAN)
        exchanges = 100000 - whole.left
        self.assertGreater(exchanges, 20)
        for place in range(exchanges):
            for dies_after_sending in (False, True):
                self.assertEqual(self.end_after(kafka, trials.Life(place, dies_after_sending)), wanted, (place, dies_after_sending))

    def test_with_zookeeper(self):
        self.check("zk")

    def test_with_kraft(self):
        self.check("kraft")


class TheRule(Runs):
    def test_each_ask_counts_before_it_is_answered(self):
        """An ask that is lost and carried out late counts all the same: what it would be too much for doesn't start meanwhile."""
        kafka = self.kafka("zk", "t:3:2")
        for key, members in {0: "4,3", 1: "1,5", 2: "2,5"}.items():
            kafka.tell("reassign", "t", key, members)
        kafka.tell("advance", 10)
        before = self.lists(kafka)
        # t-0 adds 0. t-1 adds 0 too, and removes 5. t-2 removes 5, and its ask is late.
        tasks = trials.tasks_for(before, {("t", 0): [0, 3], ("t", 1): [1, 0], ("t", 2): [2, 4]})
        run = self.run_of(kafka, tasks, Caps(1, 9, 9))
        kafka.tell("inject", "AlterPartitionReassignments", "slow:0")
        kafka.tell("inject", "AlterPartitionReassignments", "late:5")
        run.step()
        self.assertEqual([it.phase for it in tasks], [Phase.IN_FLIGHT, Phase.WAITING, Phase.IN_FLIGHT])
        kafka.tell("finish", "t", 0)
        kafka.tell("inject", "AlterPartitionReassignments", "drop")
        run.step()
        self.assertEqual([it.phase for it in tasks], [Phase.DONE, Phase.WAITING, Phase.IN_FLIGHT])
        self.finish(run)
        self.assertEqual(run.count(Phase.DONE), 3)
        self.assertEqual(self.most(kafka, "removing"), 1)

    def killed_with_an_ask_on_its_way(self, settle):
        """As above, but the run is killed once it has sent the late ask, and another begins. How many removed broker 5 at once at most."""
        kafka = self.kafka("kraft", "t:3:2")
        for key, members in {0: "4,3", 1: "1,5", 2: "2,5"}.items():
            kafka.tell("reassign", "t", key, members)
        kafka.tell("advance", 10)
        before = self.lists(kafka)
        make = lambda: trials.tasks_for(before, {("t", 0): [0, 3], ("t", 1): [1, 0], ("t", 2): [2, 4]})
        kafka.tell("inject", "AlterPartitionReassignments", "slow:0")
        kafka.tell("inject", "AlterPartitionReassignments", "late:4")
        # versions, metadata, list, metadata, two asks
        with self.assertRaises(trials.Killed):
            run = self.run_of(kafka, make(), Caps(1, 9, 9), trials.Life(5, True))
            run.step()
        kafka.tell("finish", "t", 0)
        kafka.tell("rate", 1000)
        run = self.run_of(kafka, make(), Caps(1, 9, 9), settle=settle)
        for _ in range(8):
            run.step()
            self.clock.advance()
        kafka.tell("rate", 400000)
        self.finish(run)
        self.assertEqual(run.count(Phase.DONE), 3)
        return self.most(kafka, "removing")

    def test_after_a_killed_run_nothing_starts_until_its_asks_have_come(self):
        self.assertEqual(self.killed_with_an_ask_on_its_way(settle=6), 1)
        self.assertEqual(self.killed_with_an_ask_on_its_way(settle=0), 2, "so the case is the one that settling is for")

    def test_a_lost_ask_isnt_refused(self):
        """Where one of a task's asks has no answer, a refusal of a later one says nothing: the first may yet be carried out."""
        kafka = self.kafka("zk", "t:1:2")
        tasks = trials.tasks_for(self.lists(kafka), {("t", 0): [0, 3]})
        run = self.run_of(kafka, tasks)
        kafka.tell("inject", "AlterPartitionReassignments", "late:20")
        run.step()
        kafka.tell("kill", 3)
        for _ in range(5):
            run.step()
            self.clock.advance()
        self.assertEqual((tasks[0].phase, set(tasks[0].codes)), (Phase.IN_FLIGHT, {39}))
        kafka.tell("revive", 3)
        self.finish(run)
        self.assertEqual(tasks[0].phase, Phase.DONE)

    def test_a_run_with_an_ask_in_doubt_looks_on(self):
        """It ends once that ask can't be carried out any more; one whose asks were all answered ends at once."""
        for fault, wanted in (("dropdone", trials.SETTLE), ("done:7", trials.SETTLE), ("slow:0", 1)):
            kafka = self.kafka("kraft", "t:2:2")
            tasks = trials.tasks_for(self.lists(kafka), {("t", 0): [0, 4]})
            run = self.run_of(kafka, tasks)
            kafka.tell("inject", "AlterPartitionReassignments", fault)
            run.step()
            kafka.tell("finish", "t", 0)
            self.clock.advance()
            run.step()
            self.assertEqual(tasks[0].phase, Phase.DONE)
            self.finish(run)
            self.assertEqual(self.clock.now, wanted, fault)

    def test_what_is_refused_keeps_its_list(self):
        kafka = self.kafka("zk", "t:2:2")
        before = self.lists(kafka)
        kafka.tell("kill", 4)
        tasks = trials.tasks_for(before, {("t", 0): [0, 4], ("t", 1): [1, 3]})
        run = self.run_of(kafka, tasks)
        self.finish(run)
        self.assertEqual([it.phase for it in tasks], [Phase.REFUSED, Phase.DONE])
        self.assertEqual(self.lists(kafka), {("t", 0): [0, 1], ("t", 1): [1, 3]})

    def test_a_topic_that_goes_is_refused(self):
        kafka = self.kafka("kraft", "t:1:2", "u:1:2")
        tasks = trials.tasks_for(self.lists(kafka), {("t", 0): [0, 4], ("u", 0): [0, 3]})
        run = self.run_of(kafka, tasks)
        run.step()
        kafka.tell("delete", "t")
        self.finish(run)
        self.assertEqual([it.phase for it in tasks], [Phase.REFUSED, Phase.DONE])

    def test_replicas_come_before_leaders(self):
        kafka = self.kafka("kraft", "t:3:2")
        before = self.lists(kafka)
        tasks = trials.tasks_for(before, {("t", 0): [1, 0], ("t", 1): [2, 1], ("t", 2): [2, 4]})
        run = self.run_of(kafka, tasks, Caps(9, 9, 1))
        run.step()
        self.assertEqual([it.phase.value for it in tasks], ["waiting", "waiting", "in flight"])
        self.clock.advance(9)
        run.step()
        self.assertEqual([it.phase.value for it in tasks], ["in flight", "waiting", "done"])
        self.finish(run)
        self.assertEqual([it["leader"] for it in kafka.partitions().values()], [1, 2, 2])

    def test_somebody_elses_reassignment(self):
        """It is in the way before a run, and one that comes during it has the run start nothing more and finish."""
        kafka = self.kafka("zk", "t:4:2")
        before = self.lists(kafka)
        plan = {("t", 0): [0, 4], ("t", 1): [1, 4]}
        kafka.tell("reassign", "t", 3, "3,5")
        run = self.run_of(kafka, trials.tasks_for(before, plan))
        self.assertEqual(run.examine(before, self.clock.advance), ["t-3 is being reassigned to 3,5, which isn't this plan's"])
        kafka.tell("finish", "t", 3)
        self.assertEqual(run.examine(before, lambda: None), ["t-3 has 3,5, and not 3,4"])
        kafka.tell("reset")
        tasks = trials.tasks_for(before, plan)
        run = self.run_of(kafka, tasks, Caps(1, 9, 9))
        self.assertEqual(run.examine(before, lambda: None), [])
        run.step()
        kafka.tell("reassign", "t", 3, "3,5")
        self.finish(run)
        self.assertEqual(([it.phase for it in tasks], run.strangers), ([Phase.DONE, Phase.WAITING], [("t", 3)]))
        self.assertEqual(self.lists(kafka)["t", 1], [1, 2])

    def test_somebody_elses_reassignment_between_two_looks(self):
        """One that is over before a look is noticed by the list that it left, also of a partition that the plan doesn't name."""
        kafka = self.kafka("kraft", "t:4:2")
        before = self.lists(kafka)
        tasks = trials.tasks_for(before, {("t", 0): [0, 4], ("t", 1): [1, 4]})
        run = self.run_of(kafka, tasks, Caps(1, 9, 9))
        self.assertEqual(run.examine(before, lambda: None), [])
        run.step()
        kafka.tell("reassign", "t", 3, "3,5")
        kafka.tell("finish", "t", 3)
        self.finish(run)
        self.assertEqual(([it.phase for it in tasks], run.strangers), ([Phase.DONE, Phase.WAITING], [("t", 3)]))

    def test_a_task_that_somebody_else_takes_is_left_alone(self):
        kafka = self.kafka("kraft", "t:2:2")
        tasks = trials.tasks_for(self.lists(kafka), {("t", 0): [0, 4]})
        run = self.run_of(kafka, tasks)
        run.step()
        kafka.tell("reassign", "t", 0, "5,3")
        self.finish(run)
        self.assertEqual(tasks[0].phase, Phase.TAKEN)
        self.clock.advance(20)
        self.assertEqual(self.lists(kafka)["t", 0], [5, 3])

    def test_a_run_is_taken_back(self):
        """What is in flight is given up, what is done moves back, orders are the file's, and leaders too."""
        for mode in MODES:
            kafka = self.kafka(mode, "t:4:3")
            before = self.lists(kafka)
            plan = {("t", 0): [3, 2, 1], ("t", 1): [2, 1, 3], ("t", 2): [5, 3, 4], ("t", 3): [0, 4, 5]}
            forth = self.run_of(kafka, trials.tasks_for(before, plan), Caps(9, 9, 9))
            forth.step()
            for number in (2, 3):
                kafka.tell("finish", "t", number)
            forth.step()
            self.assertEqual(sorted(forth.count(it) for it in (Phase.DONE, Phase.IN_FLIGHT, Phase.WAITING)), [1, 1, 2])
            caps = Caps(1, 1, 1)
            kafka.tell("inject", "AlterPartitionReassignments", "dropdone")
            back = self.run_of(kafka, trials.tasks_for(before, plan, is_back=True), caps)
            self.assertEqual(back.examine(before, lambda: None), [])
            self.finish(back)
            self.assertEqual(back.count(Phase.DONE), 4)
            parts = kafka.partitions()
            self.assertEqual({key: it["replicas"] for key, it in parts.items()}, before)
            self.assertEqual([it["leader"] for it in parts.values()], [members[0] for members in before.values()])
            self.assertGreaterEqual(self.clock.now, trials.SETTLE)

    def test_what_is_given_up_too_late_starts_back_like_any_other(self):
        """Kafka had finished before it was told to give up: the way back is a move of its own, which the caps count, and which waits for late asks."""
        kafka = self.kafka("zk", "t:2:2")
        before, plan = self.lists(kafka), {("t", 0): [0, 4]}
        self.run_of(kafka, trials.tasks_for(before, plan)).step()
        tasks = trials.tasks_for(before, plan, is_back=True)
        run = self.run_of(kafka, tasks)
        kafka.tell("inject", "AlterPartitionReassignments", "drop")
        run.step()
        self.assertEqual(tasks[0].phase, Phase.IN_FLIGHT)
        kafka.tell("finish", "t", 0)
        for _ in range(trials.SETTLE):
            run.step()
            self.assertEqual((tasks[0].phase, self.lists(kafka)["t", 0]), (Phase.WAITING, [0, 4]))
            self.clock.advance()
        run.step()
        self.assertEqual((tasks[0].phase, tasks[0].codes), (Phase.IN_FLIGHT, [0]))
        self.finish(run)
        self.assertEqual((tasks[0].phase, self.lists(kafka)), (Phase.DONE, before))

    def test_another_controller(self):
        """A look that isn't the controller's is none: a broker that was it says what it knew then."""
        kafka = self.kafka("zk", "t:2:2")
        tasks = trials.tasks_for(self.lists(kafka), {("t", 0): [0, 4]})
        run = self.run_of(kafka, tasks)
        run.step()
        kafka.tell("controller", 3)
        self.assertFalse(run.step())
        self.assertEqual(tasks[0].phase, Phase.IN_FLIGHT)
        self.clock.advance(9)
        self.assertTrue(run.step())
        self.assertEqual((tasks[0].phase, run.admin.at), (Phase.DONE, 3))


def look_at(partitions, moves=None, topics=None, nodes=range(9)):
    parts = {("t", number): Seen(leader, replicas, replicas) for number, (leader, replicas) in partitions.items()}
    named = {"t": 0} if topics is None else topics
    return Look(moves or {}, Metadata({id: Node(id, "h", 1, None) for id in nodes}, 0, named, parts))


class Standings(unittest.TestCase):
    def test_what_a_look_says(self):
        forth, back = Task(("t", 0), [0, 1, 2], [3, 2, 1]), Task(("t", 0), [3, 2, 1], [0, 1, 2], True)
        move = lambda replicas, adding, removing: {("t", 0): Move(replicas, adding, removing)}
        rows = [
            (look_at({0: (0, [3, 2, 1, 0])}, move([3, 2, 1, 0], [3], [0])), Standing.UNDER_WAY, Standing.ASTRAY),
            (look_at({0: (0, [0, 1, 2, 3])}, move([0, 1, 2, 3], [0], [3])), Standing.ELSEWHERE, Standing.UNDER_WAY),
            (look_at({0: (0, [0, 1, 2, 7])}, move([0, 1, 2, 7], [7], [1])), Standing.ELSEWHERE, Standing.ELSEWHERE),
            (look_at({0: (3, [3, 2, 1])}), Standing.SETTLED, Standing.UNASKED),
            (look_at({0: (2, [3, 2, 1])}), Standing.UNLED, Standing.UNASKED),
            (look_at({0: (-1, [3, 2, 1])}), Standing.UNLED, Standing.UNASKED),
            (look_at({0: (0, [0, 1, 2])}), Standing.UNASKED, Standing.SETTLED),
            (look_at({0: (1, [0, 1, 2])}), Standing.UNASKED, Standing.UNLED),
            # after a null target, the order of the union
            (look_at({0: (0, [2, 1, 0])}), Standing.ELSEWHERE, Standing.UNASKED),
            # metadata that are a moment older than the answer that lists nothing
            (look_at({0: (0, [3, 2, 1, 0])}), Standing.UNASKED, Standing.UNASKED),
            (look_at({0: (0, [0, 1, 7])}), Standing.ELSEWHERE, Standing.ELSEWHERE),
            (look_at({1: (0, [0, 1, 7])}), Standing.ABSENT, Standing.ABSENT),
            (look_at({}, topics={}), Standing.ABSENT, Standing.ABSENT),
            (look_at({}, topics={"t": 3}), Standing.ABSENT, Standing.ABSENT),
            (look_at({}, topics={"t": 5}), Standing.UNKNOWN, Standing.UNKNOWN),
        ]
        for at, (look, one, other) in enumerate(rows):
            self.assertEqual((forth.standing_in(look), back.standing_in(look)), (one, other), at)

    def test_objections(self):
        lists = {("t", 0): [0, 1], ("t", 1): [1, 2], ("t", 2): [2, 3]}
        task = Task(("t", 0), [0, 1], [0, 4])

        def against(look):
            task.standing = task.standing_in(look)
            return objections(look, [task], lists)

        good = {0: (0, [0, 1]), 1: (1, [1, 2]), 2: (2, [2, 3])}
        self.assertEqual(against(look_at(good)), [])
        self.assertEqual(against(look_at({**good, 0: (0, [0, 4]), 3: (1, [1, 7])})), [])
        self.assertEqual(against(look_at({**good, 0: (0, [4, 0])})), ["t-0 has 4,0, and not 0,1 or 0,4"])
        self.assertEqual(against(look_at({**good, 1: (1, [2, 1])})), ["t-1 has 2,1, and not 1,2"])
        self.assertEqual(against(look_at({})), ["none of the plan's partitions is there"])
        moves = {("x", 0): Move([1, 2], [1], [2]), ("t", 0): Move([0, 4, 1], [4], [1])}
        self.assertEqual(against(look_at(good, moves)), ["x-0 is being reassigned to 1, which isn't this plan's"])

    def test_the_caps(self):
        task = lambda number, before, after, phase=Phase.WAITING: Task(("t", number), before, after, phase=phase)
        flying = [task(0, [0, 1], [2, 1], Phase.IN_FLIGHT), task(1, [3], [4], Phase.IN_FLIGHT)]
        rows = [
            (Caps(1, 9, 9), task(2, [5], [2]), False),
            (Caps(1, 9, 9), task(2, [0], [5]), False),
            (Caps(1, 9, 9), task(2, [2], [0]), True),
            (Caps(2, 9, 9), task(2, [0], [2]), True),
            (Caps(9, 2, 9), task(2, [5], [6]), False),
            (Caps(9, 3, 9), task(2, [5], [6]), True),
            (Caps(9, 9, 9), task(2, [5, 6], [6, 5]), False),
        ]
        for at, (caps, another, has) in enumerate(rows):
            self.assertEqual(Room([*flying, another], caps).has(another), has, at)
        orders = [task(n, [1, 2], [2, 1], Phase.IN_FLIGHT if n < 2 else Phase.WAITING) for n in range(3)]
        self.assertEqual([Room(orders, Caps(1, 1, most)).has(orders[2]) for most in (2, 3)], [False, True])


if __name__ == "__main__":
    unittest.main()
