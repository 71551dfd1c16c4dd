"""Reassignments, elections, configs and faults of minikafka, asked by the probe: DIRECTORY of a running one (ready.json), and a file for the bytes."""
import json
import sys
import os

sys.path.insert(0, os.path.dirname(os.path.realpath(__file__)))
from probe import Link

ready = json.load(open(sys.argv[1]))
control, port = ready["control"], {int(b): p for b, p in ready["brokers"].items()}
here = os.path.dirname(os.path.dirname(os.path.realpath(__file__)))
bad = 0


def ctl(*words):
    import socket
    with socket.create_connection(("127.0.0.1", control), 5) as sock:
        sock.sendall((" ".join(map(str, words)) + "\n").encode())
        return json.loads(sock.makefile().readline())


def same(what, got, want):
    global bad
    print("ok " if got == want else "BAD", what, "" if got == want else f": {got} and not {want}")
    bad += got != want


kept = []
zk = ctl("state")["mode"] == "zk"
k = Link(port[0], keep=kept)
told = k.versions()[1]
same("versions", (told[45], 4 in told, 55 in told), ((0, 0), zk, not zk))
same("the controller", {k.metadata(5)["controller"] for _ in range(40)}, {0} if zk else {0, 1, 2, 3})
for v in (5, 7, 8, 9):
    same(f"metadata v{v}", k.metadata(v)["parts"][("orders", 0)], (0, [0, 1, 2], [0, 1, 2], []))
same("none in flight", k.list(), (0, {}))
same("a partition that isn't there, and lists that can't be", k.alter({"orders": {9: [1], 0: [], 1: [1, 1], 2: [77]}}),
     (0, {("orders", 9): 3, ("orders", 0): 39, ("orders", 1): 39, ("orders", 2): 39}))
same("nothing to cancel", k.alter({"orders": {0: None}}), (0, {("orders", 0): 85}))
# 0,1,2 -> 3,2,1: the union has the target first; the leader stays
same("a move is taken", k.alter({"orders": {0: [3, 2, 1]}}), (0, {("orders", 0): 0}))
same("it is listed", k.list(), (0, {("orders", 0): ([3, 2, 1, 0], [3], [0])}))
same("its list is the union, target first", k.metadata(5)["parts"][("orders", 0)], (0, [3, 2, 1, 0], [0, 1, 2], []))
ctl("rate", 100000)
ctl("advance", 5)
same("half is copied", k.log_dirs(1), {("orders", 0): 1000000, ("orders", 2): 1000000, ("orders", 3): 1000000, ("t", 0): 1000000})
k3 = Link(port[3], keep=kept)
for v in (1, 2, 3, 4):
    same(f"on the new broker, v{v}", k3.log_dirs(v)[("orders", 0)], 500000)
if zk:
    same("another broker is no controller", k3.alter({"orders": {1: [1]}})[0], 41)
    same("nor lists", k3.list()[0], 41)
else:
    same("any broker takes it", k3.list()[0], 0)
same("null gives it up", k.alter({"orders": {0: None}}), (0, {("orders", 0): 0}))
same("the order of the old list is not what it was", k.metadata(5)["parts"][("orders", 0)], (0, [2, 1, 0], [0, 1, 2], []))
same("naming the old list restores it", k.alter({"orders": {0: [0, 1, 2]}}), (0, {("orders", 0): 0}))
same("at once", (k.list()[1], k.metadata(5)["parts"][("orders", 0)][1]), ({}, [0, 1, 2]))
# giving up by naming the old list while it is in flight
k.alter({"orders": {0: [3, 2, 1]}})
ctl("advance", 5)
k.alter({"orders": {0: [0, 1, 2]}})
same("in flight, the old list as a target ends it with its order", (k.list()[1], k.metadata(5)["parts"][("orders", 0)]), ({}, (0, [0, 1, 2], [0, 1, 2], [])))
# to the end
k.alter({"orders": {0: [3, 2, 1]}})
ctl("advance", 10)
same("it is done by itself, with another leader", (k.list()[1], k.metadata(9)["parts"][("orders", 0)]), ({}, (3, [3, 2, 1], [1, 2, 3], [])))
same("a cancel that comes late", k.alter({"orders": {0: None}}), (0, {("orders", 0): 85}))
# leaders
k.alter({"orders": {1: [2, 1, 3]}})
same("an order alone is there at once, with the old leader", (k.list()[1], k.metadata(5)["parts"][("orders", 1)][:2]), ({}, (1, [2, 1, 3])))
same("the preferred one is elected", k.elect({"orders": [1]}, 1), (0, {("orders", 1): 0}))
same("not needed", k.elect({"orders": [1]}, 2), (0, {("orders", 1): 84}))
k.alter({"orders": {1: [1, 2, 3]}})
ctl("kill", 1)
same("not available", k.elect({"orders": [1]}, 2), (0, {("orders", 1): 80}))
m = k.metadata(5)
same("a dead broker isn't told, and is offline", (sorted(m["brokers"]), m["parts"][("orders", 1)]), ([0, 2, 3], (2, [1, 2, 3], [2, 3], [1])))
same("a target of a dead broker", k.alter({"t": {0: [1, 3]}})[1], {("t", 0): 39 if zk else 0})
if not zk:
    k.alter({"t": {0: None}})
# drain of the dead one
same("drain", k.alter({"orders": {1: [2, 3, 0]}})[1], {("orders", 1): 0})
ctl("advance", 10)
same("drained", (k.list()[1], k.metadata(5)["parts"][("orders", 1)]), ({}, (2, [2, 3, 0], [2, 3, 0], [])))
ctl("revive", 1)
ctl("advance", 20)
same("it comes back", 1 in k.metadata(5)["brokers"], True)
# throttles
same("a broker's own configs aren't another's to change", k.configs(4, "3", [("follower.replication.throttled.rate", 0, "1000")]), 42)
same("throttle", k3.configs(4, "3", [("follower.replication.throttled.rate", 0, "1000")]), 0)
same("throttled replicas", k.configs(2, "t", [("follower.replication.throttled.replicas", 0, "0:3")], 1), 0)
same("appended", k.configs(2, "t", [("follower.replication.throttled.replicas", 2, "1:3")], 1), 0)
same("a rate that is no number", k3.configs(4, "3", [("follower.replication.throttled.rate", 0, "x")]), 40)
same("a topic that isn't there", k.configs(2, "none", [("a", 0, "x")]), 3)
k.alter({"t": {1: [1, 3]}})
ctl("advance", 10)
same("it takes longer", k3.log_dirs(1, {"t": [1]})[("t", 1)], 10000)
same("a topic that names no replica isn't throttled", k.configs(2, "t", [("follower.replication.throttled.replicas", 3, "1:3")], 1), 0)
ctl("advance", 0.1)
same("as here", k3.log_dirs(1, {"t": [1]})[("t", 1)], 20000)
same("the throttle goes", k3.configs(4, "3", [("follower.replication.throttled.rate", 1, None)], 1), 0)
ctl("advance", 10)
same("and then it ends", k.list()[1], {})
print([c for c in ctl("state")["configs"]])
# the controller goes elsewhere
if zk:
    ctl("controller", 2)
    same("the old controller refuses", k.alter({"t": {1: [1, 2]}})[0], 41)
    same("metadata tells the new one", k.metadata(5)["controller"], 2)
    k2 = Link(port[2], timeout=1, keep=kept)
else:
    k2 = Link(port[2], timeout=1, keep=kept)


def outcome(f):
    """What f gives, or that no answer came, or that the answer is no message."""
    try:
        return f()
    except (OSError, EOFError):
        return "none"
    except (AssertionError, IndexError):
        return "no message"


# timeouts: the client can't tell these apart but by a look after them
FAULTS = (("hang", False, "none"), ("hangdone", True, "none"), ("drop", False, "none"), ("dropdone", True, "none"), ("error:7", False, (7, {})),
          ("done:7", True, (7, {})), ("cut", True, "no message"), ("junk", True, "no message"))
for fault, done, want in FAULTS:
    ctl("inject", "AlterPartitionReassignments", fault)
    same(f"{fault}: what the client sees", outcome(lambda: k2.alter({"t": {0: [0, 2]}})), want)
    k2.close()
    k2 = Link(port[2], timeout=1, keep=kept)
    same(f"{fault}: a look tells that it was {'' if done else 'not '}done", bool(k2.list()[1]), done)
    if done:
        k2.alter({"t": {0: None}})
# a late one: applied after the look that said it wasn't
ctl("inject", "AlterPartitionReassignments", "late:0.5")
same("late: what the client sees", outcome(lambda: k2.alter({"t": {0: [0, 2]}})), "none")
k2.close()
k2 = Link(port[2], timeout=1, keep=kept)
same("the look says no", k2.list()[1], {})
ctl("advance", 0.8)
same("and then it is there", list(k2.list()[1]), [("t", 0)])
k2.alter({"t": {0: None}})
log = ctl("log")
same("nothing malformed came", log["malformed"], 0)
print(log, ctl("state")["most_in_flight"])
if len(sys.argv) > 2:
    json.dump([(link, side, data.hex()) for link, side, data in kept], open(sys.argv[2], "w"))
sys.exit(bad > 0)
