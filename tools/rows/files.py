"""Cluster files as plain data: texts that stand in the middle of a file, and the file's first fault (none: it is taken)."""
from rows.plans import THREE_BROKERS


def changed(old, new):
    """The file of three brokers with one change."""
    before, found, behind = THREE_BROKERS.partition(old)
    assert found and old not in behind, old
    return before + new + behind


def with_member(member):
    """The file of three brokers with one more member."""
    return f"{THREE_BROKERS[:-1]},{member}}}"


# The text is the whole file.
WHOLE = (
    "",
    "",
    [
        ("{", "NotJson"),
        ("[]", "WrongShape "),
        ("{}", "WrongShape /version"),
        ('{"version":"1"}', "WrongShape /version"),
        ('{"version":3}', "UnsupportedVersion"),
        ('{"version":1.0}', "UnsupportedVersion"),
        ('{"version":1}', "WrongShape /brokers"),
        ('{"version":1,"brokers":{}}', "WrongShape /brokers"),
        ('{"version":1,"brokers":[]}', "WrongShape /partitions"),
        ('{"version":1,"brokers":[],"partitions":[],"brokerCapacities":null}', "WrongShape /brokerCapacities"),
        ('{"version":1,"brokers":[],"partitions":[],"config":[]}', "WrongShape /config"),
        ('{"version":1,"brokers":[],"partitions":[],"samples":{}}', "WrongShape /samples"),
        ('{"version":1,"brokers":[],"partitions":[],"other":null}', ""),
        ('{"version":1,"brokers":[{"id":0},{"id":0}],"partitions":[]}', "DuplicateBroker 0"),
    ],
)

# Behind another broker.
BROKER = (
    '{"version":1,"partitions":[],"brokers":[{"id":7},',
    "] }",
    [
        ("5", "WrongShape /brokers/1"),
        ("{}", "WrongShape /brokers/1/id"),
        ('{"id":"0"}', "WrongShape /brokers/1/id"),
        ('{"id":2147483648}', "BadNumber /brokers/1/id"),
        ('{"id":1e3}', "BadNumber /brokers/1/id"),
        ('{"id":2147483647}', ""),
        ('{"id":0,"rack":5}', "WrongShape /brokers/1/rack"),
        ('{"id":0,"rack":null}', "WrongShape /brokers/1/rack"),
        ('{"id":0,"rack":""}', ""),
        ('{"id":0,"state":"GONE"}', "WrongShape /brokers/1/state"),
        ('{"id":0,"state":"DEAD"},{"id":1,"state":"NEW"},{"id":2,"state":"DEMOTED"},{"id":3,"state":"ALIVE"}', ""),
    ],
)

# Entries of capacities.
ENTRIES = (
    '{"version":1,"brokers":[{"id":0},{"id":1}],"partitions":[],"brokerCapacities":[',
    "]}",
    [
        ("5", "WrongShape /brokerCapacities/0"),
        ('{"capacity":{"DISK":"100","CPU":"100","NW_IN":"100","NW_OUT":"100"}}', "WrongShape /brokerCapacities/0/brokerId"),
        ('{"brokerId":0,"capacity":{"DISK":"100","CPU":"100","NW_IN":"100","NW_OUT":"100"}}', "WrongShape /brokerCapacities/0/brokerId"),
        ('{"brokerId":"-2","capacity":{"DISK":"100","CPU":"100","NW_IN":"100","NW_OUT":"100"}}', "WrongShape /brokerCapacities/0/brokerId"),
        ('{"brokerId":"12345678901","capacity":{"DISK":"100","CPU":"100","NW_IN":"100","NW_OUT":"100"}}', "WrongShape /brokerCapacities/0/brokerId"),
        ('{"brokerId":"7","capacity":{"DISK":"100","CPU":"100","NW_IN":"100","NW_OUT":"100"}},{"brokerId":"07"}', "WrongShape /brokerCapacities/1/brokerId"),
        ('{"brokerId":"-1","capacity":{"DISK":"100","CPU":"100","NW_IN":"100","NW_OUT":"100"}},{"brokerId":"-1","capacity":{"DISK":"100","CPU":"100","NW_IN":"100","NW_OUT":"100"}}', "WrongShape /brokerCapacities/1/brokerId"),
        ('{"brokerId":"-1"}', "WrongShape /brokerCapacities/0/capacity"),
        ('{"brokerId":"-1","capacity":{"DISK":"100","CPU":"100","NW_IN":"100","NW_OUT":"100"},"doc":5}', "WrongShape /brokerCapacities/0/doc"),
        ('{"brokerId":"0","capacity":{"DISK":"100","CPU":"100","NW_IN":"100","NW_OUT":"100"}}', "MissingCapacity 1"),
        ('{"brokerId":"0","capacity":{"DISK":"100","CPU":"100","NW_IN":"100","NW_OUT":"100"}},{"brokerId":"9","capacity":{"DISK":"100","CPU":"100","NW_IN":"100","NW_OUT":"100"}},{"brokerId":"-1","capacity":{"DISK":"100","CPU":"100","NW_IN":"100","NW_OUT":"100"},"doc":"all"}', ""),
    ],
)

# The capacities of the one broker.
CAPACITY = (
    '{"version":1,"brokers":[{"id":0}],"partitions":[],"brokerCapacities":[{"brokerId":"0","capacity":',
    "}]}",
    [
        ('"100"', "WrongShape /brokerCapacities/0/capacity"),
        ('{"CPU":"1"}', "WrongShape /brokerCapacities/0/capacity/DISK"),
        ('{"DISK":{"/tmp":"5"}}', "Unsupported /brokerCapacities/0/capacity/DISK"),
        ('{"DISK":"1","CPU":{"num.cores":"8"}}', "Unsupported /brokerCapacities/0/capacity/CPU"),
        ('{"DISK":"1","CPU":"1","NW_IN":{}}', "WrongShape /brokerCapacities/0/capacity/NW_IN"),
        ('{"DISK":5}', "WrongShape /brokerCapacities/0/capacity/DISK"),
        ('{"DISK":"100."}', "BadNumber /brokerCapacities/0/capacity/DISK"),
        ('{"DISK":"100.5"}', "BadNumber /brokerCapacities/0/capacity/DISK"),
        ('{"DISK":"-1"}', "BadNumber /brokerCapacities/0/capacity/DISK"),
        ('{"DISK":"00000000000001"}', "BadNumber /brokerCapacities/0/capacity/DISK"),
        ('{"DISK":"1099511627776"}', "BadNumber /brokerCapacities/0/capacity/DISK"),
        ('{"DISK":"1099511627775","CPU":"100.00","NW_IN":"0001","NW_OUT":"0"}', ""),
    ],
)

# Partitions on two brokers.
PARTITIONS = (
    '{"version":1,"brokers":[{"id":0},{"id":1}],"partitions":[',
    "] }",
    [
        ("5", "WrongShape /partitions/0"),
        ('{"partition":0}', "WrongShape /partitions/0/topic"),
        ('{"topic":".","partition":0}', "BadTopic /partitions/0/topic"),
        ('{"topic":"a b","partition":0}', "BadTopic /partitions/0/topic"),
        ('{"topic":"t"}', "WrongShape /partitions/0/partition"),
        ('{"topic":"t","partition":-1}', "BadNumber /partitions/0/partition"),
        ('{"topic":"t","partition":0}', "WrongShape /partitions/0/replicas"),
        ('{"topic":"t","partition":0,"replicas":[0,"1"]}', "WrongShape /partitions/0/replicas/1"),
        ('{"topic":"t","partition":0,"replicas":[0,2147483648]}', "BadNumber /partitions/0/replicas/1"),
        ('{"topic":"t","partition":0,"replicas":[]}', "EmptyReplicas 0"),
        ('{"topic":"t","partition":0,"replicas":[7]}', "UnknownBroker 0 7"),
        ('{"topic":"t","partition":0,"replicas":[0,0]}', "DuplicateReplica 0 0"),
        ('{"topic":"t","partition":0,"replicas":[0,1,2,3,4,5,6,7,8]}', "OverLimit Replicas"),
        ('{"topic":"t","partition":0,"replicas":[0]},{"topic":"t","partition":0,"replicas":[0]}', "DuplicatePartition 1"),
        ('{"topic":"t","partition":0,"replicas":[0]},{"topic":"_a.b-9","partition":0,"replicas":[1,0]}', ""),
    ],
)

# Members of the one partition.
MEMBER = (
    '{"version":1,"brokers":[{"id":0}],"partitions":[{"topic":"t","partition":0,"replicas":[0],',
    "}]}",
    [
        ('"log_dirs":"any"', "WrongShape /partitions/0/log_dirs"),
        ('"log_dirs":["any",5]', "WrongShape /partitions/0/log_dirs/1"),
        ('"chunks":0', "BadNumber /partitions/0/chunks"),
        ('"chunks":1001', "BadNumber /partitions/0/chunks"),
        ('"chunks":"1"', "WrongShape /partitions/0/chunks"),
        ('"load":5', "WrongShape /partitions/0/load"),
        ('"load":{"leader":5}', "WrongShape /partitions/0/load/leader"),
        ('"load":{"leader":{"CPU":1,"DISK":4294967296}}', "BadNumber /partitions/0/load/leader/DISK"),
        ('"load":{"follower":{"NW_IN":"1"}}', "WrongShape /partitions/0/load/follower/NW_IN"),
        ('"load":{"leader":{"DISK":1.5},"follower":5}', "BadNumber /partitions/0/load/leader/DISK"),
        ('"log_dirs":["any"],"chunks":1000,"load":{"follower":{"DISK":4294967295,"NW_OUT":"not used"}}', ""),
    ],
)

# Samples of the one partition.
SAMPLES = (
    '{"version":1,"brokers":[{"id":0}],"partitions":[{"topic":"t","partition":3,"replicas":[0]}],"samples":[',
    "]}",
    [
        ("5", "WrongShape /samples/0"),
        ('{"partition":3,"time":0,"load":{"leader":{"DISK":1}}}', "WrongShape /samples/0/topic"),
        ('{"topic":"","partition":3,"time":0,"load":{"leader":{"DISK":1}}}', "BadTopic /samples/0/topic"),
        ('{"topic":"t","time":0,"load":{"leader":{"DISK":1}}}', "WrongShape /samples/0/partition"),
        ('{"topic":"t","partition":3,"time":9007199254740992,"load":{"leader":{"DISK":1}}}', "BadNumber /samples/0/time"),
        ('{"topic":"t","partition":3,"time":0}', "WrongShape /samples/0/load"),
        ('{"topic":"t","partition":4,"time":0,"load":{"leader":{"DISK":1}}}', "WrongShape /samples/0"),
        ('{"topic":"u","partition":3,"time":0,"load":{"leader":{"DISK":1}}}', "WrongShape /samples/0"),
        ('{"topic":"t","partition":3,"time":9007199254740991,"load":{"leader":{"DISK":1}}}', ""),
    ],
)

# The least leaders of topics.
FLOORS = (
    '{"version":2,"brokers":[{"id":0}],"partitions":[{"topic":"t","partition":0,"replicas":[0]}],"minTopicLeaders":',
    "}",
    [
        ("{}", "WrongShape /minTopicLeaders"),
        ("[5]", "WrongShape /minTopicLeaders/0"),
        ('[{"leaders":0}]', "WrongShape /minTopicLeaders/0/topic"),
        ('[{"topic":".","leaders":1}]', "BadTopic /minTopicLeaders/0/topic"),
        ('[{"topic":"t"}]', "WrongShape /minTopicLeaders/0/leaders"),
        ('[{"topic":"t","leaders":0}]', "BadNumber /minTopicLeaders/0/leaders"),
        ('[{"topic":"t","leaders":10001}]', "BadNumber /minTopicLeaders/0/leaders"),
        ('[{"topic":"t","leaders":1},{"topic":"u","leaders":1},{"topic":"t"}]', "WrongShape /minTopicLeaders/2/topic"),
        ('[{"topic":"gone","leaders":10000},{"topic":"t","leaders":1}]', ""),
        ("[]", ""),
        ('5,"version":1', ""),
    ],
)

# Settings.
CONFIG = (
    '{"version":1,"brokers":[{"id":0}],"partitions":[],"config":',
    "}",
    [
        ('{"cpu.capacity.threshold":"0.80"}', ""),
        ('{"cpu.capacity.threshold":"0.8000"}', "BadConfig cpu.capacity.threshold"),
        ('{"network.inbound.capacity.threshold":"9999.999"}', ""),
        ('{"network.inbound.capacity.threshold":"10000"}', "BadConfig network.inbound.capacity.threshold"),
        ('{"network.outbound.capacity.threshold":1}', ""),
        ('{"network.outbound.capacity.threshold":1.5}', "BadConfig network.outbound.capacity.threshold"),
        ('{"disk.capacity.threshold":"0"}', ""),
        ('{"disk.capacity.threshold":".5"}', "BadConfig disk.capacity.threshold"),
        ('{"cpu.balance.threshold":"1.000"}', ""),
        ('{"cpu.balance.threshold":"0.999"}', "BadConfig cpu.balance.threshold"),
        ('{"network.inbound.balance.threshold":"1"}', ""),
        ('{"network.inbound.balance.threshold":"0"}', "BadConfig network.inbound.balance.threshold"),
        ('{"network.outbound.balance.threshold":"1.10"}', ""),
        ('{"network.outbound.balance.threshold":"1.1.1"}', "BadConfig network.outbound.balance.threshold"),
        ('{"disk.balance.threshold":2}', ""),
        ('{"disk.balance.threshold":0}', "BadConfig disk.balance.threshold"),
        ('{"replica.count.balance.threshold":"1.1"}', ""),
        ('{"replica.count.balance.threshold":"-1"}', "BadConfig replica.count.balance.threshold"),
        ('{"leader.replica.count.balance.threshold":"01.50"}', ""),
        ('{"leader.replica.count.balance.threshold":"1."}', "BadConfig leader.replica.count.balance.threshold"),
        ('{"topic.replica.count.balance.threshold":"3.00"}', ""),
        ('{"topic.replica.count.balance.threshold":true}', "BadConfig topic.replica.count.balance.threshold"),
        ('{"max.replicas.per.broker":"0"}', ""),
        ('{"max.replicas.per.broker":"1000001"}', "BadConfig max.replicas.per.broker"),
        ('{"num.concurrent.partition.movements.per.broker":10000}', ""),
        ('{"num.concurrent.partition.movements.per.broker":"0"}', "BadConfig num.concurrent.partition.movements.per.broker"),
        ('{"max.num.cluster.movements":10000}', ""),
        ('{"max.num.cluster.movements":"0"}', "BadConfig max.num.cluster.movements"),
        ('{"num.concurrent.leader.movements":10000}', ""),
        ('{"num.concurrent.leader.movements":"0"}', "BadConfig num.concurrent.leader.movements"),
        ('{"partition.metrics.window.ms":86400000}', ""),
        ('{"partition.metrics.window.ms":86400001}', "BadConfig partition.metrics.window.ms"),
        ('{"num.partition.metrics.windows":"100"}', ""),
        ('{"num.partition.metrics.windows":"0100"}', "BadConfig num.partition.metrics.windows"),
        ('{"min.samples.per.partition.metrics.window":65536}', ""),
        ('{"min.samples.per.partition.metrics.window":65537}', "BadConfig min.samples.per.partition.metrics.window"),
        ('{"min.valid.windows":"1"}', ""),
        ('{"min.valid.windows":"+1"}', "BadConfig min.valid.windows"),
        ('{"min.valid.partition.ratio":"1.000"}', ""),
        ('{"min.valid.partition.ratio":"1.001"}', "BadConfig min.valid.partition.ratio"),
        ('{"a":"1"}', "BadConfig a"),
        ('{"z":"1","cpu.balance.threshold":"0"}', "BadConfig cpu.balance.threshold"),
        ("5", "WrongShape /config"),
    ],
)

CAPACITY_OF_0 = '"brokerCapacities":[{"brokerId":"0","capacity":{"DISK":"100","CPU":"100","NW_IN":"100","NW_OUT":"100"}}]'

# Three brokers, with one change each. The first one is taken.
CHANGED = (
    "",
    "",
    [
        (changed("[0,1]", "[0,2]"), ""),
        (changed('"version":1', '"version":3'), "UnsupportedVersion"),
        (changed('"id":0', '"id":2147483648'), "BadNumber /brokers/0/id"),
        (changed('"id":0,"rack":"a"', '"id":0,"rack":5'), "WrongShape /brokers/0/rack"),
        (changed('"id":1', '"id":0'), "DuplicateBroker 0"),
        (changed('"topic":"t"', '"topic":"."'), "BadTopic /partitions/0/topic"),
        (changed("[0,1]", "[]"), "EmptyReplicas 0"),
        (changed("[0,1]", "[7]"), "UnknownBroker 0 7"),
        (changed("[0,1]", "[0,0]"), "DuplicateReplica 0 0"),
        (changed("[0,1]", "[0,1,2,3,4,5,6,7,8]"), "OverLimit Replicas"),
        (with_member(CAPACITY_OF_0), "MissingCapacity 1"),
        (with_member(CAPACITY_OF_0.replace('"DISK":"100"', '"DISK":{"/tmp":"100"}')), "Unsupported /brokerCapacities/0/capacity/DISK"),
        (with_member('"config":{"a":"1"}'), "BadConfig a"),
    ],
)

FILES = [WHOLE, BROKER, ENTRIES, CAPACITY, PARTITIONS, MEMBER, SAMPLES, FLOORS, CONFIG, CHANGED]
