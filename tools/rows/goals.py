"""Plans for lists of goals, as rows of the same form as those of plans.py."""

# A broker whose disk is filled to 80 of 100, and to 81.
FULL_DISK = '{"version":1,"brokers":[{"id":0}],"brokerCapacities":[{"brokerId":"-1","capacity":{"DISK":"100","CPU":"100","NW_IN":"100","NW_OUT":"100"}}],"partitions":[{"topic":"t","partition":0,"replicas":[0],"load":{"leader":{"DISK":80}}}],"config":{"disk.capacity.threshold":"0.80"}}'

OVERFULL_DISK = '{"version":1,"brokers":[{"id":0}],"brokerCapacities":[{"brokerId":"-1","capacity":{"DISK":"100","CPU":"100","NW_IN":"100","NW_OUT":"100"}}],"partitions":[{"topic":"t","partition":0,"replicas":[0],"load":{"leader":{"DISK":81}}}],"config":{"disk.capacity.threshold":"0.80"}}'

# Each action that would even the disks would give a broker too much inbound load.
FULL_NETWORK = '{"version":1,"brokers":[{"id":0},{"id":1}],"brokerCapacities":[{"brokerId":"-1","capacity":{"DISK":"100","CPU":"100","NW_IN":"100","NW_OUT":"100"}}],"partitions":[{"topic":"t","partition":0,"replicas":[0],"load":{"leader":{"DISK":50,"NW_IN":0}}},{"topic":"t","partition":1,"replicas":[1],"load":{"leader":{"DISK":40,"NW_IN":70}}},{"topic":"t","partition":2,"replicas":[0],"load":{"leader":{"DISK":10,"NW_IN":11}}}],"config":{"network.inbound.capacity.threshold":"0.80","disk.balance.threshold":"1.00"}}'

# The disks are evened by an exchange of two partitions.
UNEVEN_DISKS = '{"version":1,"brokers":[{"id":0},{"id":1}],"brokerCapacities":[{"brokerId":"-1","capacity":{"DISK":"100","CPU":"100","NW_IN":"100","NW_OUT":"100"}}],"partitions":[{"topic":"t","partition":0,"replicas":[0],"load":{"leader":{"DISK":30}}},{"topic":"x","partition":0,"replicas":[0],"load":{"leader":{"DISK":30}}},{"topic":"t","partition":1,"replicas":[1],"load":{"leader":{"DISK":20}}},{"topic":"x","partition":1,"replicas":[1],"load":{"leader":{"DISK":20}}}],"config":{"disk.balance.threshold":"1.00"}}'

# What the lost broker holds is too much for the other.
TOO_MUCH_TO_EVACUATE = '{"version":1,"brokers":[{"id":0,"state":"DEAD"},{"id":1}],"brokerCapacities":[{"brokerId":"-1","capacity":{"DISK":"100","CPU":"100","NW_IN":"100","NW_OUT":"100"}}],"partitions":[{"topic":"t","partition":0,"replicas":[0],"load":{"leader":{"DISK":90}}}],"config":{"disk.capacity.threshold":"0.80"}}'

# The same where nothing is lost with the broker.
TOO_MUCH_BESIDE_A_LOST = '{"version":1,"brokers":[{"id":0,"state":"DEAD"},{"id":1}],"brokerCapacities":[{"brokerId":"-1","capacity":{"DISK":"100","CPU":"100","NW_IN":"100","NW_OUT":"100"}}],"partitions":[{"topic":"t","partition":0,"replicas":[1],"load":{"leader":{"DISK":90}}}],"config":{"disk.capacity.threshold":"0.80"}}'

# Each broker may hold one replica, and the leader on the demoted one may not go to the other partition.
DEMOTED_AND_FULL = '{"version":1,"brokers":[{"id":0,"state":"DEMOTED"},{"id":1}],"brokerCapacities":[{"brokerId":"0","capacity":{"DISK":"100","CPU":"100","NW_IN":"100","NW_OUT":"100"}},{"brokerId":"1","capacity":{"DISK":"300","CPU":"100","NW_IN":"100","NW_OUT":"100"}}],"partitions":[{"topic":"t","partition":0,"replicas":[0],"load":{"leader":{"DISK":30}}},{"topic":"t","partition":1,"replicas":[1],"load":{"leader":{"DISK":10}}}],"config":{"max.replicas.per.broker":"1","disk.balance.threshold":"1.00"}}'

# Broker 0 leads both partitions, and each broker is to lead one; to lead two; and the same in a file whose version has no such
# member.
ONE_LEADER = '{"version":2,"brokers":[{"id":0},{"id":1}],"partitions":[{"topic":"t","partition":0,"replicas":[0,1]},{"topic":"t","partition":1,"replicas":[0,1]}],"minTopicLeaders":[{"topic":"t","leaders":1}]}'

TWO_LEADERS = '{"version":2,"brokers":[{"id":0},{"id":1}],"partitions":[{"topic":"t","partition":0,"replicas":[0,1]},{"topic":"t","partition":1,"replicas":[0,1]}],"minTopicLeaders":[{"topic":"t","leaders":2}]}'

LEADERS_OF_VERSION_1 = '{"version":1,"brokers":[{"id":0},{"id":1}],"partitions":[{"topic":"t","partition":0,"replicas":[0,1]},{"topic":"t","partition":1,"replicas":[0,1]}],"minTopicLeaders":[{"topic":"t","leaders":1}]}'

NOTHING = '{"partitions":[],"version":1}\n'

OVERFULL = '{"failed":"DiskCapacityGoal","measure":"100"}\n'

EVACUATED = '{"failed":"DiskCapacityGoal","measure":"1000"}\n'

TOO_FEW = '{"failed":"MinTopicLeadersPerBrokerGoal","measure":"2"}\n'

LED_BY_1 = '{"partitions":[{"partition":0,"replicas":[1,0],"topic":"t"}],"version":1}\n'

EXCHANGED = '{"partitions":[{"partition":0,"replicas":[1],"topic":"t"},{"partition":1,"replicas":[0],"topic":"t"}],"version":1}\n'

LEAD_TRACED = '{"result":"PLANNED","turns":[{"actions":[],"goal":"EvacuationGoal"},{"actions":[["LEAD",0,1]],"goal":"MinTopicLeadersPerBrokerGoal"},{"actions":[],"goal":"DemotionGoal"}],"version":1}\n'

SWAP_TRACED = '{"result":"PLANNED","turns":[{"actions":[],"goal":"EvacuationGoal"},{"actions":[],"goal":"DemotionGoal"},{"actions":[["SWAP",0,0,2,1]],"goal":"DiskUsageDistributionGoal"}],"version":1}\n'

LEAST = "plan cluster --goals MinTopicLeadersPerBrokerGoal --skip-hard-goal-check"

DISK = "plan cluster --goals DiskCapacityGoal --skip-hard-goal-check"

DISK_LINE = "hard goal failed: DiskCapacityGoal\n"

NONE = ""

USAGE = "usage error\n"

# Plans for goals that are named, and words that are refused for their names.
GOALS = [
    (LEAST, ONE_LEADER, "", 0, LED_BY_1, ""),
    (
        LEAST,
        TWO_LEADERS,
        "",
        4,
        TOO_FEW,
        "hard goal failed: MinTopicLeadersPerBrokerGoal\n",
    ),
    (LEAST, LEADERS_OF_VERSION_1, "", 0, NOTHING, ""),
    (DISK, FULL_DISK, "", 0, NOTHING, ""),
    (DISK, OVERFULL_DISK, "", 4, OVERFULL, DISK_LINE),
    (
        "plan cluster --skip-hard-goal-check --goals NetworkInboundCapacityGoal,DiskUsageDistributionGoal",
        FULL_NETWORK,
        "",
        0,
        NOTHING,
        "",
    ),
    (DISK, TOO_MUCH_TO_EVACUATE, "", 4, EVACUATED, DISK_LINE),
    (DISK, TOO_MUCH_BESIDE_A_LOST, "", 4, EVACUATED, DISK_LINE),
    (
        "plan cluster --skip-hard-goal-check --goals=ReplicaCapacityGoal,DiskUsageDistributionGoal",
        DEMOTED_AND_FULL,
        "",
        0,
        NOTHING,
        "",
    ),
    (
        "plan cluster --skip-hard-goal-check --goals DiskUsageDistributionGoal --excluded-topics x",
        UNEVEN_DISKS,
        "",
        0,
        EXCHANGED,
        "",
    ),
    # the planner's own traces of a lead and of a swap
    (LEAST + " --trace", ONE_LEADER, "", 0, LEAD_TRACED, ""),
    (
        "plan cluster --trace --skip-hard-goal-check --goals DiskUsageDistributionGoal --excluded-topics x",
        UNEVEN_DISKS,
        "",
        0,
        SWAP_TRACED,
        "",
    ),
    # the names are refused before the file is looked for
    ("plan none --goals RackAwareGoal", NONE, "", 2, "", USAGE),
    (
        "plan none --skip-hard-goal-check --goals RackAware",
        NONE,
        "",
        2,
        "",
        USAGE,
    ),
    (
        "plan none --skip-hard-goal-check --goals EvacuationGoal",
        NONE,
        "",
        2,
        "",
        USAGE,
    ),
    (
        "plan none --skip-hard-goal-check --goals RackAwareGoal,RackAwareGoal",
        NONE,
        "",
        2,
        "",
        USAGE,
    ),
    # words that ask for help
    ("plan --help", NONE, "", 2, "", USAGE),
]
