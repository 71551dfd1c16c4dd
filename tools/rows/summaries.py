"""Clusters that are made from a seed, as rows of the same form as those of plans.py."""

# A lead of either partition evens what brokers send to clients.
ONE_LEAD = "planned\nproposals 1\nEvacuationGoal 0 0\nRackAwareGoal 0 0\nMinTopicLeadersPerBrokerGoal 0 0\nReplicaCapacityGoal 0 0\nDiskCapacityGoal 0 0\nNetworkInboundCapacityGoal 0 0\nNetworkOutboundCapacityGoal 0 0\nCpuCapacityGoal 0 0\nDemotionGoal 0 0\nReplicaDistributionGoal 0 0\nPotentialNwOutGoal 0 0\nDiskUsageDistributionGoal 0 0\nNetworkInboundUsageDistributionGoal 0 0\nNetworkOutboundUsageDistributionGoal 2442000000 1872000000\nCpuUsageDistributionGoal 12100000 6400000\nTopicReplicaDistributionGoal 0 0\nLeaderReplicaDistributionGoal 1 0\nLeaderBytesInDistributionGoal 646000000 496000000\n"

NO_PARTITION = "planned\nproposals 0\nEvacuationGoal 0 0\nRackAwareGoal 0 0\nMinTopicLeadersPerBrokerGoal 0 0\nReplicaCapacityGoal 0 0\nDiskCapacityGoal 0 0\nNetworkInboundCapacityGoal 0 0\nNetworkOutboundCapacityGoal 0 0\nCpuCapacityGoal 0 0\nDemotionGoal 0 0\nReplicaDistributionGoal 0 0\nPotentialNwOutGoal 0 0\nDiskUsageDistributionGoal 0 0\nNetworkInboundUsageDistributionGoal 0 0\nNetworkOutboundUsageDistributionGoal 0 0\nCpuUsageDistributionGoal 0 0\nTopicReplicaDistributionGoal 0 0\nLeaderReplicaDistributionGoal 0 0\nLeaderBytesInDistributionGoal 0 0\n"

# A thousand partitions need more than 400000 of the one disk.
ONE_DISK = "gen 7 --brokers 1 --partitions 1000 --goals DiskCapacityGoal --skip-hard-goal-check"

ONE_DISK_FAILS = "failed DiskCapacityGoal\nproposals 0\nEvacuationGoal 0 0\nDiskCapacityGoal 8874900 8874900\n"

SIX_BROKERS = '{"brokerCapacities":[{"brokerId":"-1","capacity":{"CPU":"10000","DISK":"500000","NW_IN":"50000","NW_OUT":"50000"}}],"brokers":[{"id":0,"rack":"r0"},{"id":1,"rack":"r1"},{"id":2,"rack":"r2"},{"id":3,"rack":"r3"},{"id":4,"rack":"r0"},{"id":5,"rack":"r1"}],"partitions":[],"version":1}\n'

THREE_BROKERS = '{"brokerCapacities":[{"brokerId":"-1","capacity":{"CPU":"10000","DISK":"500000","NW_IN":"50000","NW_OUT":"50000"}}],"brokers":[{"id":0,"rack":"r0"},{"id":1,"rack":"r1"},{"id":2,"rack":"r2"}],"partitions":[{"load":{"follower":{"CPU":2,"DISK":51,"NW_IN":58},"leader":{"CPU":5,"DISK":51,"NW_IN":58,"NW_OUT":113}},"partition":0,"replicas":[2,0,1],"topic":"t0"},{"load":{"follower":{"CPU":1,"DISK":86,"NW_IN":10},"leader":{"CPU":2,"DISK":86,"NW_IN":10,"NW_OUT":19}},"partition":0,"replicas":[2,0,1],"topic":"t1"}],"version":1}\n'

ONE_BROKER = '{"brokerCapacities":[{"brokerId":"-1","capacity":{"CPU":"10000","DISK":"500000","NW_IN":"50000","NW_OUT":"50000"}}],"brokers":[{"id":0,"rack":"r0"}],"partitions":[{"load":{"follower":{"CPU":2,"DISK":531,"NW_IN":6},"leader":{"CPU":4,"DISK":531,"NW_IN":6,"NW_OUT":68}},"partition":0,"replicas":[0],"topic":"t0"}],"version":1}\n'

# Goals that are named in another order, with those that each list has.
THREE_GOALS = "planned\nproposals 0\nEvacuationGoal 0 0\nDiskCapacityGoal 0 0\nRackAwareGoal 0 0\nDemotionGoal 0 0\nReplicaDistributionGoal 0 0\n"

# Clusters that are planned for, and some that are written.
SUMMARIES = [
    ("gen 1 --brokers 3 --partitions 2", "", "", 0, ONE_LEAD, ""),
    ("gen 1 --partitions 0", "", "", 0, NO_PARTITION, ""),
    (
        ONE_DISK,
        "",
        "",
        4,
        ONE_DISK_FAILS,
        "hard goal failed: DiskCapacityGoal\n",
    ),
    (
        "gen 1 --brokers 3 --partitions 2 --skip-hard-goal-check --goals ReplicaDistributionGoal,DiskCapacityGoal,RackAwareGoal",
        "",
        "",
        0,
        THREE_GOALS,
        "",
    ),
    (
        "gen 1 --brokers 3 --partitions 2 --file",
        "",
        "",
        0,
        THREE_BROKERS,
        "",
    ),
    (
        "gen 7 --brokers 1 --partitions 1 --file",
        "",
        "",
        0,
        ONE_BROKER,
        "",
    ),
    (
        "gen 5 --brokers 6 --partitions 0 --file",
        "",
        "",
        0,
        SIX_BROKERS,
        "",
    ),
    ("gen 5 --goals NoGoal", "", "", 2, "", "usage error\n"),
    (
        "gen 1 --brokers 3 --partitions 2",
        "",
        "",
        7,
        "",
        "write fault\n",
    ),
]
