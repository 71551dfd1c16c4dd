"""Plans, assignments and traces as plain data: words, the text of the file `cluster`, that of the file `trace` (none: there is no
such file), and the status, the output and the line that come. Where the status is 7 the output takes nothing."""

RACKS = " --goals RackAwareGoal --skip-hard-goal-check"

PLAN = "plan cluster" + RACKS

APPLY = "apply cluster" + RACKS

CHECK = "check cluster trace" + RACKS

# Two replicas on one rack.
THREE_BROKERS = '{"version":1,"brokers":[{"id":0,"rack":"a"},{"id":1,"rack":"a"},{"id":2,"rack":"b"}],"partitions":[{"topic":"t","partition":0,"replicas":[0,1]}]}'

# Four partitions of eight have two replicas in one zone.
THREE_ZONES = '{"version":1,"brokers":[{"id":101,"rack":"zone-a"},{"id":102,"rack":"zone-a"},{"id":103,"rack":"zone-b"},{"id":104,"rack":"zone-b"},{"id":105,"rack":"zone-c"},{"id":106,"rack":"zone-c"}],"partitions":[{"topic":"orders","partition":0,"replicas":[101,102,103]},{"topic":"orders","partition":1,"replicas":[103,105,101]},{"topic":"orders","partition":2,"replicas":[105,106,102]},{"topic":"orders","partition":3,"replicas":[102,104,106]},{"topic":"payments","partition":0,"replicas":[104,103,101]},{"topic":"payments","partition":1,"replicas":[106,101,103]},{"topic":"payments","partition":2,"replicas":[101,103,105]},{"topic":"payments","partition":3,"replicas":[102,101,104]}]}'

NO_PARTITION = '{"version":1,"brokers":[{"id":0,"rack":"a"},{"id":1,"rack":"a"},{"id":2,"rack":"b"}],"partitions":[]}'

# Three replicas for two racks.
TWO_RACKS_FOR_THREE = '{"version":1,"brokers":[{"id":0,"rack":"a"},{"id":1,"rack":"a"},{"id":2,"rack":"b"}],"partitions":[{"topic":"t","partition":0,"replicas":[0,1,2]}]}'

LOST_ALONE = '{"version":1,"brokers":[{"id":0,"state":"DEAD"}],"partitions":[{"topic":"t","partition":0,"replicas":[0]}]}'

LOST_AMONG_THREE = '{"version":1,"brokers":[{"id":0,"state":"DEAD"},{"id":1},{"id":2}],"partitions":[{"topic":"t","partition":0,"replicas":[1,0]}]}'

DEMOTED_LEADER = '{"version":1,"brokers":[{"id":0,"state":"DEMOTED"},{"id":1,"state":"ALIVE"}],"partitions":[{"topic":"t","partition":0,"replicas":[0]}]}'

TWICE_BROKER_0 = '{"version":1,"brokers":[{"id":0},{"id":0}],"partitions":[]}'

# Brokers 0 that is lost, 1 that is alive and 2 that is being added, with one partition each.
STATES = '{"version":1,"brokers":[{"id":0,"state":"DEAD"},{"id":1},{"id":2,"state":"NEW"}],"partitions":[{"topic":"t","partition":0,"replicas":[0]},{"topic":"t","partition":1,"replicas":[1]},{"topic":"t","partition":2,"replicas":[2]}]}'

TOO_FEW_RACKS = '{"version":1,"brokers":[{"id":1,"rack":"dc-1"},{"id":2,"rack":"dc-1"},{"id":3,"rack":"dc-2"},{"id":4,"rack":"dc-2"}],"partitions":[{"topic":"audit","partition":0,"replicas":[1,2,3]},{"topic":"audit","partition":1,"replicas":[2,3]},{"topic":"audit","partition":2,"replicas":[3,4]}]}'

# A replica on a lost broker, two on one rack, and three partitions that a demoted broker leads.
TROUBLED = '{"version":1,"brokers":[{"id":0,"rack":"a","state":"DEAD"},{"id":1,"rack":"a"},{"id":2,"rack":"b"},{"id":3,"rack":"c","state":"DEMOTED"},{"id":4,"rack":"b"}],"partitions":[{"topic":"t","partition":0,"replicas":[0,2]},{"topic":"t","partition":1,"replicas":[2,4]},{"topic":"t","partition":2,"replicas":[3,2]},{"topic":"t","partition":3,"replicas":[3,1]},{"topic":"t","partition":4,"replicas":[3,4]}]}'

# The demoted broker leads both partitions, one of which stands on it alone.
DEMOTED_AND_ALONE = (
    '{"version":1,"brokers":[{"id":0,"state":"DEMOTED"},{"id":1}],'
    '"partitions":[{"topic":"t","partition":0,"replicas":[0,1]},{"topic":"t","partition":1,"replicas":[0]}]}'
)

MOVED = '{"partitions":[{"partition":0,"replicas":[2,1],"topic":"t"}],"version":1}\n'

DRAINED = '{"partitions":[{"partition":0,"replicas":[1,2],"topic":"t"}],"version":1}\n'

LED = '{"partitions":[{"partition":0,"replicas":[1],"topic":"t"}],"version":1}\n'

LED_BY_1 = '{"partitions":[{"partition":0,"replicas":[1,0],"topic":"t"}],"version":1}\n'

LEADERS_ALONE = " --excluded-topics t"

LEAD_TRACED = (
    '{"result":"PLANNED","turns":[{"actions":[],"goal":"EvacuationGoal"},{"actions":[],"goal":"RackAwareGoal"},'
    '{"actions":[["LEAD",0,1]],"goal":"DemotionGoal"}],"version":1}\n'
)

NOTHING = '{"partitions":[],"version":1}\n'

ZONES_PLANNED = '{"partitions":[{"partition":0,"replicas":[105,102,103],"topic":"orders"},{"partition":2,"replicas":[103,106,102],"topic":"orders"},{"partition":0,"replicas":[104,105,101],"topic":"payments"},{"partition":3,"replicas":[102,105,104],"topic":"payments"}],"version":1}\n'

ZONES_APPLIED = '{"partitions":[{"partition":0,"replicas":[105,102,103],"topic":"orders"},{"partition":1,"replicas":[103,105,101],"topic":"orders"},{"partition":2,"replicas":[103,106,102],"topic":"orders"},{"partition":3,"replicas":[102,104,106],"topic":"orders"},{"partition":0,"replicas":[104,105,101],"topic":"payments"},{"partition":1,"replicas":[106,101,103],"topic":"payments"},{"partition":2,"replicas":[101,103,105],"topic":"payments"},{"partition":3,"replicas":[102,105,104],"topic":"payments"}],"version":1}\n'

RACKS_FAIL = '{"failed":"RackAwareGoal","measure":"1"}\n'

EVACUATION_FAILS = '{"failed":"EvacuationGoal","measure":"1"}\n'

RACKS_LINE = "hard goal failed: RackAwareGoal\n"

EVACUATION_LINE = "hard goal failed: EvacuationGoal\n"

REFUSED = "trace refused\n"

# Plans and assignments, and what they come to where they are not made.
ROWS = [
    (PLAN, THREE_BROKERS, "", 0, MOVED, ""),
    (APPLY, THREE_BROKERS, "", 0, MOVED, ""),
    (PLAN, NO_PARTITION, "", 0, NOTHING, ""),
    (APPLY, NO_PARTITION, "", 0, NOTHING, ""),
    (PLAN, TWO_RACKS_FOR_THREE, "", 4, RACKS_FAIL, RACKS_LINE),
    (APPLY, TWO_RACKS_FOR_THREE, "", 4, RACKS_FAIL, RACKS_LINE),
    (PLAN, TOO_FEW_RACKS, "", 4, RACKS_FAIL, RACKS_LINE),
    (APPLY, TOO_FEW_RACKS, "", 4, RACKS_FAIL, RACKS_LINE),
    (PLAN, LOST_ALONE, "", 4, EVACUATION_FAILS, EVACUATION_LINE),
    (APPLY, LOST_ALONE, "", 4, EVACUATION_FAILS, EVACUATION_LINE),
    (PLAN, LOST_AMONG_THREE, "", 0, DRAINED, ""),
    (APPLY, LOST_AMONG_THREE, "", 0, DRAINED, ""),
    (PLAN, DEMOTED_LEADER, "", 0, LED, ""),
    (APPLY, DEMOTED_LEADER, "", 0, LED, ""),
    (PLAN, THREE_ZONES, "", 0, ZONES_PLANNED, ""),
    (APPLY, THREE_ZONES, "", 0, ZONES_APPLIED, ""),
    # the cluster is read before the trace, which is absent
    (
        CHECK,
        TWICE_BROKER_0,
        "",
        3,
        "",
        "cluster refused: DuplicateBroker 0\n",
    ),
    (CHECK, THREE_BROKERS, "", 5, "", "file fault\n"),
    # all goals, and no such file
    ("plan cluster", NO_PARTITION, "", 0, NOTHING, ""),
    (
        "plan none --goals RackAwareGoal --skip-hard-goal-check",
        THREE_BROKERS,
        "",
        5,
        "",
        "file fault\n",
    ),
    # a demotion where no replica may move: one leader changes, and the other stays with its only replica
    (PLAN + LEADERS_ALONE, DEMOTED_AND_ALONE, "", 0, LED_BY_1, ""),
    (PLAN + LEADERS_ALONE + " --trace", DEMOTED_AND_ALONE, "", 0, LEAD_TRACED, ""),
    (CHECK + LEADERS_ALONE, DEMOTED_AND_ALONE, LEAD_TRACED, 0, "good\n", ""),
    # an output that fails at once
    (PLAN, THREE_BROKERS, "", 7, "", "write fault\n"),
    (APPLY, THREE_BROKERS, "", 7, "", "write fault\n"),
]

# Traces, turn by turn.
TURNS = [
    # the first turn
    (
        CHECK,
        TROUBLED,
        '{"result":"PLANNED","turns":[{"actions":[["MOVE",1,4,1]],"goal":"RackAwareGoal"},{"actions":[["MOVE",1,4,1]],"goal":"RackAwareGoal"},{"actions":[["LEAD",2,2],["LEAD",3,1],["LEAD",4,4]],"goal":"DemotionGoal"}],"version":1}',
        11,
        "fault 0 0 WRONG_GOAL\n",
        REFUSED,
    ),
    (
        CHECK,
        TROUBLED,
        '{"result":"PLANNED","turns":[{"actions":[["MOVE",0,0,2]],"goal":"EvacuationGoal"},{"actions":[["MOVE",1,4,1]],"goal":"RackAwareGoal"},{"actions":[["LEAD",2,2],["LEAD",3,1],["LEAD",4,4]],"goal":"DemotionGoal"}],"version":1}',
        11,
        "fault 0 0 ILLEGAL\n",
        REFUSED,
    ),
    (
        CHECK,
        TROUBLED,
        '{"result":"PLANNED","turns":[{"actions":[["MOVE",0,0,1],["MOVE",9,0,1]],"goal":"EvacuationGoal"},{"actions":[["MOVE",1,4,1]],"goal":"RackAwareGoal"},{"actions":[["LEAD",2,2],["LEAD",3,1],["LEAD",4,4]],"goal":"DemotionGoal"}],"version":1}',
        11,
        "fault 0 1 ILLEGAL\n",
        REFUSED,
    ),
    (
        CHECK,
        TROUBLED,
        '{"result":"PLANNED","turns":[{"actions":[["MOVE",1,4,1],["MOVE",0,0,1]],"goal":"EvacuationGoal"},{"actions":[["MOVE",1,4,1]],"goal":"RackAwareGoal"},{"actions":[["LEAD",2,2],["LEAD",3,1],["LEAD",4,4]],"goal":"DemotionGoal"}],"version":1}',
        11,
        "fault 0 0 NOT_LESSENING\n",
        REFUSED,
    ),
    (
        CHECK,
        TROUBLED,
        '{"result":"PLANNED","turns":[{"actions":[],"goal":"EvacuationGoal"},{"actions":[["MOVE",1,4,1]],"goal":"RackAwareGoal"},{"actions":[["LEAD",2,2],["LEAD",3,1],["LEAD",4,4]],"goal":"DemotionGoal"}],"version":1}',
        11,
        "fault 0 0 NOT_FINISHED\n",
        REFUSED,
    ),
    (
        CHECK,
        TROUBLED,
        '{"result":"PLANNED","turns":[{"actions":[["MOVE",0,0,1]],"goal":"EvacuationGoal"},{"actions":[["MOVE",1,4,1]],"goal":"RackAwareGoal"},{"actions":[["LEAD",2,2],["LEAD",3,1],["LEAD",4,4]],"goal":"DemotionGoal"}],"version":1}',
        0,
        "good\n",
        "",
    ),
    # the second turn
    (
        CHECK,
        TROUBLED,
        '{"result":"PLANNED","turns":[{"actions":[["MOVE",0,0,1]],"goal":"EvacuationGoal"},{"actions":[["LEAD",2,2],["LEAD",3,1],["LEAD",4,4]],"goal":"DemotionGoal"},{"actions":[["LEAD",2,2],["LEAD",3,1],["LEAD",4,4]],"goal":"DemotionGoal"}],"version":1}',
        11,
        "fault 1 0 WRONG_GOAL\n",
        REFUSED,
    ),
    (
        CHECK,
        TROUBLED,
        '{"result":"PLANNED","turns":[{"actions":[["MOVE",0,0,1]],"goal":"EvacuationGoal"},{"actions":[["MOVE",1,4,0]],"goal":"RackAwareGoal"},{"actions":[["LEAD",2,2],["LEAD",3,1],["LEAD",4,4]],"goal":"DemotionGoal"}],"version":1}',
        11,
        "fault 1 0 ILLEGAL\n",
        REFUSED,
    ),
    (
        CHECK,
        TROUBLED,
        '{"result":"PLANNED","turns":[{"actions":[["MOVE",0,0,1]],"goal":"EvacuationGoal"},{"actions":[["MOVE",1,4,1],["LEAD",2,2]],"goal":"RackAwareGoal"},{"actions":[["LEAD",2,2],["LEAD",3,1],["LEAD",4,4]],"goal":"DemotionGoal"}],"version":1}',
        11,
        "fault 1 1 NOT_LESSENING\n",
        REFUSED,
    ),
    (
        CHECK,
        TROUBLED,
        '{"result":"PLANNED","turns":[{"actions":[["MOVE",0,0,1]],"goal":"EvacuationGoal"},{"actions":[],"goal":"RackAwareGoal"},{"actions":[["LEAD",2,2],["LEAD",3,1],["LEAD",4,4]],"goal":"DemotionGoal"}],"version":1}',
        11,
        "fault 1 0 NOT_FINISHED\n",
        REFUSED,
    ),
    # the third turn
    (
        CHECK,
        TROUBLED,
        '{"result":"PLANNED","turns":[{"actions":[["MOVE",0,0,1]],"goal":"EvacuationGoal"},{"actions":[["MOVE",1,4,1]],"goal":"RackAwareGoal"},{"actions":[["MOVE",0,0,1]],"goal":"EvacuationGoal"}],"version":1}',
        11,
        "fault 2 0 WRONG_GOAL\n",
        REFUSED,
    ),
    (
        CHECK,
        TROUBLED,
        '{"result":"PLANNED","turns":[{"actions":[["MOVE",0,0,1]],"goal":"EvacuationGoal"},{"actions":[["MOVE",1,4,1]],"goal":"RackAwareGoal"},{"actions":[["LEAD",2,2],["LEAD",3,1],["LEAD",4,2]],"goal":"DemotionGoal"}],"version":1}',
        11,
        "fault 2 2 ILLEGAL\n",
        REFUSED,
    ),
    (
        CHECK,
        TROUBLED,
        '{"result":"PLANNED","turns":[{"actions":[["MOVE",0,0,1]],"goal":"EvacuationGoal"},{"actions":[["MOVE",1,4,1]],"goal":"RackAwareGoal"},{"actions":[["MOVE",2,3,4]],"goal":"DemotionGoal"}],"version":1}',
        11,
        "fault 2 0 NOT_ACCEPTED\n",
        REFUSED,
    ),
    (
        CHECK,
        TROUBLED,
        '{"result":"PLANNED","turns":[{"actions":[["MOVE",0,0,1]],"goal":"EvacuationGoal"},{"actions":[["MOVE",1,4,1]],"goal":"RackAwareGoal"},{"actions":[["LEAD",3,1],["MOVE",2,3,4]],"goal":"DemotionGoal"}],"version":1}',
        11,
        "fault 2 1 NOT_ACCEPTED\n",
        REFUSED,
    ),
    (
        CHECK,
        TROUBLED,
        '{"result":"PLANNED","turns":[{"actions":[["MOVE",0,0,1]],"goal":"EvacuationGoal"},{"actions":[["MOVE",1,4,1]],"goal":"RackAwareGoal"},{"actions":[["LEAD",2,2],["LEAD",3,1],["MOVE",4,3,2]],"goal":"DemotionGoal"}],"version":1}',
        11,
        "fault 2 2 NOT_ACCEPTED\n",
        REFUSED,
    ),
    (
        CHECK,
        TROUBLED,
        '{"result":"PLANNED","turns":[{"actions":[["MOVE",0,0,1]],"goal":"EvacuationGoal"},{"actions":[["MOVE",1,4,1]],"goal":"RackAwareGoal"},{"actions":[["LEAD",2,2],["LEAD",3,1],["LEAD",2,3]],"goal":"DemotionGoal"}],"version":1}',
        11,
        "fault 2 2 NOT_LESSENING\n",
        REFUSED,
    ),
    (
        CHECK,
        TROUBLED,
        '{"result":"PLANNED","turns":[{"actions":[["MOVE",0,0,1]],"goal":"EvacuationGoal"},{"actions":[["MOVE",1,4,1]],"goal":"RackAwareGoal"},{"actions":[],"goal":"DemotionGoal"}],"version":1}',
        11,
        "fault 2 0 NOT_FINISHED\n",
        REFUSED,
    ),
    (
        CHECK,
        TROUBLED,
        '{"result":"PLANNED","turns":[{"actions":[["MOVE",0,0,1]],"goal":"EvacuationGoal"},{"actions":[["MOVE",1,4,1]],"goal":"RackAwareGoal"},{"actions":[["LEAD",2,2],["LEAD",3,1]],"goal":"DemotionGoal"}],"version":1}',
        11,
        "fault 2 2 NOT_FINISHED\n",
        REFUSED,
    ),
]

# Traces by their ends, and by the states of brokers.
TRACES = [
    # the end of the trace
    (
        CHECK,
        TROUBLED,
        '{"result":"PLANNED","turns":[],"version":1}',
        11,
        "fault 0 0 WRONG_GOAL\n",
        REFUSED,
    ),
    (
        CHECK,
        TROUBLED,
        '{"result":"PLANNED","turns":[{"actions":[["MOVE",0,0,1]],"goal":"EvacuationGoal"},{"actions":[["MOVE",1,4,1]],"goal":"RackAwareGoal"}],"version":1}',
        11,
        "fault 2 0 WRONG_GOAL\n",
        REFUSED,
    ),
    (
        CHECK,
        TROUBLED,
        '{"result":"PLANNED","turns":[{"actions":[["MOVE",0,0,1]],"goal":"EvacuationGoal"},{"actions":[["MOVE",1,4,1]],"goal":"RackAwareGoal"},{"actions":[["LEAD",2,2],["LEAD",3,1],["LEAD",4,4]],"goal":"DemotionGoal"},{"actions":[["LEAD",2,2],["LEAD",3,1],["LEAD",4,4]],"goal":"DemotionGoal"}],"version":1}',
        11,
        "fault 3 0 WRONG_GOAL\n",
        REFUSED,
    ),
    (
        CHECK,
        TROUBLED,
        '{"result":"FAILED","turns":[{"actions":[["MOVE",0,0,1]],"goal":"EvacuationGoal"},{"actions":[["MOVE",1,4,1]],"goal":"RackAwareGoal"},{"actions":[["LEAD",2,2],["LEAD",3,1],["LEAD",4,4]],"goal":"DemotionGoal"}],"version":1}',
        11,
        "fault 3 0 WRONG_RESULT\n",
        REFUSED,
    ),
    (
        CHECK,
        TROUBLED,
        '{"result":"DONE","turns":[{"actions":[["MOVE",0,0,1]],"goal":"EvacuationGoal"},{"actions":[["MOVE",1,4,1]],"goal":"RackAwareGoal"},{"actions":[["LEAD",2,2],["LEAD",3,1],["LEAD",4,4]],"goal":"DemotionGoal"}],"version":1}',
        11,
        "fault 0 0 NOT_A_TRACE\n",
        REFUSED,
    ),
    (
        CHECK,
        LOST_ALONE,
        '{"result":"PLANNED","turns":[{"actions":[],"goal":"EvacuationGoal"}],"version":1}',
        11,
        "fault 0 0 WRONG_RESULT\n",
        REFUSED,
    ),
    (
        CHECK,
        TWO_RACKS_FOR_THREE,
        '{"result":"PLANNED","turns":[{"actions":[],"goal":"EvacuationGoal"},{"actions":[],"goal":"RackAwareGoal"}],"version":1}',
        11,
        "fault 1 0 WRONG_RESULT\n",
        REFUSED,
    ),
    (
        CHECK,
        TWO_RACKS_FOR_THREE,
        '{"result":"FAILED","turns":[{"actions":[],"goal":"EvacuationGoal"},{"actions":[],"goal":"RackAwareGoal"},{"actions":[],"goal":"DemotionGoal"}],"version":1}',
        11,
        "fault 1 0 WRONG_RESULT\n",
        REFUSED,
    ),
    (
        CHECK,
        TWO_RACKS_FOR_THREE,
        '{"result":"FAILED","turns":[{"actions":[],"goal":"EvacuationGoal"},{"actions":[],"goal":"RackAwareGoal"}],"version":1}',
        0,
        "good\n",
        "",
    ),
    # the plan of three brokers
    (
        CHECK,
        THREE_BROKERS,
        '{"result":"PLANNED","turns":[{"actions":[],"goal":"EvacuationGoal"},{"actions":[],"goal":"RackAwareGoal"},{"actions":[],"goal":"DemotionGoal"}],"version":1}',
        11,
        "fault 1 0 NOT_FINISHED\n",
        REFUSED,
    ),
    (
        CHECK,
        THREE_BROKERS,
        '{"result":"PLANNED","turns":[{"actions":[],"goal":"EvacuationGoal"},{"actions":[["MOVE",0,0,2]],"goal":"RackAwareGoal"},{"actions":[],"goal":"DemotionGoal"}],"version":1}',
        0,
        "good\n",
        "",
    ),
    # moves by the states of brokers: off the lost one, and onto the one that is added, alone
    (
        CHECK,
        STATES,
        '{"result":"PLANNED","turns":[{"actions":[["MOVE",0,0,1]],"goal":"EvacuationGoal"},{"actions":[],"goal":"RackAwareGoal"},{"actions":[],"goal":"DemotionGoal"}],"version":1}',
        0,
        "good\n",
        "",
    ),
    (
        CHECK,
        STATES,
        '{"result":"PLANNED","turns":[{"actions":[["MOVE",0,0,2]],"goal":"EvacuationGoal"},{"actions":[],"goal":"RackAwareGoal"},{"actions":[],"goal":"DemotionGoal"}],"version":1}',
        0,
        "good\n",
        "",
    ),
    (
        CHECK,
        STATES,
        '{"result":"PLANNED","turns":[{"actions":[["MOVE",1,1,2]],"goal":"EvacuationGoal"},{"actions":[],"goal":"RackAwareGoal"},{"actions":[],"goal":"DemotionGoal"}],"version":1}',
        11,
        "fault 0 0 NOT_LESSENING\n",
        REFUSED,
    ),
    (
        CHECK,
        STATES,
        '{"result":"PLANNED","turns":[{"actions":[["MOVE",2,2,1]],"goal":"EvacuationGoal"},{"actions":[],"goal":"RackAwareGoal"},{"actions":[],"goal":"DemotionGoal"}],"version":1}',
        11,
        "fault 0 0 ILLEGAL\n",
        REFUSED,
    ),
    # a loose text, and a partition that there can't be
    (
        CHECK,
        THREE_BROKERS,
        '{ "version": 1, "by": [null], "turns": [{"goal": "EvacuationGoal", "left": 0.5, "actions": []},\n {"goal": "RackAwareGoal", "actions": [["MOVE", 0, 0, 2]]}, {"actions": [], "goal": "DemotionGoal"}], "result": "PLANNED" }',
        0,
        "good\n",
        "",
    ),
    (
        CHECK,
        THREE_BROKERS,
        '{"result":"FAILED","turns":[{"actions":[["MOVE",4294967295,0,1]],"goal":"EvacuationGoal"}],"version":1}',
        11,
        "fault 0 0 ILLEGAL\n",
        REFUSED,
    ),
    # the planner's own, of a plan and of a failure
    (
        PLAN + " --trace",
        THREE_BROKERS,
        "",
        0,
        '{"result":"PLANNED","turns":[{"actions":[],"goal":"EvacuationGoal"},{"actions":[["MOVE",0,0,2]],"goal":"RackAwareGoal"},{"actions":[],"goal":"DemotionGoal"}],"version":1}\n',
        "",
    ),
    (
        PLAN + " --trace",
        TWO_RACKS_FOR_THREE,
        "",
        4,
        '{"result":"FAILED","turns":[{"actions":[],"goal":"EvacuationGoal"},{"actions":[],"goal":"RackAwareGoal"}],"version":1}\n',
        RACKS_LINE,
    ),
]

# Words behind a command, and a cluster whose fresh trace is judged: that of a plan, or of a failure.
TRACED = [
    *((RACKS, cluster) for cluster in (NO_PARTITION, THREE_BROKERS, THREE_ZONES, TWO_RACKS_FOR_THREE, TOO_FEW_RACKS)),
    *((RACKS, cluster) for cluster in (STATES, LOST_ALONE, LOST_AMONG_THREE, DEMOTED_LEADER, TROUBLED)),
    (RACKS + LEADERS_ALONE, DEMOTED_AND_ALONE),
    ("", THREE_BROKERS),
    ("", THREE_ZONES),
    ("", TROUBLED),
]

# Bytes that are no trace.
NO_TRACES = [
    b"",
    b"{}",
    b'{"result":"PLANNED","turns":{},"version":1}',
    b'{"result":"PLANNED","turns":[],"version":2}',
    b'{"result":"PLANNED","turns":[],"version":1.0}',
    b'{"result":"PLANNED","turns":[]}',
    b'{"result":"PLANNED","turns":[{"actions":[],"goal":"NoGoal"}],"version":1}',
    b'{"result":"PLANNED","turns":[{"goal":"RackAwareGoal"}],"version":1}',
    b'{"result":"PLANNED","turns":[{"actions":[[]],"goal":"RackAwareGoal"}],"version":1}',
    b'{"result":"PLANNED","turns":[{"actions":[["MOVE",1,2]],"goal":"RackAwareGoal"}],"version":1}',
    b'{"result":"PLANNED","turns":[{"actions":[["LEAD",1,4294967296]],"goal":"RackAwareGoal"}],"version":1}',
    b'{"result":"PLANNED","turns":[{"actions":[["LEAD",1,1.0]],"goal":"RackAwareGoal"}],"version":1}',
    b'{"result":"PLANNED","turns":[],"version":1,"by":"\xff"}',
]
