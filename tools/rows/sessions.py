"""Sessions as plain data: the text of the file `cluster`, requests, and the status, the replies and the line that come."""
from rows.plans import THREE_BROKERS, TWO_RACKS_FOR_THREE

FIRST_TASK = "00000000-0000-8000-8000-000000000001"

SECOND_TASK = "00000000-0000-8000-8000-000000000002"

THIRD_TASK = "00000000-0000-8000-8000-000000000003"

CLUSTER_STATE = "GET /kafkacruisecontrol/kafka_cluster_state"


def reply(status, body, task=None):
    """A reply as docs/FORMATS.md has it, which may carry a user task."""
    line = f"User-Task-ID: {task}\r\n" if task else ""
    return f"HTTP/1.1 {status}\r\nContent-Type: application/json\r\nContent-Length: {len(body)}\r\n{line}\r\n{body}"


def told(body):
    return reply("200 OK", body)


def accepted(status, task):
    return reply("202 Accepted", f'{{"status":"{status}","userTaskId":"{task}","version":1}}', task)


def completed(proposals, task):
    return reply("200 OK", f'{{"proposals":[{proposals}],"status":"Completed","userTaskId":"{task}","version":1}}', task)


def refused(status, text):
    return reply(status, f'{{"errorMessage":"{text}","version":1}}')


def list_told(members, adding="[]"):
    """What is told of a cluster without lost brokers that has the one partition t-0."""
    return told(f'{{"deadBrokers":[],"partitions":[{{"adding":{adding},"partition":0,"removing":[],"replicas":{members},"topic":"t"}}],"version":1}}')


def head_alone(replied):
    """What is written of a reply to HEAD: up to and with the empty line, which the body would follow."""
    return replied[: replied.index("\r\n\r\n") + 4]


def caps_told(broker, cluster, leader):
    return told(f'{{"broker":{broker},"cluster":{cluster},"leader":{leader},"version":1}}')


def bad_parameter(name):
    return refused("400 Bad Request", f"bad parameter: {name}")


def asked(line, task=None):
    """A request without a body, for a user task perhaps."""
    field = f"User-Task-ID: {task}\r\n" if task else ""
    return f"{line} HTTP/1.1\r\n{field}\r\n"


def asked_with_body(line, body):
    return f"{line} HTTP/1.1\r\nContent-Length: {len(body)}\r\n\r\n{body}"


def session(cluster, *talk):
    """The row of a session that ends well: the lines of requests, each with its reply and perhaps with the user task that it is for."""
    requests = "".join(asked(line, *task) for line, _, *task in talk)
    return cluster, requests, 0, "".join(replied for _, replied, *_ in talk), ""


def read(requests, replies):
    """The row of a session over two brokers that ends well, with the text of its requests."""
    return TWO_BROKERS, requests, 0, replies, ""


def cut_behind(requests, replies):
    """The row of a session over two brokers whose last request is cut off or can't be framed."""
    return TWO_BROKERS, requests, 10, replies, "input cut\n"


def head_of(fields):
    """A head with so many fields."""
    return "GET / HTTP/1.1\r\n" + "a: b\r\n" * fields + "\r\n"


# Two brokers, and a partition on the first; requests are planned for without loads.
TWO_BROKERS = '{"version":1,"brokers":[{"id":0},{"id":1}],"partitions":[{"topic":"t","partition":0,"replicas":[0]}],"config":{"min.valid.partition.ratio":"0"}}'

# The first request has its user task, which its key finds again, and which no other request has.
KEYS = "POST /kafkacruisecontrol/remove_broker?brokerid=0&dryrun=false HTTP/1.1\r\n\r\nPOST /kafkacruisecontrol/remove_broker?brokerid=0&dryrun=false HTTP/1.1\r\nUser-Task-ID: 00000000-0000-8000-8000-000000000001\r\n\r\nPOST /kafkacruisecontrol/remove_broker?brokerid=1&dryrun=false HTTP/1.1\r\nUser-Task-ID: 00000000-0000-8000-8000-000000000001\r\n\r\n"

KEYS_ANSWERED = 'HTTP/1.1 202 Accepted\r\nContent-Type: application/json\r\nContent-Length: 83\r\nUser-Task-ID: 00000000-0000-8000-8000-000000000001\r\n\r\n{"status":"Active","userTaskId":"00000000-0000-8000-8000-000000000001","version":1}HTTP/1.1 202 Accepted\r\nContent-Type: application/json\r\nContent-Length: 83\r\nUser-Task-ID: 00000000-0000-8000-8000-000000000001\r\n\r\n{"status":"Active","userTaskId":"00000000-0000-8000-8000-000000000001","version":1}HTTP/1.1 400 Bad Request\r\nContent-Type: application/json\r\nContent-Length: 82\r\n\r\n{"errorMessage":"other request: 00000000-0000-8000-8000-000000000001","version":1}'

# An execution that isn't begun twice, rounds that end it, and the lists that it leaves.
MOVES = "POST /kafkacruisecontrol/remove_broker?brokerid=0&dryrun=false HTTP/1.1\r\n\r\nPOST /kafkacruisecontrol/rebalance?dryrun=false HTTP/1.1\r\n\r\nPOST /cluster/pump?steps=10 HTTP/1.1\r\n\r\nGET /kafkacruisecontrol/kafka_cluster_state HTTP/1.1\r\n\r\n"

MOVES_ANSWERED = 'HTTP/1.1 202 Accepted\r\nContent-Type: application/json\r\nContent-Length: 83\r\nUser-Task-ID: 00000000-0000-8000-8000-000000000001\r\n\r\n{"status":"Active","userTaskId":"00000000-0000-8000-8000-000000000001","version":1}HTTP/1.1 409 Conflict\r\nContent-Type: application/json\r\nContent-Length: 89\r\n\r\n{"errorMessage":"execution unfinished: 00000000-0000-8000-8000-000000000001","version":1}HTTP/1.1 200 OK\r\nContent-Type: application/json\r\nContent-Length: 34\r\n\r\n{"done":3,"idle":true,"version":1}HTTP/1.1 200 OK\r\nContent-Type: application/json\r\nContent-Length: 114\r\n\r\n{"deadBrokers":[],"partitions":[{"adding":[],"partition":0,"removing":[],"replicas":[1],"topic":"t"}],"version":1}'

# The same, cut inside the last head.
CUT = "POST /kafkacruisecontrol/remove_broker?brokerid=0&dryrun=false HTTP/1.1\r\n\r\nPOST /kafkacruisecontrol/rebalance?dryrun=false HTTP/1.1\r\n\r\nPOST /cluster/pump?steps=10 HTTP/1.1\r\n\r\nGET /kafkacruisecontrol/kafka_clu"

CUT_ANSWERED = 'HTTP/1.1 202 Accepted\r\nContent-Type: application/json\r\nContent-Length: 83\r\nUser-Task-ID: 00000000-0000-8000-8000-000000000001\r\n\r\n{"status":"Active","userTaskId":"00000000-0000-8000-8000-000000000001","version":1}HTTP/1.1 409 Conflict\r\nContent-Type: application/json\r\nContent-Length: 89\r\n\r\n{"errorMessage":"execution unfinished: 00000000-0000-8000-8000-000000000001","version":1}HTTP/1.1 200 OK\r\nContent-Type: application/json\r\nContent-Length: 34\r\n\r\n{"done":3,"idle":true,"version":1}'

# The broker 0 leads both partitions, one of which stands on it alone.
LED_BY_0 = '{"version":1,"brokers":[{"id":0},{"id":1}],"partitions":[{"topic":"t","partition":0,"replicas":[0,1]},{"topic":"t","partition":1,"replicas":[0]}],"config":{"min.valid.partition.ratio":"0"}}'

# The broker is demoted: leaders alone change, so it keeps one of them.
DEMOTION = "POST /kafkacruisecontrol/demote_broker?brokerid=0&dryrun=false HTTP/1.1\r\n\r\nPOST /cluster/pump?steps=9 HTTP/1.1\r\n\r\nGET /kafkacruisecontrol/kafka_cluster_state HTTP/1.1\r\n\r\n"

DEMOTION_ANSWERED = 'HTTP/1.1 202 Accepted\r\nContent-Type: application/json\r\nContent-Length: 83\r\nUser-Task-ID: 00000000-0000-8000-8000-000000000001\r\n\r\n{"status":"Active","userTaskId":"00000000-0000-8000-8000-000000000001","version":1}HTTP/1.1 200 OK\r\nContent-Type: application/json\r\nContent-Length: 34\r\n\r\n{"done":2,"idle":true,"version":1}HTTP/1.1 200 OK\r\nContent-Type: application/json\r\nContent-Length: 185\r\n\r\n{"deadBrokers":[],"partitions":[{"adding":[],"partition":0,"removing":[],"replicas":[1,0],"topic":"t"},{"adding":[],"partition":1,"removing":[],"replicas":[0],"topic":"t"}],"version":1}'

# Two replicas on one rack; without loads, and with requests planned for all the same.
RACKS_WITHOUT_LOADS = THREE_BROKERS[:-1] + ',"config":{"min.valid.partition.ratio":"0"}}'

# Two brokers that have a replica each, and one that has none.
ONE_EACH = '{"version":1,"brokers":[{"id":0},{"id":1},{"id":2}],"partitions":[{"topic":"t","partition":0,"replicas":[0]},{"topic":"t","partition":1,"replicas":[1]}],"config":{"min.valid.partition.ratio":"0"}}'

# Two racks of two brokers, of which the last one has no replica.
TWO_RACKS = '{"version":1,"brokers":[{"id":0,"rack":"a"},{"id":1,"rack":"a"},{"id":2,"rack":"b"},{"id":3,"rack":"b"}],"partitions":[{"topic":"t","partition":0,"replicas":[0]},{"topic":"t","partition":1,"replicas":[0]},{"topic":"u","partition":0,"replicas":[2]}]}'

# A broker is lost: that is waited for, then told, and at last the broker is removed, once.
LOSS = session(
    TWO_BROKERS,
    ("POST /cluster/kill?broker=0", told('{"aborting":0,"dead":0,"version":1}')),
    ("POST /cluster/detect?now=1000", told('{"anomaly":"WAITING","brokers":[0],"version":1}')),
    ("POST /cluster/detect?now=901000", told('{"anomaly":"ALERT","brokers":[0],"version":1}')),
    ("POST /cluster/detect?now=1801000", accepted("Active", FIRST_TASK)),
    ("POST /cluster/detect?now=1801001", refused("409 Conflict", f"execution unfinished: {FIRST_TASK}")),
    ("POST /cluster/pump?steps=10", told('{"done":3,"idle":true,"version":1}')),
    ("POST /cluster/detect?now=1802000", told('{"anomaly":"NONE","brokers":[],"version":1}')),
)

# One millisecond less, twice; a clock that goes back; ages that the request gives.
AGES = session(
    TWO_BROKERS,
    ("POST /cluster/detect?now=9", told('{"anomaly":"NONE","brokers":[],"version":1}')),
    ("POST /cluster/kill?broker=0", told('{"aborting":0,"dead":0,"version":1}')),
    ("POST /cluster/detect?now=1000", told('{"anomaly":"WAITING","brokers":[0],"version":1}')),
    ("POST /cluster/detect?now=900999", told('{"anomaly":"WAITING","brokers":[0],"version":1}')),
    ("POST /cluster/detect?now=1800999", told('{"anomaly":"ALERT","brokers":[0],"version":1}')),
    ("POST /cluster/detect?now=1003&alert_ms=3&heal_ms=4", told('{"anomaly":"ALERT","brokers":[0],"version":1}')),
    ("POST /cluster/detect?now=9007199254740991&alert_ms=9007199254740991&heal_ms=9007199254740991", told('{"anomaly":"WAITING","brokers":[0],"version":1}')),
    ("POST /cluster/detect?now=0&alert_ms=0&heal_ms=1", told('{"anomaly":"ALERT","brokers":[0],"version":1}')),
    ("POST /cluster/detect?heal_ms=0&now=0&alert_ms=0", accepted("Active", FIRST_TASK)),
)

# Each broker is lost since the first look that found it, and the fix names those alone that are lost for long. A broker without a replica isn't missed.
LOSSES = session(
    ONE_EACH,
    ("POST /cluster/kill?broker=0", told('{"aborting":0,"dead":0,"version":1}')),
    ("POST /cluster/detect?now=0", told('{"anomaly":"WAITING","brokers":[0],"version":1}')),
    ("POST /cluster/kill?broker=1", told('{"aborting":0,"dead":0,"version":1}')),
    ("POST /cluster/detect?now=899999", told('{"anomaly":"WAITING","brokers":[0,1],"version":1}')),
    ("POST /cluster/detect?now=1799998", told('{"anomaly":"ALERT","brokers":[0],"version":1}')),
    ("POST /cluster/detect?now=1799999", told('{"anomaly":"ALERT","brokers":[0,1],"version":1}')),
    ("POST /cluster/detect?now=1800000", accepted("Active", FIRST_TASK)),
    ("POST /kafkacruisecontrol/remove_broker?brokerid=0&dryrun=false", accepted("Active", FIRST_TASK), FIRST_TASK),
    ("POST /kafkacruisecontrol/remove_broker?brokerid=0,1&dryrun=false", refused("400 Bad Request", f"other request: {FIRST_TASK}"), FIRST_TASK),
    ("POST /kafkacruisecontrol/remove_broker?brokerid=0", refused("400 Bad Request", f"other request: {FIRST_TASK}"), FIRST_TASK),
    ("POST /cluster/pump?steps=10", told('{"done":5,"idle":true,"version":1}')),
    (CLUSTER_STATE, told('{"deadBrokers":[0,1],"partitions":[{"adding":[],"partition":0,"removing":[],"replicas":[2],"topic":"t"},{"adding":[],"partition":1,"removing":[],"replicas":[2],"topic":"t"}],"version":1}')),
    ("POST /cluster/detect?now=1800001", told('{"anomaly":"NONE","brokers":[],"version":1}')),
)

# A hard goal is broken: the fix is a rebalance, which the next look finds done.
BROKEN_GOAL = session(
    RACKS_WITHOUT_LOADS,
    ("POST /cluster/detect?now=5", accepted("Active", FIRST_TASK)),
    ("GET /kafkacruisecontrol/user_tasks", told(f'{{"userTasks":[{{"endpoint":"rebalance","status":"Active","userTaskId":"{FIRST_TASK}"}}],"version":1}}')),
    ("POST /kafkacruisecontrol/rebalance?dryrun=false", accepted("Active", FIRST_TASK), FIRST_TASK),
    ("POST /cluster/pump?steps=10", told('{"done":3,"idle":true,"version":1}')),
    ("POST /cluster/detect?now=6", told('{"anomaly":"NONE","brokers":[],"version":1}')),
)

# A fix is refused as any request for a plan is, and a broker that is lost comes before a goal that is broken.
FIX_REFUSED = session(
    THREE_BROKERS,
    ("POST /cluster/detect?now=5", refused("409 Conflict", "valid partitions: 0 of 1")),
    ("POST /cluster/kill?broker=1", told('{"aborting":0,"dead":0,"version":1}')),
    ("POST /cluster/detect?now=6", told('{"anomaly":"WAITING","brokers":[1],"version":1}')),
    ("POST /cluster/detect?now=1800006", refused("409 Conflict", "valid partitions: 0 of 1")),
)

# Parameters are looked at one by one, then what is missing, and last which age is the greater.
DETECT_REFUSED = session(
    TWO_BROKERS,
    ("POST /cluster/detect", bad_parameter("now")),
    ("POST /cluster/detect?now=", bad_parameter("now")),
    ("POST /cluster/detect?now=9007199254740992", bad_parameter("now")),
    ("POST /cluster/detect?alert_ms=2000000", bad_parameter("now")),
    ("POST /cluster/detect?alert_ms=-1&now=1", bad_parameter("alert_ms")),
    ("POST /cluster/detect?now=1&alert_ms=2000000", bad_parameter("heal_ms")),
    ("POST /cluster/detect?now=1&heal_ms=899999", bad_parameter("heal_ms")),
    ("POST /cluster/detect?now=1&heal_ms=899999&goals=RackAwareGoal", bad_parameter("goals")),
    ("GET /cluster/detect?now=1", refused("405 Method Not Allowed", "method not allowed")),
    ("POST /cluster/detect?now=1&heal_ms=900000", told('{"anomaly":"NONE","brokers":[],"version":1}')),
)

# A topic gets a further replica, and then keeps one: the changes are launched at once, and no loads are wanted.
FACTORS = session(
    THREE_BROKERS,
    ("POST /kafkacruisecontrol/topic_configuration?topic=t&replication_factor=3&dryrun=false", accepted("InExecution", FIRST_TASK)),
    ("POST /cluster/pump?steps=9", told('{"done":2,"idle":true,"version":1}')),
    (CLUSTER_STATE, list_told("[0,1,2]")),
    ("POST /kafkacruisecontrol/topic_configuration?topic=t&replication_factor=1&dryrun=false", accepted("InExecution", SECOND_TASK)),
    ("POST /cluster/pump?steps=9", told('{"done":1,"idle":true,"version":1}')),
    (CLUSTER_STATE, list_told("[0]")),
    ("POST /kafkacruisecontrol/topic_configuration?topic=t&replication_factor=4", refused("409 Conflict", "too few brokers: 3")),
    ("POST /kafkacruisecontrol/topic_configuration?topic=u&replication_factor=1", refused("400 Bad Request", "no such topic: u")),
)

GROWN = '{"newReplicas":[0,1,2],"oldReplicas":[0,1],"topicPartition":{"partition":0,"topic":"t"}}'

# While a topic changes, another change is shown alone, from the list as it was. The task is found again by what was asked.
FACTOR_TWICE = session(
    THREE_BROKERS,
    ("POST /kafkacruisecontrol/topic_configuration?topic=t&replication_factor=3&dryrun=false", accepted("InExecution", FIRST_TASK)),
    ("POST /cluster/pump", told('{"done":1,"idle":false,"version":1}')),
    (CLUSTER_STATE, list_told("[0,1,2]", adding="[2]")),
    ("POST /kafkacruisecontrol/topic_configuration?topic=u&replication_factor=1&dryrun=false", refused("409 Conflict", f"execution unfinished: {FIRST_TASK}")),
    ("POST /kafkacruisecontrol/topic_configuration?topic=t&replication_factor=1", completed('{"newReplicas":[0],"oldReplicas":[0,1],"topicPartition":{"partition":0,"topic":"t"}}', SECOND_TASK)),
    ("POST /kafkacruisecontrol/topic_configuration?topic=t&replication_factor=3&dryrun=false", accepted("InExecution", FIRST_TASK), FIRST_TASK),
    ("POST /kafkacruisecontrol/topic_configuration?topic=t&replication_factor=2&dryrun=false", refused("400 Bad Request", f"other request: {FIRST_TASK}"), FIRST_TASK),
    ("POST /kafkacruisecontrol/topic_configuration?topic=t,t&replication_factor=3&dryrun=false", refused("400 Bad Request", f"other request: {FIRST_TASK}"), FIRST_TASK),
    ("POST /cluster/pump?steps=9", told('{"done":1,"idle":true,"version":1}')),
    ("POST /kafkacruisecontrol/topic_configuration?topic=t&replication_factor=3&dryrun=false", completed(GROWN, FIRST_TASK), FIRST_TASK),
    ("GET /kafkacruisecontrol/user_tasks", told(f'{{"userTasks":[{{"endpoint":"topic_configuration","status":"Completed","userTaskId":"{FIRST_TASK}"}},{{"endpoint":"topic_configuration","status":"Completed","userTaskId":"{SECOND_TASK}"}}],"version":1}}')),
)

# A dry run changes nothing, and neither does a factor that the topic has; that is done at once.
FACTOR_DRY = session(
    THREE_BROKERS,
    ("POST /kafkacruisecontrol/topic_configuration?topic=t&replication_factor=3", completed(GROWN, FIRST_TASK)),
    ("POST /kafkacruisecontrol/topic_configuration?topic=t&replication_factor=2&dryrun=false", completed("", SECOND_TASK)),
    ("POST /cluster/pump?steps=9", told('{"done":0,"idle":true,"version":1}')),
    (CLUSTER_STATE, list_told("[0,1]")),
)

# A further member is on a rack that has none, then has the fewest replicas over the lists as changed so far, then is the first; none is lost.
CHOICES = session(
    TWO_RACKS,
    ("POST /kafkacruisecontrol/topic_configuration?topic=t&replication_factor=3", completed('{"newReplicas":[0,3,1],"oldReplicas":[0],"topicPartition":{"partition":0,"topic":"t"}},{"newReplicas":[0,2,1],"oldReplicas":[0],"topicPartition":{"partition":1,"topic":"t"}}', FIRST_TASK)),
    ("POST /kafkacruisecontrol/topic_configuration?topic=u,t&replication_factor=2", completed('{"newReplicas":[0,3],"oldReplicas":[0],"topicPartition":{"partition":0,"topic":"t"}},{"newReplicas":[0,2],"oldReplicas":[0],"topicPartition":{"partition":1,"topic":"t"}},{"newReplicas":[2,1],"oldReplicas":[2],"topicPartition":{"partition":0,"topic":"u"}}', SECOND_TASK)),
    ("POST /cluster/kill?broker=3", told('{"aborting":0,"dead":0,"version":1}')),
    ("POST /kafkacruisecontrol/topic_configuration?topic=u&replication_factor=3", completed('{"newReplicas":[2,1,0],"oldReplicas":[2],"topicPartition":{"partition":0,"topic":"u"}}', "00000000-0000-8000-8000-000000000003")),
    ("POST /kafkacruisecontrol/topic_configuration?topic=u&replication_factor=4", refused("409 Conflict", "too few brokers: 3")),
)

# What a change of the replication factor isn't asked with.
FACTOR_REFUSED = session(
    THREE_BROKERS,
    ("POST /kafkacruisecontrol/topic_configuration", bad_parameter("topic")),
    ("POST /kafkacruisecontrol/topic_configuration?replication_factor=1", bad_parameter("topic")),
    ("POST /kafkacruisecontrol/topic_configuration?topic=t", bad_parameter("replication_factor")),
    ("POST /kafkacruisecontrol/topic_configuration?topic=&replication_factor=1", bad_parameter("topic")),
    ("POST /kafkacruisecontrol/topic_configuration?topic=t&replication_factor=0", bad_parameter("replication_factor")),
    ("POST /kafkacruisecontrol/topic_configuration?topic=t&replication_factor=9", bad_parameter("replication_factor")),
    ("POST /kafkacruisecontrol/topic_configuration?topic=t&replication_factor=8", refused("409 Conflict", "too few brokers: 3")),
    ("POST /kafkacruisecontrol/topic_configuration?topic=t&replication_factor=1&goals=RackAwareGoal", bad_parameter("goals")),
    ("POST /kafkacruisecontrol/topic_configuration?topic=t,u,v&replication_factor=9&dryrun=maybe", bad_parameter("replication_factor")),
    ("POST /kafkacruisecontrol/topic_configuration?topic=t,v,u&replication_factor=8", refused("400 Bad Request", "no such topic: v")),
    ("POST /kafkacruisecontrol/topic_configuration?topic=t,&replication_factor=1", refused("400 Bad Request", "no such topic: ")),
    ("GET /kafkacruisecontrol/topic_configuration?topic=t&replication_factor=1", refused("405 Method Not Allowed", "method not allowed")),
    ("POST /kafkacruisecontrol/topic_configuration?topic=t&replication_factor=1", refused("404 Not Found", f"no such task: {FIRST_TASK}"), FIRST_TASK),
)

LED_BY_1 = '{"newReplicas":[1,0],"oldReplicas":[0,1],"topicPartition":{"partition":0,"topic":"t"}}'

ONE_COMPLETED = '"aborted":0,"aborting":0,"completed":1,"dead":0,"inProgress":0,"pending":0,"state":"NO_TASK_IN_PROGRESS"'

# What is told of a demotion: what it would change, the same by its task once it was carried out, and nothing that is left to change.
DEMOTION_TOLD = session(
    LED_BY_0,
    ("POST /kafkacruisecontrol/demote_broker?brokerid=0", accepted("Active", FIRST_TASK)),
    ("POST /cluster/pump?steps=9", told('{"done":1,"idle":true,"version":1}')),
    ("POST /kafkacruisecontrol/demote_broker?brokerid=0", completed(LED_BY_1, FIRST_TASK), FIRST_TASK),
    ("POST /kafkacruisecontrol/demote_broker?brokerid=0&dryrun=false", accepted("Active", SECOND_TASK)),
    ("POST /cluster/pump?steps=9", told('{"done":2,"idle":true,"version":1}')),
    ("POST /kafkacruisecontrol/demote_broker?brokerid=0&dryrun=false", completed(LED_BY_1, SECOND_TASK), SECOND_TASK),
    ("GET /kafkacruisecontrol/state", told(f'{{"ExecutorState":{{{ONE_COMPLETED}}},"MonitorState":{{"all":2,"valid":0}},"version":1}}')),
    ("POST /kafkacruisecontrol/demote_broker?brokerid=0", accepted("Active", THIRD_TASK)),
    ("POST /cluster/pump?steps=9", told('{"done":1,"idle":true,"version":1}')),
    ("POST /kafkacruisecontrol/demote_broker?brokerid=0", completed("", THIRD_TASK), THIRD_TASK),
)

RACKS_FAILED = f'{{"failed":"RackAwareGoal","measure":"1","status":"CompletedWithError","userTaskId":"{FIRST_TASK}","version":1}}'

# A hard goal fails, which ends the task of the request, and nothing is changed.
GOAL_FAILED = session(
    TWO_RACKS_FOR_THREE[:-1] + ',"config":{"min.valid.partition.ratio":"0"}}',
    ("POST /kafkacruisecontrol/rebalance?dryrun=false", accepted("Active", FIRST_TASK)),
    ("POST /cluster/pump?steps=9", told('{"done":1,"idle":true,"version":1}')),
    ("POST /kafkacruisecontrol/rebalance?dryrun=false", reply("200 OK", RACKS_FAILED, FIRST_TASK), FIRST_TASK),
    (CLUSTER_STATE, list_told("[0,1,2]")),
)

# Each of the three caps is changed alone or beside another, and one that isn't named stays as it is.
CAPS = session(
    TWO_BROKERS,
    ("POST /kafkacruisecontrol/admin?concurrent_partition_movements_per_broker=1", caps_told(1, 1250, 1000)),
    ("POST /kafkacruisecontrol/admin?max_partition_movements_in_cluster=10000&concurrent_leader_movements=2", caps_told(1, 10000, 2)),
    ("POST /kafkacruisecontrol/admin", bad_parameter("concurrent_partition_movements_per_broker")),
    ("POST /kafkacruisecontrol/admin?max_partition_movements_in_cluster=0", bad_parameter("max_partition_movements_in_cluster")),
    ("POST /kafkacruisecontrol/admin?concurrent_leader_movements=10001", bad_parameter("concurrent_leader_movements")),
    ("GET /kafkacruisecontrol/admin?concurrent_leader_movements=1", refused("405 Method Not Allowed", "method not allowed")),
    ("POST /kafkacruisecontrol/admin?concurrent_partition_movements_per_broker=10000", caps_told(10000, 10000, 2)),
)

# Requests that are refused, each in a session of its own. Behind one that can't be framed the session ends.
REQUESTS_REFUSED = [
    read(asked("GET /kafkacruisecontrol/rebalance"), refused("405 Method Not Allowed", "method not allowed")),
    read(asked("POST /kafkacruisecontrol/remove_broker"), bad_parameter("brokerid")),
    read(asked("POST /kafkacruisecontrol/rebalance?dryrun=maybe"), bad_parameter("dryrun")),
    read(asked_with_body("POST /cluster/sample", "{}"), refused("400 Bad Request", "bad body")),
    cut_behind("GET / HTTP/1.1\r\nContent-Length: x\r\n\r\n", refused("400 Bad Request", "bad length")),
    cut_behind("GET / HTTP/1.1\r\nContent-Length: x\r\n\r\n" + asked(CLUSTER_STATE), refused("400 Bad Request", "bad length")),
    cut_behind("GET / HTTP/1.1\r\nTransfer-Encoding: chunked\r\n\r\n", refused("501 Not Implemented", "transfer encoding is not taken")),
    cut_behind("GET / HTTP/1.1\r\nContent-Length: 1048577\r\n\r\n", refused("413 Content Too Large", "body too long")),
    cut_behind(head_of(65), refused("400 Bad Request", "bad head")),
    cut_behind("GET / HTTP/2.0\r\n\r\n", refused("400 Bad Request", "bad head")),
    cut_behind("GET /" + "a" * 16379, refused("431 Request Header Fields Too Large", "head too long")),
]

# HEAD is taken nowhere, and its reply has no body, so that the next reply is found.
HEADS = [
    read(
        asked("HEAD /kafkacruisecontrol/state") + asked(CLUSTER_STATE) + asked("HEAD /") + asked(CLUSTER_STATE),
        head_alone(refused("405 Method Not Allowed", "method not allowed")) + list_told("[0]")
        + head_alone(refused("404 Not Found", "not found")) + list_told("[0]"),
    ),
    read(asked("head /kafkacruisecontrol/state"), refused("405 Method Not Allowed", "method not allowed")),
]

# Those that are just within the limits.
LIMITS_KEPT = [
    read(head_of(64), refused("404 Not Found", "not found")),
    read("GET /" + "a" * 16366 + " HTTP/1.1\r\n\r\n", refused("404 Not Found", "not found")),
    read(asked_with_body("POST /cluster/sample", " " * 1048576), refused("400 Bad Request", "bad body")),
    cut_behind("GET /" + "a" * 16378, ""),
]

# Sessions over few brokers.
SESSIONS = [
    (TWO_BROKERS, KEYS, 0, KEYS_ANSWERED, ""),
    (TWO_BROKERS, MOVES, 0, MOVES_ANSWERED, ""),
    (TWO_BROKERS, CUT, 10, CUT_ANSWERED, "input cut\n"),
    (TWO_BROKERS, "", 0, "", ""),
    (LED_BY_0, DEMOTION, 0, DEMOTION_ANSWERED, ""),
    LOSS,
    AGES,
    LOSSES,
    BROKEN_GOAL,
    FIX_REFUSED,
    DETECT_REFUSED,
    FACTORS,
    FACTOR_TWICE,
    FACTOR_DRY,
    CHOICES,
    FACTOR_REFUSED,
    DEMOTION_TOLD,
    GOAL_FAILED,
    CAPS,
    *REQUESTS_REFUSED,
    *HEADS,
    *LIMITS_KEPT,
]
