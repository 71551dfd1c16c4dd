"""Sessions whose requests are reviewed first, as plain data: those of `sessions`, asked with --review, and one that is asked without."""
from rows.plans import THREE_BROKERS
from rows.sessions import (
    CLUSTER_STATE,
    FIRST_TASK,
    TWO_BROKERS,
    accepted,
    bad_parameter,
    caps_told,
    completed,
    list_told,
    refused,
    reply,
    session,
    told,
)

REMOVE = "POST /kafkacruisecontrol/remove_broker"
REVIEW = "POST /kafkacruisecontrol/review"
BOARD = "GET /kafkacruisecontrol/review_board"

NOT_FOUND = refused("404 Not Found", "not found")


def filed(number):
    return reply("202 Accepted", f'{{"reviewId":{number},"status":"PENDING_REVIEW","version":1}}')


def rows(*requests):
    """What is told of requests: each has its endpoint, its id and how far it is."""
    told_of = ",".join(f'{{"endpoint":"{endpoint}","reviewId":{number},"status":"{status}"}}' for endpoint, number, status in requests)
    return told(f'{{"requests":[{told_of}],"version":1}}')


def not_so_far(number, status):
    return refused("409 Conflict", f"review {number} is {status}")


def no_such_review(number):
    return refused("400 Bad Request", f"no such review: {number}")


# A request waits for its review, is approved, and starts once, where it was filed.
APPROVED = session(
    TWO_BROKERS,
    (f"{REMOVE}?brokerid=0&dryrun=false", filed(1)),
    (f"{REMOVE}?review_id=1", not_so_far(1, "PENDING_REVIEW")),
    (f"{REVIEW}?approve=1", rows(("remove_broker", 1, "APPROVED"))),
    ("POST /kafkacruisecontrol/rebalance?review_id=1", refused("400 Bad Request", "other endpoint: 1")),
    ("GET /kafkacruisecontrol/user_tasks", told('{"userTasks":[],"version":1}')),
    (f"{REMOVE}?review_id=1", accepted("Active", FIRST_TASK)),
    (f"{REMOVE}?review_id=1", not_so_far(1, "SUBMITTED")),
    (f"{REVIEW}?discard=2", no_such_review(2)),
    ("POST /cluster/pump?steps=10", told('{"done":3,"idle":true,"version":1}')),
    (CLUSTER_STATE, list_told("[1]")),
    (BOARD, rows(("remove_broker", 1, "SUBMITTED"))),
)

# All that starts something is filed, a request with a key for its plan aside, and is shown in order.
ALL_FILED = session(
    TWO_BROKERS,
    ("POST /kafkacruisecontrol/rebalance", filed(1)),
    ("POST /kafkacruisecontrol/add_broker?brokerid=1", filed(2)),
    (f"{REMOVE}?brokerid=0", filed(3)),
    ("POST /kafkacruisecontrol/demote_broker?brokerid=0", filed(4)),
    ("POST /kafkacruisecontrol/stop_proposal_execution", filed(5)),
    ("POST /kafkacruisecontrol/admin?concurrent_leader_movements=7", filed(6)),
    ("POST /kafkacruisecontrol/topic_configuration?topic=t&replication_factor=2", filed(7)),
    ("POST /kafkacruisecontrol/stop_proposal_execution", filed(8), FIRST_TASK),
    (f"{REMOVE}?brokerid=0", refused("404 Not Found", f"no such task: {FIRST_TASK}"), FIRST_TASK),
    (f"{REMOVE}", bad_parameter("brokerid")),
    (f"{REMOVE}?brokerid=0&dryrun=maybe", bad_parameter("dryrun")),
    ("GET /kafkacruisecontrol/rebalance", refused("405 Method Not Allowed", "method not allowed")),
    (
        f"{REVIEW}?discard=2,8&approve=6,5",
        rows(
            ("add_broker", 2, "DISCARDED"),
            ("stop_proposal_execution", 5, "APPROVED"),
            ("admin", 6, "APPROVED"),
            ("stop_proposal_execution", 8, "DISCARDED"),
        ),
    ),
    (
        BOARD,
        rows(
            ("rebalance", 1, "PENDING_REVIEW"),
            ("add_broker", 2, "DISCARDED"),
            ("remove_broker", 3, "PENDING_REVIEW"),
            ("demote_broker", 4, "PENDING_REVIEW"),
            ("stop_proposal_execution", 5, "APPROVED"),
            ("admin", 6, "APPROVED"),
            ("topic_configuration", 7, "PENDING_REVIEW"),
            ("stop_proposal_execution", 8, "DISCARDED"),
        ),
    ),
    ("POST /kafkacruisecontrol/admin?review_id=6", caps_told(10, 1250, 7)),
    ("POST /kafkacruisecontrol/stop_proposal_execution?review_id=8", not_so_far(8, "DISCARDED")),
    (f"{REVIEW}?approve=8", not_so_far(8, "DISCARDED")),
    (f"{REVIEW}?approve=1,9,2", no_such_review(9)),
    (f"{REMOVE}?review_id=0", no_such_review(0)),
)

# What was taken is used up, also where the core refuses it then.
USED_UP = session(
    TWO_BROKERS,
    ("POST /kafkacruisecontrol/stop_proposal_execution", filed(1)),
    (f"{REVIEW}?approve=1", rows(("stop_proposal_execution", 1, "APPROVED"))),
    ("POST /kafkacruisecontrol/stop_proposal_execution?review_id=1", refused("409 Conflict", "nothing to stop")),
    ("POST /kafkacruisecontrol/stop_proposal_execution?review_id=1", not_so_far(1, "SUBMITTED")),
)

# A fix is told, and not begun.
FIX_TOLD = session(
    TWO_BROKERS,
    ("POST /cluster/kill?broker=0", told('{"aborting":0,"dead":0,"version":1}')),
    ("POST /cluster/detect?now=0", told('{"anomaly":"WAITING","brokers":[0],"version":1}')),
    ("POST /cluster/detect?now=1800000", told('{"anomaly":"BROKER_FAILURE","brokers":[0],"version":1}')),
    ("GET /kafkacruisecontrol/user_tasks", told('{"userTasks":[],"version":1}')),
    (f"{REMOVE}?brokerid=0&dryrun=false", filed(1)),
    (f"{REVIEW}?approve=1", rows(("remove_broker", 1, "APPROVED"))),
    (f"{REMOVE}?review_id=1", accepted("Active", FIRST_TASK)),
    ("POST /cluster/pump?steps=10", told('{"done":3,"idle":true,"version":1}')),
    ("POST /cluster/detect?now=1800001", told('{"anomaly":"NONE","brokers":[],"version":1}')),
)

# A broken goal has no brokers, and a topic's other factor is reviewed too.
GOAL_TOLD = session(
    THREE_BROKERS[:-1] + ',"config":{"min.valid.partition.ratio":"0"}}',
    ("POST /cluster/detect?now=5", told('{"anomaly":"GOAL_VIOLATION","brokers":[],"version":1}')),
    ("POST /kafkacruisecontrol/topic_configuration?topic=t&replication_factor=2&dryrun=false", filed(1)),
    (f"{REVIEW}?approve=1", rows(("topic_configuration", 1, "APPROVED"))),
    ("POST /kafkacruisecontrol/topic_configuration?review_id=1", completed("", FIRST_TASK)),
)

# What a review and a take are not asked with: pair by pair, then what is missing, then what stands twice.
REFUSED = session(
    TWO_BROKERS,
    (REVIEW, bad_parameter("approve")),
    (f"{REVIEW}?approve=", bad_parameter("approve")),
    (f"{REVIEW}?approve=1,x", bad_parameter("approve")),
    (f"{REVIEW}?discard=9007199254740992", bad_parameter("discard")),
    (f"{REVIEW}?approve=1,2,1", bad_parameter("approve")),
    (f"{REVIEW}?discard=2,2&approve=1", bad_parameter("discard")),
    (f"{REVIEW}?discard=1&approve=2,1", bad_parameter("discard")),
    (f"{REVIEW}?approve=1&approve=2", bad_parameter("approve")),
    (f"{REVIEW}?approve=1&goals=RackAwareGoal", bad_parameter("goals")),
    (f"{REVIEW}?approve=9007199254740991", no_such_review(9007199254740991)),
    ("GET /kafkacruisecontrol/review?approve=1", refused("405 Method Not Allowed", "method not allowed")),
    ("POST /kafkacruisecontrol/review_board", refused("405 Method Not Allowed", "method not allowed")),
    (f"{BOARD}?goals=RackAwareGoal", bad_parameter("goals")),
    (f"{BOARD}?json=true", rows()),
    (f"{REMOVE}?review_id=", bad_parameter("review_id")),
    (f"{REMOVE}?review_id=1&brokerid=0", bad_parameter("brokerid")),
    (f"{REMOVE}?brokerid=0&review_id=1", bad_parameter("brokerid")),
    (f"{REMOVE}?review_id=1&review_id=1", bad_parameter("review_id")),
    (f"{REMOVE}?review_id=9007199254740992", bad_parameter("review_id")),
    (f"{REMOVE}?review_id=1", no_such_review(1), "no-key"),
    ("GET /kafkacruisecontrol/state?review_id=1", bad_parameter("review_id")),
)

# Sessions that are asked with --review.
SESSIONS = [APPROVED, ALL_FILED, USED_UP, FIX_TOLD, GOAL_TOLD, REFUSED]

# One that is asked without: there is no board.
WITHOUT = session(
    TWO_BROKERS,
    (f"{REVIEW}?approve=1", NOT_FOUND),
    (BOARD, NOT_FOUND),
    (f"{REMOVE}?review_id=1", bad_parameter("review_id")),
    (f"{REMOVE}?brokerid=0&dryrun=false", accepted("Active", FIRST_TASK)),
)
