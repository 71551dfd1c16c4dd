"""The commands, their options, and how their runs end: the one table of them.

'sumpharu-tools make-manual' makes of it what 'sumpharu help' prints, the manual page, bash's completion and the tables of docs/FORMATS.md. A
further command is one more row of COMMANDS, with its options in OPTIONS, the ends in ENDS that are its own, and an example.
"""
from __future__ import annotations

from dataclasses import dataclass
from typing import Tuple

SUMMARY = "plans the partition moves that keep a Kafka cluster within its limits"


@dataclass(frozen=True)
class Command:
    name: str
    # The words that have to stand behind it, in order.
    operands: Tuple[str, ...]
    options: Tuple[str, ...]
    # What it does, said without its name.
    text: str
    # Whether its output comes bit by bit; the others write an answer once it is whole.
    writes_as_it_goes: bool = False
    # Whether it reads and writes links alone, and never the input and the output.
    is_service: bool = False

    @property
    def usage(self) -> str:
        return " ".join([self.name, *self.operands, *(f"[{OPTIONS[name].head}]" for name in self.options)])

    @property
    def head(self) -> str:
        return " ".join([self.name, *self.operands])


@dataclass(frozen=True)
class Option:
    name: str
    # What stands for its value, or nothing where it is a flag.
    value: str
    text: str
    default: str

    @property
    def head(self) -> str:
        return f"{self.name} {self.value}".strip()


@dataclass(frozen=True)
class End:
    """How a run of some commands ends: status, cause, and what is then on the output and on the error stream."""

    status: int
    commands: Tuple[str, ...]
    cause: str
    output: str
    line: str
    # What of a command alone ends so, as "with --trace".
    only: str = ""


OPERANDS = {
    "FILE": "the cluster file (docs/FORMATS.md), at most 64 MiB",
    "TRACE": "the trace, as docs/FORMATS.md says, at most 64 MiB",
    "SEED": "the number that the cluster is made from, below 2147483648",
}

GOALS = ("--goals", "--skip-hard-goal-check")

OPTIONS = {
    option.name: option
    for option in (
        Option(
            "--goals",
            "NAMES",
            "the goals to plan for (docs/GOALS.md), parted by commas, each at most once. EvacuationGoal and DemotionGoal are always "
            "among them and aren't named",
            "all eighteen",
        ),
        Option(
            "--skip-hard-goal-check",
            "",
            "allows a list of goals that leaves out hard ones",
            "where any goal is named, all hard ones have to be",
        ),
        Option(
            "--excluded-topics",
            "NAMES",
            "topics, parted by commas, of which no replica moves but off lost brokers; a name of no topic excludes nothing",
            "none",
        ),
        Option("--brokers", "N", "how many brokers the cluster has, 1 to 200", "40"),
        Option("--partitions", "N", "how many partitions it has, 0 to 10000", "2000"),
        Option("--file", "", "writes the cluster file in place of the summary", "the summary"),
        Option("--trace", "", "writes the trace in place of the plan or the failure", "the plan, or the failure"),
        Option(
            "--movers",
            "N",
            "how many movers carry out work beside the requests, each on a thread of its own, 0 to 64. With none, "
            "`POST /cluster/pump` has the service work",
            "0",
        ),
        Option("--planners", "N", "how many planners plan beside the requests, each on a thread of its own, 0 to 4", "0"),
        Option("--listen", "ADDRESS", "where links come in, HOST:PORT", "127.0.0.1:9090"),
        Option(
            "--links",
            "N",
            "how many links, which are TCP connections, are accepted in all, or with --forever are open at once, 1 to 64. Each is served "
            "on a thread of its own. Without --forever the service ends once all have ended",
            "1, and 16 with --forever",
        ),
        Option(
            "--forever",
            "",
            "accepts any number of connections, at most --links at once, until `POST /cluster/close` asks it to shut down",
            "it accepts --links in all",
        ),
        Option("--page", "", "has a page at `/`, which shows brokers, partitions, plans and the executor to a browser", "there is none"),
        Option("--review", "", "keeps what would start something on a review board until it is approved there", "it starts at once"),
    )
}

COMMANDS = (
    Command(
        "plan",
        ("FILE",),
        (*GOALS, "--excluded-topics", "--trace"),
        "reads a JSON description of a cluster, plans by goals in order of priority, and writes the changes as Kafka's reassignment "
        "JSON, one line; or, with --trace, the planner's trace, also that of a failure",
    ),
    Command(
        "apply",
        ("FILE",),
        (*GOALS, "--excluded-topics"),
        "plans, carries the plan out within the file's caps on one thread in an in-process executor, and writes the lists of all "
        "partitions in the same form",
    ),
    Command(
        "check",
        ("FILE", "TRACE"),
        (*GOALS, "--excluded-topics"),
        "says whether a planner's trace is good for the file: `good`, or the first fault, its turn and action from 0, and its kind",
    ),
    Command(
        "gen",
        ("SEED",),
        ("--brokers", "--partitions", *GOALS, "--file"),
        "makes a cluster from a seed, plans it, and writes how many partitions change and each goal's measure before and after; or, with "
        "--file, writes the cluster file",
    ),
    Command(
        "session",
        ("FILE",),
        ("--movers", "--planners", "--review"),
        "reads HTTP requests from the input and writes their replies to the output, over an in-process cluster that movers and planners "
        "may share; at the input's end, or behind a request that closes, it carries out what is left",
        writes_as_it_goes=True,
    ),
    Command(
        "serve",
        ("FILE",),
        ("--listen", "--links", "--forever", "--movers", "--planners", "--review", "--page"),
        "answers the HTTP requests of links that come in at an address, over an in-process cluster that links, movers and planners "
        "share; once as many links as asked were accepted and have ended, or with --forever once it was asked to shut down, it carries out "
        "what is left, and ends. It neither reads the input nor writes the output",
        is_service=True,
    ),
)

NAMES = tuple(command.name for command in COMMANDS)
AT_ONCE = tuple(command.name for command in COMMANDS if not command.writes_as_it_goes and not command.is_service)
WRITERS = tuple(command.name for command in COMMANDS if not command.is_service)
LOADERS = tuple(command.name for command in COMMANDS if "FILE" in command.operands)
NOTHING = "nothing"
LEFT = "a change of the cluster failed, and work is left; the cluster in memory never fails"

# In the order of the statuses, and of the commands where a status has several.
ENDS = (
    End(0, ("plan",), "a plan was made", "the reassignment JSON of what changes", NOTHING),
    End(0, ("plan",), "a plan was made", "its trace", NOTHING, only="with --trace"),
    End(0, ("apply",), "a plan was made and carried out", "the reassignment JSON of all lists", NOTHING),
    End(0, ("check",), "the trace is good", "good", NOTHING),
    End(0, ("gen",), "a plan was made", "its summary", NOTHING),
    End(0, ("gen",), "the cluster was made", "its file", NOTHING, only="with --file"),
    End(0, ("session",), "the input was read to its end or to a request that closes, and nothing is left to do", "the replies", NOTHING),
    End(
        0,
        ("serve",),
        "as many links as asked were accepted, or with --forever it was asked to shut down; all links have ended, and nothing is left to do",
        NOTHING,
        NOTHING,
    ),
    End(2, NAMES, "the arguments are no command", NOTHING, "usage error"),
    End(3, LOADERS, "the cluster file was loaded and is refused", NOTHING, "cluster refused: FAULT"),
    End(4, ("plan", "apply"), "a hard goal fails, with the measure that is left", '{"failed":"GOAL","measure":"N"}', "hard goal failed: GOAL"),
    End(4, ("plan",), "a hard goal fails", "the trace up to there", "hard goal failed: GOAL", only="with --trace"),
    End(4, ("gen",), "a hard goal fails", "the summary up to there", "hard goal failed: GOAL"),
    End(5, LOADERS, "a file can't be loaded: absent, unreadable, above 67,108,864 bytes", NOTHING, "file fault"),
    End(6, ("session",), "the input can't be read; what was left is carried out", "the replies so far", "read fault"),
    End(7, WRITERS, "the output can't be written", "a prefix of the text", "write fault"),
    End(8, ("session",), LEFT, "the replies so far", "not drained", only="with --movers or --planners"),
    End(8, ("serve",), LEFT, NOTHING, "not drained"),
    End(9, AT_ONCE, "out of memory", NOTHING, "want of memory"),
    End(9, ("session",), "out of memory, also where a mover or a planner alone ended by it", "the replies so far", "want of memory"),
    End(9, ("serve",), "out of memory, also where a link, a mover or a planner alone ended by it", NOTHING, "want of memory"),
    End(10, ("session",), "the input ended inside a request, or can't be framed; what was left is carried out", "the replies, also that of the refusal", "input cut"),
    End(11, ("check",), "the trace isn't good, or is no trace", "fault T A KIND", "trace refused"),
    End(
        12,
        ("serve",),
        "the address can't be listened at, or a further link can't be accepted; the links that were accepted are served to their end, and "
        "what was left is carried out",
        NOTHING,
        "listener fault",
    ),
    End(1, (), "the program couldn't be built; no older one is run", NOTHING, "what the build said", only="the script"),
)

EXAMPLES = (
    "plan examples/three-brokers.json",
    "plan examples/three-zones.json > moves.json",
    "plan examples/lost-broker.json --goals RackAwareGoal --skip-hard-goal-check",
    "plan examples/three-brokers.json --trace > trace.json",
    "apply examples/three-zones.json --goals RackAwareGoal --skip-hard-goal-check",
    "check examples/three-brokers.json examples/three-brokers.trace.json --goals RackAwareGoal --skip-hard-goal-check",
    "gen 1 --brokers 3 --partitions 2",
    "session examples/two-brokers.json < examples/requests.http",
    "serve examples/two-brokers.json --links 4 --movers 2 --planners 1",
)
