"""The built program's service, asked over the loopback."""
import json
import os
import pathlib
import resource
import socket
import struct
import subprocess
import tempfile
import time
import unittest

from places import PROGRAM, ROOT
from sumpharu_tools.dev import serving
from sumpharu_tools.dev.commands import EXAMPLES
from rows import sessions

# No wait of a test is longer.
SECONDS = 20
# Of so many bytes of addresses the program has enough, and the stack of a thread has no place.
NO_THREADS = 8 << 20

TWO_BROKERS = str(ROOT / "examples/two-brokers.json")
STATE = "/kafkacruisecontrol/state"
CLUSTER = "/kafkacruisecontrol/kafka_cluster_state"
TASKS = "/kafkacruisecontrol/user_tasks"
REMOVE = "/kafkacruisecontrol/remove_broker?brokerid=0&dryrun=false"
STOP = "/kafkacruisecontrol/stop_proposal_execution?force_stop=true"
ADMIN = "/kafkacruisecontrol/admin"
CAP = f"{ADMIN}?concurrent_leader_movements=7"
TAKE = "/kafkacruisecontrol/remove_broker?review_id=1"
REVIEW = "/kafkacruisecontrol/review"
CLOSE = "/cluster/close"
BOARD = "/kafkacruisecontrol/review_board"
FIRST_TASK = sessions.FIRST_TASK


def reply_bytes(status, body, task=None):
    return sessions.reply(status, body, task).encode()


def request_bytes(line, task=None):
    return sessions.asked(line, task).encode()


ACCEPTED = reply_bytes("202 Accepted", f'{{"status":"Active","userTaskId":"{FIRST_TASK}","version":1}}', FIRST_TASK)
# A request, the same by its task's id, and another one by that id.
KEYS = (
    request_bytes(f"POST {REMOVE}")
    + request_bytes(f"POST {REMOVE}", FIRST_TASK)
    + request_bytes(f"POST {REMOVE.replace('brokerid=0', 'brokerid=1')}", FIRST_TASK)
)
OTHER_REQUEST = reply_bytes("400 Bad Request", f'{{"errorMessage":"other request: {FIRST_TASK}","version":1}}')
KEYS_ANSWERED = ACCEPTED + ACCEPTED + OTHER_REQUEST
IDLE = (
    '{"ExecutorState":{"aborted":0,"aborting":0,"completed":0,"dead":0,"inProgress":0,"pending":0,"state":"NO_TASK_IN_PROGRESS"},'
    '"MonitorState":{"all":1,"valid":0},"version":1}'
)


def removal(number, status):
    return {"endpoint": "remove_broker", "reviewId": number, "status": status}


def cluster(partitions, chunks):
    """Four brokers. Each partition is on the first and one of the others, so all lists have to change where the first is removed."""
    lists = [[0, 1 + at % 3] if at % 2 else [1 + at % 3, 0] for at in range(partitions)]
    return {
        "version": 1,
        "brokers": [{"id": id} for id in range(4)],
        "partitions": [{"topic": "t", "partition": at, "replicas": members, "chunks": chunks} for at, members in enumerate(lists)],
        "config": {"min.valid.partition.ratio": "0"},
    }


@unittest.skipUnless(PROGRAM.exists() or os.environ.get("CI"), "the program isn't built")
class Serve(unittest.TestCase):
    maxDiff = None

    def setUp(self):
        room = tempfile.TemporaryDirectory()
        self.addCleanup(room.cleanup)
        self.room = pathlib.Path(room.name)

    def file(self, value):
        path = self.room / "cluster.json"
        path.write_text(json.dumps(value))
        return str(path)

    def start(self, *words, file=TWO_BROKERS, port=None, addresses=resource.RLIM_INFINITY):
        self.port = port or serving.free_port()
        words = [PROGRAM, "serve", file, "--listen", f"{serving.HOST}:{self.port}", *words]
        self.process = subprocess.Popen(
            words,
            stdin=subprocess.DEVNULL,
            stdout=subprocess.PIPE,
            stderr=subprocess.PIPE,
            preexec_fn=lambda: resource.setrlimit(resource.RLIMIT_AS, (addresses, addresses)),
        )
        self.addCleanup(self.end, self.process)

    def end(self, process):
        process.kill()
        process.communicate()

    def link(self):
        link = serving.connect(self.process, self.port, SECONDS)
        self.addCleanup(link.close)
        return link

    def links(self, count):
        return [self.link() for _ in range(count)]

    def assert_ends(self, status=0, line=b""):
        out, err = self.process.communicate(timeout=SECONDS)
        self.assertEqual((self.process.returncode, out, err), (status, b"", line))

    def until(self, what, holds):
        """What is told once it holds."""
        last = time.monotonic() + SECONDS
        while time.monotonic() < last:
            told = what()
            if holds(told):
                return told
            time.sleep(0.002)
        self.fail(f"it never came to that: {told}")

    def assert_lists(self, link, wanted):
        reply = link.ask("GET", CLUSTER)
        self.assertEqual((reply.code, serving.in_flight(reply.body)), (200, []))
        lists = serving.lists_of(reply.body)
        self.assertEqual(set(lists), set(wanted))
        for place, members in lists.items():
            self.assertIn(members, wanted[place], place)
        return lists

    # One link

    def test_one_link_gets_the_replies_byte_for_byte(self):
        self.start()
        link = self.link()
        link.send(KEYS)
        link.stream.shutdown(socket.SHUT_WR)
        self.assertEqual(link.rest(), KEYS_ANSWERED)
        self.assert_ends()

    def test_what_is_done_about_a_broker_that_is_lost(self):
        """A session's replies, over a link."""
        _, requests, _, replies, _ = sessions.LOSS
        self.start()
        link = self.link()
        link.send(requests.encode())
        link.stream.shutdown(socket.SHUT_WR)
        self.assertEqual(link.rest(), replies.encode())
        self.assert_ends()

    def test_a_request_that_comes_byte_by_byte(self):
        self.start()
        link = self.link()
        for at in range(len(KEYS)):
            link.send(KEYS[at : at + 1])
        self.assertEqual(link.reply().raw + link.reply().raw + link.reply().raw, KEYS_ANSWERED)
        body = '{"topic":"t","partition":0,"time":5,"load":{"leader":{"CPU":3}}}'
        for byte in f"POST /cluster/sample HTTP/1.1\r\nContent-Length: {len(body)}\r\n\r\n{body}".encode():
            link.send(bytes([byte]))
        self.assertEqual(link.reply().raw, reply_bytes("200 OK", '{"accepted":true,"version":1}'))
        link.close()
        self.assert_ends()

    def test_a_request_that_closes_ends_the_link(self):
        self.start()
        link = self.link()
        link.send(f"GET {STATE} HTTP/1.1\r\nConnection: close\r\n\r\n".encode() + KEYS)
        self.assertEqual(link.rest(), reply_bytes("200 OK", IDLE))
        self.assert_ends()

    def test_a_request_that_cant_be_framed_is_told_so(self):
        self.start()
        link = self.link()
        link.send(b"GET / HTTP/1.1\r\nContent-Length: x\r\n\r\n")
        self.assertEqual(link.rest(), reply_bytes("400 Bad Request", '{"errorMessage":"bad length","version":1}'))
        self.assert_ends()

    def test_a_link_that_has_ended_is_closed_while_others_are_open(self):
        """The service ends each link itself: the client reads the end although it sends no end, and another link is served all the while."""
        idle = reply_bytes("200 OK", IDLE)
        rows = [
            (f"GET {STATE} HTTP/1.1\r\nConnection: close\r\n\r\n", idle),
            (f"GET {STATE} HTTP/1.0\r\n\r\n", idle),
            ("GET / HTTP/1.1\r\nContent-Length: x\r\n\r\n", reply_bytes("400 Bad Request", '{"errorMessage":"bad length","version":1}')),
            (sessions.head_of(65), reply_bytes("400 Bad Request", '{"errorMessage":"bad head","version":1}')),
            ("GET / HTTP/1.1\r\nContent-Length: 1048577\r\n\r\n", reply_bytes("413 Content Too Large", '{"errorMessage":"body too long","version":1}')),
            ("GET /" + "a" * 16379, reply_bytes("431 Request Header Fields Too Large", '{"errorMessage":"head too long","version":1}')),
            (
                "GET / HTTP/1.1\r\nTransfer-Encoding: chunked\r\n\r\n",
                reply_bytes("501 Not Implemented", '{"errorMessage":"transfer encoding is not taken","version":1}'),
            ),
        ]
        self.start("--links", str(len(rows) + 1))
        other = self.link()
        for request, replied in rows:
            with self.subTest(request=request[:60]):
                link = self.link()
                # What comes after the last request isn't read, and its reply isn't lost for that.
                link.send(request.encode() + b"-" * 5000)
                self.assertEqual(link.rest(), replied)
                link.close()
                self.assertEqual(other.ask("GET", STATE).raw, idle)
        self.assertIsNone(self.process.poll())
        other.close()
        self.assert_ends()

    def test_a_client_that_goes_on_sending_is_let_go(self):
        """What comes behind the last request is thrown away up to a bound, and then the connection is reset."""
        self.start("--links", "2")
        other, link = self.links(2)
        link.send(f"GET {STATE} HTTP/1.1\r\nConnection: close\r\n\r\n".encode())
        self.assertEqual(link.rest(), reply_bytes("200 OK", IDLE))
        with self.assertRaises((BrokenPipeError, ConnectionResetError)):
            for _ in range(1000):
                link.send(b"-" * 65536)
        self.assertEqual(other.ask("GET", STATE).code, 200)
        other.close()
        self.assert_ends()

    # Several links

    def test_links_are_served_at_once(self):
        """Each reply comes while both links are open. A service of one link after another would leave the second one waiting."""
        self.start("--links", "2")
        first, second = self.links(2)
        for link in (first, second, first, second):
            self.assertEqual(link.ask("GET", STATE).raw, reply_bytes("200 OK", IDLE))
        self.assertIsNone(self.process.poll())
        second.close()
        self.assertEqual(first.ask("GET", STATE).code, 200)
        first.close()
        self.assert_ends()

    def test_without_threads(self):
        """Where no thread can be started, a link is served at once, and the next is accepted when it has ended. The workers' turn comes last."""
        self.start("--links", "2", "--movers", "1", "--planners", "1", addresses=NO_THREADS)
        first, second = self.links(2)
        self.assertEqual(first.ask("POST", REMOVE).raw, ACCEPTED)
        second.send(request_bytes(f"GET {TASKS}"))
        second.stream.settimeout(0.2)
        with self.assertRaises(TimeoutError):
            second.reply()
        second.stream.settimeout(SECONDS)
        first.close()
        self.assertEqual(second.reply().body["userTasks"][0]["status"], "Active")
        second.close()
        self.assert_ends()

    def test_a_client_that_goes_away_ends_its_link_alone(self):
        """One ends inside a request's head, one by a reset there, one reads no reply, and one says nothing at all."""
        self.start("--links", "5")
        cut, reset, deaf, silent, good = links = self.links(5)
        for link in links[:3]:
            self.assertEqual(link.ask("GET", STATE).code, 200)
        cut.send(b"GET /kafkacruisecontrol/sta")
        cut.close()
        reset.send(b"POST /kafkacruisecontrol/reba")
        reset.stream.setsockopt(socket.SOL_SOCKET, socket.SO_LINGER, struct.pack("ii", 1, 0))
        reset.close()
        deaf.send(request_bytes(f"GET {STATE}") * 500)
        deaf.stream.recv(1)
        deaf.close()
        silent.close()
        self.assertEqual(good.ask("GET", STATE).raw, reply_bytes("200 OK", IDLE))
        good.close()
        self.assert_ends()

    def test_links_share_one_book(self):
        self.start("--links", "2")
        first, second = self.links(2)
        self.assertEqual(first.ask("POST", REMOVE).raw, ACCEPTED)
        self.assertEqual(second.ask("POST", REMOVE, FIRST_TASK).raw, ACCEPTED)
        self.assertEqual(second.ask("POST", "/cluster/pump?steps=10").body, {"done": 3, "idle": True, "version": 1})
        self.assertEqual(first.ask("POST", REMOVE, FIRST_TASK).body["status"], "Completed")
        self.assert_lists(second, {("t", 0): [[1]]})
        first.close()
        second.close()
        self.assert_ends()

    # Reviews

    def file_removal(self, link, number):
        filed = {"reviewId": number, "status": "PENDING_REVIEW", "version": 1}
        reply = link.ask("POST", REMOVE)
        self.assertEqual((reply.code, reply.body), (202, filed))

    def test_one_files_another_approves_and_a_third_takes(self):
        self.start("--links", "3", "--review", "--movers", "1", "--planners", "1")
        first, second, third = self.links(3)
        self.file_removal(first, 1)
        self.assertEqual(third.ask("POST", TAKE).body["errorMessage"], "review 1 is PENDING_REVIEW")
        self.assertEqual(second.ask("POST", f"{REVIEW}?approve=1").body["requests"], [removal(1, "APPROVED")])
        self.assertEqual(third.ask("POST", TAKE).raw, ACCEPTED)
        self.assertEqual(first.ask("GET", BOARD).body["requests"], [removal(1, "SUBMITTED")])
        self.until(lambda: serving.status_of(first.ask("GET", TASKS).body, FIRST_TASK), lambda it: it == "Completed")
        self.assert_lists(second, {("t", 0): [[1]]})
        for link in (first, second, third):
            link.close()
        self.assert_ends()

    def test_what_two_take_at_once_is_given_once(self):
        rounds = 50
        self.start("--links", "2", "--review")
        links = self.links(2)
        for number in range(1, rounds + 1):
            self.assertEqual(links[0].ask("POST", CAP).body["reviewId"], number)
            self.assertEqual(links[1].ask("POST", f"{REVIEW}?approve={number}").code, 200)
            for link in links:
                link.send(request_bytes(f"POST {ADMIN}?review_id={number}"))
            replies = sorted((link.reply() for link in links), key=lambda it: it.code)
            self.assertEqual([it.code for it in replies], [200, 409])
            self.assertEqual(replies[1].body["errorMessage"], f"review {number} is SUBMITTED")
        board = links[0].ask("GET", BOARD).body["requests"]
        self.assertEqual([(it["reviewId"], it["status"]) for it in board], [(at + 1, "SUBMITTED") for at in range(rounds)])
        for link in links:
            link.close()
        self.assert_ends()

    def test_as_many_links_as_may_be_asked(self):
        self.start("--links", "64", "--movers", "64", "--planners", "4")
        links = self.links(64)
        for link in (*links, *reversed(links)):
            self.assertEqual(link.ask("GET", STATE).raw, reply_bytes("200 OK", IDLE))
        for link in links:
            link.close()
        self.assert_ends()

    # Movers and planners

    # Any number of links

    def test_any_number_of_links_until_a_client_asks_the_end(self):
        """Many more links than are served at once come one after another. The link that asks the end reads its reply, and then its end."""
        self.start("--forever", "--links", "2")
        other = self.link()
        for _ in range(50):
            link = self.link()
            self.assertEqual(link.ask("GET", STATE).raw, reply_bytes("200 OK", IDLE))
            link.close()
        self.assertEqual(other.ask("GET", STATE).code, 200)
        other.close()
        self.assertIsNone(self.process.poll())
        link = self.link()
        link.send(request_bytes(f"POST {CLOSE}"))
        self.assertEqual(link.rest(), reply_bytes("200 OK", '{"closing":true,"version":1}'))
        self.assert_ends()

    def test_a_shutdown_ends_the_links_that_wait(self):
        """One waits between two requests, and one inside a request's head; others that are accepted at once have no client."""
        self.start("--forever")
        idle, cut, last = self.links(3)
        for link in (idle, cut):
            self.assertEqual(link.ask("GET", STATE).code, 200)
        cut.send(b"GET /kafkacruisecontrol/sta")
        self.assertEqual(last.ask("POST", f"{CLOSE}?reason=maintenance").body, {"closing": True, "version": 1})
        for link in (idle, cut, last):
            self.assertEqual(link.rest(), b"")
        self.assert_ends()

    def test_what_is_left_is_carried_out_behind_a_shutdown(self):
        self.start("--forever", "--movers", "1", file=self.file(cluster(40, 50)))
        link = self.link()
        self.assertEqual(link.ask("POST", REMOVE).code, 202)
        self.assertEqual(link.ask("POST", CLOSE).code, 200)
        self.assertEqual(link.rest(), b"")
        self.assert_ends()

    def test_what_asks_no_shutdown(self):
        """The path is there with the option alone. It is a POST without parameters of its own."""
        self.start("--forever", "--links", "1")
        link = self.link()
        self.assertEqual(link.ask("GET", CLOSE).code, 405)
        self.assertEqual(link.ask("POST", f"{CLOSE}?now=1").body["errorMessage"], "bad parameter: now")
        self.assertEqual(link.ask("GET", STATE).code, 200)
        link.ask("POST", CLOSE)
        self.assert_ends()
        self.start()
        link = self.link()
        self.assertEqual(link.ask("POST", CLOSE).code, 404)
        link.close()
        self.assert_ends()

    def test_the_page(self):
        """It is the file of the checkout, with the option alone, and other requests of its connection are answered."""
        page = (ROOT / "web/page.html").read_bytes()
        head = f"HTTP/1.1 200 OK\r\nContent-Type: text/html; charset=utf-8\r\nContent-Length: {len(page)}\r\nX-Frame-Options: DENY\r\n\r\n"
        shown = head.encode() + page
        self.start("--page")
        link = self.link()
        self.assertEqual(link.ask("POST", "/").code, 405)
        self.assertEqual(link.ask("GET", "/?now=1").body["errorMessage"], "bad parameter: now")
        self.assertEqual(link.ask("POST", CLOSE).code, 404)
        link.send(request_bytes("GET /") + request_bytes(f"GET {STATE}") + b"GET /?reason=look HTTP/1.1\r\nConnection: close\r\n\r\n")
        self.assertEqual(link.rest(), shown + reply_bytes("200 OK", IDLE) + shown)
        self.assert_ends()
        self.start("--forever", "--page")
        link = self.link()
        link.send(request_bytes("GET /") + request_bytes(f"POST {CLOSE}"))
        self.assertEqual(link.rest(), shown + reply_bytes("200 OK", '{"closing":true,"version":1}'))
        self.assert_ends()
        self.start()
        link = self.link()
        self.assertEqual(link.ask("GET", "/").code, 404)
        link.close()
        self.assert_ends()

    def test_any_number_of_links_without_threads(self):
        """One is served after another."""
        self.start("--forever", "--links", "2", addresses=NO_THREADS)
        for _ in range(3):
            link = self.link()
            self.assertEqual(link.ask("GET", STATE).code, 200)
            link.close()
        self.assertEqual(self.link().ask("POST", CLOSE).code, 200)
        self.assert_ends()

    def test_reviewed_links_without_end(self):
        """Requests are reviewed, and the path of the end isn't."""
        self.start("--forever", "--review")
        one, other = self.links(2)
        self.assertEqual(one.ask("POST", REMOVE).body["reviewId"], 1)
        self.assertEqual(other.ask("POST", f"{REVIEW}?approve=1").code, 200)
        self.assertEqual(one.ask("POST", TAKE).code, 202)
        self.assertEqual(other.ask("POST", CLOSE).code, 200)
        self.assert_ends()

    def test_movers_and_planners_carry_a_request_out(self):
        self.start("--movers", "2", "--planners", "1", file=self.file(cluster(partitions=12, chunks=3)))
        link = self.link()
        before = self.assert_lists(link, {("t", at): [[0, 1 + at % 3], [1 + at % 3, 0]] for at in range(12)})
        task = link.ask("POST", REMOVE).task
        self.until(lambda: link.ask("GET", STATE).body["ExecutorState"], lambda it: it["completed"] and it["state"] == "NO_TASK_IN_PROGRESS")
        reply = link.ask("POST", REMOVE, task)
        self.assertEqual((reply.code, reply.task, reply.body["status"]), (200, task, "Completed"))
        changes = serving.changes_of(reply.body["proposals"])
        self.assertEqual({place: old for place, (old, _) in changes.items()}, before)
        after = self.assert_lists(link, {place: [new] for place, (_, new) in changes.items()})
        self.assertFalse([members for members in after.values() if 0 in members])
        link.close()
        self.assert_ends()

    def test_a_stop_while_copies_are_made(self):
        """Replies come while work is under way, and a stop ends it: each list is then its old one or its new one."""
        self.start("--links", "2", "--movers", "2", "--planners", "1", file=self.file(cluster(partitions=300, chunks=1000)))
        first, second = self.links(2)
        task = first.ask("POST", REMOVE).task
        under_way = self.until(lambda: first.ask("GET", STATE).body["ExecutorState"], lambda it: it["inProgress"])
        self.assertEqual(under_way["state"], "INTER_BROKER_REPLICA_MOVEMENT_TASK_IN_PROGRESS")
        stopped = second.ask("POST", STOP)
        self.assertEqual(stopped.code, 200)
        self.assertGreater(stopped.body["aborted"] + stopped.body["aborting"], 0)
        self.until(lambda: serving.status_of(first.ask("GET", TASKS).body, task), lambda it: it in serving.ENDED)
        body = second.ask("POST", REMOVE, task).body
        self.assertEqual((body["status"], body["dead"]), ("CompletedWithError", 0))
        self.assertEqual(body["aborted"], stopped.body["aborted"] + stopped.body["aborting"])
        changes = serving.changes_of(body["proposals"])
        after = self.assert_lists(second, {place: [old, new] for place, (old, new) in changes.items()})
        kept = [place for place, members in after.items() if members == changes[place][0]]
        self.assertEqual(len(kept), body["aborted"])
        first.close()
        second.close()
        self.assert_ends()

    def test_what_is_left_is_carried_out_behind_the_last_link(self):
        """The service ends although nothing works beside the links: the drain does it."""
        self.start(file=self.file(cluster(partitions=12, chunks=3)))
        link = self.link()
        self.assertEqual(link.ask("POST", REMOVE).code, 202)
        link.close()
        self.assert_ends()

    # Ends

    def test_a_port_that_is_in_use(self):
        with socket.socket() as other:
            other.bind((serving.HOST, 0))
            other.listen()
            self.start("--movers", "2", "--planners", "1", port=other.getsockname()[1])
            self.assert_ends(12, b"listener fault\n")

    def test_ends_before_anything_is_listened_at(self):
        bad = self.room / "bad.json"
        bad.write_text("{}")
        rows = [
            (2, b"usage error\n", TWO_BROKERS, ["--links", "0"]),
            (2, b"usage error\n", TWO_BROKERS, ["--links", "65"]),
            (2, b"usage error\n", TWO_BROKERS, ["--movers", "65"]),
            (3, b"cluster refused: WrongShape /version\n", str(bad), []),
            (5, b"file fault\n", str(self.room / "none"), []),
        ]
        for status, line, file, words in rows:
            self.start(*words, file=file)
            self.assert_ends(status, line)

    def test_examples(self):
        """Each example of the help serves as many links as it asks."""
        examples = [it.split() for it in EXAMPLES if it.startswith("serve ")]
        self.assertTrue(examples)
        for _, file, *words in examples:
            options = dict(zip(words[::2], words[1::2]))
            options.pop("--listen", None)
            self.start(*(word for pair in options.items() for word in pair), file=str(ROOT / file))
            for link in self.links(int(options.get("--links", 1))):
                self.assertEqual(link.ask("GET", STATE).code, 200)
                link.close()
            self.assert_ends()


if __name__ == "__main__":
    unittest.main()
