"""What the built program answers for the rows in tools/rows, with a full output, without memory, and where a write fails."""
import contextlib
import os
import pathlib
import resource
import signal
import socket
import subprocess
import tempfile
import threading
import unittest

from places import PROGRAM, TOOLS
from rows import files, goals, plans, reviews, sessions, summaries, words as refused



def out_of_room(size):
    """The output may grow to so many bytes, and then each write fails."""
    signal.signal(signal.SIGXFSZ, signal.SIG_IGN)
    resource.setrlimit(resource.RLIMIT_FSIZE, (size, size))


def reset_after(text):
    """A socket from which the text can be read, and then each read fails: its peer was closed with a byte that it had not read."""
    peer, socket_of_text = socket.socketpair()
    socket_of_text.sendall(b"-")
    peer.sendall(text)
    peer.close()
    return socket_of_text


def send_bytes_apart(pipe, text):
    """Writes each byte by itself, as long as they are read, and then the end."""
    with contextlib.suppress(BrokenPipeError), open(pipe, "wb", buffering=0) as file:
        for byte in text:
            file.write(bytes([byte]))


@unittest.skipUnless(PROGRAM.exists() or os.environ.get("CI"), "the program isn't built")
class Rows(unittest.TestCase):
    def setUp(self):
        room = tempfile.TemporaryDirectory()
        self.addCleanup(room.cleanup)
        self.room = pathlib.Path(room.name)

    def run_program(self, words, requests="", **more):
        given = {"stdout": subprocess.PIPE, "input": requests.encode(), **more}
        words = words.split(" ") if isinstance(words, str) else words
        return subprocess.run([PROGRAM, *words], cwd=self.room, stderr=subprocess.PIPE, timeout=60, **given)

    def run_by_bytes(self, words, requests):
        """The run each of whose reads gets one byte: a pipe of packets gives a reader what was written at once, and no more."""
        reading, writing = os.pipe2(os.O_DIRECT)
        sender = threading.Thread(target=send_bytes_apart, args=(writing, requests.encode()), daemon=True)
        with open(reading, "rb") as stdin:
            pipes = {"stdin": stdin, "stdout": subprocess.PIPE, "stderr": subprocess.PIPE}
            process = subprocess.Popen([PROGRAM, *words.split(" ")], cwd=self.room, **pipes)
        self.addCleanup(process.kill)
        sender.start()
        out, err = process.communicate(timeout=60)
        sender.join()
        return process.returncode, out, err

    def write(self, cluster, trace=""):
        (self.room / "cluster").write_text(cluster)
        (self.room / "trace").unlink(missing_ok=True)
        if trace:
            (self.room / "trace").write_text(trace)

    def expect(self, row):
        words, cluster, trace, status, out, line = row
        self.write(cluster, trace)
        with open("/dev/full", "wb") as full:
            ran = self.run_program(words, **({"stdout": full} if status == 7 else {}))
        self.assertEqual((ran.returncode, ran.stdout or b"", ran.stderr), (status, out.encode(), line.encode()))

    def test_rows(self):
        tables = [plans.ROWS, plans.TURNS, plans.TRACES, goals.GOALS, summaries.SUMMARIES]
        for row in (row for table in tables for row in table):
            with self.subTest(row=row):
                self.expect(row)

    def test_files(self):
        for before, behind, rows in files.FILES:
            for middle, fault in rows:
                cluster = before + middle + behind
                ended = (3, "", f"cluster refused: {fault}\n") if fault else (0, plans.NOTHING, "")
                with self.subTest(cluster=cluster):
                    self.expect((plans.PLAN, cluster, "", *ended))

    def test_words_that_no_command_has(self):
        for words in [[], *refused.REFUSED]:
            with self.subTest(words=words):
                ran = self.run_program(words)
                self.assertEqual((ran.returncode, ran.stdout, ran.stderr), (2, b"", b"usage error\n"))

    def test_bytes_that_are_no_trace(self):
        self.write(plans.THREE_BROKERS)
        for trace in plans.NO_TRACES:
            with self.subTest(trace=trace):
                (self.room / "trace").write_bytes(trace)
                ran = self.run_program(plans.CHECK)
                self.assertEqual((ran.returncode, ran.stdout, ran.stderr), (11, b"fault 0 0 NOT_A_TRACE\n", plans.REFUSED.encode()))

    def test_a_cluster_that_is_made_is_planned_for(self):
        words = "gen 7 --brokers 6 --partitions 30 --file"
        made = self.run_program(words)
        self.assertEqual((made.returncode, made.stdout), (0, self.run_program(words).stdout))
        self.write(made.stdout.decode())
        planned = self.run_program("plan cluster --trace")
        self.write(made.stdout.decode(), planned.stdout.decode())
        checked = self.run_program("check cluster trace")
        self.assertEqual((checked.returncode, checked.stdout), (0, b"good\n"))

    def test_the_same_words_make_the_same_bytes(self):
        for words in ("gen 7 --brokers 12 --partitions 120", "gen 7 --brokers 12 --partitions 120 --file"):
            first, second = (self.run_program(words) for _ in range(2))
            self.assertEqual((first.returncode, first.stdout, first.stderr), (second.returncode, second.stdout, second.stderr))
            self.assertIn(first.returncode, (0, 4))
            self.assertNotEqual(first.stdout, b"")

    def test_fresh_traces_are_good(self):
        for words, cluster in plans.TRACED:
            with self.subTest(words=words, cluster=cluster):
                self.write(cluster)
                planned = self.run_program(f"plan cluster --trace{words}")
                self.assertIn(planned.returncode, (0, 4))
                self.write(cluster, planned.stdout.decode())
                checked = self.run_program(f"check cluster trace{words}")
                self.assertEqual((checked.returncode, checked.stdout, checked.stderr), (0, b"good\n", b""))

    def test_what_is_left_of_a_demotion(self):
        """The demoted broker leads two partitions, and one where the plan was carried out, as the tools count."""
        self.write(plans.DEMOTED_AND_ALONE)
        (self.room / "plan").write_bytes(self.run_program(plans.PLAN + plans.LEADERS_ALONE).stdout)
        shown = subprocess.run([TOOLS, "show-plan", "cluster", "plan"], cwd=self.room, capture_output=True, text=True, timeout=60)
        lines = shown.stdout.splitlines()
        self.assertEqual(lines[0], "1 of 2 partitions change: 0 replicas move (0 MB), 1 leader changes")
        self.assertIn(["DemotionGoal", "soft", "2", "1", "better"], [line.split() for line in lines])

    def expect_sessions(self, words, rows):
        for cluster, requests, status, replies, line in rows:
            with self.subTest(requests=requests[:200]):
                self.write(cluster)
                ran = self.run_program(words, requests)
                self.assertEqual((ran.returncode, ran.stdout.decode(), ran.stderr.decode()), (status, replies, line))

    def test_sessions(self):
        self.expect_sessions("session cluster --movers 0", [*sessions.SESSIONS, reviews.WITHOUT])

    def test_sessions_whose_requests_are_reviewed(self):
        self.expect_sessions("session cluster --review", reviews.SESSIONS)

    def test_reviewed_sessions_of_a_shared_book(self):
        """The same replies where the book and the board are shared with a mover, as long as it has no work."""
        self.expect_sessions("session cluster --review --planners 1", [reviews.USED_UP, reviews.REFUSED])

    def test_sessions_that_come_byte_by_byte(self):
        for cluster, requests, *answered in sessions.SESSIONS:
            if len(requests) > 1 << 15:
                continue
            with self.subTest(requests=requests[:200]):
                self.write(cluster)
                status, out, err = self.run_by_bytes("session cluster --movers 0", requests)
                self.assertEqual([status, out.decode(), err.decode()], answered)

    def test_an_input_that_fails(self):
        self.write(sessions.TWO_BROKERS)
        folder = os.open(self.room, os.O_RDONLY)
        self.addCleanup(os.close, folder)
        ran = subprocess.run([PROGRAM, "session", "cluster"], cwd=self.room, stdin=folder, capture_output=True, timeout=60)
        self.assertEqual((ran.returncode, ran.stdout, ran.stderr), (6, b"", b"read fault\n"))

    def test_an_input_that_fails_later(self):
        self.write(sessions.TWO_BROKERS)
        requests = sessions.MOVES.encode()
        replies = sessions.SESSIONS[1][3].encode()
        ends = [at + 4 for at in range(len(requests)) if requests.startswith(b"\r\n\r\n", at)]
        starts = [at for at in range(len(replies)) if replies.startswith(b"HTTP/1.1 ", at)] + [len(replies)]
        self.assertEqual(len(starts), len(ends) + 1)
        for read in [*ends, *(end - 1 for end in ends), 1]:
            answered = replies[: starts[sum(end <= read for end in ends)]]
            with reset_after(requests[:read]) as stdin:
                ran = subprocess.run([PROGRAM, "session", "cluster", "--movers", "0"], cwd=self.room, stdin=stdin, capture_output=True, timeout=60)
            self.assertEqual((ran.returncode, ran.stdout, ran.stderr), (6, answered, b"read fault\n"))

    def test_an_output_that_fails(self):
        self.write(sessions.TWO_BROKERS)
        whole = sessions.SESSIONS[1][3].encode()
        starts = [at for at in range(len(whole)) if whole.startswith(b"HTTP/1.1 ", at)]
        for size in [*starts, len(whole) - 1]:
            with open(self.room / "out", "wb") as out:
                ran = self.run_program("session cluster --movers 0", sessions.MOVES, stdout=out, preexec_fn=lambda: out_of_room(size))
            self.assertEqual((ran.returncode, ran.stderr), (7, b"write fault\n"))
            self.assertTrue(whole.startswith((self.room / "out").read_bytes()))

    def test_a_file_without_memory_for_it(self):
        with open(self.room / "cluster", "wb") as file:
            file.truncate(64 << 20)
        most = 48 << 20
        limit = lambda: resource.setrlimit(resource.RLIMIT_AS, (most, most))
        ran = self.run_program(plans.PLAN, preexec_fn=limit)
        self.assertEqual((ran.returncode, ran.stdout, ran.stderr), (9, b"", b"want of memory\n"))
