"""Sessions and services with threads that have little to do end, each within seconds."""
import argparse
import contextlib
import io
import os
import pathlib
import stat
import tempfile
import unittest

from places import PROGRAM
from sumpharu_tools.dev import soak, stress

SECONDS = 20


@unittest.skipUnless(PROGRAM.exists() or os.environ.get("CI"), "the program isn't built")
class Program(unittest.TestCase):
    def test_sessions_end(self):
        self.assertEqual(stress.sessions(PROGRAM, 200, SECONDS), [])

    def test_services_end(self):
        self.assertEqual(stress.services(PROGRAM, 20, SECONDS), [])

    def test_a_service_without_end_stays_as_it_should_be(self):
        """A few seconds of what 'soak' does for an hour."""
        words = argparse.Namespace(program=PROGRAM, minutes=0.05, clients=4, seed=1, brokers=10, partitions=200)
        with tempfile.TemporaryDirectory() as folder, contextlib.redirect_stdout(io.StringIO()):
            self.assertEqual(soak.Soak(pathlib.Path(folder), words).soak(), [])


class Fakes(unittest.TestCase):
    """What is seen of programs that aren't as they should be."""

    def session_of(self, script):
        room = tempfile.TemporaryDirectory()
        self.addCleanup(room.cleanup)
        program = pathlib.Path(room.name) / "program"
        program.write_text(f"#!/bin/sh\n{script}\n")
        program.chmod(program.stat().st_mode | stat.S_IXUSR)
        return stress.session(program, stress.Crew(2, 1), 2)

    def test_a_session_that_sleeps_is_seen(self):
        self.assertEqual(self.session_of("exec sleep 60"), "a session with 2 movers, 1 planners and a removal didn't end in 2 seconds")

    def test_a_reply_that_is_missing_is_seen(self):
        self.assertEqual(self.session_of("exit 0"), "a session with 2 movers, 1 planners and a removal ended with status 0: ")

    def test_a_status_is_seen(self):
        self.assertEqual(self.session_of("echo gone >&2; exit 7"), "a session with 2 movers, 1 planners and a removal ended with status 7: gone\n")

    def test_a_session_as_it_should_be(self):
        self.assertIsNone(self.session_of("printf 'HTTP/1.1 202 Accepted\\r\\n\\r\\n'"))


if __name__ == "__main__":
    unittest.main()
