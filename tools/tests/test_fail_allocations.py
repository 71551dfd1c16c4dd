"""Runs of which an allocation is refused: how they may end, of the built program and of one that only pretends."""
import itertools
import json
import os
import pathlib
import re
import shutil
import subprocess
import tempfile
import unittest
import unittest.mock

from places import PROGRAM, TOOLS
from sumpharu_tools.dev import allocations
from sumpharu_tools.dev.allocations import AS_EVER, NO_MEMORY_LINE, NO_MEMORY_REPLY, NOTHING_WRITTEN, REQUESTS, Ran, Refusal


# It asks for memory five times. The variable WAY has it go wrong where it gets none, or write before the fourth time.
FAKE = r"""
#include <stdlib.h>
#include <unistd.h>
static int said(int stream, const char *text, int length, int status) { return write(stream, text, length) == length ? status : 1; }
int main(void) {
    const char *way = getenv("WAY");
    for (int at = 0; at < 5; at++) {
        if (at == 3 && *way == 'w') said(1, "pl", 2, 0);
        if (malloc(10)) continue;
        if (*way == 'a') abort();
        return *way == 'l' ? 9 : *way == 'h' ? said(1, "plane\n", 6, 0) : said(2, "want of memory\n", 15, 9);
    }
    return *way == 'w' ? said(1, "an\n", 3, 0) : said(1, "plan\n", 5, 0);
}
"""


def told(done):
    body = json.dumps({"done": done})
    return f"HTTP/1.1 200 OK\r\nContent-Length: {len(body)}\r\n\r\n{body}".encode()


def replies(*numbers):
    """Replies that tell these numbers, where nothing stands for no memory."""
    return b"".join(NO_MEMORY_REPLY if number is None else told(number) for number in numbers)


def count(given, refusal):
    """A session whose replies tell how much was done so far: a pump's rounds, and all else once."""
    steps = [int(path.partition(b"steps=")[2] or 1) for path in re.findall(rb"(?:GET|POST) (\S+) HTTP", given)]
    return Ran(0, replies(*itertools.accumulate(steps)), b"")


class Ends(unittest.TestCase):
    """How a run may end, and how not."""

    def test_answers(self):
        class Pretended:
            def run(self, words, refusal):
                return Ran(0, b"plan\n", b"")

        answer = allocations.Answer(Pretended(), ["plan"])
        rows = [
            (Ran(0, b"plan\n", b""), AS_EVER),
            (Ran(9, b"", NO_MEMORY_LINE), NOTHING_WRITTEN),
            (Ran(9, b"pl", NO_MEMORY_LINE), None),
            (Ran(9, b"", b""), None),
            (Ran(0, b"plane\n", b""), None),
            (Ran(0, b"plan\n", NO_MEMORY_LINE), None),
            (Ran(-6, b"", b""), None),
            (Ran(None, b"", b""), None),
        ]
        for ran, end in rows:
            self.assertEqual(answer.end_of(ran, Refusal(1)), end, ran)

    def test_replies(self):
        self.assertEqual(len(REQUESTS), 10)
        talk = allocations.Talk(count)
        good = [1, 2, 12, 13, 14, 15, 16, 17, 18, 19]
        less = [it - 1 for it in good]
        rows = [
            (0, replies(*good), AS_EVER),
            (9, b"", "with status 9 behind 0 replies"),
            (9, replies(*good[:3]), "with status 9 behind 3 replies"),
            (9, replies(*good), "with status 9 behind 10 replies"),
            # done all the same; not done; in part, and for a while
            (0, replies(1, None, *good[2:]), "with 503 to request 2"),
            (0, replies(1, None, *less[2:]), "with 503 to request 2"),
            (0, replies(1, 2, None, 6, 7, 8, 9, 10, 11, 12), "with 503 to request 3"),
            (9, replies(1, None, *less[2:5]), "with 503 to request 2 and status 9 behind 5 replies"),
            (0, replies(*good[:9], None), "with 503 to request 10"),
            # as neither has it, or as both
            (0, replies(1, None, *less[2:5], *good[5:]), None),
            (0, replies(1, None, *(it + 1 for it in good[2:])), None),
            (0, replies(1, None, None, *less[3:]), None),
            (0, replies(2, None, *good[2:]), None),
            # too few, too many, and none that is whole
            (0, replies(*good[:9]), None),
            (0, replies(*good, 20), None),
            (9, replies(*good, None), None),
            (9, replies(*good)[:-1], None),
            (0, replies(*good) + b"gone", None),
            (0, replies(*good) + b"\r\n\r\n", None),
        ]
        for status, out, end in rows:
            line = NO_MEMORY_LINE if status else b""
            self.assertEqual(talk.end_of(Ran(status, out, line), Refusal(1)), end, out)
        self.assertIsNone(talk.end_of(Ran(9, b"", b""), Refusal(1)))
        self.assertIsNone(talk.end_of(Ran(None, replies(*good), b""), Refusal(1)))

    def test_replies_where_all_is_refused(self):
        talk = allocations.Talk(count)
        rows = [
            (9, replies(1, None, None), "with 503 to request 2 and status 9 behind 3 replies"),
            (0, replies(1, *[None] * 9), "with 503 to request 2"),
            (9, replies(1, 2), "with status 9 behind 2 replies"),
            (9, replies(1, None, 12), None),
        ]
        for status, out, end in rows:
            line = NO_MEMORY_LINE if status else b""
            self.assertEqual(talk.end_of(Ran(status, out, line), Refusal(1, True)), end, out)


@unittest.skipUnless(shutil.which("cc"), "there is no C compiler")
class Tool(unittest.TestCase):
    @classmethod
    def setUpClass(cls):
        room = tempfile.TemporaryDirectory()
        cls.addClassCleanup(room.cleanup)
        cls.room = pathlib.Path(room.name)
        cls.fake = cls.room / "fake"
        subprocess.run(["cc", "-x", "c", "-o", cls.fake, "-"], input=FAKE, text=True, check=True)

    def tool(self, *words, **variables):
        how = {"capture_output": True, "text": True, "env": {**os.environ, **variables}, "timeout": 60}
        ran = subprocess.run([TOOLS, "fail-allocations", *words], **how)
        self.assertEqual(ran.stderr, "")
        return ran.returncode, ran.stdout.splitlines()

    def test_one_allocation_is_refused(self):
        program = allocations.Program(self.fake, self.room, 20)
        rows = [
            ("", [9, 9, 9, 9, 9, 0], b""),
            ("w", [9, 9, 9, 9, 9, 0], b"pl"),
            ("h", [0, 0, 0, 0, 0, 0], b"plane\n"),
            ("a", [-6, -6, -6, -6, -6, 0], b""),
        ]
        for way, statuses, out in rows:
            with unittest.mock.patch.dict(os.environ, WAY=way):
                ran = [program.run(["plan"], refusal=Refusal(number)) for number in range(1, 7)]
                self.assertEqual(([it.status for it in ran], ran[4].out, program.asked()), (statuses, out, 5), way)

    def test_each_allocation_is_refused_in_turn(self):
        told = "plan: 5 of 5 allocations were refused, one a run: 5 with status 9 and nothing written"
        self.assertEqual(self.tool("plan", "--program", self.fake, WAY=""), (0, [told]))
        code, lines = self.tool("plan", "--program", self.fake, "--most", "3", "--onward", WAY="w")
        end = "2 bytes written, the last of them b'pl', on the error stream b'want of memory\\n'"
        told = "plan: 3 of 5 allocations were refused, one a run: 2 with status 9 and nothing written, 1 wrong"
        self.assertEqual((code, lines), (1, [f"plan, allocation 4 of 5: status 9, {end}", told]))

    @unittest.skipUnless(PROGRAM.exists() or os.environ.get("CI"), "the program isn't built")
    def test_the_built_program(self):
        code, lines = self.tool("--most", "4")
        self.assertEqual((code, [line.partition(":")[0] for line in lines]), (0, ["plan", "apply", "check", "session", "serve"]), lines)


if __name__ == "__main__":
    unittest.main()
