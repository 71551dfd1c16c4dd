"""Starts minikafka for a test, and ends it."""
import json
import pathlib
import socket
import subprocess
import sys
import tempfile
import time

HOST = "127.0.0.1"
# Seconds that a test waits for what comes at once on a machine that has nothing else to do.
PATIENCE = 150
PROGRAM = pathlib.Path(__file__).resolve().parent / "minikafka/minikafka"


class Minikafka:
    """A little Kafka in a process of its own, which ends by itself after some minutes if nobody ends it."""

    def __init__(self, *words):
        self.room = tempfile.TemporaryDirectory()
        ready = pathlib.Path(self.room.name) / "ready"
        self.process = subprocess.Popen([sys.executable, "-B", PROGRAM, *words, "--ready", ready, "--seconds", "300"])
        try:
            told = self.wait_for(ready)
        except BaseException:
            self.end_process()
            raise
        self.ports = {int(id): port for id, port in told["brokers"].items()}
        self.control = socket.create_connection((HOST, told["control"]), PATIENCE)
        self.lines = self.control.makefile()

    def wait_for(self, ready):
        last = time.monotonic() + PATIENCE
        while not ready.exists():
            if self.process.poll() is not None or time.monotonic() > last:
                raise RuntimeError("minikafka didn't start")
            time.sleep(0.02)
        return json.loads(ready.read_text())

    def end_process(self):
        self.process.terminate()
        self.process.wait(PATIENCE)
        self.room.cleanup()

    def close(self):
        self.lines.close()
        self.control.close()
        self.end_process()

    def __enter__(self):
        return self

    def __exit__(self, *_):
        self.close()

    def tell(self, *words):
        """The answer to a command; one that is refused fails the test."""
        self.control.sendall((" ".join(map(str, words)) + "\n").encode())
        answer = json.loads(self.lines.readline())
        if "error" in answer:
            raise AssertionError(f"{words}: {answer['error']}")
        return answer

    def partitions(self):
        """All partitions by topic and number, as the cluster itself has them."""
        return {(it["topic"], it["partition"]): it for it in self.tell("state")["partitions"]}

    def places(self):
        return [(HOST, port) for port in self.ports.values()]

    def bootstrap(self):
        return f"{HOST}:{next(iter(self.ports.values()))}"


# -- the same without a network


def modules():
    """The modules of minikafka, which the tests otherwise only run."""
    if str(PROGRAM.parent) not in sys.path:
        sys.path.append(str(PROGRAM.parent))
    import sasl
    import server
    import state

    return sasl, server, state


def driven(work):
    """What a coroutine gives that waits for nothing."""
    try:
        work.send(None)
    except StopIteration as end:
        return end.value
    raise RuntimeError("it waits")


async def no_sleep(_):
    """Nobody waits where there is no network: what is slow is only late."""


class Stream:
    """A connection in memory, as a client has it. Where no answer comes, it doesn't wait for one."""

    def __init__(self, kafka, broker):
        self.kafka, self.broker, self.gate = kafka, broker, kafka.server.gate()
        self.held, self.answers, self.is_open = b"", b"", True

    def setsockopt(self, *_):
        """It has none."""

    settimeout = setsockopt

    def write(self, data):
        self.answers += data

    async def drain(self):
        """All is written."""

    def sendall(self, data):
        if not self.is_open:
            raise BrokenPipeError("the connection has ended")
        self.held += data
        while len(self.held) >= 4 and len(self.held) >= 4 + int.from_bytes(self.held[:4], "big"):
            count = 4 + int.from_bytes(self.held[:4], "big")
            request, self.held = self.held[4:count], self.held[count:]
            if not driven(self.kafka.server.serve_one(self.broker, self.gate, request, self)):
                self.is_open = False

    def recv(self, count):
        if self.answers:
            data, self.answers = self.answers[:count], self.answers[count:]
            return data
        if self.is_open:
            raise socket.timeout()
        return b""

    def close(self):
        self.is_open, self.answers = False, b""


class InMemory:
    """minikafka in the test's own process, with its bytes and its faults and without a network; what a test asks twice happens twice alike."""

    def __init__(self, brokers, topics, mode, rate):
        sasl, server, state = modules()
        cluster = state.Cluster(mode, rate)
        self.streams, self.ports = {}, {id: 1000 + id for id in range(brokers)}
        for id in range(brokers):
            cluster.add_broker(id, "abc"[id % 3])
            cluster.brokers[id].port = self.ports[id]
        for name, (count, factor) in topics.items():
            cluster.create(name, cluster.spread(count, factor))
        cluster.keep()
        self.server = server.Server(cluster, None, lambda: sasl.Gate("", False), None)
        self.server.sleep, self.server.listen, self.server.kill = no_sleep, self.listen, self.kill

    async def listen(self, broker, port):
        """It is alive, and so it listens."""

    async def kill(self, broker):
        for stream in self.streams.pop(broker, []):
            stream.close()

    def connect(self, place):
        broker = place[1] - 1000
        if not self.server.cluster.brokers[broker].alive:
            raise ConnectionRefusedError(f"nothing listens at {place}")
        stream = Stream(self, broker)
        self.streams.setdefault(broker, []).append(stream)
        return stream

    def tell(self, *words):
        answer = driven(self.server.command([str(word) for word in words]))
        if "error" in answer:
            raise AssertionError(f"{words}: {answer['error']}")
        return answer

    def close(self):
        """It has no process."""

    partitions = Minikafka.partitions
    places = Minikafka.places
    __enter__ = Minikafka.__enter__
    __exit__ = Minikafka.__exit__
