"""The server's side of minikafka: connections that are served, faults that are met, and commands that are done."""
import asyncio
import json
import socket
import ssl
import struct

import sasl
import wire
from state import NONE, NOT_CONTROLLER, UNSUPPORTED_VERSION

HOST = "127.0.0.1"
MOST = 100 * 1024 * 1024
TO_CONTROLLER = (wire.ALTER_REASSIGNMENTS, wire.LIST_REASSIGNMENTS, wire.ELECT_LEADERS, wire.CREATE_TOPICS, wire.DELETE_TOPICS,
                 wire.CREATE_PARTITIONS)
TO_ANYBODY = (wire.API_VERSIONS, wire.SASL_HANDSHAKE, wire.SASL_AUTHENTICATE)
UNSUPPORTED_SASL_MECHANISM, SASL_AUTHENTICATION_FAILED = 33, 58


def refused_resources(body, told):
    return [{**told, "resource_type": it["resource_type"], "resource_name": it["resource_name"]} for it in body["resources"]]


def refused_elections(body, told):
    return [{"topic": it["topic"], "partitions": [{"partition": number, **told} for number in it["partitions"]]} for it in body["topics"] or []]


# What an answer has beside its code where nothing was done, by message.
REFUSALS = {
    wire.ALTER_REASSIGNMENTS: lambda body, told: {"responses": []},
    wire.LIST_REASSIGNMENTS: lambda body, told: {"topics": []},
    wire.ELECT_LEADERS: lambda body, told: {"topics": refused_elections(body, told)},
    wire.CREATE_TOPICS: lambda body, told: {"topics": [{"name": it["name"], **told} for it in body["topics"]]},
    wire.DELETE_TOPICS: lambda body, told: {"responses": [{"name": name, **told} for name in body["names"]]},
    wire.CREATE_PARTITIONS: lambda body, told: {"results": [{"name": it["name"], **told} for it in body["topics"]]},
    wire.ALTER_CONFIGS: lambda body, told: {"responses": refused_resources(body, told)},
    wire.INCREMENTAL_ALTER_CONFIGS: lambda body, told: {"responses": refused_resources(body, told)},
    wire.DESCRIBE_CONFIGS: lambda body, told: {"results": [{**it, "configs": []} for it in refused_resources(body, told)]},
    wire.DESCRIBE_LOG_DIRS: lambda body, told: {"results": [{**told, "log_dir": "", "topics": [], "total_bytes": -1, "usable_bytes": -1}]},
}


def refusal(key, body, code):
    """The answer to a request that was not done, with this code; nothing where the message has no place for one."""
    if key not in REFUSALS:
        return None
    told = {"error_code": code, "error_message": f"{wire.MESSAGES[key][0]} was refused with {code}"}
    return {"throttle_time_ms": 0, **told, **REFUSALS[key](body, told)}


def versions(mode):
    """What a broker tells of its messages: those that are answered here, and the one by which ZooKeeper's brokers and KRaft's are told apart."""
    known = {key: message[1] for key, message in wire.MESSAGES.items()}
    known[wire.LEADER_AND_ISR if mode == "zk" else wire.DESCRIBE_QUORUM] = (0, 1)
    return {"error_code": NONE, "throttle_time_ms": 0, "api_keys": [
        {"api_key": key, "min_version": first, "max_version": last} for key, (first, last) in sorted(known.items())]}


class Request:
    """A request that was read: which message it is, and what it asks."""

    def __init__(self, data):
        self.data = data
        self.key, self.version, self.correlation, self.client, reader = wire.read_header(data)
        if self.key not in wire.MESSAGES:
            raise wire.Malformed(f"message {self.key}")
        self.name, (first, last) = wire.MESSAGES[self.key][:2]
        self.is_known = first <= self.version <= last
        if not self.is_known and self.key != wire.API_VERSIONS:
            raise wire.Malformed(f"version {self.version} of {self.name}")
        self.body = wire.read_request(self.key, self.version, reader) if self.is_known else {}


class Server:
    def __init__(self, cluster, log, gate, tls):
        self.cluster, self.log, self.gate, self.tls, self.faults = cluster, log, gate, tls, {}
        self.servers, self.links, self.counts = {}, {}, {}
        self.malformed, self.ended, self.sleep = 0, asyncio.Event(), asyncio.sleep

    def note(self, **fields):
        if self.log:
            self.log.write(json.dumps(fields) + "\n")
            self.log.flush()

    def answer(self, broker, key, version, body):
        c = self.cluster
        if key in TO_CONTROLLER and c.mode == "zk" and broker != c.controller:
            return refusal(key, body, NOT_CONTROLLER)
        return {
            wire.API_VERSIONS: lambda: versions(c.mode), wire.METADATA: lambda: c.metadata(body, version, broker, HOST),
            wire.CREATE_TOPICS: lambda: c.create_topics(body), wire.DELETE_TOPICS: lambda: c.delete_topics(body),
            wire.CREATE_PARTITIONS: lambda: c.create_partitions(body), wire.DESCRIBE_CONFIGS: lambda: c.describe_configs(body, broker),
            wire.ELECT_LEADERS: lambda: c.elections(body), wire.ALTER_REASSIGNMENTS: lambda: c.alter(body),
            wire.LIST_REASSIGNMENTS: lambda: c.listed(body), wire.ALTER_CONFIGS: lambda: c.alter_configs(body, False, broker),
            wire.INCREMENTAL_ALTER_CONFIGS: lambda: c.alter_configs(body, True, broker), wire.DESCRIBE_LOG_DIRS: lambda: c.log_dirs(body, broker),
        }[key]()

    def signed(self, gate, request):
        """The answer to a message that signs in, and whether the connection stays."""
        if request.key == wire.SASL_HANDSHAKE:
            good = gate.choose(request.body["mechanism"])
            return {"error_code": NONE if good else UNSUPPORTED_SASL_MECHANISM, "mechanisms": [gate.mechanism]}, good
        try:
            data, code, message = gate.take(bytes.fromhex(request.body["auth_bytes"])), NONE, None
        except sasl.Refused as fault:
            data, code, message = b"", SASL_AUTHENTICATION_FAILED, str(fault)
        return {"error_code": code, "error_message": message, "auth_bytes": data.hex(), "session_lifetime_ms": 0}, code == NONE

    def fault(self, key):
        waiting = self.faults.get(key)
        return waiting.pop(0) if waiting else ""

    async def done(self, broker, request, fault):
        """What a request is answered with, by its fault; nothing where it isn't answered."""
        kind, _, detail = fault.partition(":")
        if kind == "late":
            self.cluster.do_later(float(detail), lambda: self.answer(broker, request.key, request.version, request.body))
        if kind in ("late", "drop", "hang"):
            return None
        if kind == "error":
            reply = refusal(request.key, request.body, int(detail))
            if reply is not None:
                return reply
        if kind == "slow":
            await self.sleep(float(detail))
        reply = self.answer(broker, request.key, request.version, request.body)
        if kind == "done":
            reply = refusal(request.key, request.body, int(detail)) or reply
        return None if kind in ("dropdone", "hangdone") else reply

    def bytes_of(self, request, reply, fault):
        if reply is None:
            return b""
        if fault == "junk":
            return struct.pack(">i", request.correlation) + b"\xff" * 9
        data = wire.response_bytes(request.key, request.version if request.is_known else 0, request.correlation, reply)
        return data[:-1] if fault == "cut" else data

    async def serve_one(self, broker, gate, data, writer):
        """Serves a request. False where the connection is to end."""
        try:
            request = Request(data)
            if not gate.is_open and request.key not in TO_ANYBODY:
                raise wire.Malformed(f"{request.name} before signing in")
        except wire.Malformed as e:
            self.malformed += 1
            self.note(broker=broker, malformed=str(e), request=data.hex())
            return False
        self.counts[request.name] = self.counts.get(request.name, 0) + 1
        fault = self.fault(request.key) if request.is_known else ""
        stays = not fault.startswith(("drop", "late"))
        if request.key in (wire.SASL_HANDSHAKE, wire.SASL_AUTHENTICATE):
            reply, stays = self.signed(gate, request)
        elif not request.is_known:
            reply = {**versions(self.cluster.mode), "error_code": UNSUPPORTED_VERSION}
        else:
            reply = await self.done(broker, request, fault)
        out = self.bytes_of(request, reply, fault)
        if request.key != wire.SASL_AUTHENTICATE:
            self.note(broker=broker, api=request.name, version=request.version, correlation=request.correlation, client=request.client,
                      fault=fault or None, asked=request.body, answered=reply if out else None, request=data.hex(), response=out.hex())
        if out:
            writer.write(wire.frame(out))
            await writer.drain()
        return stays

    async def connection(self, broker, reader, writer):
        links, gate = self.links.setdefault(broker, set()), self.gate()
        links.add(writer)
        try:
            while True:
                size = struct.unpack(">i", await reader.readexactly(4))[0]
                if not 0 < size <= MOST:
                    self.malformed += 1
                    self.note(broker=broker, malformed=f"a request of {size} bytes")
                    break
                if not await self.serve_one(broker, gate, await reader.readexactly(size), writer):
                    break
        except (asyncio.IncompleteReadError, ConnectionError, ssl.SSLError, asyncio.CancelledError):
            pass
        finally:
            links.discard(writer)
            writer.close()

    async def listen(self, broker, port):
        sock = socket.socket()
        sock.setsockopt(socket.SOL_SOCKET, socket.SO_REUSEADDR, 1)
        sock.bind((HOST, port))
        self.servers[broker] = await asyncio.start_server(lambda r, w: self.connection(broker, r, w), sock=sock, ssl=self.tls)
        self.cluster.brokers[broker].port = sock.getsockname()[1]

    async def kill(self, broker):
        self.servers.pop(broker).close()
        for writer in list(self.links.get(broker, ())):
            writer.transport.abort()

    async def killed(self, broker):
        self.cluster.kill(int(broker))
        await self.kill(int(broker))

    async def revived(self, broker):
        self.cluster.revive(int(broker))
        await self.listen(int(broker), self.cluster.brokers[int(broker)].port)

    def inject(self, name, fault, count="1"):
        self.faults.setdefault(wire.KEYS[name], []).extend([fault] * int(count))

    def reset(self):
        self.faults.clear()
        self.cluster.reset()

    async def command(self, words):
        """Does a command of the test's, and gives what is answered."""
        c = self.cluster
        ids = lambda text: [int(it) for it in text.split(",")]
        known = {
            "advance": lambda seconds: c.advance(float(seconds)),
            "finish": lambda topic, number: {"done": c.finish(topic, int(number))},
            "rate": lambda rate: setattr(c, "rate", float(rate)),
            "kill": self.killed, "revive": self.revived,
            "controller": lambda broker: setattr(c, "controller", int(broker)),
            "create": lambda name, count, factor: c.create(name, c.spread(int(count), int(factor))),
            "delete": lambda name: c.topics.__delitem__(name),
            "size": lambda topic, number, size: setattr(c.topics[topic][int(number)], "size", int(size)),
            "reassign": lambda topic, number, target: {"code": c.reassign(topic, int(number), ids(target))[0]},
            "cancel": lambda topic, number: {"code": c.reassign(topic, int(number), None)[0]},
            "lead": lambda topic, number, broker: c.lead(topic, int(number), int(broker)),
            "inject": self.inject, "reset": self.reset, "state": c.shown, "stop": self.ended.set,
            "log": lambda: {"requests": self.counts, "malformed": self.malformed, "faults_left": sum(map(len, self.faults.values()))},
        }
        if words[0] not in known:
            return {"error": f"no such command: {words[0]}"}
        out = known[words[0]](*words[1:])
        out = await out if asyncio.iscoroutine(out) else out
        return {"done": True} if out is None else out

    async def control(self, reader, writer):
        try:
            while True:
                line = (await reader.readline()).decode().split()
                if not line:
                    break
                try:
                    out = await self.command(line)
                except (KeyError, ValueError, IndexError, TypeError, OSError) as e:
                    out = {"error": repr(e)}
                writer.write((json.dumps(out) + "\n").encode())
                await writer.drain()
        except (ConnectionError, asyncio.CancelledError):
            pass
        finally:
            writer.close()

    async def tick(self, every):
        while True:
            await asyncio.sleep(every)
            self.cluster.advance(every)
