"""A connection to a broker: one request after another, each with one answer or none. It is made safe and signed in before it is used."""
from __future__ import annotations

import socket
import ssl
import struct
import time
from typing import Callable, Dict, Iterable, Optional, Tuple, TypeVar

from . import kafka_wire as wire
from .kafka_sign_in import Denied, Place, Scram, Security, SignIn, plain_message
from .kafka_wire import Malformed, code_text

Read = TypeVar("Read")

CLIENT = "sumpharu"
# A connection that ends within so many requests was perhaps made in the wrong way.
FIRST_REQUESTS = 2


class Lost(Exception):
    """No answer, or none that means anything. Whether the request was carried out, nobody knows; the connection has ended."""


def told(fault: BaseException) -> str:
    """A fault of the system's in a few words."""
    if isinstance(fault, (socket.timeout, TimeoutError)):
        return "no answer in time"
    if isinstance(fault, EOFError):
        return "the broker ended the connection"
    return getattr(fault, "strerror", None) or getattr(fault, "reason", None) or str(fault) or type(fault).__name__


class Link:
    """Opens a connection to (host, port). No call waits longer than the seconds of timeout."""

    def __init__(self, place: Place, security: Security, timeout: float) -> None:
        self.name = f"{place[0]}:{place[1]}"
        self.timeout, self.correlation = timeout, 0
        self.stream: Optional[socket.socket] = None
        self.is_open_to_all = not (security.tls or security.sign_in)
        self.last = time.monotonic() + timeout
        try:
            self.stream = self.connected(place)
            self.stream.setsockopt(socket.IPPROTO_TCP, socket.TCP_NODELAY, 1)
            self.stream = security.wrapped(self.stream, place[0])
            if security.sign_in:
                self.sign_in(security.sign_in)
            self.versions = self.ask_versions()
        except ssl.SSLCertVerificationError as fault:
            self.close()
            raise Denied(f"{self.name} has no certificate that counts: {fault.verify_message}") from fault
        except (OSError, ValueError) as fault:
            self.close()
            raise Lost(f"{self.name}: {told(fault)}") from fault
        except BaseException:
            self.close()
            raise

    def connected(self, place: Place) -> socket.socket:
        return socket.create_connection(place, self.timeout)

    @property
    def is_any_broker(self) -> bool:
        """Whether the broker hands asks on to the controller, as KRaft's do."""
        return wire.LEADER_AND_ISR not in self.versions

    def close(self) -> None:
        if self.stream:
            self.stream.close()

    def received(self, count: int) -> bytes:
        assert self.stream is not None
        data = b""
        while len(data) < count:
            left = self.last - time.monotonic()
            if left <= 0:
                raise socket.timeout()
            self.stream.settimeout(left)
            piece = self.stream.recv(min(count - len(data), 1 << 20))
            if not piece:
                raise EOFError
            data += piece
        return data

    def exchange(self, message: wire.Message, body: bytes) -> bytes:
        """The bytes that answer a request."""
        self.correlation += 1
        request = wire.request_bytes(message, self.correlation, CLIENT, body)
        self.last = time.monotonic() + self.timeout
        assert self.stream is not None
        self.stream.settimeout(self.timeout)
        self.stream.sendall(struct.pack(">i", len(request)) + request)
        (count,) = struct.unpack(">i", self.received(4))
        if not 4 <= count <= wire.MOST_BYTES:
            raise Malformed(f"an answer of {count} bytes")
        return self.received(count)

    def ask(self, message: wire.Message, body: bytes, read: Callable[[wire.Fields], Read]) -> Read:
        """What a call reads of the answer to a request. Whatever is wrong ends the connection, and is Lost."""
        try:
            return read(wire.answer_fields(message, self.correlation + 1, self.exchange(message, body)))
        except (OSError, EOFError, Malformed) as fault:
            self.close()
            is_shut = isinstance(fault, (EOFError, ConnectionResetError)) and self.is_open_to_all and self.correlation <= FIRST_REQUESTS
            hint = ", as one does that wants --tls or --sasl" if is_shut else ""
            raise Lost(f"{self.name}: {message.name}: {told(fault)}{hint}") from fault

    def sign_in(self, sign_in: SignIn) -> None:
        code, mechanisms = self.ask(wire.SASL_HANDSHAKE, wire.handshake_body(sign_in.mechanism), wire.read_handshake)
        if code:
            raise Denied(f"{self.name} doesn't take {sign_in.mechanism}: {code_text(code)}; it has {', '.join(mechanisms) or 'nothing'}")
        if sign_in.mechanism == "PLAIN":
            self.authenticate(plain_message(sign_in), sign_in)
            return
        scram = Scram(sign_in)
        challenge = self.authenticate(scram.first(), sign_in)
        scram.check(self.authenticate(scram.last(challenge), sign_in))

    def authenticate(self, data: bytes, sign_in: SignIn) -> bytes:
        code, message, answer = self.ask(wire.SASL_AUTHENTICATE, wire.authenticate_body(data), wire.read_authenticated)
        if code:
            reason = " ".join((message or "").split())
            raise Denied(f"{self.name} doesn't let {sign_in.user} in: {code_text(code)}" + (f", {reason}" if reason else ""))
        return answer

    def ask_versions(self) -> Dict[int, Tuple[int, int]]:
        code, versions = self.ask(wire.API_VERSIONS, b"", wire.read_versions)
        if code:
            raise Lost(f"{self.name}: ApiVersions: {code_text(code)}")
        return versions

    def check(self, messages: Iterable[wire.Message]) -> None:
        """Raises Denied where the broker lacks one of these messages in the version that is written here."""
        for it in messages:
            first, last = self.versions.get(it.key, (0, -1))
            if not first <= it.version <= last:
                has = f"it has {first} to {last}" if it.key in self.versions else "it hasn't got it at all"
                raise Denied(f"{self.name} lacks version {it.version} of {it.name}: {has}")
