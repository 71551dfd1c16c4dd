"""How a connection to Kafka is made safe, and how a user signs in: TLS, and SASL with PLAIN (RFC 4616) or SCRAM (RFC 5802 and RFC 7677).

A password stands in a file or in the environment, is never an argument, and no message here has it.
"""
from __future__ import annotations

import argparse
import base64
import binascii
import hashlib
import hmac
import os
import socket
import ssl
from dataclasses import dataclass
from typing import List, Optional, Tuple

from .clusters import Fault

PASSWORD_VARIABLE = "SUMPHARU_KAFKA_PASSWORD"
HASHES = {"SCRAM-SHA-256": "sha256", "SCRAM-SHA-512": "sha512"}
MECHANISMS = ("PLAIN", *HASHES)
# A server that asks for fewer rounds than the RFC allows, or for more than anybody wants, is no server of ours.
LEAST_ROUNDS, MOST_ROUNDS = 4096, 10_000_000


# Where a broker is reached; a parser, or a group of its options.
Place = Tuple[str, int]
ArgumentsOf = argparse._ActionsContainer


class Denied(Exception):
    """The broker doesn't let this user in, or isn't the one that it says."""


@dataclass(frozen=True)
class SignIn:
    """Who signs in, and by which mechanism. The password is in no text that this makes."""

    mechanism: str
    user: str
    password: str

    def __repr__(self) -> str:
        return f"SignIn({self.mechanism}, {self.user})"


@dataclass(frozen=True)
class Security:
    """How a connection is made: in the clear or with TLS, and who signs in, if anybody does."""

    tls: Optional[ssl.SSLContext] = None
    sign_in: Optional[SignIn] = None

    def wrapped(self, stream: socket.socket, host: str) -> socket.socket:
        return self.tls.wrap_socket(stream, server_hostname=host) if self.tls else stream


def plain_message(sign_in: SignIn) -> bytes:
    return b"\0" + sign_in.user.encode() + b"\0" + sign_in.password.encode()


class Scram:
    """One run of SCRAM: the first message, the last one, and whether the server knows the password too."""

    def __init__(self, sign_in: SignIn, nonce: Optional[str] = None) -> None:
        self.kind = HASHES[sign_in.mechanism]
        self.password = sign_in.password.encode()
        self.nonce = nonce or base64.b64encode(os.urandom(24)).decode()
        name = sign_in.user.replace("=", "=3D").replace(",", "=2C")
        self.bare = f"n={name},r={self.nonce}"
        self.signature = b""

    def first(self) -> bytes:
        return ("n,," + self.bare).encode()

    def digest(self, key: bytes, text: bytes) -> bytes:
        return hmac.new(key, text, self.kind).digest()

    def last(self, challenge: bytes) -> bytes:
        """The answer to the server's first message."""
        nonce, salt, rounds = self.read_challenge(challenge)
        salted = hashlib.pbkdf2_hmac(self.kind, self.password, salt, rounds)
        client_key = self.digest(salted, b"Client Key")
        without_proof = f"c=biws,r={nonce}"
        text = ",".join([self.bare, challenge.decode(), without_proof]).encode()
        signature = self.digest(hashlib.new(self.kind, client_key).digest(), text)
        proof = bytes(one ^ other for one, other in zip(client_key, signature))
        self.signature = self.digest(self.digest(salted, b"Server Key"), text)
        return f"{without_proof},p={base64.b64encode(proof).decode()}".encode()

    def read_challenge(self, challenge: bytes) -> Tuple[str, bytes, int]:
        try:
            told = dict(part.split("=", 1) for part in challenge.decode().split(","))
            nonce, salt, rounds = told["r"], base64.b64decode(told["s"], validate=True), int(told["i"])
        except (KeyError, ValueError, UnicodeDecodeError, binascii.Error) as fault:
            raise Denied("the server's first message of SCRAM isn't one") from fault
        if not nonce.startswith(self.nonce) or nonce == self.nonce:
            raise Denied("the server's message of SCRAM isn't the answer to ours")
        if not LEAST_ROUNDS <= rounds <= MOST_ROUNDS:
            raise Denied(f"the server asks for {rounds} rounds of SCRAM; {LEAST_ROUNDS} to {MOST_ROUNDS} are taken")
        return nonce, salt, rounds

    def check(self, data: bytes) -> None:
        """Holds the server's last message against what only one that knows the password can say."""
        wanted = b"v=" + base64.b64encode(self.signature)
        if not hmac.compare_digest(data.partition(b",")[0], wanted):
            raise Denied("the server doesn't know the password that it asks for")


def read_password(path: Optional[str]) -> str:
    """The password from a file or the environment. What is wrong is told without it."""
    if path is None:
        if PASSWORD_VARIABLE not in os.environ:
            raise Fault(f"--sasl wants a password: in the file of --password-file, or in {PASSWORD_VARIABLE}")
        return os.environ[PASSWORD_VARIABLE]
    try:
        with open(path, encoding="utf-8") as file:
            return file.readline().rstrip("\r\n")
    except OSError as fault:
        raise Fault(f"{path}: {fault.strerror}") from fault
    except UnicodeDecodeError as fault:
        raise Fault(f"{path}: the password isn't UTF-8") from fault


def tls_context(words: argparse.Namespace) -> Optional[ssl.SSLContext]:
    """The context that --tls and what goes with it ask for, or None."""
    if not words.tls:
        for name in ("ca", "certificate", "key", "any_name"):
            if getattr(words, name):
                raise Fault(f"--{name.replace('_', '-')} goes with --tls")
        return None
    try:
        context = ssl.create_default_context(cafile=words.ca)
        if words.certificate:
            # an encrypted key is refused, where OpenSSL would ask for its password on the terminal
            context.load_cert_chain(words.certificate, words.key, password=lambda: "")
    except (OSError, ValueError) as fault:
        raise Fault(f"--ca, --certificate or --key: {getattr(fault, 'strerror', None) or fault}") from fault
    if words.key and not words.certificate:
        raise Fault("--key goes with --certificate")
    context.check_hostname = not words.any_name
    return context


def sign_in_of(words: argparse.Namespace) -> Optional[SignIn]:
    if not words.sasl:
        if words.user or words.password_file:
            raise Fault("--user and --password-file go with --sasl")
        return None
    if not words.user:
        raise Fault("--sasl wants --user")
    password = read_password(words.password_file)
    if not password or "\0" in words.user + password:
        raise Fault("a user or a password is empty, or has a zero byte, which no mechanism can say")
    return SignIn(words.sasl, words.user, password)


def address(text: str) -> Place:
    """HOST:PORT, where an IPv6 address may stand in brackets."""
    host, colon, port = text.rpartition(":")
    host = host[1:-1] if host.startswith("[") and host.endswith("]") else host
    if not colon or not host or not port.isdecimal() or not 0 < int(port) < 65536:
        raise argparse.ArgumentTypeError(f"{text!r} isn't HOST:PORT")
    return host, int(port)


def addresses(text: str) -> List[Place]:
    return [address(it) for it in text.split(",")]


def mapped(text: str) -> Tuple[int, Place]:
    id, equals, place = text.partition("=")
    if not equals or not id.isdecimal():
        raise argparse.ArgumentTypeError(f"{text!r} isn't ID=HOST:PORT")
    return int(id), address(place)


def seconds(text: str) -> float:
    try:
        value = float(text)
    except ValueError as fault:
        raise argparse.ArgumentTypeError(f"{text!r} is no number of seconds") from fault
    if not 0 <= value < 1e9:
        raise argparse.ArgumentTypeError(f"{text!r} is no number of seconds")
    return value


def add_bootstrap(parser: ArgumentsOf, text: str) -> None:
    parser.add_argument("--bootstrap", metavar="HOST:PORT[,..]", type=addresses, help=text)


def add_options(parser: argparse.ArgumentParser) -> None:
    """The options by which a cluster is reached."""
    group = parser.add_argument_group("connection")
    group.add_argument("--tls", action="store_true", help="speaks TLS. The broker's certificate has to be good for its name, by the system's authorities")
    group.add_argument("--ca", metavar="FILE", help="by these authorities (PEM) in place of the system's; goes with --tls")
    group.add_argument("--any-name", action="store_true", help="a certificate counts whatever name it is for; goes with --tls")
    group.add_argument("--certificate", metavar="FILE", help="the certificate that a broker wants of a client (PEM)")
    group.add_argument("--key", metavar="FILE", help="its key, where that is apart")
    group.add_argument(
        "--sasl",
        choices=MECHANISMS,
        help="signs in by this mechanism. The password is the first line of the file that --password-file names, or else the value of "
        f"{PASSWORD_VARIABLE}. No option takes a password",
    )
    group.add_argument("--user", metavar="NAME", help="who signs in")
    group.add_argument("--password-file", metavar="FILE", help="where the password stands")
    group.add_argument(
        "--map",
        metavar="ID=HOST:PORT",
        type=mapped,
        action="append",
        default=[],
        help="where a broker is reached, where not at the address that it tells, as through a tunnel; once for each broker",
    )
    group.add_argument("--timeout", metavar="SECONDS", type=seconds, default=30.0, help="how long one answer is waited for; by default 30")


def security_of(words: argparse.Namespace) -> Security:
    return Security(tls_context(words), sign_in_of(words))
