"""The broker's side of signing in: PLAIN (RFC 4616) and SCRAM (RFC 5802, RFC 7677). It shares no code with any client."""
import base64
import hashlib
import hmac
import os

HASHES = {"SCRAM-SHA-256": "sha256", "SCRAM-SHA-512": "sha512"}
MECHANISMS = ("PLAIN", *HASHES)


class Refused(Exception):
    """Who signs in isn't who he says, or doesn't speak the mechanism."""


def plain(user, password):
    """Takes the one message of PLAIN."""
    data = yield b""
    if data.split(b"\0")[1:] != [user.encode(), password.encode()]:
        raise Refused("Authentication failed: Invalid username or password")
    yield b""


def fields(data):
    return dict(part.split("=", 1) for part in data.decode().split(",") if "=" in part)


def scram(mechanism, user, password, is_old, iterations=4096):
    """Takes the two messages of SCRAM. An old broker doesn't look at the nonce of the last one, in which old librdkafka has the client's part twice."""
    kind = HASHES[mechanism]
    digest = lambda key, text: hmac.new(key, text, kind).digest()
    first = yield b""
    if not first.startswith(b"n,,"):
        raise Refused("no channel is bound here")
    bare = first[3:]
    told = fields(bare)
    if told.get("n", "").replace("=2C", ",").replace("=3D", "=") != user:
        raise Refused("Authentication failed due to invalid credentials with SASL mechanism " + mechanism)
    nonce, salt = told["r"] + base64.b64encode(os.urandom(12)).decode(), os.urandom(16)
    challenge = f"r={nonce},s={base64.b64encode(salt).decode()},i={iterations}".encode()
    last = yield challenge
    without, _, proof = last.rpartition(b",p=")
    if fields(last).get("r") != nonce and not is_old or fields(last).get("c") != "biws":
        raise Refused("another nonce, or another channel")
    salted = hashlib.pbkdf2_hmac(kind, password.encode(), salt, iterations)
    stored = hashlib.new(kind, digest(salted, b"Client Key")).digest()
    text = b",".join([bare, challenge, without])
    key = bytes(a ^ b for a, b in zip(base64.b64decode(proof), digest(stored, text)))
    if hashlib.new(kind, key).digest() != stored:
        raise Refused("Authentication failed due to invalid credentials with SASL mechanism " + mechanism)
    yield b"v=" + base64.b64encode(digest(digest(salted, b"Server Key"), text))


class Gate:
    """One connection's way in: which mechanism it has chosen, and whether it is through."""

    def __init__(self, wanted, is_old):
        """wanted: "MECHANISM:USER:PASSWORD", or nothing where everybody is let in."""
        self.mechanism, self.user, self.password = wanted.split(":", 2) if wanted else ("", "", "")
        self.is_open, self.is_old, self.talk, self.turns = not wanted, is_old, None, 0

    def choose(self, mechanism):
        """Whether the mechanism is the one that is taken here."""
        if mechanism != self.mechanism:
            return False
        words = (self.user, self.password)
        self.talk = plain(*words) if mechanism == "PLAIN" else scram(mechanism, *words, self.is_old)
        next(self.talk)
        self.turns = 1 if mechanism == "PLAIN" else 2
        return True

    def take(self, data):
        """The answer to a message; opens the gate after the last one."""
        if self.talk is None:
            raise Refused("SaslHandshake comes first")
        try:
            answer = self.talk.send(data)
        except (KeyError, ValueError, UnicodeDecodeError, StopIteration) as fault:
            raise Refused("no message of this mechanism") from fault
        self.turns -= 1
        self.is_open = self.turns == 0
        return answer
