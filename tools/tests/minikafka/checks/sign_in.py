"""What confluent_kafka of Python, which we did not write, makes of minikafka's way of signing in: PORT MECHANISM USER PASSWORD."""
import sys

from confluent_kafka.admin import AdminClient

port, mechanism, user, password = sys.argv[1:]
bad = 0


def same(what, got, want):
    global bad
    print("ok " if got == want else "BAD", what, "" if got == want else f": {got} and not {want}")
    bad += got != want


def by_confluent(word, name=user):
    admin = AdminClient({"bootstrap.servers": f"127.0.0.1:{port}", "security.protocol": "SASL_PLAINTEXT", "sasl.mechanism": mechanism,
                         "sasl.username": name, "sasl.password": word})
    try:
        return sorted(admin.list_topics(timeout=3).topics)
    except Exception:
        return None


same("it signs in", by_confluent(password), ["orders", "t"])
same("with another password it doesn't", by_confluent("not this"), None)
same("nor as another user", by_confluent(password, "bob"), None)
sys.exit(bad > 0)
