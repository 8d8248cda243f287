"""Asks the built oracle a batch of requests."""

import subprocess
from pathlib import Path

FOLDER = Path(__file__).resolve().parent
PROGRAM = FOLDER.parent / "target/oracle/release/oracle"


def ask(requests):
    """The answers, in the requests' order."""
    requests = list(requests)
    batch = "".join(request + "\n" for request in requests).encode("ascii")
    done = subprocess.run([PROGRAM], input=batch, stdout=subprocess.PIPE, check=True)
    answers = done.stdout.decode("ascii").splitlines()
    assert len(answers) == len(requests), "one answer for each request"
    assert "bad" not in answers, requests[answers.index("bad")]
    return answers


def word(text):
    """A text or bytes as a word of a request."""
    data = text.encode() if isinstance(text, str) else bytes(text)
    return data.hex() or "-"


MASK = 2**64 - 1


class Random:
    """splitmix64: Python's own generator may change from version to version, and a list made
    again must be the same."""

    def __init__(self, seed):
        self.state = seed

    def below(self, limit):
        self.state = (self.state + 0x9E3779B97F4A7C15) & MASK
        z = self.state
        z = (z ^ (z >> 30)) * 0xBF58476D1CE4E5B9 & MASK
        z = (z ^ (z >> 27)) * 0x94D049BB133111EB & MASK
        return (z ^ (z >> 31)) % limit

    def of(self, items):
        return items[self.below(len(items))]

    def bytes(self, count):
        words = [self.below(2**64).to_bytes(8, "little") for _ in range((count + 7) // 8)]
        return b"".join(words)[:count]

    def text(self, letters, most):
        return "".join(self.of(letters) for _ in range(self.below(most + 1)))
