"""Runs on one state file, by the model's records: of commands, and of `serve`."""
import hashlib

from model import Refused, Tape, served, written_over
from parts.suite import NAMES, described_file, edited, line_of, line_of_make, new_key, status_of, suite


class Story:
    """A case of several runs on one state file, by the model's records. `before` is its content before another file's
    records came there."""
    def __init__(self, name, key=None, state="state"):
        self.key, self.state, self.before = key, state, b""
        suite.case(name)
        if key:
            described_file(state, key.content())

    def has_state(self):
        suite.has(self.state, written_over(self.before, self.key.content()))

    def make(self, spec, drawn):
        """Makes a key by these random bytes."""
        suite.step("file", "tape", "-", *([f"add:{drawn.hex()}"] if drawn else []))
        self.key = new_key(spec, drawn)
        suite.run(line_of_make(f"{self.state} public {spec} --random tape"), f"public {self.key.public().hex()}")
        self.has_state()
        suite.has("public", self.key.public())

    def sign(self, name, message, drawn):
        """A request. Message None can't be read."""
        if message is None:
            suite.step("folder", "message")
        else:
            suite.file("message", message)
        suite.step("file", "tape", "-", *([f"add:{drawn.hex()}"] if drawn else []))
        out = f"out-{name.decode()}"
        words = f"sign {self.state} {name.decode()} message {out} --random tape"
        try:
            signature = self.key.sign(name, message, Tape(drawn))
        except Refused as refused:
            suite.refused(words, line_of(refused))
        else:
            suite.run(words, f"signed {name.decode()} {len(signature)} bytes")
            suite.has(out, signature)
            suite.step("file", "public", "-", f"add:{self.key.public().hex()}")
            suite.run(f"verify public message {out}", "verified")
        self.has_state()

    def retire(self, upto):
        try:
            self.key.retire(upto)
        except Refused as refused:
            suite.refused(f"retire {self.state} {upto}", line_of(refused))
        else:
            suite.run(f"retire {self.state} {upto}", f"retired upto {upto}")
        self.has_state()

    def audit(self):
        suite.run(f"audit {self.state}", *self.key.report())

    def has_size(self, size, left):
        """Checks the model itself, by the known size of its file and its free leaves."""
        if (len(self.key.content()), self.key.left()) != (size, left):
            raise ValueError(f"{len(self.key.content())} bytes, {self.key.left()} left")


def session(name, key, given, drawn=b"", output=None, random="--random tape"):
    """A case of one run of `serve` over the model's records: its output, its end, and the records afterwards."""
    story = Story(name, key)
    frames(key, given, drawn, output, random)
    return story


def frames(key, given, drawn, output=None, random="--random tape"):
    answered(key, given, drawn, output, random)
    suite.has("state", key.content())


def answered(key, given, drawn, output=None, random="--random tape"):
    """A run of `serve`, without a look at its state file."""
    for number, part in enumerate((given, drawn)):
        if len(part) > 1000:
            suite.keep(f"frames-{hashlib.sha256(part).hexdigest()[:8]}", part)
            suite.file(("input", "tape")[number], part)
        else:
            described_file(("input", "tape")[number], part)
    written, number = served(key, Tape(drawn), given)
    line = f"refused {number} {NAMES[number]}" if number else ""
    if output is not None:
        if edited(b"", output.split(" ") if output else []) != written:
            raise ValueError(f"another output than {output}")
    elif len(written) <= 64:
        output = f"add:{written.hex()}" if written else ""
    else:
        output = f"digest:{len(written)}:{hashlib.sha256(written).hexdigest()}"
    suite.step("serve", f"serve state {random}".rstrip(), status_of(line), output, *([line] if line else []))


def fresh(spec="lms:H5/W2"):
    return new_key(spec)
