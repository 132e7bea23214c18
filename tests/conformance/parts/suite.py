"""The files and tables of the suite, and what all parts need to write them."""
import hashlib, os, shutil

from model import LONGEST_NAME, Signer, Tape

HERE = os.path.dirname(os.path.dirname(os.path.realpath(__file__)))
VECTORS = os.path.join(os.path.dirname(HERE), "vectors")
# 00, 01, 02, .. as random bytes
BYTES = bytes(range(256))
ONE, TWO = b"\x01", b"\x02"


def read(*names):
    with open(os.path.join(VECTORS, *names), "rb") as file:
        return file.read()


class Suite:
    """The files and tables to write, and the version of a part's state files."""
    def __init__(self):
        self.files, self.tables, self.part = {}, {}, None
        # the content of state files that are judged as a whole, by version and name
        self.judged = {}
        self.version = 1

    def begin(self, part):
        self.part = self.tables.setdefault(of_version(part), [])

    def case(self, name):
        self.part.append(("case", name))

    def step(self, *columns):
        self.part.append(tuple(str(column) for column in columns))

    def keep(self, name, data):
        """A file of the suite, which the tables cite by its name."""
        if self.files.setdefault(name, data) != data:
            raise ValueError(f"two files are named {name}")
        return name

    def file(self, name, data):
        """A file of a case. A short one is in the table itself."""
        for known, content in self.files.items():
            if content == data:
                return self.step("file", name, known)
        if len(data) > 700:
            raise ValueError(f"{name} of {len(data)} bytes isn't kept")
        return self.step("file", name, "-", *([f"add:{data.hex()}"] if data else []))

    def has(self, name, data):
        """The length and digest of a case's file."""
        self.step("digest", name, len(data), hashlib.sha256(data).hexdigest())

    def run(self, words, *lines, status=0):
        self.step("run", words, status, *lines)

    def refused(self, words, line):
        self.run(words, line, status=status_of(line))

    def write(self):
        for folder in ("files", "cases"):
            shutil.rmtree(os.path.join(HERE, folder), ignore_errors=True)
            os.mkdir(os.path.join(HERE, folder))
        for name, data in self.files.items():
            with open(os.path.join(HERE, "files", name), "wb") as file:
                file.write(data)
        for part, rows in self.tables.items():
            with open(os.path.join(HERE, "cases", part + ".tsv"), "w", encoding="ascii") as file:
                for row in rows:
                    file.write("\t".join(row) + "\n")


def status_of(line):
    number = int(line.split()[1]) if line.startswith("refused ") else 0
    statuses = {0: 0, 34: 2, 51: 2, 14: 3, 23: 3, 25: 3, 27: 3, 29: 3, 36: 3, 45: 3, 46: 3, 53: 3}
    return statuses.get(number, 1)


NAMES = {21: "Changed", 22: "Exhausted", 23: "RandomFailed", 24: "RandomRepeated", 27: "MessageRead", 28: "Damaged",
         31: "Moved", 32: "RetireRange", 33: "LongName", 35: "FrameCut", 40: "NoKey", 41: "NotKeyFile", 42: "Version",
         43: "Damaged", 44: "Illegal", 50: "KeyThere"}


def line_of(refused):
    slot = "" if refused.slot is None else f" slot {refused.slot}"
    return f"refused {refused.number} {NAMES[refused.number]}{slot}"


def changed(data, at, new):
    return data[:at] + new + data[at + len(new):]


def flipped(data, at):
    return changed(data, at, bytes([data[at] ^ 1]))


suite = Suite()


def of_version(name):
    """The name of a part or file that exists for each version."""
    return name if suite.version == 1 else f"{name}_{suite.version}"


def state_of(source):
    """The name of a kept state file."""
    return of_version(f"{source}.state")


def line_of_make(words):
    """A line of `make` for a file of the version. The newest needs no option."""
    return f"make {words}" + (" --format 1" if suite.version == 1 else "")


def new_key(spec, drawn=BYTES):
    """A key of the version."""
    return Signer(spec, Tape(drawn), suite.version)


def longest():
    """The most bytes of a name in a file of the version."""
    return LONGEST_NAME[suite.version]


def other_version():
    return 3 - suite.version


def at_bound(slot, place):
    """The offset of a Bound's field in a file of the version, by its place in a slot of version 1. Fields after the
    name come after room for the longest one."""
    return 256 * slot + place + (longest() - LONGEST_NAME[1] if place > 66 else 0)


def edited(data, edits):
    """The bytes of a source after edits, as the runner makes them. README.md has all kinds of edits."""
    for edit in edits:
        kind, *words = edit.split(":")
        if kind == "cut":
            data = data[:int(words[0])]
        elif kind == "add":
            data += bytes.fromhex(words[0])
        elif kind == "fill":
            data += bytes.fromhex(words[1]) * int(words[0])
        elif kind == "with":
            data += suite.files[words[0]] if words[0] in suite.files else read(*words[0].split("/")[1:])
        elif kind == "set":
            data = changed(data, int(words[0]), bytes.fromhex(words[1]))
        else:
            raise ValueError(edit)
    return data


def described_file(name, content):
    """A file of a case, by a kept one or without its zeros written out."""
    for known, data in suite.files.items():
        if data == content:
            return suite.step("file", name, known)
    edits, rest = [], content
    while rest:
        zeros = len(rest) - len(rest.lstrip(b"\0"))
        if zeros >= 8:
            edits.append(f"fill:{zeros}:00")
            rest = rest[zeros:]
        else:
            end = rest.find(bytes(8), zeros)
            end = len(rest) if end < 0 else end
            edits.append(f"add:{rest[:end].hex()}")
            rest = rest[end:]
    return suite.step("file", name, "-", *edits)
