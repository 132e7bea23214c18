"""Recordings, and how far each was replayed. One that is kept in a folder is replayed in pieces: each run goes on where
the last one ended."""
import hashlib, json, os, re, subprocess, time
from dataclasses import asdict, dataclass, field

from life import Line
from writes import entries

# the seconds after which a replay writes how far it is
SAVED = 10


@dataclass
class Tally:
    """What a replay has found: the cuts that were judged, the images that were mounted, those of them that were after
    a check alone, and the pairs of files that were judged. `log` and `place` are those of the next cut."""
    cuts: int = 0
    images: int = 0
    checked: int = 0
    files: int = 0
    seconds: float = 0
    wrong: list = field(default_factory=list)
    kinds: dict = field(default_factory=dict)
    log: int = 0
    place: int = 0
    ended: bool = False

    def add(self, wrongs, kind, cut):
        """Counts a cut, and the first of what is wrong with it. `cut` says which it is, and `kind` how it was made."""
        self.cuts += 1
        for wrong in wrongs[:1]:
            self.wrong.append(f"{cut}: {wrong}")
            which = f"{kind}: {re.sub('[0-9]+', 'N', wrong)}"
            self.kinds[which] = self.kinds.get(which, 0) + 1


class Recording:
    """The lines of a life, the entries of its log, and what its replay has found so far."""
    def __init__(self, lines, log, folder=None):
        self.lines, self.log, self.folder, self.tally, self.saved = lines, log, folder, Tally(), 0.0

    def save(self, at_once=True):
        """Writes what the replay has found, where the recording is kept. Not so soon again, if not at once."""
        if self.folder and (at_once or time.monotonic() - self.saved > SAVED):
            write(os.path.join(self.folder, "tally"), asdict(self.tally))
            self.saved = time.monotonic()


def write(path, value):
    """Writes a file in one step."""
    with open(f"{path}.new", "w", encoding="utf-8") as file:
        json.dump(value, file)
    os.replace(f"{path}.new", path)


def read(path):
    with open(path, encoding="utf-8") as file:
        return json.load(file)


def made_by(program, *what):
    """By what a recording was made: the program's checksum, and whatever else decides what is in it."""
    with open(program, "rb") as file:
        return [hashlib.sha256(file.read()).hexdigest(), *map(str, what)]


def text_of(line):
    files = {name: None if data is None else data.hex() for name, data in line.files.items()}
    return {**asdict(line), "files": files, "answer": line.answer.hex()}


def line_of(text):
    files = {name: None if data is None else bytes.fromhex(data) for name, data in text["files"].items()}
    return Line(**{**text, "files": files, "answer": bytes.fromhex(text["answer"])})


def keep(folder, made, lines, log):
    """Keeps a recording in a new folder. `log` is the log's path. Its end, which has no bytes, takes no room."""
    os.makedirs(folder, exist_ok=True)
    subprocess.run(["cp", "--sparse=always", log, os.path.join(folder, "log")], check=True)
    write(os.path.join(folder, "lines"), list(map(text_of, lines)))
    write(os.path.join(folder, "tally"), asdict(Tally()))
    write(os.path.join(folder, "made"), made)


def kept(folder, made):
    """The recording that is kept in a folder, or None. One of another program isn't taken."""
    if not os.path.exists(os.path.join(folder, "made")):
        return None
    if read(os.path.join(folder, "made")) != made:
        raise ValueError(f"{folder} has a recording of another program, load or file system: take another folder")
    lines = list(map(line_of, read(os.path.join(folder, "lines"))))
    recording = Recording(lines, list(entries(os.path.join(folder, "log"))), folder)
    recording.tally = Tally(**read(os.path.join(folder, "tally")))
    return recording
