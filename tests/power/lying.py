"""Devices that lie: they ignore flushes, or a power cut spoils the whole sector of 4 KiB in which a record was being
written. The law doesn't hold over these, so nothing is judged: it is counted what a user sees."""
import collections, os, random, subprocess, tempfile

from judge import LONGEST, bodies_of
from life import AFTER, KEYS
from model import Refused, last_tag
from writes import FUA, SECTOR, Device, Entry, life_of, sectors_of

# the most writes that a device loses which ignores flushes
LOSES = 64
PAGE = 4096


class Forgetful(Device):
    """A device that ignores flushes: any of its last writes may be missing after a power cut."""
    def flush(self):
        """Nothing is flushed."""

    def take(self, entry):
        super().take(Entry(entry.sector, entry.flags & ~FUA, entry.data, entry.mark))
        while len(self.pending) > LOSES:
            self.put(self.pending.pop(0))


def without_flushes(log, size, samples, seed):
    """Crash images of a device that ignores flushes: all of its last writes are missing, or some."""
    device, dice = Forgetful(size), random.Random(seed)
    begin, end = life_of(log)
    chosen = set(dice.sample(range(begin, end), min(samples, end - begin)))
    for at, entry in enumerate(log[:end]):
        device.take(entry)
        if at in chosen:
            lost = dice.randrange(1, LOSES + 1)
            yield device.cut("the last writes are lost", lambda number, count, lost=lost:
                             (0, count if number < len(device.pending) - lost else 0))
            yield device.some(dice)


def slots_of(lines):
    """The bytes behind the gate of each slot that a state file ever had."""
    return {content[at + 1:at + 256] for line in lines for content in line.files.values() if content
            for at in range(0, len(content) - 255, 256)}


def spoils(dice):
    """Ways in which a page is spoiled: a function of its old and its new bytes for each."""
    at = dice.randrange(1, PAGE)
    yield "zeroed", lambda old, new: bytes(PAGE)
    yield "torn, and zeros behind", lambda old, new: new[:at] + bytes(PAGE - at)
    yield "torn, and old bytes behind", lambda old, new: new[:at] + old[at:]


def pages_of(entry, slots):
    """The pages of 4 KiB of a write that have a slot."""
    return sorted({(entry.sector * SECTOR + at) // PAGE * PAGE for at in range(0, len(entry.data), SECTOR)
                   if entry.data[at + 1:at + 256] in slots})


def with_spoiled_pages(log, size, lines, samples, seed):
    """Crash images of a device whose sector of 4 KiB is spoiled while a record is written to it."""
    device, dice, slots = Device(size), random.Random(seed), slots_of(lines)
    begin, end = life_of(log)
    places = [at for at in range(begin, end) if pages_of(log[at], slots)]
    chosen = set(dice.sample(places, min(samples, len(places))))
    for at, entry in enumerate(log[:end]):
        device.take(entry)
        for page in pages_of(entry, slots) if at in chosen else ():
            for how, spoil in spoils(dice):
                yield spoiled(device, page, how, spoil)


def spoiled(device, page, how, spoil):
    """The image in which all writes are there, and this page is spoiled."""
    cut = device.cut(how, lambda number, count: (0, count))
    before = bytes(device.base[page:page + PAGE])
    numbers = range(page // SECTOR, (page + PAGE) // SECTOR)
    now = b"".join(cut.over.get(number, before[number * SECTOR - page:(number + 1) * SECTOR - page])
                   for number in numbers)
    cut.over.update(sectors_of(page // SECTOR, spoil(before, now)))
    return cut


class Seen:
    """What a user sees of the files of an image, counted."""
    def __init__(self, program, lines):
        self.program, self.lines, self.counts, self.known = program, lines, collections.Counter(), {}

    def count(self, how, marks, error, files):
        if error:
            self.counts[how, "the file system isn't mounted"] += 1
            return
        done = {int(mark.partition("-")[2]) for mark in marks if mark.startswith(AFTER)}
        for key in KEYS.values():
            acked = max((number for number in done if self.lines[number].key == key.name), default=None)
            if acked is not None:
                case = key.name, acked, files.get(key.old()), files.get(key.new())
                if case not in self.known:
                    self.known[case] = self.sees(key, acked, files)
                self.counts[how, self.known[case]] += 1

    def sees(self, key, acked, files):
        """What a user of a key sees after a power cut, in words."""
        after = self.lines[acked].files
        name = key.new() if after.get(key.new()) else key.old()
        wanted, content = bodies_of(after[name]), files.get(name)
        if content is None:
            return "the state file is gone (53)"
        try:
            lost = bodies_of(content)[:len(wanted)] != wanted
        except Refused as refused:
            return f"refused {refused.number}"
        if not lost:
            return "nothing is lost"
        with tempfile.TemporaryDirectory() as folder:
            path = os.path.join(folder, "state")
            with open(path, "wb") as file:
                file.write(content)
            words = [self.program, "audit", path, "--count", str(len(wanted)), "--tag", last_tag(wanted).hex()]
            run = subprocess.run(words, capture_output=True, timeout=LONGEST, check=False)
        number = int(run.stdout.split()[1]) if run.stdout.startswith(b"refused ") else 0
        warned = ", with a warning" if b"bytes stand behind" in run.stderr else ", without a warning"
        return f"records are lost: refused {number} by the anchor{warned}"
