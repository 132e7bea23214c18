"""The log of dm-log-writes, and the crash images that it gives: what a device may hold after a power cut at any place
of the log. The log has a flush behind all writes that it covers, and a mark where the guest set one (Linux,
Documentation/admin-guide/device-mapper/log-writes.rst)."""
import random, struct
from dataclasses import dataclass, field, replace

SECTOR = 512
MAGIC = 0x6A736677736872
FLUSH, FUA, DISCARD, MARK = 1, 2, 4, 8


@dataclass
class Entry:
    """An entry of the log: a mark, a discard of sectors, or a write, which may be a flush without data."""
    sector: int
    flags: int
    data: bytes = b""
    mark: str = ""
    discarded: int = 0
    number: int = 0


@dataclass
class Cut:
    """A crash image: the flushed bytes of the device, and sectors over them. `place` is the entry before the cut, and
    `marks` are those up to there. Images of the same bytes have the same key, and `content` is that of the flushed
    bytes."""
    place: int
    how: str
    base: bytearray
    over: dict
    marks: list
    content: int
    key: int = 0

    def __post_init__(self):
        changes = {number: changed(self.base, number, data) for number, data in self.over.items()}
        self.over = {number: data for number, data in self.over.items() if changes[number]}
        self.key = self.content
        for change in changes.values():
            self.key ^= change


def changed(base, number, data):
    """By what the key of an image changes where a sector gets these bytes: nothing where it has them."""
    before = bytes(base[number * SECTOR:(number + 1) * SECTOR])
    return 0 if before == data else hash((number, before)) ^ hash((number, data))


def entries(path):
    """The entries of a log."""
    with open(path, "rb") as file:
        magic, _, count, size = struct.unpack("<QQQI", file.read(28))
        if magic != MAGIC or size < SECTOR:
            raise ValueError(f"{path} is no log")
        file.seek(size)
        for number in range(count):
            head = file.read(size)
            sector, sectors, flags, length = struct.unpack("<QQQQ", head[:32])
            if flags & MARK:
                yield Entry(sector, flags, mark=head[32:32 + length].split(b"\0")[0].decode(), number=number)
            elif flags & DISCARD:
                yield Entry(sector, flags, discarded=sectors, number=number)
            else:
                yield Entry(sector, flags, file.read(sectors * SECTOR), number=number)


def sectors_of(sector, data):
    return {sector + at // SECTOR: data[at:at + SECTOR] for at in range(0, len(data), SECTOR)}


class Device:
    """The device as the log's entries pass: the flushed bytes with their key, and the writes since."""
    def __init__(self, size):
        self.base, self.pending, self.marks, self.place, self.content = bytearray(size), [], [], -1, 0

    def flush(self):
        for entry in self.pending:
            self.put(entry)
        self.pending = []

    def put(self, entry):
        """Writes to the flushed bytes."""
        for number, data in sectors_of(entry.sector, entry.data).items():
            self.content ^= changed(self.base, number, data)
        self.base[entry.sector * SECTOR:entry.sector * SECTOR + len(entry.data)] = entry.data

    def take(self, entry):
        self.place += 1
        if entry.flags & MARK:
            self.marks.append(entry.mark)
        if entry.flags & FLUSH:
            self.flush()
        if entry.data:
            self.pending.append(entry)

    def cut(self, how, keeps, done=None):
        """The crash image with these of the pending writes: `keeps` says of an entry how much of it stays, as a range
        of sectors. The first `done` writes had ended before the cut: of these one with FUA is on the medium."""
        over, done = {}, len(self.pending) if done is None else done
        for number, entry in enumerate(self.pending):
            count = len(entry.data) // SECTOR
            first, last = (0, count) if entry.flags & FUA and number < done else keeps(number, count)
            over.update(sectors_of(entry.sector + first, entry.data[first * SECTOR:last * SECTOR]))
        return Cut(self.place, how, self.base, over, list(self.marks), self.content)

    def halves(self, ended, most, dice):
        """Pending writes are cut at a sector: the newest one, and others at random, `most` in all. Each has two images:
        its first part is there, or only the rest; the other writes are all there. The first `ended` writes had ended
        before the cut."""
        long = [number for number, entry in enumerate(self.pending) if len(entry.data) > SECTOR and
                not entry.flags & DISCARD and (number >= ended or not entry.flags & FUA)]
        chosen = dice.sample(long[:-1], min(most - 1, len(long) - 1)) + long[-1:] if most and long else []
        for number in chosen:
            entry = self.pending[number]
            place = 1 + entry.number % (len(entry.data) // SECTOR - 1)
            yield self.cut("halved", lambda each, count: (0, place if each == number else count), ended)
            yield self.cut("its rest", lambda each, count: (place if each == number else 0, count), ended)

    def some(self, dice):
        """A random subset of the writes, some of them cut at a sector."""
        def keeps(_, count):
            chosen = dice.random()
            if chosen < 0.4:
                return 0, 0
            return (0, count) if chosen < 0.9 else (0, dice.randrange(count + 1))
        return self.cut("some", keeps)


def whole(_, count):
    return 0, count


def none(_, count):
    return 0, 0


def life_of(log):
    """The places of the marks between which the keys live."""
    marks = {entry.mark: at for at, entry in enumerate(log) if entry.mark}
    if not {"begin", "end"} <= set(marks):
        raise ValueError(f"the log of {len(log)} entries has no begin or no end")
    return marks["begin"], marks["end"]


def with_zeros(log):
    """The log of a device that fills what is discarded with zeros; nothing where no discard is in the keys' life. On
    the log itself discards change nothing."""
    begin, end = life_of(log)
    if not any(entry.discarded for entry in log[begin:end]):
        return None
    return [replace(entry, data=bytes(entry.discarded * SECTOR)) if entry.discarded else entry for entry in log]


def unflushed(log):
    """The most writes that are unflushed at a place of the keys' life."""
    begin, end = life_of(log)
    count = most = 0
    for at, entry in enumerate(log[:end]):
        count = (0 if entry.flags & FLUSH else count) + bool(entry.data)
        most = max(most, count if at >= begin else 0)
    return most


def cuts(log, size, load, seed, first=0):
    """The crash images at each place of the log between the marks `begin` and `end`, from place `first` on: all writes
    up to there; those that were flushed; both halves of `load.halved` pending writes; and random subsets,
    `load.at_each` of them where writes are pending, and `load.subsets` in all or a few more. Which of these are made at
    a place depends on the log and the seed, and not on `first`."""
    begin, end = life_of(log)
    device, places = Device(size), sum(1 for entry in log[begin:end] if entry.data)
    for at, entry in enumerate(log[:end]):
        device.take(entry)
        if at < max(begin, first):
            continue
        dice = random.Random(f"{seed} {at}")
        yield device.cut("all", whole)
        if device.pending:
            yield device.cut("flushed", none)
        yield from device.halves(len(device.pending) - bool(entry.data), load.halved, dice)
        count, part = divmod(load.subsets if entry.data else 0, places)
        count += (load.at_each if device.pending else 0) + (dice.randrange(places) < part)
        for _ in range(count):
            yield device.some(dice)
