"""The life of two keys, and its recording: the guest makes them, signs, repeats, retires, migrates and serves on a file
system over dm-log-writes. A mark is set before each line, before an answer leaves the program (calls.c), and after the
line."""
import os, sys
from dataclasses import dataclass, field

HERE = os.path.dirname(os.path.realpath(__file__))
sys.path.insert(0, os.path.join(os.path.dirname(HERE), "conformance"))
from model import frame  # noqa: E402

MIB = 1 << 20
# the bytes of a signature
LENGTHS = {"lms:H5/W4": 2348, "hss:H5/W4,H5/W4": 4 + 2 * 2348 + 56}
BEFORE, ANSWERS, AFTER = "begun", "answers", "acked"
# the words before each call of the program that mark answers
MARKED = "LD_PRELOAD=/lib/calls.so ANSWERS=1"
# after so many lines the file system writes all to its place: so journals stay short, and mounts quick
SETTLED = 8


@dataclass(frozen=True)
class FileSystem:
    """A file system: its name here, its type, how it is made on a device, the options of its mount, its size, what
    checks it after a power cut where it isn't mounted, or always, and Debian's package that makes it."""
    name: str
    kind: str
    make: str
    options: str = ""
    mib: int = 64
    check: str = ""
    always: bool = False
    package: str = "e2fsprogs"

    def programs(self):
        """The programs that make it and check it."""
        return {words.split()[0] for words in (self.make, self.check) if words}


JOURNAL, NO_JOURNAL = "-J size=4", "-O ^has_journal"


def ext4(name, block, options="", features=JOURNAL):
    """An ext4 of two groups of blocks, so that it has a copy of its superblock. Without a journal it is always
    checked."""
    return FileSystem(name, "ext4", f"mkfs.ext4 -q -F -b {block} {features}", options, 136, "e2fsck -fy",
                      features == NO_JOURNAL)


FILE_SYSTEMS = {each.name: each for each in (
    ext4("ext4", 4096),
    ext4("ext4, 1 KiB", 1024),
    ext4("ext4, data=journal", 4096, "data=journal"),
    ext4("ext4, data=journal, 1 KiB", 1024, "data=journal"),
    ext4("ext4, data=writeback", 4096, "data=writeback"),
    ext4("ext4, data=writeback, 1 KiB", 1024, "data=writeback"),
    ext4("ext4, no journal", 4096, features=NO_JOURNAL),
    ext4("ext4, no journal, 1 KiB", 1024, features=NO_JOURNAL),
    FileSystem("xfs", "xfs", "mkfs.xfs -q -f -b size=4096", "", 304, package="xfsprogs"),
    FileSystem("xfs, 1 KiB", "xfs", "mkfs.xfs -q -f -b size=1024", "", 304, package="xfsprogs"),
    # (both have blocks of 4 KiB alone)
    FileSystem("btrfs", "btrfs", "mkfs.btrfs -q -f", "", 128, "btrfs rescue super-recover -y", package="btrfs-progs"),
    FileSystem("f2fs", "f2fs", "mkfs.f2fs -q -f", "", 64, package="f2fs-tools"),
)}


@dataclass
class Line:
    """A line of the life: its key, what is done, and a name or a number. After it ran, the key's two files, and the
    signature or the public key."""
    key: str
    word: str
    given: str = ""
    files: dict = field(default_factory=dict)
    answer: bytes = b""

    def answers(self):
        """Whether it has an answer: `serve` begins, and ends, without one."""
        return self.word not in ("serve", "end")


@dataclass
class Key:
    name: str
    spec: str

    def old(self):
        return f"{self.name}-1"

    def new(self):
        return f"{self.name}-2"


KEYS = {"lms": Key("lms", "lms:H5/W4"), "hss": Key("hss", "hss:H5/W4,H5/W4")}


def message(name):
    return f"the message of {name}\n".encode()


def script(names):
    """The lines of the life. The HSS key signs so many names, by two lower trees: where they are too few to fill the
    first one, its leaves are retired up to the last two. Without names there is the other key's begin alone."""
    first = [("make",), ("sign", "a"), ("sign", "b"), ("sign", "a"), ("retire", "4"), ("sign", "c"), ("migrate",),
             ("sign", "d"), ("sign", "b"), ("serve",), ("ask", "e"), ("ask", "a"), ("ask", "f"), ("end",)]
    second = [("make",), ("sign", "n0"), ("sign", "n1"), ("retire", "3" if names > 32 else "30"), ("sign", "n2"),
              ("migrate",), ("sign", "n3"), ("serve",), *(("ask", f"n{number}") for number in range(4, names)),
              ("ask", "n0"), ("end",), ("retire", "8"), ("sign", "last")]
    if not names:
        first, second = first[:7], []
    return [Line("lms", *words) for words in first] + [Line("hss", *words) for words in second]


class Recorder:
    """Lives the life in a guest. `before` stands before each call of the program: what makes it a wrong one."""
    def __init__(self, guest, before=""):
        self.guest, self.program, self.moved = guest, f"{before} hbsign".strip(), set()

    def mark(self, text):
        self.guest.mark(text)

    def begin(self, system):
        """Makes the file system over the log, and mounts it."""
        sectors = system.mib * MIB // 512
        self.guest.must(f"echo '0 {sectors} log-writes /dev/vda /dev/vdb' | dmsetup create log && dmsetup mknodes")
        self.guest.must(f"{system.make} /dev/mapper/log")
        options = f"-o {system.options}" if system.options else ""
        self.guest.must(f"mount -t {system.kind} {options} /dev/mapper/log /mnt && sync && mkdir -p /tmp/job")
        self.mark("begin")

    def write_beside(self, number):
        """Begins to write and sync another file, which goes on during the next line."""
        self.guest.must(f"echo >/tmp/beside-{number}; (dd if=/dev/urandom of=/mnt/other-{number % 5} bs=3000 "
                        f"count={1 + number % 4} conv=fsync; rm /tmp/beside-{number}) >/dev/null 2>&1 &")

    def end(self):
        self.mark("end")
        self.guest.must("while ls /tmp/beside-* >/dev/null 2>&1; do usleep 100000; done")
        self.guest.must("cd / && umount /mnt && dmsetup remove log && rm -rf /tmp/job")

    def state(self, key):
        return key.new() if key.name in self.moved else key.old()

    def words(self, key, line):
        """The command of a line, which prints its answer."""
        state, job = f"/mnt/{self.state(key)}", "/tmp/job"
        if line.word == "make":
            return f"{self.program} make {state} {job}/public {key.spec} --format 1 >&2 && cat {job}/public"
        if line.word == "sign":
            return (f"echo 'the message of {line.given}' >{job}/message && "
                    f"{self.program} sign {state} {line.given} {job}/message {job}/out >&2 && cat {job}/out")
        if line.word == "retire":
            return f"{self.program} retire {state} {line.given}"
        if line.word == "migrate":
            return f"{self.program} migrate /mnt/{key.old()} /mnt/{key.new()}"
        if line.word == "serve":
            # the fifos stay open for one that sleeps, until the line `end`
            return (f"mkfifo {job}/in {job}/out-of; ({self.program} serve {state} <{job}/in >{job}/out-of; "
                    f"echo $? >{job}/status) >/dev/null 2>&1 & sleep 100000 >{job}/in <>{job}/out-of & "
                    f"echo $! >{job}/sleeps")
        if line.word == "ask":
            octal = "".join(f"\\{byte:03o}" for byte in frame(line.given.encode(), message(line.given)))
            return (f"printf '{octal}' >{job}/in && "
                    f"dd bs={5 + LENGTHS[key.spec]} count=1 iflag=fullblock <{job}/out-of 2>/dev/null")
        return (f"kill $(cat {job}/sleeps); while [ ! -s {job}/status ]; do usleep 20000; done; "
                f"s=$(cat {job}/status); rm {job}/*; exit $s")

    def live(self, number, line):
        """Runs a line between its marks, and keeps its answer and what the files are then."""
        key = KEYS[line.key]
        self.mark(f"{BEFORE}-{number}")
        line.answer = self.guest.must(f"({self.words(key, line)}) 2>/tmp/said || {{ s=$?; cat /tmp/said; exit $s; }}")
        self.mark(f"{AFTER}-{number}")
        if line.word == "ask":
            if line.answer[0] != 0:
                raise ValueError(f"{line}: reply {line.answer[:5]}")
            line.answer = line.answer[5:]
        if line.word == "migrate":
            self.moved.add(key.name)
        for name in (key.old(), key.new()):
            status, content = self.guest.run(f"cat /mnt/{name} 2>/dev/null")
            line.files[name] = content if status == 0 else None


def record(guest, system, names, beside, before=MARKED):
    """The lines of a life on a file system, which the guest has recorded on its second disk. Before each line whose
    number `beside` divides, another process begins to write and sync."""
    recorder, lines = Recorder(guest, before), script(names)
    recorder.begin(system)
    for number, line in enumerate(lines):
        if number % beside == 0:
            recorder.write_beside(number)
        recorder.live(number, line)
        if number % SETTLED == 0:
            guest.must("fsfreeze --freeze /mnt && fsfreeze --unfreeze /mnt")
    recorder.end()
    return lines
