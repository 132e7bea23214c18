"""Syncs that fail under a mounted file system: the device fails writes or every call while a name is signed, or a thin
volume has no room. After 25 the file system is mounted anew, as docs/OPERATING.md asks for, and the files are judged.
The wrong way goes on without that."""
from judge import Judge, bodies_of
from life import AFTER, BEFORE, KEYS, MIB, Line, Recorder

KEY = "hss"
LIFE = [("make",), ("sign", "n0"), ("sign", "n1"), ("sign", "n2")]
SWITCH = "dmsetup load disk --table '{}' && dmsetup suspend --noflush --nolockfs disk && dmsetup resume disk"
# the whole disk, by how it fails
HEALTHY = "0 {} linear /dev/vda 0"
TABLES = {"writes fail": "0 {} flakey /dev/vda 0 0 1000 1 error_writes", "every call fails": "0 {} error"}
# the sectors of a chunk of thin volumes
CHUNK = 128


class OneFailure(Recorder):
    """A key on a device of the guest that fails at a sync, without a log."""
    def __init__(self, guest, system):
        super().__init__(guest)
        self.system, self.marks = system, []
        self.lines = [Line(KEY, *words) for words in LIFE]
        self.sectors = system.mib * MIB // 512

    def mark(self, text):
        self.marks.append(text)

    def mount(self):
        options = f"-o {self.system.options}" if self.system.options else ""
        self.guest.must(f"mount -t {self.system.kind} {options} /dev/mapper/{self.device()} /mnt && mkdir -p /tmp/job")

    def device(self):
        return "disk"

    def begin(self):
        self.guest.must(f"echo '{HEALTHY.format(self.sectors)}' | dmsetup create disk && dmsetup mknodes")
        self.guest.must(f"{self.system.make} /dev/mapper/{self.device()}")
        self.mount()
        for number, line in enumerate(self.lines):
            self.live(number, line)
        self.guest.must("sync")

    def heal(self):
        self.guest.must(SWITCH.format(HEALTHY.format(self.sectors)))

    def end(self):
        self.guest.run("cd /; umount /mnt")
        self.guest.run("dmsetup remove --force disk")

    def prepare(self, sync, failure):
        """What stands before the program's words, so that the device fails from this sync on."""
        self.guest.must(f"echo \"{SWITCH.format(TABLES[failure].format(self.sectors))}\" >/tmp/fail")
        return f"LD_PRELOAD=/lib/calls.so AT_SYNC={sync} BEFORE='sh /tmp/fail' "

    def fail_at(self, sync, failure):
        """Signs a name while the device fails from this sync on, and heals the device: what the program printed. Where
        it answers all the same, it is acknowledged."""
        self.lines.append(Line(KEY, "sign", "n3"))
        self.mark(f"{BEFORE}-{len(self.lines) - 1}")
        right = self.program
        self.program = self.prepare(sync, failure) + right
        status, answer = self.guest.run(f"({self.words(KEYS[KEY], self.lines[-1])}) 2>/tmp/said")
        self.program = right
        self.heal()
        self.acknowledge(status, answer)
        return self.guest.must("cat /tmp/said")[:200].decode(errors="replace")

    def sign_again(self):
        """The same request again, which is acknowledged where it answers."""
        status, answer = self.guest.run(f"({self.words(KEYS[KEY], self.lines[-1])}) 2>/dev/null")
        self.acknowledge(status, answer)
        return status

    def acknowledge(self, status, answer):
        """Notes the answer of the last line, if it has one."""
        if status == 0:
            if self.lines[-1].answer not in (b"", answer):
                raise ValueError("the same request gets other bytes")
            self.lines[-1].answer, self.lines[-1].files = answer, self.files()
            self.mark(f"{AFTER}-{len(self.lines) - 1}")

    def files(self):
        """The key's files as they are shown."""
        found = {name: self.guest.run(f"cat /mnt/{name} 2>/dev/null") for name in (KEYS[KEY].old(), KEYS[KEY].new())}
        return {name: content if status == 0 else None for name, (status, content) in found.items()}

    def mount_anew(self):
        """Unmounts and mounts: what is shown then is what the medium has."""
        self.guest.must("umount /mnt")
        self.mount()

    def wrongs(self, program):
        """What is wrong with the files as they are shown, in words."""
        files, last, before = self.files(), self.lines[-1], self.lines[-2].files
        if not last.files:
            # one record of the line that failed may be there, and nobody has seen it
            more = len(bodies_of(files[KEYS[KEY].old()])) - len(bodies_of(before[KEYS[KEY].old()]))
            last.files = files if more <= 1 else before
        return Judge(program, self.lines).wrongs(self.marks, files)


class NoRoom(OneFailure):
    """A key on a thin volume. Another volume takes the rest of the pool, and then a snapshot shares each chunk: a write
    over any of them, such as one of the journal, finds no room."""
    def device(self):
        return "thin"

    def begin(self):
        self.guest.must(f"echo '0 {self.sectors} thin-pool /dev/vdb /dev/vda {CHUNK} 0 1 error_if_no_space' | "
                        "dmsetup create disk && dmsetup mknodes && dmsetup message disk 0 'create_thin 0' && "
                        "dmsetup message disk 0 'create_thin 1' && "
                        f"echo '0 {self.sectors} thin /dev/mapper/disk 0' | dmsetup create thin && "
                        f"echo '0 {4 * self.sectors} thin /dev/mapper/disk 1' | dmsetup create rest && dmsetup mknodes")
        self.guest.must(f"{self.system.make} /dev/mapper/thin")
        self.mount()
        for number, line in enumerate(self.lines):
            self.live(number, line)
        self.guest.must("sync")

    def prepare(self, sync, failure):
        self.guest.run("dd if=/dev/zero of=/dev/mapper/rest bs=1M conv=fsync")
        # (a freeze would be ended by writes of the file system, which then find no room before the program's)
        self.guest.must("dmsetup suspend --nolockfs thin && dmsetup message disk 0 'create_snap 2 0' && "
                        "dmsetup resume thin")
        return ""

    def heal(self):
        """Room comes back."""
        self.guest.must("dmsetup remove rest && dmsetup message disk 0 'delete 1' && dmsetup message disk 0 'delete 2'")

    def end(self):
        self.guest.run("cd /; umount /mnt")
        self.guest.run("dmsetup remove --force rest; dmsetup remove --force thin; dmsetup remove --force disk")
