"""A guest: Debian's kernel under QEMU without acceleration, with a memory file system of the programs that a test
needs. The host asks its agent (agent.c) to run commands and to look at crash images."""
import os, re, shutil, socket, subprocess, time

HERE = os.path.dirname(os.path.realpath(__file__))
KERNEL = os.path.join(HERE, "kernel")
QEMU = "qemu-system-x86_64"
# the seconds that a boot may take, and those of an answer where a boot takes USUAL_BOOT. On a slower machine an answer
# may take longer, up to SLOWEST times
LONGEST_BOOT, LONGEST, USUAL_BOOT, SLOWEST = 900, 300, 20, 4
# on a busy host a guest waits for its processor: that is no broken timer, no lockup and no stall
PATIENT = "no_timer_check nowatchdog rcupdate.rcu_cpu_stall_suppress=1"
MEMORY = 512
BUSYBOX = "busybox"
APPLETS = ("sh", "cat", "dd", "echo", "fsfreeze", "kill", "mkdir", "mkfifo", "ls", "mount", "printf", "rm", "sleep",
           "sync", "true", "umount", "usleep")
ALWAYS = "virtio_pci", "virtio_blk", "virtio_console"


class Failed(Exception):
    """A guest that doesn't start, or doesn't answer."""


def kernel_folder():
    """The folder with a kernel and its modules; None where there is none (the script kernel says how to get one)."""
    found = subprocess.run([KERNEL], stdin=subprocess.DEVNULL, stdout=subprocess.PIPE, text=True, check=False)
    return found.stdout.strip() if found.returncode == 0 else None


def found(program):
    """Where a program is, also of those that only root has on its path."""
    return shutil.which(program, path=f"{os.environ.get('PATH', '')}:/usr/sbin:/sbin")


def read(path):
    with open(path, "rb") as file:
        return file.read()


# ---- the memory file system


def entry(name, mode, data=b""):
    """An entry of an archive of `cpio`, format newc."""
    fields = [0, mode, 0, 0, 1, 0, len(data), 0, 0, 0, 0, len(name) + 1, 0]
    head = b"070701" + b"".join(b"%08X" % field for field in fields) + name.encode() + b"\0"
    return padded(head) + padded(data)


def padded(data):
    return data + bytes(-len(data) % 4)


def archive(files):
    """An archive of these files: content by path, a link's target as text."""
    folders = {os.path.dirname(path)[:at] for path in files for at in range(len(os.path.dirname(path)) + 1)
               if os.path.dirname(path)[at:at + 1] in ("", "/")} - {""}
    folders |= {"proc", "sys", "dev", "tmp", "mnt", "look"}
    parts = [entry(folder, 0o40755) for folder in sorted(folders)]
    for path, content in files.items():
        parts.append(entry(path, 0o120777, content.encode()) if isinstance(content, str)
                     else entry(path, 0o100755, content))
    return b"".join(parts) + entry("TRAILER!!!", 0)


def with_libraries(programs):
    """Programs by their path in the guest, with the shared libraries that `ldd` names."""
    files = {}
    for inside, outside in programs.items():
        files[inside] = read(outside)
        said = subprocess.run(["ldd", outside], stdout=subprocess.PIPE, stderr=subprocess.DEVNULL, text=True,
                              check=False).stdout
        files.update({path.lstrip("/"): read(path) for path in re.findall(r"(/\S+\.so\S*)", said)})
    return files


def modules_of(kernel, wanted):
    """The modules' files, in the order in which they are loaded."""
    with open(os.path.join(kernel, "modules"), encoding="ascii") as file:
        rows = dict(line.split(" ", 1) for line in file)
    names = list(dict.fromkeys(name for module in (*ALWAYS, *wanted) for name in rows[module].split()))
    files = {f"modules/{name}": read(os.path.join(kernel, name)) for name in names}
    return {**files, "modules/order": "\n".join(names).encode()}


# ---- the running guest


def words_of(kernel, image, console, port, disks):
    """QEMU's words, by which it ends with this process, however that ends."""
    words = ["setpriv", "--pdeathsig", "KILL", QEMU, "-accel", "tcg", "-M", "q35", "-cpu", "max", "-m", str(MEMORY),
             "-smp", "1", "-nodefaults", "-nographic", "-no-reboot", "-serial", f"file:{console}",
             "-kernel", os.path.join(kernel, "vmlinuz"), "-initrd", image,
             "-append", f"console=ttyS0 quiet panic=-1 mitigations=off {PATIENT}",
             "-device", "virtio-serial", "-chardev", f"socket,id=port,path={port},server=on,wait=off",
             "-device", "virtserialport,chardev=port"]
    for disk in disks:
        # (else a full disk of the host would stop the guest)
        words += ["-drive", f"file={disk},format=raw,if=virtio,cache=unsafe,werror=report,rerror=report"]
    return words


class Guest:
    """A running guest. `folder` has its agent. `disks` are files for its devices vda, vdb .., or addresses of a server
    of `images`. A guest fails that takes too long for its boot or an answer, or that runs beyond `end_by`, a time of
    `time.monotonic`; `close` kills it."""
    def __init__(self, folder, kernel, modules, programs, files, disks, end_by):
        self.said, self.rest = [os.path.join(folder, name) for name in ("console", "qemu")], b""
        started = time.monotonic()
        self.longest, self.answer_by, self.end_by = LONGEST_BOOT, started + LONGEST_BOOT, end_by
        programs = {"init": os.path.join(folder, "agent"), "bin/busybox": found(BUSYBOX), **programs}
        image, port = os.path.join(folder, "initramfs"), os.path.join(folder, "port")
        with open(image, "wb") as file:
            file.write(archive({**modules_of(kernel, modules), **with_libraries(programs), **files,
                                **{f"bin/{name}": BUSYBOX for name in APPLETS}}))
        with open(self.said[1], "wb") as said:
            self.process = subprocess.Popen(words_of(kernel, image, self.said[0], port, disks),
                                            stdin=subprocess.DEVNULL, stdout=said, stderr=said)
        try:
            self.port = self.connected(port)
            self.run("true")
        except BaseException:
            self.process.kill()
            self.process.wait()
            raise
        self.longest = LONGEST * min(max((time.monotonic() - started) / USUAL_BOOT, 1), SLOWEST)
        self.booted = self.seconds()

    def connected(self, path):
        port = socket.socket(socket.AF_UNIX)
        while self.process.poll() is None and time.monotonic() < min(self.answer_by, self.end_by):
            try:
                port.connect(path)
                return port
            except OSError:
                time.sleep(0.05)
        port.close()
        raise Failed(f"no guest: {self.console()}")

    def console(self):
        """The end of what the guest's kernel printed, and of what QEMU did."""
        return "".join(read(path)[-600:].decode(errors="replace") for path in self.said if os.path.exists(path))

    def more(self):
        try:
            self.port.settimeout(max(min(self.answer_by, self.end_by) - time.monotonic(), 0.001))
            more = self.port.recv(1 << 16)
        except OSError as failed:
            raise Failed(f"the guest doesn't answer: {failed}: {self.console()}") from None
        if not more:
            raise Failed(f"the guest ended: {self.console()}")
        self.rest += more

    def part(self):
        """The next part of an answer: its number and bytes."""
        while b"\n" not in self.rest:
            self.more()
        head, _, self.rest = self.rest.partition(b"\n")
        number, length = map(int, head.split())
        while len(self.rest) < length:
            self.more()
        data, self.rest = self.rest[:length], self.rest[length:]
        return number, data

    def send(self, line):
        """Sends a line, whose whole answer has to come in time."""
        self.answer_by = time.monotonic() + self.longest
        self.port.settimeout(self.longest)
        self.port.sendall(line.encode() + b"\n")

    def run(self, command):
        """What a command of the guest's shell answers: its status, and its output."""
        self.send(f"run {command}")
        return self.part()

    def must(self, command):
        """The output of a command that has to succeed."""
        status, output = self.run(command)
        if status != 0:
            raise Failed(f"{command}: {status}: {output.decode(errors='replace')[-300:]}")
        return output

    def mark(self, text):
        """Sets a mark in the log."""
        self.send(f"mark {text}")
        error, _ = self.part()
        if error != 0:
            raise Failed(f"mark {text}: {os.strerror(error)}")

    def look(self, kind, options, names):
        """Mounts the crash image: the mount's error, and the content of each file, None where there is none."""
        self.send(f"look {kind} {options or '-'} {' '.join(names)}")
        error, _ = self.part()
        if error != 0:
            return error, {}
        parts = {name: self.part() for name in names}
        error, _ = self.part()
        if error != 0:
            raise Failed(f"umount: {os.strerror(error)}")
        return 0, {name: data if number == 0 else None for name, (number, data) in parts.items()}

    def seconds(self):
        """The processor's seconds that QEMU has used so far."""
        with open(f"/proc/{self.process.pid}/stat", encoding="ascii") as file:
            fields = file.read().rpartition(")")[2].split()
        return (int(fields[11]) + int(fields[12])) / os.sysconf("SC_CLK_TCK")

    def close(self):
        """Ends the guest, and kills it where it doesn't end by itself: its disks are dropped anyway."""
        try:
            if self.process.poll() is None:
                self.port.settimeout(5)
                self.port.sendall(b"off\n")
                self.process.wait(20)
        except (OSError, subprocess.TimeoutExpired):
            pass
        finally:
            self.process.kill()
            self.process.wait()
            self.port.close()
