"""What the parts share: a key's folder in which the program runs, and the texts of failures."""
import errno, os, resource, select, shutil, signal, stat, subprocess, sys, tempfile, time

from model import Signer, Tape, filled, frame, records_of, sealed

# whether this process has its own namespace, in which it may mount file systems
ALONE = "--alone" in sys.argv
# the seconds that a run may take
LONGEST = 60
# what a line of standard error says, with the system's text of an error in place of {}
WHAT = {
    "open": "can't be opened: {}",
    "not regular": "can't be opened: it isn't a regular file",
    "state is output": "can't be opened: it is the standard output",
    "state is errors": "can't be opened: it is the standard error",
    "lock": "can't be locked: it is locked already, by another process or by this one",
    "read": "can't be read: {}",
    "end": "can't be read: it ended before the bytes that are wanted",
    "write": "can't be written: {}",
    "sync": "can't be synced: {}",
    "length": "its length can't be read: {}",
    "mode": "its mode can't be set: {}",
    "cut": "can't be cut: {}",
    "key": "isn't written: it holds a key",
    "of the line": "isn't written: it is a file of this line",
    "output": "isn't written: it is the standard output",
    "errors": "isn't written: it is the standard error",
    "locked": "isn't written: another process has locked it",
    "random key": "isn't read as random bytes: it holds a key",
}
INPUT = "standard input"


def note(path, what, error=None):
    """The line of standard error for a failed call."""
    return f"hbsign: {path or chr(39) * 2}: {WHAT[what].format(os.strerror(error) if error else '')}\n"


def skip(what):
    print(what, flush=True)


def read(path):
    with open(path, "rb") as file:
        return file.read()


def write(path, data, mode=None):
    with open(path, "wb") as file:
        file.write(data)
    if mode is not None:
        os.chmod(path, mode)


# what `migrate old new` says where the records of `old` were moved before
MOVED_BEFORE = "hbsign: old: was moved before; if that wasn't to new, two files can sign now: delete new\n"
SPEC = "lms:H5/W2"
MESSAGE, OTHER = b"\1", b"\2"
TAPE = bytes(range(100, 164))


def copy_of(key):
    return Signer.of(records_of(key.content()))


def after(key, *names, message=MESSAGE):
    """The key after these names were signed, each with the bytes of TAPE."""
    key = copy_of(key)
    for name in names:
        key.sign(name, message, Tape(TAPE))
    return key


MADE = Signer(SPEC, Tape(TAPE))
# the same key, and one that has signed nothing, in files of version 1
MADE_IN_ONE = Signer(SPEC, Tape(TAPE), 1)
IN_ONE = Signer(SPEC, Tape(bytes(range(48))), 1)
KEY = after(Signer(SPEC, Tape(bytes(range(48)))), b"fw-1")
# a key of version 1 that has signed a name, and both files after its migration
OLD = after(IN_ONE, b"fw-1").content()
MIGRATED = {"old": sealed(OLD), "new": filled(OLD, b"")}
SECOND = after(KEY, b"fw-2")
ONE_SIGNED, TWO_SIGNED = (SECOND.signature(name) for name in (b"fw-1", b"fw-2"))
SIZE = len(ONE_SIGNED)
RETIRED = copy_of(KEY)
RETIRED.retire(5)
THIRD = Signer(SPEC, Tape(bytes(range(60, 108)))).content()
SIGNED = f"signed fw-2 {SIZE} bytes\n"
PUBLISHED = f"public {MADE.public().hex()}\n"
LISTED = "\n".join(KEY.listing()) + "\n"
FAILED = "refused 53 FileFailed\n"


class Machine:
    """The folder that has all places, the program's copy in it, the words that run it as another user, and whether
    strace may trace."""
    top = hbsign = as_user = strace = None


class Place:
    """A folder of its own, in which the program runs: a key `state` that signed `m` as `fw-1` with the signature `s`,
    its `public` key, a key `old` of version 1, random bytes `tape`, and a request for the name fw-2 as `input`."""
    def __init__(self, **files):
        # the place is a folder in `outside`, where files of streams are
        self.outside = tempfile.mkdtemp(dir=Machine.top)
        os.chmod(self.outside, 0o755)
        self.folder = os.path.join(self.outside, "place")
        os.mkdir(self.folder)
        for name, data in {"state": KEY.content(), "public": KEY.public(), "old": OLD, "m": MESSAGE, "m2": OTHER,
                           "s": ONE_SIGNED, "tape": TAPE, "input": frame(b"fw-2", MESSAGE), **files}.items():
            if data is not None:
                write(self.path(name), data)
        self.before = self.files()

    def path(self, name):
        return os.path.join(self.folder, name)

    def files(self):
        """The content of each file in the folder, and for anything else what it is."""
        found = {}
        for name in sorted(os.listdir(self.folder)):
            kind = stat.S_IFMT(os.lstat(self.path(name)).st_mode)
            found[name] = read(self.path(name)) if kind == stat.S_IFREG else kind
        return found

    def changes(self, **wanted):
        """Which files aren't as before, or as `wanted`, in words."""
        wanted, came = {**self.before, **wanted}, self.files()
        return [f"{name} of {len(came[name]) if isinstance(came.get(name), bytes) else came.get(name)}"
                for name in sorted({*wanted, *came}) if wanted.get(name) != came.get(name)]

    def keep(self):
        """From now on the files have to stay as they are."""
        self.before = self.files()
        return self

    def give_all(self):
        """Gives all files to the other user."""
        if IS_ROOT:
            for path in (self.folder, *(self.path(name) for name in os.listdir(self.folder))):
                os.chown(path, USER, USER, follow_symlinks=False)
        return self

    def outcome(self, *words, at="", given=b"", before=(), by_user=False, umask=0o022, limit=None):
        """What a line prints, its standard error, and its exit status. `at` has redirections of the shell, `before` the
        words before the program's, and `limit` the most bytes of a file."""
        command = [Machine.hbsign, *words]
        if at:
            command = ["sh", "-c", f'exec "$@" {at}', "sh", *command]
        command = [*(Machine.as_user if by_user else ()), *before, *command]

        def begin():
            os.umask(umask)
            limited(limit)
        run = subprocess.run(command, cwd=self.folder, input=given, capture_output=True, timeout=LONGEST,
                             preexec_fn=begin)
        return run.stdout.decode(errors="replace"), run.stderr.decode(errors="replace"), run.returncode

    def line(self, line, **how):
        return self.outcome(*line.split(" "), **how)

    def serve(self, *words, limit=None):
        return Service(self, *words, limit=limit)


def limited(limit):
    """Limits the files that this process writes: a write past the limit writes what fits, and fails."""
    if limit is not None:
        signal.signal(signal.SIGXFSZ, signal.SIG_IGN)
        resource.setrlimit(resource.RLIMIT_FSIZE, (limit, limit))


def taken(pipe, size, seconds):
    """This many bytes of a pipe, or fewer if no more come in time."""
    data, end = b"", time.monotonic() + seconds
    while len(data) < size and select.select([pipe], [], [], max(0, end - time.monotonic()))[0]:
        more = os.read(pipe.fileno(), size - len(data))
        if not more:
            break
        data += more
    return data


class Service:
    """A running `serve` that gets frames."""
    def __init__(self, place, *words, limit=None):
        self.process = subprocess.Popen([Machine.hbsign, "serve", *words], cwd=place.folder, stdin=subprocess.PIPE,
                                        bufsize=0, stdout=subprocess.PIPE, stderr=subprocess.PIPE,
                                        preexec_fn=lambda: limited(limit))

    def ask(self, name, message):
        self.process.stdin.write(frame(name, message))
        head = taken(self.process.stdout, 5, LONGEST)
        return head + taken(self.process.stdout, int.from_bytes(head[1:], "big"), LONGEST)

    def said(self, text):
        """What comes on standard error within a second, at most as long as `text`; and the status, None while it
        runs."""
        came = taken(self.process.stderr, len(text.encode()), 1).decode(errors="replace")
        return came, self.process.poll()

    def end(self):
        out, err = self.process.communicate(timeout=LONGEST)
        return out, err.decode(errors="replace"), self.process.returncode


def tracing(place, calls):
    """The words before a line by which strace notes these calls."""
    return "strace", "-qq", "-o", "../calls", "-e", "trace=" + ",".join(f"?{call}" for call in calls.split())


def failing(place, call, error, when, path):
    """The words by which strace makes a call fail, by its number among the calls on a path."""
    name = errno.errorcode[error]
    # the real path: for another one strace would say on standard error where it leads
    return ("strace", "-qq", "-o", "../calls", "-P", os.path.realpath(place.path(path)), "-e", f"trace={call}",
            "-e", f"inject={call}:error={name}:when={when}")


def is_injected(place):
    return "INJECTED" in read(place.path("../calls")).decode(errors="replace")


def mode_of(path):
    return stat.S_IMODE(os.stat(path).st_mode)


def as_user():
    """The words that run a program as a user without root's rights: none if this user is one, and None if no such user
    can run it."""
    if not IS_ROOT:
        return []
    words = ["setpriv", f"--reuid={USER}", f"--regid={USER}", "--clear-groups", "--"] if shutil.which("setpriv") else \
        ["su", "-s", "/bin/sh", "nobody", "-c", 'exec "$0" "$@"', "--"]
    try:
        run = subprocess.run([*words, Machine.hbsign, "--help"], capture_output=True, cwd=Machine.top)
    except OSError:
        return None
    return words if run.returncode == 0 else None


IS_ROOT = os.getuid() == 0
USER = 65534 if IS_ROOT else os.getuid()
