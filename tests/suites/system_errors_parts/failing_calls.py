"""Reads, writes, openings and syncs that fail, and file systems without room."""
import errno, os, re, subprocess

from counts import check
from model import bound_body, extend_body, frame, records_of, reply, sealed, state_file
from system_errors_parts.place import (ALONE, FAILED, INPUT, KEY, LONGEST, MADE, MESSAGE, MIGRATED, MOVED_BEFORE, OLD,
                                       ONE_SIGNED, OTHER, PUBLISHED, RETIRED, SECOND, SIGNED, SPEC, TAPE, TWO_SIGNED,
                                       Machine, Place, failing, is_injected, note, read, skip, write)

READ_27 = "refused 27 MessageRead\n"


def failing_reads():
    """Any error of a read is a failure, also an interruption."""
    if not Machine.strace:
        return
    long = bytes(200000)
    for error in (errno.EINTR, errno.EIO):
        for line, path, refused in (
                ("sign state fw-2 m out --random tape", "m", READ_27),
                ("sign state fw-1 m out", "m", READ_27),
                ("sign state fw-2 m out --random tape", "tape", "refused 23 RandomFailed\n"),
                (f"make new published {SPEC} --random tape", "tape", "refused 23 RandomFailed\n"),
                ("verify public m s", "m", "refused 14 MessageRead\n"), ("verify public m s", "public", FAILED),
                ("verify public m s", "s", FAILED), ("audit-given public m s", "public", FAILED),
                ("audit-given public m s", "m", FAILED), ("audit-given public m s", "s", FAILED)):
            place = Place()
            files = {"new": b"\0"} if line.startswith("make") else {}
            check(f"{line}: the first read of {path} gives {errno.errorcode[error]}",
                  (refused, note(path, "read", error), 3, []),
                  (*place.line(line, before=failing(place, "read", error, 1, path)), place.changes(**files)))
        for line, refused in (("sign state fw-2 m out --random tape", READ_27), ("verify public m s",
                                                                                  "refused 14 MessageRead\n")):
            place = Place(m=long)
            check(f"{line}: the second read of a long message gives {errno.errorcode[error]}",
                  (refused, note("m", "read", error), 3, []),
                  (*place.line(line, before=failing(place, "read", error, 2, "m")), place.changes()))
        for number in (1, 2):
            place = Place(input=frame(b"fw-2", bytes(9000)))
            out, err, status = place.line("serve state --random tape", at="<input",
                                          before=failing(place, "read", error, number, "input"))
            check(f"serve: read {number} of its input gives {errno.errorcode[error]}",
                  (reply(27).decode(), note(INPUT, "read", error) + READ_27, 3, []),
                  (out, err, status, place.changes()))
        for line in ("sign state fw-2 m out --random tape", "retire state 5", "audit state", "list state",
                     "public state out"):
            place = Place()
            check(f"{line}: the first read of STATE gives {errno.errorcode[error]}",
                  ("refused 45 DeviceFailed\n", note("state", "read", error), 3, []),
                  (*place.line(line, before=failing(place, "pread64", error, 1, "state")), place.changes()))
        for path, new in (("old", b""), ("new", bytes(300))):
            for number in (1, 2):
                place = Place(new=new)
                # the opening of a new file may read its gate, too
                out, *rest = place.line("migrate old new", before=failing(place, "pread64", error, number, path))
                check(f"migrate: read {number} of {path} gives {errno.errorcode[error]}",
                      (True, note(path, "read", error), 3, []),
                      (out == "refused 45 DeviceFailed\n" or path == "new" and number == 1 and out == FAILED or out,
                       *rest, place.changes()))
        for path, number, files in (("old", 1, {"new": b""}), ("new", 1, {"old": sealed(OLD), "new": b""}),
                                    ("new", 2, {"old": sealed(OLD), "new": b"\0"})):
            place = Place()
            check(f"migrate: write {number} of {path} gives {errno.errorcode[error]}",
                  ("refused 45 DeviceFailed\n", note(path, "write", error), 3, []),
                  (*place.line("migrate old new", before=failing(place, "pwrite64", error, number, path)),
                   place.changes(**files)))
            check(f"migrate: write {number} of {path} gave {errno.errorcode[error]}, and again",
                  ("migrated 2 records\n", MOVED_BEFORE if path == "new" else "", 0, []),
                  (*place.line("migrate old new"), place.changes(**MIGRATED)))
        place = Place()
        check(f"serve: the first read of STATE gives {errno.errorcode[error]}",
              ("", note("state", "read", error) + "refused 45 DeviceFailed\n", 3, []),
              (*place.line("serve state", before=failing(place, "pread64", error, 1, "state")), place.changes()))
        place = Place()
        check(f"the first write of OUT gives {errno.errorcode[error]}", (FAILED, note("out", "write", error), 3),
              place.line("sign state fw-2 m out --random tape", before=failing(place, "write", error, 1, "out")))
        check(f"the first write of OUT gives {errno.errorcode[error]}: the name is bound, and OUT is empty", [],
              place.changes(state=SECOND.content(), out=b""))


def failing_openings():
    """A file with an illegal record. An opening reads the first slot's gate and fields, and then all slots at once.
    Where a read fails, or gives another byte, that decides: the record is judged afterwards."""
    if not Machine.strace:
        return
    key, line = KEY.bodies[0], "retire state 0"
    zeros, names = [bytes(32)] * 2, [bound_body(b"n-%d" % number, leaf, *[bytes(32)] * 2)
                                     for number, leaf in enumerate((0, 0, 1))]
    for illegal, bodies in ((1, [key, extend_body(1, 0, bytes(16), *zeros, *zeros), *names[1:]]), (2, [key, *names])):
        content = state_file(bodies)
        place = Place(state=content)
        path = os.path.realpath(place.path("state"))
        strace = "strace", "-qq", "-o", "../calls", "-P", path, "-e", "trace=pread64"
        check(f"{line}: an illegal record {illegal}", (f"refused 44 Illegal slot {illegal}\n", "", 1, []),
              (*place.line(line, before=strace), place.changes()))
        calls = read(place.path("../calls")).decode(errors="replace")
        check(f"{line}: the reads of a file with an illegal record {illegal}", [(224, 0), (len(content), 0)],
              [tuple(map(int, found)) for found in re.findall(r", (\d+), (\d+)\) += \d+$", calls, re.M)])
        for number in (1, 2):
            check(f"{line}: an illegal record {illegal}, and read {number} fails",
                  ("refused 45 DeviceFailed\n", note("state", "read", errno.EIO), 3, []),
                  (*place.line(line, before=failing(place, "pread64", errno.EIO, number, "state")), place.changes()))

        def turned(number, at):
            """Read `number` gives another byte at an offset."""
            given = content[:at] + bytes([content[at] ^ 0xFF])
            inject = f"inject=pread64:poke_exit=@arg2={given.hex()}:when={number}"
            return (*place.line(line, before=(*strace, "-e", inject)), place.changes())

        for name, number, at, refused in (("first gate", 1, 0, "40 NoKey"), ("kind of slot 0", 1, 1, "41 NotKeyFile"),
                                          ("version", 1, 10, "42 Version"), ("first gate", 2, 0, "40 NoKey"),
                                          *((f"byte of slot {slot}", 2, 256 * slot + 100, f"43 Damaged slot {slot}")
                                            for slot in range(len(bodies)))):
            check(f"{line}: an illegal record {illegal}, and read {number} gives another {name}",
                  (f"refused {refused}\n", "", 1, []), turned(number, at))


def failing_state():
    """Each call on the state file fails in turn: what is answered, and what standard error says. The records are
    whole."""
    if not Machine.strace:
        return
    done = {"sign state fw-2 m out --random tape": SECOND, "retire state 5": RETIRED}
    answers = {"refused 45 DeviceFailed\n", "refused 25 StoreFailed\n", FAILED}
    for line, key in done.items():
        for call, what in (("pwrite64", "write"), ("fdatasync", "sync"), ("pread64", "read"), ("statx", "length"),
                           ("ftruncate", "cut")):
            seen = set()
            for number in range(1, 20):
                place = Place()
                out, err, status = place.line(line, before=failing(place, call, errno.ENOSPC, number, "state"))
                if not is_injected(place):
                    break
                seen.add(err)
                check(f"{line}: {call} {number} fails", (True, 3), (out in answers or out, status))
                check(f"{line}: {call} {number} fails: one line is said of it", (1, True),
                      (err.count("\n"), err.startswith("hbsign: state: ") or err))
                state = read(place.path("state"))
                check(f"{line}: {call} {number} fails: the old records or the new ones", True,
                      [len(records_of(state)), state.startswith(KEY.content()[:-1])] in ([2, True], [3, True]))
                *_, status = place.line(line)
                check(f"{line}: {call} {number} fails: the repeat is answered", 0, status)
            if call != "ftruncate":
                check(f"{line}: {call} fails: it is said what", True, note("state", what, errno.ENOSPC) in seen or seen)
    for line, calls in (("audit state", ("fdatasync", "pread64", "statx", "flock")),
                        ("list state", ("fdatasync", "pread64", "statx")),
                        ("public state out", ("fdatasync", "pread64", "statx"))):
        for call in calls:
            for number in range(1, 40):
                place = Place()
                out, err, status = place.line(line, before=failing(place, call, errno.EIO, number, "state"))
                if not is_injected(place):
                    break
                check(f"{line}: {call} {number} fails", (True, 1, 3, []),
                      (out in answers or out, err.count("\n"), status, place.changes()))
            check(f"{line}: {call} is made", True, number > 1)
    for call, path, name, what in (("fsync", ".", ".", "sync"), ("fdatasync", "new", "new", "sync"),
                                   ("pwrite64", "new", "new", "write"), ("fchmod", "new", "new", "mode")):
        place = Place()
        out, err, status = place.line(f"make new published {SPEC} --random tape",
                                      before=failing(place, call, errno.EIO, 1, path))
        check(f"make: the first {call} of {path} fails", (True, note(name, what, errno.EIO), 3),
              (out in answers or out, err, status))
        check(f"make: the first {call} of {path} fails: no public key", None, place.files().get("published"))
    for call, what in (("ftruncate", "cut"), ("write", "write")):
        for line, files in (("sign state fw-2 m there --random tape", {"state": SECOND.content()}),
                            (f"make new there {SPEC} --random tape", {"new": MADE.content()})):
            place = Place(there=b"?" * 6000)
            check(f"{line}: {call} of it fails", (FAILED, note("there", what, errno.EIO), 3),
                  place.line(line, before=failing(place, call, errno.EIO, 1, "there")))
            del place.before["there"]
            check(f"{line}: {call} of it fails: the records", [],
                  [it for it in place.changes(**files) if not it.startswith("there")])


DEVICE, STORE = "refused 45 DeviceFailed\n", "refused 25 StoreFailed\n"
# the writes and syncs of a line that adds a record, in order: the call, its number, the answer if it fails, and whether
# the record is there then
APPEND = (("fdatasync", 1, DEVICE, False), ("pwrite64", 1, STORE, False), ("fdatasync", 2, STORE, False),
          ("pwrite64", 2, STORE, False), ("fdatasync", 3, STORE, True))
# the same for `make` without a file, which prepares the place first
MAKING = (("fdatasync", 1, DEVICE), ("pwrite64", 1, DEVICE), ("fdatasync", 2, DEVICE), ("pwrite64", 2, STORE),
          ("fdatasync", 3, STORE), ("pwrite64", 3, STORE), ("fdatasync", 4, STORE))


def failing_appends():
    """Each write and each sync of an append fails: which answer comes, and which records are there. A record whose last
    sync failed is shown by the next opening that can sync it."""
    if not Machine.strace:
        return
    for line, key in (("sign state fw-2 m out --random tape", SECOND), ("retire state 5", RETIRED)):
        for call, number, answer, stands in APPEND:
            what = "sync" if call == "fdatasync" else "write"
            place, name = Place(), f"{line}: {call} {number} fails"
            check(name, (answer, note("state", what, errno.EIO), 3, None),
                  (*place.line(line, before=failing(place, call, errno.EIO, number, "state")),
                   place.files().get("out")))
            left = key if stands else KEY
            check(f"{name}: the records", (len(left.bodies), True), records_like(place, left))
            again = place.keep()
            check(f"{name}: no opening without a sync", (DEVICE, note("state", "sync", errno.EIO), 3, []),
                  (*again.line("audit state", before=failing(again, "fdatasync", errno.EIO, 1, "state")),
                   again.changes()))
            check(f"{name}: the audit", ("\n".join(left.report()) + "\n", "", 0, []),
                  (*again.line("audit state"), again.changes()))
            check(f"{name}: the repeat", (0, key.content()), (again.line(line)[2], read(again.path("state"))))
        for call, number in (("fdatasync", 4), ("pwrite64", 3)):
            place = Place()
            place.line(line, before=failing(place, call, errno.EIO, number, "state"))
            check(f"{line}: there is no {call} {number}", False, is_injected(place))
    failing_appends_in_frames()
    line = f"make new published {SPEC} --random tape"
    for call, number, answer in MAKING:
        place, name = Place(new=b""), f"make: {call} {number} fails"
        check(name, (answer, note("new", "sync" if call == "fdatasync" else "write", errno.EIO), 3, None),
              (*place.line(line, before=failing(place, call, errno.EIO, number, "new")),
               place.files().get("published")))
        stands = (call, number) == ("fdatasync", 4)
        check(f"{name}: the repeat", ("refused 50 KeyThere\n" if stands else PUBLISHED, MADE.content()),
              (place.line(line)[0], read(place.path("new"))))


def failing_appends_in_frames():
    """The same with a signer that stays open: 25, then 26 to all later requests, also of a bound name."""
    requests = frame(b"fw-2", MESSAGE) + frame(b"fw-1", MESSAGE) + frame(b"fw-3", OTHER)
    for call, number, answer, stands in APPEND:
        place, name = Place(input=requests), f"serve: {call} {number} fails"
        said = note("state", "sync" if call == "fdatasync" else "write", errno.EIO)
        wanted = ("", said + answer, 3) if answer == DEVICE else \
            ((reply(25) + reply(26) + reply(26)).decode(), said, 0)
        check(name, wanted, place.line("serve state --random tape", at="<input",
                                       before=failing(place, call, errno.EIO, number, "state")))
        left = SECOND if stands else KEY
        check(f"{name}: the records", (len(left.bodies), True), records_like(place, left))


def records_like(place, key):
    """How many records a place's state file has, and whether they are this key's."""
    found = records_of(read(place.path("state")))
    return len(found), found == key.bodies


def failing_migration():
    """Failing syncs of a migration: what standard error says, and what the same line does then."""
    if not Machine.strace:
        return
    again = "migrated 2 records\n", "", 0
    # (OLD is opened twice before it is written to)
    for path, number, files in (("old", 1, {"new": b""}), ("old", 2, {"new": b""}), ("new", 1, {"new": b""}),
                                ("old", 3, None), ("old", 4, None), ("new", 2, None), ("new", 3, None),
                                ("new", 4, MIGRATED)):
        place = Place()
        check(f"migrate: sync {number} of {path} fails",
              ("refused 45 DeviceFailed\n", note(path, "sync", errno.EIO), 3),
              place.line("migrate old new", before=failing(place, "fdatasync", errno.EIO, number, path)))
        if files:
            check(f"migrate: sync {number} of {path} fails: both files", [], place.changes(**files))
        said = MOVED_BEFORE if (path, number) in (("old", 4), ("new", 2), ("new", 3), ("new", 4)) else ""
        check(f"migrate: sync {number} of {path} failed, and again",
              (*(("refused 50 KeyThere\n", said, 1) if files == MIGRATED else (again[0], said, 0)), []),
              (*place.line("migrate old new"), place.changes(**MIGRATED)))
    for call, path, name, what in (("fsync", ".", ".", "sync"), ("fchmod", "new", "new", "mode")):
        place = Place()
        check(f"migrate: the first {call} of {path} fails", (FAILED, note(name, what, errno.EIO), 3, []),
              (*place.line("migrate old new", before=failing(place, call, errno.EIO, 1, path)),
               place.changes(new=b"")))
        check(f"migrate: the first {call} of {path} failed, and again", (*again, []),
              (*place.line("migrate old new"), place.changes(**MIGRATED)))


def failing_random():
    """A source of random bytes that ends: standard error says so, in `serve` at the moment that it happens."""
    place = Place(empty=b"", short=TAPE[:31])
    for name in ("empty", "short", "/dev/null"):
        check(f"sign with {name}", ("refused 23 RandomFailed\n", note(name, "end"), 3, []),
              (*place.line(f"sign state fw-2 m out --random {name}"), place.changes()))
        service = place.serve("state", "--random", name)
        check(f"serve with {name}: the reply", reply(23), service.ask(b"fw-2", MESSAGE))
        check(f"serve with {name}: it is said at once", (note(name, "end"), None), service.said(note(name, "end")))
        check(f"serve with {name}: a bound name", reply(0, ONE_SIGNED), service.ask(b"fw-1", MESSAGE))
        check(f"serve with {name}: it ends well", (b"", "", 0), service.end())
    check("serve: a folder as its input", (reply(27).decode(), note(INPUT, "read", errno.EISDIR) + READ_27, 3, []),
          (*place.line("serve state", at="<."), place.changes()))


def no_room():
    """A state file that can't grow: standard error says so, in `serve` at the moment that it happens."""
    place = Place()
    line = note("state", "write", errno.EFBIG)
    for limit in (513, 600):
        service = place.serve("state", "--random", "tape", limit=limit)
        check(f"serve within {limit} bytes: the reply", reply(25), service.ask(b"fw-2", MESSAGE))
        check(f"serve within {limit} bytes: it is said at once", (line, None), service.said(line))
        check(f"serve within {limit} bytes: the next reply", reply(26), service.ask(b"fw-2", MESSAGE))
        check(f"serve within {limit} bytes: the end", (b"", "", 0), service.end())
    service = place.serve("state", "--random", "tape", limit=513)
    service.process.stderr.close()
    check("serve within 513 bytes, and nobody reads what is said: the replies", (reply(25), reply(26)),
          (service.ask(b"fw-2", MESSAGE), service.ask(b"fw-2", MESSAGE)))
    service.process.stdin.close()
    check("serve within 513 bytes, and nobody reads what is said: the end", 0, service.process.wait(LONGEST))
    check("once there is room", (SIGNED, "", 0, TWO_SIGNED),
          (*place.line("sign state fw-2 m out --random tape"), read(place.path("out"))))
    for words, limit, refused, said in (("retire state 9", 800, "refused 25 StoreFailed\n", line),
                                        (f"make new p {SPEC} --random tape", 0, "refused 45 DeviceFailed\n",
                                         note("new", "write", errno.EFBIG)),
                                        (f"make new p {SPEC} --random tape", 1, "refused 25 StoreFailed\n",
                                         note("new", "write", errno.EFBIG)),
                                        ("sign state fw-2 m out-2", 900, FAILED, note("out-2", "write", errno.EFBIG))):
        check(f"{words} within {limit} bytes", (refused, said, 3), place.line(words, limit=limit))
    if not ALONE:
        return skip("no file system can be mounted: a full one, and one that may only be read, are not tested")
    folder = os.path.join(place.outside, "small")
    os.mkdir(folder)
    if subprocess.run(["mount", "-t", "tmpfs", "-o", "size=20k", "none", folder], stderr=subprocess.DEVNULL).returncode:
        return skip("no file system in memory can be mounted: a full one is not tested")
    try:
        state = os.path.join(folder, "key")
        write(state, KEY.content())
        for upto in range(2, 15):
            place.line(f"retire {state} {upto}")
        check("a full file system: fifteen records, and a page is full", 3841, os.path.getsize(state))
        with open(os.path.join(folder, "filler"), "wb", buffering=0) as filler:
            try:
                while filler.write(bytes(512)):
                    pass
            except OSError:
                pass
        check("a full file system: sign", ("refused 25 StoreFailed\n", note(state, "write", errno.ENOSPC), 3),
              place.line(f"sign {state} fw-2 m out-3"))
        check("a full file system: make",
              ("refused 45 DeviceFailed\n", note(f"{folder}/new", "write", errno.ENOSPC), 3),
              place.line(f"make {folder}/new p {SPEC}"))
        service = place.serve(state)
        said = note(state, "write", errno.ENOSPC)
        check("a full file system: the reply", reply(25), service.ask(b"fw-2", MESSAGE))
        check("a full file system: it is said at once", (said, None), service.said(said))
        check("a full file system: serve ends", (b"", "", 0), service.end())
        check("a full file system: OUT", (FAILED, note(f"{folder}/out", "write", errno.ENOSPC), 3),
              place.line(f"sign state fw-2 m {folder}/out"))
    finally:
        subprocess.run(["umount", folder])
    return None
