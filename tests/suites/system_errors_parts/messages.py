"""What standard error says of a file that can't be opened, and where it says nothing."""
import errno, os

from counts import check
from model import frame, reply
from system_errors_parts.failing_calls import READ_27
from system_errors_parts.place import (FAILED, IN_ONE, KEY, MESSAGE, MOVED_BEFORE, OLD, SECOND, SIGNED, SIZE, SPEC,
                                       THIRD, TWO_SIGNED, USER, Machine, Place, note, read, write)


def said_of_files():
    """Each file of each line, missing or impossible to open for another reason."""
    place = Place(locked=THIRD)
    os.mkdir(place.path("folder"))
    os.mkfifo(place.path("pipe"))
    os.symlink("loop", place.path("loop"))
    os.symlink("nowhere", place.path("dangling"))
    place.keep()
    long = "n" * 300
    lines = {
        "sign {} fw-2 m out": "state", "sign state fw-2 {} out": "given", "sign state fw-2 m out --random {}": "given",
        "retire {} 0": "state", "audit {}": "state", f"make {{}} p {SPEC}": "new", "serve {}": "state",
        "serve state --random {}": "given", "verify {} m s": "given", "verify public {} s": "given",
        "verify public m {}": "given", "audit-given {} m s": "given", "audit-given public {} s": "given",
        "audit-given public m {}": "given", "audit-given public m s m {}": "given", "migrate {} new": "state",
        "migrate old {}": "new", "list {}": "state", "public {} out": "state",
    }
    paths = {"": errno.ENOENT, "nothing": errno.ENOENT, "none/nothing": errno.ENOENT, "dangling": errno.ENOENT,
             "m/x": errno.ENOTDIR, "loop": errno.ELOOP, long: errno.ENAMETOOLONG}
    for line, kind in lines.items():
        for path, error in paths.items():
            if kind == "new" and path == "nothing":
                continue
            last = FAILED if line.startswith("serve") else ""
            check(line.format(path[:20]), (FAILED[len(last):], note(path, "open", error) + last, 3, []),
                  (*place.line(line.format(path)), place.changes()))
        for path in ("folder", "pipe", "/dev/null", "."):
            if kind == "given":
                continue
            check(line.format(path), (FAILED[len(last):], note(path, "not regular") + last, 3, []),
                  (*place.line(line.format(path)), place.changes()))
    for line in ("verify folder m s", "verify public m folder", "audit-given folder m s", "audit-given public folder s",
                 "audit-given public m folder"):
        check(line, (FAILED, note("folder", "read", errno.EISDIR), 3), place.line(line))
    for line, refused in (("verify public folder s", "refused 14 MessageRead\n"),
                          ("sign state fw-1 folder out", READ_27),
                          ("sign state fw-2 m out --random folder", "refused 23 RandomFailed\n")):
        check(line, (refused, note("folder", "read", errno.EISDIR), 3, []), (*place.line(line), place.changes()))
    service = place.serve("locked")
    service.ask(b"n", MESSAGE)
    locked = note("locked", "lock")
    for line in ("sign locked fw-2 m out", "retire locked 0", "audit locked", f"make locked p {SPEC}",
                 "migrate locked new", "migrate old locked"):
        check(f"{line}, while it is served", ("refused 54 Locked\n", locked, 1), place.line(line))
    check("serve locked, while it is served", ("", locked + "refused 54 Locked\n", 1), place.line("serve locked"))
    service.end()


def said_of_permissions():
    if Machine.as_user is None:
        return
    for line, path in (("sign state fw-2 m out", "state"), ("sign state fw-2 m out --random tape", "m"),
                       ("sign state fw-2 m out --random tape", "tape"), ("verify public m s", "public"),
                       ("verify public m s", "m"), ("verify public m s", "s"), ("audit-given public m s", "m"),
                       ("retire state 5", "state"), ("audit state", "state"), ("list state", "state"),
                       ("public state out", "state"), (f"make state p {SPEC}", "state"),
                       ("migrate old new", "old"), ("migrate old state", "state")):
        place = Place().give_all()
        os.chmod(place.path(path), 0)
        check(f"{line}, {path} of mode 0", (FAILED, note(path, "open", errno.EACCES), 3, []),
              (*place.line(line, by_user=True), place.changes()))
    for mode in (0o000, 0o200, 0o400, 0o444):
        # a key that can't be read stays, too
        place = Place(there=THIRD).give_all()
        os.chmod(place.path("there"), mode)
        out, err, status = place.line("sign state fw-2 m there --random tape", by_user=True)
        wanted = {note("there", "open", errno.EACCES)} if mode != 0o200 else {err}
        check(f"OUT is a key of mode {mode:o}", (FAILED, True, 3, []),
              (out, err in wanted and err.startswith("hbsign: there: ") or err, status,
               place.changes(state=SECOND.content())))
    place = Place(there=b"?" * 9000).give_all()
    os.mkdir(place.path("shut"))
    write(place.path("shut/there"), b"?" * 9000)
    os.chown(place.path("shut/there"), USER, USER)
    os.chmod(place.path("there"), 0o444)
    os.chmod(place.path("shut"), 0o555)
    place.keep()
    for name, error in (("there", errno.EACCES), ("shut/new", errno.EACCES), ("../new", errno.EACCES)):
        check(f"OUT is {name}", (FAILED, note(name, "open", error), 3, []),
              (*place.line(f"sign state fw-2 m {name} --random tape", by_user=True),
               place.changes(state=SECOND.content())))
    check("OUT that is there in a folder that takes no new file", (SIGNED, "", 0, TWO_SIGNED),
          (*place.line("sign state fw-2 m shut/there", by_user=True), read(place.path("shut/there"))))
    check("make in a folder that takes no new file", (FAILED, note("shut/key", "open", errno.EACCES), 3),
          place.line(f"make shut/key p {SPEC}", by_user=True))
    os.chown(place.path("shut"), USER, USER)
    os.chmod(place.path("shut"), 0o300)
    check("make in a folder that can't be opened", (FAILED, note("shut", "open", errno.EACCES), 3),
          place.line(f"make shut/key p {SPEC}", by_user=True))
    check("migrate to a folder that can't be opened", (FAILED, note("shut", "open", errno.EACCES), 3, OLD),
          (*place.line("migrate old shut/new", by_user=True), read(place.path("old"))))
    os.chmod(place.path("shut"), 0o700)


def said_of_paths():
    """Only control characters of a path are escaped."""
    place = Place()
    paths = {"a\nb": "a\\x0ab", "\x1b[31mred": "\\x1b[31mred", "a\tb\rc": "a\\x09b\\x0dc", "\x01\x1f": "\\x01\\x1f",
             "\x7f": "\\x7f"}
    same = "a b  c ", "é ü 日本", "back\\slash \"quoted\" 'x' %s {}", "\\x0a"
    for number, (path, text) in enumerate({**paths, **{path: path for path in same}}.items()):
        said = note(text, "open", errno.ENOENT)
        check(f"sign of {path!r}", (FAILED, said, 3), place.outcome("sign", path, "n", "m", "out"))
        check(f"verify of {path!r}", (FAILED, said, 3), place.outcome("verify", "public", path, "s"))
        check(f"serve of {path!r}", ("", said + FAILED, 3), place.outcome("serve", path))
        check(f"make to {path!r}", (FAILED, note("none/" + text, "open", errno.ENOENT), 3),
              place.outcome("make", f"new-{number}", f"none/{path}", SPEC))
    check("the files", [], [name for name in place.changes() if not name.startswith("new-")])


def silence():
    """Standard error is empty after success, and after a refusal that isn't a failure of the machine."""
    tag = KEY.report()[2].split()[1]
    place = Place(short=b"?", many=bytes(300), damaged=THIRD[:100] + b"?" + THIRD[101:],
                  version=THIRD[:11] + b"\3" + THIRD[12:], other=THIRD[:11] + b"\1" + THIRD[12:], one=IN_ONE.content(),
                  requests=frame(b"n" * 65, MESSAGE))
    place.line(f"make more other-public {SPEC}")
    for line, printed, status in (
            ("sign state fw-1 m2 out", "refused 21 Changed", 1), ("retire state 33", "refused 32 RetireRange", 1),
            ("audit short", "refused 40 NoKey", 1), ("audit many", "refused 40 NoKey", 1),
            ("sign damaged n m out", "refused 43 Damaged slot 0", 1), ("audit version", "refused 42 Version", 1),
            ("audit other", "refused 43 Damaged slot 0", 1), (f"sign one {'n' * 65} m out", "refused 33 LongName", 1),
            (f"sign one {'n' * 128} m out", "refused 33 LongName", 1),
            (f"sign one {'n' * 64} m out", f"signed {'n' * 64} {SIZE} bytes", 0),
            (f"audit state --count 3 --tag {tag}", "refused 47 AnchorCount", 1),
            (f"audit state --count 1 --tag {tag}", "refused 48 AnchorTag", 1),
            (f"make state p {SPEC}", "refused 50 KeyThere", 1), (f"make many p {SPEC}", "refused 41 NotKeyFile", 1),
            ("make new p lms:H6/W8", "refused 51 BadSpec", 2),
            (f"sign state {'n' * 129} m out", "refused 34 BadName", 2),
            (f"sign one {'n' * 129} m out", "refused 34 BadName", 2),
            ("audit-given public m2 s", "refused 60 NotValid file 0", 1),
            ("verify public m2 s", "refused 12 RootMismatch level 0", 1),
            ("verify short m s", "refused 6 KeyLength of 1", 1),
            ("verify public m short", "refused 1 Truncated at 0", 1),
            ("sign state fw-1 m out", f"signed fw-1 {SIZE} bytes", 0), ("verify public m s", "verified", 0),
            ("retire state 5", "retired upto 5", 0),
            (f"sign state {'n' * 128} m out", f"signed {'n' * 128} {SIZE} bytes", 0),
            (f"sign state {'n' * 128} m out", f"signed {'n' * 128} {SIZE} bytes", 0),
            ("audit-given public m s", "given 1 signatures, no leaf twice", 0),
            ("migrate short new", "refused 40 NoKey", 1), ("migrate damaged new", "refused 43 Damaged slot 0", 1),
            ("migrate state new", "refused 42 Version", 1), ("migrate old state", "refused 50 KeyThere", 1),
            ("migrate old new", "migrated 2 records", 0),
            ("sign old fw-1 m out", "refused 31 Moved", 1),
            (f"sign new {'n' * 128} m out", f"signed {'n' * 128} {SIZE} bytes", 0)):
        check(f"silence: {line}", (printed + "\n", "", status), place.line(line))
    check("an old file that was moved before", ("refused 50 KeyThere\n", MOVED_BEFORE, 1),
          place.line("migrate old new"))
    check("an output that can't be written", ("", "", 3), place.line("verify public m s", at=">/dev/full"))
    check("and of serve", ("", "refused 36 WriteFailed\n", 3), place.line("serve state", at=">/dev/full <input"))
    check("serve: a name that version 1 hasn't", (reply(33).decode(), "", 0), place.line("serve one", at="<requests"))
    out, err, status = place.line("serve state", given=b"\4fw")
    check("serve: an input that ends in a frame", (reply(35).decode(), "refused 35 FrameCut\n", 1), (out, err, status))
