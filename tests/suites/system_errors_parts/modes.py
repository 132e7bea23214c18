"""Modes of the files that a line makes, and files that may only be read."""
import errno, fcntl, os, signal, subprocess, time

from counts import check
from model import reply
from system_errors_parts.place import (ALONE, FAILED, IS_ROOT, KEY, LISTED, LONGEST, MADE, MESSAGE, PUBLISHED, SECOND,
                                       SIGNED, SPEC, THIRD, TWO_SIGNED, Machine, Place, failing, mode_of, note, read,
                                       skip, tracing)


# Requirement: RFC 8554 6, private
def modes():
    """A key is its owner's alone, whatever was there and whatever the umask. A refused `make` leaves the mode."""
    make = f"make new published {SPEC} --random tape"
    for umask in (0o022, 0o777, 0, 0o177, 0o277):
        place = Place()
        check(f"make under umask {umask:o}", (PUBLISHED, "", 0, 0o600, 0o666 & ~umask),
              (*place.line(make, umask=umask), mode_of(place.path("new")), mode_of(place.path("published"))))
        for mode in (0o644, 0o666, 0o600, 0o640, 0o604, 0o700, 0o777):
            for there in (b"", b"some text", b"\xa5", b"\xa5" * 256, bytes(257)):
                place = Place(new=there)
                os.chmod(place.path("new"), mode)
                check(f"make at {len(there)} bytes of mode {mode:o}, umask {umask:o}",
                      (PUBLISHED, "", 0, 0o600, MADE.content()),
                      (*place.line(make, umask=umask), mode_of(place.path("new")), read(place.path("new"))))
    for there, refused in ((THIRD, "refused 50 KeyThere\n"), (bytes(300), "refused 41 NotKeyFile\n"),
                           (bytes(258), "refused 41 NotKeyFile\n"), (b"\xa5" * 257, "refused 50 KeyThere\n"),
                           (b"\xa5" * 513, "refused 50 KeyThere\n"),
                           (b"\0" + SECOND.content()[1:], "refused 41 NotKeyFile\n"),
                           (b"\xa5" * 300, "refused 50 KeyThere\n")):
        for mode in (0o644, 0o666, 0o640, 0o700):
            place = Place(new=there)
            os.chmod(place.path("new"), mode)
            check(f"make, refused, leaves mode {mode:o} of {len(there)} bytes", (refused, "", 1, mode, []),
                  (*place.line(make), mode_of(place.path("new")), place.changes(new=there)))
    for mode in (0o644, 0o666):
        for line in ("sign state fw-2 m out --random tape", "retire state 5", "audit state", "list state",
                     "public state out"):
            place = Place()
            os.chmod(place.path("state"), mode)
            place.line(line)
            check(f"{line}: mode {mode:o} stays", mode, mode_of(place.path("state")))
    if not IS_ROOT or Machine.as_user is None:
        return
    place = Place(new=b"").give_all()
    os.chown(place.path("new"), 0, 0)
    os.chmod(place.path("new"), 0o666)
    check("make in another's file that may be written", (FAILED, note("new", "mode", errno.EPERM), 3, 0o666),
          (*place.line(make, by_user=True), mode_of(place.path("new"))))
    content = read(place.path("new"))
    check("and no secret is in it", True, content in (b"", b"\0") or content)
    check("and the other files stay", [], place.changes(new=content))
    os.chmod(place.path("new"), 0o622)
    check("make in another's file that may not be read", (FAILED, note("new", "open", errno.EACCES), 3, 0o622, content),
          (*place.line(make, by_user=True), mode_of(place.path("new")), read(place.path("new"))))


def reading_alone():
    """`audit` opens a state file only for reading, under its lock."""
    report = "\n".join(KEY.report()) + "\n", "", 0
    anchored = f"audit state --count 2 --tag {KEY.report()[2].split()[1]}"
    if Machine.as_user is not None:
        for mode in (0o400, 0o444, 0o440):
            place = Place().give_all()
            os.chmod(place.path("state"), mode)
            for line in ("audit state", anchored):
                check(f"{line}, mode {mode:o}", (*report, []), (*place.line(line, by_user=True), place.changes()))
            for line in ("sign state fw-2 m out --random tape", "retire state 5", f"make state p {SPEC}"):
                check(f"{line}, mode {mode:o}", (FAILED, note("state", "open", errno.EACCES), 3, []),
                      (*place.line(line, by_user=True), place.changes()))
            check(f"serve, mode {mode:o}", ("", note("state", "open", errno.EACCES) + FAILED, 3, []),
                  (*place.line("serve state", by_user=True), place.changes()))
        place = Place()
        os.chmod(place.path("state"), 0o444)
        check("audit of a file of root's", (*report, []), (*place.line("audit state", by_user=True), place.changes()))
        for mode in (0o000, 0o200):
            place = Place().give_all()
            os.chmod(place.path("state"), mode)
            check(f"audit, mode {mode:o}", (FAILED, note("state", "open", errno.EACCES), 3),
                  place.line("audit state", by_user=True))
        place = Place().give_all()
        service = place.serve("state")
        service.ask(b"fw-1", MESSAGE)
        os.chmod(place.path("state"), 0o400)
        check("audit of a locked file that may only be read", ("refused 54 Locked\n", note("state", "lock"), 1),
              place.line("audit state", by_user=True))
        service.end()
        check("and once it is free", report, place.line("audit state", by_user=True))
    if Machine.strace:
        place = Place()
        place.line("audit state", before=tracing(place, "openat flock fdatasync pwrite64 fchmod ftruncate"))
        calls = read(place.path("../calls")).decode()
        opened = [line for line in calls.split("\n") if line.startswith("openat") and '"state"' in line]
        check("audit opens it for reading", (1, True),
              (len(opened), all("O_RDONLY" in line for line in opened) or opened))
        check("it locks and syncs it", (True, True), ("LOCK_EX|LOCK_NB" in calls, "fdatasync(" in calls))
        check("and changes nothing", False, any(call in calls for call in ("pwrite64(", "fchmod(", "ftruncate(")))
    if ALONE:
        place = Place()
        mount = subprocess.run("mount --bind . . && mount -o remount,bind,ro .", cwd=place.folder, shell=True,
                               stderr=subprocess.DEVNULL)
        try:
            if mount.returncode:
                return skip("no file system can be mounted for reading alone: that is not tested")
            for line in ("audit state", anchored):
                check(f"{line}, on a file system that may only be read", (*report, []),
                      (*place.line(line), place.changes()))
            for line, path in (("sign state fw-2 m out", "state"), ("retire state 5", "state"),
                               (f"make state p {SPEC}", "state"), (f"make new p {SPEC}", "new"),
                               ("migrate old new", "old")):
                check(f"{line}, on a file system that may only be read", (FAILED, note(path, "open", errno.EROFS), 3),
                      place.line(line))
        finally:
            subprocess.run(["umount", place.folder], stderr=subprocess.DEVNULL)
    return None


def signed_meanwhile(line):
    """A name is signed after `list` or `public` has asked for the file's length, and before it reads the slots: it
    shows the file before or after that."""
    place = Place()
    late = (*tracing(place, "statx pread64"), "-P", os.path.realpath(place.path("state")), "-e",
            "inject=pread64:delay_enter=2000000:when=1")
    with subprocess.Popen([*late, Machine.hbsign, *line.split(" ")], cwd=place.folder, stdout=subprocess.PIPE,
                          stderr=subprocess.PIPE, text=True) as reader:
        # the second of its two statx calls asks for the length
        while reader.poll() is None and not (os.path.exists(place.path("../calls"))
                                             and read(place.path("../calls")).count(b"statx(") == 2):
            time.sleep(0.01)
        waits = reader.poll() is None
        signed = place.line("sign state fw-2 m out --random tape")
        printed, told = reader.communicate(timeout=LONGEST)
    after_it = "\n".join(SECOND.listing()) + "\n" if line.startswith("list") else f"public {KEY.public().hex()}\n"
    check(f"{line}, while a name is signed", (True, (SIGNED, "", 0), after_it, "", 0),
          (waits, signed, after_it if printed == LISTED else printed, told, reader.returncode))


def reading_without_a_lock():
    """`list` and `public` open a state file only for reading, without a lock: they run beside `serve`, on a file that
    another process has locked, and on a read-only one."""
    again = f"public {KEY.public().hex()}\n"
    lines = {"list state": (LISTED, {}), "public state again": (again, {"again": KEY.public()})}
    if Machine.as_user is not None:
        for mode in (0o400, 0o444, 0o440):
            for line, (printed, files) in lines.items():
                place = Place().give_all()
                os.chmod(place.path("state"), mode)
                check(f"{line}, mode {mode:o}", (printed, "", 0, []),
                      (*place.line(line, by_user=True), place.changes(**files)))
        place = Place()
        os.chmod(place.path("state"), 0o444)
        check("list of a file of root's", (LISTED, "", 0, []),
              (*place.line("list state", by_user=True), place.changes()))
        for line in lines:
            for mode in (0o000, 0o200):
                place = Place().give_all()
                os.chmod(place.path("state"), mode)
                check(f"{line}, mode {mode:o}", (FAILED, note("state", "open", errno.EACCES), 3, []),
                      (*place.line(line, by_user=True), place.changes()))
    for line, (printed, files) in lines.items():
        place = Place()
        with open(place.path("state"), "rb") as held:
            fcntl.flock(held, fcntl.LOCK_EX)
            check(f"{line} of a locked file", (printed, "", 0, []), (*place.line(line), place.changes(**files)))
        place = Place()
        service = place.serve("state", "--random", "tape")
        service.ask(b"fw-1", MESSAGE)
        check(f"{line}, while it is served", (printed, "", 0), place.line(line))
        check(f"{line}, while it is served: the reply", reply(0, TWO_SIGNED), service.ask(b"fw-2", MESSAGE))
        if line.startswith("list"):
            printed = "\n".join(SECOND.listing()) + "\n"
        check(f"{line}, after one more name", (printed, "", 0), place.line(line))
        check(f"{line}: how it is served", (b"", "", 0), service.end())
        check(f"{line}: the files", [], place.changes(state=SECOND.content(), **files))
        place = Place()
        with subprocess.Popen([Machine.hbsign, *line.split(" ")], cwd=place.folder, stdout=subprocess.PIPE) as reader:
            # while it is stopped other commands can run
            reader.send_signal(signal.SIGSTOP)
            *_, status = place.line("sign state fw-2 m out --random tape")
            reader.send_signal(signal.SIGCONT)
            reader.communicate(timeout=LONGEST)
        check(f"{line}, stopped: a signature", (0, 0), (status, reader.returncode))
    if Machine.strace:
        for line, (printed, files) in lines.items():
            signed_meanwhile(line)
            # a read-only file system such as squashfs has nothing to sync, and answers this error
            place = Place()
            check(f"{line}, where nothing can be synced", (printed, "", 0, []),
                  (*place.line(line, before=failing(place, "fdatasync", errno.EINVAL, 1, "state")),
                   place.changes(**files)))
        for line in lines:
            place = Place()
            place.line(line, before=tracing(place, "openat flock pwrite64 fchmod ftruncate"))
            calls = read(place.path("../calls")).decode()
            opened = [call for call in calls.split("\n") if call.startswith("openat") and '"state"' in call]
            check(f"{line} opens it for reading", (1, True),
                  (len(opened), all("O_RDONLY" in call for call in opened) or opened))
            # PUBLIC is locked before it is written and truncated
            locks = [call for call in calls.split("\n") if call.startswith("flock")]
            check(f"{line} doesn't lock it", 0 if line.startswith("list") else 1, len(locks))
            check(f"{line} changes nothing of it", False, any(call in calls for call in ("pwrite64(", "fchmod(")))
    if ALONE:
        place = Place()
        mount = subprocess.run("mount --bind . . && mount -o remount,bind,ro .", cwd=place.folder, shell=True,
                               stderr=subprocess.DEVNULL)
        try:
            if mount.returncode:
                return skip("no file system can be mounted for reading alone: that is not tested")
            check("list, on a file system that may only be read", (LISTED, "", 0), place.line("list state"))
            check("public, from a file system that may only be read", (again, "", 0),
                  place.line("public state ../again"))
            check("public, to a file system that may only be read", (FAILED, note("again", "open", errno.EROFS), 3),
                  place.line("public state again"))
        finally:
            subprocess.run(["umount", place.folder], stderr=subprocess.DEVNULL)
    return None
