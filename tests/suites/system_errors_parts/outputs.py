"""PUBLIC and OUT that have a key, are files of the line, or standard output; and what comes before they are opened."""
import errno, fcntl, os, subprocess, time

from counts import check
from model import frame
from system_errors_parts.place import (FAILED, IN_ONE, LONGEST, MADE, MESSAGE, ONE_SIGNED, PUBLISHED, SECOND, SIGNED,
                                       SIZE, SPEC, TAPE, THIRD, TWO_SIGNED, Machine, Place, mode_of, note, read,
                                       tracing, write)


def streams_that_are_keys():
    """Nothing is written to a standard stream that is a key, for any line, also a wrong one or help."""
    for words, at, wanted in (
            (("sign", "state", "a name", "m", "out"), "1<>state", ("", "", 3)),
            (("make", "new", "published", "lms:bad"), "1<>state", ("", "", 3)),
            (("serve", "--help"), "1<>state", ("", "", 3)),
            (("--version",), "1<>state", ("", "", 3)),
            (("verify", "public", "m", "s"), "1<>third", ("", "", 3)),
            (("audit-given", "public", "m", "s"), "1<>third", ("", "", 3)),
            (("sign", "state", "fw-2", "m"), "2<>state", ("", "", 2)),
            (("retire", "state", "zz"), "2<>state", ("", "", 2)),
            (("serve", "state", "--bad"), "2<>third", ("", "", 2)),
            (("sign", "state", "fw-2", "nothing", "out"), "2<>third", (FAILED, "", 3))):
        place = Place(third=THIRD)
        check(f"{' '.join(words)} {at}", (*wanted, []), (*place.outcome(*words, at=at), place.changes()))


def random_files_with_keys():
    """A file of random bytes that has a key is refused: signatures would give its secret away."""
    for line, files in (("sign state fw-2 m out --random state", {}), ("sign state fw-2 m out --random third", {}),
                        ("serve state --random third", {}),
                        ("make new published xmss:10 --random third", {"new": b""})):
        for gate in (0xA5, 0):
            place = Place(third=bytes([gate]) + THIRD[1:])
            said = note(line.split(" ")[-1], "random key")
            wanted = ("", said + FAILED, 3, []) if line.startswith("serve") else (FAILED, said, 3, [])
            check(f"{line}: gate {gate}", wanted,
                  (*place.line(line, given=frame(b"fw-2", MESSAGE)), place.changes(**files)))


def locked_outputs():
    """A file that another process has locked isn't written, since it may become a key. What was recorded stays."""
    for line, name, files in (
            ("sign state fw-2 m out --random tape", "out", {"state": SECOND.content(), "out": b"before"}),
            ("make new out lms:H5/W2 --random tape", "out", {"new": MADE.content(), "out": b"before"})):
        for data in (b"", b"before"):
            place = Place(out=data)
            with open(place.path(name), "rb") as file:
                fcntl.flock(file, fcntl.LOCK_EX)
                came = place.line(line)
            check(f"{line}: locked, of {len(data)} bytes", (FAILED, note(name, "locked"), 3, []),
                  (*came, place.changes(**{**files, "out": data})))
    place = Place()
    *_, status = place.line("sign state fw-2 m /dev/stderr --random tape", at="2>../errors")
    check("OUT is standard error", (3, note("/dev/stderr", "errors").encode()),
          (status, read(os.path.join(place.outside, "errors"))))


def keys_that_stay():
    """Nothing is written over a key, whatever its gate and by whatever name."""
    for what, there in (("a key", THIRD), ("gate 0 is 00", b"\0" + THIRD[1:]), ("gate 0 is a4", b"\xa4" + THIRD[1:]),
                        ("gate 0 is ff", b"\xff" + THIRD[1:]), ("ten bytes", b"\0" + THIRD[1:10]),
                        ("a key and more", THIRD + bytes(5000)), ("a used key", SECOND.content()),
                        ("a key of version 1", IN_ONE.content())):
        for name in ("k1", "./k1", "link", "links", "hard", "../place/k1"):
            place = Place(k1=there)
            os.symlink("k1", place.path("link"))
            os.symlink("link", place.path("links"))
            os.link(place.path("k1"), place.path("hard"))
            place.keep()
            refused = FAILED, note(name, "key"), 3
            check(f"sign to {name}, {what}", (*refused, []),
                  (*place.line(f"sign state fw-2 m {name} --random tape"), place.changes(state=SECOND.content())))
            check(f"make to {name}, {what}", (*refused, []),
                  (*place.line(f"make new {name} {SPEC} --random tape"),
                   place.changes(state=SECOND.content(), new=MADE.content())))
            check(f"and the repeat to another OUT signs, {what}", (SIGNED, "", 0, []),
                  (*place.line("sign state fw-2 m out"),
                   place.changes(state=SECOND.content(), new=MADE.content(), out=TWO_SIGNED)))
            if name == "k1":
                check(f"make over the key, {what}", (refused[0], note("state", "key"), 3, []),
                      (*place.line(f"make new-2 state {SPEC} --random tape"),
                       place.changes(state=SECOND.content(), new=MADE.content(), out=TWO_SIGNED,
                                     **{"new-2": MADE.content()})))
    swapped_and_locked()


def swapped_and_locked():
    place = Place()
    os.chmod(place.path("public"), 0o644)
    # STATE is the short file of the public key, and PUBLIC the key: the key stays, and STATE is its owner's alone
    check("make with STATE and PUBLIC swapped", (FAILED, note("state", "key"), 3, [], 0o600),
          (*place.line(f"make public state {SPEC} --random tape"), place.changes(public=MADE.content()),
           mode_of(place.path("public"))))
    place = Place(k1=THIRD)
    service = place.serve("k1", "--random", "tape")
    check("the service signs", 0, service.ask(b"n", MESSAGE)[0])
    place.before["k1"] = read(place.path("k1"))
    for line in ("sign state fw-2 m k1 --random tape", f"make new k1 {SPEC} --random tape"):
        check(f"{line}, while it is locked", (FAILED, note("k1", "key"), 3), place.line(line))
        check(f"{line}: the locked key stays", place.before["k1"], read(place.path("k1")))
    check("the service signs on", 0, service.ask(b"n-2", MESSAGE)[0])
    check("and ends well", (b"", "", 0), service.end())
    check("its key", ["records 3"], place.line("audit k1")[0].split("\n")[1:2])


def files_of_the_line():
    """PUBLIC and OUT can't be a file that the line has opened, by whatever name."""
    for target in ("state", "m", "tape"):
        for name in (target, f"./{target}", "link", "hard", f"../place/{target}"):
            place = Place()
            os.symlink(target, place.path("link"))
            os.link(place.path(target), place.path("hard"))
            place.keep()
            out, err, status = place.line(f"sign state fw-2 m {name} --random tape")
            # a state file is also a key: either text may come
            said = {note(name, "of the line"), *([note(name, "key")] if target == "state" else [])}
            check(f"sign: OUT {name} is {target}", (FAILED, True, 3), (out, err in said or err, status))
            files = {"state": SECOND.content(), "hard": SECOND.content()} if target == "state" else \
                {"state": SECOND.content()}
            check(f"sign: {target} stays but for what was recorded, by {name}", [], place.changes(**files))
            check(f"sign: the repeat after {name}", (SIGNED, "", 0, TWO_SIGNED),
                  (*place.line("sign state fw-2 m out"), read(place.path("out"))))
    for target in ("new", "tape"):
        for name in (target, f"./{target}", "link"):
            place = Place()
            os.symlink(target, place.path("link"))
            place.keep()
            out, err, status = place.line(f"make new {name} {SPEC} --random tape")
            said = {note(name, "of the line"), *([note(name, "key")] if target == "new" else [])}
            check(f"make: PUBLIC {name} is {target}", (FAILED, True, 3, []),
                  (out, err in said or err, status, place.changes(new=MADE.content())))


def standard_output():
    """OUT and PUBLIC can't be the process's own standard output, which gets only the line."""
    for line, files in (("sign state fw-2 m {} --random tape", {"state": SECOND.content()}),
                        (f"make new {{}} {SPEC} --random tape", {"new": MADE.content()})):
        for name in ("/dev/stdout", "/proc/self/fd/1", "/dev/fd/1", "output", "./output", "link"):
            for at, before in ((">output", b""), (">>output", b"before\n"), ("1<>output", b"before and a long text\n")):
                place = Place(output=before)
                os.symlink("output", place.path("link"))
                place.keep()
                text = before + FAILED.encode() if at == ">>output" else FAILED.encode() + before[len(FAILED):]
                check(f"{line.format(name)} {at}", ("", note(name, "output"), 3, []),
                      (*place.line(line.format(name), at=at), place.changes(output=text, **files)))
            if "/" in name and "." not in name:
                place = Place()
                check(f"{line.format(name)}, a pipe", (FAILED, note(name, "output"), 3, []),
                      (*place.line(line.format(name)), place.changes(**files)))
    place = Place()
    check("and the repeat with another OUT", (SIGNED, "", 0, []),
          (*place.line("sign state fw-2 m out --random tape", at="2>&1"),
           place.changes(state=SECOND.content(), out=TWO_SIGNED)))


def other_outs():
    """Any other file is written over, whatever it had; devices and pipes take the signature as usual."""
    for what, there in (("no bytes", b""), ("less", b"?" * 10), ("more", b"?" * 70000),
                        ("nine bytes of a key", THIRD[:9]), ("another kind", THIRD[:1] + b"\2" + THIRD[2:]),
                        ("another magic", THIRD[:9] + b"F" + THIRD[10:]),
                        ("the magic one byte before", THIRD[1:]), ("the magic one byte after", b"\0" + THIRD),
                        ("an old signature", ONE_SIGNED)):
        place = Place(there=there)
        os.symlink("there", place.path("link"))
        place.keep()
        check(f"OUT of {what}", (SIGNED, "", 0, []),
              (*place.line("sign state fw-2 m there --random tape"),
               place.changes(state=SECOND.content(), there=TWO_SIGNED)))
        write(place.path("there"), there)
        check(f"PUBLIC of {what}, by a link", (PUBLISHED, "", 0, []),
              (*place.line(f"make new link {SPEC} --random tape"),
               place.changes(state=SECOND.content(), there=MADE.public(), new=MADE.content())))
    place = Place()
    os.symlink("target", place.path("link"))
    place.keep()
    check("OUT that is made, by a link that leads to nothing", (SIGNED, "", 0, []),
          (*place.line("sign state fw-2 m link --random tape"),
           place.changes(state=SECOND.content(), target=TWO_SIGNED)))
    check("its mode is that of any file", 0o644, mode_of(place.path("target")))
    check("OUT is /dev/null", (SIGNED, "", 0), place.line("sign state fw-2 m /dev/null"))
    check("OUT is standard error, a pipe", (FAILED.encode(), note("/dev/stderr", "errors").encode(), 3),
          run_bytes(place, "sign", "state", "fw-2", "m", "/dev/stderr"))
    check("OUT and both outputs are /dev/null", ("", "", 0),
          place.line("sign state fw-2 m /dev/null", at=">/dev/null 2>/dev/null"))
    check("OUT is /dev/full", (FAILED, note("/dev/full", "write", errno.ENOSPC), 3),
          place.line("sign state fw-2 m /dev/full"))
    check("PUBLIC is /dev/full", (FAILED, note("/dev/full", "write", errno.ENOSPC), 3),
          place.line(f"make new /dev/full {SPEC} --random tape"))
    check("and the key is made", MADE.content(), read(place.path("new")))
    named_pipe()


def run_bytes(place, *words):
    run = subprocess.run([Machine.hbsign, *words], cwd=place.folder, capture_output=True, timeout=LONGEST)
    return run.stdout, run.stderr, run.returncode


def named_pipe():
    """A named pipe as OUT: the program waits for a reader, which gets the signature."""
    place = Place()
    os.mkfifo(place.path("pipe"))
    process = subprocess.Popen([Machine.hbsign, "sign", "state", "fw-2", "m", "pipe", "--random", "tape"],
                               cwd=place.folder, stdout=subprocess.PIPE, stderr=subprocess.PIPE)
    time.sleep(0.3)
    check("OUT is a pipe that nobody reads yet", None, process.poll())
    reader = os.open(place.path("pipe"), os.O_RDONLY | os.O_NONBLOCK)
    came = b""
    end = time.monotonic() + 10
    while time.monotonic() < end and len(came) < SIZE:
        try:
            more = os.read(reader, 65536)
            came += more
        except BlockingIOError:
            more = b""
        if not more:
            time.sleep(0.01)
    os.close(reader)
    try:
        out, err = process.communicate(timeout=10)
    except subprocess.TimeoutExpired:
        process.kill()
        out, err = process.communicate()
    check("OUT is a pipe", (SIGNED.encode(), b"", 0, TWO_SIGNED), (out, err, process.returncode, came))


def order():
    place = Place(short=TAPE[:47], empty=b"", damaged=THIRD[:100] + b"?" + THIRD[101:])
    os.mkdir(place.path("folder"))
    place.keep()
    changed, taken = "refused 21 Changed\n", "refused 50 KeyThere\n"
    ended = "refused 23 RandomFailed\n"
    for out in ("none/s", "folder", "state", "m", "m/s", "/dev/full"):
        for line, wanted in ((f"sign state fw-1 m2 {out}", (changed, "", 1)),
                             (f"sign damaged n m {out}", ("refused 43 Damaged slot 0\n", "", 1)),
                             (f"sign public n m {out}", ("refused 40 NoKey\n", "", 1)),
                             (f"make state {out} {SPEC}", (taken, "", 1)),
                             (f"sign state fw-2 m {out} --random empty", (ended, note("empty", "end"), 3)),
                             (f"sign state fw-2 folder {out}",
                              ("refused 27 MessageRead\n", note("folder", "read", errno.EISDIR), 3))):
            check(line, (*wanted, []), (*place.line(line), place.changes()))
        line = f"make new {out} {SPEC} --random short"
        check(line, (ended, note("short", "end"), 3, []), (*place.line(line), place.changes(new=b"\0")))
        os.remove(place.path("new"))
    for out, error in (("none/s", errno.ENOENT), ("folder", errno.EISDIR), ("m/s", errno.ENOTDIR), ("", errno.ENOENT)):
        place = Place()
        os.mkdir(place.path("folder"))
        place.keep()
        refused = FAILED, note(out, "open", error), 3
        for turn in ("", ", once more"):
            check(f"sign to '{out}'{turn}", (*refused, []),
                  (*place.outcome("sign", "state", "fw-2", "m", out, "--random", "tape"),
                   place.changes(state=SECOND.content())))
        check(f"another message after '{out}'", (changed, "", 1), place.line("sign state fw-2 m2 s-2"))
        check(f"the repeat after '{out}'", (SIGNED, "", 0, []),
              (*place.line("sign state fw-2 m out"), place.changes(state=SECOND.content(), out=TWO_SIGNED)))
        check(f"make to '{out}'", refused, place.outcome("make", "new", out, SPEC, "--random", "tape"))
        check(f"make to '{out}': the key", MADE.content(), read(place.path("new")))
        check(f"make to '{out}', again", (taken, "", 1), place.outcome("make", "new", out, SPEC, "--random", "tape"))
    place = Place()
    check("all leaves are retired", ("retired upto 32\n", "", 0), place.line("retire state 32"))
    check("no leaf is left, and OUT has no folder", ("refused 22 Exhausted\n", "", 1),
          place.line("sign state fw-2 m none/s"))
    check("a spec that is none, and no folder", ("refused 51 BadSpec\n", "", 2),
          place.line("make new none/p lms:H6/W8"))


def order_of_calls():
    """OUT and PUBLIC are opened after the records are synced, and aren't truncated by that. STATE's mode is set before
    the secret is written."""
    if not Machine.strace:
        return
    calls = "openat open creat stat statx newfstatat lstat access faccessat faccessat2 readlink readlinkat truncate " \
            "ftruncate rename renameat renameat2 unlink unlinkat fdatasync fsync"
    for line, name in (("sign state fw-2 m there --random tape", "there"),
                       (f"make new there {SPEC} --random tape", "there")):
        place = Place(there=b"?" * 6000)
        check(f"{line}: it is done", 0, place.line(line, before=tracing(place, calls))[2])
        lines = read(place.path("../calls")).decode().split("\n")
        at = [number for number, text in enumerate(lines) if f'"{name}"' in text]
        synced = [number for number, text in enumerate(lines) if text.startswith("fdatasync(")]
        check(f"{line}: it is met after the last sync of the state file", True, bool(at) and min(at) > max(synced))
        check(f"{line}: it isn't cut by its opening, and no path of it is cut, removed or renamed", [],
              [text for text in (lines[number] for number in at)
               if "O_TRUNC" in text or text.startswith(("creat(", "truncate(", "unlink", "rename"))])
    for there in (None, b""):
        place = Place(**({} if there is None else {"new": there}))
        place.line(f"make new published {SPEC} --random tape", 
                   before=tracing(place, "fchmod chmod fchmodat pwrite64"))
        lines = read(place.path("../calls")).decode().split("\n")
        modes = [number for number, text in enumerate(lines) if "chmod" in text and "0600" in text]
        secrets = [number for number, text in enumerate(lines) if text.startswith("pwrite64(") and ", 256, " in text]
        what = "a new file" if there is None else "an empty one"
        check(f"the mode is set before the secret is written: {what}", True,
              bool(modes) and bool(secrets) and modes[0] < secrets[0] or (modes, secrets))
