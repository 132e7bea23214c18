"""Lines with closed descriptors, and with standard streams that are the state file."""
import errno, itertools, os, subprocess

from counts import check
from model import reply
from system_errors_parts.place import (FAILED, KEY, LISTED, MADE, MADE_IN_ONE, MIGRATED, PUBLISHED, RETIRED, SECOND,
                                       SIGNED, TWO_SIGNED, Machine, Place, failing, is_injected, note, read)

# lines, what they print, and which files they change
LINES = {
    "make new published lms:H5/W2 --random tape": (PUBLISHED, {"new": MADE.content(), "published": MADE.public()}),
    "make new published lms:H5/W2 --random tape --format 1": (PUBLISHED, {"new": MADE_IN_ONE.content(),
                                                                         "published": MADE.public()}),
    "sign state fw-2 m out --random tape": (SIGNED, {"state": SECOND.content(), "out": TWO_SIGNED}),
    "verify public m s": ("verified\n", {}),
    "serve state --random tape": (None, {"state": SECOND.content()}),
    "retire state 5": ("retired upto 5\n", {"state": RETIRED.content()}),
    "audit state": ("\n".join(KEY.report()) + "\n", {}),
    "list state": (LISTED, {}),
    "public state again": (f"public {KEY.public().hex()}\n", {"again": KEY.public()}),
    "audit-given public m s": ("given 1 signatures, no leaf twice\n", {}),
    "migrate old new": ("migrated 2 records\n", MIGRATED),
    "--help": (None, {}),
}


def closed_descriptors():
    """Each command with any of the descriptors 0, 1 and 2 closed: it opens none of its files as one of them."""
    for line, (printed, files) in LINES.items():
        serves = line.startswith("serve")
        if serves:
            printed = reply(0, TWO_SIGNED)
        elif line == "--help":
            printed = subprocess.run([Machine.hbsign, line], capture_output=True).stdout
        else:
            printed = printed.encode()
        for count in range(4):
            for closed in itertools.combinations((0, 1, 2), count):
                place = Place()
                output, errors = (os.path.join(place.outside, name) for name in ("output", "errors"))
                streams = (("<input", ">../output", "2>../errors"), ("<&-", ">&-", "2>&-"))
                at = " ".join(streams[number in closed][number] for number in (0, 1, 2))
                *_, status = place.line(line, at=at)
                # without an input `serve` has nothing to answer
                answers = not serves or 0 not in closed
                fails = 1 in closed and answers
                wanted = {
                    "output": None if 1 in closed else printed if answers else b"",
                    "errors": None if 2 in closed else b"refused 36 WriteFailed\n" if fails and serves else b"",
                    "status": 3 if fails else 0,
                    "other files": [],
                }
                came = {
                    "output": read(output) if os.path.exists(output) else None,
                    "errors": read(errors) if os.path.exists(errors) else None,
                    "status": status,
                    "other files": place.changes(**(files if answers else {})),
                }
                which = " and ".join(map(str, closed)) or "none"
                check(f"{line}: closed {which}", wanted, came)


def refusals_without_descriptors():
    """Failures of the machine with closed descriptors."""
    missing = note("nothing", "open", errno.ENOENT)
    for line in ("sign nothing n m out", "audit nothing", "list nothing", "public nothing out",
                 "verify public m nothing", "migrate nothing new"):
        place = Place()
        check(f"{line}: closed 0", (FAILED, missing, 3), place.line(line, at="<&-"))
        check(f"{line}: closed 1", ("", missing, 3), place.line(line, at=">&-"))
        check(f"{line}: closed 2", (FAILED, "", 3), place.line(line, at="2>&-"))
        check(f"{line}: all closed", ("", "", 3), place.line(line, at="<&- >&- 2>&-"))
        check(f"{line}: a full standard error", (FAILED, "", 3), place.line(line, at="2>/dev/full"))
        check(f"{line}: the files", [], place.changes())
    place = Place()
    check("serve nothing: closed 2", ("", "", 3), place.line("serve nothing", at="2>&-"))
    check("serve nothing: closed 1", ("", missing + FAILED, 3), place.line("serve nothing", at=">&-"))
    check("sign to its closed output", 3, place.line("sign state fw-2 m /dev/stdout --random tape", at=">&-")[2])
    check("sign to its closed output: the files", [], place.changes(state=SECOND.content()))
    if not Machine.strace:
        return
    # without a null device nothing else is opened in place of a closed descriptor
    for line in ("sign state fw-2 m out --random tape", "serve state --random tape", "retire state 5",
                 "migrate old new"):
        place = Place()
        *_, status = place.line(line, at="<&-", before=failing(place, "openat", errno.ENOENT, 1, "/dev/null"))
        if is_injected(place):
            check(f"{line}: no null device", (True, []), (status != 0, place.changes()))


def streams_that_are_state():
    """If a standard stream is STATE, by whatever name, nothing is recorded and no byte of STATE changes."""
    output, errors = "the standard output", "the standard error"
    streams = (("1<>state", output), (">>state", output), ("2<>state", errors), ("2>>state", errors),
               ("1<>state 2>&1", None), (">>state 2>>hard", None), ("2<>state >../output", errors))
    lines = ("make {} published lms:H5/W2 --random tape", "sign {} fw-2 m out --random tape",
             "serve {} --random tape", "retire {} 5", "audit {}", "list {}", "public {} out", "migrate {} new",
             "migrate old {}")
    for line in lines:
        for name in ("state", "./link", "hard", "/dev/stdout", "/proc/self/fd/2"):
            for at, which in streams:
                if (name == "/dev/stdout" and "1<>" not in at and not at.startswith(">>")) or \
                        (name == "/proc/self/fd/2" and "2" not in at):
                    continue
                place = Place()
                os.symlink("state", place.path("link"))
                os.link(place.path("state"), place.path("hard"))
                place.keep()
                serves = line.startswith("serve")
                said = note(name, "state is output") if which == output else ""
                wanted = ("" if serves or which != errors or "../output" in at else FAILED,
                          said + (FAILED if serves else "") if which == output else "", 3, [])
                came = place.line(line.format(name), at=at + " <input")
                check(f"{line.format(name)} {at}", wanted, (*came, place.changes()))
                if "../output" in at:
                    check(f"{line.format(name)} {at}: the output", b"" if serves else FAILED.encode(),
                          read(os.path.join(place.outside, "output")))
    # .. that is an empty file, for a new key
    for at, wanted in ((">new", ("", note("new", "state is output"), 3)), ("2>new", (FAILED, "", 3)),
                       (">new 2>&1", ("", "", 3))):
        place = Place()
        check(f"make new {at}", (*wanted, []),
              (*place.line("make new published lms:H5/W2 --random tape", at=at), place.changes(new=b"")))
        place = Place()
        check(f"migrate old new {at}", (*wanted, []),
              (*place.line("migrate old new", at=at), place.changes(new=b"")))
