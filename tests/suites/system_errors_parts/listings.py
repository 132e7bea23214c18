"""Outputs that end in the middle of a listing, and state files that lost a gate or a page."""
import errno, fcntl, os, subprocess

from counts import check
from model import Signer, Tape, bound_body, listing_of, migrated, records_of, reply, state_file, warning
from system_errors_parts.place import LONGEST, MESSAGE, Machine, Place, failing, is_injected, read, write


def read_from_pipe(place, line, size):
    """What a line writes into a pipe of one page whose reader takes `size` bytes and closes it, and its outcome."""
    taker, giver = os.pipe()
    fcntl.fcntl(taker, fcntl.F_SETPIPE_SZ, 4096)
    with subprocess.Popen([Machine.hbsign, *line.split(" ")], cwd=place.folder, stdout=giver,
                          stderr=subprocess.PIPE) as run:
        os.close(giver)
        with os.fdopen(taker, "rb") as reader:
            came = reader.read(size)
        return came, run.communicate(timeout=LONGEST)[1], run.returncode


def long_listings():
    """A listing of more than 8 KiB is written in parts. If the output takes only some, the status is 3, standard error
    is empty, and what was taken is a prefix of the listing."""
    key = Signer("lms:H10/W1", Tape(bytes(range(48))))
    names = [bound_body(b"%0128d" % leaf, leaf, bytes(32), bytes([leaf] * 32)) for leaf in range(100)]
    place = Place(state=state_file([*key.bodies, *names]))
    listed = ("\n".join(Signer.of([*key.bodies, *names]).listing()) + "\n").encode()
    output = os.path.join(place.outside, "output")
    check("a long listing", (listed.decode(), "", 0), place.line("list state"))
    for size in (1, 4096, 4097, 12345):
        check(f"a long listing, whose reader leaves after {size} bytes", (listed[:size], b"", 3),
              read_from_pipe(place, "list state", size))
    check("a long listing, whose reader takes all", (listed, b"", 0), read_from_pipe(place, "list state", 10 ** 6))
    for limit in (0, 1, 8191, 8192, 8193, 16384, len(listed) - 1):
        check(f"a long listing, into a file of at most {limit} bytes", (("", "", 3), listed[:limit]),
              (place.line("list state", at=">../output", limit=limit), read(output)))
    check("a long listing, into a file with room for it", (("", "", 0), listed),
          (place.line("list state", at=">../output", limit=len(listed)), read(output)))
    if Machine.strace:
        for error in (errno.ENOSPC, errno.EIO):
            write(output, b"")
            came = place.line("list state", at=">>../output", before=failing(place, "write", error, 2, "../output"))
            taken_first = read(output)
            check(f"a long listing, whose second write gives {errno.errorcode[error]}", (("", "", 3), True, True),
                  (came, is_injected(place), 0 < len(taken_first) <= 8192 and listed.startswith(taken_first)))
    check("a long listing: the files", [], place.changes())


def failing_output():
    """A line that can't be written to standard output isn't written later, as when the program exits."""
    place = Place()
    output = os.path.join(place.outside, "output")
    for line in "verify public m s", "audit-given public m s", "list state", "audit state", "--version", "--help":
        for error in (errno.ENOSPC, errno.EIO, errno.EPIPE) if Machine.strace else ():
            write(output, b"")
            came = place.line(line, at=">>../output", before=failing(place, "write", error, 1, "../output"))
            check(f"{line}: the write of its line gives {errno.errorcode[error]}", (("", "", 3), True, b""),
                  (came, is_injected(place), read(output)))
    check("an output that fails: the files", [], place.changes())


def cut_short():
    """A gate, or a page of 4 KiB, is lost within a state file, so that the file seems to end there. Each line that
    opens it warns, and goes on with the records before. Only the loss of the last record's gate shows nothing."""
    key = Signer("hss:H5/W2,H5/W2", Tape(bytes(range(48))), 1)
    for number in range(40):
        key.sign(b"fw-%d" % number, MESSAGE, Tape(bytes(range(60 + number, 172 + number))))
    whole, last = key.content(), len(key.bodies) - 1
    lost = {f"gate {gate}": written_over(whole, 256 * gate, bytes([(0xA4, 0, 0xFF)[gate % 3]]))
            for gate in range(1, last + 1)}
    lost |= {f"page {at // 4096}": written_over(whole, at, bytes(len(whole[at:at + 4096])))
             for at in range(4096, len(whole), 4096)}
    for name, content in lost.items():
        place, said = Place(state=content), warning("state", content)
        check(f"{name} is lost: is it seen?", name != f"gate {last}", said != "")
        check(f"{name} is lost: audit, list and the files",
              (("\n".join(Signer.of(records_of(content)).report()) + "\n", said, 0),
               ("\n".join(listing_of(content)) + "\n", said, 0), []),
              (place.line("audit state"), place.line("list state"), place.changes()))
    for name in "gate 1", "gate 2", f"gate {last - 1}", f"gate {last}", "page 1", "page 2":
        lines_of_a_shortened(name, lost[name])
    lines_of_a_shortened("nothing", whole)


def written_over(content, at, data):
    return content[:at] + data + content[at + len(data):]


def lines_of_a_shortened(name, content):
    """Each line goes on with the records that are left of a state file, and warns if it has to."""
    tape = bytes(range(120, 232))
    place, said, key = Place(state=content, tape=tape), warning("state", content), Signer.of(records_of(content))
    check(f"{name} is lost: public", (f"public {key.public().hex()}\n", said, 0, key.public()),
          (*place.line("public state again"), read(place.path("again"))))
    check(f"{name} is lost: retire", ("retired upto 0\n", said, 0, content),
          (*place.line("retire state 0"), read(place.path("state"))))
    signature = key.sign(b"new", MESSAGE, Tape(tape))
    service = place.serve("state", "--random", "tape")
    check(f"{name} is lost: serve warns at once", (said, None), service.said(said))
    check(f"{name} is lost: serve", (reply(0, signature), (b"", "", 0)), (service.ask(b"new", MESSAGE), service.end()))
    said = warning("state", read(place.path("state")))
    check(f"{name} is lost: sign", (f"signed new {len(signature)} bytes\n", said, 0, signature),
          (*place.line("sign state new m out"), read(place.path("out"))))
    place, said = Place(state=content), warning("state", content)
    *files, count = migrated(content, b"")
    check(f"{name} is lost: migrate", (f"migrated {count} records\n", said, 0, *files),
          (*place.line("migrate state moved"), *(read(place.path(file)) for file in ("state", "moved"))))
