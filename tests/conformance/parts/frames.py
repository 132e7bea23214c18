"""Cases of `serve`: requests and replies, and inputs that end anywhere."""
import hashlib

from model import Tape, frame, served, state_file
from parts.records import bound, lms_key, tape
from parts.runs import frames, fresh, session
from parts.suite import BYTES, ONE, TWO, changed, described_file, flipped, longest, state_of, status_of, suite


def serving():
    suite.begin("frames")
    suite.keep(state_of("fresh"), fresh().content())
    suite.keep(state_of("fresh-levels"), fresh("hss:H5/W2,H5/W2").content())
    two = bytes.fromhex("0466772d310000000101") + bytes.fromhex("0466772d310000000102")
    session("two requests under one name", fresh("lms:H5/W8"), two, tape(0x30, 32),
            "add:000000050c with:lms.signature add:1500000000")
    session("no request", fresh("lms:H5/W8"), b"", b"", "")
    session("a name of no byte", fresh("lms:H5/W8"), bytes(5), b"", "add:2200000000")
    session("an input that ends inside a name", fresh("lms:H5/W8"), bytes.fromhex("0466"), b"", "add:2300000000")
    cut = bytes.fromhex("0466772d310000000201")
    session("an input that ends inside a message", fresh("lms:H5/W8"), cut, tape(0x30, 32), "add:1b00000000")
    key = fresh("lms:H5/W8")
    key.retire(32)
    session("an input that ends inside a message, and no leaf is left", key, cut, b"", "add:1600000000")
    for size in range(len(two)):
        session(f"the first {size} bytes of two requests", fresh(), two[:size], tape(0x30, 32))
    for at in range(len(two)):
        suite.case(f"byte {at} of two requests changed")
        for value in (two[at] ^ 1, 0x00, 0x05, 0x20, 0x21, 0x7E, 0x7F, 0x80, 0xFF):
            if value != two[at]:
                described_file("state", fresh().content())
                frames(fresh(), changed(two, at, bytes([value])), tape(0x30, 64))
    one_session_of_many()
    refusals_in_frames()
    cut_frames()
    files_of_serve()


def one_session_of_many():
    key = fresh("hss:H5/W2,H5/W2")
    given = b"".join(frame(b"fw-%d" % number, b"message %d" % number) for number in range(34))
    given += frame(b"fw-0", b"message 0") + frame(b"fw-0", b"message 1") + frame(b"fw-33", b"message 33")
    drawn = hashlib.shake_256(b"two levels").digest(2 * 80 + 34 * 32)
    story = session("two levels: 34 names, three of them again", key, given, drawn)
    story.has_size(256 * 37 + 1, [30, 30])
    story.audit()
    frames(key, frame(b"fw-1", b"message 1") + frame(b"fw-34", b""), tape(1))
    story.audit()
    key = fresh()
    long = hashlib.shake_256(b"a message").digest(20000)
    session("names and messages of the least and of great sizes", key,
            frame(b"!", b"") + frame(b"~" * longest(), long) + frame(b"-m", long[:64]) + frame(b"--random", long[:63]),
            tape(7, 128))
    key = fresh("hss:H5/W4")
    session("one level", key, frame(b"fw-1", ONE) + frame(b"fw-1", ONE), tape(7, 32))


def refusals_in_frames():
    """After each refusal the rest of the message is skipped, and the next request is answered."""
    after, long = frame(b"fw-1", ONE), hashlib.shake_256(b"a message").digest(20000)
    for what, name in (("no byte", b""), ("65 bytes", b"n" * 65),
                       ("129 bytes", b"n" * 129), ("255 bytes", b"n" * 255), ("a blank", b"f w"),
                       ("a zero", b"\0"),
                       ("a byte 7f", b"fw\x7f"), ("a byte 80", b"fw\x80"), ("a line's end", b"fw\n")):
        for message in (b"", ONE, after):
            session(f"a name of {what}, {len(message)} bytes of a message", fresh(), frame(name, message) + after,
                    tape(0x30, 32))
    session("a name that is none, a long message", fresh(), frame(b"", long) + after, tape(0x30, 32))
    key = fresh()
    key.sign(b"fw-0", ONE, Tape(BYTES))
    given = frame(b"fw-0", TWO) + frame(b"fw-0", b"") + frame(b"fw-0", long) + frame(b"fw-0", ONE) + after
    session("another message under a name", key, given, tape(0x30, 32))
    key = fresh()
    key.sign(b"fw-0", ONE, Tape(BYTES))
    key.retire(32)
    given = frame(b"fw-2", long) + frame(b"fw-2", b"") + frame(b"fw-0", ONE) + frame(b"fw-0", TWO) + after
    session("no leaf is left", key, given)
    session("random bytes end", fresh(), frame(b"fw-2", ONE) + frame(b"fw-3", long) + after + frame(b"fw-2", ONE),
            tape(0x30, 32))
    session("no random bytes", fresh("hss:H5/W2,H5/W2"), frame(b"fw-2", long) + after)
    session("the I of a key again", fresh("hss:H5/W2,H5/W2"), frame(b"fw-2", long) + after,
            BYTES[:16] + tape(0x30, 112))
    if suite.version == 1:
        key = fresh()
        key.move()
        session("a key that has moved", key, frame(b"fw-2", long) + after)
    for spec, slot, at in (("lms:H5/W2", 0, 189), ("hss:H5/W2,H5/W2", 1, 118), ("hss:H5/W2,H5/W2", 0, 189)):
        key = fresh(spec)
        key.sign(b"fw-0", ONE, Tape(tape(0x30, 112)))
        changed_root = [found for found in key.current if found.slot == slot][0]
        changed_root.root = flipped(changed_root.root, 0)
        key.bodies[slot] = changed(key.bodies[slot], at, changed_root.root)
        session(f"{spec}: the root in slot {slot} is another", key,
                frame(b"fw-2", long) + after + frame(b"fw-0", TWO) + frame(b"fw-0", ONE), b"",
                "add:1c00000004{0:08x} add:1c00000004{0:08x} add:1500000000 add:1c00000004{0:08x}".format(slot))


def cut_frames():
    """An input that ends inside a request: the last reply, and the records."""
    most = b"\xff\xff\xff\xff"
    for name, given in (("a name of 255 bytes that aren't there", b"\xff" + b"n" * 200),
                        ("a name without a size of a message", b"\x04fw-1"),
                        ("a name that is none, without a size of a message", b"\x01 \0\0\0"),
                        ("no name, without a size of a message", b"\0\0\0\0"),
                        ("a message of 2^32 - 1 bytes", b"\x04fw-1" + most + ONE),
                        ("a message of which nothing is there", b"\x04fw-1\0\0\0\1"),
                        ("a name that is none, a message of 2^32 - 1 bytes", b"\x01 " + most + ONE),
                        ("no name, a message that isn't there", b"\0\0\0\0\1")):
        session(f"an input that ends inside {name}", fresh(), frame(b"fw-0", ONE) + given, tape(0x30, 64))
    for name, message, drawn in (("new", b"fw-9", tape(0x30, 112)), ("new, without random bytes", b"fw-9", b""),
                                 ("new, with the key's I", b"fw-9", BYTES[:112])):
        session(f"two levels: an input that ends inside the message of a name that is {name}", fresh("hss:H5/W2,H5/W2"),
                b"\x04" + message + most + ONE, drawn)
    key = fresh()
    key.sign(b"fw-1", ONE, Tape(BYTES))
    session("an input that ends inside the message of a name that is bound", key, b"\x04fw-1\0\0\0\2" + ONE)
    if suite.version == 1:
        key = fresh()
        key.move()
        session("an input that ends inside a message, and the key has moved", key, b"\x04fw-1\0\0\0\2" + ONE)


def files_of_serve():
    """Files that are refused: a line on standard error, and nothing on standard output."""
    def refused(words, line):
        suite.step("serve", words, status_of(line), "", line)
    suite.case("state files that aren't served")
    suite.file("input", frame(b"fw-1", ONE))
    suite.step("folder", "folder")
    suite.step("file", "tape", "-")
    refused("serve nothing", "refused 53 FileFailed")
    refused("serve folder", "refused 53 FileFailed")
    suite.step("missing", "nothing")
    content = fresh().content()
    described_file("state", content)
    refused("serve state --random nothing", "refused 53 FileFailed")
    suite.has("state", content)
    for bodies, edit, line in (([lms_key()], (0, b"\0"), "refused 40 NoKey"),
                               ([lms_key()], (1, b"\2"), "refused 41 NotKeyFile"),
                               ([lms_key()], (11, b"\0"), "refused 42 Version"),
                               ([lms_key(), bound(0)], (300, b"\xff"), "refused 43 Damaged slot 1"),
                               ([lms_key(), bound(3), bound(2)], (0, b"\xa5"), "refused 44 Illegal slot 2")):
        content = changed(state_file(bodies), *edit)
        described_file("state", content)
        refused("serve state --random tape", line)
        suite.has("state", content)
    session("an option with its file", fresh(), frame(b"fw-1", ONE), tape(0x30, 32), None, "--random=tape")
    key = fresh()
    described_file("state", key.content())
    written, _ = served(key, Tape(tape(0x30, 32)), frame(b"fw-1", ONE))
    suite.step("serve", "serve --random=tape -- state", 0,
               f"digest:{len(written)}:{hashlib.sha256(written).hexdigest()}")
    suite.has("state", key.content())
    suite.case("wrong lines of serve")
    suite.file("input", frame(b"fw-1", ONE))
    for words in ("serve state more", "serve state --random", "serve --nonsense state",
                  "serve state --random tape --random tape"):
        suite.step("usage", words)
