"""Cases of names of each length, in runs and in frames, and of `--format`."""
import hashlib

from model import LONGEST_NAME, Signer, Tape, frame
from parts.records import lms_signature, tape
from parts.runs import Story, frames, fresh, session
from parts.suite import BYTES, ONE, TWO, changed, described_file, flipped, longest, new_key, suite


def names():
    suite.begin("names")
    long_names()
    long_names_in_frames()
    if suite.version == 2:
        formats()


def long_names():
    """Names around the longest of each version. In version 1 names of 65 to 128 bytes are refused (33), and take no
    leaf. Each run opens the file again."""
    sizes = 64, 65, 127, 128
    for spec, drawn in (("lms:H5/W2", 32), ("hss:H5/W2,H5/W2", 112)):
        story = Story(f"{spec}: names of 64, 65, 127 and 128 bytes, twice, and with another message")
        story.make(spec, BYTES)
        for number, size in enumerate(sizes):
            story.sign(b"n" * size, ONE, tape(0x30 + 0x20 * number, drawn if number == 0 else 32))
        for message in (ONE, TWO):
            for size in sizes:
                story.sign(b"n" * size, message, b"")
        # another name of the same length, and a prefix of it
        story.sign(b"n" * (longest() - 1) + b"m", TWO, tape(0xC0, 32))
        story.sign(b"n" * (longest() - 2), TWO, tape(0xE0, 32))
        story.audit()
        suite.refused(f"sign state {'n' * 129} message out", "refused 34 BadName")
        suite.step("kept")
        suite.refused(f"sign nothing {'n' * 128} message out", "refused 53 FileFailed")
    name, key = b"n" * 65, new_key("hss:H5/W2,H5/W2")
    story = Story("two levels: a name of 65 bytes makes a tree, where its version has it")
    story.make("hss:H5/W2,H5/W2", BYTES[:48])
    story.sign(name, ONE, tape(0x30, 112))
    story.has_size(*((257, [32, 0]) if suite.version == 1 else (769, [31, 31])))
    story.sign(b"fw-1", ONE, tape(0x30, 112) if suite.version == 1 else tape(0xA0, 32))
    story = Story("a name of 65 bytes where no leaf is left")
    story.make("lms:H5/W2", BYTES[:48])
    story.retire(32)
    story.sign(name, ONE, b"")
    for what, message, drawn in (("random bytes", ONE, b""), ("a message", None, tape(0x30, 112))):
        story = Story(f"a name of 65 bytes without {what}")
        story.make("hss:H5/W2,H5/W2", BYTES[:48])
        story.sign(name, message, drawn)
    key.current[0].root = flipped(key.current[0].root, 3)
    key.bodies[0] = changed(key.bodies[0], 189, key.current[0].root)
    story = Story("a name of 65 bytes, and another root of the key", key)
    story.sign(name, ONE, tape(0x30, 112))
    files_of_a_long_name()
    if suite.version == 1:
        key = new_key("lms:H5/W2")
        key.move()
        story = Story("a name of 65 bytes, and the key has moved", key)
        story.sign(name, ONE, tape(0x30, 32))


def files_of_a_long_name():
    """Missing files are reported before a name that is too long for the version, and an OUT that can't be written after
    it."""
    key = new_key("lms:H5/W2")
    signature = None if suite.version == 1 else key.sign(b"n" * 128, ONE, Tape(tape(0x70, 32)))
    Story("a name of 128 bytes, and other files", new_key("lms:H5/W2"))
    suite.file("message", ONE)
    suite.file("tape", tape(0x70, 32))
    suite.step("folder", "folder")
    name = "n" * 128
    for words in (f"sign nothing {name} message out", f"sign state {name} nothing out",
                  f"sign state {name} message out --random nothing"):
        suite.refused(words, "refused 53 FileFailed")
        suite.step("kept")
    for out in ("folder", "state", "message"):
        suite.refused(f"sign state {name} message {out} --random tape",
                      "refused 33 LongName" if suite.version == 1 else "refused 53 FileFailed")
        suite.has("state", key.content())
    if signature:
        suite.run(f"sign state {name} message out", f"signed {name} {len(signature)} bytes")
        suite.has("out", signature)
    else:
        suite.step("missing", "out")
    suite.has("message", ONE)
    suite.has("state", key.content())


def formats():
    """`--format` is 1 or 2, may be anywhere in the line, and is 2 by default."""
    keys = {version: Signer("lms:H5/W2", Tape(BYTES[:48]), version) for version in LONGEST_NAME}
    line = f"public {keys[1].public().hex()}"
    suite.case("a key in each format")
    suite.file("tape", BYTES[:48])
    for number, (words, version) in enumerate((
            ("state-{} public lms:H5/W2 --random tape", 2),
            ("state-{} public lms:H5/W2 --random tape --format 1", 1),
            ("state-{} public lms:H5/W2 --random tape --format 2", 2),
            ("--format 1 state-{} public lms:H5/W2 --random=tape", 1),
            ("state-{} --format=1 public --random tape lms:H5/W2", 1),
            ("--format=2 --random tape -- state-{} public lms:H5/W2", 2),
            ("state-{} public --format 02 lms:H5/W2 --random tape", 2),
            ("state-{} public lms:H5/W2 --random tape --format=0001", 1))):
        suite.run(f"make {words.format(number)}", line)
        suite.has(f"state-{number}", keys[version].content())
        suite.has("public", keys[1].public())
        suite.run(f"audit state-{number}", *keys[version].report())
    for version in LONGEST_NAME:
        suite.refused(f"make state-{version - 1} public lms:H5/W2 --random tape --format {version}",
                      "refused 50 KeyThere")
        suite.step("kept")
    for spec in ("hss:H5/W2,H5/W4,H5/W2", "xmss:10"):
        suite.case(f"a key in each format: {spec}")
        suite.file("tape", BYTES[:96])
        for version in LONGEST_NAME:
            key = Signer(spec, Tape(BYTES[:96]), version)
            suite.run(f"make state-{version} public {spec} --format {version} --random tape",
                      f"public {key.public().hex()}")
            suite.has(f"state-{version}", key.content())
            suite.has("public", key.public())
            suite.run(f"audit state-{version}", *key.report())
    suite.case("formats that are none: no file is made")
    suite.file("tape", BYTES[:48])
    for format in ("0", "3", "10", "11", "12", "21", "22", "257", "258", "65537", "65538", "4294967297", "4294967298",
                   "18446744073709551617", "18446744073709551618", "-1", "+1", "+2", "1.", "2.0", "0x1", "x", "one",
                   "v2", "Two", "", "1,2"):
        suite.step("usage", f"make state public lms:H5/W2 --random tape --format {format}")
        suite.step("usage", f"make state public lms:H5/W2 --random tape --format={format}")
    for words in ("--format", "--format 1 --format 1", "--format 2 --format 1", "--format=1 --format=2",
                  "--formats 1"):
        suite.step("usage", f"make state public lms:H5/W2 --random tape {words}")
    # a wrong line is reported before a wrong spec
    suite.step("usage", "make state public lms:H6/W8 --random tape --format 3")
    for version in LONGEST_NAME:
        suite.refused(f"make state public lms:H6/W8 --random nothing --format {version}", "refused 51 BadSpec")
    for name in ("state", "public"):
        suite.step("missing", name)
    suite.case("no other command has a format")
    described_file("state", keys[1].content())
    suite.file("message", ONE)
    suite.file("public", keys[1].public())
    suite.file("signature", lms_signature)
    for words in ("sign state name message out", "retire state 0", "audit state", "serve state",
                  "verify public message signature", "audit-given public message signature"):
        for format in LONGEST_NAME:
            suite.step("usage", f"{words} --format {format}")
    suite.step("usage", "--format 1 make state public lms:H5/W2")
    suite.has("state", keys[1].content())


def long_names_in_frames():
    """Names around the longest of each version. In version 1 the reply to names of 65 to 128 bytes is 33. The message
    is skipped, and the next request is answered."""
    after, long = frame(b"fw-1", ONE), hashlib.shake_256(b"a message").digest(20000)
    is_one = suite.version == 1
    refused = "add:2100000000"
    session("a name of 65 bytes in version 1 or 2", fresh(), frame(b"n" * 65, ONE), tape(0x30, 32),
            refused if is_one else None)
    for spec, drawn in (("lms:H5/W2", tape(0x30, 160)), ("hss:H5/W2,H5/W2", tape(0x30, 240)), ("xmss:10", b"")):
        given = b"".join(frame(b"n" * size, message) for message in (ONE, TWO, ONE)
                         for size in (64, 65, 128, 129, 127, 130))
        story = session(f"{spec}: names of 64, 65, 128, 129, 127 and 130 bytes, thrice", fresh(spec), given + after,
                        drawn)
        story.audit()
        # the same records, opened again
        frames(story.key, given, b"")
    for size in (65, 100, 128):
        for message in (b"", after, long):
            session(f"a name of {size} bytes, {len(message)} bytes of a message", fresh(),
                    frame(b"n" * size, message) + after, tape(0x30, 64))
        session(f"a name of {size} bytes, without random bytes", fresh(), frame(b"n" * size, ONE) + after, b"",
                f"{refused} add:1700000000" if is_one else "add:1700000000 add:1700000000")
        for cut in (b"", ONE):
            session(f"an input that ends inside the message of a name of {size} bytes, of which {len(cut)} is there",
                    fresh(), frame(b"n" * size, b"mm")[:-2] + cut, tape(0x30, 32),
                    refused if is_one else "add:1b00000000")
        session(f"an input that ends inside a name of {size} bytes", fresh(), frame(b"n" * size, ONE)[:size], b"",
                "add:2300000000")
        session(f"an input that ends before the size of the message of a name of {size} bytes", fresh(),
                frame(b"n" * size, ONE)[:size + 4], b"", "add:2300000000")
        key = fresh()
        key.retire(32)
        session(f"a name of {size} bytes, and no leaf is left", key, frame(b"n" * size, ONE) + after, b"",
                f"{refused} add:1600000000" if is_one else "add:1600000000 add:1600000000")
    if is_one:
        key = fresh()
        key.move()
        session("a name of 65 bytes, and the key has moved", key, frame(b"n" * 65, ONE), b"", "add:1f00000000")
