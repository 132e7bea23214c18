"""Cases of `make`, `sign` and `retire` with given random bytes."""
import hashlib

from model import Signer, Tape, frame, holds_key, records_of
from parts.records import second, tape
from parts.runs import Story, frames
from parts.suite import BYTES, ONE, TWO, changed, described_file, line_of_make, longest, new_key, state_of, suite


def signing():
    suite.begin("signing")
    orders_of_draws()
    requests()
    ends_of_tapes()
    levels_of_trees()
    names_and_specs()
    wrong_numbers()
    files_of_signers()
    xmss_signing()


def orders_of_draws():
    """Which field each of the random bytes 00, 01, 02, .. becomes."""
    for spec, drawn in (("lms:H5/W8", 32), ("lms:H5/W4", 32), ("lms:H5/W2", 32), ("lms:H5/W1", 32), ("hss:H5/W4", 32),
                        ("hss:H5/W8,H5/W8", 112), ("hss:H5/W4,H5/W2", 112), ("hss:H5/W1,H5/W4,H5/W2", 192),
                        ("hss:" + ",".join(["H5/W2"] * 8), 592)):
        story = Story(f"{spec}: the draws of a key and of its first signatures")
        story.make(spec, BYTES[:48])
        story.sign(b"fw-1", ONE, tape(0x30, drawn))
        story.sign(b"fw-2", TWO, tape(0xA0, 32))
        story.audit()


def requests():
    story = Story("a request, the same again, and another message under its name")
    story.make("lms:H5/W8", BYTES)
    story.sign(b"fw-1", ONE, BYTES)
    story.sign(b"fw-1", ONE, b"")
    story.sign(b"fw-1", TWO, b"")
    story.has_size(513, [31])
    story = Story("the same random bytes for a key of two levels and its first signature: I repeats")
    story.make("hss:H5/W8,H5/W8", BYTES)
    story.sign(b"fw-1", ONE, BYTES)
    story.has_size(257, [32, 0])
    story = Story("a source of one byte for ever")
    story.make("hss:H5/W8,H5/W8", b"\x11" * 48)
    story.sign(b"fw-1", ONE, b"\x11" * 200)
    story.has_size(257, [32, 0])
    story = Story("the same random bytes again, for a key of one tree: nothing of a draw is compared")
    story.make("lms:H5/W2", BYTES)
    story.sign(b"fw-1", ONE, BYTES)
    story.sign(b"fw-2", ONE, BYTES)
    story = Story("two levels: the first signature makes a tree")
    story.make("hss:H5/W8,H5/W8", BYTES)
    story.has_size(257, [32, 0])
    story.sign(b"fw-1", ONE, tape(0x30, 112))
    story.has_size(769, [31, 31])
    story.audit()
    key = new_key("hss:H5/W8,H5/W8")
    for number in range(32):
        key.sign(b"fw-%d" % number, ONE, Tape(tape(0x30 + number, 112)))
    story = Story("two levels: the 33rd name makes a second tree", key)
    story.sign(b"fw-32", ONE, tape(0x60, 112))
    story.has_size(9217, [30, 31])
    story.sign(b"fw-3", ONE, b"")
    story = Story("retiring, of one tree without a signature")
    story.make("lms:H5/W8", BYTES)
    story.retire(33)
    story.retire(0)
    story.has_size(257, [32])
    story.retire(32)
    story.sign(b"fw-1", ONE, BYTES)
    story.retire(5)
    story.has_size(513, [0])
    story = Story("retiring, and the leaf that signs next")
    story.make("lms:H5/W2", BYTES)
    for name, upto in ((b"fw-1", 1), (b"fw-2", 7), (b"fw-3", 3), (b"fw-4", 31)):
        story.sign(name, ONE, BYTES)
        story.retire(upto)
    story.sign(b"fw-5", ONE, BYTES)
    story.sign(b"fw-6", ONE, BYTES)
    story.sign(b"fw-2", ONE, b"")
    story.audit()
    story = Story("retiring, of two levels without a tree")
    story.make("hss:H5/W2,H5/W2", BYTES)
    story.retire(1)
    story.retire(0)
    story = Story("a message of no bytes, and one of some pieces")
    story.make("lms:H5/W2", BYTES)
    story.sign(b"fw-1", b"", BYTES)
    long = suite.keep("long", hashlib.shake_256(b"a message").digest(20000))
    story.sign(b"fw-2", suite.files[long], BYTES)
    story.sign(b"fw-1", b"\0", b"")


def ends_of_tapes():
    """Random bytes that end in a draw, for each draw: earlier records stay."""
    for size in (0, 1, 15, 16, 17, 47):
        suite.case(f"a key of {size} random bytes")
        suite.step("file", "tape", "-", *([f"add:{BYTES[:size].hex()}"] if size else []))
        suite.refused(line_of_make("state public lms:H5/W8 --random tape"), "refused 23 RandomFailed")
        suite.step("same", "state", "-", "add:00")
        suite.step("missing", "public")
        story_after(size)
    for size in (0, 31, 32, 63, 64, 95):
        suite.case(f"an XMSS key of {size} random bytes")
        suite.step("file", "tape", "-", *([f"add:{BYTES[:size].hex()}"] if size else []))
        suite.refused(line_of_make("state public xmss:10 --random tape"), "refused 23 RandomFailed")
        suite.step("same", "state", "-", "add:00")
    for size in (0, 15, 16, 47):
        suite.case(f"a key of two levels of {size} random bytes")
        suite.step("file", "tape", "-", *([f"add:{BYTES[:size].hex()}"] if size else []))
        suite.refused(line_of_make("state public hss:H5/W8,H5/W8 --random tape"), "refused 23 RandomFailed")
        suite.step("same", "state", "-", "add:00")
        suite.step("missing", "public")
    for size in (0, 31):
        story = Story(f"one tree: {size} random bytes for a signature")
        story.make("lms:H5/W2", BYTES)
        story.sign(b"fw-1", ONE, tape(0x30, size))
        story.sign(b"fw-1", TWO, tape(0x30, 32))
    for size in (0, 15, 16, 47, 48, 79, 80, 95, 96, 127, 128, 159, 160, 191):
        story = Story(f"three levels: {size} random bytes for a signature")
        story.make("hss:H5/W2,H5/W2,H5/W2", BYTES)
        story.sign(b"fw-1", ONE, tape(0x30, size))
        story.sign(b"fw-1", TWO, tape(0x08, 192))
        story.audit()
    story = Story("two levels: 128 random bytes serve a key and a tree, and the next name takes the tree's first leaf")
    story.make("hss:H5/W8,H5/W8", BYTES[:48])
    story.sign(b"fw-1", ONE, tape(0x30, 80))
    story.has_size(513, [31, 32])
    story.sign(b"fw-2", ONE, tape(0x80, 32))
    story.has_size(769, [31, 31])
    story = Story("three levels: the I of the second tree is the first's")
    story.make("hss:H5/W2,H5/W2,H5/W2", BYTES)
    story.sign(b"fw-1", ONE, tape(0x30, 80) + tape(0x30, 16))
    story.sign(b"fw-1", ONE, tape(0xA0, 16) + tape(0x30, 16))
    story.sign(b"fw-1", ONE, tape(0xA0, 112))
    story = Story("three levels: the I of the second tree is the key's, and no more bytes are left")
    story.make("hss:H5/W2,H5/W2,H5/W2", BYTES)
    story.sign(b"fw-1", ONE, tape(0x30, 80) + tape(0, 16))
    story.has_size(513, [31, 32, 0])
    story = Story("two levels: the I of a tree that others have replaced is drawn alone")
    story.make("hss:H5/W2,H5/W2", BYTES)
    for number in range(2):
        story.sign(b"fw-%d" % number, ONE, tape(0x30 + 0x70 * number, 112))
        story.retire(32)
    story.sign(b"fw-2", ONE, tape(0x30))
    story.has_size(1793, [30, 0])
    frames(story.key, frame(b"fw-2", ONE) * 2, tape(0x30, 16) + tape(0x08, 112))
    story.has_size(2305, [29, 31])


def story_after(size):
    """A key that couldn't be made is made by a repeat."""
    key = new_key("lms:H5/W8", BYTES[:48])
    suite.step("file", "tape", "-", f"add:{BYTES[:48].hex()}")
    suite.run(line_of_make("state public lms:H5/W8 --random tape"), f"public {key.public().hex()}")
    suite.has("state", key.content())


def levels_of_trees():
    story = Story("three levels: the first signature makes two trees")
    story.make("hss:H5/W8,H5/W8,H5/W8", BYTES)
    story.sign(b"fw-1", ONE, tape(0x30, 192))
    story.has_size(1025, [31, 31, 31])
    key = new_key("hss:H5/W8,H5/W8,H5/W8")
    for number in range(32):
        key.sign(b"n-%d" % number, ONE, Tape(hashlib.shake_256(b"%d" % number).digest(192)))
        key.retire(32)
    story = Story("three levels: 32 times a name and all leaves retired, then a new name", key)
    story.audit()
    if len(key.bodies) != 98 or key.left() != [31, 0, 0]:
        raise ValueError("98 records")
    story.sign(b"fw-1", ONE, tape(0x30, 192))
    story.has_size(25857, [30, 31, 31])
    story.sign(b"n-0", ONE, b"")
    story.sign(b"n-31", TWO, b"")


def names_and_specs():
    story = Story("names")
    story.make("lms:H5/W2", BYTES)
    for name in (b"a", b"n" * longest(), b"!~", b"caf-1.0_x/y\\z\"'", b"name=1", b"0"):
        out = f"sign state {name.decode()} message out --random tape"
        suite.file("message", ONE)
        suite.step("file", "tape", "-", f"add:{tape(0x30, 32).hex()}")
        signature = story.key.sign(name, ONE, Tape(tape(0x30, 32)))
        suite.run(out, f"signed {name.decode()} {len(signature)} bytes")
        suite.has("out", signature)
    suite.has("state", story.key.content())
    suite.case("a name that is none is refused before any file is opened")
    for name in ("", "n" * 129, "n" * 200):
        suite.refused(f"sign nothing {name} nothing out", "refused 34 BadName")
    for name in ("name", "n" * 65, "n" * 128):
        suite.refused(f"sign nothing {name} nothing out", "refused 53 FileFailed")
    suite.case("a spec that is none is refused before any file is opened")
    for spec in ("lms:H6/W8", "", "lms", "lms:", "lms:H5", "lms:H5/W3", "lms:H5/W16", "lms:h5/W8", "LMS:H5/W8",
                 "lms:H05/W8",
                 "lms:H5/W08", "lms:H5/W8,", "lms:H5/W8,H5/W8", "lms:H30/W8", "lms:H5-W8", "lms:W8/H5", "lms:H5/W8/",
                 "hss:",
                 "hss:,", "hss:H5/W8,", "hss:,H5/W8", "hss:" + ",".join(["H5/W8"] * 9), "hss:H5/W8;H5/W8",
                 "hss:H5/W8,,H5/W8",
                 "xmss:", "xmss:5", "xmss:010", "xmss:h10", "xmss:H10", "xmss:15", "xmss:10,10", "xmssmt:20/2", "10"):
        suite.refused(line_of_make(f"state public {spec} --random nothing"), "refused 51 BadSpec")
    suite.step("missing", "state")
    suite.step("missing", "public")


def wrong_numbers():
    story = Story("numbers of leaves that are none")
    story.make("lms:H5/W2", BYTES)
    for upto in ("33554433", "4294967296", "+5", "5.", "x", "0x5", "", "5_0", "99999999999999999999"):
        suite.step("usage", f"retire state {upto}")
    suite.has("state", story.key.content())
    suite.refused("retire state 33554432", "refused 32 RetireRange")
    suite.refused("retire state 33", "refused 32 RetireRange")
    story.key.retire(5)
    for upto in ("0005", "5", "4"):
        suite.run(f"retire state {upto}", f"retired upto {int(upto)}")
        suite.has("state", story.key.content())
    for words in ("make state public", "make --random tape", "sign state name message out --random",
                  "make state public lms:H5/W2 --random tape --random tape",
                  "sign state name message out --random tape --random tape",
                  "sign state name message out --nonsense", "retire state 0 --random tape"):
        suite.step("usage", words)
    suite.refused(line_of_make("--random tape state public lms:H5/W2"), "refused 50 KeyThere")
    suite.refused(line_of_make("state public lms:H5/W2 --random=tape"), "refused 50 KeyThere")


def files_of_signers():
    story = Story("what is refused of a key's file")
    suite.step("file", "tape", "-", "fill:47:00")
    suite.refused(line_of_make("state public lms:H6/W8 --random tape"), "refused 51 BadSpec")
    suite.step("missing", "state")
    suite.refused(line_of_make("state public lms:H5/W8 --random tape"), "refused 23 RandomFailed")
    suite.step("same", "state", "-", "add:00")
    story.make("lms:H5/W8", BYTES[:48])
    suite.refused(line_of_make("state public lms:H5/W8"), "refused 50 KeyThere")
    suite.refused(line_of_make("state public xmss:10 --random tape"), "refused 50 KeyThere")
    suite.has("public", story.key.public())
    story.sign(b"fw-1", ONE, tape(0x30, 32))
    story.sign(b"fw-1", b"another text", b"")
    suite.has("out-fw-1", story.key.signature(b"fw-1"))
    story = Story("files that aren't there: nothing is recorded")
    story.make("hss:H5/W2,H5/W2", BYTES[:48])
    suite.file("message", ONE)
    suite.step("folder", "folder")
    for words in ("sign nothing name message out", "sign state name nothing out",
                  "sign state name message out --random nothing", "sign folder name message out", "retire nothing 0"):
        suite.refused(words, "refused 53 FileFailed")
    for name in ("out", "nothing"):
        suite.step("missing", name)
    suite.has("state", story.key.content())
    suite.refused(line_of_make("new public lms:H5/W2 --random nothing"), "refused 53 FileFailed")
    suite.step("same", "new", "-")
    suite.has("public", story.key.public())
    files_to_write()
    keys_that_stay()
    story = Story("a message that can't be read: trees that were made for it stay")
    story.make("hss:H5/W2,H5/W2", BYTES[:48])
    story.sign(b"fw-1", None, tape(0x30, 112))
    story.has_size(513, [31, 32])
    suite.step("missing", "out-fw-1")
    suite.refused("sign state fw-1 message out --random tape", "refused 27 MessageRead")
    suite.step("file", "other", "-", "add:01")
    suite.step("file", "tape", "-", f"add:{tape(0xA0, 32).hex()}")
    signature = story.key.sign(b"fw-1", ONE, Tape(tape(0xA0, 32)))
    suite.run("sign state fw-1 other out --random tape", f"signed fw-1 {len(signature)} bytes")
    suite.has("out", signature)
    suite.refused("sign state fw-1 message again", "refused 27 MessageRead")
    story = Story("no random bytes come before a message that can't be read, and a used up key before both")
    story.make("lms:H5/W2", BYTES[:48])
    story.sign(b"fw-1", None, b"")
    suite.refused("sign state fw-1 message out --random tape", "refused 23 RandomFailed")
    story.retire(32)
    suite.refused("sign state fw-1 message out --random tape", "refused 22 Exhausted")
    if suite.version != 1:
        return
    key = new_key("lms:H5/W2")
    key.sign(b"fw-1", ONE, Tape(BYTES))
    key.move()
    story = Story("a key that has moved signs nothing, and retires nothing", key)
    for name, message in ((b"fw-1", ONE), (b"fw-1", TWO), (b"fw-2", ONE)):
        story.sign(name, message, BYTES)
    story.retire(0)
    story.retire(33)
    story.audit()


def files_to_write():
    """PUBLIC and OUT are opened only after the signer's Ok: its refusals come first, and its records stay."""
    story = Story("OUT can't be written: the name is bound, and the repeat writes its signature")
    story.make("hss:H5/W2,H5/W2", BYTES[:48])
    suite.file("message", ONE)
    suite.file("tape", tape(0x30, 112))
    suite.step("folder", "folder")
    signature = story.key.sign(b"fw-1", ONE, Tape(tape(0x30, 112)))
    for out in ("folder", "nothing/out", "message/out", "folder/", "new/", "folder/nothing/out", ""):
        suite.refused(f"sign state fw-1 message {out} --random tape", "refused 53 FileFailed")
        suite.has("state", story.key.content())
    for out in ("out", "folder/out", "folder/../other"):
        suite.run(f"sign state fw-1 message {out}", f"signed fw-1 {len(signature)} bytes")
        suite.has(out, signature)
    suite.run("sign --random tape state fw-1 message out", f"signed fw-1 {len(signature)} bytes")
    suite.has("out", signature)
    suite.has("state", story.key.content())
    story.has_size(769, [31, 31])
    suite.case("OUT can't be written: another refusal comes first")
    suite.step("file", "state", state_of("three"))
    suite.file("message", b"another text")
    suite.step("folder", "folder")
    suite.step("file", "empty", "-")
    for out in ("folder", "nothing/out", "state", "message"):
        for words, line in ((f"sign state fw-1 message {out}", "refused 21 Changed"),
                            (f"sign state fw-1 folder {out}", "refused 27 MessageRead"),
                            (f"sign state fw-9 message {out} --random empty", "refused 23 RandomFailed"),
                            (f"sign state fw-9 folder {out}", "refused 27 MessageRead")):
            suite.refused(words, line)
            suite.step("kept")
    suite.run("retire state 32", "retired upto 32")
    for out in ("folder", "nothing/out", "state", "message"):
        suite.refused(f"sign state fw-9 message {out}", "refused 22 Exhausted")
        suite.step("kept")
    for public in ("folder", "nothing/public", "state", "empty"):
        suite.refused(line_of_make(f"state {public} lms:H5/W2"), "refused 50 KeyThere")
        suite.step("kept")
        suite.refused(line_of_make(f"new {public} lms:H5/W2 --random empty"), "refused 23 RandomFailed")
        suite.step("same", "new", "-", "add:00")
    key = new_key("lms:H5/W2")
    suite.case("PUBLIC can't be written: the key is made")
    suite.file("tape", BYTES[:48])
    suite.step("folder", "folder")
    for number, public in enumerate(("folder", "nothing/public", "tape/public", "tape", f"new-{4}")):
        suite.refused(line_of_make(f"new-{number} {public} lms:H5/W2 --random tape"), "refused 53 FileFailed")
        suite.has(f"new-{number}", key.content())
        suite.refused(line_of_make(f"new-{number} public lms:H5/W2 --random tape"), "refused 50 KeyThere")
        suite.run(f"audit new-{number}", *key.report())
    suite.has("tape", BYTES[:48])
    suite.step("missing", "public")


def keys_that_stay():
    """PUBLIC and OUT can't be a file of the line, the standard output, or a file that begins like a state file,
    whatever its gate. Any other file is written over, whatever it has."""
    key, other = new_key("lms:H5/W2", BYTES[:48]), new_key("lms:H5/W2", BYTES[100:148])
    other.sign(b"fw-1", TWO, Tape(BYTES))
    begun = other.content()
    kept = {"a key": begun, "a key whose gate is closed": changed(begun, 0, b"\0"), "a key of ten bytes": begun[:10],
            "ten bytes of it, gate ff": changed(begun[:10], 0, b"\xff"),
            "a key of another version": changed(begun, 10, b"\xff\xff"), "a damaged key": changed(begun, 100, b"?"),
            "a key and more": begun + bytes(100)}
    written = {"no bytes": b"", "nine bytes of a key": begun[:9], "a key of kind 3": changed(begun, 1, b"\3"),
               "another magic": changed(begun, 9, b"F"), "the magic at another place": begun[1:],
               "a public key": other.public(), "a text": b"HBSSTATE" * 80}
    for what, data in (*kept.items(), *written.items()):
        stays = what in kept
        if holds_key(data) != stays:
            raise ValueError(what)
        suite.case(f"OUT and PUBLIC {'are not written over' if stays else 'are written over'}: {what}")
        described_file("there", data)
        described_file("public", data)
        described_file("state", key.content())
        suite.file("message", ONE)
        suite.file("tape", tape(0x70, 48))
        signer, made = Signer.of(records_of(key.content())), new_key("lms:H5/W2", tape(0x70, 48))
        signature, shown = signer.sign(b"fw-1", ONE, Tape(tape(0x70, 48))), f"public {made.public().hex()}"
        suite.run("sign state fw-1 message there --random tape",
                  *(["refused 53 FileFailed"] if stays else [f"signed fw-1 {len(signature)} bytes"]),
                  status=3 if stays else 0)
        suite.has("there", data if stays else signature)
        suite.has("state", signer.content())
        suite.run(line_of_make("new public lms:H5/W2 --random tape"),
                  *(["refused 53 FileFailed"] if stays else [shown]), status=3 if stays else 0)
        suite.has("public", data if stays else made.public())
        suite.has("new", made.content())
        suite.run("sign state fw-1 message out", f"signed fw-1 {len(signature)} bytes")
        suite.has("out", signature)
    suite.case("OUT and PUBLIC are files of the line, or standard output")
    described_file("state", key.content())
    suite.file("message", ONE)
    suite.file("tape", tape(0x70, 48))
    signature = key.sign(b"fw-1", ONE, Tape(tape(0x70, 48)))
    for out in ("state", "./state", "message", "tape", ".//tape", "/dev/stdout", "/proc/self/fd/1"):
        suite.refused(f"sign state fw-1 message {out} --random tape", "refused 53 FileFailed")
        suite.has("state", key.content())
        suite.has("message", ONE)
        suite.has("tape", tape(0x70, 48))
    made = new_key("lms:H5/W2", tape(0x70, 48))
    for number, public in enumerate(("tape", "./new-1", "/dev/stdout", "state")):
        suite.refused(line_of_make(f"new-{number} {public} lms:H5/W2 --random tape"), "refused 53 FileFailed")
        suite.has(f"new-{number}", made.content())
        suite.has("tape", tape(0x70, 48))
        suite.has("state", key.content())
    suite.run("sign state fw-1 message out", f"signed fw-1 {len(signature)} bytes")
    suite.has("out", signature)


def xmss_signing():
    story = Story("XMSS: the draws of a key, its first signature and the last")
    story.make("xmss:10", BYTES)
    story.sign(b"fw-1", ONE, b"")
    story.has_size(513, [1023])
    story.retire(1023)
    story.sign(*second(), b"")
    story.sign(b"fw-3", TWO, b"")
    story.audit()
