"""Cases of migrations from an old file, of version 1, to a new one of version 2."""
import hashlib

from model import (Refused, Signer, Tape, body, filled, frame, last_tag, migrated, moved_body, records_of, retire_body,
                   sealed, served, state_file)
from parts.records import FIRST, bound, extend, hss_key, lms_key, tape, xmss_key
from parts.runs import Story
from parts.suite import BYTES, ONE, TWO, changed, described_file, flipped, line_of, status_of, suite


class Migration(Story):
    """A case of a migration to a new file, which may be missing. Requests go to the old file before the migration, and
    to the new one after it."""
    def __init__(self, name, old=None, new=None):
        super().__init__(name, state="old")
        self.old, self.new = old, new
        for file, content in (("old", old), ("new", new)):
            if content is not None:
                described_file(file, content)
        self.key = Signer.of(records_of(old)) if old else None

    def migrate(self, line):
        """Migrates, and compares the line with the model's."""
        there = self.new or b""
        try:
            self.old, self.new, count = migrated(self.key.content() if self.old is None else self.old, there)
        except Refused as refused:
            came, self.new = line_of(refused), there
        else:
            came = f"migrated {count} records"
            self.state, self.key, self.before = "new", Signer.of(records_of(self.new)), there
        if line != came:
            raise ValueError(f"a migration: {came}, not {line}")
        suite.run("migrate old new", line, status=status_of(line))
        suite.has("old", self.old)
        suite.has("new", self.new)

    def leaves_old(self):
        """The old file signs no more, and its audit says so."""
        suite.file("message", ONE)
        for words in ("sign old fw-1 message lost", f"sign old {'n' * 128} message lost", "retire old 0",
                      "retire old 33554432"):
            suite.refused(words, "refused 31 Moved")
            suite.step("kept")
        described_file("input", frame(*FIRST) + frame(b"n" * 65, TWO))
        suite.step("serve", "serve old", 0, "add:1f00000000 add:1f00000000")
        suite.step("kept")
        suite.run("audit old", *Signer.of(records_of(self.old)).report())

    def signs_on(self, *requests):
        """Both files after a migration: the new one gives bound names their signatures again, and signs other names."""
        self.leaves_old()
        self.audit()
        for request in requests:
            self.sign(*request, b"")
        self.sign(b"n" * 128, ONE, tape(0x91, 592))
        self.sign(b"fw-9", TWO, tape(0xB1, 592))
        self.audit()


def key_after(spec, *steps):
    """A key of version 1 after these steps: a name and its message are signed, or leaves retired up to a number."""
    key = Signer(spec, Tape(BYTES), 1)
    for number, step in enumerate(steps):
        if isinstance(step, int):
            key.retire(step)
        else:
            key.sign(*step, Tape(hashlib.shake_256(b"%d" % number).digest(592)))
    return key


def migrations():
    suite.version = 1
    suite.begin("migrations")
    a_name_goes_on()
    places_of_new_files()
    new_files_with_keys()
    migrations_that_were_stopped()
    old_files_that_are_refused()
    old_files_of_version_two()
    files_of_migrations()
    keys_with_other_roots()
    keys_that_go_on()
    old_files_with_a_byte_changed()


def a_name_goes_on():
    """A key with a name: the old file has 769 bytes, the new one 513, and the signature is the same 1292 bytes."""
    story = Migration("a key that has signed a name")
    story.make("lms:H5/W8", BYTES[:48])
    story.sign(*FIRST, tape(0x30))
    signature = story.key.signature(b"fw-1")
    story.migrate("migrated 2 records")
    sizes = len(story.old), len(story.new), len(signature)
    if sizes != (769, 513, 1292) or story.key.signature(b"fw-1") != signature:
        raise ValueError(f"files and a signature of {sizes} bytes")
    suite.refused("sign old fw-1 message again", "refused 31 Moved")
    suite.step("kept")
    report = Signer.of(records_of(story.old)).report()
    if "records 3" not in report or report[-1] != "moved 2":
        raise ValueError("the report of the old file")
    suite.run("audit old", *report)
    suite.run("sign new fw-1 message again", "signed fw-1 1292 bytes")
    suite.has("again", signature)
    suite.has("new", story.new)
    story.migrate("refused 50 KeyThere")
    # the old records have other tags than the new ones
    for count, line in ((1, "refused 48 AnchorTag"), (2, "refused 48 AnchorTag"), (3, "refused 47 AnchorCount")):
        anchor = f"--count {count} --tag {last_tag(records_of(story.old)[:count]).hex()}"
        suite.run(f"audit old {anchor}", *report)
        suite.refused(f"audit new {anchor}", line)
    suite.run(f"audit new --count 2 --tag {last_tag(records_of(story.new)).hex()}", *story.key.report())
    story.sign(b"fw-1", TWO, b"")
    story.sign(b"n" * 128, TWO, tape(0x90, 32))
    suite.file("one", ONE)
    suite.run(f"audit-given public one out-fw-1 message out-{'n' * 128} one again",
              "given 3 signatures, no leaf twice")
    # the new file can't be migrated, and the old one isn't a place for another
    suite.refused("migrate new third", "refused 42 Version")
    suite.step("same", "third", "-")
    suite.refused("migrate new old", "refused 42 Version")
    story.has_state()
    suite.has("old", story.old)


def keys_that_go_on():
    """Keys of each scheme, with trees and retired leaves."""
    third, short, most = (b"fw-3", b"3"), (b"!", b"?"), (b"!" * 32 + b"~" * 32, b"64")
    names = [(b"fw-%d" % number, b"%d" % number) for number in range(33)]
    two, mixed = "hss:H5/W2,H5/W2", "hss:" + ",".join(["H5/W2", "H5/W4"] * 4)
    for name, key, count, again in (
            ("a key alone", key_after("lms:H5/W2"), 1, ()),
            ("names of 1, 63 and 64 bytes", key_after("lms:H5/W2", short, most, (b"n" * 63, TWO)), 4,
             (most, short, (b"n" * 63, TWO))),
            ("leaves retired", key_after("lms:H5/W2", 5), 2, ()),
            ("names and leaves retired", key_after("lms:H5/W4", FIRST, 7, third, 7, 9, most), 6, (FIRST, third, most)),
            ("H5/W1", key_after("lms:H5/W1", FIRST), 2, (FIRST,)),
            ("no leaf is left", key_after("lms:H5/W2", *names[:32]), 33, (names[0], names[31], names[32])),
            ("all leaves retired", key_after("lms:H5/W2", FIRST, 32), 3, (FIRST, third)),
            ("HSS of one level", key_after("hss:H5/W2", FIRST, 3), 3, (FIRST, third)),
            ("two levels without a tree", key_after(two), 1, ()),
            ("two levels", key_after(two, FIRST, third, 30, most), 6, (FIRST, most)),
            ("two levels, and the lower tree is full", key_after(two, FIRST, 32), 4, (FIRST,)),
            ("two levels, and a second lower tree", key_after(two, FIRST, 32, third, most, 9), 8, (FIRST, third, most)),
            ("two levels, and 33 names", key_after(two, *names), 36, (names[0], names[32])),
            ("three levels", key_after("hss:H5/W2,H5/W4,H5/W2", FIRST, 32, third, 32, most), 10,
             (FIRST, third, most)),
            ("eight levels", key_after(mixed, FIRST, 3, third), 11, (FIRST, third)),
            ("XMSS", key_after("xmss:10", FIRST, third, 1000, most), 5, (FIRST, third, most)),
            ("XMSS, a key alone", key_after("xmss:10"), 1, ())):
        if len(key.bodies) != count:
            raise ValueError(f"{name}: {len(key.bodies)} records")
        story = Migration(name, key.content())
        story.migrate(f"migrated {count} records")
        if story.key.left() != key.left() or story.key.public() != key.public():
            raise ValueError(f"{name}: another key")
        story.signs_on(*again)
    key = key_after("hss:H5/W2,H5/W2,H5/W2")
    try:
        key.sign(*FIRST, Tape(tape(0x30, 160)))
    except Refused:
        story = Migration("trees without a name", key.content())
        story.migrate("migrated 3 records")
        story.signs_on(FIRST)
    story = Migration("1057 records, and no leaf is left", suite.files["full-levels.state"])
    story.migrate("migrated 1057 records")
    suite.run("audit new", *story.key.report())
    for name, message in ((b"fw-500", b"500"), (b"fw-500", ONE), (b"fw-1024", ONE)):
        story.sign(name, message, tape(0x30))
    suite.refused("sign old fw-500 message again", "refused 31 Moved")
    # requests to the new file, in frames
    story = Migration("two levels, and the new file serves", key_after(two, FIRST, 32).content())
    story.migrate("migrated 4 records")
    requests = FIRST, (b"fw-1", TWO), (b"n" * 128, ONE), (b"n" * 129, ONE), third
    given, drawn = b"".join(frame(*request) for request in requests), tape(0x30, 224)
    written, number = served(story.key, Tape(drawn), given)
    suite.step("file", "input", "-", f"add:{given.hex()}")
    suite.step("file", "tape", "-", f"add:{drawn.hex()}")
    suite.step("serve", "serve new --random tape", number,
               f"digest:{len(written)}:{hashlib.sha256(written).hexdigest()}")
    story.has_state()


def keys_with_other_roots():
    """A migration checks no root: a request to the new file does."""
    def with_root(key, slot, place):
        key.bodies[slot] = changed(key.bodies[slot], place, flipped(key.bodies[slot][place:place + 32], 3))
        return key.content()
    for name, key, slot, place in (("the key", key_after("lms:H5/W2", FIRST), 0, 189),
                                   ("a lower tree", key_after("hss:H5/W2,H5/W2", FIRST), 1, 118)):
        story = Migration(f"another root of {name}", with_root(key, slot, place))
        story.migrate(f"migrated {len(key.bodies)} records")
        story.leaves_old()
        for request in (FIRST, (b"fw-2", ONE), (b"n" * 128, ONE)):
            story.sign(*request, tape(0x30))


def migrations_that_were_stopped():
    """The old file has all or a part of its Moved; the new file has a part of the records, and no key."""
    key = key_after("hss:H5/W2,H5/W2", FIRST, 7)
    old = key.content()
    moved, new = sealed(old), filled(old, b"")
    closed = changed(new, 0, b"\0")
    for name, there in (("none", None), ("an empty one", b""), ("a closed gate", b"\0"), ("200 bytes", closed[:200]),
                        ("a slot", closed[:257]), ("a slot and a half", closed[:400]), ("two slots", closed[:513]),
                        ("all records but the first gate", closed), ("more than the records", closed + b"\xa5" * 300)):
        for what, content in (("has moved", moved), ("has moved, with another gate behind", moved[:-1] + b"\xff"),
                              ("has moved, with bytes behind", moved + b"\xa5" * 600), ("has not moved", old)):
            story = Migration(f"the old file {what}, the new file: {name}", content, there)
            if content[-1:] != old[-1:] or content != old:
                suite.refused("retire old 9", "refused 31 Moved")
            if there:
                suite.refused("audit new", "refused 40 NoKey")
            elif there is None:
                suite.step("missing", "new")
            story.migrate("migrated 4 records")
            story.sign(*FIRST, b"")
    story = Migration("the old file has moved, and the new one has its key", moved, new)
    story.migrate("refused 50 KeyThere")
    for name, rest in (("a part of a Moved", sealed(old)[len(old):len(old) + 100]), ("other records", old[256:]),
                       ("a slot", b"\xa5" * 255), ("a slot and a gate", b"\xa5" * 256), ("more", b"\xa5" * 900)):
        story = Migration(f"behind the last record of the old file: {name}", old + rest)
        story.migrate("migrated 4 records")
        story.signs_on(FIRST)
    three = suite.files["three.state"]
    for gate, value in ((1, b"\0"), (2, b"\x01"), (2, b"\xa4")):
        story = Migration(f"gate {gate} of the old file is {value.hex()}", changed(three, 256 * gate, value))
        story.migrate(f"migrated {gate} records")
        story.signs_on(FIRST)
    story = Migration("the gate of a Moved is closed", changed(suite.files["moved.state"], 512, b"\0"))
    story.migrate("migrated 2 records")
    story.signs_on(FIRST)


def places_of_new_files():
    """A new file that exists, with a closed gate or under 257 bytes: the bytes behind the records stay."""
    key = key_after("lms:H5/W2", FIRST, 3)
    old, text = key.content(), b"Some text, which is none of a key.\n"
    others = {"a key of version 1 whose gate is closed": suite.files["three.state"],
              "a key of version 2 whose gate is closed": suite.files["three.state_2"],
              "two levels of version 2 whose gate is closed": suite.files["two-levels.state_2"]}
    for name, there in (("one byte", b"\x37"), ("an open gate", b"\xa5"), ("100 open gates", b"\xa5" * 100),
                        ("256 open gates", b"\xa5" * 256), ("256 bytes of a key", old[:256]), ("a text", text),
                        ("257 closed gates", b"\xa4" * 257), ("257 zeros", bytes(257)), ("258 bytes", b"\xa4" * 258),
                        ("768 bytes", b"\xee" * 768), ("769 bytes", b"\xee" * 769), ("770 bytes", b"\xee" * 770),
                        ("770 bytes of which the last is open", b"\xee" * 769 + b"\xa5"),
                        ("1025 bytes", b"\x01" + b"\xa5" * 1024), ("5000 zeros", bytes(5000)),
                        ("a long text", text * 60),
                        *((name, changed(content, 0, b"\0")) for name, content in others.items())):
        story = Migration(f"the new file is there: {name}", old, there)
        if there:
            suite.refused("audit new", "refused 40 NoKey")
        story.migrate("migrated 3 records")
        if story.new[769:] != there[769:]:
            raise ValueError("bytes behind the records")
        story.signs_on(FIRST)


def new_files_with_keys():
    """If the new file has an open gate and at least 257 bytes, key or not, nothing is written to either file."""
    key = key_after("lms:H5/W2", FIRST)
    old, three, two = key.content(), suite.files["three.state"], suite.files["three.state_2"]
    for name, there in (("a key of version 1", three), ("a key of version 2", two),
                        ("its key in version 1", old), ("its key in version 2", filled(old, b"")),
                        ("a key that has moved", suite.files["moved.state"]), ("a damaged key", flipped(three, 100)),
                        ("a key of version 3", changed(two, 11, b"\x03")), ("257 bytes of a key", two[:257]),
                        ("257 open gates", b"\xa5" * 257), ("258 open gates", b"\xa5" * 258),
                        ("an open gate and 256 zeros", b"\xa5" + bytes(256)),
                        ("an open gate and more zeros", b"\xa5" + bytes(2000))):
        for what, content in (("", old), (", and the old one has moved", sealed(old))):
            story = Migration(f"the new file has {name}{what}", content, there)
            story.migrate("refused 50 KeyThere")
            suite.step("kept")
    story = Migration("the new file has a key, then its gate is closed", old, two)
    story.migrate("refused 50 KeyThere")
    story.new = changed(two, 0, b"\0")
    described_file("new", story.new)
    story.migrate("migrated 2 records")
    story.sign(*FIRST, b"")


def refused_migration(name, old, line):
    """An old file that isn't migrated: it stays, and so does the new one, whatever it has. A missing new file is made,
    and is empty."""
    story = Migration(f"the old file: {name}")
    described_file("old", old)
    story.old = old
    story.migrate(line)
    for there in (b"", b"a text\n", bytes(300), suite.files["three.state_2"]):
        described_file("new", there)
        story.new = there
        story.migrate(line)
        suite.step("kept")


def old_files_that_are_refused():
    three, one = suite.files["three.state"], lms_key()
    for name, old, line in (
            ("no byte", b"", "refused 40 NoKey"), ("one byte", b"\x37", "refused 40 NoKey"),
            ("256 open gates", b"\xa5" * 256, "refused 40 NoKey"), ("a closed gate", bytes(300), "refused 40 NoKey"),
            ("a key whose gate is closed", changed(three, 0, b"\xa4"), "refused 40 NoKey"),
            ("256 bytes of a key", three[:256], "refused 40 NoKey"),
            ("257 open gates", b"\xa5" * 257, "refused 41 NotKeyFile"),
            ("another magic", flipped(three, 9), "refused 41 NotKeyFile"),
            ("a name in slot 0", state_file([bound(0)]), "refused 41 NotKeyFile"),
            ("a Moved in slot 0", state_file([moved_body()]), "refused 41 NotKeyFile"),
            ("version 0", state_file([lms_key(version=0)]), "refused 42 Version"),
            ("version 3", state_file([lms_key(version=3)]), "refused 42 Version"),
            ("version 258", state_file([lms_key(version=258)]), "refused 42 Version"),
            ("its version is changed to 2", changed(three, 11, b"\x02"), "refused 43 Damaged slot 0"),
            ("scheme 4", state_file([lms_key(scheme=4)]), "refused 43 Damaged slot 0"),
            ("a name of version 2", state_file([one, bound(0, version=2)]), "refused 43 Damaged slot 1"),
            ("a name of 65 bytes of version 2", state_file([one, bound(0, b"n" * 65, version=2)]),
             "refused 43 Damaged slot 1"),
            ("a key of version 2 behind it", state_file([one, lms_key(version=2)]), "refused 43 Damaged slot 1"),
            ("a Moved to version 3", state_file([one, moved_body(3)]), "refused 43 Damaged slot 1"),
            ("slots 1 and 2 are damaged", flipped(flipped(three, 300), 600), "refused 43 Damaged slot 1"),
            ("gate 3 is open", changed(three, 768, b"\xa5"), "refused 43 Damaged slot 3"),
            ("gate 3 is open, 1025 bytes", changed(three, 768, b"\xa5") + bytes(256), "refused 43 Damaged slot 3"),
            ("512 bytes", three[:512], "refused 43 Damaged slot 1"),
            ("a tag of a Moved", flipped(suite.files["moved.state"], 767), "refused 43 Damaged slot 2"),
            ("a second key", state_file([one, one]), "refused 44 Illegal slot 1"),
            ("a leaf twice", state_file([one, bound(3), bound(3, b"other")]), "refused 44 Illegal slot 2"),
            ("a name twice", state_file([one, bound(3), bound(7, b"n-3")]), "refused 44 Illegal slot 2"),
            ("33 leaves retired", state_file([one, retire_body(33)]), "refused 44 Illegal slot 1"),
            ("an Extend of LMS", state_file([one, extend(1, 0, 7)]), "refused 44 Illegal slot 1"),
            ("a name after a Moved", state_file([one, bound(0), moved_body(), bound(1)]), "refused 44 Illegal slot 3"),
            ("a second Moved", state_file([one, moved_body(), moved_body()]), "refused 44 Illegal slot 2"),
            ("a leaf twice, and a Moved", state_file([one, bound(3), bound(3, b"other"), moved_body()]),
             "refused 44 Illegal slot 2"),
            ("the I of an Extend again", state_file([hss_key(), extend(1, 0, 7), extend(1, 1, 7)]),
             "refused 44 Illegal slot 2"),
            ("a name without a lower tree", state_file([hss_key(), bound(0)]), "refused 44 Illegal slot 1"),
            ("XMSS, a name with C", state_file([xmss_key(), bound(0)]), "refused 44 Illegal slot 1"),
            ("damage behind what isn't legal", state_file([one, one, body(9)]), "refused 43 Damaged slot 2")):
        refused_migration(name, old, line)


def old_files_with_a_byte_changed():
    """A file of three records, with one byte changed, or cut."""
    three = suite.files["three.state"]

    def judged(content, line):
        try:
            came = f"migrated {migrated(content, b'')[2]} records"
        except Refused as refused:
            came = line_of(refused)
        if came != line:
            raise ValueError(f"a migration: {came}, not {line}")
    suite.case("three records, each byte changed, and every beginning: no migration")
    for first, end, line in ((0, 1, "refused 40 NoKey"), (1, 10, "refused 41 NotKeyFile"),
                             (10, 11, "refused 42 Version"), (12, 256, "refused 43 Damaged slot 0"),
                             (257, 512, "refused 43 Damaged slot 1"), (513, 768, "refused 43 Damaged slot 2")):
        for at in range(first, end):
            if three[at] != 0x5A:
                judged(changed(three, at, b"\x5a"), line)
        suite.step("each", "old", "three.state", first, end, "5a", "migrate old new", 1, line)
    for values, line in (("0003ff", "refused 42 Version"), ("02", "refused 43 Damaged slot 0")):
        for value in bytes.fromhex(values):
            judged(changed(three, 11, bytes([value])), line)
        suite.step("each", "old", "three.state", 11, 12, values, "migrate old new", 1, line)
    for first, end, line in ((0, 257, "refused 40 NoKey"), (257, 513, "refused 43 Damaged slot 1"),
                             (513, 769, "refused 43 Damaged slot 2")):
        for size in range(first, end):
            judged(three[:size], line)
        suite.step("cuts", "old", "three.state", first, end, "migrate old new", 1, line)
    suite.step("same", "new", "-")


def old_files_of_version_two():
    """Version 2 is refused (42), but 43 and 44 come before."""
    def of_two(key, *records):
        return state_file([key(version=2), *records])
    three, name = suite.files["three.state_2"], bound(0, version=2)
    for what, old, line in (
            ("a key alone", of_two(lms_key), "refused 42 Version"), ("three records", three, "refused 42 Version"),
            ("two levels", suite.files["two-levels.state_2"], "refused 42 Version"),
            ("XMSS", suite.files["xmss.state_2"], "refused 42 Version"),
            ("a second record that is damaged", flipped(three, 300), "refused 43 Damaged slot 1"),
            ("the gate behind is open", changed(three, 768, b"\xa5"), "refused 43 Damaged slot 3"),
            ("a name of version 1", of_two(lms_key, bound(0, version=1)), "refused 43 Damaged slot 1"),
            ("a Moved", of_two(lms_key, name, moved_body()), "refused 44 Illegal slot 2"),
            ("a Moved alone", of_two(lms_key, moved_body()), "refused 44 Illegal slot 1"),
            ("a leaf twice", of_two(lms_key, name, bound(0, b"other", version=2)), "refused 44 Illegal slot 2"),
            ("a Moved and a name", of_two(lms_key, moved_body(), name), "refused 44 Illegal slot 1"),
            ("33 leaves retired", of_two(lms_key, retire_body(33)), "refused 44 Illegal slot 1"),
            ("two levels, and a Moved", of_two(hss_key, extend(1, 0, 7), moved_body()), "refused 44 Illegal slot 2"),
            ("XMSS with a Moved", of_two(xmss_key, moved_body()), "refused 44 Illegal slot 1")):
        refused_migration(f"of version 2: {what}", old, line)


def files_of_migrations():
    """Files that are missing, no state files, or the same file; and wrong lines."""
    key = key_after("lms:H5/W2", FIRST)
    suite.case("files that can't be opened")
    described_file("old", key.content())
    suite.file("bad", b"text")
    suite.step("folder", "folder")
    for words in ("nothing new", "folder new", "missing/old new", "/dev/null new", "nothing old", "folder folder",
                  "nothing folder", " new"):
        suite.refused(f"migrate {words}", "refused 53 FileFailed")
        suite.step("kept")
    for old in ("old", "bad"):
        for new in ("folder", "missing/new", "/dev/null", "old/new", ""):
            suite.refused(f"migrate {old} {new}", "refused 53 FileFailed")
            suite.step("kept")
    for name in ("new", "nothing", "missing"):
        suite.step("missing", name)
    suite.case("one file as the old and the new one")
    described_file("old", key.content())
    suite.file("bad", b"text")
    described_file("two", suite.files["three.state_2"])
    for words in ("old old", "old ./old", "./old old", "bad bad", "two two"):
        suite.refused(f"migrate {words}", "refused 54 Locked")
        suite.step("kept")
    suite.case("wrong lines")
    described_file("old", key.content())
    suite.file("tape", BYTES)
    for words in ("migrate", "migrate old", "migrate old new more", "migrate --old old new",
                  "migrate old new --format 2", "migrate old new --format=1", "migrate old new --random tape",
                  "migrate --random=tape old new", "migrate old new --count 2", "migrate old --new", "migrat old new",
                  "Migrate old new"):
        suite.step("usage", words)
    suite.step("missing", "new")
    suite.has("old", key.content())
    for words in ("old new", "-- old new", "old -- new"):
        suite.case(f"migrate {words}")
        described_file("old", key.content())
        suite.run(f"migrate {words}", "migrated 2 records")
        suite.has("old", sealed(key.content()))
        suite.has("new", filled(key.content(), b""))
