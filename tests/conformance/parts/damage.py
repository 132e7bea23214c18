"""Cases of requests to a file of three records that was changed or cut."""
from model import (LmsTree, Refused, Signer, Tape, extend_body, frame, moved_body, records_of, retire_body, state_file,
                   verdict)
from parts.records import FIRST, bound, second, tape
from parts.runs import answered, fresh
from parts.state_files import audited, refused_by_all, refused_file
from parts.suite import (BYTES, ONE, TWO, at_bound, described_file, edited, line_of, longest, other_version, state_of,
                         suite)

# random bytes of a request: enough for the tree of a level and for a name
NEW = tape(0x70)


def damage():
    suite.begin("damage")
    key = fresh("hss:H5/W2,H5/W2")
    key.sign(*FIRST, Tape(tape(0x30)))
    suite.keep(state_of("two-levels"), key.content())
    key = fresh()
    key.sign(*FIRST, Tape(tape(0x30)))
    key.retire(7)
    suite.keep(state_of("retired"), key.content())
    if suite.version == 1:
        key = fresh()
        key.sign(*FIRST, Tape(tape(0x30)))
        key.move()
        suite.keep(state_of("moved"), key.content())
    key = fresh("xmss:10")
    key.sign(*FIRST, None)
    key.sign(*second(), None)
    suite.keep(state_of("xmss"), key.content())
    for source in ("three", "two-levels", "retired", "xmss", *(["moved"] if suite.version == 1 else [])):
        if len(suite.files[state_of(source)]) != 769:
            raise ValueError(f"{source} of other than three records")
    damaged_keys()
    damaged_records()
    cut_files()
    damaged_twice()
    open_gates()
    damage_and_files()
    illegal_by_secrets()
    closed_gates()
    closed_gates_and_more()
    closed_gates_of_others()


def refused_edit(name, line, source, *edits, bound=FIRST):
    """A kept state file that isn't opened after these edits."""
    suite.case(f"{source}.state: {name}")
    audited(name, edited(b"", [f"with:{state_of(source)}", *edits]), [line])
    suite.step("file", "state", state_of(source), *edits)
    refused_by_all(line, bound)


def flip(source, at):
    """An edit that changes a bit of a kept state file."""
    return f"set:{at}:{suite.files[state_of(source)][at] ^ 1:02x}"


def damaged_keys():
    """Slot 0 with a byte of each field changed."""
    for value in ("00", "a4", "ff"):
        refused_edit(f"gate 0 is {value}", "refused 40 NoKey", "three", f"set:0:{value}")
    for name, edit in (("kind 0", "set:1:00"), ("kind 3", "set:1:03"), ("the first byte of the magic", "set:2:68"),
                       ("the last byte of the magic", "set:9:46")):
        refused_edit(name, "refused 41 NotKeyFile", "three", edit)
    for version in ("0000", "0003", "0101", "0102", "0201"):
        refused_edit(f"version {version}", "refused 42 Version", "three", f"set:10:{version}")
    for source in ("three", "two-levels", "xmss"):
        refused_edit("the other version", "refused 43 Damaged slot 0", source, f"set:11:{other_version():02x}")
    for name, edit in (("scheme 2", "set:12:02"), ("two levels", "set:13:02"), ("a tree of height 10", "set:17:06"),
                       ("the one-time type W4", "set:21:03"), ("a second pair", "set:22:0000000500000002"),
                       ("the last pair", "set:77:01"), ("I", flip("three", 78)), ("SEED", flip("three", 94)),
                       ("the last byte of SEED", flip("three", 125)), ("SK_PRF", "set:126:01"),
                       ("the public SEED", "set:158:01"), ("the root", flip("three", 190)),
                       ("an unused byte", "set:222:01"), ("the tag", flip("three", 224)),
                       ("the last byte of the tag", flip("three", 255))):
        refused_edit(f"slot 0, {name}", "refused 43 Damaged slot 0", "three", edit)
    for name, edit in (("S_XMSS", 94), ("SK_PRF", 126), ("the public SEED", 158), ("the root", 221), ("I", 93)):
        refused_edit(f"slot 0, {name}", "refused 43 Damaged slot 0", "xmss", flip("xmss", edit))
    for name, edit in (("scheme 1", "set:12:01"), ("one level", "set:13:01"), ("three levels", "set:13:03"),
                       ("the second tree's type", "set:25:06"), ("the second one-time type", "set:29:04")):
        refused_edit(f"slot 0, {name}", "refused 43 Damaged slot 0", "two-levels", edit)


def damaged_records():
    """Slots 1 and 2 with a byte of each field changed. The request is for the name whose record didn't change."""
    for slot, bound in ((1, second()), (2, FIRST)):
        edits = [(name, f"set:{at_bound(slot, place)}:{new}") for name, place, new in
                 (("kind 4", 1, "04"), ("kind 0", 1, "00"), ("a shorter name", 2, "03"), ("a longer name", 2, "05"),
                  ("a longer name that is spelled", 2, "0566772d3130"), ("another name", 6, "39"),
                  ("a byte after the name", 7, "30"), ("another leaf", 70, "05"), ("leaf 2^24", 67, "01"))]
        edits += [(name, flip("three", at_bound(slot, place))) for name, place in
                  (("C", 71), ("Q", 103), ("the last byte of Q", 134), ("an unused byte", 135))]
        edits += [(name, flip("three", 256 * slot + place)) for name, place in
                  (("the end of the name's field", 2 + longest()), ("the tag", 224), ("the last byte of the tag", 255))]
        for name, edit in edits:
            refused_edit(f"slot {slot}, {name}", f"refused 43 Damaged slot {slot}", "three", edit, bound=bound)
    for name, edit in (("kind 4", "set:257:04"), ("level 0", "set:258:00"), ("level 2", "set:258:02"),
                       ("another parent leaf", "set:262:01"), ("I", flip("two-levels", 263)),
                       ("SEED", flip("two-levels", 279)), ("C", flip("two-levels", 311)),
                       ("Q", flip("two-levels", 343)), ("the root", flip("two-levels", 375)),
                       ("an unused byte", "set:407:01"), ("the tag", flip("two-levels", 480))):
        refused_edit(f"the Extend, {name}", "refused 43 Damaged slot 1", "two-levels", edit)
    for name, edit in (("upto 0", "set:517:00"), ("upto 6", "set:517:06"), ("upto 32", "set:517:20"),
                       ("an unused byte", "set:518:01"), ("kind 5", "set:513:05"), ("the tag", flip("retired", 736))):
        refused_edit(f"the Retire, {name}", "refused 43 Damaged slot 2", "retired", edit)
    if suite.version == 1:
        for name, edit in (("kind 4", "set:513:04"), ("version 3", "set:515:03"), ("an unused byte", "set:516:01"),
                           ("the tag", flip("moved", 736))):
            refused_edit(f"the Moved, {name}", "refused 43 Damaged slot 2", "moved", edit)
    refused_edit("slot 1, C, which isn't zero", "refused 43 Damaged slot 1", "xmss", f"set:{at_bound(1, 71)}:01",
                 bound=second())
    refused_edit("slot 2, another leaf", "refused 43 Damaged slot 2", "xmss", f"set:{at_bound(2, 70)}:00")


def cut_files():
    for source, sizes in (("three", (0, 1, 2, 12, 255, 256, 257, 258, 400, 511, 512, 513, 514, 700, 767, 768)),
                          ("two-levels", (256, 257, 512, 513, 768)), ("xmss", (257, 513, 768))):
        for size in sizes:
            line = "refused 40 NoKey" if size < 257 else f"refused 43 Damaged slot {1 if size < 513 else 2}"
            refused_edit(f"{size} bytes", line, source, f"cut:{size}")


def damaged_twice():
    """Two faults: the first is reported, by the order of REFUSALS.md and of the slots."""
    other, leaf = f"{other_version():02x}", f"set:{at_bound(1, 70)}:05"
    for name, line, *edits in (
            ("256 bytes of another magic", "refused 40 NoKey", "cut:256", "set:2:68"),
            ("a closed gate and another magic", "refused 40 NoKey", "set:0:00", "set:2:68"),
            ("another magic and version", "refused 41 NotKeyFile", "set:2:68", "set:10:0003"),
            ("another magic and the other version", "refused 41 NotKeyFile", "set:2:68", f"set:11:{other}"),
            ("257 bytes of another magic", "refused 41 NotKeyFile", "cut:257", "set:9:46"),
            ("257 bytes of version 3", "refused 42 Version", "cut:257", "set:11:03"),
            ("version 3 and another scheme", "refused 42 Version", "set:11:03", "set:12:04"),
            ("257 bytes of the other version", "refused 43 Damaged slot 0", "cut:257", f"set:11:{other}"),
            ("the other version and another scheme", "refused 43 Damaged slot 0", f"set:11:{other}", "set:12:04"),
            ("257 bytes, another SEED", "refused 43 Damaged slot 0", "cut:257", flip("three", 94)),
            ("513 bytes, another leaf in slot 1", "refused 43 Damaged slot 1", "cut:513", leaf),
            ("slots 0 and 2", "refused 43 Damaged slot 0", flip("three", 190), flip("three", 600)),
            ("slot 1, and gate 3 is open", "refused 43 Damaged slot 1", leaf, "set:768:a5"),
            ("slot 0, and gate 1 is closed", "refused 43 Damaged slot 0", flip("three", 94), "set:256:00"),
            ("version 3, and gate 1 is closed", "refused 42 Version", "set:11:03", "set:256:00"),
            ("the other version, and gate 1 is closed", "refused 43 Damaged slot 0", f"set:11:{other}", "set:256:00"),
            ("another kind, and gate 1 is closed", "refused 41 NotKeyFile", "set:1:02", "set:256:00"),
            ("slot 1, and gate 2 is closed", "refused 43 Damaged slot 1", leaf, "set:512:00"),
            ("512 bytes, and gate 2 was closed", "refused 43 Damaged slot 1", "set:512:00", "cut:512"),
            ("slots 1 and 2 are each other's", "refused 43 Damaged slot 1",
             "set:257:" + suite.files[state_of("three")][513:768].hex(),
             "set:513:" + suite.files[state_of("three")][257:512].hex())):
        refused_edit(name, line, "three", *edits, bound=second() if "in slot 1" in name else FIRST)


def open_gates():
    """Gate 3 is open, and slot 3 is missing, cut or no record."""
    fourth = Signer.of(records_of(suite.files[state_of("three")]))
    fourth.sign(b"fw-3", ONE, Tape(NEW))
    record = fourth.content()[768:1024].hex()
    for name, *edits in (("769 bytes", "set:768:a5"),
                         ("1023 bytes", "set:768:a5", "fill:254:00"),
                         ("a slot of a5", "fill:1000:a5", "set:768:a5"),
                         ("the next name's record without the gate after it", f"set:768:{record}"),
                         ("the next name's record of another tag", f"set:768:{record}", "fill:1:00", "set:1023:00"),
                         ("slot 2 again", "set:768:" + suite.files[state_of("three")][512:768].hex(), "fill:1:00")):
        refused_edit(f"gate 3 is open, {name}", "refused 43 Damaged slot 3", "three", *edits)


def damage_and_files():
    """What is reported before a damaged state file, and what after it."""
    state = state_of("three"), flip("three", 600)
    suite.case("three.state: what comes before a damaged slot, and what after it")
    suite.step("file", "state", *state)
    suite.file("message", ONE)
    suite.step("folder", "folder")
    suite.step("file", "empty", "-")

    def refused(words, line):
        suite.refused(words, line)
        suite.step("kept")
    refused("sign state " + "n" * 129 + " message out", "refused 34 BadName")
    for words in ("sign state fw-1 nothing out", "sign state fw-1 message out --random nothing"):
        refused(words, "refused 53 FileFailed")
    suite.step("usage", "retire state 33554433")
    suite.step("same", "state", *state)
    for words in ("sign state fw-1 folder out", "sign state fw-9 folder out", "sign state fw-1 message folder",
                  "sign state fw-1 message state", "sign state fw-1 message nothing/out",
                  "sign state fw-9 message out --random empty", "retire state 33", "retire state 33554432",
                  "sign state " + "n" * 65 + " message out"):
        refused(words, "refused 43 Damaged slot 2")
    for name, given in (("no request", b""), ("a name that is none", frame(b"", ONE)),
                        ("an input that ends inside a frame", b"\x04fw"),
                        ("an input that ends inside a message", b"\x04fw-1\0\0\0\2" + ONE)):
        suite.case(f"three.state: slot 2 is damaged, and serve is given {name}")
        suite.step("file", "state", *state)
        described_file("input", given)
        suite.step("serve", "serve state", 1, "", "refused 43 Damaged slot 2")
        suite.step("kept")
    suite.case("three.state: slot 2 is damaged, and serve has no random bytes")
    suite.step("file", "state", *state)
    described_file("input", frame(*FIRST))
    suite.step("serve", "serve state --random nothing", 3, "", "refused 53 FileFailed")
    suite.step("kept")


def illegal_by_secrets():
    """Lists that aren't legal, though the key's secret gives each name's digest and each tree's root."""
    def named(tree, name, message, leaf, randomizer=BYTES[:32]):
        return bound(leaf, name, randomizer, tree.digest(leaf, randomizer, message))

    def extended(key, level, leaf, identifier, pair=(5, 2)):
        tree, above = LmsTree(pair, bytes([identifier]) * 16, BYTES[32:64]), key.current[0].tree
        return tree, extend_body(level, leaf, tree.identifier, tree.seed, BYTES[:32],
                                 above.digest(leaf, BYTES[:32], tree.public()), tree.root())

    def refused(name, bodies, slot=2, bound=FIRST):
        refused_file(f"not legal: {name}", state_file(bodies), f"refused 44 Illegal slot {slot}", bound)
    key = fresh()
    record, tree = key.bodies[0], key.current[0].tree
    first = named(tree, *FIRST, 0)
    refused("a leaf twice", [record, first, named(tree, *second(), 0)])
    refused("a lesser leaf", [record, named(tree, *FIRST, 1), named(tree, *second(), 0)])
    refused("a name twice, with another message", [record, first, named(tree, b"fw-1", TWO, 1)])
    refused("the same record twice", [record, first, first])
    refused("a retired leaf", [record, retire_body(7), named(tree, *FIRST, 6)])
    refused("a leaf that isn't there", [record, first, named(tree, *second(), 32)])
    refused("33 leaves retired", [record, first, retire_body(33)])
    refused("the key again", [record, first, record])
    refused("an Extend of one tree", [record, first, extended(key, 1, 1, 7)[1]])
    refused("a name after a Moved", [record, moved_body(), first], 2 if suite.version == 1 else 1)
    if suite.version == 2:
        refused("a Moved", [record, first, moved_body()])
        refused("a Moved, and a leaf twice", [record, first, moved_body(), named(tree, *second(), 0)])
        refused("a leaf twice, and a Moved", [record, first, named(tree, *second(), 0), moved_body()])
    refused("the last leaf, and a leaf twice", [record, named(tree, *FIRST, 31), named(tree, *second(), 31)])
    refused("two records that aren't legal", [record, named(tree, *FIRST, 32), first], 1)
    key = fresh("hss:H5/W2,H5/W2")
    record = key.bodies[0]
    lower, below = extended(key, 1, 0, 7)
    refused("a parent leaf twice", [record, below, extended(key, 1, 0, 8)[1]], bound=None)
    refused("a lesser parent leaf", [record, extended(key, 1, 1, 7)[1], extended(key, 1, 0, 8)[1]], bound=None)
    refused("the I of a tree again", [record, below, extended(key, 1, 1, 7)[1]], bound=None)
    refused("a tree of a level that isn't there", [record, below, extended(key, 2, 0, 8)[1]], bound=None)
    refused("two levels, a name by the key's tree", [record, named(key.current[0].tree, *FIRST, 0), below], 1)
    refused("two levels, leaves retired without a tree", [record, retire_body(0), below], 1, None)
    refused("two levels, 33 leaves retired", [record, below, retire_body(33)], bound=None)
    refused("two levels, leaf 32", [record, below, named(lower, *FIRST, 32)])
    if suite.version == 2:
        refused("two levels, a Moved", [record, below, moved_body()], bound=None)
    key = fresh("xmss:10")
    record, tree = key.bodies[0], key.current[0].tree
    first = named(tree, *FIRST, 0, bytes(32))
    if suite.version == 2:
        refused("XMSS, a Moved", [record, first, moved_body()])
    refused("XMSS, a leaf twice", [record, first, named(tree, *second(), 0, bytes(32))])
    refused("XMSS, C that isn't zero", [record, first, named(tree, *second(), 1)])
    refused("XMSS, leaf 1024", [record, first, retire_body(1025)])


class Reopened:
    """A case of a kept state file that still has legal records after these edits. A new record is written over the
    bytes from the first closed gate on, and the bytes behind it stay."""
    def __init__(self, name, source, edits):
        self.state = state_of(source), *edits
        self.before = edited(b"", [f"with:{state_of(source)}", *edits])
        self.key = Signer.of(records_of(self.before))
        self.count = len(self.key.bodies)
        suite.case(f"{source}.state: {name}")
        suite.step("file", "state", *self.state)

    def has_state(self):
        if len(self.key.bodies) == self.count:
            return suite.step("same", "state", *self.state)
        content = self.key.content()
        return suite.has("state", content + self.before[len(content):])

    def sign(self, name, message, drawn=NEW):
        suite.file("message", message)
        suite.step("file", "tape", "-", *([f"add:{drawn.hex()}"] if drawn else []))
        words = f"sign state {name.decode()} message out --random tape"
        try:
            signature = self.key.sign(name, message, Tape(drawn))
        except Refused as refused:
            suite.refused(words, line_of(refused))
            suite.step("kept")
        else:
            if verdict(self.key.public(), message, signature) != "verified":
                raise ValueError(f"{words}: not verified")
            suite.run(words, f"signed {name.decode()} {len(signature)} bytes")
            suite.has("out", signature)
        self.has_state()

    def retire(self, upto):
        try:
            self.key.retire(upto)
        except Refused as refused:
            suite.refused(f"retire state {upto}", line_of(refused))
        else:
            suite.run(f"retire state {upto}", f"retired upto {upto}")
        self.has_state()

    def serve(self, *requests):
        answered(self.key, b"".join(frame(*request) for request in requests), NEW)
        self.has_state()

    def audit(self):
        suite.run("audit state", *self.key.report())
        self.has_state()

    # requests to it, each in a case of its own
    def a_new_name(self):
        self.sign(b"fw-9", ONE)
        self.sign(b"fw-9", ONE, b"")
        self.audit()

    def the_first_name(self):
        self.sign(*FIRST)

    def the_first_name_with_another_message(self):
        self.sign(b"fw-1", TWO)

    def the_second_name(self):
        self.sign(*second())

    def the_second_name_with_another_message(self):
        self.sign(second()[0], ONE)

    def two_new_names_and_leaves_retired(self):
        self.sign(b"fw-9", ONE)
        self.sign(b"fw-8", TWO, tape(0x10, 32))
        self.retire(20)
        self.audit()

    def leaves_retired(self):
        self.retire(7)
        self.audit()

    def no_leaf_retired(self):
        self.retire(0)

    def more_leaves_retired_than_there_are(self):
        self.retire(33)

    def serve_a_new_name(self):
        self.serve((b"fw-9", ONE))

    def serve_the_first_name(self):
        self.serve(FIRST)

    def serve_names_again(self):
        self.serve(FIRST, (b"fw-1", TWO), second(), (b"fw-9", ONE), (b"fw-9", ONE))


FEW = (Reopened.a_new_name, Reopened.the_first_name, Reopened.leaves_retired, Reopened.serve_names_again)
MANY = (*FEW, Reopened.the_first_name_with_another_message, Reopened.the_second_name,
        Reopened.the_second_name_with_another_message, Reopened.two_new_names_and_leaves_retired,
        Reopened.no_leaf_retired, Reopened.more_leaves_retired_than_there_are, Reopened.serve_a_new_name,
        Reopened.serve_the_first_name)


def reopened(name, source, edits, asked):
    for each in asked:
        each(Reopened(f"{name}: {each.__name__.replace('_', ' ')}", source, edits))


def closed_gates():
    """Gate 1 or 2 is closed, so that the file has fewer records; or gate 3 is closed by another value."""
    for gate, value in ((1, "00"), (2, "00"), (3, "01")):
        reopened(f"gate {gate} is {value}", "three", [f"set:{256 * gate}:{value}"], MANY)
    for gate, values in ((1, ("a4", "ff")), (2, ("01", "a4", "ff")), (3, ("a4", "ff"))):
        for value in values:
            reopened(f"gate {gate} is {value}", "three", [f"set:{256 * gate}:{value}"], FEW)


def closed_gates_and_more():
    """Bytes after a closed gate don't count. A file that ends near it grows by what a new record needs."""
    some = Reopened.a_new_name, Reopened.leaves_retired, Reopened.serve_names_again
    for gate, sizes in ((1, (257, 258, 511, 512, 513, 514, 768)), (2, (513, 514, 767, 768))):
        for size in sizes:
            reopened(f"gate {gate} is closed, {size} bytes", "three", [f"set:{256 * gate}:00", f"cut:{size}"], some)
    for name, *edits in (("gate 1 is closed, slot 1 is damaged", "set:256:00", f"set:{at_bound(1, 70)}:05"),
                         ("gate 1 is closed, slot 2 is damaged", "set:256:00", flip("three", 600)),
                         ("gate 1 is closed, gate 3 is open", "set:256:00", "set:768:a5"),
                         ("gate 2 is closed, slot 2 is damaged", "set:512:00", f"set:{at_bound(2, 70)}:00"),
                         ("gates 1 and 2 are closed", "set:256:00", "set:512:01"),
                         ("gate 2 is closed, gate 3 is open", "set:512:00", "set:768:a5"),
                         ("a byte more", "fill:1:a5"), ("a slot of a5 behind gate 3", "fill:255:a5"),
                         ("1025 bytes", "fill:256:a5"), ("1026 bytes", "fill:257:a5")):
        reopened(name, "three", edits, some)
    key, first, _ = records_of(suite.files[state_of("three")])
    leaf_again = bound(0, b"fw-2", BYTES[:32], fresh().current[0].tree.digest(0, BYTES[:32], TWO))
    slot = state_file([key, first, leaf_again])[513:768]
    reopened("gate 2 is closed, slot 2 has a leaf again", "three", [f"set:512:00{slot.hex()}"], some)


def closed_gates_of_others():
    """The same for a lower tree behind the gate, retired leaves, a key that had moved, and XMSS."""
    levels = (*FEW, Reopened.the_first_name_with_another_message, Reopened.no_leaf_retired, Reopened.serve_a_new_name)
    for gate, value in ((1, "00"), (2, "00"), (3, "ff")):
        reopened(f"gate {gate} is {value}", "two-levels", [f"set:{256 * gate}:{value}"], levels)
    story = Reopened("gate 1 is 00: the I behind it is drawn again", "two-levels", ["set:256:00"])
    story.sign(*FIRST, tape(0x30))
    story.audit()
    moved = ["moved"] if suite.version == 1 else []
    for source in ("retired", *moved, "xmss"):
        reopened("gate 2 is 00", source, ["set:512:00"], FEW)
    for source in ("retired", *moved):
        reopened("gate 3 is ff", source, ["set:768:ff"], FEW)
    reopened("gate 1 is a4", "xmss", ["set:256:a4"], [Reopened.the_first_name_with_another_message])
