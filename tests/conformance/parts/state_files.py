"""Cases of state files in every state of damage, of places for a new key, and of records that aren't legal."""
import hashlib

from model import (XMSS, Refused, Signer, Tape, body, extend_body, frame, is_name, last_tag, moved_body, records_of,
                   retire_body, state_file)
from parts.records import FIRST, bound, extend, hss_key, lms_key, public_of, second, tape, xmss_key
from parts.runs import frames
from parts.suite import (BYTES, ONE, TWO, changed, described_file, flipped, line_of, line_of_make, longest, new_key,
                         other_version, state_of, status_of, suite)


def lines_of(content):
    """The lines of an audit of a state file."""
    try:
        return Signer.of(records_of(content)).report()
    except Refused as refused:
        return [line_of(refused)]


def audited(name, content, lines):
    """Compares a text here with the model."""
    if lines_of(content) != list(lines):
        raise ValueError(f"{name}: {lines_of(content)}, not {lines}")


def report_of(bodies, left, moved=False):
    """The lines of an audit of legal records with these free leaves at each level."""
    return [f"public {public_of(bodies[0]).hex()}", f"records {len(bodies)}", f"tag {last_tag(bodies).hex()}",
            *(f"level {level} left {count}" for level, count in enumerate(left)), *(["moved 2"] if moved else [])]


def opened(name, bodies, left, moved=False):
    """Legal records, and the lines of their audit."""
    content = state_file(bodies)
    suite.case(name)
    lines = report_of(bodies, left, moved)
    audited(name, content, lines)
    suite.judged[suite.version, name] = content
    described_file("state", content)
    suite.run("audit state", *lines)
    each_anchor(bodies, lines)
    suite.run("retire state 0", *(["refused 31 Moved"] if moved else ["retired upto 0"]), status=int(moved))
    suite.has("state", content)


def each_anchor(bodies, lines):
    """Audits of a legal file with anchors of each count up to one more than its records. The file's own anchor fits. An
    anchor with another tag, of no records or of too many doesn't."""
    for count in range(len(bodies) + 2):
        tag = last_tag(bodies[:count] or bodies[:1])
        other = tag[:31] + bytes([tag[31] ^ 1])
        for given in (tag, other, bytes(32)):
            words = f"audit state --count {count} --tag {given.hex()}"
            if not 1 <= count <= len(bodies):
                suite.refused(words, "refused 47 AnchorCount")
            elif given == tag:
                suite.run(words, *lines)
            else:
                suite.refused(words, "refused 48 AnchorTag")


def refused_file(name, content, line, bound=None):
    """A state file that isn't opened: every command gives the same line, and changes nothing. `bound` is a name in it
    with its message."""
    suite.case(name)
    audited(name, content, [line])
    suite.judged[suite.version, name] = content
    described_file("state", content)
    refused_by_all(line, bound)


def refused_by_all(line, bound):
    suite.file("message", ONE)
    signs, requests = ["sign state name message out"], [(b"name", ONE)]
    if bound:
        suite.file("other", TWO)
        signs += [f"sign state {bound[0].decode()} {message} out" for message in ("message", "other")]
        requests.append(bound)
    for words in ("audit state", "retire state 0", "retire state 7", *signs):
        suite.refused(words, line)
        suite.step("kept")
    for request in requests:
        described_file("input", frame(*request))
        suite.step("serve", "serve state", status_of(line), "", line)
        suite.step("kept")


def refused_records(name, bodies, line):
    names = [record[2:2 + record[1]] for record in bodies if record[0] == 3 and is_name(record[2:2 + record[1]])]
    refused_file(name, state_file(bodies), line, (names[0], ONE) if names else None)
    # whatever the anchor is
    for count in range(len(bodies) + 2):
        suite.refused(f"audit state --count {count} --tag {last_tag(bodies[:count] or bodies[:1]).hex()}", line)


def state_files():
    suite.begin("state_files")
    if suite.version == 2:
        moves()
    damaged_files()
    places()
    spellings()
    legality()
    roots()
    full_keys()


def each_audited(source, first, end, values, *lines):
    """Audits of a kept file with one byte changed: each from `first` to before `end`."""
    content = suite.files[source]
    for at in range(first, end):
        for value in bytes.fromhex(values):
            if content[at] != value:
                audited(f"byte {at} as {value}", changed(content, at, bytes([value])), lines)
    suite.step("each", "state", source, first, end, values, "audit state", status_of(lines[0]), *lines)


def damaged_files():
    """A file of three records with other lengths, gates and bytes."""
    key = new_key("lms:H5/W2")
    reports = [key.report()]
    for number, request in enumerate((FIRST, second())):
        key.sign(*request, Tape(tape(0x30 + 0x20 * number)))
        reports.append(key.report())
    three = key.content()
    source = suite.keep(state_of("three"), three)
    suite.case("three records")
    suite.step("file", "state", source)
    suite.run("audit state", *reports[2])
    suite.case("three records, each byte changed")
    rows = [(0, 1, "refused 40 NoKey"), (1, 10, "refused 41 NotKeyFile"), (10, 12, "refused 42 Version"),
            (12, 256, "refused 43 Damaged slot 0"), (257, 512, "refused 43 Damaged slot 1"),
            (513, 768, "refused 43 Damaged slot 2")]
    for first, end, line in rows:
        each_audited(source, first, end, "005aa5ff", line)
    each_audited(source, 11, 12, f"{other_version():02x}", "refused 43 Damaged slot 0")
    each_audited(source, 11, 12, "03", "refused 42 Version")
    suite.case("three records, a gate changed")
    for record in (1, 2):
        each_audited(source, 256 * record, 256 * record + 1, "00015aa4ff", *reports[record - 1])
    each_audited(source, 768, 769, "015aa4ff", *reports[2])
    each_audited(source, 768, 769, "a5", "refused 43 Damaged slot 3")
    suite.case("three records, every beginning")
    for first, end, line in ((0, 257, "refused 40 NoKey"), (257, 513, "refused 43 Damaged slot 1"),
                             (513, 769, "refused 43 Damaged slot 2")):
        for size in range(first, end):
            audited(f"{size} bytes", three[:size], [line])
        suite.step("cuts", "state", source, first, end, "audit state", 1, line)
    refused_file("one byte", b"\x37", "refused 40 NoKey")
    refused_file("one byte, an open gate", b"\xa5", "refused 40 NoKey")
    refused_file("an empty file", b"", "refused 40 NoKey")
    refused_file("256 open gates", b"\xa5" * 256, "refused 40 NoKey")
    refused_file("257 open gates", b"\xa5" * 257, "refused 41 NotKeyFile")
    for size in (800, 1024, 1025):
        refused_file(f"gate 3 open, {size} bytes", changed(three, 768, b"\xa5") + bytes(size - 769),
                     "refused 43 Damaged slot 3", FIRST)
    refused_file("two slots damaged", flipped(flipped(three, 300), 600), "refused 43 Damaged slot 1", FIRST)
    suite.case("bytes after a closed gate aren't looked at")
    for edits in (["fill:1:a5"], ["fill:1000:a5"], ["set:768:00", "fill:255:ff", "fill:1:a5", "fill:600:00"]):
        suite.step("file", "state", source, *edits)
        suite.run("audit state", *reports[2])
    suite.case("they stay when a record is added")
    suite.step("file", "state", source, "fill:600:ee")
    suite.file("message", ONE)
    suite.file("tape", tape(0x70, 32))
    signature = key.sign(b"fw-3", ONE, Tape(tape(0x70, 32)))
    suite.run("sign state fw-3 message out --random tape", f"signed fw-3 {len(signature)} bytes")
    suite.has("out", signature)
    suite.has("state", key.content() + b"\xee" * (769 + 600 - 1025))
    suite.case("a file that ends with its closed gate grows by 256 bytes, and a shorter rest is kept")
    suite.step("file", "state", source, "fill:100:ee")
    suite.file("message", ONE)
    suite.file("tape", tape(0x70, 32))
    suite.run("sign state fw-3 message out --random tape", f"signed fw-3 {len(signature)} bytes")
    suite.has("state", key.content())
    suite.case("no file, and a folder")
    suite.file("message", ONE)
    suite.step("folder", "folder")
    for state in ("nothing", "folder"):
        for words in ("audit {}", "retire {} 0", "sign {} name message out"):
            suite.refused(words.format(state), "refused 53 FileFailed")
    suite.refused(line_of_make("folder public lms:H5/W2"), "refused 53 FileFailed")
    suite.step("missing", "nothing")
    suite.step("missing", "out")


def places():
    """What may be at the place where `make` makes a state file."""
    key = new_key("lms:H5/W2")
    public, content = key.public(), key.content()
    line = f"public {public.hex()}"
    for name, before in (("no file", None), ("an empty file", b""), ("one byte", b"\x37"), ("one open gate", b"\xa5"),
                         ("two bytes", b"\xa5\xa5"), ("256 open gates", b"\xa5" * 256),
                         ("257 closed gates", b"\xa4" * 257)):
        suite.case(f"a key is made at {name}")
        if before is not None:
            described_file("state", before) if len(set(before)) > 1 else \
                suite.step("file", "state", "-", *([f"fill:{len(before)}:{before[:1].hex()}"] if before else []))
        suite.file("tape", BYTES[:48])
        suite.run(line_of_make("state public lms:H5/W2 --random tape"), line)
        suite.has("state", content)
        suite.has("public", public)
    for name, edits, wanted in (("258 closed gates", ["fill:258:a4"], "refused 41 NotKeyFile"),
                                ("a closed gate and much more", ["fill:5000:00"], "refused 41 NotKeyFile"),
                                ("257 open gates", ["fill:257:a5"], "refused 50 KeyThere"),
                                ("an open gate and more", ["fill:1:a5", "fill:300:00"], "refused 50 KeyThere")):
        suite.case(f"no key is made at {name}")
        suite.step("file", "state", "-", *edits)
        suite.step("file", "tape", "-")
        suite.refused(line_of_make("state public lms:H5/W2 --random tape"), wanted)
        suite.step("same", "state", "-", *edits)
        suite.step("missing", "public")
    for name, edits, wanted in (("a key", [], "refused 50 KeyThere"), ("a key whose gate is closed", ["set:0:00"],
                                "refused 41 NotKeyFile"), ("a damaged key", ["set:100:ff"], "refused 50 KeyThere")):
        suite.case(f"no key is made at {name}")
        suite.step("file", "state", state_of("three"), *edits)
        suite.step("file", "tape", "-")
        suite.refused(line_of_make("state public lms:H5/W2 --random tape"), wanted)
        suite.step("same", "state", state_of("three"), *edits)
    # a place is prepared before a draw that fails: it has one byte, or its old bytes but the first
    for name, edits, after in (("no bytes", [], "00"), ("ten bytes", ["fill:10:a5"], "00" + "a5" * 9)):
        suite.case(f"no random bytes for a key at {name}")
        suite.step("file", "state", "-", *edits)
        suite.step("file", "tape", "-", "fill:47:00")
        suite.refused(line_of_make("state public lms:H5/W2 --random tape"), "refused 23 RandomFailed")
        suite.step("same", "state", "-", f"add:{after}")
        suite.step("missing", "public")


def spellings():
    """Slots with right tags that spell no record, or one that only an audit of the list refuses."""
    key = lms_key()
    for name, record in (
            ("scheme 0", lms_key(scheme=0)), ("scheme 4", lms_key(scheme=4)), ("LMS of no level", lms_key(levels=0)),
            ("the fields of LMS as those of XMSS", lms_key(scheme=XMSS)),
            ("LMS of two levels", lms_key(levels=2)), ("LMS of two pairs", lms_key(pairs=[(5, 2), (5, 2)])),
            ("LMS with a second pair", lms_key(pairs=[(5, 2), (5, 2)], levels=1)),
            ("HSS of no level", hss_key(levels=0, pairs=[])),
            ("HSS of nine levels", changed(hss_key(8), 12, b"\x09")),
            ("HSS of two levels and one pair", hss_key(levels=2, pairs=[(5, 2), (0, 0)])),
            ("HSS of one level and two pairs", changed(hss_key(2), 12, b"\x01")),
            *((f"HSS of {count} levels and three pairs", changed(hss_key(3), 12, bytes([count])))
              for count in (1, 2, 4, 8, 9, 255)),
            ("the last byte of the eight pairs", changed(key, 76, b"\x01")),
            ("a tree of type 4", lms_key(pairs=[(4, 2)])), ("a tree of type 10", lms_key(pairs=[(10, 2)])),
            ("a one-time type 0", lms_key(pairs=[(5, 0)])), ("a one-time type 5", lms_key(pairs=[(5, 5)])),
            ("LMS with SK_PRF", lms_key(prf_key=bytes(31) + b"\x01")),
            ("LMS with the first byte of SK_PRF", lms_key(prf_key=b"\x01" + bytes(31))),
            ("LMS with a public SEED", lms_key(public_seed=bytes(31) + b"\x01")),
            ("LMS with the first byte of a public SEED", lms_key(public_seed=b"\x01" + bytes(31))),
            ("HSS with SK_PRF", hss_key(prf_key=b"\x01" + bytes(31))), ("XMSS of type 0", xmss_key(pairs=[(0, 0)])),
            ("XMSS of type 4", xmss_key(pairs=[(4, 0)])), ("XMSS with a one-time type", xmss_key(pairs=[(1, 1)])),
            ("XMSS of two levels", xmss_key(levels=2)), ("XMSS with I", xmss_key(identifier=bytes(15) + b"\x01")),
            ("XMSS with the first byte of I", xmss_key(identifier=b"\x01" + bytes(15))),
            ("XMSS with a second pair", xmss_key(pairs=[(1, 0), (5, 0)], levels=1)),
            ("XMSS with a second one-time type", xmss_key(pairs=[(1, 0), (0, 1)], levels=1)),
            ("unused bytes in a key", changed(key, 221, b"\x01")),
            ("the last unused byte in a key", changed(key, 222, b"\x01"))):
        refused_records(f"a key that isn't spelled: {name}", [record], "refused 43 Damaged slot 0")
    for name, record, line in (
            ("a Bound in slot 0", bound(0), "refused 41 NotKeyFile"),
            ("a Moved in slot 0", moved_body(), "refused 41 NotKeyFile"),
            ("an Extend in slot 0", extend(1, 0, 7), "refused 41 NotKeyFile"),
            ("a Retire in slot 0", retire_body(1), "refused 41 NotKeyFile"),
            ("another magic", changed(key, 1, b"HBSSTATF"), "refused 41 NotKeyFile"),
            ("kind 0", changed(key, 0, b"\0"), "refused 41 NotKeyFile"),
            ("version 0", lms_key(version=0), "refused 42 Version"),
            ("version 256", lms_key(version=256), "refused 42 Version"),
            ("version 3", lms_key(version=3), "refused 42 Version"),
            ("version 65535 of scheme 9", lms_key(version=65535, scheme=9), "refused 42 Version")):
        refused_records(f"no key: {name}", [record], line)
    zero = bytes(32), bytes(32)
    name, most = bound(0, b"fw", *zero), longest()
    for what, record in (
            ("kind 0", body(0)), ("kind 6", body(6)), ("kind 255", body(255)),
            *((f"the fields of a key as those of kind {kind}", changed(key, 0, bytes([kind])))
              for kind in (2, 3, 4, 5)),
            ("a name of no byte", changed(name, 1, b"\0")),
            (f"a name of {most + 1} bytes", changed(bound(0, b"n" * most, *zero), 1, bytes([most + 1]))),
            ("a name of 255 bytes", changed(name, 1, b"\xff")),
            ("a name that is longer than its bytes", changed(name, 1, b"\x03")),
            ("a name that is shorter than its bytes", changed(name, 1, b"\x01")),
            ("a blank in a name", bound(0, b"f w", *zero)),
            ("a byte 7f in a name", bound(0, b"f\x7f", *zero)),
            ("a byte 80 in a name", bound(0, b"\x80", *zero)),
            ("a zero in a name", bound(0, b"f\0w", *zero)),
            ("a byte at the end of a name's field", changed(name, 1 + most, b"n")),
            ("unused bytes in a Bound", changed(name, 70 + most, b"\x01")),
            ("the last unused byte in a Bound", changed(name, 222, b"\x01")),
            ("unused bytes in a Retire", changed(retire_body(1), 5, b"\x01")),
            ("the last unused byte in a Retire", changed(retire_body(1), 222, b"\x01")),
            ("unused bytes in an Extend", changed(extend(1, 0, 7), 150, b"\x01")),
            ("the last unused byte in an Extend", changed(extend(1, 0, 7), 222, b"\x01")),
            *((f"a Moved to version {version}", moved_body(version)) for version in (0, 1, 3, 258, 512)),
            ("unused bytes in a Moved", changed(moved_body(), 3, b"\x01")),
            ("the last unused byte in a Moved", changed(moved_body(), 222, b"\x01")),
            ("a key of the other version", lms_key(version=other_version())),
            ("a key of version 3", lms_key(version=3)),
            ("a Bound of the other version", bound(2, version=other_version())),
            ("a Bound of the other version, of leaf 0", bound(0, version=other_version())),
            ("a Bound of the other version, with no C", bound(0, b"n", bytes(32), version=other_version()))):
        refused_records(f"no record: {what}", [key, bound(1), record], "refused 43 Damaged slot 2")
    refused_records("no record: a Bound of the other version under XMSS",
                    [xmss_key(), bound(0, b"n", bytes(32), version=other_version())], "refused 43 Damaged slot 1")
    refused_records("no record: the key again, in the other version", [key, lms_key(version=other_version())],
                    "refused 43 Damaged slot 1")
    refused_records("no record comes before a list that isn't legal", [key, key, body(0)], "refused 43 Damaged slot 2")
    opened("a name of 64 bytes of 21 and 7e", [key, bound(0, b"!" * 32 + b"~" * 32)], [31])
    opened("a name of one byte", [key, bound(0, b"!")], [31])
    opened("a name of the most bytes", [key, bound(0, b"!" * most), bound(1, b"!" * (most - 1))], [30])
    names_of_each_length()


def names_of_each_length():
    """A name of each length of its version, bound to another digest than a request's."""
    suite.case("names of each length")
    names = [b"n" * size for size in range(1, longest() + 1)]
    bodies = [lms_key((6, 2)), *(bound(leaf, name) for leaf, name in enumerate(names))]
    lines = report_of(bodies, [1024 - len(names)])
    content = state_file(bodies)
    audited("names of each length", content, lines)
    suite.step("file", "state", suite.keep(state_of("lengths"), content))
    suite.run("audit state", *lines)
    frames(Signer.of(bodies), b"".join(frame(name, ONE) for name in names), b"",
           " ".join(["add:1500000000"] * len(names)))


def legality():
    key, two, three = lms_key(), hss_key(), hss_key(3)
    # a record after a Moved isn't legal; in version 2 the Moved itself isn't
    moved = 2 if suite.version == 1 else 1
    for name, bodies, slot in (
            ("a leaf twice", [key, bound(3), bound(3, b"other")], 2),
            ("a name twice", [key, bound(3), bound(7, b"n-3")], 2),
            ("a lesser leaf", [key, bound(3), bound(2)], 2), ("a retired leaf", [key, retire_body(5), bound(4)], 2),
            ("a second key", [key, key], 1), ("a second key of another scheme", [key, two], 1),
            ("an Extend of LMS", [key, extend(1, 0, 7)], 1),
            ("33 leaves retired", [key, retire_body(33)], 1), ("2^31 leaves retired", [key, retire_body(2**31)], 1),
            ("2^32 - 1 leaves retired", [key, retire_body(2**32 - 1)], 1), ("leaf 32", [key, bound(32)], 1),
            ("leaf 2^32 - 1", [key, bound(2**32 - 1)], 1), ("a name after the last leaf", [key, bound(31), bound(32)],
                                                            2),
            ("a record after a Moved", [key, moved_body(), bound(0)], moved),
            ("a second Moved", [key, moved_body(), moved_body()], moved),
            ("a Retire after a Moved", [key, moved_body(), retire_body(0)], moved),
            ("a Bound without a bottom tree", [two, bound(0)], 1),
            ("a Retire without a bottom tree", [two, retire_body(0)], 1),
            ("an Extend of level 0", [two, extend(0, 0, 7)], 1),
            ("an Extend of level 2 of two", [two, extend(2, 0, 7)], 1),
            ("an Extend of level 255", [two, extend(255, 0, 7)], 1),
            ("an Extend by leaf 32", [two, extend(1, 32, 7)], 1),
            ("an Extend by a used leaf", [two, extend(1, 0, 7), extend(1, 0, 8)], 2),
            ("an Extend by a lesser leaf", [two, extend(1, 5, 7), extend(1, 4, 8)], 2),
            ("the I of the key again", [two, extend_body(1, 0, BYTES[:16], *[bytes(32)] * 4)], 1),
            ("the I of an Extend again", [two, extend(1, 0, 7), extend(1, 1, 7)], 2),
            ("an Extend without the tree above", [three, extend(2, 0, 7)], 1),
            ("an Extend of a tree that isn't current", [three, extend(1, 0, 7), extend(2, 0, 8), extend(1, 1, 9),
                                                        bound(0)], 4),
            ("a Bound of two levels of three", [three, extend(1, 0, 7), bound(0)], 2),
            ("XMSS with C", [xmss_key(), bound(0)], 1), ("XMSS with an Extend", [xmss_key(), extend(1, 0, 7)], 1),
            ("XMSS, leaf 1024", [xmss_key(), bound(1024, b"n", bytes(32))], 1),
            ("XMSS, 1025 leaves retired", [xmss_key(), retire_body(1025)], 1)):
        refused_records(f"not legal: {name}", bodies, f"refused 44 Illegal slot {slot}")
    opened("a key alone", [key], [32])
    opened("two names, and leaves that were left out", [key, bound(3), bound(7)], [24])
    opened("leaves retired", [key, retire_body(5), bound(5)], [26])
    opened("fewer leaves retired than are used", [key, bound(9), retire_body(3), bound(10)], [21])
    opened("all leaves retired", [key, retire_body(32)], [0])
    opened("the last leaf", [key, bound(31)], [0])
    if suite.version == 1:
        opened("a key that has moved", [key, moved_body()], [32], moved=True)
        opened("a name, and a key that has moved", [key, bound(0), moved_body()], [31], moved=True)
    opened("one level", [hss_key(1), bound(4)], [27])
    opened("two levels without a tree", [two], [32, 0])
    for count in range(3, 9):
        opened(f"{count} levels without a tree", [hss_key(count)], [32] + [0] * (count - 1))
    opened("two levels", [two, extend(1, 0, 7), bound(0)], [31, 31])
    opened("the same leaf of another tree", [two, extend(1, 0, 7), bound(0), extend(1, 1, 8), bound(0, b"other")],
           [30, 31])
    opened("leaves of the top that were left out", [two, extend(1, 5, 7), extend(1, 31, 8)], [0, 32])
    opened("three levels without a bottom", [three, extend(1, 0, 7)], [31, 32, 0])
    opened("three levels whose bottom went with the tree above",
           [three, extend(1, 0, 7), extend(2, 0, 8), extend(1, 1, 9)], [30, 32, 0])
    opened("eight levels", [hss_key(8), *(extend(level, 0, level) for level in range(1, 8)), bound(0)], [31] * 8)
    opened("XMSS", [xmss_key(), bound(1, b"n", bytes(32)), retire_body(1000)], [24])
    opened("XMSS of height 20", [xmss_key(pairs=[(3, 0)])], [2**20])
    opened("LMS of H25/W1", [lms_key(pairs=[(9, 1)]), bound(2**25 - 1)], [0])
    opened("heights of several levels", [hss_key(pairs=[(9, 1), (6, 4)]), extend(1, 2**25 - 2, 7)], [1, 1024])
    tall = hss_key(pairs=[(9, 1), (8, 1), (8, 1)])
    opened("2^64 signatures left", [tall, extend(1, 2**24, 7)], [2**24 - 1, 2**20, 0])
    opened("2^64 - 1 signatures left", [tall, extend(1, 2**24, 7), extend(2, 0, 8), bound(0)],
           [2**24 - 1, 2**20 - 1, 2**20 - 1])


def moves():
    """A Moved is no legal record of version 2, whatever comes before it."""
    key, two = lms_key(), hss_key()
    for name, bodies in (("a key", [key]), ("a key of XMSS", [xmss_key()]), ("a name", [key, bound(0)]),
                         ("leaves retired", [key, retire_body(5)]), ("all leaves retired", [key, retire_body(32)]),
                         ("two levels", [two]), ("a tree of a level", [two, extend(1, 0, 7)]),
                         ("a name of a level", [two, extend(1, 0, 7), bound(0)])):
        refused_records(f"not legal: a Moved after {name}", [*bodies, moved_body()],
                        f"refused 44 Illegal slot {len(bodies)}")


def again(base, number, name, message):
    """A request over the model's records: its line, its signature and the records afterwards."""
    suite.file("message", message)
    suite.file("tape", tape(number))
    out = f"out-{number}"
    words = f"sign state {name.decode()} message {out} --random tape"
    try:
        signature = base.sign(name, message, Tape(tape(number)))
    except Refused as refused:
        suite.refused(words, line_of(refused))
        suite.step("missing", out)
    else:
        suite.run(words, f"signed {name.decode()} {len(signature)} bytes")
        suite.has(out, signature)
    suite.has("state", base.content())


def roots():
    """Recorded roots and digests that aren't the secret's. A request checks the trees from the top down to the deepest
    with a free leaf, or the trees of a bound name."""
    def two(**changes):
        """A key of two levels with a name, and a changed root of a tree or digest of the Extend."""
        key = new_key("hss:H5/W2,H5/W2")
        key.sign(b"fw-1", ONE, Tape(tape(0x30, 112)))
        bodies = list(key.bodies)
        top, lower = key.current
        if "root" in changes:
            top.root = flipped(top.root, 0)
            bodies[0] = changed(bodies[0], 189, top.root)
        if "lower_root" in changes:
            lower.root = flipped(lower.root, 31)
            bodies[1] = changed(bodies[1], 118, lower.root)
        if "digest" in changes:
            parent, leaf, randomizer, digest = lower.parent
            lower.parent = parent, leaf, randomizer, flipped(digest, 5)
            bodies[1] = changed(bodies[1], 86, lower.parent[3])
        if "agreeing" in changes:
            parent, leaf, randomizer, _ = lower.parent
            lower.parent = parent, leaf, randomizer, parent.tree.digest(leaf, randomizer, lower.tree.public(lower.root))
            bodies[1] = changed(bodies[1], 86, lower.parent[3])
        key.bodies = bodies
        return key

    def tried(name, base, *requests):
        suite.case(name)
        described_file("state", base.content())
        for number, (request, message) in enumerate(requests):
            again(base, 0x90 + 16 * number, request, message)

    new, old, other = (b"fw-2", ONE), (b"fw-1", ONE), (b"fw-1", TWO)
    for name, changes in (("no change", {}), ("another root of the key", {"root": 1}),
                          ("another root of the lower tree", {"lower_root": 1}),
                          ("another digest of the lower tree", {"digest": 1}),
                          ("both roots", {"root": 1, "lower_root": 1}),
                          ("another root, with its digest", {"lower_root": 1, "agreeing": 1})):
        for request in (new, old, other):
            tried(f"{name}: {request[0].decode()} with {request[1].hex()}", two(**changes), request)
    # a request that replaces a full tree doesn't check it; a request of a bound name under it does
    base = two(lower_root=1)
    base.retire(32)
    tried("a changed root of a tree that is full", base, new, old)
    base = two(root=1)
    base.retire(32)
    tried("a changed root above a tree that is full", base, new)
    key = new_key("lms:H5/W2")
    key.current[0].root = flipped(key.current[0].root, 3)
    key.bodies[0] = changed(key.bodies[0], 189, key.current[0].root)
    tried("a key with another root", key, new)
    # `retire` and `audit` don't check roots
    base = two(root=1, lower_root=1)
    suite.case("no root is looked at by audit and retire")
    described_file("state", base.content())
    suite.run("audit state", *base.report())
    base.retire(7)
    suite.run("retire state 7", "retired upto 7")
    suite.has("state", base.content())
    # a bound digest of another message
    key = new_key("lms:H5/W2")
    key.sign(b"fw-1", ONE, Tape(tape(0x30)))
    at, leaf, randomizer, digest = key.bound[b"fw-1"]
    key.bound[b"fw-1"] = at, leaf, randomizer, flipped(digest, 0)
    key.bodies[1] = bound(leaf, b"fw-1", randomizer, flipped(digest, 0))
    tried("a name with another digest", key, old, new)


def full_keys():
    """Keys with no free leaf, and requests after many records."""
    key = new_key("lms:H5/W8")
    for number in range(32):
        key.sign(b"fw-%d" % number, b"%d" % number, Tape(tape(number)))
    suite.case("32 names of one tree: no leaf is left, and the first is signed again")
    suite.step("file", "state", suite.keep(state_of("full-tree"), key.content()))
    suite.run("audit state", *key.report())
    again(key, 1, b"fw-32", b"32")
    again(key, 2, b"fw-0", b"0")
    suite.case("the last name, and one of another message")
    suite.step("file", "state", state_of("full-tree"))
    again(key, 1, b"fw-31", b"31")
    suite.case("one of another message")
    suite.step("file", "state", state_of("full-tree"))
    again(key, 1, b"fw-7", b"8")
    if suite.version == 1:
        full_levels()


def full_levels():
    """The same for two levels. In version 2 tests/suites/serving fills them by the program."""
    key = new_key("hss:H5/W4,H5/W4")
    for number in range(1024):
        key.sign(b"fw-%d" % number, b"%d" % number, Tape(hashlib.shake_256(b"%d" % number).digest(112)))
    if len(key.content()) != 270593 or len(key.bodies) != 1057:
        raise ValueError("1057 records")
    suite.case("1024 names of two levels: no leaf is left")
    suite.step("file", "state", suite.keep(state_of("full-levels"), key.content()))
    suite.run("audit state", *key.report())
    again(key, 1, b"fw-1024", b"1024")
    for number in (0, 500, 1023):
        suite.case(f"1024 names of two levels: name {number} is signed again")
        suite.step("file", "state", state_of("full-levels"))
        again(key, 1, b"fw-%d" % number, b"%d" % number)
