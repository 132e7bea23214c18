"""Cases of `audit` with anchors, and of `audit-given`."""
from model import Tape, body, last_tag, moved_body, state_file
from parts.records import bound, hss_signature, lms_key, public_of, tape
from parts.suite import BYTES, ONE, TWO, changed, described_file, flipped, new_key, status_of, suite


def audits():
    suite.begin("audits")
    anchors()
    if suite.version == 1:
        given_signatures()


def anchors():
    key = new_key("hss:H5/W8,H5/W8")
    first = key.content()
    key.sign(b"fw-1", ONE, Tape(tape(0x30, 112)))
    third, tags = key.content(), [last_tag(key.bodies[:count]).hex() for count in (1, 2, 3)]
    report = key.report()
    if report[1:2] + report[3:] != ["records 3", "level 0 left 31", "level 1 left 31"]:
        raise ValueError(str(report))
    suite.case("anchors of a file, and of earlier ones")
    described_file("state", third)
    suite.run("audit state", *report)
    for count, tag in enumerate(tags, 1):
        suite.run(f"audit state --count {count} --tag {tag}", *report)
        suite.run(f"audit --tag {tag.upper()} state --count 000{count}", *report)
    for count, tag, line in ((3, tags[1], "refused 48 AnchorTag"), (2, tags[2], "refused 48 AnchorTag"),
                             (3, "0" * 64, "refused 48 AnchorTag"), (4, tags[2], "refused 47 AnchorCount"),
                             (0, tags[0], "refused 47 AnchorCount"), (0, "0" * 64, "refused 47 AnchorCount"),
                             (2147483648, tags[2], "refused 47 AnchorCount")):
        suite.refused(f"audit state --count {count} --tag {tag}", line)
    for words in ("--count 3", f"--tag {tags[2]}", f"--count 2147483649 --tag {tags[2]}", f"--count +3 --tag {tags[2]}",
                  f"--count x --tag {tags[2]}", f"--count 3 --tag {tags[2][:-1]}", f"--count 3 --tag {tags[2]}0",
                  f"--count 3 --tag {tags[2][:-1]}g", f"--count 3 --tag {tags[2]} --count 3",
                  f"--count -1 --tag {tags[2]}"):
        suite.step("usage", f"audit state {words}")
    suite.has("state", third)
    suite.refused("audit nothing --count 3 --tag " + "0" * 62 + "FF", "refused 53 FileFailed")
    suite.refused(f"audit --tag={tags[2]} nothing --count=2147483648", "refused 53 FileFailed")
    suite.refused(f"audit --tag={tags[2]} state --count=2147483648", "refused 47 AnchorCount")
    suite.step("missing", "nothing")
    suite.case("an anchor of a later file: gate 2 is closed, or it was put back")
    described_file("state", changed(third, 512, b"\0"))
    suite.refused(f"audit state --count 3 --tag {tags[2]}", "refused 47 AnchorCount")
    shorter = [line if not line.startswith(("records", "tag", "level 1")) else
               {"r": "records 2", "t": f"tag {tags[1]}", "l": "level 1 left 32"}[line[0]] for line in report]
    suite.run("audit state", *shorter)
    for count in (1, 2):
        suite.run(f"audit state --count {count} --tag {tags[count - 1]}", *shorter)
        suite.refused(f"audit state --count {count} --tag {tags[2]}", "refused 48 AnchorTag")
    for count in (0, 4, 5):
        suite.refused(f"audit state --count {count} --tag {tags[2]}", "refused 47 AnchorCount")
    described_file("state", first)
    suite.refused(f"audit state --count 2 --tag {tags[1]}", "refused 47 AnchorCount")
    key.sign(b"fw-2", ONE, Tape(BYTES))
    key.retire(20)
    suite.case("an anchor of an earlier file")
    described_file("state", key.content())
    suite.run(f"audit state --count 3 --tag {tags[2]}", *key.report())
    suite.refused(f"audit state --count 5 --tag {tags[2]}", "refused 48 AnchorTag")
    suite.refused(f"audit state --count 6 --tag {tags[2]}", "refused 47 AnchorCount")
    suite.case("an anchor of five records, on a file of two")
    described_file("state", state_file([lms_key(), bound(0)]))
    suite.refused(f"audit state --count 5 --tag {tags[2]}", "refused 47 AnchorCount")
    moved = [lms_key(), bound(0), moved_body()]
    if suite.version == 1:
        suite.case("a key that has moved: the last record is counted")
        described_file("state", state_file(moved))
        lines = [f"public {public_of(moved[0]).hex()}", "records 3", f"tag {last_tag(moved).hex()}",
                 "level 0 left 31", "moved 2"]
        for count in (1, 2, 3):
            suite.run(f"audit state --count {count} --tag {last_tag(moved[:count]).hex()}", *lines)
        suite.refused(f"audit state --count 4 --tag {tags[2]}", "refused 47 AnchorCount")
    else:
        suite.case("a Moved isn't legal, whatever the anchor is")
        described_file("state", state_file(moved))
        for count in (1, 2, 3, 4):
            suite.refused(f"audit state --count {count} --tag {last_tag(moved[:count]).hex()}",
                          "refused 44 Illegal slot 2")
    suite.case("the records are judged before the anchor")
    described_file("state", state_file([lms_key(), bound(3), bound(3, b"other")]))
    suite.refused(f"audit state --count 9 --tag {tags[2]}", "refused 44 Illegal slot 2")
    described_file("state", state_file([lms_key(), bound(3), body(9)]))
    suite.refused(f"audit state --count 9 --tag {tags[2]}", "refused 43 Damaged slot 2")
    suite.step("file", "state", "-", "add:00")
    suite.refused(f"audit state --count 9 --tag {tags[2]}", "refused 40 NoKey")
    suite.refused(f"audit nothing --count 9 --tag {tags[2]}", "refused 53 FileFailed")


def leaf_twice(key, leaf, message, randomizer):
    """A signature by a leaf of one tree, which may have signed before."""
    tree = key.current[0].tree
    return tree.signature(leaf, randomizer, tree.digest(leaf, randomizer, message))


def given_case(name, public, pairs, line):
    """A case with messages and their signatures, each a file of the suite."""
    suite.case(name)
    described_file("public", public)
    words = []
    for number, (message, signature) in enumerate(pairs):
        suite.file(f"m{number}", message)
        known = [kept_name for kept_name, data in suite.files.items() if data == signature]
        if known:
            suite.step("file", f"s{number}", known[0])
        else:
            described_file(f"s{number}", signature)
        words += [f"m{number}", f"s{number}"]
    suite.run(f"audit-given public {' '.join(words)}", line, status=status_of(line))


def given_signatures():
    key = new_key("lms:H5/W4")
    sign = {}
    for number, (leaf, message, drawn) in enumerate(((0, ONE, BYTES[:32]), (0, TWO, BYTES[:32]), (0, ONE, BYTES[32:64]),
                                                     (1, ONE, BYTES[:32]), (1, TWO, BYTES[32:64]),
                                                     (31, TWO, BYTES[:32]))):
        signature = leaf_twice(key, leaf, message, drawn)
        suite.keep(f"given-{number}", signature)
        sign[number] = message, signature
    public = key.public()
    first, other, drawn_anew, second, second_other, last = (sign[number] for number in range(6))

    def case(name, pairs, line):
        given_case(name, public, pairs, line)
    case("one signature", [first], "given 1 signatures, no leaf twice")
    case("a pair twice", [first, first], "given 2 signatures, no leaf twice")
    case("three leaves", [first, second, last], "given 3 signatures, no leaf twice")
    case("three leaves in another order, one of them twice", [last, first, second, first],
         "given 4 signatures, no leaf twice")
    case("a leaf for two messages", [first, other], "refused 61 LeafTwice files 0 1")
    case("a leaf for one message with two randomizers", [first, drawn_anew], "refused 61 LeafTwice files 0 1")
    case("the first that uses a leaf again, and the first that used it", [first, second, second_other, other],
         "refused 61 LeafTwice files 1 2")
    case("a leaf three times", [last, first, other, drawn_anew], "refused 61 LeafTwice files 1 2")
    case("two leaves twice", [first, second, last, other, second_other], "refused 61 LeafTwice files 0 3")
    changed_message = TWO, second[1]
    case("a changed message", [first, changed_message], "refused 60 NotValid file 1")
    case("a changed message first", [changed_message, first], "refused 60 NotValid file 0")
    case("all are judged before leaves are compared", [first, other, changed_message], "refused 60 NotValid file 2")
    case("the first of two that aren't valid", [first, (ONE, b""), changed_message], "refused 60 NotValid file 1")
    case("a signature of another scheme", [first, (ONE, hss_signature)], "refused 60 NotValid file 1")
    given_case("another key", flipped(public, 8), [first], "refused 60 NotValid file 0")
    given_case("a key of 57 bytes", public + b"\0", [first], "refused 6 KeyLength of 57")
    given_case("a key of 80000 bytes", public + bytes(79944), [first], "refused 6 KeyLength of 80000")
    for size in (74988, 74989, 80000):
        long = first[1] + bytes(size - len(first[1]))
        given_case(f"a signature of {size} bytes", public, [first, (first[0], long)], "refused 60 NotValid file 1")
    given_case("a key of an unknown type", changed(public, 3, b"\4"), [(ONE, b"")], "refused 2 UnknownType at 0")
    suite.case("wrong lines, and files that aren't there")
    described_file("public", public)
    suite.step("file", "m", "-", "add:01")
    suite.step("file", "s", "given-0")
    suite.step("folder", "folder")
    for words in ("public", "public m", "public m s m", ""):
        suite.step("usage", f"audit-given {words}".rstrip())
    for words in ("-- public m s", "public -- m s", "public m s --"):
        suite.run(f"audit-given {words}", "given 1 signatures, no leaf twice")
    for words in ("nothing m s", "public nothing s", "public m nothing", "public m s nothing s", "public folder s",
                  "m folder s", "m nothing s", "public m nothing m s",
                  "nothing m s m s"):
        suite.refused(f"audit-given {words}", "refused 53 FileFailed")
    # copies of a key of two levels before the first signature, each with its own random bytes
    copies = []
    for number in range(2):
        key = new_key("hss:H5/W2,H5/W2")
        copies.append((ONE, key.sign(b"fw-1", ONE, Tape(tape(0x30 + number, 112)))))
        copies.append((TWO, key.sign(b"fw-2", TWO, Tape(tape(0x50 + number, 112)))))
    for number, (_, signature) in enumerate(copies):
        suite.keep(f"copies-{number}", signature)
    public = key.public()
    case("two levels: names of one key", copies[:2], "given 2 signatures, no leaf twice")
    case("two levels: the same message by two copies of a key", [copies[0], copies[2]],
         "refused 61 LeafTwice files 0 1")
    case("two levels: two copies, the first of one, then both of the other", [copies[1], copies[3], copies[2]],
         "refused 61 LeafTwice files 0 1")
    case("two levels: a changed message", [copies[0], (TWO, copies[2][1])], "refused 60 NotValid file 1")
    one = xmss_key_of_bytes()
    public = one.public()
    uses = [(message, one.current[0].tree.signature(leaf, None, one.current[0].tree.digest(leaf, None, message)))
            for leaf, message in ((0, ONE), (0, TWO), (1023, ONE))]
    for number, (_, signature) in enumerate(uses):
        suite.keep(f"xmss-given-{number}", signature)
    case("XMSS: two leaves, one of them twice", [uses[0], uses[2], uses[0]], "given 3 signatures, no leaf twice")
    case("XMSS: a leaf for two messages", [uses[0], uses[2], uses[1]], "refused 61 LeafTwice files 0 2")


KEPT = []


def xmss_key_of_bytes():
    """The XMSS key by the bytes 00, 01, ..; its tree takes some seconds."""
    if not KEPT:
        KEPT.append(new_key("xmss:10"))
    return KEPT[0]
