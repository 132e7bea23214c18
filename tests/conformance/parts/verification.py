"""Cases of `verify`: signatures of each scheme, changed and cut, and wrong lines."""
import os

from model import verdict
from parts.records import hss, hss_one, hss_one_signature, hss_signature, lms, lms_signature, w4_signature
from parts.suite import ONE, VECTORS, changed, edited, read, status_of, suite


class Given:
    """A public key, a message and a signature, each as a source in the tables and as bytes."""
    def __init__(self, public, message, signature):
        self.names, self.bytes = zip(public, message, signature)

    def judged(self, name, line, public=(), message=(), signature=(), order=None):
        """A case in which each of the three is edited, and the expected line."""
        given = [edited(data, edits) for data, edits in zip(self.bytes, (public, message, signature))]
        came = verdict(*given)
        if came != line:
            raise ValueError(f"{name}: {came}, not {line}")
        suite.case(name)
        for file, source, edits in zip(("public", "message", "signature"), self.names, (public, message, signature)):
            suite.step("file", file, source, *edits)
        suite.refused("verify public message signature", line)

    def each(self, name, which, places, values):
        """A case in which each byte at these places is changed in one of the three, in rows with one line each."""
        index = ("public", "message", "signature").index(which)
        suite.case(name)
        for file, source in zip(("public", "message", "signature"), self.names):
            suite.step("file", file, source)
        data = self.bytes[index]
        rows = []
        for at in places:
            for value in values:
                if data[at] != value:
                    given = list(self.bytes)
                    given[index] = changed(data, at, bytes([value]))
                    line = verdict(*given)
                    if rows and rows[-1][1:] == [at, value, line]:
                        rows[-1][1] = at + 1
                    else:
                        rows.append([at, at + 1, value, line])
        for first, end, value, line in rows:
            suite.step("each", which, self.names[index], first, end, f"{value:02x}", "verify public message signature",
                       status_of(line), line)

    def cuts(self, name):
        """A case with every prefix of the signature. The fault's place is the first field that doesn't fit."""
        suite.case(name)
        for file, source in zip(("public", "message"), self.names):
            suite.step("file", file, source)
        rows = []
        for size in range(len(self.bytes[2])):
            line = verdict(self.bytes[0], self.bytes[1], self.bytes[2][:size])
            if rows and rows[-1][2] == line:
                rows[-1][1] = size + 1
            else:
                rows.append([size, size + 1, line])
        for first, end, line in rows:
            suite.step("cuts", "signature", self.names[2], first, end, "verify public message signature",
                       status_of(line), line)


def kept(name, data):
    return suite.keep(name, data), data


def vector(folder, number):
    """A triple of another implementation."""
    return Given(*((f"vectors/{folder}/{name}", read(folder, name))
                   for name in ("public", f"message-{number}", f"signature-{number}")))


NONE = ("-", b"")


def verification():
    suite.begin("verification")
    zero = Given(NONE, NONE, NONE)
    key = ["add:0000000500000004", "fill:48:00"]
    blank = ["add:0000000000000004", "fill:1120:00", "add:00000005", "fill:160:00"]
    zero.judged("a key of zeros, no signature", "refused 1 Truncated at 0", key)
    zero.judged("a key of zeros, a signature of zeros", "refused 12 RootMismatch level 0", key, (), blank)
    # Requirement: RFC 8554 9, types
    # Requirement: RFC 8554 9, lengths
    zero.judged("its one-time type is 9", "refused 2 UnknownType at 4", key, (), blank + ["set:7:09"])
    zero.judged("its tree's type is 4", "refused 2 UnknownType at 1128", key, (), blank + ["set:1131:04"])
    zero.judged("a key of the one-time type 9", "refused 2 UnknownType at 4", ["add:0000000500000009", "fill:48:00"])
    zero.judged("a key of the tree's type 4", "refused 2 UnknownType at 0", ["add:0000000400000004", "fill:48:00"])
    zero.judged("a key of the tree's type 10", "refused 2 UnknownType at 0", ["add:0000000a00000004", "fill:48:00"])
    for size in (0, 1, 55, 57, 59, 61, 67, 69, 70, 1000, 16453, 16454, 100000):
        zero.judged(f"a key of {size} bytes", f"refused 6 KeyLength of {size}", ["fill:%d:00" % size] if size else [])
    for count in ("00000000", "00000009", "ffffffff", "01000000"):
        zero.judged(f"a key of {count} levels", "refused 3 LevelCount at 0", [f"add:{count}", *key])
    zero.judged("a key of levels of an unknown type", "refused 2 UnknownType at 4",
                ["add:00000002", "add:0000000400000004", "fill:48:00"])
    zero.judged("a key of levels of an unknown one-time type", "refused 2 UnknownType at 8",
                ["add:00000002", "add:0000000500000000", "fill:48:00"])
    for code in ("00000000", "00000004", "00000007", "01000000", "ffffffff"):
        zero.judged(f"an XMSS key of the type {code}", "refused 2 UnknownType at 0", [f"add:{code}", "fill:64:00"])
    one_tree()
    levels()
    xmss()
    # a signature for each other set of types, by other implementations
    seen = set()
    with open(os.path.join(VECTORS, "index.tsv"), encoding="ascii") as table:
        for row in table:
            folder, message, signature, line = row.rstrip("\n").split("\t")
            if line == "verified" and folder not in seen:
                seen.add(folder)
                number = message.split("-")[1]
                given = vector(folder, number)
                given.judged(f"{folder}: {len(given.bytes[2])} bytes", "verified")
    files_of_verify()


def one_tree():
    """LMS of H5/W8: what is refused, and where."""
    given = Given(kept("lms.public", lms.public()), kept("one", ONE), kept("lms.signature", lms_signature))
    given.judged("LMS: 1292 bytes", "verified")
    given.judged("LMS: another message", "refused 12 RootMismatch level 0", (), ["set:0:02"])
    given.judged("LMS: a longer message", "refused 12 RootMismatch level 0", (), ["add:00"])
    given.judged("LMS: 1291 bytes", "refused 1 Truncated at 1260", (), (), ["cut:1291"])
    given.judged("LMS: 1293 bytes", "refused 5 Trailing at 1292", (), (), ["add:00"])
    given.judged("LMS: no bytes", "refused 1 Truncated at 0", (), (), ["cut:0"])
    given.judged("LMS: the one-time type 3", "refused 1 Truncated at 1288", (), (), ["set:7:03"])
    given.judged("LMS: the one-time type 9", "refused 2 UnknownType at 4", (), (), ["set:7:09"])
    given.judged("LMS: the tree's type 6", "refused 1 Truncated at 1292", (), (), ["set:1131:06"])
    given.judged("LMS: the tree's type 10", "refused 2 UnknownType at 1128", (), (), ["set:1131:0a"])
    given.judged("LMS: leaf 32", "refused 4 LeafOutOfRange at 0", (), (), ["set:0:00000020"])
    given.judged("LMS: leaf 2^32 - 32", "refused 4 LeafOutOfRange at 0", (), (), ["set:0:ffffffe0"])
    given.judged("LMS: leaf 32, and no path", "refused 4 LeafOutOfRange at 0", (), (), ["set:0:00000020", "cut:1132"])
    given.judged("LMS: leaf 32, and no type", "refused 1 Truncated at 1128", (), (), ["set:0:00000020", "cut:1131"])
    given.judged("LMS: leaf 32, and a byte more", "refused 4 LeafOutOfRange at 0", (), (), ["set:0:00000020", "add:00"])
    given.judged("LMS: leaf 31", "refused 12 RootMismatch level 0", (), (), ["set:0:0000001f"])
    given.judged("LMS: a key of H5/W4", "refused 10 TypeMismatch level 0", ["set:7:03"])
    given.judged("LMS: a key of H10/W8", "refused 10 TypeMismatch level 0", ["set:3:06"])
    given.judged("LMS: the key of one level", "refused 1 Truncated at 0", ["cut:0", "add:00000001", "with:lms.public"],
                 (),
                 ["cut:0"])
    given.cuts("LMS: every beginning of a signature")
    starts = [0, 1, 2, 3, 4, 5, 6, 7, 8, 39, *range(40, 1128, 32), 1127, 1128, 1129, 1130, 1131,
              *range(1132, 1292, 32), 1291]
    given.each("LMS: fields of a signature changed", "signature", starts, (0x00, 0x05, 0x09, 0xFF))
    given.each("LMS: each of the first 64 bytes of a signature changed", "signature", range(64), (0xEE,))
    given.each("LMS: each byte of a key changed", "public", range(56), (0x00, 0xFF))
    given = Given(("lms.public", lms.public()), ("one", ONE), kept("lms-w4.signature", w4_signature))
    given.judged("LMS: a signature of H5/W4", "refused 10 TypeMismatch level 0")
    ten = vector("lms-H10-W8-a", 0)
    ten.judged("LMS: leaf 1024 of H10", "refused 4 LeafOutOfRange at 0", (), (), ["set:0:00000400"])
    ten.judged("LMS: leaf 1023 of H10", "refused 12 RootMismatch level 0", (), (), ["set:0:000003ff"])


def levels():
    """HSS of two levels of H5/W8: the top signature at 4, the lower key at 1296, the bottom signature at 1352."""
    given = Given(kept("hss.public", hss.public()), ("one", ONE), kept("hss.signature", hss_signature))
    given.judged("HSS: 2644 bytes", "verified")
    given.judged("HSS: one level where the key has two", "refused 11 LevelMismatch", (), (),
                 ["cut:0", "add:00000000", "with:lms.signature"])
    given.judged("HSS: the level field 0", "refused 5 Trailing at 1296", (), (), ["set:3:00"])
    given.judged("HSS: the level field 2", "refused 1 Truncated at 2644", (), (), ["set:3:02"])
    given.judged("HSS: the level field 7", "refused 1 Truncated at 2644", (), (), ["set:3:07"])
    given.judged("HSS: the level field 8", "refused 3 LevelCount at 0", (), (), ["set:3:08"])
    given.judged("HSS: a key of three levels", "refused 11 LevelMismatch", ["set:3:03"])
    given.judged("HSS: a key of one level", "refused 11 LevelMismatch", ["set:3:01"])
    given.judged("HSS: a key of three levels, and other types", "refused 11 LevelMismatch", ["set:3:03", "set:11:03"])
    given.judged("HSS: a key of other types", "refused 10 TypeMismatch level 0", ["set:11:03"])
    given.judged("HSS: the first byte of the lower I", "refused 12 RootMismatch level 0", (), (), ["set:1304:ee"])
    given.judged("HSS: the lower tree's type 10", "refused 2 UnknownType at 1296", (), (), ["set:1299:0a"])
    given.judged("HSS: the lower tree's type 6", "refused 12 RootMismatch level 0", (), (), ["set:1299:06"])
    given.judged("HSS: the lower one-time type 0", "refused 2 UnknownType at 1300", (), (), ["set:1303:00"])
    given.judged("HSS: leaf 32 of the top", "refused 4 LeafOutOfRange at 4", (), (), ["set:4:00000020"])
    given.judged("HSS: leaf 32 of the bottom", "refused 4 LeafOutOfRange at 1352", (), (), ["set:1352:00000020"])
    given.judged("HSS: another message", "refused 12 RootMismatch level 1", (), ["set:0:02"])
    given.judged("HSS: both levels changed", "refused 12 RootMismatch level 0", (), ["set:0:02"], ["set:12:ee"])
    given.judged("HSS: the top changed, the bottom cut", "refused 1 Truncated at 2612", (), (),
                 ["set:12:ee", "cut:2643"])
    given.judged("HSS: a byte more", "refused 5 Trailing at 2644", (), (), ["add:00"])
    given.judged("HSS: a bottom of H5/W4, 3700 bytes", "refused 10 TypeMismatch level 1", (), (),
                 ["cut:1352", "with:lms-w4.signature"])
    given.cuts("HSS: every beginning of a signature")
    fields = [at for first in (4, 1352) for at in (first, first + 3, first + 4, first + 7, first + 8,
              *range(first + 40, first + 1128, 128), first + 1128, first + 1131,
              *range(first + 1132, first + 1292, 64))]
    given.each("HSS: fields of a signature changed", "signature", [0, 3, *fields, *range(1296, 1352, 5)], (0x05, 0xFF))
    given.each("HSS: each of the first 64 bytes of a signature changed", "signature", range(64), (0xEE,))
    given.each("HSS: each byte of a key changed", "public", range(60), (0xFF,))
    one = Given(kept("hss-one.public", hss_one.public()), ("one", ONE), kept("hss-one.signature", hss_one_signature))
    one.judged("HSS: one level, 1296 bytes", "verified")
    one.judged("HSS: one level, 1295 bytes", "refused 1 Truncated at 1264", (), (), ["cut:1295"])


def xmss():
    given = vector("xmss-10-a", 4)
    given.judged("XMSS: 2500 bytes", "verified")
    given.judged("XMSS: another message", "refused 12 RootMismatch level 0", (), ["add:00"])
    given.judged("XMSS: 2499 bytes", "refused 1 Truncated at 2468", (), (), ["cut:2499"])
    given.judged("XMSS: 2501 bytes", "refused 5 Trailing at 2500", (), (), ["add:00"])
    given.judged("XMSS: index 1024", "refused 4 LeafOutOfRange at 0", (), (), ["set:0:00000400"])
    given.judged("XMSS: index 1024, and no more", "refused 4 LeafOutOfRange at 0", (), (), ["set:0:00000400", "cut:4"])
    given.judged("XMSS: index 1024, cut", "refused 1 Truncated at 0", (), (), ["set:0:00000400", "cut:3"])
    given.judged("XMSS: index 1023", "refused 12 RootMismatch level 0", (), (), ["set:0:000003ff"])
    given.judged("XMSS: a key of height 16", "refused 1 Truncated at 2500", ["set:3:02"])
    given.judged("XMSS: a signature of height 16", "refused 5 Trailing at 2500", (), (),
                 ["cut:0", "with:vectors/xmss-16-sparse-a/signature-0", "set:0:00000000"])
    given.cuts("XMSS: every beginning of a signature")
    given.each("XMSS: fields of a signature changed", "signature", [*range(0, 5), 35, *range(36, 2500, 160), 2499],
               (0x05, 0xFF))
    given.each("XMSS: each of the first 64 bytes of a signature changed", "signature", range(64), (0xEE,))
    given.each("XMSS: each byte of a key changed", "public", range(68), (0xFF,))


def files_of_verify():
    """Files that can't be read, and wrong lines."""
    suite.case("the files are read before their contents are judged")
    suite.file("public", lms.public())
    suite.step("file", "key-57", "lms.public", "add:00")
    suite.file("message", ONE)
    suite.file("signature", lms_signature)
    suite.step("file", "signature-31", "lms.signature", "set:3:1f")
    suite.step("file", "hss.public", "hss.public")
    suite.step("file", "hss.signature", "hss.signature")
    suite.step("file", "hss.changed", "hss.signature", "set:12:ee")
    suite.step("file", "other-types", "lms-w4.signature")
    suite.step("file", "one-level", "hss-one.signature")
    suite.step("file", "other-bottom", "hss.signature", "cut:1352", "with:lms-w4.signature")
    suite.step("folder", "folder")
    for words in ("nothing message signature", "public nothing signature", "public message nothing",
                  "key-57 message nothing",
                  "key-57 nothing signature", "folder message signature", "public message folder"):
        suite.refused(f"verify {words}", "refused 53 FileFailed")
    suite.refused("verify key-57 folder signature", "refused 6 KeyLength of 57")
    suite.refused("verify public folder key-57", "refused 1 Truncated at 40")
    suite.refused("verify public folder signature", "refused 14 MessageRead")
    suite.refused("verify public folder signature-31", "refused 14 MessageRead")
    suite.refused("verify hss.public folder hss.signature", "refused 14 MessageRead")
    suite.refused("verify hss.public folder hss.changed", "refused 12 RootMismatch level 0")
    # types are compared before the message is read
    suite.refused("verify public folder other-types", "refused 10 TypeMismatch level 0")
    suite.refused("verify hss.public folder other-bottom", "refused 10 TypeMismatch level 1")
    suite.refused("verify hss.public folder one-level", "refused 11 LevelMismatch")
    for words in ("-- public message signature", "public -- message signature", "public message signature --"):
        suite.run(f"verify {words}", "verified")
    for words, given in (("-- message public signature", (ONE, lms.public(), lms_signature)),
                         ("-- signature message public", (lms_signature, ONE, lms.public())),
                         ("public -- signature message", (lms.public(), lms_signature, ONE))):
        suite.refused(f"verify {words}", verdict(*given))
    suite.case("wrong lines")
    for words in ("", "verify", "verify a", "verify a b", "verify a b c d", "verfy a b c", "--nonsense",
                  "verify --nonsense a b c",
                  "make", "make a", "make a b", "make a b c d", "sign", "sign a b c", "sign a b c d e", "retire",
                  "retire a",
                  "retire a 0 0", "audit", "audit a b", "audit-given", "audit-given p", "serve", "serve a b"):
        suite.step("usage", words)
    suite.run("verify public message signature", "refused 53 FileFailed", status=3)
