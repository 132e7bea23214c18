"""Cases of `list` and `public`."""
from model import Refused, Signer, Tape, behind, filled, listing_of, records_of, retire_body, state_file
from parts.records import lms_key
from parts.suite import BYTES, ONE, changed, described_file, line_of, new_key, suite


def listings():
    suite.version = 1
    suite.begin("listings")
    for (version, name), content in suite.judged.items():
        listed(f"{name}, in version {version}", content)
    listings_as_a_key_grows()
    files_cut_short()
    files_of_listings()


def listed(name, content):
    """What `list` and `public` answer to a state file, which stays as it was."""
    suite.case(name)
    described_file("state", content)
    try:
        key = Signer.of(records_of(content))
    except Refused as refused:
        for words in ("list state", "public state out"):
            suite.refused(words, line_of(refused))
            suite.step("kept")
        return
    suite.run("list state", *listing_of(content))
    suite.step("kept")
    suite.run("public state out", f"public {key.public().hex()}")
    suite.has("out", key.public())
    suite.has("state", content)


def listings_as_a_key_grows():
    """A key of each scheme, with its listing after each step of the program."""
    for spec, line in (("lms:H5/W4", "spec lms:H5/W4"), ("hss:H5/W8", "spec hss:H5/W8"),
                       ("hss:H5/W2,H5/W8,H5/W4", "spec hss:H5/W2,H5/W8,H5/W4"), ("xmss:10", "spec xmss:10")):
        for format, version in (("", 2), (" --format 1", 1)):
            key = Signer(spec, Tape(BYTES), version)
            if key.listing()[:2] != [line, f"format {version}"]:
                raise ValueError(str(key.listing()))
            suite.case(f"{spec} of version {version} as it grows")
            suite.file("tape", BYTES)
            suite.file("other", BYTES[::-1])
            suite.file("message", ONE)
            suite.run(f"make state public {spec} --random tape{format}", f"public {key.public().hex()}")
            suite.run("list state", *key.listing())
            for step in ("fw-1.0", "~!", 5, "n" * 64):
                if isinstance(step, int):
                    key.retire(step)
                    suite.run(f"retire state {step}", f"retired upto {step}")
                else:
                    # the same bytes for each name, except the first, whose bytes also make trees
                    tape, source = (BYTES[::-1], "other") if not key.bound else (BYTES, "tape")
                    size = len(key.sign(step.encode(), ONE, Tape(tape)))
                    suite.run(f"sign state {step} message out --random {source}", f"signed {step} {size} bytes")
                suite.run("list state", *key.listing())
                suite.step("kept")
            suite.run("public state again", f"public {key.public().hex()}")
            suite.has("again", key.public())
            suite.has("state", key.content())
            if version == 1:
                suite.run("migrate state new", f"migrated {len(key.bodies)} records")
                new = Signer.of(records_of(filled(key.content(), b"")))
                key.move()
                for name, held in (("state", key), ("new", new)):
                    suite.run(f"list {name}", *held.listing())
                    suite.run(f"public {name} again", f"public {held.public().hex()}")
                    suite.has("again", held.public())


def files_cut_short():
    """A gate before the last is closed, so that bytes follow the last record. The last record's gate shows
    nothing: an append that a crash cut leaves the same length, and one byte less than a file that is listed so."""
    key = Signer("lms:H5/W8", Tape(BYTES))
    for number in range(17):
        key.sign(b"fw-%d" % number, ONE, Tape(BYTES))
    whole = key.content()
    for name, content, slot in (
            *((f"gate {gate} is closed", changed(whole, 256 * gate, b"\0"), gate - 1) for gate in (1, 2, 16)),
            ("gate 3 is a4", changed(whole, 768, b"\xa4"), 2),
            ("bytes 4096 to the end are zeros", whole[:4096] + bytes(len(whole) - 4096), 15),
            ("the last record's gate is closed", changed(whole, 256 * 17, b"\0"), None),
            ("the last record's gate is closed, a byte more", changed(whole, 256 * 17, b"\0") + b"\0", 16),
            ("a slot more", whole + bytes(256), None), ("a slot and a byte more", whole + bytes(257), 17)):
        if behind(content) != slot:
            raise ValueError(name)
        listed(f"a key of 17 names, {name}", content)


def files_of_listings():
    key = Signer("lms:H5/W8", Tape(BYTES))
    key.sign(b"fw-1", ONE, Tape(BYTES))
    public = f"public {key.public().hex()}"
    suite.case("no state file")
    suite.step("folder", "folder")
    for words in ("list nothing", "list folder", "list folder/nothing", "public nothing out", "public folder out"):
        suite.refused(words, "refused 53 FileFailed")
        suite.step("kept")
    suite.case("what stands at the place of the public key")
    described_file("state", key.content())
    suite.step("folder", "folder")
    suite.file("longer", bytes(90))
    suite.file("text", b"text")
    described_file("other", new_key("lms:H5/W8", BYTES[1:]).content())
    described_file("closed", changed(key.content(), 0, b"\0"))
    for out in ("longer", "text", "new"):
        suite.run(f"public state {out}", public)
        suite.has(out, key.public())
    for out in ("state", "./state", "other", "closed", "folder", "nothing/out", "folder/"):
        suite.refused(f"public state {out}", "refused 53 FileFailed")
        suite.step("kept")
    suite.has("state", key.content())
    suite.case("a file that isn't accepted comes before one that can't be written")
    described_file("state", state_file([lms_key(), retire_body(33)]))
    for out in ("state", "nothing/out", "out"):
        suite.refused(f"public state {out}", "refused 44 Illegal slot 1")
        suite.step("kept")
    suite.case("wrong lines of listings")
    described_file("state", key.content())
    for words in ("list", "list state more more", "list --state state", "list state --count 1",
                  "list state --random state",
                  "public", "public state", "public state out more", "public --out state out", "List state",
                  "public state out --random state", "lis state", "publi state out", "list --", "public state --"):
        suite.step("usage", words)
    suite.step("missing", "out")
    suite.has("state", key.content())
    for words in ("list -- state", "list state --"):
        suite.run(words, *key.listing())
    for words in ("public -- state out", "public state -- out", "public state out --"):
        suite.run(words, public)
        suite.has("out", key.public())
