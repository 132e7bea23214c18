"""Cases of `list` of public keys and signatures."""
import os

from model import Signer, Tape, comparison, description, verdict
from parts.suite import BYTES, ONE, VECTORS, described_file, read, suite

# Who made them says with which types, and by which leaves; of HSS which signatures of the whole key they are.
MADE = (("lms-H5-W1-a", "lms:H5/W1", (0, 7, 31)), ("lms-H5-W2-a", "lms:H5/W2", (0, 16, 31)),
        ("lms-H5-W4-a", "lms:H5/W4", (0, 1, 15, 31)),
        ("lms-H5-W8-a", "lms:H5/W8", (0, 1, 2, 3, 4, 5, 15, 16, 30, 31)), ("lms-H5-W8-b", "lms:H5/W8", (0, 3, 31)),
        ("lms-H10-W4-a", "lms:H10/W4", (0, 511, 512, 1023)), ("lms-H10-W8-a", "lms:H10/W8", (0, 1, 682, 1023)),
        ("lms-H15-W8-a", "lms:H15/W8", (0, 12345, 32767)), ("lms-H20-W8-sparse-a", "lms:H20/W8", (1048575,)),
        ("lms-H25-W1-sparse-a", "lms:H25/W1", (33554430,)), ("hss-H5-W8-a", "hss:H5/W8", (0, 3, 31)),
        ("hss-H5-W8-H5-W8-a", "hss:H5/W8,H5/W8", (0, 1, 31, 32, 33, 64, 1023)),
        ("hss-H5-W8-H5-W4-a", "hss:H5/W8,H5/W4", (0, 31, 32, 1023)),
        ("hss-H5-W4-H5-W4-a", "hss:H5/W4,H5/W4", (0, 500, 1023)),
        ("hss-H10-W2-H5-W8-a", "hss:H10/W2,H5/W8", (0, 32, 40, 32767)),
        ("hss-H5-W8-H5-W4-H5-W8-a", "hss:H5/W8,H5/W4,H5/W8", (0, 31, 32, 1023, 1024, 32767)),
        ("hss-H5-W4-H10-W8-H5-W2-a", "hss:H5/W4,H10/W8,H5/W2", (0, 32, 1000)),
        ("xmss-10-a", "xmss:10", (0, 1, 2, 255, 256, 511, 512, 1000, 1022, 1023)),
        ("xmss-10-botan-a", "xmss:10", (0, 1, 512, 1023)), ("xmss-16-sparse-a", "xmss:16", (65535,)),
        ("xmss-20-sparse-a", "xmss:20", (524288,)))
# .. and by which leaf of each level
EIGHT = "hss-8xH25-W1-sparse-a", 8 * ["H25/W1"], (33554431, 0, 1, 16777216, 77, 16777215, 3, 33554431)


def descriptions():
    suite.begin("descriptions")
    for folder, spec, numbers in MADE:
        for number, leaf in enumerate(numbers):
            made_by_others(folder, spec, number, lines_of(spec, leaf))
    folder, types, leaves = EIGHT
    made_by_others(folder, "hss:" + ",".join(types), 0, hss_lines(types, leaves))
    other_bytes()
    changed_signatures()
    other_keys()
    wrong_lines()


def lines_of(spec, number):
    """The lines of a signature of these types, up to the identifiers of its keys."""
    scheme, _, types = spec.partition(":")
    if scheme != "hss":
        return [f"signature {spec}", f"index {number}"]
    leaves = []
    for pair in reversed(types.split(",")):
        leaves.insert(0, number % 2**int(pair[1:].split("/")[0]))
        number //= 2**int(pair[1:].split("/")[0])
    return hss_lines(types.split(","), leaves)


def hss_lines(types, leaves):
    return ["signature hss", *(f"level {level} types {pair} index {leaf}"
                               for level, (pair, leaf) in enumerate(zip(types, leaves)))]


def key_lines(spec, public):
    """The lines of a public key of these types, by the places of its fields."""
    scheme, _, types = spec.partition(":")
    if scheme == "xmss":
        return [f"public {spec}", f"root {public[4:36].hex()}", f"seed {public[36:].hex()}"]
    first = types.split(",")
    head = [f"public {spec}"] if scheme == "lms" else ["public hss", f"levels {len(first)}", f"top lms:{first[0]}"]
    return [*head, f"identifier {public[-48:-32].hex()}", f"root {public[-32:].hex()}"]


def made_by_others(folder, spec, number, lines):
    public, signature = read(folder, "public"), read(folder, f"signature-{number}")
    described = description(signature)
    if ([line.partition(" identifier ")[0] for line in described] != lines
            or description(public) != key_lines(spec, public)
            or comparison(signature, public) != [*described, "could be of this key yes"]):
        raise ValueError(f"{folder} {number}")
    suite.case(f"{folder}, signature {number}")
    suite.step("file", "public", f"vectors/{folder}/public")
    suite.step("file", "signature", f"vectors/{folder}/signature-{number}")
    if number == 0:
        suite.run("list public", *key_lines(spec, public))
    suite.run("list signature", *described)
    suite.run("list signature public", *described, "could be of this key yes")
    suite.step("kept")


def changed_signatures():
    """Bytes that others changed: what is no signature is refused with a key as `verify` refuses it."""
    with open(os.path.join(VECTORS, "index.tsv"), encoding="ascii") as table:
        for row in table:
            folder, message, name, line = row.rstrip("\n").split("\t")
            if line == "verified":
                continue
            public, signature = read(folder, "public"), read(folder, name)
            lines = comparison(signature, public)
            if not agree(line, lines):
                raise ValueError(f"{folder} {name}: {line}: {lines}")
            suite.case(f"{folder} {message} {name}")
            suite.step("file", "public", f"vectors/{folder}/public")
            suite.step("file", "signature", f"vectors/{folder}/{name}")
            printed("list signature", description(signature))
            printed("list signature public", lines)
            printed("list public", description(public))


def agree(line, lines):
    """Whether these are a signature's lines under a key where verification prints the line."""
    number = int(line.split()[1])
    if number in (6, 12):
        return lines == [line] if number == 6 else lines[-1] == "could be of this key yes"
    if number in (10, 11):
        # a level below the top may have other types than its key
        top = number == 11 or line.endswith(" level 0")
        return lines[-1] == f"could be of this key {'no' if top else 'yes'}"
    return lines == [line] or lines[-1] == "could be of this key no"


def printed(words, lines):
    if lines[0].startswith("refused "):
        suite.refused(words, lines[0])
    else:
        suite.run(words, *lines)


def other_bytes():
    """Files that are no key and no signature, and a state file under a public key."""
    key = Signer("lms:H5/W8", Tape(BYTES))
    signature = key.sign(b"fw-1", ONE, Tape(BYTES))
    folder = "lms-H5-W8-a"
    public = read(folder, "public")
    suite.case("bytes that are no signature")
    suite.step("file", "public", f"vectors/{folder}/public")
    for name, content in (("empty", b""), ("text", b"text\n"), ("zeros", bytes(1292)), ("long", bytes(74989)),
                          ("longer", bytes(100000)), ("state", key.content()),
                          ("cut", key.content()[:255]), ("closed", b"\0" + key.content()[1:])):
        described_file(name, content)
        if name == "state":
            suite.run("list state", *key.listing())
        else:
            printed(f"list {name}", description(content))
        printed(f"list {name} public", comparison(content, public))
        suite.step("kept")
    suite.case("a signature that is cut, or goes on")
    suite.step("file", "public", f"vectors/{folder}/public")
    for name, edit, content in (("short", "cut:1291", read(folder, "signature-0")[:-1]),
                                ("long", "add:00", read(folder, "signature-0") + b"\0"),
                                ("far", "fill:100000:00", read(folder, "signature-0") + bytes(100000))):
        suite.step("file", name, f"vectors/{folder}/signature-0", edit)
        suite.refused(f"list {name}", "refused 40 NoKey")
        printed(f"list {name} public", comparison(content, public))
    if len(signature) != 1292 or verdict(key.public(), ONE, signature) != "verified":
        raise ValueError("a signature")


def other_keys():
    """Each signature of a scheme under keys of the others, and under one with other types."""
    folders = "lms-H5-W8-a", "lms-H5-W4-a", "hss-H5-W8-a", "hss-H5-W8-H5-W8-a", "xmss-10-a", "xmss-16-sparse-a"
    for first in folders:
        suite.case(f"a signature of {first}, under other keys")
        suite.step("file", "signature", f"vectors/{first}/signature-0")
        for second in folders:
            suite.step("file", "public", f"vectors/{second}/public")
            lines = comparison(read(first, "signature-0"), read(second, "public"))
            if lines[-1] != f"could be of this key {'yes' if first == second else 'no'}":
                raise ValueError(f"{first} {second}")
            suite.run("list signature public", *lines)
    suite.case("another key of the same types")
    suite.step("file", "signature", "vectors/lms-H5-W8-a/signature-0")
    suite.step("file", "public", "vectors/lms-H5-W8-b/public")
    suite.run("list signature public", "signature lms:H5/W8", "index 0", "could be of this key yes")


def wrong_lines():
    suite.case("files that are missing, and wrong lines")
    suite.step("file", "signature", "vectors/lms-H5-W8-a/signature-0")
    suite.step("file", "public", "vectors/lms-H5-W8-a/public")
    suite.file("text", b"text")
    suite.step("folder", "folder")
    for words in ("nothing public", "signature nothing", "nothing nothing", "folder public", "signature folder",
                  "nothing text"):
        suite.refused(f"list {words}", "refused 53 FileFailed")
    suite.refused("list text text", "refused 6 KeyLength of 4")
    suite.refused("list signature text", "refused 6 KeyLength of 4")
    suite.refused("list text public", "refused 1 Truncated at 4")
    lines = "signature lms:H5/W8", "index 0", "could be of this key yes"
    for words in ("list signature public", "list -- signature public", "list signature -- public",
                  "list signature public --"):
        suite.run(words, *lines)
    for words in ("list signature public more", "list --public public signature", "list signature --public public",
                  "list -- signature public more", "list"):
        suite.step("usage", words)
    suite.step("kept")
