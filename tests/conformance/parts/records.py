"""Keys, records and tapes that several parts share."""
from model import HSS, LMS, XMSS, Signer, Tape, bound_body, extend_body, key_body, u32
from parts.suite import BYTES, ONE, TWO, longest, suite


def tape(first, size=112):
    """Bytes of a tape, counting up from `first`."""
    return bytes((first + i) % 256 for i in range(size))


lms = Signer("lms:H5/W8", Tape(BYTES))
lms_signature = lms.sign(b"fw-1", ONE, Tape(tape(0x30)))
w4 = Signer("lms:H5/W4", Tape(BYTES))
w4_signature = w4.sign(b"fw-1", ONE, Tape(tape(0x30)))
hss = Signer("hss:H5/W8,H5/W8", Tape(BYTES))
hss_signature = hss.sign(b"fw-1", ONE, Tape(tape(0x30, 112)))
hss_one = Signer("hss:H5/W8", Tape(BYTES))
hss_one_signature = hss_one.sign(b"fw-1", ONE, Tape(tape(0x30)))
# the first name in files of three records, with its message
FIRST = b"fw-1", ONE


def second():
    """The second name, with its message. In version 2 it fills its field."""
    return (b"fw-2" if suite.version == 1 else b"fw-2".ljust(longest(), b"~")), TWO


def lms_key(pair=(5, 2), **fields):
    """The Key of an LMS key with these fields. Its root needn't be its secret's."""
    given = {"scheme": LMS, "pairs": [pair], "identifier": BYTES[:16], "seed": BYTES[16:48], "prf_key": bytes(32),
             "public_seed": bytes(32), "root": BYTES[0x60:0x80], "version": suite.version, **fields}
    return key_body(**given)


def hss_key(levels=2, **fields):
    return lms_key(**{"scheme": HSS, "pairs": [(5, 2)] * levels, **fields})


def xmss_key(**fields):
    return lms_key(**{"scheme": XMSS, "pairs": [(1, 0)], "identifier": bytes(16), "prf_key": BYTES[0x30:0x50],
                      "public_seed": BYTES[0x80:0xA0], **fields})


def bound(leaf, name=None, randomizer=BYTES[0x40:0x60], digest=BYTES[0xA0:0xC0], version=None):
    return bound_body(name or b"n-%d" % leaf, leaf, randomizer, digest, version or suite.version)


def extend(level, leaf, identifier):
    return extend_body(level, leaf, bytes([identifier]) * 16, BYTES[:32], BYTES[32:64], BYTES[64:96], BYTES[96:128])


def public_of(record):
    """The public key of a Key."""
    first = u32(record[12]) if record[11] == HSS else b""
    if record[11] == XMSS:
        return record[13:17] + record[189:221] + record[157:189]
    return first + record[13:21] + record[77:93] + record[189:221]
