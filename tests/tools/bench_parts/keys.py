"""Parts that make keys and sign by each in a run of its own: times and blocks."""
import os, shutil, subprocess, tempfile

from bench_parts.formulas import Triple, XmssTriple
from bench_parts.measuring import PROGRAM, blocks_in, computing, read, sha256, write
from bench_parts.peers import NO_BOTAN, NO_BOUNCY_CASTLE, botan, bouncy_castle


class Keys:
    """A key of a spec in a folder, and its state files: with no name, or with the first leaves bound to names."""
    def __init__(self, folder, spec):
        self.spec = spec
        self.state, self.public, self.message, self.out = (os.path.join(folder, name) for name in ("k", "p", "m", "s"))
        with open(self.message, "wb") as file:
            file.write(b"m")
        self.fresh = b""
        self.prepare()
        subprocess.run(self.make(), check=True, stdout=subprocess.DEVNULL)
        self.fresh = read(self.state)

    def make(self):
        return [PROGRAM, "make", self.state, self.public, self.spec]

    def sign(self):
        return [PROGRAM, "sign", self.state, "a-name", self.message, self.out]

    def prepare(self, records=b""):
        """Writes the state file, which is empty for `make`."""
        with open(self.state, "wb") as file:
            file.write(records)

    def used(self, count):
        """The state file with bindings of the first leaves (docs/FORMATS.md)."""
        slots, tag = [self.fresh[:256]], self.fresh[224:256]
        # the length of a name's field, by the file's version
        longest = {1: 64, 2: 128}[self.fresh[11]]
        for leaf in range(count):
            name = f"name-{leaf}".encode()
            randomizer = bytes(32) if self.spec.startswith("xmss") else sha256(b"C", name)
            fields = name.ljust(longest, b"\0") + leaf.to_bytes(4, "big") + randomizer + sha256(name)
            body = (bytes([3, len(name)]) + fields).ljust(223, b"\0")
            tag = sha256(tag, body)
            slots.append(b"\xa5" + body + tag)
        return b"".join(slots) + b"\0"

    def took(self, command, records):
        """The processor's shortest time of three runs, each with these records."""
        times = []
        for _ in range(3):
            self.prepare(records)
            times.append(computing(command, 1))
        return min(times)

    def signature(self, leaf):
        """The last signature. It has to be by this leaf, and valid."""
        triple = (XmssTriple if self.spec.startswith("xmss") else Triple)([self.public, self.message, self.out])
        if read(self.out)[:4] != leaf.to_bytes(4, "big"):
            raise ValueError(f"leaf {read(self.out)[:4].hex()} in the place of {leaf}")
        subprocess.run([PROGRAM, "verify", *triple.files], check=True, stdout=subprocess.DEVNULL)
        return triple


def keys():
    """The processor's time for `make` and `sign`, beside Bouncy Castle and Botan."""
    for spec in ("lms:H10/W8", "xmss:10"):
        with tempfile.TemporaryDirectory() as folder:
            kept = Keys(folder, spec)
            times = [kept.took(kept.sign(), kept.fresh)]
            kept.signature(0)
            times.append(kept.took(kept.sign(), kept.used(499)))
            kept.signature(499)
            print_times(f"{spec}: hbsign", [1000 * took for took in [kept.took(kept.make(), b""), *times]])
            print_times(f"{spec}: Bouncy Castle, a key that is read anew", bouncy_castle("time-sign", spec),
                        NO_BOUNCY_CASTLE)
            if spec == "xmss:10":
                print_times(f"{spec}: Botan, a key that is kept", botan("time-sign"), NO_BOTAN)


def print_times(name, times, otherwise=""):
    if times:
        make, first, later = times
        print(f"{name}: make {make:.0f} ms, the first signature {first:.0f} ms, the 500th {later:.0f} ms")
    else:
        print(f"{name}: {otherwise}")


def key_counts():
    """The blocks of SHA-256 of `make` and `sign`, and by the standards' formulas. The difference is records' tags."""
    if not shutil.which("valgrind"):
        print("valgrind isn't installed: no blocks are counted")
        return
    for spec in ("lms:H10/W8", "xmss:10"):
        with tempfile.TemporaryDirectory() as folder:
            kept = Keys(folder, spec)
            signed = []
            for leaf, records in ((0, kept.fresh), (499, kept.used(499))):
                kept.prepare(records)
                signed.append((leaf, blocks_in(*kept.sign()[1:]), kept.signature(leaf)))
            kept.prepare()
            made, shares = blocks_in(*kept.make()[1:])
            triple = signed[0][2]
            print(f"{spec}: make takes {made} blocks ({shares}), by the standard {triple.tree()}"
                  f"{where_kept(spec, triple.tree(1))}")
            for leaf, count, triple in signed:
                standard, fewer = (triple.tree(prf_blocks) + triple.signing(prf_blocks) for prf_blocks in (2, 1))
                print(f"{spec}: signature {leaf + 1} takes {count[0]} blocks ({count[1]}), by the standard {standard}"
                      f"{where_kept(spec, fewer)}")
    level_counts("hss:H5/W8,H5/W8")


def level_counts(spec):
    """The same for two levels: `make` makes the top tree; the first signature makes it again, and the lower tree."""
    with tempfile.TemporaryDirectory() as folder:
        kept = Keys(folder, spec)
        kept.prepare(kept.fresh)
        signed, signed_shares = blocks_in(*kept.sign()[1:])
        top, lower = levels_of(folder, kept)
        kept.prepare()
        made, made_shares = blocks_in(*kept.make()[1:])
        standard = sum(level.tree() + level.signing() for level in (top, lower))
        print(f"{spec}: make takes {made} blocks ({made_shares}), by the standard {top.tree()}")
        print(f"{spec}: the first signature takes {signed} blocks ({signed_shares}), by the standard {standard}")


def levels_of(folder, kept):
    """The last signature of two levels of H5/W8 as a triple for each level (RFC 8554 6.1 and 6.2). The top tree's
    message is the lower tree's key. Both have to be valid."""
    public, signature = read(kept.public), read(kept.out)
    if public[:4] != b"\0\0\0\2" or signature[:4] != b"\0\0\0\1" or len(signature) != 4 + 1292 + 56 + 1292:
        raise ValueError(f"{kept.spec}: a signature of {len(signature)} bytes")
    parts = {"top-key": public[4:], "top-signature": signature[4:1296], "key": signature[1296:1352],
             "signature": signature[1352:]}
    for name, data in parts.items():
        write(os.path.join(folder, name), data)
    top_key, top_signature, key, last_signature = (os.path.join(folder, name) for name in parts)
    triples = Triple([top_key, key, top_signature]), Triple([key, kept.message, last_signature])
    for triple in triples:
        subprocess.run([PROGRAM, "verify", *triple.files], check=True, stdout=subprocess.DEVNULL)
    return triples


def where_kept(spec, count):
    return f", and {count} where PRF's first block is hashed once" if spec.startswith("xmss") else ""
