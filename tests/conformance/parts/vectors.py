"""Cases of signatures of other implementations: verified, and made again by the bytes that these drew."""
import os

from model import Signer, Tape, verdict
from parts.suite import VECTORS, line_of_make, read, suite


def vectors():
    suite.begin("vectors")
    with open(os.path.join(VECTORS, "index.tsv"), encoding="ascii") as table:
        for row in table:
            folder, message, signature, line = row.rstrip("\n").split("\t")
            suite.case(f"{folder} {message} {signature}")
            for file, name in (("public", "public"), ("message", message), ("signature", signature)):
                suite.step("file", file, f"vectors/{folder}/{name}")
            suite.refused("verify public message signature", line)
            if verdict(read(folder, "public"), read(folder, message), read(folder, signature)) != line:
                raise ValueError(f"{folder} {message} {signature}")


def signed_again():
    """Keys and signatures of another implementation, made again by the bytes that it drew."""
    suite.begin("signed_again")
    with open(os.path.join(VECTORS, "signing.tsv"), encoding="ascii") as table:
        for row in table:
            key, step, *rest = row.rstrip("\n").split("\t")
            # trees of 2^15 leaves may take minutes
            if "H15" in key:
                continue
            # the model is compared with them if its trees are small
            compared = "H10" not in key
            if step == "make":
                number, spec, drawn, public = 0, rest[0], rest[1], rest[2]
                suite.case(f"{key}: signed again")
                suite.step("file", "tape", f"vectors/{key}/{drawn}")
                suite.run(line_of_make(f"state public {spec} --random tape"), f"public {read(key, public).hex()}")
                suite.step("same", "public", f"vectors/{key}/{public}")
                model = Signer(spec, Tape(read(key, drawn))) if compared else None
                if model and model.public() != read(key, public):
                    raise ValueError(f"{key}: the public key")
            elif step == "sign":
                number, (message, drawn, signature) = number + 1, rest
                suite.step("file", "message", f"vectors/{key}/{message}")
                suite.step("file", "tape", f"vectors/{key}/{drawn}")
                suite.run(f"sign state n-{number} message out --random tape",
                          f"signed n-{number} {len(read(key, signature))} bytes")
                suite.step("same", "out", f"vectors/{key}/{signature}")
                tape_of = Tape(read(key, drawn))
                if model and model.sign(b"n-%d" % number, read(key, message), tape_of) != read(key, signature):
                    raise ValueError(f"{key}: {signature}")
            else:
                suite.run(f"retire state {rest[0]}", f"retired upto {rest[0]}")
                if model:
                    model.retire(int(rest[0]))
