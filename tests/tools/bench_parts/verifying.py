"""Parts that verify: messages of many lengths, blocks, and times beside other implementations."""
import hashlib, os, shutil, subprocess, tempfile

from bench_parts.formulas import Triple, XmssTriple
from bench_parts.keys import Keys
from bench_parts.measuring import (PROGRAM, VECTORS, best, blocks_in, digits, interleaved, print_beside, programs, read,
                                   sha256, through_a_pipe, vector)
from bench_parts.peers import botan, bouncy_castle, missing, peers


def signed_anew(pieces, signature_file):
    """Signs a message by the leaf of signature 3, with the key's seed (RFC 8554 4.5 and Appendix A)."""
    triple = Triple(vector("lms-H5-W8-a", 3))
    seed = read(os.path.join(VECTORS, "lms-H5-W8-a", "tape-make"))[16:]
    hasher = hashlib.sha256(triple.prefix + b"\x81\x81" + triple.randomizer)
    for piece in pieces:
        hasher.update(piece)
    values = b""
    for i, digit in enumerate(digits(triple.width, triple.chains, triple.shift, hasher.digest())):
        value = sha256(triple.prefix, i.to_bytes(2, "big"), b"\xff", seed)
        for step in range(digit):
            value = sha256(triple.prefix, i.to_bytes(2, "big"), bytes([step]), value)
        values += value
    with open(signature_file, "wb") as file:
        file.write(triple.signature[:40] + values + triple.signature[40 + len(values):])
    return triple.files[0]


def messages(folder):
    start = best([PROGRAM, "--help"], 20)
    print(f"starting the program: {1000 * start:.1f} ms")
    for name, size, times in (("1 byte", 1, 20), ("64 MiB", 64 << 20, 3)):
        message = os.path.join(folder, "message")
        signature = os.path.join(folder, "signature")
        with open(message, "wb") as file:
            file.write(b"m" * size)
        public = signed_anew([b"m" * size], signature)
        took = best([PROGRAM, "verify", public, message, signature], times)
        line = f"verify of {name}: {1000 * took:.1f} ms, {took / start:.1f} times a start"
        if shutil.which("openssl"):
            other = best(["openssl", "dgst", "-sha256", message], times)
            line += f", {took / other:.2f} times openssl dgst -sha256 on the same file"
        else:
            line += "; openssl isn't installed"
        print(line)


def streamed(folder):
    size = 1 << 30
    signature = os.path.join(folder, "signature")
    public = signed_anew((bytes(1 << 20) for _ in range(size >> 20)), signature)
    runs = [through_a_pipe([PROGRAM, "verify", public, "/dev/stdin", signature], size) for _ in range(3)]
    took, peak = min(run[0] for run in runs), max(run[1] for run in runs)
    line = f"verify of 1 GiB through a pipe: {took:.2f} s, at most {peak:.1f} MiB resident"
    if shutil.which("openssl"):
        other = min(through_a_pipe(["openssl", "dgst", "-sha256"], size)[0] for _ in range(3))
        line += f", {took / other:.2f} times openssl dgst -sha256 of the same"
    print(line)


def counts():
    if not shutil.which("valgrind"):
        print("valgrind isn't installed: no blocks are counted")
        return
    for width in (1, 2, 4, 8):
        triple = Triple(vector(f"lms-H5-W{width}-a", 0))
        called, shares = blocks_of(triple)
        standard = triple.steps() + triple.other_blocks()
        print(f"H5/W{width}: {called - triple.other_blocks()} steps, by the standard {triple.steps()}; "
              f"{called} blocks of SHA-256 in all ({shares}), by the standard {standard}: "
              f"{called / standard:.3f} times")
    triple = XmssTriple(vector("xmss-10-a", 0))
    called, shares = blocks_of(triple)
    print(f"{triple.name}: {called} blocks of SHA-256 ({shares}), by the standard {triple.blocks(2)}, "
          f"and {triple.blocks(1) + 1} where PRF's first block is hashed once")


def blocks_of(triple):
    """The blocks of SHA-256 of a verification, and in words how many go in lanes."""
    return blocks_in("verify", *triple.files)


# The specs of verify, sign and tall-keys.
VERIFIED = ("lms:H10/W1", "lms:H10/W2", "lms:H10/W4", "lms:H10/W8", "hss:H5/W8,H5/W8", "xmss:10")


def verifications():
    """The time of one verification: 300 in one process of `audit-given` less 100, divided by 200."""
    missing()
    few, many = 100, 300
    for spec in VERIFIED:
        with tempfile.TemporaryDirectory() as folder:
            kept = Keys(folder, spec)
            subprocess.run(kept.sign(), check=True, stdout=subprocess.DEVNULL)
            files = [kept.public, kept.message, kept.out]
            runs = [(lambda: None, [program, "audit-given", kept.public, *files[1:] * count], os.devnull)
                    for program in programs().values() for count in (few, many)]
            times = interleaved(runs, 9)
            ones = [1000 * (times[i + 1] - times[i]) / (many - few) for i in range(0, len(times), 2)]
            peer = bouncy_castle("time-verify", *files, "1000")
            other = botan("time-verify", *files) if spec.startswith("xmss") else None
            print_beside(f"verify {spec}", {**dict(zip(programs(), ones)), **peers(peer, other, 0)})


def messages_and_pipes():
    with tempfile.TemporaryDirectory() as folder:
        messages(folder)
        streamed(folder)
