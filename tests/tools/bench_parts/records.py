"""Parts with long state files: openings, new names, audits; and `audit-given` of many signatures."""
import hashlib, multiprocessing, os, subprocess, tempfile

from bench_parts.measuring import PROGRAM, computing, digits, frame, read, sha256, write
from model import LMS, bound_body, extend_body, key_body, state_file


def long_file(path, key, records):
    """A state file of a key and these records, with right tags."""
    tag, slots = bytes(32), []
    for record in (key, *records):
        tag = sha256(tag, record)
        slots += [b"\xa5", record, tag]
    with open(path, "wb") as file:
        file.write(b"".join([*slots, b"\0"]))
    return path


def names_of(tree, count):
    """Bindings of the first leaves of a tree."""
    return (bound_body(b"n%d-%d" % (tree, leaf), leaf, bytes(32), bytes(32)) for leaf in range(count))


def trees_of(trees, names):
    """Records of trees of the second level, each with this many names."""
    for tree in range(trees):
        yield extend_body(1, tree, sha256(b"tree", tree.to_bytes(4, "big"))[:16], *[bytes(32)] * 4)
        yield from names_of(tree, names)


def openings():
    """The time for each record of an opening, of 2^10, 2^14 and 2^18 records, less the opening of the key alone."""
    def opened(pairs, records):
        key = key_body(len(pairs), pairs, bytes(16), *[bytes(32)] * 4)
        path = long_file(os.path.join(folder, "state"), key, records)
        return computing([PROGRAM, "retire", path, "0"], 9)
    with tempfile.TemporaryDirectory() as folder:
        alone, first = opened([(8, 4)], ()), None
        for bits in (10, 14, 18):
            one = (opened([(8, 4)], names_of(0, 2**bits)) - alone) / 2**bits
            first = first or one
            print(f"opening a file of 2^{bits} records: {1e3 * one * 2**bits:.2f} ms, {1e9 * one:.0f} ns a record, "
                  f"{one / first:.2f} times that of 2^10, where n log n gives {bits / 10:.1f}")
        took = opened([(8, 4)] * 2, trees_of(2**17, 1)) - alone
        print(f"opening a file of 2^18 records, half of which make a tree: {1000 * took:.2f} ms, "
              f"{1e9 * took / 2**18:.0f} ns a record")


def signing():
    """The time for a new name of two levels of H10/W1 after 2^10 records and after 2^18: four names, less none."""
    with tempfile.TemporaryDirectory() as folder:
        subprocess.run([PROGRAM, "make", "made", "public", "hss:H10/W1,H10/W1"], cwd=folder, check=True,
                       stdout=subprocess.DEVNULL)
        key, first = read(os.path.join(folder, "made"))[1:224], None
        for count in (0, 4):
            with open(os.path.join(folder, f"frames-{count}"), "wb") as file:
                file.write(b"".join(frame(b"fw-%d" % number, b"m") for number in range(count)))
        for bits in (10, 18):
            long_file(os.path.join(folder, "full"), key, trees_of(1 if bits == 10 else 255, 2**10))
            took = [computing(["sh", "-c", f"cp full state && exec {PROGRAM} serve state <frames-{count}"], 9, folder)
                    for count in (4, 0)]
            one = (took[0] - took[1]) / 4
            first = first or one
            print(f"a new name after 2^{bits} records: {1000 * one:.1f} ms, {one / first:.2f} times that after 2^10")


def audits():
    """The time for each record of an `audit`, its opening included, less the audit of one record."""
    with tempfile.TemporaryDirectory() as folder:
        spent = {}
        for bits in (0, 10, 14):
            path = os.path.join(folder, f"state-{bits}")
            names = [bound_body(b"%d" % leaf, leaf, bytes(32), bytes(32)) for leaf in range(2**bits - 1)]
            with open(path, "wb") as file:
                file.write(state_file([key_body(LMS, [(8, 4)], bytes(16), bytes(32), bytes(32), bytes(32), bytes(32)),
                                       *names]))
            spent[bits] = computing([PROGRAM, "audit", path], 9)
    first = None
    for bits in (10, 14):
        one = (spent[bits] - spent[0]) / (2**bits - 1)
        first = first or one
        print(f"opening and auditing a file of 2^{bits} records: {1e3 * one * 2**bits:.2f} ms, {1e9 * one:.0f} ns a "
              f"record, {one / first:.2f} times that of 2^10")


def one_time(identifier, leaf, message):
    """A signature of LM-OTS of W8 with values from a hash, and the leaf that they lead to, in a tree of height 5
    (RFC 8554 4.6 and 5.3). So the key needs no secret, and each leaf has one signature."""
    prefix = identifier + leaf.to_bytes(4, "big")
    randomizer = sha256(b"randomizer", prefix)
    ends, values = hashlib.sha256(prefix + b"\x80\x80"), b""
    for i, digit in enumerate(digits(8, 34, 0, sha256(prefix, b"\x81\x81", randomizer, message))):
        chain, value = prefix + i.to_bytes(2, "big"), sha256(b"value", prefix, bytes([i]))
        values += value
        for step in range(digit, 255):
            value = hashlib.sha256(chain + bytes([step]) + value).digest()
        ends.update(value)
    node = sha256(identifier, (32 + leaf).to_bytes(4, "big"), b"\x82\x82", ends.digest())
    return b"\0\0\0\4" + randomizer + values, node


def small_tree(name, messages):
    """The public key and the signatures of a tree of H5/W8 that signs these 32 messages (RFC 8554 5.3 and 5.4)."""
    identifier = sha256(b"tree", name.encode())[:16]
    signed = [one_time(identifier, leaf, message) for leaf, message in enumerate(messages)]
    nodes = {32 + leaf: node for leaf, (_, node) in enumerate(signed)}
    for r in range(31, 0, -1):
        nodes[r] = sha256(identifier, r.to_bytes(4, "big"), b"\x83\x83", nodes[2 * r], nodes[2 * r + 1])
    paths = [b"".join(nodes[((32 + leaf) >> height) ^ 1] for height in range(5)) for leaf in range(32)]
    signatures = [leaf.to_bytes(4, "big") + signed[leaf][0] + b"\0\0\0\5" + paths[leaf] for leaf in range(32)]
    return b"\0\0\0\5\0\0\0\4" + identifier + nodes[1], signatures


def message_given(number):
    return b"message " + str(number).encode()


def bottom_tree(number):
    return small_tree(f"bottom {number}", [message_given(32 * number + leaf) for leaf in range(32)])


def given_out(count):
    """A key of three levels of H5/W8, and its signatures of this many messages, 1024 under each leaf of the top."""
    with multiprocessing.Pool() as pool:
        bottom = pool.map(bottom_tree, range(count >> 5), chunksize=1)
    middle = [small_tree(f"middle {i}", [key for key, _ in bottom[32 * i:32 * i + 32]]) for i in range(count >> 10)]
    top, signed = small_tree("top", [key for key, _ in middle] + [b""] * (32 - len(middle)))
    signatures = []
    for number in range(count):
        i, j, leaf = number >> 10, number >> 5 & 31, number & 31
        below = middle[i][0] + middle[i][1][j] + bottom[32 * i + j][0] + bottom[32 * i + j][1][leaf]
        signatures.append(b"\0\0\0\2" + signed[i] + below)
    return b"\0\0\0\3" + top, signatures


def checks():
    """The time of `audit-given`, for signatures by different leaves of the bottom level."""
    with tempfile.TemporaryDirectory() as folder:
        public, signatures = given_out(1 << 14)
        write(os.path.join(folder, "public"), public)
        for number, signature in enumerate(signatures):
            write(os.path.join(folder, f"m{number}"), message_given(number))
            write(os.path.join(folder, f"s{number}"), signature)
        first = None
        for bits, times in ((10, 5), (14, 2)):
            count = 1 << bits
            files = [name for number in range(count) for name in (f"m{number}", f"s{number}")]
            command = [PROGRAM, "audit-given", "public", *files]
            line = subprocess.run(command, cwd=folder, capture_output=True, text=True).stdout
            if line != f"given {count} signatures, no leaf twice\n":
                raise ValueError(f"audit-given of {count} signatures: {line}")
            took = computing(command, times, folder)
            first = first or took
            print(f"checking 2^{bits} given signatures: {took:.2f} s, {1e3 * took / count:.2f} ms each, "
                  f"{took / first:.1f} times the time of 2^10, where n log n gives {2**(bits - 10) * bits / 10:.1f}")
