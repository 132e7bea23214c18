"""Parts that run `serve`: its memory, one more name, and the memory of caches."""
import os, shutil, subprocess, tempfile, time

from bench_parts.keys import Keys
from bench_parts.measuring import (HEIGHTS, PROGRAM, TREES, WIDTHS, blocks, blocks_in, frame, read, resident,
                                   through_a_pipe, write)


class Served(Keys):
    """A key whose names are signed by `serve`. Each run begins with the same records."""
    def __init__(self, folder, spec):
        super().__init__(folder, spec)
        self.records, self.input = self.fresh, os.path.join(folder, "input")
        tree, one_time = (int.from_bytes(read(self.public)[place:place + 4], "big") for place in (0, 4))
        if spec.startswith("lms"):
            self.height, (self.width, self.chains, _) = HEIGHTS[tree], WIDTHS[one_time]

    def leaf(self):
        """The blocks of SHA-256 of a leaf of an LMS key (RFC 8554 4.3 and 5.3)."""
        return self.chains * 2**self.width + blocks(22 + 32 * self.chains) + blocks(54)

    def retire(self, upto):
        """Retires the first leaves; later runs begin with these records."""
        subprocess.run([PROGRAM, "retire", self.state, str(upto)], check=True, stdout=subprocess.DEVNULL)
        self.records = read(self.state)

    def ask(self, names):
        """Prepares a run that signs this many new names."""
        self.prepare(self.records)
        write(self.input, b"".join(frame(b"name-%d" % number, b"m") for number in range(names)))
        return [PROGRAM, "serve", self.state]

    def blocks(self, names):
        """The blocks of SHA-256 of a run for this many new names."""
        return blocks_in(*self.ask(names)[1:], given=self.input)[0]


class Server:
    """A running `serve` that gets one name at a time."""
    def __init__(self, kept, program=PROGRAM):
        kept.prepare(kept.records)
        self.process = subprocess.Popen([program, "serve", kept.state], stdin=subprocess.PIPE, stdout=subprocess.PIPE)

    def computed(self):
        """The processor's seconds of the process so far, by Linux."""
        return int(read(f"/proc/{self.process.pid}/schedstat").split()[0]) / 1e9

    def peak(self):
        """The most resident memory so far, in MiB."""
        return resident(self.process.pid)

    def spent(self, name):
        """The processor's seconds until the signature for a new name is there."""
        start = self.computed()
        self.process.stdin.write(frame(name.encode(), b"m"))
        self.process.stdin.flush()
        head = self.process.stdout.read(5)
        self.process.stdout.read(int.from_bytes(head[1:], "big"))
        if head[:1] != b"\0":
            raise ValueError(f"serve answered {head.hex()}")
        return self.computed() - start

    def close(self):
        self.process.stdin.close()
        if self.process.wait() != 0:
            raise ValueError(f"serve ended with {self.process.returncode}")


def serve_memory():
    """The most memory of `serve` while it signs a message of 1 GiB. The signature has to be valid."""
    size = 1 << 30
    with tempfile.TemporaryDirectory() as folder:
        kept = Served(folder, "lms:H5/W8")
        peak = 0
        start = time.perf_counter()
        server = subprocess.Popen([PROGRAM, "serve", kept.state], stdin=subprocess.PIPE, stdout=subprocess.PIPE)
        server.stdin.write(frame(b"name", b"")[:-4] + size.to_bytes(4, "big"))
        for _ in range(size >> 20):
            server.stdin.write(bytes(1 << 20))
            peak = max(peak, resident(server.pid))
        server.stdin.flush()
        head = server.stdout.read(5)
        write(kept.out, server.stdout.read(int.from_bytes(head[1:], "big")))
        took = time.perf_counter() - start
        peak = max(peak, resident(server.pid))
        server.stdin.close()
        if server.wait() != 0 or head[0] != 0:
            raise ValueError(f"serve answered {head.hex()} and ended with {server.returncode}")
        through_a_pipe([PROGRAM, "verify", kept.public, "/dev/stdin", kept.out], size)
        print(f"serve, a message of 1 GiB: {took:.2f} s, at most {peak:.1f} MiB resident")
        if peak >= 8:
            raise ValueError("that is not under 8 MiB")


def at_a_block(folder, spec):
    """A key whose next leaf is the last but one of its first block, and the number of leaves of a block."""
    kept = Served(folder, spec)
    block = 2**(kept.height // 2)
    kept.retire(block - 2)
    return kept, block


def serve_more():
    """The processor's time for one more name: within a block of leaves, and at the beginning of one. At height 20 one
    beginning is timed, at the others three. And the memory of the first name, mostly the tree's cache."""
    for spec, begun in (("lms:H5/W4", 3), ("lms:H10/W4", 3), ("lms:H15/W4", 3), ("lms:H20/W1", 1)):
        with tempfile.TemporaryDirectory() as folder:
            kept, block = at_a_block(folder, spec)
            server = Server(kept)
            peak = server.peak()
            first = 1000 * server.spent("first")
            more = 1024 * (server.peak() - peak)
            times = [1000 * server.spent(f"name-{number}") for number in range(2 + block * (begun - 1))]
            server.close()
            within = [took for place, took in enumerate(times) if place % block != 1]
            print_more(spec, block, min(within), min(times[1::block]), first / 2**kept.height, "ms")
            print(f"{spec}: the first name took {first / 1000:.2f} s and {more:.0f} KiB; the cache has "
                  f"{32 * nodes_of(kept.height)} bytes", flush=True)


def nodes_of(height):
    """The number of nodes in a tree's cache: the upper tree, and a block of 2^b leaves."""
    b = height // 2
    return 2**(height - b + 1) + 2**(b + 1) - 2


def serve_counts():
    """The same in blocks of SHA-256, if valgrind is there. A leaf's are the standard's (RFC 8554 4.3 and 5.3)."""
    if not shutil.which("valgrind"):
        print("valgrind isn't installed: no blocks are counted")
        return
    for spec in ("lms:H5/W4", "lms:H10/W4"):
        with tempfile.TemporaryDirectory() as folder:
            kept, block = at_a_block(folder, spec)
            one, two, three = (kept.blocks(names) for names in (1, 2, 3))
            leaf = kept.leaf()
            print(f"{spec}: the first name takes {one} blocks, {one / leaf / 2**kept.height:.2f} times those of all "
                  "leaves")
            print_more(spec, block, two - one, three - two, leaf, "blocks")
    with tempfile.TemporaryDirectory() as folder:
        kept, names = Served(folder, "lms:H10/W8"), 64
        kept.prepare()
        made, shares = blocks_in(*kept.make()[1:])
        count = kept.blocks(names)
        print(f"{kept.spec}: make takes {made} blocks ({shares}), those of {made / kept.leaf():.1f} leaves; {names} "
              f"names from the first on {count} blocks, those of {count / kept.leaf():.1f} leaves")


def caches():
    """The memory for the cache of a tree of height 25. Its leaves are numbers: a real one has 2^25 public keys."""
    if not os.path.exists(TREES):
        print("scheme_tests isn't built: rt test in its folder builds it")
        return
    process = subprocess.Popen([TREES, "tests::trees::caches::caches_have_their_sizes"], stdout=subprocess.DEVNULL)
    peaks = []
    while process.poll() is None:
        peaks.append(resident(process.pid))
        time.sleep(0.001)
    if process.returncode != 0:
        raise ValueError(f"the test of caches ended with {process.returncode}")
    peaks = [1024 * mebibytes for mebibytes in peaks if mebibytes]
    more = peaks[-1] - peaks[1]
    print(f"a tree of height 25: a cache of {32 * nodes_of(25)} bytes; a test had {peaks[1]:.0f} KiB with the caches "
          f"of small trees, and at most {peaks[-1]:.0f} KiB with that one: {1024 * more:.0f} bytes more, "
          f"{32 * more / nodes_of(25):.2f} times the cache")


def print_more(spec, block, within, beginning, leaf, unit):
    """Prints the cost of a name within a block of leaves, and of one that begins a block, in leaves."""
    print(f"{spec}: one more name takes {within:.5g} {unit} within a block of {block} leaves, {within / leaf:.1f} "
          f"leaves; where it begins one {beginning:.5g} {unit}, {beginning / leaf:.1f} leaves, "
          f"{beginning / leaf / block:.2f} times those of the block")
