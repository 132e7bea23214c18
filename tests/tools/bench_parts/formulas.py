"""The blocks of SHA-256 that the standards' formulas have for a verification."""
from bench_parts.measuring import HEIGHTS, WIDTHS, blocks, digits, read, sha256


class Triple:
    """A public key with a message and its signature."""
    def __init__(self, files):
        self.files = files
        public, self.message, signature = map(read, self.files)
        self.height = HEIGHTS[int.from_bytes(public[:4], "big")]
        self.width, self.chains, self.shift = WIDTHS[int.from_bytes(public[4:8], "big")]
        self.prefix = public[8:24] + signature[:4]
        self.randomizer = signature[8:40]
        self.signature = signature

    def steps(self):
        digest = sha256(self.prefix, b"\x81\x81", self.randomizer, self.message)
        return sum(2**self.width - 1 - d for d in digits(self.width, self.chains, self.shift, digest))

    def other_blocks(self):
        """The blocks of the message's digest, the public hash, the leaf and the nodes."""
        return blocks(54 + len(self.message)) + blocks(22 + 32 * self.chains) + blocks(54) + self.height * blocks(86)

    def tree(self, _=2):
        """The blocks of the whole tree: the leaves with their chains and private values, and the nodes above them."""
        leaf = self.chains * 2**self.width + blocks(22 + 32 * self.chains) + blocks(54)
        return 2**self.height * leaf + (2**self.height - 1) * blocks(86)

    def signing(self, _=2):
        """The blocks of a signature beside the tree: its private values, their steps and the digest."""
        return self.chains * 2**self.width - self.steps() + blocks(54 + len(self.message))


class XmssTriple:
    """The same for XMSS, whose chains have 15 steps (RFC 8391 5.3)."""
    height = 10
    name = "XMSS height 10"

    def __init__(self, files):
        self.files = files
        public, self.message, signature = map(read, self.files)
        self.key = signature[4:36] + public[4:36] + bytes(28) + signature[:4]

    def steps(self):
        digest = sha256((2).to_bytes(32, "big"), self.key, self.message)
        return sum(15 - d for d in digits(4, 67, 4, digest))

    def joins(self):
        """66 nodes of the L-tree above its 67 values, and each node of the path."""
        return 66 + self.height

    def blocks(self, prf_blocks):
        """A step is two PRF and F of 96 bytes each, a join three PRF and H of 128 bytes, a digest H_msg.

        PRF has two blocks, and the first is the same for all calls with one key."""
        digest = blocks(128 + len(self.message))
        return self.steps() * self.step(prf_blocks) + self.joins() * self.join(prf_blocks) + digest

    @staticmethod
    def step(prf_blocks):
        return 2 * prf_blocks + blocks(96)

    @staticmethod
    def join(prf_blocks):
        return 3 * prf_blocks + blocks(128)

    def tree(self, prf_blocks=2):
        """The blocks of the whole tree: the leaves with chains, private values and L-tree, and the nodes above them."""
        leaf = 67 * (blocks(128) + 15 * self.step(prf_blocks)) + 66 * self.join(prf_blocks)
        return 2**self.height * leaf + (2**self.height - 1) * self.join(prf_blocks)

    def signing(self, prf_blocks=2):
        """The blocks of a signature beside the tree: its private values, their steps, r and the digest."""
        values = 67 * blocks(128) + (67 * 15 - self.steps()) * self.step(prf_blocks)
        return values + blocks(96) + blocks(128 + len(self.message))
