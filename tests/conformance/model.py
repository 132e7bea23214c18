"""The formulas of RFC 8554 and RFC 8391, and the state file, the signer and the frames of docs/FORMATS.md and
docs/REFUSALS.md, in plain Python over hashlib. Tests take expected values from here, not from a tested program. Numbers
are big-endian.
"""
import hashlib

H = hashlib.sha256
# one-time types by code: bits of a digit, chains, shift of the checksum (RFC 8554 4.1)
WIDTHS = {1: (1, 265, 7), 2: (2, 133, 6), 3: (4, 67, 4), 4: (8, 34, 0)}
# heights by code: of LMS trees (RFC 8554 5.1), and of XMSS (RFC 8391 5.3)
HEIGHTS = {5: 5, 6: 10, 7: 15, 8: 20, 9: 25}
XMSS_HEIGHTS = {1: 10, 2: 16, 3: 20}
LMS, HSS, XMSS = 1, 2, 3
# the most bytes of a name, by the version of the state file
LONGEST_NAME = {1: 64, 2: 128}
NEWEST = 2
# the nodes of all trees so far, by their secrets
MADE = {}


class Refused(Exception):
    """A numbered refusal, with the record that it names."""
    def __init__(self, number, slot=None):
        super().__init__(number)
        self.number, self.slot = number, slot


def u8(number):
    return number.to_bytes(1, "big")


def u16(number):
    return number.to_bytes(2, "big")


def u32(number):
    return number.to_bytes(4, "big")


def sha256(*parts):
    return H(b"".join(parts)).digest()


def pair_of(text):
    """The codes of a text such as H5/W8: the tree's and the one-time type's."""
    height, width = text.split("/")
    tree = {f"H{height}": code for code, height in HEIGHTS.items()}[height]
    return tree, {f"W{values[0]}": code for code, values in WIDTHS.items()}[width]


def digits_of(values, digest):
    """The digits of a digest and of its checksum (RFC 8554 4.4)."""
    width, chains, shift = values

    def coef(data, i):
        at = i * width
        return data[at // 8] >> (8 - width - at % 8) & (2**width - 1)
    checksum = sum(2**width - 1 - coef(digest, i) for i in range(256 // width)) << shift
    return [coef(digest + u16(checksum), i) for i in range(chains)]


def node_path(levels, leaf):
    """The siblings on the way from a leaf to the root, by the tree's nodes of each height."""
    return b"".join(levels[height][leaf >> height ^ 1] for height in range(len(levels) - 1))


class LmsTree:
    """A tree of LMS by its secret (RFC 8554 4, 5 and Appendix A). Its nodes are made when needed."""
    def __init__(self, pair, identifier, seed):
        self.pair, self.identifier, self.seed = pair, identifier, seed
        self.height, self.values = HEIGHTS[pair[0]], WIDTHS[pair[1]]

    def leaf_count(self):
        return 2**self.height

    def climbed(self, prefix, chain, first, last, value):
        head = prefix + u16(chain)
        for step in range(first, last):
            value = H(head + u8(step) + value).digest()
        return value

    def private_value(self, prefix, chain):
        return sha256(prefix, u16(chain), b"\xff", self.seed)

    def public_hash(self, leaf):
        prefix = self.identifier + u32(leaf)
        last = 2**self.values[0] - 1
        ends = [self.climbed(prefix, i, 0, last, self.private_value(prefix, i)) for i in range(self.values[1])]
        return sha256(prefix, b"\x80\x80", *ends)

    def nodes(self):
        """The nodes by height, leaves first (RFC 8554 5.3)."""
        secret = self.pair, self.identifier, self.seed
        if secret not in MADE:
            count = self.leaf_count()
            level = [sha256(self.identifier, u32(count + q), b"\x82\x82", self.public_hash(q)) for q in range(count)]
            levels = MADE[secret] = [level]
            while len(level) > 1:
                first = len(level) // 2
                level = [sha256(self.identifier, u32(first + j), b"\x83\x83", level[2 * j], level[2 * j + 1])
                         for j in range(first)]
                levels.append(level)
        return MADE[secret]

    def root(self):
        return self.nodes()[-1][0]

    def public(self, root=None):
        return u32(self.pair[0]) + u32(self.pair[1]) + self.identifier + (self.root() if root is None else root)

    def digest(self, leaf, randomizer, message):
        return sha256(self.identifier, u32(leaf), b"\x81\x81", randomizer, message)

    def signature(self, leaf, randomizer, digest):
        """The whole signature of a digest by a leaf (RFC 8554 4.5 and 5.4)."""
        prefix = self.identifier + u32(leaf)
        digits = digits_of(self.values, digest)
        values = [self.climbed(prefix, i, 0, digit, self.private_value(prefix, i)) for i, digit in enumerate(digits)]
        return (u32(leaf) + u32(self.pair[1]) + randomizer + b"".join(values) + u32(self.pair[0])
                + node_path(self.nodes(), leaf))


def xor(first, second):
    return (int.from_bytes(first, "big") ^ int.from_bytes(second, "big")).to_bytes(32, "big")


def xmss_digits(digest):
    """The digits of a digest and of its checksum (RFC 8391 3.1.5)."""
    digits = [half for byte in digest for half in (byte >> 4, byte & 15)]
    checksum = sum(15 - digit for digit in digits) << 4
    return digits + [checksum >> 12 & 15, checksum >> 8 & 15, checksum >> 4 & 15]


class XmssTree:
    """A tree of XMSS by its secret (RFC 8391 2 to 4.1), with the private values of docs/FORMATS.md."""
    def __init__(self, code, secret, prf_key, seed):
        self.code, self.secret, self.prf_key, self.seed = code, secret, prf_key, seed
        self.height = XMSS_HEIGHTS[code]
        self.keyed = H((3).to_bytes(32, "big") + seed)

    def leaf_count(self):
        return 2**self.height

    def mask(self, *words):
        """PRF of an address with this type and four words; layer and tree are 0."""
        hasher = self.keyed.copy()
        hasher.update(bytes(12) + b"".join(map(u32, words)))
        return hasher.digest()

    def climbed(self, leaf, chain, first, last, value):
        for step in range(first, last):
            key, mask = self.mask(0, leaf, chain, step, 0), self.mask(0, leaf, chain, step, 1)
            value = sha256(bytes(32), key, xor(value, mask))
        return value

    def join(self, kind, first, height, index, left, right):
        key, one, two = (self.mask(kind, first, height, index, which) for which in (0, 1, 2))
        return sha256((1).to_bytes(32, "big"), key, xor(left, one), xor(right, two))

    def private_value(self, leaf, chain):
        address = bytes(12) + b"".join(map(u32, (0, leaf, chain, 0, 0)))
        return sha256((4).to_bytes(32, "big"), self.secret, self.seed, address)

    def leaf(self, leaf):
        return self.l_tree(leaf, [self.climbed(leaf, i, 0, 15, self.private_value(leaf, i)) for i in range(67)])

    def l_tree(self, leaf, values):
        """The root of a leaf's values. An odd last one goes up unchanged (RFC 8391 4.1.5)."""
        height = 0
        while len(values) > 1:
            above = [self.join(1, leaf, height, i // 2, values[i], values[i + 1]) for i in range(0, len(values) - 1, 2)]
            values = above + values[len(values) // 2 * 2:]
            height += 1
        return values[0]

    def nodes(self):
        secret = self.code, self.secret, self.seed
        if secret not in MADE:
            level = [self.leaf(i) for i in range(self.leaf_count())]
            levels = MADE[secret] = [level]
            while len(level) > 1:
                height = len(levels) - 1
                level = [self.join(2, 0, height, j, level[2 * j], level[2 * j + 1]) for j in range(len(level) // 2)]
                levels.append(level)
        return MADE[secret]

    def root(self):
        return self.nodes()[-1][0]

    def public(self, root=None):
        return u32(self.code) + (self.root() if root is None else root) + self.seed

    def randomizer(self, leaf):
        return sha256((3).to_bytes(32, "big"), self.prf_key, leaf.to_bytes(32, "big"))

    def digest(self, leaf, _, message, root=None):
        place = leaf.to_bytes(32, "big")
        root = self.root() if root is None else root
        return sha256((2).to_bytes(32, "big"), self.randomizer(leaf), root, place, message)

    def signature(self, leaf, _, digest):
        values = [self.climbed(leaf, i, 0, digit, self.private_value(leaf, i))
                  for i, digit in enumerate(xmss_digits(digest))]
        return u32(leaf) + self.randomizer(leaf) + b"".join(values) + node_path(self.nodes(), leaf)


# ---- the records of a state file, as bytes 1 to 223 of their slots


def body(kind, *fields):
    content = u8(kind) + b"".join(fields)
    return content + bytes(223 - len(content))


def key_body(scheme, pairs, identifier, seed, prf_key, public_seed, root, version=NEWEST, levels=None):
    codes = b"".join(u32(tree) + u32(ots) for tree, ots in pairs)
    levels = len(pairs) if levels is None else levels
    return body(1, b"HBSSTATE", u16(version), u8(scheme), u8(levels), codes + bytes(64 - len(codes)),
                identifier, seed, prf_key, public_seed, root)


def extend_body(level, parent_leaf, identifier, seed, randomizer, digest, root):
    return body(2, u8(level), u32(parent_leaf), identifier, seed, randomizer, digest, root)


def bound_body(name, leaf, randomizer, digest, version=NEWEST):
    """A Bound in a file of a version: the fields after the name come after room for the longest name."""
    return body(3, u8(len(name)), name + bytes(LONGEST_NAME[version] - len(name)), u32(leaf), randomizer, digest)


def retire_body(upto):
    return body(4, u32(upto))


def moved_body(version=2):
    return body(5, u16(version))


def state_file(bodies):
    """A file's content: these records, their tags, and a closed gate after the last."""
    content, tag = b"", bytes(32)
    for each in bodies:
        tag = sha256(tag, each)
        content += b"\xa5" + each + tag
    return content + b"\x00"


def last_tag(bodies):
    tag = bytes(32)
    for each in bodies:
        tag = sha256(tag, each)
    return tag


# ---- reading a state file


def part(record, first, last):
    """Bytes `first` to `last` of a slot. Its record begins with byte 1."""
    return record[first - 1:last]


def number(record, first, last):
    return int.from_bytes(part(record, first, last), "big")


def bound_fields(record, version):
    """The name, the leaf, C and Q of a Bound in a file of a version."""
    at = 3 + LONGEST_NAME[version]
    return (part(record, 3, 2 + record[1]), number(record, at, at + 3), part(record, at + 4, at + 35),
            part(record, at + 36, at + 67))


def pairs_of(record):
    """The eight pairs of codes of a Key."""
    return [(number(record, at, at + 3), number(record, at + 4, at + 7)) for at in range(14, 78, 8)]


def is_key(record, version):
    """Whether a record of kind 1 spells a Key of a version: its levels have known types, and bytes that its scheme
    doesn't use are zeros."""
    scheme, levels, pairs = record[11], record[12], pairs_of(record)
    if part(record, 2, 11) != b"HBSSTATE" + u16(version) or any(part(record, 222, 223)):
        return False
    if not 1 <= levels <= (8 if scheme == HSS else 1) or any(pair != (0, 0) for pair in pairs[levels:]):
        return False
    if scheme == XMSS:
        return pairs[0][0] in XMSS_HEIGHTS and pairs[0][1] == 0 and not any(part(record, 78, 93))
    return (scheme in (LMS, HSS) and all(tree in HEIGHTS and ots in WIDTHS for tree, ots in pairs[:levels])
            and not any(part(record, 126, 189)))


def is_record(record, version):
    """Whether bytes 1 to 223 of a slot spell a record of a version."""
    kind, size, longest = record[0], record[1], LONGEST_NAME[version]
    if kind == 1:
        return is_key(record, version)
    if kind == 2:
        return not any(part(record, 151, 223))
    if kind == 3:
        return (size <= longest and is_name(part(record, 3, 2 + size))
                and not any(part(record, 3 + size, 2 + longest)) and not any(part(record, 71 + longest, 223)))
    if kind == 4:
        return not any(part(record, 6, 223))
    return kind == 5 and number(record, 2, 3) == 2 and not any(part(record, 4, 223))


def holds_key(content):
    """Whether a file begins like a state file, whatever gate 0 is: PUBLIC and OUT aren't written over it."""
    return content[1:10] == b"\x01HBSSTATE"


def records_of(content):
    """The records of a state file up to its first closed gate, all in the version of the first. Refuses with the first
    fault of an opening (40 to 43)."""
    if len(content) < 257 or content[0] != 0xA5:
        raise Refused(40)
    if not holds_key(content):
        raise Refused(41)
    version = int.from_bytes(content[10:12], "big")
    if version not in LONGEST_NAME:
        raise Refused(42)
    bodies, tag, start = [], bytes(32), 0
    while content[start] == 0xA5:
        record, found = content[start + 1:start + 224], content[start + 224:start + 256]
        tag = sha256(tag, record)
        start += 256
        if len(content) <= start or found != tag or not is_record(record, version):
            raise Refused(43, len(bodies))
        bodies.append(record)
    return bodies


class Tape:
    """A finite source of random bytes."""
    def __init__(self, content):
        self.content = content

    def draw(self, size):
        if len(self.content) < size:
            raise Refused(23)
        drawn, self.content = self.content[:size], self.content[size:]
        return drawn


class Current:
    """A current tree: its record, its secret, the recorded root, and the next leaf."""
    def __init__(self, slot, tree, root):
        self.slot, self.tree, self.root, self.next = slot, tree, root, 0
        self.parent = None

    def has_free(self, leaf):
        return self.next <= leaf < self.tree.leaf_count()

    def is_free(self):
        return self.has_free(self.next)


class Signer:
    """A key with its records (docs/FORMATS.md), by a spec, for a file of a version. `limit` is the most records."""
    def __init__(self, spec, tape, version=NEWEST, limit=2**31):
        kind, text = spec.split(":")
        self.scheme = {"lms": LMS, "hss": HSS, "xmss": XMSS}[kind]
        if self.scheme == XMSS:
            code = {str(height): code for code, height in XMSS_HEIGHTS.items()}[text]
            self.pairs = [(code, 0)]
            secrets = tape.draw(32), tape.draw(32), tape.draw(32)
            tree = XmssTree(code, *secrets)
            record = key_body(XMSS, self.pairs, bytes(16), *secrets, tree.root(), version)
        else:
            self.pairs = [pair_of(pair) for pair in text.split(",")]
            identifier, seed = tape.draw(16), tape.draw(32)
            tree = LmsTree(self.pairs[0], identifier, seed)
            record = key_body(self.scheme, self.pairs, identifier, seed, bytes(32), bytes(32), tree.root(), version)
        self.begin(record, tree, tree.root(), limit)

    def begin(self, record, tree, root, limit=2**31):
        """A key of one record. Its root needn't be its tree's."""
        self.limit = limit
        self.version = number(record, 10, 11)
        self.bodies = [record]
        self.current = [Current(0, tree, root)] + [None] * (len(self.pairs) - 1)
        self.bound = {}
        self.identifiers = set() if self.scheme == XMSS else {tree.identifier}
        self.has_moved = False

    @classmethod
    def of(cls, bodies):
        """The key with the records of a file; 44 at the first one that isn't legal."""
        key = cls.__new__(cls)
        record = bodies[0]
        key.scheme = record[11]
        key.pairs = pairs_of(record)[:record[12]]
        if key.scheme == XMSS:
            tree = XmssTree(key.pairs[0][0], part(record, 94, 125), part(record, 126, 157), part(record, 158, 189))
        else:
            tree = LmsTree(key.pairs[0], part(record, 78, 93), part(record, 94, 125))
        key.begin(record, tree, part(record, 190, 221))
        for slot, record in enumerate(bodies[1:], 1):
            if not key.takes(record):
                raise Refused(44, slot)
        if key.bodies != bodies:
            raise ValueError("other records than the file's")
        return key

    def takes(self, record):
        """Adds a record of a file, if it is legal as the next one."""
        kind, bottom = record[0], self.current[-1]
        if self.has_moved or kind == 1:
            return False
        if kind == 2:
            return self.takes_extend(record)
        if kind == 3:
            name, leaf, randomizer, digest = bound_fields(record, self.version)
            if name in self.bound or not bottom or not bottom.has_free(leaf):
                return False
            if self.scheme == XMSS and any(randomizer):
                return False
            self.add_bound(name, leaf, randomizer, digest)
        elif kind == 4:
            upto = number(record, 2, 5)
            if not bottom or upto > bottom.tree.leaf_count():
                return False
            self.bodies.append(record)
            bottom.next = max(bottom.next, upto)
        else:
            return self.move()
        return True

    def takes_extend(self, record):
        level, leaf, identifier = record[1], number(record, 3, 6), part(record, 7, 22)
        if self.scheme != HSS or not 1 <= level < len(self.pairs) or identifier in self.identifiers:
            return False
        parent = self.current[level - 1]
        if not parent or not parent.has_free(leaf):
            return False
        self.add_extend(level, leaf, LmsTree(self.pairs[level], identifier, part(record, 23, 54)),
                        part(record, 55, 86), part(record, 87, 118), part(record, 119, 150))
        return True

    def public(self):
        top = self.current[0]
        return (u32(len(self.pairs)) if self.scheme == HSS else b"") + top.tree.public(top.root)

    def left(self):
        return [at.tree.leaf_count() - at.next if at else 0 for at in self.current]

    def content(self):
        return state_file(self.bodies)

    def report(self):
        """The lines of an audit."""
        lines = [f"public {self.public().hex()}", f"records {len(self.bodies)}", f"tag {last_tag(self.bodies).hex()}"]
        lines += [f"level {level} left {left}" for level, left in enumerate(self.left())]
        return lines + (["moved 2"] if self.has_moved else [])

    def spec(self):
        """The spec of the key."""
        if self.scheme == XMSS:
            return f"xmss:{XMSS_HEIGHTS[self.pairs[0][0]]}"
        pairs = ",".join(f"H{HEIGHTS[tree]}/W{WIDTHS[ots][0]}" for tree, ots in self.pairs)
        return ("hss:" if self.scheme == HSS else "lms:") + pairs

    def listing(self):
        """The lines of a listing."""
        lines = [f"spec {self.spec()}", f"format {self.version}"]
        lines += [f"level {level} left {left}" for level, left in enumerate(self.left())] + [f"names {len(self.bound)}"]
        lines += [f"{place} {self.listed(record)}" for place, record in enumerate(self.bodies)]
        signatures = self.signatures()
        return lines + [f"signatures {signatures}" if signatures < 2**64 else "signatures at least 2^64"]

    def signatures(self):
        """How many new names the free leaves allow. A free leaf above the bottom signs trees of all leaves below it."""
        if self.has_moved:
            return 0
        heights = [XMSS_HEIGHTS[self.pairs[0][0]]] if self.scheme == XMSS else [HEIGHTS[tree] for tree, _ in self.pairs]
        return sum(left << sum(heights[level + 1:]) for level, left in enumerate(self.left()))

    def listed(self, record):
        """The words of a listing for a record."""
        kind = record[0]
        if kind == 2:
            return f"tree level {record[1]} leaf {number(record, 3, 6)}"
        if kind == 3:
            name, leaf, _, digest = bound_fields(record, self.version)
            return f"name {name.decode()} leaf {leaf} digest {digest.hex()}"
        if kind == 4:
            return f"retired upto {number(record, 2, 5)}"
        return "key" if kind == 1 else "moved"

    def fit(self, count):
        """Refuses records past the limit."""
        if len(self.bodies) + count > self.limit:
            raise Refused(30)

    def check(self, chain):
        """Refuses the first tree from the top with a recorded root or digest that its secret doesn't give."""
        for at in chain:
            if at.root != at.tree.root():
                raise Refused(28, at.slot)
            if at.parent:
                parent, leaf, randomizer, digest = at.parent
                if digest != parent.tree.digest(leaf, randomizer, at.tree.public(at.root)):
                    raise Refused(28, at.slot)

    def extend(self, level, tape):
        """A new tree at a level, whose key the next leaf of the level above signs."""
        parent = self.current[level - 1]
        identifier = tape.draw(16)
        if identifier in self.identifiers:
            raise Refused(24)
        seed, randomizer = tape.draw(32), tape.draw(32)
        tree = LmsTree(self.pairs[level], identifier, seed)
        self.add_extend(level, parent.next, tree, randomizer,
                        parent.tree.digest(parent.next, randomizer, tree.public()), tree.root())

    def add_extend(self, level, leaf, tree, randomizer, digest, root):
        parent = self.current[level - 1]
        self.bodies.append(extend_body(level, leaf, tree.identifier, tree.seed, randomizer, digest, root))
        new = Current(len(self.bodies) - 1, tree, root)
        new.parent = parent, leaf, randomizer, digest
        parent.next = leaf + 1
        self.identifiers.add(tree.identifier)
        self.current[level:] = [new] + [None] * (len(self.pairs) - level - 1)

    def chain_of(self, at):
        chain = [at]
        while chain[0].parent:
            chain.insert(0, chain[0].parent[0])
        return chain

    def signature(self, name):
        """A bound name's signature, by its record and the records of the trees above."""
        at, leaf, randomizer, digest = self.bound[name]
        written = at.tree.signature(leaf, randomizer, digest)
        while at.parent:
            parent, leaf, randomizer, digest = at.parent
            written = parent.tree.signature(leaf, randomizer, digest) + at.tree.public(at.root) + written
            at = parent
        return (u32(len(self.pairs) - 1) if self.scheme == HSS else b"") + written

    def sign(self, name, message, tape):
        """Signs a message, which is None if it can't be read."""
        if self.has_moved:
            raise Refused(31)
        if name in self.bound:
            at, leaf, randomizer, digest = self.bound[name]
            if message is None:
                raise Refused(27)
            if at.tree.digest(leaf, randomizer, message) != digest:
                raise Refused(21)
            self.check(self.chain_of(at))
            return self.signature(name)
        if len(name) > LONGEST_NAME[self.version]:
            raise Refused(33)
        free = [level for level, at in enumerate(self.current) if at and at.is_free()]
        if not free:
            raise Refused(22)
        deepest = free[-1]
        self.fit(len(self.pairs) - deepest)
        self.check(self.chain_of(self.current[deepest]))
        for level in range(deepest + 1, len(self.pairs)):
            self.extend(level, tape)
        bottom = self.current[-1]
        randomizer = bytes(32) if self.scheme == XMSS else tape.draw(32)
        if message is None:
            raise Refused(27)
        self.add_bound(name, bottom.next, randomizer, bottom.tree.digest(bottom.next, randomizer, message))
        return self.signature(name)

    def add_bound(self, name, leaf, randomizer, digest):
        bottom = self.current[-1]
        self.bodies.append(bound_body(name, leaf, randomizer, digest, self.version))
        self.bound[name] = bottom, leaf, randomizer, digest
        bottom.next = leaf + 1

    def retire(self, upto):
        if self.has_moved:
            raise Refused(31)
        bottom = self.current[-1]
        if upto > (bottom.tree.leaf_count() if bottom else 0):
            raise Refused(32)
        if bottom and upto > bottom.next:
            self.fit(1)
            self.bodies.append(retire_body(upto))
            bottom.next = upto

    def move(self):
        """Adds a Moved, if the version has one, and says whether it did."""
        if self.version != 1:
            return False
        self.bodies.append(moved_body())
        self.has_moved = True
        return True


# ---- migrations from a file of version 1 to one of version 2


def written_over(content, data):
    """A file whose first bytes are written over. The bytes behind them stay."""
    return data + content[len(data):]


def carried(record):
    """A record of version 1 as a file of version 2 has it."""
    if record[0] == 1:
        return record[:9] + u16(2) + record[11:]
    return bound_body(*bound_fields(record, 1), 2) if record[0] == 3 else record


def behind(content):
    """The slot of the last record of a state file, if bytes follow what an append can leave; None if not."""
    count = len(records_of(content))
    return count - 1 if len(content) > 256 * (count + 1) + 1 else None


def listing_of(content):
    """The lines of a listing of a state file."""
    slot = behind(content)
    return Signer.of(records_of(content)).listing() + ([f"behind {slot}"] if slot is not None else [])


def warning(path, content):
    """What standard error says of the state file at this path as it is opened: nothing, or that bytes follow its last
    record."""
    try:
        slot = behind(content)
    except Refused:
        return ""
    if slot is None:
        return ""
    return (f"hbsign: {path}: bytes stand behind the last record (slot {slot}): the file seems cut short or damaged; "
            "don't sign, compare it with an anchor\n")


def sealed(old):
    """An old file that signs no more: its records, and a Moved as the last."""
    key = Signer.of(records_of(old))
    if key.has_moved:
        return old
    key.move()
    return written_over(old, key.content())


def filled(old, new):
    """A new file in the end: the old records without the Moved, and the bytes that were behind their place."""
    return written_over(new, state_file([carried(record) for record in records_of(old) if record[0] != 5]))


def migrated(old, new):
    """The old and the new file after a migration, and the number of the new one's records."""
    if Signer.of(records_of(old)).version != 1:
        raise Refused(42)
    if len(new) >= 257 and new[0] == 0xA5:
        raise Refused(50)
    made = filled(old, new)
    return sealed(old), made, len(records_of(made))


# ---- the frames of `serve`


def frame(name, message):
    return u8(len(name)) + name + u32(len(message)) + message


def is_name(name):
    return 1 <= len(name) <= max(LONGEST_NAME.values()) and all(0x21 <= byte <= 0x7E for byte in name)


def reply(number, content=b""):
    return u8(number) + u32(len(content)) + content


def answer(signer, tape, name, message):
    """The reply to a request, and its number. The message is None if the input ends inside it."""
    if not is_name(name):
        return reply(34), 34
    try:
        return reply(0, signer.sign(name, message, tape)), 0
    except Refused as refused:
        return reply(refused.number, b"" if refused.slot is None else u32(refused.slot)), refused.number


def served(signer, tape, given):
    """The output of `serve` for an input, and the number of the refusal at its end, or 0."""
    written, at = b"", 0
    while at < len(given):
        size = given[at]
        if len(given) < at + 1 + size + 4:
            return written + reply(35), 35
        name = given[at + 1:at + 1 + size]
        at += 1 + size + 4
        length = int.from_bytes(given[at - 4:at], "big")
        is_whole = at + length <= len(given)
        # a refusal before the message is read comes first; the message is then skipped
        written += answer(signer, tape, name, given[at:at + length] if is_whole else None)[0]
        if not is_whole:
            return written, 27
        at += length
    return written, 0


# ---- verification: the line for a public key, a message and a signature


class Invalid(Exception):
    """The line of a refusal."""


class Fields:
    """Reads bytes field by field, from a place on."""
    def __init__(self, data, at=0):
        self.data, self.at = data, at

    def take(self, size):
        if self.at + size > len(self.data):
            raise Invalid(f"refused 1 Truncated at {self.at}")
        self.at += size
        return self.data[self.at - size:self.at]

    def number(self):
        return int.from_bytes(self.take(4), "big")

    def values(self, count):
        return [self.take(32) for _ in range(count)]

    def code(self, known):
        code = self.number()
        if code not in known:
            raise Invalid(f"refused 2 UnknownType at {self.at - 4}")
        return code

    def end(self):
        if self.at != len(self.data):
            raise Invalid(f"refused 5 Trailing at {self.at}")


class LmsKey:
    def __init__(self, fields):
        start = fields.at
        self.pair = fields.code(HEIGHTS), fields.code(WIDTHS)
        self.identifier, self.root = fields.take(16), fields.take(32)
        self.bytes = fields.data[start:fields.at]


class LmsSignature:
    def __init__(self, fields):
        start = fields.at
        self.leaf = fields.number()
        ots = fields.code(WIDTHS)
        self.randomizer = fields.take(32)
        self.values = fields.values(WIDTHS[ots][1])
        self.pair = fields.code(HEIGHTS), ots
        if self.leaf >= 2**HEIGHTS[self.pair[0]]:
            raise Invalid(f"refused 4 LeafOutOfRange at {start}")
        self.path = fields.values(HEIGHTS[self.pair[0]])

    def judge(self, key, message, level):
        if self.pair != key.pair:
            raise Invalid(f"refused 10 TypeMismatch level {level}")
        tree = LmsTree(key.pair, key.identifier, b"")
        digest = tree.digest(self.leaf, self.randomizer, message)
        prefix = key.identifier + u32(self.leaf)
        digits, last = digits_of(tree.values, digest), 2**tree.values[0] - 1
        ends = [tree.climbed(prefix, i, digits[i], last, value) for i, value in enumerate(self.values)]
        public_hash = sha256(prefix, b"\x80\x80", *ends)
        number = 2**tree.height + self.leaf
        node = sha256(key.identifier, u32(number), b"\x82\x82", public_hash)
        for sibling in self.path:
            pair = (sibling, node) if number % 2 else (node, sibling)
            number //= 2
            node = sha256(key.identifier, u32(number), b"\x83\x83", *pair)
        if node != key.root:
            raise Invalid(f"refused 12 RootMismatch level {level}")


def judge_lms(public, message, signature):
    key = LmsKey(Fields(public))
    fields = Fields(signature)
    given = LmsSignature(fields)
    fields.end()
    given.judge(key, message, 0)


def judge_hss(public, message, signature):
    fields = Fields(public)
    levels = fields.number()
    if not 1 <= levels <= 8:
        raise Invalid("refused 3 LevelCount at 0")
    key = LmsKey(fields)
    fields = Fields(signature)
    above = fields.number()
    if above > 7:
        raise Invalid("refused 3 LevelCount at 0")
    signed = []
    for _ in range(above):
        given = LmsSignature(fields)
        signed.append((given, LmsKey(fields)))
    bottom = LmsSignature(fields)
    fields.end()
    if above + 1 != levels:
        raise Invalid("refused 11 LevelMismatch")
    for level, (given, lower) in enumerate(signed):
        given.judge(key, lower.bytes, level)
        key = lower
    bottom.judge(key, message, above)


def judge_xmss(public, message, signature):
    fields = Fields(public)
    code = fields.code(XMSS_HEIGHTS)
    root, seed = fields.take(32), fields.take(32)
    tree = XmssTree(code, b"", b"", seed)
    fields = Fields(signature)
    leaf = fields.number()
    if leaf >= 2**tree.height:
        raise Invalid("refused 4 LeafOutOfRange at 0")
    randomizer, values, path = fields.take(32), fields.values(67), fields.values(tree.height)
    fields.end()
    digest = sha256((2).to_bytes(32, "big"), randomizer, root, leaf.to_bytes(32, "big"), message)
    ends = [tree.climbed(leaf, i, digit, 15, value) for i, (digit,
                                                            value) in enumerate(zip(xmss_digits(digest), values))]
    node, index = tree.l_tree(leaf, ends), leaf
    for height, sibling in enumerate(path):
        pair = (sibling, node) if index % 2 else (node, sibling)
        index //= 2
        node = tree.join(2, 0, height, index, *pair)
    if node != root:
        raise Invalid("refused 12 RootMismatch level 0")


def verdict(public, message, signature):
    judges = {56: judge_lms, 60: judge_hss, 68: judge_xmss}
    if len(public) not in judges:
        return f"refused 6 KeyLength of {len(public)}"
    try:
        judges[len(public)](public, message, signature)
    except Invalid as refused:
        return str(refused)
    return "verified"


# ---- what `list` says of public keys and signatures


def types_text(pair):
    return f"H{HEIGHTS[pair[0]]}/W{WIDTHS[pair[1]][0]}"


def read_public(public):
    """The scheme of a public key, its number of levels, its types (of HSS the top tree's), and its lines."""
    if len(public) not in (56, 60, 68):
        raise Invalid(f"refused 6 KeyLength of {len(public)}")
    fields = Fields(public)
    if len(public) == 68:
        code, root, seed = fields.code(XMSS_HEIGHTS), fields.take(32), fields.take(32)
        return XMSS, 1, code, [f"public xmss:{XMSS_HEIGHTS[code]}", f"root {root.hex()}", f"seed {seed.hex()}"]
    levels = fields.number() if len(public) == 60 else 1
    if not 1 <= levels <= 8:
        raise Invalid("refused 3 LevelCount at 0")
    key = LmsKey(fields)
    lines = [f"identifier {key.identifier.hex()}", f"root {key.root.hex()}"]
    if len(public) == 56:
        return LMS, 1, key.pair, [f"public lms:{types_text(key.pair)}", *lines]
    return HSS, levels, key.pair, ["public hss", f"levels {levels}", f"top lms:{types_text(key.pair)}", *lines]


def read_signature(scheme, code, signature):
    """The number of levels of a signature of a scheme (and of XMSS of a type), its types, and its lines."""
    fields = Fields(signature)
    if scheme == XMSS:
        leaf = fields.number()
        if leaf >= 2**XMSS_HEIGHTS[code]:
            raise Invalid("refused 4 LeafOutOfRange at 0")
        fields.values(1 + 67 + XMSS_HEIGHTS[code])
        fields.end()
        return 1, code, [f"signature xmss:{XMSS_HEIGHTS[code]}", f"index {leaf}"]
    above = fields.number() if scheme == HSS else 0
    if above > 7:
        raise Invalid("refused 3 LevelCount at 0")
    given, keys = [], [""]
    for _ in range(above):
        given.append(LmsSignature(fields))
        keys.append(f" identifier {LmsKey(fields).identifier.hex()}")
    given.append(LmsSignature(fields))
    fields.end()
    if scheme == LMS:
        return 1, given[0].pair, [f"signature lms:{types_text(given[0].pair)}", f"index {given[0].leaf}"]
    lines = [f"level {level} types {types_text(one.pair)} index {one.leaf}{key}"
             for level, (one, key) in enumerate(zip(given, keys))]
    return above + 1, given[0].pair, ["signature hss", *lines]


def signature_lines(signature):
    """The lines of a signature of any scheme; none for other bytes."""
    for scheme, code in ((LMS, None), (HSS, None), *((XMSS, code) for code in XMSS_HEIGHTS)):
        try:
            return read_signature(scheme, code, signature)[2]
        except Invalid:
            pass
    return []


def description(content):
    """What `list` says of a file that has no key."""
    try:
        return read_public(content)[3]
    except Invalid:
        return signature_lines(content) or ["refused 40 NoKey"]


def comparison(signature, public):
    """What `list` says of a signature beside a public key."""
    try:
        scheme, levels, types, _ = read_public(public)
    except Invalid as refused:
        return [str(refused)]
    lines = signature_lines(signature)
    try:
        could_be = read_signature(scheme, types, signature)[:2] == (levels, types)
    except Invalid as refused:
        if not lines:
            return [str(refused)]
        could_be = False
    return [*lines, f"could be of this key {'yes' if could_be else 'no'}"]
