"""Random frames for terms_compare.py, and the damage that the other generators do too.

random_frames(how_many, seed) gives the same frames for the same seed.
"""

import random

from terms_reference import Reader, number_bytes

LEAVES = (2, 3, 4, 5, 12, 13, 14, 15, 16, 17, 19)
WITH_ONE = (0, 5, 6, 7, 8, 9, 11, 12, 13, 14, 15, 18)
WITH_TWO = (5, 6, 10, 12, 13, 14, 15, 18)
WITH_MORE = (5, 6, 12, 13, 14, 15, 18)


class Maker:
    """Writes one frame with a formed term, nominal or number.

    marks are the places of its fields: (what, start, end, detail), and
    deepest is where the deepest term of a chain starts.
    """

    def __init__(self, rng, big_numbers=True):
        self.rng = rng
        self.out = bytearray()
        self.marks = []
        self.issued = 0
        self.big_numbers = big_numbers
        self.deepest = None

    # Bytes, numbers

    def put(self, what, data, detail=None):
        self.marks.append((what, len(self.out), len(self.out) + len(data), detail))
        self.out += data

    def any_number(self):
        rng = self.rng
        pick = rng.random()
        if pick < 0.6 or not self.big_numbers:
            return rng.randrange(8)
        if pick < 0.8:
            return rng.randrange(300)
        if pick < 0.95:
            edge = 128 ** rng.randrange(1, 5)
            return max(0, min(Reader.MOST, edge + rng.randrange(-2, 3)))
        return Reader.MOST - rng.choice((0, 0, 1, rng.randrange(1 << 20)))

    def number(self):
        self.put("number", number_bytes(self.any_number()))

    def count(self, value):
        self.put("count", number_bytes(value), value)

    def code(self, limit):
        self.put("code", bytes([self.rng.randrange(limit)]), limit)

    # Terms. A child is a function that writes it.

    def leaf(self):
        rng = self.rng
        if self.issued and rng.random() < 0.25:
            self.put("tag", b"\x01")
            top = self.issued - 1
            self.put("id", number_bytes(rng.choice((0, top, rng.randint(0, top), rng.randint(0, min(top, 5))))))
            return
        self.node_of(rng.choice(LEAVES), [])

    def node(self, children):
        kinds = (LEAVES, WITH_ONE, WITH_TWO)[len(children)] if len(children) < 3 else WITH_MORE
        self.node_of(self.rng.choice(kinds), children)

    def node_of(self, tag, children):
        self.put("tag", bytes([tag]))
        if tag in (0, 10, 11):
            self.code(2)
        elif tag == 4:
            self.code(32)
        elif tag == 8:
            self.code(4)
        elif tag == 5:
            self.count(len(children))
        elif tag == 6:
            self.count(len(children) - 1)
        elif tag in (16, 19):
            self.number()
        elif tag == 17:
            self.number()
            self.number()
        if 12 <= tag <= 15:
            self.nominal(children)
        elif tag == 18:
            children[0]()
            split = self.rng.randint(1, len(children))
            self.nominal(children[1:split])
            self.number()
            self.count(len(children) - split)
            for child in children[split:]:
                child()
        else:
            for child in children:
                child()

    def nominal(self, children):
        self.number()
        split = self.rng.randint(0, len(children))
        self.count(split)
        for child in children[:split]:
            child()
        members = len(children) - split
        self.count(members)
        member = -1
        for index, child in enumerate(children[split:]):
            left = members - 1 - index
            step = 1 if self.rng.random() < 0.6 else 1 + self.any_number()
            # Room stays for the members that follow.
            last, member = member, min(member + step, Reader.MOST - left)
            self.put("member", number_bytes(member), last)
            child()

    def children(self, nodes, levels):
        """Children with so many nodes in all, of at most so many levels."""
        rng = self.rng
        if nodes == 0:
            return []
        if levels == 1:
            how_many = nodes
        else:
            pick = rng.random()
            how_many = 1 if pick < 0.35 else 2 if pick < 0.6 else rng.randint(1, 6) if pick < 0.9 else rng.randint(1, nodes)
            how_many = min(how_many, nodes)
        if rng.random() < 0.3:
            # Nearly everything goes to one child.
            sizes = [1] * how_many
            sizes[rng.randrange(how_many)] += nodes - how_many
        else:
            cuts = sorted(rng.sample(range(1, nodes), how_many - 1))
            sizes = [b - a for a, b in zip([0] + cuts, cuts + [nodes])]
        return [lambda size=size: self.term(size, levels) for size in sizes]

    def term(self, nodes, levels):
        """A term of exactly so many nodes and at most so many levels."""
        if nodes == 1:
            self.leaf()
        else:
            self.node(self.children(nodes - 1, levels - 1))

    def chain(self, levels):
        """A term of exactly so many levels."""
        rng = self.rng
        if levels == 1:
            self.deepest = len(self.out)
            self.leaf()
            return
        children = [self.leaf] * rng.choice((0, 0, 0, 1, 1, 2))
        children.insert(rng.randint(0, len(children)), lambda: self.chain(levels - 1))
        self.node(children)

    # Frames

    def shape(self):
        """How the term is made: ("nodes", n) or ("levels", n)."""
        rng = self.rng
        pick = rng.random()
        if pick < 0.62:
            return "nodes", rng.randint(1, 7)
        if pick < 0.90:
            return "nodes", rng.randint(5, 40)
        if pick < 0.94:
            return "nodes", rng.randint(40, 250 if rng.random() < 0.95 else 1900)
        if pick < 0.95:
            return "levels", rng.randint(30, 190)
        if pick < 0.984:
            return "levels", rng.randint(199, 202)
        return "nodes", rng.choice((2047, 2048, 2049, 2049, 2050, rng.randint(1900, 2200)))

    def head(self, kind):
        rng = self.rng
        self.put("kind", bytes([kind]))
        self.issued = rng.choice((0, 1, 1, 3, 3, 10, 128, 300, Reader.MOST))
        self.put("issued", number_bytes(self.issued))

    def term_frame(self):
        self.head(0)
        how, size = self.shape()
        if how == "levels":
            self.chain(size)
        else:
            self.term(size, 200)

    def nominal_frame(self):
        self.head(1)
        how, size = self.shape()
        if how == "levels":
            children = [self.leaf] * self.rng.randrange(3)
            children.insert(self.rng.randint(0, len(children)), lambda: self.chain(size))
        else:
            children = self.children(size if size > 1000 else size - 1, 200)
        self.nominal(children)

    def number_frame(self):
        self.put("kind", b"\x02")
        self.number()


# Damage

def not_shortest(rng):
    return bytes(rng.choice((0x80, 0x81, 0xff)) for _ in range(rng.randint(1, 4))) + b"\x00"


def too_large(rng):
    if rng.random() < 0.25:
        return b"\x80\x80\x80\x80\x10"  # 4294967296
    groups = bytes(rng.choice((0x80, 0xff, rng.randrange(128, 256))) for _ in range(4))
    return groups + rng.choice((b"\x10", b"\x1f", b"\x7f", b"\x80", b"\x8f\x01", b"\xff", bytes([rng.randrange(16, 256)])))


def faulty_field(mark, maker, rng):
    """Bytes to stand in the place of a field, mostly with a fault."""
    what, start, end, detail = mark
    pick = rng.random()
    if what == "tag":
        return bytes([rng.choice((20, 21, 255, rng.randrange(20, 256), rng.randrange(256)))])
    if what == "kind":
        return bytes([rng.choice((0, 1, 2, 3, rng.randrange(256)))])
    if what == "code":
        return bytes([rng.choice((detail, detail, detail + 1, 128, 255, rng.randrange(256)))])
    if what == "member" and pick < 0.7:
        return number_bytes(max(0, rng.choice((detail, detail, detail - 1, rng.randint(0, max(detail, 0))))))
    if what == "id" and pick < 0.7:
        return number_bytes(min(Reader.MOST, maker.issued + rng.choice((0, 0, 1, rng.randrange(1000)))))
    if what == "count" and pick < 0.5:
        return number_bytes(max(0, rng.choice((detail + 1, detail - 1, detail + 2, 127, 128, Reader.MOST))))
    if what == "issued" and pick < 0.5:
        return number_bytes(rng.choice((0, 1, 2, 3)))
    if rng.random() < 0.5:
        return not_shortest(rng)
    return too_large(rng)


def damaged_fields(maker, rng):
    """The frame with one or two fields replaced."""
    data = bytearray(maker.out)
    rare = [m for m in maker.marks if m[0] in ("member", "id", "code")]
    chosen = []
    for _ in range(rng.choice((1, 1, 2))):
        pick = rng.random()
        chosen.append(rng.choice(maker.marks[-8:] if pick < 0.2 else rare if rare and pick < 0.6 else maker.marks))
    # From the last to the first, so that the places before stay right.
    for mark in sorted(set(chosen), key=lambda m: m[1], reverse=True):
        data[mark[1]:mark[2]] = faulty_field(mark, maker, rng)
    return bytes(data)


def some_bytes(rng):
    """One to three bytes; half of them listed tags."""
    return bytes(rng.randrange(rng.choice((20, 256))) for _ in range(rng.randint(1, 3)))


def damaged_bytes(data, rng):
    """The frame with one change that knows nothing of fields."""
    data = bytearray(data)
    at = rng.randint(0 if rng.random() < 0.7 else max(0, len(data) - 4), len(data))
    how = rng.randrange(6)
    if how == 0:
        del data[at:]
    elif how == 1 and data:
        data[min(at, len(data) - 1)] ^= rng.choice((1, 2, 0x80, 0xff, rng.randrange(1, 256)))
    elif how == 2:
        data[at:at] = some_bytes(rng)
    elif how == 3:
        del data[at:at + rng.randint(1, 3)]
    elif how == 4 and len(data) > 3:
        a, b, c, d = sorted(rng.randrange(1, len(data) + 1) for _ in range(4))
        data[a:d] = data[c:d] + data[b:c] + data[a:b]
    else:
        data += some_bytes(rng)
    return bytes(data)


def random_frame(rng):
    pick = rng.random()
    if pick < 0.01:
        return b""
    if pick < 0.03:
        return bytes([rng.choice((3, 4, 128, 129, 130, 255, rng.randrange(3, 256)))]) + rng.randbytes(rng.randrange(6))
    if pick < 0.06:
        # Small bytes at random: most of them are tags, codes and counts.
        return bytes([rng.randrange(3)]) + bytes(rng.randrange(21) for _ in range(rng.randrange(12)))
    while True:
        maker = Maker(rng, rng.random() < 0.6)
        if pick < 0.16:
            maker.number_frame()
        elif pick < 0.60:
            maker.term_frame()
        else:
            maker.nominal_frame()
        if len(maker.out) <= 30000:
            break
    data = bytes(maker.out)
    if maker.deepest is not None and rng.random() < 0.3:
        # The deepest term is missing or has an unlisted tag.
        return data[:maker.deepest] + rng.choice((b"", b"\x14", b"\xff\x02"))
    if len(maker.marks) > 3000 and rng.random() < 0.2:
        # A big term with a byte too many or too few.
        return rng.choice((data + b"\x02", data[:-1]))
    pick = rng.random()
    if pick < 0.40:
        return data
    if pick < 0.75:
        data = damaged_fields(maker, rng)
    if pick > 0.70:
        for _ in range(rng.choice((1, 1, 1, 2, 3))):
            data = damaged_bytes(data, rng)
    return data


def random_frames(how_many, seed):
    rng = random.Random(seed)
    for _ in range(how_many):
        yield random_frame(rng)


def short_frames(most_bytes):
    """All frames of kinds 0 to 2 with up to so many bytes after the kind."""
    for kind in range(3):
        for length in range(most_bytes + 1):
            for value in range(256 ** length):
                yield bytes([kind]) + value.to_bytes(length, "big")


# What may stand after the last frame of an input. None of it is answered.
ENDS = (b"", b"", b"\x80", b"\x80\x00", b"\x80\x00\x02", b"\xff\xff\xff\xff\x0f\x02", b"\x80\x80\x80\x80\x10\x00",
        b"\x01", b"\xff\xff\xff", b"\x05\x00\x00\x02", b"\x7f\x00\x00\x02")
