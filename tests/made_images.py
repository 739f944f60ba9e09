"""Images of both versions that chance makes, with every text and node known as plain bytes: ropes of all kinds of nodes, commands of all kinds,
and rows of all kinds. `made(chance)` makes one."""

import struct

from second_checker import verify
from cordkit_verify import BACK, BALANCE, CUT, DELETE, FILL_IN, INSERT, JOIN, MANY, NEW, OPEN, PASTE, REPLACE
from cordkit_verify import BYTES, CONCATENATION, CYCLE, FILL, FUNCTION, LEAF, LITERAL, NIL, RAMP, SHARED, SOURCE_PART, SUBSTRING
from cordkit_verify import DEEPEST, LONGEST_BYTES_ROW, MOST_SPLICES_OF_MANY

# What the images of a shape have most of: anything; nodes at the greatest depth and one below it; functions; cycles of one byte; nodes of no
# revision; many replacements; as many replacements as there may be.
SHAPES = {"any": 40, "deep": 20, "functions": 12, "cycles": 8, "no revision": 4, "replacements": 14, "most replacements": 1}
LONGEST = 5000


class Image:
    """An image in the making: each node with its text and depth."""

    def __init__(self, chance):
        self.chance = chance
        self.shape = chance.choices(list(SHAPES), SHAPES.values())[0]
        self.version = 2 if "replacements" in self.shape else chance.choice([1, 2])
        self.deepest = DEEPEST + (self.shape == "deep" and chance.random() < 0.2)
        self.sources = [self.random_text() for _ in range(chance.randrange(4))]
        self.pool = bytearray()
        self.nodes, self.records = [], []
        self.texts, self.roots, self.revisions, self.splices, self.rows = [], [], [], [], []

    def random_text(self):
        chance = self.chance
        size = chance.randrange(chance.choice([3, 20, 60, 400]))
        if chance.random() < (0.8 if self.shape in ("functions", "cycles") else 0.1):
            return self.function_text(size)
        alphabet = chance.choice([b"a", b"ab", b"abc\n", bytes(range(256))])
        return bytes(chance.choice(alphabet) for _ in range(size))

    def function_text(self, size):
        """What a function gives."""
        first = self.chance.randrange(256)
        if self.shape == "cycles" or self.chance.random() < 0.4:
            return bytes([first]) * size
        if self.chance.random() < 0.5:
            return bytes((first + k) % 256 for k in range(size))
        pattern = bytes(self.chance.randrange(256) for _ in range(self.chance.randrange(1, 17)))
        return (pattern * (size // len(pattern) + 1))[:size]

    # -- nodes

    def node(self, node, text, depth, fields):
        self.nodes.append((node, text, depth))
        self.records.append(fields)
        return len(self.nodes) - 1

    def pooled(self, text):
        """Where the pool has the bytes."""
        found = self.pool.find(text)
        if found >= 0 and self.chance.random() < 0.5:
            return found
        self.pool += text
        return len(self.pool) - len(text)

    def leaf(self, text):
        """A node of these bytes: one that is there, a part of one, a function, a part of a source, or a literal."""
        makers = [self.as_literal, self.as_node, self.as_part, self.as_source, self.as_function]
        self.chance.shuffle(makers)
        if self.shape in ("functions", "cycles") and self.chance.random() < 0.7:
            makers = [self.as_function, *makers]
        for maker in makers:
            made_node = maker(text)
            if made_node is not None:
                return made_node
        return self.as_literal(text)

    def as_literal(self, text):
        place = self.pooled(text)
        return self.node((LITERAL, place), text, 0, record(LITERAL, 0, 0, 0, 0, len(text), struct.pack(">QQ", place, 0)))

    def as_node(self, text):
        same = [k for k, node in enumerate(self.nodes) if node[1] == text]
        return self.chance.choice(same) if same else None

    def as_part(self, text):
        longer = [k for k, node in enumerate(self.nodes) if text in node[1] and node[2] < self.deepest]
        return self.part(self.chance.choice(longer), text) if longer else None

    def part(self, base, text):
        """A substring of a node of these bytes, which it has."""
        place, depth = self.nodes[base][1].find(text), self.nodes[base][2] + 1
        payload = struct.pack(">QQ", place, 0)
        return self.node((SUBSTRING, base, place), text, depth, record(SUBSTRING, depth, 0, 0, base, len(text), payload))

    def as_source(self, text):
        holding = [s for s, source in enumerate(self.sources) if text in source]
        if not holding:
            return None
        s = self.chance.choice(holding)
        place = self.sources[s].find(text)
        payload = struct.pack(">QQ", place, 0)
        return self.node((SOURCE_PART, s, place), text, 0, record(SOURCE_PART, 0, 0, 0, s, len(text), payload))

    def as_function(self, text):
        c = text[0]
        if text == bytes([c]) * len(text):
            if self.shape == "cycles" or self.chance.random() < 0.1:
                return self.function((CYCLE, bytes([c])), text, bytes([c]), 1)
            return self.function((FILL, c), text, bytes([c]), 0)
        if text == bytes((c + k) % 256 for k in range(len(text))):
            return self.function((RAMP, c), text, bytes([c]), 0)
        for size in range(2, min(16, len(text)) + 1):
            pattern = text[:size]
            if text == (pattern * (len(text) // size + 1))[: len(text)]:
                return self.function((CYCLE, pattern), text, pattern, size)
        return None

    def function(self, meaning, text, payload, size):
        fields = record(FUNCTION, 0, meaning[0], size, 0, len(text), payload.ljust(16, b"\0"))
        return self.node((FUNCTION, *meaning), text, 0, fields)

    def tree(self, text):
        """A rope of the bytes, in pieces and shapes that chance picks."""
        if not text:
            return NIL
        if self.shape == "deep" and self.chance.random() < 0.3:
            return self.chain(text) if self.chance.random() < 0.5 else self.parts_of_parts(text)
        if len(text) == 1 or self.chance.random() < 0.4:
            return self.leaf(text)
        middle = self.chance.randrange(1, len(text))
        return self.joined(self.tree(text[:middle]), self.tree(text[middle:]))

    def joined(self, left, right):
        text, depth = self.nodes[left][1] + self.nodes[right][1], 1 + max(self.nodes[left][2], self.nodes[right][2])
        if depth > self.deepest:
            return self.as_literal(text)
        payload = struct.pack(">L12x", right)
        return self.node((CONCATENATION, left, right), text, depth, record(CONCATENATION, depth, 0, 0, left, len(text), payload))

    def chain(self, text):
        """A rope of the bytes that grows at one end piece by piece, down to the greatest depth where there are so many."""
        count = min(self.deepest, len(text) - 1)
        ends = sorted(self.chance.sample(range(1, len(text)), count))
        pieces = [text[start:end] for start, end in zip([0, *ends], [*ends, len(text)])]
        if self.chance.random() < 0.5:
            root = self.as_literal(pieces[0])
            for piece in pieces[1:]:
                root = self.joined(root, self.as_literal(piece))
            return root
        root = self.as_literal(pieces[-1])
        for piece in reversed(pieces[:-1]):
            root = self.joined(self.as_literal(piece), root)
        return root

    def parts_of_parts(self, text):
        """The bytes as a substring of a substring and so on, each a byte shorter or as long."""
        cuts = [self.chance.randrange(3) for _ in range(self.chance.choice([self.deepest, self.chance.randrange(1, 60)]))]
        before, behind = b"<" * cuts.count(1), b">" * cuts.count(2)
        whole = before + text + behind
        root = self.as_literal(whole)
        for cut in cuts:
            whole = whole[1:] if cut == 1 else whole[:-1] if cut == 2 else whole
            root = self.part(root, whole)
        return root

    def length(self, k):
        return len(self.nodes[k][1])

    def too_deep(self):
        """The first node below the greatest depth, if any."""
        return next((k for k, (_, _, depth) in enumerate(self.nodes) if depth > DEEPEST), None)

    # -- rows

    def leaf_span(self, k, place):
        """How the leaf's bytes at a place of a node are described, and how many of them follow there."""
        node, text, _ = self.nodes[k]
        if node[0] == CONCATENATION:
            left = self.length(node[1])
            return self.leaf_span(node[1], place) if place < left else self.leaf_span(node[2], place - left)
        if node[0] == SUBSTRING:
            description, count = self.leaf_span(node[1], node[2] + place)
            return description, min(count, len(text) - place)
        if node[0] == LITERAL:
            return ("pool", node[1] + place), len(text) - place
        if node[0] == SOURCE_PART:
            return ("source", node[1], node[2] + place), len(text) - place
        if node[1] == FILL:
            return ("fill", node[2]), len(text) - place
        if node[1] == RAMP:
            return ("ramp", (node[2] + place) % 256), len(text) - place
        return ("cycle", node[2], place % len(node[2])), len(text) - place

    def ways(self, k, place, count):
        """Each node and offset that a span leads to."""
        node = self.nodes[k][0]
        yield k, place
        if node[0] == SUBSTRING:
            yield from self.ways(node[1], node[2] + place, count)
        elif node[0] == CONCATENATION:
            left = self.length(node[1])
            if place + count <= left:
                yield from self.ways(node[1], place, count)
            elif place >= left:
                yield from self.ways(node[2], place - left, count)

    def described(self, part, place):
        kind, number, start, _ = part
        if kind == "old":
            return self.leaf_span(self.roots[number], start + place)
        if kind == "pool":
            return ("pool", start + place), part[3] - place
        if kind == "source":
            return ("source", number, start + place), part[3] - place
        return ("fill", number), part[3] - place

    def row(self, part, place, root, at, left):
        """A row over bytes of a part from a place on, which stand in the root too."""
        old, old_count = self.described(part, place)
        new, new_count = self.leaf_span(root, at)
        count = self.chance.randrange(1, left + 1)
        if part[0] == "old" and self.chance.random() < 0.7:
            there = set(self.ways(self.roots[part[1]], part[2] + place, count))
            shared = [way for way in self.ways(root, at, count) if way in there]
            if shared:
                node, offset = self.chance.choice(shared)
                return count, struct.pack(">B3xLQQ", SHARED, node, count, offset)
        if old == new and self.chance.random() < 0.8:
            count = min(old_count, new_count, left)
            return count, struct.pack(">B7xQQ", LEAF, count, 0)
        count = min(count, LONGEST_BYTES_ROW)
        return count, struct.pack(">B7xQQ", BYTES, count, 0)

    def cover(self, parts, root):
        rows, at = [], 0
        for part in parts:
            size = len(self.sources[part[1]]) if part[3] is None else part[3]
            part, place = (*part[:3], size), 0
            while place < size:
                count, spelled = self.row(part, place, root, at, size - place)
                rows.append(spelled)
                place, at = place + count, at + count
        return rows

    # -- commands

    def replacements(self, size):
        """Some replacements in a text of this size, each behind the one before it."""
        if self.shape == "most replacements" and size >= MOST_SPLICES_OF_MANY:
            return [(p, 1, 0, 0) for p in sorted(self.chance.sample(range(size), MOST_SPLICES_OF_MANY))]
        found, start = [], 0
        for _ in range(self.chance.randrange(1, 60 if self.shape == "replacements" else 6)):
            if start > size:
                break
            p = self.chance.randrange(start, min(size, start + 40) + 1)
            m = self.chance.randrange(min(size - p, 9) + 1)
            added = self.random_text()[: self.chance.randrange(30)] or (b"" if m else b"x")
            found.append((p, m, self.pooled(added) if added else 0, len(added)))
            start = p + max(m, 1)
        return found

    def command(self):
        """A command in range at random, its fields, and its splices."""
        kind = self.chance.randrange(NEW, MANY + self.version - 1)
        if self.shape == "replacements" and self.chance.random() < 0.4:
            kind = MANY
        if kind == MANY and self.texts:
            return self.many(self.chance.randrange(len(self.texts)))
        return *self.simple_command(kind), []

    def many(self, r):
        splices = self.replacements(len(self.texts[r]))
        return MANY, (r, len(splices), 0, 0, 0, 0), splices

    def simple_command(self, kind):
        """A command in range of a kind, or New where nothing is there for it."""
        chance = self.chance
        if kind == OPEN and self.sources:
            return OPEN, (0, chance.randrange(len(self.sources)), 0, 0, 0, 0)
        if kind in (NEW, OPEN) or not self.texts:
            return NEW, (0, 0, 0, 0, 0, 0)
        r, q = chance.randrange(len(self.texts)), chance.randrange(len(self.texts))
        size = len(self.texts[r])
        p = chance.randrange(size + 1)
        n = chance.randrange(size - p + 1)
        if kind in (INSERT, REPLACE):
            added = self.random_text() or b"x"
            return kind, (r, 0, p, n if kind == REPLACE else 0, self.pooled(added), len(added))
        if kind == DELETE:
            return kind, (r, 0, p, 0, 0, n)
        if kind == PASTE:
            start = chance.randrange(len(self.texts[q]) + 1)
            return kind, (r, q, p, 0, start, chance.randrange(len(self.texts[q]) - start + 1))
        if kind == JOIN:
            return kind, (r, q, 0, 0, 0, 0)
        if kind == CUT:
            return kind, (r, 0, 0, 0, p, n)
        if kind == FILL_IN:
            return kind, (r, 0, p, 0, chance.randrange(256), chance.randrange(40))
        return kind, (r, 0, 0, 0, 0, 0)

    def revise(self):
        self.record(*self.command())

    def record(self, kind, fields, splices):
        """Another revision, by this command, where its text is short."""
        spelled = [verify.Splice(*splice) for splice in splices]
        revision = verify.Revision(kind, 0, NIL, *fields, 0, tuple(spelled))
        text = verify.text_of(revision, dict(enumerate(self.texts)), bytes(self.pool), self.sources)
        if len(text) > LONGEST:
            return
        root = self.roots[fields[0]] if kind == BACK and self.chance.random() < 0.8 else self.tree(text)
        rows = self.cover(parts_of(kind, fields, splices, self.texts), root)
        mark = root != NIL and verify.is_balanced(len(text), self.nodes[root][2]) and self.chance.random() < 0.7
        r, q, p, m, a, n = fields
        self.revisions.append(struct.pack(">BB2xLLLQQQQL4x", kind, mark, root, r, q, p, m, a, n, len(rows)))
        self.splices += [struct.pack(">QQQQ", *splice) for splice in splices]
        self.rows += rows
        self.texts.append(text)
        self.roots.append(root)

    def sections(self):
        counts = (len(self.sources), len(self.records), len(self.revisions), len(self.rows))
        header = b"CORDSESS" + struct.pack(">LLLLLLQ", self.version, *counts, len(self.splices), len(self.pool))
        lengths = [struct.pack(">Q", len(source)) for source in self.sources]
        return [[header], lengths, self.records, self.revisions, self.splices, self.rows, [bytes(self.pool)]]


def parts_of(command, fields, splices, texts):
    """The pieces of a command's text, in order: an earlier text's by its number, the pool's, a source's, a fill."""
    r, q, p, m, a, n = fields
    whole = len(texts[r]) if texts else 0
    pieces = {
        NEW: lambda: [],
        OPEN: lambda: [("source", q, 0, None)],
        INSERT: lambda: [("old", r, 0, p), ("pool", 0, a, n), ("old", r, p, whole - p)],
        DELETE: lambda: [("old", r, 0, p), ("old", r, p + n, whole - p - n)],
        REPLACE: lambda: [("old", r, 0, p), ("pool", 0, a, n), ("old", r, p + m, whole - p - m)],
        PASTE: lambda: [("old", r, 0, p), ("old", q, a, n), ("old", r, p, whole - p)],
        JOIN: lambda: [("old", r, 0, whole), ("old", q, 0, len(texts[q]))],
        CUT: lambda: [("old", r, a, n)],
        FILL_IN: lambda: [("old", r, 0, p), ("fill", a, 0, n), ("old", r, p, whole - p)],
        BACK: lambda: [("old", r, 0, whole)],
        BALANCE: lambda: [("old", r, 0, whole)],
        MANY: lambda: parts_of_many(r, splices, whole),
    }
    return pieces[command]()


def parts_of_many(r, splices, whole):
    """What stands before each replacement and its bytes, and at the end the rest."""
    pieces, end = [], 0
    for p, m, a, n in splices:
        pieces += [("old", r, end, p - end), ("pool", 0, a, n)]
        end = p + m
    return [*pieces, ("old", r, end, whole - end)]


def record(kind, depth, function, size, x, length, payload):
    return struct.pack(">BBBBLQ", kind, depth, function, size, x, length) + payload


def made(chance):
    image = Image(chance)
    if image.shape == "no revision":
        for _ in range(chance.randrange(6)):
            image.tree(image.random_text())
        return image
    if image.shape == "most replacements":
        added = bytes(chance.randrange(256) for _ in range(MOST_SPLICES_OF_MANY + chance.randrange(3)))
        image.record(NEW, (0, 0, 0, 0, 0, 0), [])
        image.record(INSERT, (0, 0, 0, 0, image.pooled(added), len(added)), [])
        image.record(*image.many(1))
        return image
    for _ in range(chance.randrange(1, 9)):
        image.revise()
    return image
