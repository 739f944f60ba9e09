#!/usr/bin/env python3
"""Writes data of the benchmarks to standard output. It knows the format's tables and nothing of the product's code.

make_image.py literals [N [L]]  the image of one insertion of N literals of L bytes (500,000 of 16 where no number is given)
make_image.py session           the image of a session of 1,000,000 nodes and 100,000 revisions of all commands
make_image.py source            the text of the session's source
make_image.py dearest [BYTES]   the dearest image of at most so many bytes (100,000) by the number of docs/FORMAT.md, how many looks at nodes its check
                                may take, which goes to standard error; it is accepted, by fewer looks, since each byte lies beside the last one
"""
import struct
import sys

NIL = 0xFFFFFFFF
NEW, OPEN, INSERT, DELETE, REPLACE, PASTE, JOIN, CUT, FILL, BACK, BALANCE = range(1, 12)
LIT, SRC, FUN, CAT, SUB = range(1, 6)
FILL_BYTE, RAMP, CYCLE = range(1, 4)
SHARED, LEAF, BYTES = range(1, 4)

# ---- one insertion of many literals


def one_insertion(count, size):
    image = Image([])
    root = image.balanced([image.literal(i * size, size) for i in range(count)])
    turn = bytes(i * 7 % 251 for i in range(251))
    image.pool = (turn * (count * size // 251 + 1))[: count * size]
    image.revise(NEW, None)
    image.revise(INSERT, root, r=0, n=len(image.pool), parts=[("pool", 0, len(image.pool))])
    return image


# ---- rows that compare each byte at the greatest depth

DEEPEST, ROW_BYTES = 64, 4096


def shape(size, doublings):
    """How many rows of bytes an image of so many bytes has room for, where a text is one byte doubled so often, and how many a text takes."""
    beside = 40 + 32 * (DEEPEST + 1) + 56 + (56 + 24) + doublings * (56 + 2 * 24) + 24
    in_text = 2 ** doublings // ROW_BYTES
    whole, left = divmod(max(size - beside, 0), 56 + 24 * in_text)
    return whole * in_text + max(left - 56, 0) // 24, in_text


def dearest(size):
    image = Image([])
    doublings = max(range(12, 39), key=lambda d: shape(size, d)[0])
    left, in_text = shape(size, doublings)
    root = image.function(FILL_BYTE, b"a", 1)
    image.revise(NEW, None)
    image.revise(FILL, root, r=0, a=ord("a"), n=1, parts=[("fill", ord("a"), 1)])
    for k in range(1, doublings + 1):
        half, n = root, image.length[root]
        root = image.cat(half, half)
        while k == doublings and image.depth[root] < DEEPEST:
            root = image.sub(root, 0, 2 * n)
        image.revise(JOIN, root, r=k, q=k, parts=[("old", half, 0, n)] * 2)
    while left > 0:
        image.revise(BACK, root, r=doublings + 1, rows=image.compare(root, min(left, in_text)))
        left -= in_text
    return image


# ---- the format


class Image:
    """The records of an image, and the ropes and rows that are made for it."""

    def __init__(self, sources):
        self.sources = sources
        self.kind, self.depth, self.length, self.fields = [], [], [], []
        self.nodes, self.revisions, self.rows = bytearray(), bytearray(), bytearray()
        self.pool = bytearray()
        self.roots = []

    # -- nodes: each answers its number

    def node(self, kind, depth, n, x, payload, fields, code=0, pattern=0):
        self.kind.append(kind)
        self.depth.append(depth)
        self.length.append(n)
        self.fields.append(fields)
        self.nodes += struct.pack(">BBBBIQ16s", kind, depth, code, pattern, x, n, payload)
        return len(self.kind) - 1

    def literal(self, place, n):
        return self.node(LIT, 0, n, 0, struct.pack(">Q", place), (place,))

    def source(self, s, place, n):
        return self.node(SRC, 0, n, s, struct.pack(">Q", place), (s, place))

    def function(self, code, pattern, n):
        return self.node(FUN, 0, n, 0, pattern, (code, pattern), code, len(pattern) if code == CYCLE else 0)

    def cat(self, l, r):
        depth = 1 + max(self.depth[l], self.depth[r])
        return self.node(CAT, depth, self.length[l] + self.length[r], l, struct.pack(">I", r), (l, r))

    def sub(self, base, i, n):
        return self.node(SUB, 1 + self.depth[base], n, base, struct.pack(">Q", i), (base, i))

    # -- ropes: a node's number, or None for nil

    def joined(self, l, r):
        """Both, one behind the other. A child of the deeper one is joined where that keeps it flat."""
        if l is None or r is None:
            return r if l is None else l
        if self.depth[l] > self.depth[r] + 1 and self.kind[l] == CAT:
            a, b = self.fields[l]
            if self.depth[b] <= self.depth[a] + 1:
                return self.cat(a, self.joined(b, r))
        if self.depth[r] > self.depth[l] + 1 and self.kind[r] == CAT:
            a, b = self.fields[r]
            if self.depth[a] <= self.depth[b] + 1:
                return self.cat(self.joined(l, a), b)
        return self.cat(l, r)

    def part(self, node, i, n):
        """The n bytes from i on."""
        if n == 0:
            return None
        if n == self.length[node]:
            return node
        kind = self.kind[node]
        if kind == LIT:
            return self.literal(self.fields[node][0] + i, n)
        if kind == SRC:
            s, place = self.fields[node]
            return self.source(s, place + i, n)
        if kind == FUN:
            return self.sub(node, i, n)
        if kind == SUB:
            base, start = self.fields[node]
            return self.part(base, start + i, n)
        l, r = self.fields[node]
        left = self.length[l]
        if i + n <= left:
            return self.part(l, i, n)
        if left <= i:
            return self.part(r, i - left, n)
        return self.joined(self.part(l, i, left - i), self.part(r, 0, i + n - left))

    def balanced(self, level):
        """A tree over these ropes."""
        while len(level) > 1:
            above = [self.cat(level[i], level[i + 1]) for i in range(0, len(level) - 1, 2)]
            level = above + level[len(above) * 2:]
        return level[0] if level else None

    def pieces(self, node, i, n):
        """The leaves, and the parts of leaves, that n bytes from i on go through."""
        found, todo = [], [(node, i, n)]
        while todo:
            node, i, n = todo.pop()
            if self.kind[node] == CAT:
                l, r = self.fields[node]
                left = self.length[l]
                if i + n > left:
                    todo.append((r, max(i - left, 0), i + n - max(i, left)))
                if i < left:
                    todo.append((l, i, min(n, left - i)))
            elif self.kind[node] == SUB:
                base, start = self.fields[node]
                todo.append((base, start + i, n))
            else:
                found.append((node, i, n))
        return found

    # -- rows

    def described(self, node, i):
        """What the span of a leaf from i on is, told apart from the leaf."""
        kind, fields = self.kind[node], self.fields[node]
        if kind == LIT:
            return ("pool", fields[0] + i)
        if kind == SRC:
            return ("source", fields[0], fields[1] + i)
        code, pattern = fields
        if code == FILL_BYTE:
            return ("fill", pattern[0])
        if code == RAMP:
            return ("ramp", (pattern[0] + i) % 256)
        return ("cycle", pattern, i % len(pattern))

    def down(self, node, i, n):
        """The child or base that holds the first byte, its place there, and how many of the n bytes are in it."""
        if self.kind[node] == SUB:
            base, start = self.fields[node]
            return base, start + i, n
        l, r = self.fields[node]
        left = self.length[l]
        return (l, i, min(n, left - i)) if i < left else (r, i - left, n)

    def next_row(self, part, off, root, place, n):
        """A row for the first of the next n bytes of a part from off on, and of the root from place on."""
        y, q = root, place
        if part[0] == "old":
            x, s = part[1], part[2] + off
            while not (x == y and s == q):
                x_is_leaf, y_is_leaf = self.kind[x] <= FUN, self.kind[y] <= FUN
                if x_is_leaf and y_is_leaf:
                    break
                if y_is_leaf or (x > y and not x_is_leaf):
                    x, s, n = self.down(x, s, n)
                else:
                    y, q, n = self.down(y, q, n)
            else:
                return SHARED, x, n, s
            what = self.described(x, s)
        else:
            while self.kind[y] > FUN:
                y, q, n = self.down(y, q, n)
            what = {"pool": lambda: ("pool", part[1] + off), "source": lambda: ("source", part[1], off),
                    "fill": lambda: ("fill", part[1])}[part[0]]()
        if what == self.described(y, q):
            return LEAF, 0, n, 0
        return BYTES, 0, min(n, 4096), 0

    def cover(self, parts, root):
        """Writes the rows that cover the parts and the root, and answers how many they are."""
        count, place = 0, 0
        for part in parts:
            off = 0
            while off < part[-1]:
                tag, node, n, start = self.next_row(part, off, root, place, part[-1] - off)
                self.rows += struct.pack(">BBHIQQ", tag, 0, 0, node, n, start)
                count, place, off = count + 1, place + n, off + n
        assert place == (0 if root is None else self.length[root])
        return count

    # -- revisions

    def is_balanced(self, root):
        a, b = 1, 2
        for _ in range(self.depth[root]):
            a, b = b, a + b
        return a <= self.length[root]

    def compare(self, root, count):
        """Writes so many rows of bytes, and one for what is left, that cover a root beside itself, and answers how many they are."""
        self.rows += struct.pack(">BBHIQQ", BYTES, 0, 0, 0, ROW_BYTES, 0) * count
        place, n = count * ROW_BYTES, self.length[root]
        if place < n:
            self.rows += struct.pack(">BBHIQQ", SHARED, 0, 0, root, n - place, place)
        return count + (place < n)

    def revise(self, code, root, r=0, q=0, p=0, m=0, a=0, n=0, parts=(), rows=None):
        rows = self.cover(parts, root) if rows is None else rows
        mark = int(root is not None and self.is_balanced(root))
        number = NIL if root is None else root
        self.revisions += struct.pack(">BBHIIIQQQQII", code, mark, 0, number, r, q, p, m, a, n, rows, 0)
        self.roots.append(root)

    def row_count(self):
        return len(self.rows) // 24

    def looks(self):
        """The most looks at nodes that its check takes."""
        compared = sum(min(n, 4096) for tag, n in struct.iter_unpack(">B7xQ8x", self.rows) if tag == BYTES)
        return len(self.kind) + 2 * len(self.roots) + 132 * self.row_count() + 132 * compared

    def write(self, out):
        out.write(b"CORDSESS" + struct.pack(">IIIIIIQ", 1, len(self.sources), len(self.kind), len(self.roots),
                                            self.row_count(), 0, len(self.pool)))
        for source in self.sources:
            out.write(struct.pack(">Q", len(source)))
        for section in (self.nodes, self.revisions, self.rows, self.pool):
            out.write(section)


# ---- a session of all commands

SOURCE = bytes(i % 256 for i in range(5_000))
NODES, REVISIONS = 1_000_000, 100_000
# how many of 100 commands are of each kind
SHARES = {NEW: 2, OPEN: 8, INSERT: 20, DELETE: 12, REPLACE: 8, PASTE: 6, JOIN: 6, CUT: 10, FILL: 6, BACK: 20, BALANCE: 2}
SHORTEST, LONGEST = 200, 4_000


class Session:
    """Commands at places that are the same each time, over the texts of an image."""

    def __init__(self):
        self.image = Image([SOURCE])
        self.seed = 1
        self.turn = [code for code, share in SHARES.items() for _ in range(share)]

    def below(self, n):
        self.seed = (self.seed * 6364136223846793005 + 1442695040888963407) % 2 ** 64
        return (self.seed >> 33) % n

    def bytes_in_pool(self, n):
        """Puts n bytes at the pool's end, and answers their place."""
        place = len(self.image.pool)
        self.image.pool += bytes(97 + self.below(26) for _ in range(n))
        return place

    def length(self, root):
        return 0 if root is None else self.image.length[root]

    def span(self, root, i, n):
        return None if root is None else self.image.part(root, i, n)

    def recent(self):
        """One of the last sixteen revisions."""
        count = len(self.image.roots)
        return count - 1 - self.below(min(16, count))

    def put(self, code, r, p, gone, middle, parts, **fields):
        """The text of revision r with other bytes in place of those gone from p on."""
        root = self.image.roots[r]
        end = self.length(root)
        behind = p + gone
        front, rest = self.span(root, 0, p), self.span(root, behind, end - behind)
        new = self.image.joined(self.image.joined(front, middle), rest)
        parts = [("old", root, 0, p), *parts, ("old", root, behind, end - behind)]
        self.image.revise(code, new, r=r, p=p, parts=[part for part in parts if part[-1]], **fields)

    def typed(self, code, r, p, gone, n):
        """Bytes typed one by one: a literal for each that is longer than the one before. Of two such texts one is a copy."""
        a = place = self.bytes_in_pool(n)
        if self.below(2):
            place = len(self.image.pool)
            self.image.pool += self.image.pool[a:a + n]
        for i in range(n):
            leaf = self.image.literal(place, i + 1)
        self.put(code, r, p, gone, leaf, [("pool", a, n)], a=a, n=n, m=gone)

    def step(self, code):
        image, r = self.image, self.recent()
        root = image.roots[r]
        end = self.length(root)
        p = self.below(end + 1)
        if code == NEW:
            image.revise(NEW, None)
        elif code == OPEN:
            n = len(SOURCE)
            leaf = image.source(0, 0, n) if self.below(8) else image.function(RAMP, b"\0", n)
            image.revise(OPEN, leaf, q=0, parts=[("source", 0, n)])
        elif code == INSERT:
            self.typed(INSERT, r, p, 0, 1 + self.below(50))
        elif code == REPLACE:
            self.typed(REPLACE, r, p, self.below(min(200, end - p + 1)), 1 + self.below(50))
        elif code == DELETE:
            n = self.below(min(400, end - p + 1))
            self.put(DELETE, r, p, n, None, [], n=n)
        elif code == PASTE:
            q = self.recent()
            other = image.roots[q]
            i = self.below(self.length(other) + 1)
            n = self.below(min(500, self.length(other) - i + 1))
            self.put(PASTE, r, p, 0, self.span(other, i, n), [("old", other, i, n)], q=q, a=i, n=n)
        elif code == JOIN:
            q = self.recent()
            other = image.roots[q]
            parts = [("old", x, 0, self.length(x)) for x in (root, other) if x is not None]
            image.revise(JOIN, image.joined(root, other), r=r, q=q, parts=parts)
        elif code == CUT:
            self.cut(r)
        elif code == FILL:
            c, n = 97 + self.below(26), 1 + self.below(100)
            code_of = FILL_BYTE if self.below(4) else CYCLE
            self.put(FILL, r, p, 0, image.function(code_of, bytes([c]), n), [("fill", c, n)], a=c, n=n)
        elif code == BACK:
            image.revise(BACK, root, r=r, parts=[("old", root, 0, end)] if end else [])
        else:
            pieces = image.pieces(root, 0, end) if end else []
            new = image.balanced([image.part(*piece) for piece in pieces])
            image.revise(BALANCE, new, r=r, parts=[("old", root, 0, end)] if end else [])

    def cut(self, r):
        """Some bytes of a text: a substring of it, or its leaves."""
        root = self.image.roots[r]
        end = self.length(root)
        n = min(end, SHORTEST + self.below(2000))
        i = self.below(end - n + 1)
        is_short = self.below(2) and 0 < n < end and self.image.depth[root] < 40
        new = self.image.sub(root, i, n) if is_short else self.span(root, i, n)
        self.image.revise(CUT, new, r=r, a=i, n=n, parts=[("old", root, i, n)] if n else [])

    def run(self, nodes, revisions):
        """As many revisions; the last is typed until there are as many nodes."""
        image = self.image
        image.revise(NEW, None)
        while len(image.roots) < revisions - 1:
            last = image.roots[-1]
            code = self.turn[self.below(len(self.turn))]
            if last is not None and image.depth[last] > 40:
                code = BALANCE
            elif self.length(last) > LONGEST:
                code = CUT
            self.step(code)
        self.typed(INSERT, 0, 0, 0, nodes - len(image.kind))


def main():
    what = sys.argv[1] if len(sys.argv) > 1 else "session"
    if what == "source":
        sys.stdout.buffer.write(SOURCE)
        return
    if what == "literals":
        count, size = (int(word) for word in (sys.argv[2:4] + ["500000", "16"][len(sys.argv) - 2 :]))
        image = one_insertion(count, size)
    elif what == "dearest":
        image = dearest(int((sys.argv[2:3] or ["100000"])[0]))
        print(image.looks(), "looks", file=sys.stderr)
    else:
        session = Session()
        session.run(NODES, REVISIONS)
        image = session.image
    image.write(sys.stdout.buffer)


main()
