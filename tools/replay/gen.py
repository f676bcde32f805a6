#!/usr/bin/env python3
"""Writes a random replay script to standard output. Usage: gen.py SEED
Most scripts have small slices, so that every boundary is met; some are damaged by hand, and some are malformed."""
import copy, random, struct, sys
import model

TOP = 2**32 - 1
RESTLESS = (  # steps; data as its length
    ((40, 2, 0), (3, 252, 0), (1, 2, 0), (3, 252, 0), (40, 2, 0), (1, 1, 0), (40, 0, 1), (1, 3, 0), (1, 0, 0), (40, 3, 2)),
    ((1, 1, 0), (4, 2, 0), (40, 0, 2), (32, 0, 3), (1, 0, 0), (40, 3, 0), (1, 3, 0), (3, 252, 0), (40, 0, 2), (1, 2, 0)),
)
FORMS = [0, 1, 2, 3, 4, 8, 9, 10, 11, 12]
MARKS = [0, 1, 2, 7, 255, 1048574, 1048575, 1048576, 2**24, 2**31, TOP]
LIMITS = (131072, 65536, 16384, 262144, 1048576)


def job(pool, *steps):
    """A job's bytes."""
    return struct.pack(">I", len(pool)) + pool + struct.pack(">I", len(steps)) + b"".join(struct.pack(">BII", *step) for step in steps)


def parts(pool, n, first=0):
    """The steps of a job that store n data bytes, parts of the pool that begin at `first`."""
    whole, rest = divmod(n, len(pool) - first)
    return [(3, first, len(pool))] * whole + ([(3, first, first + rest)] if rest else [])


def random_job(r):
    """Marks mostly placed once, references of every form, data that brings an offset near the boundary of two widths or the store near
    its end; now and then a large mark, or a field at its limit or past it."""
    if r.random() < 0.02:  # unsettled, with the data's length changed in one of three
        pool = bytes(252 + r.choice([0, 0, 1]))
        return job(pool, *((kind, 0, len(pool)) if kind == 3 else (kind, a, b) for kind, a, b in r.choice(RESTLESS)))
    pool = r.randbytes(r.choice([0, 1, 2, 5, 40, 260, 700, 700]))
    some = lambda n: parts(pool, max(0, n), r.randrange(len(pool)) if n < 8 else 0) if pool else []
    k, loose = r.choice([1, 2, 3, 5, 9]), r.choice([0, 0, 0.05, 0.3])  # how often a set size or a delta's order is left to chance
    form = lambda: r.choice([0, 8, 8, 2, 3, 4, 10, 11, 12, *([1, 9] if r.random() < 0.2 + loose else [])])
    name = {m: m if r.random() < 0.97 else r.choice([16382, 16383, 16384, 1048575]) for m in range(k)}
    blocks = [[(1, m, 0)] for m in range(k) if r.random() < 0.98]
    blocks += [[(1, r.randrange(k), 0)] for _ in range(2) if r.random() < 0.06]
    for _ in range(r.choice([0, 1, 3, 6, 20])):
        x = r.random()
        if x < 0.25:
            blocks.append(some(r.choice([0, 1, 2, 40, 250]) + r.randint(-6, 3)) if x < 0.22 else [(3, *[r.randint(0, len(pool))] * 2)])
        elif x < 0.45:
            blocks.append([(2, r.choice([0x5B, r.randint(0, 255)]), 0) for _ in range(r.choice([1, 1, 2, 9]))])
        elif x < 0.7:
            blocks.append([(4, r.randrange(k), form())])
        else:
            blocks.append([(32 + form(), r.randrange(k), r.randrange(k))])
    r.shuffle(blocks)
    if len(pool) > 200 and r.random() < 0.6:
        most = r.choice([256, 256, 256, 65536])
        i = r.randint(0, len(blocks)) if most == 256 or r.random() < 0.5 else len(blocks)
        least = sum(b - a if kind == 3 else kind != 1 for block in blocks[:i] for kind, a, b in block)
        blocks.insert(r.randint(0, i), some(most - least + r.choice([-9, -2, -1, 0, 0, 0, 1, r.randint(-40, 2)])))
    steps = [step for block in blocks for step in block]
    at = {a: i for i, (kind, a, _) in enumerate(steps) if kind == 1}
    for i, (kind, a, b) in enumerate(steps):
        if kind >= 32 and r.random() >= loose:
            a, b = sorted((a, b), key=lambda m: at.get(m, 0))
        steps[i] = kind, a if kind in (2, 3) else name[a], b if kind < 32 else name[b]
    if steps and r.random() < 0.12:  # one number of one step
        i, n = r.randrange(len(steps)), len(pool)
        kind, *numbers = steps[i]
        numbers[r.randint(0, 1)] = r.choice([0, 1, 4, 5, 7, 8, 12, 13, 255, 256, n, n + 1, k, 16383, 16384, 1048575, 1048576, TOP])
        steps[i] = kind, *numbers
    if steps and r.random() < 0.03:
        steps[r.randrange(len(steps))] = r.choice([0, 1, 2, 3, 4, 5, 31, 32, 36, 37, 39, 40, 44, 45, 255]), r.randint(0, 1), 0
    return job(pool, *steps)


def damaged(r, whole):
    """The job with a byte changed, cut out or added, or the end cut off."""
    i = r.choice([r.randint(0, len(whole)), r.randint(0, min(20, len(whole))), len(whole)])
    byte = bytes([r.choice([0, 1, 255, r.randint(0, 255)])])
    changed, fewer, more = whole[:i] + byte + whole[i + 1 :], whole[:i] + whole[i + 1 :], whole[:i] + byte + whole[i:]
    return r.choice([changed, changed, fewer, more, whole[:i]])


def other_table(store, start):
    """The offsets of a store's marks that walks from entries all at `start` come to, so often not the least ones; none if it takes too
    many walks, or the store is damaged or has marks that no table serves."""
    tried = copy.copy(store)
    tried.table = [start] * len(store.table)
    try:
        tried.test_whole()
        sections = list(tried.sections())
        tried.test_marks(sections)
    except model.Refused:
        return None
    for _ in range(20):
        at, moved = 0, False
        for what, *of in sections:
            if what == "mark":
                moved = moved or tried.table[of[0]] != at
                tried.table[of[0]] = at
            else:  # a reference that is too narrow has its size all the same: the write finds it
                at += len(of[0]) if what != "ref" else tried.size(*of) or of[1] + of[2]
        if not moved:
            return {of[0]: tried.table[of[0]] for what, *of in sections if what == "mark"}
    return None


class Script:
    def __init__(self, seed):
        self.r = random.Random(seed)
        r = self.r
        self.nb = r.choice([0, 1, 2, 3, 4, 5, 8, 16, 33, 34, 64, 100, 300, 600])
        self.nw = r.choice([0, 1, 2, 3, 4, 5, 6, 7, 8, 9, 11, 12, 15, 30, 31, 60, 90, 301])
        if r.random() < 0.02:
            self.nb = r.choice([131071, 131072])
        if r.random() < 0.02:
            self.nw = r.choice([65535, 65536])
        self.coding = r.random() < 0.5
        if self.coding:  # room for assembly, and for data around the boundaries of widths
            self.nb = r.choice([300, 600, 1200] if r.random() < 0.97 else [70000, 131072])
            self.nw = r.choice([90, 301, 600])
        self.lengths = [self.nb, self.nw, *(r.choice([0, 1, 5, most]) for most in LIMITS[2:])]
        if self.coding:
            self.lengths[2] = r.choice([1, 5, 9, 10, 10, 10, 11, 16384])
            self.lengths[3] = r.choice([self.nb + 500, LIMITS[3]])
        self.pool = self.make_pool()
        self.steps = []
        self.unknown = []  # (number of a step, what gives the steps after it)

    def make_pool(self):
        r = self.r
        pool = bytearray()
        for _ in range(r.randint(0, 6)):
            kind = r.randint(0, 3)
            if kind == 0:  # a word with leading zeros
                lead = r.randint(0, 32)
                pool += bytes(lead) + bytes(r.choice([1, 0xFF, r.randint(1, 255)]) if i == 0 else r.choice([0, r.randint(0, 255)]) for i in range(32 - lead))
            elif kind == 1:
                pool += bytes(r.randint(0, 255) for _ in range(r.randint(0, 40)))
            elif kind == 2:
                pool += bytes(32)
            else:
                pool += bytes(r.randint(0, 255) for _ in range(r.choice([1, 2, 3, 250, 600])))
        return bytes(pool)

    def add(self, kind, a=0, b=0):
        self.steps.append(struct.pack(">BII", kind, a & TOP, b & TOP))

    def later(self, what):
        """Steps that depend on the store: `what` gives them, by the model and its last line, when the script is whole."""
        self.unknown.append((len(self.steps), what))

    def near(self, *values):
        """A number at or beside one of the values."""
        r = self.r
        return max(0, r.choice(values) + r.choice([0, 0, 0, 1, -1, 2, -2, 3])) & TOP

    def number(self):
        r = self.r
        return r.choice([0, 1, 2, 3, 255, 256, 65535, 65536, 2**24 - 1, 2**24, 2**31, TOP, r.getrandbits(r.randint(1, 32))])

    def mark(self):
        r = self.r
        return r.choice(MARKS) if r.random() < 0.3 else r.randint(0, 9)

    def part(self):
        """A part of the pool; sometimes a bad one."""
        r, n = self.r, len(self.pool)
        if r.random() < 0.1:
            return self.near(0, n), self.near(0, n, TOP)
        if r.random() < 0.2:
            a = r.randint(0, n)
            return a, a
        a = r.randint(0, n)
        return a, min(n, a + r.choice([0, 1, 2, 3, r.randint(0, n - a)]))

    def word(self):
        r, n = self.r, len(self.pool)
        if n >= 32 and r.random() < 0.8:
            a = r.choice([i for i in range(0, n - 31, r.choice([1, 32]))])
            return a, a + 32 + (r.choice([1, -1]) if r.random() < 0.1 else 0)
        return self.part()

    def build(self):
        r = self.r
        k = r.choice([1, 2, 2, 3, 3, 4, 5, 6, 7, 8, 9, 10, 12, 12, 32, 32])
        depth = lambda: r.choice([0, 1, 2, 3, 15, 16, 17, 255, r.randint(0, 20)])
        if k == 1:
            self.add(1, self.mark(), self.number())
        elif k == 2:
            self.add(2, r.choice([0, 0x5B, 255, 256, r.randint(0, 255)]) if r.random() < 0.3 else r.randint(0, 255), self.number())
        elif k == 3:
            self.add(3, *self.part())
        elif k == 4:
            self.add(4, self.mark(), r.choice(FORMS) if r.random() < 0.85 else r.choice([5, 6, 7, 13, 16, 32, TOP]))
        elif k in (5, 6):
            self.add(k, depth() if r.random() < 0.95 else r.choice([256, 257, TOP]), self.number())
        elif k == 7:
            self.add(7, *(depth() if r.random() < 0.97 else r.choice([256, 272, TOP]) for _ in range(2)))
        elif k == 8:
            self.add(8, *self.word())
        elif k in (9, 10):
            self.add(k, r.choice([0, self.number()]), self.number())
        elif k == 12:
            self.add(12, *self.part()) if r.random() < 0.3 else self.run(r.choice([0, 1, r.randint(1, 60), r.randint(1, 60), self.near(self.nb)]))
        else:
            self.add(32 + (r.choice(FORMS) if r.random() < 0.9 else r.randint(5, 20)), self.mark(), self.mark())

    def run(self, n):
        """A run of n op bytes."""
        r = self.r
        self.pool += r.randbytes(max(0, n - len(self.pool)))
        a = r.randint(0, len(self.pool) - n)
        self.add(12, a, a + n)

    def runs(self):
        """A store made by hand, full or not, damaged or not, and runs of op bytes about as long as what is left."""
        r = self.r
        b, s = self.counts()
        self.add(18, b, s)
        if 1 <= s <= self.nw // 3 + 1:
            self.record(s - 1, b)
        left = max(0, self.nb - b)
        for _ in range(r.randint(1, 4)):
            self.run(self.near(0, left, left, r.randint(1, 60)))
        self.show()

    def record(self, i, b):
        """Words 3i to 3i + 2 set by hand: often good, sometimes with one thing wrong."""
        r = self.r
        kind = r.choice([0, 1, 1, 2, 2, 3, r.randint(4, 13)])
        if kind == 0:
            x, y = self.mark(), 0
        elif kind in (1, 2):
            x, y = r.randint(0, b) if b < 2**20 else b, b
        elif kind == 3:
            x, y = self.mark(), r.choice(FORMS)
        else:
            x, y = self.mark(), self.mark()
        wrong = r.randint(0, 9)
        if wrong == 0:
            kind = r.choice([14, 15, 255, 256, 257, 258, 2**31, TOP, kind + 2**8, kind + 2**16])
        elif wrong == 1:
            y = r.choice([1, 5, 6, 7, 13, 16, 24, b + 1, b - 1, TOP]) & TOP
        elif wrong == 2:
            x = r.choice([y + 1, 1048575, 1048576, b + 1, TOP]) & TOP
        elif wrong == 3:
            y = r.choice([1048575, 1048576])
        for j, v in enumerate((kind, x, y)):
            if r.random() < 0.97:
                self.add(17, 3 * i + j, v)

    def counts(self):
        r = self.r
        third = self.nw // 3
        b = self.near(0, self.nb, r.randint(0, self.nb + 1)) if r.random() < 0.85 else r.choice([2**24, 2**24 + 1, 2**31, TOP])
        if r.random() < 0.8:
            s = self.near(0, third, r.randint(0, third + 1))
        else:  # 3 x sections would wrap to something small
            s = r.choice([1048576, 1048577, 1431655765, 1431655766, 1431655767, 2863311530, 2863311531, 2863311532, 2**30, 2**31, TOP])
        return b, s

    def damage(self):
        r = self.r
        k = r.randint(0, 5)
        if k == 0:
            self.add(18, *self.counts())
        elif k == 1:
            self.add(16, self.near(0, self.nb), r.choice([0, 255, 256, TOP, r.randint(0, 255)]))
        elif k == 2:
            self.add(17, self.near(0, self.nw, r.randint(0, self.nw)), self.number())
        else:  # a store made by hand: its last record fits the count, or nearly
            b, s = self.counts()
            self.add(18, b, s)
            if 1 <= s <= self.nw // 3 + 1:
                self.record(s - 1, b)
                if s > 1 and r.random() < 0.5:
                    self.record(r.randint(0, s - 2), r.randint(0, b) if b < 2**20 else b)

    def show(self):
        r = self.r
        kind, n = r.choice([(24, self.nb), (25, self.nw), (26, self.lengths[2]), (27, self.lengths[3]), (28, self.lengths[4])])
        if r.random() < 0.2:
            self.add(kind, self.near(0, n, r.randint(0, n)), self.near(0, n, TOP))
        elif n > 2000 and r.random() < 0.9:
            a = r.randint(0, n)
            self.add(kind, a, min(n, a + r.randint(0, 1100)))
        else:
            self.add(kind, 0, n)

    def listing(self):
        self.add(21, self.number(), self.number())
        if self.r.random() < 0.5:
            self.show()

    def assembly(self):
        r = self.r
        if r.random() < 0.1:
            self.add(19, self.near(0, self.lengths[2], r.randint(0, self.lengths[2])), self.number())
        self.add(20, self.position(), self.number())
        self.told()

    def position(self):
        r, n = self.r, self.lengths[3]
        return 0 if r.random() < 0.6 else self.near(0, 1, 7, n, n - r.randint(0, min(n, 400)), TOP)

    def changed(self, store, _):
        """An entry set: mostly that of a placed mark, to a number near its own."""
        r, n = self.r, len(store.table)
        some = [store.record(i) for i in range(min(store.s, len(store.words) // 3, 200))]
        marks = [m for kind, m, _ in some if kind == 0 and m < n]
        m = r.choice(marks) if marks and r.random() < 0.8 else self.near(0, n, r.randint(0, n))
        own = store.table[m] if m < n else 0
        return [(19, m, r.choice([own + 1, own - 1, own + 2, own ^ 256, own ^ 65536, own + 2**24, 0, 1, 255, 256, TOP, self.number()]) & TOP)]

    def by_hand(self, store, _):
        """A table in which every placed mark is at the sum of sizes before it, come to from above; the other entries stay."""
        offsets = other_table(store, self.r.choice([1, 255, 256, 65536, 2**24, TOP])) or {}
        return [(19, m, at) for m, at in offsets.items()] if len(offsets) <= 40 else []

    def settled(self, store, line):
        """What settling left; where it was refused mostly a table made by hand, so that the write comes to 10, 12 and 13."""
        return self.by_hand(store, line) if self.r.random() < (0.8 if line.startswith("refused ") else 0.1) else []

    def pair(self):
        """Settling and writing, with nothing or a few entries changed between them; or a write from a table that is garbage, or made by
        hand."""
        r = self.r
        if r.random() < 0.7:
            self.add(23, self.number(), self.number())
            self.later(self.settled)
            if r.random() < 0.4:
                self.add(26, 0, min(self.lengths[2], 12))
        elif r.random() < 0.5:
            self.later(self.by_hand)
        for _ in range(r.choice([0, 0, 0, 1, 1, 2])):
            self.later(self.changed)
        for _ in range(r.choice([1, 1, 2])):
            self.add(29, self.position(), self.number())
        self.told()
        if r.random() < 0.2:
            self.add(24, 0, min(self.nb, 300))
            self.add(25, 0, min(self.nw, 300))

    def told(self):
        """What an assembly or a write left: the first entries of the table, and of the result."""
        self.add(26, 0, min(self.lengths[2], 12))
        self.add(27, 0, min(self.lengths[3], 1400))
        for _ in range(self.r.randint(0, 4)):
            self.add(22, self.r.choice([0, 1, 2, 3, 5, 256, self.r.randint(0, 300)]), min(self.lengths[3], self.near(3, 300)))

    def chunk(self, n):
        """Data of this length."""
        at = self.pool.find(bytes(n))
        if at < 0:
            at = len(self.pool)
            self.pool += bytes(n)
        self.add(3, at, at + n)

    def code(self):
        """A store to be assembled: marks mostly placed once, references of every form, data around the boundaries of widths."""
        r = self.r
        self.add(r.choice([0, 11]), 0, 0)
        k = r.choice([1, 2, 3, 5, 9])
        loose = r.choice([0, 0, 0.05, 0.3])  # how often a set size or a delta's order is left to chance
        parts = [("mark", m) for m in range(k) if r.random() < 0.98]
        parts += [("mark", r.randint(0, k)) for _ in range(2) if r.random() < 0.08]
        for _ in range(r.choice([1, 3, 6, 20])):
            x = r.random()
            if x < 0.25:
                left = r.choice([250, 256, 65530]) if self.nb > 65536 else r.choice([1, 2, 120, 245, 250, 256])
                parts.append(("data", max(0, left + r.choice([-6, -5, -4, -3, -2, -1, 0, 0, 0, 1, 2, 3]))))
            elif x < 0.35:
                parts.append(("op", r.choice([0x5B, 0x5B, r.randint(0, 255)])))
            elif x < 0.4:
                parts.append(("run", r.randint(0, 60)))
            elif x < 0.7:
                parts.append(("direct", r.randint(0, k - 1)))
            else:
                parts.append(("delta", r.randint(0, k - 1), r.randint(0, k - 1)))
        r.shuffle(parts)
        if r.random() < 0.6:  # a mark's offset near the boundary of two widths
            i = r.randint(0, len(parts))
            least = sum(of[0] if what in ("data", "run") else what != "mark" for what, *of in parts[:i])
            parts.insert(r.randint(0, i), ("data", max(0, (65536 if self.nb > 65536 else 256) - least - r.randint(0, 12))))
        at = {of[0]: i for i, (what, *of) in enumerate(parts) if what == "mark"}
        form = lambda: r.choice([0, 8, 8, 2, 3, 4, 10, 11, 12, *([1, 9] if r.random() < 0.2 + loose else [])])
        for what, *of in parts:
            if what == "mark":
                self.add(1, of[0])
            elif what == "data":
                self.chunk(of[0])
            elif what == "op":
                self.add(2, of[0])
            elif what == "run":
                self.run(of[0])
            elif what == "direct":
                self.add(4, of[0] if r.random() < 0.99 else r.randint(0, 12), form())
            else:
                start, end = of if r.random() < loose else sorted(of, key=lambda m: at.get(m, 0))
                self.add(32 + form(), start, end)
        ends = r.choice([[self.coded], [self.pair], [self.pair, self.coded], [self.coded, self.pair], [self.pair, self.pair]])
        for end in ends:
            end()
        if r.random() < 0.3:
            self.damage()
            r.choice([self.assembly, self.pair])()

    def coded(self):
        self.add(20, 0 if self.r.random() < 0.8 else self.r.randint(0, 9))
        self.told()

    def restless(self):
        """Ten sections that never settle, sometimes with one thing changed."""
        r = self.r
        self.add(0)
        for i, (kind, a, b) in enumerate(r.choice(RESTLESS)):
            if r.random() < 0.02:
                a += 1
            self.chunk(a) if kind == 3 else self.add(kind, a, b)
        r.choice([self.coded, self.pair])()

    def two_tables(self):
        """References to a mark behind them that is at 255 at most if they are short and past it if they are long, so that two tables are
        taken; sometimes one off it. It is written from each."""
        r = self.r
        self.add(0)
        self.add(1, 0)
        forms = [r.choice([0, 8]) for _ in range(r.choice([1, 1, 2, 3, 8]))]
        for f in forms:
            r.choice([lambda: self.add(4, 1, f), lambda: self.add(32 + f, 0, 1)])()
        short = sum(2 if f == 8 else 1 for f in forms)
        data = 255 - short - r.randrange(len(forms)) + r.choice([0, 0, 0, 1, -1])
        self.chunk(data - (half := r.randint(0, data)))
        self.add(1, 2)
        self.chunk(half)
        self.add(1, 1)
        self.add(4, r.randint(0, 2), r.choice([0, 8, 10]))
        for table in r.sample([lambda: self.add(23), lambda: self.later(self.by_hand)], 2):
            table()
            if r.random() < 0.2:
                self.later(self.changed)
            self.add(29, self.position())
            self.told()

    def landing(self):
        r, n = self.r, self.lengths[3]
        end = self.near(0, n, r.randint(0, n), TOP)
        self.add(22, self.near(0, end, r.randint(0, n), TOP), end)

    def scan(self):
        """Scans of words, of parts and bad parts of the pool, and of zeros up to one of its bytes and past it."""
        r, n = self.r, len(self.pool)
        for _ in range(r.randint(1, 4)):
            way = r.randint(0, 3)
            if way == 0:
                self.add(13, *self.part())
            elif way == 1 or n == 0:
                self.add(13, *self.word())
            elif way == 2:
                self.add(13, r.randint(0, n), n)
            else:
                at = max(0, self.pool.find(bytes(r.choice([1, 2, 31, 32, 33])), r.randrange(n)))
                self.add(13, at, min(n, at + r.choice([1, 31, 32, 33, 64, 300])))
        if r.random() < 0.2:
            self.show()

    def span(self, kind, what):
        """A section of Ops (1) or Data (2) of its own, where the store takes it."""
        at = len(self.pool)
        self.pool += what
        self.add(3, at, len(self.pool))
        self.later(lambda store, line: [(17, 3 * store.s - 3, kind)] if line.startswith("stored ") and 0 < store.s else [])

    def good_store(self):
        """A whole store that can be listed: every call, runs of pushes, adjacent and empty sections."""
        r = self.r
        self.add(r.choice([0, 11]), 0, 0)
        for _ in range(r.choice([1, 3, 8, 30])):
            if r.random() < 0.6:
                self.build()
            else:
                pushes = [bytes([0x5F + n]) + bytes(r.getrandbits(8) for _ in range(n)) for n in (r.randint(0, 32) for _ in range(r.randint(0, 3)))]
                run = b"".join(pushes) + bytes(r.getrandbits(8) for _ in range(r.randint(0, 4)))
                self.span(r.choice([1, 1, 2]), run[: r.randint(0, len(run))])
        self.add(21)
        if r.random() < 0.5:
            self.damage()
            self.add(21)
        self.show()

    def job(self):
        """A job in the pool, damaged or not, with some of the script's own slices shown before and after it."""
        r, at = self.r, len(self.pool)
        whole = random_job(r)
        self.pool += damaged(r, whole) if r.random() < 0.3 else whole
        self.show()
        shown = self.steps[-1]
        self.add(30, *((at, len(self.pool)) if r.random() < 0.95 else (self.near(at), self.near(len(self.pool)))))
        self.steps.append(shown)

    def odd(self):
        r = self.r
        self.add(r.choice([r.randint(13, 15), 19, 20, 21, 22, 23, 26, 27, 28, 29, 30, 31, 37, 38, 39, 45, 64, 255, r.randint(0, 255)]), self.number(), self.number())

    def fill_up(self):
        """To the very end of a slice, or one short of it."""
        r = self.r
        if r.random() < 0.5 and self.nb <= 700:
            for _ in range(self.nb + r.choice([-1, 0, 1])):
                self.add(2, r.randint(0, 255))
        elif self.nw <= 400:
            for _ in range(self.nw // 3 + r.choice([-1, 0, 1])):
                self.add(1, r.randint(0, 5))
        if r.random() < 0.5:
            self.run(self.near(0, 2))

    def body(self):
        r = self.r
        mixes = [[8, 0, 1, 0, 1, 0, 1, 1, 0, 1, 0, 0, 0, 0], [6, 3, 2, 1, 2, 1, 1, 2, 1, 2, 0, 0, 0, 0], [3, 5, 2, 1, 2, 1, 1, 2, 3, 2, 0, 0, 0, 0], [8, 1, 1, 1, 1, 1, 1, 1, 1, 1, 0, 0, 0, 0], [1, 1, 1, 0, 1, 1, 1, 1, 1, 1, 5, 0, 0, 0]]
        ways = [1, 1, 1, 0, 1, 1, 1, 1, 1, 1, 1, 12, r.choice([0, 0, 1]), 3] if self.coding else r.choice(mixes)
        many = r.choice([1, 3, 10]) if sum(ways[10:]) else r.choice([3, 20, 60, 150])
        jobs = r.choice([0, 0.05, 0.3])
        for _ in range(many):
            way = r.choices([self.build, self.damage, self.show, self.odd, self.listing, self.landing, self.scan, self.assembly, self.runs, self.pair, self.good_store, self.code, self.restless, self.two_tables], ways)[0]
            if r.random() < jobs:
                self.job()
            way()
            x = r.random()
            if x < 0.02:
                self.add(11, self.number(), self.number())
            elif x < 0.03:
                self.add(0, self.number(), self.number())
            elif x < 0.05:
                self.fill_up()
        self.add(21)
        self.add(29, 0)
        self.add(20, 0)
        for kind, n in ((24, self.nb), (25, self.nw), (26, self.lengths[2]), (27, self.lengths[3]), (28, self.lengths[4])):
            self.add(kind, 0, min(n, 2000))
        self.fit()

    def fit(self):
        """Puts in the steps that `later` left, then, often, sets the listing buffer and the result to the length of a listing and of a
        code with its position, or one off it."""
        r = self.r
        whole = model.Model((*self.lengths[:3], *LIMITS[3:]), self.pool)
        texts, codes, steps = [], [], []
        for i, s in enumerate(self.steps, 1):
            kind, a, b = struct.unpack(">BII", s)
            line = whole.step(kind, a, b)
            steps.append(s)
            if line and line.startswith("listing "):
                texts.append(int(line.split()[1]))
            if line and line.startswith("length ") and kind != 23:
                codes.append(a + int(line.split()[1]))
            while self.unknown and self.unknown[0][0] <= i:
                for more in self.unknown.pop(0)[1](whole, line):
                    steps.append(struct.pack(">BII", *more))
                    whole.step(*more)
        self.steps = steps
        if texts and r.random() < 0.7:
            self.lengths[4] = max(0, r.choice(texts) + r.choice([0, 0, -1, 1]))
            self.add(28, 0, self.lengths[4])
        if codes and r.random() < 0.5:
            self.lengths[3] = max(0, r.choice(codes) + r.choice([0, 0, -1, 1]))
            self.add(27, 0, self.lengths[3])

    def text(self):
        r = self.r
        head = list(self.lengths)
        count = len(self.pool)
        rest = self.pool + b"".join(self.steps)
        way = r.random()
        if way < 0.04:  # a length above its limit, or at it
            i = r.randint(0, 4)
            head[i] = r.choice([LIMITS[i], LIMITS[i] + 1, TOP, 2**31])
        elif way < 0.05:
            count = r.choice([len(rest), len(rest) + 1, len(rest) - 1, TOP, TOP - 23]) & TOP
        elif way < 0.06:
            rest += bytes(r.randint(1, 17))
        elif way < 0.07:
            rest = rest[: r.randint(0, len(rest))]
        whole = struct.pack(">6I", *head, count) + rest
        if 0.07 <= way < 0.08:
            whole = whole[: r.choice([0, 1, 23, 24, 25, r.randint(0, 60)])]
        elif 0.08 <= way < 0.09:  # the longest script, or one byte longer; the pool takes what is left over
            more = 1048576 + r.choice([0, 0, 1, 9]) - len(whole)
            whole = struct.pack(">6I", *head, count + more) + self.pool + bytes(more) + b"".join(self.steps)
        return whole


def edges():
    """Scripts at the boundaries of the format: (what, script)."""
    call = struct.pack(">BII", 2, 7, 0) + struct.pack(">BII", 24, 0, 0)

    def whole(lengths=(3, 3, 0, 0, 0), count=0, rest=call):
        return struct.pack(">6I", *lengths, count) + rest

    for n in range(25):
        yield f"{n} bytes of a header", whole(rest=b"")[:n]
    yield "no steps", whole(rest=b"")
    for n in range(1, 19):
        yield f"{n} bytes of steps", whole(rest=call[:n])
    for i, most in enumerate(LIMITS):
        for n in (0, 1, most - 1, most, most + 1, 2**31, TOP):
            yield f"length {i} is {n}", whole([n if i == j else 3 for j in range(5)])
    yield "every length at its limit", whole(LIMITS, rest=call + b"".join(struct.pack(">BII", *s) for s in ((24, 131070, 131072), (25, 65530, 65536), (21, 0, 0), (28, 1048570, 1048576), (22, 262143, 262144), (20, 262143, 0), (20, 262144, 0), (26, 16380, 16384), (27, 262140, 262144))))
    for n in (0, 1, 8, 9, 10, 17, 18, 19, 27, 2**31, TOP - 24, TOP - 23, TOP - 17, TOP - 8, TOP):
        yield f"a pool of {n} in 18 bytes", whole(count=n)
        yield f"a pool of {n} and 18 bytes more", whole(count=n, rest=bytes(min(n, 99)) + call)
    for n in range(1048576 - 10, 1048576 + 12):
        yield f"{n} bytes, all pool but two steps", whole(count=n - 42, rest=bytes(n - 42) + call)
    for n in (1048576 - 24 - 116505 * 9,):
        yield "the longest list of steps", whole(count=n, rest=bytes(n) + call[:9] * 116505)
        yield "and one more", whole(count=n, rest=bytes(n) + call[:9] * 116506)
    yield "far too long", whole(rest=bytes(9 * 250000))
    for kind in range(256):
        steps = b"".join(struct.pack(">BII", kind, a, b) for a in (0, 1, 3, 4, 255, 256, TOP) for b in (0, 1, 3, 4, 255, 256, TOP))
        for lengths in ((3, 3, 3, 3, 3), (0, 0, 0, 0, 0), (256, 300, 3, 3, 3)):
            yield f"kind {kind} with slices {lengths}", whole(lengths, 3, b"abc" + steps + struct.pack(">BII", 24, 0, lengths[0]) + struct.pack(">BII", 25, 0, lengths[1]))


def run_edges():
    """Runs of op bytes at their boundaries: (what, script)."""
    record = lambda i, *words: [(17, 3 * i + j, w) for j, w in enumerate(words)]
    mark, op, data, direct, delta = (1, 7, 0), (2, 0xEE, 0), (3, 0, 1), (4, 7, 8), (40, 7, 8)
    some = lambda n: bytes((i * 7 + i // 256 + 0x5B) % 256 for i in range(n))

    def whole(lengths, pool, steps):
        return struct.pack(">6I", *lengths, 0, 0, 0, len(pool)) + pool + b"".join(struct.pack(">BII", *s) for s in steps)

    def stores(nb, nw):
        """Good ones of up to 2 bytes and 3 sections, some with an empty Ops section or with damage before the last section; a damaged
        last section; bad counts."""
        yield from ([], [mark], [op], [op, op], [data], [(3, 0, 0)], [direct], [delta], [mark, mark], [mark, op], [op, mark], [data, op], [op, data], [mark, op, mark], [op, mark, op])
        yield [*record(0, 1, 0, 0), (18, 0, 1)]
        yield [data, *record(1, 1, 1, 1), (18, 1, 2)]
        yield [*record(0, 99, TOP, TOP), *record(1, 0, 7, 0), (18, 2, 2)]
        yield [*record(0, 99, TOP, TOP), *record(1, 1, 1, 2), (18, 2, 2)]
        for last in ((14, 0, 0), (257, 0, 1), (0, 1048576, 0), (0, 0, 1), (1, 0, 2), (1, 0, 0), (1, 2, 1), (2, 0, 0), (3, 0, 5), (4, 0, 1048576)):
            yield [mark, *record(1, *last), (18, 1, 2)]
        for b, s in ((1, 0), (TOP, 0), (nb + 1, 1), (2**24, 1), (2**24 + 1, 1), (0, nw // 3 + 1), (0, 1048576), (0, 1048577), (0, 1431655766), (0, TOP), (TOP, TOP)):
            yield [*record(0, 1, 0, b), (18, b, s)]

    # every store in slices of every small length, with runs from none to one that no slice holds; an op byte after each
    for nb in range(7):
        for nw in range(11):
            told = (24, 0, nb), (25, 0, nw)
            steps = [step for store in stores(nb, nw) for n in range(nb + 2) for step in ((0, 0, 0), *store, (12, 1, 1 + n), *told, op, *told)]
            yield f"runs with slices {nb} and {nw}", whole((nb, nw), some(nb + 3), steps)
    # parts of the pool, good and bad
    for n in (0, 1, 5):
        steps = [(12, a, b) for a in (0, 1, n - 1, n, n + 1, TOP) for b in (0, 1, n - 1, n, n + 1, TOP) if min(a, b) >= 0]
        yield f"runs from a pool of {n}", whole((64, 6), some(n), [*steps, (24, 0, 64), (25, 0, 6)])
    # long ones, in the longest slice and up to the longest pool
    most = LIMITS[0]
    for n in (255, 256, 65535, 65536, 65537, most - 1, most, most + 1, 1048000):
        after = [(12, n, n), (24, 0, most), (25, 0, 6), (12, 0, 1), (24, most - 4, most), (25, 0, 6)]
        yield f"a run of {n}", whole((most, 6), some(n), [(12, 0, n), *after])
        yield f"a run of {n - 1} after an op byte and a mark", whole((most, 9), some(n), [op, mark, (12, 1, n), *after])
    steps = [s for n in (0, 1, 2, 3, 4, 70000) for s in ((0, 0, 0), *record(0, 1, 0, most - 3), (18, most - 3, 1), (12, 65537, 65537 + n), (24, most - 5, most), (25, 0, 6))]
    yield "runs at the longest slice's end", whole((most, 6), some(140000), steps)


def scan_edges():
    """Scans at their boundaries: (what, script)."""

    def whole(pool, steps):
        return struct.pack(">6I", 64, 6, 1, 4, 64, len(pool)) + pool + b"".join(struct.pack(">BII", *s) for s in steps)

    # every number of zeros up to 70 in every length up to 140, zeros or other bytes after the first that isn't 0
    for after in (b"\0", b"\xff"):
        yield f"zeros, then a byte, then {after}", whole(bytes(70) + b"\x01" + after * 70, [(13, a, b) for a in range(71) for b in range(a, 142)])
    yield "every byte", whole(bytes(range(256)), [(13, a, a + n) for a in range(256) for n in (1, 2, 3)])
    # parts of the pool, good and bad; the store and the slices as they were
    for n in (0, 1, 2, 32):
        places = [i for i in (0, 1, n - 1, n, n + 1, TOP) if i >= 0]
        shown = [(24, 0, 64), (25, 0, 6), (26, 0, 1), (27, 0, 4), (28, 0, 64)]
        steps = [(1, 0, 0), (2, 0x5B, 0), (20, 0, 0), (21, 0, 0), *shown, *((13, a, b) for a in places for b in places), *shown, (2, 0x5B, 0)]
        yield f"scans of a pool of {n}", whole(bytes(n), steps)
    # long ones, up to the longest pool
    for n in (255, 256, 65535, 65536, 65537, 1048500):
        yield f"{n} zeros, and a byte", whole(bytes(n) + b"\x80", [(13, 0, n), (13, 0, n + 1), (13, 1, n + 1), (13, 0, n + 2)])


def word_edges():
    """Pushes of words in slices that they fill, nearly fill or pass, after sections of each kind: (what, script)."""
    # 33 numbers of leading zeros, the byte after them small or large; one word for each byte before its last that isn't 0; each last byte
    words = [bytes(z) + ends + bytes([fill]) * (31 - z) for z in range(32) for ends in (b"\x01", b"\xff") for fill in (0, 0xA7)]
    words += [bytes(i) + b"\x01" + bytes(30 - i) + b"\x07" for i in range(31)] + [bytes(31) + bytes([b]) for b in range(256)] + [bytes(32)]
    pool = b"".join(words)
    starts = [], [(1, 7, 0)], [(2, 0xEE, 0)], [(3, 0, 1)], [(4, 7, 8)], [(2, 0xEE, 0), (1, 7, 0)]
    for nb in (0, 1, 2, 3, 8, 9, 10, 11, 20, 21, 22, 23, 32, 33, 34, 35, 70):
        for nw in (3, 6, 9):
            told = (24, 0, nb), (25, 0, nw)
            steps = [step for start in starts for i in range(len(words)) for step in ((0, 0, 0), *start, (8, 32 * i, 32 * i + 32), *told)]
            whole = struct.pack(">6I", nb, nw, 0, 0, 0, len(pool)) + pool + b"".join(struct.pack(">BII", *s) for s in steps)
            yield f"words with slices {nb} and {nw}", whole


def line_11():
    """Both cases of document 01's line 11: (what, script)."""
    step = lambda *of: struct.pack(">BII", *of)
    for n, p in ((1022, 61449), (1023, 61445)):
        refs = b"".join(step(4, m, 8) for m in range(n, 0, -1))
        marks = step(1, n, 0) + b"".join(step(3, 0, 1) + step(1, m, 0) for m in range(n - 1, 0, -1))
        ends = b"".join(step(*s) for s in ((20, 0, 0), (26, 0, 1100), (27, 0, 70000), (23, 0, 0), (26, 0, 1100), (29, 1, 0), (27, 0, 70000)))
        yield f"line 11, {n} references", struct.pack(">6I", 65536, 9300, 1100, 70000, 0, p) + bytes(p) + refs + step(3, 0, p) + marks + ends


def script(seed):
    s = Script(seed)
    s.body()
    return s.text()


if __name__ == "__main__":
    sys.stdout.buffer.write(script(int(sys.argv[1])))
