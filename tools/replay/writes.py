#!/usr/bin/env python3
"""Settling and writing at both sides of every limit, as scripts for compare.py; and the model's own test of them: writes.py FIRST LAST.
The cases have their answers written by hand, and the model must give them. In the scripts of the seeds FIRST to LAST - 1 the model makes
every assembly also as settling and then writing, on a copy, and both must come to the same."""
import copy, itertools, struct, sys
import gen, model
from gen import TOP

mark = lambda m: (1, m, 0)
op = (2, 0x5B, 0)
data = lambda n: (3, 0, n)
direct = lambda m, form: (4, m, form)
delta = lambda start, end, form: (32 + form, start, end)
SETTLE = 23, 0, 0

POOL = bytes((7 * i + i // 256 + 0x5B) % 256 for i in range(70000))

taken = lambda length: f"length {length} passes 0"
refused = lambda number, section=0: f"refused {number} at {section} passes 0"


# A case is (what, calls, tries); a try is entries of the table by their marks (the others are garbage), a position and the answer.


def one_mark(m, offsets, good, bad):
    """A try for each offset of one mark: those of `good` have their own answer."""
    return [({m: n}, 0, good.get(n, bad)) for n in offsets]


def accepted():
    """Stores with the tables that a write takes, and those beside them."""
    yield "nothing", [], [({}, 0, taken(0))]
    yield "a pushed 0", [mark(0), direct(0, 8)], one_mark(0, (0, 1), {0: taken(1)}, refused(16))
    yield "line 5", [direct(0, 8), mark(0), op], one_mark(0, (0, 1, 2, 3, 255, 256, 258, TOP), {2: taken(3)}, refused(16, 1))
    both = {255: taken(255), 256: taken(256)}
    some = 0, 254, 255, 256, 257, 258, 511, 512, 65536, TOP
    yield "line 6", [direct(0, 8), data(253), mark(0)], one_mark(0, some, both, refused(16, 2))
    yield "line 7", [direct(0, 8), data(254), mark(0)], one_mark(0, some, {257: taken(257)}, refused(16, 2))
    two = {255: taken(255), 257: taken(257)}
    yield "two pushed ones", [direct(0, 8)] * 2 + [data(251), mark(0)], one_mark(0, some, two, refused(16, 3))
    yield "a raw one", [direct(0, 0), data(254), mark(0)], one_mark(0, some, both, refused(16, 2))
    yield "a delta", [mark(0), delta(0, 1, 8), data(253), mark(1)], [({0: 0, 1: n}, 0, both.get(n, refused(16, 3))) for n in some]
    high = {65535: taken(65535), 65536: taken(65536)}
    far = 255, 65534, 65535, 65536, 65537, 2**24
    yield "two bytes or three", [direct(0, 8), data(65532), mark(0)], one_mark(0, far, high, refused(16, 2))
    twice = [op, mark(0), data(0), mark(1), mark(0), direct(0, 8)]
    for n, answer in enumerate((refused(16, 3), taken(3), refused(16, 3))):
        tries = [({0: 0, 1: n}, 0, refused(16, 1)), ({0: 1, 1: n}, 0, answer), ({0: 2, 1: n}, 0, refused(16, 1))]
        yield f"a mark twice with no bytes between, the other at {n}", twice, tries
    free = [({0: a, 1: 1, 2: b}, 0, taken(2)) for a in (0, 1, TOP) for b in (0, 1, TOP)]
    yield "unplaced entries", [op, mark(1), direct(1, 0)], free
    zeros, ones = [delta(0, 0, form) for form in gen.FORMS], [direct(0, form) for form in gen.FORMS]
    length = 1 + (1 + 10 + 1 + 14) + (1 + 10 + 2 + 14)  # the op byte; of each value raw, raw sized, pushed, pushed sized
    yield "every form", [op, mark(0), *zeros, *ones], one_mark(0, (0, 1, 2), {1: taken(length)}, refused(16, 1))


def differing(table):
    """Number 16, with a table of this length."""
    yield "a table of garbage", [mark(0)], [({}, 0, refused(16))]
    yield "a mark at 0", [mark(0)], one_mark(0, (0, 1, 255, 256, 65536, 2**24, 2**31, TOP), {0: taken(0)}, refused(16))
    yield "the table's last mark", [op, mark(table - 1)], one_mark(table - 1, (0, 1, 2), {1: taken(1)}, refused(16, 1))
    marks = [op, mark(0), op, mark(1), op, mark(2)]
    for change in (-1, 1):
        for m in range(3):
            entries = {i: i + 1 + (change if i == m else 0) for i in range(3)}
            yield f"mark {m} off by {change}", marks, [(entries, 0, refused(16, 2 * m + 1))]
    yield "the first of two that differ", marks, [({0: 1, 1: 9, 2: 9}, 0, refused(16, 3)), ({0: 9, 1: 2, 2: 9}, 0, refused(16, 1))]


def narrow():
    """Number 10, and which comes first, it or 16."""
    later = refused(16, 1)
    for size, most in ((1, 255), (2, 65535), (3, 2**24 - 1)):
        for form in (size, size + 8):
            tries = [({0: most}, 0, later), ({0: most + 1}, 0, refused(10)), ({0: TOP}, 0, refused(10))]
            yield f"10 or a later 16, form {form}", [direct(0, form), mark(0)], tries
            tries = [({0: 7, 1: 7 + most}, 0, later), ({0: 7, 1: 8 + most}, 0, refused(10)), ({0: TOP, 1: 0}, 0, later)]
            yield f"10 or a later 16, a delta, form {form}", [delta(0, 1, form), mark(0), op, mark(1)], tries
    for form in (0, 4, 8, 12):
        yield f"no 10, form {form}", [direct(0, form), mark(0)], one_mark(0, (2**24, 2**31, TOP), {}, later)
        tries = [({0: 7, 1: TOP}, 0, later), ({0: TOP, 1: 0}, 0, later)]
        yield f"no 10, a delta, form {form}", [delta(0, 1, form), mark(0), op, mark(1)], tries
    yield "10 alone", [direct(0, 9), data(254), mark(0)], [({0: 256}, 0, refused(10))]
    tries = [({0: 0, 1: 256}, 0, refused(10, 1)), ({0: 0, 1: 255}, 0, refused(16, 2)), ({0: 1, 1: 256}, 0, refused(16))]
    yield "10 after good marks", [mark(0), direct(1, 1), mark(1)], tries
    tries = [({0: 0, 1: 259}, 0, refused(16, 1)), ({0: 1, 1: 259}, 0, refused(10, 2)), ({0: 1, 1: 255}, 0, refused(16, 4))]
    yield "16 before a later 10", [op, mark(0), direct(1, 9), data(256), mark(1)], tries
    tries = [({0: 256}, 0, refused(10)), ({0: 255}, 0, refused(16, 2)), ({0: 3}, 0, taken(3))]
    yield "10 before a later 10 and 16", [direct(0, 1), direct(0, 9), mark(0)], tries


def backward():
    """Number 12. In the walk such a delta reads 0: one byte if unsized, never too narrow."""
    rest = [mark(0), op, mark(1)]
    tries = [({0: 1, 1: 2}, 0, refused(12)), ({0: 2, 1: 3}, 0, refused(16, 1)), ({0: 5, 1: 6}, 0, refused(16, 1))]
    tries += [({0: 1, 1: 1}, 0, refused(16, 3))]
    yield "12 at a pushed one", [delta(1, 0, 8), *rest], [*tries, ({0: 1, 1: 0}, 0, refused(16, 1))]
    yield "12 at a raw one", [delta(1, 0, 0), *rest], [*tries, ({0: 1, 1: 0}, 0, refused(16, 3))]
    tries = [({0: 0, 1: 300}, 0, refused(12, 3)), ({0: 0, 1: 299}, 0, refused(16, 2))]
    yield "12, not 10", [mark(0), data(300), mark(1), delta(1, 0, 9), delta(1, 0, 0)], tries
    yield "12, the first of two", [*rest, delta(0, 1, 8), delta(1, 0, 9), delta(1, 0, 0)], [({0: 0, 1: 1}, 0, refused(12, 4))]
    yield "no 12 for equal ends", [op, mark(0), mark(1), delta(1, 0, 8), delta(0, 1, 0)], [({0: 1, 1: 1}, 0, taken(3))]
    tries = [({0: 0, 1: 256}, 0, refused(10, 4)), ({0: 0, 1: 255}, 0, refused(16, 2))]
    yield "10 before an earlier 12", [mark(0), data(256), mark(1), delta(1, 0, 8), direct(1, 1)], tries
    tries = [({0: 1, 1: 2, 2: n}, 0, refused(12) if n == 2 else refused(16, 4)) for n in (1, 2, 3)]
    yield "16 before an earlier 12", [delta(1, 0, 8), *rest, mark(2)], tries


def full(result):
    """Number 13 with a result of this length, and what comes before it."""
    three = [op, mark(0), direct(0, 8)]
    for at in (0, result - 4, result - 3, result - 2, result - 1, result, result + 1, 2**31, TOP - 2, TOP - 1, TOP):
        yield f"13 or three bytes at {at}", three, [({0: 1}, at, taken(3) if at <= result - 3 else refused(13))]
        yield f"13 or none at {at}", [mark(0)], [({0: 0}, at, taken(0) if at <= result else refused(13))]
    for at in (result + 1, TOP):
        yield f"16 before 13, position {at}", three, [({0: 0}, at, refused(16, 1))]
        yield f"10 before 13, position {at}", [direct(0, 1), mark(0)], [({0: 256}, at, refused(10))]
        yield f"12 before 13, position {at}", [mark(0), op, mark(1), delta(1, 0, 0)], [({0: 0, 1: 1}, at, refused(12, 3))]


def earlier(table):
    """Numbers 6 to 9, 17 and 18, which no table and no position can hide."""
    any_table = lambda answer: [({}, 0, answer), ({0: 0, 1: 0}, 0, answer), ({0: 1, 1: TOP}, TOP, answer)]
    yield "6, counts", [(18, 1, 0)], any_table(refused(6))
    yield "6, too many sections", [(18, 0, TOP)], any_table(refused(6))
    yield "6 before 7", [mark(table), direct(5, 8), mark(0), (17, 6, 14)], any_table(refused(6, 2))
    yield "6, an end", [op, mark(0), (17, 2, 2)], any_table(refused(6))
    yield "6 in the middle", [op, mark(0), op, (17, 3, 14)], any_table(refused(6, 1))
    for call in (mark(table), direct(table, 0), delta(table, 0, 8), delta(0, table, 8), mark(model.MAX_MARK)):
        yield f"7 before an earlier 8, {call}", [direct(5, 8), mark(0), op, mark(0), call], any_table(refused(7, 4))
    yield "8 before 9", [mark(0), op, mark(0), direct(5, 1)], any_table(refused(8, 3))
    yield "17 before 9", [mark(0), op, mark(0), delta(5, 0, 8)], any_table(refused(17, 3))
    yield "18 before 9", [mark(0), op, mark(0), delta(0, 5, 8)], any_table(refused(18, 3))
    yield "17, a start", [mark(0), delta(5, 0, 8)], any_table(refused(17, 1))
    yield "18, an end", [mark(0), delta(0, 5, 8)], any_table(refused(18, 1))
    yield "17, both ends", [mark(0), delta(5, 4, 1)], any_table(refused(17, 1))
    yield "17, one mark as both ends", [mark(0), delta(5, 5, 0)], any_table(refused(17, 1))
    yield "18, a start behind it", [delta(0, 5, 8), mark(0)], any_table(refused(18))
    yield "17 before a later 8", [mark(0), delta(5, 0, 8), direct(5, 8)], any_table(refused(17, 1))
    yield "18 before a later 8", [mark(0), delta(0, 5, 8), direct(5, 8)], any_table(refused(18, 1))
    yield "8 before a later 17", [mark(0), direct(5, 8), delta(5, 0, 8)], any_table(refused(8, 1))
    yield "8 before a later 18", [mark(0), direct(5, 8), delta(0, 5, 8)], any_table(refused(8, 1))
    yield "9 before 16", [mark(0), op, mark(0)], any_table(refused(9, 2))
    tries = [*any_table(refused(9, 4)), ({0: 256}, 0, refused(9, 4))]
    yield "9 before 10", [direct(0, 9), data(256), mark(0), direct(0, 0), mark(0)], tries


def cases(table, result):
    for some in accepted(), differing(table), narrow(), backward(), full(result), earlier(table):
        yield from some


def packed(lengths, steps, pool):
    return struct.pack(">6I", *lengths, len(pool)) + pool + b"".join(struct.pack(">BII", *step) for step in steps)


def edges():
    """Scripts: (what, script). Every slice is printed before and after each write."""
    for table, result in ((6, 600), (1100, 70000)):
        for what, calls, tries in cases(table, result):
            most = 70000 if data(65532) in calls else 600
            lengths = most, 90, table, max(result, most), 0
            told = [(24, 0, 310), (25, 0, 90), (26, 0, min(table, 12)), (27, 0, 310), (27, lengths[3] - 60, lengths[3])]
            steps = list(calls)
            for entries, position, _ in tries:
                steps += [*((19, m, at) for m, at in entries.items()), *told, (29, position, 7), *told]
            # what settling and assembly make of it, the write after each
            for before in SETTLE, (20, 0, 0), SETTLE:
                steps += [before, (26, 0, table), (29, 3, 0), *told]
            yield f"write: {what}, table {table}, result {result}", packed(lengths, steps, POOL[:most])
    yield from tables()
    yield from positions()
    yield from small()
    yield from others()


def tables():
    """Tables of every small length, settled and written from; the entries past the marks are free."""
    store = mark(0), direct(2, 8), op, mark(2), delta(0, 2, 0), mark(3)
    for n in range(7):
        told = (26, 0, n), (27, 0, 12)
        ends = (29, 0, 0), *told, SETTLE, *told, (29, 1, 0), *told, (20, 0, 0), *told
        steps = [step for k in range(len(store) + 1) for step in ((0, 0, 0), *store[:k], *ends)]
        yield f"write: tables of {n}", packed((9, 30, n, 12, 0), steps, b"")


def positions():
    """Codes of 0, 1 and 3 bytes at every place of short results; settling asks for no result."""
    for n in range(6):
        told = (27, 0, n), (26, 0, 1)
        steps = []
        for calls in ([], [op], [mark(0), op, direct(0, 10)], [op, mark(0), direct(0, 8)]):
            for at in (*range(n + 2), 2**31, TOP - n, TOP):
                steps += [(0, 0, 0), *calls, SETTLE, *told, (29, at, at), *told]
        yield f"write: results of {n}", packed((9, 30, 1, n, 0), steps, b"")


def small():
    """Every store of up to 3 calls of 11, from every table of two entries of 5; from one table where a write doesn't come to read it."""
    letters = [mark(0), mark(1), op, data(0), data(254), direct(0, 8), direct(0, 0), direct(1, 9)]
    letters += [delta(0, 1, 8), delta(1, 0, 0), delta(1, 0, 9)]
    lengths, steps, number = (800, 9, 2, 800, 0), [], 0
    store = model.Model(lengths, POOL)
    for calls in itertools.chain(*(itertools.product(letters, repeat=n) for n in range(4))):
        store.anew()
        for call in calls:
            store.step(*call)
        steps += [(0, 0, 0), *calls]
        read = store.step(29, 0, 0).startswith(("refused 16", "refused 10"))
        for a, b in itertools.product((0, 1, 2, 255, 256), repeat=2) if read else [(0, 0)]:
            steps += [(19, 0, a), (19, 1, b), (29, 0, 0)]
        steps += [(26, 0, 2), (27, 0, 5), SETTLE, (26, 0, 2), (29, 400, 0), (27, 398, 406), (20, 1, 0), (26, 0, 2), (27, 0, 8)]
        if len(steps) > 60000:
            yield f"write: small stores, {number}", packed(lengths, steps, POOL[:254])
            steps, number = [], number + 1
    yield f"write: small stores, {number}", packed(lengths, steps, POOL[:254])


def others():
    """Stores that never settle; what settling and writing have no use for, which is ignored; a store that grows after it was settled,
    with a listing and a landing between."""
    for calls in gen.RESTLESS:
        told = (26, 0, 5), (27, 0, 600)
        ends = (29, 0, 0), *told, SETTLE, *told, (29, 0, 0), *told, (20, 0, 0), *told
        steps = [*(data(a) if kind == 3 else (kind, a, b) for kind, a, b in calls), *ends]
        yield "write: unsettled", packed((600, 90, 5, 600, 0), steps, POOL[:300])
    steps = [(23, TOP, TOP), (29, 0, TOP), direct(0, 8), mark(0), (23, 7, 9), (26, 0, 2), (21, 0, 0), (22, 0, 9), (29, 0, 9)]
    steps += [op, (29, 0, 0), (27, 0, 9), mark(0), (29, 0, 0), mark(1), (29, 0, 0), (19, 1, 3), (29, 0, 0)]
    steps += [(11, 0, 0), (29, 2, 0), (26, 0, 2), (27, 0, 9)]
    yield "write: a store that grows", packed((9, 30, 2, 9, 90), steps, b"")


# -- the model's own test


def by_hand():
    """How many hand-written answers the model gives; each must be given."""
    count = 0
    for table, result in ((6, 600), (1100, 70000)):
        for what, calls, tries in cases(table, result):
            most = 70000 if data(65532) in calls else 600
            for entries, position, answer in tries:
                store = model.Model((most, 90, table, max(result, most), 0), POOL)
                for call in calls:
                    assert store.step(*call).startswith(("stored", "set")), (what, call)
                for m, at in entries.items():
                    store.step(19, m, at)
                then = copy.deepcopy(vars(store))
                line = store.step(29, position, 0)
                assert line == answer, (what, entries, position, line, answer)
                if line.startswith("length "):  # the code, and no more
                    end = position + int(line.split()[1])
                    then["result"][position:end] = store.result[position:end]
                assert vars(store) == then, (what, entries, position)
                count += 1
    return count


class Paired(model.Model):
    """Makes every assembly also as settling and then writing."""

    made = coded = 0

    def assemble(self, position):
        pair = copy.copy(self)
        pair.table, pair.result = self.table[:], self.result[:]
        kept = pair.result[:]
        settled = pair.answer(pair.settle)
        offsets = pair.table[:]
        written = pair.answer(pair.write, position)
        assert pair.table == offsets
        try:
            line = super().assemble(position)
        except model.Refused as r:
            if r.number == 13:
                assert settled.endswith(f" passes {r.passes}") and written == "refused 13 at 0 passes 0"
            else:
                assert settled == f"refused {r.number} at {r.section} passes {r.passes}" and not any(offsets)
            assert written.startswith("length ") or pair.result == kept
            raise
        finally:
            Paired.made += 1
        assert settled == line and written == line[: line.index(" passes")] + " passes 0"
        assert pair.table == self.table and pair.result == self.result
        Paired.coded += 1
        return line


def main(first, last):
    print(f"{by_hand()} answers written by hand are the model's")
    for seed in range(first, last):
        model.replay(gen.script(seed), Paired)
    print(f"seeds {first} to {last - 1}: {Paired.made} assemblies are settling and then writing, {Paired.coded} of them with code")


if __name__ == "__main__":
    main(int(sys.argv[1]), int(sys.argv[2]))
