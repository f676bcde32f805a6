"""Lists of building calls: short ones exhaustively, random ones from a seed. A call is a step of docs/REPLAY.md, (kind, a, b);
data, words and runs of op bytes are parts of POOL."""
import itertools, random
from collections.abc import Callable, Iterator
from scripts import gen, model

Call = tuple[int, int, int]
Calls = list[Call]

FORMS, MARK, TOP = model.FORMS, model.MAX_MARK, gen.TOP
CHUNK = 8192  # longer data are pushed in parts

# Words of 32 bytes: 0, then of every byte length the least number, a middle one and the largest.
NUMBERS = [0] + [v for n in range(32) for v in (256**n, 0x80 * 256**n + n, 256 ** (n + 1) - 1)]
WORDS = b"".join(v.to_bytes(32, "big") for v in NUMBERS)
RISING = CHUNK + 64  # where, after the words, the bytes 00 to ff stand in their order
POOL = WORDS + random.Random(0).randbytes(RISING) + bytes(range(256))

mark = lambda m: (1, m, 0)
op = lambda byte: (2, byte, 0)
direct = lambda m, form: (4, m, form)
swap = lambda depth: (5, depth, 0)
dup = lambda depth: (6, depth, 0)
exchange = lambda n, m: (7, n, m)
u256 = lambda i: (8, 32 * i, 32 * i + 32)
u64 = lambda v: (9, v >> 32, v & TOP)
u32 = lambda v: (10, v, 0)
clear = (11, 0, 0)
run = lambda n, skip=0: (12, len(WORDS) + skip, len(WORDS) + skip + n)
delta = lambda start, end, form: (32 + form, start, end)


def data(n: int, skip: int = 0) -> Calls:
    """Data of n bytes."""
    at = len(WORDS) + skip
    return [(3, at, at + min(CHUNK, n - done)) for done in range(0, n, CHUNK)] or [(3, at, at)]


# -- exhaustively

ALL = [mark(0), mark(1), op(0x5B), op(0x60), *data(2), *data(0), swap(1), dup(0), exchange(1, 2), exchange(0, 1), u256(4), u64(0), u32(256), clear]
ALL += [direct(0, form) for form in FORMS] + [delta(0, 1, form) for form in FORMS] + [direct(1, 8), delta(1, 0, 8), delta(0, 0, 0)]
ALL += [run(2, RISING + 0x5F), run(0)]
ALL += [swap(0), dup(16), exchange(1, 1), exchange(1, 17), mark(MARK + 1), direct(MARK + 1, 8), delta(0, MARK + 1, 8)]
SOME = [mark(0), mark(1), op(0x5B), *data(2), *data(0), direct(0, 8), direct(1, 0), direct(1, 9), delta(0, 1, 8), delta(1, 0, 0), clear, run(2, RISING + 0x5F), run(0)]
FEW = [mark(0), mark(1), op(0x5B), *data(0), direct(0, 8), direct(1, 0), delta(0, 1, 8)]


def unplaced(calls: Calls) -> list[int]:
    """Which of the marks 0 and 1 are named and not placed."""
    named = {m for kind, a, b in calls for m in ((a,) if kind == 4 else (a, b) if kind >= 32 else ())}
    return [m for m in (0, 1) if m in named and mark(m) not in calls]


def short() -> Iterator[Calls]:
    """Every op byte alone, also as a run; every list of up to 3 calls of ALL, of 4 of SOME, of 5 of FEW; where a mark isn't placed,
    also with it placed at the end."""
    yield from ([op(byte)] for byte in range(256))
    yield from ([run(1, RISING + byte)] for byte in range(256))
    for letters, lengths in ((ALL, range(4)), (SOME, (4,)), (FEW, (5,))):
        for calls in itertools.chain(*(itertools.product(letters, repeat=n) for n in lengths)):
            yield list(calls)
            if marks := unplaced(calls):
                yield [*calls, *map(mark, marks)]


# -- at random

OTHERS = (lambda r: op(r.randrange(256)), lambda r: op(0x60 + r.randrange(32)), lambda r: swap(r.randint(1, 16)), lambda r: dup(r.randrange(16)),
          lambda r: exchange(*r.sample(range(17), 2)), lambda r: u256(r.randrange(len(NUMBERS))),
          lambda r: u64(number(r, 8)), lambda r: u32(number(r, 4)))  # fmt: skip
# They, and, half of the choices, runs: in rising order, of any bytes, and none or one.
RUNS = OTHERS + 3 * (lambda r: run(r.randint(0, 60), RISING + r.randrange(196)), lambda r: run(r.randint(0, 60), r.randrange(CHUNK)),
                     lambda r: run(r.randrange(2), r.randrange(CHUNK)))  # fmt: skip
Others = tuple[Callable[[random.Random], Call], ...]


def number(r: random.Random, size: int) -> int:
    """Of any byte length, often at its ends."""
    n = r.randrange(size)
    return r.choice((0, 256**n, 256 ** (n + 1) - 1, r.randrange(256 ** (n + 1))))


def form(r: random.Random, narrow: float) -> int:
    """Set sizes of 1 only as often as told."""
    if r.random() < narrow:
        return r.choice((1, 9, 2, 10))
    return r.choice((0, 0, 0, 8, 8, 8, 8, 2, 3, 4, 10, 11, 12))


def least(call: Call) -> int:
    """The least size of what a call adds (a minimal push taken as 17)."""
    kind, a, b = call
    if kind in (4, *range(32, 45)):
        f = b if kind == 4 else kind - 32
        return f % 8 + (f >= 8) if f % 8 else 1
    return {1: 0, 3: b - a, 7: 3 if a and b else 1, 8: 17, 9: 5, 10: 3, 11: 0, 12: b - a}.get(kind, 1)


def brought_near(r: random.Random, calls: Calls, near: int, slack: int) -> Calls:
    """With data before a mark, or between two, so that its offset or their delta is about a number when references are least; and
    with a few references of that value, now and then with the size that is just too narrow past it."""
    places = [i for i, c in enumerate(calls) if c[0] == 1]
    i, j = sorted(r.choices(places, k=2)) if r.random() < 0.4 else (0, r.choice(places))
    end = calls[j][1]
    forms = (0, 8, 10) + (() if r.random() < 0.6 else (1, 9) if near == 256 else (2, 10))
    refs = [delta(calls[i][1], end, f) if i in places else direct(end, f) for f in r.choices(forms, k=r.choice((0, 1, 1, 2)))]
    gap = near - sum(map(least, calls[i:j])) - r.randint(-2, 2 + 2 * slack)
    here = r.randint(i, j)
    calls = calls[:here] + data(max(0, gap), r.randrange(64)) + calls[here:]
    for ref in refs:
        calls.insert(r.randint(0, len(calls)), ref)
    return calls


def layout(r: random.Random, near: int = 0, others: Others = OTHERS) -> Calls:
    """Marks placed once, references of every form between them; with `near`, an offset or a delta about that number."""
    k = r.choice((1, 2, 3, 3, 5))
    marks = list(range(k)) if r.random() < 0.95 else r.sample((0, 1, 126, 127, 128, 129, 255, 256, 511, 512, 1023, 1099), k)
    narrow = r.choice((0, 0, 0.02, 0.3)) if not near else 0
    calls = [mark(m) for m in marks] + [r.choice(others)(r) for _ in range(r.choice((0, 1, 3)))]
    calls += [c for _ in range(r.choice((0, 1, 2))) for c in data(r.choice((0, 1, 2, 31)), r.randrange(64))]
    many = r.choice((1, 2, 4, 8, 15))
    refs = [("direct", r.choice(marks)) for _ in range(many)] + [("delta", *r.choices(marks, k=2)) for _ in range(r.randint(0, many))]
    calls += refs
    r.shuffle(calls)
    at = {c[1]: i for i, c in enumerate(calls) if c[0] == 1}
    loose = r.random() < 0.1  # some deltas the wrong way round, or a mark that isn't placed
    for i, c in enumerate(calls):
        if c[0] == "direct":
            calls[i] = direct(c[1] if not loose or r.random() < 0.9 else c[1] + 1, form(r, narrow))
        elif c[0] == "delta":
            ends = c[1:] if loose and r.random() < 0.3 else sorted(c[1:], key=lambda m: at[m])
            calls[i] = delta(*ends, form(r, narrow))
    if near:
        calls = brought_near(r, calls, near, many)
    if r.random() < 0.03:
        calls.insert(r.randint(0, len(calls)), clear)
    return calls


def chain(r: random.Random, near: int) -> Calls:
    """01's line 11, smaller: each reference that grows makes the next one grow, a pass later."""
    n = r.randint(2, 60)
    forms = [r.choice((8, 8, 8, 0)) if r.random() < 0.3 else 8 for _ in range(n)]
    before = (1 if near == 256 else 2) * n + sum(f == 8 for f in forms) + n - 1
    calls = [direct(m, f) for m, f in zip(range(n, 0, -1), forms)] + data(near - before + r.choice((-1, 0, 0, 0, 0, 1)))
    for m in range(n, 0, -1):
        calls += [mark(m), *(data(1) if m > 1 else [])]
    return calls


def overtaken(r: random.Random) -> Calls:
    """A delta whose start is moved past its end's entry before the end is moved: it reads 0 for a while."""
    k = r.randint(2, 12)
    calls = [direct(r.choice((1, 2)), r.choice((0, 8, 8))) for _ in range(k)] + [mark(0)]
    calls += [delta(0, 1, form(r, 0.2)) for _ in range(r.choice((1, 1, 2)))] + [mark(1), *data(r.choice((0, 1, 230, 256 - 3 * k)), r.randrange(64)), mark(2)]
    return calls + [delta(r.choice((0, 1)), 2, form(r, 0.1)) for _ in range(r.randrange(3))]


def again(r: random.Random, others: Others) -> Calls:
    """Marks placed more than once, mostly with nothing between."""
    calls = layout(r, r.choice((0, 256)), others)
    for _ in range(r.choice((1, 1, 2, 3))):
        places = [i for i, c in enumerate(calls) if c[0] == 1]
        i = r.choice(places)
        between = r.choice(([], [], data(0), [mark(calls[i][1] + 1)], [r.choice(calls)]))
        calls[i + 1 : i + 1] = [*between, mark(calls[i][1])]
    return calls


def mixed(r: random.Random, others: Others) -> Calls:
    """Any calls in any order."""
    calls = []
    for _ in range(r.randint(0, 30)):
        x = r.random()
        if x < 0.2:
            calls.append(mark(len([c for c in calls if c[0] == 1])))
        elif x < 0.4:
            calls += data(r.choice((0, 0, 1, 2, 3, 250)), r.randrange(64))
        elif x < 0.5:
            m = r.randrange(4)
            calls.append(r.choice((direct(m, r.choice(FORMS)), delta(m // 2, m, r.choice(FORMS)))))
        else:
            calls.append(r.choice(others)(r))
    if r.random() < 0.3:
        calls.insert(r.randint(0, len(calls)), clear)
    return calls


# Stores of ten sections that never settle.
RESTLESS = [[c for kind, a, b in steps for c in (data(a) if kind == 3 else [(kind, a, b)])] for steps in gen.RESTLESS]


def restless(r: random.Random) -> Calls:
    """They, sometimes with one thing changed."""
    calls = list(r.choice(RESTLESS))
    if r.random() < 0.5:
        i = r.randrange(len(calls))
        calls[i : i + 1] = data(r.randint(245, 258)) if calls[i][0] == 3 else [calls[i], op(0)]
    return calls


def bad(r: random.Random, others: Others) -> Calls:
    """A call that we refuse, somewhere in a list."""
    calls = r.choice((mixed, layout))(r, others=others)
    high = r.randint(17, 255)
    wrong = [swap(0), swap(high), dup(high - 1), exchange(r.randint(0, 16), high), exchange(high, r.randint(0, 16))]
    wrong += [exchange(*[r.choice((0, 1, 16, 17, 255))] * 2), direct(MARK + 1, 8), delta(TOP, 0, 0), delta(0, MARK + 1, 9), mark(MARK + 1), mark(TOP)]
    calls.insert(r.randint(0, len(calls)), r.choice(wrong))
    return calls


def one(seed: str, others: Others = OTHERS) -> Calls:
    """The list of a seed, with these calls beside marks, data and references."""
    r = random.Random(seed)
    ways = (lambda: layout(r, 0, others), 16), (lambda: layout(r, 256, others), 40), (lambda: layout(r, 65536, others), 8)
    ways += (lambda: chain(r, 256), 6), (lambda: chain(r, 65536), 1), (lambda: overtaken(r), 6), (lambda: again(r, others), 8)
    ways += (lambda: mixed(r, others), 8), (lambda: restless(r), 1), (lambda: bad(r, others), 6)
    return r.choices([way for way, _ in ways], [weight for _, weight in ways])[0]()


def at_random(seed: int, count: int) -> Iterator[Calls]:
    """Every second one with runs."""
    return (one(f"{seed} {i}", RUNS if i % 2 else OTHERS) for i in range(count))
