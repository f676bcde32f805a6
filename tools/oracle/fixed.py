"""The fixed list: call lists on which the original's answers are kept in the replay sample. tools/replay/sample.py puts them
there; every list meets demand 2's premises, so that replay must answer the same."""
from collections.abc import Iterator
import lists
from lists import FORMS, NUMBERS, RISING, data, delta, direct, dup, exchange, mark, op, run, swap, u256, u32, u64
from scripts import Step, model

SEED, RANDOM, WITH_RUNS = "fixed", 220, 60  # random lists tried
LONGEST, AGAIN = 1200, 100  # bytes of code printed whole: an assembly's, and a write's


def by_hand() -> Iterator[lists.Calls]:
    """Every op byte, depth, width of a minimal push, and form at each width of its value; runs of op bytes."""
    for first in range(0, 256, 32):
        yield [c for byte in range(first, first + 32) for c in (op(byte), mark(byte))]
    yield [swap(n) for n in range(1, 17)] + [dup(n) for n in range(16)]
    yield [exchange(n, m) for n, m in ((0, 1), (1, 0), (0, 16), (16, 0), (1, 2), (2, 1), (16, 1), (15, 16))]
    for first in range(0, len(NUMBERS), 25):
        yield [c for i in range(first, min(first + 25, len(NUMBERS))) for c in (u256(i), *data(0))]
    for call, size in ((u64, 8), (u32, 4)):
        yield [call(v) for n in range(size) for v in (256**n - 1, 256**n, 256 ** (n + 1) - 1)]
    for value in (0, 1, 255, 256, 65535, 65536):
        for form in FORMS:
            yield [*data(7 if value < 65535 else 0), mark(5), *data(value), mark(6), delta(5, 6, form)]
            yield [*data(value), mark(6), direct(6, form)]
    for before in (252, 253, 254):  # the value counts the reference itself
        for form in FORMS:
            yield [direct(0, form), *data(before), mark(0)]
    yield [run(256, RISING)]
    yield [run(0), mark(0), run(0), mark(0), run(2, RISING + 0x5F), mark(1), run(0), mark(1), run(1, RISING + 0x56), direct(1, 8)]
    for other in (op(0x60), *data(1), *data(0), u32(256), direct(0, 8), delta(0, 0, 0)):
        yield [mark(0), run(0), other, run(3, RISING + 0x5F), other, run(0), other, run(40), run(60), other]


def code(start: int, end: int, most: int) -> Iterator[Step]:
    """A code in the result, or the ends of a long one."""
    yield from ((27, start, end),) if end - start <= most else ((27, start, start + 40), (27, end - 40, end))


def steps(base: int, lengths: tuple[int, ...]) -> Iterator[Step]:
    """The steps, for a pool that has POOL at `base`, and for slices of these lengths."""
    store = model.Model(lengths, lists.POOL)
    without = (lists.one(f"{SEED} {i}") for i in range(RANDOM))
    runs = (lists.one(f"{SEED} runs {i}", lists.RUNS) for i in range(WITH_RUNS))
    for calls in (*by_hand(), *without, *runs):
        store.anew()
        built = all(store.step(*call).startswith("stored ") for call in calls)
        word, number, *_ = store.step(20, 0, 0).split()
        if not built or not (word == "length" or number == "10"):
            continue
        yield 0, 0, 0
        yield from ((kind, a + base, b + base) if kind in (3, 8, 12) else (kind, a, b) for kind, a, b in calls)
        yield 20, 0, 0
        if word == "length":
            end = int(number)
            yield 26, 0, max((a + 1 for kind, a, _ in calls if kind == 1), default=0)
            yield from code(0, end, LONGEST)
            # settled, and written so that it ends with the result
            at = lengths[3] - end
            yield from ((23, 0, 0), (29, at, 0), *code(at, lengths[3], AGAIN))
        else:
            yield 23, 0, 0
        word, number, *_ = store.step(21, 0, 0).split()
        if word == "listing":
            yield from ((21, 0, 0), (28, 0, int(number)))
