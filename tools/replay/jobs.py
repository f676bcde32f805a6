"""Jobs at both sides of every limit: for the sample, for compare.py and for tools/job/test.py."""
import struct
from gen import RESTLESS, TOP, job, parts

MARK = 1048575  # the largest number of a mark
TABLE = 16384
ROOM = 65536  # store bytes, and result bytes
STEPS = 3640  # as many as 32,768 bytes hold

mark = lambda m: (1, m, 0)
op = lambda byte: (2, byte, 0)
data = lambda a, b: (3, a, b)
direct = lambda m, form: (4, m, form)
delta = lambda start, end, form: (32 + form, start, end)

LINE_12 = job(b"\xaa\xbb", mark(0), op(0x5B), direct(1, 8), op(0x56), mark(1), op(0x5B), data(0, 2), delta(0, 1, 2))


def line_11(n, p):
    """N pushed references to marks N down to 1, P data bytes, marks N down to 1, a data byte between neighbours."""
    pool = bytes(740)  # about as long as the steps that repeat it
    marks = [step for m in range(n, 0, -1) for step in (mark(m), data(0, 1))][:-1]
    return job(pool, *(direct(m, 8) for m in range(n, 0, -1)), *parts(pool, p), *marks)


def lengths():
    """15 for the job's length, or for a count that isn't its own: pool counts that pass 2^32 with what is added to them, a step count
    whose ninefold fits if it wraps there."""
    one = job(b"\xaa\xbb", op(1), op(2))
    counts = lambda *of: struct.pack(f">{len(of)}I", *of)
    yield "no bytes", b""
    yield "3 bytes", one[:3]
    yield "a pool count alone", counts(0)
    yield "a pool count of 2 alone", one[:4]
    yield "a pool that is short", one[:5]
    yield "no step count", one[:6]
    yield "3 bytes of a step count", one[:9]
    yield "no steps", one[:10]
    yield "one step of two", one[:19]
    yield "a byte too short", one[:-1]
    yield "a byte too long", one + b"\0"
    yield "a step too long", one + one[-9:]
    yield "a pool count that is one too large", counts(3) + one[4:]
    yield "a pool count that is one too small", counts(1) + one[4:]
    yield "a pool count of 2^32 - 1", counts(TOP, 0)
    yield "the same with steps", counts(TOP) + one[4:]
    yield "a step count of 2^32 - 1", counts(0, TOP)
    yield "the same with a pool and steps", one[:6] + counts(TOP) + one[10:]
    yield "both", counts(TOP, TOP)
    for n in (4, 8, 9):
        yield f"a pool count of 2^32 - {n}", counts(TOP + 1 - n, 0, 0)
    yield "a step count whose ninefold is 1 past a multiple of 2^32", counts(0, 954437177) + b"\1"
    yield "two zero counts and a byte", counts(0, 0) + b"\0"


def fields(kinds=(0, 1, 2, 3, 4, 5, *range(31, 46), 255)):
    """Kinds and fields, listed and unlisted; the rest of each job is in order."""
    for kind in kinds:
        yield f"kind {kind}", job(b"", mark(0), (kind, 0, 0))
    for n in (1, 256, 2**24, TOP):
        yield f"a mark's second number {n}", job(b"", (1, 0, n))
        yield f"an op byte's second number {n}", job(b"", (2, 0, n))
    for n in (0, 255, 256, 2**16, 2**24, TOP):
        yield f"op {n}", job(b"", op(n))
    for a, b in ((0, 0), (0, 2), (2, 2), (1, 0), (2, 1), (0, 3), (2, 3), (3, 2), (3, 3), (0, 2**24), (0, TOP), (TOP, 2), (TOP, TOP)):
        yield f"data {a} to {b} of 2", job(b"\xaa\xbb", data(a, b))
    for form in (*range(17), 256, 2**24 + 8, TOP):
        yield f"form {form}", job(b"", mark(0), direct(0, form))


def marks():
    """Each field that is a mark, with each number: code or 8, 17 or 18, 7, 3."""
    for m in (TABLE - 1, TABLE, MARK, MARK + 1, TOP):
        yield f"mark {m}", job(b"", op(0), mark(m))
        yield f"direct {m}", job(b"", op(0), direct(m, 8))
        yield f"start {m}", job(b"", op(0), mark(0), delta(m, 0, 8))
        yield f"end {m}", job(b"", op(0), mark(0), delta(0, m, 8))
    yield "the last mark of the table", job(b"", op(0), op(0), mark(TABLE - 1), direct(TABLE - 1, 8), delta(TABLE - 1, TABLE - 1, 0))


def refusals():
    """Numbers 3, 7 to 12, 17 and 18, most at a section whose index isn't the step's; 15 where a call would be refused first."""
    ops = op(0x60), op(0x5B), op(0), op(0x5B)
    yield "3 from the second call", job(b"", op(0), mark(MARK + 1))
    yield "3 before what assembly would refuse", job(b"", direct(5, 8), mark(MARK + 1), mark(TABLE))
    yield "3 before a later kind that isn't listed", job(b"", mark(MARK + 1), op(1), (5, 0, 0))
    yield "3 before a later form", job(b"", mark(MARK + 1), direct(0, 5))
    yield "3 before a later op byte", job(b"", mark(TOP), op(1), op(256))
    yield "3 before a later part of the pool", job(b"\xaa", direct(MARK + 1, 8), data(0, 2))
    yield "3 and a byte too long", job(b"", mark(MARK + 1)) + b"\0"
    yield "7 after joined op bytes", job(b"", *ops, mark(0), op(1), op(1), mark(TABLE))
    yield "7 before 8", job(b"", *ops, direct(5, 8), direct(TABLE, 0))
    yield "8 after joined op bytes", job(b"", *ops, direct(5, 8))
    yield "18 after joined data", job(b"\xaa\xbb", data(0, 1), data(0, 0), data(1, 2), delta(0, 5, 0), mark(0))
    yield "17 after joined op bytes", job(b"", *ops, delta(5, 0, 8), mark(0))
    yield "17, both ends", job(b"", *ops, delta(5, 6, 0), mark(0))
    yield "17, one mark as both ends", job(b"", *ops, delta(5, 5, 8), mark(0))
    yield "17 before a later 8", job(b"", *ops, mark(0), delta(5, 0, 8), direct(5, 8))
    yield "18 before a later 8", job(b"", *ops, mark(0), delta(0, 5, 8), direct(5, 8))
    yield "8 before a later 17", job(b"", *ops, mark(0), direct(5, 8), delta(5, 0, 8))
    yield "7 before an earlier 18", job(b"", *ops, mark(0), delta(0, 5, 8), mark(TABLE))
    yield "8 after op bytes and data", job(b"\xaa", *ops, data(0, 1), op(0), data(0, 0), direct(5, 8))
    yield "8 at a section of two digits", job(b"", *map(mark, range(11)), *ops, direct(11, 8))
    yield "9 after joined op bytes", job(b"", mark(0), *ops, mark(0))
    yield "a mark twice with no bytes between", job(b"", mark(0), data(0, 0), mark(0), direct(0, 0))
    yield "10 after joined op bytes", job(bytes(254), *ops, direct(0, 9), data(0, 254), mark(0))
    yield "10 in the second pass", job(bytes(253), *ops, direct(1, 1), direct(0, 8), data(0, 249), mark(1), data(0, 1), mark(0))
    yield "12 after joined op bytes", job(b"", mark(0), *ops, mark(1), delta(1, 0, 8))
    for i, steps in enumerate(RESTLESS):
        yield f"11, store {i}", job(bytes(252), *(data(0, a) if kind == 3 else (kind, a, b) for kind, a, b in steps))


def layouts():
    """The layouts tried by hand that a job can have, 1 to 10; line 12."""
    yield "two zero counts", job(b"")
    for form in (8, 0, 9):
        yield f"lines 2 to 4, form {form}", job(b"", mark(0), direct(0, form))
    yield "line 5", job(b"", direct(0, 8), mark(0), op(0x5B))
    for n, form in ((253, 8), (254, 8), (254, 9)):
        yield f"lines 6 to 8, {n} bytes, form {form}", job(bytes(254), direct(0, form), data(0, n), mark(0))
    for start, end in ((0, 1), (1, 0)):
        yield f"line 9, {start} to {end}", job(b"\xaa\xbb", mark(0), data(0, 2), mark(1), delta(start, end, 8))
    yield "line 10", job(b"", mark(0), mark(0))
    yield "line 10, apart", job(b"", mark(0), op(0x5B), mark(0))
    yield "line 12", LINE_12


def full():
    """The store's and the result's last byte, and one more."""
    pool = bytes((7 * i + i // 256) % 256 for i in range(1021))
    most, less = parts(pool, ROOM), parts(pool, ROOM - 1)
    yield "65,536 bytes", job(pool, *most)
    yield "4, of data", job(pool, *most, data(0, 1))
    yield "4, of an op byte", job(pool, *most, mark(0), op(0))
    yield "4, of data that is too long by one", job(pool, *less, data(0, 2))
    yield "4 before a later 3", job(pool, *most, op(0), mark(TOP))
    yield "3 before a later 4", job(pool, mark(TOP), *most, op(0))
    yield "4 before a later op byte", job(pool, *most, op(0), op(256))
    yield "13", job(pool, *most, mark(0), data(5, 5), direct(1, 0), mark(1), delta(1, 1, 8))
    yield "13 by one", job(pool, *most, mark(0), delta(0, 0, 0))
    yield "13 by one, pushed", job(pool, mark(0), *less, direct(0, 9))
    yield "12 before 13", job(pool, mark(0), *most, mark(1), delta(1, 0, 0))
    yield "11 of line 11", line_11(1023, 61445)


# Four jobs in one run of bytes, each inside the one before. A step of kind 32 has eight bytes that are another job's two counts, or
# four that are its step count.
NESTED = b"".join((
    struct.pack(">I6x", 28),  # a pool of 28 bytes, up to the second step below, whose second number is the count of steps: 3,637
    struct.pack(">II", 0, STEPS + 1),
    struct.pack(">BII", *delta(0, STEPS, 0)),
    struct.pack(">BII", *delta(0, STEPS - 3, 0)),
    struct.pack(">BII", *mark(0)),
    struct.pack(">BII", *delta(0, STEPS - 3, 0)),
    *(struct.pack(">BII", *mark(m)) for m in range(STEPS - 3, 1, -1)),
    struct.pack(">BII", *direct(0, 8)),
))


def longest():
    """32,769 bytes; 3,641 steps; 3,640 steps, which are 32,768 bytes; the last 3,637 of them, in which mark 0 isn't placed."""
    yield "32,769 bytes", NESTED[:32769]
    yield "3,641 steps", NESTED[10:]
    yield "3,640 steps", NESTED[19:]
    yield "8 at 3,636", NESTED[46:]


def cases():
    """Those of the sample: (what, job)."""
    for some in (layouts, lengths, fields, marks, refusals, longest, full):
        yield from some()


def more():
    """Those that would make the sample long."""
    yield from fields(range(256))
    pool = bytes(range(1, 252)) * 4
    most, less = parts(pool, ROOM), parts(pool, ROOM - 1)
    yield "65,536 bytes, the last by a reference", job(pool, *less, mark(0), delta(0, 0, 0))
    yield "65,535 bytes", job(pool, *less)
    yield "65,536 bytes and an empty part", job(pool, *most, mark(0), data(7, 7), mark(1))
    yield "line 11 that settles", line_11(1022, 61449)
    for n in range(32755, 32775):
        yield f"{n} bytes, nearly all pool", job(bytes(n - 35), mark(3), data(n - 37, n - 35), direct(3, 8))
    yield "nearly a megabyte of zeros", bytes(2**20 - 300)
    yield "32,768 bytes of pool alone", job(bytes(32760))
    yield "the longest job and a byte", job(b"", *([op(0x5B)] * STEPS)) + b"\0"
    yield "32,769 bytes of pool alone", job(bytes(32761))
    for n in range(len(LINE_12)):
        yield f"{n} bytes of line 12", LINE_12[:n]
        for byte in (0, 1, 255):
            yield f"line 12 with byte {n} as {byte}", LINE_12[:n] + bytes([byte]) + LINE_12[n + 1 :]


def edges():
    """Scripts for compare.py: (what, script). Jobs on scripts with slices of any length; the script's own store before and after."""
    steps = lambda all: b"".join(struct.pack(">BII", *step) for step in all)
    store = mark(0), op(0x5B), direct(1, 8), mark(1), data(0, 2), (20, 0, 0), (21, 0, 0)
    for lengths, some in (((0, 0, 0, 0, 0), cases()), ((3, 9, 2, 9, 99), more()), ((99, 99, 9, 99, 99), cases())):
        told = [(24 + i, 0, n) for i, n in enumerate(lengths)]
        for what, one in some:
            whole = [*store, *told, (30, 2, 2 + len(one)), *told, op(1), (20, 0, 0), *told]
            yield f"job: {what}, slices {lengths}", struct.pack(">6I", *lengths, 2 + len(one)) + b"\xaa\xbb" + one + steps(whole)
    n = len(LINE_12)
    some = [(30, a, b) for a in (0, 1, 2, 3, n + 1, n + 2, n + 3, TOP) for b in (0, 1, 2, 3, n + 1, n + 2, n + 3, TOP)]
    yield "jobs from parts of a pool", struct.pack(">6I", 0, 0, 0, 0, 0, n + 2) + b"\0\0" + LINE_12 + steps(some)
