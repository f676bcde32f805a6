#!/usr/bin/env python3
"""Writes the sample script of `replay` and what it must print: sample.py [--check] DRIVER [FOLDER] (../../crates/replay).
With --check it compares instead. The expected lines are the model's, those of jobs too, so that program and model are compared;
those of the last part, the fixed list, are the original's (DRIVER is tools/oracle's), but for what the original doesn't answer. One
header serves the whole script; cases are parted by kind 0, and a full slice is met near its end."""
import os, struct, sys
import gen, jobs, model

sys.path.append(os.path.join(os.path.dirname(os.path.abspath(__file__)), "../oracle"))
import fixed, lists, scripts

LENGTHS = BYTES, WORDS, TABLE, RESULT, LISTING = 65536, 9300, 1100, 70000, 4096  # room for line 11
SECTIONS = WORDS // 3
NEAR_BYTES, NEAR_SECTIONS = 80, 12  # what is printed of the slices, and what is left where one is nearly full
NEAR_WORDS = 3 * NEAR_SECTIONS
TOP = 2**32 - 1
MARK = 1048575
FORMS = (0, 1, 2, 3, 4, 8, 9, 10, 11, 12)

pool = bytearray()
steps = []
live = model.Model(LENGTHS, pool)


def keep(what):
    """The part of the pool that holds these bytes."""
    at = pool.find(what)
    if at < 0:
        at = len(pool)
        pool.extend(what)
    return at, at + len(what)


def step(kind, a=0, b=0):
    """One step, taken by a model too, for what the next steps need to know of the store."""
    steps.append(struct.pack(">BII", kind, a, b))
    return live.step(kind, a, b)


new = lambda: step(0)
mark = lambda m: step(1, m)
op = lambda b: step(2, b)
data = lambda what: step(3, *keep(what))
direct = lambda m, form: step(4, m, form)
swap = lambda d: step(5, d)
dup = lambda d: step(6, d)
exchange = lambda n, m: step(7, n, m)
u256 = lambda v: step(8, *keep(v.to_bytes(32, "big")))
u64 = lambda v: step(9, v >> 32, v & TOP)
u32 = lambda v: step(10, v)
clear = lambda: step(11)
ops = lambda what: step(12, *keep(what))
scan = lambda what: step(13, *keep(what))
set_byte = lambda i, v: step(16, i, v)
set_word = lambda i, v: step(17, i, v)
counts = lambda b, s: step(18, b, s)
entry = lambda m, at: step(19, m, at)
settle = lambda: step(23, TOP, TOP)
write = lambda position=0: step(29, position, TOP)
delta = lambda start, end, form: step(32 + form, start, end)


def show():
    step(24, 0, NEAR_BYTES)
    step(25, 0, NEAR_WORDS)


def show_ends():
    step(24, BYTES - NEAR_BYTES, BYTES)
    step(25, WORDS - NEAR_WORDS, WORDS)


def nearly_full(bytes_left, sections_left):
    """A mark as the last section, and this much left. Only the last section is good, and a building call reads no other."""
    new()
    record(SECTIONS - sections_left - 1, 0, 7, 0)
    counts(BYTES - bytes_left, SECTIONS - sections_left)


def run_of(kind, what):
    """A section of Ops (1) or Data (2) of its own, also after one of its kind."""
    data(what)
    set_word(3 * live.s - 3, kind)


def listed(more=0):
    """The listing, and these many bytes of the buffer after it."""
    line = step(21)
    if line.startswith("listing "):
        step(28, 0, int(line.split()[1]) + more)


def record(i, *words):
    for j, w in enumerate(words):
        set_word(3 * i + j, w)


def every_call():
    """Each building call but clear, once."""
    mark(1)
    op(0x5B)
    data(b"\xaa\xbb")
    direct(1, 8)
    swap(1)
    dup(0)
    exchange(1, 2)
    u256(2**255)
    u64(2**32)
    u32(256)
    delta(1, 2, 8)
    ops(b"\x60\x5b")


def zeros(n):
    """Data of so many bytes 0."""
    while n > 2048:
        data(bytes(2048))
        n -= 2048
    data(bytes(n))


def coded(position=0):
    """The code at a position: the first entries of the table, and the result's bytes around the code's start and end."""
    line = step(20, position, TOP)
    step(26, 0, 4)
    if line.startswith("length "):
        end = position + int(line.split()[1])
        step(27, max(0, position - 1), min(end, position + 60))
        step(27, max(position, end - 12), min(RESULT, end + 1))
    else:
        step(27, 0, 4)


# nothing done yet; clear of an empty store; prints of nothing
show()
clear()
for a in (0, 1, BYTES):
    step(24, a, a)
for a in (0, 1, WORDS):
    step(25, a, a)
step(24, 7, 9)
step(25, 3, 4)

# each call once, in one store
new()
every_call()
show()
clear()
op(1)
show()

# joining: op bytes extend Ops, data Data, and nothing else
new()
op(0x60)
op(0xFF)
data(b"\x01\x02")
data(b"\x03")
op(0x56)
mark(0)
op(0x5B)
direct(0, 0)
data(b"\x04")
delta(0, 0, 0)
data(b"\x05")
show()

# empty data: on an empty store, after Data, after the others
new()
data(b"")
data(b"")
op(0)
data(b"")
data(b"")
mark(3)
data(b"")
direct(3, 1)
data(b"")
delta(3, 3, 1)
data(b"")
data(b"\x07")
show()

# every form of a direct reference and of a delta
for call in (lambda f: direct(f, f), lambda f: delta(f, f + 1, f)):
    new()
    for form in FORMS:
        call(form)
    show()

# number 1: depths
new()
for d in (0, 1, 2, 15, 16, 17, 255):
    swap(d)
for d in (0, 1, 14, 15, 16, 17, 255):
    dup(d)
for n, m in ((0, 1), (1, 0), (0, 16), (16, 0), (1, 2), (2, 1), (16, 15), (15, 16)):
    exchange(n, m)
for n, m in ((0, 0), (5, 5), (16, 16), (17, 17), (0, 17), (17, 0), (16, 17), (17, 16), (255, 0), (1, 255)):
    exchange(n, m)
show()

# minimal pushes at each boundary
for call, values in (
    (u32, (0, 1, 255, 256, 65535, 65536, 2**24 - 1, 2**24, TOP)),
    (u64, (0, 255, 256, TOP, 2**32, 2**40 - 1, 2**40, 2**56 - 1, 2**56, 2**64 - 1)),
    (u256, (0, 1, 255, 256, 2**64, 2**120 + 5)),
    (u256, (2**248 - 1, 2**248)),
    (u256, (2**256 - 1, 2**255)),
):
    new()
    for v in values:
        call(v)
    show()

# number 2: words of other lengths; before 6
new()
for n in (0, 1, 31, 33, 64):
    step(8, *keep(bytes(range(n))))
counts(1, 0)
step(8, *keep(bytes(range(31))))
u256(7)
show()

# number 3: mark numbers at the limit and above; before 6
new()
mark(MARK)
direct(MARK, 12)
delta(MARK, 0, 4)
delta(0, MARK, 0)
for m in (MARK + 1, 2**31, TOP):
    mark(m)
    direct(m, 0)
    delta(m, 0, 8)
    delta(0, m, 8)
    delta(m, m, 12)
counts(TOP, TOP)
mark(MARK + 1)
direct(MARK + 1, 0)
delta(0, MARK + 1, 0)
mark(MARK)
show()

# number 4: the byte slice exactly full, one byte short, and a call's bytes judged whole
nearly_full(NEAR_BYTES, NEAR_SECTIONS)
data(bytes(range(100, 100 + NEAR_BYTES - 3)))
data(b"\x01\x02\x03\x04")
u32(2**24)
exchange(3, 4)
op(0)
exchange(0, 4)
swap(1)
dup(1)
u32(0)
u32(1)
u64(2**63)
u256(2**255)
data(b"\x09")
data(b"")
mark(1)
data(b"")
direct(1, 9)
show_ends()
nearly_full(NEAR_BYTES, NEAR_SECTIONS)
data(bytes(range(100, 100 + NEAR_BYTES)))
data(b"")
op(1)
nearly_full(NEAR_BYTES, NEAR_SECTIONS)
data(bytes(range(100, 101 + NEAR_BYTES)))
show_ends()
nearly_full(NEAR_BYTES, NEAR_SECTIONS)
data(bytes(range(100, 100 + NEAR_BYTES - 2)))
exchange(1, 2)
u32(256)
exchange(0, 1)
exchange(2, 0)
op(2)

# number 5: the word slice full; a joining call needs no section
nearly_full(BYTES, NEAR_SECTIONS)
for i in range(NEAR_SECTIONS - 1):
    mark(i)
op(0x5B)
for call in (lambda: mark(0), lambda: direct(0, 0), lambda: delta(0, 0, 0), lambda: data(b""), lambda: data(b"\x01")):
    call()
op(0x5C)
swap(16)
u64(300)
show_ends()
nearly_full(BYTES, NEAR_SECTIONS)
for i in range(NEAR_SECTIONS - 1):
    direct(i, 0)
data(b"\x01")
op(0)
u256(0)
data(b"\x02")
data(b"")
show_ends()
nearly_full(BYTES, NEAR_SECTIONS)
for i in range(NEAR_SECTIONS):
    delta(i, i, 8)
every_call()
show_ends()
# 4 before 5
nearly_full(NEAR_BYTES, NEAR_SECTIONS)
for i in range(NEAR_SECTIONS - 1):
    mark(i)
data(bytes(range(100, 100 + NEAR_BYTES)))
op(0)
exchange(1, 2)
mark(0)

# number 6, the counts: beyond slice, beyond limit, three times the sections past 2^32, bytes without sections
new()
record(0, 0, 5, 0)
for b, s in (
    (BYTES + 1, 1), (16777216, 1), (16777217, 1), (TOP, 1), (1, 0), (BYTES, 0), (0, SECTIONS + 1), (0, 1048576), (0, 1048577),
    (0, 1431655765), (0, 1431655766), (0, 1431655767), (0, 2863311531), (0, 2863311532), (0, TOP), (TOP, TOP), (TOP, 0),
):
    counts(b, s)
    mark(1)
    op(1)
    data(b"")
clear()
mark(1)
new()
counts(1, 0)
every_call()
show()

# number 6, the last section: each rule broken by itself, and each number at its limit
new()
record(0, 0, 0, 0)
for b, words in (
    (0, (14, 0, 0)), (0, (15, 0, 0)), (0, (256, 0, 0)), (0, (257, 0, 0)), (0, (TOP, 0, 0)), (0, (0xA5A5A5A5, 0, 0)),
    (0, (0, MARK, 0)), (0, (0, MARK + 1, 0)), (0, (0, TOP, 0)), (0, (0, 0, 1)), (0, (0, 0, TOP)),
    (4, (1, 0, 4)), (4, (1, 4, 4)), (4, (1, 5, 4)), (4, (1, 0, 3)), (4, (1, 0, 5)), (4, (1, 5, 5)), (4, (1, TOP, 4)), (0, (1, 0, TOP)),
    (4, (2, 0, 4)), (4, (2, 4, 4)), (4, (2, 5, 4)), (4, (2, 0, 3)), (4, (2, 0, 5)), (4, (2, 5, 5)), (4, (2, TOP, 4)), (0, (2, 0, TOP)),
    (0, (3, MARK, 12)), (0, (3, MARK + 1, 12)), (0, (3, 0, 4)), (0, (3, 0, 5)), (0, (3, 0, 7)), (0, (3, 0, 8)), (0, (3, 0, 13)), (0, (3, 0, 16)), (0, (3, 0, 256)),
    (0, (4, MARK, MARK)), (0, (4, MARK + 1, 0)), (0, (4, 0, MARK + 1)), (0, (8, TOP, 0)), (0, (9, 0, TOP)),
    (0, (13, MARK, MARK)), (0, (13, MARK + 1, 0)), (0, (13, 0, MARK + 1)),
):
    record(1, *words)
    counts(b, 2)
    mark(9)
    op(0x5B)
    data(b"\xdd")
    step(25, 0, 12)

# number 6 at each call, at the last section's index, with nothing changed; then clear
new()
for i in range(3):
    mark(i)
set_word(8, 1)
every_call()
show()
clear()
mark(7)

# 6 before 4 and 5, after 1, 2 and 3
nearly_full(NEAR_BYTES, NEAR_SECTIONS)
for i in range(NEAR_SECTIONS - 1):
    mark(i)
data(bytes(range(100, 100 + NEAR_BYTES)))
set_word(3 * SECTIONS - 1, BYTES - 1)
op(0)
ops(b"\x00\x01")
mark(0)
data(b"")
swap(0)
dup(16)
exchange(1, 1)
step(8, *keep(bytes(range(31))))
mark(MARK + 1)

# a building call reads the last section alone: bad sections before it are kept
new()
record(0, 99, TOP, TOP)
record(1, 0, 1, 0)
counts(5, 2)
every_call()
show()
new()
record(0, 99, TOP, TOP)
record(1, 1, 3, 5)
counts(5, 2)
op(0xEE)
data(b"\xdd\xdd")
show()
new()
record(0, 1, 9, 9)
record(1, 2, 0, 2)
counts(2, 2)
data(b"\xcc")
show()

# runs of op bytes: as single ones in turn; they extend Ops, an empty Ops section too, else add a section; an empty run adds none
new()
ops(b"")
ops(b"\x60\x01\x5b")
op(0x02)
ops(b"\x03")
data(b"\xaa")
ops(b"")
ops(b"\x5b\x00")
ops(b"")
record(3, 1, 8, 8)
counts(8, 4)
ops(b"\x04\x05")
show()
# an empty run tests nothing and is accepted: bad counts, a damaged last section; one byte is 6 there, and nothing changed
for b, s in ((7, 0), (0, SECTIONS + 1), (TOP, TOP), (9, 4)):
    counts(b, s)
    ops(b"")
    ops(b"\x06")
show()
# no section left after a mark: 5 if one byte fits, for a run that doesn't fit too; 4 if none does; the empty run
nearly_full(1, 0)
for what in (b"\x06", b"\x06\x07", b""):
    ops(what)
counts(BYTES, SECTIONS)
for what in (b"\x06", b"\x06\x07", b""):
    ops(what)
show_ends()
# and after Ops, where none is needed: longer by one than what is left, exactly as long, and with nothing left
record(SECTIONS - 1, 1, 0, BYTES - 2)
counts(BYTES - 2, SECTIONS)
ops(b"\x06\x07\x08")
show_ends()
for what in (b"\x06\x07", b"\x08", b""):
    ops(what)
show_ends()
# the same with one section left, which a refused run doesn't take
nearly_full(NEAR_BYTES, 1)
ops(bytes(range(100, 101 + NEAR_BYTES)))
show_ends()
ops(bytes(range(100, 100 + NEAR_BYTES)))
show_ends()
# a long one
new()
op(0x5B)
ops(bytes(2048))
step(24, 2040, 2060)
step(25, 0, 6)

# setting bytes and words: first, last, one past; values above a byte
new()
set_byte(0, 0)
set_byte(1, 255)
set_byte(BYTES - 1, 1)
set_byte(BYTES, 1)
set_byte(TOP, 1)
set_byte(2, 256)
set_byte(2, TOP)
set_word(0, 0)
set_word(1, TOP)
set_word(WORDS - 1, 1)
set_word(WORDS, 1)
set_word(TOP, 1)
show()
show_ends()

# a listing of nothing; nothing and one byte of its buffer printed
new()
step(21, TOP, TOP)
step(28, 0, 0)
step(28, LISTING, LISTING)
step(28, 0, 1)
op(0x5B)
listed()
clear()
step(21)
step(28, 0, 12)

# line 12
new()
mark(0)
op(0x5B)
direct(1, 8)
op(0x56)
mark(1)
op(0x5B)
data(b"\xaa\xbb")
delta(0, 1, 2)
listed(1)

# every form of a reference; marks unplaced, placed apart, and of every length
new()
for form in FORMS:
    direct(form, form)
for form in FORMS:
    delta(form, 10 * form, form)
for m in (0, 9, 10, 99, 100, 12345, 99999, 100000, 999999, 1000000, MARK):
    mark(m)
    direct(MARK - m, 8)
for n in (0, 1, 2, 33):
    mark(0)
    data(bytes(range(0xEE - n, 0xEE)))
listed(1)

# all 256 op bytes: those that aren't PUSH1 to PUSH32, then each of these with its immediate
new()
run_of(1, bytes(b for b in range(256) if not 0x60 <= b <= 0x7F))
listed(1)
new()
run_of(1, b"".join(bytes([0x5F + n]) + bytes(range(0x5B, 0x5B + n)) for n in range(1, 33)))
listed(1)

# cut immediates: PUSH32 at every place, and each push one byte short and with none left
for first in (0, 16):
    new()
    for n in range(first, first + 16):
        run_of(1, b"\x5b\x7f" + bytes(range(0x60, 0x60 + n)))
    listed(1)
new()
for n in range(1, 33):
    run_of(1, bytes([0x5F + n]) + bytes(n - 1))
listed(1)
new()
for n in range(1, 33):
    run_of(1, bytes([0x5F + n]))
listed(1)

# adjacent and empty sections: an immediate ends with its own section; the push in it is none
new()
for what in (b"\x61\x61", b"", b"\x62\x60\x61\x62\x60", b"\x00", b"", b""):
    run_of(1, what)
for what in (b"", b"", b"\x60", b"\x61", b""):
    run_of(2, what)
run_of(1, b"\x5b")
run_of(2, b"\x5b")
run_of(1, b"")
mark(1)
run_of(1, b"")
listed(1)

# number 14: the listing exactly full, one byte more and one less; refused, its buffer is as it was
for last in (99, 100, 9):
    new()
    data(bytes(i % 256 for i in range(2019)))
    for m in (1, 10, 10):
        mark(m)
    mark(last)
    step(21)
    step(28, 0, 20)
    step(28, LISTING - 20, LISTING)

# number 6 in a listing: each rule at the first, a middle and the last section; refused, the buffer is as it was
new()
for b, first in (
    (BYTES + 1, ()), (16777217, ()), (TOP, ()),
    (4, ((14, 0, 0),)), (4, ((TOP, 0, 0),)), (4, ((0, MARK + 1, 0),)), (4, ((0, 0, 1),)), (4, ((3, MARK + 1, 0),)), (4, ((3, 0, 5),)),
    (4, ((4, MARK + 1, 0),)), (4, ((13, 0, MARK + 1),)), (4, ((1, 1, 0),)), (4, ((1, 1, 1),)), (4, ((2, 0, TOP),)), (4, ((1, TOP, TOP),)),
    (4, ((1, 0, 4), (2, 3, 4))), (4, ((1, 0, 4), (2, 5, 4))), (4, ((1, 0, 3), (2, 4, 4))), (4, ((1, 0, 2), (2, 2, 4))), (4, ((1, 0, 4), (2, 4, 4))),
):
    for before in (0, 2):
        for after in (0, 1):
            # the last Ops or Data section ends at b, unless the case has one
            spans = [r for r in first if r[0] in (1, 2)]
            rows = [(0, 1, 0)] * before + list(first) + ([] if spans else [(1, 0, b)]) + [(3, 2, 8)] * after
            for i, row in enumerate(rows):
                record(i, *row)
            counts(b, len(rows))
            step(21)
step(28, 0, 1)

# and: no Ops or Data and bytes stored (whatever else is bad); the last end unlike the count, with a bad section after it or before
# it; counts past the words; bad words past the count are never read
new()
record(0, 0, 1, 0)
record(1, 14, 0, 0)
for b, n in ((0, 1), (1, 1), (1, 0), (0, 0), (0, 2), (1, 2)):
    counts(b, n)
    step(21)
for rows in (((1, 0, 1), (0, MARK + 1, 0)), ((0, MARK + 1, 0), (1, 0, 1)), ((1, 0, 1), (0, 1, 0)), ((1, 0, 2), (0, 1, 1)), ((1, 0, 1), (1, 1, 2))):
    for i, row in enumerate(rows):
        record(i, *row)
    for b in (0, 1, 2, 3):
        counts(b, 2)
        step(21)
for n in (SECTIONS, SECTIONS + 1, 1048576, 1048577, 1431655766, TOP):
    counts(0, n)
    step(21)
# 6 before 14
new()
data(bytes(2040))
set_word(1, 1)
step(21)
set_word(1, 0)
step(21)

# landing: at and past the end, in code of every length; b past the result is bad
new()
for a, b in ((0, 0), (0, 1), (1, 1), (0, RESULT), (RESULT - 1, RESULT), (RESULT, RESULT), (TOP, RESULT), (TOP, 0), (0, RESULT + 1), (0, TOP), (TOP, TOP)):
    step(22, a, b)

# layouts 1 to 10
new()
coded()
for calls in (
    lambda: (mark(0), direct(0, 8)),
    lambda: (mark(0), direct(0, 0)),
    lambda: (mark(0), direct(0, 9)),
    lambda: (direct(0, 8), mark(0), op(0x5B)),
    lambda: (direct(0, 8), zeros(253), mark(0)),
    lambda: (direct(0, 8), zeros(254), mark(0)),
    lambda: (direct(0, 9), zeros(254), mark(0)),
    lambda: (mark(0), data(b"\xaa\xbb"), mark(1), delta(0, 1, 8)),
    lambda: (mark(0), data(b"\xaa\xbb"), mark(1), delta(1, 0, 8)),
    lambda: (mark(0), mark(0)),
    lambda: (mark(0), op(0x5B), mark(0)),
):
    new()
    calls()
    coded()

# line 11, both cases; values of three bytes
for n, p in ((1022, 61449), (1023, 61445)):
    new()
    for m in range(n, 0, -1):
        direct(m, 8)
    zeros(p)
    for m in range(n, 0, -1):
        mark(m)
        if m > 1:
            zeros(1)
    coded()
    step(26, TABLE - 80, TABLE)

# line 12's code, with a position; landing at each offset of it, at its end and past it
new()
mark(0)
op(0x5B)
direct(1, 8)
op(0x56)
mark(1)
op(0x5B)
data(b"\xaa\xbb")
delta(0, 1, 2)
for position in (0, 3, 20):
    coded(position)
for a in range(12):
    step(22, a, 9)
for a, b in ((0, 0), (0, 1), (4, 4), (4, 5), (8, RESULT), (7, RESULT), (TOP, RESULT), (0, RESULT + 1)):
    step(22, a, b)

# every form at a value of two bytes that differ, at 0 and at one byte; what a table held is gone
for at in (0, 7, 258):
    new()
    for i in range(4):
        step(19, i, 0x01020304)
    mark(0)
    zeros(at)
    mark(2)
    for form in FORMS:
        if at < 256 or form % 8 != 1:
            direct(2, form)
            delta(0, 2, form)
    coded()

# number 6: the table all 0 over its whole length, the result as it was
new()
step(19, 0, 7)
step(19, TABLE - 1, 7)
counts(1, 0)
coded()
step(26, TABLE - 4, TABLE)
for rows, b in (
    (((0, 1, 0), (14, 0, 0)), 0), (((0, MARK + 1, 0),), 0), (((1, 0, 1), (0, MARK + 1, 0)), 2), (((1, 0, 1), (2, 2, 2)), 2), (((3, 0, 5),), 0),
    (((4, 0, TABLE), (4, 0, MARK + 1)), 0), (((0, 1, 0),), 1), (((1, 0, 2), (2, 2, 3)), 3),
):
    new()
    for i, row in enumerate(rows):
        record(i, *row)
    counts(b, len(rows))
    coded()

# number 7: a mark placed or named at the table's length, named or not; before 8
for calls in (
    lambda: (mark(0), mark(TABLE - 1), direct(TABLE - 1, 8)),
    lambda: (mark(0), mark(TABLE)),
    lambda: (mark(0), direct(TABLE, 8)),
    lambda: (mark(0), delta(0, TABLE, 8)),
    lambda: (mark(0), delta(TABLE, 0, 0)),
    lambda: (direct(5, 8), mark(0), mark(MARK), mark(TABLE)),
):
    new()
    calls()
    coded()

# numbers 8, 17 and 18: a named mark that isn't placed, a direct reference's, a delta's start or its end; before 9 and 10; an unplaced
# mark that nobody names is none
for calls in (
    lambda: (mark(0), direct(0, 8), direct(1, 8), direct(2, 8)),
    lambda: (mark(0), delta(0, 1, 8)),
    lambda: (mark(0), delta(1, 0, 0)),
    lambda: (mark(0), op(0), mark(0), direct(3, 1)),
    lambda: (zeros(256), mark(0), direct(0, 9), direct(1, 8)),
):
    new()
    calls()
    coded()

# numbers 8, 17 and 18, of the first section with one, in assembly, settling and the write: a delta before a direct reference, the other way
# round, both ends absent, one mark as both ends, a start or an end placed behind the delta; raw and pushed; 7 before, 9 and 16 behind
for calls in (
    lambda: (mark(0), delta(1, 0, 8), direct(2, 8)),
    lambda: (mark(0), delta(0, 1, 0), direct(2, 0)),
    lambda: (mark(0), direct(2, 8), delta(1, 0, 8)),
    lambda: (mark(0), direct(2, 0), delta(0, 1, 0)),
    lambda: (delta(0, 1, 8), mark(2)),
    lambda: (op(0), delta(1, 0, 2)),
    lambda: (delta(0, 0, 8), mark(1)),
    lambda: (mark(0), delta(0, 1, 9), delta(1, 0, 9)),
    lambda: (mark(0), delta(1, 0, 9), delta(0, 1, 9)),
    lambda: (delta(0, 1, 8), mark(0)),
    lambda: (delta(0, 1, 8), mark(1)),
    lambda: (mark(0), delta(1, 0, 8), mark(TABLE)),
    lambda: (mark(0), op(0), mark(0), delta(0, 1, 8)),
):
    new()
    calls()
    coded()
    settle()
    step(26, 0, 2)
    write()

# number 9: bytes between a placing and an earlier one; empty sections and marks are none; before 10
for calls in (
    lambda: (mark(0), data(b""), mark(1), mark(0), run_of(1, b""), mark(0), direct(0, 8)),
    lambda: (mark(0), data(b"\x00"), mark(0)),
    lambda: (mark(0), direct(0, 8), mark(0)),
    lambda: (mark(0), delta(0, 0, 0), mark(0)),
    lambda: (mark(1), mark(0), mark(0), op(1), mark(2), mark(1), mark(0)),
    lambda: (direct(0, 9), zeros(300), mark(0), op(0), mark(0)),
):
    new()
    calls()
    coded()

# number 10: in the first pass and in the second; at each set size; while a delta's marks still move
for calls in (
    lambda: (direct(1, 9), direct(0, 8), zeros(252), mark(1), mark(0)),
    lambda: (direct(1, 1), direct(0, 8), zeros(253), mark(1), mark(0)),
    lambda: (op(0), direct(0, 2), zeros(65533), mark(0)),
    lambda: (direct(0, 1), direct(1, 10), zeros(65531), mark(0), op(0), mark(1)),
    lambda: (mark(0), zeros(256), mark(1), delta(0, 1, 1)),
    lambda: (mark(0), zeros(255), mark(1), delta(0, 1, 9), delta(1, 0, 9)),
):
    new()
    calls()
    coded()

# number 11: stores that never settle
for steps_of in gen.RESTLESS:
    new()
    for kind, a, b in steps_of:
        zeros(a) if kind == 3 else step(kind, a, b)
    coded()

# number 12: the first backward delta of the settled table, with its passes; before 13
for position in (0, TOP):
    for calls in (
        lambda: (mark(0), op(0), mark(1), delta(0, 1, 8), delta(1, 0, 9), delta(1, 0, 0)),
        lambda: (delta(1, 0, 8), direct(1, 8), mark(0), zeros(254), mark(1)),
        lambda: (mark(0), mark(1), delta(1, 0, 8), delta(0, 1, 0)),
    ):
        new()
        calls()
        coded(position)

# number 13: exactly full, one byte short, the position at the end and past it, with code and without
new()
mark(0)
data(b"\x01\x02\x03")
mark(1)
direct(1, 8)
for position in (RESULT - 5, RESULT - 4, RESULT - 1, RESULT, RESULT + 1, TOP, 0):
    coded(position)
step(27, RESULT - 6, RESULT)
clear()
for position in (RESULT, RESULT + 1, TOP):
    coded(position)
new()
zeros(BYTES)
coded(RESULT - BYTES)
coded(RESULT - BYTES + 1)

# settled, then written: garbage is 16; settling's table, and the code of an assembly; 256 serves too, with a byte more; 254 and 257
# are 16
new()
direct(0, 8)
zeros(253)
mark(0)
write()
settle()
step(26, 0, 2)
write(RESULT - 255)
step(27, RESULT - 256, RESULT - 250)
for at in (256, 254, 257):
    entry(0, at)
    write()
    step(27, 0, 4)
step(20)
step(27, 0, 4)

# numbers 9, 8, 7, 6 of a write, each before those that the store has already; a write changes nothing, settling zeroes the table
new()
mark(0)
op(0x5B)
mark(0)
write()
direct(5, 9)
write()
mark(TABLE)
write()
set_word(12, 14)
write()
for kind, n in ((24, 2), (25, 18), (26, 2), (27, 4)):
    step(kind, 0, n)
settle()
step(26, 0, 2)

# numbers 10 and 16 are found in one walk, the earlier section winning; a backward delta reads 0 there and is 12 only after it, before 13
new()
delta(1, 0, 9)
mark(0)
zeros(256)
mark(1)
direct(1, 1)
mark(2)
for entries in ((900, 1), (3, 258), (2, 258)):  # 10 at 0, 16 at 1, 10 at 4
    for m, at in enumerate(entries):
        entry(m, at)
    write()
set_word(14, 2)
write()  # 16 at 5
entry(2, 260)
write(TOP)  # 12
settle()
step(26, 0, 3)

# number 13 of a write, with code and without; a mark twice with no bytes between, an entry that isn't placed
new()
op(0x5B)
mark(1)
data(b"")
mark(1)
direct(1, 8)
settle()
entry(0, TOP)
for position in (RESULT - 3, RESULT - 2, RESULT, RESULT + 1, TOP):
    write(position)
step(27, RESULT - 4, RESULT)
step(26, 0, 2)
clear()
for position in (RESULT, RESULT + 1):
    write(position)

# setting entries: first, last, one past
new()
for a in (0, TABLE - 1, TABLE, TOP):
    step(19, a, TOP)
step(26, 0, 2)
step(26, TABLE - 2, TABLE)
step(27, 0, 0)
step(26, TABLE, TABLE)

# scans: words with 12 zeros, with nothing else, with 31 and with none; other lengths; long ones; a part that is bad; nothing changed
new()
op(0x5B)
for zeros_before in (12, 32, 31, 0):
    scan(bytes(zeros_before) + b"\xff" * (32 - zeros_before))
scan(bytes(12) + b"\x01" + bytes(19))
for what in (b"", b"\x00", b"\x07", b"\x00\x00\x07", bytes(2048), bytes(2048) + b"\x07"):
    scan(what)
step(13, 5, 5)
step(13, 6, 5)
show()
op(0x5C)

# bad steps, and nothing changed by them
new()
op(0x5B)
for kind in (14, 15, 31, 37, 38, 39, 45, 46, 64, 128, 255):
    step(kind, 0, 0)
for v in (256, 257, TOP):
    op(v)
    swap(v)
    dup(v)
    exchange(v, 1)
    exchange(1, v)
for form in (5, 6, 7, 13, 14, 15, 16, 24, 256, TOP):
    direct(0, form)
direct(MARK + 1, 5)
for kind, n in ((24, BYTES), (25, WORDS), (26, TABLE), (27, RESULT), (28, LISTING)):
    for a, b in ((1, 0), (0, n + 1), (n + 1, n + 1), (n, n + 1), (TOP, TOP), (0, TOP), (TOP, 0)):
        step(kind, a, b)
for kind in (3, 8, 12, 13, 30):
    for a, b in ((1, 0), (0, 1), (1, 1), (-1, -2), (0, 0)):
        steps.append((kind, a, b))
    step(kind, TOP, TOP)
    step(kind, 0, TOP)
show()
op(0x5C)

# what a step has no use for is ignored
new()
step(1, 4, TOP)
step(2, 4, TOP)
step(5, 4, TOP)
step(6, 4, TOP)
step(10, 4, TOP)
step(11, TOP, TOP)
show()
step(0, TOP, TOP)
show()


# jobs: their slices are their own, with a table longer than this script's; what the script has stays as it is, a damaged store too
def told():
    show()
    step(26, 0, 20)
    step(27, 0, 20)
    step(28, 0, 57)  # the first listing's length


keep(jobs.NESTED)  # four of the jobs are parts of it
new()
mark(0)
op(0x5B)
direct(0, 8)
data(b"\xaa\xbb")
step(20, 3)
step(21)
told()
for what, job in jobs.cases():
    step(30, *keep(job))
    if what in ("line 12", "8 after joined op bytes", "65,536 bytes"):
        told()
op(0x5C)
step(20, 3)
step(21)
told()
counts(TOP, TOP)
step(30, *keep(jobs.LINE_12))
step(21)
clear()
step(30, *keep(jobs.LINE_12))
mark(1)
told()

# the fixed list: the original's answers
FIXED = list(fixed.steps(keep(lists.POOL)[0], LENGTHS))


def finished(s):
    """A step as bytes; a triple counts from the pool's end, which is known only when all is kept."""
    return s if isinstance(s, bytes) else struct.pack(">BII", s[0], len(pool) + s[1], len(pool) + s[2])


def script():
    whole = struct.pack(">6I", *LENGTHS, len(pool)) + bytes(pool) + b"".join(finished(s) for s in steps)
    return whole + b"".join(struct.pack(">BII", *s) for s in FIXED)


def original(driver):
    """What the original answers to the fixed list, with the model's answer where it has none."""
    store = model.Model(LENGTHS, bytes(pool))
    ours = [store.step(*s) + ("" if s[0] == 28 else "\n") for s in FIXED]
    return "".join(map(scripts.filled, scripts.answers([driver], LENGTHS, bytes(pool), FIXED), ours))


def main(driver, folder=os.path.join(os.path.dirname(os.path.abspath(__file__)), "../../crates/replay"), check=False):
    whole = script()
    expected = model.replay(whole[: -9 * len(FIXED)]) + original(driver)
    wrong = 0
    for name, what in (("stdin", whole), ("stdout", expected.encode("latin1"))):
        path = os.path.join(folder, name)
        if not check:
            open(path, "wb").write(what)
        elif open(path, "rb").read() != what:
            wrong += 1
            print(f"{name} differs")
    print(f"{len(whole)} bytes, {len(steps)} steps and {len(FIXED)} of the fixed list ({sum(s[0] == 0 for s in FIXED)} cases), pool {len(pool)}")
    return wrong > 0


if __name__ == "__main__":
    args = [arg for arg in sys.argv[1:] if arg != "--check"]
    sys.exit(main(*args, check="--check" in sys.argv))
