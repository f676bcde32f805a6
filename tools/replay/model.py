#!/usr/bin/env python3
"""An independent model of `replay`. Reads a script on standard input, prints what replay must print.
Written from docs/REPLAY.md, document 01 (modules 1 to 6, Replies), requests 1 to 5 of document 02 as docs/DECISIONS.md reads them, and
op.rs for the names; it shares nothing with the Rattle code. `job_text` is the model of `job`."""
import copy, sys

LIMITS = (131072, 65536, 16384, 262144, 1048576)
MAX_SCRIPT = 1048576
MAX_BYTES, MAX_SECTIONS, MAX_MARK = 16777216, 1048576, 1048575
PASSES = 1024
FORMS = (0, 1, 2, 3, 4, 8, 9, 10, 11, 12)
MAX_JOB = 32768
JOB_BYTES, JOB_TABLE, JOB_RESULT = 65536, 16384, 65536

# -- document 01, module 5: the names of op.rs; a row of 16 bytes each, `-` where it has none
NAMES = """
STOP ADD MUL SUB DIV SDIV MOD SMOD ADDMOD MULMOD EXP SIGNEXTEND - - - -
LT GT SLT SGT EQ ISZERO AND OR XOR NOT BYTE SHL SHR SAR CLZ -
KECCAK256 - - - - - - - - - - - - - - -
ADDRESS BALANCE ORIGIN CALLER CALLVALUE CALLDATALOAD CALLDATASIZE CALLDATACOPY
CODESIZE CODECOPY GASPRICE EXTCODESIZE EXTCODECOPY RETURNDATASIZE RETURNDATACOPY EXTCODEHASH
BLOCKHASH COINBASE TIMESTAMP NUMBER PREVRANDAO GASLIMIT CHAINID SELFBALANCE BASEFEE BLOBHASH BLOBBASEFEE - - - - -
POP MLOAD MSTORE MSTORE8 SLOAD SSTORE JUMP JUMPI PC MSIZE GAS JUMPDEST TLOAD TSTORE MCOPY PUSH0
""".split()
NAMES += [f"PUSH{n}" for n in range(1, 33)] + [f"DUP{n}" for n in range(1, 17)] + [f"SWAP{n}" for n in range(1, 17)]
NAMES += [f"LOG{n}" for n in range(5)] + ["-"] * 75
NAMES += "CREATE CALL CALLCODE RETURN DELEGATECALL CREATE2 - - - - STATICCALL - - REVERT INVALID SELFDESTRUCT".split()
NAMES = ["UNKNOWN" if name == "-" else name for name in NAMES]
assert len(NAMES) == 256


class Refused(Exception):
    def __init__(self, number, section=0, passes=0):
        self.number, self.section, self.passes = number, section, passes


def held(v):
    """The bytes that hold a value."""
    return 1 if v <= 255 else 2 if v <= 65535 else 3 if v <= 16777215 else 4


class Model:
    def __init__(self, lengths, pool):
        self.lengths, self.pool = lengths, pool
        self.anew()

    def anew(self):
        self.b = self.s = 0
        self.bytes = bytearray(b"\xa5" * self.lengths[0])
        self.words = [0xA5A5A5A5] * self.lengths[1]
        self.table = [0xA5A5A5A5] * self.lengths[2]
        self.result = bytearray(b"\xa5" * self.lengths[3])
        self.text = bytearray(b"\xa5" * self.lengths[4])

    # -- document 01, module 2: what a building call tests

    def record(self, i):
        return self.words[3 * i : 3 * i + 3]

    def last(self):
        return self.record(self.s - 1)

    def test_counts(self):
        if self.b > len(self.bytes) or self.b > MAX_BYTES:
            raise Refused(6)
        if self.s > MAX_SECTIONS or 3 * self.s > len(self.words):
            raise Refused(6)

    def good(self, i, starts, ends):
        """Section i keeps the rules; a span has its start and end among these."""
        kind, x, y = self.record(i)
        if kind == 0:
            return x <= MAX_MARK and y == 0
        if kind in (1, 2):
            return x <= y and x in starts and y in ends
        if kind == 3:
            return x <= MAX_MARK and y in FORMS
        return kind <= 13 and x <= MAX_MARK and y <= MAX_MARK

    def test(self):
        """Number 6: the counts (section 0), then the last section (its index)."""
        self.test_counts()
        if self.s == 0:
            if self.b > 0:
                raise Refused(6)
            return
        if not self.good(self.s - 1, range(2**32), (self.b,)):
            raise Refused(6, self.s - 1)

    # -- what modules 3 to 5 test: every section

    def test_whole(self):
        self.test_counts()
        spans = [i for i in range(self.s) if self.record(i)[0] in (1, 2)]
        if not spans and self.b > 0:
            raise Refused(6)
        end = 0
        for i in range(self.s):
            if not self.good(i, (end,), (self.b,) if spans[-1:] == [i] else range(2**32)):
                raise Refused(6, i)
            if self.record(i)[0] in (1, 2):
                end = self.record(i)[2]

    def sections(self):
        """The sections of an undamaged store: ("mark", number), ("ops", bytes), ("data", bytes), ("ref", marks, size, pushed)."""
        for i in range(self.s):
            kind, x, y = self.record(i)
            if kind == 0:
                yield "mark", x
            elif kind in (1, 2):
                yield "ops" if kind == 1 else "data", bytes(self.bytes[x:y])
            elif kind == 3:
                yield "ref", (x,), y % 8, y >= 8
            else:
                yield "ref", (x, y), (kind - 4) % 5, kind < 9

    def room(self, sections, n):
        """4 for all of the call's bytes, then 5."""
        if self.b + n > len(self.bytes) or self.b + n > MAX_BYTES:
            raise Refused(4)
        if sections and (self.s + 1 > MAX_SECTIONS or 3 * (self.s + 1) > len(self.words)):
            raise Refused(5)

    def section(self, record):
        self.test()
        self.room(True, 0)
        self.words[3 * self.s : 3 * self.s + 3] = record
        self.s += 1

    def run(self, kind, what):
        """Op bytes (kind 1) or data (kind 2)."""
        self.test()
        joins = self.s > 0 and self.last()[0] == kind
        self.room(not joins, len(what))
        start, end = self.b, self.b + len(what)
        self.bytes[start:end] = what
        if joins:
            self.words[3 * self.s - 1] = end
        else:
            self.words[3 * self.s : 3 * self.s + 3] = [kind, start, end]
            self.s += 1
        self.b = end

    # -- the calls

    def push_mark(self, m):
        if m > MAX_MARK:
            raise Refused(3)
        self.section([0, m, 0])

    def push_direct(self, m, form):
        if m > MAX_MARK:
            raise Refused(3)
        self.section([3, m, form])

    def push_delta(self, start, end, form):
        if start > MAX_MARK or end > MAX_MARK:
            raise Refused(3)
        # pushed: kinds 4 to 8, raw: 9 to 13, in the order unsized, 1, 2, 3, 4
        self.section([4 + (form - 8) if form >= 8 else 9 + form, start, end])

    def push_op_bytes(self, ops):
        """One byte after the other on a copy, which takes the store's place if none is refused."""
        tried = copy.copy(self)
        tried.bytes, tried.words = self.bytes[:], self.words[:]
        for byte in ops:
            tried.run(1, bytes([byte]))
        self.bytes, self.words, self.b, self.s = tried.bytes, tried.words, tried.b, tried.s

    def push_swap(self, d):
        if not 1 <= d <= 16:
            raise Refused(1)
        self.run(1, bytes([0x8F + d]))

    def push_dup(self, d):
        if d > 15:
            raise Refused(1)
        self.run(1, bytes([0x80 + d]))

    def push_exchange(self, n, m):
        if n == m or n > 16 or m > 16:
            raise Refused(1)
        if n == 0 or m == 0:
            self.run(1, bytes([0x8F + n + m]))
        else:
            self.run(1, bytes([0x8F + n, 0x8F + m, 0x8F + n]))

    def push_minimal(self, v):
        n = (v.bit_length() + 7) // 8
        self.run(1, bytes([0x5F + n]) + v.to_bytes(n, "big"))

    def push_minimal_u256(self, word):
        if len(word) != 32:
            raise Refused(2)
        self.push_minimal(int.from_bytes(word, "big"))

    def clear(self):
        self.b = self.s = 0

    # -- document 01, modules 3 and 4

    def test_marks(self, sections):
        """Numbers 7; 8, 17 or 18; and 9, each over the whole store."""
        named = [(m[0],) if what == "mark" else m[0] if what == "ref" else () for what, *m in sections]
        placed = {m[0] for what, *m in sections if what == "mark"}
        for i, marks in enumerate(named):
            if any(m >= len(self.table) for m in marks):
                raise Refused(7, i)
        for i, marks in enumerate(named):
            absent = [m not in placed for m in marks]
            if any(absent):
                raise Refused(8 if len(marks) == 1 else 17 if absent[0] else 18, i)
        first, between = {}, 0  # sections with bytes before a mark's first placing, and so far
        for i, (what, *of) in enumerate(sections):
            if what == "mark":
                if first.setdefault(of[0], between) != between:
                    raise Refused(9, i)
            elif what == "ref" or of[0]:
                between += 1

    def value(self, marks):
        """A reference's value by the table as it is; below 0 for a backward delta."""
        return self.table[marks[-1]] - (self.table[marks[0]] if len(marks) == 2 else 0)

    def size(self, marks, size, pushed):
        """A reference's size by the table as it is, where a backward delta reads 0; none if it is too narrow."""
        v = max(0, self.value(marks))
        if size:
            return size + pushed if size >= held(v) else None
        return 1 if pushed and v == 0 else held(v) + pushed

    def passes(self, sections):
        """The length in all, and the passes made."""
        at = 0
        for what, *of in sections:
            if what == "mark":
                self.table[of[0]] = at
            elif what == "ref":
                at += of[1] + of[2] if of[1] else 1
            else:
                at += len(of[0])
        for number in range(1, PASSES + 1):
            at, moved = 0, False
            for i, (what, *of) in enumerate(sections):
                if what == "mark":
                    moved = moved or self.table[of[0]] != at
                    self.table[of[0]] = at
                elif what == "ref":
                    size = self.size(*of)
                    if size is None:
                        raise Refused(10, i, number)
                    at += size
                else:
                    at += len(of[0])
            if not moved:
                return at, number
        raise Refused(11, 0, PASSES)

    def test_forward(self, sections, passes):
        """Number 12."""
        for i, (what, *of) in enumerate(sections):
            if what == "ref" and self.value(of[0]) < 0:
                raise Refused(12, i, passes)

    def test_result(self, position, length, passes):
        """Number 13."""
        if position > len(self.result) or length > len(self.result) - position:
            raise Refused(13, 0, passes)

    def code(self, sections):
        for what, *of in sections:
            if what == "ref":
                marks, size, pushed = of
                v = self.value(marks)
                n = size or (0 if pushed and v == 0 else held(v))
                yield (bytes([0x5F + n]) if pushed else b"") + v.to_bytes(n, "big")
            elif what != "mark":
                yield of[0]

    def put(self, sections, position, length):
        code = b"".join(self.code(sections))
        assert len(code) == length
        self.result[position : position + length] = code

    def settled(self):
        """The sections, their length in all and the passes made."""
        self.table[:] = [0] * len(self.table)
        self.test_whole()
        sections = list(self.sections())
        self.test_marks(sections)
        length, passes = self.passes(sections)
        self.test_forward(sections, passes)
        return sections, length, passes

    def assemble(self, position):
        try:
            sections, length, passes = self.settled()
            self.test_result(position, length, passes)
        except Refused:
            self.table[:] = [0] * len(self.table)
            raise
        self.put(sections, position, length)
        return f"length {length} passes {passes}"

    # -- document 02, CR 3

    def settle(self):
        try:
            _, length, passes = self.settled()
        except Refused:
            self.table[:] = [0] * len(self.table)
            raise
        return f"length {length} passes {passes}"

    def walk(self, sections):
        """Numbers 16 and 10, whichever comes first; the length in all by the table as it is, which is only read."""
        at = 0
        for i, (what, *of) in enumerate(sections):
            if what == "mark":
                if self.table[of[0]] != at:
                    raise Refused(16, i)
            elif what == "ref":
                size = self.size(*of)
                if size is None:
                    raise Refused(10, i)
                at += size
            else:
                at += len(of[0])
        return at

    def write(self, position):
        self.test_whole()
        sections = list(self.sections())
        self.test_marks(sections)
        length = self.walk(sections)
        self.test_forward(sections, 0)
        self.test_result(position, length, 0)
        self.put(sections, position, length)
        return f"length {length} passes 0"

    # -- document 02, CR 4

    def scan(self, part):
        zeros = len(part) - len(part.lstrip(b"\0"))
        looked = len(part[: zeros + 1])  # up to and with the first byte that isn't 0
        return f"zeros {zeros} looked {looked}"

    # -- document 01, module 5

    def lines(self):
        for what, *of in self.sections():
            if what == "mark":
                yield f".mark{of[0]}:"
            elif what == "data":
                yield f"  data 0x{of[0].hex()} ({len(of[0])} bytes)"
            elif what == "ops":
                ops = of[0]
                while ops:
                    n = ops[0] - 0x5F if 0x60 <= ops[0] <= 0x7F else 0
                    immediate = ops[1 : 1 + n]
                    yield f"  {NAMES[ops[0]]}" + (f" 0x{immediate.hex()}" if n else "") + (" (truncated)" if len(immediate) < n else "")
                    ops = ops[1 + n :]
            else:
                marks, size, pushed = of
                name = f".mark{marks[0]}" if len(marks) == 1 else f"(.mark{marks[1]} - .mark{marks[0]})"
                yield ("  PUSH " if pushed else "  RAW ") + name + (f":{size}" if size else "")

    def write_asm(self):
        self.test_whole()
        text = "".join(line + "\n" for line in self.lines()).encode()
        if len(text) > len(self.text):
            raise Refused(14)
        self.text[: len(text)] = text
        return f"listing {len(text)}"

    # -- the steps: a line, or None for a bad step

    def answer(self, call, *args):
        try:
            return call(*args)
        except Refused as r:
            return f"refused {r.number} at {r.section} passes {r.passes}"

    def building(self, call, *args):
        return self.answer(call, *args) or f"stored {self.b} {self.s}"

    def step(self, kind, a, b):
        part = self.pool[a:b] if a <= b <= len(self.pool) else None
        if kind == 0:
            self.anew()
            return "new"
        if kind == 1:
            return self.building(self.push_mark, a)
        if kind == 2:
            return self.building(self.run, 1, bytes([a])) if a <= 255 else None
        if kind == 3:
            return self.building(self.run, 2, part) if part is not None else None
        if kind == 4:
            return self.building(self.push_direct, a, b) if b in FORMS else None
        if kind == 5:
            return self.building(self.push_swap, a) if a <= 255 else None
        if kind == 6:
            return self.building(self.push_dup, a) if a <= 255 else None
        if kind == 7:
            return self.building(self.push_exchange, a, b) if max(a, b) <= 255 else None
        if kind == 8:
            return self.building(self.push_minimal_u256, part) if part is not None else None
        if kind == 9:
            return self.building(self.push_minimal, (a << 32) + b)
        if kind == 10:
            return self.building(self.push_minimal, a)
        if kind == 11:
            return self.building(self.clear)
        if kind == 12:
            return self.building(self.push_op_bytes, part) if part is not None else None
        if kind == 13:
            return self.scan(part) if part is not None else None
        if kind == 16:
            if a >= len(self.bytes) or b > 255:
                return None
            self.bytes[a] = b
            return "set"
        if kind == 17:
            if a >= len(self.words):
                return None
            self.words[a] = b
            return "set"
        if kind == 18:
            self.b, self.s = a, b
            return "set"
        if kind == 19:
            if a >= len(self.table):
                return None
            self.table[a] = b
            return "set"
        if kind == 20:
            return self.answer(self.assemble, a)
        if kind == 21:
            return self.answer(self.write_asm)
        if kind == 22:
            return ("yes" if a < b and self.result[a] == 0x5B else "no") if b <= len(self.result) else None
        if kind == 23:
            return self.answer(self.settle)
        if kind == 24:
            return "bytes " + self.bytes[a:b].hex() if a <= b <= len(self.bytes) else None
        if kind == 25:
            return "words " + "".join("%08x" % w for w in self.words[a:b]) if a <= b <= len(self.words) else None
        if kind == 26:
            return "table " + "".join("%08x" % w for w in self.table[a:b]) if a <= b <= len(self.table) else None
        if kind == 27:
            return "result " + self.result[a:b].hex() if a <= b <= len(self.result) else None
        if kind == 28:
            return self.text[a:b].decode("latin1") if a <= b <= len(self.text) else None
        if kind == 29:
            return self.answer(self.write, a)
        if kind == 30:
            return job_text(bytes(part)).decode().removesuffix("\n") if part is not None else None
        if kind >= 32 and kind - 32 in FORMS:
            return self.building(self.push_delta, a, b, kind - 32)
        return None


# -- document 02, CR 2


def job_parts(job):
    """The pool and the steps of a job, every step tested."""
    number = lambda at: int.from_bytes(job[at : at + 4], "big")
    if not 8 <= len(job) <= MAX_JOB:
        raise Refused(15)
    count = number(0)
    first = 4 + count + 4
    if first > len(job) or first + 9 * number(4 + count) != len(job):
        raise Refused(15)
    steps = [(job[at], number(at + 1), number(at + 5)) for at in range(first, len(job), 9)]
    for kind, a, b in steps:
        listed = {1: b == 0, 2: a <= 255 and b == 0, 3: a <= b <= count, 4: b in FORMS}
        if not listed.get(kind, kind - 32 in FORMS):
            raise Refused(15)
    return job[4 : 4 + count], steps


def job_code(job):
    pool, steps = job_parts(job)
    store = Model((JOB_BYTES, 3 * len(steps), JOB_TABLE, JOB_RESULT, 0), pool)
    for kind, a, b in steps:
        if kind == 1:
            store.push_mark(a)
        elif kind == 2:
            store.run(1, bytes([a]))
        elif kind == 3:
            store.run(2, pool[a:b])
        elif kind == 4:
            store.push_direct(a, b)
        else:
            store.push_delta(a, b, kind - 32)
    length = int(store.assemble(0).split()[1])
    return store.result[:length]


def job_text(job):
    """What `job` prints for these bytes."""
    try:
        return b"code %s\n" % job_code(job).hex().encode()
    except Refused as r:
        return b"refused %d at %d\n" % (r.number, r.section)


def replay(script, make=Model):
    """What replay prints for a script, a character for each byte."""
    number = lambda at: int.from_bytes(script[at : at + 4], "big")
    if not 24 <= len(script) <= MAX_SCRIPT:
        return "bad script\n"
    lengths = [number(4 * i) for i in range(5)]
    count = number(20)
    if any(n > most for n, most in zip(lengths, LIMITS)) or 24 + count > len(script) or (len(script) - 24 - count) % 9:
        return "bad script\n"
    model = make(lengths, script[24 : 24 + count])
    lines = []
    for at in range(24 + count, len(script), 9):
        line = model.step(script[at], number(at + 1), number(at + 5))
        lines.append("bad step\n" if line is None else line if script[at] == 28 else line + "\n")
    return "".join(lines)


if __name__ == "__main__":
    sys.stdout.buffer.write(replay(sys.stdin.buffer.read()).encode("latin1"))
