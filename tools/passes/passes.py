#!/usr/bin/env python3
"""How many passes stores take, by runs of `replay`, against the bound A + B + 2: passes.py REPLAY [SVG].
Three kinds of stores, all with direct references to marks that are placed once: the chains of document 01's line 11, which
meet the bound; contracts, a table of jumps before its functions; and random ones. Prints what was found, stops at a store
above the bound or at an 11 where A + B is at most 1,022, and writes the plot of docs/SHORTEST.md."""
import random, struct, subprocess, sys

PASSES, MOST = 1024, 1022
LENGTHS = 131072, 65536, 16384, 262144, 0
MARK, OP, DATA, DIRECT, ASSEMBLE, TABLE = 1, 2, 3, 4, 20, 26
RAW, PUSHED = 0, 8


def answer(program, steps):
    """What a store's assembly answers, (length, passes) or None for number 11, and the table. Data is zeros, n of them."""
    pool = max([n for kind, n, _ in steps if kind == DATA], default=0)
    part = lambda kind, a, b: struct.pack(">BII", kind, *((0, a) if kind == DATA else (a, b)))
    ends = (ASSEMBLE, 0, 0), (TABLE, 0, LENGTHS[2])
    whole = struct.pack(">6I", *LENGTHS, pool) + bytes(pool) + b"".join(part(*s) for s in (*steps, *ends))
    lines = subprocess.run([program], input=whole, capture_output=True, check=True).stdout.decode().splitlines()
    built, said, table = lines[:-2], lines[-2].split(), bytes.fromhex(lines[-1].split()[1])
    assert all(line.startswith("stored") for line in built), built
    assert said[0] == "length" or said[:2] == ["refused", "11"], said
    return (int(said[1]), int(said[3])) if said[0] == "length" else None, struct.unpack(f">{LENGTHS[2]}I", table)


def run(program, steps):
    """The passes that a store takes; 0 for number 11."""
    said, _ = answer(program, steps)
    return said[1] if said else 0


def least(steps):
    """The least layout that gives enough, (length, offsets): every reference's width is raised, all at once, until it holds
    its value. Reads nothing of the passes."""
    held = lambda v: max(1, (v.bit_length() + 7) // 8)
    widths = {i: 1 for i, s in enumerate(steps) if s[0] == DIRECT}
    while True:
        at, offsets = 0, {}
        for i, (kind, a, _) in enumerate(steps):
            if kind == MARK:
                offsets[a] = at
            at += {MARK: 0, OP: 1, DATA: a}.get(kind, widths.get(i, 0))
        wider = {i: max(w, held(offsets[steps[i][1]]) + (steps[i][2] == PUSHED and offsets[steps[i][1]] > 0)) for i, w in widths.items()}
        if wider == widths:
            return at, offsets
        widths = wider


def unsized(steps):
    """A + B."""
    return sum(kind == DIRECT for kind, _, _ in steps)


def bound(count):
    return count + 2 if count else 1


def chain(n, edge=65536):
    """Line 11: n references to marks n down to 1; mark 1 crosses the edge in pass 1, and each reference that grows moves the
    next mark across. (The edge 256 gives short ones.)"""
    held = 2 if edge == 65536 else 1
    data = edge + 1 - (held + 2) * n
    steps = [(DIRECT, m, PUSHED) for m in range(n, 0, -1)] + [(DATA, data, 0)]
    for m in range(n, 0, -1):
        steps += [(MARK, m, 0)] + [(DATA, 1, 0)] * (m > 1)
    return steps


def contract(n, seed=1):
    """A contract with n references: a dispatcher's DUP1, PUSH4 selector, EQ, PUSH function, JUMPI for each of its functions,
    and functions of random bodies, each ending in a jump to the last one."""
    r = random.Random(seed)
    functions = (n + 1) // 2
    steps = []
    for f in range(functions):
        steps += [(OP, b, 0) for b in (0x80, 0x63, 0, 0, f >> 8, f & 255, 0x14)] + [(DIRECT, f, PUSHED), (OP, 0x57, 0)]
    for f in range(functions):
        steps += [(MARK, f, 0), (OP, 0x5B, 0)] + [(OP, 0x50, 0)] * r.randint(5, 60)
        if f < n - functions:
            steps += [(DIRECT, functions - 1, PUSHED), (OP, 0x56, 0)]
    return steps


def scattered(n, seed):
    """n references, raw and pushed, marks and data in random order, with lengths near the edges of the widths."""
    r = random.Random(seed)
    marks = r.randint(1, max(1, n))
    steps = [(DIRECT, r.randrange(marks), r.choice((RAW, PUSHED, PUSHED))) for _ in range(n)]
    steps += [(MARK, m, 0) for m in range(marks)]
    left = r.choice((256, 65536)) - 3 * n + r.randint(-20, 20)
    for _ in range(r.randint(1, 40)):
        part = r.randint(0, max(0, left) // 2)
        left -= part
        steps.append((DATA, part, 0))
    r.shuffle(steps)
    return steps + [(DATA, max(0, left), 0), (MARK, marks, 0)]


def collect(program):
    """The points (A + B, passes) of each kind of store."""
    kinds = {"line 11": [chain(n) for n in (*range(1, 1022, 30), 1022, 1023)] + [chain(n, 256) for n in (1, 2, 3, 20, 60, 85)],
             "contracts": [contract(n) for n in (0, 2, 20, *range(50, 1001, 50))],
             "random": [scattered(n % 1023, n) for n in range(0, 40000, 67)]}
    points = {}
    for kind, stores in kinds.items():
        points[kind] = [(unsized(s), run(program, s)) for s in stores]
        for count, passes in points[kind]:
            assert passes <= bound(count) and (passes or count > MOST), (kind, count, passes)
    return points


def plot(points):
    """Passes against references as an SVG."""
    wide, high, left, top, most = 640, 480, 60, 20, 1060
    x = lambda v: round(left + v * wide / most, 1)
    y = lambda v: round(top + high - v * high / most, 1)
    line = lambda a, b, c, d, style: f'<line x1="{x(a)}" y1="{y(b)}" x2="{x(c)}" y2="{y(d)}" {style}/>'
    text = lambda px, py, what, more="": f'<text x="{px}" y="{py}" {more}>{what}</text>'
    out = [f'<svg xmlns="http://www.w3.org/2000/svg" width="{left + wide + 20}" height="{top + high + 50}" font-family="sans-serif" font-size="12">',
           '<rect width="100%" height="100%" fill="white"/>']
    for v in range(0, 1001, 200):
        out += [line(0, v, most, v, 'stroke="#ddd"'), text(left - 8, y(v) + 4, f"{v:,}", 'text-anchor="end"')]
        out += [line(v, 0, v, most, 'stroke="#ddd"'), text(x(v), top + high + 16, f"{v:,}", 'text-anchor="middle"')]
    out += [line(0, PASSES, most, PASSES, 'stroke="#888" stroke-dasharray="6 3"'), text(x(300), y(PASSES) - 5, "1,024 passes allowed")]
    out += [line(0, 1, 255, 1021, 'stroke="#b60" stroke-dasharray="2 3"'), text(x(200), y(700), "demand 3: 4 × A + 3 × B + 1 (all pushed)", 'fill="#b60"')]
    out += [line(1, 3, MOST, PASSES, 'stroke="#06c"'), text(x(560), y(480), "A + B + 2, proved", 'fill="#06c"')]
    looks = {"random": ("#999", 1.5), "contracts": ("#080", 3), "line 11": ("#c00", 3)}
    for kind, (colour, size) in looks.items():
        for count, passes in points[kind]:
            if passes:
                out.append(f'<circle cx="{x(count)}" cy="{y(passes)}" r="{size}" fill="{colour}"/>')
            else:
                out.append(text(x(count), y(PASSES) - 5, "×", f'fill="{colour}" font-size="18" text-anchor="middle"'))
    notes = [("line 11", "line 11's stores; × is number 11 at 1,023"), ("contracts", "contracts: a dispatcher and its functions"), ("random", "random stores")]
    for i, (kind, what) in enumerate(notes):
        out += [f'<circle cx="{x(600)}" cy="{y(300) + 18 * i}" r="3" fill="{looks[kind][0]}"/>', text(x(612), y(300) + 4 + 18 * i, what)]
    out += [text(left + wide / 2, top + high + 38, "unsized references, A + B", 'text-anchor="middle"'),
            text(16, top + high / 2, "passes", f'text-anchor="middle" transform="rotate(-90 16 {top + high / 2})"'), "</svg>"]
    return "\n".join(out) + "\n"


def example(program, n):
    """A contract with n references, too many for demand 3's premise from 256 on: what the clauses `within` and `least` say of it."""
    steps = contract(n)
    (length, passes), table = answer(program, steps)
    most, offsets = least(steps)
    assert unsized(steps) == n and passes <= bound(n) and length == most and all(table[m] == at for m, at in offsets.items())
    print(f"a contract with {n} pushed references: written, {length} bytes, {passes} passes of at most {bound(n)}, the least layout")


def main(program, svg=None):
    points = collect(program)
    for kind, found in points.items():
        print(f"{kind}: {len(found)} stores, none above A + B + 2, at most {max(p for _, p in found)} passes")
    for n in (1022, 1023):
        print(f"line 11, {n} references: {run(program, chain(n)) or 'number 11'}")
    example(program, 700)
    if svg:
        with open(svg, "w") as f:
            f.write(plot(points))


if __name__ == "__main__":
    main(*sys.argv[1:])
