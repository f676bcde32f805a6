#!/usr/bin/env python3
"""Runs the smallest input of each difference of docs/DIFFERENCES.md through the original and through replay, and asserts what
both answer: differences.py DRIVER REPLAY. One line for each; ends with status 1 if an answer isn't the one written here."""
import sys
from lists import MARK, POOL, RESTLESS, RISING, TOP, data, delta, direct, dup, exchange, mark, op, run, swap
from scripts import Step, answers

LENGTHS = dict(bytes=65536, words=9300, table=1100, result=70000, listing=4096)
ASSEMBLE, LIST = (20, 0, 0), (21, 0, 0)
bytes_of = lambda n: (27, 0, n)
table_of = lambda a, b: (26, a, b)
words_of = lambda n: (25, 0, 3 * n)
A5 = "a5a5a5a5"
UNSETTLED = "panic: internal error: entered unreachable code: assembly didn't converge"
UNDERFLOW = "panic: delta underflow after convergence: marks did not settle into valid positions"


def line_11(n: int, p: int) -> list[Step]:
    between = [step for m in range(n, 0, -1) for step in (mark(m), *data(1))][:-1]
    return [direct(m, 8) for m in range(n, 0, -1)] + data(p) + between


DEPTH, LARGE = ["refused 1 at 0 passes 0"], ["refused 3 at 0 passes 0"]

# The number in docs/DIFFERENCES.md, the input, its steps, our answers to the last of them, the original's; then slice lengths
# unlike the above, and the original's hint.
CASES: list[tuple] = [
    (1, "push_swap(0)", [swap(0)], DEPTH, ["panic: noop swap0"]),
    (1, "push_swap(17)", [swap(17)], DEPTH, ["panic: unsupported swap with depth 17"]),
    (1, "push_dup(16)", [dup(16)], DEPTH, ["panic: unsupported dup with depth 16"]),
    (1, "push_exchange(0, 0)", [exchange(0, 0)], DEPTH, ["panic: noop exchange"]),
    (1, "push_exchange(0, 17)", [exchange(0, 17)], DEPTH, ["panic: unsupported swap with depth 17"]),
    (2, "push_exchange(1, 17), and the sections then", [exchange(1, 17), words_of(1)],
     [*DEPTH, f"words {3 * A5}"], ["panic: unsupported swap with depth 17", "words 000000010000000000000001"]),
    (3, "push_minimal_u256 of 31 bytes", [(8, 0, 31)], ["refused 2 at 0 passes 0"], ["?"]),
    (4, "push_mark(1048576)", [mark(MARK + 1)], LARGE, ["stored 0 1"]),
    (4, "a reference to mark 1048576", [direct(MARK + 1, 8)], LARGE, ["stored 0 1"]),
    (4, "a delta to mark 4294967294", [delta(0, TOP - 1, 8)], LARGE, ["stored 0 1"]),
    (5, "push_mark(4294967295)", [mark(TOP)], LARGE, ["panic: Index overflow: value exceeds maximum representable index"]),
    (6, "one op byte, a byte slice of length 0", [op(0)], ["refused 4 at 0 passes 0"], ["stored 1 1"], dict(bytes=0)),
    (6, "one mark, a word slice of length 2", [mark(0)], ["refused 5 at 0 passes 0"], ["stored 0 1"], dict(words=2)),
    (7, "counts set to 1 and 0, then a mark", [(18, 1, 0), mark(0)], ["set", "refused 6 at 0 passes 0"], ["?", "stored 0 1"]),
    (8, "mark 0, a table of length 0", [mark(0), ASSEMBLE], ["refused 7 at 0 passes 0"], ["length 0 passes ?"], dict(table=0)),
    (8, "mark 128: the original's table then has length 256", [mark(128), ASSEMBLE, table_of(255, 257)],
     ["length 0 passes 1", "table 0000000000000000"], ["length 0 passes ?", "table 00000000????????"]),
    (9, "a pushed reference to mark 0 alone", [direct(0, 8), ASSEMBLE, bytes_of(1)], ["refused 8 at 0 passes 0", "result a5"], ["length 1 passes ?", "result 5f"]),
    (9, "the same, hint 0", [direct(0, 8), ASSEMBLE], ["refused 8 at 0 passes 0"], ["panic: index out of bounds: the len is 0 but the index is 0"], {}, 0),
    (9, "a pushed reference to mark 128 alone", [direct(128, 8), ASSEMBLE], ["refused 8 at 0 passes 0"], ["panic: index out of bounds: the len is 128 but the index is 128"]),
    (9, "pushed delta 0 to 1, mark 0", [delta(0, 1, 8), mark(0), ASSEMBLE], ["refused 18 at 0 passes 0"], [UNDERFLOW]),
    (9, "pushed delta 1 to 0 size 1, 254 data bytes, mark 0", [delta(1, 0, 9), *data(254), mark(0), ASSEMBLE],
     ["refused 17 at 0 passes 0"], ["refused 10 at 0 passes ?"]),
    (9, "the same with 253", [delta(1, 0, 9), *data(253), mark(0), ASSEMBLE], ["refused 17 at 0 passes 0"], ["length 255 passes ?"]),
    (9, "pushed delta 0 to 1 alone: both ends", [delta(0, 1, 8), ASSEMBLE, bytes_of(1)], ["refused 17 at 0 passes 0", "result a5"], ["length 1 passes ?", "result 5f"]),
    (9, "pushed delta 0 to 0 alone: one mark as both ends", [delta(0, 0, 8), ASSEMBLE, bytes_of(1)], ["refused 17 at 0 passes 0", "result a5"], ["length 1 passes ?", "result 5f"]),
    (10, "mark 0, op 5b, mark 0", [mark(0), op(0x5B), mark(0), ASSEMBLE], ["refused 9 at 2 passes 0"], [UNSETTLED]),
    (10, "raw ref 0 size 1, 254 data bytes, mark 0, op 5b, mark 0", [direct(0, 1), *data(254), mark(0), op(0x5B), mark(0), ASSEMBLE],
     ["refused 9 at 4 passes 0"], ["refused 10 at 0 passes ?"]),
    (10, "the same with 253", [direct(0, 1), *data(253), mark(0), op(0x5B), mark(0), ASSEMBLE], ["refused 9 at 4 passes 0"], [UNSETTLED]),
    (10, "mark 1, op 5b, mark 1, not named; raw ref 0 size 1, 254 data bytes, mark 0",
     [mark(1), op(0x5B), mark(1), direct(0, 1), *data(254), mark(0), ASSEMBLE], ["refused 9 at 2 passes 0"], ["refused 10 at 3 passes ?"]),
    (10, "the same with 253", [mark(1), op(0x5B), mark(1), direct(0, 1), *data(253), mark(0), ASSEMBLE], ["refused 9 at 2 passes 0"], [UNSETTLED]),
    (11, "ten sections that never settle", [*RESTLESS[0], ASSEMBLE], ["refused 11 at 0 passes 1024"], [UNSETTLED]),
    (11, "line 11, N = 1,023", [*line_11(1023, 61445), ASSEMBLE], ["refused 11 at 0 passes 1024"], [UNSETTLED]),
    (12, "mark 0, op 5b, mark 1, pushed delta 1 to 0", [mark(0), op(0x5B), mark(1), delta(1, 0, 8), ASSEMBLE, bytes_of(1)],
     ["refused 12 at 3 passes 1", "result a5"], [UNDERFLOW, "result 5b"]),
    (13, "one op byte, a result of length 0", [op(0), ASSEMBLE], ["refused 13 at 0 passes 1"], ["length 1 passes ?"], dict(result=0)),
    (13, "an empty store, position 1 in a result of length 0", [(20, 1, 0)], ["refused 13 at 0 passes 1"], ["length 0 passes ?"], dict(result=0)),
    (14, "mark 0, a text of length 0", [mark(0), LIST], ["refused 14 at 0 passes 0"],
     ["error: an error occurred when formatting an argument"], dict(listing=0)),
    (14, "op 5b, a text of length 3, and the text then", [op(0x5B), LIST, (28, 0, 3)],
     ["refused 14 at 0 passes 0", 3 * "\xa5"], ["panic: called `Result::unwrap()` on an `Err` value: Error", "  ?"], dict(listing=3)),
    (15, "an empty store", [ASSEMBLE], ["length 0 passes 1"], ["length 0 passes ?"]),
    (16, "raw ref 0 size 1, 255 data bytes, mark 0", [direct(0, 1), *data(255), mark(0), ASSEMBLE, table_of(0, 1)],
     ["refused 10 at 0 passes 1", "table 00000000"], ["refused 10 at 0 passes ?", "table ????????"]),
    (17, "op 5b, landing at offset 0", [op(0x5B), ASSEMBLE, (22, 0, 1)], ["length 1 passes 1", "yes"], ["length 1 passes ?", "?"]),
    (18, "a run of 2 op bytes, a byte slice of length 1, and the byte then", [run(2, RISING), (24, 0, 1)],
     ["refused 4 at 0 passes 0", "bytes a5"], ["stored 2 1", "bytes 00"], dict(bytes=1)),
    (18, "mark 0, a run of 2 op bytes, slices of one byte and three words", [mark(0), run(2, RISING)], ["refused 5 at 0 passes 0"], ["stored 2 2"], dict(bytes=1, words=3)),
    (19, "mark 0, entry 0 of the table 1, a write", [mark(0), (19, 0, 1), (29, 0, 0)], ["refused 16 at 0 passes 0"], ["length 0 passes ?"]),
    (20, "the scan of no byte", [(13, 0, 0)], ["zeros 0 looked 0"], ["?"]),
    (0, "line 11, N = 1,022", [*line_11(1022, 61449), ASSEMBLE], ["length 66558 passes 1024"], ["length 66558 passes ?"]),
]  # fmt: skip


def both(driver: str, replay: str, steps: list[Step], own: dict[str, int] = {}, hint: int | None = None) -> tuple[list[str], list[str]]:
    lengths = tuple((LENGTHS | own).values())
    commands = [replay], [driver] + ([] if hint is None else [str(hint)])
    return tuple([line.rstrip("\n") for line in answers(command, lengths, POOL, steps)] for command in commands)


def main(driver: str, replay: str) -> int:
    wrong = 0
    for number, what, steps, ours, theirs, *more in CASES:
        told = [lines[-len(ours) :] for lines in both(driver, replay, steps, *more)]
        good = told == [ours, theirs]
        wrong += not good
        line = f"{number or 'no difference'}: {what}: ours {' / '.join(told[0])}; original {' / '.join(told[1])}"
        print(ascii(line)[1:-1] + ("" if good else f"; NOT {ours} and {theirs}"))
    print(f"{len(CASES)} cases, {wrong} wrong")
    return wrong > 0


if __name__ == "__main__":
    sys.exit(main(*sys.argv[1:]))
