#!/usr/bin/env python3
"""Holds `replay`, the model and the original against each other: compare.py DRIVER REPLAY SEED COUNT. Every short list, then
COUNT lists from SEED. Each list is built, read back, assembled, settled and then written, and listed by all three. Prints the lists
that differ, what was seen how often, and, last, how many lists differ; ends with status 1 if any does.

Where demand 2's premises hold, replay must answer as the original does. They are judged from the list itself (`bad_call`,
`marks_apart`) and from the original (no panic), never from replay's answer. Where they don't hold, replay must give the model's
refusal, its number must be the one that the failing premise asks for, and the original's answer must be one that
docs/DIFFERENCES.md has for that number."""
import itertools, sys
from collections import Counter
from collections.abc import Iterable, Iterator
import lists
from scripts import Step, answers, filled, model

SMALL = (256, 48, 8, 300, 1024)  # lengths of the lent slices: for the short lists
LARGE = (131072, 2400, 1100, 200000, 280000)
BATCH = 400  # lists in a script

UNSETTLED = "panic: internal error: entered unreachable code: assembly didn't converge"
ALLOWED = {  # number of our refusal: how the original's answer may begin
    1: ("panic: noop swap0", "panic: unsupported swap", "panic: unsupported dup", "panic: noop exchange"),
    3: ("stored ", "panic: Index overflow"),
    7: ("length ", "refused 10 ", "panic: "),
    8: ("length ", "refused 10 ", "panic: "),
    17: ("length ", "refused 10 ", "panic: "),
    18: ("length ", "refused 10 ", "panic: "),
    9: ("refused 10 ", UNSETTLED),
    11: (UNSETTLED,),
    12: ("panic: delta underflow after convergence",),
}


class Differs(Exception):
    pass


def ends(calls: lists.Calls, table: int, position: int) -> list[Step]:
    """The steps after a list: its bytes and sections, code and table, both again by settling and writing, the code behind the other,
    and the listing, each as far as it may reach."""
    count = sum({3: b - a, 7: 3, 8: 33, 9: 9, 10: 5, 12: b - a}.get(kind, 1) for kind, a, b in calls)
    text = sum({3: 2 * (b - a) + 30, 7: 30, 8: 90, 9: 40, 10: 30, 12: 20 * (b - a) + 20}.get(kind, 40) for kind, a, b in calls)
    top = min(table, max((a + 1 for kind, a, _ in calls if kind == 1), default=0))
    room = count + 4 * len(calls)
    end = position + room
    read = [(24, 0, count), (25, 0, 3 * len(calls)), (20, position, 0), (26, 0, top), (27, 0, end)]
    return [*read, (23, 0, 0), (29, end, 0), (26, 0, top), (27, end, end + room), (21, 0, 0), (28, 0, text)]


def refusal(line: str) -> int:
    """Its number, or 0."""
    return int(line.split()[1]) if line.startswith("refused ") else 0


def bad_call(kind: int, a: int, b: int) -> int:
    """The number that a building call deserves, or 0."""
    if kind == 5 and not 1 <= a <= 16 or kind == 6 and a > 15 or kind == 7 and (a == b or max(a, b) > 16):
        return 1
    return 3 if kind in (1, 4) and a > lists.MARK or kind >= 32 and max(a, b) > lists.MARK else 0


def marks_apart(calls: lists.Calls, table: int) -> int:
    """7 if a mark is past the table, else 8, 17 or 18 by the first reference to a mark that isn't placed, else 9 if one has bytes between its
    placings, else 0."""
    since = max((i + 1 for i, call in enumerate(calls) if call == lists.clear), default=0)
    placed: dict[int, set[int]] = {}  # for each placed mark, how many calls that add bytes came before its placings
    named: list[tuple[int, ...]] = []  # the marks of each reference
    before = 0
    for kind, a, b in calls[since:]:
        if kind == 1:
            placed.setdefault(a, set()).add(before)
            continue
        named += [(a,)] if kind == 4 else [(a, b)] if kind >= 32 else []
        before += not (kind in (3, 12) and a == b)
    if any(m >= table for marks in [*named, placed] for m in marks):
        return 7
    for first, *other in named:
        if first not in placed:
            return 17 if other else 8
        if other and other[0] not in placed:
            return 18
    return 9 if any(len(at) > 1 for at in placed.values()) else 0


def must(true: bool, *what: object) -> None:
    if not true:
        raise Differs(*what)


def judge(store: model.Model, calls: lists.Calls, steps: list[Step], ours: list[str], theirs: list[str]) -> str:
    """What was seen of a list: the assembly's answer, or the building call's that ended the comparison."""
    seen, coded = "", True
    for step, o, t in zip(steps, ours, theirs, strict=True):
        m = store.step(*step) + ("" if step[0] == 28 else "\n")
        must(o == m, "replay and model", step, o[:90], m[:90])
        if step[0] in (26, 27, 29) and not coded:
            continue  # no code here; what the original has of it is its own
        number = refusal(o)
        unmet = marks_apart(calls, len(store.table)) if step[0] in (20, 23) else bad_call(*step)
        if unmet or t.startswith("panic"):
            must(number in ((unmet,) if unmet else (11, 12)), "the premises ask for", unmet, step, o[:90], t[:90])
            must(t.startswith(ALLOWED[number]), "no such difference", step, o[:90], t[:90])
            if step[0] not in (20, 23):
                return f"{number} in a building call"  # from here on the stores differ
            seen, coded = f"{number}", False
        else:
            must(o == filled(t, o), "replay and original", step, o[:90], t[:90])
            if step[0] in (20, 23):
                seen, coded = "10" if number else "code in 1 or 2 passes" if int(o.split()[3]) < 3 else "code in 3 or more", not number
    return seen


def compare(driver: list[str], replay: str, lengths: tuple[int, ...], some: Iterable[lists.Calls], positions: Iterator[int]) -> Counter:
    """Prints what differs; counts what was seen."""
    runs = [(calls, [(0, 0, 0), *calls, *ends(calls, lengths[2], next(positions))]) for calls in some]
    steps = [step for _, run in runs for step in run]
    ours = answers([replay], lengths, lists.POOL, steps)
    theirs = answers(driver, lengths, lists.POOL, steps)
    store, seen, at = model.Model(lengths, lists.POOL), Counter(), 0
    for calls, run in runs:
        part = slice(at, at + len(run))
        at += len(run)
        try:
            seen[judge(store, calls, run, ours[part], theirs[part])] += 1
        except Differs as difference:
            seen["DIFFERS"] += 1
            print("differs:", *difference.args, "in", run, flush=True)
    return seen


def batches(some: Iterable[lists.Calls]) -> Iterator[list[lists.Calls]]:
    while batch := list(itertools.islice(some, BATCH)):
        yield batch


def main(driver: str, replay: str, seed: int, count: int) -> int:
    differ = 0
    for what, lengths, some in (("short lists", SMALL, lists.short()), (f"random lists, seed {seed}", LARGE, lists.at_random(seed, count))):
        seen = Counter()
        for i, batch in enumerate(batches(iter(some))):
            # The original's table is as long as its hint at first: the default, or 0, in turn.
            seen += compare([driver] + ["0"] * (i % 2), replay, lengths, batch, itertools.cycle((0, 0, 0, 1, 7)))
        print(f"{seen.total()} {what}:", *(f"{n} {name}," for name, n in sorted(seen.items())), flush=True)
        differ += seen["DIFFERS"]
    print(f"{differ} lists differ")
    return differ > 0


if __name__ == "__main__":
    sys.exit(main(sys.argv[1], sys.argv[2], int(sys.argv[3]), int(sys.argv[4])))
