#!/usr/bin/env python3
"""Runs replay against the model on the boundaries of the format, of runs of op bytes, of scans, of words, of jobs and of writes, and
on generated scripts: compare.py PROGRAM FIRST LAST. Prints each difference with the smallest script that still shows it (steps dropped
one after another), kept as differs-SEED.script."""
import subprocess, sys
import gen, jobs, model, writes


def differs(program, whole):
    """None, or the first line that differs, as (line, program's, model's)."""
    run = subprocess.run([program], input=whole, capture_output=True)
    ours, theirs = run.stdout.decode("latin1"), model.replay(whole)
    if run.returncode == 0 and ours == theirs:
        return None
    a, b = ours.split("\n"), theirs.split("\n")
    n = next((i for i, (x, y) in enumerate(zip(a, b)) if x != y), min(len(a), len(b)) - 1)
    return n, f"status {run.returncode}, {a[n][:120]!r}", b[n][:120]


def smaller(program, whole):
    count = int.from_bytes(whole[20:24], "big")
    at = 24 + count
    if len(whole) < 24 or at > len(whole) or (len(whole) - at) % 9:
        return whole
    head, steps = whole[:at], [whole[i : i + 9] for i in range(at, len(whole), 9)]
    size = max(1, len(steps) // 2)
    while True:
        i = 0
        while i < len(steps):
            fewer = steps[:i] + steps[i + size :]
            if differs(program, head + b"".join(fewer)):
                steps = fewer
            else:
                i += size
        if size == 1:
            return head + b"".join(steps)
        size //= 2


def main(program, first, last):
    lines = found = edges = 0
    for what, whole in (*gen.edges(), *gen.run_edges(), *gen.scan_edges(), *gen.word_edges(), *gen.line_11(), *jobs.edges(), *writes.edges()):
        edges += 1
        if d := differs(program, whole):
            print(f"{what}: line, program, model: {d}", flush=True)
            found += 1
    print(f"{edges} scripts at the boundaries, {found} differ", flush=True)
    found = 0
    for seed in range(first, last):
        whole = gen.script(seed)
        if differs(program, whole) is None:
            lines += model.replay(whole).count("\n")
            continue
        found += 1
        small = smaller(program, whole)
        open(f"differs-{seed}.script", "wb").write(small)
        print(f"seed {seed}: {len(small)} bytes, line, program, model: {differs(program, small)}", flush=True)
        if found == 10:
            break
    print(f"seeds {first} to {last - 1}: {lines} lines agree, {found} scripts differ")


if __name__ == "__main__":
    main(sys.argv[1], int(sys.argv[2]), int(sys.argv[3]))
