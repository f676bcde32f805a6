"""Runs a program on the steps of one replay script; finds tools/replay's modules."""
import os, struct, subprocess, sys

sys.path.append(os.path.join(os.path.dirname(os.path.abspath(__file__)), "../replay"))
import gen, model

Step = tuple[int, int, int]


def script(lengths: tuple[int, ...], pool: bytes, steps: list[Step]) -> bytes:
    return struct.pack(">6I", *lengths, len(pool)) + pool + b"".join(struct.pack(">BII", *step) for step in steps)


def answers(command: list[str], lengths: tuple[int, ...], pool: bytes, steps: list[Step]) -> list[str]:
    """What the program prints for each step; no step may be a bad one."""
    whole = script(lengths, pool, steps)
    assert len(whole) <= model.MAX_SCRIPT
    out = subprocess.run(command, input=whole, stdout=subprocess.PIPE, check=True).stdout.decode("latin1")
    told, at = [], 0
    for kind, a, b in steps:
        end = at + b - a if kind == 28 else out.index("\n", at) + 1
        told.append(out[at:end])
        at = end
    assert at == len(out)
    return told


def filled(theirs: str, ours: str) -> str:
    """The original's answer, with what it doesn't answer (`?` at its end) taken from ours."""
    line = theirs.removesuffix("\n")
    known = line.rstrip("?")
    return theirs if known == line else known + ours[len(known) :]
