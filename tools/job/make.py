#!/usr/bin/env python3
"""Makes a job from text: make.py [FILE] > JOB (standard input without FILE). docs/JOB.md has a job's format and the lines; a line
that can't be read is named on standard error, with exit code 1 and nothing written. What `job` refuses isn't refused here: a
line only has to be a step of the format."""
import re, struct, sys

TOP = 2**32 - 1
MARK, REFERENCE = r"([0-9]+)", r"([0-9]+)(?:\s*-\s*([0-9]+))?\s*(?::([1-4]))?"


class Unreadable(Exception):
    pass


def number(digits):
    """A number of four bytes."""
    digits = digits.lstrip("0") or "0"
    if len(digits) > 10 or int(digits) > TOP:
        raise Unreadable("a mark that four bytes don't hold")
    return int(digits)


def hex_bytes(digits):
    try:
        return bytes.fromhex(digits)
    except ValueError:
        raise Unreadable("not bytes in hex") from None


def steps(line, pool):
    """The steps of a line without comment; data goes into the pool, once if it is there already."""
    word, _, rest = line.partition(" ")
    rest = rest.strip()
    if word == "mark" and (m := re.fullmatch(MARK, rest)):
        return [(1, number(m[1]), 0)]
    if word == "op" and rest:
        return [(2, byte, 0) for byte in hex_bytes(rest)]
    if word == "data":
        data = hex_bytes(rest)
        if data not in pool:
            pool += data
        return [(3, pool.index(data), pool.index(data) + len(data))]
    if word in ("push", "raw") and (m := re.fullmatch(REFERENCE, rest)):
        form = int(m[3] or 0) + 8 * (word == "push")
        # a delta is written end - start, as in a listing, and is start, end in a step
        return [(4, number(m[1]), form)] if m[2] is None else [(32 + form, number(m[2]), number(m[1]))]
    raise Unreadable("not a line of a job")


def job(text):
    pool, made = bytearray(), []
    for at, line in enumerate(text.split("\n"), 1):
        line = " ".join(line.partition("#")[0].split())
        try:
            made += steps(line, pool) if line else []
        except Unreadable as why:
            raise Unreadable(f"line {at}: {why}: {line}") from None
    return struct.pack(">I", len(pool)) + pool + struct.pack(">I", len(made)) + b"".join(struct.pack(">BII", *s) for s in made)


if __name__ == "__main__":
    if len(sys.argv) > 2:
        sys.exit("usage: make.py [FILE]")
    try:
        source = open(sys.argv[1], "rb") if len(sys.argv) == 2 else sys.stdin.buffer
        sys.stdout.buffer.write(job(source.read().decode(errors="replace")))
    except (OSError, Unreadable) as why:
        sys.exit(f"make.py: {why}")
