#!/usr/bin/env python3
"""Tests make.py and, given its path, the program `job`: test.py [PROGRAM]. See test.sh."""
import collections, os, random, subprocess, sys, time

HERE = os.path.dirname(os.path.abspath(__file__))
sys.path.append(os.path.join(HERE, "../replay"))
import gen, jobs, model

MAKE = [sys.executable, os.path.join(HERE, "make.py")]
EXAMPLE = os.path.join(HERE, "example.txt")
STORED = os.path.join(HERE, "../../crates/job")
EXAMPLE_JOB = bytes.fromhex("""
    00000002 aabb 00000008
    01 00000000 00000000  02 0000005b 00000000  04 00000001 00000008  02 00000056 00000000
    01 00000001 00000000  02 0000005b 00000000  03 00000000 00000002  22 00000000 00000001
""")
EXAMPLE_TEXT = b"code 5b6004565baabb0004\n"

MADE = (  # a text, its job in hex: pool count, pool, step count, steps
    ("", "00000000 00000000"),
    ("# nothing\n\n   \n\t# nothing\n", "00000000 00000000"),
    ("mark 0", "00000000 00000001 01 00000000 00000000"),
    ("mark 16384 # a comment\r\n", "00000000 00000001 01 00004000 00000000"),
    ("mark 4294967295", "00000000 00000001 01 ffffffff 00000000"),
    ("mark " + "0" * 9999 + "7", "00000000 00000001 01 00000007 00000000"),
    ("op 5b", "00000000 00000001 02 0000005b 00000000"),
    ("op 60FF 00\n", "00000000 00000003 02 00000060 00000000 02 000000ff 00000000 02 00000000 00000000"),
    ("data aabb", "00000002 aabb 00000001 03 00000000 00000002"),
    ("data", "00000000 00000001 03 00000000 00000000"),
    ("data aa\ndata bb CC", "00000003 aabbcc 00000002 03 00000000 00000001 03 00000001 00000003"),
    ("data aabbcc\ndata bb\ndata aabbcc", "00000003 aabbcc 00000003 03 00000000 00000003 03 00000001 00000002 03 00000000 00000003"),
    ("push 1", "00000000 00000001 04 00000001 00000008"),
    ("push 1 :2", "00000000 00000001 04 00000001 0000000a"),
    ("  push\t1:4", "00000000 00000001 04 00000001 0000000c"),
    ("raw 1", "00000000 00000001 04 00000001 00000000"),
    ("raw 4294967295 :1", "00000000 00000001 04 ffffffff 00000001"),
    ("push 1-0", "00000000 00000001 28 00000000 00000001"),
    ("push 1-0 :1", "00000000 00000001 29 00000000 00000001"),
    ("push 7-300 :4", "00000000 00000001 2c 0000012c 00000007"),
    ("raw 1-0", "00000000 00000001 20 00000000 00000001"),
    ("raw 1-0 :2", "00000000 00000001 22 00000000 00000001"),
    ("raw 1 - 0 :4", "00000000 00000001 24 00000000 00000001"),
    ("raw 4294967295-4294967294", "00000000 00000001 20 fffffffe ffffffff"),
)

UNREADABLE = (
    "mark", "mark x", "mark -1", "mark 1 2", "mark 4294967296", "mark 99999999999999999999", "mark 0x1", "mark \u0661", "mark1",
    "op", "op 5", "op 5b6", "op 5 b", "op 0x5b", "op zz", "data a", "data aab", "data 0xaabb", "data \u00e9",
    "push", "push x", "push 1 2", "push 1 :", "push 1 :0", "push 1 :5", "push 1 :8", "push 1 :22", "push :2", "push 1-", "push -1",
    "push 1-2-3", "push 4294967296", "raw", "raw 1-4294967296", "raw 4294967296-1", "raw 1+2", "raw 1 2 :2", "raw (1 - 0):2",
    "Mark 0", "jump 1", "5b", "\ufffd",
)  # fmt: skip

wrong = 0


def check(what, got, expected):
    global wrong
    if got != expected:
        wrong += 1
        shown = lambda value: repr(value)[:200]
        print(f"{what}: {shown(got)}, expected {shown(expected)}", flush=True)


def ran(command, given):
    """Exit code, output and what is on standard error."""
    run = subprocess.run(command, input=given, capture_output=True)
    return run.returncode, run.stdout, run.stderr


def maker():
    for text, job in MADE:
        check(f"make.py of {text[:40]!r}", ran(MAKE, text.encode()), (0, bytes.fromhex(job), b""))
    for line in UNREADABLE:
        code, out, why = ran(MAKE, f"mark 0\n# {line}\n{line} # it\ndata\nmark\n".encode())
        check(f"make.py of {line!r}", (code, out, why[:16], why.count(b"\n")), (1, b"", b"make.py: line 3:", 1))
    code, out, why = ran(MAKE, b"op 5b\nop \xff\xfe\n")
    check("make.py of bytes that are no text", (code, out, why[:16]), (1, b"", b"make.py: line 2:"))
    code, out, why = ran([*MAKE, os.path.join(HERE, "none")], b"")
    check("make.py of a file that isn't there", (code, out, why[:9], why.count(b"\n")), (1, b"", b"make.py: ", 1))
    check("make.py with two files", ran([*MAKE, EXAMPLE, EXAMPLE], b"")[:2], (1, b""))
    check("make.py of the example", ran([*MAKE, EXAMPLE], b""), (0, EXAMPLE_JOB, b""))
    check("the same from standard input", ran(MAKE, open(EXAMPLE, "rb").read()), (0, EXAMPLE_JOB, b""))
    long = ran(MAKE, b"mark 1048576\n" * 3641)
    check("make.py of what job refuses", (long[0], len(long[1]), long[2]), (0, 32777, b""))
    for name, expected in (("stdin", EXAMPLE_JOB), ("stdout", EXAMPLE_TEXT)):
        check(f"crates/job/{name}", open(os.path.join(STORED, name), "rb").read(), expected)
    check("the model's text of the example", model.job_text(EXAMPLE_JOB), EXAMPLE_TEXT)
    print(f"make.py: {len(MADE)} texts, {len(UNREADABLE)} unreadable lines and 9 others")


def slowly(program, job, give, take):
    """What it prints when it is given so many bytes at a time and its output, which a pipe doesn't hold, is read so many at a time."""
    run = subprocess.Popen([program], stdin=subprocess.PIPE, stdout=subprocess.PIPE, bufsize=0)
    for at in range(0, len(job), give):
        run.stdin.write(job[at : at + give])
        time.sleep(0.002)
    run.stdin.close()
    text = b""
    while part := os.read(run.stdout.fileno(), take):
        text += part
        time.sleep(0.01)
    run.stdout.close()
    return run.wait(), text


def by_hand(program):
    """Texts that are written out here, so that they don't rest on the model."""
    top, step = b"\xff" * 4, bytes.fromhex("02 0000005b 00000000")
    longest = bytes(4) + bytes.fromhex("00000e38") + 3640 * step  # 32,768 bytes: a program that reads no more takes any longer one too
    for what, job, text in (
        ("the example", EXAMPLE_JOB, EXAMPLE_TEXT),
        ("two zero counts", bytes(8), b"code \n"),
        ("no input", b"", b"refused 15 at 0\n"),
        ("a megabyte", bytes(2**20), b"refused 15 at 0\n"),
        ("a megabyte after a job", EXAMPLE_JOB + bytes(2**20), b"refused 15 at 0\n"),
        ("the longest job", longest, b"code " + b"5b" * 3640 + b"\n"),
        ("the longest job and a byte", longest + b"\0", b"refused 15 at 0\n"),
        ("the longest job and a megabyte", longest + bytes(2**20), b"refused 15 at 0\n"),
        ("a pool count of 2^32 - 1", top + bytes(4) + step, b"refused 15 at 0\n"),
        ("a step count of 2^32 - 1", bytes(4) + top + step, b"refused 15 at 0\n"),
        ("both", top + top, b"refused 15 at 0\n"),
        ("op 5b", bytes(7) + b"\1" + step, b"code 5b\n"),
        ("8 at 0", bytes.fromhex("00000000 00000001 04 00000007 00000008"), b"refused 8 at 0\n"),
        ("17 at 1", bytes.fromhex("00000000 00000002 01 00000000 00000000 28 00000007 00000000"), b"refused 17 at 1\n"),
        ("18 at 1", bytes.fromhex("00000000 00000002 01 00000000 00000000 28 00000000 00000007"), b"refused 18 at 1\n"),
    ):
        check(what, ran([program], job), (0, text, b""))
    with open(os.devnull) as nothing:
        run = subprocess.run([program], stdin=nothing, capture_output=True)
    check("no input, from a file", (run.returncode, run.stdout), (0, b"refused 15 at 0\n"))
    cases = dict(jobs.cases())
    for what, give, take in (("65,536 bytes", 4096, 4000), ("65,536 bytes", 100, 9999), ("line 12", 1, 1), ("3,640 steps", 1000, 5)):
        check(f"{what}, slowly", slowly(program, cases[what], give, take), (0, model.job_text(cases[what])))


def against_model(program, count, seed):
    """Jobs at the limits and random ones; how often each answer came."""
    for what, job in (*jobs.cases(), *jobs.more()):
        check(what, ran([program], job), (0, model.job_text(job), b""))
    told = collections.Counter()
    for i in range(count):
        r = random.Random(f"job {seed + i}")
        job = gen.random_job(r)
        if i % 2:
            job = gen.damaged(r, job)
        text = model.job_text(job)
        told["code" if text.startswith(b"code") else text.split()[1].decode()] += 1
        check(f"random job {seed + i}, {job.hex()}", ran([program], job), (0, text, b""))
    answers = ", ".join(f"{answer} {n}" for answer, n in sorted(told.items(), key=lambda of: (len(of[0]), of[0])))
    print(f"{len((*jobs.cases(), *jobs.more()))} jobs at the limits, {count} random ones: {answers}")


maker()
if len(sys.argv) > 1:
    by_hand(sys.argv[1])
    against_model(sys.argv[1], int(os.environ.get("JOBS", "4000")), int(os.environ.get("SEED", "2026")))
print(f"{wrong} differ")
sys.exit(wrong > 0)
