#!/usr/bin/env python3
"""Lists the places in crates/*/src that docs/DESIGN-PASS.md counts, point by point: places.py [DIR].

Text alone is read. A row is a place to look at; the page says of each whether it was changed or why it stays."""
import collections
import glob
import os
import re
import sys

ROOT = sys.argv[1] if len(sys.argv) > 1 else "."
FILES = sorted(glob.glob(os.path.join(ROOT, "crates/*/src/**/*.rt"), recursive=True))
NONE = r"(Refused|Damaged|TooNarrow|Nothing|NoPush|Unsized|Bad|BadJob|ShortText|No)"
KEYWORDS = set("fn pub crate if else match while for in loop return let mut as self Self break true false u8 u32 u64 usize bool".split())


class Source:
    def __init__(self, path):
        self.path = os.path.relpath(path, ROOT)
        raw = open(path, encoding="utf-8").read()
        self.code = re.sub(r"//[^\n]*", lambda m: " " * len(m[0]), raw)

    def place(self, at, what):
        return f"{self.path}:{self.code.count(chr(10), 0, at) + 1}: {what}"

    def closed(self, at):
        """The place after the bracket that closes the one at `at`."""
        depth = 0
        for i in range(at, len(self.code)):
            depth += {"(": 1, "[": 1, "{": 1, ")": -1, "]": -1, "}": -1}.get(self.code[i], 0)
            if depth == 0:
                return i + 1
        return len(self.code)

    def functions(self):
        """Each function with a body: its name, where it begins, its head with the contract, and its body."""
        for m in re.finditer(r"\bfn (\w+)", self.code):
            i = self.closed(self.code.index("(", m.end()))
            while i < len(self.code):
                clause = re.compile(r"\s*(requires|ensures)\s*\w*\s*(?=\{)").match(self.code, i)
                if clause:
                    i = self.closed(clause.end())
                elif self.code[i] == "{":
                    yield m[1], m.start(), self.code[m.end():i], self.code[i:self.closed(i)]
                    break
                elif self.code[i] == ";":
                    break
                else:
                    i = self.closed(i) if self.code[i] in "([" else i + 1


SOURCES = [Source(f) for f in FILES]


def found(pattern, what=lambda m: m[0].strip().split("\n")[0], only=""):
    return [s.place(m.start(), what(m)) for s in SOURCES if re.search(only, s.path) for m in re.finditer(pattern, s.code, re.M)]


def own_enums():
    return [s.place(m.start(), "enum " + m[1]) for s in SOURCES
            for m in re.finditer(r"\benum (\w+) \{(.*?)\n\}", s.code, re.S)
            if re.search(r"^    %s\b" % NONE, m[2], re.M) and len(re.findall(r"^    \w+", m[2], re.M)) <= 3]


def counted_loops():
    rows = []
    for s in SOURCES:
        for m in re.finditer(r"\bwhile ([^{]*)\{", s.code):
            depth, i = 1, m.end()
            while depth:
                depth += {"{": 1, "}": -1}.get(s.code[i], 0)
                i += 1
            body = s.code[m.end():i]
            if any(re.search(r"\b%s [+-]= " % v, body) for v in re.findall(r"\b[a-z]\w*\b", m[1])):
                rows.append(s.place(m.start(), "while " + m[1].strip()))
    return rows


def twins():
    """Functions of three lines or more whose bodies are the same but for names and numbers."""
    groups = collections.defaultdict(list)
    for s in SOURCES:
        for name, at, head, body in s.functions():
            shape = re.sub(r"\b[A-Za-z_]\w*\b", lambda m: m[0] if m[0] in KEYWORDS else "x", body)
            shape = re.sub(r"\b[0-9]\w*\b", "0", re.sub(r"\s+", " ", shape))
            if len([l for l in body.split("\n") if l.strip() not in ("", "{", "}")]) >= 2:
                groups[shape].append(s.place(at, "fn " + name))
    return [" | ".join(g) for g in groups.values() if len(g) > 1]


def conversions():
    """A function that turns a value of one of our types into a number or another of them, or prints it."""
    return found(r"\bfn (kind_number|number|set_size_number|section|passes|bytes|set_size_of|counts_in|state_of|built_of|as_assembled|reply_of|refusal_number"
                 r"|assembled_number|listed_number|wide|number_at|pair_at|eight_bytes|step_at|kept|say_\w+)\b", lambda m: m[0])


def repeated_facts():
    count = collections.Counter()
    where = {}
    for s in SOURCES:
        for name, at, head, body in s.functions():
            for fact in set(re.findall(r"requires\s+\w*\s*\{\s*\(?(\w+)\b", head)):
                if fact[0].isupper():
                    count[fact] += 1
                    where.setdefault(fact, []).append(s.path + " " + name)
    return [f"{fact}: {n} functions" for fact, n in count.items() if n >= 3]


RUNS = [("store: ", "bytes: ", "words: "), ("bytes: ", "words: ", "table: ", "res: "), ("text: &mut", "at: usize"), ("res: &mut", "at: usize")]


def travelling():
    rows = []
    for run in RUNS:
        at = [s.path + " " + name for s in SOURCES for name, _, head, _ in s.functions() if all(p in head.split(" ensures")[0] for p in run)]
        rows += [f"{', '.join(p.split(':')[0] for p in run)}: {len(at)} functions"] if len(at) >= 3 else []
    return rows


POINTS = [
    ("1 own enums of the shape of Option or Result", own_enums()),
    ("1 a number that 0 stands apart in", found(r"\bif \w+ != 0 \{\s*return \w+;") + found(r"^ +return 0;", only="short/")),
    ("1 a search that answers a count where it finds nothing",
     found(r"\bfn first_\w+\([^{;]*?\) -> u32", lambda m: m[0].split("(")[0]) + found(r"^ +pub\(crate\) (short|apart|stopped|backward): u32,")),
    ("1 a state, or an answer, as one number", found(r"\bfn \w+\(\s*state: u64\b|\bfn \w+\([^{;]*?\) -> u64\s+(ensures|requires)", lambda m: m[0].split("(")[0], only="^crates/(?!sadrokki)")),
    ("1 kinds by number: constants", found(r"^(pub(\(crate\))? )?const [A-Z_0-9]+: u(8|32) = [0-9]+;", only=r"kind|read|form|step")),
    ("1 kinds by number: arms", found(r"^ +[0-9]+(\.\.=[0-9]+)?( \| [0-9]+)* =>", only="replay|job")),
    ("2 functions of one shape (each row a group)", twins()),
    ("2 types of one shape", found(r"^pub struct (BytesSpan|MarkSpan|Span)\b.*")),
    ("3 loops that count by hand", counted_loops()),
    ("4 conversion and printing by hand", conversions()),
    ("5 facts that three contracts or more require", repeated_facts()),
    ("5 parameters that travel together", travelling()),
    ("6 an array with a length beside it, a buffer made by a function", found(r"\bstruct \w+\(pub \[u8; [0-9]+\], pub usize\)") + found(r"\bfn \w+\(\) -> \[u(8|32); ?\w+( \+ 1)?\]")),
    ("7 a switch on which step to run", found(r"\bmatch (step\.)?kind \{") + found(r"\bif kind == [A-Z]+ \{")),
]

for title, rows in POINTS:
    print(f"== {title}: {len(rows)}")
    for row in rows:
        print("   " + row)
