#!/usr/bin/env python3
"""Brings the repository's own definitions and lemmas to today's spelling: words in snake case (PORTING.md of the kit, part 3).

usage: python3 tools/port/rename.py        at the top of the repository, once, after the kit's port.py

tools/port/names.tsv has a row for each name: old, new, a kind, and, where the row holds in one folder or file of crates/ alone, its path.
The kind is 'field' (also a record's field or a constructor), 'name', or 'page': port.py turned it in the code, so that it turns in edits,
comments and pages alone. Names of src/ functions, exported names, strings, inputs and outputs aren't in it.
What turns:
  .antt        code; in comments names in camel case, and names with a dash inside backticks
  .rt          the same, but for strings
  .edit        the lines 'old:' and 'new:'
  .md          text inside backticks and fences
A name behind a dot turns if it is a field, or if what stands before the dot is a module or an alias of one.
"""

import os
import re

NAME = re.compile(r"(?<![\w'◌+*-])[A-Za-z][\w'+*-]*")
ANTT_QUIET = re.compile(r"(?<![^\s(){}.;,@])--[^\n]*|\{-.*?-\}|\"(?:[^\"\\\n]|\\.)*\"", re.S)
RT_QUIET = re.compile(r"//[^\n]*|b?\"(?:[^\"\\\n]|\\.)*\"")
SPAN = re.compile(r"```.*?```|`[^`\n]+`", re.S)
ALIAS = re.compile(r"\buse [\w.◌']+ as (\w+)")


def table():
    rows = []
    with open(os.path.join(os.path.dirname(os.path.abspath(__file__)), "names.tsv"), encoding="utf-8") as f:
        for line in f:
            old, new, kind, scope = line.rstrip("\n").split("\t")
            rows.append((old, new, kind, scope))
    return rows


def for_path(rows, path, pages):
    """The rows that hold in a file: those with no scope, and those whose scope its path begins with."""
    inner = path.split("crates/", 1)[-1]
    return {
        old: (new, kind != "name")
        for old, new, kind, scope in rows
        if (pages or kind != "page") and (not scope or inner.startswith(scope))
    }


def code(text, names, aliases):
    def turn(m):
        found = names.get(m[0])
        if not found:
            return m[0]
        start = m.start()
        if start and text[start - 1] == ".":
            before = re.search(r"([\w'◌+*-]*)\.$", text[:start])[1]
            module = bool(before) and (before[0].isupper() or before in aliases)
            if not (found[1] or module) or before in ("tie", "goal"):
                return m[0]
        return found[0]

    return NAME.sub(turn, text)


def prose(text, names):
    """A comment: camel case everywhere, a name with a dash inside backticks."""
    camel = {k: v for k, v in names.items() if "-" not in k}

    def plain(part):
        return NAME.sub(lambda m: camel[m[0]][0] if m[0] in camel else m[0], part)

    out, at = [], 0
    for m in SPAN.finditer(text):
        out += [plain(text[at : m.start()]), NAME.sub(lambda w: names[w[0]][0] if w[0] in names else w[0], m[0])]
        at = m.end()
    return "".join(out) + plain(text[at:])


def around(text, quiet, names, spoken, aliases, strings):
    out, at = [], 0
    for m in quiet.finditer(text):
        out.append(code(text[at : m.start()], names, aliases))
        out.append(m[0] if strings(m[0]) else prose(m[0], spoken))
        at = m.end()
    return "".join(out) + code(text[at:], names, aliases)


def source(text, names, spoken, is_antt):
    aliases = set(ALIAS.findall(text)) - {"tie", "goal"}
    quiet = ANTT_QUIET if is_antt else RT_QUIET
    return around(text, quiet, names, spoken, aliases, lambda s: s.lstrip("b").startswith('"'))


def edit(text, names):
    out = []
    for line in text.split("\n"):
        m = re.match(r"(old|new): ?(.*)$", line)
        out.append(f"{m[1]}: {code(m[2], names, {'ours', 'rust'})}" if m and m[2] else prose(line, names))
    return "\n".join(out)


def page(text, names):
    def span(m):
        return NAME.sub(lambda w: names[w[0]][0] if w[0] in names else w[0], m[0])

    return SPAN.sub(span, text)


def main():
    rows = table()
    for folder, dirs, files in os.walk("."):
        dirs[:] = sorted(d for d in dirs if d not in (".git", "out", "target"))
        for name in sorted(files):
            path = os.path.relpath(os.path.join(folder, name), ".")
            kind = os.path.splitext(name)[1]
            if kind not in (".antt", ".rt", ".edit", ".md") or path.startswith("tools/port/"):
                continue
            with open(path, encoding="utf-8") as f:
                text = f.read()
            names, spoken = for_path(rows, path, False), for_path(rows, path, True)
            if kind == ".antt":
                turned = source(text, names, spoken, True)
            elif kind == ".rt":
                turned = source(text, names, spoken, False)
            elif kind == ".edit":
                turned = edit(text, spoken)
            else:
                turned = page(text, spoken)
            if turned != text:
                with open(path, "w", encoding="utf-8") as f:
                    f.write(turned)


if __name__ == "__main__":
    main()
