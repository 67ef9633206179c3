#!/usr/bin/env python3
"""Respells the repository's own definitions and lemmas: words in snake case, facts and types in camel case.

usage: python3 tools/respell.py [--list]     at the top of the repository; --list prints old and new names and writes nothing

Names are those that .antt files of specs/ and proofs/ declare: definitions, lemmas, fields, constructors, rules of a `where`. Folders proofs/F of
functions declare none, but use them. Text in strings and, for names with a dash, in comments stays. The must-fail edits' old and new text is respelled too.
"""

import os
import re
import sys

# A letter or sign that may stand in a name; a dash only inside one.
NAME = re.compile(r"[^\W\d][\w'₀-₉·]*(?:-[\w'₀-₉·]+)*")
MARKS = r"(?:(?:abbrev|unfoldable|pub|pattern)\s+)*"
DECLARED = re.compile(r"^\s*" + MARKS + r"([^\s:(){}.,;]+)\s*:(?!:)")
TYPED = re.compile(r"^\s*" + MARKS + r"(?:data|record)\s+([^\s:(){}.,;]+)")

# Names that would fall together with another of the repository's or the library's in a file that has both.
OTHERS = {}
if os.path.exists(os.path.join(os.path.dirname(__file__), "respell-others.txt")):
    with open(os.path.join(os.path.dirname(__file__), "respell-others.txt"), encoding="utf-8") as f:
        OTHERS = dict(line.split() for line in f if line.strip() and not line.startswith("#"))


def snake(name):
    if name in OTHERS:
        return OTHERS[name]
    parts = name.split("-")
    out = []
    for part in parts:
        if re.match(r"[A-Z]", part):
            out.append(part)
        else:
            out.append(re.sub(r"(?<=[a-z0-9₀-₉])([A-Z])", lambda m: "_" + m.group(1).lower(), part))
    return "_".join(out)


def files(root):
    for folder, dirs, names in os.walk(os.path.join(root, "crates")):
        dirs[:] = sorted(d for d in dirs if d != "out")
        for name in sorted(names):
            if name.endswith((".antt", ".rt", ".edit")):
                yield os.path.join(folder, name)


def declares(path):
    """Whether a file is one of specs/ or a lemma file of proofs/."""
    folder = os.path.dirname(path)
    return path.endswith(".antt") and os.path.basename(folder) in ("specs", "proofs")


def declared(paths):
    found = set()
    for path in paths:
        if declares(path):
            with open(path, encoding="utf-8") as f:
                for line in f:
                    code = line.split("--")[0] if re.search(r"(^|\s)--(\s|$)", line) else line
                    for it in (DECLARED, TYPED):
                        m = it.match(code)
                        if m and not re.match(r"\s*(use|module|let|where|in)\b", code):
                            found.add(m.group(1))
    return found


def renaming(root):
    table = {}
    for name in sorted(declared(files(root))):
        if NAME.fullmatch(name) and snake(name) != name:
            table[name] = snake(name)
    gone = [name for name in OTHERS if name not in table and OTHERS[name] != name]
    if gone:
        print(f"respell-others.txt names what no file declares: {gone}", file=sys.stderr)
    return table


def turned(text, table, dashes):
    return NAME.sub(lambda m: table[m.group(0)] if m.group(0) in table and (dashes or "-" not in m.group(0)) else m.group(0), text)


def split_comment(line, mark):
    """The code of a line, and its comment."""
    m = re.search(r"(?:^|(?<=\s))" + mark + r"(?=\s|$)", line)
    return (line[: m.start()], line[m.start() :]) if m else (line, "")


def respelled(path, text, table):
    if not declares(path):
        # A name without a dash or a capital is a lemma's only where lemmas stand: elsewhere it may be a function's.
        table = {old: new for old, new in table.items() if re.search(r"-|[a-z0-9][A-Z]", old)}
    out = []
    for line in text.split("\n"):
        if path.endswith(".edit"):
            out.append(turned(line, table, True) if re.match(r"(old|new):", line) else turned(line, table, False))
            continue
        code, comment = split_comment(line, "--" if path.endswith(".antt") else "//")
        if path.endswith(".rt"):
            pieces = re.split(r'("(?:[^"\\]|\\.)*")', code)
            code = "".join(p if p.startswith('"') else turned(p, table, True) for p in pieces)
        else:
            code = turned(code, table, True)
        out.append(code + turned(comment, table, False))
    return "\n".join(out)


def main(argv):
    root = os.getcwd()
    table = renaming(root)
    if argv == ["--list"]:
        for old, new in table.items():
            print(old, new)
        return 0
    for path in list(files(root)):
        with open(path, encoding="utf-8") as f:
            text = f.read()
        new = respelled(path, text, table)
        if new != text:
            with open(path, "w", encoding="utf-8") as f:
                f.write(new)
    return 0


if __name__ == "__main__":
    raise SystemExit(main(sys.argv[1:]))
