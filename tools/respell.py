#!/usr/bin/env python3
"""Gives the repository's own definitions and lemmas the library's spelling.

usage: python3 tools/respell.py [--list]      at the top of the repository; --list only prints old and new names

What specs/ and proofs/ declare (definitions, lemmas, records, fields, constructors) goes from words joined by
dashes to words joined by underscores, and to joined capitals where the name begins with one. Comments, strings,
code and the names that the check makes for its goals stay. It says which names fall together.
"""

import os
import re
import sys

NAME = r"[A-Za-z][\w'′]*(?:-[\w'′]+)+"
DECLARED = re.compile(r"^\s*(?:(?:pub|abbrev|unfoldable|record|data|ruleset)\s+)*(" + NAME + r")(?=\s*(?:[:(={]|where|$))", re.M)
TOKEN = re.compile(r"(?<![\w'′-])(" + NAME + r")(?![\w'′-])")
GOALS = re.compile(r"^\s*(?:(?:pub|abbrev)\s+)*([\w'′-]+)\s*:\s*goal\.\1(?![\w'′-])", re.M)
GHOST = re.compile(r"\b(?:ghost|requires|ensures)\b")


def files(kind):
    for folder, dirs, names in os.walk("crates"):
        dirs[:] = sorted(d for d in dirs if d not in ("out", "must-fail"))
        for n in sorted(names):
            if n.endswith(kind):
                yield os.path.join(folder, n)


def read(p):
    with open(p, encoding="utf-8") as f:
        return f.read()


def new_name(old):
    parts = old.replace("′", "'").split("-")
    if old[0].isupper():
        return parts[0] + "".join(p[:1].upper() + p[1:] for p in parts[1:])
    return "_".join(parts)


def bare(text):
    """An .antt text without its comments."""
    return re.sub(r"--(?=\s).*|--$", "", text, flags=re.M)


def generated(text):
    return set(GOALS.findall(text))


def collect():
    own, goals = {}, set()
    for p in files(".antt"):
        text = bare(read(p))
        goals |= generated(text)
        for m in DECLARED.finditer(text):
            own.setdefault(m.group(1), set()).add(p)
    return {n: ps for n, ps in own.items() if n not in goals}, goals


def antt(text, names):
    out = []
    for line in text.split("\n"):
        m = re.search(r"--(?=\s|$)", line)
        head, tail = (line[: m.start()], line[m.start() :]) if m else (line, "")
        out.append(TOKEN.sub(lambda m: names.get(m.group(1), m.group(1)), head) + tail)
    return "\n".join(out)


def closed(text, at):
    """The end of the braces that open at the first one behind a place, or of the item."""
    depth, i = 0, at
    while i < len(text):
        if text[i] == "{":
            depth += 1
        elif text[i] == "}":
            depth -= 1
            if depth == 0:
                return i + 1
        elif text[i] == ";" and depth == 0:
            return i + 1
        i += 1
    return i


def code(text, names):
    """An .rt text: what stands in ghost items and clauses alone is turned."""
    out, at = [], 0
    while True:
        m = GHOST.search(text, at)
        if not m:
            break
        line = text[text.rfind("\n", 0, m.start()) + 1 : m.start()]
        if "//" in line or line.count('"') % 2:
            out.append(text[at : m.end()])
            at = m.end()
            continue
        end = closed(text, m.end())
        out.append(text[at : m.start()])
        out.append(TOKEN.sub(lambda m: names.get(m.group(1), m.group(1)), text[m.start() : end]))
        at = end
    out.append(text[at:])
    return "".join(out)


def words(kind):
    """Names without a dash that stand already, with a place each."""
    seen = {}
    for p in files(kind):
        for w in re.findall(r"[A-Za-z][\w']*", bare(read(p)) if kind == ".antt" else read(p)):
            seen.setdefault(w, p)
    return seen


def main(argv):
    own, goals = collect()
    names = {n: new_name(n) for n in own}
    news = {}
    for n, m in names.items():
        news.setdefault(m, []).append(n)
    for m, olds in sorted(news.items()):
        if len(olds) > 1:
            print(f"falls together: {olds} -> {m}")
    for kind in (".antt", ".rt"):
        seen = words(kind)
        for n, m in sorted(names.items()):
            if m in seen:
                print(f"stands already ({kind}): {n} -> {m}: {seen[m]}")
    if "--list" in argv:
        for n in sorted(names):
            print(n, names[n])
        return 0
    changed = 0
    for kind, turn in ((".antt", antt), (".rt", code)):
        for p in files(kind):
            old = read(p)
            new = turn(old, names)
            if new != old:
                changed += 1
                with open(p, "w", encoding="utf-8") as f:
                    f.write(new)
    print(f"{len(names)} names, {changed} files")
    return 0


if __name__ == "__main__":
    raise SystemExit(main(sys.argv[1:]))
