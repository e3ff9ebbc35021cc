#!/usr/bin/env python3
"""Lists, for each point of docs/DESIGN-PASS.md, the places of src/ that may be in an older form.

Usage: tools/places.py [FOLDER]   (FOLDER holds crates/; this repository where it is left out)

A line is a place to read, not a verdict.
"""
import glob
import os
import re
import sys

ROOT = sys.argv[1] if len(sys.argv) > 1 else os.path.join(os.path.dirname(os.path.abspath(__file__)), "..")


def sources():
    names = sorted(glob.glob(os.path.join(ROOT, "crates", "*", "src", "**", "*.rt"), recursive=True))
    for name in names:
        with open(name) as f:
            yield os.path.relpath(name, os.path.join(ROOT, "crates")), f.read()


FILES = list(sources())


def show(title, rows):
    print(f"{title}: {len(rows)}")
    for row in rows:
        print("   ", row)


def lines(pattern, keep=lambda line: True):
    found = []
    for name, text in FILES:
        for number, line in enumerate(text.split("\n"), 1):
            if re.search(pattern, line) and not line.strip().startswith("//") and keep(line):
                found.append(f"{name}:{number}: {line.strip()}")
    return found


def blocks(start):
    """Each item that begins with a line that matches, up to the line that closes its first brace."""
    for name, text in FILES:
        rows = text.split("\n")
        for i, row in enumerate(rows):
            if not re.search(start, row):
                continue
            depth, body, opened = 0, [], False
            for line in rows[i:]:
                body.append(line)
                code = re.sub(r"ensures.*|requires.*|//.*|\"[^\"]*\"", "", line)
                depth += code.count("{") - code.count("}")
                opened = opened or "{" in code
                ends = line.rstrip().endswith(";")
                if (opened and depth <= 0) or (not opened and ends):
                    break
            yield name, i + 1, body


def enums():
    for name, number, body in blocks(r"^(pub(\(crate\))? )?enum "):
        variants = [re.match(r"    (\w+)", b).group(1) for b in body[1:] if re.match(r"    \w+( [={]|[,({])", b)]
        yield name, number, body[0].split("enum ")[1].split(" ")[0], variants


def functions():
    for name, number, body in blocks(r"^\s*(pub(\(crate\))? )?(const )?fn "):
        text = "\n".join(b for b in body if not re.match(r"\s*(ensures|requires)", b))
        head = text.split("{")[0]
        m = re.search(r"fn (\w+)", head)
        inside = text[len(head):].strip()
        yield name, number, m.group(1), head, inside


FUNCTIONS = [f for f in functions() if "/tests" not in f[0]]


def parameters(head):
    m = re.search(r"fn \w+(<.*?>)?\((.*)\)", head, re.S)
    found = []
    for part in re.split(r",(?![^<\[(]*[>\])])", m.group(2)) if m else []:
        part = " ".join(part.split())
        if ":" in part and "HostRuntime" not in part:
            found.append(part)
    return found


def shape(text):
    words = re.sub(r"\b(fn|let|mut|for|in|if|else|match|return|self|while|pub|crate|Some|None|Ok|Err)\b", lambda m: m.group(1).upper() + "~", text)
    words = re.sub(r"(?<![A-Z~])\b[A-Za-z_]\w*\b(?!~)", "w", words)
    words = re.sub(r"\b\d+\b", "n", words)
    return re.sub(r"\s+", "", words)


def one():
    rows = [f"{n}:{i}: enum {e}: {', '.join(v)}" for n, i, e, v in enums() if len(v) <= 2 or "Ok" in v]
    show("1a enums of at most two variants, or with one called Ok", rows)
    rows = [f"{n}:{i}: fn {f}" for n, i, f, h, b in FUNCTIONS if "&mut " in h and re.search(r"-> bool\s*$", h.strip())]
    show("1b calls that change something and answer a bool", rows)
    show("1c numbers for kinds, as constants", lines(r"^\s*const [A-Z_]+: (u8|u32|i32) = \d+;"))
    show("1d numbers for kinds, in a test or a pattern", lines(r"\bcode == \d|\bcode: \d|^\s+\d+( \| \d+)* (=>|if )"))


def two():
    by = {}
    for n, i, f, h, b in FUNCTIONS:
        if b.count("\n") >= 2:
            by.setdefault(shape(h + b), []).append(f"{n}:{i} {f}")
    show("2a functions of the same shape", [" ~ ".join(v) for v in by.values() if len(v) > 1])
    by = {}
    for n, i, f, h, b in FUNCTIONS:
        by.setdefault(f, []).append(n)
    rows = [f"{f}: {', '.join(v)}" for f, v in sorted(by.items()) if len(set(v)) > 1 and f not in ("fmt", "new", "main")]
    show("2b functions of one name in two files", rows)
    by = {}
    for t, text in FILES:
        for m in re.finditer(r"^impl(<[^>]*>)? (\w+)(<[^>]*>)? for (\w+)", text, re.M):
            by.setdefault(m.group(2), []).append(f"{t} {m.group(4)}")
    show("2c traits with two impls or more", [f"{k}: {', '.join(v)}" for k, v in by.items() if len(v) > 1])
    by = {}
    for row in lines(r"\b\d{6,}\b"):
        for number in re.findall(r"\b\d{6,}\b", row):
            by.setdefault(number, set()).add(row.split(":")[0])
    show("2d large numbers in two files or more", [f"{k}: {', '.join(sorted(v))}" for k, v in by.items() if len(v) > 1])
    by = {}
    for n, i, body in blocks(r"^(pub(\(crate\))? )?struct "):
        text = " ".join(b for b in body[1:] if not b.strip().startswith("//")) if "{" in body[0] else body[0].split("(")[-1]
        types = sorted(re.findall(r": ([\w<>&\[\]' ]+),", text)) if "{" in body[0] else [text]
        name = re.search(r"struct (\w+)", body[0]).group(1)
        by.setdefault(tuple(types), []).append(f"{n}:{i} {name}")
    show("2e structs with fields of the same types", [" ~ ".join(v) for k, v in by.items() if k and len(v) > 1])


def three():
    show("3a loops over numbers", lines(r"\bfor \w+ in .*\.\.|\bwhile |\bloop \{"))
    show("3b counted by hand", lines(r"saturating_add\(1\);$|\+= 1;"))


def four():
    show("4a equality by hand", lines(r"\bfn (same|eq|cmp|partial_cmp|clone)\("))
    rows = []
    for n, i, f, h, b in FUNCTIONS:
        if re.match(r"\{\s*match (\*?self|mode|state|outcome|standing|word|opcode) \{", b) and "fmt" != f:
            arms = re.findall(r"=> (.*)", b)
            if all(re.match(r"(Some\()?[\w:]*[\w\"]+(\))?,?$|None,?|\w+\.\w+,", a.strip()) for a in arms):
                rows.append(f"{n}:{i}: fn {f}")
    show("4b conversions, case by case", rows)
    show("4c Display of a type that wraps another, or words of a type beside it", lines(r"impl fmt::Display for \w+<|fn \w*_name\("))


def five():
    by = {}
    for n, i, f, h, b in FUNCTIONS:
        ps = parameters(h)
        for x in range(len(ps)):
            for y in range(x + 1, len(ps)):
                by.setdefault((ps[x], ps[y]), []).append(f)
    rows = [f"({a}, {b}): {', '.join(v)}" for (a, b), v in by.items() if len(v) >= 3]
    show("5a two parameters that go together in three functions or more", sorted(rows))
    by = {}
    for name, text in FILES:
        for m in re.finditer(r"ensures[^{]*\{ (.*) \}", text):
            for view in re.findall(r"\b([a-z]\w*) \(?(?:self\.now|self\.old|self\.new|result)\b", m.group(1)):
                by.setdefault((name.split("/")[0], view), []).append(1)
    show("5b a view of self in three clauses or more", [f"{c}: {v} ({len(k)})" for (c, v), k in sorted(by.items()) if len(k) >= 3])


def six():
    rows = []
    for n, i, body in blocks(r"^(pub(\(crate\))? )?struct "):
        fields = " ".join(body)
        if re.search(r"\[[^\]]*\]", fields) and re.search(r"\b(len|used|free|count): ", fields):
            rows.append(f"{n}:{i}: {body[0]}")
    show("6a a buffer with a length beside it", rows)
    rows = [f"{n}:{i}: fn {f}" for n, i, f, h, b in FUNCTIONS if re.search(r": &(mut )?\[", h) and re.search(r"\blen: usize", h)]
    show("6b a slice and a length as parameters", rows)


def seven():
    rows = []
    names = [e for n, i, e, v in enums()]
    for n, i, f, h, b in FUNCTIONS:
        m = re.match(r"\{\s*match (self|call|item|step|kind)\b", b)
        if m and len(re.findall(r"=>[^\n]*\w\(", b)) >= 4 and f != "fmt":
            rows.append(f"{n}:{i}: fn {f}")
    show("7a a switch whose arms call", rows)
    show("7b closures, dyn, function pointers", lines(r"\bdyn |\bimpl Fn|: Fn(Once|Mut)?\(|\|\w+\| |\bfn\("))


def eight():
    for crate in sorted(os.listdir(os.path.join(ROOT, "crates"))):
        top = os.path.join(ROOT, "crates", crate, "proofs")
        answers = glob.glob(os.path.join(top, "**", "Answers.antt"), recursive=True)
        lemmas = [f for f in glob.glob(os.path.join(top, "*.antt")) if not f.endswith("Lib.antt")]
        goals = sum(len(re.findall(r"^(abbrev )?pub ", open(f).read(), re.M)) for f in answers)
        stated = sum(len(re.findall(r"^\s*(abbrev |unfoldable )?(pub )?[\w'-]+ : ", open(f).read(), re.M)) for f in lemmas)
        if answers or lemmas:
            print(f"    {crate}: {len(answers)} files of answers with {goals} answers, {len(lemmas)} files of lemmas with {stated}")


for point in (one, two, three, four, five, six, seven):
    point()
    print()
print("8 proofs by hand:")
eight()
