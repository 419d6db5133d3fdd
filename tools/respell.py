#!/usr/bin/env python3
"""Brings the repository's own definitions and lemmas to the spelling of today's Rattle, after the kit's port.py: words in snake case, types and modules in camel case.

usage: python3 tools/respell.py [--dry]      at the top of the repository, once

A name that crates/*/specs or crates/*/proofs declares (but for those that one function's Proof.antt keeps to itself) and that is in camel case, or has a dash between words, gets underscores:
`isDate` is `is_date`, `field-here` is `field_here`. A lemma that would fall together with a definition gets `_lem` after its name. Types, modules, functions of src/, exported names and strings stay.
It prints each name that a file uses beside its own new spelling, which is where two names might fall together.
"""
import collections
import os
import re
import sys

ROOT = os.path.join(os.getcwd(), "crates")
PARTS = r"\w\-'·₀₁₂₃₄₅₆₇₈₉"
TOKEN = re.compile(rf"(?<![{PARTS}])[{PARTS}]+(?![{PARTS}])")
DECLARED = re.compile(r"^\s*(?:abbrev |unfoldable |pub )*(data |record |)([^\s:(){}=]+) :(?: |$)")
SEVERAL = re.compile(r"^\s*((?:[^\s:(){}=→]+ )+[^\s:(){}=→]+) : [A-Z]\w*$")
USE = re.compile(r"^\s*(?:pub |ghost )*use ([\w.+'·-]+?)(?:\.\{([^}]*)\}| as (\S+)|);?\s*$")
# names whose snake case would say less than they mean
CHOSEN = {"mW": "in_mw"}


def files(ends):
    for folder, dirs, names in os.walk(ROOT):
        dirs[:] = sorted(d for d in dirs if d not in ("out", "data"))
        for n in sorted(names):
            if n.endswith(ends):
                yield os.path.join(folder, n)


def read(path):
    with open(path, encoding="utf-8") as f:
        return f.read()


def snake(name):
    if name in CHOSEN:
        return CHOSEN[name]
    words = []
    for part in name.split("-"):
        part = re.sub(r"(?<=[a-z0-9])(?=[A-Z])", "_", part)
        words.append(part.lower() if re.match(r"[A-Za-z]", part) else part)
    return "_".join(words)


def is_fact(part):
    return len(part) > 1 and part[0].isupper()


def declared():
    at = collections.defaultdict(set)
    for path in files(".antt"):
        if os.path.basename(path) == "Proof.antt":
            continue
        for line in read(path).split("\n"):
            m = DECLARED.match(line)
            if m and not line.strip().startswith("--") and m[2] not in ("use", "mod"):
                at[m[2]].add(os.path.relpath(path, ROOT))
            m = SEVERAL.match(line)
            for n in m[1].split() if m else []:
                if n != "pub":
                    at[n].add(os.path.relpath(path, ROOT))
    return at


def fields():
    """The fields of the records that specs/ and proofs/ declare, and the constructors of their data."""
    found = set()
    for path in files(".antt"):
        inside = None
        for line in read(path).split("\n"):
            m = re.match(r"(\s*)(?:pub )?(?:record|data) .*where$", line)
            if m:
                inside = len(m[1])
            elif line.strip() and not line.strip().startswith("--"):
                if len(line) - len(line.lstrip()) <= (inside if inside is not None else 1000):
                    inside = None
                m = re.match(r"\s*(?:pub )?([^\s:(){}=|]+) :(?: |$)", line) or SEVERAL.match(line)
                if inside is not None and m:
                    found.update(m[1].split())
    return found


def spelling(names):
    new = {}
    parts = fields()
    camel = [n for n in names if re.match(r"[a-z][\w']*$", n) and re.search(r"[A-Z]", n)]
    for n in camel:
        new[n] = snake(n)
    for n in set(new.values()) & set(names):
        if n not in parts:
            new[n] = n + "_lem"
    taken = (set(names) - set(new)) | set(new.values())
    for n in names:
        if "-" in n and re.match(rf"[a-z][{PARTS}]*$", n) and "·" not in n and not any(is_fact(p) for p in n.split("-")):
            to = snake(n)
            if to in taken:
                to += "_lem"
            new[n] = to
    return new


def outside(text, own):
    """The names that a file takes from outside this repository."""
    found = set()
    for line in text.split("\n"):
        m = USE.match(line)
        if not m or re.match(r"[A-Z]\w*$", m[1]) or re.match(r"Rattle\.(\w+)", m[1]) and re.match(r"Rattle\.(\w+)", m[1])[1] in own:
            continue  # a module below this file, or one of this repository
        for item in (m[2] or "").split(","):
            for part in item.split(" as "):
                found.add(part.strip())
        if m[3]:
            found.add(m[3])
    return found


def respelled(text, new, skip, kind, proof, parts):
    """The text with the new names; in comments and in Rust's own text names with a dash stay, since there a dash is a dash."""
    out = []
    # a lemma that gets `_lem` alone is renamed where it stands or is brought in, and not where a record has a label of its name
    plain = {n for n in new if re.match(r"[a-z0-9_]+$", n) and not re.search(rf"(?m)^\s*(?:pub )?{n} :|^\s*(?:pub )?use .*[{{ ]{n}[,}}]", text)}
    skip = skip | plain
    for line in text.split("\n"):
        mark = line.find("--") if kind == "antt" else line.find("//")
        code, comment = (line, "") if mark < 0 else (line[:mark], line[mark:])
        dashes = kind == "antt" or bool(re.match(r"\s*(ghost use|requires|ensures)", line))

        def turn(m, dashes=True):
            name = m[0]
            if name not in new or name in skip or not (dashes or "-" not in name):
                return name
            if kind == "rt" and re.match(r"[a-z0-9_]+$", name):
                return name  # a function of src/
            if re.match(r"\s*(pub |ghost )*use ", line) and m.string[m.end() : m.end() + 1] == ".":
                return name  # a part of a module's path
            # behind a dot stands a field or a step of the code, never a lemma
            behind = m.start() > 0 and m.string[m.start() - 1] == "."
            step = behind and kind == "antt" and not re.match(r"\s*use ", line) and (proof or name not in parts)
            return re.sub("_lem$", "", new[name]) if step else new[name]

        out.append(TOKEN.sub(lambda m: turn(m, dashes), code) + TOKEN.sub(lambda m: m[0] if m[0] in CHOSEN else turn(m, False), comment))
    return "\n".join(out)


def hidden(path, text, new, skip):
    """A parameter that would hide the definition that its function's clauses name."""
    for m in re.finditer(r"\bfn (\w+)[^(]*\(([^)]*)\)([^{]*(?:\{[^{}]*\}[^{}]*)*)", text):
        params = set(re.findall(r"(\w+)\s*:", m[2]))
        clauses = "\n".join(re.findall(r"(?:requires|ensures)\s*\w*\s*\{[^}]*\}", m[3]))
        for n in TOKEN.findall(clauses):
            if n in new and n not in skip and new[n] in params:
                print("hidden:", os.path.relpath(path, ROOT), m[1], n, new[n])
    fields = set(re.findall(r"(?m)^    (?:pub )?(\w+): ", text))
    for n in set(TOKEN.findall(text)):
        if n in new and n not in skip and "-" not in n and new[n] in fields:
            print("field:", os.path.relpath(path, ROOT), n, new[n])


def main():
    dry = "--dry" in sys.argv
    own = {c for c in os.listdir(ROOT) if os.path.isdir(os.path.join(ROOT, c, "src"))}
    at = declared()
    new = spelling(at)
    parts = fields()
    by = collections.defaultdict(list)
    for n, to in new.items():
        by[to].append(n)
    for to, ns in sorted(by.items()):
        if len(ns) > 1:
            print("together:", to, ns, [sorted(at[n]) for n in ns])
    changed = 0
    for path in list(files((".antt", ".rt"))):
        text = read(path)
        kind = "antt" if path.endswith(".antt") else "rt"
        skip = outside(text, own)
        if kind == "rt":
            hidden(path, text, new, skip)
        used = set(TOKEN.findall("\n".join(l.split("--")[0] if kind == "antt" else l.split("//")[0] for l in text.split("\n"))))
        for n in sorted(used):
            if n in new and n not in skip and new[n] in used:
                print("beside:", os.path.relpath(path, ROOT), n, new[n])
        to = respelled(text, new, skip, kind, path.endswith("Proof.antt"), parts)
        if to != text:
            changed += 1
            if not dry:
                with open(path, "w", encoding="utf-8") as f:
                    f.write(to)
    with open(os.path.join(os.getcwd(), "docs", "respelled.txt") if not dry else "/tmp/respelled.txt", "w") as f:
        f.write("".join(f"{n}\t{to}\n" for n, to in sorted(new.items())))
    print(f"{len(new)} names, {changed} files")


main()
