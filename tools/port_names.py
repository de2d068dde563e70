#!/usr/bin/env python3
"""Respells this repository's own definitions and lemmas: words in snake case, types and modules in camel case.

usage: python3 tools/port_names.py        at the top, once, after the kit's port.py

What it renames, in crates/ (.antt, .rt, .edit) and in the pages:
- a name that begins with a small letter and has a capital: `wordEnd` is `word_end`;
- a definition of specs/ (abbrev or unfoldable) with a dash: `TEXT-EQUAL` is `TEXT_EQUAL`, as the constant of the code is spelled;
- four abbreviations of single files that began with a capital without being types.
A lemma that would then have the name of a definition gets `_lem`. Names of the code (functions, fields, constants, types, variants) and
modules keep their spelling. It stops where two names would fall together in a file.
"""
import collections
import os
import re
import subprocess
import sys

LINE = re.compile(r"^(\s*)((?:(?:pub|abbrev|unfoldable) )*)(?:(data|record|ruleset) )?([^\s:(){}.,;|\[\]]+)( .*)?$")
TOKEN = re.compile(r"[^\s(){}\[\].,;«»`\"|/*+:!?⟦⟧]+")
WORDS = {"use", "mod", "module", "pub", "--", "open", "where", "unfolding"}
LOCAL = {
    "grammar/specs/Working/Modes.antt": {"Onto": "onto", "L": "low"},
    "naming/specs/Theorems/Authorized.antt": {"Of": "of_source"},
    "naming/specs/Theorems/Licensed.antt": {"Start": "start_state"},
}


def sources(root, ends):
    for folder, dirs, files in os.walk(os.path.join(root, "crates")):
        dirs[:] = sorted(d for d in dirs if d != "out")
        for f in sorted(files):
            if f.endswith(ends):
                yield os.path.join(folder, f)


def read(path):
    with open(path, encoding="utf-8") as f:
        return f.read()


def definitions(root):
    """Every name that a line of an antt file declares: the words before it and the files that declare it."""
    found = collections.defaultdict(list)
    for path in sources(root, ".antt"):
        for line in read(path).split("\n"):
            if re.match(r"^(pub )?use ", line):
                for name in re.findall(r" as ([^\s,{}]+)", line):
                    found[name].append((os.path.relpath(path, os.path.join(root, "crates")), "as"))
            m = LINE.match(line)
            if not m or m.group(4) in WORDS:
                continue
            if m.group(3) or re.match(r"^ :( |$)", m.group(5) or ""):
                found[m.group(4)].append((os.path.relpath(path, os.path.join(root, "crates")), m.group(2) + (m.group(3) or "")))
    return found


def snake(name):
    return re.sub(r"(?<=[a-z0-9'])([A-Z])", lambda m: "_" + m.group(1).lower(), name)


def renamings(found):
    new, dashed = {}, {}
    for name, places in found.items():
        if re.match(r"^[a-z]", name) and re.search(r"[a-z][A-Z]", name):
            new[name] = snake(name)
        elif "-" in name and any("/specs/" in p and ("abbrev" in w or "unfoldable" in w) for p, w in places):
            dashed[name] = name.replace("-", "_")
    new |= {n: to for n, to in dashed.items() if to not in found and to not in new.values()}
    lemmas = {}
    for name, to in new.items():
        if to in found and to not in new:
            lemmas[to] = to + "_lem"
    return new, lemmas


def turn(text, names):
    return TOKEN.sub(lambda m: names.get(m.group(0), m.group(0)), text)


def turn_lemmas(text, lemmas):
    """A lemma's name, where it is no part of a path and no field."""
    def one(m):
        to = lemmas.get(m.group(0))
        before = text[m.start() - 1 : m.start()]
        after = text[m.end() : m.end() + 1]
        return m.group(0) if to is None or before == "." or after == "." and text[m.end() + 1 : m.end() + 2].isalnum() else to
    return TOKEN.sub(one, text)


def imported(text):
    names = []
    for m in re.finditer(r"(?m)^(?:ghost )?use [^\s{]+\.\{([^}]*)\}", text):
        names += [n.strip().split(" as ")[-1] for n in m.group(1).split(",")]
    return names


def main():
    root = subprocess.run(["git", "rev-parse", "--show-toplevel"], capture_output=True, text=True, check=True).stdout.strip()
    found = definitions(root)
    new, lemmas = renamings(found)
    together = [n for n, c in collections.Counter(new.values()).items() if c > 1]
    if together:
        print("fall together:", together)
        return 1
    changed = 0
    bad = []
    for path in sources(root, (".antt", ".rt", ".edit")):
        text = read(path)
        here = os.path.relpath(path, os.path.join(root, "crates"))
        names = new | LOCAL.get(here, {})
        out = turn(turn_lemmas(text, lemmas) if path.endswith(".antt") else text, names)
        if path.endswith(".antt"):
            doubled = [n for n, c in collections.Counter(imported(out)).items() if c > 1]
            was = [n for n, c in collections.Counter(imported(text)).items() if c > 1]
            bad += [f"{here}: {n}" for n in doubled if n not in was]
        if out != text:
            with open(path, "w", encoding="utf-8") as f:
                f.write(out)
            changed += 1
    for page in ["README.md", "CONTRIBUTING.md"] + sorted("docs/" + f for f in os.listdir(os.path.join(root, "docs")) if f.endswith(".md")):
        text = read(os.path.join(root, page))
        out = turn(text, {n: to for n, to in new.items() if "-" not in n})
        if out != text:
            with open(os.path.join(root, page), "w", encoding="utf-8") as f:
                f.write(out)
    for name, to in sorted((new | lemmas).items()):
        print(f"{name} {to}")
    print(f"{changed} files, {len(new)} definitions, {len(lemmas)} lemmas", file=sys.stderr)
    for b in bad:
        print("imported twice:", b, file=sys.stderr)
    return 0


if __name__ == "__main__":
    raise SystemExit(main())
