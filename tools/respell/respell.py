#!/usr/bin/env python3
"""Spells the repository's own definitions and lemmas in snake case: rename-in-cons becomes rename_in_cons.

usage: respell.py [--check]        at the top of the repository, once, after the library's names were turned

It turns the names that a file of specs/ or a file right in proofs/ declares, with the fields and the
constructors of its types, wherever an .antt or .rt file or a must-fail edit has them in its text, and where a
comment has them in backquotes. A name that a file takes from a library stays there. Functions of src/, strings, stored cases and the goals that the check names
after the code keep their spelling. Names that would fall together, with another or with a name that a file
imports from a library, are listed and stop it; --check writes nothing.
"""
import collections
import os
import re
import sys

NAME = r"[^\s(){}.;,@\"«»]+"
DECLARED = re.compile(rf"^ *(?:(?:pub|abbrev|unfoldable|data|record|ruleset|mutual) )*({NAME}) (?:\{{[^{{}}\n]*\}} )*(?:\([^()\n]*\) )*:(?: |$)", re.M)
# several constructors on one line, and what a `use` line calls a name
SEVERAL = re.compile(rf"^ +((?:{NAME} )+{NAME}) : \S+$", re.M)
CALLED = re.compile(rf" as ({NAME})[,}}]")
# words of proofs that no line declares
WORDS = "k-is was-made args-rule args-rules in-rule in-rules first-least first-there pattern-stopped pattern-drew loc-a loc-b loc-c".split()
TOKEN = re.compile(NAME)
PIECES = re.compile(r'"(?:[^"\\\n]|\\.)*"|--(?= |$)[^\n]*|//[^\n]*')
LIBRARY = re.compile(r"^(?:pub |ghost )*use (?!Rattle\.(?:REPO)\.)([^\s{;]+)\.\{([^}]*)\}", re.M)


def files(top, *ends):
    for folder, dirs, names in os.walk(top):
        dirs[:] = sorted(d for d in dirs if d not in ("out", ".git", "target"))
        for n in sorted(names):
            if n.endswith(ends):
                yield os.path.join(folder, n)


def read(path):
    with open(path, encoding="utf-8", newline="") as f:
        return f.read()


def is_own(path):
    parts = path.split(os.sep)
    return "specs" in parts or ("proofs" in parts and len(parts) - parts.index("proofs") == 2)


def turned(name):
    if not re.search(r"[-′]", name) or re.match(r"[A-Z]", name) or re.fullmatch(r"[-′◌]+|-.*|.*-", name):
        return name
    return name.replace("-", "_").replace("′", "'")


def table(top):
    found = {w: turned(w) for w in WORDS} | {"is-in": "is_in"}
    for path in files(os.path.join(top, "crates"), ".antt"):
        if is_own(path):
            text = re.sub(r"(?m)^\s*--.*$", "", read(path))
            for it in DECLARED.finditer(text):
                found[it[1]] = turned(it[1])
            for it in [*SEVERAL.finditer(text), *CALLED.finditer(text)]:
                found.update((w, turned(w)) for w in it[1].split())
    return {k: v for k, v in found.items() if k != v and "·" not in k}


def respelled(text, names):
    def words(t):
        return TOKEN.sub(lambda m: names.get(m[0], m[0]), t)

    out, at = [], 0
    for it in PIECES.finditer(text):
        out.append(words(text[at : it.start()]))
        piece = it[0]
        if piece[0] != '"':
            piece = re.sub(r"`[^`\n]*`", lambda m: words(m[0][1:-1]).join("``"), piece)
        out.append(piece)
        at = it.end()
    out.append(words(text[at:]))
    return "".join(out)


def main():
    check = "--check" in sys.argv[1:]
    names = table(".")
    by_new = collections.defaultdict(set)
    for old, new in names.items():
        by_new[new].add(old)
    bad = [f"{sorted(v)} would fall together as {k}" for k, v in by_new.items() if len(v) > 1]
    crates = [d for d in os.listdir("crates") if os.path.isdir(os.path.join("crates", d, "src"))]
    library = re.compile(LIBRARY.pattern.replace("REPO", "|".join(map(re.escape, crates))), re.M)
    changed = []
    for path in files("crates", ".antt", ".rt", ".edit"):
        old = read(path)
        lent = {w.split(" as ")[-1].strip() for it in library.finditer(old) for w in it[2].split(",")}
        new = respelled(old, {k: v for k, v in names.items() if k not in lent})
        if path.endswith(".antt") or path.endswith(".rt"):
            lent = {w.split(" as ")[-1].strip() for it in library.finditer(new) for w in it[2].split(",")}
            used = set(TOKEN.findall(new)) & set(names.values())
            bad += [f"{path}: {w} is a library's here" for w in sorted(lent & used) if w in by_new]
        if path.endswith(".rt"):
            code = re.sub(r"//[^\n]*|ghost use [^;]*;|(?:requires|ensures)[* ]*\w* *\{[^\n]*\}", "", old)
            bad += [f"{path}: {w} is a word of the code" for w in sorted(set(re.findall(r"\w+", code)) & set(TOKEN.findall(new)) & set(by_new)) if any(o in TOKEN.findall(old) for o in by_new[w])]
        if new != old:
            changed.append(path)
            if not check:
                with open(path, "w", encoding="utf-8", newline="") as f:
                    f.write(new)
    for line in bad:
        print("look: " + line)
    print(f"respell: {len(names)} names, {len(changed)} files")
    return 0


if __name__ == "__main__":
    raise SystemExit(main())
