#!/usr/bin/env python3
"""Brings the repository's own definitions and lemmas to the spelling of the library: words in snake case, types in camel case.

usage: tools/respell-names.py     at the top of the repository, once, after the toolchain's port.py

A name of our own is one that a file of a crate's specs/ or proofs/ declares (the folders of functions aside, whose names the toolchain
makes). It is respelled in clauses, definitions and proofs, and in backticks in comments and pages. Code, strings and the names that a
file takes from a library stay. Names that fall together, and names that a library or the code has already, are printed and stop it.
"""
import os
import re
import sys

EXTRA = {  # bound by a `let`, a λ or a parameter, not declared
    "odd-length", "odd-first", "length-right", "ended-first", "ended-second", "before-scratch", "after-scratch", "ℤ-zero", "within-h",
    "within-q", "input-fits",
}
BY_HAND = {
    "oddForm": "odd_form",          # the definition, a word
    "odd-form": "odd_form_lem",     # the lemma on it
    "Unit-of": "UnitOf",            # a type
    "getD-weigh": "get_or_weigh",   # of the library's get_or, getD before
    "getD-marks": "get_or_marks",
    "getD-tab": "get_or_tab",
}
DECLARES = re.compile(r"^\s*(?:(?:pub|abbrev|unfoldable|data|record|mutual)\s+)*([^\s:(){}.,;|λ=→]+)\s*(?:\{[^}]*\}|\([^)]*\)|\s)*:\s")
BREAKS = r"\s(){}\[\].,;:|λ=→←≡∙⨾·×+*/%^<>≤∣\"`@&"
TOKEN = re.compile(rf"[^{BREAKS}]+")


def files(ends):
    for top in ("crates", "docs", "README.md"):
        if os.path.isfile(top):
            yield top
        for folder, dirs, names in os.walk(top):
            dirs[:] = sorted(d for d in dirs if d != "out")
            for n in sorted(names):
                if n.endswith(ends):
                    yield os.path.join(folder, n)


def read(path):
    with open(path, encoding="utf-8") as f:
        return f.read()


def declared():
    found = set()
    for path in files(".antt"):
        parts = path.split("/")
        if len(parts) != 4:
            continue  # a function's own folder
        for line in read(path).split("\n"):
            m = DECLARES.match(line)
            if m and not line.strip().startswith("--") and not line.startswith("use "):
                found.add(m.group(1))
    return found


def code_words():
    """The identifiers of the code, which a definition must not share."""
    words = set()
    for path in files(".rt"):
        words |= set(re.findall(r"[A-Za-z_][A-Za-z0-9_]*", re.sub(r"//.*", "", read(path))))
    return words


def taken_in(own_crates):
    """What files take from a library: the names by which they call it."""
    found = set()
    for path in files((".antt", ".rt")):
        for m in re.finditer(r"^(?:pub |ghost )*use ([^\s{]+?)\.?\{([^}]*)\}", read(path), re.M):
            if m.group(1).startswith("Rattle.") and m.group(1).split(".")[1] in own_crates:
                continue
            found |= {n.split(" as ")[-1].strip() for n in m.group(2).split(",")}
    return found


def in_comment(text, new):
    return re.sub(r"`([^`\s]+)`", lambda m: "`" + new.get(m.group(1), m.group(1)) + "`", text)


def tokens(text, new):
    return TOKEN.sub(lambda m: new.get(m.group(0), m.group(0)), text)


def turned(path, new):
    mark = "--" if path.endswith(".antt") else "//"
    lines = []
    for line in read(path).split("\n"):
        at = 0 if line.lstrip().startswith(mark) else line.find(" " + mark + " ")
        at = len(line) if at < 0 else at
        code, comment = line[:at], line[at:]
        parts = re.split(r'("(?:[^"\\]|\\.)*")', code) if path.endswith(".rt") else [code]
        lines.append("".join(p if p.startswith('"') and path.endswith(".rt") else tokens(p, new) for p in parts) + in_comment(comment, new))
    return "\n".join(lines)


def main():
    if not os.path.isdir("crates"):
        sys.exit("run it at the top of the repository")
    own_crates = set(os.listdir("crates"))
    names = declared()
    new = {n: n.replace("-", "_") for n in names | EXTRA if "-" in n}
    new.update({k: v for k, v in BY_HAND.items() if k in names})
    library = taken_in(own_crates)
    meets = [f"{a} and another are both {b}" for a, b in sorted(new.items()) if list(new.values()).count(b) > 1 or (b in names and b not in new)]
    meets += [f"{a} is {b}, which a library has" for a, b in sorted(new.items()) if b in library]
    words = code_words()
    meets += [f"look: {a} is {b}, a word of the code" for a, b in sorted(new.items()) if b in words and b not in names]
    print("\n".join(meets))
    if any(not m.startswith("look:") for m in meets):
        sys.exit(1)
    changed = 0
    for path in files((".antt", ".rt", ".md")):
        before = read(path)
        after = in_comment(before, new) if path.endswith(".md") else turned(path, new)
        if after != before:
            changed += 1
            with open(path, "w", encoding="utf-8") as f:
                f.write(after)
    print(f"{len(new)} names, {changed} files")


main()
