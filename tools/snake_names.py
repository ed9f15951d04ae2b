#!/usr/bin/env python3
"""Brings this repository's own definitions and lemmas to snake case, and its propositions to camel case.

usage: python3 tools/snake_names.py [--dry]     at the top of the repository, once, after the toolchain's own script

Renamed are names that specs/ and the lemma files of proofs/ declare: `row-span` to `row_span`, `May-ask` to `MayAsk`, `cityBlock` to
`city_block`. Left alone are the names of the library, those that the check makes of the code (in a function's own proof files),
comments, strings and everything in src/ outside clauses. Names that would fall together are listed and left.
"""

import os
import re
import sys

TOKEN = re.compile(r"[^\s(){}\[\].,;:=→λ∀@`\"|\\]+")
HYPHEN = re.compile(r"[A-Za-z0-9'?]-[A-Za-z0-9]")
CAMEL = re.compile(r"[a-z]+(?:[A-Z][a-z]*)+$")
DECLARED = re.compile(r"\s*(?:pub\s+)?(?:abbrev\s+)?(?:pub\s+)?(?:data\s+|record\s+)?(?:pub\s+)?([^\s(){}\[\].,;:=]+)(?:\s+[^:=]*)?\s*:\s")
IMPORT = re.compile(r"use\s+(Rattle[\w.·'-]*|[\w.]+)\.\{([^}]*)\}")


def files(ending):
    for folder, folders, names in os.walk("crates"):
        folders[:] = sorted(f for f in folders if f != "out")
        for name in sorted(names):
            if name.endswith(ending):
                yield os.path.join(folder, name)


def is_lemma_file(path):
    """Whether a proof file holds lemmas: one of specs/, or one right in proofs/."""
    parts = path.split(os.sep)
    return parts[2] == "specs" or len(parts) == 4


def spelled(name):
    if name[0].isupper():
        return "".join(p[:1].upper() + p[1:] for p in name.split("-"))
    if CAMEL.match(name):
        return re.sub(r"([A-Z])", lambda m: "_" + m[1].lower(), name)
    return name.replace("-", "_")


def pieces(text, comment):
    """The text cut into code and what is not code (comments, strings), as pairs of a flag and a part."""
    pattern = r"//[^\n]*|\"(?:\\.|[^\"\\])*\"|b?'(?:\\.[^']*|[^'\\])'" if comment == "//" else r"--(?=\s|-|$)[^\n]*"
    at = 0
    for m in re.finditer(pattern, text, re.M):
        yield True, text[at : m.start()]
        yield False, m[0]
        at = m.end()
    yield True, text[at:]


def imports(text):
    """The names that a file imports, by where they come from: the library or this repository."""
    library, own = set(), set()
    crates = set(os.listdir("crates"))
    for source, names in IMPORT.findall(text):
        parts = source.split(".")
        target = own if len(parts) > 1 and parts[1] in crates else library
        for item in names.split(","):
            words = item.split()
            if words:
                target.add(words[0])
                if len(words) == 3:
                    target.add(words[2])
    return library, own


def declared():
    """The names in question that this repository declares, each with the files that declare it."""
    names = {}

    def add(name, path):
        if HYPHEN.search(name) or CAMEL.match(name):
            names.setdefault(name, set()).add(path)

    for path in list(files(".antt")) + list(files(".rt")):
        text = "".join(p for code, p in pieces(open(path).read(), "//" if path.endswith(".rt") else "--") if code)
        for m in re.finditer(r"\bas ([^\s,{}]+)(?=[,}])", text):
            add(m[1], path)
        if path.endswith(".rt"):
            continue
        for line in text.split("\n"):
            m = DECLARED.match(line)
            if m and not re.search(r":\s+(goal|given|need)\.", line):
                add(m[1], path)
            m = re.match(r"\s+(?:let\s+)?([^\s(){}\[\].,;:=]+)(?:\s[^:=]*)?\s=\s", line)
            if m and is_lemma_file(path):
                add(m[1], path)
    return names


def main():
    dry = "--dry" in sys.argv
    names = declared()
    new = {n: spelled(n) for n in names}
    present = {}
    for path in list(files(".antt")) + list(files(".rt")):
        text = open(path).read()
        for code, part in pieces(text, "//" if path.endswith(".rt") else "--"):
            if code:
                for t in TOKEN.findall(part):
                    present.setdefault(t, set()).add(path)
    for n in sorted(new):
        both = present.get(new[n], set()) & present.get(n, set())
        if both:
            print(f"together: {n} and {new[n]} in {', '.join(sorted(both))[:300]}")
    apart = {p for p in files(".antt") if not is_lemma_file(p)}
    changed = 0
    for path in list(files(".antt")) + list(files(".rt")):
        text = open(path).read()
        source = path.endswith(".rt")
        library, own = imports(text)
        lemmas = source or is_lemma_file(path)

        def turn(m):
            t = m[0]
            if t not in new or t in library:
                return t
            if lemmas and not names[t] <= apart or t in own or path in names[t]:
                return new[t]
            return t

        def turn_field(m):
            t = m[1]
            return "." + (t if t not in new or names[t] <= apart or t.endswith("-is") else new[t])

        out = []
        for code, part in pieces(text, "//" if source else "--"):
            if code:
                part = TOKEN.sub(turn, part)
                if not source:
                    part = re.sub(r"(?<=[\w)'])\.([a-z][\w'?-]*)(?=[\s(){},;]|$)", turn_field, part)
            else:
                part = re.sub(r"`([^`]*)`", lambda m: "`" + TOKEN.sub(lambda k: new.get(k[0], k[0]), m[1]) + "`", part) if part.startswith(("//", "--")) else part
            out.append(part)
        out = "".join(out)
        if out != text:
            changed += 1
            if not dry:
                open(path, "w").write(out)
    print(f"{len(new)} names, {changed} files")


main()
