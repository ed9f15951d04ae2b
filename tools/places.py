#!/usr/bin/env python3
"""Lists the places in src/ where an older form may stand, point by point.

    tools/places.py [POINT..]     # 1 to 8; all where none is named; -l lists them, else only counts
"""
import glob
import itertools
import os
import re
import sys

ROOT = os.path.join(os.path.dirname(os.path.abspath(__file__)), "..")


def sources():
    for path in sorted(glob.glob(f"{ROOT}/crates/*/src/**/*.rt", recursive=True)):
        with open(path) as f:
            yield os.path.relpath(path, ROOT), f.read()


def functions():
    """(path, line, name, parameters, result and clauses, body) of each function with a body."""
    for path, text in sources():
        for m in re.finditer(r"^( *)(?:pub(?:\(\w+\))? )?(?:extern \"C\" )?fn (\w+)(?:<[^(]*>)?\(", text, re.M):
            depth, i = 1, m.end()
            while depth:
                depth += {"(": 1, ")": -1}.get(text[i], 0)
                i += 1
            parameters = [re.sub(r"\s+", " ", p).strip() for p in re.split(r",\s*(?![^<(\[]*[>)\]])", text[m.end():i - 1])]
            opening = re.search(r"\n%s\{\n| \{\n|;\n|\{\}\n" % m.group(1), text[i:])
            head, body = text[i:i + opening.start()], ""
            if opening.group(0).endswith("{\n"):
                start = i + opening.end()
                body = text[start:start + re.search(r"^%s\}$" % m.group(1), text[start:], re.M).start()]
            yield path, text.count("\n", 0, m.start()) + 1, m.group(2), [p for p in parameters if p], head, body


def grep(pattern, flags=re.M):
    for path, text in sources():
        for m in re.finditer(pattern, text, flags):
            yield f"{path}:{text.count(chr(10), 0, m.start()) + 1}: {m.group(0).strip().splitlines()[0]}"


def point1():
    """own enums; flags as results, fields and in pairs; numbers for kinds and refusals"""
    yield from grep(r"^(?:pub(?:\(\w+\))? )?enum \w+")
    yield from grep(r"^ *(?:pub(?:\(\w+\))? )?\w+: bool,")
    for path, line, name, _, head, _ in functions():
        answer = re.search(r"-> ([^\n{]*)", head)
        if answer and re.search(r"\bbool\b|&'static str, u8|^u8$", answer.group(1).strip()):
            yield f"{path}:{line}: {name} -> {answer.group(1).strip()}"
    yield from grep(r"^const NONE.*|\baggregate: u8,")


def point2():
    """functions alike but for a type, a size or a constant; constants spelled out twice"""
    groups = {}
    for path, line, name, parameters, head, body in functions():
        if "#[test]" in body or not body.strip():
            continue
        code = re.sub(r"//.*", "", " ".join(parameters) + head.split("ensures")[0].split("requires")[0] + body)
        code = re.sub(r"\"[^\"]*\"|\b0x\w+|\b\d+\b|\b[A-Z]\w*|\b[ui](?:8|16|32|64|size)\b|\b\w+(?=\()", "_", code)
        code = re.sub(r"\s+", "", code)
        if len(code) > 24:
            groups.setdefault(code, []).append(f"{path}:{line}: {name}")
    for group in groups.values():
        if len(group) > 1:
            yield " = ".join(group)
    constants = {}
    for path, text in sources():
        for m in re.finditer(r"^ *(?:pub )?const \w+: (\w+) = \1 \{.*?\};", text, re.M | re.S):
            constants.setdefault(re.sub(r"\s+", "", m.group(0).split("=", 1)[1]), []).append(f"{path}:{text.count(chr(10), 0, m.start()) + 1}")
    for group in constants.values():
        if len(group) > 1:
            yield " = ".join(group)


def point3():
    """while and loop; a range whose variable indexes; a counter raised by hand"""
    for path, line, name, _, _, body in functions():
        for m in re.finditer(r"^ *(?:'\w+: )?(while|loop)\b.*", body, re.M):
            yield f"{path}:{line}: {name}: {m.group(0).strip()}"
        for m in re.finditer(r"^ *for (\w+) in [^{]*\.\.[^{]*\{", body, re.M):
            if re.search(r"\[%s\b[^\]]*\]" % m.group(1), body[m.end():]):
                yield f"{path}:{line}: {name}: {m.group(0).strip()}"
        for m in re.finditer(r"^ *\w+ \+= 1;", body, re.M):
            if re.search(r"^ *(?:for|while|loop)\b", body[:m.start()], re.M):
                yield f"{path}:{line}: {name}: {m.group(0).strip()}"


def point4():
    """equality, order, conversion and printing written by hand"""
    yield from grep(r"^impl (?:PartialEq|Eq|PartialOrd|Ord|Default|Clone)\b.*")
    yield from grep(r"fn (?:precedes|alike|told|same|equal|eq|cmp|flag|number|code|from_\w+|to_\w+|choose)\b.*")
    yield from grep(r"\.\w+ != \w+\.\w+ \|\|.*|\.\w+ == \w+\.\w+$")


def point5():
    """clauses in three functions or more of a crate; three parameters or more that travel together through three functions"""
    clauses, groups = {}, {}
    for path, line, name, parameters, head, _ in functions():
        crate = path.split("/")[1]
        for m in re.finditer(r"requires (?:\w+ )?\{ (.*) \}", head):
            clauses.setdefault((crate, re.sub(r"\.(now|old)", "", m.group(1))), []).append(name)
        names = sorted({re.sub(r"&'\w+ |&mut |&", "", p) for p in parameters if ":" in p})
        for size in range(3, 7):
            for group in itertools.combinations(names, size):
                groups.setdefault((crate, group), set()).add(f"{path}:{name}")
    for (crate, clause), names in sorted(clauses.items()):
        if len(names) > 2:
            yield f"{crate}: {{ {clause} }} in {', '.join(names)}"
    kept = [(crate, group, names) for (crate, group), names in groups.items() if len(names) > 2]
    for crate, group, names in sorted(kept, key=lambda k: (k[0], -len(k[2]))):
        if not any(c == crate and set(group) < set(g) and n == names for c, g, n in kept):
            yield f"{crate}: ({', '.join(group)}) in {len(names)} functions"


def point6():
    """a slice with a length or a place beside it; parallel lists"""
    for path, line, name, parameters, _, _ in functions():
        names = [p.split(":")[0] for p in parameters]
        slices = [p for p in parameters if re.search(r": &(?:'\w+ )?(?:mut )?\[", p)]
        if slices and {"len", "at"} & set(names):
            yield f"{path}:{line}: {name}({', '.join(names)})"
    yield from grep(r"^ *let mut \w+ = \[0u8; \d{4,}\];")


def point7():
    """a switch on which step to run; tables of functions"""
    yield from grep(r"^ *match (?:turn|step|side_of)\(.*|\[fn\(.*|: fn\(.*")


def point8():
    """lines of answers and invariants, and of lemmas, by crate"""
    for crate in sorted(os.listdir(f"{ROOT}/crates")):
        answers = lemmas = 0
        for path in glob.glob(f"{ROOT}/crates/{crate}/proofs/**/*.antt", recursive=True):
            with open(path) as f:
                n = len(f.read().splitlines())
            if os.path.basename(path) in ("Answers.antt", "Invariants.antt"):
                answers += n
            else:
                lemmas += n
        if answers + lemmas:
            yield f"{crate}: answers and invariants {answers}, lemmas {lemmas}"


def main():
    points = [a for a in sys.argv[1:] if a.isdigit()] or list("12345678")
    for point in points:
        find = globals()[f"point{point}"]
        places = list(dict.fromkeys(find()))
        print(f"{point}. {find.__doc__}: {len(places)}")
        if "-l" in sys.argv:
            for place in places:
                print(f"     {place}")


main()
