#!/usr/bin/env python3
"""Lists the places in crates/*/src that docs/DESIGN-PASS.md counts, point by point.

    python3 tools/places.py          the number of places of each point
    python3 tools/places.py 3        the places of point 3, a line each
"""

import difflib
import itertools
import pathlib
import re
import sys

ROOT = pathlib.Path(__file__).resolve().parent.parent
PATTERNS = {
    # own enums, numbers as errors or results, flags
    1: r"^\s*(pub )?enum |Result<[^;{]*, *(u8|u16|i32|usize)>|-> u8\b|\brefusal: u8|: bool,$|\(bool, ",
    # loops that count, and counters
    3: r"^\s*('\w+: )?for .*\.\.|\bwhile\b|\bloop\b|\+= |= \w+\.saturating_add\(",
    # hand-written traits and conversions
    4: r"^impl.*\b(PartialEq|Eq|PartialOrd|Ord|Clone|Copy|Hash|Debug|Default|From|TryFrom|FromStr|Display)\b.* for "
       r"|\bas (u8|u16|u32|u64|usize|i16|i32|i64|char)\b|fn (code|number)\(|refused \{|fn (list|tell)\w*\(",
    # buffers with a count, fixed buffers, parallel buffers
    6: r"\[[^\]\[]*; [A-Z0-9]\w*\]|\.get\([^)]*\.\.[^)]*\)|\b(used|size|count|done|points|len): usize\b|parameters: &mut \[u16\]",
    # switches on what to run, and callbacks
    7: r"\bdyn |\bfn\(|impl Fn|: Fn(Once|Mut)?\(|Working::\w+(\(\w+\))? => \w+|^\s*(\(\"|\")\w+\".* => ",
}


def sources():
    return sorted(ROOT.glob("crates/*/src/**/*.rt"))


def code(line):
    return "" if line.lstrip().startswith("//") else line


def functions(text):
    """Each function: its line, name, head with clauses, and body."""
    for m in re.finditer(r"^( *)(?:pub(?:\(crate\))? )?(?:extern \"C\" )?fn (\w+)", text, re.M):
        at = m.start()
        stop = re.compile(rf"^{m[1]}\}}", re.M).search(text, at)
        one = text.find("\n", at)
        if text[at:one].endswith(";"):
            body = text[at:one]
        else:
            semi = re.compile(r";\n\n|;\n" + m[1][:-4] + r"\}").search(text, at)
            body = text[at:stop.end() if stop else len(text)]
            if semi and stop and semi.start() < stop.start() and "{\n" not in text[at:semi.start()]:
                body = text[at:semi.start()]
        yield text.count("\n", 0, at) + 1, m[2], body


def split_contract(body):
    clauses = re.findall(r"^\s*(?:requires|ensures)\*?(?: \w+)? \{(.*?)\}\s*$", body, re.M)
    plain = re.sub(r"^\s*(?:requires|ensures).*$", "", body, flags=re.M)
    return clauses, plain


def twins():
    found = []
    for path in sources():
        for line, name, body in functions(path.read_text()):
            plain = split_contract(body)[1]
            plain = re.sub(rf"\b{name}\b", "F", plain)
            plain = re.sub(r"\b(Height|Planar|Sample|Working|K|u8|u16|u32|i32|i64|usize)\b", "T", plain)
            plain = re.sub(r'"[^"]*"|\b\d[\d_]*\b|\b[A-Z][A-Z_]+\b', "N", plain)
            tokens = re.findall(r"\w+|[^\w\s]", plain)
            if len(tokens) >= 30:
                found.append((path, line, name, tokens))
    for a, b in itertools.combinations(found, 2):
        m = difflib.SequenceMatcher(None, a[3], b[3], autojunk=False)
        if m.real_quick_ratio() > 0.8 and m.quick_ratio() > 0.8 and m.ratio() > 0.85:
            yield f"{a[0].relative_to(ROOT)}:{a[1]}: {a[2]} | {b[0].relative_to(ROOT)}:{b[1]}: {b[2]}"


def repeated():
    facts, groups = {}, {}
    for path in sources():
        for line, name, body in functions(path.read_text()):
            where = f"{path.relative_to(ROOT)}:{line}: {name}"
            clauses, plain = split_contract(body)
            for c in clauses:
                for fact in re.split(r"\) × | × \(| × ", c):
                    fact = re.sub(r"\.(old|now|new|entry)\b", "", fact).strip(" ()")
                    facts.setdefault(fact, set()).add(where)
                for name in set(re.findall(r"\b[A-Z]\w+(?= )", c)):
                    facts.setdefault(name + " ..", set()).add(where)
            head = plain.split("{")[0]
            names = sorted(n for n in set(re.findall(r"(\w+): ", head)) if n != "rt" and n[0].islower())
            for pair in itertools.combinations(names, 2):
                groups.setdefault(pair, set()).add(where)
    for fact, at in sorted(facts.items(), key=lambda x: -len(x[1])):
        if len(at) >= 3:
            yield f"fact in {len(at)} functions: {fact}"
    for pair, at in sorted(groups.items(), key=lambda x: -len(x[1])):
        if len(at) >= 3:
            yield f"together in {len(at)} functions: {', '.join(pair)}"


def answers():
    for path in sorted(ROOT.glob("crates/*/proofs/**/*.antt")):
        for n, line in enumerate(path.read_text().splitlines(), 1):
            if re.match(r"(pub|abbrev pub) [\w-]+ : goal\.", line):
                yield f"{path.relative_to(ROOT)}:{n}: {line.split(' : ')[0]}"


def places(point):
    if point == 2:
        return list(twins())
    if point == 5:
        return list(repeated())
    if point == 8:
        return list(answers())
    wanted = re.compile(PATTERNS[point])
    return [
        f"{path.relative_to(ROOT)}:{n}: {line.strip()}"
        for path in sources()
        for n, line in enumerate(path.read_text().splitlines(), 1)
        if "ghost use" not in line and wanted.search(code(line))
    ]


if len(sys.argv) > 1:
    print("\n".join(places(int(sys.argv[1]))))
else:
    for point in range(1, 9):
        print(point, len(places(point)))
