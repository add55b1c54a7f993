#!/usr/bin/env python3
"""Lists places in crates/*/src that an older form of Rattle may have left, by the points of docs/DESIGN-PASS.md.

    python3 tools/places.py [FOLDER]

FOLDER holds the repository (this one, if none is given). Each line is a candidate, to be looked at; the last lines count.
"""
import collections
import pathlib
import re
import sys

root = pathlib.Path(sys.argv[1] if len(sys.argv) > 1 else pathlib.Path(__file__).parent.parent)
files = sorted(p for p in root.glob("crates/*/src/**/*.rt") if "out" not in p.parts)
counts = collections.Counter()


def strip(text):
    """The code with comments blanked, so that places keep their lines."""
    return re.sub(r"//[^\n]*", lambda m: " " * len(m.group()), text)


def where(path, text, at):
    return f"{path.relative_to(root / 'crates')}:{text.count(chr(10), 0, at) + 1}"


def show(point, kind, place, what):
    counts[point, kind] += 1
    print(f"{point}  {kind:<34} {place:<38} {' '.join(what.split())[:110]}")


def closed(text, at, opening, closing):
    """The place after the bracket that closes the one that stands before this place."""
    depth = 1
    while depth and at < len(text):
        depth += {opening: 1, closing: -1}.get(text[at], 0)
        at += 1
    return at


def functions(text):
    """Name, place, parameters, result, clauses and body of each function."""
    for m in re.finditer(r"\bfn (\w+)\s*(?:<[^>{]*>)?\(", text):
        at = closed(text, m.end(), "(", ")")
        params = text[m.end() : at - 1]
        result = re.match(r"\s*->\s*([^\n{;]*)", text[at:])
        clauses = []
        while True:
            clause = re.compile(r"\b(requires|ensures)\b([ \w]*)\{").search(text, at)
            stop = re.compile(r"[{;]").search(text, at)
            if not clause or not stop or clause.start() > stop.start():
                break
            at = closed(text, clause.end(), "{", "}")
            clauses.append((clause.group(1), text[clause.end() : at - 1]))
        body = None
        if stop and text[stop.start()] == "{":
            body = text[stop.end() : closed(text, stop.end(), "{", "}") - 1]
        yield m.group(1), m.start(), params, result and result.group(1), clauses, body


# Point, kind of candidate, the text that shows it, and how much of the text around it to print.
PATTERNS = [
    (1, "Result taken apart by hand", r"let (Ok|Err)\([^=]*= |\b(Ok|Err)\(\w+\) => |\bif let (Ok|Err)", 0, 40),
    (1, "Option taken apart by hand", r"\bNone => |\belse \{\s*None\s*\}|\bSome\(\w+\) => [^\n]*\n\s*None => ", 40, 0),
    (1, "number for an error", r"Result<[^<>]*(?:<[^<>]*>)?[^<>]*,\s*(?:u8|u16|u32|u64|usize)>", 0, 0),
    (1, "number for a kind", r"\b(?:\w+\.)?(?:radius|kind|which|mode|tag)\b [!=]= \d+", 0, 0),
    (3, "loop over numbers", r"\bfor [^{\n]* in [^{\n]*\.\.[^{\n]*\{|\bwhile [^{\n]*\{|\bloop \{", 0, 0),
    (
        4,
        "impl of such a trait (for sight)",
        r"\bimpl\b[^{\n]*\b(PartialEq|Eq|PartialOrd|Ord|Clone|Copy|Debug|From|TryFrom|FromStr|Display|Error)\b[^{\n]* for [^{\n]*",
        0,
        0,
    ),
    (6, "computed index into a flat table", r"\[[^\[\];=]*\* ?\d+ ?\+[^\[\];]*\]", 0, 0),
    (6, "fixed array as field or parameter", r"(\w+): (&mut |&)?\[(u8|\[u8; \d+\]); \d+\]", 0, 0),
    (6, "length beside a buffer", r"\bcount: usize|\blen: usize", 0, 0),
    (7, "function pointer, dyn or impl Fn", r"\bfn\(|\bdyn \w+|\bimpl Fn", 0, 30),
]

shapes = collections.defaultdict(list)
structs = collections.defaultdict(list)
facts = collections.defaultdict(set)
together = collections.defaultdict(set)

for path in files:
    text = strip(path.read_text())
    crate = path.relative_to(root / "crates").parts[0]
    for m in re.finditer(r"(#\[derive\(([^)]*)\)\]\s*)?(?:pub(?:\(crate\))? )?(enum|struct) (\w+)[^{;(]*(?:\{([^}]*)\}|\([^)]*\);|;)", text):
        at = where(path, text, m.start(3))
        if m.group(3) == "enum":
            show(1, "enum, its cases", at, m.group(4) + ": " + (m.group(5) or ""))
        else:
            fields = sorted(re.findall(r"(\w+)\s*:(?!:)\s*([\w<>\[\]; &']+)", re.sub(r"ghost[^\n]*", "", m.group(5) or "")))
            structs[tuple(fields)].append((at, m.group(4)))
        if not re.search(r"PartialEq", m.group(2) or ""):
            show(4, "type that derives no equality", at, m.group(4))
    for point, kind, pattern, before, after in PATTERNS:
        for m in re.finditer(pattern, text):
            show(point, kind, where(path, text, m.start()), text[max(0, m.start() - before) : m.end() + after])
    for m in re.finditer(r"\bfor [^{\n]* in [^{\n]*\{", text):
        if ".." not in m.group():
            block = text[m.end() : m.end() + 160]
            if re.search(r"return (Some|true|false|Err)", block):
                show(3, "search by a loop over elements", where(path, text, m.start()), m.group())
    for name, start, params, result, clauses, body in functions(text):
        at = where(path, text, start)
        if result and result.strip() == "bool":
            show(1, "function that answers bool", at, name)
        conversion = r"(new|over|of|of_order|\w+_of|\w+_with|\w+_over|from_\w+|to|to_\w+|coordinates|joined|digit_value|\w+_named|pair|show\w*|write_\w+|draw|bytes|number)$"
        if re.match(conversion, name):
            show(4, "converts, makes or prints", at, f"fn {name}({' '.join(params.split())}) -> {result}")
        for clause in clauses:
            fact = " ".join(re.sub(r"\b(now|old|new)\b", "v", clause[1]).split())
            for part in re.split(r" × ", fact.replace("(", "").replace(")", "")):
                if re.search(r"[<≤≡]", part) and "result" not in part:
                    facts[crate, part].add(at)
        names = re.findall(r"(\w+):", params)
        for a in range(len(names)):
            for b in range(a + 1, len(names)):
                together[crate, names[a], names[b]].add(at)
        if body is not None:
            arms = re.findall(r"=>\s*&?\w+(?:\.\w+)*\.(\w+)\(", body)
            if re.search(r"match self", body) and len(arms) > 1 and len(set(arms)) == 1:
                show(7, "match that calls one method", at, name)
            tokens = re.findall(r"\w+|[^\s\w]", body)
            shape = " ".join("x" if re.match(r"\w", t) and t not in ("match", "if", "else", "for", "let", "return", "in") else t for t in tokens)
            if len(tokens) >= 12:
                shapes[shape].append((at, name))

for shape, places in shapes.items():
    if len(places) > 1:
        for at, name in places:
            show(2, f"bodies of one shape ({len(places)})", at, name)
for fields, places in structs.items():
    if len(places) > 1 and fields:
        for at, name in places:
            show(2, f"structs with the same fields ({len(places)})", at, name)
for (crate, part), places in sorted(facts.items()):
    if len(places) > 2:
        show(5, f"fact in {len(places)} contracts", crate, part)
for (crate, a, b), places in sorted(together.items()):
    if len(places) > 2:
        show(5, f"parameters together in {len(places)}", crate, f"{a}, {b}")

print()
for (point, kind), n in sorted(counts.items()):
    print(f"{n:>4}  point {point}: {kind}")
