#!/usr/bin/env python3
"""Counts the places where src/ has an older form, point by point as docs/DESIGN-PASS.md has them.

    tools/places.py            one line for each query: its number, what it looks for
    tools/places.py --list 3   the places of point 3 too, one a line

A place that a query finds is one to look at; docs/DESIGN-PASS.md says of each that is left why it is.
"""
import collections
import difflib
import glob
import os
import re
import sys

os.chdir(os.path.join(os.path.dirname(os.path.abspath(__file__)), ".."))

NUMBER = r"(?:u8|u16|u32|u64|usize|i32|i64)"
FN = re.compile(r"^[ \t]*(?P<pub>pub(?:\([^)]*\))? )?(?P<mod>(?:const |unsafe |extern \"C\" )*)fn (?P<name>\w+)", re.M)
CLAUSE = re.compile(r"\s*(requires|ensures)\*?\s*(\w+)?\s*\{")


class Function:
    """A function: crate, file, line, name, parameters, result, clauses (kind, name, text) and body."""


def matched(text, at, opens, closes):
    """The place behind the bracket that closes the one at `at`."""
    depth = 0
    for i in range(at, len(text)):
        if text[i] == opens:
            depth += 1
        elif text[i] == closes:
            depth -= 1
            if depth == 0:
                return i + 1
    raise ValueError("a bracket that is not closed")


def functions_of(path):
    text = re.sub(r"//[^\n]*", lambda m: " " * len(m[0]), open(path, encoding="utf-8").read())
    found = []
    for m in FN.finditer(text):
        f = Function()
        f.crate, f.file, f.line = path.split("/")[1], path, text.count("\n", 0, m.start("name")) + 1
        f.name, f.is_pub, f.is_export = m["name"], bool(m["pub"]), "extern" in m["mod"]
        at = m.end()
        f.generics = ""
        if text[at] == "<":
            end = at
            depth = 0
            while True:
                depth += {"<": 1, ">": -1}.get(text[end], 0) if text[end - 1] != "-" else 0
                end += 1
                if depth == 0:
                    break
            f.generics, at = text[at:end], end
        at = text.index("(", at)
        end = matched(text, at, "(", ")")
        parts, depth, last = [], 0, at + 1
        for i in range(at + 1, end - 1):
            depth += {"(": 1, "[": 1, "<": 1, ")": -1, "]": -1, ">": -1}.get(text[i], 0)
            if text[i] == "," and depth == 0:
                parts.append(text[last:i])
                last = i + 1
        parts.append(text[last:end - 1])
        f.parameters = [p.split(":", 1)[0].replace("mut ", "").strip() for p in parts if p.strip()]
        f.types = [p.split(":", 1)[1].strip() if ":" in p else "Self" for p in parts if p.strip()]
        result = re.match(r"\s*->\s*([^\n{]+)", text[end:])
        f.result = result[1].strip() if result else ""
        at = end + (result.end() if result else 0)
        f.clauses = []
        while True:
            c = CLAUSE.match(text, at)
            if not c:
                break
            stop = matched(text, c.end() - 1, "{", "}")
            f.clauses.append((c[1], c[2] or "", " ".join(text[c.end():stop - 1].split())))
            at = stop
        rest = re.match(r"\s*(where[^{]*)?", text[at:])
        at += rest.end()
        if text[at:at + 1] != "{":
            f.body = ""
        else:
            f.body = text[at:matched(text, at, "{", "}")]
        found.append(f)
    return found


def types_of(path):
    """(file, line, 'struct' or 'enum', name, derives, [(name, type)] or [variant]) for each type of the file."""
    text = re.sub(r"//[^\n]*", lambda m: " " * len(m[0]), open(path, encoding="utf-8").read())
    for m in re.finditer(r"((?:^[ \t]*#\[[^\n]*\]\n)*)^[ \t]*(?:pub )?(struct|enum) (\w+)[^{;(]*([{(])", text, re.M):
        body = text[m.end():matched(text, m.end() - 1, m[4], {"{": "}", "(": ")"}[m[4]]) - 1]
        derives = set(re.findall(r"\w+", " ".join(re.findall(r"derive\(([^)]*)\)", m[1]))))
        if m[2] == "struct":
            fields = re.findall(r"(?:^|\n)\s*(?:pub )?(\w+)\s*:\s*([^,\n]+)", re.sub(r"ghost[^\n]*", "", body))
        else:
            fields, depth, word = [], 0, ""
            for c in body + ",":
                depth += {"(": 1, "{": 1, ")": -1, "}": -1}.get(c, 0)
                if c == "," and depth == 0:
                    fields += [" ".join(word.split())] if word.strip() else []
                    word = ""
                else:
                    word += c
        yield path, text.count("\n", 0, m.start(3)) + 1, m[2], m[3], derives, fields


def tokens(body):
    names, out = {}, []
    for t in re.findall(r"\d[\w.]*|\w+|[^\w\s]", body):
        if re.fullmatch(r"\d[\w.]*", t):
            out.append("#")
        elif re.fullmatch(NUMBER + "|f32|f64|bool", t):
            out.append("TY")
        elif re.match(r"\w", t) and t not in ("let", "mut", "if", "else", "while", "for", "in", "return", "match", "true", "false", "loop"):
            out.append("n%d" % names.setdefault(t, len(names)))
        else:
            out.append(t)
    return tuple(out)


files = sorted(glob.glob("crates/*/src/**/*.rt", recursive=True))
functions = [f for path in files for f in functions_of(path)]
types = [t for path in files for t in types_of(path)]
rows = []


def row(point, what, places):
    rows.append((point, what, sorted(places)))


def at(f, more=""):
    return f"{f.file}:{f.line} {f.name}{more}"


# 1
NONE = re.compile(r"No|None|Missing|Refused|Bad|Other|End|Nothing|Empty|Broken|Unknown|Absent|NoSuch", re.I)
row(1, "enums of two variants, one with no value or a refusal's: the shape of Option or Result",
    [f"{p}:{l} {n} {v}" for p, l, k, n, d, v in types if k == "enum" and len(v) == 2 and any("(" in x or "{" in x for x in v) and any("(" not in x and "{" not in x or NONE.match(x) for x in v)])
row(1, "enums that derive no equality",
    [f"{p}:{l} {n}" for p, l, k, n, d, v in types if k == "enum" and "PartialEq" not in d])
row(1, "structs of a flag and a value",
    [f"{p}:{l} {n} {v}" for p, l, k, n, d, v in types if k == "struct" and 2 <= len(v) <= 4 and any(t == "bool" for _, t in v)])
LITERAL = re.compile(r"return (\d+(?:\w+)?|[A-Z][A-Z_0-9]{2,});|=> (\d+(?:\w+)?|[A-Z][A-Z_0-9]{2,}),|\n\s*(\d+(?:\w+)?|[A-Z][A-Z_0-9]{2,})\s*\n?\s*\}")
row(1, "functions that answer a number, some of it by a literal: refusals, kinds, 0 for none",
    [at(f, " -> " + f.result) for f in functions if re.fullmatch(NUMBER, f.result) and LITERAL.search(f.body)])
row(1, "functions that choose by a number which is a kind's (match over literals, or a chain of == with constants)",
    [at(f) for f in functions if re.search(r"\bmatch \w+ \{\s*(?:\d+|[A-Z_]{3,}) =>", f.body) or len(re.findall(r"if \w+ == [A-Z_]{3,} ", f.body)) >= 2])
# 2
groups = collections.defaultdict(list)
for f in functions:
    t = tokens(f.body)
    if len(t) >= 22:
        groups[t].append(f)
twins = [g for g in groups.values() if len(g) > 1]
row(2, "functions in groups of bodies equal up to names, types and literals (22 tokens or more)", [at(f, f"  [group of {len(g)}: {g[0].crate}::{g[0].name}]") for g in twins for f in g])
long_ones = [(tokens(f.body), f) for f in functions if len(tokens(f.body)) >= 55]
near = set()
for i, (a, f) in enumerate(long_ones):
    for b, g in long_ones[i + 1:]:
        if a != b and abs(len(a) - len(b)) <= 0.2 * max(len(a), len(b)):
            m = difflib.SequenceMatcher(None, a, b, autojunk=False)
            if m.real_quick_ratio() >= 0.88 and m.quick_ratio() >= 0.88 and m.ratio() >= 0.88:
                near.add(at(f) + "  ~  " + f"{g.crate}::{g.name}")
row(2, "pairs of longer bodies (55 tokens or more) that are nearly equal (ratio 0.88 or more)", near)
# 3
row(3, "loops counted by hand: while, loop", [at(f, f"  {len(re.findall(r'[^_a-z]while |[^_a-z]loop [{]', f.body))}") for f in functions for _ in re.findall(r"\bwhile\b|\bloop \{", f.body)])
# 4
row(4, "functions that turn a truth value or an enum into a number, or back, by hand",
    [at(f, " -> " + f.result) for f in functions if re.fullmatch(r"\{\s*if \w+ \{\s*1\w*\s*\} else \{\s*0\w*\s*\}\s*\}|\{\s*if \w+ \{\s*return 1;\s*\}\s*0\s*\}", f.body)
     or (re.fullmatch(NUMBER, f.result) and re.match(r"\{\s*match \w+ \{", f.body) and not re.search(r"=> \{|\(.*\) =>.*\w+\(", f.body))])
row(4, "functions that compare, take the smaller or the larger, by hand",
    [at(f) for f in functions if re.fullmatch(r"\{\s*if (\w+) [<>]=? (\w+) \{\s*(?:return )?\w+;?\s*\}(?: else \{)?\s*\w+\s*\}?\s*\}", f.body) or f.name in ("same", "same_bytes", "equal", "is_equal")])
row(4, "conversions to a wider number by hand (from a u16 or u32 by `as`)", [at(f) for f in functions if re.fullmatch(r"\{\s*\w+ as (?:u32|u64|usize|f64)\s*\}", f.body)])
# 5
facts = collections.defaultdict(list)
for f in functions:
    for kind, name, text in f.clauses:
        if kind == "requires":
            facts[name or text].append(f)
row(5, "facts that stand in the `requires` of three functions or more (each function's clause counts)", [f"{len(fs):3} {name}: " + ", ".join(sorted({x.crate for x in fs})) for name, fs in facts.items() if len(fs) >= 3])
counted = collections.Counter()
sets = [frozenset(f.parameters) - {"self", "&self", "&mut self"} for f in functions]
for i, a in enumerate(sets):
    for b in sets[i + 1:]:
        if len(a & b) >= 3:
            counted[a & b] += 1
support = {g: sum(g <= s for s in sets) for g in counted}
kept = []
for g in sorted((g for g in support if support[g] >= 4), key=lambda g: -support[g] * (len(g) - 1)):
    if not any(g < h and support[h] >= 0.7 * support[g] for h in kept) and not any(g > h and support[g] >= 0.7 * support[h] for h in kept):
        kept.append(g)
row(5, "groups of three parameters or more that travel together through four functions or more", [f"{support[g]:3} " + " ".join(sorted(g)) for g in kept])
row(5, "functions of more than twelve parameters", [at(f, f"  {len(f.parameters)}") for f in functions if len(f.parameters) > 12])
# 6
row(6, "structs of an array and a count of it", [f"{p}:{l} {n} {v}" for p, l, k, n, d, v in types if k == "struct" and any(t.startswith("[") for _, t in v) and any(x == "count" or x.endswith("_count") or x in ("used", "held", "at") for x, _ in v)])
row(6, "functions that take two parallel slices or more of numbers, or one and its length", [at(f, "  " + " ".join(p for p, t in zip(f.parameters, f.types) if re.search(r"\[(?:usize|u64|u32|f32|f64)", t))) for f in functions if sum(bool(re.match(r"&(?:'a )?(?:mut )?\[(?:usize|u64|u32|f64)", t)) for t in f.types) >= 2])
# 7
row(7, "switches on which step to run: a match on an enum or number whose every arm calls another function",
    [at(f) for f in functions if re.search(r"match [\w.]+ \{(?:\s*[\w:]+(?:\([\w, ]*\))? => \w+\([^{}]*\),){3,}", f.body)])
# 8
answers = glob.glob("crates/*/proofs/**/Answers.antt", recursive=True)
bare = [f"{p}: {l.strip()[:90]}" for p in answers for l in open(p, encoding="utf-8") if re.match(r"\S.* = (?:search rules|tt|omega arith|refl)$", l.rstrip())]
row(8, "answers that are `search rules`, `tt`, `omega arith` or `refl` alone", bare)
row(8, "files of answers", answers)
row(8, "lines of proofs/, in hundreds", ["-"] * (sum(len(open(p, encoding="utf-8").readlines()) for p in glob.glob("crates/*/proofs/**/*.antt", recursive=True)) // 100))

wanted = [int(a) for a in sys.argv[2:]] if sys.argv[1:2] == ["--list"] else []
print(f"{len(files)} files, {sum(len(open(p, encoding='utf-8').readlines()) for p in files)} lines, {len(functions)} functions, {sum(f.is_pub for f in functions)} of them pub")
for point, what, places in rows:
    print(f"{point}  {len(places):4}  {what}")
    if point in wanted:
        for p in places:
            print("        " + p)
