#!/usr/bin/env python3
"""Counts, for each point of docs/DESIGN-PASS.md, the places in crates/*/src/*.rt that a pattern finds; writes no file.

usage: python3 tools/places.py [point ..], at the top of the repository. Without a point it prints the counts, with points it prints each place too.

It reads text and no types: comments, strings and contracts are cut away, then items, parameters, loops and facts are found by brackets and patterns.
"""

import collections
import difflib
import glob
import os
import re
import sys

COMMENT = re.compile(r"//[^\n]*")
STRING = re.compile(r'b?"(?:[^"\\]|\\.)*"', re.S)
BYTE = re.compile(r"b'(?:\\.|[^'\\])'")
INTEGER = re.compile(r"^(u8|u16|u32|u64|usize)$")
TOKEN = re.compile(r"[A-Za-z_]\w*|\d[\w]*|::|->|=>|<=|>=|==|!=|&&|\|\||\+=|-=|\S")
WORDS = set("as bool break const continue else enum fn for if impl in let loop match mod mut pub ref return self struct true false use while".split())
FAULT = re.compile(r"^(Fault|FaultAt|Refused|Bad|BadAt|Broken|By)$")
KINDS = re.compile(r"^(charset|set|edition|kind|call|rule|sign|radix)$")
POINTS = {
    1: "own enums like Option or Result, flags beside values, numbers for kinds",
    2: "twins",
    3: "loops that count an index by hand",
    4: "equality, order, copying, conversion and printing by hand",
    5: "facts and parameters that travel together",
    6: "buffers with a length, parallel arrays, searches, flat rows",
    7: "switches on which step to run",
    8: "proofs",
}


# The text without comments and strings, of the same length, so that a place in it is a place in the file.
def bare(text):
    def blank(m):
        return re.sub(r"[^\n]", " ", m.group(0))

    def quoted(m):
        return '"' + re.sub(r"[^\n]", "_", m.group(0)[1:-1]) + '"'

    text = BYTE.sub(lambda m: "0" + " " * (len(m.group(0)) - 1), text)
    text = STRING.sub(quoted, text)
    return COMMENT.sub(blank, text)


# The place behind the bracket that closes the one at `at`.
def behind(text, at):
    pairs = {"(": ")", "{": "}", "[": "]"}
    depth, i, opening = 0, at, text[at]
    while i < len(text):
        depth += (text[i] == opening) - (text[i] == pairs[opening])
        i += 1
        if depth == 0:
            return i
    return i


# The parts of a text at the commas, or another mark, outside all brackets.
def parts(text, mark=","):
    out, depth, here = [], 0, ""
    for ch in text:
        depth += (ch in "([{<") - (ch in ")]}>")
        if ch == mark and depth == 0:
            out.append(here)
            here = ""
        else:
            here += ch
    return [p.strip() for p in out + [here] if p.strip()]


Fn = collections.namedtuple("Fn", "crate name params answer requires body line")
Enum = collections.namedtuple("Enum", "crate name cases line")
Struct = collections.namedtuple("Struct", "crate name fields line")


def named(part):
    name, _, kind = part.partition(":")
    name = re.sub(r"^(pub|mut)\s+", "", name.strip())
    return re.sub(r"^(pub|mut)\s+", "", name), " ".join(kind.split())


def read(path):
    crate = path.split(os.sep)[1]
    with open(path, encoding="utf-8") as f:
        text = bare(f.read())
    fns, enums, structs = [], [], []
    for m in re.finditer(r"\b(fn|enum|struct)\s+(\w+)", text):
        line = text.count("\n", 0, m.start()) + 1
        if m.group(1) == "fn":
            open_at = text.index("(", m.end())
            close = behind(text, open_at)
            params = [named(p) for p in parts(text[open_at + 1 : close - 1])]
            answer, i, facts = "", close, []
            while text[i] != "{":
                clause = re.match(r"(requires|ensures|decreases)\b\s*(\w+\s*)?", text[i:])
                if clause:
                    start = i + clause.end()
                    i = behind(text, start)
                    if clause.group(1) == "requires":
                        facts.append(text[start + 1 : i - 1])
                else:
                    answer += text[i]
                    i += 1
            end = behind(text, i)
            fns.append(Fn(crate, m.group(2), params, " ".join(answer.replace("->", "").split()), facts, text[i:end], line))
        else:
            open_at = text.index("{", m.end())
            inside = parts(text[open_at + 1 : behind(text, open_at) - 1])
            if m.group(1) == "enum":
                cases = [re.match(r"\w+", p) and (re.match(r"\w+", p).group(0), p[re.match(r"\w+", p).end() :].strip()) for p in inside]
                enums.append(Enum(crate, m.group(2), cases, line))
            else:
                fields = [named(re.sub(r"#\[[^\]]*\]", "", p)) for p in inside]
                structs.append(Struct(crate, m.group(2), fields, line))
    return text, fns, enums, structs


FILES = {path: read(path) for path in sorted(glob.glob("crates/*/src/*.rt"))}
FNS = [f for _, fns, _, _ in FILES.values() for f in fns]
ENUMS = [e for _, _, enums, _ in FILES.values() for e in enums]
STRUCTS = [s for _, _, _, structs in FILES.values() for s in structs]


def at(item):
    return f"{item.crate} {item.name}"


# Loops of a body: the word, the head and the inside.
def loops(body):
    for m in re.finditer(r"\b(while|loop|for)\b([^{;]*)\{", body):
        yield m.group(1), " ".join(m.group(2).split()), body[m.end() - 1 : behind(body, m.end() - 1)]


# 1
def point_1():
    option = [at(e) for e in ENUMS if len(e.cases) == 2 and sum(not v for _, v in e.cases) == 1]
    result = [at(e) for e in ENUMS if len(e.cases) == 2 and all(v for _, v in e.cases)]
    among = [at(e) for e in ENUMS if len(e.cases) > 2 and any(FAULT.match(n) and v for n, v in e.cases)]
    small = {e.name for e in ENUMS if f"{e.crate} {e.name}" in option + result}
    flag = [f"{at(s)}: {n}" for s in STRUCTS if len(s.fields) > 1 for n, t in s.fields if t == "bool"]
    beside = [f"{at(s)}: {n}: {t}" for s in STRUCTS for n, t in s.fields if t in small]
    number = [f"{at(f)}: {n}: {t}" for f in FNS for n, t in f.params if KINDS.match(n) and INTEGER.match(t)]
    field = [f"{at(s)}: {n}: {t}" for s in STRUCTS for n, t in s.fields if KINDS.match(n) and INTEGER.match(t)]
    return [
        ("enums of one empty case and one with a value", option),
        ("enums of two cases with values", result),
        ("enums with a case for a fault among others", among),
        ("`bool` fields beside others", flag),
        ("fields of such an enum of two cases", beside),
        ("number parameters named for a kind", number),
        ("number fields named for a kind", field),
    ]


# 2
def tokens(text, same):
    out, names = [], {}
    for t in TOKEN.findall(text):
        if re.match(r"\d", t):
            out.append("#")
        elif re.match(r"[A-Za-z_]", t) and t not in WORDS:
            out.append(names.setdefault(t, f"v{len(names)}") if same else "v")
        else:
            out.append(t)
    return out


def point_2():
    groups = collections.defaultdict(list)
    for f in FNS:
        t = tokens(f.body, False)
        if len(t) >= 20:
            groups[" ".join(t)].append(at(f))
    equal = [" = ".join(g) for g in groups.values() if len(g) > 1]
    known = {frozenset(p) for g in groups.values() for p in ((a, b) for a in g for b in g)}
    masked = [(at(f), tokens(f.body, True)) for f in FNS]
    masked = [(n, t) for n, t in masked if len(t) >= 40]
    near = []
    for i, (n, t) in enumerate(masked):
        for m, u in masked[i + 1 :]:
            if min(len(t), len(u)) * 10 < max(len(t), len(u)) * 8 or frozenset((n, m)) in known:
                continue
            s = difflib.SequenceMatcher(None, t, u, False)
            if s.quick_ratio() >= 0.85 and s.ratio() >= 0.85:
                near.append(f"{n} ~ {m}")
    kinds = collections.defaultdict(list)
    for s in STRUCTS:
        kinds[" ".join(t for _, t in s.fields)].append(at(s))
    for e in ENUMS:
        shape = sorted(re.sub(r"\w+:", "", v).replace("{", "(").replace("}", ")") for _, v in e.cases)
        kinds["enum " + " | ".join(re.sub(r"\s", "", v) for v in shape)].append(at(e))
    types = [" = ".join(g) for g in kinds.values() if len(g) > 1]
    return [
        ("groups of functions whose bodies are equal but for names and numbers (20 tokens or more)", equal),
        ("pairs of functions whose bodies are nearly so (40 tokens or more, 85 % equal)", near),
        ("groups of types with fields or cases of the same types", types),
    ]


# 3
def point_3():
    every = [(f, w, h, b) for f in FNS for w, h, b in loops(f.body)]
    shown = lambda ls: [f"{at(f)}: {w} {h}" for f, w, h, _ in ls]
    step = [x for x in every if re.search(r"\b\w+ [+-]= 1;", x[3])]
    head = [x for x in step if x[1] == "while" and re.match(r"\(?\w+ < ", x[2]) and re.search(r"\b%s \+= 1;" % re.match(r"\w+", x[2]).group(0), x[3])]
    return [
        ("`while`, `loop` and `for`", shown(every)),
        ("with a `+= 1` or `-= 1` in it", shown(step)),
        ("`while i < n` that steps this `i` by one", shown(head)),
    ]


# 4
def point_4():
    casts = [f"{at(f)}: {m.group(0).strip()}" for f in FNS for m in re.finditer(r"[\w\])]+ as (u8|u16|u32|u64|usize)\b", f.body)]
    turned = [at(f) for f in FNS for _ in re.finditer(r"\b(widen|wide)\(", f.body)]
    equal = [at(f) for f in FNS if f.answer == "bool" and any(re.search(r"\[\w+\] [!=]= ", b) and "return" in b for _, _, b in loops(f.body))]
    copy = [f"{at(f)}: {h}" for f in FNS for _, h, b in loops(f.body) if re.search(r"\w+\[[^\]]*\] = [^;]*;", b)]
    named_number = [at(f) for f in FNS if len(re.findall(r"\w+::\w+(?:\(_\))? => #", re.sub(r"=> [\d]\w*", "=> #", f.body))) >= 3]
    number_named = [at(f) for f in FNS if len(re.findall(r"(?<!\w)\d\w* *=> \w+", f.body)) >= 3]
    passed = [
        f"{at(f)}: {m.group(1)}"
        for f in FNS
        for m in re.finditer(r"(\w+::(?:Fault|FaultAt|Refused|By))\s*[({][^)}]*[)}]\s*=>\s*(?:\w+::\w+\()*\w+::(?:Fault|FaultAt|Refused|By)\b", f.body)
    ]
    rebuilt = [f"{at(f)}: {m.group(0)}" for f in FNS for m in re.finditer(r"\b(\w+): \w+\.\1\b", f.body)]
    taken = [f"{at(f)}: {m.group(0)}" for f in FNS for m in re.finditer(r"let (\w+) = \w+\.\1;", f.body)]
    bounds = [at(f) for f in FNS if f.answer == "bool" and re.search(r"if \w+ < [^{]*\{\s*return (true|false);\s*\}\s*\w+ <=? ", f.body)]
    digits = [at(f) for f in FNS if re.search(r"(% 16|/ 16|/= 16|\* 16|radix \+|io::decimal|- 48|/ 0x10)", f.body)]
    return [
        ("`as` of a number", casts),
        ("calls of `widen` and `wide`", turned),
        ("equality of slices or of all elements in a loop", equal),
        ("loops that write an element at an index", copy),
        ("matches from names to numbers, three cases or more", named_number),
        ("matches from numbers to names or calls, three cases or more", number_named),
        ("refusals passed on case by case", passed),
        ("fields copied one by one", rebuilt),
        ("fields taken one by one into a local of their name", taken),
        ("ranges as two tests of a bound", bounds),
        ("digits read or written", digits),
    ]


# 5
def facts(f):
    for clause in f.requires:
        for p in parts(clause, "×"):
            while p.startswith("(") and behind(p, 0) == len(p):
                p = p[1:-1].strip()
            yield " ".join(p.replace(".old", ".now").split())


def runs(crate):
    found = collections.defaultdict(list)
    for f in FNS:
        if f.crate != crate:
            continue
        ps = [f"{n}: {t.replace('&mut ', '&')}" for n, t in f.params]
        for i in range(len(ps)):
            for j in range(i + 2, len(ps) + 1):
                found[tuple(ps[i:j])].append(f.name)
    kept = {r: ns for r, ns in found.items() if len(ns) >= 3}

    def inside(r, s):
        return r != s and any(s[k : k + len(r)] == r for k in range(len(s)))

    return {r: ns for r, ns in kept.items() if not any(inside(r, s) and len(kept[s]) == len(ns) for s in kept)}


def point_5():
    where = collections.defaultdict(list)
    for f in FNS:
        for p in set(facts(f)):
            where[f.crate, p].append(f.name)
    often = [f"{c}: {p} ({len(ns)}: {', '.join(ns)})" for (c, p), ns in sorted(where.items()) if len(ns) >= 3]
    crates = sorted({f.crate for f in FNS})
    together = [f"{c}: ({', '.join(r)}) ({len(ns)}: {', '.join(ns)})" for c in crates for r, ns in sorted(runs(c).items())]
    uses = [f"{c} {n}: {p}" for (c, p), ns in sorted(where.items()) if len(ns) >= 3 for n in ns]
    tested = [f"{at(f)}: {m.group(0)}" for f in FNS for m in re.finditer(r"\b\w+\.len\(\) < [A-Z_]+", f.body)]
    return [
        ("facts in the `requires` of three functions or more of a crate", often),
        ("these facts, once for each function", uses),
        ("parameters in a row in three functions or more of a crate", together),
        ("lengths tested against a constant at run time", tested),
    ]


# 6
def point_6():
    buffer = [at(s) for s in STRUCTS if any(t.startswith("[") for _, t in s.fields) and any(INTEGER.match(t) for _, t in s.fields)]
    parallel = [at(s) for s in STRUCTS if sum(t.startswith("[") for _, t in s.fields) > 1]
    lent = [at(f) for f in FNS if sum(t.startswith("&mut [") for _, t in f.params) > 1]
    rows = [f"{at(f)}: {m.group(0)}" for f in FNS for m in re.finditer(r"\w+\[[23] \* [^\]]*\]+", f.body)]
    owners = sorted({r.split(":")[0] for r in rows})
    flat = [f"{p.split(os.sep)[1]} {m.group(1)}" for p, x in FILES.items() for m in re.finditer(r"const (\w+): \[[^\]]*\]", x[0])]
    search = [at(f) for f in FNS if any(re.search(r"if [^{]*==[^{]*\{\s*return|if [^{]*\{\s*return", b) for _, _, b in loops(f.body))]
    ranges = [at(f) for f in FNS if len(re.findall(r"if \w+ <=? \d\w* *\{\s*return", f.body)) >= 3]
    sliced = [f"{at(f)}: {m.group(0)}" for f in FNS for m in re.finditer(r"&(?:mut )?\w+\[(?:0)?\.\.\w+\]", f.body)]
    return [
        ("structs with an array and a number", buffer),
        ("structs with two arrays", parallel),
        ("functions with two lent slices to write", lent),
        ("elements of flat rows, `a[2 * k + 1]`", rows),
        ("functions with such elements", owners),
        ("constant arrays", flat),
        ("loops that leave at what they look for", search),
        ("three tests or more of a bound in a row", ranges),
        ("slices cut to a length that is kept beside", sliced),
    ]


# 7
def point_7():
    flag = [f"{at(f)}: {n}" for f in FNS for n, t in f.params if t == "bool"]
    switch = [f"{at(f)}: {n}" for f in FNS for n, t in f.params if t == "bool" and re.search(r"\b(if|match) !?%s \{" % n, f.body)]
    number = [f"{at(f)}: {m.group(1)}" for f in FNS for m in re.finditer(r"match (\w+(?: / \d+)?) \{\s*\d", f.body)]
    asked = [
        f"{at(f)}: {n}" for f in FNS for n, t in f.params if INTEGER.match(t) and KINDS.match(n) and re.search(r"if %s == " % n, f.body)
    ]
    given = [f"{at(f)}: {m.group(0)}" for f in FNS for m in re.finditer(r"[(,]\s*(true|false)\s*[,)]", f.body)]
    return [
        ("`bool` parameters", flag),
        ("of these, those that an `if` asks", switch),
        ("matches on a number", number),
        ("kinds as numbers that an `if` asks", asked),
        ("calls with `true` or `false` as an argument", [" ".join(g.split()) for g in given]),
    ]


# 8
ANSWER = re.compile(r"^(?:abbrev )?(?:pub )?([^\s:=]+) : goal\.(\S+)[^\n]*\n(?:unfolding[^\n]*\n)?\1((?: [^\n=]*)?)=((?:[^\n]*\n)(?:[ ][^\n]*\n|\)\n)*)", re.M)
LEMMA = re.compile(r"^(?:abbrev )?(?:pub )?([^\s:=]+) : ([^\n]*(?:\n +[^\n]*)*)", re.M)


# A statement with its bound names numbered.
def statement(text):
    text, names = " ".join(text.split()), []
    for m in re.finditer(r"[({]((?:[^\s(){}:]+ )+): ", text):
        names += [n for n in m.group(1).split() if n not in names]
    for i, n in enumerate(names):
        text = re.sub(r"(?<![^\s(){}.,])" + re.escape(n) + r"(?![^\s(){}.,])", f"x{i}", text)
    return text


def point_8():
    files = {p: open(p, encoding="utf-8").read() for p in sorted(glob.glob("crates/*/proofs/**/*", recursive=True)) if os.path.isfile(p)}
    by_hand = {p for p in files if os.path.basename(p) in ("Answers.antt", "Invariants.antt")}
    lemma_files = [p for p in files if p not in by_hand and os.path.basename(p) != "Lib.antt"]
    crates = sorted({p.split(os.sep)[1] for p in files})
    answers, only, all_rules = [], [], []
    for p in sorted(by_hand):
        for m in ANSWER.finditer(files[p]):
            place, what = f"{p}: {m.group(1)}", " ".join(m.group(4).split())
            if os.path.basename(p) == "Answers.antt":
                answers.append(place)
            if what == "search rules":
                only.append(place)
            if re.match(r"^\(?search rules(, search rules)*\)?$", what):
                all_rules.append(place)
    lemmas = collections.defaultdict(list)
    for p in lemma_files:
        for m in LEMMA.finditer(files[p]):
            lemmas[statement(m.group(2))].append((p.split(os.sep)[1], f"{p.split(os.sep)[1]} {os.path.basename(p)[:-5]}.{m.group(1)}"))
    every = [n for ns in lemmas.values() for _, n in ns]
    lemmas = {s: ns for s, ns in lemmas.items() if not re.search(r"Type \d$", s)}
    twice = [" = ".join(n for _, n in ns) for s, ns in sorted(lemmas.items()) if len({c for c, _ in ns}) > 1 and "≡" in s]
    alike = collections.defaultdict(list)
    for s, ns in lemmas.items():
        known = {}
        kept = re.compile(r"(x\d+|length|drop|take|Type)$")
        shape = re.sub(r"[A-Za-z_][\w']*", lambda m: m.group(0) if kept.match(m.group(0)) else known.setdefault(m.group(0), f"N{len(known)}"), s)
        if len(shape) > 50:
            alike[shape] += ns
    near = [" = ".join(n for _, n in ns) for _, ns in sorted(alike.items()) if len({c for c, _ in ns}) > 1]
    names = collections.defaultdict(list)
    for ns in lemmas.values():
        for c, n in ns:
            names[n.split(".")[-1]].append(n)
    same = [" = ".join(ns) for n, ns in sorted(names.items()) if len({m.split()[0] for m in ns}) > 1]
    lines = [f"{c}: {sum(t.count(chr(10)) for p, t in files.items() if p.split(os.sep)[1] == c)}" for c in crates]
    return [
        ("lines of crates/*/proofs, by crate", lines),
        ("lines of crates/*/proofs, in all", [""] * sum(t.count("\n") for t in files.values())),
        ("files of crates/*/proofs", list(files)),
        ("files of answers", [p for p in files if os.path.basename(p) == "Answers.antt"]),
        ("files of invariants", [p for p in files if os.path.basename(p) == "Invariants.antt"]),
        ("files of lemmas", lemma_files),
        ("lemmas and definitions in them", every),
        ("answers", answers),
        ("answers that only say `search rules`", only),
        ("answers that say nothing but `search rules`, once or more", all_rules),
        ("lemmas whose statement stands in two crates", twice),
        ("lemmas whose statement does so but for the names of definitions", near),
        ("names of lemmas or definitions that stand in two crates", same),
    ]


# Patterns that look at places of another pattern once more, or at what is no place.
OUTSIDE = {
    "`while`, `loop` and `for`",
    "`while i < n` that steps this `i` by one",
    "these facts, once for each function",
    "lengths tested against a constant at run time",
    "elements of flat rows, `a[2 * k + 1]`",
    "of these, those that an `if` asks",
    "calls with `true` or `false` as an argument",
}


def total(found):
    return sum(len(places) for name, places in found if name not in OUTSIDE)


def main():
    asked = [int(a) for a in sys.argv[1:]]
    for point, title in POINTS.items():
        if asked and point not in asked:
            continue
        found = globals()[f"point_{point}"]()
        print(f"{point}. {title}" + (f": {total(found)}" if point < 8 else ""))
        for name, places in found:
            print(f"   {len(places):5}  {name}")
            if asked:
                for place in places:
                    if place:
                        print(f"            {place}")


if __name__ == "__main__":
    main()
