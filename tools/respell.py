#!/usr/bin/env python3
"""Brings the repository's own definitions and lemmas to snake case, once, after the toolchain's own port.

usage: python3 tools/respell.py, at the top of the repository. names.txt beside it lists each old name with its new one.

Functions of src/, exported names, strings, inputs and outputs keep their names. A lemma that would fall together with the
definition that it is about gets `_lem`. The crate `unicode` becomes `scalars`, since a library has that name.
"""

import glob
import os
import re

HERE = os.path.dirname(os.path.realpath(__file__))
END = r"(?![^\s(){}\[\];,.\"`|])"
BEGIN = r"(?<![^\s(){}\[\];,.\"`←λ¬|])"


def names():
    with open(os.path.join(HERE, "names.txt"), encoding="utf-8") as f:
        return dict(line.split() for line in f if line.strip())


NAMES = names()
ALL = re.compile(BEGIN + "(" + "|".join(map(re.escape, sorted(NAMES, key=len, reverse=True))) + ")" + END)
CAMEL = re.compile(r"(?<![\w'·-])(" + "|".join(map(re.escape, sorted((n for n in NAMES if "-" not in n), key=len, reverse=True))) + r")(?![\w'·-])")
STRING = re.compile(r'"[^"\n]*"')
SPEC = re.compile(r"(?<![\w-])([a-z0-9]+(?:[-_][a-z0-9]+)*)[-_]spec(?![\w-])")
CRATE = [
    (re.compile(r"\bunicode::"), "scalars::"),
    (re.compile(r"\bRattle\.unicode\."), "Rattle.scalars."),
    (re.compile(r"\bcrates/unicode\b"), "crates/scalars"),
    (re.compile(r"\bunicode/(?=specs|src|proofs|must-fail)"), "scalars/"),
]


def new(m):
    return NAMES[m.group(1)]


def crate(text):
    for old, to in CRATE:
        text = old.sub(to, text)
    return text


def outside_strings(text, turn):
    parts, at = [], 0
    for m in STRING.finditer(text):
        parts += [turn(text[at : m.start()]), m.group(0)]
        at = m.end()
    return "".join(parts + [turn(text[at:])])


def antt_line(line, proof):
    code, mark, comment = line, "", ""
    m = re.search(r"(?:^|\s)--(?=\s|-)", line)
    if m:
        code, comment = line[: m.start()], line[m.start() :]
    code = outside_strings(code, lambda t: ALL.sub(new, t))
    if proof:
        code = SPEC.sub(lambda m: m.group(1).replace("-", "_") + "_spec", code)
    return code + mark + CAMEL.sub(new, comment)


def antt(text, proof):
    return "\n".join(antt_line(line, proof) for line in text.split("\n"))


def rust(text):
    out = []
    for line in text.split("\n"):
        if line.lstrip().startswith("ghost use"):
            line = ALL.sub(new, line)
        out.append(outside_strings(line, lambda t: CAMEL.sub(new, t)))
    return "\n".join(out)


# Types that hold no reference are copied, as they always were.
def copied(text):
    def turn(m):
        return m.group(0) if "&" in m.group(0) else m.group(0).replace("#[derive(Drop)]", "#[derive(Clone, Copy)]", 1)

    return re.sub(r"#\[derive\(Drop\)\]\n(?:pub )?(?:struct|enum) [^{;]*(?:\{.*?\n\}|;)", turn, text, flags=re.S)


def edit(text):
    out = []
    for line in text.split("\n"):
        out.append(outside_strings(line, lambda t: ALL.sub(new, t)))
    return "\n".join(out)


def page(text):
    def turn(m):
        return "`" + ALL.sub(new, m.group(1)) + "`"

    return crate(re.sub(r"`([^`\n]*)`", turn, text)).replace("`unicode`", "`scalars`")


def write(path, turn):
    with open(path, encoding="utf-8") as f:
        old = f.read()
    text = turn(old)
    if text != old:
        with open(path, "w", encoding="utf-8") as f:
            f.write(text)


def main():
    if os.path.isdir("crates/unicode"):
        os.rename("crates/unicode", "crates/scalars")
    write("crates.txt", lambda t: re.sub(r"\bunicode\b", "scalars", t))
    for path in sorted(glob.glob("crates/*/**/*.antt", recursive=True)):
        proof = os.path.basename(path) == "Proof.antt"
        write(path, lambda t: antt(crate(t), proof))
    for path in sorted(glob.glob("crates/*/src/*.rt")):
        write(path, lambda t: copied(rust(crate(t))))
    for path in sorted(glob.glob("crates/*/must-fail/*.edit")):
        write(path, lambda t: edit(crate(t)))
    for path in ["README.md", *(p for p in sorted(glob.glob("docs/*.md")) if p != "docs/LANDINGS.md"), *sorted(glob.glob("include/*.h"))]:
        write(path, page)


main()
