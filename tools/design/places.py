#!/usr/bin/env python3
"""Counts, in crates/*/src (and for point 8 in crates/*/proofs), the places of each point of docs/DESIGN-PASS.md.

usage: python3 tools/design/places.py [--list]   in the repository; --list prints each place
"""
import collections
import glob
import re
import sys

LIST = "--list" in sys.argv


def sources():
    for path in sorted(glob.glob("crates/*/src/*.rt")):
        text = open(path).read()
        cut = text.find("#[cfg(test)]")
        yield path.replace("crates/", "").replace("/src/", ":"), text if cut < 0 else text[:cut]


# A function: where, the comment above it, its name, its parameters, its clauses, its body.
FN = re.compile(
    r"((?:[ \t]*//[^\n]*\n|[ \t]*#\[[^\n]*\n)*)([ \t]*)(?:pub(?:\(crate\))? )?(?:unsafe )?(?:extern \"C\" )?fn (\w+)(?:<[^(]*>)?\("
)


def functions():
    for path, text in sources():
        for m in FN.finditer(text):
            depth, i = 1, m.end()
            while depth:
                depth += {"(": 1, ")": -1}.get(text[i], 0)
                i += 1
            params = text[m.end() : i - 1]
            indent = m.group(2)
            body = re.compile(r"^%s(?:\{|.* \{)$|\{$" % indent, re.M)
            begin = text.find("\n" + indent + "{\n", i)
            line = text.find("\n", i)
            if text[i:line].rstrip().endswith("{"):
                begin = line
            if begin < 0:
                continue
            end = text.find("\n" + indent + "}", begin + 1)
            yield path, m.group(1), m.group(3), params, text[i:begin], text[begin:end]


def point(title, places):
    print("%-78s %4d" % (title, len(places)))
    if LIST:
        for place in places:
            print("    " + place)


FUNCTIONS = list(functions())

# 1
enums, two = [], []
for path, text in sources():
    for m in re.finditer(r"^(?:pub )?enum (\w+) \{\n(.*?)^\}", text, re.M | re.S):
        variants = re.findall(r"^    (\w+)", m.group(2), re.M)
        if len(variants) == 2:
            two.append("%s %s {%s}" % (path, m.group(1), ", ".join(variants)))
point("1a own enums of two variants (Option's, Result's or ControlFlow's shape)", two)
absent = re.compile(
    r"one more than|\b(?:or|answers|else) 0\b|; 0 where|0 where (?:there is none|none)|NO_WIRE where|NO_ITEM|NO_LABEL|NONE where", re.I
)
point(
    "1b functions with a number that stands for none",
    ["%s %s" % (p, n) for p, c, n, a, k, b in FUNCTIONS if absent.search(c + b) and "usize" in k + a],
)
point(
    "1c structs and enums with a flag, or a field whose number says none",
    [
        "%s %s" % (path, m.group(1))
        for path, text in sources()
        for m in re.finditer(r"^(?:pub )?(?:struct|enum) (\w+)[^{]*\{\n(.*?)^\}", text, re.M | re.S)
        if re.search(r"(?:two|has_\w+|is_\w+): bool|unused: usize", m.group(2))
    ],
)
point(
    "1d numbers that name kinds",
    [
        "%s %s" % (path, m.group(1))
        for path, text in sources()
        for m in re.finditer(r"const ([A-Z_]+): (?:usize|u8) = (?:\d+);", text)
        if "kinds" in path or re.search(r"_ITEM$|_INPUT$|^(?:ONLY|FIRST|SECOND|OPENED|INIT|DISCARD|CCX)$", m.group(1))
    ],
)

# 2: functions whose bodies are equal but for names of constants and of what is called, and numbers.
groups = collections.defaultdict(list)
for p, c, n, a, k, b in FUNCTIONS:
    bones = re.sub(r"//[^\n]*", "", b)
    bones = re.sub(r"\b[A-Z][A-Z_0-9]+\b|\b\d+\b|b'.'|b\"[^\"]*\"", "#", bones)
    bones = re.sub(r"\b[\w:]+\(", "f(", bones)
    bones = re.sub(r"\b(?!let\b|mut\b|if\b|else\b|for\b|in\b|while\b|match\b|return\b|true\b|false\b|as\b|usize\b|u8\b|f\b)[a-z_]\w*\b", "x", bones)
    bones = re.sub(r"\s+", " ", bones)
    if len(bones) > 60:
        groups[bones].append("%s %s" % (p, n))
twins = [" ~ ".join(g) for g in groups.values() if len(g) > 1]
point("2 groups of functions that are equal but for names, constants and types", twins)

# 3
point(
    "3a while loops",
    ["%s %s" % (p, n) for p, c, n, a, k, b in FUNCTIONS for _ in re.findall(r"^\s+while ", b, re.M)],
)
point(
    "3b of these, loops that count an index (`+= 1;` or `-= 1;` in the function)",
    [
        "%s %s" % (p, n)
        for p, c, n, a, k, b in FUNCTIONS
        for _ in re.findall(r"^\s+while ", b, re.M)
        if re.search(r"[+-]= 1;", b)
    ],
)

# 4
point(
    "4 comparisons, copies and conversions written by hand",
    [
        "%s %s" % (p, n)
        for p, c, n, a, k, b in FUNCTIONS
        if re.search(r"same = same &|^\s+\w+::\w+ => (?:true|false),", b, re.M)
        or re.fullmatch(r"\s*\{?\s*\w+ as usize\s*", b)
        or re.search(r"saturating_sub$|^wide$|^clear$|^number_of$|^place_of$|^copy_\w+$|^accepted$|^refusal_of_\w+$|^put_slot$|^put_word$|^put_bytes$", n)
    ],
)

# 5
atoms = collections.Counter()
for p, c, n, a, k, b in FUNCTIONS:
    seen = set()
    for m in re.finditer(r"requires(?: \w+)? \{ (.*?) \}\n", k + "\n", re.S):
        for atom in re.split(r" × ", re.sub(r"\s+", " ", m.group(1))):
            seen.add(atom.strip("() "))
    atoms.update(seen)
point("5a facts that are required by three or more functions", ["%d: %s" % (v, f) for f, v in atoms.most_common() if v >= 3])
together = collections.Counter()
for p, c, n, a, k, b in FUNCTIONS:
    names = [re.sub(r"\s+", " ", x).strip() for x in re.findall(r"(\w+: [^,]+)", a)]
    together.update(set(zip(names, names[1:])))
point(
    "5b pairs of parameters, one behind the other, of five or more functions",
    ["%d: %s" % (v, ", ".join(f)) for f, v in together.most_common() if v >= 5],
)

# 6
point(
    "6 parameters for a buffer and for its length",
    [
        "%s %s" % (p, n)
        for p, c, n, a, k, b in FUNCTIONS
        if re.search(r"\[u8\],\s*(?:count|size|length|n): usize", a)
    ],
)

# 7
point(
    "7 a match on which step to run: arms that call functions",
    [
        "%s %s" % (p, n)
        for p, c, n, a, k, b in FUNCTIONS
        for m in re.findall(r"match (\w+) \{\n(.*?)\n\s*\}\n", b + "\n}\n", re.S)
        if len(re.findall(r"^\s+\w+::\w+(?:\([^)]*\))? => \w+\(", m[1], re.M)) > 1
    ],
)

# 8
answers = []
for path in sorted(glob.glob("crates/*/proofs/**/Answers.antt", recursive=True)):
    answers += ["%s %s" % (path, x) for x in re.findall(r"^pub (\S+) : goal\.", open(path).read(), re.M)]
point("8a answers", answers)
found = []
for path in sorted(glob.glob("crates/*/proofs/**/Answers.antt", recursive=True)):
    found += ["%s %s" % (path, x) for x in re.findall(r"^(\S+) (?:[a-z] )*c = search rules$", open(path).read(), re.M)]
point("8b of these, `search rules` alone", found)
