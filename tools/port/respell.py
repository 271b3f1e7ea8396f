#!/usr/bin/env python3
"""Brings a checkout that the port.py of the kit has turned to this kit's spelling and places.

usage: python3 tools/port/respell.py [--list]      at the top of the checkout, once, right after port.py

1. Laws and theorems stand in proofs/: specs/Laws and specs/Theorems of each crate move there, and every path follows.
2. Names of the repository's own definitions, lemmas, fields and constructors, and of local variables, are in snake case:
   wordsAt and words-at become words_at. Where two names would fall together, the lemma gets _lem (local names: _is).
   Names of libraries, names that Rattle makes, and types stay.
Texts: .antt and .rt files, must-fail edits, and code spans of .md files. --list prints each name that changes, and where two fell together.
"""

import collections
import glob
import os
import re
import sys

WORD = re.compile(r'[^\s(){}.;,@"«»]+')
QUIET = re.compile(r'"(?:[^"\\\n]|\\.)*"|(?<![^\s(){}.;,@"«»])--[^\n]*|\{-.*?-\}', re.S)
# Words with a dash that comments use as plain English.
ENGLISH = set(
    "one-gate one-label left-over left-to-right right-to-left big-step read-back not-found at-most no-longer two-gate box-in-box "
    "16-bit wire-type".split()
)
MOVED = ("Laws", "Theorems")
# Names that port.py turned already, and that the name of a definition would meet: outside paths, these are spelled anew.
MET = {
    name: name + "_lem"
    for name in "as_function at_most_two closed_at is_digit one_value read_whole slots_read too_short".split()
} | {"term_of": "term_in"}
# Definitions whose name in snake case is that of a constructor.
CHOSEN = {"boxOf": "type_of_box", "oneMore": "one_more_than"}


def texts(*patterns):
    for pattern in patterns:
        yield from sorted(glob.glob(pattern, recursive=True))


def read(path):
    with open(path, encoding="utf-8") as f:
        return f.read()


def write(path, text):
    if read(path) != text:
        with open(path, "w", encoding="utf-8") as f:
            f.write(text)


def move():
    """specs/Laws and specs/Theorems to proofs/, with the lines that declare them."""
    for crate in sorted(os.listdir("crates")):
        here = f"crates/{crate}"
        there = [m for m in MOVED if os.path.exists(f"{here}/specs/{m}") or os.path.exists(f"{here}/specs/{m}.antt")]
        if not there:
            continue
        os.makedirs(f"{here}/proofs", exist_ok=True)
        for name in there:
            for end in ("", ".antt"):
                if os.path.exists(f"{here}/specs/{name}{end}"):
                    os.rename(f"{here}/specs/{name}{end}", f"{here}/proofs/{name}{end}")
        lib = read(f"{here}/specs/Lib.antt").split("\n")
        lines = [line for line in lib if re.fullmatch(r"(pub )?mod (\w+)", line) and line.split()[-1] in there]
        write(f"{here}/specs/Lib.antt", "\n".join(line for line in lib if line not in lines))
        path = f"{here}/proofs/Lib.antt"
        old = read(path).rstrip("\n").split("\n") if os.path.exists(path) else []
        with open(path, "w", encoding="utf-8") as f:
            f.write("\n".join([*old, *lines]) + "\n")
    for path in texts("crates/**/*.antt", "crates/**/*.rt"):
        write(path, re.sub(r"(Rattle\.\w+)\.specs\.(Laws|Theorems)(?=[.;\s])", r"\1.proofs.\2", read(path)))
    for path in texts("crates/*/must-fail/*.edit"):
        text = re.sub(r"Rattle·(\w+)·specs\.specs\.", r"Rattle.\1.specs.", read(path))
        text = re.sub(r"(Rattle\.\w+)\.specs\.(Laws|Theorems)(?=[.;\s])", r"\1.proofs.\2", text)
        write(path, re.sub(r"\bspecs/(Laws|Theorems)\b", r"proofs/\1", text))
    for path in texts("crates/**/*.rt", "crates/**/*.antt", "*.md", "docs/*.md", "crates.txt"):
        write(path, re.sub(r"\bspecs/(Laws|Theorems)\b", r"proofs/\1", read(path)))


def snake(name):
    if re.match(r"[◌→+μ]*[a-z]", name):
        name = re.sub(r"(?<=[a-z0-9'])[A-Z]", lambda m: "_" + m[0].lower(), name)
    return name.replace("-", "_")


def is_old(name):
    return bool(
        re.search(r"[A-Za-z]", name)
        and (re.search(r"[\w'₀-₉◌→⇓]-[\w◌→]", name) or re.match(r"[◌→]*[a-z][\w'→]*?[a-z0-9'][A-Z]", name))
    )


def is_function_proof(path):
    return path.endswith("/Proof.antt")


def table():
    """Each name that changes with its new spelling, the fields, and what fell together."""
    own = set(os.listdir("crates"))
    library, declared, fields, found = set(), set(), set(), collections.Counter()
    plain = set()
    for path in texts("crates/**/*.antt"):
        text = QUIET.sub(" ", read(path))
        for m in re.finditer(r"^\s*(?:pub )?use ([^\s{]+?)\.?\{([^}]*)\}", text, re.M):
            step = m[1].split(".")
            if step[0] == "Rattle" and step[1] in own:
                continue
            library |= {it.strip().split(" as ")[0].strip() for it in m[2].split(",")}
        if is_function_proof(path):
            continue
        for m in re.finditer(r"^ *(?:(?:pub|abbrev|unfoldable|opaque|data|record) )*((?:[^\s(){}.;,@\"«»:]+ )*[^\s(){}.;,@\"«»:]+) :(?= |$)", text, re.M):
            declared |= set(m[1].split())
        for m in re.finditer(r"^ +pub (\S+) :", text, re.M):
            fields.add(m[1])
        for m in WORD.finditer(text):
            found[m[0]] += 1
            if text[m.start() - 1 : m.start()] == ".":
                fields.add(m[0])
    for path in texts("crates/**/*.rt"):
        plain |= set(re.findall(r"[a-z_][a-z0-9_]*", read(path)))
    names = {w for w in found if is_old(w) and w not in library}
    stay = {w for w in found if w not in names} | library
    turned, together = {}, []
    # Definitions before lemmas before local names.
    order = lambda w: (0 if re.search(r"[a-z'][A-Z]", w) and w in declared else 1 if w in declared else 2, w)
    taken = set(stay)
    for name, new in MET.items():
        assert new not in taken, new
        taken.discard(name)
    for name in sorted(names, key=order):
        new = CHOSEN.get(name, snake(name))
        if new in taken:
            end = "_lem" if name in declared else "_is"
            together.append((name, new, new + end))
            new += end
            assert new not in taken, (name, new)
        taken.add(new)
        turned[name] = new
    return turned, declared, together, plain


def turned_code(text, names, after_dot=True):
    def one(m):
        if m.start() and text[m.start() - 1] == "." and not after_dot:
            return m[0]
        return names.get(m[0], m[0])

    return WORD.sub(one, text)


def turned_comment(text, names, declared):
    def one(m):
        w = m[0]
        bare = w.strip("`:*")
        if bare not in names or bare not in declared or (bare in ENGLISH or "-" in bare and not re.search(r"specs/|proofs/|`|laws?\b|lemma", text)):
            return w
        return w.replace(bare, names[bare])

    return WORD.sub(one, text)


def turned(text, names, declared, quiet, after_dot=True):
    out, at = [], 0
    for m in quiet.finditer(text):
        out += [turned_code(text[at : m.start()], names, after_dot), m[0] if m[0][0] == '"' else turned_comment(m[0], names, declared)]
        at = m.end()
    return "".join(out) + turned_code(text[at:], names, after_dot)


RT_QUIET = re.compile(r'//[^\n]*|b?"(?:\\.|[^"\\])*"')


def main(argv):
    if not os.path.isdir("crates/rules/specs/Laws") and "--list" not in argv:
        raise SystemExit("respell: run it once, at the top of a checkout that port.py has turned")
    if "--list" not in argv:
        move()
    names, declared, together, plain = table()
    if "--list" in argv:
        for name in sorted(names):
            print(f"{name}\t{names[name]}")
        for it in together:
            print("together:", *it)
        for name in sorted(names):
            if names[name] in plain and name in declared:
                print("also in Rust:", name, names[name])
        return
    for path in texts("crates/**/*.antt"):
        if not is_function_proof(path):
            write(path, turned(read(path), MET, set(MET), QUIET, False))
    for path in texts("crates/**/*.antt"):
        write(path, turned(read(path), names, declared, QUIET, not is_function_proof(path)))
    for path in texts("crates/**/*.rt"):
        write(path, turned(read(path), names, declared, RT_QUIET))
    for path in texts("crates/*/must-fail/*.edit"):
        lines = read(path).split("\n")
        for i, line in enumerate(lines):
            if line.startswith(("old: ", "new: ")):
                lines[i] = line[:5] + turned_code(line[5:].replace("′", "'"), names)
            elif not line.startswith("file: "):
                lines[i] = turned_comment(line, names, declared)
        write(path, "\n".join(lines))
    for path in texts("README.md", "docs/*.md"):
        write(path, re.sub(r"`[^`\n]+`", lambda m: turned_code(m[0].replace("`", " ` "), names).replace(" ` ", "`"), read(path)))


main(sys.argv[1:])
