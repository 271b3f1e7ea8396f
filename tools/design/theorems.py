#!/usr/bin/env python3
"""The statements of proofs/Theorems and the names of proofs/Laws, beside those of another commit.

usage: python3 tools/design/theorems.py COMMIT   in the repository
Prints each theorem whose statement is another, old and new, and those that are gone or new; of laws, the names that are gone, whose
statement is another, or new. A statement is compared without the breaks of its lines.
"""
import re
import subprocess
import sys

COMMIT = sys.argv[1]


def git(*words):
    return subprocess.run(["git", *words], capture_output=True, text=True, check=True).stdout


def statements(text):
    found = {}
    lines = text.split("\n")
    for i, line in enumerate(lines):
        m = re.match(r"( *)(?:abbrev |unfoldable )*pub (?:record |data )?([^\s:({]+)(.*)", line)
        if not m or m.group(2) in ("use", "mod"):
            continue
        said, j = [m.group(3).strip()], i + 1
        while j < len(lines) and lines[j].strip() and not re.match(
            r"%s(?:unfolding |%s |%s$|where|pub |--)" % (m.group(1), re.escape(m.group(2)), re.escape(m.group(2))), lines[j]
        ):
            said.append(lines[j].strip())
            j += 1
        found[m.group(2)] = re.sub(r"\s+", " ", " ".join(said)).strip()
    return found


def all_of(kind, read, paths):
    found = {}
    for path in paths:
        m = re.match(r"crates/(\w+)/proofs/%s/.*\.antt$" % kind, path)
        if m:
            for name, said in statements(read(path)).items():
                found[m.group(1), name] = said
    return found


old_paths = git("ls-tree", "-r", "--name-only", COMMIT, "crates").split("\n")
new_paths = git("ls-files", "crates").split("\n")
for kind in ("Theorems", "Laws"):
    old = all_of(kind, lambda p: git("show", COMMIT + ":" + p), old_paths)
    new = all_of(kind, lambda p: open(p, encoding="utf-8").read(), new_paths)
    gone = sorted(k for k in old if k not in new)
    more = sorted(k for k in new if k not in old)
    other = sorted(k for k in old if k in new and old[k] != new[k])
    print("%s: %d -> %d; the same %d, another statement %d, gone %d, new %d" % (
        kind, len(old), len(new), sum(1 for k in old if new.get(k) == old[k]), len(other), len(gone), len(more)))
    for title, keys in (("gone", gone), ("new", more)):
        by = {}
        for crate, name in keys:
            by.setdefault(crate, []).append(name)
        for crate in sorted(by):
            print("  %s, %s: %s" % (title, crate, ", ".join(by[crate])))
    if kind == "Theorems":
        for k in other:
            print("  %s %s" % k)
            print("    - " + old[k])
            print("    + " + new[k])
    else:
        by = {}
        for crate, name in other:
            by.setdefault(crate, []).append(name)
        for crate in sorted(by):
            print("  another statement, %s: %s" % (crate, ", ".join(by[crate])))
