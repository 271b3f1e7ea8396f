#!/usr/bin/env python3
"""Gives names of their own to the definitions, fields and constructors behind which respell.py put _lem, and spells what it left.

usage: python3 tools/port/choose_names.py      at the top of a checkout that port.py and respell.py have turned

A name is a word of its own in .antt and .rt files, must-fail edits and code spans of .md files. OTHERWISE has the crates in which a
name means another thing. Comments and the reasons of edits that name a law with dashes get its spelling of today.
"""

import glob
import os
import re

NAMES = {
    "refused_with_lem": "refused_case_with",
    "two_faults_lem": "two_fault_listings",
    "gates_known_lem": "gates_are_known",
    "labels_below_lem": "labels_are_below",
    "term_at_lem": "term_is_at",
    "gate_count_lem": "gate_count_is",
    "input_count_lem": "input_count_is",
    "output_count_lem": "output_count_is",
    "gate_kind_lem": "gate_term_kind",
    "input_kind_lem": "input_kind_wrong",
    "labels_from_lem": "labels_start",
    "sizes_fit_lem": "start_sizes_fit",
    "answer_is_lem": "answer_is_size",
    "variable_at_lem": "variable_term_at",
    "box_at_lem": "box_term_at",
    "gate_at_lem": "gate_term_at",
    "boxes_wired_lem": "boxes_are_wired",
    "label_count_lem": "label_count_is",
    "label_kinds_lem": "label_kinds_are",
    "is_value_lem": "found_value",
    "gate_slots_lem": "gate_slot_count",
    "memoryOf": "memory_of",
    "gate-from": "gate_from",
    "None_more": "none_more",
    "All_there": "each_there",
    # The T of a Bool test, for std has another IsTrue. Crate streams, which is younger than these scripts, has std's.
    "IsTrue": "Truth",
}
OTHERWISE = {
    ("check_program", "labels_from_lem"): "labels_from_lem",
    ("listing_check", "sizes_fit_lem"): "sizes_fit_lem",
    ("listing_check", "gate_kind_lem"): "gate_kind_wrong",
    ("streams", "IsTrue"): "IsTrue",
    (None, "IsTrue"): "IsTrue",
}
WORD = re.compile(r"(?<![\w'-])[A-Za-z][\w'→-]*")
# What is written with dashes and names no law.
ENGLISH = set("box-in-box one-label".split())


def read(path):
    with open(path, encoding="utf-8") as f:
        return f.read()


def names_of(text, crate):
    return WORD.sub(lambda m: OTHERWISE.get((crate, m[0]), NAMES.get(m[0], m[0])), text)


def main():
    paths = [p for e in ("antt", "rt") for p in sorted(glob.glob(f"crates/*/*/**/*.{e}", recursive=True)) if "/out/" not in p]
    edits = sorted(glob.glob("crates/*/must-fail/*.edit"))
    texts = {p: names_of(read(p), p.split("/")[1]) for p in paths + edits}
    known = set()
    for p in paths:
        known |= set(re.findall(r"(?<![\w'.])[A-Za-z][\w'→]*_[\w'→]*(?= (?:[^=\n]* )?:)", texts[p]))

    def law(m):
        for new in (m[0].replace("-", "_") + "_lem", m[0].replace("-", "_")):
            if "-" in m[0] and m[0] not in ENGLISH and new in known:
                return new
        return m[0]

    for p in paths + edits:
        if p.endswith(".edit"):
            lines = [l if l.startswith(("file: ", "old: ", "new:")) else WORD.sub(law, l) for l in texts[p].split("\n")]
            texts[p] = "\n".join(lines)
        else:
            mark = "--" if p.endswith(".antt") else "//"
            texts[p] = re.sub(rf"(?m)^ *{mark} .*$", lambda m: WORD.sub(law, m[0]), texts[p])
        if texts[p] != read(p):
            with open(p, "w", encoding="utf-8") as f:
                f.write(texts[p])
    for p in ["README.md", *sorted(glob.glob("docs/*.md"))]:
        if os.path.basename(p) == "PORT.md":
            continue
        new = re.sub(r"`[^`\n]+`", lambda m: names_of(m[0], None), read(p))
        if new != read(p):
            with open(p, "w", encoding="utf-8") as f:
                f.write(new)


main()
