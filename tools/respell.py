#!/usr/bin/env python3
"""Brings the repository's own definitions to snake case: words as readTerm become read_term.

usage: python3 tools/respell.py [--show]     at the top of the repository, once, after port.py

Types, modules and whatever begins with a capital stay; so do dashes, which join the parts of a lemma's name.
Names that would fall together with another name of the same file are told, and get the name in OTHERS.
"""
import os
import re
import sys

TOKEN = re.compile(r"[A-Za-z_\u0370-\u03ff\u2100-\u214f][\w'\u2070-\u209f-]*")
CAMEL = re.compile(r"^[a-z][a-z0-9]*[A-Z]")
# A name in snake case would be that of a function of src or of a word beside it.
OTHERS = {
    "isNormal": "is_normal_term",
    "isStraight": "is_straight_term",
    "letPair": "let_a_pair",
    "headAt": "head_by_tag",
    "formulaText": "text_of_formula",
    "nodesOf": "node_count_of",
    "lowerByte": "lower_of",
    "letterTable": "table_of_letters",
    "isWord": "is_a_word",
    "usedIn": "used_bytes_in",
    "termAfter": "term_left",
    "sizeWrong": "is_size_wrong",
    "signTag": "tag_of_sign",
    "scratchAfter": "scratch_left",
    "ruleNumber": "number_of_rule",
    "rowMade": "made_row",
    "refusedEnd": "end_refused",
    "planWith": "plan_by",
    "pastTag": "reached_past_tag",
    "pastByte": "reached_past_byte",
    "openBlocks": "opened_blocks",
    "onePart": "single_part",
    "noCounts": "zero_counts",
    "longOf": "length_of_word",
    "joinedBy": "joined_runs",
    "headWrong": "is_head_wrong",
    "firstPart": "part_first",
    "firstFault": "fault_first",
    "cutOn": "cut_upon",
    "comparedByte": "byte_compared",
    "carriedBy": "carried_of",
    "blocksFor": "block_count_for",
}
# Words that are not definitions: fields and modules that Rattle makes.
KEPT = set()


def piece(p):
    if not CAMEL.match(p):
        return p
    p = re.sub(r"([a-z0-9])([A-Z])", r"\1_\2", p)
    return re.sub(r"([A-Z])([A-Z][a-z])", r"\1_\2", p).lower()


def name(t):
    if t in KEPT:
        return t
    if t in OTHERS:
        return OTHERS[t]
    return "".join(q if q in "-_" else piece(q) for q in re.split(r"([-_])", t))


def texts(root):
    for folder, dirs, files in os.walk(root):
        dirs[:] = sorted(d for d in dirs if d != "out")
        for f in sorted(files):
            if f.endswith((".antt", ".rt", ".edit")):
                yield os.path.join(folder, f)


def main():
    show = "--show" in sys.argv
    for path in texts("crates"):
        with open(path, encoding="utf-8") as f:
            text = f.read()
        here = {m.group() for m in TOKEN.finditer(text)}
        for t in sorted(here):
            n = name(t)
            if n != t and n in here:
                print(f"{path}: {t} and {n} fall together")
        new = TOKEN.sub(lambda m: name(m.group()), text)
        if new != text and not show:
            with open(path, "w", encoding="utf-8") as f:
                f.write(new)


main()
