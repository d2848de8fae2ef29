#!/usr/bin/env python3
"""Brings the names of definitions and lemmas from camel case to snake case, once, after the script port.py of the kit.

usage: python3 tools/respell_names.py      at the top of the repository

A name is respelled where specs/ or proofs/ of a crate declares it in camel case with a small first letter. It is respelled in
specs/, proofs/, must-fail/ and, in src/, wherever it stands (no name of the code is in camel case), and on the pages.
LEMMAS has the lemmas that would fall together with the definition that they are about: they get '_lem'.
"""

import glob
import re

DECLARED = re.compile(r"^\s*(?:(?:abbrev|unfoldable|pub|mutual)\s+)*(?:(?:record|data)\s+)?(?:pub )?([^\s:(){}]+)\s*(?:[({].*)?:.*$")
HUMP = re.compile(r"(?<=[a-z0-9])([A-Z])")

LEMMAS = {
    "first_piece": ["program_section/specs/Pieces.antt", "program_section/specs/Short.antt", "program_section/specs/Window.antt"],
    "imm_bytes": ["insn/specs/Slot.antt"],
    "map_at": ["patch_checks/specs/Checks.antt", "patch_data/specs/Acts.antt"],
    "no_target": ["parse_first/specs/Targets.antt"],
    "of_entry": ["guarantees/specs/RefusalPlaces.antt"],
    "read_back": ["guarantees/specs/ReadBackImage.antt"],
    "rest_ok": ["deposit_rules/specs/Rules.antt"],
    "row_made": ["rows_functions/specs/Rows.antt", "rows_functions/proofs/row/Proof.antt"],
}


def files(*patterns):
    return sorted(f for p in patterns for f in glob.glob(p, recursive=True))


def snake(name):
    if name.startswith("getD"):
        name = "get_or" + name[4:]
    return HUMP.sub(lambda m: "_" + m.group(1).lower(), name)


def declared():
    names = set()
    for f in files("crates/*/specs/**/*.antt", "crates/*/proofs/**/*.antt"):
        for line in open(f, encoding="utf-8"):
            m = DECLARED.match(line)
            if m and not line.startswith("use") and not line.lstrip().startswith("--"):
                name = m.group(1)
                if re.match(r"^[a-z].*[A-Z]", name):
                    names.add(name)
    return names


def main():
    table = {n: snake(n) for n in declared()}
    word = re.compile(r"(?<![\w'-])(" + "|".join(re.escape(n) for n in sorted(table, key=len, reverse=True)) + r")(?![\w'∈-])")
    for name, where in LEMMAS.items():
        for w in where:
            path = "crates/" + w
            with open(path, encoding="utf-8") as f:
                text = f.read()
            with open(path, "w", encoding="utf-8") as f:
                f.write(re.sub(rf"(?<![\w'-]){name}(?![\w'-])", name + "_lem", text))
    pages = files("crates/*/specs/**/*.antt", "crates/*/proofs/**/*.antt", "crates/*/src/**/*.rt", "crates/*/must-fail/*.edit", "*.md", "docs/**/*.md")
    for path in pages:
        with open(path, encoding="utf-8") as f:
            text = f.read()
        new = word.sub(lambda m: table[m.group(1)], text)
        if new != text:
            with open(path, "w", encoding="utf-8") as f:
                f.write(new)
    by_new = {}
    for old, new in table.items():
        by_new.setdefault(new, []).append(old)
    for new, olds in by_new.items():
        if len(olds) > 1:
            print("fall together:", new, olds)
    print(len(table), "names respelled")


main()
