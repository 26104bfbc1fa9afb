#!/usr/bin/env python3
"""Spells the repository's own names as the library does: functions, lemmas, fields and constructors in snake case.

usage: tools/respell.py FOLDER..   in each FOLDER, files .antt, .rt, .edit and .md are rewritten in place

A name is turned if it begins with a small letter and has a capital: `withPending` becomes `with_pending`. Each part of a name with dashes
is turned by itself. A lemma that would then have its function's name gets `_lem`. Names of Rust code, types and modules have no such form
and stay; so do paths of files.
"""

import os
import re
import sys

NAME = re.compile(r"(?<![A-Za-z0-9_'◌ℕℤ₀-₉/-])[a-z][A-Za-z0-9_'ℕℤ₀-₉-]*")
CAPITAL = re.compile(r"(?<=[a-z0-9])([A-Z])")
# Lemmas (and one hypothesis) that were called like their function, with a dash or an underscore.
LEMMAS = "goes_on name_in no_symbol read_next rows_short in_order or_later found_number starts_fit same_bytes"
LEMMA = re.compile(r"(?<![A-Za-z0-9_'.-])(" + "|".join(LEMMAS.split()) + r")(?![A-Za-z0-9_'-])")


def part(word):
    return CAPITAL.sub(lambda m: "_" + m[1].lower(), word) if word[:1].islower() else word


def turned(name):
    return "-".join(part(w) for w in name.split("-"))


def respell(text, antt):
    if antt:
        text = LEMMA.sub(r"\1_lem", text)
    return NAME.sub(lambda m: turned(m[0]), text)


def main(folders):
    for top in folders:
        for folder, dirs, files in os.walk(top):
            dirs[:] = sorted(d for d in dirs if d not in ("out", ".git", "target"))
            for f in sorted(files):
                if not f.endswith((".antt", ".rt", ".edit", ".md")):
                    continue
                path = os.path.join(folder, f)
                with open(path, encoding="utf-8") as it:
                    old = it.read()
                new = respell(old, f.endswith(".antt"))
                if new != old:
                    with open(path, "w", encoding="utf-8") as it:
                        it.write(new)


if __name__ == "__main__":
    main(sys.argv[1:])
