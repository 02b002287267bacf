#!/usr/bin/env python3
"""Spells this repository's own definitions, record fields and lemmas in snake case, in every .antt, .rt and .edit file and in the pages that name them.

usage: python3 tools/respell.py       once, at the top, on what port.py of the kit left
       python3 tools/respell.py --said  the same without writing: prints each old name with its new one
"""
import collections
import os
import re
import sys

NAME = r"[A-Za-z_][A-Za-z0-9_'-]*"
CAMEL = re.compile(r"[a-z][a-z0-9]*[A-Z][A-Za-z0-9]*$")
# Rattle makes a module `specs.contracts`, so no file of specs/ may be called Contracts.
FILES = {"crates/replay/specs/Contracts.antt": "crates/replay/specs/Promises.antt"}
PATHS = {"Rattle.replay.specs.Contracts": "Rattle.replay.specs.Promises", "specs/Contracts.antt": "specs/Promises.antt"}
# Names that would fall together with a field of a record, and one that is declared on two lines.
APART = {"getD-tab": "get_or-tab", "tab-getD": "tab-get_or", "getD-view": "get_or-view", "noneLeft": "is_none_left", "sendersLong": "senders_len", "descriptionLong": "description_long"}
# Lemmas that the kit's table had spelled as a definition is spelled now: such a lemma ends in `_lem`. One row for each file that has it.
LEMMAS = {
    "crates/lldpdu/proofs/RowsLaws.antt": ["later_rows"],
    "crates/strings/proofs/TextLaws.antt": ["left_out"],
    "crates/strings/proofs/unprintable/Proof.antt": ["left_out"],
}


def snake(name):
    return re.sub(r"(?<=[a-z0-9])[A-Z]", lambda m: "_" + m[0].lower(), name).replace("-", "_")


def files(*folders):
    for folder in folders:
        for here, dirs, names in os.walk(folder):
            dirs[:] = sorted(d for d in dirs if d not in ("out", "target", ".git"))
            for n in sorted(names):
                yield os.path.join(here, n)


def read(path):
    with open(path, encoding="utf-8") as f:
        return f.read()


def code(text):
    return re.sub(r"(--|//).*$", "", text, flags=re.M)


def names():
    """Each old name with its new one: lower names with a capital inside that an .antt file declares, and names with a dash that a file of specs/ declares."""
    found = {}
    for path in files("crates"):
        if path.endswith(".antt"):
            declared = re.findall(r"(?:^|[\s({λ])(" + NAME + r")\s*:", code(read(path)), re.M)
            for n in declared:
                if CAMEL.match(n) or ("-" in n and "/specs/" in path):
                    found[n] = snake(n)
    found.update(APART)
    return found


def main():
    turned = names()
    back = collections.defaultdict(list)
    for old, new in turned.items():
        back[new].append(old)
    both = {new: olds for new, olds in back.items() if len(olds) > 1}
    if both:
        raise SystemExit(f"these fall together: {both}")
    if sys.argv[1:] == ["--said"]:
        for old in sorted(turned):
            print(old, turned[old])
        return
    for old, new in FILES.items():
        if os.path.exists(old):
            os.rename(old, new)
    pages = [p for p in files("docs") if p.endswith(".md") and "/landings/" not in p] + ["README.md", "tests/promises"]
    for path in [*files("crates"), *pages]:
        if path in pages or path.endswith((".antt", ".rt", ".edit")):
            text = was = read(path)
            for name in LEMMAS.get(path, []):
                text = re.sub(r"(?<![A-Za-z0-9_'-])" + name + r"(?![A-Za-z0-9_'-])", name + "_lem", text)
            text = re.sub(NAME, lambda m: turned.get(m[0], m[0]), text)
            for old, new in PATHS.items():
                text = text.replace(old, new)
            if path == "crates/replay/specs/Lib.antt":
                text = text.replace("pub mod Contracts", "pub mod Promises")
            if text != was:
                with open(path, "w", encoding="utf-8") as f:
                    f.write(text)


main()
