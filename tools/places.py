#!/usr/bin/env python3
"""Lists the places in crates/*/src that docs/DESIGN-PASS.md counts, point by point: tools/places.py [POINT..].

It goes by the text alone, so it lists more than there is to change; the page says which of its lines are places.
"""
import collections
import glob
import re
import sys

FILES = sorted(glob.glob("crates/*/src/**/*.rt", recursive=True))
TEXTS = {path: open(path, encoding="utf-8").read() for path in FILES}
FUNCTION = re.compile(r"^ *(?:pub(?:\(crate\))? )?(?:extern \"C\" )?fn (\w+)(.*?)^ *\{$(.*?)^ *\}$", re.M | re.S)


def lines_with(pattern):
    """Returns each place of a pattern as file, line and text."""
    for path, text in TEXTS.items():
        for number, line in enumerate(text.split("\n"), 1):
            if not line.lstrip().startswith("//") and re.search(pattern, line):
                yield f"{path}:{number}: {line.strip()}"


def functions():
    """Returns each function: its file, name, signature with clauses, and body."""
    for path, text in TEXTS.items():
        for found in FUNCTION.finditer(text):
            yield path, *found.groups()


def enums():
    """Point 1: enums of two variants, and those that have a refusal among others."""
    for path, text in TEXTS.items():
        for name, body in re.findall(r"^(?:pub(?:\(crate\))? )?enum (\w+) \{(.*?)^\}", text, re.M | re.S):
            variants = re.findall(r"^    (\w+)", body, re.M)
            if len(variants) == 2 or "Refused" in variants:
                yield f"{path}: enum {name}: {', '.join(variants)}"


def twins():
    """Point 2: functions of the same shape, where names and numbers are not looked at."""
    kept = {"if", "else", "match", "let", "mut", "while", "loop", "for", "in", "return", "as", "true", "false", "break", "continue"}
    shapes = collections.defaultdict(list)
    for path, name, _, body in functions():
        words = re.findall(r"\w+|[^\w\s]", re.sub(r"//.*", "", body))
        shape = " ".join(it if it in kept or not re.match(r"\w", it) else "x" for it in words)
        if len(words) > 14:
            shapes[shape].append(f"{path}: {name}")
    for group in shapes.values():
        if len(group) > 1:
            yield "; ".join(group)


def facts():
    """Point 5: facts that stand in three requires or more, and parameters that travel together in three functions or more."""
    asked, together = collections.Counter(), collections.Counter()
    for _, _, head, _ in functions():
        for clause in re.findall(r"requires(?: \w+)? \{ (.*) \}", head):
            asked.update({re.sub(r"[()]", "", it).strip() for it in clause.split("×")})
        types = re.findall(r"(\w+): ([^,()]+(?:\([^)]*\))?[^,()]*)[,)]", head.split("ensures")[0].split("requires")[0])
        pairs = {(a, b) for a, b in zip(types, types[1:])}
        together.update({f"{a[0]}: {a[1].strip()}, {b[0]}: {b[1].strip()}" for a, b in pairs})
    yield from (f"{n} functions ask: {it}" for it, n in asked.most_common() if n > 2)
    yield from (f"{n} functions take: {it}" for it, n in together.most_common() if n > 2)


POINTS = {
    "1 enums": enums,
    "1 flags beside a value": lambda: lines_with(r"^\s+(pub(\(crate\))? )?\w+: bool,$"),
    "1 numbers for kinds or refusals": lambda: lines_with(r"^(pub(\(crate\))? )?const [A-Z_]+: (u8|usize) = \d+;"),
    "1 a number that means none": lambda: lines_with(r"^    PLACES$|>= PLACES|< PLACES"),
    "2 functions of one shape": twins,
    "3 loops": lambda: lines_with(r"\b(while|loop)\b.*\{$|\bfor \w+ in .*\.\."),
    "4 by hand": lambda: lines_with(r"fn (same\w*|wide|fewer|least|less|fitting|capped|is_first|is_heard|is_over|is_kept|no_\w+|list_form|id_of|flags_of|refusal_of)\("),
    "5 facts and parameters": facts,
    "6 buffers with a length beside, arrays side by side": lambda: lines_with(r"count: usize,|\[\w+; PLACES\],|marks: &\[u32\]|let mut line = \[0u8; LINE\]|at: usize, |held: usize,"),
    "7 switches": lambda: (f"{path}: {name}" for path, name, head, _ in functions() if re.search(r"\w: bool[,)]|: Change", head.split("->")[0])),
}

if __name__ == "__main__":
    for point, find in POINTS.items():
        if sys.argv[1:] and point[0] not in sys.argv[1:]:
            continue
        found = list(find())
        print(f"{point}: {len(found)}")
        for it in found:
            print(f"    {it}")
