#!/usr/bin/env python3
"""Spells this repository's own definitions and lemmas as today's Rattle does: words in snake case, facts and types in camel case.

usage: python3 tools/respell.py [--table]      at the top of the repository, once, after the toolchain's port.py

It reads each name that a file of crates/*/specs or crates/*/proofs declares, and writes it anew, as whole words, in those files, in the
clauses and 'ghost use' items of crates/*/src, and in crates/*/must-fail. Functions, types and fields of src/ keep their names, and so does
what stands in quotes. --table prints the names that change, and those that would meet another name of a file, and writes nothing.
"""

import collections
import os
import re
import sys

WORD = re.compile(r"[^\s(){}\[\].;,@\"«»:|]+")
DECLARED = re.compile(
    r"^( *)((?:(?:abbrev|unfoldable|pub|data|record|mutual) +)*)([^\s(){}.;,:@\"«»=|]+)((?: +\((?:[^()]|\([^()]*\))*\)| +\{[^{}]*\})*) *:(?=\s)(.*)$"
)
# The names of what Rattle makes, and of what it reads by name: they are its own.
MADE = re.compile(r"(?:invariant|decreases|ghost)-|.*[-_]spec$|^(?:returns|enum[-_]told|enum[-_]known|in[-_]field|same[-_]length)(?:-|$)")
# A lemma that would have its function's name, and those that port.py had turned so already; what is a field stays.
BY_HAND = {
    "are-bytes": "are_bytes_lem",
    "at_least": "at_least",
    "at_most": "at_most",
    "by-table": "by_table_lem",
    "in-float": "in_float_lem",
    "inf-plus": "inf_plus_lem",
    "is-nan": "is_nan_lem",
    "last_entry": "last_entry_lem",
    "minus-times": "minus_times_lem",
    "nan_last": "nan_last_lem",
    "not-less": "not_less_lem",
    "plus_times": "plus_times_lem",
    "root-nearest": "root_nearest_lem",
    "stage-by-stage": "stage_by_stage_lem",
    "stick-more": "stick_more_lem",
}


def texts(root, endings):
    for folder, dirs, files in os.walk(os.path.join(root, "crates")):
        dirs[:] = sorted(d for d in dirs if d != "out")
        for f in sorted(files):
            if f.endswith(endings):
                yield os.path.join(folder, f)


def is_made(path, name):
    """What a proof by hand of one function declares under a name of Rattle's: its goals, invariants and measures."""
    return path.endswith("/Proof.antt") or MADE.match(name)


def declared(root):
    found = collections.defaultdict(list)
    for p in texts(root, ".antt"):
        with open(p, encoding="utf-8") as f:
            for line in f:
                m = DECLARED.match(line)
                if m and not re.match(r"\s*(?:use|pub use|let|--|elim|\|)\b", line) and m[3] not in ("λ", "→", "_"):
                    if not (p.endswith("/Proof.antt") and "tie." in m[5]):
                        found[m[3]].append((p, m[5].strip()))
    return found


def snake(word):
    word = re.sub(r"(?<=[a-z0-9₀-₉ₘ])[A-Z]", lambda m: "_" + m[0].lower(), word)
    return word.replace("-", "_").replace("′", "'")


def spelled(name, places):
    """The new spelling of a name, of which each place tells the type."""
    if name in BY_HAND:
        return BY_HAND[name]
    if not re.search(r"[a-z]", name):
        return name
    if name[0].isupper():
        return name
    if any(t.endswith("Type 0") for _, t in places) and "-" not in name:
        return "".join(w[:1].upper() + w[1:] for w in snake(name).split("_"))
    parts = re.split(r"(→|↔|⊎)", name)
    return "".join(w if i % 2 or w[:1].isupper() else snake(w) for i, w in enumerate(parts))


def table(root):
    rows = {}
    for name, places in declared(root).items():
        if MADE.match(name):
            continue
        new = spelled(name, places)
        if new != name:
            rows[name] = new
    return rows


def words(text):
    return set(WORD.findall(text))


def turn(text, rows):
    """Whole words, but not in quotes."""
    out = []
    at = 0
    for m in WORD.finditer(text):
        out.append(text[at : m.start()])
        w = m[0]
        out.append(rows.get(w, w))
        at = m.end()
    out.append(text[at:])
    return "".join(out)


def turn_rust(text, rows):
    """The clauses and the 'ghost use' items; elsewhere a name in camel case with a small head can be no name of Rust's."""
    return re.sub(r"(?<![\w.:'\"])[a-z]\w*[A-Z]\w*(?!\w)", lambda m: rows.get(m[0], m[0]), text)


def meetings(root, rows):
    """The files in which a new name stands already as another word."""
    back = collections.defaultdict(set)
    for old, new in rows.items():
        back[new].add(old)
    for new, olds in sorted(back.items()):
        if len(olds) > 1:
            yield f"two names: {sorted(olds)} -> {new}"
    for p in texts(root, (".antt", ".rt")):
        with open(p, encoding="utf-8") as f:
            ws = words(re.sub(r"--.*|//.*", "", f.read()))
        for w in sorted(ws & rows.keys()):
            if rows[w] in ws:
                yield f"{os.path.relpath(p, root)}: {w} -> {rows[w]}"


def main(argv):
    root = os.getcwd()
    rows = table(root)
    if argv == ["--table"]:
        for old, new in sorted(rows.items()):
            print(f"{old}\t{new}")
        for line in meetings(root, rows):
            print("meets\t" + line)
        return 0
    for p in list(texts(root, (".antt", ".rt", ".edit"))):
        with open(p, encoding="utf-8") as f:
            old = f.read()
        in_rust = p.endswith(".rt") or p.endswith(".edit") and re.search(r"(?m)^file: src/", old)
        new = turn_rust(old, rows) if in_rust else turn(old, rows)
        if new != old:
            with open(p, "w", encoding="utf-8") as f:
                f.write(new)
    return 0


if __name__ == "__main__":
    raise SystemExit(main(sys.argv[1:]))
