#!/usr/bin/env python3
"""The places that docs/DESIGN-PASS.md counts: python3 tools/places.py [POINT], at the top; without a point, how many of each."""
import collections
import pathlib
import re
import sys

SOURCES = sorted(pathlib.Path("crates").glob("*/src/**/*.rt"))
LINES = [(f"{path}:{number}", line) for path in SOURCES for number, line in enumerate(path.read_text().split("\n"), 1) if not line.lstrip().startswith("//")]
SIGNATURE = re.compile(r"^\s*(?:pub(?:\([a-z]+\))? )?(?:extern \"C\" )?(?:const )?fn (\w+)(?:<[^(]*>)?\(((?:[^()]|\([^()]*\))*)\)(?: -> ([^{;]+?))?$(.*?)^\s*\{", re.M | re.S)
CLAUSE = re.compile(r"(requires|ensures)[* \w]*\{((?:[^{}]|\{[^{}]*\})*)\}")


def functions():
    for path in SOURCES:
        text = re.sub(r"^\s*//.*$", "", path.read_text(), flags=re.M)
        for found in SIGNATURE.finditer(text):
            name, given, answer, clauses = found.groups()
            line = text.count("\n", 0, found.start(1)) + 1
            yield f"{path}:{line}", name, [" ".join(p.split()) for p in given.split(",") if p.strip()], (answer or "").strip(), clauses


def lines(pattern):
    return [f"{where}: {line.strip()}" for where, line in LINES if re.search(pattern, line)]


def refusal_numbers():
    """Functions that answer a refusal's number, and enums that hold one."""
    told = re.compile(r"_no\b|number|unless|◌or◌| or |Byte|Told|Counted|Located|Settled|fault_in|Tallied|Recovering|Stepping")
    own = [f"{where}: fn {name} -> u64" for where, name, given, answer, clauses in functions() if answer == "u64" and told.search(clauses)]
    return own + lines(r"\bRefused\(u64\)|refusal: u64|infinite: u64|falls: u64|number: u64, later")


def kinds():
    """Parameters, fields and constants that are a number for a kind."""
    return lines(r"\b(kind|entry|list|letter|previous|asked)\b: u64|^(pub(\(crate\))? )?const [A-Z_]+: u64")


def same_names():
    """Functions of one name in more than one place, but for exports and what they export."""
    places = collections.defaultdict(list)
    for where, name, *_ in functions():
        if not re.search(r"crates/(malikoza|malikoza_c|leaf_patterns|bench\w*)/", where):
            places[name].append(where)
    return [f"{name}: {', '.join(at)}" for name, at in sorted(places.items()) if len(at) > 1]


def repeated(of):
    places = collections.defaultdict(list)
    for where, name, given, answer, clauses in functions():
        if "/malikoza" not in where:
            for thing in set(of(given, clauses)):
                places[thing].append(f"{where} {name}")
    return [f"{thing}: {', '.join(at)}" for thing, at in sorted(places.items()) if len(at) > 2]


def facts(given, clauses):
    for kind, text in CLAUSE.findall(clauses):
        if kind == "requires":
            for fact in re.split(r" × |\n", text):
                if len(fact.strip(" ×()")) > 12:
                    yield " ".join(fact.strip(" ×").split())


def threes(given, clauses):
    for at in range(len(given) - 2):
        yield ", ".join(given[at:at + 3])


POINTS = {
    "1 own enums": lambda: lines(r"^(pub(\(crate\))? )?enum "),
    "1 numbers for refusals": refusal_numbers,
    "1 numbers for kinds": kinds,
    "2 functions of one name": same_names,
    "2 twins by suffix": lambda: [x for x in lines(r"\bfn (\w+_)?(few|many|list|grid|minimum|maximum)(_rows)?[(<]") if not re.search(r"crates/(malikoza|leaf_p|case_l)", x)],
    "3 while": lambda: lines(r"\bwhile\b"),
    "4 by hand": lambda: lines(r"\bfn (same|least|one|wide|four|four_at|low_byte|put_four|put_bytes|both|either|neither|three_true|none_nan|some_nan|borrow|less|is_told|name|leaf_name|in_order|digit)\(|(\b[a-z]\w*) [!=]= \2\b|0\.0 / 0\.0|1\.0 / 0\.0|std::num::wrapping_|u64::leading_zeros\(|f64::to_bits\("),
    "4 tests nested in place of &&": lambda: [f"{a}: {x.strip()}" for (a, x), (b, y) in zip(LINES, LINES[1:]) if re.match(r"\s*if .* \{$", x) and re.match(r"\s*if .* \{$", y) and len(y) - len(y.lstrip()) > len(x) - len(x.lstrip())],
    "5 facts in three requires": lambda: repeated(facts),
    "5 parameters in three functions": lambda: repeated(threes),
    "6 arrays": lambda: lines(r"\[[0-9.a-zA-Z]+; [\w:]+\]"),
    "7 switches": lambda: lines(r"\b(match (test|source|run|entry|list|word\(case, 1\)))\b"),
    "8 answers": lambda: [str(path) for path in pathlib.Path("crates").glob("*/proofs/**/Answers.antt") if "/out/" not in str(path) for _ in re.findall(r"^pub \S+ : goal\.", path.read_text(), re.M)],
}

if __name__ == "__main__":
    for name, count in POINTS.items():
        if len(sys.argv) > 1:
            if name.startswith(sys.argv[1]):
                print(f"== {name}", *count(), sep="\n")
        else:
            print(f"{len(count()):5} {name}")
