#!/usr/bin/env python3
"""Brings the repository's own definitions and lemmas to one spelling, at the top of the repository:

    python3 tools/respell.py [--list]

Words (functions, lemmas, fields, constructors' labels, ghost members) are written in snake case, facts and other types in
upper camel case without dashes. Names that Rattle makes for a goal or an invariant are left as they are, and so are the
names of source items, strings and comments' words other than these names. It was run once, on what the kit's script had
left; it doesn't know the names that a later check gives goals, so it is not to be run again.
"""

import glob
import re
import sys

KEYWORDS = r"(?:(?:abbrev|unfoldable|pub|data|record|ruleset)\s+)*"
DEFINED = re.compile(r"^\s*(" + KEYWORDS + r")([^\s(){}:;,.λ\[\]]+)\s*:(?: |$)")
HEADED = re.compile(r"^\s*(" + KEYWORDS + r"(?:record|data|ruleset)\s+)([^\s(){}:;,.λ\[\]]+)\s")
MEMBER = re.compile(r"^\s*ghost ([A-Za-z_0-9]+)\s*[:=]")
GOAL = re.compile(
    r"^(returns|loop|invariant|decreases|overflow|nonzero|bounds|slice|offset|prove|unreachable)-|-requires(-|$)|^invariant-of-"
)
TOKEN = re.compile(r"""[^\s(){}\[\];,.:"]+""")

# Names that would fall together with another name of the repository, of the library or of the language.
CLASHES = {
    # A lemma beside the word that it speaks of.
    "day-figures": "day_figures_lem",
    "days-full": "days_full_lem",
    "has-key": "has_key_lem",
    "key-length": "key_length_lem",
    "label-number": "label_number_lem",
    "line-figures": "line_figures_lem",
    "line-fits": "line_fits_lem",
    "lines-full": "lines_full_lem",
    "lines-in": "lines_in_lem",
    "next-with": "next_with_lem",
    "row-bytes": "row_bytes_lem",
    "same-terms": "same_terms_lem",
    "shown-in": "shown_in_lem",
    "table-rows": "table_rows_lem",
    "by-order": "by_order_lem",
    # A lemma of that name is there already.
    "rowsIn": "rows_in_part",
}

# Bound names.
BOUND = {
    "dayStore": "day_store",
    "lineStore": "line_store",
    "inKey": "in_key",
    "isFirst": "is_first",
    "mostDays": "most_days",
    "mostLines": "most_lines",
}


def files():
    found = glob.glob("crates/*/specs/**/*.antt", recursive=True) + glob.glob("crates/*/proofs/**/*.antt", recursive=True)
    return sorted(found), sorted(glob.glob("crates/*/src/**/*.rt", recursive=True)), sorted(glob.glob("crates/*/must-fail/*.edit"))


def read(path):
    with open(path, encoding="utf-8") as f:
        return f.read()


def own_names(antt, rt):
    names = set()
    for path in antt:
        for line in read(path).split("\n"):
            if line.lstrip().startswith("--"):
                continue
            m = DEFINED.match(line) or HEADED.match(line)
            if m:
                names.add(m.group(2))
    for path in rt:
        for line in read(path).split("\n"):
            m = MEMBER.match(line)
            if m:
                names.add(m.group(1))
    return names


def respelled(name):
    if name in CLASHES:
        return CLASHES[name]
    if name[0].isupper():
        return "".join(part[:1].upper() + part[1:] for part in name.split("-"))
    words = name.replace("-", "_")
    words = re.sub(r"(?<=[a-z0-9])([A-Z])(?![a-z])", lambda m: "_" + m.group(1).lower(), words)
    return re.sub(r"(?<=[a-z0-9_])([A-Z])", lambda m: ("" if words[m.start() - 1] == "_" else "_") + m.group(1).lower(), words)


def is_candidate(name):
    if GOAL.search(name):
        return False
    return "-" in name.strip("-") and name[0].isalpha() or (name[0].islower() and re.search(r"[a-z0-9][A-Z]", name))


def turn(text, table, is_source):
    out = []
    for line in text.split("\n"):
        if is_source:
            parts = re.split(r'("(?:[^"\\]|\\.)*")', line)
            line = "".join(p if i % 2 else TOKEN.sub(lambda m: table.get(m.group(0), m.group(0)), p) for i, p in enumerate(parts))
        else:
            line = TOKEN.sub(lambda m: table.get(m.group(0), m.group(0)), line)
        out.append(line)
    return "\n".join(out)


def main():
    antt, rt, edits = files()
    table = {n: respelled(n) for n in own_names(antt, rt) if is_candidate(n)}
    table = {n: m for n, m in table.items() if n != m}
    table.update(BOUND)
    tokens = {}
    for path in antt + rt:
        tokens[path] = set(TOKEN.findall(read(path)))
    targets = {}
    for n, m in table.items():
        targets.setdefault(m, set()).add(n)
    clashes = [(m, sorted(ns)) for m, ns in targets.items() if len(ns) > 1]
    for m, ns in sorted(clashes):
        print("falls together:", ns, "->", m)
    for n, m in sorted(table.items()):
        both = [p for p in antt + rt if n in tokens[p] and m in tokens[p]]
        if both:
            print("clash:", n, "->", m, "in", both[:4])
    if "--list" in sys.argv:
        for n, m in sorted(table.items()):
            print(n, m)
        return
    for path in antt + rt + edits:
        before = read(path)
        after = turn(before, table, path.endswith((".rt", ".edit")))
        if after != before:
            with open(path, "w", encoding="utf-8") as f:
                f.write(after)


main()
