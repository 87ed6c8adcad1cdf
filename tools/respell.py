#!/usr/bin/env python3
"""Brings the repository's own definitions and lemmas to snake case, once, after port.py.

usage: tools/respell.py [--dry] at the top of the checkout

A name that is declared in specs/ or in a file of proofs/, and a local name beside it, goes from kebab case or camel case to
snake case; types and modules stay in upper camel case, and names of the library, of goals and of src/ stay as they are.
It says which names fall together, and writes nothing while some do.
"""

import collections
import os
import re
import sys

TOKEN = re.compile(r"[^\s(){}\[\];,.«»λ⦃⦄⌜⌝\"@`]+")
OLD = re.compile(r"[a-zA-Z][\w'′₀-₉⁺⁻→≡?]*(?:-[\w'′₀-₉⁺⁻→≡?]+)+$|[a-z][a-z0-9₀-₉'_]*[A-Z][\w'′₀-₉⁺⁻→≡?-]*$")
DECLARED = re.compile(r"^\s*(?:(?:abbrev|unfoldable|pub|ghost)\s+)*([^\s(){}:]+(?:,\s*[^\s(){}:]+)*)\s+:\s")
# names that the plain rule would spell badly, or that would fall together with others
OTHERWISE = {
    "by-rules": "by_rules_checked",
    "check-lines": "check_lines_are",
    "clause-of": "cited_clause",
    "most-answers": "most_answers_report",
    "of-premises": "of_premises_hold",
    "of-refutation": "of_refutation_holds",
    "resolvent-end": "resolvent_end_is",
    "same-list": "same_list_true",
    "getD-late": "get_or_late",
    "ofEntries": "OfEntries",
    "numeralRead": "NumeralRead",
    "signedRead": "SignedRead",
}
# a name that port.py respelled, and that falls together with another in this crate
WITHIN = {"render": {"last_line": "last_claim_line"}}


def snake(name):
    if name in OTHERWISE:
        return OTHERWISE[name]
    name = re.sub(r"(?<=[a-z0-9₀-₉'])(?=[A-Z])", "_", name)
    return re.sub("[A-Z]", lambda it: it[0].lower(), name.replace("-", "_")).replace("′", "'")


def files(kinds):
    for folder, dirs, names in os.walk("crates"):
        dirs[:] = sorted(d for d in dirs if d != "out")
        for n in sorted(names):
            if n.endswith(kinds):
                yield os.path.join(folder, n)


def walks(path):
    """A file that walks one function: its names are the goals'."""
    return "/proofs/" in path and path.split("/proofs/")[1].count("/") > 0


def code(text):
    return re.sub(r"--.*", "", text)


def own_imports(text):
    """The names that a file imports from elsewhere than this repository's crates."""
    crates = os.listdir("crates")
    found = set()
    for path, names in re.findall(r"use\s+([^\s{;]+)\.\{([^}]*)\}", text):
        parts = path.split(".")
        if parts[0] != "Rattle" or parts[1] not in crates:
            found |= set(re.split(r"[\s,]+", names))
    return found


def main(argv):
    texts = {p: open(p, encoding="utf-8").read() for p in files((".antt", ".rt", ".edit"))}
    foreign = set()
    for t in texts.values():
        foreign |= own_imports(t)
    names = {}
    every = collections.defaultdict(set)
    for p, t in texts.items():
        if not p.endswith(".antt"):
            continue
        for word in TOKEN.findall(code(t)):
            every[word].add(p)
            if not walks(p) and word not in foreign and OLD.match(word):
                names[word] = snake(word)
    # a type's name, or another's that begins with a capital and has no hyphen, stays
    names = {a: b for a, b in names.items() if a != b}
    together = collections.defaultdict(list)
    for a, b in names.items():
        together[b].append(a)
    bad = 0
    for b, olds in sorted(together.items()):
        if len(olds) > 1 or b in every:
            where = set().union(*(every[o] for o in olds))
            both = where & every.get(b, set())
            shared = {p for p in (set.intersection(*(every[o] for o in olds)) if len(olds) > 1 else both) if not walks(p)}
            both = {p for p in both if not walks(p) and WITHIN.get(p.split(os.sep)[1], {}).get(b) is None}
            shared = shared if len(olds) > 1 else both
            print(f"{'TOGETHER' if shared or both else 'apart'}: {', '.join(olds)} -> {b}{' (there already)' if b in every else ''}: {', '.join(sorted(shared | both)[:4])}")
            bad += bool(shared or both)
    print(f"{len(names)} names, {bad} fall together in a file")
    if "--list" in argv:
        for a, b in sorted(names.items()):
            print(a, b)
    if "--dry" in argv or (bad and "--force" not in argv):
        return 1 if bad else 0

    for p, t in texts.items():
        within = WITHIN.get(p.split(os.sep)[1], {}) if p.endswith(".antt") else {}

        def turn(it):
            word, before = it[0], it.string[: it.start()]
            if word in within:
                return within[word]
            if word not in names or before.endswith(("tie.", "goal.")):
                return word
            # a step of a walk is named by a function of src/
            return word.replace("-", "_") if before.endswith(".") and walks(p) and "-" in word else names[word]

        new = "\n".join(line if line.startswith("file:") else TOKEN.sub(turn, line) for line in t.split("\n"))
        if new != t:
            with open(p, "w", encoding="utf-8") as f:
                f.write(new)
    return 0


if __name__ == "__main__":
    raise SystemExit(main(sys.argv[1:]))
