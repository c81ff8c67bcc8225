#!/usr/bin/env python3
"""Counts the places of src/ and proofs/ that docs/DESIGN-PASS.md speaks of. Usage: tools/places.py [POINT] lists them; a count for each without POINT.

It reads text, and finds forms, not reasons: what each place is, and why it stays where it stays, is in the page."""
import collections
import glob
import os
import re
import sys

TOP = os.path.dirname(os.path.dirname(os.path.abspath(__file__)))
SRC = sorted(glob.glob(f"{TOP}/crates/*/src/*.rt"))
PROOFS = sorted(p for p in glob.glob(f"{TOP}/crates/*/proofs/**/Answers.antt", recursive=True) if "/out/" not in p)

# point: (what it finds, pattern)
FORMS = {
    "1a": ("enums that may have the shape of Option or Result", r"^ *(pub )?enum \w+"),
    "1b": ("a number or a flag in a field beside a value", r"^ *(pub )?(number|code|fault|decided): u(8|32),|^ *(pub )?(known|going|ahead|partly|yes): bool,"),
    "1c": ("numbers of refusals written out", r"(return |Refused\(|Bare\(|number: |code: |=> )(?!0\b)([1-9]|[1-9][0-9])(;|\)|,| \})|^    (?!0$)([1-9]|[1-9][0-9])$"),
    "3": ("loops", r"^ *(for |while |loop )"),
    "4": ("conversions, order and equality by hand", r"fn (wide|one_if|one_for|one_unless|least|higher|lateness|number|is_bid|share_of|counted|copied|copied_lead|or_zero|marked|renewed|is_held|is_gone|moved_up|arrived)\("),
    "6": ("buffers with a length or a place beside them, parallel buffers", r"filled: usize|lengths: &mut \[u32\]|lots: &mut \[u8\]|labels: &\[u8\]"),
    "7": ("switches on which step to run", r"^ *match (what|kind) \{"),
}


def name_of(path):
    return os.path.relpath(path, f"{TOP}/crates")


def lines_of(pattern):
    found = []
    for path in SRC:
        with open(path) as it:
            found += [f"{name_of(path)}:{n}: {line.strip()}" for n, line in enumerate(it, 1) if re.search(pattern, line) and not line.strip().startswith("//")]
    return found


def facts():
    """Facts that stand in the requires of three functions or more, with how many (point 5)."""
    where = collections.defaultdict(set)
    for path in SRC:
        with open(path) as it:
            text = it.read()
        for function in re.finditer(r"fn (\w+)[^{;]*?\)(?:\s*->\s*[^\n{]+)?\n((?:\s+(?:requires|ensures)[^\n]*\n)+)", text):
            for clause in re.findall(r"requires(?: \w+)? \{ (.*) \}\n", function[2]):
                for fact in clause.split(" × "):
                    fact = fact.strip()
                    while fact.startswith("(") and fact.count("(") > fact.count(")"):
                        fact = fact[1:]
                    while fact.endswith(")") and fact.count(")") > fact.count("("):
                        fact = fact[:-1]
                    if fact.startswith("(") and fact.endswith(")"):
                        fact = fact[1:-1]
                    where[fact.replace(".old", ".now")].add(f"{name_of(path)}:{function[1]}")
    return [f"{len(users)} {fact}" for fact, users in sorted(where.items(), key=lambda it: -len(it[1])) if len(users) >= 3]


def repeats():
    """Lines of let that a file of answers has three times or more (point 8)."""
    found = []
    for path in PROOFS:
        with open(path) as it:
            lets = collections.Counter(line.strip() for line in it if line.strip().startswith("let "))
        found += [f"{name_of(path)}: {n} times {line}" for line, n in lets.items() if n >= 3]
    return found


def main(words):
    points = {point: lines_of(pattern) for point, (_, pattern) in FORMS.items()}
    points["5"], points["8"] = facts(), repeats()
    what = {point: text for point, (text, _) in FORMS.items()} | {"5": "facts in the requires of three functions or more", "8": "lines of let that answers of a function repeat"}
    for point in sorted(points):
        if not words:
            print(f"{point:3} {len(points[point]):4}  {what[point]}")
        elif point in words:
            print("\n".join(points[point]))


if __name__ == "__main__":
    main(sys.argv[1:])
