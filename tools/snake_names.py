#!/usr/bin/env python3
"""Brings the names of definitions and lemmas from camel case to snake case, as today's Rattle spells them: types, facts and modules keep their capitals.

A name is a run of letters in an .antt file; of a name with dashes each part is turned. Names of source items, constants and strings stay: they have no
capital after a small letter. In the other files (sources, edits, rows, plants, documents, scripts) only the names that stand in .antt files are turned,
here or by port.py before. Lemmas whose dash port.py took, so that they would bear a definition's name, get the dash back.

usage: snake_names.py [--look]    --look says which names would fall together, and changes nothing
"""
import pathlib, re, sys

ROOT = pathlib.Path(__file__).resolve().parent.parent
WORD = re.compile(r"(?<![A-Za-z0-9_'′])[A-Za-z_][A-Za-z0-9_]*(?![A-Za-z0-9_])")
CAMEL = re.compile(r"^[a-z][a-z0-9]*(?:[A-Z][a-z0-9]*)+$")
# names of the older library, which old proofs cite
LEFT = set()
# lemmas that would bear the name of a definition
DASHED = "by_name by_rank cells_at code_by convert_number first_by first_key goes_on listed_in not_made odd_step offset_at one_side \
read_behind read_out ready_by size_in step_by".split()


def snake(name):
    """The name in snake case; a run of capitals stays one word."""
    name = re.sub(r"([a-z0-9])([A-Z])", r"\1_\2", name)
    return re.sub(r"([A-Z])([A-Z][a-z])", r"\1_\2", name).lower()


def code(line):
    """A line of antt without its comment."""
    at = re.search(r"(^|\s)--(\s|$)", line)
    return line[: at.start()] if at else line


def antt():
    return sorted(p for part in ("specs", "proofs") for p in ROOT.glob("crates/*/%s/**/*.antt" % part)) + sorted(ROOT.glob("tests/rows/*.rows"))


def others():
    found = [ROOT / "README.md"]
    for pattern in ("crates/*/src/**/*.rt", "crates/*/must-fail/*.edit", "tests/planted/**/*", "tests/*", "docs/*.md", "rust/second/examples/definitions.rs"):
        found += ROOT.glob(pattern)
    return sorted(p for p in found if p.is_file())


def main():
    words = {}
    plain = set()
    dashed = re.compile(r"(?<![A-Za-z0-9_'′.-])(%s)(?![A-Za-z0-9_'′-])" % "|".join(DASHED))
    for path in antt():
        text = path.read_text()
        if "proofs" in path.parts:
            # a comment that names a source function keeps it
            text = "".join(line if line.startswith("--") else dashed.sub(lambda m: m.group(0).replace("_", "-"), line) for line in text.splitlines(True))
            if "--look" not in sys.argv and text != path.read_text():
                path.write_text(text)
        for line in text.splitlines():
            for word in WORD.findall(code(line)):
                if CAMEL.match(word) and word not in LEFT:
                    words.setdefault(word, snake(word))
                elif path.suffix == ".antt":
                    plain.add(word)
    turned = {}
    for old, new in words.items():
        turned.setdefault(new, []).append(old)
    together = 0
    for new, olds in sorted(turned.items()):
        if len(olds) > 1 or new in plain:
            together += 1
            print("falls together: %s: %s%s" % (new, " ".join(olds), " and itself" if new in plain else ""))
    if "--look" in sys.argv:
        print("%d names, %d fall together" % (len(words), together))
        return
    changed = 0
    for path in antt() + others():
        text = path.read_text()
        by_port = path.suffix not in (".antt", ".rt", ".md")
        out = WORD.sub(lambda m: words.get(m.group(0)) or (snake(m.group(0)) if by_port and CAMEL.match(m.group(0)) and snake(m.group(0)) in plain else m.group(0)), text)
        if out != text:
            path.write_text(out)
            changed += 1
    print("%d names turned in %d files" % (len(words), changed))


main()
