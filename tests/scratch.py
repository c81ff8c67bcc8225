"""Scratch repositories in which definitions are computed: definitions and declared types, and of the proofs only what a test puts there.

All crates stand in one, each as a module of its own: a check of one crate takes seconds, and each crate below another takes its seconds too."""
import os, re, shutil, subprocess

ROOT = os.path.dirname(os.path.dirname(os.path.abspath(__file__)))
# rows and what they are written with. They are antt, under another ending: rt admits no .antt file outside a crate
ROWS = os.path.join(ROOT, "tests", "rows")
# the one crate of a scratch repository
ONE = "scratch"
# what the prover says of a row that is false
FALSE = r"((as printed|computed as far as they go), the (first \d+ bytes of the )?two types|this `◌▹◌` lands at index|expected type `)"
# what it says of what stands on a row that is false
UNCHECKED = r"depends? on `[^`]+`, which was rejected"


def crates(*last):
    """The crates that these use, by crates.txt, each before those that use it, and themselves."""
    uses = {}
    for line in open(os.path.join(ROOT, "crates.txt")):
        name, colon, rest = line.split("#")[0].partition(":")
        if colon:
            # behind a name may stand its kind: `quotebook staticlib`
            uses[name.split()[0]] = rest.split()
    found = []

    def add(name):
        for use in uses.get(name, []):
            if use not in found:
                add(use)
        if name in uses and name not in found:
            found.append(name)

    for name in last:
        add(name)
    return found


def inside(text, names):
    """A text of definitions or proofs as it reads where these crates are modules of one."""
    text = re.sub(r"\bRattle\.(%s)\.specs\.declared\." % "|".join(names), r"Rattle.%s.specs.declared.\1." % ONE, text)
    text = re.sub(r"\bRattle\.(%s)\.specs\.(?=\w)" % "|".join(names), r"Rattle.%s.specs.\1." % ONE, text)
    # rattle makes modules of its own for the proofs of each source file, under its name
    return re.sub(r"\bRattle\.(%s)\.proofs\.(?=\w)" % "|".join(names), r"Rattle.%s.proofs.of_\1." % ONE, text)


def types(text, names):
    """The declared types of a crate, without its functions, where these crates are modules of one."""
    out = [re.sub(r"^use (%s)::" % "|".join(names), r"use crate::\1::", use) for use in re.findall(r"^use .*?;$", text, re.M)]
    for m in re.finditer(r"^(?:#\[derive\(.*\)\]\n)?(?:pub )?(?:struct|enum) \w+(?:<[^>]*>)? \{", text, re.M):
        depth, j = 0, m.end() - 1
        while True:
            depth += {"{": 1, "}": -1}.get(text[j], 0)
            if depth == 0:
                break
            j += 1
        out.append(text[m.start() : j + 1])
    return "// Declared types only.\n" + "\n".join(out) + "\n"


def path(top, crate, file):
    """Where a crate's file is in a scratch repository: `specs/Quote.antt`, say."""
    part, rest = file.split("/", 1)
    own = "of_" + crate if part == "proofs" else crate
    return os.path.join(top, "crates", ONE, part, own + ".antt" if rest == "Lib.antt" else os.path.join(own, rest))


def write(path, text):
    os.makedirs(os.path.dirname(path), exist_ok=True)
    open(path, "w").write(text)


def made(top, *last):
    """Definitions and declared types of these crates and of those that they use, at this place, and nothing of an earlier run. Gives their names."""
    shutil.rmtree(top, ignore_errors=True)
    names = crates(*last)
    write(os.path.join(top, "crates.txt"), ONE + ":\n")
    one = os.path.join(top, "crates", ONE)
    stated = []
    for c in names:
        src = os.path.join(ROOT, "crates", c)
        write(os.path.join(one, "src", c + ".rt"), types(open(os.path.join(src, "src", "lib.rt")).read(), names))
        if os.path.isdir(os.path.join(src, "specs")):
            stated.append(c)
        for folder, _, files in os.walk(os.path.join(src, "specs")):
            for f in files:
                text = open(os.path.join(folder, f)).read()
                write(path(top, c, os.path.relpath(os.path.join(folder, f), src)), inside(text, names))
    write(os.path.join(one, "src", "lib.rt"), "// The crates, each as a module.\n#![tactic(auto)]\n" + "".join("pub mod %s;\n" % c for c in names))
    write(os.path.join(one, "specs", "Lib.antt"), "".join("pub mod %s\n" % c for c in stated))
    return names


def text(crate, module):
    """A module of rows or of what they are written with: from the crate's proofs, or else from tests/rows."""
    path = os.path.join(ROOT, "crates", crate, "proofs", module + ".antt")
    return open(path if os.path.exists(path) else os.path.join(ROWS, module + ".rows")).read()


def paragraphs(crate, module):
    """The paragraphs of a module, each with the name of its row: a row is a paragraph that ends in `NAME = refl`."""
    for paragraph in text(crate, module).rstrip("\n").split("\n\n"):
        row = re.search(r"^([\w-]+)(?: \w+)* = refl\Z", paragraph, re.M)
        yield paragraph, row.group(1) if row else None


def rows(crate, module):
    """The names of a module's rows."""
    return [row for _, row in paragraphs(crate, module) if row]


def put(top, crate, modules, only=(), more=()):
    """Gives the crate these modules as its only proofs; of those with rows among `only`, no other rows. `more` are declared and written later."""
    shutil.rmtree(path(top, crate, "proofs/"), ignore_errors=True)
    names = crates(crate)
    if modules:
        write(path(top, crate, "proofs/Lib.antt"), "".join("pub mod %s\n" % m for m in [*modules, *more]))
    elif os.path.exists(path(top, crate, "proofs/Lib.antt")):
        os.remove(path(top, crate, "proofs/Lib.antt"))
    for m in modules:
        some = any(row in only for row in rows(crate, m))
        kept = [paragraph for paragraph, row in paragraphs(crate, m) if not (some and row) or row in only]
        write(path(top, crate, "proofs/%s.antt" % m), inside("\n\n".join(kept) + "\n", names))
    declare(top)


def declare(top):
    """Declares the crates that have proofs."""
    proofs = os.path.join(top, "crates", ONE, "proofs")
    stated = sorted(f[: -len(".antt")] for f in os.listdir(proofs) if re.fullmatch(r"of_\w+\.antt", f))
    write(os.path.join(proofs, "Lib.antt"), "".join("pub mod %s\n" % c for c in stated))


def row(crate, module, name):
    """What is said of a row that is false: patterns of its module's name and of its own."""
    return r"proofs/of_%s/%s\.antt:\d+:\d+: error: `%s`: %s" % (crate, module, name, FALSE)


def keep(top):
    """Keeps what is checked, to go back to it."""
    shutil.rmtree(os.path.join(top, "kept"), ignore_errors=True)
    shutil.copytree(os.path.join(top, "crates", ONE, "out"), os.path.join(top, "kept"))


def back(top):
    """Goes back to what was kept: only what a plant touches is checked again, and nothing for the sake of the plant before it."""
    shutil.rmtree(os.path.join(top, "crates", ONE, "out"))
    shutil.copytree(os.path.join(top, "kept"), os.path.join(top, "crates", ONE, "out"))


def errors(top):
    """What a check says against the definitions and the proofs that were put there: nothing if it is proved."""
    run = subprocess.run(["rt", "check", "--jobs", "1"], cwd=os.path.join(top, "crates", ONE), capture_output=True, text=True)
    out = run.stdout + run.stderr
    found = [line.removeprefix("./") for line in out.split("\n") if re.search(r": error(\[[\w-]+\])?:", line) and not re.search(UNCHECKED, line)]
    last = out.strip().split("\n")[-1]
    return [] if not found and last.startswith("logic=proved") else found or [last]
