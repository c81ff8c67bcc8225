"""The header, the Rust wrapper and the Python module have the same numbers and codes, under the same names and with the same sentences."""
import os
import re
import sys

import quotebook

root = os.path.join(os.path.dirname(os.path.abspath(__file__)), "..", "..")


def read(*path):
    with open(os.path.join(root, *path)) as file:
        return file.read()


def rust(name):
    rows = re.findall(r'^    (\d+) ([A-Za-z]+) "(.*)";$', read("rust", "quotebook", "src", name), re.M)
    return {int(number): (re.sub(r"([a-z])([A-Z])", r"\1_\2", case).upper(), said) for number, case, said in rows}


def header(prefix):
    text = read("include", "quotebook.h")
    values = {name: int(value) for name, value in re.findall(r"^    %s([A-Z_]+) = (\d+)" % prefix, text, re.M)}
    said = dict(re.findall(r'^    case %s([A-Z_]+): return "(.*)";$' % prefix, text, re.M))
    return {number: (name, said.get(name)) for name, number in values.items()}


different = 0
for mine, prefix, name in (quotebook.NUMBERS, "QB_CHECK_", "number.rs"), (quotebook.CODES, "QB_CODE_", "code.rs"):
    tables = {"Python": mine, "the header": header(prefix), "Rust": rust(name)}
    for number in sorted(set().union(*tables.values())):
        rows = {where: table.get(number) for where, table in tables.items()}
        if len(set(rows.values())) > 1:
            print(number, rows)
            different = 1
    if len(mine) < 18:
        print("too few:", len(mine))
        different = 1
sys.exit(different)
