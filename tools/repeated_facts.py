#!/usr/bin/env python3
"""Lists the facts that stand in the requires of three or more functions of a crate: the crate, how many, the fact, the functions.

usage: tools/repeated_facts.py [FOLDER]     FOLDER is a checkout, by default this one"""

import collections
import glob
import os
import re
import sys

CLAUSE = re.compile(r"fn (\w+)[^{;]*?requires(?: \w+)? \{ (.*?) \}\n", re.S)


def parts(clause):
    """The facts that a clause joins by ×, without the brackets around each."""
    out, depth, fact = [], 0, ""
    for c in clause:
        depth += (c in "([") - (c in ")]")
        if c == "×" and depth == 0:
            out.append(fact)
            fact = ""
        else:
            fact += c
    return [re.sub(r"^\((.*)\)$", r"\1", f.strip()) for f in out + [fact]]


def main(argv):
    root = argv[0] if argv else os.path.join(os.path.dirname(os.path.abspath(__file__)), "..")
    for crate in sorted(glob.glob(f"{root}/crates/*/src")):
        found = collections.defaultdict(set)
        for path in sorted(glob.glob(f"{crate}/*.rt")):
            with open(path, encoding="utf-8") as f:
                for m in CLAUSE.finditer(f.read()):
                    for fact in parts(m[2]):
                        found[fact].add(m[1])
        for fact, functions in sorted(found.items(), key=lambda it: (-len(it[1]), it[0])):
            if len(functions) >= 3:
                print(os.path.basename(os.path.dirname(crate)), len(functions), fact + ":", " ".join(sorted(functions)))


if __name__ == "__main__":
    main(sys.argv[1:])
