#!/usr/bin/env python3
"""Brings the repository's own definitions and lemmas to one spelling: words in snake case, types and modules in camel case.

usage: tools/spell_names.py     at the top of the repository, once, after the toolchain's own script has respelled the files

A name is respelled where specs/ declares it (a definition, a lemma, a field), or where a proof does and no generated name is meant, and at every place
that cites it: in crates/, in clauses, and in backquotes in the pages. Functions of src/, exported names, strings, inputs and outputs keep theirs."""

import collections
import glob
import re
import sys

WORD = re.compile(r"[\w'-]+")
DECLARED = re.compile(r"^\s*(?:(?:abbrev|unfoldable|pub|opaque)\s+)*([^\s:(){}.,◌]+)\s*:\s")
# what the toolchain names in a function's proof, which is not ours to spell
MADE = re.compile(r"^(?:returns|loop|loop2|invariant|decreases|add|sub|mul|cast|part|slice|shared|bounds|overflow|answer|μ|\+?walk)(?:$|-)|-requires(?:-\d+)?$")
# a lemma that would have its definition's name
APART = {
    n: n.replace("-", "_") + "_lem"
    for n in """as-sent at-ending bit-of bits-both block-heard by-kind carried-at carried-last carried-rest control-taps crc-good end-told flag-in given-bits
    good-or-bad in-one-number in-w is-hex is-speech laid-at of-told path-cost place-of send-told speech-heard stream-place""".split()
}
# the same of a lemma that has an underscore already
PLAIN = re.compile(r"(?<![\w'.-])(all_digits|bit_in|none_over|same_bytes)(?![\w'.-])")


def snake(name):
    if name in APART:
        return APART[name]
    name = re.sub(r"(?<=[a-z0-9])([A-Z])", lambda m: "_" + m[1], name)
    return name.replace("-", "_").lower()


def wanted(name):
    if name[0].isupper() or not re.search(r"-|[a-z0-9][A-Z]", name):
        return False
    return re.match(r"^[A-Za-z][\w'-]*$", name) is not None


def read(path):
    with open(path, encoding="utf-8") as f:
        return f.read()


def declared(pattern, made):
    names = set()
    for path in glob.glob(pattern, recursive=True):
        if "/out/" in path:
            continue
        for line in read(path).splitlines():
            m = DECLARED.match(line)
            if m and wanted(m[1]) and not (made and MADE.search(m[1])):
                names.add(m[1])
    return names


def main():
    names = declared("crates/*/specs/**/*.antt", False) | declared("crates/*/proofs/**/*.antt", True)
    turned = {n: snake(n) for n in names}
    back = collections.defaultdict(set)
    for n, t in turned.items():
        back[t].add(n)
    together = 0
    one = r"(?<![\w'-])(" + "|".join(re.escape(n) for n in sorted(turned, key=len, reverse=True)) + r")(?![\w'-])"
    name = re.compile(one)
    quoted = re.compile(r"`[^`\n]*`")
    for path in sorted(glob.glob("crates/**/*", recursive=True) + glob.glob("docs/**/*.md", recursive=True) + glob.glob("*.md")):
        if "/out/" in path or not path.endswith((".antt", ".rt", ".md")):
            continue
        old = read(path)
        if path.endswith((".antt", ".rt")):
            words = set(WORD.findall(old))
            for t in sorted({t for n, t in turned.items() if n in words}):
                olds = (back[t] | {t}) & words
                if len(olds) > 1 and not (path.endswith(".antt") and PLAIN.fullmatch(t)):
                    together += 1
                    print(f"look: {path}: {t} is now of {', '.join(sorted(olds))}")
        if path.endswith(".antt"):
            new = PLAIN.sub(lambda m: m[1] + "_lem", old)
            new = name.sub(lambda m: turned[m[1]], new)
        elif path.endswith(".rt"):
            # a word of a clause or of an import; a comment's words with a dash are prose
            new = "\n".join(l if "-" in l and l.lstrip().startswith("//") else name.sub(lambda m: turned[m[1]], l) for l in old.split("\n"))
        else:
            new = quoted.sub(lambda q: name.sub(lambda m: turned[m[1]], q[0]), old)
        if new != old:
            with open(path, "w", encoding="utf-8") as f:
                f.write(new)
    if "--list" in sys.argv:
        for n in sorted(turned):
            print(n, turned[n])
    return 1 if together else 0


if __name__ == "__main__":
    sys.exit(main())
