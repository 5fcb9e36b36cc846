#!/usr/bin/env python3
"""Lists what is stated in definitions and laws: each signature, definition and record, with the module parameters that it stands under.

usage: tools/statements.py FOLDER            prints the statements of crates/*/proofs/laws in FOLDER, file by file
       tools/statements.py OLD NEW           compares the statements of specs/ and proofs/laws in two folders, by crate and name, and prints what differs"""

import collections
import glob
import os
import re
import sys

HEAD = re.compile(r"^(\s*)((?:(?:abbrev|unfoldable|pub|record|data)\s+)*)([^\s:(){}.,◌]+)\s*(.*)$")


def read(path):
    with open(path, encoding="utf-8") as f:
        return f.read().split("\n")


def statements(path):
    """(name, parameters of the modules around it, text) of each signature, top level or in a module; what stands under a 'where' is left out."""
    lines = [l for l in read(path) if not l.strip().startswith("--")]
    modules, out, i = [], [], 0
    while i < len(lines):
        line = lines[i]
        indent = len(line) - len(line.lstrip())
        if not line.strip() or line.startswith(("use ", "pub use ", "pub mod ", "mod ")):
            i += 1
            continue
        while modules and indent <= modules[-1][0]:
            modules.pop()
        level = modules[-1][0] + 2 if modules else 0
        if indent != level:
            i += 1
            continue
        if line.strip().startswith("module _"):
            text = line.strip()
            while not text.endswith("where"):
                i += 1
                text += " " + lines[i].strip()
            modules.append((indent, re.sub(r"\s+", " ", text[len("module _") : -len("where")].strip())))
            i += 1
            continue
        m = HEAD.match(line)
        if not m:
            i += 1
            continue
        words, name = m[2].split(), m[3]
        text = [line.strip()]
        j = i + 1
        if "record" in words or "data" in words:
            while j < len(lines) and (not lines[j].strip() or len(lines[j]) - len(lines[j].lstrip()) > indent) and lines[j].strip():
                text.append(lines[j].strip())
                j += 1
        elif m[4].startswith(":"):
            while j < len(lines) and lines[j].strip() and len(lines[j]) - len(lines[j].lstrip()) > indent:
                text.append(lines[j].strip())
                j += 1
            if "abbrev" in words or "unfoldable" in words:
                # a definition is its equations too
                while j < len(lines) and lines[j].strip() and not lines[j].strip().startswith("module _"):
                    text.append(lines[j].strip())
                    j += 1
        else:
            i += 1
            continue
        out.append((name, " ".join(p for _, p in modules), re.sub(r"\s+", " ", " ".join(text))))
        i = j
    return out


def of(root):
    found = collections.defaultdict(list)
    for path in sorted(glob.glob(f"{root}/crates/*/specs/**/*.antt", recursive=True) + glob.glob(f"{root}/crates/*/proofs/laws/*.antt")):
        crate = os.path.relpath(path, root).split(os.sep)[1]
        for name, params, text in statements(path):
            found[(crate, name)].append((params, re.sub(r"^(?:pub |abbrev |unfoldable )+", lambda m: m[0].replace("pub ", ""), text)))
    return found


def main(argv):
    if len(argv) == 1:
        for path in sorted(glob.glob(f"{argv[0]}/crates/*/proofs/laws/*.antt")):
            print(f"\n### {os.path.relpath(path, argv[0] + '/crates')}\n\n```")
            last = ""
            for name, params, text in statements(path):
                if params != last:
                    print(f"-- given {params}" if params else "-- given nothing more")
                    last = params
                print(text)
            print("```")
        return 0
    if len(argv) == 2:
        old, new = of(argv[0]), of(argv[1])
        bad = 0
        for key in sorted(old):
            for it in old[key]:
                if it not in new.get(key, []):
                    bad += 1
                    print(f"{key[0]} {key[1]}\n  - {it}\n  + {new.get(key, 'GONE')}")
        print(f"{sum(map(len, old.values()))} statements before, {sum(map(len, new.values()))} now; {bad} of before not found again as they were")
        return 0
    print(__doc__)
    return 2


if __name__ == "__main__":
    sys.exit(main(sys.argv[1:]))
