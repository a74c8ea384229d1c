#!/usr/bin/env python3
"""Brings the names of this repository's own definitions and lemmas to today's spelling of Rattle.

usage: python3 tools/spell_names.py [--dry] [--list]     at the top of the repository, once, right after the kit's port.py; --list prints each name and its new one

Words are in snake case. A dash joins two names, and stays where the words on both its sides are names of definitions; elsewhere it becomes `_`.
Types, facts and modules keep their capitals. Functions of src/, names that Rattle makes and names of the library are left as they are.
Declared names are read in specs/ and in the lemma files of proofs/; a function's own proof (Proof.antt) is turned, and declares none here.
"""

import collections
import glob
import os
import re
import sys

TOKEN = r"[\w'∞₀-₉?-]*[\w'∞₀-₉?]"
DECLARED = re.compile(r"^\s*(?:(?:abbrev|unfoldable|pub|record|data)\s+)*([^\s(){}:.,;λ→\[\]]+)\s*(?:\{[^}]*\}\s*|\([^)]*\)\s*)*:(?!=)")
FIELD = re.compile(r"^\s+(?:pub\s+)?([^\s(){}:.,;λ→\[\]]+)\s*:(?!=)")
IMPORT = re.compile(r"^\s*(?:ghost\s+)?(?:pub\s+)?use\s+([^\s{};]+?)\.?(?:\{([^}]*)\})?;?\s*$")
# Spec files of these names are taken by what Rattle makes.
MOVED = {"crates/search/specs/Contracts.antt": "Cycle"}
# Plain English, though a definition has the name too.
PLAIN = {"sym", "refl", "ap", "inl", "inr", "arith", "rules", "of", "at", "is", "the", "and", "or", "not", "by", "with", "from", "to", "all", "some", "none", "true", "false"}
# Names that would fall together with another.
OTHERWISE = {
    "planCheck": "plan_check_of",
    "setWord": "word_of_sets",
    "cellsFit": "all_cells_fit",
    "entryPlace": "place_of_entry",
    "leftBy": "record_left_by",
    "wayOn": "way_forward",
    "secondLane": "lane_after",
}


def own(path):
    parts = path.split(os.sep)
    return parts[0] == "crates" and "out" not in parts


def antt():
    return sorted(p for k in ("specs", "proofs") for p in glob.glob(f"crates/*/{k}/**/*.antt", recursive=True) if own(p))


def read(path):
    with open(path, encoding="utf-8") as f:
        return f.read()


def snake(word):
    word = word.replace("getD", "get_or")
    return re.sub(r"(?<=[a-z0-9∞])([A-Z])", lambda m: "_" + m.group(1).lower(), word) if word[:1].islower() else word


def declarations():
    names, fields, plain = collections.defaultdict(set), set(), set()
    for path in antt():
        if path.endswith("/Proof.antt"):
            continue
        record = None
        for line in read(path).splitlines():
            if line.lstrip().startswith("--") or not line.strip():
                continue
            depth = len(line) - len(line.lstrip())
            if record is not None and depth <= record:
                record = None
            m = DECLARED.match(line)
            if m:
                names[m.group(1)].add(path)
                if record is not None and FIELD.match(line):
                    fields.add(m.group(1))
                elif "/specs/" in path:
                    plain.add(m.group(1))
            if re.match(r"^\s*(pub\s+)?record\b", line):
                record = depth
    return names, fields, plain


def imported():
    """Names that some file takes from the library, and all words that a library name has."""
    library = set()
    for path in antt() + sorted(p for p in glob.glob("crates/*/src/**/*.rt", recursive=True) if own(p)):
        for line in read(path).splitlines():
            m = IMPORT.match(line)
            if m and not m.group(1).startswith("Rattle.") or m and re.match(r"Rattle\.(std|core)\b", m.group(1)):
                for one in (m.group(2) or m.group(1).split(".")[-1]).split(","):
                    library.add(one.strip().split(" as ")[0])
    return library


def spelled(name, words):
    parts = name.split("-")
    if "" in parts:
        return name
    groups, i = [], 0
    while i < len(parts):
        for j in range(len(parts), i, -1):
            word = "_".join(snake(p) for p in parts[i:j])
            if word in words and word not in PLAIN:
                groups.append((word, True))
                i = j
                break
        else:
            groups.append((snake(parts[i]), False))
            i += 1
    out = groups[0][0]
    for before, after in zip(groups, groups[1:]):
        out += ("-" if before[1] and after[1] else "_") + after[0]
    return out


def main(argv):
    names, fields, plain = declarations()
    library = imported()
    words = {snake(n) for n in plain if "-" not in n} | {n for n in library if "-" not in n}
    turn = {}
    for n in sorted(names):
        if n in library or not re.fullmatch(TOKEN, n) or n.startswith(("μ-", "+")):
            continue
        new = OTHERWISE.get(n) or spelled(n, words)
        if new != n:
            turn[n] = new
    files = antt() + sorted(p for p in glob.glob("crates/*/src/**/*.rt", recursive=True) if own(p))
    tokens = {path: set(re.findall(TOKEN, re.sub(r"(?m)^\s*(--|//).*$", "", read(path)))) for path in files}
    everywhere = set().union(*tokens.values())
    camel = {turn[n] for n in turn if "-" not in n}
    # A lemma that would have the name of a function or of a definition says that it is the lemma.
    for old, new in turn.items():
        if "-" in old and new in everywhere | camel:
            turn[old] = new + "_lem"
    news = collections.defaultdict(set)
    for old, new in turn.items():
        news[new].add(old)
    for new, olds in sorted(news.items()):
        if len(olds) > 1:
            print(f"falls together: {sorted(olds)} -> {new}")
    bare = {path: set(re.findall(r"(?<![\w.])" + TOKEN, re.sub(r"(?m)^\s*(--|//).*$", "", read(path)))) for path in files}
    for path in files:
        if path.endswith(".antt"):
            for new in bare[path] & set(news):
                print(f"already there: {new} (from {sorted(news[new])}) in {path}")
    pattern = re.compile(r"(?<![\w'∞₀-₉?.-])(" + "|".join(re.escape(n) for n in sorted(turn, key=len, reverse=True)) + r")(?![\w'∞₀-₉?-])")
    qualified = [n for n in turn if n in fields]
    dotted = re.compile(r"(?<=\.)(" + "|".join(re.escape(n) for n in sorted(qualified, key=len, reverse=True)) + r")(?![\w'∞₀-₉?-])") if qualified else None

    def mend(text, path):
        text = pattern.sub(lambda m: turn[m.group(1)], text)
        if dotted and not path.endswith(".rt") and not path.endswith(".md"):
            text = dotted.sub(lambda m: turn[m.group(1)], text)
        elif dotted and path.endswith(".rt"):
            text = re.sub(r"(?m)^.*(?:requires|ensures|ghost).*$", lambda m: dotted.sub(lambda k: turn[k.group(1)], m.group(0)), text)
        for moved, to in MOVED.items():
            crate, old = moved.split("/")[1], os.path.basename(moved)[:-5]
            text = text.replace(f"Rattle.{crate}.specs.{old}.", f"Rattle.{crate}.specs.{to}.")
            if path == f"crates/{crate}/specs/Lib.antt":
                text = re.sub(rf"(?m)^pub mod {old}\b", f"pub mod {to}", text)
        return text

    pages = ["README.md"] + sorted(glob.glob("docs/**/*.md", recursive=True)) + sorted(glob.glob("crates/*/must-fail/*.edit"))
    qualifier = re.compile(r"(?<=[\w`]\.)(" + "|".join(re.escape(n) for n in sorted(turn, key=len, reverse=True)) + r")(?![\w'∞₀-₉?-])")
    changed = 0
    for path in files + pages:
        text = read(path)
        if path.endswith(".rt"):
            # Code has no such names: only clauses, ghost items and comments are looked at.
            lines = text.split("\n")
            lines = [mend(l, path) if re.search(r"ghost use|requires|ensures|^\s*//|^\s*ghost\b", l) else l for l in lines]
            new = "\n".join(lines)
        else:
            new = mend(text, path)
            if path.endswith(".md"):
                new = qualifier.sub(lambda m: turn[m.group(1)], new)
        if new != text:
            changed += 1
            if "--dry" not in argv:
                with open(path, "w", encoding="utf-8") as f:
                    f.write(new)
    if "--dry" not in argv:
        for moved, to in MOVED.items():
            if os.path.exists(moved):
                os.rename(moved, os.path.join(os.path.dirname(moved), to + ".antt"))
    if "--list" in argv:
        print("\n".join(f"{old}\t{new}" for old, new in sorted(turn.items())))
    print(f"{len(turn)} names, {changed} files")
    return turn


if __name__ == "__main__":
    main(sys.argv[1:])
