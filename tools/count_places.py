#!/usr/bin/env python3
"""Counts, in crates/*/src, the places at which the code could take a plainer form of the language (docs/DESIGN-PASS.md says what became of them).

    python3 tools/count_places.py [--list] [FOLDER]

FOLDER is a checkout, by default this one. With --list each place is printed. The counts go by text, so they find some places that are right as they
are, and a count of zero is no proof; the same command before and after a change says what the change did.
"""
import glob
import os
import re
import sys
from collections import defaultdict

FUNCTION = re.compile(r"^( *)(?:pub(?:\([a-z]+\))? )?(?:const )?(?:extern \"C\" )?fn (\w+)")
INTEGERS = r"(?:u8|u16|u32|u64|usize)"


def functions(text):
    """Name, head (parameters and result), clauses and body of each function."""
    lines = text.split("\n")
    found, i = [], 0
    while i < len(lines):
        match = FUNCTION.match(lines[i])
        if not match:
            i += 1
            continue
        indent, name = match[1], match[2]
        end = i
        while end < len(lines) and lines[end] not in (f"{indent}}}", f"{indent}{{}}") and not lines[end].endswith(";\n"):
            if lines[end].startswith(indent) and lines[end].rstrip().endswith(";") and "{" not in lines[end] and end > i and "ensures" not in lines[end] and lines[end].startswith(f"{indent})"):
                break
            end += 1
        block = lines[i : end + 1]
        opening = next((k for k, line in enumerate(block) if line in (f"{indent}{{", f"{indent}{{}}")), len(block) - 1)
        head = [line for line in block[:opening] if not re.match(r"\s*(requires|ensures)\b", line)]
        clauses = [line.strip() for line in block[:opening] if re.match(r"\s*(requires|ensures)\b", line)]
        body = [re.sub(r"\s*//.*", "", line) for line in block[opening + 1 : -1]]
        found.append((name, " ".join(line.strip() for line in head), clauses, [line for line in body if line.strip()]))
        i = end + 1
    return found


def parts(text, separator, opened, closed):
    """The parts of a text between separators that stand in no bracket, up to a bracket that closes more than was opened."""
    depth, word, out = 0, "", []
    for letter in text:
        depth += (letter in opened) - (letter in closed)
        if depth < 0:
            break
        if letter == separator and depth == 0:
            out.append(word.strip())
            word = ""
        else:
            word += letter
    return [it for it in [*out, word.strip()] if it]


def parameters(head):
    inside = head[head.index("(") + 1 :] if "(" in head else ""
    return [it for it in parts(inside, ",", "([<", ")]>") if it not in ("self", "&self", "&mut self")]


def conjuncts(clause):
    inside = clause[clause.index("{") + 1 : clause.rindex("}")].strip()
    return [re.sub(r"^\((.*)\)$", r"\1", it) for it in parts(inside, "×", "([{", ")]}")]


def plain(lines, name):
    """A body or a declaration with its own name, numbers and names of types and of generic arguments made the same."""
    text = " ".join(line.strip() for line in lines)
    text = re.sub(rf"\b{name}\b", "F", text)
    text = re.sub(r"\b\d[\d_]*(?:u8|u16|u32|u64|usize)?\b", "N", text)
    text = re.sub(rf"\b{INTEGERS}\b", "T", text)
    return re.sub(r"\b[A-Z][A-Z_0-9]+\b", "C", text)


def main(arguments):
    listed = "--list" in arguments
    folders = [it for it in arguments if it != "--list"]
    root = folders[0] if folders else os.path.join(os.path.dirname(os.path.abspath(__file__)), "..")
    places = defaultdict(list)
    bodies, declared = defaultdict(list), defaultdict(list)
    for folder in sorted(glob.glob(f"{root}/crates/*/src")):
        crate = folder.split("/")[-2]
        facts, runs = defaultdict(set), defaultdict(set)
        for file in sorted(glob.glob(f"{folder}/**/*.rt", recursive=True)):
            with open(file, encoding="utf-8") as it:
                text = it.read()
            short = f"{crate}/{os.path.relpath(file, folder)}"
            code = re.sub(r"//.*", "", re.sub(r"^ *(requires|ensures|ghost) .*$", "", text, flags=re.M))
            for match in re.finditer(r"^(?:pub(?:\([a-z]+\))? )?(enum|struct) (\w+)[^\n]*\{\n(.*?)^\}", code, flags=re.M | re.S):
                kind, name, inside = match[1], match[2], match[3]
                declared[plain(re.sub(r"\bpub(\([a-z]+\))? ", "", inside).split("\n"), name)].append(f"{short} {name}")
                if kind == "enum":
                    places["1 own enums"].append(f"{short} {name}")
                    for variant in re.findall(r"^    (\w+)", inside, flags=re.M):
                        if variant in ("Refused", "Faulty", "Malformed", "Missing", "Nothing", "Unknown", "Unfinished", "TooLong", "Infinite"):
                            places["1 variants that say no"].append(f"{short} {name}::{variant}")
            for match in re.finditer(r"^\s*(while\b|loop\b)[^\n]*", code, flags=re.M):
                places["3 while and loop"].append(f"{short} {match[0].strip()}")
            for match in re.finditer(r"^\s*for (\w+) in ([^\n]*\.\.[^\n]*) \{", code, flags=re.M):
                places["3 for over a range of numbers"].append(f"{short} {match[0].strip()}")
            for match in re.finditer(rf"[\w\])]+ as {INTEGERS}\b", code):
                places["4 `as`"].append(f"{short} {match[0]}")
            for match in re.finditer(r"let (?:mut )?\w+(?:: [^=\n]+)? = \[[^\];\n]+; [^\]\n]+\];", code):
                places["6 arrays in a function"].append(f"{short} {match[0]}")
            for name, head, clauses, body in functions(text):
                where = f"{short} {name}"
                if re.search(rf"-> {INTEGERS}$", head):
                    inner = "\n".join(body)
                    answers = re.findall(r"return (\d+|[A-Z_]+);", inner)
                    if [it for it in answers if it not in ("0", "1")]:
                        places["1 functions that answer a number for none"].append(where)
                    if len(body) == 1 and re.match(rf"^\s*[\w.\[\]()+* ]+ as {INTEGERS}$", body[0]):
                        places["4 functions that only convert"].append(where)
                    if len(body) == 4 and re.match(r"^\s*if \w+ (<|<=|>) \w+ \{$", body[0]) and re.match(r"^\s*return \w+;$", body[1]) and re.match(r"^\s*\w+$", body[3]):
                        places["4 max and min by hand"].append(where)
                if len(body) >= 3:
                    bodies[plain(body, name)].append(where)
                given = parameters(head)
                for it in given:
                    if re.search(r"&(?:'\w+ )?(?:mut )?\[\w+; \d+\]", it):
                        places["6 parameters that are arrays of a literal size"].append(f"{where} {it}")
                for k in range(len(given) - 2):
                    runs[", ".join(given[k : k + 3])].add(where)
                for clause in clauses:
                    if clause.startswith("requires"):
                        for fact in conjuncts(clause):
                            facts[re.sub(r"\.(now|old|new)\b", "", fact)].add(where)
                calls = re.findall(r"(?<![\w:.])(\w+)\(", "\n".join(body))
                if [it for it in set(calls) if calls.count(it) >= 4 and len(set(re.findall(rf"\b{it}\([^;\n]*\)", "\n".join(body)))) >= 4 and re.search(r"==|match", "\n".join(body)) and it not in ("Ok", "Err", "Some")]:
                    places["7 switches on which call to make"].append(where)
        for fact, users in facts.items():
            if len(users) >= 3:
                places["5 facts in three or more `requires` of a crate"].append(f"{crate}: {fact} ({len(users)})")
        for run, users in runs.items():
            if len(users) >= 3:
                places["5 three parameters that travel together"].append(f"{crate}: {run} ({len(users)})")
    for group in bodies.values():
        if len(group) > 1:
            places["2 functions with a twin"] += group
    for group in declared.values():
        if len(group) > 1:
            places["2 structs and enums with a twin"] += group
    for name in sorted(places):
        print(f"{len(places[name]):5}  {name}")
        if listed:
            for place in places[name]:
                print(f"         {place}")


if __name__ == "__main__":
    main(sys.argv[1:])
