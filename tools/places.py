#!/usr/bin/env python3
"""Counts, in a tree's crates/*/src, the places that docs/DESIGN-PASS.md speaks of, a line for each point; with -v, each place.

    tools/places.py [-v] [TREE]

Point 1: enums of which one variant carries a value and another none, or with a variant that refuses; and functions that give
numbers to variants by a match. 2: functions of one body but for names and numbers. 3: while loops that count an index by hand.
4: functions that answer a truth by a match of all variants, and chains of three tests for equality or more. 5: premises that
stand in three functions or more, and groups of three parameters that do. 6: words with how many tokens of them count beside
them.
7: matches on a letter or a number that pick the call. 8: answers of proofs, and their lines."""
import collections
import glob
import re
import sys

args = [a for a in sys.argv[1:] if a != "-v"]
verbose = "-v" in sys.argv
tree = args[0] if args else "."


def functions(text):
    """Each function: its name, its head, its body."""
    for m in re.finditer(r"^[ \t]*(?:pub(?:\(crate\))? )?(?:extern \"C\" )?fn (\w+)", text, re.M):
        i = m.end()
        depth = 0
        start = None
        while i < len(text):
            c = text[i]
            if c == "{" and text[i - 2 : i] not in ("s ", "o ") or c == "{" and start is not None:
                if start is None and re.search(r"(?:ensures|requires)\b[^\n{}]*$", text[: i][-160:]):
                    i = text.index("}", i)
                else:
                    if start is None:
                        start = i
                    depth += 1
            elif c == "{":
                i = text.index("}", i)
            elif c == "}" and start is not None:
                depth -= 1
                if depth == 0:
                    break
            i += 1
        if start is not None:
            yield m.group(1), text[m.start() : start], text[start : i + 1]


sources = {}
for path in sorted(glob.glob(tree + "/crates/*/src/**/*.rt", recursive=True)):
    name = path.split("/crates/")[1]
    sources[name] = re.sub(r"//[^\n]*", "", open(path, encoding="utf8").read())

found = collections.defaultdict(list)
bodies = collections.defaultdict(list)
premises = collections.defaultdict(list)
groups = collections.defaultdict(set)
for name, text in sources.items():
    for m in re.finditer(r"enum (\w+)[^{]*\{(.*?)\n\}", text, re.S):
        body = re.sub(r"\{[^{}]*\}", "(..)", m.group(2))
        variants = re.findall(r"^\s*(\w+) ?(\(.*?\))?", body, re.M)
        carrying = [v for v, p in variants if p]
        bare = [v for v, p in variants if not p]
        if carrying and (bare or "Refused" in carrying):
            found[1].append(f"{name} enum {m.group(1)}")
    for fn, head, body in functions(text):
        if len(re.findall(r"=> (?:\d+|[A-Z][A-Z_]+|codes::[A-Z_]+|scalar::[A-Z_]+),", body)) > 1 and "::" in body:
            found[1].append(f"{name} {fn}: numbers by a match")
        if capped := re.findall(r"while [^{]*\{", body):
            counted = len(re.findall(r"^\s*\w+ [+-]= (?:1|4|next);", body, re.M)) + len(re.findall(r"^\s*i = next;", body, re.M))
            if counted:
                found[3].append(f"{name} {fn}")
        if re.search(r"-> bool", head):
            arms = re.findall(r"=> ([^,{]+),", body)
            if len(arms) > 1 and all(a.strip() in ("true", "false") for a in arms):
                found[4].append(f"{name} {fn}: a truth by all variants")
        if len(re.findall(r"if \w+(?:\.\w+)? == [\w:']+(?:b'.')? ?\{\n\s*return", body)) > 2:
            found[4].append(f"{name} {fn}: a chain of tests")
        plain = re.sub(r"\b[a-z_]\w*\b(?!\!)|\b\d\w*\b|b?'[^']+'|b?\"[^\"]*\"", "x", re.sub(r"\s+", " ", body))
        plain = re.sub(r"\b[A-Z]\w*\b", "X", plain)
        if body.count("\n") > 4:
            bodies[plain].append(f"{name} {fn}")
        for p in re.findall(r"requires(?: \w+)? \{(.*?)\}", head, re.S):
            for fact in re.findall(r"\(([^()]*(?:\([^()]*\)[^()]*)*)\)", p) or [p]:
                premises[(name.split("/")[0], re.sub(r"\s+", " ", fact.strip()))].append(fn)
        m = re.search(r"\((.*?)\)\s*(?:->|\n|$|ensures|requires)", head[head.index("fn ") :], re.S)
        if m:
            ps = [re.sub(r"\s+", " ", x.strip()) for x in m.group(1).split(",") if ":" in x]
            for i in range(len(ps)):
                for j in range(i + 1, len(ps)):
                    for k in range(j + 1, len(ps)):
                        groups[(name.split("/")[0], ps[i], ps[j], ps[k])].add(name + " " + fn)
        if re.search(r"\bcount: (?:usize|u32)", head) and re.search(r": &(?:mut )?\[u32\]", head):
            found[6].append(f"{name} {fn}")
        if re.search(r"match (?:kind|name|letter|\w+\.kind) \{\s*b'", body) or len(re.findall(r"if (?:kind|name) == b'", body)) > 1:
            found[7].append(f"{name} {fn}")
for plain, names in bodies.items():
    if len(names) > 1:
        found[2].append(" = ".join(names))
for (crate, fact), fns in premises.items():
    if len(set(fns)) > 2:
        found[5].append(f"{crate}: {fact} ({len(set(fns))} functions)")
together = collections.defaultdict(list)
for (crate, *ps), fns in groups.items():
    if len(fns) > 2:
        together[(crate, tuple(sorted(fns)))] += [p for p in ps if p not in together[(crate, tuple(sorted(fns)))]]
for (crate, fns), ps in together.items():
    found[5].append(f"{crate}: {'; '.join(ps)} ({len(fns)} functions)")
answers = lines = 0
for path in glob.glob(tree + "/crates/*/proofs/**/Answers.antt", recursive=True):
    text = open(path, encoding="utf8").read()
    answers += len(re.findall(r"^(?:pub )?[\w\-]+ : goal\.", text, re.M))
    lines += text.count("\n")
for point in range(1, 8):
    print(f"point {point}: {len(found[point])}")
    if verbose:
        for place in found[point]:
            print("   ", place)
print(f"point 8: {answers} answers, {lines} lines of answers")
