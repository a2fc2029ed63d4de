#!/usr/bin/env python3
"""Brings the names of this repository's own definitions, lemmas, fields and facts to today's spelling, by the table beside it.

usage: tools/respell.py [--check] [FOLDER]     FOLDER is the top of a checkout on which port.py has run (default: this one)

A row of respelled.tsv has the old name, a tab, and the new one: snake case for definitions, fields and constructors, camel case for facts and
types, and for lemmas snake case with a dash between two names. It turns whole words: in .antt files the code, and of a comment what the file's code
has; in .rt files the `ghost use` items and the clauses, and of a comment what these have. A name that a file imports from the library keeps its spelling there.
Of a must-fail edit the lines `old:` and `new:` turn. Functions of src/, exported names, strings, inputs and outputs are not touched. A file of
specs/ that has a name which Rattle now keeps for itself gets another. --check writes nothing. Each line 'together:' is a word that stood in
a file already in the spelling that another gets there: read those.
"""
import os
import re
import sys

# files of specs/ whose names Rattle keeps for itself, with the module that each is now
MOVED = {"crates/way_back/specs/Contracts": "crates/way_back/specs/ByContract"}
HERE = os.path.dirname(os.path.realpath(__file__))
WORD = re.compile(r"[^\s(){}.;,@\"«»`\[\]]+")
QUIET = re.compile(r'"(?:[^"\\\n]|\\.)*"|(?<![^\s(){}.;,@"«»])--[^\n]*', re.S)
RUST = re.compile(r"""//[^\n]*|b?"(?:\\.|[^"\\])*"|b?'(?:\\x..|\\.|[^'\\])'|'?\w+|\s+|.""", re.S)
CLAUSE = re.compile(r"(?:requires|ensures)\s*\*?\s*(?:\w+\s*)?\{|ghost\s*(?:\w+\s*(?::\s*(?:(?:owns|lends)\s*)?|=\s*))?\{")
GHOST_USE = re.compile(r"ghost\s+use\b[^;]*;")
USE = re.compile(r"(?:^|\n)\s*(?:pub )?(?:ghost )?use ([^\s{;]+?)\.\{([^}]*)\}")


def table(path):
    with open(path, encoding="utf-8") as f:
        return dict(line.rstrip("\n").split("\t") for line in f if line.strip())


def foreign(text):
    """The names that a file imports from the library, by their own spelling there and as the file calls them."""
    found = set()
    for module, names in USE.findall(text):
        if not module.startswith("Rattle.") or module.startswith("Rattle.std"):
            for item in names.split(","):
                found.update(item.split(" as ")[-1:])
    return {it.strip() for it in found}


def closing(text, at):
    depth = 1
    while depth and at < len(text):
        depth += {"{": 1, "}": -1}.get(text[at], 0)
        at += 1
    return at - 1


def turned(code, names):
    return WORD.sub(lambda m: names.get(m[0], m[0]), code)


def tidy_as(code):
    """An import 'x as x' is 'x'."""
    return re.sub(r"(?<![^\s{,])([^\s{},]+) as \1(?=[\s,}])", r"\1", code)


def antt(text, names):
    plain = QUIET.sub(" ", text)
    has = set(WORD.findall(plain))
    inside = {a: b for a, b in names.items() if a in has}
    out, at = [], 0
    for m in QUIET.finditer(text):
        out += [tidy_as(turned(text[at : m.start()], names)), m[0] if m[0][0] == '"' else turned(m[0], inside)]
        at = m.end()
    return "".join(out) + tidy_as(turned(text[at:], names)), has


def rust(text, names):
    parts, at = [], 0
    while at < len(text):
        m = RUST.match(text, at)
        word, end = m[0], m.end()
        use = GHOST_USE.match(text, at) if word == "ghost" else None
        clause = CLAUSE.match(text, at) if word in ("requires", "ensures", "ghost") else None
        if use:
            end = use.end()
            parts.append(("antt", use[0]))
        elif clause:
            end = closing(text, clause.end())
            parts += [("rust", clause[0]), ("antt", text[clause.end() : end])]
        else:
            parts.append(("comment" if word[:2] == "//" else "rust", word))
        at = end
    has = set(WORD.findall(" ".join(t for k, t in parts if k == "antt")))
    inside = {a: b for a, b in names.items() if a in has}
    how = {"antt": lambda t: tidy_as(turned(t, names)), "comment": lambda t: turned(t, inside), "rust": str}
    return "".join(how[k](t) for k, t in parts), has


def edit(text, names):
    """A must-fail edit: what it takes away and what it puts there."""
    return re.sub(r"(?m)^(?:old|new):.*$", lambda m: turned(m[0], names), text)


def moved(text, path):
    """A text with the paths of the files that moved."""
    for old, new in MOVED.items():
        crate, a, b = old.split("/")[1], os.path.basename(old), os.path.basename(new)
        text = text.replace(f"Rattle.{crate}.specs.{a}", f"Rattle.{crate}.specs.{b}")
        if f"crates/{crate}/" in path:
            text = text.replace(f"specs/{a}.antt", f"specs/{b}.antt")
        if path.endswith(f"crates/{crate}/specs/Lib.antt"):
            text = text.replace(f"pub mod {a}\n", f"pub mod {b}\n")
    return text


def main(argv):
    check = "--check" in argv
    rest = [a for a in argv if a != "--check"]
    root = rest[0] if rest else os.path.dirname(HERE)
    names = table(os.path.join(HERE, "respelled.tsv"))
    changed = 0
    for folder, dirs, files in os.walk(os.path.join(root, "crates")):
        dirs[:] = sorted(d for d in dirs if d != "out")
        for name in sorted(files):
            if not name.endswith((".antt", ".rt", ".edit")):
                continue
            path = os.path.join(folder, name)
            with open(path, encoding="utf-8") as f:
                text = f.read()
            if name.endswith(".edit"):
                new = moved(edit(text, names), path)
                if new != text and not check:
                    with open(path, "w", encoding="utf-8") as f:
                        f.write(new)
                continue
            kept = foreign(text)
            own = {a: b for a, b in names.items() if a not in kept}
            new, has = (antt if name.endswith(".antt") else rust)(text, own)
            for a, b in own.items():
                if a in has and b in has:
                    print(f"together: {os.path.relpath(path, root)}: {a} and {b}")
                if a in has and b in kept:
                    print(f"together: {os.path.relpath(path, root)}: {a} and the library's {b}")
            new = moved(new, path)
            if new != text:
                changed += 1
                if not check:
                    with open(path, "w", encoding="utf-8") as f:
                        f.write(new)
    for old, new in MOVED.items():
        if not check and os.path.exists(f"{root}/{old}.antt"):
            os.rename(f"{root}/{old}.antt", f"{root}/{new}.antt")
    print(f"{changed} files {'would change' if check else 'changed'}")


if __name__ == "__main__":
    main(sys.argv[1:])
