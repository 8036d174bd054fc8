#!/usr/bin/env python3
"""spelling [--list]      spells the definitions, laws and fields of this repository as Rattle's library does: words in snake case

Run once, at the top, after port.py of the kit. It goes by the names that crates/*/specs and the lemma files of
crates/*/proofs declare, and renames them wherever they stand: in specs, proofs, clauses and must-fail edits of every
crate. --list only prints the old and the new names. Names of the library that a file imports keep their spelling.
"""
import pathlib
import re
import sys

ROOT = pathlib.Path(__file__).resolve().parent.parent
NAME = r"[^\s(){}\[\];,.λ:\\\"@`]+"
DECLARED = re.compile(r"^\s*(?:unfoldable\s+|abbrev\s+)?(?:pub\s+)?(?:abbrev\s+)?(" + NAME + r")\s*(?:\{[^}]*\}\s*)?:(?:\s|$)")
STD = re.compile(r"^\s*(?:ghost )?use (?:Rattle\.std|borrow|lib|native|mathlib|Prim|logic)[^{;\n]*\{([^}]*)\}", re.M)
# Fields that would have the name of a definition beside them.
APART = {"input-most": "input_fits", "is_open": "are_open"}
# Laws that port.py had spelled so already, and that have the name of a definition.
LAWS = {"columns_of", "kept_byte", "no_call", "row_number", "slots_at", "up_to_zero"}


def snake(name):
    """The name in snake case. Signs and what stands beside them stay, and so does a capital at the beginning."""
    if name[0].isupper() or not re.search("[a-z]", name):
        return name
    name = name.replace("getD", "get_or")
    return re.sub("(?<=[a-z0-9?])([A-Z])", lambda m: "_" + m[1].lower(), name).replace("-", "_")


def sources():
    for path in sorted(ROOT.glob("crates/*/specs/**/*.antt")) + sorted(ROOT.glob("crates/*/proofs/*.antt")):
        yield path
    for path in sorted(ROOT.glob("crates/*/proofs/**/*.antt")):
        if path.name not in ("Proof.antt", "Invariants.antt", "Answers.antt") and path.parent.name != "proofs":
            yield path


def declared():
    """Each declared name with the files that declare it."""
    names = {}
    for path in sources():
        for line in path.read_text().split("\n"):
            if line.lstrip().startswith("--"):
                continue
            found = DECLARED.match(line)
            if found:
                names.setdefault(found[1], set()).add(path)
    return names


def library(text):
    """The names that a file imports from the library."""
    return {name.strip().split(" as ")[0] for group in STD.findall(text) for name in group.split(",")}


def renamings(files):
    """Old names and new ones. A law that would have the name of a definition, or of a word of the library, gets `_lem`."""
    names = declared()
    words = set().union(*(library(path.read_text()) for path in files))
    new = {name: APART.get(name, snake(name)) for name in names}
    camel = {new[name] for name in names if re.search("[a-z0-9?][A-Z]", name) and "-" not in name and not name[0].isupper()}
    lone = {name for name in names if new[name] == name}
    for name in names:
        if name in LAWS or ("-" in name and new[name] in camel | lone | words):
            new[name] += "_lem"
    return {old: to for old, to in new.items() if old != to}, names, words


def main():
    files = [p for e in ("antt", "rt", "edit") for p in sorted(ROOT.glob("crates/*/**/*." + e)) if "out" not in p.parts]
    new, names, words = renamings(files)
    taken = {}
    for name in names:
        taken.setdefault(new.get(name, name), []).append(name)
    for to, olds in sorted(taken.items()):
        if len(olds) > 1:
            print("fall together:", to, olds, file=sys.stderr)
        if to in words and to in new.values():
            print("a word of the library:", to, olds, file=sys.stderr)
    if "--list" in sys.argv[1:]:
        for old in sorted(new):
            print(old, new[old])
        return 0
    changed = 0
    for path in files:
        text = path.read_text()
        std = library(text)

        def turn(match):
            word = match[0]
            if word not in new or word in std or (word in LAWS | {"is_open"} and (path.suffix == ".rt" or path.name == "Proof.antt")):
                return word
            return new[word]

        turned = re.sub(NAME, turn, text)
        if turned != text:
            path.write_text(turned)
            changed += 1
    print(len(new), "names,", changed, "files")
    return 0


sys.exit(main())
