#!/usr/bin/env python3
"""Brings the names that this repository gives its definitions and lemmas to one spelling: words in snake case, facts and types in upper camel case.

Run at the top of the repository, once, on what /opt/rattle/port/port.py has written. It says each name that would fall together with another, and then writes nothing.
Names that a file brings in from the library stay, and so do the names that Rattle makes of goals and steps, since they stand only in the folders of proofs/.
"""
import collections
import pathlib
import re
import sys

NAME = re.compile(r"[A-Za-z_][\w']*(?:-[\w*'≤]+)+")
WORD = re.compile(r"(?<![\w'-])[A-Za-z_][\w']*(?:-[\w*'≤]+)*")
LIBRARY = re.compile(r"(?m)^\s*(?:pub )?(?:ghost )?use (?!Rattle\.(?:codes|table|wire|text|desk|bench)\.)\S*\.\{([^}]*)\}")
# A word that names a module in a path meets no definition.
PATH = re.compile(r"(?<![\w'-])(?:[A-Za-z_+][\w'+]*\.)+(?=[\w{+])")
# A field of a record of that name stands in the same file, and meets no definition.
BESIDE_A_FIELD = {"all-right"}
# Names that say a word of the library as it was spelled.
OTHER = {"get_d_set": "get_or_set", "get_d_rows": "get_or_rows", "getD-row": "get_or_row", "getD-all-codes": "get_or_all_codes"}


def respelled(name):
    if name in OTHER:
        return OTHER[name]
    if name[0].isupper():
        return "".join(part[0].upper() + part[1:] for part in name.split("-"))
    return name.replace("-", "_")


def without_comments(text):
    return re.sub(r"--.*", "", text)


def main():
    crates = pathlib.Path("crates")
    files = sorted(p for p in crates.rglob("*") if p.suffix in (".rt", ".antt") and "out" not in p.parts)
    text = {p: p.read_text() for p in files}
    library = {name.split(" as ")[0].strip() for t in text.values() for found in LIBRARY.findall(t) for name in found.split(",")}
    # specs/*.antt and proofs/*.antt define; proofs/F/*.antt answer goals whose names Rattle makes.
    own = {m[0] for p in files if p.suffix == ".antt" and p.parent.name in ("specs", "proofs") for m in NAME.finditer(without_comments(text[p]))}
    own = {name for name in own | set(OTHER) if name not in library}
    met = collections.defaultdict(set)
    for p in files:
        # A function of src/ and a definition of the same name do not meet either: clauses see definitions alone.
        for m in WORD.finditer(PATH.sub("", without_comments(text[p])) if p.suffix == ".antt" else ""):
            met[m[0]].add(p)
    together = [f"{name} and {respelled(name)} stand in {p}" for name in sorted(own - BESIDE_A_FIELD) for p in sorted(met[name] & met[respelled(name)])]
    by_new = collections.defaultdict(list)
    for name in sorted(own):
        by_new[respelled(name)].append(name)
    together += [f"{', '.join(names)} are all {new}" for new, names in by_new.items() if len(names) > 1]
    if together:
        print("\n".join(together))
        return 1
    for p in files:
        new = WORD.sub(lambda m: respelled(m[0]) if m[0] in own else m[0], text[p])
        if new != text[p]:
            p.write_text(new)
    for name in sorted(own):
        print(f"{name} -> {respelled(name)}")
    return 0


sys.exit(main())
