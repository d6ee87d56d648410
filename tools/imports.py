#!/usr/bin/env python3
"""Refuses that a crate imports from the `proofs/` of another one, outside the room of general lemmas.

    tools/imports.py [--check]        names each such import, and exits with 1 where there is one

What stands in `proofs/` is a crate's own, and may change without a look at the crates above. A law that they use stands in
`specs/lemmas/`, or is a clause; that a file of `specs/` hands one on from `proofs/` by `pub use` counts as an import too. Lemmas on what
std has, as options and lists, are no crate's own: their room is ROOM, below all that need it.
"""
import glob, os, re, sys

ROOT = os.path.dirname(os.path.dirname(os.path.abspath(__file__)))

# the room of general lemmas, which each crate may import
ROOM = "blob_device.proofs.general"

# a path into the proofs of a crate, with the names behind it where it has some, and whether these are handed on
PATH = re.compile(r"(pub use )?\bRattle\.((\w+)\.proofs(?:\.[\w'-]+)*)(?:\.\{([^}]*)\})?")


def text_of(path):
    with open(path, encoding="utf-8") as it: lines = it.read().split("\n")
    return "\n".join(line for line in lines if not line.lstrip().startswith(("--", "//")))


def imported():
    """what is imported from the proofs of other crates: the file, whose it is, and its name"""
    crates = set(os.listdir(os.path.join(ROOT, "crates")))
    for path in sorted(it for room in ("src", "specs", "proofs") for it in glob.glob(os.path.join(ROOT, "crates", "*", room, "**", "*.*"), recursive=True)):
        if not path.endswith((".rt", ".antt")): continue
        file = os.path.relpath(path, os.path.join(ROOT, "crates"))
        crate, room = file.split("/")[:2]
        for passes_on, whence, owner, names in PATH.findall(text_of(path)):
            is_own = owner == crate and not (passes_on and room == "specs")
            if is_own or owner not in crates or (whence + ".").startswith(ROOM + "."): continue
            for name in names.split(",") if names else [whence.split(".")[-1]]: yield file, owner, name.strip()


def main():
    found = list(imported())
    for file, owner, name in found:
        print("crates/%s imports `%s` from the proofs of %s. Cite a law of its specs/; a general lemma stands in %s" % (file, name, owner, ROOM))
    if found: sys.exit(1)


main()
