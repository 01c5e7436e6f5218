#!/usr/bin/env python3
"""Brings the repository's own definitions, fields and lemmas to snake case.

usage: python3 tools/respell.py        at the top of the repository, once, right after the toolchain's own port script

A name with dashes that is declared in specs/ or proofs/ gets underscores, wherever it is cited: in specs/, in proofs/, in the clauses of
src/ and in the edits. Lemmas about the bits of a number keep their dash (`bit-and` is the lemma on `bit` and `bit_and`): without it they
would fall together with the library's words. Functions of src/ have no dashes, and inputs and outputs are not read.
It stops, and writes nothing, where two new names would be the same. Where a file has the new name already it says so in a line 'look:'.
"""

import pathlib
import re
import sys

NAME = r"[A-Za-z_][\w']*(?:-[\w']+)+"
DECLARED = re.compile(r"^\s*(?:pub |abbrev |unfoldable |record |data |module )*(" + NAME + r")(?: [({].*)? ?: (?!goal\.)")
KEPT = re.compile(r"bit-")
WORD = re.compile(r"(?<![\w'·◌-])" + NAME + r"(?![\w'-])")


def texts():
    for path in sorted(pathlib.Path("crates").rglob("*")):
        if path.suffix in (".antt", ".rt", ".edit") and "out" not in path.parts:
            yield path


def declared():
    names = set()
    for path in texts():
        if path.suffix == ".antt":
            for line in path.read_text().splitlines():
                found = DECLARED.match(line)
                if found and not KEPT.match(found[1]):
                    names.add(found[1])
    return names


def main():
    names = declared()
    new = {name: name.replace("-", "_") for name in names}
    if len(set(new.values())) < len(new):
        sys.exit("two of the new names are the same")
    for path in texts():
        if path.suffix != ".antt":
            continue
        text = path.read_text()
        words = set(re.findall(r"(?<![\w'·-])[\w']+(?![\w'-])", text))
        for old in sorted(set(WORD.findall(text)) & names):
            if new[old] in words:
                print(f"look: {path}: {old} falls together with {new[old]}")
    for path in texts():
        text = path.read_text()
        turned = WORD.sub(lambda m: new.get(m[0], m[0]), text)
        if turned != text:
            path.write_text(turned)
    print("\n".join(f"{old} -> {new[old]}" for old in sorted(names)))


if __name__ == "__main__":
    main()
