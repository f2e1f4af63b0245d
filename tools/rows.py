#!/usr/bin/env python3
"""Keeps crates/definition/proofs/Rows.antt in step with the definitions: tools/rows.py, run at the top of the repository.

A row of texts is proved by computing, and to compute is to unfold every definition on the way. Rows.antt names them all, once: in the
`use` lines between two marking comments, and in the one `unfolding` line of `all-hold`. This writes those lines anew from the
`unfoldable pub` names of crates/definition/specs and leaves the rest of the file as it is. Run it after a definition was added, renamed
or removed, and `rt fmt` after it. Nothing of it has to be believed: with a name too few a row does not compute, and its proof is refused.
"""
import re

CRATE = "crates/definition/"
ROWS = CRATE + "proofs/Rows.antt"
FIRST, LAST = "-- the names that rows compute through, written by tools/rows.py", "-- the end of what tools/rows.py writes here"
TEST = "unfolding row-holds print_holds every small "
# What is promised of these, rows compute by the quick forms that stand beside them.
NOT_COMPUTED = {"Computed": ["verdict", "answer_of", "summary_verdict", "summary_for"]}


def read(path):
    with open(path, encoding="utf-8") as file:
        return file.read()


def unfoldable(folder, module):
    """The definitions of a module that have to be unfolded by name."""
    found = re.findall(r"^unfoldable pub (\S+)", read(f"{folder}specs/{module}.antt"), re.M)
    return [name for name in found if name not in NOT_COMPUTED.get(module, [])]


def grammar():
    """The grammar's part: what marks a text and judges it, but not what only its own proofs unfold."""
    return [("Notation", ["has", "dec"]), ("Tables", ["kinds", "table"]),
            ("Steps", ["kind_of"])]


def definition():
    modules = re.findall(r"^pub mod (\S+)", read(CRATE + "specs/Lib.antt"), re.M)
    return [(module, unfoldable(CRATE, module)) for module in modules]


def main():
    uses, names = [], ["flat_map"]
    for root, modules in (("Rattle.grammar.specs", grammar()), ("Rattle.definition.specs", definition())):
        for module, found in modules:
            if found:
                uses.append(f"use {root}.{module}.{{{', '.join(found)}}}")
                names += found
    twice = {name for name in names if names.count(name) > 1}
    if twice:
        raise SystemExit(f"two definitions of one name cannot both be unfolded: {', '.join(sorted(twice))}")
    text = read(ROWS)
    block = re.compile(re.escape(FIRST) + r"\n.*?" + re.escape(LAST), re.S)
    line = re.compile("^" + re.escape(TEST) + ".*$", re.M)
    if not block.search(text) or not line.search(text):
        raise SystemExit(f"{ROWS} has lost its marking comments or its unfolding line")
    text = block.sub("\n".join([FIRST, *uses, LAST]), text)
    text = line.sub(TEST + " ".join(names), text)
    with open(ROWS, "w", encoding="utf-8") as file:
        file.write(text)
    print(f"{ROWS}: {len(names)} names")


main()
