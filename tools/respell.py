#!/usr/bin/env python3
"""Brings this repository's own definitions and lemmas to the spelling of today's library: words in snake case.

    python3 tools/respell.py        at the top, once, after the kit's port.py

Each name that a file of specs/ or proofs/ defines in camel case or with dashes is written with underscores, wherever it
stands in an .antt or .rt file. Types keep their capitals. Names of generated goals are left as they are, since no
file of lemmas defines them. OTHER has the names that would fall together with another one.
"""
import pathlib
import re
import sys

ROOT = pathlib.Path(__file__).resolve().parent.parent
WORD = r"[A-Za-z0-9_'\u2080-\u2089-]"
# names whose plain respelling is another definition's, or a word of the library's
OTHER = {
    "afterLast": "after_last_in",
    "ownHit": "own_hit_in",
    "ownLine": "own_line_in",
    "roomNext": "next_of_room",
    "requestNext": "next_of_request",
    "servedNext": "next_of_served",
    "turnNext": "next_of_turn",
    "lineOk": "line_ok_at",
    "pairOk": "pair_ok_at",
    "turnOk": "turn_ok_at",
    "entryOk": "entry_ok_at",
    "holderOk": "holder_ok_at",
    "ownerOk": "owner_ok_at",
    "granted-line": "granted_line_fits",
    "waits-for": "waits_for_target",
    "bit-or": "bit_of_or",
    "bit-xor": "bit_of_xor",
}
GENERATED = {"Answers.antt", "Invariants.antt", "Proof.antt"}
DEFINES = re.compile(r"^(\s{0,4})((?:abbrev |unfoldable |pub |data |record )*)([^\s:(){}]+)((?:\s[^:]*)?) :\s")


def snake(name):
    return re.sub(r"(?<=[a-z0-9])([A-Z])", lambda m: "_" + m[1].lower(), name).replace("-", "_")


def defined():
    names = set()
    for path in sorted(ROOT.glob("crates/*/specs/**/*.antt")) + sorted(ROOT.glob("crates/*/proofs/**/*.antt")):
        if path.name in GENERATED:
            continue
        for line in path.read_text().splitlines():
            found = DEFINES.match(line)
            if found and re.match(r"[a-z]", found[3]) and found[3] not in ("let", "use", "in", "module", "elim", "mod"):
                names.add(found[3])
    return names


def main():
    names = defined()
    to = {n: OTHER.get(n, snake(n)) for n in names if re.search(r"-|[A-Z]", n)}
    told = {}
    for old, new in sorted(to.items()):
        told.setdefault(new, []).append(old)
    clashes = {new: olds for new, olds in told.items() if len(olds) > 1 or new in names}
    if clashes:
        for new, olds in clashes.items():
            print(f"falls together: {', '.join(olds)} -> {new}")
        return 1
    pattern = re.compile(f"(?<!{WORD})(" + "|".join(sorted(map(re.escape, to), key=len, reverse=True)) + f")(?!{WORD})")
    for path in sorted(ROOT.glob("crates/*/**/*")):
        if path.suffix in (".antt", ".rt") and "out" not in path.parts and path.is_file():
            old = path.read_text()
            new = pattern.sub(lambda m: to[m[1]], old)
            if new != old:
                path.write_text(new)
    print(f"{len(to)} names respelled")
    return 0


if __name__ == "__main__":
    sys.exit(main())
