#!/usr/bin/env python3
"""Sees that docs/THEOREMS.md and README.md name what exists, in a second; .ci/run runs it.

The last column of each row of THEOREMS.md, and the brackets behind each numbered sentence of README.md, name the functions
and clauses that say it. A name behind a crate's (`smc_exec`: `answer`, `delete_rows`) is a function, a method, a type, a
module or a clause of that crate; any other is one of some crate. A path `a::b` names both.
"""

import pathlib
import re
import sys

TOP = pathlib.Path(__file__).resolve().parent.parent
NAMES = re.compile(
    r"\b(?:fn|struct|enum|trait|mod|const|type|ensures|requires)\s+([A-Za-z_]\w*)"
)
TICKED = re.compile(r"`([^`]+)`(:?)")


def names_of(crate):
    """The names that a crate declares, and those of its modules and files of definitions."""
    found = {crate.name}
    for file in crate.glob("src/**/*.rt"):
        found |= set(NAMES.findall(file.read_text(encoding="utf-8")))
        found.add(file.stem)
    for file in crate.glob("specs/**/*.antt"):
        found.add(file.name)
    return found


def places():
    """Where something is named: a place to tell, and the text."""
    for at, line in enumerate((TOP / "docs/THEOREMS.md").read_text(encoding="utf-8").splitlines(), 1):
        cells = [it.strip() for it in line.split("|")]
        if len(cells) == 4 and cells[2] not in ("said by", "---"):
            yield f"docs/THEOREMS.md:{at}", cells[2]
    for at, line in enumerate((TOP / "README.md").read_text(encoding="utf-8").splitlines(), 1):
        said = re.fullmatch(r"\d+\. .*\((.*)\)", line)
        if said:
            yield f"README.md:{at}", said[1]


def missing(text, known):
    """The names of a text that nothing has."""
    crate = None
    for name, colon in TICKED.findall(text):
        parts = name.split("::")
        if parts[0] in known and (colon or len(parts) > 1):
            crate = parts[0]
        if colon and parts[0] not in known:
            crate = None
        here = known[crate] if crate else set().union(*known.values())
        for part in parts:
            if part not in here and part not in known:
                yield name


def main():
    known = {it.name: names_of(it) for it in (TOP / "crates").iterdir() if (it / "src").is_dir()}
    count, bad = 0, 0
    for place, text in places():
        count += 1
        if "`" not in text:
            bad += 1
            print(f"{place}: names nothing", file=sys.stderr)
        for name in missing(text, known):
            bad += 1
            print(f"{place}: nothing is named {name}", file=sys.stderr)
    print(f"theorems: {count} rows, {bad} names that nothing has")
    return 1 if bad else 0


if __name__ == "__main__":
    sys.exit(main())
