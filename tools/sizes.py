#!/usr/bin/env python3
"""Prints the table of sizes of docs/ARCHITECTURE.md: for each crate of crates.txt its lines of code with clauses and
tests, of definitions, and of proofs, and its must-fail edits."""
import pathlib

TOP = pathlib.Path(__file__).resolve().parent.parent


def lines(paths):
    return sum(len(path.read_text().splitlines()) for path in paths)


def sizes(crate):
    folder = TOP / "crates" / crate
    return (
        lines(folder.glob("src/**/*.rt")),
        lines(folder.glob("specs/**/*.antt")),
        lines(folder.glob("proofs/**/*.antt")),
        len(list(folder.glob("must-fail/*.edit"))),
    )


def main():
    names = [line.split(":")[0].split()[0] for line in (TOP / "crates.txt").read_text().splitlines() if line and line[0] != "#"]
    total = [0, 0, 0, 0]
    print("| crate | code | definitions | proofs | edits |")
    print("|---|---|---|---|---|")
    for name in names:
        counts = sizes(name)
        total = [a + b for a, b in zip(total, counts)]
        print(f"| `{name}` | " + " | ".join(f"{n:,}" for n in counts) + " |")
    print("| all | " + " | ".join(f"{n:,}" for n in total) + " |")


main()
