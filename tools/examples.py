#!/usr/bin/env python3
"""Runs the examples with the built program, and compares what they print with what is stored or shown.

    tools/examples.py ./smc         the status is 0 where nothing differs; .ci/run ends with it

Each script and schedule under examples/ has its output beside it, in a file that ends in .out. In README.md and in docs/ an
indented block that begins with `$` is a session: each `$` line is a command, run in the folder in which the one before it has
ended, and the lines behind it are what it prints.
"""
import pathlib
import re
import subprocess
import sys

TOP = pathlib.Path(__file__).resolve().parent.parent


def stored(program):
    """Each example with its stored output: its name, what it prints, and what it should print."""
    for script in sorted(TOP.glob("examples/*/*")):
        words = {".smc": ["run"], ".play": ["play"]}.get(script.suffix)
        if words:
            ran = subprocess.run([program, *words], stdin=script.open(), cwd=script.parent, capture_output=True, text=True)
            yield script.relative_to(TOP), ran.stdout, script.with_suffix(".out").read_text()


def sessions(page):
    """The sessions of a page: lists of commands, each with the lines that it prints."""
    for block in re.findall(r"(?:^(?: {4}.*)?\n)+", page.read_text(), re.M):
        lines = [line[4:] for line in block.splitlines()]
        while lines and not lines[0]:
            lines.pop(0)
        if lines and lines[0].startswith("$ "):
            session = []
            for line in lines:
                if line.startswith("$ "):
                    session.append((line[2:], []))
                else:
                    session[-1][1].append(line)
            yield session


def shown(program):
    """Each command that a page shows: its page and text, what it prints, and what the page says that it prints."""
    for page in [TOP / "README.md", *sorted(TOP.glob("docs/*.md"))]:
        for session in sessions(page):
            before = f"cd {TOP}"
            for command, lines in session:
                command = re.sub(r"(?:\.\./)*\./smc ", f"{program} ", command.replace("../../smc ", "./smc "))
                ran = subprocess.run(["bash", "-c", f"{before}; {command}"], capture_output=True, text=True)
                yield f"{page.relative_to(TOP)}: {command}", ran.stdout.strip("\n"), "\n".join(lines).strip("\n")
                if command.startswith("cd "):
                    before += f"; {command.split(';')[0]}"


def main():
    program = str(pathlib.Path(sys.argv[1]).resolve())
    count = wrong = 0
    for name, said, wanted in [*stored(program), *shown(program)]:
        count += 1
        if said != wanted:
            wrong += 1
            print(f"{name}: printed\n{said}\ninstead of\n{wanted}", file=sys.stderr)
    print(f"examples: {count} ran, {wrong} differed")
    return 1 if wrong or not count else 0


if __name__ == "__main__":
    sys.exit(main())
