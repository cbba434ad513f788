#!/usr/bin/env python3
"""Prints how large each crate is: functions, lines of code, of definitions and of proofs, and must-fail edits; and the kit's identity.

Blank lines and comments are not counted.
"""
import re
import subprocess

import tree

FUNCTION = re.compile(r"^\s*(pub(\(\w+\))? )?fn ", re.M)
COMMENTS = {".rt": "//", ".antt": "--"}


def lines_in(folder):
    """Lines of every source file below a folder that say something."""
    count = 0
    for path in folder.rglob("*"):
        comment = COMMENTS.get(path.suffix)
        if comment:
            lines = (line.strip() for line in path.read_text(encoding="utf-8").split("\n"))
            count += sum(1 for line in lines if line and not line.startswith(comment))
    return count


def figures_of(crate):
    """Functions, code, definitions, proofs, edits."""
    functions = sum(len(FUNCTION.findall(path.read_text(encoding="utf-8"))) for path in crate.glob("src/**/*.rt"))
    edits = len(list(crate.glob("must-fail/*.edit")))
    return [functions, lines_in(crate / "src"), lines_in(crate / "specs"), lines_in(crate / "proofs"), edits]


def main():
    names = tree.crates()
    rows = [(name, figures_of(tree.ROOT / "crates" / name)) for name in names]
    rows.append((f"{len(names)} crates", [sum(column) for column in zip(*(figures for _, figures in rows))]))
    print(f"{'':18}{'functions':>10}{'code':>8}{'definitions':>13}{'proofs':>8}{'edits':>7}")
    for name, (functions, code, definitions, proofs, edits) in rows:
        print(f"{name:18}{functions:10}{code:8}{definitions:13}{proofs:8}{edits:7}")
    print(subprocess.run(["rt", "version"], check=True, capture_output=True, text=True).stdout.strip())


if __name__ == "__main__":
    main()
