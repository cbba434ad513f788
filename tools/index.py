#!/usr/bin/env python3
"""Fails where the README or a page of docs/ names something that the tree does not have, or quotes lines that do not stand in their file.

docs/DOCUMENT-01.md and docs/DOCUMENT-02.md are tables that say of each sentence of a document by what it is rendered. The last column
of each row names one thing or more, in backticks, and each must be there:

    crate/specs/File.name        a definition; crate/specs/File is all of a file
    crate/proofs/File.name       a theorem; crate/proofs/File is all of a file
    crate::module::name          a function, a type or a constant, also one that the module hands on
    crate::module::Type::Case    a case of an enum
    crate/must-fail/label        a must-fail edit
    reference/file.name          a function or a table of the second implementation; reference/folder/file.name one in a folder of it
    path/of/a/file               a file, as a program's input crates/test_cases/stdin, a sample or a page

In docs/DOCUMENT-02.md a row may be `not yet` in its place.

Of the pages in PROSE each path in backticks that begins with a folder of the tree or with a crate, each path of a function and each
theorem as `File.name` must be there; of a built program, crates/NAME/out/NAME, the crate that it is built of.

On any page a block of lines that names a file behind its language, as ```rust crates/measured/src/main.rt, is a quotation: its
lines stand in that file, one behind another, whatever their indentation. A line `..` in it stands for lines that are left out.
"""
import re
import sys

import tree

TABLES = ["DOCUMENT-01.md", "DOCUMENT-02.md"]
PROSE = ["README.md", "docs/USE.md", "docs/HOW-TO-CHANGE.md", "docs/PROMISES.md", "docs/DECISIONS.md"]
NOT_YET = "not yet"
NAME = re.compile(r"`([^`]+)`")
DECLARED = re.compile(r"^(?:pub(?:\([\w:]+\))? )?(?:struct|enum|const|static|type) (\w+)", re.M)
ENUM = re.compile(r"^(?:pub(?:\([\w:]+\))? )?enum (\w+)[^{;]*\{", re.M)
CASE = re.compile(r"^ {4}(\w+)", re.M)
BUILT = re.compile(r"crates/(\w+)/out/\1(?: .*)?")   # as one is named, or called with words
QUOTED = re.compile(r"^```\w+ (\S+)\n(.*?)^```$", re.M | re.S)


class Names:
    """Everything that a page may name."""

    def __init__(self):
        self.there = set()
        for crate in tree.crates():
            self.add_crate(crate)
        for path in sorted((tree.ROOT / "reference").rglob("*.py")):
            module = path.relative_to(tree.ROOT).with_suffix("").as_posix().removesuffix("/__init__")
            found = re.findall(r"^(?:def |class )?(\w+)(?:\(| = |: )", tree.text_of(path), re.M)
            self.there |= {f"{module}.{name}" for name in found}

    def add_crate(self, name):
        for part in ("specs", "proofs"):
            folder = tree.ROOT / "crates" / name / part
            for path in tree.antt_files(name, part):
                file = path.relative_to(folder).with_suffix("").as_posix()
                self.there.add(f"{name}/{part}/{file}")
                self.there |= {f"{name}/{part}/{file}.{item}" for item in tree.items_in(tree.text_of(path))}
        self.there |= {f"{name}/must-fail/{label}" for label in tree.edits(name)}
        crate = tree.Crate(name)
        self.there |= {function.path for function in crate.functions}
        for module, source in crate.modules.items():
            self.there.add(module)
            text = tree.without_comments(tree.text_of(source))
            self.there |= {f"{module}::{declared}" for declared in DECLARED.findall(text) + tree.passed_on(text)}
            for found in ENUM.finditer(text):
                cases = CASE.findall(text[found.end():tree.closing(text, found.end() - 1)])
                self.there |= {f"{module}::{found.group(1)}::{case}" for case in cases}

    def has(self, name):
        if name in self.there:
            return True
        return re.fullmatch(r"[\w./-]+", name) is not None and (tree.ROOT / name).is_file()


def rows_of(text):
    """The rows of a page's tables, each with the line it stands on, without heads and rules."""
    lines = text.split("\n")
    for at, line in enumerate(lines):
        is_head = at + 1 < len(lines) and lines[at + 1].startswith("|-")
        if line.startswith("|") and not line.startswith("|-") and not is_head:
            yield at + 1, re.split(r"(?<!\\)\|", line)


def table_faults(page, names):
    """Rows that name nothing, or something that is gone."""
    may_wait = page == TABLES[1]
    for number, cells in rows_of(tree.text_of(tree.ROOT / "docs" / page)):
        where, last = f"docs/{page}:{number}", cells[-2]
        named = NAME.findall(last)
        if not named and not (may_wait and last.strip() == NOT_YET):
            yield f"{where} names nothing that renders it"
        for name in named:
            if not names.has(name):
                yield f"{where} names {name}, which is not there"


def without_blocks(text):
    """A page without its blocks of lines, so that places stay."""
    return re.sub(r"^```.*?^```$", lambda found: "\n" * found.group().count("\n"), text, flags=re.M | re.S)


def prose_faults(page, names):
    """Paths, functions and theorems (`File.name`) that are named and are not there."""
    folders = {path.name for path in tree.ROOT.iterdir() if path.is_dir()} - {"target"}
    crates = set(tree.crates())
    items = {name.split("/")[-1] for name in names.there if "/specs/" in name or "/proofs/" in name}
    for number, line in enumerate(without_blocks(tree.text_of(tree.ROOT / page)).split("\n"), 1):
        for name in NAME.findall(line):
            gone = False
            if built := BUILT.fullmatch(name):
                gone = not (tree.ROOT / "crates" / built.group(1) / "src" / "main.rt").is_file()
            elif re.fullmatch(r"[\w./-]+", name) and "/" in name and name.split("/")[0] in folders:
                gone = not (tree.ROOT / name).exists() and not names.has(name)
            elif re.fullmatch(r"[\w./-]+", name) and "/" in name and name.split("/")[0] in crates:
                is_edit = names.has(name.replace("/", "/must-fail/", 1))
                gone = not is_edit and not (tree.ROOT / "crates" / name).exists() and not names.has(name)
            elif re.fullmatch(r"\w+(::\w+)+", name) and name.split("::")[0] in crates:
                gone = not names.has(name)
            elif re.fullmatch(r"[A-Z]\w*\.[^\s.]+", name) and not name.endswith((".antt", ".md")):
                gone = name not in items
            if gone:
                yield f"{page}:{number} names {name}, which is not there"


def stands_in(quoted, text):
    """Whether lines stand in a text one behind another; `..` begins anew further on."""
    lines = [line.strip() for line in text.split("\n")]
    at = 0
    for part in re.split(r"^\s*\.\.\s*$", quoted, flags=re.M):
        wanted = [line.strip() for line in part.strip("\n").split("\n")]
        place = next((start for start in range(at, len(lines)) if lines[start:start + len(wanted)] == wanted), None)
        if place is None:
            return False
        at = place + len(wanted)
    return True


def quotation_faults(page):
    for file, quoted in QUOTED.findall(tree.text_of(page)):
        source = tree.ROOT / file
        if not source.is_file():
            yield f"{page.relative_to(tree.ROOT)} quotes {file}, which is not there"
        elif not stands_in(quoted, tree.text_of(source)):
            yield f"{page.relative_to(tree.ROOT)} quotes lines that do not stand so in {file}: {quoted.strip().splitlines()[0]}"


def main():
    names = Names()
    faults = [fault for page in TABLES for fault in table_faults(page, names)]
    faults += [fault for page in PROSE for fault in prose_faults(page, names)]
    pages = [tree.ROOT / "README.md", *sorted((tree.ROOT / "docs").glob("*.md"))]
    faults += [fault for page in pages for fault in quotation_faults(page)]
    for fault in faults:
        print(fault)
    rows = sum(len(list(rows_of(tree.text_of(tree.ROOT / "docs" / page)))) for page in TABLES)
    print(f"index: {rows} rows, {len(faults)} faults")
    return 1 if faults else 0


if __name__ == "__main__":
    sys.exit(main())
