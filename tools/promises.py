#!/usr/bin/env python3
"""Fails where a public function's promise is not whole, and where docs/PROMISES.md does not say what the promise says.

    tools/promises.py           checks
    tools/promises.py --write   writes the promise cells of the page from the sources, leaves all else on it, and then checks

Public is what can be called from outside its crate. A `pub fn` of a private module, of a private type or of a program can not,
and is a fault: it is to be `pub(crate)`.

A public function has no `requires`. Each clause of its `ensures` is an equation whose sides differ; but of something lent whose type
the function leaves open, as a writer's, a clause may be a fact: a definition of the tree, of what it held and what it holds. Together
the equations speak of the result, if it has one, and the clauses of everything lent with `&mut` as it is at the return; a clause that
speaks of neither is a fault. Of a reference that comes back a promise may say what stands behind it and not where that stands: then the
page names the function under "What is left open".

A method of a trait may have the trait's own contract, which speaks of the `ghost` members of the `impl`; these are its promise then.
Each is a function of what the method takes: `Some ..` of what it writes, or, with the result behind what it takes, an equation whose
sides differ and that speaks of the result. Where the `impl` has none the contract says nothing, which is a fault.

On the page a promise is the text of the `ensures`, word for word, by these rules and no others:
  1. white space is one space, and the name of a clause is left out;
  2. several clauses, and the factors of one that is a product `a × b`, stand one behind another, joined by `and`;
  3. of a method of a trait, each `ghost` member of the `impl` has its name in front, `NAME = ..`;
  4. `|` is `\\|`, as a table asks.

The page lists every public function by its path, as `calendar::date::day_number`, in a table whose first columns are `function`
and `promise`. It may list others, whose promise must then be right too. The last column names must-fail edits in parentheses, as
(`april_31`), of the function's crate or of the crate of its rules; elsewhere on the page such a name is an edit of the crate that the
heading above it names, or of its rules, and (`crate/label`) is one of any crate. Each edit of the tree is named, and each that is named
is there. The row of a public function names an edit, or a definition or theorem that fails without it.
"""
import re
import sys

import tree

PAGE = tree.ROOT / "docs" / "PROMISES.md"
PATH = re.compile(r"`(\w+(?:::\w+)+)`")
NAMED = re.compile(r"\(((?:`[^`]+`(?:, | and | or )?)+)\)")
LOOSER = re.compile(r"[→↔⊎¬λ]|\blet\b")   # what makes a term something else than facts, one beside another
CELL = re.compile(r"(?<!\\)\|")


def squeezed(text):
    return re.sub(r"\s+", " ", text).strip()


def without_brackets(text):
    """A term without the brackets that hold all of it, and without those that make a fact a part of a starred clause."""
    text = text.strip()
    while text.startswith("(") and tree.closing(text, 0) == len(text) or text.startswith("⌜") and text.find("⌝") == len(text) - 1:
        text = text[1:-1].strip()
    return text


def outside_brackets(text):
    """A text with all that stands in brackets blanked, so that places stay."""
    out, depth = [], 0
    for here in text:
        depth -= here in ")]}"
        out.append(" " if depth else here)
        depth += here in "([{"
    return "".join(out)


def factors(text):
    """The factors of `a × b`, or the whole."""
    text = without_brackets(text)
    bare = outside_brackets(text)
    if LOOSER.search(bare):
        return [text]
    cuts = [found.span() for found in re.finditer(r" [×∗] ", bare)]
    parts = [text[start:end] for start, end in zip([0, *(end for _, end in cuts)], [*(start for start, _ in cuts), len(text)])]
    return [text] if len(parts) == 1 else [inner for part in parts for inner in factors(part)]


def by_its_trait(function):
    """Whether the contract of a method is the one that its trait has."""
    return function.of_trait and not function.ensures()


def clauses_of(function):
    """A function's promise, clause by clause."""
    if by_its_trait(function):
        yield from (f"{name} = {squeezed(text)}" for name, text in function.members)
    for text in function.ensures():
        yield from factors(squeezed(text))


def on_the_page(clause):
    return clause.replace("|", "\\|")


def promise_of(functions):
    """What the page has to say of the functions of one path: one, or the methods of a type that have one name in several `impl`s."""
    return " and ".join(f"`{on_the_page(clause)}`" for function in functions for clause in clauses_of(function))


def sides_of(clause):
    """The sides of an equation, or nothing."""
    bare = outside_brackets(clause)
    if LOOSER.search(bare) or bare.count("≡") != 1:
        return None
    at = bare.index("≡")
    sides = [without_brackets(clause[:at]), without_brackets(clause[at + 1:])]
    return sides if all(sides) else None


def speaks_of_the_result(clause):
    return re.search(r"(?<![\w.«])result(?![\w'»])", clause) is not None


def is_at_exit(name, clause):
    return re.search(rf"(?<![\w.])«?\b{name}\b»?\.new\b", clause) is not None


def is_fact(clause, definitions):
    """Whether a clause says a definition of the tree of some things."""
    return clause.split(" ")[0].split("(")[0] in definitions


def member_faults(function):
    """What is not whole in the promise of a method that has its trait's contract."""
    if not function.members:
        yield "has no ensures, and its impl no member of which its trait's contract speaks"
    for clause in clauses_of(function):
        found = re.fullmatch(r"\w+ = λ ((?:\w+ )*)(\w+)\. (.*)", clause)
        sides = sides_of(found.group(3)) if found else None
        if found and not found.group(1) and found.group(3).startswith("Some "):
            continue
        if not sides or sides[0] == sides[1] or not found.group(1):
            yield f"promises neither what it writes nor an equation: {clause}"
        elif not any(re.search(rf"(?<![\w.]){found.group(2)}(?![\w'])", side) for side in sides):
            yield f"promises nothing of its result: {clause}"


def is_left_open(function):
    """Whether of a reference that comes back nothing is said but what stands behind it."""
    said = " ".join(clause for clause in clauses_of(function) if speaks_of_the_result(clause))
    return function.result.startswith("&") and not re.search(r"(?<![\w.«])result\b(?!\.now\b)", said)


def promise_faults(function, definitions):
    """What is not whole in a public function's promise."""
    if function.requires():
        yield "has a requires"
    if by_its_trait(function):
        yield from member_faults(function)
        return
    clauses = list(clauses_of(function))
    if not clauses:
        yield "has no ensures"
        return
    equations = []
    for clause in clauses:
        sides = sides_of(clause)
        if sides is not None:
            equations.append(clause)
            if sides[0] == sides[1]:
                yield f"promises that a thing is itself: {clause}"
        elif not (any(is_at_exit(name, clause) for name in function.lent_of_any_type()) and is_fact(clause, definitions)):
            yield f"promises no equation: {clause}"
        if not speaks_of_the_result(clause) and not any(is_at_exit(name, clause) for name in function.lent()):
            yield f"has a clause that speaks neither of the result nor of what is lent: {clause}"
    if function.result and not any(map(speaks_of_the_result, equations)):
        yield "promises nothing of its result"
    for name in function.lent():
        if not any(is_at_exit(name, clause) for clause in clauses if clause in equations or name in function.lent_of_any_type()):
            yield f"promises nothing of {name} at exit"


class Row:
    """A row of the page that lists a function: its line, its cells and its path."""

    def __init__(self, number, cells):
        self.number, self.cells = number, cells
        found = PATH.fullmatch(cells[1].strip())
        self.path = found.group(1) if found else None

    def promise(self):
        return squeezed(self.cells[2])


def rows_of(lines):
    """The rows of the tables whose first columns are `function` and `promise`."""
    inside = False
    for number, line in enumerate(lines):
        cells = CELL.split(line)
        if not line.startswith("|"):
            inside = False
        elif [cell.strip() for cell in cells[1:3]] == ["function", "promise"]:
            inside = True
        elif inside and not set(line) <= set("|-: "):
            yield Row(number, cells)


def home_of(crate, label):
    """The crate that has an edit: this one, or that of its rules."""
    rules = tree.rules_of(crate)
    return rules if label in tree.edits(rules) and label not in tree.edits(crate) else crate


def edits_named(lines, rows, known):
    """Each edit that the page names, as crate and label, with the line that names it."""
    paths = {row.number: row.path.split("::")[0] for row in rows if row.path}
    section = None
    for number, line in enumerate(lines):
        if line.startswith("#"):
            section = next((word for word in re.findall(r"\w+", line.lower()) if word in known), None)
        for group in NAMED.findall(line):
            for name in re.findall(r"`([^`]+)`", group):
                if re.fullmatch(r"\w+/\w+", name):
                    yield tuple(name.split("/")), number
                elif re.fullmatch(r"\w+", name):
                    crate = paths.get(number, section)
                    yield (home_of(crate, name) if crate else crate, name), number


def names_known(known):
    """Every definition and theorem of the tree, by its name and by its file and name."""
    names = set()
    for crate in known:
        for part in ("specs", "proofs"):
            for path in tree.antt_files(crate, part):
                for name in tree.items_in(tree.text_of(path)):
                    names |= {name, f"{path.stem}.{name}", f"{crate}/{part}/{path.stem}.{name}"}
    return names


def definitions_of(known):
    """The names of the definitions of the tree."""
    return {name for crate in known for path in tree.antt_files(crate, "specs") for name in tree.items_in(tree.text_of(path))}


def page_faults(lines, rows, public, functions, known):
    """Where the page and the tree differ."""
    listed = {row.path for row in rows}
    for path in sorted(set(public) - listed):
        yield f"docs/PROMISES.md does not list {path}, with the promise {promise_of(public[path])}"
    for row in rows:
        where = f"docs/PROMISES.md:{row.number + 1}: {row.path or row.cells[1].strip()}"
        if row.path not in functions:
            yield f"{where} is no function of the tree"
        elif row.promise() != promise_of(functions[row.path]):
            yield f"{where} promises {promise_of(functions[row.path])} (tools/promises.py --write)"
    there = {(crate, label) for crate in known for label in tree.edits(crate)}
    named = list(edits_named(lines, rows, known))
    for (crate, label), number in named:
        if (crate, label) not in there:
            yield f"docs/PROMISES.md:{number + 1}: {crate or 'no crate'}/{label} is no edit"
    for crate, label in sorted(there - {edit for edit, _ in named}):
        yield f"docs/PROMISES.md does not name the edit {crate}/{label}"
    left_open = re.search(r"^## What is left open$.*?(?=^## |\Z)", "\n".join(lines), re.M | re.S)
    for path in sorted(public):
        if any(map(is_left_open, public[path])) and f"`{path}`" not in (left_open.group() if left_open else ""):
            yield f"docs/PROMISES.md does not name {path} under \"What is left open\""
    with_edit = {number for _, number in named}
    names = names_known(known)
    for row in rows:
        if row.path in public and row.number not in with_edit and not names & set(re.findall(r"`([^`]+)`", row.cells[-2])):
            yield f"docs/PROMISES.md:{row.number + 1}: {row.path} names neither an edit nor a theorem that fails without it"


def written(text, functions):
    """The page with the promise cells that the sources give."""
    lines = text.split("\n")
    for row in rows_of(lines):
        if row.path in functions:
            row.cells[2] = f" {promise_of(functions[row.path])} "
            lines[row.number] = "|".join(row.cells)
    return "\n".join(lines)


def main():
    known = tree.crates()
    faults, public, functions, definitions = [], {}, {}, definitions_of(known)
    for crate in (tree.Crate(name) for name in known):
        for function in crate.functions:
            functions.setdefault(function.path, []).append(function)
            where = f"{function.source.relative_to(tree.ROOT)}:{function.line}: {function.path}"
            if function.is_pub and not crate.is_reachable(function):
                faults.append(f"{where} cannot be called from outside its crate: make it pub(crate)")
            elif function.is_pub:
                public.setdefault(function.path, []).append(function)
                faults += [f"{where} {fault}" for fault in promise_faults(function, definitions)]
    if sys.argv[1:] == ["--write"]:
        PAGE.write_text(written(tree.text_of(PAGE), functions), encoding="utf-8")
    elif sys.argv[1:]:
        print("usage: tools/promises.py [--write]", file=sys.stderr)
        return 2
    lines = tree.text_of(PAGE).split("\n")
    faults += page_faults(lines, list(rows_of(lines)), public, functions, known)
    for fault in faults:
        print(fault)
    print(f"promises: {sum(map(len, public.values()))} public functions, {len(faults)} faults")
    return 1 if faults else 0


if __name__ == "__main__":
    sys.exit(main())
