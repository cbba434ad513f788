"""What stands in the tree: crates, modules, functions with their clauses, definitions, theorems and must-fail edits.

Read from the text of the files, and no name of a crate or a file is written down here. The checks of tools/ stand on it.
"""
import pathlib
import re

ROOT = pathlib.Path(__file__).resolve().parent.parent

FUNCTION = re.compile(r"^[ \t]*(pub(?:\([\w:]+\))? )?(?:const )?(?:unsafe )?(?:extern \"C\" )?fn (\w+)", re.M)
IMPL = re.compile(r"^impl\b", re.M)
TYPE = re.compile(r"^(pub(?:\([\w:]+\))? )?(?:struct|enum) (\w+)", re.M)
MODULE = re.compile(r"^(pub(?:\([\w:]+\))? )?mod (\w+);", re.M)
PASSED_ON = re.compile(r"^pub use ([\w:]+(?:::\{[^{};]*\})?(?: as \w+)?);", re.M)
ITEM = re.compile(r"^(?:(?:abbrev|unfoldable|opaque|private) )*(pub )?(?:(?:abbrev|unfoldable|opaque) )*(record |data )?([^\s:(){}]+)")
OF_A_FUNCTION = {"Answers.antt", "Invariants.antt", "Proof.antt"}
NO_ITEM = {"use", "mod", "module", "open", "infix", "infixl", "infixr", "syntax", "package"}
MEMBER = re.compile(r"^[ \t]*ghost (\w+)(?::[^=;]*)? = \{", re.M)
CLAUSE = re.compile(r"\s*(ghost|requires|ensures|decreases)\b\*?\s*(?:[\w-]+:?)?\s*\{")
APART = re.compile(r"//[^\n]*|\br(#*)\".*?\"\1|\"(?:\\.|[^\"\\])*\"|'(?:\\.[^'\n]*|[^'\\\n])'", re.S)
RESULT = re.compile(r"\s*(?:->\s*((?:(?!\s(?:ghost|requires|ensures|decreases|where)\b)[^{])+))?(?:\s*where\b(?:(?!\s(?:ghost|requires|ensures|decreases)\b)[^{])*)?")


def text_of(path):
    return path.read_text(encoding="utf-8")


def crates(root=ROOT):
    """The names of the listed crates, in the order of the list."""
    return [line.split(":")[0].split()[0] for line in text_of(root / "crates.txt").split("\n") if ":" in line and not line.startswith("#")]


def rules_of(crate, root=ROOT):
    """The name of the crate that says what is right of what a crate does: NAME_rules of NAME, or of a crate that stands on it and
    has a word more in front, as a library may not be named like one of the toolchain's."""
    for line in text_of(root / "crates.txt").split("\n"):
        name, _, below = line.partition(":")
        for rules in below.split() if name.split()[:1] == [crate] else []:
            if rules.endswith("_rules") and f"_{crate}".endswith("_" + rules.removesuffix("_rules")):
                return rules
    return f"{crate}_rules"


def blank(found):
    return re.sub(r"[^\n]", " ", found.group())


def without_comments(text):
    """A source's text with its `//` comments blanked, so that places stay."""
    return APART.sub(lambda found: blank(found) if found.group().startswith("//") else found.group(), text)


def without_literals(text):
    """The same with its texts and characters blanked too, so that a bracket in one closes nothing."""
    return APART.sub(blank, text)


def passed_on(text):
    """The names that a source hands on by `pub use`, one or several to a line."""
    return [part.split(" as ")[-1].split("::")[-1].strip()
            for path in PASSED_ON.findall(text) for part in re.sub(r".*\{|\}", "", path, flags=re.S).split(",") if part.strip()]


def closing(text, at):
    """The place behind the bracket that closes the one at a place."""
    pairs = {"(": ")", "{": "}", "[": "]"}
    depth = []
    for place in range(at, len(text)):
        here = text[place]
        if here in pairs:
            depth.append(pairs[here])
        elif depth and here == depth[-1]:
            depth.pop()
            if not depth:
                return place + 1
    return len(text)


def behind_generics(text, at):
    """The place behind the `<..>` that stands at a place, or that place where there is none."""
    if not text.startswith("<", at):
        return at
    depth = 0
    for place in range(at, len(text)):
        if text[place] == "<":
            depth += 1
        elif text[place] == ">" and text[place - 1] != "-":
            depth -= 1
            if not depth:
                return place + 1
    return len(text)


class Function:
    """A function of a source file: its path, whether it is `pub`, its parameters, its result and its clauses.

    A contract may have several clauses of a kind, each with a name; of a clause its word and its text are kept, and not its name.
    Of a method of a trait, `members` are the `ghost` members of its `impl`, each with its name: the trait's own contract is in them.
    """

    def __init__(self, source, line, module, holder, name, is_pub, generics, parameters, result, clauses, of_trait, members):
        self.source, self.line, self.module, self.holder, self.name = source, line, module, holder, name
        self.is_pub, self.generics, self.parameters, self.result, self.clauses = is_pub, generics, parameters, result, clauses
        self.of_trait, self.members = of_trait, members
        self.path = "::".join([module] + ([holder] if holder else []) + [name])
        self.crate = module.split("::")[0]

    def ensures(self):
        return [text for word, text in self.clauses if word == "ensures"]

    def requires(self):
        return [text for word, text in self.clauses if word == "requires"]

    def lent(self):
        """The names of the parameters behind `&mut`."""
        return re.findall(r"(\w+)\s*:\s*&(?:'\w+ )?mut\b", self.parameters) + re.findall(r"&(?:'\w+ )?mut (self)\b", self.parameters)

    def lent_of_any_type(self):
        """Those of them whose type is a parameter of the function, as a writer's."""
        types = re.findall(r"(?:^|,)\s*(\w+)\s*(?::|,|$)", self.generics)
        found = re.findall(r"(\w+)\s*:\s*&(?:'\w+ )?mut (impl\b|\w+)", self.parameters)
        return [name for name, kind in found if kind == "impl" or kind in types]


def clauses_behind(text, bare, at, where):
    """The clauses that stand at a place, each as its word and what is between its braces, up to the body. Anything else ends the run."""
    clauses = []
    while True:
        found = CLAUSE.match(bare, at)
        if not found:
            if not re.compile(r"\s*[{;]").match(bare, at):
                raise SystemExit(f"{where}: what stands in front of the body is no clause: {text[at:at + 60].strip()}")
            return clauses
        end = closing(bare, found.end() - 1)
        clauses.append((found.group(1), text[found.end():end - 1]))
        at = end


def holders_in(text):
    """Where each `impl` block begins and ends, the type that it is about, and whether it is one of a trait."""
    for found in IMPL.finditer(text):
        opening = text.index("{", found.end())
        head = text[behind_generics(text, found.end()):opening]
        of_trait = re.match(r".*?\sfor\s", head, re.S)
        name = re.match(r"\s*&?(?:\w+::)*(\w+)", head[of_trait.end():] if of_trait else head)
        if name:
            yield found.start(), closing(text, opening), name.group(1), bool(of_trait)


def members_in(text, bare, begin, over):
    """The `ghost` members of an `impl`, each with its name."""
    return [(found.group(1), text[found.end():closing(bare, found.end() - 1) - 1].strip())
            for found in MEMBER.finditer(bare, begin, over)]


def functions_of(source, module, is_open_type):
    """Every function of a source file. A method of a trait is as public as its type."""
    text, bare = without_comments(text_of(source)), without_literals(text_of(source))
    holders = list(holders_in(bare))
    for found in FUNCTION.finditer(bare):
        start = behind_generics(bare, found.end())
        generics, start = text[found.end() + 1:start - 1], bare.index("(", start)
        end = closing(bare, start)
        behind = RESULT.match(bare, end)
        begin, over, holder, of_trait = next((around for around in holders if around[0] < found.start() < around[1]), (0, 0, None, False))
        is_pub = found.group(1) == "pub " or of_trait and is_open_type(module, holder)
        line = bare.count("\n", 0, found.start()) + 1
        yield Function(source, line, module, holder, found.group(2), is_pub, generics, text[start + 1:end - 1],
                       (behind.group(1) or "").strip(), clauses_behind(text, bare, behind.end(), f"{source}:{line}"),
                       of_trait, members_in(text, bare, begin, over) if of_trait else [])


class Crate:
    """A crate's modules and functions, and what of them can be reached from outside."""

    def __init__(self, name, root=ROOT):
        self.name, self.folder = name, root / "crates" / name
        self.modules, self.open, self.types, self.passed_on = {}, set(), set(), set()
        library, program = self.folder / "src" / "lib.rt", self.folder / "src" / "main.rt"
        if library.exists():
            self.visit(library, self.folder / "src", name, True)
        elif program.exists():
            self.visit(program, self.folder / "src", name, False)
        self.functions = [function for module, source in self.modules.items()
                          for function in functions_of(source, module, self.is_open_type)]

    def visit(self, source, below, module, is_open):
        text = without_comments(text_of(source))
        self.modules[module] = source
        if is_open:
            self.open.add(module)
            self.passed_on |= set(passed_on(text))
        self.types |= {f"{module}::{name}" for visible, name in TYPE.findall(text) if visible == "pub "}
        for visible, name in MODULE.findall(text):
            inner = below / f"{name}.rt"
            if not inner.exists():
                inner = below / name / "mod.rt"
            if inner.exists():
                self.visit(inner, below / name, f"{module}::{name}", is_open and visible == "pub ")

    def is_open_type(self, module, name):
        """Whether a type that a module names can be named from outside the crate: one that it declares, or one of another crate."""
        own = {found for source in self.modules.values() for _, found in TYPE.findall(without_comments(text_of(source)))}
        return module in self.open and (f"{module}::{name}" in self.types or name not in own)

    def declared(self):
        """The types that the crate declares, by their paths, each with its text."""
        types = {}
        for module, source in self.modules.items():
            text = without_comments(text_of(source))
            for found in TYPE.finditer(text):
                opening = re.compile(r"[^;{(]*").match(text, found.end()).end()
                types[f"{module}::{found.group(2)}"] = squeezed(text[found.start():closing(text, opening)].split("\n"))
        return types

    def is_reachable(self, function):
        """Whether a `pub fn` can be named from outside its crate."""
        if function.module not in self.open:
            return (function.holder or function.name) in self.passed_on
        return not function.holder or f"{function.module}::{function.holder}" in self.types or not self.has_type(function)

    def has_type(self, function):
        """Whether the type of a method is declared in the method's own file."""
        return any(name == function.holder for _, name in TYPE.findall(without_comments(text_of(function.source))))


class Item:
    """A definition or a theorem of an antt file: its name, whether it is `pub`, its statement, and all of its text."""

    def __init__(self, name, is_pub, statement, text):
        self.name, self.is_pub, self.statement, self.text = name, is_pub, statement, text


def squeezed(lines):
    return re.sub(r"\s+", " ", " ".join(line for line in lines if not line.strip().startswith("--"))).strip()


def items_in(text):
    """The items of an antt file by name, those of its `module` blocks among them.

    A statement is what stands before the equations, with the parameters of the blocks around it; of a record or a data type it is
    everything.
    """
    items, blocks, header = {}, [], None
    name, is_pub, statement, lines, in_statement = None, False, [], [], False

    def close():
        if name is not None and name not in items:
            around = [block for _, block in blocks]
            items[name] = Item(name, is_pub, squeezed(around + statement), squeezed(around + lines))

    for line in text.split("\n"):
        bare = line.strip()
        if not bare or bare.startswith("--"):
            continue
        indent = len(line) - len(line.lstrip())
        if header is not None:
            header.append(bare)
        elif blocks and indent < blocks[-1][0]:
            close()
            name = None
            while blocks and indent < blocks[-1][0]:
                blocks.pop()
        base = blocks[-1][0] if blocks else 0
        if header is None and indent == base and bare.startswith("module "):
            close()
            name, header = None, [bare]
        if header is not None:
            if bare.endswith(" where"):
                blocks.append((base + 2, squeezed(header)))
                header = None
            continue
        if indent > base:
            lines.append(bare)
            if in_statement:
                statement.append(bare)
            continue
        found = ITEM.match(bare)
        word = found.group(3) if found else ""
        if word in NO_ITEM or bare.split()[0] in NO_ITEM:
            close()
            name, in_statement = None, False
        elif found and (found.group(2) or bare[found.end():].lstrip().startswith(":")):
            close()
            name, is_pub, statement, lines, in_statement = word, bool(found.group(1)), [bare], [bare], True
        else:
            lines.append(bare)
            in_statement = False
    close()
    return items


def antt_files(crate, part, root=ROOT):
    """The antt files of a crate's specs/ or proofs/ folder, without the lists of modules."""
    return sorted(path for path in (root / "crates" / crate / part).rglob("*.antt") if path.name != "Lib.antt")


def is_of_a_function(path):
    """Whether a file of proofs/ is a part of a single function's proof: they lie in a folder of its name."""
    return path.parent.name != "proofs" and path.name in OF_A_FUNCTION


def edits(crate, root=ROOT):
    return sorted(path.stem for path in (root / "crates" / crate / "must-fail").glob("*.edit"))
