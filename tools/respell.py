#!/usr/bin/env python3
"""Brings this repository's own names to the spelling of today's Rattle: words in snake case, types in camel case.

  python3 -B tools/respell.py        at the top, once, on the tree that the kit's port.py leaves; then rt fmt in each crate

It turns the names of definitions, constructors, fields, laws and their variables in crates/*/specs, crates/*/proofs and the
clauses of crates/*/src, and what the edits in crates/*/must-fail say of them. Names of the kit's libraries, of functions and of
what the kit generates keep their spelling, and so do texts. It says where two names of one file would fall together.
"""
import os
import re

WORD = r"[^\W\d][\w'₀-₉-]*"
NAME = re.compile(rf"(?<![\w'₀-₉-]){WORD}")
TEXT = re.compile(r'"[^"]*"')
CAMEL = re.compile(r"[a-z][a-z0-9_]*[A-Z]")
ALIAS = re.compile(r"\s*(?:pub )?use (Rattle\.[\w.]+) as ([\w-]+)\s*$")
USE = re.compile(r"\s*(?:pub )?(?:ghost )?use ([\w.]+)\.\{(.*)\}")
# Modules that the kit makes of each function, and not this repository.
MADE = ("Statement", "Tie", "Goals", "Given", "Lts")

# A law that is named as the definition that it is about: `_law` behind it keeps the two apart.
LAWS = set(
    "all-good as-listed as-printed bad-count boundary-table by-setting command-field-rules command-rules "
    "command-writing-rules count-rules date-at day-after day-rules done-or east-west every-at feed-reader field-rules "
    "field-rules-of first-free gather-at good-row handed-on is-capital is-decimal is-full is-good is-last-day is-last-second "
    "is-on is-sixty message-rules next-day next-is next-second-rules no-stx north-south off-on own-form own-layout place-rules "
    "reading-rules reads-back reads-well record-rules row-rules setting-rules sixty-telegrams slots-fit spelled-well "
    "status-allowed status-listed step-rules telegram-at time-after time-allowed time-in-range told-by-end utc-rules "
    "value-behind weekday-agrees weekday-allowed weekday-listed well-formed whole-blocks with-record word-length "
    "writing-rules year-of no-more is-plain".split()
)

# Laws that port.py gave the spelling that a definition has now, each in its files.
LAWS_OF_FILES = {
    "stepped_by": ["clock/proofs/StepLaws.antt"],
    "one_more": ["telegram/proofs/SeveralLaws.antt", "demands/proofs/Demand1Holds.antt"],
    "none_yet": ["lent_buffer/proofs/OneBehindAnotherLaws.antt", "telegram/proofs/SeveralLaws.antt", "listing_of_lines/proofs/PageLaws.antt"],
    "by_length": ["demands/proofs/RulesOfMessagesHold.antt"],
    "in_frame": ["demands/proofs/The6038Holds.antt"],
}


def respelled(name):
    if name in LAWS:
        return name.replace("-", "_") + "_law"
    if name[0].isupper():
        return "".join(part[:1].upper() + part[1:] for part in name.split("-"))
    return re.sub(r"(?<=[A-Z])(?=[A-Z][a-z])|(?<=[a-z0-9'])(?=[A-Z])", "_", name.replace("-", "_")).lower()


class File:
    """What one file brings in: names of the kit's libraries, the repository's own names, and its own modules under another name."""

    def __init__(self, text, crates, fields, is_rust):
        self.crates, self.fields, self.is_rust = crates, fields, is_rust
        self.library, self.own, self.modules = set(), set(), set()
        for line in text.split("\n"):
            alias, use = ALIAS.match(line), USE.match(line)
            if alias and self.is_own(alias.group(1)):
                self.modules.add(alias.group(2))
            if use:
                names = {name.strip().split(" as ")[-1].strip() for name in use.group(2).split(",")}
                (self.own if self.is_own(use.group(1)) else self.library).update(names)

    def is_own(self, path):
        parts = path.split(".")
        if len(parts) < 3 or parts[0] != "Rattle" or parts[1] not in self.crates:
            return False
        return parts[2] == "specs" and "declared" not in parts or parts[2] == "proofs" and parts[-1] not in MADE

    def has_old_spelling(self, name):
        return CAMEL.match(name) or not self.is_rust and "-" in name

    def keeps(self, name, before):
        """Whether a name keeps its spelling behind this part of its line."""
        if not self.has_old_spelling(name) or name in self.library:
            return True
        if self.is_rust and name not in self.own | self.fields:
            return True
        is_member = before.endswith(".") and not any(re.search(rf"(?<![\w.-]){re.escape(module)}\.$", before) for module in self.modules)
        return is_member and name not in self.fields

    def turn(self, text, keeps):
        """A text with its names respelled, but for those in texts and those that `keeps` says."""
        texts = [found.span() for found in TEXT.finditer(text)]

        def one(found):
            is_text = any(start < found.start() < end for start, end in texts)
            return found.group() if is_text or keeps(found.group(), text[: found.start()]) else respelled(found.group())

        return NAME.sub(one, text)

    def code(self, line):
        use = USE.match(line)
        if not use:
            return self.turn(line, self.keeps)
        if not self.is_own(use.group(1)):
            return line
        at = line.index("{")
        return line[:at] + self.turn(line[at:], lambda name, before: not self.has_old_spelling(name))

    def line(self, line):
        if self.is_rust or not re.match(r"\s*--", line):
            return self.code(line)
        return self.turn(line, lambda name, before: not CAMEL.match(name) or name in self.library)


def ported(text, is_rust):
    """What port.py makes of a line, as far as the edits have it."""
    text = re.sub(r"(?<=[\w)'»]) \.(?=[\w«])", ".", text)
    text = text.replace("«data_bits»", "data_bits").replace("«stop_bits»", "stop_bits")
    text = re.sub(r"\(([\w'-]+(?:\.[\w«»]+)+)\)", r"\1", text)
    return text.replace("⌜ ", "").replace(" ⌝", "") if is_rust else text


def edit_turned(path, files, everywhere):
    """An edit, each line of it by the file that it is for; in a source, by the names that any source brings in."""
    crate = path.split(os.sep + "must-fail" + os.sep)[0]
    file, out = None, []
    for line in open(path, encoding="utf-8").read().split("\n"):
        named = re.match(r"file: (\S+)", line)
        if named:
            file = files.get(os.path.join(crate, named.group(1)))
        text = re.match(r"(old: |new: )(.*)", line)
        if text and file:
            own = file.own
            file.own = own | everywhere if file.is_rust else own
            line = text.group(1) + file.code(ported(text.group(2), file.is_rust))
            file.own = own
        out.append(line)
    return "\n".join(out)


def fields_of(text):
    """The fields of the records that an .antt file declares."""
    found, is_inside = set(), False
    for line in text.split("\n"):
        field = re.match(rf"\s+(?:pub )?({WORD})\s*:", line)
        if re.match(r"\s*(pub )?record .* where\s*$", line):
            is_inside = True
        elif is_inside and field:
            found.add(field.group(1))
        elif is_inside and line.strip() and not line.startswith(" "):
            is_inside = False
    for record in re.findall(r"record \{([^{}]*)\}", text):
        found.update(re.findall(rf"(?:^|;)\s*({WORD})\s*:", record))
    return found


def text_turned(path, text, file):
    for law, paths in LAWS_OF_FILES.items():
        if any(path.endswith(one) for one in paths):
            text = re.sub(rf"(?<![\w.-]){law}(?![\w'-])", law + "_law", text)
    return "\n".join(file.line(line) for line in text.split("\n"))


def tell_names_together(path, before, after):
    together = {}
    for old, new in zip(NAME.findall(before), NAME.findall(after)):
        together.setdefault(new, set()).add(old)
    for new, olds in together.items():
        if len(olds) > 1:
            print(f"{path}: {sorted(olds)} are {new} now")


def main():
    crates = set(os.listdir("crates"))
    paths = []
    for folder, inner, names in os.walk("crates"):
        inner[:] = sorted(name for name in inner if name != "out")
        paths += [os.path.join(folder, name) for name in sorted(names)]
    texts = {path: open(path, encoding="utf-8").read() for path in paths if path.endswith((".antt", ".rt"))}
    fields = set().union(*(fields_of(text) for path, text in texts.items() if path.endswith(".antt")))
    files = {path: File(text, crates, fields, path.endswith(".rt")) for path, text in texts.items()}
    everywhere = set().union(*(file.own for file in files.values() if file.is_rust))
    for path in paths:
        if path.endswith(".edit"):
            turned = edit_turned(path, files, everywhere)
            open(path, "w", encoding="utf-8").write(turned)
    for path, text in texts.items():
        turned = text_turned(path, text, files[path])
        tell_names_together(path, text, turned)
        open(path, "w", encoding="utf-8").write(turned)


if __name__ == "__main__":
    main()
