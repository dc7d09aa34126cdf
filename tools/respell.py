#!/usr/bin/env python3
"""Respells the repository's own definitions and lemmas: words in snake case, facts and types in camel case.

A dash in a name that this repository gives becomes an underscore, as `draft-parts` to `draft_parts`; a definition that
is a type or a fact is spelled as a type, as `Sound-of` to `SoundOf`. Names of the library, names that the toolchain
makes (in proofs/F/), functions of src/ and comments keep their spelling.

Run it once at the top of the repository, after the toolchain's own port.py. It prints each name that it changed, and
stops without a change where two names would fall together.
"""
import re
import sys
from pathlib import Path

TOKEN = re.compile(r"[^\s(){}\[\];,.|\"⌜⌝:]+")
HEAD = re.compile(r"^\s*(?:pub |abbrev |unfoldable )*(record |data )?\|? ?([^\s:(){}|]+)((?: [({][^=\n]*[)}])*)\s*:(?=\s)(.*)", re.M)
FIELD = re.compile(r"^  +(?:pub )?([^\s:(){}|]+) :(?=\s)", re.M)
IMPORTED = re.compile(r"\s*(?:ghost )?use Rattle\.(?:std|core|std_alloc)\.[^{]*\{(.*)\}")
GHOST = re.compile(r"\s*(ghost|requires|ensures)\b")
# names of arguments of modules and lemmas
ARGUMENTS = ["fixed-part", "free-x", "free-y", "free-f", "free-g", "held-f", "held-g", "held-y", "high-in", "high-made", "high-stands",
             "i-before", "i-last", "in-new", "j-before", "j-last", "joins-and", "joins-or", "joins-xor", "low-in", "low-made"]
# Names that would fall together with one of the library or of a function: a dash that joins two names stays, and a
# definition that says what a function of nearly its name answers is called by what it is.
APART = {"bit-and": "bit-and", "bit-or": "bit-or", "bit-xor": "bit-xor", "chain-of": "chain_of_row",
         "job-numbers": "job_numbers_bytes", "job-row": "job_row_bytes", "text-letter": "text_letter_bytes",
         "stop-numbers": "stop_numbers_bytes", "stop-row": "stop_row_bytes"}
# A field of a record, and a method of src/: they are never named in one place.
TOGETHER = {"output-pin"}


def library(text):
    """The names that a file takes from the library."""
    found = set()
    for line in text.splitlines():
        m = IMPORTED.match(line)
        if m:
            for name in m.group(1).split(","):
                found |= {part.strip() for part in name.split(" as ")}
    return found


def camel(name):
    return "".join(word[0].upper() + word[1:] for word in re.split("[-_]", name))


def is_type(kind, signature):
    return bool(kind) or re.search(r"(^|→ )Type 0( where)?$", signature.strip()) is not None


def lemma_files(root):
    for crate in sorted((root / "crates").iterdir()):
        yield from sorted((crate / "specs").rglob("*.antt"))
        yield from sorted((crate / "proofs").glob("*.antt"))


def answer_files(root):
    for crate in sorted((root / "crates").iterdir()):
        for path in sorted((crate / "proofs").rglob("*.antt")):
            if path.parent != crate / "proofs":
                yield path


def own_names(root):
    """Each own name with a dash, or of a type in small letters, and its new spelling; and the fields of own records."""
    fields = set()
    names = {name: name.replace("-", "_") for name in ARGUMENTS}
    for path in lemma_files(root):
        fields |= set(FIELD.findall(path.read_text()))
        for kind, name, _, signature in HEAD.findall(path.read_text()):
            if is_type(kind, signature):
                if "-" in name or name[0].islower():
                    names[name] = camel(name)
            elif re.search(r"\w-\w", name):
                names[name] = name.replace("-", "_")
    for path in answer_files(root):
        for _, name, _, signature in HEAD.findall(path.read_text()):
            if re.search(r"\w-\w", name) and not re.match(r"\s*(goal|given)\.", signature):
                names[name] = name.replace("-", "_")
    names = {name: APART.get(name, new) for name, new in names.items()}
    return {name: new for name, new in names.items() if name != new}, fields


def respelled(text, names, fields, comment):
    """The text with its names respelled: all of it in a file of definitions or lemmas, and the ghost lines of a source."""
    kept = library(text)

    def change(m):
        word = m.group(0)
        if word in kept or m.start() > 0 and m.string[m.start() - 1] == "." and word not in fields:
            return word
        return names.get(word, word)

    lines = []
    for line in text.splitlines(keepends=True):
        if IMPORTED.match(line) or comment == "//" and not GHOST.match(line):
            lines.append(line)
            continue
        code, mark, rest = line.partition(comment)
        lines.append(TOKEN.sub(change, code) + mark + rest)
    return "".join(lines)


def main():
    root = Path(".")
    names, fields = own_names(root)
    words = {}
    for path in list(lemma_files(root)) + list(answer_files(root)):
        words.setdefault(path.parts[1], set()).update(TOKEN.findall(path.read_text()))
    for path in sorted(root.glob("crates/*/src/**/*.rt")):
        words.setdefault(path.parts[1], set()).update(TOKEN.findall(path.read_text()))
    clashes = []
    for name, new in sorted(names.items()):
        if [other for other in names if other != name and names[other] == new]:
            clashes.append((name, new))
        for crate, used in words.items():
            if name in used and new in used and name not in TOGETHER:
                clashes.append((crate, name, new))
    if clashes:
        for clash in clashes:
            print("falls together:", *clash)
        sys.exit(1)
    changed = set()
    paths = [(p, "-- ") for p in list(lemma_files(root)) + list(answer_files(root))]
    paths += [(p, "//") for p in sorted(root.glob("crates/*/src/**/*.rt"))]
    for path, comment in paths:
        before = path.read_text()
        after = respelled(before, names, fields, comment)
        if after != before:
            path.write_text(after)
            changed.add(path)
    # pages name definitions between backticks
    for path in [root / "README.md"] + sorted((root / "docs").glob("*.md")):
        before = path.read_text()
        after = re.sub(r"`([^`\s]+)`", lambda m: "`" + names.get(m.group(1), m.group(1)) + "`", before)
        if after != before:
            path.write_text(after)
            changed.add(path)
    for name, new in sorted(names.items()):
        print(name, "->", new)
    print(len(names), "names in", len(changed), "files")


main()
