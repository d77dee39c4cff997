#!/usr/bin/env python3
"""Spells the repository's own definitions and lemmas as today's Rattle does: words in snake case, a prime as an
apostrophe. Types, modules and facts keep their capitals. It was run once, when the repository was brought from an
older Rattle to today's (docs/PORT.md), after the toolchain's own script for that.

usage: tools/respell.py [FOLDER]      FOLDER is a checkout, this one by default

It collects the names that specs/ and proofs/*.antt declare, and writes each anew in .rt and .antt files, in edits and
in the pages. Where a lemma would then be called as a definition is, it gets `_lem`. A name stays in a file that
imports it from another library. Names of src/ and exported names are in snake case already.
"""

import glob
import os
import re
import sys

NAME = r"[^\s(){}.;,@\"«»`\[\]]+"
DECLARED = re.compile(
    r"(?m)^( *)((?:(?:pub|abbrev|unfoldable|private|instance) )*)(" + NAME + r")((?: [({][^\n]*)?) :(?= |$)"
)
WORDS = set("use module open where let in record data mutual elim unfolding ruleset mod as".split())
IMPORT = re.compile(r"\buse ([^\s;{]+)\.\{([^}]*)\}")


def respelled(name):
    words = re.sub(r"(?<=[a-z0-9])[A-Z]", lambda m: "_" + m[0].lower(), name)
    return words.replace("-", "_").replace("′", "'")


def text_of(path):
    with open(path, encoding="utf-8") as f:
        return f.read()


def laws_and_definitions(root):
    specs = glob.glob(os.path.join(root, "crates/*/specs/**/*.antt"), recursive=True)
    laws = glob.glob(os.path.join(root, "crates/*/proofs/*.antt"))
    return sorted(specs), sorted(laws)


def declared(paths):
    """The names that files declare and that are not types. Names that stay as they are come first, so that another
    one gives way to them."""
    found = set()
    for path in paths:
        for _, _, name, _ in DECLARED.findall(text_of(path)):
            if name not in WORDS and re.match(r"[a-zμ]|LETTER-", name):
                found.add(name)
    return sorted(found, key=lambda n: (respelled(n) != n, n))


def table(root):
    """Old name to new, and what was said of names that fall together."""
    specs, laws = laws_and_definitions(root)
    new, said, taken = {}, [], {}
    for paths, ending, clash in ((specs, "_of", "two definitions"), (laws, "_lem", "a lemma beside")):
        for name in declared(paths):
            if name in new:
                continue
            to = respelled(name)
            if to in taken:
                said.append(f"{clash}: {taken[to]} {name}")
                to += ending
            taken[to] = name
            new[name] = to
    return {a: b for a, b in new.items() if a != b}, said


def foreign(text):
    """The names that a file imports from other libraries."""
    own = set()
    for module, names in IMPORT.findall(text):
        first = module.split(".")
        if first[0] == "Rattle" and len(first) > 1 and first[1] not in ("std", "core", "std_alloc", "io", "libc", "os"):
            continue
        own |= {n.split(" as ")[-1].strip() for n in names.split(",")}
    return own


def turned(path, text, new):
    """A file in today's spelling. The ending `_lem` is not written behind a dot, where the name is another's; and, of
    a name that was in snake case before, in .antt files alone."""
    left = foreign(text)

    def one(m):
        name = m[0]
        to = new.get(name)
        if to is None or name in left:
            return name
        same = name == respelled(name) and not path.endswith(".antt")
        if to != respelled(name) and (text[m.start() - 1 : m.start()] == "." or same):
            return respelled(name)
        return to

    return re.sub(NAME, one, text)


def main(argv):
    root = argv[0] if argv else os.path.join(os.path.dirname(os.path.realpath(__file__)), "..")
    new, said = table(root)
    print("\n".join(said))
    paths = []
    for pattern in (
        "crates/*/src/**/*.rt",
        "crates/*/specs/**/*.antt",
        "crates/*/proofs/**/*.antt",
        "crates/*/must-fail/*.edit",
        "wrong/**/*.edit",
        "wrong/**/*.patch",
        "docs/*.md",
        "README.md",
        "CONTRIBUTING.md",
    ):
        paths += glob.glob(os.path.join(root, pattern), recursive=True)
    n = 0
    for path in sorted(paths):
        if "/out/" in path or path.endswith("docs/PORT.md"):
            continue
        old = text_of(path)
        text = turned(path, old, new)
        if text != old:
            n += 1
            with open(path, "w", encoding="utf-8") as f:
                f.write(text)
    print(f"respell: {len(new)} names, {n} files")


if __name__ == "__main__":
    main(sys.argv[1:])
