#!/usr/bin/env python3
"""Brings the repository's own definitions and lemmas to one spelling: words in snake case, types and modules in camel case.

    tools/respell.py [--list]      at the top of a tree that port.py has turned; --list prints the names and writes nothing

A word in camel case that begins small becomes one in snake case wherever it stands in specs/, proofs/, clauses and must-fail edits. A lemma whose name
has dashes, declared in a crate's proofs/*.antt, has underscores. Names of the library, of functions in src/ and those that the prover makes
(what a function's goals are called) stay. A lemma that would have another's name ends in _lem. docs/ and README.md follow, in what stands between backquotes.
"""
import collections
import glob
import re
import sys

# a number in hex is no word
TOKEN = re.compile(r"(?<!\w)[A-Za-z_ℕ][\w'ℕ-]*")
DECLARED = re.compile(r"^\s*(?:(?:abbrev|unfoldable|pub|ruleset|record|data|module) )*([^\s:(){}\[\],]+)\s*(?:\{[^}]*\}\s*)*(?:\([^)]*\)\s*)*:(?!=)")
RULESET = re.compile(r"^\s*(?:pub )?ruleset ([^\s=]+)")
BACKQUOTED = re.compile(r"`[^`\n]*`")


def antt(part):
    return sorted(glob.glob(f"crates/*/{part}/**/*.antt", recursive=True))


def read(path):
    with open(path, encoding="utf-8") as file:
        return file.read()


def imported():
    """What is taken from the library: from any module that is of no crate here."""
    crates = "|".join(path.split("/")[1] for path in glob.glob("crates/*/"))
    own = re.compile(rf"Rattle\.(?:{crates})\b")
    names = set()
    for path in antt("specs") + antt("proofs") + glob.glob("crates/*/src/*.rt"):
        for module, listed in re.findall(r"use ([\w'.+]+)\.\{([^}]*)\}", read(path)):
            if own.match(module):
                continue
            for name in listed.split(","):
                names.add(name.split(" as ")[0].strip())
    return names


def dashed():
    """The lemmas with dashes, by where they are declared."""
    names = set()
    for path in glob.glob("crates/*/proofs/*.antt"):
        for line in read(path).splitlines():
            found = DECLARED.match(line) or RULESET.match(line)
            if found and "-" in found[1] and re.fullmatch(r"[A-Za-z][\w'-]*", found[1]):
                names.add(found[1])
    return names


def snake(word):
    """A word of one name; words with an underscore before a capital are the prover's."""
    if not re.match(r"[a-z]", word) or "_" in word or not re.search("[A-Z]", word):
        return word
    return re.sub(r"(?<=[a-z0-9'])[A-Z]+", lambda found: "_" + found[0].lower(), word)


def taken():
    """The names that stand already, and those that words in camel case become."""
    names = set()
    for path in antt("specs") + antt("proofs"):
        for name in TOKEN.findall(read(path)):
            names.add(name if "-" in name else snake(name))
    return names


def spelling(library, lemmas, others):
    def respelled(name):
        if name in library:
            return name
        if name not in lemmas:
            return "-".join(snake(part) for part in name.split("-"))
        new = "_".join(snake(part) for part in name.split("-"))
        return new + "_lem" if new in others else new

    return respelled


def main():
    library = imported()
    lemmas = dashed() - library
    respelled = spelling(library, lemmas, taken())
    seen = collections.defaultdict(set)

    def turned(text):
        def one(found):
            new = respelled(found[0])
            # what a goal names after a dot is the prover's
            if text[: found.start()].endswith("."):
                new = new.removesuffix("_lem")
            if new != found[0]:
                seen[new].add(found[0])
            return new

        return TOKEN.sub(one, text)

    # in .rt only clauses and ghost items have such words
    paths = antt("specs") + antt("proofs") + sorted(glob.glob("crates/*/src/*.rt")) + sorted(glob.glob("crates/*/must-fail/*.edit"))
    texts = {}
    for path in paths:
        text = read(path)
        if path.endswith(".rt"):
            # a dash in code takes away
            new = re.sub(r"(?<!\w)[A-Za-z_][A-Za-z0-9_]*", lambda found: turned(found[0]), text)
        else:
            new = turned(text)
        if new != text:
            texts[path] = new
    for path in sorted(glob.glob("docs/**/*.md", recursive=True)) + ["README.md"]:
        text = read(path)
        words = {old for olds in seen.values() for old in olds}
        new = BACKQUOTED.sub(lambda found: TOKEN.sub(lambda it: respelled(it[0]) if it[0] in words else it[0], found[0]), text)
        if new != text:
            texts[path] = new

    if "--list" in sys.argv[1:]:
        for new, olds in sorted(seen.items()):
            print(new, *sorted(olds))
        return
    for path, text in texts.items():
        with open(path, "w", encoding="utf-8") as file:
            file.write(text)
    print(f"respell: {sum(map(len, seen.values()))} names in {len(texts)} files")


main()
