#!/usr/bin/env python3
"""Writes the repository's own names of antt as the guides spell them: words in snake case, types in camel case.

    tools/respell.py [--check] FOLDER

FOLDER is a checkout whose crates the kit's port.py has turned. Each part of a name that has capitals inside, as `remainderStep` in
`remainderStep-short`, becomes `remainder_step`; a part that begins with a capital is a type, a fact or a module and stays. One fact whose name began with a
small letter gets a capital. It turns .antt files, and of .rt files the clauses, the `ghost use` lines and the comments: what is code or a string stays.

It stops, and writes nothing, where two names would fall together. --check writes nothing. A second run changes nothing.
"""
import collections
import pathlib
import re
import sys

# What a name of antt is made of.
NAME = re.compile(r"[^\s(){}.;,@\"«»\[\]`|:]+")
CAMEL = re.compile(r"[a-z][a-z0-9]*(?:[A-Z][a-z0-9]*)+'*")
FACTS = {"distance-G": "DistanceG"}
# Lemmas that port.py gave the very name that a definition gets here: a lemma named as its function ends in _lem.
LEMMAS = {"bit_in": "bitIn", "count_at": "countAt", "position_in": "positionIn", "row_words": "rowWords", "take_in": "takeIn"}
# A name of the kit's that one proof by hand imports, in a file that has no name of ours beside it.
KITS = {"look_in"}
# Parts of a .rt file that are no code: comments, `ghost use` lines and the text of clauses. A string is skipped as a whole.
RUST = re.compile(r"//[^\n]*|\bghost\s+use\b[^;]*;|\b(?:requires|ensures)\s*(?:\w+\s*)?\{|b?\"(?:\\.|[^\"\\])*\"")


def part(text):
    if not CAMEL.fullmatch(text):
        return text
    return re.sub(r"[A-Z]", lambda it: "_" + it.group().lower(), text)


def name(text, lemmas=()):
    if text in lemmas:
        return text + "_lem"
    return FACTS.get(text) or "-".join("?".join(part(it) for it in word.split("?")) for word in text.split("-"))


def bare(text, found):
    """Whether a name stands by itself, and is neither a step of a path nor a field."""
    return text[found.start() - 1 : found.start()] != "." and text[found.end() : found.end() + 1] != "."


def antt(text, lemmas=()):
    return NAME.sub(lambda it: name(it.group(), lemmas if bare(text, it) else ()), text)


def clause_end(text, at):
    depth = 1
    while depth:
        depth += {"{": 1, "}": -1}.get(text[at], 0)
        at += 1
    return at


def rust(text):
    out, at = [], 0
    while found := RUST.search(text, at):
        out.append(text[at : found.start()])
        end = clause_end(text, found.end()) if found.group().endswith("{") else found.end()
        piece = text[found.start() : end]
        out.append(piece if piece.lstrip("b").startswith('"') else antt(piece))
        at = end
    return "".join([*out, text[at:]])


def known(files):
    """The names that stand by themselves in the code of .antt files."""
    texts = (re.sub(r"(^|\s)--.*", "", it.read_text(), flags=re.M) for it in files if it.suffix == ".antt")
    return {found.group() for text in texts for found in NAME.finditer(text) if bare(text, found)}


def main():
    words = [it for it in sys.argv[1:] if it != "--check"]
    if len(words) != 1:
        sys.exit(__doc__)
    files = sorted(it for it in pathlib.Path(words[0], "crates").glob("*/*/**/*") if it.suffix in (".rt", ".antt") and "out" not in it.parts)
    words = known(files)
    lemmas = {it for it, function in LEMMAS.items() if function in words}
    into = collections.defaultdict(set)
    for it in words - KITS:
        into[name(it, lemmas)].add(it)
    together = {new: old for new, old in into.items() if len(old) > 1}
    if together:
        sys.exit("\n".join(f"fall together as {new}: {' '.join(sorted(old))}" for new, old in sorted(together.items())))
    turned = 0
    for it in files:
        old = it.read_text()
        new = rust(old) if it.suffix == ".rt" else antt(old, lemmas)
        turned += old != new
        if old != new and "--check" not in sys.argv:
            it.write_text(new)
    print(f"{sum(name(it, lemmas) != it for it in words)} names, {turned} files")


if __name__ == "__main__":
    main()
