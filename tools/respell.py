#!/usr/bin/env python3
"""Brings the repository's own definitions and lemmas to today's spelling: words in snake case, facts in camel case.

Run once at the top of the repository, after the kit's port.py: it rewrites .antt, .rt and .edit files below crates/.
"""
import glob
import re
import sys

# A token of antt or Rattle: a name may hold letters, digits, _, ' and dashes.
TOKEN = re.compile(r"[^\W\d][\w'₀-₉-]*")

# Names of their own: a lemma that would have its definition's name, a fact, and a library name inside a lemma's.
LEMMAS = {
    "run_in": "run_in_lem",
    "size_in": "size_in_lem",
    "held_by": "held_by_lem",
    "by_lengths": "by_lengths_lem",
    "get_d_any": "get_or-any",
}
FACTS = {"over": "Over"}
LIBRARY = {"getD": "get_or"}


def snake(part):
    if part in LIBRARY:
        return LIBRARY[part]
    if re.match(r"[a-z]", part) and re.search(r"[a-z0-9][A-Z]", part):
        return re.sub(r"([a-z0-9])([A-Z])", lambda m: m.group(1) + "_" + m.group(2).lower(), part)
    return part


def declared():
    """The camel-case parts of the names that the repository's .antt files declare."""
    parts = set()
    shape = re.compile(r"^\s*(?:(?:abbrev|unfoldable|pub|data|record)\s+)*([^\s:(){}=]+)\s*(?:\(.*\))?\s*:\s")
    for file in glob.glob("crates/*/specs/**/*.antt", recursive=True) + glob.glob("crates/*/proofs/**/*.antt", recursive=True):
        for line in open(file):
            found = shape.match(line)
            if found:
                parts |= {p for p in found.group(1).split("-") if snake(p) != p}
    return parts


def respelled(text, parts, antt):
    def name(found):
        word = found.group(0)
        field = found.start() > 0 and text[found.start() - 1] == "."
        if antt and not field and word in LEMMAS:
            return LEMMAS[word]
        return "-".join(snake(p) if p in parts else p for p in word.split("-"))

    return TOKEN.sub(name, text)


def facts(text, file):
    """`over` stands in a `ghost use` or in front of a parenthesis in a clause; in Kept.antt it is a local name."""
    if file.endswith("Kept.antt"):
        return text
    text = re.sub(r"(ghost use [^;]*)\bover\b", r"\1Over", text)
    text = re.sub(r"\{ over \(", "{ Over (", text)
    text = re.sub(r"^over P", "Over P", text, flags=re.M)
    return re.sub(r"pub over :", "pub Over :", text)


def main():
    parts = declared()
    if not parts:
        sys.exit("respell.py: no name of the older spelling is declared here; it has run already")
    for file in sorted(glob.glob("crates/**/*", recursive=True)):
        if not file.endswith((".antt", ".rt", ".edit")) or "/out/" in file:
            continue
        old = open(file).read()
        new = facts(respelled(old, parts, file.endswith(".antt")), file)
        if new != old:
            open(file, "w").write(new)


main()
