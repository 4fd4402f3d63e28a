#!/usr/bin/env python3
"""Brings the names of this repository's own definitions and lemmas to the spelling of today's Rattle, once.

usage: python3 tools/respell.py [--dry | --anyway]     at the top, right after port.py

Words in snake case, types and facts in camel case; a dash joins two names, an underscore plain words. What the check
generates (goals, steps, folders of proofs) and what src/ declares keep their names. Names that would fall together in
one file are printed, and then nothing is written but with --anyway: those that it prints here are a definition's name
beside the same name of a function or a field of src/, which never stand for one another in a clause.
"""

import re
import sys
from pathlib import Path

TOP = Path(__file__).resolve().parent.parent
NAME = r"[^\s(){}\[\];,.\"«»:`⌜⌝]+"
SIGNATURE = re.compile(rf"^\s*(?:(?:abbrev|unfoldable|pub)\s+)*({NAME})\s+:\s+(.*)")
DECLARED = re.compile(rf"^(?:pub\s+)?(?:record|data)\s+({NAME})")
CAMEL = re.compile(r"[a-z][a-z0-9]*(?:[A-Z][a-z0-9]*)+")
# lemmas whose new name would be that of a definition beside them, or that no rule spells
CHOSEN = {"look-count": "look_counted", "bit-by-bit": "bit_by_bit", "bit-time-refusal": "bit_time-refusal"}
# functions of std that lemmas here are named after
STD = set("length map take drop set".split())
# definitions that are plain words in the names of lemmas
PLAIN = {"all"}


def files():
    for crate in sorted((TOP / "crates").iterdir()):
        for folder in ("specs", "proofs"):
            yield from sorted((crate / folder).rglob("*.antt"))
        yield from sorted((crate / "src").rglob("*.rt"))


def defined():
    """Own names, and the functions and the fields among them; goals that the check names are no own names."""
    own, functions, fields, goals = set(), set(), set(), set()
    for path in files():
        if path.suffix != ".antt":
            continue
        for line in path.read_text().splitlines():
            found = DECLARED.match(line.strip()) or SIGNATURE.match(line)
            if not found or line.lstrip().startswith("--"):
                continue
            name = found.group(1)
            if found.re is SIGNATURE and found.group(2).startswith("goal."):
                goals.add(name)
            else:
                own.add(name)
                if line[0] == " ":
                    fields.add(name)
                elif "-" not in name and path.parent.name == "specs":
                    functions.add(snake(name))
    return own - goals, functions, fields - goals


def snake(word):
    return re.sub(r"(?<=[a-z0-9])([A-Z])", r"_\1", word).lower()


def camel(word):
    return "".join(p[:1].upper() + p[1:] for p in word.split("-"))


def respelled(name, words, fields):
    if name in CHOSEN:
        return CHOSEN[name]
    if name in fields:
        return "_".join(snake(p) for p in name.split("-"))
    if re.fullmatch(r"[A-Z][A-Za-z0-9]*(-[A-Za-z0-9]+)+", name):
        return camel(name)
    first, *more = [snake(p) if CAMEL.fullmatch(p) else p for p in name.split("-")]
    if not more:
        return first
    rest = "_".join(more)
    return first + ("-" if first in words or not rest[0].isalnum() else "_") + rest


def main(argv):
    own, functions, fields = defined()
    words = (functions | STD) - PLAIN
    table = {n: respelled(n, words, fields) for n in own}
    table = {old: new for old, new in table.items() if old != new}
    bare = re.compile(NAME)

    def turn(token):
        text = token.group(0)
        if text in table:
            return table[text]
        if CAMEL.fullmatch(text):
            return snake(text)
        if re.fullmatch(r"Model-[a-z]+|Not-ended", text):  # names that imports give
            return camel(text)
        return text

    clash, texts = False, {}
    for path in files():
        old = path.read_text()
        tokens = set(bare.findall(old))
        into = {}
        for t in tokens:
            into.setdefault(bare.sub(turn, t), set()).add(t)
        for new, olds in into.items():
            if len(olds) > 1:
                clash = True
                print(f"fall together in {path.relative_to(TOP)}: {sorted(olds)} -> {new}")
        texts[path] = bare.sub(turn, old)
    quoted = re.compile(rf"(?<=`)({NAME})(?=`)")
    for path in [TOP / "README.md", *sorted((TOP / "docs").glob("*.md"))]:
        texts[path] = quoted.sub(turn, path.read_text())
    if "--dry" in argv:
        for old in sorted(table):
            print(old, "->", table[old])
        return
    if clash and "--anyway" not in argv:
        raise SystemExit("nothing written")
    for path, text in texts.items():
        path.write_text(text)


if __name__ == "__main__":
    main(sys.argv[1:])
