#!/usr/bin/env python3
"""Brings the names of this repository's own definitions, lemmas and ghost members to snake case.

usage: python3 tools/respell.py        at the top of the repository, once, after the toolchain's own script for older repositories

Definitions and ghost members in lower camel case, and lemmas and fields with dashes, become snake case, in src/, specs/, proofs/ and
must-fail/ of every crate. Types, functions of src/, strings, inputs and outputs keep their names. A dash stays where it joins
the names of two functions. Where a name would fall together with that of a definition, a field or a ghost
member, it gets another one, told in GIVEN and LOCAL (a lemma gets `_lem`); so does the other name of one import. APART lists names
that two modules have and no file sees twice.
It prints what it renamed.
"""

import glob
import re
import sys

TOKEN = re.compile(r"[^\s(){}\[\],;.\":`]+")
STRING = re.compile(r'"(?:[^"\\\n]|\\.)*"')
MADE = ("Answers.antt", "Invariants.antt", "Choices.antt", "Given.antt")
WORDS = {"use", "mod", "pub", "where", "mutual", "abbrev", "unfoldable", "data", "record", "let", "in"}

# names whose dash joins two functions, names that would fall together with a definition, field or ghost member, and an import's
# other name
GIVEN = {
    "length-bytesOf": "length-bytes_of",
    "length-putBytes": "length-put_bytes",
    "length-listed": "length-listed",
    "length-map": "length-map",
    "length-written": "length-written",
    "map-++": "map-++",
    "map-listed": "map-listed",
    "reach-++": "reach-++",
    "getD-listed": "get_or-listed",
    "item-told": "item_told_lem",
    "mark-alike": "mark_alike_lem",
    "null-absent": "null_absent_lem",
    "leaf-slot": "leaf_slot_lem",
    "word-put": "word_put_lem",
    "and-then": "and_then_lem",
    "not-below": "not_below",
    "marksEnd": "marks_bytes_end",
    "seenAs": "seen_as",
}

# lemmas and helpers of one file that would fall together with a definition, a field or a ghost member
LOCAL = {
    "crates/convert/proofs/Written.antt": {"put_word": "put_word_lem"},
    "crates/list_array/specs/OffsetLaws.antt": {"range_inside": "range_inside_lem"},
    "crates/boolean_array/specs/BooleanArrayAccessorLemmas.antt": {"first": "first_number"},
    "crates/primitive_array/specs/PrimitiveArrayAccessorLemmas.antt": {"first": "first_number"},
}

# names of two modules of which no file sees both, or of which LOCAL turns one
APART = ("one_more", "put_word", "range_inside")


def antt():
    return sorted(glob.glob("crates/*/specs/**/*.antt", recursive=True) + glob.glob("crates/*/proofs/**/*.antt", recursive=True))


def read(path):
    with open(path, encoding="utf-8") as f:
        return f.read()


def declared():
    names = set()
    for p in antt():
        if p.rsplit("/", 1)[1] in MADE:
            continue
        for line in read(p).split("\n"):
            m = re.match(r"^ *(?:(?:abbrev|unfoldable|opaque|mutual|pub|data|record) +)*([^\s:(){}]+) : ", line + " ")
            if m and m.group(1) not in WORDS:
                names.add(m.group(1))
    for p in sorted(glob.glob("crates/*/src/*.rt")):
        for m in re.finditer(r"^\s*ghost ([A-Za-z_]\w*)\s*[:=]", read(p), re.M):
            if m.group(1) != "use":
                names.add(m.group(1))
    return names


def snake(name):
    if name in GIVEN:
        return GIVEN[name]
    if not re.match(r"[a-z]", name):
        return name
    return re.sub(r"(?<=[a-z0-9])([A-Z])", lambda m: "_" + m.group(1).lower(), name).replace("-", "_")


def turn(text, renames):
    """Renames whole names outside string literals."""
    out, at = [], 0
    for s in STRING.finditer(text):
        out.append(TOKEN.sub(lambda m: renames.get(m.group(0), m.group(0)), text[at : s.start()]))
        out.append(s.group(0))
        at = s.end()
    out.append(TOKEN.sub(lambda m: renames.get(m.group(0), m.group(0)), text[at:]))
    return "".join(out)


def main():
    names = declared() | set(GIVEN)
    renames = {n: snake(n) for n in names if snake(n) != n}
    back = {}
    for old, new in sorted(renames.items()):
        if new in back or (new in names and new not in APART):
            sys.exit(f"respell: {old} and {back.get(new, new)} would fall together as {new}")
        back[new] = old
    files = antt() + sorted(glob.glob("crates/*/src/*.rt")) + sorted(glob.glob("crates/*/must-fail/*.edit"))
    for p in files:
        old = read(p)
        new = turn(turn(old, LOCAL.get(p, {})), renames)
        if new != old:
            with open(p, "w", encoding="utf-8") as f:
                f.write(new)
    for old in sorted(renames):
        print(old, "->", renames[old])
    print(len(renames), "names")


main()
