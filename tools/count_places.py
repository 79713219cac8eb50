#!/usr/bin/env python3
"""Counts places of src/ that a newer form of Rattle may write better.

usage: python3 tools/count_places.py [--list] [COMMIT]

Reads crates/*/src of the working tree, or of COMMIT, and prints for each kind of place how many there are; with --list, where.
A place is only a place to look at: what becomes of it is said in docs/DESIGN-PASS.md.
"""

import re
import subprocess
import sys
from collections import defaultdict

TESTS = ("ground_tests", "leaf_tests", "list_tests")


def files(commit):
    if commit:
        names = subprocess.run(["git", "ls-tree", "-r", "--name-only", commit, "crates"], capture_output=True, text=True, check=True).stdout.split()
        read = lambda n: subprocess.run(["git", "show", f"{commit}:{n}"], capture_output=True, text=True, check=True).stdout
    else:
        names = subprocess.run(["git", "ls-files", "-co", "--exclude-standard", "crates"], capture_output=True, text=True, check=True).stdout.split()
        read = lambda n: open(n, encoding="utf-8").read()
    return {n: read(n) for n in sorted(names) if re.fullmatch(r"crates/[^/]+/src/.*\.rt", n)}


def functions(text):
    """Every function with a body: its line, its name, its head without clauses, and its body."""
    lines = text.split("\n")
    i = 0
    while i < len(lines):
        m = re.match(r"(\s*)(?:pub(?:\([a-z]+\))? )?(?:const )?fn (\w+)", lines[i])
        if not m:
            i += 1
            continue
        indent, at, head = m.group(1), i, []
        while i < len(lines) and not re.search(r"[{;]$", lines[i]) or re.match(r"\s*(ensures|requires)\b", lines[i]):
            if not re.match(r"\s*(ensures|requires)\b", lines[i]):
                head.append(lines[i].strip())
            elif lines[i].endswith(";"):
                break
            i += 1
        if i >= len(lines) or lines[i].endswith(";"):
            i += 1
            continue
        if lines[i].strip() != "{":
            head.append(lines[i].strip())
        body = []
        i += 1
        while i < len(lines) and lines[i] != indent + "}":
            if not lines[i].strip().startswith("//"):
                body.append(lines[i].strip())
            i += 1
        yield at + 1, m.group(2), " ".join(head), body


def shape(name, head, body):
    """A function without its name, and with one word for every number, every type of numbers and every digit in a name."""
    text = head.replace("fn " + name, "fn _", 1).removeprefix("pub ") + "\n" + "\n".join(body)
    text = re.sub(r"\b(u8|u16|u32|u64|u128|i16|i32|i64|i128|usize)\b", "NUM", text)
    text = re.sub(r"\b(UInt16|Int32|Int64)", "Num", text)
    text = re.sub(r"_?(u16|i32|i64)_?", "_", text)
    text = re.sub(r"\b(0x)?[0-9][0-9a-f_]*\b", "0", text)
    text = re.sub(r"(?:body\[p(?: \+ 0)?\],?\s*)+", "BYTES", text)
    return text


def main():
    args = [a for a in sys.argv[1:] if a != "--list"]
    listing = "--list" in sys.argv
    tree = files(args[0] if args else None)
    code = {n: t for n, t in tree.items() if n.split("/")[1] not in TESTS}
    found = defaultdict(list)

    def grep(kind, pattern, among=code):
        for n, t in among.items():
            for k, line in enumerate(t.split("\n"), 1):
                if re.search(pattern, line) and not line.strip().startswith("//"):
                    found[kind].append(f"{n}:{k}: {line.strip()[:110]}")

    grep("kinds: enums of the repository", r"^(pub(\(\w+\))? )?enum \w+")
    grep("kinds: given as a number", r"digit: u8|::leaf\([0-9]\)|_digit\(\) -> u8|Reason::\w+ => [0-9]+,$|^\s+0x[89ab]$")
    for n, t in code.items():
        for at, name, head, body in functions(t):
            if "-> bool" in head and "&mut" in head:
                found["kinds: done or not, as a bool"].append(f"{n}:{at}: {name}")
    alike, named = defaultdict(list), defaultdict(list)
    for n, t in code.items():
        for at, name, head, body in functions(t):
            if body:
                alike[shape(name, head, body)].append(f"{n}:{at}: {name}")
    for group in alike.values():
        if len(group) > 1:
            found["twins: functions alike but for types, numbers and names of numbers"].append(" ~ ".join(group))
    grep("loops: counted by hand", r"^\s*(while|loop)\b")
    grep("loops: over a range of indices", r"^\s*for \w+ in [^{]*\.\.")
    grep("loops: others", r"^\s*for (?!\w+ in [^{]*\.\.)")
    grep("by hand: an Option or a Result turned by a match", r"=> (Ok\(\w+\)|Err\(\w+\)|None|Some\(\w+::from\(\w+\)\)|Ok\(!\w+\)|0|Err\(Stop::new\(Reason::\w+\)\)),$")
    grep("by hand: a refusal made", r"Err\(Stop::new\(Reason::\w+\)\)")
    grep("by hand: printing, comparing, turning", r"impl.*(Display|From<.*|TryFrom<.*) for|fn same\(|fn number\(|if a < b")
    grep("spelt out: what a ledger holds", r"accounts_of")
    grep("spelt out: the count of a child's absent entries", r"count_reply \(C\.Array\.size")
    grep("spelt out: the tests of a conversion", r"turn_tests \(|fixed_tests \(")
    groups = {"ledger, body": r"ledger: &(mut )?Ledger,? .*body: &", "place, k": r"place: u64, k: u64", "starts, sizes": r"starts: \w+, sizes: \w+", "rows, place": r"rows: Rows, place: u64"}
    for label, pattern in groups.items():
        for n, t in code.items():
            for at, name, head, body in functions(t):
                if re.search(pattern, head):
                    found[f"together: {label}"].append(f"{n}:{at}: {name}")
    grep("memory: a buffer with its length, a search by hand, an arena", r"len: usize|binary_search|\[u8; \d+\],$")
    grep("steps: a match on which one to run", r"Step::\w+(\([^)]*\))? (\||=>)|Origin::\w+ =>")
    for kind in sorted(found):
        print(f"{len(found[kind]):4d}  {kind}")
        if listing:
            for place in found[kind]:
                print(f"        {place}")


main()
