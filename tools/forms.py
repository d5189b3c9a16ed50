#!/usr/bin/env python3
"""Counts the places of src/ that docs/DESIGN-PASS.md speaks of, point by point.

  tools/forms.py [--list] [COMMIT]     of a commit, or of the working tree; --list names each place
"""
import collections
import re
import subprocess
import sys

LIST = "--list" in sys.argv
ARGS = [a for a in sys.argv[1:] if a != "--list"]
COMMIT = ARGS[0] if ARGS else None


def git(*words):
    return subprocess.run(("git",) + words, capture_output=True, text=True, check=True).stdout


def paths():
    if COMMIT:
        return git("ls-tree", "-r", "--name-only", COMMIT).split("\n")
    return git("ls-files", "--cached", "--others", "--exclude-standard").split("\n")


def text(path):
    return git("show", COMMIT + ":" + path) if COMMIT else open(path).read()


ALL = paths()
SRC = [p for p in ALL if re.match(r"crates/\w+/src/.*\.rt$", p)]
LINES = [(p, n, line) for p in SRC for n, line in enumerate(text(p).split("\n"), 1)]
CODE = [(p, n, l) for p, n, l in LINES if not re.match(r"\s*(//|ghost use|requires|ensures)", l)]


def lines(what, pattern, over=CODE):
    """Every line of the code (no comment, no clause) that the pattern finds."""
    found = [(p, n, l.strip()) for p, n, l in over if re.search(pattern, l)]
    print(f"{what}: {len(found)}")
    if LIST:
        for p, n, l in found:
            print(f"    {p}:{n}: {l}")


def functions():
    """Each function's name with the facts of its requires, split at ×."""
    name, crate = None, None
    for p, _, line in LINES:
        m = re.match(r'\s*(?:pub )?(?:extern "C" )?fn (\w+)', line)
        if m:
            name, crate = m.group(1), p.split("/")[1]
        m = re.match(r"\s*requires [^{]*\{(.*)\}$", line)
        if m:
            for fact in re.split(r" × ", m.group(1)):
                yield re.sub(r"\.(now|old|new|entry)\b", "", fact.strip(" ()")), crate + "::" + name


print("1. Option, Result, enums")
lines("  enums of the shape of Option or Result", r"^\s*(Refused\(|Bad\(|Unreadable,)")
lines("  arms that hand a refusal on", r"\b(Refused|Bad)\(\w+\) => ")
lines("  numbers for kinds (kind, node, name, side, input)", r"\b(kind|node|name|side|input): (u8|u64)\b")
lines("  numbers that are a fault or 'none' from some value on", r"131072|\[4096u16|return i;|^\s+i$|^\s+at$|return high")
print("2. twins")
lines("  bodies written once for each size of an array", r"let mut (work|into|out) = \[0u64; \d+\];")
lines("  functions that make an array", r"fn \w+_room\(\) -> ")
lines("  tests of a needed byte", r"if bytes\.len\(\) <= ")
print("3. loops")
lines("  while", r"^\s*('\w+: )?(while|loop)\b")
lines("  for", r"^\s*('\w+: )?for\b")
print("4. equality, order, conversion, printing")
lines("  casts by as", r" as (usize|u64|u32|u16|u8)\b")
lines("  branches that return true or false", r"^\s*return (true|false);")
print("5. facts of the requires of three functions or more")
users = collections.defaultdict(set)
for fact, function in functions():
    users[fact].add(function)
often = sorted((f for f in users if len(users[f]) > 2), key=lambda f: (-len(users[f]), f))
print(f"  facts: {len(often)}, in {sum(len(users[f]) for f in often)} places")
if LIST:
    for f in often:
        print(f"    {len(users[f])} {f}: {' '.join(sorted(users[f]))}")
print("6. buffers with a length beside, indices in place of links")
lines("  a count beside the array that it is of", r"let mut (count|next|size|lines): usize|\[\.\.(m|size|length|5 \* lines)\]|head\[|next\[")
print("7. switches on which step to run")
lines("  bool and number parameters that choose", r"\b(back|by_left|action): bool|fn by_name\(")
print("8. proofs")
for kind in ("Answers", "Invariants", "Proof"):
    files = [p for p in ALL if p.endswith(f"/{kind}.antt")]
    print(f"  {kind}.antt: {len(files)} files, {sum(text(p).count(chr(10)) for p in files)} lines")
