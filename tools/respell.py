#!/usr/bin/env python3
"""Brings the repository's own definitions, fields and lemmas to the spelling of the installed Rattle: words in snake case, types and modules in camel
case. Run once at the top, after the toolchain's port.py. Functions of src/, exported names, strings, inputs and outputs keep their names.

    tools/respell.py          respells
    tools/respell.py --list   prints what it would respell
"""
import collections
import glob
import re
import sys

TOKEN = r"[A-Za-zℕ][A-Za-z0-9_'ℕ₀-₉⁺-]*"
EDGE = r"[A-Za-z0-9_'ℕ₀-₉⁺-]"
# Names that would fall together with another of the same file: (crate, old name) or old name.
BY_HAND = {"atRest": "resting_bytes", "getD": "get_or"}
IN_CRATE = {("reason", "all_true"): "all_true_lem", ("evaluate", "joined_word"): "joined_word_lem"}
# The toolchain's own, which a crate names too.
LIBRARY = {"length-append"}
# Names that another may share: a label of a clause, or a function of src/ or a definition that is not in scope where the law is cited.
MAY_SHARE = {"accepted_exactly", "action_known", "all_marks", "at_fault", "chart_refused", "is_earlier", "marks_are", "marks_below", "matrix_room",
             "of_chart", "of_sheet", "sheet_refused", "targets_in", "triples_rise"}
# A field, but where it is the case of what reading two charts refuses: there the definition of that name is cited.
CASE = ("of-second", "of_second", "of_second_lem")
CASE_FILES = {"crates/beside/proofs/Reading.antt", "crates/calls/proofs/Packable.antt"}
CASE_LINES = re.compile(r"Rattle\.beside\.proofs\.Reading\.\{|by[-_]reading \(of-second ")


def snake(name):
    parts = []
    for part in name.split("-"):
        if part == "getD":
            part = "get_or"
        elif part[:1].islower():
            part = re.sub(r"(?<=[a-z0-9'])([A-Z])", lambda m: "_" + m.group(1), part).lower()
        elif len(part) <= 2:
            part = part.lower()
        parts.append(part)
    return "_".join(parts)


def sources():
    return sorted(glob.glob("crates/**/*.antt", recursive=True) + glob.glob("crates/**/*.rt", recursive=True))


def declared():
    """The names with a dash that the crates' own definitions and laws declare."""
    names = set()
    start = re.compile(r"^\s*(?:abbrev |unfoldable )?(?:pub )?(?:record |data |module )?(%s)\s*(?:[({][^:]*)?\s:\s" % TOKEN)
    for path in glob.glob("crates/*/specs/*.antt") + glob.glob("crates/*/proofs/*.antt"):
        for line in open(path):
            if line.lstrip().startswith(("--", "use ")):
                continue
            if found := start.match(line):
                names.add(found.group(1))
            names.update(re.findall(r"\blet (%s)\s*(?::|=)" % TOKEN, line))
            for group in re.findall(r"[({](%s(?: %s)*) :" % (TOKEN, TOKEN), line):
                names.update(group.split())
    return {name for name in names if "-" in name and name not in LIBRARY}


def renamings():
    words = collections.Counter()
    for path in sources():
        words.update(re.findall(TOKEN, open(path).read()))
    camel = {part for word in words for part in [word] if "-" not in word and word[:1].islower() and re.search("[A-Z]", word)}
    new = {name: BY_HAND.get(name, snake(name)) for name in camel}
    # a dashed name that is not declared here is the toolchain's own, but for those of proof files that name our functions
    for name in sorted(declared()):
        to = snake(name)
        taken = to in words or to in new.values()
        new[name] = to + "_lem" if taken and to not in MAY_SHARE else to
    clash = [to for to, count in collections.Counter(new.values()).items() if count > 1 and to not in MAY_SHARE]
    if clash:
        sys.exit("fall together: " + " ".join(clash))
    return new


def replace(text, new):
    pattern = re.compile(r"(?<!%s)(%s)(?!%s)" % (EDGE, TOKEN, EDGE))
    return pattern.sub(lambda m: new.get(m.group(1), m.group(1)), text)


def quoted(text, new):
    return re.sub(r"`[^`\n]+`", lambda m: replace(m.group(0), new), text)


def antt(line, new):
    """The code of a line; of a comment only what stands in backticks."""
    if CASE[0] in new and not CASE_LINES.search(line):
        new = {**new, CASE[0]: new[None]}
    at = re.search(r"(^|\s)--(\s|$)", line)
    code, comment = (line[:at.start()], line[at.start():]) if at else (line, "")
    return replace(code, new) + quoted(comment, new)


def rt(line, new):
    clause = re.match(r"\s*(ghost use|requires|ensures|ghost|//)", line)
    if line.lstrip().startswith("//"):
        return quoted(line, new)
    return replace(line, new) if clause else line


def edit(line, new):
    return replace(line, new) if re.match(r"(old|new): ", line) else quoted(line, new)


def main():
    new = renamings()
    if "--list" in sys.argv:
        for old in sorted(new):
            print(old, new[old])
        return
    pages = glob.glob("docs/**/*.md", recursive=True) + ["README.md"] + glob.glob("bench/**/*.md", recursive=True) + glob.glob("tests/*.md")
    jobs = [(path, antt if path.endswith(".antt") else rt) for path in sources()]
    jobs += [(path, edit) for path in glob.glob("crates/*/must-fail/*")] + [(path, quoted) for path in pages]
    for path, how in jobs:
        crate = path.split("/")[1] if path.startswith("crates/") else ""
        here = dict(new)
        here.update({old: to for (where, old), to in IN_CRATE.items() if where == crate})
        here[None] = CASE[2] if path in CASE_FILES else CASE[1]
        text = open(path).read()
        turned = "".join(how(line, here) for line in text.splitlines(True))
        if turned != text:
            open(path, "w").write(turned)


main()
