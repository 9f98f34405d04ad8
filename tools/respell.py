#!/usr/bin/env python3
"""Spells this repository's own definitions, fields and lemmas as the installed Rattle does: words in snake case, a prime as an apostrophe.

usage: python3 tools/respell.py [--list] [FOLDER]

It was run once, after the port scripts of the toolchain, on the commit that those left. It goes by the names that the files of specs/ and
proofs/ declare, and renames them there, in the clauses and ghost items of src/, and in must-fail edits. Names of src/, strings, comments
and the names of goals stay. Names that fall together are listed, and then nothing is changed.
"""

import os
import re
import sys

# What may stand in a name of antt.
NAME = re.compile(r"[^\s(){}\[\];,.:λ\"@⌜⌝∥|]+")
DECLARED = re.compile(r"^(\s*)((?:abbrev |unfoldable |pub |record |data |ruleset )*)([^\s(){}\[\];,.:\"]+)(?:\s*[({].*)?\s*:(?:\s|$)")
LET = re.compile(r"(?:\blet|;)\s+([^\s(){}\[\];,.:\"]+) :")
CAMEL = re.compile(r"(?<=[a-z0-9])[A-Z]")

# Names that would fall together with another in snake case, and what they are called in place of it.
OTHERWISE = {
    "code_below": "code_below_size",
    "next-at": "next_place",
    "size-at": "size_in_below",
    "size-past": "size_in_past",
}
# Names that two files have, of which no third file sees both.
APART = {"size_in", "leave_out"}


def files(root, ending):
    for folder, dirs, names in os.walk(os.path.join(root, "crates")):
        dirs[:] = sorted(d for d in dirs if d != "out")
        for name in sorted(names):
            if name.endswith(ending):
                yield os.path.join(folder, name)


def read(path):
    with open(path, encoding="utf-8") as f:
        return f.read()


def is_goal(path, line):
    return os.path.basename(path) in ("Answers.antt", "Invariants.antt") and re.search(r": (goal|given|need)\.", line)


def spelled(name):
    """The name in snake case. A type keeps its capitals, and a dash before an operator stays."""
    new = name.replace("′", "'")
    if new[0].islower():
        new = CAMEL.sub(lambda m: "_" + m.group(0).lower(), new)
    return re.sub(r"-(?=[\w'])", "_", new)


def declared(root):
    """Each name that the files declare, with the files; and those that are fields of a record."""
    names, fields = {}, set()
    for path in files(root, ".antt"):
        record = False
        for line in read(path).split("\n"):
            if line.lstrip().startswith("--") or line.startswith("use "):
                continue
            m = DECLARED.match(line)
            if m and not is_goal(path, line):
                names.setdefault(m.group(3), set()).add(path)
                if record and m.group(1):
                    fields.add(m.group(3))
            if line and not line[0].isspace():
                record = "record " in line.split(":")[0]
            for n in LET.findall(line):
                names.setdefault(n, set()).add(path)
    return names, fields


def outside_text(text, comment, change):
    """Changes a text but for its strings, of which one may have several lines, and its comments."""
    parts = re.split(r"""("(?:[^"\\]|\\.)*"|'"'|%s[^\n]*)""" % comment, text)
    return "".join(part if i % 2 else change(part) for i, part in enumerate(parts))


def main():
    words = [w for w in sys.argv[1:] if w != "--list"]
    root = words[0] if words else "."
    names, fields = declared(root)
    turned = {n: OTHERWISE.get(n) or spelled(n) for n in names}
    turned = {old: new for old, new in turned.items() if new != old}
    by_new = {}
    for old, new in turned.items():
        by_new.setdefault(new, set()).add(old)
    clashes = []
    for new, olds in sorted(by_new.items()):
        if (len(olds) > 1 or new in names and new not in turned) and new not in APART:
            clashes.append(f"{new}: {', '.join(sorted(olds))}" + (" (stands already)" if new in names else ""))
    if "--list" in sys.argv:
        print("\n".join(f"{old} {new}" for old, new in sorted(turned.items())))
    if clashes:
        print("falling together:\n  " + "\n  ".join(clashes), file=sys.stderr)
        raise SystemExit(1)
    if "--list" in sys.argv:
        return

    def change(text):
        def one(m):
            word = m.group(0)
            if word not in turned:
                return word
            field = m.start() > 0 and text[m.start() - 1] == "."
            return turned[word] if not field or word in fields or "-" not in word else word
        return NAME.sub(one, text)

    for path in files(root, ".antt"):
        old = read(path)
        new = "\n".join(line if is_goal(path, line) else outside_text(line, "--", change) for line in old.split("\n"))
        if new != old:
            with open(path, "w", encoding="utf-8") as f:
                f.write(new)
    for path in [*files(root, ".rt"), *files(root, ".edit")]:
        old = read(path)
        new = outside_text(old, "//", change)
        if new != old:
            with open(path, "w", encoding="utf-8") as f:
                f.write(new)


main()
