#!/usr/bin/env python3
"""Brings the names that Rattle makes for a function's goals and steps to the library's spelling.

usage: python3 tools/respell_goals.py [FOLDER]      FOLDER is the top of a checkout; without it, the one that holds this script

In such a name a dash joins the parts, and each part keeps the spelling of src/: `if-is_printable`, `overflow_add-x`. Older files have a
dash for the underscore too. Run it once, after tools/respell.py. It turns the files of proofs/ that belong to a function, and there no
name that is imported from a file of lemmas or definitions.
"""

import os
import re
import sys

SOURCE_NAME = re.compile(r"\b[a-z][a-z0-9]*(?:_[a-z0-9]+)+\b")
TOKEN = re.compile(r"[^\s(){}\[\];,.:\"`«»]+")
IMPORT = re.compile(r"^use ([^\s{]+)\.\{([^}]*)\}", re.M)

# Words of Rattle's own, with the dash of older files.
WORDS = [
    (re.compile(r"^overflow-(add|sub|mul|shl|shr|cast|step|neg)-"), r"overflow_\1-"),
    (re.compile(r"^nonzero-(div|rem)-"), r"nonzero_\1-"),
    (re.compile(r"^(offset|slice)-bounds-"), r"\1_bounds-"),
    (re.compile(r"^invariant-of-"), r"invariant_of-"),
    (re.compile(r"(^|-)in-(ok|err|default)(?=-|$)"), r"\1in_\2"),
]


def source_names(top):
    # Functions of std that `?` calls.
    names = {"from_residual", "from_output"}
    for folder, dirs, files in os.walk(os.path.join(top, "crates")):
        dirs[:] = [d for d in dirs if d != "out"]
        for name in files:
            if name.endswith(".rt"):
                with open(os.path.join(folder, name), encoding="utf-8") as file:
                    names.update(SOURCE_NAME.findall(file.read()))
    return names


def turner(names):
    dashed = {name.replace("_", "-"): name for name in names}
    parts = "|".join(re.escape(d) for d in sorted(dashed, key=len, reverse=True))
    pattern = re.compile(r"(?<![\w'])(" + parts + r")(?![\w'])")

    def turned(token):
        token = pattern.sub(lambda m: dashed[m.group(1)], token)
        for word, new in WORDS:
            token = word.sub(new, token)
        return token

    return turned


def imported(text):
    """The names that stand in the file for lemmas and definitions."""
    found = set()
    for module, names in IMPORT.findall(text):
        if not module.endswith((".Goals", ".Given")):
            for name in names.split(","):
                found.add(name.split(" as ")[-1].strip())
    return found


def main():
    top = sys.argv[1] if len(sys.argv) > 1 else os.path.join(os.path.dirname(os.path.realpath(__file__)), "..")
    turn = turner(source_names(top))
    changed = 0
    for folder, dirs, files in os.walk(os.path.join(top, "crates")):
        dirs[:] = sorted(d for d in dirs if d != "out")
        for name in sorted(files):
            if name not in ("Answers.antt", "Invariants.antt"):
                continue
            path = os.path.join(folder, name)
            with open(path, encoding="utf-8") as file:
                text = file.read()
            keep = imported(text)

            def one(match):
                token = match.group(0)
                return token if "-" not in token or token in keep else turn(token)

            lines = text.split("\n")
            new = "\n".join(
                line
                if line.startswith("--") or (line.startswith("use ") and ".Goals" not in line)
                else TOKEN.sub(one, line)
                for line in lines
            )
            if new != text:
                with open(path, "w", encoding="utf-8") as file:
                    file.write(new)
                changed += 1
    print(f"respell_goals: {changed} files")


if __name__ == "__main__":
    main()
