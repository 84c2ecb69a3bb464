#!/usr/bin/env python3
"""Turns the names of this repository's own definitions, lemmas and variables to the spelling of today's Rattle.

usage: tools/respell.py          at the top of the repository, after port.py
       tools/respell.py --list   prints old and new names, and changes nothing

Types are in camel case, and all other names in snake case. Names of the library, names that Rattle makes (goals, and
steps of a function) and names of src/ stay as they are, and so do comments and texts in quotes.
"""

import os
import re
import sys

HERE = os.path.dirname(os.path.dirname(os.path.realpath(__file__)))
NAME = r"[^\W\d_][\w']*(?:[-+][\w']+)*"
TOKEN = re.compile(r"(?<![\w'+-])" + NAME + r"(?![\w'+-])")
USE = re.compile(r"^(?:ghost )?use ([\w.+·'-]+?)\.\{([^}]*)\}", re.M)
GOAL = re.compile(r"^(?:abbrev )?(?:pub )?(" + NAME + r") : (?:goal|given)\.", re.M)
FIELD = re.compile(r"^\s+(?:pub )?(" + NAME + r") :", re.M)
# new names that another name has already
OTHERWISE = {"job-count": "job_count_lem", "link-count": "link_count_lem"}


def texts():
    for folder, dirs, files in os.walk(os.path.join(HERE, "crates")):
        dirs[:] = sorted(d for d in dirs if d != "out")
        for f in sorted(files):
            if f.endswith((".antt", ".rt")):
                yield os.path.join(folder, f)


def read(path):
    with open(path, encoding="utf-8") as f:
        return f.read()


def own_crates():
    with open(os.path.join(HERE, "crates.txt"), encoding="utf-8") as f:
        return {line.split(":")[0].split()[0] for line in f if ":" in line and not line.startswith("#")}


def spelled(name):
    if name in OTHERWISE:
        return OTHERWISE[name]
    if name[0].isupper():
        return "".join(part[0].upper() + part[1:] for part in re.split("[-_]", name))
    return name.replace("-", "_")


def not_ours(text, crates):
    """Names of the library, and those that Rattle makes, in a file."""
    names = {m[1] for m in GOAL.finditer(text)}
    for m in USE.finditer(text):
        path = m[1].split(".")
        if path[0] != "Rattle" or path[1] not in crates or path[-1] == "Goals":
            names |= {item.split(" as ")[0].strip() for item in m[2].split(",")}
    return names


def fields():
    """The fields of the repository's own records."""
    return {m[1] for p in texts() if p.endswith(".antt") for m in FIELD.finditer(read(p)) if "-" in m[1]}


def turn(text, skip, ours, seen):
    def put(m):
        name = m[0]
        is_member = m.string[m.start() - 1 : m.start()] == "."
        if "-" not in name or name in skip or (is_member and name not in ours):
            return name
        seen[name] = spelled(name)
        return seen[name]

    out = []
    for line in text.split("\n"):
        at = re.search(r"//|(?<!\S)--(?!\S)", line)
        code, note = (line[: at.start()], line[at.start() :]) if at else (line, "")
        pieces = []
        for k, piece in enumerate(re.split(r'("(?:[^"\\]|\\.)*")', code)):
            pieces.append(piece if k % 2 else TOKEN.sub(put, piece))
        out.append("".join(pieces) + note)
    return "\n".join(out)


def main():
    crates, ours, seen, turned = own_crates(), fields(), {}, {}
    before = set()
    for path in texts():
        text = read(path)
        before |= set(TOKEN.findall(text))
        turned[path] = turn(text, not_ours(text, crates), ours, seen)
    for old, new in sorted(seen.items()):
        clash = new in before or list(seen.values()).count(new) > 1
        if "--list" in sys.argv:
            print(old, new, "TOGETHER" if clash else "")
    if "--list" in sys.argv:
        return
    for path, text in turned.items():
        if text != read(path):
            with open(path, "w", encoding="utf-8") as f:
                f.write(text)


main()
