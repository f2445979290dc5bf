#!/usr/bin/env python3
"""Brings the repository's own names in specs, proofs, clauses, edits and pages to today's spelling: words in snake case.

usage: tools/port_names.py            at the top of the repository, once, after the scripts of today's Rattle
       tools/port_names.py --list     only says what it would rename

Types and modules keep their camel case, what the kit's libraries declare keeps its name, and so do the functions of src/.
"""
import collections
import os
import re
import sys

DECLARED = re.compile(r"^ *(?:(?:abbrev|unfoldable|pub|instance) )*([a-z][\w'₀-₉\-]*)(?: +[^:\n]*?)? *:(?!:)(?: |$)", re.M)
USE = re.compile(r"^(?:pub )?(?:ghost )?use ([\w.'+\-·]+?)\.\{([^}]*)\}", re.M | re.S)
TOKEN = re.compile(r"[A-Za-z_#][\w'₀-₉]*(?:-[\w'₀-₉]+)*")
CRATES = sorted(os.listdir("crates"))
# Where a lemma and what it is about would fall together, the lemma gets the ending that the style asks for. Three fields get a name of their own.
APART = {
    "noCycle": "without_cycle",
    "noneAbove": "no_balance_above",
    "all_right": "all_right_lem",
    "every_set": "every_set_lem",
}


def files(ends):
    for folder, folders, names in os.walk("crates"):
        folders[:] = sorted(f for f in folders if f != "out")
        for name in sorted(names):
            if name.endswith(ends):
                yield os.path.join(folder, name)


def read(path):
    with open(path, encoding="utf-8") as file:
        return file.read()


def of_kit():
    """Names that some file takes from a library that isn't of this repository."""
    names = set()
    for path in files((".antt", ".rt")):
        for module, taken in USE.findall(read(path)):
            parts = module.split(".")
            if parts[0] == "Rattle" and len(parts) > 1 and parts[1] in CRATES:
                continue
            for item in taken.split(","):
                names.update(item.split(" as ")[0].split())
    return names


def today(name):
    name = re.sub(r"(?<=[a-z0-9])([A-Z])", lambda m: "_" + m.group(1).lower(), name)
    return name.replace("-", "_").lower() if not name.startswith("#") else name


def renamed():
    kit = of_kit()
    declared = collections.defaultdict(set)
    for path in files(".antt"):
        for name in DECLARED.findall(read(path)):
            declared[name].add(path)
    turned = dict(APART)
    for name in sorted(declared):
        if name not in kit and name not in turned and today(name) != name:
            turned[name] = today(name)
    for name in sorted(turned):
        others = [n for n in turned if n != name and turned[n] == turned[name]]
        if "-" in name and (others or today(name) in declared):
            turned[name] += "_lem"
    return turned, declared, kit


def fall_together(turned, declared, kit):
    """Renamed names that another name of the same spelling could be taken for."""
    said = []
    by_new = collections.defaultdict(list)
    for old, new in turned.items():
        by_new[new].append(old)
    for new, olds in sorted(by_new.items()):
        if len(olds) > 1:
            said.append(f"{new}: both {' and '.join(olds)}")
        if new in declared and turned.get(new, new) == new:
            said.append(f"{new}: {olds[0]} and {new}")
        if new in kit:
            said.append(f"{new}: {olds[0]} and the kit's {new}")
    return said


FUNCTIONS = {name for path in files(".rt") for name in re.findall(r"fn (\w+)", read(path))}


def spelled(text, turned):
    """The text with its names turned; after a dot a function's name is a step of a proof, and keeps to the source."""
    def one(match):
        name = match.group(0)
        if match.start() and text[match.start() - 1] == "." and "-" in name and today(name) in FUNCTIONS:
            return today(name)
        return turned.get(name, name)
    return TOKEN.sub(one, text)


def ghost_part(text, turned):
    """A source file: the names are only in ghost use items, clauses and attributes."""
    def item(match):
        return spelled(match.group(0), turned)
    text = re.sub(r"^ghost use [^;]*;", item, text, flags=re.M)
    return re.sub(r"^ *(?:requires|ensures|ghost)\*?(?: \w+)? \{.*\}$", item, text, flags=re.M)


def turn(path, text, turned):
    if path.endswith(".rt"):
        return ghost_part(text, turned)
    if path.endswith(".antt"):
        return spelled(text, turned)
    if path.endswith(".edit"):
        lines, of_specs = [], False
        for line in text.split("\n"):
            if line.startswith("file: "):
                of_specs = line.endswith(".antt")
            elif of_specs or re.search(r"ghost use |(?:requires|ensures)\*?(?: \w+)? \{", line):
                line = line[:5] + spelled(line[5:], turned)
            lines.append(line)
        return "\n".join(lines)
    # A page: between backticks, and a name that has both cases or a dash and is more than one word.
    def quoted(match):
        return spelled(match.group(0), turned)
    return re.sub(r"`[^`\n]+`", quoted, text)


def main():
    turned, declared, kit = renamed()
    for said in fall_together(turned, declared, kit):
        print("falls together: " + said)
    print(f"{len(turned)} names")
    if "--list" in sys.argv:
        for old, new in turned.items():
            print(f"{old} -> {new}")
        return
    pages = [os.path.join(f, n) for f, _, ns in os.walk("docs") for n in sorted(ns) if n.endswith(".md") and n != "PORT.md"]
    for path in list(files((".antt", ".rt", ".edit"))) + ["README.md"] + pages:
        text = read(path)
        new = turn(path, text, turned)
        if new != text:
            with open(path, "w", encoding="utf-8") as file:
                file.write(new)


main()
