#!/usr/bin/env python3
"""Counts the places that docs/DESIGN-PASS.md speaks of.

usage: python3 tools/places.py [FOLDER] [--list POINT]      FOLDER: a checkout, else this one; --list prints the places of one point

The exports of crates/bisquetower are left out: they repeat the calls of the crates NAME_calls word for word, for C.
"""
import collections
import glob
import os
import re
import sys

WORDS = set("if else while for in let mut return match fn pub loop continue break as true false".split())


def sources(folder):
    for path in sorted(glob.glob(os.path.join(folder, "crates/*/src/*.rt"))):
        if "/bisquetower/" not in path:
            with open(path, encoding="utf-8") as file:
                yield os.path.relpath(path, os.path.join(folder, "crates")), file.read()


def ends(text, at):
    depth = 0
    for place in range(at, len(text)):
        depth += {"{": 1, "}": -1}.get(text[place], 0)
        if depth == 0:
            return place
    return len(text)


def result_like(folder):
    """Own enums of the shape of Result or Option: one variant with a refusal, or two of which one is bare or has one number."""
    for path, text in sources(folder):
        for found in re.finditer(r"(?m)^pub enum (\w+) \{\n(.*?)^\}", text, re.S):
            body = re.sub(r"(?m)^\s*//.*\n", "", found.group(2))
            variants = re.findall(r"(?m)^    (\w+)( \{|\()?", body)
            names = [name for name, _ in variants]
            pairs = len(variants) == 2 and any(part for _, part in variants) and not all(part for _, part in variants)
            if "Refused" in names or pairs:
                yield path, found.group(1)


def handed_on(folder):
    """Arms and returns that only hand a refusal on."""
    for path, text in sources(folder):
        for line in text.split("\n"):
            if re.search(r"(=> (return )?|^\s*return )(\w+::Refused|Err)\((r|refusal)\)[,;]", line):
                yield path, line.strip()


def shape(body):
    names = {}
    said = []
    for word in re.findall(r"[A-Za-z_]\w*|\d[\d_]*|\S", re.sub(r"//[^\n]*", "", body)):
        if re.match(r"[A-Za-z_]", word) and word not in WORDS:
            said.append(names.setdefault(word, "n%d" % len(names)))
        else:
            said.append("0" if word[0].isdigit() else word)
    return " ".join(said)


def twins(folder):
    """Functions of more than two lines whose bodies differ in names and numbers only."""
    bodies = collections.defaultdict(list)
    for path, text in sources(folder):
        for found in re.finditer(r"(?m)^ *(?:pub )?(?:unsafe )?(?:extern \"C\" )?fn (\w+)", text):
            start = re.compile(r"\n *\{\n").search(text, found.start())
            if start:
                at = text.index("{", start.start())
                body = text[at:ends(text, at) + 1]
                if body.count("\n") > 3:
                    bodies[shape(body)].append((path, found.group(1)))
    for same in bodies.values():
        if len(same) > 1:
            yield from same


def counted(folder):
    """Loops that are a `while`."""
    for path, text in sources(folder):
        for line in text.split("\n"):
            if re.match(r"\s*('\w+: )?while ", line):
                yield path, line.strip()


def by_hand(folder):
    """Own orders, and words compared one by one."""
    for path, text in sources(folder):
        for found in re.finditer(r"\b(Less|Equal|Greater),\n", text):
            yield path, found.group(1)
        for found in re.finditer(r"if (\w+)\[(\d)\] != (\w+)\[\2\]", text):
            yield path, found.group(0)


def facts(folder):
    """Facts that stand in the `requires` of three functions or more, each place."""
    places = collections.defaultdict(list)
    for path, text in sources(folder):
        for found in re.finditer(r"requires(?: \w+)? \{(.*?)\}\n", text, re.S):
            for fact in {" ".join(part.split()) for part in re.split(r"\s×\s", found.group(1))}:
                places[fact].append(path)
    for fact, where in sorted(places.items(), key=lambda item: -len(item[1])):
        if len(where) > 2:
            for path in where:
                yield path, fact


def triples(folder):
    """Parameters `table, index, n` that travel together."""
    for path, text in sources(folder):
        for found in re.finditer(r"fn (\w+)(?:<[^>]*>)?\(([^)]*)\)", text):
            names = [part.split(":")[0].strip() for part in found.group(2).split(",") if part.strip()]
            if any(names[at:at + 3] == ["table", "index", "n"] for at in range(len(names))):
                yield path, found.group(1)


def buffers(folder):
    """Arrays of a call's own with a count beside, and searches that halve by hand."""
    for path, text in sources(folder):
        for line in text.split("\n"):
            if re.search(r"let mut \w+ = \[(0u8|0u16|0u32|0u64|false|0); [A-Z]|let middle = low", line):
                yield path, line.strip()


def switches(folder):
    """A match on a number, and function pointers."""
    for path, text in sources(folder):
        for found in re.finditer(r"match \w+ \{\n\s*\d+ =>|: fn\(", text):
            yield path, found.group(0).split("\n")[0]


POINTS = {
    "1 enums of the shape of Result or Option": result_like,
    "1 refusals only handed on": handed_on,
    "2 functions of one shape": twins,
    "3 loops that are a while": counted,
    "4 orders and comparisons by hand": by_hand,
    "5 facts in three requires or more": facts,
    "5 table, index, n": triples,
    "6 arrays with a count beside, halving by hand": buffers,
    "7 switches on a number": switches,
}


def main(args):
    listed = args[args.index("--list") + 1] if "--list" in args else None
    folders = [arg for arg in args if not arg.startswith("--") and arg != listed]
    folder = folders[0] if folders else os.path.join(os.path.dirname(os.path.abspath(__file__)), "..")
    for name, find in POINTS.items():
        places = list(find(folder))
        if listed is None:
            print("%4d  %s" % (len(places), name))
        elif name.startswith(listed):
            for path, what in places:
                print("%s  %s" % (path, what))


main(sys.argv[1:])
