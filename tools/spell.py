#!/usr/bin/env python3
"""Brings the names of the repository's own definitions and lemmas to today's spelling: words in snake case.

usage: python3 tools/spell.py [--check]      at the top of the repository, once, after the kit's port.py and before any edit by hand

Reads the names that crates/*/specs and crates/*/proofs declare (functions' own proof files aside), and writes each that has a
capital behind a small letter, a dash or the prime of an older spelling in snake case: in these files, in the clauses of src/, in
the must-fail edits and, between backticks, in README.md and docs/. A name stays where its new spelling would meet another one in
some file; such names are printed. Types and modules, names of libraries, and names that Rattle makes stay.
"""
import collections
import glob
import os
import re
import sys

NAME = r"[^\s(){}\[\].;,@\"«»`|]+"
TOKEN = re.compile(NAME)
DECLARED = re.compile(r"^(\s*)((?:(?:abbrev|unfoldable|pattern|pub)\s+)*)(%s)((?:\s+\{[^{}\n]*\})*)\s+:(?:\s|$)" % NAME)
MODULE = re.compile(r"^\s*(pub )?(record|data|module)\b")
USE = re.compile(r"(?ms)^\s*(?:pub )?(?:ghost )?use\s+(\S+?)(?:\.\{(.*?)\})?(?:\s+as\s+(\S+?))?;?\s*$")
# Names that may fall together with a part of a record, a variable or a label: neither hides the other where both stand.
TOGETHER = set("countedWords inFlight lastSent needsReset peerReadOnly readOnly setBits supportsReset theirHeads theirNeed".split())
# Lemmas that already have their function's name to be: such a lemma ends in _lem.
LEMMAS = {f"{it}": f"{it}_lem" for it in "below_row count_fits kept_of laid_from list_put row_goes some_below some_of".split()}
WORDS = set("infixl infixr infix use pub mod let in record where λ".split())


def snake(name):
    name = name.replace("′", "'")
    name = re.sub(r"(?<=[a-z0-9])[A-Z]", lambda m: "_" + m[0].lower(), name)
    return name.replace("-", "_")


def read(path):
    with open(path, encoding="utf-8") as f:
        return f.read()


def is_own_proof(path):
    return os.path.basename(path) == "Proof.antt"


def uncommented(text):
    return re.sub(r"(?m)--.*$", "", text)


def declared(text):
    """The names that a file declares, with where its data and record parts stand."""
    found = set()
    for line in uncommented(text).split("\n"):
        m = DECLARED.match(line)
        if m and m[3] not in WORDS and not MODULE.match(line):
            # a binder of a lambda or a let isn't at a line's start
            found.add(m[3])
    return found


def imported_from_libraries(text):
    found = set()
    for m in USE.finditer(uncommented(text)):
        path = m[1]
        own = path.startswith("Rattle.") and path.split(".")[1] in OWN
        if not own and m[2]:
            for part in m[2].split(","):
                part = part.strip()
                if part:
                    found.add(part.split(" as ")[0].strip())
    return found


def turned(text, table, comments):
    """The text with the table's names turned; in comments only those with a capital."""

    def word(m):
        if m[0] in LEMMAS and m.string[m.start() - 1 : m.start()] != ".":
            return LEMMAS[m[0]]
        return table.get(m[0], m[0])

    def camel(m):
        return table[m[0]] if m[0] in table and "-" not in m[0] else m[0]

    lines = []
    for line in text.split("\n"):
        at = re.search(comments, line)
        at = at.start() if at else len(line)
        lines.append(TOKEN.sub(word, line[:at]) + TOKEN.sub(camel, line[at:]))
    return "\n".join(lines)


RT = re.compile(r"(?<![\w'′-])[a-z][\w]*(?:-[\w'′]+)*['′]*(?![\w'′-])")


def turned_rt(text, table):
    return RT.sub(lambda m: table.get(m[0], m[0]), text)


def unpathed(text):
    """The text without its comments, without the paths of its imports, and without the older names behind them."""
    text = uncommented(text)
    text = re.sub(r"(?m)^\s*(?:pub )?use [^\s{]+ as \S+$", "", text)
    return re.sub(r"(?m)^(\s*(?:pub )?use )[^\s{]+\{", r"\1{", text)


def labels(text):
    """The labels under which an older proof answers its goals."""
    return set(re.findall(r"(?m)^(?:pub )?(\S+) : tie\.", text))


def holders(name, tokens, texts):
    return [p for p, ts in tokens.items() if name in ts and p.endswith(".antt")]


def field_like(name, text):
    """Whether the name stands only as a record's part in this text: behind a dot, or before a colon or an equals sign."""
    text = unpathed(text)
    for m in re.finditer(r"(?<![^\s(){}\[\].;,@])%s(?![^\s(){}\[\].;,@])" % re.escape(name), text):
        if text[m.start() - 1 : m.start()] == ".":
            continue
        if re.match(r"\s*(=|:)\s", text[m.end() : m.end() + 4]):
            continue
        return False
    return True


OWN = sorted(c for c in os.listdir("crates") if os.path.isdir(os.path.join("crates", c, "src")))


def main(check):
    antt = sorted(p for p in glob.glob("crates/*/*/**/*.antt", recursive=True) if "/out/" not in p)
    rt = sorted(glob.glob("crates/*/src/**/*.rt", recursive=True))
    edits = sorted(glob.glob("crates/*/must-fail/*.edit"))
    pages = ["README.md"] + sorted(glob.glob("docs/**/*.md", recursive=True))
    texts = {p: read(p) for p in antt + rt + edits + pages}
    own = collections.Counter()
    where = collections.defaultdict(set)
    for p in antt:
        if not is_own_proof(p):
            for n in declared(texts[p]):
                own[n] += 1
                where[n].add(p)
    foreign = set()
    for p in antt + rt:
        foreign |= imported_from_libraries(texts[p])
    table = {}
    for n in own:
        if n[0].isupper() or n[0] in "◌⊥" or not re.fullmatch(r"[a-z][\w'′-]*", n):
            continue
        new = snake(n)
        if new == n:
            continue
        table[n] = new
    stays = {}
    for n in list(table):
        if n in foreign:
            stays[n] = "a library's name"
            del table[n]
    tokens = {}
    for p in antt:
        tokens[p] = set(TOKEN.findall(unpathed(texts[p]))) - (labels(texts[p]) if is_own_proof(p) else set())
    for p in rt:
        t = re.sub(r"//.*", "", texts[p])
        tokens[p] = set(re.findall(r"(?<![:\w])([a-z_]\w*)\s*:(?!:)", t)) | {m for m in RT.findall(t) if m in table}
    fields = {n for n in table if all(field_like(n, texts[p]) for p in holders(n, tokens, texts))}
    # Two names that fall together, in a file or by declaration.
    again = True
    while again:
        again = False
        by_new = collections.defaultdict(set)
        for n, new in table.items():
            by_new[new].add(n)
        for n in sorted(table, key=lambda n: ("-" not in n, n)):
            new = table[n]
            why = None
            others = by_new[new] - {n}
            if others and "-" in n and not n.endswith("_lem") and not new.endswith("_lem") and any("-" not in o for o in others):
                table[n] = new + "_lem"
                again = True
                by_new[new].discard(n)
                continue
            if others and ("-" in n or all("-" not in o for o in others)):
                why = f"{sorted(others)[0]} would be spelled so too"
            elif not others and n not in fields and n not in TOGETHER:
                for p, ts in tokens.items():
                    if n in ts and new in ts and new not in LEMMAS:
                        why = f"{new} stands in {p}"
                        break
            if why:
                stays[n] = why
                del table[n]
                by_new[new].discard(n)
                again = True
    for n in sorted(stays):
        print(f"stays: {n}: {stays[n]}")
    print(f"{len(table)} names turned, {len(stays)} stay")
    if check:
        return
    for p in antt:
        new = turned(texts[p], table, r"--")
        if new != texts[p]:
            open(p, "w", encoding="utf-8").write(new)
    for p in rt:
        new = turned_rt(texts[p], table)
        if new != texts[p]:
            open(p, "w", encoding="utf-8").write(new)
    for p in edits:
        lines = []
        for line in texts[p].split("\n"):
            m = re.match(r"(old: |new: )(.*)", line)
            if m:
                line = m[1] + (turned_rt(m[2], table) if "src/" in texts[p] else turned(m[2], table, r"--"))
            lines.append(line)
        new = "\n".join(lines)
        if new != texts[p]:
            open(p, "w", encoding="utf-8").write(new)
    # Names that port.py turned in the crates stand in the pages as they were.
    known = set(own) | set(table.values())
    for p in pages:

        def cited(k):
            n = k[0]
            return table.get(n) or (snake(n) if n not in own and snake(n) in known else n)

        new = re.sub(r"`[^`\n]+`", lambda m: RT.sub(cited, m[0]), texts[p])
        if new != texts[p]:
            open(p, "w", encoding="utf-8").write(new)


main("--check" in sys.argv)
