#!/usr/bin/env python3
"""Respells the repository's own definitions and lemmas as today's Rattle spells words: in snake case.

    python3 tools/respell.py [FOLDER]

Run once at the top, after the kit's port.py. A name that specs/ or proofs/ declare is turned where it stands in .antt files, in the clauses
and `ghost use` lines of .rt files, and between the backquotes of the pages: a hump becomes `_` and a small letter, a dash becomes `_`. A dash stays
where it joins the names of two definitions, as in `length-append`. A lemma that would have a definition's name gets
`_lem`. Names of goals, types and modules, and all of src/, stay.
"""
import collections
import glob
import os
import re
import sys

declared_line = re.compile(
    r"^\s*(?:(?:abbrev|unfoldable|pub|private)\s+)*([^\s:(){},.◌\"]+)\s+:\s(.*)$")
token = re.compile(r"[^\s(){}\[\].,;:\"]+")
# names of definitions of the library, beside the repository's own, that a dash may join
joined = {"length", "take", "drop", "map", "set", "append", "replicate", "cond", "first"}


def hump(name):
    return re.sub(r"(?<=[a-z0-9])([A-Z])", lambda m: "_" + m.group(1).lower(), name)


def collect():
    """The names that specs/ and proofs/ declare, goals and types aside, each with the files."""
    names = collections.defaultdict(set)
    words = set(joined)
    goals = set()
    for path in sorted(glob.glob("crates/*/specs/**/*.antt", recursive=True) + glob.glob("crates/*/proofs/**/*.antt", recursive=True)):
        for line in open(path, encoding="utf-8"):
            if line.lstrip().startswith("--"):
                continue
            found = declared_line.match(line)
            if not found:
                continue
            name, says = found.groups()
            if name[0].isupper():
                continue
            if "tie." in says or "Need-" in says or says.startswith("goal."):
                goals.add(name)
                continue
            names[name].add(path)
            if "/specs/" in path:
                words.add(hump(name))
    return names, words, goals


def spelled(name, words):
    plus = name.startswith("+")
    name = hump(name.lstrip("+"))
    parts = name.split("-")
    if not (len(parts) == 2 and all(p in words for p in parts)):
        name = "_".join(parts)
    return name.lstrip("_") if plus else name


def is_plain(found, text):
    before = text[found.start() - 1] if found.start() else " "
    return before != "." or "-" in found.group(0) or hump(found.group(0)) != found.group(0)


def turn(text, table):
    # behind a dot stands a field or the part of a path: only a name that can be no other is turned there
    return token.sub(lambda m: table.get(m.group(0), m.group(0)) if is_plain(m, text) else m.group(0), text)


def turn_antt(text, table):
    out = []
    for line in text.split("\n"):
        cut = line.find("-- ")
        code, said = (line, "") if cut < 0 else (line[:cut], line[cut:])
        # in a comment only what can be nothing else: a name with a hump
        humps = {a: b for a, b in table.items() if re.search("[a-z0-9][A-Z]", a)}
        out.append(turn(code, table) + turn(said, humps))
    return "\n".join(out)


def turn_rt(text, table):
    humps = {a: b for a, b in table.items() if re.search("[a-z0-9][A-Z]", a)}
    out = []
    depth = 0
    for line in text.split("\n"):
        bare = line.strip()
        if depth == 0 and bare.startswith("//"):
            out.append(turn(line, humps))
            continue
        if depth > 0 or bare.startswith("ghost ") or re.match(r"(ensures|requires)\b", bare):
            out.append(turn(line, table))
            if not bare.startswith("ghost use"):
                depth = max(0, depth + line.count("{") - line.count("}"))
        else:
            out.append(line)
    return "\n".join(out)


def turn_page(text, table):
    """A page's names stand between backquotes."""
    return re.sub(r"`[^`\n]+`", lambda m: "`" + turn(m.group(0)[1:-1], table) + "`", text)


def main():
    if len(sys.argv) > 1:
        os.chdir(sys.argv[1])
    names, words, goals = collect()
    table = {}
    for name in names:
        if name in goals:
            continue
        new = spelled(name, words)
        if new != name:
            table[name] = new
    # names that fall together
    back = collections.defaultdict(set)
    for name in names:
        back[table.get(name, name)].add(name)
    for new, olds in sorted(back.items()):
        if len(olds) > 1:
            defined = [o for o in sorted(olds) if any("/specs/" in w for w in names[o])] or [o for o in sorted(olds) if hump(o) != o]
            for old in sorted(olds):
                if old not in defined[:1]:
                    table[old] = new + "_lem"
                    print(f"respell: {old} ({', '.join(sorted(names[old]))}) would be {new}, as {defined[0]}: {table[old]}")
    changed = 0
    for path in sorted(glob.glob("crates/*/*/**/*", recursive=True)) + sorted(glob.glob("*.md") + glob.glob("docs/*.md")):
        if not path.endswith((".antt", ".rt", ".md")) or "/out/" in path:
            continue
        text = open(path, encoding="utf-8").read()
        if path.endswith(".rt"):
            new = turn_rt(text, table)
        elif path.endswith(".md"):
            new = turn_page(text, table)
        else:
            new = turn_antt(text, table)
        if new != text:
            open(path, "w", encoding="utf-8").write(new)
            changed += 1
    print(f"respell: {len(table)} names in {changed} files")


if __name__ == "__main__":
    main()
