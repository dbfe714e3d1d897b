#!/usr/bin/env python3
"""Respells the definitions and lemmas of this repository: words in snake case, types in camel case.

    tools/respell.py          at the top of the repository: rewrites crates/
    tools/respell.py --list   prints each old name, its new name, and the names that fall together

A name is respelled where it stands in a ghost context: in an .antt file, or in a clause,
a ghost field or a `ghost use` of an .rt file. Names that a library has, names of goals,
names that the check makes (behind a dot, unless a record here has such a field) and strings stay.
"""
import glob
import os
import re
import sys

TOKEN = re.compile(r'"[^"]*"|'
                   r"(?<![\w'-])([A-Za-z_][\w']*(?:-[\w']+)+)(?![\w'-])")
USE = re.compile(r"\s*(?:pub )?(?:ghost )?use (\S+?)\.\{(.*)\}")
FIELD = re.compile(r"  (?:pub )?([A-Za-z_][\w']*(?:-[\w']+)+) :")
GOAL = re.compile(r"(?:abbrev )?(?:pub )?([A-Za-z_][\w'-]*) : (?:goal|given)\.")
MADE = re.compile(r"use \S+\.Goals\.\{(.*)\}")
# names that another one here would fall together with
OTHERWISE = {}


def files(ending):
    found = glob.glob("crates/**/*" + ending, recursive=True)
    return sorted(f for f in found if "/out/" not in f)


def is_ours(path, crates):
    parts = path.split(".")
    return len(parts) > 1 and parts[0] == "Rattle" and parts[1] in crates


def respelled(name):
    if name in OTHERWISE:
        return OTHERWISE[name]
    parts = name.split("-")
    if name[0].isupper():
        return "".join(p[:1].upper() + p[1:] for p in parts)
    return "_".join(parts)


def library_names(crates):
    names = set()
    for f in files(".antt") + files(".rt"):
        for line in open(f):
            m = USE.match(line)
            if m and not is_ours(m.group(1), crates):
                for item in m.group(2).split(","):
                    item = item.strip()
                    names.add(item.split(" as ")[0])
    return {n for n in names if "-" in n}


def field_names():
    names = set()
    for f in files(".antt"):
        inside = False
        for line in open(f):
            if re.match(r"(pub )?record ", line):
                inside = True
            elif line[:1] not in (" ", "\n"):
                inside = False
            m = FIELD.match(line)
            if inside and m:
                names.add(m.group(1))
    return names


def turn(text, stay, fields, seen):
    def put(m):
        name = m.group(1)
        dotted = m.start() > 0 and text[m.start() - 1] == "."
        if name is None or name in stay or (dotted and name not in fields):
            return m.group(0)
        seen.add(name)
        return respelled(name)

    return TOKEN.sub(put, text)


def turn_antt(path, library, fields, seen, names):
    lines = open(path).read().split("\n")
    goals = {m.group(1) for m in map(GOAL.match, lines) if m}
    for m in map(MADE.match, lines):
        goals |= {n.strip() for n in m.group(1).split(",")} if m else set()
    out = []
    for line in lines:
        code, mark, note = line.partition("--")
        code = turn(code, library | goals, fields, seen)
        if mark:
            note = turn_note(note, names)
        out.append(code + mark + note)
    return "\n".join(out)


# In a comment only a name that is written like one, and that no English word is.
def turn_note(text, names):
    return TOKEN.sub(lambda m: respelled(m.group(1)) if m.group(1) in names else m.group(0), text)


GHOST_LINE = re.compile(r"\s*(ghost |requires |ensures |invariant |decreases |#\[tactic)")


def turn_rt(path, library, fields, seen, names):
    out = []
    depth = 0
    for line in open(path).read().split("\n"):
        code, mark, note = line.partition("//")
        if depth > 0 or GHOST_LINE.match(code):
            depth += code.count("{") - code.count("}")
            code = turn(code, library, fields, seen)
        if mark:
            note = turn_note(note, names)
        out.append(code + mark + note)
    return "\n".join(out)


ENGLISH = {"wake-up", "wake-ups", "by-soft", "day-ticks", "open-line", "carried-out"}


def main():
    crates = set(os.listdir("crates"))
    library = library_names(crates)
    fields = field_names()
    seen = set()
    for f in files(".antt"):
        turn_antt(f, library, fields, seen, set())
    for f in files(".rt"):
        turn_rt(f, library, fields, seen, set())
    names = seen - ENGLISH
    if "--list" in sys.argv:
        new = {}
        for name in sorted(seen):
            new.setdefault(respelled(name), []).append(name)
        words = set()
        for f in files(".antt"):
            for line in open(f):
                words |= set(re.findall(r"(?<![\w'-])[A-Za-z_][\w']*(?![\w'-])", line.partition("--")[0]))
        made = set()
        for f in files(".rt"):
            made |= set(re.findall(r"\bfn (\w+)", open(f).read()))
        for to, olds in sorted(new.items()):
            also = (" TOGETHER" if len(olds) > 1 else "") + (" WORD" if to in words else "") + (" FN" if to in made else "")
            print(*olds, "->", to + also)
        return
    for f in files(".antt") + files(".rt"):
        turned = (turn_antt if f.endswith(".antt") else turn_rt)(f, library, fields, set(), names)
        if turned != open(f).read():
            open(f, "w").write(turned)


main()
