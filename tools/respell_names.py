#!/usr/bin/env python3
"""Brings the repository's own definitions, laws and fields to today's spelling: words in snake case.

usage: python3 tools/respell_names.py [--check]      at the top of the repository, once, behind port.py

A name that .antt files declare turns: camelCase to snake_case, and in a law's name a dash to `_`, but where it joins two names
of definitions. A name that begins with a capital is a type or a fact and stays, and so does the name of a goal. Two names of
one crate that would fall together are told. The table is written to tools/respelled.tsv; --check only prints it. Edits are not
turned: they are brought over from what had landed.
"""
import os
import re
import sys

WORD = re.compile(r"[^\s(){}\[\].;,@\"«»`\\:#]+")
DECLARED = re.compile(r"^(\s*)((?:abbrev |unfoldable |pub |irreducible |instance )*)([^\s(){}\[\].;,@\"«»`\\:#]+) :(?: |$)")
GOAL = re.compile(r"^\s*(?:abbrev |pub )*[^\s]+ : .*(?:tie|lts|Tie)(?:-\w+)*\.(?:Need|invariant|decreases)")
HEADS = re.compile(r"^\s*(?:pub |abbrev )*(record|data|class|module|use|ghost|syntax|infixl|infixr|infix)\b")
# Words of the language and of the kit that a field of ours may share.
KEEP = set("""now old new args requires ensures result before ranges invariant type_inv well_formed auto initial fn branch true false
given pre items lifetimes""".split())

# A field that a law of the same words would take the name of.
CHOSEN = {"one-sort": "one_sort_each"}


def files(top="crates"):
    for folder, dirs, names in os.walk(top):
        dirs[:] = sorted(d for d in dirs if d not in ("out", ".git", "must-fail", "data"))
        for n in sorted(names):
            if n.endswith((".antt", ".rt")):
                yield os.path.join(folder, n)


def read(p):
    with open(p, encoding="utf-8") as f:
        return f.read()


def snake(word):
    """camelCase to snake_case; a capital at the beginning of a part stays."""
    out = []
    for i, ch in enumerate(word):
        before = word[i - 1] if i else ""
        if ch.isascii() and ch.isupper() and before and (before.islower() or before.isdigit()) and before.isascii():
            out.append("_" + ch.lower())
        elif ch.isascii() and ch.isupper() and out and out[-1].startswith("_") is False and before.isupper() and i > 0:
            out.append(ch)
        else:
            out.append(ch)
    return "".join(out)


def declared(text):
    """(name, whether it is a field or constructor, whether a goal), for each declaration of an .antt file."""
    inside = None
    for line in text.split("\n"):
        if re.match(r"^\S", line):
            inside = None
        m = HEADS.match(line)
        if m:
            if m[1] in ("record", "data"):
                inside = len(line) - len(line.lstrip())
            continue
        m = DECLARED.match(line)
        if not m or line.lstrip().startswith("--"):
            continue
        field = inside is not None and len(m[1]) > inside
        yield m[3], field, bool(GOAL.match(line))


def main():
    check = "--check" in sys.argv[1:]
    found, fields, goals, defined, imported = set(), set(), set(), set(), set()
    for p in files():
        text = read(p)
        for m in re.finditer(r"(?m)^\s*(?:ghost )?(?:pub )?use ([^\s{;]+?)\.?\{([^}]*)\}", text):
            if not m[1].startswith("Rattle.") or m[1].startswith("Rattle.std."):
                imported |= {w.split(" as ")[0].strip() for w in m[2].split(",")}
        if p.endswith(".rt"):
            continue
        for name, field, goal in declared(text):
            if goal:
                goals.add(name)
                continue
            if name.endswith(("-spec", "_spec")):
                continue
            (fields if field else found).add(name)
            if not field and "/specs/" in p:
                defined.add(name)
    # the names of definitions: what has no dash, and of two parts what std has
    plain = {snake(n) for n in found if "-" not in n}
    std = set("""length map take drop set sets get_or reverse fold append pos mag to_z of_z cond eqb leb ltb not and or filter sum
 zip head tail insert""".split())
    names = plain | std
    table = {}
    for name in sorted(found | fields):
        if name in KEEP or name in goals and name not in found and name not in fields:
            continue
        if re.match(r"[A-Z]", name):
            continue
        if "◌" in name or "_" == name:
            continue
        parts = name.split("-")
        if "" in parts:
            continue
        turned = [p if re.match(r"[A-Z]", p) else snake(p) for p in parts]
        if name in fields and name not in found:
            new = "_".join(turned)
        else:
            new = turned[0]
            for i in range(1, len(turned)):
                left = turned[i - 1]
                right = turned[i]
                rest = "_".join(turned[i:])
                joins = (right in names or rest in names or re.match(r"[A-Z]", right)) and (left in names or new in names or re.match(r"[A-Z]", left))
                new += ("-" if joins else "_") + right
        if new != name:
            table[name] = new
    # names that would fall together: a law gives way to a definition, by `_lem`; a field stands below its record and may stay
    together = {}
    for name in sorted(found | fields):
        together.setdefault(table.get(name, name), []).append(name)
    for new, olds in sorted(together.items()):
        if len(olds) < 2:
            continue
        first = sorted(olds, key=lambda n: (n not in defined, n not in found, "-" in n, n))[0]
        for n in olds:
            if n != first and n in found:
                table[n] = new + "_lem"
        print("fall together:", new, first, [f"{n} -> {table.get(n, n)}" for n in olds if n != first])
    table.update(CHOSEN)
    # a name that the kit has too, where a file brings it from there
    for name in sorted(set(table) & imported):
        print("the kit's:", name)
        del table[name]
    if check:
        for a, b in sorted(table.items()):
            print(a, "->", b)
        print(len(table), "names")
        return
    with open("tools/respelled.tsv", "w", encoding="utf-8") as out:
        out.writelines(f"{a}\t{b}\n" for a, b in sorted(table.items()))
    apply(table)


def apply(table):
    def one(m):
        return table.get(m[0], m[0])

    n = 0
    for folder, dirs, names in os.walk("crates"):
        dirs[:] = sorted(d for d in dirs if d not in ("out", ".git", "data"))
        for f in sorted(names):
            p = os.path.join(folder, f)
            if not f.endswith((".antt", ".rt")):
                continue
            text = read(p)
            new = WORD.sub(one, text)
            if new != text:
                with open(p, "w", encoding="utf-8") as out:
                    out.write(new)
                n += 1
    print(n, "files turned")


main()
