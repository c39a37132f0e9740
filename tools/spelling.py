#!/usr/bin/env python3
"""Brings the repository's own definitions and lemmas to the spelling of today's library: words in snake case, types in
camel case; and renames the two crates whose names are taken by the kit. Run it at the top, after the kit's port.py.
A later run turns only what an earlier one left.

usage: python3 tools/spelling.py [--dry]
"""
import os
import re
import sys

DRY = "--dry" in sys.argv
CRATES = {"log": "log_device", "check": "check_layer"}
# names whose plain respelling is taken, or reads badly
KEPT = {"map-append"}  # as the library spells its own
CHOSEN = {
    "cut-cell": "cut_cell_lem",
    "kids-of": "kids_of_lem",
    "put-root": "put_root_lem",
    "same-angle": "same_angle_lem",
    "tree-at": "tree_at_lem",
    "slot_read": "slot_read_lem",
    "map_at": "map_at_lem",
    "read-slot": "read_slot_lem",
    "add-all": "add_all_lem",
    "first-speed": "first_speed_lem",
    "form-at": "form_at_lem",
    "is-new": "is_new_lem",
    "ready-left": "ready_left_lem",
    "ready-right": "ready_right_lem",
}
WORD = re.compile(r"[^\s(){}\[\];,.:λ\"«»⟨⟩⌜⌝|\\`]+")


def texts(*ends):
    for folder, dirs, files in os.walk("crates"):
        dirs[:] = sorted(d for d in dirs if d != "out")
        for f in sorted(files):
            if f.endswith(ends):
                yield os.path.join(folder, f)


def read(p):
    with open(p, encoding="utf-8") as f:
        return f.read()


def snake(name):
    name = name.replace("getD", "get_or")
    name = re.sub(r"(?<=[a-z0-9])([A-Z]+)(?=$|[-_?'0-9])", lambda m: "_" + m.group(1).lower(), name)
    name = re.sub(r"(?<=[a-z0-9])([A-Z])", lambda m: "_" + m.group(1).lower(), name)
    return name.replace("-", "_")


def camel(name):
    return "".join(w[:1].upper() + w[1:] for w in re.split("[-_]", name))


def respelled(name, first):
    if name in KEPT:
        return name
    if name in CHOSEN and (first or "-" in name):
        return CHOSEN[name]
    if name.startswith("c."):
        return name
    if re.match(r"[a-z]", name) and (re.search(r"[a-z0-9][A-Z]", name) or "-" in name):
        return snake(name)
    if re.match(r"[A-Z]", name) and re.search("[-_]", name):
        return camel(name)
    return name


DEF = re.compile(r"^[ \t]*(?:abbrev |unfoldable )?(?:pub )?(?:data |record )?([^\s(){}:;,]+)(?: [({].*)? :(?: (.*))?$", re.M)
LIB = re.compile(r"^(?:use|ghost use) (Rattle\.(\w+)[^{\n;]*|borrow[^{\n;]*|logic[^{\n;]*)\{([^}]*)\}", re.M)


def names(own):
    found, made = {}, set()
    for p in texts(".antt"):
        for m in DEF.finditer(read(p)):
            name, kind = m.group(1), m.group(2) or ""
            if kind.startswith(("goal.", "needs.", "choices.", "given.")):
                made.add(name)
            else:
                found.setdefault(name, p)
    library = set()
    for p in texts(".antt", ".rt"):
        for m in LIB.finditer(read(p)):
            if m.group(2) not in own:
                library |= {w.strip().split(" as ")[0] for w in m.group(3).split(",")}
    return found, made, library


def main():
    own = {l.split(":")[0].split()[0] for l in read("crates.txt").splitlines() if ":" in l}
    found, made, library = names(own)
    first = any(c in own for c in CRATES)
    table = {n: respelled(n, first) for n in found}
    table = {a: b for a, b in table.items() if a != b}
    for n in sorted(set(table) & library):
        print("library:", n, found[n])
    for n in sorted(set(table) & made):
        print("made:", n, found[n])
        del table[n]
    used = set()
    for p in texts(".antt", ".rt"):
        used |= set(WORD.findall(read(p)))
    taken = {}
    for a, b in sorted(table.items()):
        if b in used or b in library or b in taken:
            print("falls together with a name in use:", a, "->", b, found[a], found.get(b) or taken.get(b) or ("library" if b in library else ""))
        taken[b] = a
    if DRY:
        return table

    def turn(text):
        return WORD.sub(lambda m: table.get(m.group(0), m.group(0)), text)

    for p in texts(".antt", ".rt"):
        old = read(p)
        new = turn(old)
        if "AllByRecursion as All" in new:  # the library's own name for it, since All is another fact there
            new = re.sub(r"(?<![\w.-])All(?![\w-])", "AllByRecursion", new.replace("AllByRecursion as All", "AllByRecursion"))
        for a, b in CRATES.items():
            if a in own:
                new = re.sub(rf"\bRattle\.{a}\.", f"Rattle.{b}.", new)
                if p.endswith(".rt"):
                    new = re.sub(rf"\buse {a}::", f"use {b}::", new)
        if new != old:
            with open(p, "w", encoding="utf-8") as f:
                f.write(new)
    lines = []
    for l in read("crates.txt").splitlines():
        lines.append(re.sub(r"\w+", lambda m: CRATES.get(m.group(0), m.group(0)), l))
    with open("crates.txt", "w", encoding="utf-8") as f:
        f.write("\n".join(lines) + "\n")
    for a, b in CRATES.items():
        if a in own:
            os.rename(f"crates/{a}", f"crates/{b}")
    print(len(table), "names respelled")


main()
