#!/usr/bin/env python3
"""Brings the texts of crates/*/must-fail/*.edit to the spelling that tools/respell.py and the kit's port.py gave the files they change.

usage: python3 tools/turn_edits.py [--check]    at the top of the repository

    old: layersOf j e = layersIn j (group j e)      ->  old: layers_of j e = layers_in j (group j e)
    old: use Prim.Native.Nat.{ℕ, _-_}               ->  old: set, replicate}          the end of `use Rattle.std.specs.Prelude.{..}` in today's file
    new: use Prim.Native.Nat.{ℕ, _-_, _*_}          ->  new: set, replicate, ◌*◌}

An edit whose old texts stand is left as it is. A pair that would only import what its file imports today is left out; no other pair is.
With --check nothing is written. It prints each edit that it turns, and ends with those that cannot be applied: an old text has to stand once in its file.
"""

import glob
import os
import re
import sys

WORD = re.compile(r'"(?:[^"\\\n]|\\.)*"|[^\s(){}.;,@"«»\[\]\\`]+')
ATOM = r"[^\s(){}.;,@\"«»\[\]\\`]+"
# Names of the library that have another name today.
LIBRARY = {"getD": "get_or"}
# Names that tools/respelled.tsv leaves out.
OTHERS = {"lowOf": "low_of", "orderIn": "order_in", "upFrom": "up_from"}
USE = re.compile(r"use (mathlib\.Core|Prim\.Native|lib)\.[\w.]+\.\{([^}]*)\}")
PRELUDE = re.compile(r"^use Rattle\.std\.specs\.Prelude\.\{([^}]*)\}$", re.M)


def read(path):
    with open(path, encoding="utf-8") as it:
        return it.read()


def tight(text):
    """`(n .pins)` -> `n.pins`, `λ e. ends j e .one` -> `λ e. (ends j e).one`."""
    text = re.sub(rf"\(({ATOM}) \.([a-z][\w-]*)\)", r"\1.\2", text)
    text = re.sub(rf"(λ {ATOM}\. |\()({ATOM}(?: {ATOM})+) \.([a-z][\w-]*)(?=[)]|$)", r"\1(\2).\3", text)
    return re.sub(rf"({ATOM}) \.([a-z][\w-]*)", r"\1.\2", text)


def turned(text, names):
    text = tight(text)
    text = re.sub(r"Rattle·(\w+)·specs\.specs\.", r"Rattle.\1.specs.", text)
    return WORD.sub(lambda m: m[0] if m[0].startswith('"') else names.get(m[0], m[0]), text)


def hole(name):
    return re.sub(r"^_(\S+)_$", r"◌\1◌", LIBRARY.get(name, name))


def imported(line):
    m = USE.fullmatch(line)
    return m and [hole(it.strip()) for it in m[2].split(",")]


def pair(old, new, text, names):
    """Returns the old and new text of today, or None where both say the same."""
    was, now = imported(old), imported(new)
    if was and now:
        here = PRELUDE.search(text)[1].split(", ")
        gone = [it for it in here if it in was and it not in now]
        more = [it for it in now if it not in was and it not in here]
        if not gone and not more:
            return None
        # the end of the list is enough: two names or more, that stand once, with those that go
        at = min([len(here) - 2, *map(here.index, gone)])
        while text.count(", ".join(here[at:]) + "}") != 1:
            at -= 1
        return ", ".join(here[at:]) + "}", ", ".join([it for it in here[at:] if it not in gone] + more) + "}"
    one, other = turned(old, names), turned(new, names)
    return None if one == other else (one, other)


def tried(lines, folder, names):
    """Returns the edit's lines turned (or None where nothing had to be), and why they cannot be applied, or an empty text."""
    path, old, texts, out, changed, why = "", None, {}, [], False, ""
    for line in lines:
        if line.startswith("file: "):
            path = line[len("file: ") :].strip()
            texts.setdefault(path, read(f"{folder}/{path}") if os.path.isfile(f"{folder}/{path}") else "")
        elif line.startswith("old: "):
            old = line[len("old: ") :]
            continue
        elif line.startswith("new:"):
            new = line[len("new:") :].removeprefix(" ")
            both = (old, new)
            if texts[path].count(old) != 1 or turned(new, names) != new:
                both = pair(old, new, texts[path], names)
            if both != (old, new):
                changed = True
            if both:
                if texts[path].count(both[0]) != 1:
                    why = why or f"{texts[path].count(both[0])} times in {path}: {both[0]}"
                texts[path] = texts[path].replace(both[0], both[1])
                out += ["old: " + both[0], ("new: " + both[1]) if both[1] else "new:"]
            continue
        out.append(line)
    return out if changed else None, why


def main():
    names = dict(line.split("\t") for line in read("tools/respelled.tsv").splitlines()) | LIBRARY | OTHERS
    bad = []
    for at in sorted(glob.glob("crates/*/must-fail/*.edit")):
        folder = os.path.dirname(os.path.dirname(at))
        out, why = tried(read(at).split("\n"), folder, names)
        if why:
            bad.append(f"{at}: {why}")
        elif out:
            print(at)
            if "--check" not in sys.argv:
                with open(at, "w", encoding="utf-8") as it:
                    it.write("\n".join(out))
    print(*(bad or ["each edit can be applied"]), sep="\n")
    return 1 if bad else 0


if __name__ == "__main__":
    raise SystemExit(main())
