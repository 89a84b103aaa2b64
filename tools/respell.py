#!/usr/bin/env python3
"""Brings the names of the repository's own definitions and lemmas to the library's spelling.

usage: python3 tools/respell.py    at the top of the repository, once, after the kit's port.py

    edgeEnds, in-upFrom, dropped-told  ->  edge_ends, in-up_from, dropped_told

A word is in snake case; a dash stays in the name of a lemma, where it joins two names, and goes from fields, constructors and definitions.
Types and modules keep their capital, strings and the library's names stay. It prints each name that it turns, and stops where two names would
become one in a file, but for those of LEMMAS, which get the ending `_lem` that the library gives a lemma with its function's name.
"""

import glob
import re
import sys

WORD = re.compile(r'"(?:[^"\\\n]|\\.)*"|[^\s(){}.;,@"«»\[\]\\`]+')
HUMP = re.compile(r"^[a-z][a-z0-9_'₀-₉]*[A-Z]")
PARTS = re.compile(r"([-→↔≡≤<∷+*]+)")
NAMED = re.compile(r"\s*((?:(?:unfoldable|abbrev|pub|pattern) )*)([^\s(){}.;,]+)((?: [^\s(){}.;,:]+)*)(?: \{[^}]*\})?(?: \([^)]*\))* : ")
LIBRARY = re.compile(r"^\s*(?:ghost )?(?:pub )?use (?!Rattle\.(?!std\b))\S*?\.?\{([^}]*)\}|^\s*(?:ghost )?(?:pub )?use (?!Rattle\.(?!std\b))(\S+)")
# Lemmas, most of them local, that would meet the definition they speak of: the file and the name.
LEMMAS = [
    ("cut/specs/Stripping.antt", "way_in"),
    ("edges/proofs/Turns.antt", "goes_on"),
    ("engine/proofs/Table.antt", "best_of"),
    ("lines/specs/Values.antt", "one_line"),
    ("theory/specs/congestion/Order.antt", "in_order"),
    ("theory/specs/links/Nets.antt", "walk_from"),
    ("tracks/specs/Legal.antt", "bits_up"),
    ("tracks/specs/Masks.antt", "bits_up"),
    ("turn/proofs/Choosing.antt", "above_at"),
    ("turn/proofs/Writing.antt", "chosen_at"),
    ("turn/proofs/Writing.antt", "list_at"),
]
# Names that would meet another in a file, and what they become.
OTHERS = [
    ("theory/specs/links/Meets.antt", "order-in", "order_in-overwrite"),
    ("theory/specs/links/Chain.antt", "no-more", "no_more_text"),
    ("theory/specs/links/Meets.antt", "plan-in", "plan_in-overwrite"),
    ("theory/specs/links/Reach.antt", "pin-tiles", "pin_tiles-map"),
]
# Fields that would hide the definition they speak of.
FIELDS = {
    "accepted-plan": "accepted_plan_call",
    "accepted-print": "accepted_print_call",
    "net-count": "count_of_nets",
    "print-fits": "printed_fits",
    "program-lent": "program_lent_row",
    "refused-plan": "refused_plan_call",
    "refused-print": "refused_print_call",
}
# What the checker's own part of a proof is called.
MADE = re.compile(r"(invariant|decreases)-|.*-(requires|spec)(-\d+)?$")


def files():
    for part in ("specs", "proofs"):
        yield from glob.glob(f"crates/*/{part}/**/*.antt", recursive=True)
    yield from glob.glob("crates/*/src/**/*.rt", recursive=True)


def read(path):
    with open(path, encoding="utf-8") as it:
        return it.read()


def snake(part):
    if not HUMP.match(part):
        return part
    return re.sub(r"(?<=[a-z0-9_'₀-₉])([A-Z]+)", lambda m: ("" if m.string[m.start() - 1] == "_" else "_") + m[1].lower(), part)


def dashed(texts):
    """The names with dashes of fields, constructors and definitions."""
    names = set()
    for path, text in texts.items():
        if not path.endswith(".antt"):
            continue
        inside = None
        for line in text.split("\n"):
            deep = len(line) - len(line.lstrip())
            if inside is not None and line.strip() and deep <= inside:
                inside = None
            if re.match(r"\s*(?:pub )?(?:record|data) \S+", line) and line.rstrip().endswith("where"):
                inside = deep
                continue
            m = NAMED.match(line)
            if m and not line.strip().startswith("--"):
                for name in [m[2], *m[3].split()]:
                    if re.match(r"[a-z]", name) and "-" in name[1:-1] and not MADE.match(name) and (inside is not None or "abbrev" in m[1] or "unfoldable" in m[1]):
                        names.add(name)
    return names


def library(texts):
    names = set()
    for text in texts.values():
        for line in text.split("\n"):
            m = LIBRARY.match(line)
            if m:
                names |= {it.strip().split(" as ")[0] for it in (m[1] or "").split(",")}
    return names


def renamed(text, name, new):
    return re.sub(rf"(?<![\w'₀-₉.-]){name}(?![\w'₀-₉-])", new, text)


def module(path):
    """The module of a file of specs/, as `use` lines name it."""
    return re.escape("Rattle." + path[: -len(".antt")].replace("/", "."))


def main():
    texts = {path: read(path) for path in sorted(files())}
    fixed, flat = library(texts), dashed(texts)
    turned = {}
    taken = {at for at in texts if re.search(r"/proofs/[a-z_]+/Proof\.antt$", at)}

    def turn(m):
        word = m[0]
        if word.startswith('"') or word in fixed:
            return word
        new = FIELDS.get(word) or (word.replace("-", "_") if word in flat else word)
        new = "".join(it if PARTS.match(it) else snake(it) for it in PARTS.split(new))
        if new != word:
            turned[word] = new
        return new

    plain = re.compile(r"--[^\n]*|//[^\n]*")
    for path, name in LEMMAS:
        at = f"crates/{path}"
        texts[at] = renamed(texts[at], name, name + "_lem")
    for path, name, new in OTHERS:
        for at in (it for it in texts if it == f"crates/{path}" or re.search(rf"^use {module(path)}\.\{{[^}}]*(?<![\w-]){name}(?![\w-])", texts[it], re.M)):
            texts[at] = renamed(texts[at], name, new)
    out, bad = {}, []
    for path, text in texts.items():
        out[path] = WORD.sub(turn, text)
        if path.endswith(".antt") and path not in taken:
            words = {m[0] for m in WORD.finditer(plain.sub("", text)) if m.string[m.start() - 1 : m.start()] != "."}
            bad += [f"{path}: {it} and {turned[it]}" for it in sorted(words) if it in turned and turned[it] in words]
    if bad and "--force" not in sys.argv:
        print("two names would become one:", *bad, sep="\n", file=sys.stderr)
        return 1
    for path, text in out.items():
        if text != read(path):
            with open(path, "w", encoding="utf-8") as it:
                it.write(text)
    for old, new in sorted(turned.items()):
        print(f"{old}\t{new}")
    return 0


if __name__ == "__main__":
    raise SystemExit(main())
